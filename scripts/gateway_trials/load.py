"""Many clients at once, in any order; the office stopped, started anew and killed while partners send."""
import json
import os
import random
import signal
import threading
import time
from collections import Counter

from hostile.served import gate_in
from model.setup import DEMO
from model.yard import Block

from .asking import Asking
from .installed import Installed
from .judged import Replayed, bare

EACH = int(os.environ.get('EACH', 40))      # interchanges of each partner, while the office is started anew
ANY_ORDER = 20              # interchanges of each partner, from clients at once in any order
CLIENTS = 200
STOPS = 4                   # of each kind
BETWEEN = 1.5               # seconds from one start to the next stop
PATIENCE = 900              # seconds after which a client gives up
AWAY = 120                  # seconds that a client may wait for word that the office is away: some 20 where nothing else runs

PARTNERS = ['HAULIER-%02d' % place for place in range(1, 25)]
SETUP = DEMO._replace(partners={code: 'gate' for code in PARTNERS}, plan=[Block('A', bays=40, rows=12, tiers=6)])


def text_of(code, number):
    """A gate-in of a container of its own."""
    return gate_in(number, code, PARTNERS.index(code) * 1000 + number)


class Senders:
    """What partners' programs do: send, and send the same again until it is answered 200 or 202."""

    def __init__(self, clients):
        self.clients, self.lock, self.over = clients, threading.Lock(), threading.Event()
        self.seen, self.waits, self.answers, self.given_up = Counter(), [], [], []

    def send(self, code, number):
        """One interchange, until it is answered. Whether it was."""
        text, end = text_of(code, number), time.monotonic() + PATIENCE
        while time.monotonic() < end:
            began = time.monotonic()
            came = self.clients.post(code, text)
            with self.lock:
                self.waits.append(time.monotonic() - began)
                self.seen[came.status, word_of(came.body)] += 1
                if came.status in (200, 202):
                    self.answers.append((time.time(), code, number, bare(came.body)))
            if came.status in (200, 202):
                return True
            if self.over.is_set():
                return False
            time.sleep(random.uniform(0.1, 0.3))
        with self.lock:
            self.given_up.append((code, number))
        return False

    def measured(self, checks, name, seconds):
        """What it took."""
        waits = sorted(self.waits)
        answers = ', '.join('%d times %d %s' % (count, *seen) for seen, count in sorted(self.seen.items()))
        median, most, longest = (1000 * waits[place] for place in (len(waits) // 2, int(0.99 * len(waits)), -1))
        checks.measured.append('%s: %d requests in %.1f s, median %.0f ms, 99%% %.0f ms, longest %.0f ms: %s' % (
            name, len(waits), seconds, median, most, longest, answers))


def word_of(body):
    """The answer's word."""
    try:
        return json.loads(body).get('answer', '?')
    except (ValueError, AttributeError):
        return body[:30] or 'closed'


def at_once(works):
    """Threads that begin together; gives how many seconds all took."""
    began, threads = time.monotonic(), [threading.Thread(target=work, daemon=True) for work in works]
    for thread in threads:
        thread.start()
    for thread in threads:
        thread.join()
    return time.monotonic() - began


def held(checks, name, installed, senders, each):
    """Nothing was lost or doubled: each interchange is in effect once, and rows and replies are the model's."""
    checks.expect(name + ': given up', [], senders.given_up)
    model = Replayed(installed.setup)
    checks.expect(name + ': interchanges kept', len(PARTNERS) * each, model.holds(checks, name, installed.office.store))
    checks.expect(name + ': containers', len(PARTNERS) * each, len(model.office.fold().terminal.visits))
    for _time, code, number, body in senders.answers:
        model.replied(checks, name, code, number, body)


def in_any_order(checks, program):
    """Clients at once, with the interchanges of all partners in any order."""
    name = '%d clients, %d partners, 1 to %d of each in any order' % (CLIENTS, len(PARTNERS), ANY_ORDER)
    with Installed(program, SETUP) as installed:
        senders = Senders(prepared(installed))
        left = [(code, number) for code in PARTNERS for number in range(1, ANY_ORDER + 1)]
        random.Random(1).shuffle(left)

        def client():
            """One of them."""
            while True:
                with senders.lock:
                    if not left:
                        return
                    code, number = left.pop()
                senders.send(code, number)

        senders.measured(checks, name, at_once([client] * CLIENTS))
        held(checks, name, installed, senders, ANY_ORDER)


def prepared(installed):
    """Certificates of all partners."""
    for code in PARTNERS:
        installed.authority.run('partner', code)
    return Asking(installed)


def away(checks, program):
    """While the office is away a client waits, and then gets that nobody answers; what it sends again is taken."""
    with Installed(program, SETUP) as installed:
        clients, code = prepared(installed), PARTNERS[0]
        installed.office.stop()
        for name, ask in (
                ('delivery', lambda: clients.post(code, text_of(code, 1))),
                ('question', lambda: clients.get(code, '/replies/1'))):
            began = time.monotonic()
            came = ask()
            checks.expect('away: a ' + name, (503, '{"answer":"no answer"}'), came[:2])
            checks.expect('away: when to try again', True, 'retry-after: 5' in came.head.lower())
            checks.within('away: a %s is answered so' % name, AWAY, time.monotonic() - began)
        installed.office.start()
        checks.expect('back: the same again', 'taken', word_of(clients.post(code, text_of(code, 1)).body))


def started_anew(checks, program, number):
    """The office is ended by a signal and started again, several times, while each partner sends its interchanges."""
    how = signal.Signals(number).name
    name = '%d times %s and a new start, %d partners send 1 to %d' % (STOPS, how, len(PARTNERS), EACH)
    with Installed(program, SETUP) as installed:
        senders, opened = Senders(prepared(installed)), []

        def partner(code):
            """One of them sends in order."""
            for place in range(1, EACH + 1):
                if not senders.send(code, place):
                    return

        def stops():
            """The operator."""
            for _stop in range(STOPS):
                time.sleep(BETWEEN)
                installed.office.stop(number)
                opened.append(installed.office.start())

        seconds = at_once([stops] + [lambda code=code: partner(code) for code in PARTNERS])
        senders.measured(checks, name, seconds)
        checks.measured.append('%s: away for %s s' % (name, ', '.join('%.1f' % second for second in opened)))
        held(checks, name, installed, senders, EACH)
        checks.expect(name + ': clients that saw no answer', 0, sum(
            count for (status, _word), count in senders.seen.items() if status not in (200, 202, 429)))


def try_all(checks, program):
    """All of these, each over a store of its own."""
    in_any_order(checks, program)
    away(checks, program)
    for number in (signal.SIGTERM, signal.SIGKILL):
        started_anew(checks, program, number)
