"""A standby that follows by examples/standby/bin/office-follow, with kills of either office in each turn.

Each call of a turn goes by a program of its own, which stops the office at the call of a number, by SIGKILL after so long; or
the whole turn is killed. After each turn the standby has to be the office that the first was after as many of its texts, and at
the end the office that the first is.
"""
import os
import signal
import subprocess
import tempfile
from time import monotonic, sleep

from hostile.books import expect, naming
from hostile.kills import Moment, Pace
from hostile.working import Delivering, run
from model.deliveries import kept_texts
from model.files import TOP
from model.office import json_text
from model.rows import rows_in

from .offices import Made, are_same, call, hands_out, is_addition, new_book, send

FOLLOW = os.path.join(TOP, 'examples/standby/bin/office-follow')

TURNS = 6                   # of a standby, each with a kill by chance
MOST = 8                    # deliveries and additions from turn to turn
WHOLE, CALL = 0.3, 0.5      # of the turns: killed whole, or one call of it
CALLS = 8                   # of a turn, of which one is killed: two reports, twice texts, partners, accounts, deliver
SECONDS = 120               # that a turn may take

# The office in a turn: notes each call, and kills that of the number KILLED after AFTER seconds.
OFFICE = """#!/bin/sh
echo "$*" >> "$CALLS"
[ "$(wc -l < "$CALLS")" -eq "$KILLED" ] || exec "$PROGRAM" "$@"
timeout -s KILL "$AFTER" "$PROGRAM" "$@"
status=$?
[ "$status" -ne 137 ] || echo "$*" >> "$CALLS.killed"
exit "$status"
"""
# What the standby asks at the first.
FIRST = """#!/bin/sh
case $1 in
texts) exec "$OFFICE" texts "$STORE" "$2" ;;
partners) exec "$OFFICE" report "$STORE" partners ;;
esac
"""


def script(folder, name, text):
    """A program in a folder."""
    path = os.path.join(folder, name)
    with open(path, 'w', encoding='ascii') as file:
        file.write(text)
    os.chmod(path, 0o755)
    return path


class Standby(Made):
    """An office that follows a first one's store."""

    def __init__(self, book, folder):
        super().__init__(book, folder)
        self.first, self.notes, self.pace, self.has = book, os.path.join(folder, 'calls'), 0.05, 0
        self.environment = dict(
            os.environ, OFFICE=script(folder, 'office', OFFICE), FIRST=script(folder, 'first', FIRST), STORE=book.store,
            PROGRAM=self.program, CALLS=self.notes, ONCE='yes', KILLED='0', AFTER='1')

    def brought(self):
        """How many texts came since it was looked at last. What it has is what the first had after as many."""
        before, self.has = self.has, self.follows_in_model(self.first)
        return self.has - before

    def turn(self, whole=None, **killed):
        """One turn, killed after so many seconds if they are given. Gives its status and what it said."""
        for end in ('', '.killed'):
            with open(self.notes + end, 'w', encoding='ascii'):
                pass
        began = monotonic()
        with subprocess.Popen(
                ['bash', FOLLOW, self.store], env=dict(self.environment, **killed), stdin=subprocess.DEVNULL,
                stdout=subprocess.DEVNULL, stderr=subprocess.PIPE, start_new_session=True) as process:
            if whole is not None:
                sleep(whole)
                os.killpg(process.pid, signal.SIGKILL)
            said = process.communicate(timeout=SECONDS)[1].decode('utf-8')
        if whole is None and not killed:
            self.pace += (monotonic() - began - self.pace) / 4
        return process.returncode, said

    def noted(self, end=''):
        """The calls of the last turn; with `.killed` those that were."""
        with open(self.notes + end, encoding='ascii') as file:
            return file.read().splitlines()

    def whole_turn(self):
        """A turn that nothing disturbs: it ends with 0, and the standby is the office that the first is."""
        expect('a turn', (0, ''), self.turn())
        self.brought()
        expect('texts after a turn', len(kept_texts(self.first.office.deliveries)), self.has)

    def stops(self, counted, why, said):
        """A turn that finds another history: status 1 and the reason, and the standby's rows stay as they are."""
        before = rows_in(self.store)
        ended, told = self.turn()
        expect(why, (1, True), (ended, said in told))
        expect(why + ': the rows', before, rows_in(self.store))
        counted['stopped: ' + why] += 1


def killed_turn(standby, counted):
    """A turn that is killed by chance, whole or one call of it. It doesn't find another history, and what the standby has is the
    front of what the first has."""
    chance, kind = standby.chance, standby.chance.random()
    if kind < WHOLE:
        status, said = standby.turn(chance.uniform(0, 1.2 * standby.pace))
        expect('a turn that is killed: %s' % said, True, status in (-signal.SIGKILL, 0))
        counted['turns killed whole' if status else 'turns at whose end the kill came'] += 1
    elif kind < WHOLE + CALL:
        after = chance.uniform(0.001, 2 * standby.pace / CALLS)
        status, said = standby.turn(KILLED=str(chance.randint(1, CALLS)), AFTER='%.4f' % after)
        expect('a turn with a call that is killed: %s' % said, True, status in (0, 3))
        count_killed(standby, status, counted)
    else:
        status, said = standby.turn()
        expect('a turn', (0, ''), (status, said))
        counted['turns without a kill'] += 1
    counted['texts that came in turns'] += standby.brought()


def count_killed(standby, status, counted):
    """Counts which call of which office was killed."""
    killed = standby.noted('.killed')
    expect('a call that was killed, and the status', 3 if killed else 0, status)
    for words in killed:
        command, store = words.split(' ')[:2]
        counted['calls killed: %s of the %s' % (command, 'first' if store == standby.first.store else 'standby')] += 1
    counted['turns without a kill'] += not killed


def first_goes_on(book, pace, counted):
    """The first takes what comes next, and is killed meanwhile by chance; what it has is by the model in any case."""
    texts = book.upcoming(book.chance.randint(0, MOST))
    if book.chance.random() < 0.5 or any(map(is_addition, texts)) or not texts:
        send(book, len(texts))
        return
    with Delivering(book.program, book.store) as worker:
        moment = Moment(book.chance, worker, pace)
        worker.answers(texts, moment.read)
        moment.over()
    book.take(moment.lines)
    book.found(texts[len(moment.lines)] if len(moment.lines) < len(texts) else None)
    counted['kills of the first while it delivers'] += 1


def followed(standby, counted, turns=TURNS, between=lambda: None):
    """Turns with kills, between which the first goes on, and something else may happen to it; then one without, after which both
    are the same."""
    pace = Pace()
    standby.brought()
    for _turn in range(turns):
        first_goes_on(standby.first, pace, counted)
        between()
        killed_turn(standby, counted)
    standby.whole_turn()
    are_same(standby.first, standby)
    counted['standbys that followed'] += 1


def alone(book, number):
    """A text under a number that nobody has used, which waits."""
    _weight, (code, orders) = book.day.senders[0]
    return book.day.interchange(code, orders, number)


def takes_alone(office, text):
    """An office takes a text that the other one doesn't get."""
    expect('a text of its own', [json_text(office.office.answer(text))], call(office, [text]))


def finds_another_history(standby, kind, counted):
    """What the standby or the first then has otherwise stops the standby."""
    book, count = standby.first, len(kept_texts(standby.office.deliveries))
    if kind == 0:
        for number in (500, 501):
            takes_alone(standby, alone(book, number))
        standby.stops(counted, 'two texts that the first has not', 'the first keeps fewer than %d texts' % (count + 2))
    elif kind == 1:
        takes_alone(standby, alone(book, 500))
        standby.stops(counted, 'a text that the first has not', 'text %d is another one' % (count + 1))
        takes_alone(book, alone(book, 600))
        standby.stops(counted, 'another text', 'text %d is another one' % (count + 1))
    elif kind == 2:
        standby.account('HAUL-X', 'gate')
        standby.stops(counted, 'an account that the first has not', 'other accounts')
        run(book.program, 'account', book.store, 'HAUL-Y', 'gate')
        standby.stops(counted, 'another account', 'other accounts')


def try_one(program, seed, counted):
    """A standby that begins by the set-up, or as a copy of the first, and follows."""
    with tempfile.TemporaryDirectory(prefix='journal-') as folder, tempfile.TemporaryDirectory(prefix='journal-') as other:
        book = new_book(program, folder, seed)
        send(book, book.chance.randint(0, MOST))
        standby = Standby(book, other)
        if seed % 2:
            standby.init()
        else:
            standby.begun_as(book.store, book.office)
        followed(standby, counted)
        hands_out(book)
        finds_another_history(standby, seed % 3, counted)


def try_all(program, lists, seed, counted):
    """That many standbys."""
    for each in range(seed, seed + lists):
        with naming('seed %d' % each):
            try_one(program, each, counted)
