"""The streams, deliveries and requests of cases.txt, by the model and by the program: each is answered by the bytes
that stand there.

A stream goes through `office demo`, where it has that set-up, and through `office deliver` over a store. Texts that are
delivered by themselves are bodies of requests to `office serve`; where a stream of them is cut into just these, it is
answered by the same lines; reports are asked for after the last of them. Accounts that are added between them are requests
too, and, over another store, calls of `office account` between calls of `office deliver`. Requests go to `office serve` in
two pieces and, to a store of its own, byte by byte. Cases with a `page` are also what samples.py makes docs/SAMPLES.md of.
"""
import fcntl
import os
import re
import struct
import subprocess
import tempfile
import termios
import time
from collections import namedtuple
from functools import partial

from .asking import account, exchanged, get, in_bytes, in_two, post
from .commands import texts
from .cuts import cut
from .deliveries import kept_texts
from .events import Added, Delivered
from .http import response
from .office import Office, json_text
from .reports import text_of
from .setup import DEMO, with_accounts
from .setups import files_of
from .stores import Program
from .stream import answers, lines, status
from .yard import Block

FILE = os.path.join(os.path.dirname(os.path.abspath(__file__)), 'cases.txt')
SETUPS = {
    '998 accounts': with_accounts(998),
    '999 accounts': with_accounts(999),
    'one stack of two tiers': DEMO._replace(plan=[Block('A', bays=1, rows=1, tiers=2)]),
    'one visit': DEMO._replace(most_visits=1),
    'two blocks, the second first': DEMO._replace(
        plan=[Block('B', bays=4, rows=2, tiers=3), Block('A', bays=4, rows=2, tiers=3)]),
}
WORDS = 'set-up stream deliver answer status cut request response look told account ahead host page say'.split()

# texts are those that are delivered by themselves, with a line each; steps are these and the accounts that are added between
# them, each as an event with its line; requests are pairs of a request and its response; where there are none of all these,
# the stream is a text. The status is the stream's, which may be cut anywhere. Looks are pairs of a path and the body that
# answers it after the texts; `ahead` is the bound of the server and `host` its name, if it has them; `said` are the pairs of word
# and value that stand there
Case = namedtuple('Case', 'name setup stream texts lines steps status is_cut requests looks ahead host said')


def case_of(part):
    """A case, from its name on."""
    name, *rest = part.splitlines()
    said = [line.partition(' ')[::2] for line in rest if line and not line.startswith('#')]
    values = {word: [value for other, value in said if other == word] for word in WORDS}
    setups, streams, texts, lines_said, statuses, cuts, requests, responses, looks, told, added, bounds, names = (
        values[word] for word in WORDS[:13])
    kinds = [
        len(streams) > 0 and len(statuses) == 1, 0 < len(texts + added) == len(lines_said),
        0 < len(requests) == len(responses)]
    others = (
        len(statuses) - kinds[0], len(texts + added) * (not kinds[1]), len(responses) * (not kinds[2]),
        len(looks) - len(told), len(looks) * (not kinds[1]),
        len(bounds + names) * (not kinds[2]))
    if kinds.count(True) != 1 or any(others) or len(setups) > 1 or not {word for word, _value in said} <= set(WORDS):
        raise ValueError('cases.txt: ' + name)
    events = [event_of(word, value) for word, value in said if word in ('deliver', 'account')]
    steps = list(zip(events, lines_said)) if events else []
    lines_of_texts = [line for event, line in steps if isinstance(event, Delivered)] if events else lines_said
    return Case(
        name, SETUPS[setups[0]] if setups else DEMO, read(''.join(streams)), [read(text) for text in texts], lines_of_texts,
        steps, int(statuses[0]) if statuses else None, cuts == ['anywhere'],
        [(read(request), read(wanted)) for request, wanted in zip(requests, responses)],
        list(zip(looks, map(read, told))), int(bounds[0]) if bounds else None,
        names[0] if names else None, said)


def event_of(word, value):
    """A delivery or an addition."""
    return Delivered(read(value)) if word == 'deliver' else Added(*read(value).split(' '))


def read(text):
    """The bytes that a line says."""
    text = re.sub(r'\{(\d+) (?:(.)|\(([^)]*)\))\}', lambda found: (found[2] or found[3]) * int(found[1]), text)
    text = re.sub(r'\\x([0-9a-f]{2})', lambda found: chr(int(found[1], 16)), text)
    return text.replace(r'\r', '\r').replace(r'\n', '\n')


def adding(code, kind):
    """The request that adds an account."""
    parts = [''.join('%%%02X' % ord(character) if character in '%/?' else character for character in part)
             for part in (code, kind)]
    return account(*parts)


def request_of(event):
    """The request that does what an event says."""
    return post(event.text) if isinstance(event, Delivered) else adding(*event)


def answer_to(office, event):
    """The line that answers an event."""
    is_text = isinstance(event, Delivered)
    return json_text(office.answer(event.text) if is_text else office.add_account(*event))


def unread(pipe):
    """How many bytes of a pipe nobody has read yet."""
    return struct.unpack('i', fcntl.ioctl(pipe, termios.FIONREAD, bytes(4)))[0]


def fed(path, pieces):
    """What `office demo` prints, tells and ends with, where each piece comes once the one before it was read."""
    with subprocess.Popen(
            [path, 'demo'], stdin=subprocess.PIPE, stdout=subprocess.PIPE, stderr=subprocess.PIPE) as process:
        for piece in pieces:
            os.write(process.stdin.fileno(), piece.encode('latin-1'))
            while process.poll() is None and unread(process.stdin):
                time.sleep(0.0001)
        printed, told = process.communicate()
        return printed.decode('utf-8'), told.decode('utf-8'), process.returncode


class Cases:
    """The program (None for the model alone), whether stores are made, and what came of the comparisons so far."""

    def __init__(self, path, with_stores):
        self.path, self.with_stores = path, with_stores
        self.compared, self.wrong = 0, []

    def expect(self, name, by, wanted, got):
        """Counts a comparison, and keeps what is wrong."""
        self.compared += 1
        if wanted != got:
            self.wrong.append('%s, %s\n  case %r\n  got  %r' % (name, by, wanted, got))

    def stream(self, case, text, wanted):
        """A stream: what is printed, what is told of faults, and the status."""
        given = answers(Office(case.setup), text)
        self.expect(case.name, 'the model', wanted, (text_of(lines(given)), '', status(given)))
        if self.path and case.setup == DEMO:
            self.expect(case.name, 'demo', wanted, Program(self.path, '').run('demo', given=text))
        if self.path and case.is_cut:
            self.pieces(case, text, wanted)
        if self.with_stores:
            with tempfile.TemporaryDirectory(prefix='beside-') as folder:
                program = Program(self.path, folder)
                program.init(*files_of(case.setup))
                self.expect(case.name, 'deliver', wanted, program.deliver(text))
                self.kept(case, text, program)

    def kept(self, case, text, program):
        """The texts that are kept of a stream, from the first on, after it, after the last, and beyond it."""
        office = Office(case.setup)
        answers(office, text)
        count = len(kept_texts(office.deliveries))
        for passed in sorted({0, 1, count, count + 1}):
            printed, ended = texts({'store': office}, 'store', str(passed))
            self.expect(case.name, 'texts after %d' % passed, (printed, '', ended), program.texts(passed))

    def pieces(self, case, text, wanted):
        """A stream in two pieces, cut at each place, and byte by byte."""
        for place in range(1, len(text)):
            got = fed(self.path, [text[:place], text[place:]])
            self.expect(case.name, 'demo, cut at %d' % place, wanted, got)
        self.expect(case.name, 'demo, byte by byte', wanted, fed(self.path, text))

    def deliveries(self, case):
        """Texts by themselves, one after the other; and as a stream, where it is cut into them."""
        office = Office(case.setup)
        given = [answer_to(office, event) for event, _line in case.steps]
        self.expect(case.name, 'the model', [line for _event, line in case.steps], given)
        for path, wanted in case.looks:
            self.expect(case.name, 'the model, ' + path, wanted, response(office, get(path)).partition('\r\n\r\n')[2])
        if self.with_stores:
            self.serve(case)
        if len(case.steps) > len(case.texts):
            self.calls(case)
            return
        text = '\r\n'.join(case.texts)
        if cut(text) == (case.texts, None):
            refused = any(re.match(r'{"answer":"(refused|clash)"', line) for line in case.lines)
            self.stream(case, text, (text_of(case.lines), '', 1 if refused else 0))

    def serve(self, case):
        """Each text as the body of a request, and each addition as one, to a store of its own."""
        office, requests = Office(case.setup), []
        for event, line in case.steps:
            request = request_of(event)
            wanted = response(office, request)
            self.expect(case.name, 'the model over HTTP', line, wanted.partition('\r\n\r\n')[2])
            requests.append((request, wanted))
        requests += [(get(path), response(office, get(path))) for path, _wanted in case.looks]
        self.served(case, requests, in_two)

    def calls(self, case):
        """Each text by a call of `deliver`, and each addition by one of `account`, to a store of its own."""
        if not self.with_stores:
            return
        with tempfile.TemporaryDirectory(prefix='beside-') as folder:
            program = Program(self.path, folder)
            program.init(*files_of(case.setup))
            for event, line in case.steps:
                is_text = isinstance(event, Delivered)
                got = program.deliver(event.text) if is_text else program.account(*event)
                refused = re.match(r'{"answer":"(refused|clash)"', line)
                self.expect(case.name, 'calls', (line + '\n', '', 1 if refused else 0), got)

    def served(self, case, requests, pieces_of):
        """Requests, each in its pieces, to a store of their own."""
        with tempfile.TemporaryDirectory(prefix='beside-') as folder:
            program = Program(self.path, folder)
            program.init(*files_of(case.setup))
            program.serve(
                requests, lambda what, wanted, got: self.expect(case.name + ', ' + what, 'serve', wanted, got),
                partial(exchanged, pieces_of=pieces_of), case.ahead, case.host)

    def requests(self, case):
        """Requests one after the other, and the response to each."""
        office = Office(case.setup)
        for request, wanted in case.requests:
            given = response(office, request, case.ahead, case.host)
            self.expect('%s, %r' % (case.name, request[:300]), 'the model', wanted, given)
        if self.with_stores:
            for pieces_of in (in_two, in_bytes):
                self.served(case, case.requests, pieces_of)


def all_cases():
    """The cases of the file, in its order."""
    with open(FILE, encoding='latin-1') as file:
        return [case_of(part) for part in re.split(r'^== ', file.read(), flags=re.M)[1:]]


def check(path, with_stores):
    """All cases; prints how many were compared, and each that is wrong. Gives how many are."""
    cases, checked = all_cases(), Cases(path, with_stores)
    checked.expect('cases.txt', 'any case', True, bool(cases))
    for case in cases:
        if case.requests:
            checked.requests(case)
        elif case.steps:
            checked.deliveries(case)
        else:
            checked.stream(case, case.stream, (text_of(case.lines), '', case.status))
    print(''.join('wrong: %s\n' % text[:2000] for text in checked.wrong), end='')
    print('%d cases: %d compared, %d wrong' % (len(cases), checked.compared, len(checked.wrong)))
    return len(checked.wrong)
