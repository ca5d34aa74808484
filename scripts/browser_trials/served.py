"""Stores, each served by the program, and the model's office beside it."""
import os
import random
import re
import subprocess
import time
from collections import namedtuple

from model.asking import container, exchanged, free_port, post
from model.cuts import cut
from model.days import Day
from model.files import contents, texts_of_day
from model.http import response
from model.names import Slot, slot_text
from model.office import Office
from model.setup import DEMO, read_setup
from model.setups import files_of
from model.stores import Program
from model.stream import answers, lines
from model.yard import Block

# a line of the log: a request, or a connection that asked for nothing
REQUESTED = re.compile(r'^\S+ (?:([A-Z]+) (\S+)|- -) \d+ ')
GATE_IN = "EQD+CN+%s+%s:102:5+++%d'LOC+ZZZ+%s'"
SECONDS = 10                # that a line of the log may take
SEED, DELIVERIES = 7, 260   # of the store of a random day
NEVER_CAME = 'ABCU9999990'
MANY = 8                    # of so many containers of the terminal one stands there
LIST = 300                  # containers of its vessel's list

Container = namedtuple('Container', 'number size_type is_full')
Yard = namedtuple('Yard', 'name setup stream')


# ---- streams

def stacked(plan, lowest):
    """Containers from the lowest tier up, at least `lowest` and as many as there are tiers in a stack: twenties or
    forties, and empty ones above full ones."""
    chance, standings = random.Random(1), []
    for block in plan:
        for row in range(1, block.rows + 1):
            bay = 1
            while bay < 2 * block.bays:
                is_pair = bay + 2 < 2 * block.bays and chance.random() < 0.45
                height = chance.randint(min(lowest, block.tiers), block.tiers)
                standings += stack(chance, height, Slot(block.letter, bay + is_pair, row, 0), len(standings))
                bay += 4 if is_pair else 2
    return standings


def stack(chance, height, ground, before):
    """So many containers, one on the other."""
    laden = chance.randint(max(height - 2, 0), height)
    for tier in range(1, height + 1):
        number = container(before + tier, chance.choice(['ABCU', 'HLXU', 'MSCU', 'OOLU', 'TGHU']))
        size_type = '42G1' if ground.bay % 2 == 0 else '22G1'
        yield ground._replace(tier=tier), Container(number, size_type, tier <= laden)


def sender_of(setup, kind):
    """The first partner of a kind."""
    return next(code for code, of_kind in setup.partners.items() if of_kind == kind)


def interchange(setup, kind, number, heading, groups):
    """An interchange of one message, from the first partner of a kind."""
    body = 'UNH+1+' + heading + ''.join(groups)
    count = re.sub(r'\?.', '', body).count("'") + 1
    return "UNB+UNOA:3+%s+%s+240305:0910+%d'%sUNT+%d+1'UNZ+1+%d'\n" % (
        sender_of(setup, kind), setup.terminal, number, body, count, number)


def brought_in(setup, standings):
    """An interchange for each block, by which its containers come in by the gate, each to its slot."""
    for number, block in enumerate(setup.plan, start=1):
        groups = [
            GATE_IN % (box.number, box.size_type, 5 if box.is_full else 4, slot_text(slot))
            for slot, box in standings if slot.block == block.letter]
        yield interchange(setup, 'gate', number, "CODECO:D:95B:UN'BGM+34+G1+9'", groups)


def listed(setup, standings):
    """An interchange by which containers of the yard are listed, and one that never came."""
    groups = ["EQD+CN+%s'LOC+11+DEHAM'" % box.number for _slot, box in standings[:LIST]] + ["EQD+CN+%s'" % NEVER_CAME]
    return interchange(setup, 'line', 1, "COPRAR:D:95B:UN'BGM+45+L1+9'TDT+20+V12++++++9123456'", groups)


def released(value):
    """A value with the release character before each byte that would part it."""
    return re.sub(r"[?+:']", r'?\g<0>', value)


def oddly_named(setup):
    """A container with a booking, and a list with it, by names that a browser could take for something else."""
    number = container(77)
    yield interchange(setup, 'gate', 1, "CODECO:D:95B:UN'BGM+34+G1+9'", [
        "EQD+CN+%s+22G1:102:5+++5'RFF+BN:%s'" % (number, released('<b title="x\'>&amp;</b>'))])
    vessel, voyage, port = map(released, ('</pre><script>X', '\'>"&#39; %41/..?', '<img src=x:y>'))
    yield interchange(setup, 'line', 1, "COPRAR:D:95B:UN'BGM+45+L1+9'TDT+20+%s++++++%s'" % (voyage, vessel), [
        "EQD+CN+%s'LOC+11+%s'" % (number, port), "EQD+CN+%s'" % NEVER_CAME])


def random_day():
    """Two blocks, what partners send on a random day, and names that a browser could take for something else. What can't be
    parted as an interchange is left out, since it ends a stream."""
    plan = [Block('A', bays=4, rows=2, tiers=3), Block('B', bays=4, rows=2, tiers=3)]
    day = Day(SEED, DEMO._replace(plan=plan))
    texts = [day.delivery() for _text in range(DELIVERIES)]
    setup = DEMO._replace(plan=plan, partners={'ODD.GATE': 'gate', 'ODD_LINE': 'line', **DEMO.partners})
    return Yard('random', setup, '\n'.join([*oddly_named(setup), *(text for text in texts if cut(text)[1] is None)]))


def terminal(top):
    """The set-up of examples/terminal, whose longest blocks have 40 odd bays."""
    folder = os.path.join(top, 'examples', 'terminal')
    return read_setup(*(contents(os.path.join(folder, name)) for name in ('partners.csv', 'blocks.csv')))[0]


def yards_of_pictures(top):
    """Each with a store of its own: nothing in it, a day behind it, stacks of all heights, each cell used, and rows that no
    window is as wide as."""
    six, wide = DEMO._replace(plan=[Block(letter, 8, 6, 4) for letter in 'ABCDEF']), terminal(top)
    yield Yard('empty', DEMO, '')
    yield Yard('day', DEMO, ''.join(texts_of_day().values()))
    yield Yard('busy', six, ''.join(brought_in(six, stacked(six.plan, 0))))
    yield Yard('full', six, ''.join(brought_in(six, stacked(six.plan, 4))))
    yield Yard('wide', wide, ''.join(brought_in(wide, stacked(wide.plan, 0))))


def yards_of_pages(top):
    """Each with a store of its own: nothing in it, a day behind it, a random day with odd names, and some hundred containers in
    six blocks, most of them on a list."""
    setup = terminal(top)
    standings = stacked(setup.plan, 0)[::MANY]
    yield Yard('empty', DEMO, '')
    yield Yard('day', DEMO, ''.join(texts_of_day().values()))
    yield random_day()
    yield Yard('terminal', setup, ''.join(brought_in(setup, standings)) + listed(setup, standings))


# ---- the program

class Served:
    """`office serve` on a port of its own over a new store of a yard, and the model's office, until it is left."""

    def __init__(self, path, folder, yard):
        self.office, self.program, self.faults = Office(yard.setup, keeps_fold=True), Program(path, folder), []
        self.expect('init', 'ready\n', self.program.init(*files_of(yard.setup))[0])
        owed = ''.join(line + '\n' for line in lines(answers(self.office, yard.stream)))
        self.expect('deliver', owed, self.program.deliver(yard.stream)[0])
        self.port = free_port()
        self.log, self.owed_pages = open(os.path.join(folder, 'log'), 'w+', encoding='utf-8'), {}
        words = [path, 'serve', self.program.store, str(self.port), '1000000', '--log']
        self.process = subprocess.Popen(words, stdout=subprocess.PIPE, stderr=self.log, encoding='utf-8')
        self.expect('listening', 'listening 127.0.0.1:%d\n' % self.port, self.process.stdout.readline())

    def expect(self, name, owed, got):
        """A fault where something came that is not owed."""
        self.faults += [] if owed == got else ['%s: %s for %s' % (name, repr(got)[:200], repr(owed)[:200])]

    def owed(self, path):
        """Status and text that the model gives for a path."""
        if path not in self.owed_pages:
            head, _end, text = response(self.office, 'GET %s HTTP/1.1\r\n\r\n' % path).partition('\r\n\r\n')
            self.owed_pages[path] = int(head.split(' ')[1]), text
        return self.owed_pages[path]

    def deliver(self, text):
        """A delivery while it serves, after which pages are others."""
        request = post(text)
        self.expect('a delivery', response(self.office, request), exchanged(self.port, request))
        self.owed_pages.clear()

    def url(self, path):
        """An address for a browser."""
        return 'http://127.0.0.1:%d%s' % (self.port, path)

    def asked(self, count):
        """What its log tells that it was asked: each request's method and path, but for deliveries and for connections that asked
        for nothing. A line is written after the response, so the last of so many may be late."""
        asked, end = [], time.monotonic() + SECONDS
        while len(asked) < count and time.monotonic() < end:
            self.log.seek(0)
            told = [REQUESTED.match(line) for line in self.log]
            asked = ['%s %s' % found.groups() if found else 'no request' for found in told if not found or found[1] not in (None, 'POST')]
        return asked

    def __enter__(self):
        return self

    def __exit__(self, *_fault):
        self.process.kill()
        self.process.wait()
        self.process.stdout.close()
        self.log.close()
