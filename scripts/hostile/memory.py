"""Each allocation of a process refused in turn: scripts/memory.

A process opens a store and delivers a text twice. With one allocation refused, the text is answered `not now` or what it
is owed, and then what it is owed, or what a text gets that was taken before; or the store isn't opened. What was answered
is in the rows, and nothing else; and the text once more gets what it is owed.
"""
import os
import signal
import subprocess
import sys
import tempfile
from collections import Counter
from concurrent.futures import ProcessPoolExecutor, as_completed
from copy import deepcopy

from model.files import PROGRAM, SETUP, texts_of_day, written
from model.office import Office
from model.rows import copy_files, rows_in, rows_of
from model.setup import DEMO
from model.stream import lines

from .books import NOT_NOW, Different, expect
from .memory_of_others import OTHERS
from .rounds import room

HERE = os.path.dirname(os.path.abspath(__file__))
LAST_TAKEN = '12-haulier-a-gate-out.edi'       # of the day; after it are repeats and a clash

# what a process may tell that had no memory before it delivered anything
FAILURES = {('', 'store: Memory\n', 3), ('', 'cannot listen\n', 3), ('', 'cannot read\n', 3), ('', '', 3)}


class Refusing:
    """The program in a folder of its own, with a library before it that refuses an allocation."""

    def __init__(self, program, folder):
        self.program, self.folder = program, folder
        self.store = os.path.join(folder, 'office.db')
        self.library = os.path.join(folder, 'refuse.so')
        self.told = os.path.join(folder, 'told')
        source = os.path.join(HERE, 'refuse.c')
        subprocess.run(['cc', '-shared', '-fPIC', '-O1', '-o', self.library, source, '-ldl'], check=True)

    def run(self, words, refused=0, coded='utf-8'):
        """Printed, told and status, with that allocation refused."""
        added = dict(LD_PRELOAD=self.library, REFUSE_AT=str(refused), REFUSE_TOLD=self.told)
        done = subprocess.run(
            [self.program, *words], stdin=subprocess.DEVNULL, capture_output=True, env=dict(os.environ, **added), check=False)
        return done.stdout.decode(coded), done.stderr.decode(), done.returncode

    def allocations(self):
        """How many the last process made."""
        with open(self.told, encoding='ascii') as file:
            return int(file.read())

    def file(self, name, text):
        """A file of that text."""
        return written(self.folder, name, text)

    def copy_to(self, path):
        """The store and its log, to another place."""
        copy_files(self.store, path)

    def copy_from(self, path):
        """The store and its log, from another place."""
        copy_files(path, self.store)


def line_of(office, text):
    """The line that answers a text."""
    return lines([office.answer(text)])[0]


def check_answers(name, before, text, given):
    """Holds what a process printed, told and ended with, to what it may: the office after it."""
    if given in FAILURES:
        return deepcopy(before), 'no store'
    printed, told, _status = given
    office, kinds = deepcopy(before), []
    for line in printed.splitlines():
        if line == NOT_NOW:
            kinds.append('not now')
            continue
        if line == '{"answer":"cut","fault":"Memory"}':
            kinds.append('cut')
            break
        expect(name, line_of(office, text), line)
        kinds.append('answered')
    expect(name + ', told', '', told)
    if len(kinds) < 2 and kinds[-1:] != ['cut']:
        raise Different('%s: %r' % (name, given))
    return office, ', '.join(kinds)


def opening(refusing):
    """How many allocations a process makes that opens the store and delivers nothing."""
    refusing.run(['deliver', refusing.store, refusing.file('nothing.edi', '')])
    return refusing.allocations()


def refuse_each(refusing, name, before, text, steps, counted):
    """Allocations of a process that delivers the text twice, refused in their turn: of those of opening the store each
    of a first step, and of those after it each of a second."""
    start = os.path.join(refusing.folder, 'start.db')
    refusing.copy_to(start)
    twice, once = refusing.file('twice.edi', text + '\n' + text), refusing.file('once.edi', text)
    opened = opening(refusing)
    refusing.run(['deliver', refusing.store, twice])
    behind = range(opened + 1, refusing.allocations() + 1, steps[1])
    for refused in [*range(1, opened + 1, steps[0]), *behind]:
        refusing.copy_from(start)
        what = '%s, allocation %d' % (name, refused)
        office, kind = check_answers(what, before, text, refusing.run(['deliver', refusing.store, twice], refused))
        rows, faults = rows_in(refusing.store)
        expect(what + ', rows', (rows_of(office), []), (rows, faults))
        printed, told, _status = refusing.run(['deliver', refusing.store, once])
        expect(what + ', again', (line_of(office, text) + '\n', ''), (printed, told))
        expect(what + ', rows again', (rows_of(office), []), rows_in(refusing.store))
        counted[kind] += 1
    refusing.copy_from(start)


def before(program, folder, last):
    """A store to which the texts of the day before one were delivered, its office, and that text."""
    refusing, office = Refusing(program, folder), Office(DEMO, keeps_fold=True)
    refusing.run(['init', refusing.store, *SETUP])
    for name, of_file in texts_of_day().items():
        text = of_file.strip()
        if name == last:
            return refusing, office, text
        wanted = line_of(office, text) + '\n'
        expect(name, wanted, refusing.run(['deliver', refusing.store, refusing.file('once.edi', text)])[0])
    raise KeyError(last)


def tried(program, what, steps):
    """What was counted of one of OTHERS, over the store before the last text that is taken, or of a text by its name."""
    counted = Counter()
    with tempfile.TemporaryDirectory(prefix='memory-') as folder:
        refusing, office, text = before(program, folder, LAST_TAKEN if what in OTHERS else what)
        if what in OTHERS:
            OTHERS[what](refusing, office, text, steps, counted)
        else:
            refuse_each(refusing, what, office, text, steps, counted)
    return counted


def try_all(program, steps, jobs, counted):
    """All of OTHERS, and each text of the day, some at a time, each over a store of its own."""
    with ProcessPoolExecutor(jobs, initializer=signal.signal, initargs=(signal.SIGINT, signal.SIG_IGN)) as pool:
        running = [pool.submit(tried, program, what, steps) for what in [*OTHERS, *texts_of_day()]]
        try:
            for done in as_completed(running):
                counted += done.result()
        finally:
            for left in running:
                left.cancel()


def main():
    """Gives the status: 1 at the first difference, 2 where the program is not built."""
    program = PROGRAM
    if not os.access(program, os.X_OK):
        print('%s is not built: make build' % program, file=sys.stderr)
        return 2
    tempfile.tempdir = room()
    steps = ([int(word) for word in sys.argv[1:]] + [100, 1][len(sys.argv) - 1:])[:2]
    counted, fault = Counter(), None
    try:
        try_all(program, steps, int(os.environ.get('JOBS', '2')), counted)
    except Different as different:
        fault = different
    for what, count in sorted(counted.items()):
        print('%10d  %s' % (count, what))
    print('differs: %s' % fault if fault else 'nothing differs')
    return 1 if fault else 0
