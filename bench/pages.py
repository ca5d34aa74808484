"""What the size of a page changes: the file, its opening, a delivery, and a page of the journal.

Each store begins empty with pages of its size, as another hand changes them, and the peer fills it, since the size is all that is
compared; where there is no peer the office does. Times are of a processor, so that other programs disturb them little.
"""
import itertools
import os
import shutil
import sqlite3
import subprocess
import tempfile
from contextlib import closing

import streams
from rows import FEW, IN_MEMORY, MARKS, MORE, PART, Row
from running import Stream, command, instructions

SIZES = [512, 1024, 2048, 4096]
TURNS, LONG = 5, 15         # of which the least counts; of what is a difference
MEGABYTE = 1000000          # of the journal
MOST_TEXTS = 7000           # gate-ins and gate-outs, which have more than a megabyte


def processor(turns, *words, statuses=(0, 1)):
    """The least seconds of a processor that a command takes, user and system."""
    least = None
    for _turn in range(turns):
        with subprocess.Popen(words, stdout=subprocess.DEVNULL, stderr=subprocess.DEVNULL) as process:
            _pid, status, used = os.wait4(process.pid, 0)
            process.returncode = os.waitstatus_to_exitcode(status)
        if process.returncode not in statuses:
            raise SystemExit('bench: %s ended with %d' % (' '.join(words), process.returncode))
        seconds = used.ru_utime + used.ru_stime
        least = seconds if least is None else min(least, seconds)
    return least


def sized(store, size):
    """Another hand gives a store pages of that size."""
    with closing(sqlite3.connect(store, isolation_level=None)) as other:
        for words in ('PRAGMA journal_mode=DELETE', 'PRAGMA page_size=%d' % size, 'VACUUM'):
            other.execute(words)
        assert other.execute('PRAGMA page_size').fetchone() == (size,)
    return store


def filled(stores, store, kept):
    """Gate-ins and gate-outs are delivered to it."""
    texts = streams.gates_without_end()
    maker = Stream(stores.peer, 'deliver', store) if stores.peer else Stream(stores.office, 'deliver', store, '-')
    for _part in range(kept // PART):
        maker.feed(list(itertools.islice(texts, PART)))
    maker.close()
    return store


def begun(stores, size, kept):
    """A store with pages of that size in which so much is kept, in a file system in memory, if there is one."""
    with tempfile.TemporaryDirectory(prefix='bench-', dir=IN_MEMORY) as folder:
        yield filled(stores, sized(stores.new('pages', folder=folder), size), kept)


def what_of(what, size, kept):
    """The name of a row."""
    return '%s, %s kept, pages of %s bytes' % (what, format(kept, ','), format(size, ','))


def opening(stores, store):
    """The words that open a store, with a small report; and those of the kit's own opening: `init`, which then writes nothing."""
    report = stores.office, 'report', store, 'visits', streams.box(0)
    return report, (stores.office, 'init', store, stores.path_of('partners.csv'), stores.path_of('large.csv'))


def journal(stores, store, kept):
    """The words that print the last texts of a megabyte; and those that print none, which take as long to start and to open."""
    data = command(stores.office, 'texts', store, str(max(0, kept - MOST_TEXTS)))
    passed = kept - data[-MEGABYTE:].count(b'\n') + 1
    return (stores.office, 'texts', store, str(passed)), (stores.office, 'texts', store, str(kept))


def deliveries(stores, store, kept):
    """Thousands of instructions of a gate-in or gate-out, without those of start and opening."""
    texts, totals = streams.gates(kept + MORE)[kept:], []
    for count in (FEW, MORE):
        stream = stores.file('counted.edi', ''.join(text + '\n' for text in texts[:count]))
        totals.append(instructions(stream, stores.office, 'deliver', stores.copy(store, stores.path('counted')), '-'))
    return (totals[1] - totals[0]) / (MORE - FEW) / 1e3


def counts(stores, size):
    """What is counted in instructions: a delivery, an opening, a page of the journal."""
    for store in begun(stores, size, MARKS[0]):
        kept = MARKS[0]
        count = deliveries(stores, store, kept)
        yield Row(what_of('a gate-in or gate-out', size, kept), 'thousand instructions', count, None, '300')
    for store in begun(stores, size, MARKS[1]):
        kept = MARKS[1]
        report, init = opening(stores, store)
        opened = instructions(os.devnull, *report, statuses=(0, 1)), instructions(os.devnull, *init, statuses=(3,))
        name = what_of("opening; peer: the kit's own", size, kept)
        yield Row(name, 'million instructions', *(each / 1e6 for each in opened), '1.15 times')
        page, none = (instructions(os.devnull, *words) for words in journal(stores, store, kept))
        yield Row(what_of('the last megabyte of the journal', size, kept), 'million instructions', (page - none) / 1e6)
        page, none = (processor(LONG, *words) for words in journal(stores, store, kept))
        yield Row(what_of('the same, processor', size, kept), 'ms', (page - none) * 1e3, None, '10 ms')


def pages(stores):
    """The largest stores first, and then what is counted."""
    for size in SIZES:
        for store in begun(stores, size, MARKS[-1]):
            yield Row(what_of('the file', size, MARKS[-1]), 'MB', os.path.getsize(store) / 1e6)
            report, init = opening(stores, store)
            opened = processor(TURNS, *report), processor(TURNS, *init, statuses=(3,))
            name = what_of("opening, processor; peer: the kit's own", size, MARKS[-1])
            yield Row(name, 'ms', *(each * 1e3 for each in opened), '1.15 times')
    for size in SIZES if shutil.which('valgrind') else []:
        yield from counts(stores, size)
