"""What a closing costs, and what the office costs after it: openings, deliveries, repeats of numbers that were put away.

All stores are in a file system in memory, if there is one. Times are of a processor, so that other programs disturb them little.
"""
import os
import shutil
import tempfile

import streams
from pages import processor
from rows import IN_MEMORY, PART, Row
from running import Stream, command, spent

KEPT = 100000               # interchanges that one closing puts away
CLOSINGS, EACH = 10, 1000   # of a store that is closed often, and how much each puts away
ENDS = ('', '-wal', '-archives', '-archives-wal')
TURNS = 5                   # of which the least counts
LINES, OF_CALL = 100000, 500    # done lines of lists, and how many a call has (streams.lists)


def copied(store, archive):
    """An archive: a copy of a store's files, the register too, where the archive's name says."""
    for end in ENDS:
        if os.path.exists(store + end):
            shutil.copyfile(store + end, archive + end)
    return archive


def delivered(stores, store, texts):
    """The parts of a stream that is delivered to a store."""
    office = Stream(stores.office, 'deliver', store, '-')
    parts = [office.feed(texts[first:first + PART]) for first in range(0, len(texts), PART)]
    office.close()
    return parts


def closed(stores, store, number):
    """The store is closed by a copy of now."""
    archive = copied(store, os.path.join(os.path.dirname(store), 'archive-%d.db' % number))
    if command(stores.office, 'close', store, archive) != b'ready\n':
        raise SystemExit('bench: a closing was not ready')


def least(parts):
    """The least cost of an interchange among parts, in microseconds of a processor."""
    return min(part.processor for part in parts) * 1e6 / PART


def large(stores, folder):
    """A closing of a hundred thousand: its time and memory, and an opening before and after it."""
    store, texts = stores.new('closed', folder=folder), streams.gates(KEPT)
    delivered(stores, store, texts)
    before = processor(TURNS, stores.office, 'report', store, 'health')
    archive = copied(store, os.path.join(folder, 'archive.db'))
    clock, taken, peak = spent(stores.office, 'close', store, archive)
    after = processor(TURNS, stores.office, 'report', store, 'health')
    kept = format(KEPT, ',')
    return [
        Row('close, %s kept, all but what stands' % kept, 's of the clock', clock, None, '12'),
        Row('the same, processor', 's', taken), Row('the same, peak memory', 'MB', peak, None, '140'),
        Row('opening before it; after it', 's', before, after, 'after it 0.1')] + repeats(stores, store, archive, texts)


def repeats(stores, store, archive, texts):
    """A repeat of a number that was put away, and of one that was not; the first one, which opens the archive."""
    more = streams.gates(KEPT + 2 * PART)[KEPT:]
    delivered(stores, store, more)
    here = least(delivered(stores, store, more + more))
    office = Stream(stores.office, 'deliver', store, '-')
    first = office.feed(texts[:1]).processor
    there = least([office.feed(texts[at * PART:(at + 1) * PART]) for at in range(TURNS)])
    office.close()
    opening = processor(TURNS, stores.office, 'report', archive, 'health')
    return [
        Row('a repeat of a number that was put away; of another', 'us', there, here, '1.2 times'),
        Row('the first one; an opening of its archive', 's', first, opening, '1.15 times')]


def often(stores, folder):
    """Deliveries to a store that was closed ten times, and to one that was not."""
    texts, pair = streams.gates((CLOSINGS + TURNS) * EACH), []
    for closes in (True, False):
        store = stores.new('often' if closes else 'never', folder=folder)
        for number in range(CLOSINGS):
            delivered(stores, store, texts[number * EACH:(number + 1) * EACH])
            if closes:
                closed(stores, store, number)
        pair.append(least(delivered(stores, store, texts[CLOSINGS * EACH:])))
    return [Row('a delivery after %d closings; after none' % CLOSINGS, 'us', *pair, '1.05 times')]


def naming(voyage, number):
    """The line's text under a number, which lists a container of a call that was loaded: the list is brought back as it was."""
    groups = [streams.Group(streams.box(voyage * OF_CALL), port='NLRTM')]
    return streams.interchange('LINEA', number, streams.message(1, '45', groups, ('9123456', 'V%d' % voyage)))


def of_lists(stores, folder):
    """A closing that puts many done lines away; openings with these lines and without them, and lists that are away and there."""
    store, texts = stores.new('lists', folder=folder), streams.lists(LINES // streams.LIST * (2 * streams.LIST + 1))
    delivered(stores, store, texts)
    archive = copied(store, os.path.join(folder, 'archive.db'))
    taken = spent(stores.office, 'close', store, archive)[1]
    without = processor(TURNS, stores.office, 'report', store, 'health')
    again = [naming(voyage, LINES // streams.LIST + voyage + 1) for voyage in range(LINES // OF_CALL)]
    away = processor(TURNS, stores.office, 'report', store, 'list', '9123456/V0/load')
    delivered(stores, store, again[:1])
    here = processor(TURNS, stores.office, 'report', store, 'list', '9123456/V0/load')
    delivered(stores, store, again[1:])
    lines = processor(TURNS, stores.office, 'report', store, 'health')
    return [
        Row('close, %s interchanges and %s done lines, processor' % (format(len(texts), ','), format(LINES, ',')), 's', taken),
        Row('opening with these lines; after they were put away', 's', lines, without),
        Row('a list of %d lines that is away, with the opening; that is there' % OF_CALL, 's', away, here)]


def closing(stores):
    """The rows of closings."""
    with tempfile.TemporaryDirectory(prefix='bench-', dir=IN_MEMORY) as folder:
        rows = of_lists(stores, folder)
    with tempfile.TemporaryDirectory(prefix='bench-', dir=IN_MEMORY) as folder:
        rows += large(stores, folder)
    with tempfile.TemporaryDirectory(prefix='bench-', dir=IN_MEMORY) as folder:
        return rows + often(stores, folder)
