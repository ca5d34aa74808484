"""A year of a large sea port on one machine: 10,000 interchanges a day, closed each week.

Gate-ins and gate-outs of one haulier, with 10,000 containers in the yard, of which only those leave that nothing stands on: each
line is done, or the bench ends. All stores are in a file system in memory, if there is one: 5 GB of it. The peer gets the same
stream, without closings, and has to have the same yard in the end.
"""
import itertools
import os
import tempfile

import streams
from closing import copied
from pages import processor
from rows import IN_MEMORY, Row
from running import Stream, command, spent

DAY, WEEKS = 10000, 52
WEEK = 7 * DAY
IN_YARD = 10000             # containers that stand in the yard
TURNS = 3                   # of which the least counts


def size_of(folder, name):
    """The megabytes of the files of a folder whose names begin so."""
    return sum(os.path.getsize(os.path.join(folder, file)) for file in os.listdir(folder) if file.startswith(name)) / 1e6


def week_of(stores, store, texts):
    """Delivers a week: seconds of the clock and of a processor from start to end, and the most memory."""
    office = Stream(stores.office, 'deliver', store, '-')
    parts = [office.feed(texts[first:first + DAY]) for first in range(0, WEEK, DAY)]
    office.close()
    return sum(part.seconds for part in parts), sum(part.processor for part in parts), office.peak


class Year:
    """What a year took: of each week its deliveries, and its closing."""

    def __init__(self):
        self.delivered, self.closed = [], []

    def hours(self):
        """Hours of the clock."""
        return (sum(week[0] for week in self.delivered) + sum(taken[0] for taken in self.closed)) / 3600

    def rows(self):
        """The rows of deliveries and closings."""
        return [
            Row('a year: deliveries and closings', 'hours of the clock', self.hours()),
            Row('a delivery in the last week; in the second, processor', 'us', *(week[1] * 1e6 / WEEK for week in (
                self.delivered[-1], self.delivered[1])), '1.05 times'),
            Row('the most memory of deliver', 'MB', max(week[2] for week in self.delivered), None, '100'),
            Row('the last closing; the first, processor', 's', self.closed[-1][1], self.closed[0][1]),
            Row('the most memory of close', 'MB', max(taken[2] for taken in self.closed), None, '140')]


def worked(stores, store, texts):
    """A year's deliveries to a store that is closed each week; the week's deliveries are drawn from the texts."""
    year, folder = Year(), os.path.dirname(store)
    for week in range(WEEKS):
        year.delivered.append(week_of(stores, store, list(itertools.islice(texts, WEEK))))
        archive = copied(store, os.path.join(folder, 'archive-%d.db' % week))
        year.closed.append(spent(stores.office, 'close', store, archive))
    return year


def agrees_with_peer(stores, store, folder):
    """Whether the peer, which got the same stream, has the same yard; None without a peer."""
    if not stores.peer:
        return None
    other, texts = stores.new('peer-year', folder=folder), streams.trade_without_end(IN_YARD, streams.Columns())
    peer = Stream(stores.peer, 'deliver', other)
    for _day in range(WEEKS * 7):
        peer.feed(list(itertools.islice(texts, DAY)))
    peer.close()
    return command(stores.office, 'report', store, 'yard') == command(stores.peer, 'report', other)


def refused(stores, store, columns):
    """Whether a line was refused: the yard's containers are others than the stream's."""
    lines = command(stores.office, 'report', store, 'yard').decode('latin-1').splitlines()[1:-1]
    return sorted(line.split(' ')[1] for line in lines) != columns.there()


def year(stores):
    """The rows of a year."""
    columns = streams.Columns()
    with tempfile.TemporaryDirectory(prefix='bench-', dir=IN_MEMORY) as folder:
        store = stores.new('year', folder=folder)
        taken = worked(stores, store, streams.trade_without_end(IN_YARD, columns))
        if refused(stores, store, columns):
            raise SystemExit('bench: lines of the year were refused')
        opening = processor(TURNS, stores.office, 'report', store, 'health')
        first = streams.gates(1, IN_YARD)
        repeated = Stream(stores.office, 'deliver', store, '-')
        repeat = repeated.feed(first).processor
        repeated.close()
        found = taken.rows() + [
            Row('opening after the year', 's', opening),
            Row('a repeat of the year\'s first interchange, which opens its archive', 's', repeat),
            Row('the store; its archives', 'MB', size_of(folder, 'year.db'), size_of(folder, 'archive-'))]
        if agrees_with_peer(stores, store, folder) is False:
            raise SystemExit('bench: office and peer have other yards after a year')
        return found
