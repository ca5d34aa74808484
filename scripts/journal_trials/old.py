"""Stores of versions 1, 2 and 3, migrated or opened, then rebuilt or followed as docs/OPERATIONS.md promises it.

A migrated store hands out all its texts as they came; it is followed by a standby that begins as a copy of it. That it can be
rebuilt from nothing is not promised: how often it can is counted. A store of version 3 that SQLite's own library wrote,
with pages of its own size, is opened, rebuilt and followed as any other.
"""
import os
import random
import sqlite3
import tempfile
from contextlib import closing

from hostile.books import Book, expect, naming
from hostile.working import run
from model.days import NEWCOMERS, Day
from model.deliveries import kept_texts
from model.migrated import REAL_STORES, unpacked
from model.office import Office
from model.old_stores import write_store
from model.rows import rows_in
from model.rules import NEWEST
from model.setups import files_of

from .follow import Standby, followed
from .offices import Made, are_same, copied_to, hands_out, page_size, rebuilt, rows_in_order, send, texts_of

EVERY = 5                   # lists for a store of each version
BEFORE, BEHIND = 40, 12     # deliveries before a store is opened, and after it at least
TURNS = 3


def write_as_it_came(path, office):
    """The store of an office, written by SQLite's own library, with the interchanges in the order in which they came."""
    write_store(path, office)
    place = {text.encode('latin-1'): count for count, text in enumerate(kept_texts(office.deliveries))}
    with closing(sqlite3.connect(path)) as store:
        rows = sorted(store.execute('SELECT * FROM interchange').fetchall(), key=lambda row: place[row[2]])
        store.execute('DELETE FROM interchange')
        store.executemany('INSERT INTO interchange VALUES (?, ?, ?, ?)', rows)
        store.commit()


def played(program, folder, seed, version):
    """A book whose store another program wrote, of a version: the old store, and the book, as yet without its own."""
    book = Book(program, folder, seed, NEWCOMERS)
    book.adds = version == NEWEST
    book.office = Office(book.office.opening, keeps_fold=True, version=version)
    for sent in book.upcoming(BEFORE):
        _answer = book.office.add_account(*sent) if isinstance(sent, tuple) else book.office.answer(sent)
        book.answered.append(sent)
    old = os.path.join(folder, 'old.db')
    write_as_it_came(old, book.office)
    return old, book


def real(program, folder, path):
    """The same of a store that the program of version 1 wrote, with its log beside it."""
    book = Book(program, folder, 1)
    book.office, old = unpacked(path, folder), os.path.join(folder, 'old.db')
    for end in ('', '-wal'):
        if os.path.exists(book.store + end):
            os.rename(book.store + end, old + end)
    book.files = [book.file(name, text) for name, text in zip(('partners.csv', 'blocks.csv'), files_of(book.office.opening))]
    book.day, book.chance = Day(path, book.office.setup, NEWCOMERS), random.Random('old')
    for delivery in book.office.deliveries:
        book.day.sent[delivery.partner].setdefault(delivery.number, delivery.text)
    return old, book


def brought_over(old, book, counted):
    """The old store is migrated; its texts stand in the new one as they stood, before all that come later."""
    came = [row[1:4] for row in rows_in_order(old)]
    expect('migrate', ('ready\n', '', 0), run(book.program, 'migrate', old, book.store))
    book.office.migrate()
    book.found(None)
    stand = rows_in_order(book.store)
    expect('the texts of an old store', came, [row[1:4] for row in stand])
    expect('their rowids', list(range(1, len(came) + 1)), [row[0] for row in stand])
    hands_out(book)
    counted['texts of old stores'] += len(came)


def goes_on(old, book, name, counted):
    """A migrated store: what comes later stands after the old texts, and a standby that begins as a copy of it follows."""
    brought_over(old, book, counted)
    before = rows_in_order(book.store)
    send(book, BEHIND)
    expect('the texts from before', [row[3] for row in before], [row[3] for row in rows_in_order(book.store)][:len(before)])
    with tempfile.TemporaryDirectory(prefix='journal-') as folder:
        copied_to(book.store, folder)
        followed(Copied(book, folder), counted, TURNS)
    counted['%s, migrated and followed' % name] += 1
    with tempfile.TemporaryDirectory(prefix='journal-') as folder:
        counted['%s, rebuilt from nothing all the same: %s' % (name, from_nothing(book, folder))] += 1


class Copied(Standby):
    """A standby whose first texts were taken by older rules, which a new office of the model has not: the rows that it has to
    have are those of the first at its end, and its texts are the front of the first's at any time."""

    def follows_in_model(self, first):
        """How many texts it has."""
        theirs, mine = ([row[1:4] for row in rows_in_order(store)] for store in (first.store, self.store))
        expect('texts, the first of the first\'s', theirs[:len(mine)], mine)
        expect('integrity and foreign keys', [], rows_in(self.store)[1])
        self.office = first.office
        return len(mine)


def from_nothing(book, folder):
    """Whether a new office that gets all texts has the rows of a migrated one."""
    made = Made(book, folder)
    run(made.program, 'init', made.store, *made.files)
    made.takes_accounts_of(book)
    run(made.program, 'deliver', made.store, made.file('all.edi', texts_of(book)[0]))
    return 'the same rows' if rows_in(made.store) == rows_in(book.store) else 'other rows'


def opened(program, seed, size, counted):
    """A store of the newest version with pages of that size: opened, handed out, rebuilt, and followed."""
    with tempfile.TemporaryDirectory(prefix='journal-') as folder:
        path, book = played(program, folder, seed, NEWEST)
        os.rename(path, book.store)
        with closing(sqlite3.connect(book.store, isolation_level=None)) as store:
            store.execute('PRAGMA page_size=%d' % size)
            store.execute('VACUUM')
        hands_out(book)
        send(book, BEHIND)
        expect('the size of a page', size, page_size(book.store))
        with tempfile.TemporaryDirectory(prefix='journal-') as other:
            are_same(book, rebuilt(book, other))
        with tempfile.TemporaryDirectory(prefix='journal-') as other:
            followed(Standby(book, other).init(), counted, TURNS)
    counted['version 3, pages of %d, opened, rebuilt and followed' % size] += 1


def try_all(program, lists, seed, counted):
    """Each real store of version 1, and some of each version that the model played."""
    for path in REAL_STORES:
        with tempfile.TemporaryDirectory(prefix='journal-') as folder:
            goes_on(*real(program, folder, path), 'version 1, of its program', counted)
    for each in range(seed, seed + -(-lists // EVERY)):
        with naming('seed %d' % each):
            for version in (1, 2):
                with tempfile.TemporaryDirectory(prefix='journal-') as folder:
                    goes_on(*played(program, folder, each, version), 'version %d' % version, counted)
            opened(program, each, [4096, 512, 8192, 2048, 65536][each % 5], counted)
