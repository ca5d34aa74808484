"""Single bits that turn over in a store's file and in its log, beside what SQLite's own library reads of the same bytes."""
import os
import random
import sqlite3
import tempfile
from contextlib import closing

from model.damaged import yard_of
from model.files import flip
from model.opened import fault_of_rows
from model.rows import COLUMNS, copied, copied_to, faults_of, rows_of, tables_of

from .books import expect, prefilled
from .working import Served, run

FLIPS = 1000                # half of them in a file that holds all, half in the log of one that holds nothing yet
BEFORE = 60                 # deliveries
TABLES = set(COLUMNS)


def settled(store, folder):
    """A copy whose log SQLite's own library has moved into the file."""
    path = copied_to(store, folder)
    with closing(sqlite3.connect(path)) as other:
        other.execute('SELECT count(*) FROM visit').fetchall()
    expect('a log behind SQLite', False, os.path.exists(path + '-wal'))
    return path


def read_by_sqlite(path):
    """The rows that SQLite's own library reads of a copy, and what it finds wrong."""
    with copied(path) as store:
        store.text_factory = lambda text: text.decode('utf-8', 'surrogateescape')
        try:
            return tables_of(store), faults_of(store)
        except (sqlite3.DatabaseError, UnicodeError) as fault:
            return None, [str(fault)]


def replies_of(tables):
    """The kept replies of the rows, by a partner's code and the number."""
    codes = {identity: code for identity, code, *_others in tables['partner']}
    return {(codes.get(partner), number): reply for partner, number, _body, reply in tables['interchange'] if reply}


def told(program, store, keys):
    """What the program tells of a store: the yard and the kept replies, or the fault of its opening."""
    yard, fault, status = run(program, 'report', store, 'yard')
    if status:
        return fault.strip(), {}
    replies = {}
    with Served(program, store, len(keys)) as served:
        for code, number in keys:
            head, _end, body = served.exchange('GET /replies/%s/%d HTTP/1.1\r\n\r\n' % (code, number)).partition('\r\n\r\n')
            if ' 200 ' in head.split('\r\n')[0]:
                replies[code, number] = body.encode('latin-1').decode('utf-8')
    return yard, replies


def kind_of(tables, faults, earlier):
    """What SQLite reads: the rows after so many answers, other rows, or none."""
    if tables is None or faults:
        return 'SQLite finds it damaged'
    if tables == earlier[-1]:
        return 'the rows are as they were'
    if tables in earlier:
        return 'the rows are those of an earlier moment'
    return 'the rows are other ones' if set(tables) == TABLES else 'other tables'


def compare(what, tables, faults, answer):
    """The program tells what the rows say that SQLite reads, or refuses to open the store."""
    yard, replies = answer
    if yard.startswith('store: '):
        return yard
    if tables is None or faults:
        return 'told, as far as it was read'
    expect('%s: rows of an office' % what, None, fault_of_rows(tables))
    expect('%s: the yard' % what, yard_of(tables), yard)
    kept = replies_of(tables)
    for key, body in replies.items():
        expect('%s: the reply %s/%d' % (what, *key), True, kept.get(key, '"answer":"waiting"') in body)
    return 'told, as SQLite reads it'


def moments(book):
    """The rows after each answer of the store."""
    office, earlier = type(book.office)(book.office.setup, keeps_fold=True), []
    for text in book.answered:
        earlier.append(rows_of(office))
        office.answer(text)
    return earlier + [rows_of(office)]


def try_one(program, what, store, end, chance, earlier, keys):
    """One bit of a copy; gives what was found."""
    with tempfile.TemporaryDirectory(prefix='flips-') as folder:
        path = copied_to(store, folder)
        flip(path + end, chance)
        tables, faults = read_by_sqlite(path)
        kind = kind_of(tables, faults, earlier)
        return '%s; %s' % (kind, compare(what, tables, faults, told(program, path, keys)))


def try_all(program, seed, counted):
    """Bits of a file that holds all, and of a log, in turn."""
    chance = random.Random('flips %s' % seed)
    with tempfile.TemporaryDirectory(prefix='flips-') as top, tempfile.TemporaryDirectory(prefix='flips-') as other:
        book = prefilled(program, top, seed, BEFORE)
        earlier = moments(book)
        keys = sorted(key for key in replies_of(earlier[-1]) if key[0].isalnum())
        stores = ('in the file', settled(book.store, other), ''), ('in the log', book.store, '-wal')
        for count in range(FLIPS):
            where, store, end = stores[count % 2]
            what = 'flip %d of seed %s, %s' % (count, seed, where)
            counted['%s: %s' % (where, try_one(program, what, store, end, chance, earlier, keys))] += 1
