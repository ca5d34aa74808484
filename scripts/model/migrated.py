"""Old stores brought over by the program, beside the model: scripts/beside.

Some are written by SQLite's own library from an office of the model that was played by old rules. Others, in real_stores,
are the files as the program of version 1 left them, the log beside each as it stood, with the set-up files and the streams
that it read. (It is commit 6bfb941, built by `rt try`, which proves nothing; the program was kept from its folder.) The model
has to come to the same rows by itself.
"""
import glob
import hashlib
import os
import random
import sqlite3
import tarfile
import tempfile
from contextlib import closing

from . import files
from .days import Day, streamed
from .events import Delivered
from .office import Office
from .old_stores import write_store
from .opened import fault_of_old_rows
from .reports import WHOLE
from .requests import every_key, random_requests
from .rows import OLD_COLUMNS, interchange_rows, rows_in, rows_of, standing_in
from .setup import DEMO, read_setup
from .setups import Files
from .stores import Program
from .stream import answers

REAL_STORES = sorted(glob.glob(os.path.join(os.path.dirname(os.path.abspath(__file__)), 'real_stores', '*.tar.xz')))
OLD_VERSIONS = (1, 2)

# bytes of a log before its first page: its own head, and the page's
LOG_HEAD, PAGE_HEAD = 32, 24

# lists that are played by old rules, deliveries before the migration and after it, texts of old times that come again, and
# requests after them
LISTS = 16
BEFORE, BEHIND = 24, 12
AGAIN = 8
REQUESTS = 20

# one list in so many stands in an order of another program's, with gaps between its rowids of up to so many
REORDERED = 4
GAP = 1000


def pages_logged(log):
    """A log that holds a whole page, which stands after its own head and that of the log; else nothing."""
    return log if len(log) >= LOG_HEAD + PAGE_HEAD + int.from_bytes(log[8:12], 'big') else b''


def contents(path):
    """A hash of the bytes of a file, and one of the log beside it. A log without a page says what none says: whoever opens a
    store, to read it alone, makes one."""
    def read(name):
        if not os.path.exists(name):
            return b''
        with open(name, 'rb') as file:
            return file.read()
    return [hashlib.sha256(text).hexdigest() for text in (read(path), pages_logged(read(path + '-wal')))]


# ---- the program's own stores of version 1

def unpacked(path, folder):
    """The files of a real store; gives the office that the model makes of them, and the day that goes on after them."""
    with tarfile.open(path) as archive:
        archive.extractall(folder)

    def text(name):
        return files.contents(os.path.join(folder, name))
    setup, _fault = read_setup(text('partners.csv'), text('blocks.csv'))
    office = Office(setup, keeps_fold=True, version=1)
    for name in sorted(name for name in os.listdir(folder) if name.endswith('.edi')):
        answers(office, text(name))
    return office


def check_real():
    """Whether the model comes to the rows of each real store. Gives how often it does not."""
    wrong = []
    for path in REAL_STORES:
        with tempfile.TemporaryDirectory(prefix='beside-') as folder:
            office = unpacked(path, folder)
            got = rows_in(os.path.join(folder, 'office.db'), OLD_COLUMNS)
            wrong += [] if got == (rows_of(office), []) and fault_of_old_rows(got[0]) is None else [path]
    print(''.join('wrong: %s\n' % path for path in wrong), end='')
    print('%d stores that the program of version 1 wrote, %d wrong' % (len(REAL_STORES), len(wrong)))
    return len(wrong)


# ---- one migration

def numbered(rows):
    """Rows as they stand in a new store: under the rowids 1, 2, 3 and so on."""
    return [(place, *row) for place, row in enumerate(rows, start=1)]


def as_kept(beside, name, program, office, chance):
    """What came stands as it came: the texts that the store keeps."""
    beside.expect('interchanges as they came', name, numbered(interchange_rows(office)), standing_in(program.store))
    beside.texts(name, program, office, chance)


def reordered(chance, office):
    """The interchanges of an office in another order, under rowids with gaps between them."""
    rows = interchange_rows(office)
    rowids = sorted(chance.sample(range(1, len(rows) * GAP + 1), len(rows)))
    return list(zip(rowids, chance.sample(rows, len(rows))))


def goes_over(beside, name, program, old, office):
    """A store is brought over, and the old one stays byte for byte; what is asked of it otherwise is refused."""
    before, stood = contents(old), [row for _rowid, *row in standing_in(old)]
    beside.expect('migrate', name, ('ready\n', '', 0), program.migrate(old))
    beside.expect('an old store stays', name, before, contents(old))
    office.migrate()
    beside.rows(name, program, office)
    beside.expect('interchanges as they stood', name, numbered(stood), standing_in(program.store))
    for words, fault in (
            (['migrate', old, program.store], 'Store'), (['report', old, 'yard'], 'Version'),
            (['migrate', program.store, program.store + '2'], 'Version')):
        beside.expect('migrate refused', name, ('', 'store: %s\n' % fault, 3), program.run(*words))
    beside.expect('an old store stays', name, before, contents(old))


def goes_on(beside, name, program, office, day, is_reordered=False):
    """All reports; texts of old times again, those that were refused and those that wait among them; more deliveries,
    requests, and the rows after them. The texts as they came, unless the old store had another order: then no request
    asks for them."""
    chance = random.Random('migrated %s' % name)
    if not is_reordered:
        as_kept(beside, name, program, office, chance)
    for kind, key in WHOLE + every_key(office):
        beside.report(name, program, office, kind, key)
    texts = [event.text for event in office.events if isinstance(event, Delivered) and event.text]
    again = chance.sample(texts, min(AGAIN, len(texts)))
    beside.deliver(name, program, office, '\n'.join(again))
    beside.deliver(name, program, office, streamed(day, BEHIND, 0.05))
    beside.rows(name, program, office)
    requests = random_requests(chance, day, office, REQUESTS)
    if is_reordered:
        requests = [request for request in requests if '/texts' not in request.lstrip('\r\n').split('\n', 1)[0]]
    beside.serve(name, program, office, requests)
    beside.rows(name, program, office)
    if not is_reordered:
        as_kept(beside, name, program, office, chance)


def try_played(beside, seed, version):
    """A store that the model played by old rules, of a random set-up or the demonstration's."""
    name = 'version %d, list %d' % (version, seed)
    files = Files(seed).both()
    setup = read_setup(*files)[0] or DEMO if seed % 3 else DEMO
    office, day = Office(setup, keeps_fold=True, version=version), Day('old %d' % seed, setup)
    answers(office, streamed(day, BEFORE, 0.03))
    with tempfile.TemporaryDirectory(prefix='beside-') as folder:
        program, old = Program(beside.path, folder), os.path.join(folder, 'old.db')
        is_reordered = seed % REORDERED == 0
        write_store(old, office, reordered(day.random, office) if is_reordered else None)
        beside.expect('old stores, the model', name, None, fault_of_old_rows(rows_in(old, OLD_COLUMNS)[0]))
        goes_over(beside, name, program, old, office)
        goes_on(beside, name, program, office, day, is_reordered)


def try_real(beside, path):
    """A store that the program of version 1 wrote."""
    with tempfile.TemporaryDirectory(prefix='beside-') as folder:
        office, name = unpacked(path, folder), os.path.basename(path)
        old, program = os.path.join(folder, 'office.db'), Program(beside.path, folder)
        program.store = os.path.join(folder, 'new.db')
        goes_over(beside, name, program, old, office)
        goes_on(beside, name, program, office, Day(name, office.setup))


# ---- what a migration is refused for

def try_faults(beside):
    """The first fault of two paths: that of the old store, then that of the new one."""
    with tempfile.TemporaryDirectory(prefix='beside-') as folder:
        program, other = Program(beside.path, folder), os.path.join(folder, 'other.db')
        old, link, text = (os.path.join(folder, name) for name in ('old.db', 'link.db', 'text.db'))
        missing, nowhere = os.path.join(folder, 'missing.db'), os.path.join(folder, 'none', 'new.db')
        write_store(old, Office(version=2))
        write_store(other, Office())
        os.symlink(old, link)
        program.file('text.db', 'no store')
        before = contents(old), contents(other), contents(text)
        for given, new, fault in (
                (missing, program.store, 'Store'), (missing, missing, 'Store'), (text, program.store, 'Store'),
                (folder, program.store, 'Store'), (other, program.store, 'Version'), (other, other, 'Version'),
                (other, old, 'Version'), (old, other, 'Store'), (old, old, 'Store'), (old, link, 'Store'),
                (link, old, 'Store'), (old, os.path.join(folder, '.', 'old.db'), 'Store'), (old, text, 'Store'),
                (old, folder, 'Store'), (old, nowhere, 'Store')):
            told = program.run('migrate', given, new)
            beside.expect('migrate refused', '%s to %s' % (given, new), ('', 'store: %s\n' % fault, 3), told)
        beside.expect('migrate refused', 'what was there', before, (contents(old), contents(other), contents(text)))
        beside.expect('migrate refused', 'a store that is missing', False, os.path.exists(missing))
        with closing(sqlite3.connect(old, isolation_level=None)) as holder:
            holder.execute('BEGIN IMMEDIATE')
            beside.expect('migrate refused', 'an old store that is held', ('', 'store: Store\n', 3), program.migrate(old))
            holder.execute('ROLLBACK')
        beside.expect('migrate', 'through a link', ('ready\n', '', 0), program.migrate(link))


def try_all(beside):
    """Faults, the stores of the program of version 1, and random ones of each old version."""
    try_faults(beside)
    for path in REAL_STORES:
        try_real(beside, path)
    for seed in range(1, LISTS + 1):
        try_played(beside, seed, OLD_VERSIONS[seed % len(OLD_VERSIONS)])
