"""The stores of damaged.txt: what the model says of their rows, and what the program tells as it opens each. A store
that is refused has the same rows after it. The same of old stores, which the program is to bring to the newest version: one
that is refused leaves no table behind, and each stays as it is.
"""
import os
import re
import shutil
import sqlite3
import tempfile

from .office import Office
from .old_stores import write_store
from .opened import fault_of_old_rows, fault_of_rows
from .reports import text_of
from .rows import OLD_COLUMNS, VERSION, faults_of, tables_of
from .setup import DEMO
from .setups import files_of
from .stores import Program

FILE = os.path.join(os.path.dirname(os.path.abspath(__file__)), 'damaged.txt')
SETUP = DEMO._replace(partners={'HAULA': 'gate', 'LINEA': 'line'}, most_visits=1000)
NOTHING = 'nothing'
FAULTS = (NOTHING, 'Damaged', 'Version', 'Store')
GATE_IN = (
    "UNB+UNOA:3+HAULA+TERM1+240305:0910+2'UNH+1+CODECO:D:95B:UN'BGM+34+G1+9'EQD+CN+ABCU0000038+22G1:102:5+++5'UNT+4+1'"
    "UNZ+1+2'")


def lines_said():
    """The lines of the file: a word, and what stands after it."""
    with open(FILE, encoding='utf-8') as file:
        said = [line.rstrip('\n').partition(' ')[::2] for line in file if line.strip() and not line.startswith('#')]
    if not all(word in FAULTS or word in ('row', 'old') for word, _rest in said):
        raise ValueError('damaged.txt: a line begins with another word')
    return said


def cases():
    """The statements that each store begins with, and of each store the fault and what changes it."""
    said = lines_said()
    return [rest for word, rest in said if word == 'row'], [(word, rest) for word, rest in said if word in FAULTS]


def old_cases():
    """Of each old store the fault and what changes it: all that name neither weights nor the version, and those that are for
    old stores alone."""
    said = [(word, rest) for word, rest in lines_said() if word in FAULTS and not re.search("kilos|'version'", rest)]
    said += [tuple(rest.split(' ', 1)) for word, rest in lines_said() if word == 'old']
    return [(fault, re.sub(r'(INSERT INTO visit VALUES \([^()]*), \d+\)', r'\1)', rest)) for fault, rest in said]


# ---- changing a store

def changed(path, change):
    """Carries out what a line says on a store's file."""
    word, _space, rest = change.partition(' ')
    if word == 'cut':
        os.truncate(path, int(rest))
    elif word == 'bytes':
        place, _space, text = rest.partition(' ')
        with open(path, 'r+b') as file:
            file.seek(int(place))
            file.write(text.encode('ascii'))
    elif word == 'loosely':
        with_store(path, loosely, rest)
    else:
        with_store(path, sqlite3.Connection.executescript, change)


def with_store(path, act, *given):
    """Opens a store, acts on it and closes it, so that all is in the one file."""
    store = sqlite3.connect(path)
    try:
        return act(store, *given)
    finally:
        store.close()


def loosely(store, statements):
    """Carries out statements that the tables' schema would refuse, and leaves the schema as it was."""
    schema = store.execute("SELECT sql, name FROM sqlite_schema WHERE type = 'table' AND sql IS NOT NULL").fetchall()
    with_schema(store, [(sql.replace(' NOT NULL', '').replace(' STRICT', ''), name) for sql, name in schema])
    store.executescript(statements)
    with_schema(store, schema)


def with_schema(store, schema):
    """Writes other texts for the tables of these names."""
    store.execute('PRAGMA writable_schema = ON')
    store.executemany("UPDATE sqlite_schema SET sql = ? WHERE type = 'table' AND name = ?", schema)
    store.commit()
    store.execute('PRAGMA writable_schema = RESET')


# ---- what a store holds

def read_by_sqlite(path, columns=None):
    """The rows of each table, and what SQLite's own library finds wrong; no rows of a file that is no database."""
    def read(store):
        store.text_factory = lambda text: text.decode('utf-8', 'surrogateescape')
        try:
            return tables_of(store, columns), faults_of(store)
        except sqlite3.DatabaseError as fault:
            return {}, [str(fault)]
    return with_store(path, read)


def yard_of(tables):
    """The report of a yard, by the rows."""
    visits = {visit: (size, 'FULL' if laden else 'EMPTY') for visit, _box, size, laden, *_others in tables['visit']}
    lines = sorted('%s %s %s %s' % (slot, box, *visits[visit]) for box, visit, slot in tables['place'])
    return text_of(['YARD'] + lines + ['%d CONTAINERS' % len(lines)])


def held(path):
    """What must stay: the rows; of a file that has no tables, its bytes."""
    tables, _faults = read_by_sqlite(path)
    with open(path, 'rb') as file:
        return tables or file.read()


# ---- trials

def judged(path):
    """The fault of a store by the model, which knows what rows an office has, and leaves what a schema allows to SQLite."""
    tables, faults = read_by_sqlite(path)
    return 'Store' if faults else fault_of_rows(tables) or NOTHING


def old_judged(path):
    """The fault of an old store by the model."""
    tables, faults = read_by_sqlite(path, OLD_COLUMNS)
    return 'Store' if faults else fault_of_old_rows(tables) or NOTHING


def brought_over(tables):
    """The tables of the newest version that come of those of an old one."""
    return {
        **tables, 'visit': [(*visit, 0) for visit in tables['visit']],
        'setting': sorted((name, VERSION if name == 'version' else value) for name, value in tables['setting'])}


def make_old(path, version):
    """Turns the store of each line's beginning into one of an old version, by SQLite's own library."""
    with_store(path, sqlite3.Connection.executescript, (
        "ALTER TABLE visit DROP COLUMN kilos; UPDATE setting SET value = '%d' WHERE name = 'version'; VACUUM" % version))


def try_old(beside, program, old, fault, change):
    """Brings a changed old store over."""
    beside.expect('changed old stores, the model', change, fault, old_judged(old))
    tables, _faults = read_by_sqlite(old, OLD_COLUMNS)
    with open(old, 'rb') as file:
        before = file.read()
    done = ('ready\n', '', 0) if fault == NOTHING else ('', 'store: %s\n' % fault, 3)
    beside.expect('changed old stores, migrate', change, done, program.migrate(old))
    wanted, got = brought_over(tables) if fault == NOTHING else {}, {}
    if os.path.exists(program.store):
        got, _faults = read_by_sqlite(program.store)
    beside.expect('changed old stores, rows', change, wanted, got)
    with open(old, 'rb') as file:
        beside.expect('changed old stores, the old one', change, before, file.read())


def try_one(beside, program, fault, change):
    """Opens a changed store by a report and by a delivery."""
    beside.expect('changed stores, the model', change, fault, judged(program.store))
    tables, _faults = read_by_sqlite(program.store)
    before = held(program.store)
    if fault == NOTHING:
        reported, delivered, text = (yard_of(tables), '', 0), ('', '', 0), ''
    else:
        reported = delivered = '', 'store: %s\n' % fault, 3
        text = GATE_IN
    beside.expect('changed stores, report', change, reported, program.report('yard', ''))
    beside.expect('changed stores, deliver', change, delivered, program.deliver(text))
    beside.expect('changed stores, rows', change, before, held(program.store))


def judge_all():
    """Each store of damaged.txt by the model alone. Gives how many it judges otherwise."""
    rows, changes = cases()
    wrong = []
    with tempfile.TemporaryDirectory(prefix='beside-') as folder:
        made, old, other = (os.path.join(folder, name) for name in ('made', 'old', 'changed'))
        write_store(made, Office(SETUP))
        for row in rows:
            changed(made, row)
        shutil.copyfile(made, old)
        make_old(old, 1)
        for store, judge, said in ((made, judged, changes), (old, old_judged, old_cases())):
            for fault, change in said:
                shutil.copyfile(store, other)
                changed(other, change)
                if judge(other) != fault:
                    wrong.append('wrong: %s is %s, by the model %s' % (change, fault, judge(other)))
    print('\n'.join(wrong + ['%d changed stores, %d wrong' % (len(changes) + len(old_cases()), len(wrong))]))
    return len(wrong)


def try_all(beside):
    """Each store of damaged.txt."""
    rows, changes = cases()
    with tempfile.TemporaryDirectory(prefix='beside-') as folder:
        made = Program(beside.path, folder)
        beside.expect('changed stores, init', 'init', ('ready\n', '', 0), made.init(*files_of(SETUP)))
        for row in rows:
            changed(made.store, row)
        for fault, change in changes:
            with tempfile.TemporaryDirectory(prefix='beside-') as other:
                program = Program(beside.path, other)
                shutil.copyfile(made.store, program.store)
                changed(program.store, change)
                try_one(beside, program, fault, change)


def try_all_old(beside):
    """Each store of damaged.txt as one of version 1, and those that are for old stores alone as one of version 2 too."""
    rows, _changes = cases()
    with tempfile.TemporaryDirectory(prefix='beside-') as folder:
        for version in (1, 2):
            made = os.path.join(folder, 'version%d' % version)
            write_store(made, Office(SETUP))
            for row in rows:
                changed(made, row)
            make_old(made, version)
            for fault, change in old_cases():
                if version == 2 and "'version'" not in change:
                    continue
                with tempfile.TemporaryDirectory(prefix='beside-') as other:
                    old = os.path.join(other, 'old.db')
                    shutil.copyfile(made, old)
                    changed(old, change)
                    try_old(beside, Program(beside.path, other), old, fault, change)
