"""What the tables of a store hold after all deliveries, and what a store's file holds: docs/TABLES.md.

Tables are compared up to order: they are dicts of sorted lists of rows.
"""
import os
import shutil
import sqlite3
import tempfile
from contextlib import closing, contextmanager

from .deliveries import kept, run
from .lookups import own_lines, own_visits
from .names import slot_text
from .office import json_text
from .naming import SIDES
from .rules import NEWEST, RULES
from .setup import KINDS

COLUMNS = {
    'partner': 'id code kind next',
    'interchange': 'partner number body reply',
    'visit': (
        'visit box size laden booking in_by in_partner in_number in_at in_slot out_by out_partner out_number out_at kilos'),
    'place': 'box visit slot',
    'listed': 'vessel voyage side box port done',
    'setting': 'name value',
    'block': 'letter bays lanes tiers',
}
# those of the register beside a store
REGISTER_COLUMNS = {
    'archive': 'place file visits', 'segment': 'partner archive last', 'closed_for': 'file',
    'settled': 'vessel voyage side archive lines', 'taken': 'partner archive last', 'sealed': 'archive terminal seals'}
REGISTER = '-archives'
# what stands after the path of a store in the names of its files
ENDS = ('', '-wal', REGISTER, REGISTER + '-wal')
VERSION = str(NEWEST)
OLD_VERSIONS = {str(version) for version in RULES} - {VERSION}
# before the newest version a visit had no weight
OLD_COLUMNS = dict(COLUMNS, visit=COLUMNS['visit'].replace(' kilos', ''))
WAYS = {'gate': 1, 'ship': 2}


# ---- what they should hold

def identities(setup):
    """1, 2 and so on, in the order of the set-up, and then in that in which accounts were added."""
    return {code: place for place, code in enumerate(setup.partners, start=1)}


def partner_rows(office):
    """The number that each sends next."""
    setup, deliveries = office.setup, office.deliveries
    return [
        (identity, code, KINDS.index(setup.partners[code]) + 1, run(deliveries, code) + 1)
        for code, identity in identities(setup).items()]


def interchange_rows(office):
    """The first text under each number that is used and not closed, with its reply where it was taken, in the order in which
    they came."""
    replies, known = office.fold().replies, identities(office.setup)
    return [
        (known[partner], number, text.encode('latin-1'),
         json_text(replies[partner, number]) if (partner, number) in replies else '')
        for partner, number, text in kept(office.deliveries) if office.archive_of(partner, number) is None]


def passage_columns(office, passage):
    """By gate or ship, partner, number, moment. A visit that is open has no exit."""
    if passage is None:
        return 0, 0, 0, ''
    partner, number = passage.source
    return WAYS[passage.way], identities(office.setup)[partner], number, passage.moment


def visit_rows(office):
    """All visits, numbered as they were opened, but for those that a closing took."""
    return [
        (place, visit.number, visit.size_type, int(visit.is_full), visit.booking, *passage_columns(office, visit.entry),
         slot_text(visit.entry_slot), *passage_columns(office, visit.exit),
         *([visit.kilos] if office.version == NEWEST else []))
        for place, visit in own_visits(office)]


def place_rows(office):
    """Where each container stands, and by which visit."""
    terminal = office.fold().terminal
    return [
        (visit.number, place, slot_text(terminal.yard[visit.number].slot))
        for place, visit in enumerate(terminal.visits, start=1) if visit.exit is None]


def listed_rows(office):
    """The lines of all lists, but for those that are away."""
    return [
        (*call, SIDES[side], number, line.port, int(line.is_done))
        for (call, side, number), line in own_lines(office).items()]


def setting_rows(office):
    """The set-up: the version of the tables, and each number without leading zeros."""
    setup = office.setup
    return [('version', str(office.version)), ('terminal', setup.terminal), ('visits', str(setup.most_visits)), *setup.codes.items()]


def block_rows(office):
    """The plan of the yard; lanes are rows of slots."""
    return [(block.letter, block.bays, block.rows, block.tiers) for block in office.setup.plan]


def rows_of(office):
    """What each table should hold."""
    tables = {
        'partner': partner_rows, 'interchange': interchange_rows, 'visit': visit_rows, 'place': place_rows,
        'listed': listed_rows, 'setting': setting_rows, 'block': block_rows}
    return {name: sorted(of(office)) for name, of in tables.items()}


def register_rows(office):
    """What the tables of the register beside it should hold."""
    return rows_of_register(office.register)


def rows_of_register(register):
    """What the tables of a register should hold."""
    return {
        'archive': sorted(map(tuple, register.archives)), 'segment': sorted(map(tuple, register.segments)),
        'closed_for': [(register.mark,)] if register.mark else [], 'settled': sorted(map(tuple, register.lists)),
        'taken': sorted(map(tuple, register.taken)), 'sealed': sorted(map(tuple, register.sealed))}


# ---- what a store holds

def copy_files(path, other):
    """Copies the files of a store, its log and its register among them, in place of whatever has the names of the other's."""
    for end in ENDS:
        if os.path.exists(other + end):
            os.remove(other + end)
        if os.path.exists(path + end):
            shutil.copyfile(path + end, other + end)


def copied_to(path, folder):
    """A copy of a store, and of the log beside it, if there is one, in a folder; gives its path."""
    copy = os.path.join(folder, 'office.db')
    for end in ('', '-wal'):
        if os.path.exists(path + end):
            shutil.copyfile(path + end, copy + end)
    return copy


@contextmanager
def copied(path):
    """A copy of a store, opened by SQLite's own library, so that the store is left as it is."""
    with tempfile.TemporaryDirectory(prefix='beside-') as folder:
        with closing(sqlite3.connect(copied_to(path, folder))) as store:
            yield store


def rows_in(path, columns=None):
    """What the tables of a store hold, and what SQLite itself finds wrong with it. The columns are the newest, if none are
    named."""
    with copied(path) as store:
        try:
            return tables_of(store, columns), faults_of(store)
        except sqlite3.DatabaseError as fault:
            return {}, [str(fault)]


def registered_in(path):
    """What the tables of the register beside a store hold, and what is wrong with it; no rows, where there is none."""
    if not os.path.exists(path + REGISTER):
        return {table: [] for table in REGISTER_COLUMNS}, []
    return rows_in(path + REGISTER, REGISTER_COLUMNS)


def standing_in(path):
    """The interchanges of a store as they stand, each after its rowid."""
    with copied(path) as store:
        return store.execute('SELECT rowid, * FROM interchange ORDER BY rowid').fetchall()


def tables_of(store, columns=None):
    """All rows of each table, with the tables by the names that the store has."""
    columns = columns or COLUMNS
    names = [name for (name,) in store.execute("SELECT name FROM sqlite_schema WHERE type = 'table'")]
    tables = {name: 'no such columns' for name in names}
    for name in set(names) & set(columns):
        found = [column[1] for column in store.execute('PRAGMA table_info(%s)' % name)]
        if found == columns[name].split():
            tables[name] = sorted(store.execute('SELECT * FROM %s' % name))
    return tables


def faults_of(store):
    """What is wrong by SQLite's own checks: nothing, of a sound store."""
    checked = [line for (line,) in store.execute('PRAGMA integrity_check') if line != 'ok']
    return checked + [str(row) for row in store.execute('PRAGMA foreign_key_check')]
