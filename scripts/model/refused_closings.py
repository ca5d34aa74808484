"""What a closing is refused for, and what is refused of a store that was closed, beside the model: scripts/beside.

A closing that is refused changes nothing. The model judges two offices by their rows (closing.py); what is wrong with a file is
said here.
"""
import copy
import os
import re
import shutil
import sqlite3
import tempfile
from contextlib import closing

from .commands import outcome
from .days import Day
from .office import Office
from .old_stores import write_store
from .opened import fault_of_rows
from .register import Archive, Register, Sealed, Segment, Settled, is_sound
from .rows import ENDS, REGISTER, REGISTER_COLUMNS, copy_files, registered_in, rows_in, rows_of
from .setup import DEMO, with_accounts
from .setups import files_of
from .stores import Program
from .vessels import REPORTED, Vessels

DELIVERIES = 30             # before a copy
MORE = 12                   # between two
OTHER = DEMO._replace(terminal='TERM2')
FEWER = DEMO._replace(partners=dict(list(DEMO.partners.items())[:-1]))
TURNED = DEMO._replace(partners=dict(reversed(DEMO.partners.items())))

# what makes a register unsound
UNSOUND = [
    'UPDATE archive SET place = 2', 'UPDATE archive SET place = 0', "UPDATE archive SET file = 'a/b'",
    "UPDATE archive SET file = ''", 'UPDATE archive SET visits = -1', 'UPDATE archive SET visits = 1000000000',
    "INSERT INTO archive VALUES (3, 'b', 1)", "INSERT INTO archive VALUES (2, 'b', 0)", 'UPDATE segment SET archive = 2',
    'UPDATE segment SET last = 0 WHERE partner = 1', 'UPDATE segment SET last = 1000000000',
    'UPDATE segment SET partner = 1000 WHERE partner = 1', 'UPDATE segment SET partner = 0 WHERE partner = 1',
    "INSERT INTO closed_for VALUES ('a/b')", "INSERT INTO closed_for VALUES ('')",
    'DELETE FROM archive', 'DELETE FROM segment', "UPDATE archive SET file = '%s'" % ('a' * 256),
    "INSERT INTO closed_for VALUES ('a'), ('b')", "INSERT INTO settled VALUES ('9123456', 'V12', 1, 2, '')",
    "INSERT INTO settled VALUES ('9123456', 'V12', 1, 0, '')", "INSERT INTO settled VALUES ('9123456', 'V12', 0, 1, '')",
    "INSERT INTO settled VALUES ('9123456', 'V12', 3, 1, '')", "INSERT INTO settled VALUES ('', 'V12', 1, 1, '')",
    "INSERT INTO settled VALUES ('9123456', 'V' || char(9), 2, 1, '')",
    "INSERT INTO settled VALUES ('%s', 'V12', 2, 1, '')" % ('V' * 36), 'UPDATE taken SET archive = 2',
    'UPDATE taken SET last = 0 WHERE partner = 1', 'UPDATE taken SET last = 1000000000',
    'UPDATE taken SET partner = 1000 WHERE partner = 1', 'UPDATE taken SET partner = 0 WHERE partner = 1',
    'INSERT INTO taken VALUES (1, 0, 1)', 'UPDATE sealed SET archive = 2', 'UPDATE sealed SET archive = 0',
    "UPDATE sealed SET terminal = ''", "UPDATE sealed SET terminal = '%s'" % ('T' * 36)]
EMPTIED = ''.join('DELETE FROM %s;' % table for table in REGISTER_COLUMNS)
# what makes lines of lists unreadable
UNREADABLE = [
    "UPDATE settled SET lines = ''", "UPDATE settled SET lines = substr(lines, 1, length(lines) - 1)",
    "UPDATE settled SET lines = 'X' || lines", "UPDATE settled SET lines = lines || char(10)"]
# what makes one that its store doesn't fit
UNFIT = [
    'UPDATE segment SET last = last + 1 WHERE partner = 1',
    'UPDATE segment SET last = last - 1 WHERE partner = 1 AND last > 1',
    'DELETE FROM segment WHERE partner = 1', 'UPDATE archive SET visits = 0', "UPDATE sealed SET terminal = 'TERM2'"]
# what makes an archive another one than the store in what goes
CHANGED = [
    "UPDATE interchange SET body = CAST(body || x'0A' AS BLOB) WHERE partner = 1 AND number = 1",
    "UPDATE interchange SET reply = reply || ' ' WHERE partner = 1 AND number = 1",
    'UPDATE visit SET kilos = kilos + 1 WHERE visit = (SELECT min(visit) FROM visit WHERE out_by > 0)',
    "UPDATE visit SET booking = 'X' || booking WHERE visit = (SELECT min(visit) FROM visit WHERE out_by > 0)",
    "UPDATE visit SET in_at = '202403050911' WHERE visit = (SELECT min(visit) FROM visit WHERE out_by > 0)",
    "UPDATE setting SET value = 'TERM3' WHERE name = 'terminal'", 'UPDATE partner SET kind = 4 WHERE id = 1',
    "UPDATE partner SET code = 'HAULZ' WHERE id = 1"]
# what makes one whose texts are not the first of the store's, in the order in which they came: the last of them came first; a
# text waits that the store never had, after all others or before them
REORDERED = [
    'UPDATE interchange SET rowid = -rowid',
    'UPDATE interchange SET rowid = -rowid WHERE rowid = (SELECT max(rowid) FROM interchange)',
    "INSERT INTO interchange SELECT partner, 900000, body, '' FROM interchange WHERE rowid = 1",
    "INSERT INTO interchange (rowid, partner, number, body, reply) SELECT -1, partner, 900000, body, '' FROM interchange "
    'WHERE rowid = 1']


def files_in(path):
    """What SQLite's own library reads of a store and of its register."""
    return rows_in(path), registered_in(path)[0]


def remove(path, ends):
    """Removes these files of a store, if they are there."""
    for end in ends:
        if os.path.exists(path + end):
            os.remove(path + end)


def edit(path, statements):
    """Carries out statements on a database, which is left in the one file."""
    with closing(sqlite3.connect(path)) as store:
        store.executescript(statements)


class Room:
    """Stores in a folder, each with its office, by their paths."""

    def __init__(self, beside, folder):
        self.beside, self.folder, self.offices = beside, folder, {}

    def path(self, name):
        """A path in the folder."""
        return os.path.join(self.folder, name)

    def program(self, name):
        """The program over that store."""
        program = Program(self.beside.path, self.folder)
        program.store = self.path(name)
        return program

    def make(self, name, day=None, count=0, setup=DEMO):
        """A store to which so much was delivered."""
        self.offices[self.path(name)] = self.beside.init(name, self.program(name), files_of(setup))
        self.deliver(name, [day.delivery() for _delivery in range(count)])

    def deliver(self, name, texts):
        """Texts to a store."""
        self.beside.deliver(name, self.program(name), self.offices[self.path(name)], '\n'.join(texts))

    def copy(self, name, other):
        """A copy of a store's files."""
        copy_files(self.path(name), self.path(other))
        self.offices[self.path(other)] = copy.deepcopy(self.offices[self.path(name)])

    def close(self, name, other, wanted=None):
        """A closing, as the model has it unless its answer is given. What is refused changes nothing."""
        beside, paths = self.beside, (self.path(name), self.path(other))
        before = [files_in(path) for path in paths if os.path.isfile(path)]
        wanted = wanted or outcome(self.offices, ['close', *paths])
        what, given = '%s, %s' % (name, other), self.program(name).close(paths[1])
        beside.expect('close, ' + (wanted[0] or wanted[1]).strip(), what, wanted, given)
        if wanted[2]:
            after = [files_in(path) for path in paths if os.path.isfile(path)]
            beside.expect('refused, nothing changed', what, before, after)
            return
        for path in paths:
            beside.expect('closed, the rows', path, (rows_of(self.offices[path]), []), rows_in(path))
            beside.register(path, path, self.offices[path])

    def make_closed(self, day):
        """A store to which texts were delivered, closed by a copy of it."""
        self.make('office.db', day, DELIVERIES)
        self.copy('office.db', 'first.db')
        self.close('office.db', 'first.db')


def told(fault):
    """What a command says of a store."""
    return '', 'store: %s\n' % fault, 3


# ---- refused closings

def try_files(room, day):
    """Files that are no archive, whatever is in them."""
    room.make('office.db', day, DELIVERIES)
    room.copy('office.db', 'copy.db')
    room.program('').file('text.db', 'no store')
    room.program('').file('empty.db', '')
    os.mkdir(room.path('folder.db'))
    os.symlink(room.path('office.db'), room.path('link.db'))
    write_store(room.path('old.db'), Office(version=2))
    room.copy('office.db', 'damaged.db')
    edit(room.path('damaged.db'), 'UPDATE partner SET next = next + 1 WHERE id = 1')
    for name, fault in (
            ('missing.db', 'Store'), ('text.db', 'Store'), ('empty.db', 'Store'), ('folder.db', 'Store'),
            ('old.db', 'Version'), ('damaged.db', 'Damaged')):
        room.close('office.db', name, told(fault))
        room.beside.expect('close, the other way', name, told(fault), room.program(name).close(room.path('copy.db')))
    for name in ('office.db', 'link.db'):
        room.close('office.db', name, told('Store'))
    room.beside.expect('close', 'a store that is missing', False, os.path.exists(room.path('missing.db')))
    for name in ('office.db', 'copy.db'):
        with closing(sqlite3.connect(room.path(name), isolation_level=None)) as holder:
            holder.execute('BEGIN IMMEDIATE')
            given = room.program('office.db').close(room.path('copy.db'))
            room.beside.expect('close, held', name, told('Store'), given)
            holder.execute('ROLLBACK')
    room.close('office.db', 'copy.db')


def try_copies(room, day):
    """Stores that are no copy of this one, or of another day."""
    room.make('office.db', day, DELIVERIES)
    for name, setup, count in (('other.db', OTHER, 0), ('turned.db', TURNED, 0), ('more.db', with_accounts(20), 0),
                               ('fewer.db', FEWER, 0), ('none.db', DEMO, 0), ('same.db', DEMO, 8)):
        room.make(name, Day('another', setup), count, setup)
        room.close('office.db', name)
    for place, change in enumerate(CHANGED + REORDERED):
        room.copy('office.db', 'changed%d.db' % place)
        edit(room.path('changed%d.db' % place), change)
        room.close('office.db', 'changed%d.db' % place, told('Archive'))
    room.copy('office.db', 'early.db')
    room.deliver('office.db', [day.delivery() for _delivery in range(MORE)])
    room.copy('office.db', 'late.db')
    room.copy('early.db', 'behind.db')
    room.close('behind.db', 'late.db')
    os.mkdir(room.path('folder'))
    room.copy('office.db', 'folder/copy.db')
    room.close('office.db', 'folder/copy.db')


def try_orders(room, day):
    """A store for which an older day was put back, and to which the texts since came in another order."""
    room.make('office.db', day, DELIVERIES)
    room.copy('office.db', 'early.db')
    texts = [day.delivery() for _delivery in range(MORE)]
    room.deliver('office.db', texts)
    room.copy('office.db', 'copy.db')
    room.copy('early.db', 'restored.db')
    room.deliver('restored.db', texts[::-1])
    room.close('restored.db', 'copy.db')
    room.close('restored.db', 'early.db')


def try_lacking(room, day):
    """Copies that close no number: of a day before other texts came, and of now."""
    room.make('office.db', day, DELIVERIES)
    room.copy('office.db', 'first.db')
    room.close('office.db', 'first.db')
    room.copy('office.db', 'second.db')
    room.deliver('office.db', [day.delivery() for _delivery in range(MORE)])
    room.close('office.db', 'second.db')
    room.copy('office.db', 'third.db')
    room.close('office.db', 'third.db')
    room.copy('office.db', 'fourth.db')
    room.close('office.db', 'fourth.db')


# closings in another order, and archives of another store, one after the other: copies, closings, and deliveries between them
MARKS = '''
    copy office first; copy office unclosed; copy office second
    close office first; close office first; close office second; close unclosed first; close first second; close first office
    deliver
    close office first; copy office third; close unclosed third; close office third; close office first; close third first
    copy office fourth; close office fourth; close office fourth
'''


def try_marks(room, day):
    """Closings in another order, and archives of another store."""
    room.make('office.db', day, DELIVERIES)
    for step in re.split(r'[;\n]+', MARKS.strip()):
        what, *stores = step.split()
        paths = ['%s.db' % store for store in stores]
        if what == 'deliver':
            room.deliver('office.db', [day.delivery() for _delivery in range(MORE)])
        elif what == 'copy':
            room.copy(*paths)
        else:
            room.close(*paths)


# ---- what lies beside a store

def try_beside(room, day):
    """A store can't be made beside a register that names an archive or a store; beside an empty one it can."""
    room.make_closed(day)
    write_store(room.path('old.db'), Office(version=2))
    new, texts = room.path('new.db'), files_of(DEMO)
    files = [room.program('').file(name, text) for name, text in zip(('partners.csv', 'blocks.csv'), texts)]
    for name in ('office.db', 'first.db'):
        for wanted, change in ((told('Store'), ''), (('ready\n', '', 0), EMPTIED)):
            for words in (['init', new, *files], ['migrate', room.path('old.db'), new]):
                copy_files(room.path(name), new)
                remove(new, ENDS[:2])
                edit(new + REGISTER, change)
                before, what = registered_in(new), '%s beside the register of %s; %s' % (words[0], name, change)
                room.beside.expect('beside a register', what, wanted, room.program('').run(*words))
                room.beside.expect('beside a register', what, before, registered_in(new))
    room.beside.expect('beside a text', 'init', told('Store'), beside_a_text(room, ['init', new, *files]))
    room.beside.expect('beside a text', 'migrate', told('Store'), beside_a_text(room, ['migrate', room.path('old.db'), new]))


def beside_a_text(room, words):
    """What a command tells that is to make a store beside a text of the name of a register."""
    remove(room.path('new.db'), ENDS)
    room.program('').file('new.db' + REGISTER, 'no register')
    return room.program('').run(*words)


def judged(path):
    """What the model says of a store and its register, as SQLite's own library reads both: a fault or None."""
    found = registered_in(path)[0]
    register = Register(
        tuple(Archive(*row) for row in found['archive']), tuple(Segment(*row) for row in found['segment']),
        found['closed_for'][0][0] if found['closed_for'] else None, tuple(Settled(*row) for row in found['settled']),
        tuple(Segment(*row) for row in found['taken']), tuple(Sealed(*row) for row in found['sealed']))
    is_one = len(found['closed_for']) <= 1 and is_sound(register)
    return fault_of_rows(rows_in(path)[0], register=register) if is_one else 'Damaged'


def try_register(room, change):
    """A store beside whose register something was changed, or which is gone."""
    store = room.path('office.db')
    if change:
        edit(store + REGISTER, change)
    else:
        remove(store, ENDS[2:])
    try_damaged(room, 'a register that is another', change)


def try_damaged(room, what, change):
    """A store that its register makes Damaged, for each command."""
    store, beside, program = room.path('office.db'), room.beside, room.program('office.db')
    fault, before = judged(store), rows_in(store)
    beside.expect(what, change, 'Damaged', fault)
    for words in (
            ['report', store, 'yard'], ['deliver', store, program.file('none.edi', '')], ['account', store, 'HAULC', 'gate'],
            ['serve', store, '8080', '1'], ['texts', store], ['close', store, room.path('first.db')]):
        beside.expect(what, '%s: %s' % (words[0], change), told(fault), program.run(*words))
    beside.expect(what, change, before, rows_in(store))


def with_register_of(room, store, register, other):
    """A store with the register of a copy of it, under another name."""
    remove(room.path(other), ENDS)
    for path, ends in ((store, ENDS[:2]), (register, ENDS[2:])):
        for end in ends:
            if os.path.exists(room.path(path) + end):
                shutil.copyfile(room.path(path) + end, room.path(other) + end)


def closed_by_days(room, day):
    """A store that is closed twice, each time after a call, which the archive has not. Gives the copies of its files of each day,
    and those of them that have each another register."""
    room.make('office.db', day, DELIVERIES)
    office, vessels, days, registers = room.offices[room.path('office.db')], Vessels(day.random, day), [], ['day 0.db']

    def keeps():
        """The files of this day."""
        days.append('day %d.db' % len(days))
        copy_files(room.path('office.db'), room.path(days[-1]))

    for name in ('first.db', 'second.db'):
        room.deliver('office.db', [day.delivery() for _delivery in range(MORE)])
        room.copy('office.db', name)
        for text in vessels.new_call(office):
            keeps()
            room.deliver('office.db', [text])
        room.close('office.db', name)
        keeps()
        registers.append(days[-1])
    room.beside.counted['lists put away, of which the store put back knows nothing'] += len(office.away)
    return days, registers


def try_put_back(room, day):
    """Files of two days: the store of each day with each register. A store that was put back from before a text, which a closing
    then found taken, has all that was closed."""
    days, registers = closed_by_days(room, day)
    for store in days:
        for register in registers:
            with_register_of(room, store, register, 'office.db')
            judge_mix(room, '%s with the register of %s' % (store, register))
    copy_files(room.path(days[-1]), room.path('office.db'))
    for kind in ('yard', 'archives', 'calls'):
        room.beside.report('the files of one day', room.program('office.db'), room.offices[room.path('office.db')], kind)


def judge_mix(room, what):
    """A store beside a register, as the model judges both: Damaged for each command, or it is opened."""
    fault = judged(room.path('office.db'))
    room.beside.counted['files of two days: ' + str(fault)] += 1
    if fault:
        try_damaged(room, 'files of two days', what)
        return
    printed, told_of, ended = room.program('office.db').report('partners', '')
    room.beside.expect('files of two days, opened', what, (True, '', 0), (printed.startswith('PARTNERS'), told_of, ended))


def try_registers(room, day):
    """Registers that are gone, of other rows, or none: the store is damaged, and its register put back it is as it was."""
    room.make_closed(day)
    for change in UNSOUND + UNFIT + [None]:
        copy_files(room.path('office.db'), room.path('kept.db'))
        try_register(room, change)
        copy_files(room.path('kept.db'), room.path('office.db'))
    for kind in ('yard', 'archives'):
        room.beside.report('the register put back', room.program('office.db'), room.offices[room.path('office.db')], kind)


def try_old(room, day):
    """Registers of before they had seals."""
    try_without(room, day, ['sealed'])


def try_older(room, day):
    """Registers of before they said what had been taken."""
    try_without(room, day, ['taken', 'sealed'])


def try_oldest(room, day):
    """Registers of before lists were put away."""
    try_without(room, day, ['settled', 'taken', 'sealed'])


def try_without(room, day, missing):
    """Registers that lack these tables: the next closing makes them."""
    room.make('office.db', day)
    room.copy('office.db', 'first.db')
    room.close('office.db', 'first.db')
    for name in ('office.db', 'first.db'):
        edit(room.path(name) + REGISTER, ''.join('DROP TABLE %s;' % table for table in missing))
    office, vessels = room.offices[room.path('office.db')], Vessels(day.random, day)
    office.register = office.register._replace(sealed=(), **({'taken': ()} if 'taken' in missing else {}))
    for kind in ('calls', 'archives'):
        room.beside.report('an older register', room.program('office.db'), office, kind)
    for text in vessels.new_call(office):
        room.deliver('office.db', [text])
    room.copy('office.db', 'second.db')
    room.close('office.db', 'second.db')
    room.beside.report('an older register', room.program('office.db'), office, 'calls')
    room.beside.counted['lists put away, of an older register'] += len(office.away)


def try_unreadable(room, day):
    """Lines that a register has and that can't be read: what needs them is not to be had, and all else goes on."""
    room.make('office.db', day)
    office, vessels = room.offices[room.path('office.db')], Vessels(day.random, day)
    for text in vessels.new_call(office):
        room.deliver('office.db', [text])
    room.copy('office.db', 'first.db')
    room.close('office.db', 'first.db')
    for call, side in office.away:
        key, before = '/'.join(word.replace('/', '%2F') for word in (*call, side)), rows_in(room.path('office.db'))
        for change in UNREADABLE:
            copy_files(room.path('office.db'), room.path('kept.db'))
            edit(room.path('office.db') + REGISTER, change)
            for kind in ('list', 'work'):
                given = room.program('office.db').report(kind, key)
                room.beside.expect('lines that can\'t be read', change, told('Damaged'), given)
            text = vessels.text(office, REPORTED[side], call, ['ABCU0000017'])
            room.beside.expect('lines that can\'t be read', change, ('{"answer":"not now"}\n', '', 3), (
                room.program('office.db').deliver(text)))
            room.beside.expect('lines that can\'t be read', change, before, rows_in(room.path('office.db')))
            for kind in ('calls', 'yard', 'archives'):
                room.beside.report('lines that can\'t be read', room.program('office.db'), office, kind)
            copy_files(room.path('kept.db'), room.path('office.db'))
        room.beside.report('lines put back', room.program('office.db'), office, 'list', key)


def try_all(beside):
    """Each in a folder of its own."""
    for trial in (
            try_files, try_copies, try_orders, try_lacking, try_marks, try_beside, try_registers, try_put_back, try_old, try_older,
            try_oldest, try_unreadable):
        with tempfile.TemporaryDirectory(prefix='beside-') as folder:
            trial(Room(beside, folder), Day(trial.__name__))
