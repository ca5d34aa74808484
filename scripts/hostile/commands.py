"""An addition and a migration by their commands, killed at each call by which they write, each of these calls refused, with
files that may not grow, and each allocation refused: scripts/kill9, scripts/memory.

An addition is in effect whole or not at all, and the same words again are answered by what stands. A new store has no tables
or all of them, and the old one stays byte for byte.
"""
import os
import shutil
import tempfile
from collections import namedtuple
from copy import deepcopy
from functools import partial

from model.days import Day
from model.migrated import contents
from model.office import Office, json_text
from model.old_stores import write_store
from model.reports import printed
from model.rows import rows_in, rows_of
from model.setup import DEMO

from .books import NOT_NOW, Different, expect, prefilled
from .calls import FAULTS, KINDS, calls_in, places, strace, with_strace
from .full import limited
from .working import run

CODE, KIND = 'HAUL-N', 'gate'
UNMADE = ['file is not a database']     # of a file of which a process that was stopped had not yet made one
DELIVERED = 8               # before an addition
PLAYED = 14                 # in an old store
ROOMS = [0, 1, 32, 4095, *(4096 * 2 ** power for power in range(9))]     # bytes to which a file may grow

# what a command tells that had no memory; what it ends with that could not write its line
MEMORY = '', 'store: Memory\n', 3
UNWRITTEN = '', '', 3


class Addition:
    """`account` over a store, which holds an office before it."""

    name, ready = 'account', None
    wants = {MEMORY, UNWRITTEN, (NOT_NOW + '\n', '', 3)}

    def __init__(self, program, store, office):
        self.store, self.before = store, office
        self.words = [program, 'account', store, CODE, KIND]

    def found(self, given):
        """Whether the account stands after a process that printed, told and ended so; what it printed is in effect."""
        after = deepcopy(self.before)
        line = json_text(after.add_account(CODE, KIND)) + '\n'
        got, faults = rows_in(self.store)
        expect('integrity and foreign keys', [], faults)
        is_added = got == rows_of(after)
        if not is_added:
            expect('the rows without the account', rows_of(self.before), got)
        if given[0] not in (line, '', NOT_NOW + '\n') or (given[2] == 0 or given[0] == line) and not is_added:
            raise Different('%r, and the account is %s' % (given, 'there' if is_added else 'not there'))
        office = after if is_added else deepcopy(self.before)
        again = json_text(office.add_account(CODE, KIND)) + '\n', '', 0
        expect('account again', again, run(*self.words))
        expect('the rows with the account', (rows_of(after), []), rows_in(self.store))
        return 'added' if is_added else 'not added'


# a store of an old version: its file, what that holds, and the rows and the yard of the new store
Old = namedtuple('Old', 'path version bytes rows yard')


class Migration:
    """`migrate` of an old store, which holds an office, to a path at which nothing stands."""

    ready = 'ready\n'
    wants = {MEMORY, UNWRITTEN}

    def __init__(self, program, folder, kept):
        self.program, self.old, self.new = program, os.path.join(folder, 'old.db'), os.path.join(folder, 'new.db')
        self.kept, self.name = kept, 'migrate, version %d' % kept.version
        shutil.copyfile(kept.path, self.old)
        self.words = [program, 'migrate', self.old, self.new]

    def found(self, given):
        """Whether the new store is there after a process that printed, told and ended so."""
        expect('the old store', self.kept.bytes, contents(self.old))
        got, faults = rows_in(self.new)
        expect('integrity and foreign keys', [], [] if faults == UNMADE and not got else faults)
        if given[0] not in (self.ready, '') or (given[2] == 0 or given[0]) and not got:
            raise Different('%r, and the new store has no tables' % (given,))
        if given == MEMORY and got:
            raise Different('%r, and the new store has tables' % (given,))
        again = ('', 'store: Store\n', 3) if got else ('ready\n', '', 0)
        if got:
            expect('the rows of the new store', self.kept.rows, got)
        expect('migrate again', again, run(*self.words))
        expect('the rows of the new store', (self.kept.rows, []), rows_in(self.new))
        expect('report', (self.kept.yard, '', 0), run(self.program, 'report', self.new, 'yard'))
        expect('the old store', self.kept.bytes, contents(self.old))
        return 'whole' if got else 'no tables'

    def found_early(self, given):
        """The same of a process that may not have come so far as to open the new store: then there is no such file."""
        if given not in self.wants or os.path.exists(self.new):
            return self.found(given)
        expect('the old store', self.kept.bytes, contents(self.old))
        return 'not begun'


# ---- calls of the system

def each_call(make, chance, counted):
    """Each call of a process that is made in a folder of its own: killed as it begins, or answered with a fault."""
    with tempfile.TemporaryDirectory(prefix='kill9-') as folder:
        log = os.path.join(folder, 'calls')
        run(*strace(log), *make(folder).words)
        calls = calls_in(log)
    for kind, fault in [(kind, None) for kind in KINDS] + FAULTS:
        for place in places(calls[kind], kind, chance):
            with tempfile.TemporaryDirectory(prefix='kill9-') as folder:
                tried = make(folder)
                how = 'inject=%s:%s:when=%d' % (kind, 'error=' + fault if fault else 'signal=SIGKILL', place)
                given = run(*strace(os.path.join(folder, 'calls'), '-e', how), *tried.words)
                try:
                    found = tried.found(given)
                except Different as different:
                    raise Different('%s, %s: %s' % (tried.name, how, different)) from different
                counted['%s, %s %s: %s' % (tried.name, fault or 'killed at', kind, found)] += 1


def each_room(make, counted):
    """A process with files that may not grow beyond so many bytes."""
    for size in ROOMS:
        with tempfile.TemporaryDirectory(prefix='kill9-') as folder:
            tried = make(folder)
            given = run(*tried.words, preexec_fn=limited(size))
            try:
                counted['%s, files that may not grow: %s' % (tried.name, tried.found(given))] += 1
            except Different as different:
                raise Different('%s, files of %d bytes: %s' % (tried.name, size, different)) from different


@with_strace
def try_all(program, seed, counted):
    """An addition to a store to which something was delivered, and migrations of stores of versions 1 and 2."""
    with tempfile.TemporaryDirectory(prefix='kill9-') as folder:
        book = prefilled(program, folder, seed, DELIVERED)

        def addition(other):
            copied = book.copied(other)
            return Addition(program, copied.store, copied.office)
        each_call(addition, book.chance, counted)
        each_room(addition, counted)
        for version in (1, 2):
            migration = partial(new_migration, program, old_store(folder, seed, version))
            each_call(migration, book.chance, counted)
            each_room(migration, counted)


def old_store(folder, seed, version):
    """A store that the model played by old rules."""
    office, day = Office(DEMO, keeps_fold=True, version=version), Day('old %s' % seed)
    for _text in range(PLAYED):
        office.answer(day.delivery())
    path = os.path.join(folder, 'version%d' % version)
    write_store(path, office)
    office.migrate()
    return Old(path, version, contents(path), rows_of(office), printed(office, 'yard')[0])


def new_migration(program, kept, folder):
    """A migration in that folder."""
    return Migration(program, folder, kept)


# ---- allocations

PRINTING = 20               # more allocations than printing an answer takes
SHARES = 4                  # in which the allocations of a migration are refused, each by itself


def refuse_addition(refusing, office, _text, steps, counted):
    """Allocations of an addition over the store."""
    start = os.path.join(refusing.folder, 'start.db')
    refusing.copy_to(start)

    def addition():
        refusing.copy_from(start)
        return Addition(refusing.program, refusing.store, office)
    opened, every = made_by(refusing, addition, 'none'), made_by(refusing, addition, KIND)
    places = [*range(1, opened + 1, steps[0]), *range(opened + 1, every + 1, steps[1])]
    refuse_each(refusing, addition, Addition.found, places, counted)


def made_by(refusing, make, last):
    """How many allocations a process makes that has another last word, but for those of printing its answer."""
    words = make().words[1:]
    refusing.run([*words[:-1], last])
    return refusing.allocations() - (PRINTING if words[-1] != last else 0)


def anew(refusing, kept):
    """A migration of an old store, beside which nothing lies, to a path at which nothing stands."""
    for name in ('old.db-wal', 'new.db', 'new.db-wal'):
        if os.path.exists(os.path.join(refusing.folder, name)):
            os.remove(os.path.join(refusing.folder, name))
    return Migration(refusing.program, refusing.folder, kept)


def refuse_migration(version, share, refusing, _office, _text, steps, counted):
    """A share of the allocations of a migration, before the new store is opened and after it: as many are before as a process
    makes whose new store can't be opened."""
    make = partial(anew, refusing, old_store(refusing.folder, version, version))
    new = make().words[-1]
    opened = made_by(refusing, make, os.path.join(refusing.folder, 'none', 'new.db'))
    every = made_by(refusing, make, new)
    early, late = range(1, opened + 1, steps[1]), range(opened + 1, every + 1, steps[1])
    refuse_each(refusing, make, Migration.found_early, early[share::SHARES], counted)
    refuse_each(refusing, make, Migration.found, late[share::SHARES], counted)


def told_by(given):
    """What a process told, in a word or two."""
    return given[1].strip() or ('not now' if given[0] == NOT_NOW + '\n' else 'what it owes' if given[0] else 'nothing')


def refuse_each(refusing, make, found, places, counted):
    """These allocations of a process, refused in their turn. It then does what it does with all of them, or tells by name that
    memory ran out."""
    for refused in places:
        tried = make()
        given = refusing.run(tried.words[1:], refused)
        what = '%s, allocation %d' % (tried.name, refused)
        if given not in tried.wants and (given[1:] != ('', 0) or given[0] != (tried.ready or given[0])):
            raise Different('%s: %r' % (what, given))
        try:
            counted['%s: %s, told %s' % (tried.name, found(tried, given), told_by(given))] += 1
        except Different as different:
            raise Different('%s: %s' % (what, different)) from different
