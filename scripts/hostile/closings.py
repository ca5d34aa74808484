"""`close`, killed at each call of the system, each call refused, with files that may not grow, killed at random moments of a
large closing, and after losses of power: scripts/kill9 closings.

After each of these the store has its rows, or its register has the archive and some of what goes is gone, of vessels' lists some
wholly. The program opens it, answers a closed number, takes another, also one that names a list that goes, and prints all texts,
and the same closing again goes on to the end. The archive keeps its rows.

So too where `close` makes the copy: an archive that has its name is whole, and the same words again take it, or make another one
where it has not; other files in the folder stay, and neither draft nor note is left.
"""
import copy
import os
import subprocess
import tempfile
from time import monotonic, sleep

from model.closing import close
from model.commands import free_name, outcome
from model.days import Day
from model.office import json_text
from model.register import EMPTY
from model.reports import printed
from model.rows import (
    ENDS, REGISTER, copy_files, register_rows, registered_in, rows_in, rows_of, rows_of_register)
from model.setup import DEMO
from model.setups import files_of
from model.stream import status

from .books import Book, Different, expect, prefilled
from .calls import with_strace
from .calls_of_others import KILLED, MEMORY, STORE, UNWRITTEN, calls_of, each_call, front_of
from .commands import UNMADE, each_room, refuse_each
from .power import File, replayed, written_by
from .working import printed_texts, run

DELIVERED, MORE = 26, 12    # before the first copy; between two
READY = 'ready\n', '', 0
NAMES = 'first.db', 'second.db'
BYSTANDER, WRITTEN = 'office-0001.db', 'no archive\n'     # a file under the first name that an archive would get
DRAFT, NOTE = '-begun', '-closing'  # how the names end of what is there while a copy is made
MANY = {'pread64': 12, 'brk': 6, 'mmap': 12}      # of which so many alone are tried
LOSSES = 250                # of power, for each store
LARGE, KILLS = 5000, 40     # texts of a large store, and how often its closing is killed
FINISHED = 4                # new calls, and lists that are finished, before a copy
UNCLOSED = 'nothing done', 'marked'
SPAN = 1.1                  # of a closing's time within which it is killed


# ---- what is there

def register_in(path):
    """The rows of a register; those of an empty one, if it is not made yet."""
    got, faults = registered_in(path)
    if faults == UNMADE or not got:
        return rows_of_register(EMPTY)
    expect('integrity', [], faults)
    return got


def lists_in(rows):
    """Call and side of each list that has a line."""
    return {row[:3] for row in rows['listed']}


def are_within(least, got, most):
    """Whether rows are at least these and at most those, each list wholly there or gone, and of other tables those."""
    return set(got) == set(most) and all(
        got[table] == most[table] if table not in ('interchange', 'visit', 'listed')
        else set(least[table]) <= set(got[table]) <= set(most[table]) for table in most) and got['listed'] == [
        row for row in most['listed'] if row[:3] in lists_in(got)]


def stage(before, after, got, what):
    """How far a closing has come: each of `before`, `after` and `got` has the rows of the store, its register, and that of the
    archive."""
    if got[1] not in (before[1], after[1]):
        expect('the register', (before[1], after[1]), got[1])
    if got[2] not in (before[2], after[2]):
        expect('the register of the archive', (before[2], after[2]), got[2])
    if not are_within(after[0], got[0], before[0]):
        raise Different('%s: other rows than before, and than those that stay' % what)
    if got[1] == before[1] != after[1]:
        expect('the rows, before the register has the archive', before[0], got[0])
        return 'marked' if got[2] != before[2] else 'nothing done'
    expect('the mark of the archive', after[2], got[2])
    return 'closed' if got[0] == after[0] else 'registered' if got[0] == before[0] else 'some rows gone'


class Beside:
    """A store and the archive at a path: their rows, and the model's offices of both."""

    book = archive = path = None

    def standing(self):
        """The rows of both files, as they stand."""
        (own, faults), (kept, others) = rows_in(self.book.store), rows_in(self.path)
        expect('integrity and foreign keys', ([], []), (faults, others))
        expect('the rows of the archive', rows_of(self.archive), kept)
        return own, register_in(self.book.store), register_in(self.path)

    def modelled(self):
        """The same by the model."""
        return rows_of(self.book.office), register_rows(self.book.office), register_rows(self.archive)

    def closes(self):
        """The model closes."""
        expect('the model', None, close(self.book.office, self.archive, 'office.db', os.path.basename(self.path)))

    def prints_texts(self):
        """The texts that the program prints of the store are those of one that was never closed."""
        owed = outcome({'store': self.book.office}, ['texts', 'store'])
        expect('texts', owed, printed_texts(self.book.program, self.book.store))


class Closing(Beside):
    """`close` of a store by a copy of some deliveries earlier, in a folder of its own."""

    name, ready, wants = 'close', READY[0], {STORE, MEMORY, UNWRITTEN}

    def __init__(self, prepared, folder):
        self.book, self.archive = prepared.book.copied(folder), copy.deepcopy(prepared.archive)
        for name in os.listdir(prepared.book.folder):
            if name.startswith(NAMES):
                copy_one(os.path.join(prepared.book.folder, name), os.path.join(folder, name))
        self.path = os.path.join(folder, prepared.name)
        self.words = [self.book.program, 'close', self.book.store, self.path]

    def found(self, given):
        """How far a process came that printed, told and ended so; then the store is used, and closed."""
        before, offices = self.modelled(), copy.deepcopy((self.book.office, self.archive))
        self.closes()
        after = self.modelled()
        found = stage(before, after, self.standing(), given)
        if given[0] and given[0] != self.ready or given[2] == 0 and given[0] != self.ready:
            raise Different('%r' % (given,))
        if given[0] and found != 'closed':
            raise Different('%r, and found: %s' % (given, found))
        archived = [each.text for each in self.book.office.deliveries
                    if self.book.office.archive_of(each.partner, each.number)]
        going = sorted(self.book.office.away - offices[0].away)
        if found in UNCLOSED:
            self.book.office, self.archive = offices
        self.goes_on(archived, going)
        return found

    def goes_on(self, archived, going):
        """The store takes a text and one that names a list that goes, answers one of a closed number and prints all; the closing
        again ends it."""
        book = self.book
        texts = [book.upcoming(1)[0], book.chance.choice(archived)]
        texts += [book.vessels().named_again(book.office, book.chance.choice(going))[0]] if going else []
        given = [book.office.answer(text) for text in filter(None, texts)]
        wanted = ''.join(json_text(each) + '\n' for each in given), '', status(given)
        expect('deliveries', wanted, run(book.program, 'deliver', book.store, book.file(
            'again.edi', '\n'.join(filter(None, texts)))))
        self.prints_texts()
        self.closes_again()
        expect('all behind it', self.modelled(), self.standing())
        self.prints_texts()
        for kind in ('yard', 'calls', 'archives', 'metrics'):
            expect(kind, (printed(book.office, kind)[0], '', 0), run(book.program, 'report', book.store, kind))

    def closes_again(self):
        """The same words, by program and model."""
        expect('close again', READY, run(*self.words))
        self.closes()

    def tried(self, front, _kind, fault):
        """How far it came, killed or refused at a call."""
        given = run(*front, *self.words)
        if fault != KILLED and given not in self.wants | {READY}:
            raise Different('%r' % (given,))
        return '%s; %s' % (given[0].strip() or given[1].strip() or 'nothing', self.found(given))


class Making(Closing):
    """`close` that makes the copy, beside a file that has the first name which an archive would get."""

    name = 'close, with a copy'

    def __init__(self, prepared, folder):
        super().__init__(prepared, folder)
        self.kept = {name: self.bytes_of(name) for name in os.listdir(folder) if name.startswith(NAMES)}
        self.kept[BYSTANDER] = WRITTEN.encode()
        self.book.file(BYSTANDER, WRITTEN)
        self.words = [self.book.program, 'close', self.book.store]
        self.path, self.archive = self.next(), copy.deepcopy(self.book.office)

    def bytes_of(self, name):
        """What a file in the folder holds."""
        with open(os.path.join(self.book.folder, name), 'rb') as file:
            return file.read()

    def next(self):
        """The first free name. A register that a closing left without its archive is taken for the next one."""
        files = [os.path.join(self.book.folder, name) for name in os.listdir(self.book.folder) if REGISTER not in name]
        return free_name(files, self.book.store, self.book.office.register)

    def found(self, given):
        """The same; before the archive has its name the store and its register are as they were."""
        self.others_stay()
        if os.path.exists(self.path):
            self.has_one_name()
            return super().found(given)
        if given[0]:
            raise Different('%r, and no archive' % (given,))
        expect('the rows, without an archive', rows_of(self.book.office), rows_in(self.book.store)[0])
        expect('the register, without an archive', register_rows(self.book.office), register_in(self.book.store))
        self.goes_on([each.text for each in self.book.office.deliveries], [])
        return 'no archive'

    def has_one_name(self):
        """The archive with the name of its draft is read by that alone."""
        draft = self.path + DRAFT
        if os.path.exists(draft) and os.path.samefile(draft, self.path):
            os.remove(draft)

    def others_stay(self):
        """All other files are as they were."""
        for name, held in self.kept.items():
            if not name.endswith('-wal'):
                expect('the file ' + name, held, self.bytes_of(name))

    def closes_again(self):
        """The archive that is there and has not been closed by to the end, or a new one."""
        if not os.path.exists(self.book.store + NOTE) or not os.path.exists(self.path):
            self.path, self.archive = self.next(), copy.deepcopy(self.book.office)
        super().closes_again()
        self.others_stay()
        left = [name for name in os.listdir(self.book.folder) if name.endswith((DRAFT, NOTE))]
        expect('what is left', [], left)


def copy_one(path, other):
    """A file."""
    with open(path, 'rb') as file, open(other, 'wb') as copied:
        copied.write(file.read())


class Prepared:
    """A store, and a copy of some deliveries earlier; one store was closed before."""

    def __init__(self, program, folder, seed, is_closed):
        self.book, self.name = prefilled(program, folder, seed, DELIVERED), NAMES[0]
        if is_closed:
            self.copied(NAMES[0])
            self.delivered()
            expect('the model', None, close(self.book.office, self.archive, 'office.db', NAMES[0]))
            expect('close', READY, run(program, 'close', self.book.store, os.path.join(folder, NAMES[0])))
            self.delivered()
            self.name = NAMES[1]
        self.copied(self.name)
        self.delivered()

    def copied(self, name):
        """A copy of now."""
        self.finishes()
        copy_files(self.book.store, os.path.join(self.book.folder, name))
        self.archive = copy.deepcopy(self.book.office)

    def finishes(self):
        """Some lists get done."""
        for _list in range(FINISHED):
            for text in self.book.finishing():
                self.book.delivers_next(text)

    def delivered(self):
        """Some texts more."""
        book, texts = self.book, self.book.upcoming(MORE)
        done = run(book.program, 'deliver', book.store, book.file('more.edi', ''.join(texts)))
        book.take(done[0].splitlines())


# ---- calls

def chosen(calls, chance):
    """All calls, but of those that are many some alone."""
    dropped = set()
    for kind, most in MANY.items():
        every = [call for call in calls if call[0] == kind]
        dropped.update(set(every) - set(chance.sample(every, min(most, len(every)))))
    return [call for call in calls if call not in dropped]


def try_calls(prepared, kind, counted):
    """Each call of a closing, from the first that names a file in its folder on: killed, and refused."""
    def make(folder):
        return kind(prepared, folder)
    each_call(make, chosen(calls_of(make, None), prepared.book.chance), counted)
    each_room(make, counted)


def try_order(prepared, counted):
    """A copy is synced before it gets its name, and its folder after that, before the store's register names it."""
    with tempfile.TemporaryDirectory(prefix='kill9-') as folder:
        making = Making(prepared, folder)
        expect('close', READY, run(*front_of(folder, '-y', '-s', '9', '-e', 'trace=fsync,link,pwrite64'), *making.words))
        with open(os.path.join(folder, 'calls'), encoding='utf-8', errors='replace') as file:
            lines = file.read().splitlines()
    synced = [place for place, line in enumerate(lines) if 'fsync(' in line and making.path + DRAFT in line]
    named = [place for place, line in enumerate(lines) if 'link("%s"' % (making.path + DRAFT) in line]
    lasts = [place for place, line in enumerate(lines) if 'fsync(' in line and '<%s>' % folder in line and place > named[0]]
    written = [place for place, line in enumerate(lines) if 'pwrite64(' in line and making.book.store + '-archives' in line
               and place > named[0]]
    expect('the order of syncs', [True, True, True], [synced[0] < named[0], named[0] < lasts[0], lasts[0] < written[0]])
    counted['close, with a copy: synced, named and its folder synced before the register has it'] += 1


# ---- losses of power

def try_losses(prepared, counted):
    """What a loss of power may leave of all files of the store and of the archive, at any call."""
    with tempfile.TemporaryDirectory(prefix='kill9-') as folder:
        closing = Closing(prepared, folder)
        files = {base + end: File(base + end) for base in (closing.book.store, closing.path) for end in ENDS}
        calls = written_by(os.path.join(folder, 'calls'), closing.words)
        moments = prepared.book.chance.choices(range(len(calls)), k=LOSSES)
        for place, _answered in enumerate(replayed(calls, files, 0)):
            for _loss in range(moments.count(place)):
                with tempfile.TemporaryDirectory(prefix='kill9-') as other:
                    lost = Closing(prepared, other)
                    for path, file in files.items():
                        with open(os.path.join(other, os.path.basename(path)), 'wb') as left:
                            left.write(file.lost(prepared.book.chance))
                    counted['loss of power: %s' % lost.found(('', '', 3))] += 1


# ---- a large closing

def large(program, folder, seed):
    """A store of many deliveries and a copy of it; gives the path of the store."""
    book, day = Book(program, folder, seed), Day('large %s' % seed)
    book.files = [book.file(name, text) for name, text in zip(('partners.csv', 'blocks.csv'), files_of(DEMO))]
    book.init()
    text = '\n'.join(day.delivery() for _text in range(LARGE))
    subprocess.run([program, 'deliver', book.store, book.file('large.edi', text)], stdout=subprocess.DEVNULL, check=False)
    return book.store


def state(store, path):
    """The rows of a store, of its register and of that of its archive."""
    return rows_in(store)[0], register_in(store), register_in(path)


def try_large(program, seed, counted):
    """A closing of many transactions, killed at random moments, and done again; beside one that nothing befell."""
    with tempfile.TemporaryDirectory(prefix='kill9-') as folder:
        start = large(program, folder, seed)
        store, path = (os.path.join(folder, name) for name in ('closed.db', 'copy.db'))
        def renewed():
            copy_files(start, store)
            copy_files(start, path)
        renewed()
        before, began = state(store, path), monotonic()
        expect('close', READY, run(program, 'close', store, path))
        span, after, kept = monotonic() - began, state(store, path), rows_in(path)
        chance, texts = Day(seed).random, printed_texts(program, start)
        for _kill in range(KILLS):
            renewed()
            with subprocess.Popen([program, 'close', store, path], stdout=subprocess.PIPE, stderr=subprocess.PIPE) as process:
                sleep(chance.uniform(0, SPAN * span))
                process.kill()
                process.communicate()
            counted['large, killed: %s' % stage(before, after, state(store, path), 'large')] += 1
            expect('texts', texts, printed_texts(program, store))
            expect('close again', READY, run(program, 'close', store, path))
            expect('all behind it', (after, kept), (state(store, path), rows_in(path)))
            expect('texts, behind it', texts, printed_texts(program, store))


# ---- allocations

SEED = 1                    # of the stores whose closings have their allocations refused
CLOSED = ['the first time', 'again']


class Unmemorable(Closing):
    """A closing that may tell no more than that memory ran out."""

    wants = {MEMORY, UNWRITTEN}


def refuse_closing(which, refusing, _office, _text, steps, counted):
    """Allocations of a closing of a store that was never closed, or of one that was: each of a first step."""
    with tempfile.TemporaryDirectory(prefix='memory-') as folder:
        prepared = Prepared(refusing.program, folder, SEED, which == CLOSED[1])

        def make():
            for name in os.listdir(refusing.folder):
                if name.startswith(NAMES):
                    os.remove(os.path.join(refusing.folder, name))
            return Unmemorable(prepared, refusing.folder)
        refusing.run(make().words[1:])
        refuse_each(refusing, make, Closing.found, range(1, refusing.allocations() + 1, steps[0]), counted)


# ---- all

@with_strace
def try_all(program, seed, counted):
    """A store that was never closed, one that was, and a large one."""
    for is_closed in (False, True):
        with tempfile.TemporaryDirectory(prefix='kill9-') as folder:
            prepared = Prepared(program, folder, seed, is_closed)
            try_calls(prepared, Closing, counted)
            try_calls(prepared, Making, counted)
            try_order(prepared, counted)
            try_losses(prepared, counted)
    try_large(program, seed, counted)
