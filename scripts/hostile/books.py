"""A store in a folder of its own, all that may be sent to it, and what is in effect by the model."""
import copy
import os
import random
from contextlib import contextmanager

from model.cuts import cut
from model.days import Day
from model.events import Added
from model.files import written
from model.http import response
from model.office import Office, json_text
from model.old_stores import write_store
from model.reports import WHOLE, printed
from model.requests import every_key, path_of
from model.rows import copy_files, rows_in, rows_of
from model.setup import DEMO, read_setup
from model.setups import Files, files_of
from model.stream import status
from model.syntax import BREAKS
from model.vessels import Vessels

from .working import Delivering, Served, run

NOT_NOW = '{"answer":"not now"}'
NO_STORE = ('', 'store: Store\n', 3)
ADDED = 0.08                # of what is sent, where accounts are added


class Different(Exception):
    """What the program did is not what the model has."""


@contextmanager
def naming(tried):
    """Names what was tried, where something differs within it."""
    try:
        yield
    except Different as fault:
        raise Different('%s: %s' % (tried, fault)) from fault


def expect(what, wanted, got):
    """Stops where two values differ."""
    if wanted != got:
        raise Different('%s\n  model   %s\n  program %s' % (what, repr(wanted)[:3000], repr(got)[:3000]))


def answer(office, sent):
    """The line that answers a text, or the addition of an account; it is in effect from here on."""
    return json_text(office.add_account(*sent) if isinstance(sent, Added) else office.answer(sent))


class Book:
    """A store of a random set-up. What is sent is made as it is wanted, by the seed alone: texts, each one interchange, and
    additions of accounts, where `adds` says so."""

    def __init__(self, program, folder, seed, newcomers=()):
        self.program, self.folder, self.seed = program, folder, seed
        self.store = os.path.join(folder, 'office.db')
        files = Files(seed).both()
        if read_setup(*files)[1] or seed % 3 == 0:
            files = files_of(DEMO)
        self.office = Office(read_setup(*files)[0], keeps_fold=True)
        self.chance = random.Random('hostile %s' % seed)
        self.day, self.adds = Day(seed, self.office.setup, newcomers), False
        self.texts, self.answered = [], []
        self.files = [self.file(name, text) for name, text in zip(('partners.csv', 'blocks.csv'), files)]

    def file(self, name, text):
        """A file in the folder, of those bytes."""
        return written(self.folder, name, text)

    def init(self):
        """Makes the store."""
        expect('init', ('ready\n', '', 0), run(self.program, 'init', self.store, *self.files))
        return self

    def migrated(self, version, count):
        """Brings over a store of an old version, to which so many texts were delivered."""
        old, setup = os.path.join(self.folder, 'old.db'), self.office.setup
        self.office = Office(setup, keeps_fold=True, version=version)
        for text in self.upcoming(count):
            self.office.answer(text)
            self.answered.append(text)
        write_store(old, self.office)
        expect('migrate', ('ready\n', '', 0), run(self.program, 'migrate', old, self.store))
        self.office.migrate()
        self.found(None)
        return self

    def upcoming(self, count):
        """What was not answered, that many."""
        while len(self.texts) < len(self.answered) + count:
            if self.adds and self.day.happens(ADDED):
                self.texts.append(Added(*self.day.addition()))
                continue
            text = self.day.delivery()
            if cut(text) == ([text], None):
                self.texts.append(text)
        return self.texts[len(self.answered):len(self.answered) + count]

    def take(self, lines):
        """Answers that were read, each to what is sent next: in effect, unless they are not now. Gives how many were not."""
        refused = 0
        for line in lines:
            text = self.upcoming(1)[0]
            if line == NOT_NOW:
                refused += 1
            else:
                expect('the answer to %r' % (text,), answer(self.office, text), line)
            self.answered.append(text)
        return refused

    # ---- vessels' lists

    def vessels(self):
        """What is sent on lists, by the office as it stands."""
        return Vessels(self.chance, self.day)

    def finishing(self):
        """Texts that get lists done, each made after the one before was answered."""
        vessels = self.vessels()
        for texts in (vessels.new_call, vessels.finished):
            for text in texts(self.office):
                if text:
                    yield text

    def naming_away(self):
        """A text that names a list that is away, if there is one."""
        if not self.office.away:
            return None
        return self.vessels().named_again(self.office, self.chance.choice(sorted(self.office.away)))[0]

    def comes_next(self, text):
        """The text comes before all that was not answered."""
        self.texts.insert(len(self.answered), text)

    def delivers_next(self, text):
        """The text is delivered before all others."""
        self.comes_next(text)
        self.take(run(self.program, 'deliver', self.store, self.file('next.edi', text))[0].splitlines())

    def brought_back(self, in_flight):
        """The office with one of the lists brought back that a text in flight names, with two of them, and so on."""
        names = [] if isinstance(in_flight, Added) else self.office.lists_away_in(in_flight.strip(BREAKS))
        for count in range(1, len(names) + 1):
            office = copy.deepcopy(self.office)
            office.brings_back(names[:count])
            yield office

    # ---- what is found

    def found(self, in_flight):
        """Which rows the store has: those after all answered, those with the one in flight too, or either, if they are
        the same; or those after all answered with lists that the one in flight names. Any other rows are a difference."""
        got, faults = rows_in(self.store)
        expect('integrity and foreign keys', [], faults)
        wanted = rows_of(self.office)
        if in_flight is None:
            expect('the rows after all answered', wanted, got)
            return 'n'
        further = copy.deepcopy(self.office)
        answer(further, in_flight)
        if rows_of(further) == wanted:
            expect('the rows, which the one in flight leaves as they are', wanted, got)
            return 'n or n+1'
        if got == wanted:
            return 'n'
        for office in self.brought_back(in_flight):
            if rows_of(office) == got != rows_of(further):
                self.office = office
                return 'n, lists brought back'
        expect('the rows with the one in flight', rows_of(further), got)
        self.office = further
        return 'n+1'

    def looks(self):
        """The program opens the store and tells the yard."""
        got = run(self.program, 'report', self.store, 'yard')
        expect('report yard', (printed(self.office, 'yard')[0], '', 0), got)

    def again(self):
        """All texts from the first once more, in one call: each line and the status. Then rows and each report."""
        texts = [sent for sent in self.answered if not isinstance(sent, Added)]
        answers = [self.office.answer(text) for text in texts]
        wanted = ''.join(json_text(answer) + '\n' for answer in answers), '', status(answers)
        got = run(self.program, 'deliver', self.store, self.file('again.edi', ''.join(texts)))
        for place, lines in enumerate(zip(wanted[0].split('\n'), got[0].split('\n'))):
            expect('the answer to number %d, sent again' % (place + 1), *lines)
        expect('all sent again', wanted, got)
        self.everything()
        return len(texts)

    def everything(self):
        """The rows, and each report: the yard by command, all else by HTTP."""
        self.found(None)
        for kind, _key in WHOLE:
            text, ended = printed(self.office, kind)
            expect(kind, (text, '', ended), run(self.program, 'report', self.store, kind))
        keys = [(kind, key) for kind, key in every_key(self.office) if key.isascii()]
        with Served(self.program, self.store, len(keys) or 1) as served:
            for kind, key in keys:
                request = 'GET %s HTTP/1.1\r\n\r\n' % path_of(kind, key.replace('%', '%25').replace(' ', '%20'))
                expect('GET %s %s' % (kind, key), response(self.office, request), served.exchange(request))

    def copied(self, folder):
        """The files of the store, copied into another folder."""
        copy_files(self.store, os.path.join(folder, 'office.db'))
        other = copy.copy(self)
        other.folder, other.store = folder, os.path.join(folder, 'office.db')
        other.office, other.texts, other.answered = copy.deepcopy(self.office), list(self.texts), list(self.answered)
        return other


def prefilled(program, folder, seed, count):
    """A store to which so much was delivered by a process that was killed then, so that its log still holds what it took."""
    book, lines = Book(program, folder, seed).init(), []
    with Delivering(program, book.store, ahead=True) as worker:
        worker.answers(book.upcoming(count), lines.append)
    book.take(lines)
    expect('the answers', count, len(book.answered))
    return book
