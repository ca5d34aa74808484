"""Stores that the program closes, among random deliveries, beside the model: scripts/beside.

The model's answers, and the texts that it keeps, are those of a store that is never closed, and so is a second store of the
program's, to which the same is delivered. An archive is a copy of the store of now, or of some deliveries earlier. Vessels' lists
get done, are put away, are asked for and named again.
"""
import copy
import os
import random
import re
import shutil
import sqlite3
import tempfile
from contextlib import closing, contextmanager

from .closing import close
from .commands import free_name, texts_before_lost
from .days import NEWCOMERS, SENDERS, Day, streamed
from .deliveries import first_text, kept_texts
from .events import Added, refusal
from .files import flip
from .naming import SIDES
from .refused_closings import edit
from .reports import OF_LISTS, WHOLE
from .requests import every_key, get, of_archive, path_of, question, random_requests
from .rows import ENDS, REGISTER, copy_files, identities, interchange_rows, rows_in, rows_of, standing_in
from .setup import DEMO, read_setup
from .setups import Files, files_of
from .stores import Program
from .stream import answers, lines
from .syntax import number_of, sender_of
from .vessels import Vessels
from .words import text_of

LISTS = 12
TURNS = (3, 4, 5)           # of each list
DELIVERIES = 10             # in a turn by a command
REQUESTS = 12               # in a turn by HTTP
CLOSES, COPIES = 0.5, 0.4   # of the turns
MOST_ARCHIVES = 4
MADE = 0.4                  # of the closings: the program makes the copy
UNFINISHED = '-begun', '-closing'   # what a closing that was stopped leaves
CLOSED_AGAIN = 0.4          # of the closings: the same command once more
AGAIN = 5                   # closed numbers that are sent again, and as many with other bytes
CALLS = 2                   # in a turn: new calls, and lists that are finished
NAMED, LOOKED = 3, 0.3      # lists that were put away and are named again in a turn; of these so many are asked for instead
QUESTIONS = 4               # after a turn
ASKED = 20                  # reports by a command after the turns; all of them by HTTP
ANOTHER_DAY = 0.25          # of the archives that are spoiled: the rows of another day
AS_JSON = 0.3               # of the reports by a command: asked as JSON, too
OF_ARCHIVES = 24            # reports that an archive is asked for by HTTP
COMPARED = 24               # reports that are compared with those of the store that is never closed
NAMES = ['office-%04d.db', 'archive %d', '%d', 'Hafen-Altona-\u00e4%d.db', 'office.db.%d', '-%d.db']

READY, ARCHIVED = ('ready\n', '', 0), ('', 'store: Closed\n', 3)


def key_of(name):
    """The key of a list."""
    call, side = name
    return '/'.join(word.replace('/', '%2F') for word in (*call, side))


class Closable:
    """A store that is closed from time to time, and its archives: of each its path, and the office that it is."""

    def __init__(self, beside, name, folder, seed):
        self.beside, self.name, self.folder = beside, name, folder
        self.chance, self.program = random.Random(name), Program(beside.path, folder)
        files = Files(seed).both()
        if read_setup(*files)[1] or seed % 3 == 0:
            files = files_of(DEMO)
        self.files, self.office = files, beside.init(name, self.program, files)
        self.day, self.archives, self.earlier = Day('closed %s' % seed, self.office.setup, NEWCOMERS), [], None
        self.vessels = Vessels(self.chance, self.day)

    # ---- copies and closings

    def path(self, name):
        """A file in the folder."""
        return os.path.join(self.folder, name)

    def kept(self, path):
        """Where an archive is kept, while its files are other ones."""
        return self.path('kept-' + os.path.basename(path))

    def copied(self, name):
        """A copy of the store's files under that name, and of the office."""
        copy_files(self.program.store, self.path(name))
        return self.path(name), copy.deepcopy(self.office)

    def copies(self):
        """A copy for later."""
        self.earlier = self.copied('earlier.db')

    def given(self):
        """A copy of now, or one of some deliveries earlier: its path and its office."""
        path = self.path(self.chance.choice(NAMES) % (len(self.archives) + 1))
        if self.earlier and self.chance.random() < 0.6:
            copy_files(self.earlier[0], path)
            return path, self.earlier[1]
        return self.copied(os.path.basename(path))

    def to_be_made(self):
        """The same of the copy that the program makes."""
        files = [self.path(name) for name in os.listdir(self.folder)]
        return free_name(files, self.program.store, self.office.register), copy.deepcopy(self.office)

    def closes(self):
        """By a copy that is there, or by one that the program makes. Nothing but what goes is another than before, the archive has
        a mark, and nothing else is left."""
        is_made = self.chance.random() < MADE
        path, archive = self.to_be_made() if is_made else self.given()
        self.earlier, rows = None, rows_of(archive)
        self.beside.counted['archives that the program made'] += is_made
        for time in range(2 if self.chance.random() < CLOSED_AGAIN else 1):
            if time:
                self.names_some(sorted(self.office.away))
            before = self.office.away
            fault = close(self.office, archive, 'office.db', os.path.basename(path))
            self.counts_away(before, 'again by the same closing' if time else '')
            self.beside.expect('close', self.name, None, fault)
            self.beside.expect('close', self.name, READY, self.program.close(*[path] * (time or not is_made)))
            self.beside.expect('close', self.name, [], [name for name in os.listdir(self.folder) if name.endswith(UNFINISHED)])
            self.beside.rows(self.name, self.program, self.office)
            self.beside.register(self.name, self.program.store, self.office)
            self.beside.expect('an archive stays', self.name, (rows, []), rows_in(path))
            self.beside.register(self.name + ', the archive', path, archive)
        self.archives.append((path, archive))
        self.office.archives[len(self.archives)] = archive
        self.asks_texts()

    def counts_away(self, before, how):
        """Counts the lists that a closing put away."""
        for call, side in self.office.away - before:
            rows = [settled for settled in self.office.register.lists if settled[:3] == (*call, SIDES[side])]
            self.beside.counted['lists put away ' + (how or 'for the %d. time' % len(rows))] += 1

    # ---- what happens between

    def delivers(self, text):
        """By a command."""
        before = self.office.away
        self.beside.deliver(self.name, self.program, self.office, text)
        self.beside.counted['lists brought back by a delivery'] += len(before - self.office.away)

    def serves(self, count):
        """By HTTP."""
        before = self.office.away
        self.beside.serve(self.name, self.program, self.office, random_requests(self.chance, self.day, self.office, count))
        self.beside.counted['lists brought back by a delivery over HTTP'] += len(before - self.office.away)

    def delivers_all(self, texts):
        """One text after the other, each made after the one before was answered."""
        for text in texts:
            if text:
                self.delivers(text)

    def finishes(self):
        """A new call, and a list that is finished."""
        self.delivers_all(self.vessels.new_call(self.office))
        self.delivers_all(self.vessels.finished(self.office))

    def asks_lists(self, names):
        """Some lists or what is left of them, and the calls, before and after: one that is away stays away."""
        self.asks([('calls', '')])
        for name in self.chance.sample(names, min(NAMED, len(names))):
            self.beside.counted['lists asked for, ' + self.standing(name)] += 1
            self.asks([(self.chance.choice(['list', 'work']), key_of(name))])
        self.asks([('calls', '')])

    def standing(self, name):
        """Whether a list is away."""
        return 'away' if name in self.office.away else 'here'

    def names_some(self, names):
        """Some lists are named, each by a text, if anybody may send one."""
        for name in self.chance.sample(names, min(NAMED, len(names))):
            standing, (text, what, when) = self.standing(name), self.vessels.named_again(self.office, name)
            if text:
                self.beside.counted['lists named, %s: %s, %s' % (standing, what, when)] += 1
                self.delivers(text)

    def names_again(self):
        """Some lists that were put away once, whether they are away or not."""
        names = sorted({(settled[:2], settled.side) for settled in self.office.register.lists})
        names = [(call, {code: side for side, code in SIDES.items()}[code]) for call, code in names]
        for name in self.chance.sample(names, min(NAMED, len(names))):
            if self.chance.random() < LOOKED:
                self.asks_lists([name])
            else:
                self.names_some([name])

    def again(self):
        """Texts under closed numbers as they were, and others under such numbers; of each archive some."""
        texts = []
        closed = [each for each in self.office.deliveries if self.office.archive_of(each.partner, each.number)]
        for delivery in self.chance.sample(closed, min(AGAIN, len(closed))):
            code, number = delivery.partner, delivery.number
            orders = SENDERS[self.office.setup.partners[code]][1]
            texts += [first_text(self.office.deliveries, code, number), self.day.interchange(code, orders, number)]
        self.chance.shuffle(texts)
        return texts

    def asks(self, asked):
        """Reports, and some of them as JSON, too."""
        for kind, key in asked:
            self.beside.report(self.name, self.program, self.office, kind, key)
            if self.chance.random() < AS_JSON:
                self.beside.report(self.name, self.program, self.office, kind, key, ('--json',))

    def asks_all(self):
        """All reports: those on the whole terminal and some others by a command, all others by HTTP."""
        keys = every_key(self.office)
        self.asks(WHOLE + self.chance.sample(keys, min(ASKED, len(keys))))
        paths = [path_of(kind, key.replace('%', '%25').replace(' ', '%20')) for kind, key in keys if key.isascii()]
        paths += [of_archive(self.chance, self.office, path) for path in self.chance.sample(paths, min(OF_ARCHIVES, len(paths)))]
        self.beside.serve(self.name, self.program, self.office, [get(self.chance, path) for path in paths])

    def asks_texts(self):
        """The texts of the store and of each archive that can be asked, with those before it."""
        for path, office in [(self.program.store, self.office), *self.archives]:
            place, other = len(office.register.archives) + 1, Program(self.beside.path, self.folder)
            if path == self.program.store or place not in self.office.lost:
                other.store, office.lost = path, self.office.lost
                self.beside.texts(self.name + ', ' + os.path.basename(path), other, office, self.chance)
        for _path, office in self.archives:
            office.lost = {}

    def turn(self, is_served):
        """Deliveries, an account, questions, closed numbers again, texts."""
        if is_served:
            self.serves(REQUESTS)
        else:
            self.delivers(streamed(self.day, DELIVERIES, 0.05))
        if self.chance.random() < 0.3:
            self.beside.account(self.name, self.program, self.office, *self.day.addition())
        self.names_again()
        for _call in range(CALLS):
            self.finishes()
        self.asks([question(self.chance, self.office) for _question in range(QUESTIONS)] + [('archives', '')])
        self.delivers('\n'.join(self.again()))
        self.beside.texts(self.name, self.program, self.office, self.chance)

    # ---- an archive

    def looks_at(self, path, office):
        """An archive takes nothing, and is asked as the store that it was."""
        beside, other = self.beside, Program(self.beside.path, self.folder)
        other.store = path
        beside.expect('an archive refuses', self.name, ARCHIVED, other.account('HAULC', 'gate'))
        beside.expect('an archive refuses', self.name, ARCHIVED, other.deliver(''))
        beside.expect('an archive refuses', self.name, ARCHIVED, other.run('serve', path, '8080', '1'))
        beside.expect('an archive refuses', self.name, ARCHIVED, other.close(self.program.store))
        away = [(kind, key_of(name)) for name in sorted(office.away) for kind in OF_LISTS]
        for kind, key in WHOLE + away + [question(self.chance, office) for _question in range(QUESTIONS)]:
            beside.report(self.name + ', an archive', other, office, kind, key)
        beside.rows(self.name + ', an archive', other, office)
        beside.register(self.name + ', an archive', path, office)


# ---- a store that is never closed

def differ_as_said(kind, own, other):
    """Whether a report of a closed store differs from that of one that never was as it may: visits, a container and the calls may
    lack what went, and end with how many archives there are; the metrics count fewer visits."""
    if kind == 'archives':
        return True
    if kind == 'metrics':
        return re.sub(r'(?m)^office_visits \d+$', '', own) == re.sub(r'(?m)^office_visits \d+$', '', other)
    if kind in ('visits', 'container', 'calls') and re.search(r'(?m)^ARCHIVES \d+\n\Z', own):
        own_lines, other_lines = own.splitlines()[:-1], other.splitlines()
        return set(own_lines) <= set(other_lines) and (kind != 'container' or own_lines in ([], other_lines))
    return own == other


def compare(beside, name, closable, other):
    """Reports of a store that was closed and of one that never was."""
    keys = every_key(closable.office)
    for kind, key in WHOLE + closable.chance.sample(keys, min(COMPARED, len(keys))):
        own, never = closable.program.report(kind, key), other.report(kind, key)
        is_same = own[1] == never[1] and differ_as_said(kind, own[0], never[0])
        beside.expect('as of a store that is never closed', '%s, %s %s' % (name, kind, key), True, is_same or (own, never))


# ---- an archive that can't be asked

def removed_one(path):
    """Removes a file, if it is there."""
    if os.path.exists(path):
        os.remove(path)


def removed(path, _closable):
    """It is not there."""
    for end in ENDS:
        removed_one(path + end)
    return 'MISSING'


def unmarked(path, closable):
    """A copy of the store, of an earlier day or of now, that was never closed for."""
    copy_files(closable.program.store, path)
    return 'OTHER'


def of_another(path, closable):
    """The store of another terminal."""
    removed(path, closable)
    other = Program(closable.beside.path, closable.folder)
    other.store = path
    other.init(*files_of(DEMO._replace(terminal='TERM9')))
    return 'OTHER'


def a_text(path, closable):
    """No database."""
    removed(path, closable)
    closable.program.file(os.path.basename(path), 'no store')
    return 'OTHER'


def without_register(path, _closable):
    """Its own register is gone, and the mark with it."""
    for end in ENDS[2:]:
        removed_one(path + end)
    return 'OTHER'


def swapped(path, closable):
    """Another archive of the same store."""
    others = [other for other, _office in closable.archives if other != path]
    if not others:
        return unmarked(path, closable)
    copy_files(closable.kept(others[0]), path)
    return 'OTHER'


def of_twin(path, closable):
    """The archive of a store that had as many texts, and others."""
    place = [each for each, _office in closable.archives].index(path) + 1
    if not numbers_of(closable, place):
        return unmarked(path, closable)
    edit(path, "UPDATE interchange SET body = CAST(body || x'0A' AS BLOB)")
    return 'OTHER'


LOSSES = [removed, unmarked, of_another, a_text, without_register, swapped, of_twin]


@contextmanager
def kept_aside(closable):
    """Copies of all archives, which are put back."""
    for path, _office in closable.archives:
        copy_files(path, closable.kept(path))
    yield
    for path, _office in closable.archives:
        copy_files(closable.kept(path), path)


def numbers_of(closable, place):
    """The deliveries of which an archive keeps the numbers."""
    office = closable.office
    return [each for each in office.deliveries if office.archive_of(each.partner, each.number) == place]


def asked_without(closable):
    """What is asked while an archive can't be: closed numbers and others are delivered, all kinds of reports, texts."""
    closable.delivers('\n'.join(closable.again() + [closable.day.delivery() for _delivery in range(3)]))
    lost = [each for place in closable.office.lost for each in numbers_of(closable, place)]
    chosen = closable.chance.sample(lost, min(3, len(lost)))
    keys = [(kind, '%s/%d' % each[:2]) for each in chosen for kind in ('reply', 'contrl', 'ticket')]
    closable.asks(WHOLE + keys + [question(closable.chance, closable.office) for _question in range(QUESTIONS)])
    closable.delivers('\n'.join(each.text for each in chosen))
    closable.asks_texts()


def try_losses(closable):
    """Archives that can't be asked, one after the other, and put back."""
    for loss in closable.chance.sample(LOSSES, 2):
        place = closable.chance.randrange(len(closable.archives)) + 1
        with kept_aside(closable):
            closable.office.lost = {place: loss(closable.archives[place - 1][0], closable)}
            asked_without(closable)
            if closable.chance.random() < 0.3:
                closable.serves(REQUESTS)
        closable.office.lost = {}
        closable.asks([('archives', '')])
        closable.delivers('\n'.join(closable.again()))


def try_held(closable):
    """Another process works on an archive."""
    place = closable.chance.randrange(len(closable.archives)) + 1
    with closing(sqlite3.connect(closable.archives[place - 1][0], isolation_level=None)) as holder:
        holder.execute('BEGIN IMMEDIATE')
        closable.office.lost = {place: 'OTHER'}
        asked_without(closable)
        holder.execute('ROLLBACK')
    closable.office.lost = {}
    closable.delivers('\n'.join(closable.again()))


def of_another_day(path, other):
    """The database and the log of another."""
    for end in ENDS[:2]:
        removed_one(path + end)
        if os.path.exists(other + end):
            shutil.copyfile(other + end, path + end)


def spoiled(path, closable):
    """Puts the rows of another day under an archive's register, cuts a file of an archive, or turns one bit of it over."""
    chance = closable.chance
    if chance.random() < ANOTHER_DAY:
        others = [closable.kept(each) for each, _office in closable.archives]
        of_another_day(path, chance.choice([closable.program.store] + others))
        return
    names = [path + end for end in ('', '', '-wal', REGISTER) if os.path.exists(path + end) and os.path.getsize(path + end)]
    name = chance.choice(names)
    if chance.random() < 0.4:
        os.truncate(name, chance.randrange(os.path.getsize(name)))
        return
    flip(name, chance)


def is_allowed(line, wanted):
    """Whether a closed number may be answered so: as ever, or `not now`, whatever the archive keeps."""
    return line in (wanted, '{"answer":"not now"}')


def are_allowed(office, place, stood, is_sealed, got):
    """Whether texts may be printed so where the archive of a place is spoiled: all; or the first and then that it can't be asked, or
    is damaged. Where SQLite reads other bytes there, that holds of the texts before that archive; under a number that it closed, there are
    no others."""
    printed, told, ended = got
    office.lost = {} if stood else {place: 'OTHER'}
    kept = text_of(kept_texts(office.deliveries)) if stood else texts_before_lost(office)[-1]
    office.lost = {}
    if ended == 3 and told in ('store: Store\n', 'store: Damaged\n'):
        return kept.startswith(printed) or not stood and is_sealed and printed.startswith(kept)
    return (told, ended) == ('', 0) and is_sealed and (printed == kept if stood else printed.startswith(kept))


def stand_as_ever(path, archive, pairs):
    """Whether SQLite's own library reads the interchanges of an archive as they stood in it; and whether it doesn't read others
    under the numbers that the archive closed."""
    try:
        found = [row[1:] for row in standing_in(path)]
    except sqlite3.DatabaseError:
        return False, True
    wanted = interchange_rows(archive)
    closed = [[row for row in rows if row[:2] in pairs] for rows in (found, wanted)]
    return found == wanted, sorted(closed[0]) == sorted(closed[1])


def try_spoiled(closable):
    """An archive of which some bytes are other ones: each of its numbers, all texts, and then what is not closed, which is
    answered as ever."""
    office, place = closable.office, closable.chance.randrange(len(closable.archives)) + 1
    path, archive = closable.archives[place - 1]
    pairs = sorted({each[:2] for each in numbers_of(closable, place)})
    with kept_aside(closable):
        spoiled(path, closable)
        texts = [first_text(office.deliveries, *pair) for pair in pairs]
        wanted = lines(answers(office, '\n'.join(texts)))
        printed, told, ended = closable.program.deliver('\n'.join(texts))
        got = printed.splitlines()
        allowed = [is_allowed(*pair) for pair in zip(got, wanted)]
        closable.beside.expect('spoiled, the answers', closable.name, [True] * len(texts), allowed)
        closable.beside.expect('spoiled, told', closable.name, ('', True), (told, ended in (0, 1, 3)))
        closable.beside.counted['spoiled: not now'] += got.count('{"answer":"not now"}')
        given = closable.program.texts(0)
        known = identities(office.setup)
        stood = stand_as_ever(path, archive, {(known[code], number) for code, number in pairs})
        allowed = are_allowed(office, place, *stood, given)
        closable.beside.expect('spoiled, the texts', closable.name, True, allowed or given)
        closable.beside.counted['spoiled: texts, ' + (given[1].strip() or 'all')] += 1
        later = [closable.day.delivery() for _delivery in range(3)]
        closable.delivers('\n'.join(text for text in later if is_beyond(office, text)))
    closable.delivers('\n'.join(closable.again()))


def is_beyond(office, text):
    """Whether a text is admitted under a number that is not closed."""
    return refusal(office.setup, text) is None and office.archive_of(sender_of(text), number_of(text)) is None


# ---- lists

def try_list(beside, seed):
    """Turns over a store, with closings between them."""
    name = 'closed, list %d' % seed
    with tempfile.TemporaryDirectory(prefix='beside-') as folder, tempfile.TemporaryDirectory(prefix='beside-') as second:
        closable, never = Closable(beside, name, folder, seed), Program(beside.path, second)
        is_served = seed % 2 == 0
        for _turn in range(closable.chance.choice(TURNS)):
            closable.turn(is_served)
            if closable.chance.random() < COPIES:
                closable.copies()
            if len(closable.archives) < MOST_ARCHIVES and closable.chance.random() < CLOSES:
                closable.closes()
        if not closable.archives:
            closable.closes()
        closable.asks_all()
        closable.asks_texts()
        beside.rebuilt(name, closable.program, closable.office)
        told_again(beside, name + ', never closed', closable, never)
        compare(beside, name, closable, never)
        for path, office in closable.archives:
            closable.looks_at(path, office)
        try_losses(closable)
        try_held(closable)
        try_spoiled(closable)
        beside.rows(name, closable.program, closable.office)


def told_again(beside, name, closable, program):
    """The same deliveries and additions to a store that is never closed, and the model of it: what was refused is left out."""
    office, texts = beside.init(name, program, closable.files), []
    for event in closable.office.events:
        if isinstance(event, Added):
            beside.deliver(name, program, office, '\n'.join(texts))
            beside.account(name, program, office, *event)
            texts = []
        elif refusal(office.setup, event.text) is None:
            texts.append(event.text)
    beside.deliver(name, program, office, '\n'.join(texts))


def try_all(beside):
    """Random lists."""
    for seed in range(1, LISTS + 1):
        try_list(beside, seed)
