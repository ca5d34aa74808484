"""SIGKILL at a random moment while deliveries are under way, many times a store.

After each kill the rows have to be those after all whose answers were read, or after one more, the one in flight. Then the
program opens the store, shows the yard and some pages, and is killed again. Now and then the store is closed by a copy of some
kills before; that process is killed as well. At the end all texts are sent once more, from the first on. Accounts are added
between the deliveries, by `serve` and by `account`, and one store in four was brought over from an old version.
"""
import copy
import os
import subprocess
import tempfile
import threading
from itertools import takewhile
from time import monotonic, sleep

from model.days import NEWCOMERS
from model.events import Added
from model.http import response
from model.requests import report_path
from model.rows import copy_files

from .books import Book, Different, expect
from .closings import READY, UNCLOSED, Beside, stage
from .working import Delivering, Served, run

KILLS = 80                  # a store: some 400 deliveries, so that the log is moved into the file at least once
MOST = 10                   # deliveries from one kill to the next
OPENING = 0.15              # of the kills: while the store is opened, before the first answer
AHEAD = 12                  # texts that are sent ahead of the answers
KINDS = ('deliver, one by one', 'deliver, ahead', 'serve')
MIGRATED_EVERY = 4          # stores of which one is brought over from an old version
OLD_TEXTS = 12              # that were delivered to it before
CLOSED_EVERY = 10           # kills of a store, from its copy to the closing by that copy a quarter of these
PAGES_EVERY = 4             # kills after which pages are looked at
PAGES = 3                   # of them, at once
FINISHED = 2                # new calls, and lists that are finished, before a copy
NAMED = 0.3                 # of the kills: what comes next names a list that is away, if there is one


class Pace:
    """How long the program takes to open a store and for one delivery, as it was seen so far."""

    def __init__(self):
        self.opening, self.delivery = 0.02, 0.005

    def saw(self, opening, spans):
        """One process more."""
        self.opening += (opening - self.opening) / 8
        for span in spans:
            self.delivery += (span - self.delivery) / 32


class Moment:
    """When a process is killed: so many answers after its start, and a random time after that."""

    def __init__(self, chance, worker, pace):
        self.after = 0 if chance.random() < OPENING else chance.randint(1, MOST)
        self.wait = chance.uniform(0, 1.3) * pace.opening if self.after == 0 else chance.uniform(0, 2) * pace.delivery
        self.worker, self.pace, self.lines, self.times = worker, pace, [], [monotonic()]
        self.killing = threading.Timer(self.wait, worker.process.kill)
        if self.after == 0:
            self.killing.start()

    def read(self, line):
        """An answer came; after the last of them the time runs."""
        self.lines.append(line)
        self.times.append(monotonic())
        if len(self.lines) == self.after:
            self.killing.start()

    def over(self):
        """The process is gone, and what was seen of its pace is kept."""
        if self.killing.ident is None:
            self.killing.start()
        self.killing.join()
        self.worker.process.wait()
        spans = [later - earlier for earlier, later in zip(self.times, self.times[1:])]
        if spans:
            self.pace.saw(spans[0], spans[1:])


def worker_of(kind, book):
    """A process of one of the kinds."""
    if kind == 'serve':
        return Served(book.program, book.store)
    return Delivering(book.program, book.store, ahead=kind.endswith('ahead'))


def is_text(sent):
    """Whether it is a text, which `deliver` takes, and not an addition."""
    return not isinstance(sent, Added)


def added(book, counted):
    """What is next is added by `account`, as long as that is an account."""
    while not is_text(book.upcoming(1)[0]):
        code, kind = book.upcoming(1)[0]
        line, _told, _status = run(book.program, 'account', book.store, code, kind)
        book.take([line[:-1]])
        counted['accounts asked for by account'] += 1


def killed_once(book, pace, counted):
    """A process at work, killed; the rows after it; the program opens the store again."""
    kind = book.chance.choice(KINDS)
    if kind != 'serve':
        added(book, counted)
    texts = book.upcoming(MOST + AHEAD)
    if kind != 'serve':
        texts = list(takewhile(is_text, texts))
    with worker_of(kind, book) as worker:
        moment = Moment(book.chance, worker, pace)
        worker.answers(texts, moment.read)
        moment.over()
        expect('stopped by SIGKILL', -9, worker.process.returncode)
    book.take(moment.lines)
    in_flight = texts[len(moment.lines)] if len(moment.lines) < len(texts) else None
    found = book.found(in_flight)
    book.looks()
    counted['kills'] += 1
    counted['kills of ' + kind] += 1
    counted['kills before the first answer'] += not moment.lines
    counted['answers read before kills'] += len(moment.lines)
    counted['kills with a delivery in flight'] += in_flight is not None and is_text(in_flight)
    counted['kills with an addition in flight'] += in_flight is not None and not is_text(in_flight)
    counted['accounts asked for by serve'] += sum(not is_text(sent) for sent in texts[:len(moment.lines)])
    counted['found ' + found] += 1


def pages(book, counted):
    """Pages over HTTP, by paths of reports that find something or nothing."""
    with Served(book.program, book.store, PAGES) as served:
        for _page in range(PAGES):
            path = book.chance.choice(['/', '/pages' + report_path(book.chance, book.office)])
            request = 'GET %s HTTP/1.1\r\n\r\n' % path
            expect('GET %s' % path, response(book.office, request), served.exchange(request))
            counted['pages looked at'] += 1


class Copied(Beside):
    """A copy of a store's files and the office of then, by which the store is closed later."""

    def __init__(self, book):
        self.book, self.archive = book, copy.deepcopy(book.office)
        self.path = os.path.join(book.folder, 'office-%04d.db' % (len(book.office.register.archives) + 1))
        copy_files(book.store, self.path)


def killed_closing(book, copied, pace, counted):
    """`close`, killed; the store takes a text as far as it is closed, and the same closing goes on to its end."""
    words, before = [book.program, 'close', book.store, copied.path], copied.modelled()
    offices = copy.deepcopy((book.office, copied.archive))
    with subprocess.Popen(words, stdout=subprocess.DEVNULL, stderr=subprocess.DEVNULL) as process:
        sleep(book.chance.uniform(0, 5) * pace.opening)
        process.kill()
    copied.closes()
    found = stage(before, copied.modelled(), copied.standing(), 'a closing')
    counted['closings killed, found: ' + found] += 1
    if found in UNCLOSED:
        book.office, copied.archive = offices
    added(book, counted)
    line, _told, _status = run(book.program, 'deliver', book.store, book.file('one.edi', book.upcoming(1)[0]))
    book.take([line[:-1]])
    copied.prints_texts()
    expect('close again', READY, run(*words))
    copied.closes()
    expect('all after it', copied.modelled(), copied.standing())
    copied.prints_texts()
    counted['closings'] += 1
    counted['lists away after closings'] += len(book.office.away)


def finishes(book):
    """Some lists get done."""
    for _list in range(FINISHED):
        for text in book.finishing():
            book.delivers_next(text)


def names_away(book, counted):
    """What comes next names a list that is away, if there is one."""
    text = book.naming_away()
    if text:
        book.comes_next(text)
        counted['texts that name a list that is away'] += 1


def written(book):
    """When the file was written last: that is where the log is moved into it."""
    return os.stat(book.store).st_mtime_ns


def killed_often(program, seed, kills, pace, counted):
    """One store through all its kills, and to its end."""
    with tempfile.TemporaryDirectory(prefix='kill9-') as folder:
        book = Book(program, folder, seed, NEWCOMERS)
        try:
            if seed % MIGRATED_EVERY:
                book.init()
            else:
                book.migrated(1 + seed // MIGRATED_EVERY % 2, OLD_TEXTS)
                counted['stores brought over'] += 1
            book.adds = True
            for kill in range(kills):
                before = written(book)
                if book.chance.random() < NAMED:
                    names_away(book, counted)
                killed_once(book, pace, counted)
                counted['the log moved into the file'] += written(book) != before
                if kill % PAGES_EVERY == 0:
                    pages(book, counted)
                if kill % CLOSED_EVERY == CLOSED_EVERY // 2:
                    finishes(book)
                    copied = Copied(book)
                if kill % CLOSED_EVERY == CLOSED_EVERY // 2 + CLOSED_EVERY // 4:
                    killed_closing(book, copied, pace, counted)
            counted['deliveries sent again at the end'] += book.again()
        except Different as fault:
            raise Different('seed %s, kill %d: %s' % (seed, counted['kills'], fault)) from fault
    counted['stores'] += 1


def try_kills(program, kills, seed, counted):
    """That many kills, over as many stores as they need."""
    pace = Pace()
    while counted['kills'] < kills:
        killed_often(program, seed + counted['stores'], min(KILLS, kills - counted['kills']), pace, counted)
    counted['milliseconds to open, as seen last'] = round(1000 * pace.opening, 1)
    counted['milliseconds a delivery, as seen last'] = round(1000 * pace.delivery, 1)
