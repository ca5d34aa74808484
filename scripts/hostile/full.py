"""No room: a file system that is full, and a limit on the size of files. Then room is made.

What was answered is in effect; what was answered not now is not, and is taken if it is sent again; repeats are answered
all the while.
"""
import os
import resource
import signal
import subprocess
import tempfile

from .books import NOT_NOW, Book, answer, expect, naming, prefilled
from .working import Delivering, Served, run

TRIALS = 25                 # of each kind
TEXTS = 30                  # with no room, as far as it goes
MOST_ROOM = 700_000         # bytes: the first delivery after an opening wants some 270,000
BEFORE = 20                 # deliveries


class Mounted:
    """A small file system of its own, in memory, or a folder where it can't be had."""

    def __init__(self, folder):
        self.folder, self.filler = folder, os.path.join(folder, 'filler')
        words = ['mount', '-t', 'tmpfs', '-o', 'size=16m', 'none', folder]
        self.is_there = os.geteuid() == 0 and subprocess.run(words, capture_output=True, check=False).returncode == 0

    def __enter__(self):
        return self

    def __exit__(self, *_fault):
        if self.is_there:
            subprocess.run(['umount', self.folder], check=True)

    def fill(self, room):
        """Leaves so many bytes."""
        found = os.statvfs(self.folder)
        with open(self.filler, 'wb') as file:
            file.write(bytes(max(0, found.f_bavail * found.f_bsize - room)))

    def make_room(self):
        """All that was taken."""
        os.remove(self.filler)


def limited(size):
    """Before the program begins: no file grows beyond that, which is told as a fault and not by a signal."""
    def limit():
        signal.signal(signal.SIGXFSZ, signal.SIG_IGN)
        resource.setrlimit(resource.RLIMIT_FSIZE, (size, resource.getrlimit(resource.RLIMIT_FSIZE)[1]))
    return limit


def worker_of(book, **how):
    """A process of either kind."""
    return book.chance.choice([Delivering, Served])(book.program, book.store, **how)


def with_no_room(book, worker, make_room, counted):
    """Deliveries until there is no room, and some more; then room is made, and all of them are sent again to the same
    process."""
    lines, texts = [], book.upcoming(TEXTS)
    worker.answers(texts, lines.append)
    if not lines:
        counted['no room: the process could not open: ' + ' '.join(map(str, reversed(worker.ended())))] += 1
        make_room()
        return
    expect('the answers', TEXTS, len(lines))
    refused = book.take(lines)
    counted['no room: texts sent'] += len(lines)
    counted['no room: of them answered not now'] += refused
    found, more = book.found(None), []
    make_room()
    worker.answers(texts, more.append)
    still = more.count(NOT_NOW)
    counted['room again: texts sent again to the same process'] += len(more)
    counted['room again: of them answered not now'] += still
    expect('rows with no room', 'n', found)
    for text, line in zip(texts, more):
        if line != NOT_NOW:
            expect('the answer to %r, sent again' % text, answer(book.office, text), line)


def ended(book, worker, counted):
    """The process is stopped; what it left; all is sent once more to another."""
    worker.stop()
    book.found(None)
    book.looks()
    counted['deliveries sent again at the end'] += book.again()
    counted['trials'] += 1


def try_full_disk(program, seed, counted):
    """On a file system of its own."""
    with tempfile.TemporaryDirectory(prefix='kill9-') as folder, Mounted(folder) as mounted:
        if not mounted.is_there:
            counted['not run: a file system can only be mounted by root'] = 1
            return
        book = prefilled(program, folder, seed, BEFORE)
        is_open = book.chance.random() < 0.5
        room = book.chance.randrange(MOST_ROOM)
        if not is_open:
            mounted.fill(room)
            what = run(program, 'report', book.store, 'yard')
            counted['no room: report: ' + (what[1].strip() or 'the yard')] += 1
        with worker_of(book) as worker:
            if is_open:
                one = []
                worker.answers(book.upcoming(1), one.append)
                book.take(one)
                mounted.fill(room)
            with_no_room(book, worker, mounted.make_room, counted)
            ended(book, worker, counted)


def try_limit(program, seed, counted):
    """With a limit on the size of files, which may stand at any byte."""
    with tempfile.TemporaryDirectory(prefix='kill9-') as folder:
        book = prefilled(program, folder, seed, BEFORE)
        size = os.path.getsize(book.store + '-wal') + book.chance.randrange(-200_000, MOST_ROOM)
        with worker_of(book, preexec_fn=limited(size)) as worker:
            without = (resource.getrlimit(resource.RLIMIT_FSIZE)[1],) * 2
            with_no_room(
                book, worker, lambda: resource.prlimit(worker.process.pid, resource.RLIMIT_FSIZE, without), counted)
            ended(book, worker, counted)


def try_init(program, seed, counted):
    """A store that there is no room for is not made, or made wholly."""
    with tempfile.TemporaryDirectory(prefix='kill9-') as folder, Mounted(folder) as mounted:
        if not mounted.is_there:
            return
        book = Book(program, folder, seed)
        mounted.fill(book.chance.randrange(400_000))
        printed, told, status = run(program, 'init', book.store, *book.files)
        counted['no room: init: ' + (printed + told).strip()] += 1
        mounted.make_room()
        if status:
            again = run(program, 'init', book.store, *book.files)
            counted['room again: init: ' + (again[0] + again[1]).strip()] += 1
        book.found(None)
        book.looks()


def try_all(program, seed, counted):
    """Each kind, many times."""
    for name, trial in (('a full disk', try_full_disk), ('a limit', try_limit), ('init', try_init)):
        for place in range(TRIALS):
            with naming('%s, seed %d' % (name, seed + place)):
                trial(program, seed + place, counted)
