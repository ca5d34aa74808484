"""SIGKILL at each call by which the program writes, and each of these calls refused, with strace.

A process takes three texts over a store that stands shortly before its log is moved into the file, or is new. For each
of its calls of a kind the store is copied, and a process is stopped as that call begins, or that call is answered with
a fault. So each place between two writes is met, which kills at random moments do not promise.
"""
import os
import re
import shutil
import tempfile
from collections import Counter
from functools import wraps

from .books import Book, Different, expect, prefilled
from .working import Delivering, run

STRACE = shutil.which('strace')
KINDS = ('pwrite64', 'fdatasync', 'fsync', 'ftruncate', 'write', 'pread64')
FAULTS = [
    ('pwrite64', 'ENOSPC'), ('pwrite64', 'EIO'), ('fdatasync', 'EIO'), ('fdatasync', 'ENOSPC'), ('fsync', 'EIO'),
    ('ftruncate', 'EIO'), ('ftruncate', 'ENOSPC'), ('pread64', 'EIO'),
    ('write', 'ENOSPC')]
TEXTS = 3
MOST_READS = 20             # of pread64, which are many, some alone
MOST_DELIVERIES = 600       # until the log is moved


def with_strace(trial):
    """A trial that is not run where strace is not there."""
    @wraps(trial)
    def tried(program, seed, counted):
        if STRACE:
            trial(program, seed, counted)
        else:
            counted['not run: strace is not there'] = 1
    return tried


def strace(log, *words):
    """The words in front of the program's."""
    return [STRACE, '-qq', '-f', '-o', log, '-e', 'trace=' + ','.join(KINDS), *words]


def count_calls(book, texts):
    """How many calls of each kind a process makes that takes these texts."""
    log = os.path.join(book.folder, 'calls')
    with Delivering(book.program, book.store, front=strace(log)) as worker:
        worker.answers(texts, lambda line: None)
        worker.ended()
    return calls_in(log)


def calls_in(log):
    """How many calls of each kind strace has noted."""
    with open(log, encoding='utf-8', errors='replace') as file:
        return Counter(re.findall(r'^\d+ +(\w+)\(', file.read(), re.MULTILINE))


def places(count, kind, chance):
    """Which calls of a kind are tried: all, but of the reads some."""
    every = list(range(1, count + 1))
    return sorted(chance.sample(every, min(MOST_READS, count))) if kind == 'pread64' else every


def killed_at(book, texts, kind, place):
    """SIGKILL as that call begins. Gives which rows were found."""
    lines = []
    front = strace(os.path.join(book.folder, 'calls'), '-e', 'inject=%s:signal=SIGKILL:when=%d' % (kind, place))
    with Delivering(book.program, book.store, front=front) as worker:
        worker.answers(texts, lines.append)
        worker.ended()
    book.take(lines)
    found = book.found(texts[len(lines)] if len(lines) < len(texts) else None)
    book.looks()
    return found


def refused_at(book, texts, kind, fault, place):
    """That call is answered with a fault. A text that is answered not now is in effect whole or not at all, once the
    program is started anew; one whose answer could not be written likewise. Gives what was told."""
    lines = []
    front = strace(os.path.join(book.folder, 'calls'), '-e', 'inject=%s:error=%s:when=%d' % (kind, fault, place))
    with Delivering(book.program, book.store, front=front) as worker:
        worker.answers(texts, lines.append)
        status, told = worker.ended()
    refused = [text for text, line in zip(texts, lines) if line == '{"answer":"not now"}']
    unanswered = texts[len(lines)] if kind == 'write' and len(lines) < len(texts) else None
    book.take(lines)
    found = book.found(refused[0] if refused else unanswered)
    book.looks()
    return '%s, not now %d, %s' % (told.strip() or 'status %d' % status, len(refused), found)


def each_call(program, seed, before, counted):
    """All calls of three deliveries to a store to which so much was delivered before."""
    with tempfile.TemporaryDirectory(prefix='kill9-') as folder:
        book = prefilled(program, folder, seed, before)
        texts = book.upcoming(TEXTS)
        with tempfile.TemporaryDirectory(prefix='kill9-') as other:
            calls = count_calls(book.copied(other), texts)
        kills = [(kind, None) for kind in KINDS]
        for kind, fault in kills + FAULTS:
            for place in places(calls[kind], kind, book.chance):
                with tempfile.TemporaryDirectory(prefix='kill9-') as other:
                    one_call(book.copied(other), texts, (kind, fault, place), counted)


def one_call(book, texts, what, counted):
    """One process, killed or refused."""
    kind, fault, place = what
    try:
        if fault:
            found = refused_at(book, texts, kind, fault, place)
            counted['%s of %s: %s' % (fault, kind, found)] += 1
        else:
            counted['killed at %s: found %s' % (kind, killed_at(book, texts, kind, place))] += 1
    except Different as different:
        what = 'seed %s, %s %s, call %d' % (book.seed, fault or 'killed at', kind, place)
        raise Different('%s: %s' % (what, different)) from different


def init_killed_at(program, seed, kind, place, counted):
    """`init` is killed as that call begins: there is no store, and it can be made, or it is whole."""
    with tempfile.TemporaryDirectory(prefix='kill9-') as folder:
        book = Book(program, folder, seed)
        front = strace(os.path.join(folder, 'calls'), '-e', 'inject=%s:signal=SIGKILL:when=%d' % (kind, place))
        run(*front, program, 'init', book.store, *book.files)
        told = run(program, 'report', book.store, 'yard')
        if told != ('', 'store: Store\n', 3):
            expect('init again, over a store', ('', 'store: Store\n', 3), run(program, 'init', book.store, *book.files))
        else:
            book.init()
        book.found(None)
        book.looks()
        counted['init killed at %s: %s' % (kind, told[1].strip() or 'whole')] += 1


def each_call_of_init(program, seed, counted):
    """All calls by which a store is made."""
    with tempfile.TemporaryDirectory(prefix='kill9-') as folder:
        book, log = Book(program, folder, seed), os.path.join(folder, 'calls')
        run(*strace(log), program, 'init', book.store, *book.files)
        calls = calls_in(log)
    for kind in KINDS:
        for place in range(1, calls[kind] + 1):
            init_killed_at(program, seed, kind, place, counted)


@with_strace
def try_calls(program, seed, counted):
    """A new store, and one whose log is about to be moved into the file."""
    each_call_of_init(program, seed, counted)
    each_call(program, seed, 0, counted)
    each_call(program, seed, moving(program, seed), counted)


def moving(program, seed):
    """After how many deliveries the log is about to be moved into the file, which is written then and else never."""
    with tempfile.TemporaryDirectory(prefix='kill9-') as folder:
        book = Book(program, folder, seed).init()
        before, lines = os.stat(book.store).st_mtime_ns, []
        with Delivering(program, book.store) as worker:
            def read(line):
                lines.append(line)
                if os.stat(book.store).st_mtime_ns != before:
                    worker.process.kill()
            worker.answers(book.upcoming(MOST_DELIVERIES), read)
        return max(0, len(lines) - 2)
