"""Each call of the system of `report`, `serve` and `init`: a process is killed as it begins, or it is refused. With strace:
scripts/kill9 others.

Calls of whatever kind are tried, from the first that names a file of the store on; of those that are many some. A report is
told whole and right, or a fault by its name, and changes nothing. A server takes a delivery, a question and an account: what
it answers is what the model does, or `not now`, and it goes on; after it the store holds what was answered, and what was
not, whole or not at all. A store that is made is whole, or there is none.
"""
import os
import re
import signal
import subprocess
import tempfile
from collections import Counter
from copy import deepcopy
from functools import partial

from model.events import Added
from model.http import response, response_text
from model.office import json_text
from model.reports import WHOLE, printed
from model.requests import every_key, path_of
from model.rows import rows_in, rows_of
from model.stream import status

from .books import Book, Different, answer, expect, prefilled
from .calls import STRACE, moving, with_strace
from .commands import CODE, DELIVERED, KIND
from .working import SECONDS, Served, request_of, run

NOT_NOW = response_text(503, 'application/json', '{"answer":"not now"}')

# what a command may tell that a call was refused to; the last could not write its line
STORE, MEMORY, UNWRITTEN = ('', 'store: Store\n', 3), ('', 'store: Memory\n', 3), ('', '', 3)
UNREAD, NO_SETUP, NO_PORT = ('', 'cannot read\n', 3), ('', 'setup: Memory\n', 1), ('', 'cannot listen\n', 3)

# what a call is refused with. Others are killed at alone: they can't fail, or nobody asks whether they did, or, as `brk`, don't
# tell it by a number of a fault (scripts/memory refuses memory).
FAULTS = {
    'openat': ['EMFILE', 'EACCES'], 'statx': ['EIO'], 'newfstatat': ['EIO'], 'fstat': ['EIO'], 'readlink': ['EIO'],
    'getcwd': ['ENOENT'], 'fcntl': ['ENOLCK'], 'fchown': ['EPERM'], 'fchmod': ['EPERM'], 'fadvise64': ['EINVAL'],
    'getrandom': ['ENOSYS'], 'lseek': ['EIO'], 'read': ['EIO'], 'pread64': ['EIO'], 'pwrite64': ['EIO', 'ENOSPC'],
    'write': ['EIO', 'ENOSPC'], 'link': ['EPERM'], 'unlink': ['EIO'], 'fsync': ['EIO'], 'fdatasync': ['EIO', 'ENOSPC'], 'ftruncate': ['EIO'], 'close': ['EIO'],
    'mmap': ['ENOMEM'], 'mremap': ['ENOMEM'], 'socket': ['EMFILE'], 'setsockopt': ['ENOPROTOOPT'],
    'bind': ['EADDRINUSE'], 'listen': ['EADDRINUSE'], 'getsockname': ['ENOBUFS'], 'accept4': ['ECONNABORTED', 'EMFILE'],
    'poll': ['ENOMEM'], 'recvfrom': ['ECONNRESET'], 'sendto': ['EPIPE'], 'shutdown': ['ENOTCONN']}
SYNCS = {'fsync', 'fdatasync'}
MANY, MOST_OF_MANY = ('pread64', 'pwrite64', 'brk'), 20     # of which some alone are tried
KILLED = 'SIGKILL'


# ---- calls

def front_of(folder, *words):
    """The words in front of the program's, so that strace notes calls, or does something at one."""
    return [STRACE, '-qq', '-f', '-o', os.path.join(folder, 'calls'), *words]


def calls_from(folder, mark):
    """The calls that strace has noted, from the first that says the mark on: the kind of each, and the how manieth of its
    kind it is."""
    found, counted = [], Counter()
    with open(os.path.join(folder, 'calls'), encoding='utf-8', errors='replace') as file:
        for line in file:
            called = re.match(r'\d+ +(\w+)\(', line)
            if called:
                counted[called[1]] += 1
                if found or mark in line and called[1] != 'execve':
                    found.append((called[1], counted[called[1]]))
    return found


def calls_of(make, mark):
    """The calls of a process that is made in a folder of its own, and that nothing happens to."""
    with tempfile.TemporaryDirectory(prefix='kill9-') as folder:
        make(folder).tried(front_of(folder), None, None)
        return calls_from(folder, mark or folder)


def thinned(calls, chance):
    """All calls, but of those that are many some alone."""
    dropped = set()
    for kind in MANY:
        every = [call for call in calls if call[0] == kind]
        dropped.update(set(every) - set(chance.sample(every, min(MOST_OF_MANY, len(every)))))
    return [call for call in calls if call not in dropped]


def each_call(make, calls, counted, is_killed=True):
    """These calls of a process: killed as each begins, if that is wanted too, and refused."""
    for kind, place in calls:
        for fault in [KILLED] * is_killed + FAULTS.get(kind, []):
            one_call(make, (kind, place, fault), counted)


def one_call(make, what, counted):
    """One process, killed or refused."""
    kind, place, fault = what
    how = 'inject=%s:%s:when=%d' % (kind, 'signal=SIGKILL' if fault == KILLED else 'error=' + fault, place)
    with tempfile.TemporaryDirectory(prefix='kill9-') as folder:
        tried = make(folder)
        try:
            found = tried.tried(front_of(folder, '-e', 'trace=' + kind, '-e', how), kind, fault)
        except Different as different:
            raise Different('%s, %s: %s' % (tried.name, how, different)) from different
    counted['%s, %s: %s' % (tried.name, 'killed' if fault == KILLED else '%s of %s' % (fault, kind), found)] += 1


# ---- report and init

class Report:
    """A report on a store that holds an office."""

    def __init__(self, book, kind, key):
        self.book, self.name = book, 'report ' + kind
        self.words = [book.program, 'report', book.store, kind, *([key] if key else [])]
        self.wanted = printed(book.office, kind, key)[0], '', 0

    def tried(self, front, _kind, fault):
        """What it told. After it the rows are as they were, and the report is told."""
        given = run(*front, *self.words)
        if fault == KILLED and not self.wanted[0].startswith(given[0]):
            raise Different('it printed %r' % given[0])
        if fault != KILLED and given not in (self.wanted, STORE, MEMORY, UNWRITTEN):
            raise Different('%r' % (given,))
        self.book.found(None)
        expect('the report behind it', self.wanted, run(*self.words))
        return 'the report' if given[0] == self.wanted[0] else told_by(given)


class Init:
    """A store that is made of two files."""

    name = 'init'

    def __init__(self, program, seed, folder):
        self.book = Book(program, folder, seed)
        self.words = [program, 'init', self.book.store, *self.book.files]

    def tried(self, front, _kind, _fault):
        """What it told, and whether the store is made; else it can be made."""
        given = run(*front, *self.words)
        if given not in (('ready\n', '', 0), STORE, MEMORY, UNWRITTEN, UNREAD, NO_SETUP):
            raise Different('%r' % (given,))
        again = run(*self.words)
        if again != STORE or given[0]:
            expect('init again', STORE if given[0] else ('ready\n', '', 0), again)
        self.book.found(None)
        self.book.looks()
        return '%s; %s' % (told_by(given), 'no store' if again[0] else 'a whole store')


def told_by(given):
    """What a process told, in a word or two."""
    return given[0].strip() or given[1].strip() or 'nothing'


# ---- serve

class Serving(Served):
    """`serve` with strace before it, in a group of its own, so that both are gone where it is left."""

    def __init__(self, book, count, front):
        super().__init__(book.program, book.store, count, front, start_new_session=True)

    def stop(self):
        """SIGKILL to the group."""
        try:
            os.killpg(self.process.pid, signal.SIGKILL)
        except ProcessLookupError:
            pass
        super().stop()

    def over(self):
        """What it printed after its first line, what it told, and its status."""
        try:
            self.process.wait(SECONDS)
        except subprocess.TimeoutExpired as late:
            raise Different('it does not end') from late
        return self.process.stdout.read().decode(), self.process.stderr.read().decode(), self.process.returncode


class Known:
    """The offices that a server may stand at, by what it answered."""

    def __init__(self, office):
        self.offices, self.answered, self.not_now, self.nothing = [office], 0, [], []

    def take(self, request, given):
        """The response to a request. One that is not whole leaves open whether the request is in effect."""
        further = [deepcopy(office) for office in self.offices]
        wanted = [response(office, request) for office in further]
        if given == NOT_NOW:
            self.not_now.append(request)
        elif given in wanted:
            self.offices = [office for office, text in zip(further, wanted) if text == given]
            self.answered += 1
        elif any(text.startswith(given) for text in wanted):
            self.offices += further
            self.nothing.append(request)
        else:
            expect('the response to %r' % request, wanted, given)

    def found(self, store, is_synced):
        """The office that the store holds: after the n that were answered, or one more. Where a sync failed, that may be the
        first that was not now."""
        got, faults = rows_in(store)
        expect('integrity and foreign keys', [], faults)
        offices = list(self.offices)
        if self.not_now and not is_synced:
            offices.append(deepcopy(offices[0]))
            response(offices[-1], self.not_now[0])
        fits = [rows_of(office) == got for office in offices]
        if True not in fits:
            raise Different('the rows %r are of none of these: %r' % (got, [rows_of(office) for office in offices]))
        way = 'n' if len(fits) == 1 else 'n or n+1' if all(fits) else 'n' if fits[0] else 'n+1'
        return offices[fits.index(True)], way

    def told(self):
        """What became of the requests."""
        kinds = (self.answered, 'answered'), (len(self.not_now), 'not now'), (len(self.nothing), 'without an answer')
        return ', '.join('%d %s' % kind for kind in kinds if kind[0])


class Service:
    """A server that is sent a delivery, a question and an account."""

    def __init__(self, name, book):
        self.name, self.book = name, book
        self.sent = [book.upcoming(1)[0], Added(CODE, KIND)]
        asked = path_of('reply', dict(keys_of(book.office))['reply'])
        self.requests = [request_of(self.sent[0]), 'GET %s HTTP/1.1\r\n\r\n' % asked, request_of(self.sent[1])]

    def tried(self, front, kind, fault):
        """What became of the requests, and of the process; then the rows, and all sent again."""
        known = Known(self.book.office)
        with Serving(self.book, len(self.requests), front) as server:
            for request in self.requests if server.listening() else []:
                known.take(request, server.exchange(request))
                if known.nothing and fault == KILLED:
                    break
            over = server.over()
        if fault != KILLED:
            self.is_well_over(known, server.listens, over)
        self.book.office, way = known.found(self.book.store, kind not in SYNCS)
        self.again()
        if fault == KILLED:
            return 'found ' + way
        return '%s%s, found %s' % (known.told() + ', ' if server.listens else '', told_by(over), way)

    def is_well_over(self, known, listens, over):
        """A process whose call was refused serves all of its connections, and leaves no more than one without an answer; or
        it tells why it doesn't listen, or can't write its line."""
        ends = [('served %d\n' % len(self.requests), '', 0), UNWRITTEN] if listens else [STORE, MEMORY, NO_PORT, UNWRITTEN]
        if over not in ends:
            raise Different('it ended with %r' % (over,))
        if len(known.nothing) > 1:
            raise Different('no answer to %r' % (known.nothing,))

    def again(self):
        """The program opens the store, and what was sent is sent again, by the commands."""
        book, (text, added) = self.book, self.sent
        book.looks()
        given = book.office.answer(text)
        wanted = json_text(given) + '\n', '', status([given])
        expect('the delivery again', wanted, run(book.program, 'deliver', book.store, book.file('again.edi', text)))
        wanted = answer(book.office, added) + '\n', '', 0
        expect('the account again', wanted, run(book.program, 'account', book.store, *added))
        book.found(None)


# ---- all

def try_reports(book, counted):
    """A report of each kind, all of which open the store by the same calls: the first with all of its calls, the others with
    those from their last read of the store on."""
    for place, (kind, key) in enumerate(keys_of(book.office)):
        def make(other, kind=kind, key=key):
            return Report(book.copied(other), kind, key)
        calls = calls_of(make, None)
        reads = [at for at, call in enumerate(calls) if call[0] == 'pread64']
        each_call(make, thinned(calls[reads[-1]:] if place else calls, book.chance), counted)


def keys_of(office):
    """Each kind of report that tells something, under a key under which it does."""
    found = {kind: key for kind, key in every_key(office) if printed(office, kind, key)[1] == 0}
    return [pair for pair in WHOLE if printed(office, *pair)[1] == 0] + list(found.items())


def try_service(name, book, mark, counted):
    """A server of a store, from the call that says the mark on."""
    def make(other):
        return Service(name, book.copied(other))
    each_call(make, thinned(calls_of(make, mark), book.chance), counted)


@with_strace
def try_all(program, seed, counted):
    """A store that is made, reports on one, and servers of it and of one whose log is about to be moved into the file."""
    make = partial(Init, program, seed)
    each_call(make, calls_of(make, None), counted, is_killed=False)
    with tempfile.TemporaryDirectory(prefix='kill9-') as folder:
        book = prefilled(program, folder, seed, DELIVERED)
        try_reports(book, counted)
        try_service('serve', book, None, counted)
    with tempfile.TemporaryDirectory(prefix='kill9-') as folder:
        book = prefilled(program, folder, seed, moving(program, seed) + 1)
        try_service('serve, the log is moved', book, 'accept4(', counted)
