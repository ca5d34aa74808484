"""`texts` and `explain`, killed at each call of the system, and each call refused: scripts/kill9 printing.

What such a process printed is a front of what it owes. One whose call was refused prints all, or tells by name why it doesn't,
and is silent only where its own write was refused. No file changes, and the same words print all after it.
"""
import os
import sqlite3
import subprocess
import tempfile
from contextlib import closing
from functools import partial

from model.commands import outcome
from model.cuts import cut
from model.days import Day
from model.explained import NOBODY
from model.explained import printed as explained
from model.migrated import contents
from model.rows import REGISTER, copied_to, copy_files
from model.words import text_of

from .books import Different, expect, prefilled
from .calls import with_strace
from .calls_of_others import KILLED, MEMORY, NO_SETUP, STORE, UNREAD, calls_of, each_call, thinned
from .closings import Prepared, large
from .mutations import mutated_interchange

DELIVERED = 16              # texts of a store
PASSED = [0, 9, 99]         # after so many the texts are printed: all, some, or `none`
PLAIN, SPOILED = 4, 8       # interchanges of a file that is explained, as they were and mutated
ENDING = 40                 # bytes of one more at its end
OF_STDIN, OF_STDOUT = 'read(0, ', 'write(1, '     # the first reads what is explained, the second prints


def printed_by(words, given):
    """What a process prints, what it tells of faults, and its status, with a file as its standard input."""
    with open(given, 'rb') as file:
        done = subprocess.run(words, stdin=file, capture_output=True, check=False)
    return done.stdout.decode('latin-1'), done.stderr.decode('latin-1'), done.returncode


class Printing:
    """A command that only prints, over files. What it owes is a text, a fault and a status; what it may tell of a call that was
    refused are faults with their status."""

    def __init__(self, words, files, owed, faults):
        self.name, self.words, self.files, self.owed = words[1], words, files, owed
        self.faults = {fault[1:] for fault in faults}

    def standing(self):
        """The bytes of its files, and of logs and registers beside them."""
        return [contents(path + end) for path in self.files for end in ('', REGISTER)]

    def printed(self, front=()):
        """What it prints, tells and ends with; the first of its files is its standard input too."""
        return printed_by([*front, *self.words], self.files[0])

    def tried(self, front, kind, fault):
        """How much it printed and what it told, killed or refused at a call."""
        before, given = self.standing(), self.printed(front)
        if not self.owed[0].startswith(given[0]):
            raise Different('it printed %r' % given[0])
        silent = {('', 3)} if kind == 'write' else set()
        if fault != KILLED and given != self.owed and given[1:] not in self.faults | silent:
            raise Different('%r' % (given,))
        expect('the files', before, self.standing())
        expect('the same words', self.owed, self.printed())
        much = 'nothing' if not given[0] else 'all' if given[0] == self.owed[0] else 'a front'
        return ', '.join([much + ' printed', *given[1].splitlines()])


def texts(book, passed, folder):
    """`texts` of a copy of a store and of its archives, after so many."""
    copied, files = book.copied(folder), []
    for archive in book.office.register.archives:
        files.append(os.path.join(folder, archive.file))
        copy_files(os.path.join(book.folder, archive.file), files[-1])
    owed = outcome({'store': copied.office}, ['texts', 'store', str(passed)])
    return Printing([book.program, 'texts', copied.store, str(passed)], [copied.store, *files], owed, {STORE, MEMORY})


def explanation(book, text, word, setup, folder):
    """`explain` of a text, which is a file or the standard input, with the file of partners if there is a set-up."""
    copied = book.copied(folder)
    path, partners = copied.file('faulty.edi', text), copied.files[0]
    lines, status = explained(setup, text)
    words = [book.program, 'explain', word or path, *(['--partners', partners] if setup is not NOBODY else [])]
    return Printing(words, [path, partners], (text_of(lines), '', status), {UNREAD, MEMORY, NO_SETUP})


def faulty(book):
    """A text of interchanges, of which some are mutated, and the front of one."""
    plain = book.upcoming(PLAIN)
    spoiled = [mutated_interchange(book.chance, book.chance.choice(plain), plain[0]) for _text in range(SPOILED)]
    return '\n'.join([text for text in plain + spoiled if cut(text) == ([text], None)] + [plain[0][:ENDING]])


def bodies_in(store):
    """The texts that a store keeps, in the order of their rowids, by SQLite's own library."""
    with tempfile.TemporaryDirectory(prefix='kill9-') as folder:
        with closing(sqlite3.connect(copied_to(store, folder))) as opened:
            return [body.decode('latin-1') for body, in opened.execute('SELECT body FROM interchange ORDER BY rowid')]


def try_large(program, seed, counted):
    """Some of the reads between the lines of a large store."""
    with tempfile.TemporaryDirectory(prefix='kill9-') as folder:
        store = large(program, folder, seed)
        owed = text_of(bodies_in(store)), '', 0

        def make(_folder):
            return Printing([program, 'texts', store], [store], owed, {STORE, MEMORY})
        reads = [call for call in calls_of(make, OF_STDOUT) if call[0] == 'pread64']
        each_call(make, thinned(reads, Day(seed).random), counted)


def try_one(make, mark, chance, counted):
    """All calls of a command, from the first that says the mark on, but of those that are many some alone."""
    each_call(make, thinned(calls_of(make, mark), chance), counted)


@with_strace
def try_all(program, seed, counted):
    """Texts of a store, of a large one, and of one that was closed; and a file, explained in two ways."""
    with tempfile.TemporaryDirectory(prefix='kill9-') as folder:
        book = prefilled(program, folder, seed, DELIVERED)
        for passed in PASSED:
            try_one(partial(texts, book, passed), None, book.chance, counted)
        text = faulty(book)
        try_one(partial(explanation, book, text, None, NOBODY), None, book.chance, counted)
        try_one(partial(explanation, book, text, '-', book.office.setup), OF_STDIN, book.chance, counted)
    try_large(program, seed, counted)
    with tempfile.TemporaryDirectory(prefix='kill9-') as folder:
        book = Prepared(program, folder, seed, True).book
        for passed in PASSED:
            try_one(partial(texts, book, passed), None, book.chance, counted)
