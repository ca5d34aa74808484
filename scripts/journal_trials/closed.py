"""Stores whose history is put away between deliveries, by copies of now and of some deliveries earlier: rebuilt of the texts that
their archives and they keep, and followed by office-follow, with kills. A new office that gets them is the one that a store is
that was never closed. A standby that begins as a copy has archives too.
"""
import copy
import os
import tempfile

from hostile.books import expect, naming
from hostile.closings import READY
from hostile.kills import Copied
from hostile.working import run
from model.closing import never_closed
from model.deliveries import kept_texts
from model.rows import copy_files, interchange_rows, rows_in, rows_of
from model.words import text_of

from .follow import Standby, followed
from .offices import Made, are_same, asked, hands_out, new_book, rebuilt, send, texts_of

SHARE = 3                   # of the lists, one in so many
BEFORE, BEHIND = 24, 12     # deliveries and additions at most: before a copy, and after it
MOST_ARCHIVES = 4
CLOSES = 0.4                # of the turns of a standby: the first's history is put away before it


def put_away(book, counted, others=()):
    """A copy, what comes meanwhile, to other offices too, and the closing by that copy. The texts are then the same, and those of
    the archive are those of its day. Gives the archive, as a book."""
    for text in book.finishing():
        book.comes_next(text)
        send(book, 1, others)
    copied = Copied(book)
    counted['texts that waited as a copy was made'] += sum(not row[3] for row in interchange_rows(copied.archive))
    send(book, book.chance.choice([0, book.chance.randint(1, BEHIND)]), others)
    before = texts_of(book)
    expect('close', READY, run(book.program, 'close', book.store, copied.path))
    copied.closes()
    book.found(None)
    expect('texts after a closing', before, texts_of(book))
    archive = copy.copy(book)
    archive.store, archive.office = copied.path, copied.archive
    hands_out(archive)
    counted['closings'] += 1
    counted['lists away after closings'] += len(book.office.away)
    return archive


def rebuilt_once(program, seed, counted):
    """A list with closings; the office that is made of its texts; further deliveries to both, and a closing more."""
    with tempfile.TemporaryDirectory(prefix='journal-') as folder, tempfile.TemporaryDirectory(prefix='journal-') as other:
        book = new_book(program, folder, seed)
        for _closing in range(book.chance.randint(1, MOST_ARCHIVES)):
            send(book, book.chance.randint(0, BEFORE))
            put_away(book, counted)
        send(book, book.chance.randint(0, BEFORE))
        counted['texts handed out'] += hands_out(book)
        made = rebuilt(book, other)
        are_same(book, made)
        send(book, book.chance.randint(1, BEHIND), [made])
        put_away(book, counted, [made])
        made.office = never_closed(book.office)
        hands_out(book)
        are_same(book, made)
    counted['offices rebuilt'] += 1


class WithArchives(Standby):
    """A standby that begins as a copy of a closed store, its register and its archives."""

    def begun_as(self, path, office):
        """With all of these files."""
        folder = os.path.dirname(path)
        for name in ['office.db'] + [archive.file for archive in office.register.archives]:
            copy_files(os.path.join(folder, name), os.path.join(self.folder, name))
        self.office = copy.deepcopy(office)
        return self

    def follows_in_model(self, first):
        """The same as of others, by the texts that it prints: those of its archives don't stand in it."""
        for (code,) in asked(self.store, 'SELECT code FROM partner ORDER BY id')[len(self.office.setup.partners):]:
            self.office.add_account(code, first.office.setup.partners[code])
        theirs, (printed, _told, _ended) = kept_texts(first.office.deliveries), texts_of(self)
        fronts = {text_of(theirs[:count]): count for count in range(len(theirs) + 1)}
        expect('texts, the first of the first\'s', True, printed in fronts)
        for text in theirs[len(kept_texts(self.office.deliveries)):fronts[printed]]:
            self.office.answer(text)
        # the next one may have brought lists back
        self.found((theirs + [None])[fronts[printed]])
        return fronts[printed]


def followed_once(program, seed, counted):
    """A standby by the set-up or as a copy, which follows a first whose history is put away between turns."""
    with tempfile.TemporaryDirectory(prefix='journal-') as folder, tempfile.TemporaryDirectory(prefix='journal-') as other:
        book = new_book(program, folder, seed)
        send(book, book.chance.randint(0, BEFORE))
        put_away(book, counted)

        def between():
            if len(book.office.register.archives) < MOST_ARCHIVES and book.chance.random() < CLOSES:
                put_away(book, counted)
        if seed % 2:
            followed(Standby(book, other).init(), counted, between=between)
        else:
            followed(WithArchives(book, other).begun_as(book.store, book.office), counted, between=between)
        hands_out(book)


def from_an_archive(program, seed, counted):
    """An office that is made of the texts that an archive prints: that of its day. With those that came since it is the store's."""
    with tempfile.TemporaryDirectory(prefix='journal-') as folder, tempfile.TemporaryDirectory(prefix='journal-') as other:
        book = new_book(program, folder, seed)
        for _closing in range(2):
            send(book, book.chance.randint(0, BEFORE))
            archive = put_away(book, counted)
        made = Made(book, other)
        expect('init', READY, run(made.program, 'init', made.store, *made.files))
        made.takes_accounts_of(book)
        count = made.takes_texts_of(archive)
        expect('the rows of an archive\'s day', (rows_of(made.office), []), rows_in(made.store))
        made.takes_texts_of(book, count)
        are_same(book, made)
    counted['offices rebuilt of an archive, then of the store'] += 1


def try_all(program, lists, seed, counted):
    """A share of that many lists, each in all three ways."""
    for each in range(seed, seed + -(-lists // SHARE)):
        with naming('seed %d' % each):
            rebuilt_once(program, each, counted)
            followed_once(program, each, counted)
            from_an_archive(program, each, counted)
