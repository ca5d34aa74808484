"""Odd input: places that there are not, accounts that are missing, texts with separators of their own, of a mebibyte, pages of
other sizes, rowids with gaps.
"""
import sqlite3
import tempfile
from contextlib import closing

from hostile.books import expect, naming
from hostile.served import gate_in
from hostile.working import run
from model.deliveries import kept_texts
from model.events import Added
from model.rows import rows_in, rows_of
from model.stream import answers, lines, status

from .follow import Standby
from .offices import Made, are_same, hands_out, new_book, page_size, rebuilt, send, texts_of

MOST_BYTES = 1 << 20        # of an interchange
SIZES = [512, 1024, 2048, 4096, 8192, 16384, 32768, 65536]
USAGE = ('', 'usage: office texts DB [FROM]\n', 2)
NO_NUMBERS = [
    '00', '01', '007', '1000000000', '9999999999999999999999', '+1', '1.', '1e3', '0x1', '1 ', ' 1', '', 'one', '\u0661', '\n1',
    '1,000']
SERVICES = [':+.? \'', '*;,?!~', ';*.| !', '+:.? \'', ':+.? ~', '":.% &', "'!,# +"]


def try_places(program, seed, counted):
    """FROM that is no number, has leading zeros, or lies beyond the last text."""
    with tempfile.TemporaryDirectory(prefix='journal-') as folder:
        book = new_book(program, folder, seed)
        send(book, 20)
        count = hands_out(book)
        for passed in NO_NUMBERS:
            expect('texts after %r' % passed, USAGE, texts_of(book, passed))
            counted['FROM: no number'] += 1
        for passed in ('-1', '-0'):
            expect('texts after %r' % passed, ('', 2), texts_of(book, passed)[::2])
            counted['FROM: an option'] += 1
        for passed in (count + 1, count + 2, 1000, 999999999):
            expect('texts after %d of %d' % (passed, count), ('none\n', '', 1), texts_of(book, passed))
            counted['FROM: beyond the last'] += 1
        expect('the rows', rows_of(book.office), rows_in(book.store)[0])


def try_missing(program, seed, counted):
    """A follower that lacks an account, and gets the texts all the same: those of that sender are refused, and nothing of them
    is kept; with the account they come. By office-follow it gets the account first."""
    with tempfile.TemporaryDirectory(prefix='journal-') as folder:
        book = new_book(program, folder, seed)
        book.take([run(program, 'account', book.store, *add(book, 'HAUL-Z', 'gate'))[0][:-1]])
        for number in range(1, 6):
            sender = 'HAUL-Z' if number % 2 else next(iter(book.office.setup.partners))
            text = gate_in(number, sender, 900 + number).replace('TERM1', book.office.setup.terminal)
            book.texts.append(text)
            book.take(run(program, 'deliver', book.store, book.file('one.edi', text))[0].splitlines())
        with tempfile.TemporaryDirectory(prefix='journal-') as other:
            lacks_it(book, other, counted)
        with tempfile.TemporaryDirectory(prefix='journal-') as other:
            standby = Standby(book, other).init()
            standby.whole_turn()
            are_same(book, standby)
            counted['an account is missing: office-follow adds it first'] += 1


def add(book, code, kind):
    """An account that comes next."""
    book.texts.append(Added(code, kind))
    return code, kind


def lacks_it(book, folder, counted):
    """By hand, without the account."""
    made = Made(book, folder)
    run(made.program, 'init', made.store, *made.files)
    text = texts_of(book)[0]
    for turn in range(2):
        given = [made.office.answer(each) for each in kept_texts(book.office.deliveries)]
        names = [answer.get('fault', answer['answer']) for answer in given]
        wanted = ''.join(line + '\n' for line in lines(given)), '', 0 if turn else 1
        expect('deliver', wanted, run(made.program, 'deliver', made.store, made.file('all.edi', text)))
        expect('refused for want of an account', 0 if turn else 3, names.count('UnknownSender'))
        expect('the rows', (rows_of(made.office), []), rows_in(made.store))
        if not turn:
            made.account('HAUL-Z', 'gate')
        counted['an account is missing: %s' % ('with it all are kept' if turn else 'its texts are refused')] += 1
    expect('texts are kept', sorted(kept_texts(book.office.deliveries)), sorted(kept_texts(made.office.deliveries)))


def under(text, service):
    """A text under service characters of its own."""
    component, data, _mark, _release, _space, end = service
    return 'UNA' + service + text.translate(str.maketrans({':': component, '+': data, "'": end}))


def of_length(number, sender, length):
    """A gate-in of so many bytes."""
    plain = gate_in(number, sender, number).replace("'UNT+4", "'FTX+AAI+++%s'UNT+%d")
    part = 'A' * 500 + "'FTX+AAI+++"
    count = (length - len(plain)) // len(part) - 1
    text = plain % (part * count, count + 5)
    return text.replace('AAI+++A', 'AAI+++' + 'A' * (length - len(text) + 1), 1)


def mixed(sender, seed):
    """Texts of a sender: under separators of their own between plain ones, of a mebibyte, of a byte less, and of half of it."""
    serial = 1
    for service in SERVICES:
        yield gate_in(serial, sender, serial)
        yield under(gate_in(serial + 1, sender, serial + 1), service)
        serial += 2
    for length in (MOST_BYTES, MOST_BYTES - 1, MOST_BYTES // 2 + seed):
        yield of_length(serial, sender, length)
        yield under(gate_in(serial + 1, sender, serial + 1), SERVICES[1 + seed % 4])
        serial += 2


def try_mixed(program, seed, counted):
    """These come one after the other; they are handed out, rebuilt and followed byte for byte. One too long is not kept."""
    with tempfile.TemporaryDirectory(prefix='journal-') as folder:
        book = new_book(program, folder, 3 * seed)
        sender = next(code for code, kind in book.office.setup.partners.items() if kind == 'gate')
        texts = list(mixed(sender, seed))
        for stream in (book.chance.choice(['', '\n', '\r\n']).join(texts), of_length(99, sender, MOST_BYTES + 1)):
            given = answers(book.office, stream)
            wanted = ''.join(line + '\n' for line in lines(given)), '', status(given)
            expect('deliver', wanted, run(program, 'deliver', book.store, book.file('mixed.edi', stream)))
        counted['a mebibyte and a byte: %s' % given[0]['fault']] += 1
        hands_out(book)
        kept = kept_texts(book.office.deliveries)
        expect('texts that are kept', texts, kept)
        counted['separators of their own: kept'] += sum(text.startswith('UNA') for text in kept)
        counted['a mebibyte: kept'] += sum(len(text) == MOST_BYTES for text in kept)
        with tempfile.TemporaryDirectory(prefix='journal-') as other:
            are_same(book, rebuilt(book, other))
        with tempfile.TemporaryDirectory(prefix='journal-') as other:
            standby = Standby(book, other).init()
            standby.whole_turn()
            are_same(book, standby)


def resized(path, size):
    """Another hand gives a store pages of another size."""
    with closing(sqlite3.connect(path, isolation_level=None)) as store:
        store.execute('PRAGMA journal_mode=DELETE')
        store.execute('PRAGMA page_size=%d' % size)
        store.execute('VACUUM')
    expect('the size of a page', size, page_size(path))


def try_sizes(program, seed, counted):
    """A store opens with pages of each size, hands out the same texts, takes further ones, and can be rebuilt."""
    with tempfile.TemporaryDirectory(prefix='journal-') as folder:
        book = new_book(program, folder, seed)
        expect('the size of a page of a new store', 1024, page_size(book.store))
        send(book, 30)
        rows, texts = rows_in(book.store), texts_of(book)
        for size in SIZES:
            resized(book.store, size)
            expect('the rows, pages of %d' % size, rows, rows_in(book.store))
            expect('texts, pages of %d' % size, texts, texts_of(book))
            send(book, 8)
            book.found(None)
            expect('the size of a page', size, page_size(book.store))
            with tempfile.TemporaryDirectory(prefix='journal-') as other:
                are_same(book, rebuilt(book, other))
            rows, texts = rows_in(book.store), texts_of(book)
            counted['pages of %d: opened, went on, rebuilt' % size] += 1


def try_gaps(program, seed, counted):
    """Another hand numbers rows anew: the store opens, and all its texts are handed out in the order of their rowids."""
    with tempfile.TemporaryDirectory(prefix='journal-') as folder:
        book = new_book(program, folder, seed)
        send(book, 20)
        kept = kept_texts(book.office.deliveries)
        with closing(sqlite3.connect(book.store)) as store:
            store.execute('UPDATE interchange SET rowid = rowid + 1000 WHERE rowid > 3')
            store.commit()
        book.found(None)
        expect('texts', (''.join(text + '\n' for text in kept), '', 0), texts_of(book))
        expect('texts after 1000', (''.join(text + '\n' for text in kept[3:]), '', 0), texts_of(book, 1000))
        book.looks()
        send(book, 5)
        counted['rowids with a gap: opened, all texts in their order'] += 1


def try_all(program, lists, seed, counted):
    """Each once, and the mixed texts for some lists."""
    for trial, count in ((try_places, 1), (try_missing, 1), (try_mixed, -(-lists // 20)), (try_sizes, 1), (try_gaps, 1)):
        for each in range(seed, seed + count):
            with naming('%s, seed %d' % (trial.__name__, each)):
                trial(program, each, counted)
