"""An office that is rebuilt of another one's texts or that follows it, beside the model, and what both have to have alike."""
import copy
import os
import subprocess
from itertools import groupby

from hostile.books import Book, expect
from hostile.working import printed_texts, run
from model.closing import never_closed
from model.commands import texts as texts_told
from model.days import NEWCOMERS
from model.deliveries import kept_texts
from model.events import Added
from model.office import Office, json_text
from model.rows import copied, copied_to, rows_in, rows_of

BETWEEN = ['', '', '\n', '\r\n', '\n\n']     # texts of one call


def new_book(program, folder, seed):
    """A first office of a random set-up, whose partners and newcomers send, and to which accounts are added."""
    book = Book(program, folder, seed, NEWCOMERS).init()
    book.adds = True
    return book


def is_addition(sent):
    """Whether it is an account and no text."""
    return isinstance(sent, Added)


def call(office, sent):
    """An addition by `account`; or some texts by one `deliver`. Gives the lines."""
    if is_addition(sent[0]):
        lines = [run(office.program, 'account', office.store, *each)[0] for each in sent]
        return [line for each in lines for line in each.splitlines()]
    text = ''.join(each + office.chance.choice(BETWEEN) for each in sent)
    return run(office.program, 'deliver', office.store, office.file('sent.edi', text))[0].splitlines()


def send(book, count, others=()):
    """What comes next, to the book's office and to others, which give the same lines."""
    for _is_addition, group in groupby(book.upcoming(count), key=is_addition):
        sent = list(group)
        lines = call(book, sent)
        expect('as many answers', len(sent), len(lines))
        book.take(lines)
        for other in others:
            expect('the answers of an office made of the texts', lines, call(other, sent))


# ---- stores

def asked(path, query):
    """What SQLite's own library finds in a copy of a store."""
    with copied(path) as store:
        return store.execute(query).fetchall()


def rows_in_order(path):
    """The interchanges as they stand: rowid, partner, number, text and reply."""
    return asked(path, 'SELECT rowid, partner, number, body, reply FROM interchange ORDER BY rowid')


def page_size(path):
    """Bytes of a page of a store, by its head."""
    with open(path, 'rb') as file:
        size = int.from_bytes(file.read(18)[16:], 'big')
    return 65536 if size == 1 else size


# ---- what is handed out

def texts_of(office, passed=0):
    """The texts that the program prints, byte for byte, and its status."""
    return printed_texts(office.program, office.store, passed)


def hands_out(office):
    """Whether the program hands out the model's texts, from the first on, from each of three places, and beyond the last. Gives
    how many they are. Where nothing was put away, they stand under rowids without a gap."""
    count = len(kept_texts(office.office.deliveries))
    for passed in sorted({0, office.chance.randint(0, count), max(0, count - 1), count, count + 1}):
        text, ended = texts_told({'store': office.office}, 'store', str(passed))
        expect('texts after %d' % passed, (text, '', ended), texts_of(office, passed))
    if not office.office.register.archives:
        expect('the rowids', list(range(1, count + 1)), [row[0] for row in rows_in_order(office.store)])
    return count


def accounts_of(office):
    """The accounts of an office as its report of partners lists them: code and kind, as `account` takes them."""
    words = [line.split(' ') for line in run(office.program, 'report', office.store, 'partners')[0].splitlines()]
    return [(each[0], each[1].lower()) for each in words if each[2:3] == ['NEXT']]


# ---- an office that is made of another one's texts

class Made(Book):
    """A store of its own beside a book's, by the same set-up files; its model is a new office, and not the book's."""

    def __init__(self, book, folder):       # pylint: disable=super-init-not-called
        self.program, self.folder, self.seed, self.chance = book.program, folder, book.seed, book.chance
        self.files, self.store = book.files, os.path.join(folder, 'office.db')
        self.opening, self.office = book.office.opening, Office(book.office.opening, keeps_fold=True)

    def begun_as(self, path, office):
        """Begun as a copy of a store, which holds that office."""
        copied_to(path, self.folder)
        self.office = copy.deepcopy(office)
        return self

    def account(self, code, kind):
        """An account is added; the answer is the model's."""
        wanted = json_text(self.office.add_account(code, kind)) + '\n', '', 0
        expect('account', wanted, run(self.program, 'account', self.store, code, kind))

    def takes_accounts_of(self, other):
        """Each account of another office that it lacks, in their order."""
        for code, kind in accounts_of(other)[len(self.office.setup.partners):]:
            self.account(code, kind)

    def takes_texts_of(self, other, passed=0):
        """`office texts OTHER | office deliver OWN -`. Each answer is the model's, and taken or waiting. Gives how many."""
        words = [self.program, 'texts', other.store, str(passed)]
        with subprocess.Popen(words, stdout=subprocess.PIPE) as giving:
            given = subprocess.run(
                [self.program, 'deliver', self.store, '-'], stdin=giving.stdout, capture_output=True, check=False)
        kept = kept_texts(other.office.deliveries)[passed:]
        answers = [self.office.answer(text) for text in kept]
        wanted = ''.join(json_text(answer) + '\n' for answer in answers), '', 0
        expect('texts, delivered', (wanted, 0), ((given.stdout.decode('utf-8'), given.stderr.decode('utf-8'), given.returncode),
                                                 giving.returncode))
        expect('their answers', set(), {answer['answer'] for answer in answers} - {'taken', 'waiting'})
        return len(answers)

    def follows_in_model(self, first):
        """The model takes what the store shows that it has now: further accounts of the first, and further texts of it. The rows
        are then those of the model."""
        codes = [code for (code,) in asked(self.store, 'SELECT code FROM partner ORDER BY id')]
        expect('accounts, the first of the first\'s', list(first.office.setup.partners)[:len(codes)], codes)
        for code in codes[len(self.office.setup.partners):]:
            self.office.add_account(code, first.office.setup.partners[code])
        theirs, mine = kept_texts(first.office.deliveries), [row[3].decode('latin-1') for row in rows_in_order(self.store)]
        expect('texts, the first of the first\'s', theirs[:len(mine)], mine)
        for text in mine[len(kept_texts(self.office.deliveries)):]:
            self.office.answer(text)
        expect('the rows after as many texts', (rows_of(self.office), []), rows_in(self.store))
        return len(mine)


def rebuilt(book, folder):
    """A new office of the same set-up and accounts, to which the texts of a book's are delivered."""
    made = Made(book, folder)
    expect('init', ('ready\n', '', 0), run(made.program, 'init', made.store, *made.files))
    made.takes_accounts_of(book)
    made.takes_texts_of(book)
    return made


def are_same(book, made):
    """Both have the same rows in the same order and hand out the same texts; and each report, each reply among them, of both is
    that of one model. Where history was put away, the rows are those of what was never closed."""
    whole, own = never_closed(book.office), made.office
    expect('the rows by the model', rows_of(whole), rows_of(never_closed(own)))
    if not book.office.register.archives:
        expect('the rows', rows_in(book.store), rows_in(made.store))
        expect('interchanges as they stand', rows_in_order(book.store), rows_in_order(made.store))
    expect('texts', texts_of(book), texts_of(made))
    book.everything()
    made.office = own if own.register.archives else whole
    made.everything()
    made.office = own


def kinds_sent(book, counted):
    """Counts what was sent, by what it was answered."""
    office = Office(book.office.opening, keeps_fold=True, version=book.office.version)
    for sent in book.answered:
        if is_addition(sent):
            counted['accounts: ' + office.add_account(*sent)['answer']] += 1
        else:
            counted['deliveries: ' + office.answer(sent)['answer']] += 1
