"""The worked rows of docs/WORKED_ROWS.md that want a store: reports, tables, set-up files, commands, requests.

Each is checked against the model and, over a store in a file, against the program.
"""
import json
import os
import re
import shutil
import sqlite3
import tempfile

from .commands import CLAP, outcome
from .crowded import empty
from .http import response
from .office import Office
from .old_stores import write_store
from .opened import fault_of_rows
from .page import is_told
from .reports import printed, text_of
from .rows import COLUMNS, rows_of, tables_of
from .rules import NEWEST
from .setup import read_setup
from .setups import files_of
from .stores import Program
from .stream import answers, lines


# how a cell says that a command prints nothing, or that a body has no bytes
NOTHING = 'an empty text'


class Store(tempfile.TemporaryDirectory):
    """A folder with a store of a set-up, which the program made."""

    def __init__(self, beside, row, setup):
        super().__init__(prefix='beside-')
        self.beside, self.row = beside, row
        self.program = Program(beside.path, self.name)
        self.office = beside.init(row, self.program, files_of(setup))

    def deliver(self, text):
        """A stream, by a call of its own."""
        self.beside.deliver(self.row, self.program, self.office, text)

    def __enter__(self):
        return self


# ---- what stands after deliveries

def told_in(page, row):
    """What a row asks for after its deliveries: a word, its key, whether it is a report or a table, and the lines."""
    blocks = re.findall(
        r'^`(\w+)(?: ([^`]*))?` (reports|holds)\n\n((?:    .*\n|\n(?=    ))+)', page.rows[row], re.M)
    return [(word, key, what, re.sub(r'^    ', '', block, flags=re.M)) for word, key, what, block in blocks]


def table_text(office, table):
    """The rows of a table, with `|` between the columns."""
    return text_of(
        '|'.join(column.decode('latin-1') if isinstance(column, bytes) else str(column) for column in row)
        for row in rows_of(office)[table])


def check_told(rows, row, setup, office, texts):
    """Each report and each table that a row tells; and all tables of a store, beside the model's."""
    told = told_in(rows.page, row)
    for word, key, what, text in told:
        if what == 'holds':
            rows.expect(row, 'the rows of ' + word, table_text(office, word) == text)
        else:
            ended = 1 if text == 'none\n' else 0
            rows.expect(row, '%s %s' % (word, key), printed(office, word, key) == (text, ended))
    if told and rows.beside:
        with Store(rows.beside, row, setup) as store:
            store.deliver('\n'.join(texts))
            for word, key, what, _text in told:
                if what == 'reports':
                    rows.beside.report(row, store.program, store.office, word, key)
            rows.beside.rows(row, store.program, store.office)


def keys(rows):
    """Each key tells what another one does, or nothing."""
    row = 'Keys'
    texts = [rows.page.interchange(short) for short in ('FIRST', 'IN(3, 38)', 'LOADLIST(1, 22)')]
    office = rows.office(row, texts)
    table = [(cells[0].strip('`').partition(' '), cells[1]) for cells in rows.page.table(row)]
    for (kind, _space, key), cell in table:
        same = re.findall(r'^as `(\w+) ([^`]*)`$', cell)
        wanted = printed(office, *same[0]) if same else ('none\n', 1)
        is_row = cell.split(':')[0] == 'none' or same and wanted[1] == 0
        rows.expect(row, '%s %s' % (kind, key), is_row and printed(office, kind, key) == wanted)
    if rows.beside:
        with Store(rows.beside, row, office.setup) as store:
            store.deliver('\n'.join(texts))
            for (kind, _space, key), _cell in table:
                rows.beside.report(row, store.program, store.office, kind, key)


# ---- set-up files and commands

def setup_files(rows):
    """Two files, and others with a line replaced."""
    row = 'Set-up files'
    lines_of_files = rows.page.texts(row)
    blocks_at = lines_of_files.index('block,bays,rows,tiers')
    right = [text_of(part) for part in (lines_of_files[:blocks_at], lines_of_files[blocks_at:])]
    for place, (old, new, cell) in enumerate([('``', '``', 'ready')] + rows.page.table(row)):
        files = [text.replace(old.strip('`') + '\n', new.strip('`') + '\n') if place else text for text in right]
        setup, fault = read_setup(*files)
        told = re.split('[,:](?= (?:since|which|it) )', cell)[0]
        rows.expect(row, '%s: %s' % (new, fault), files != right or place == 0)
        rows.expect(row, '%s: %s' % (new, fault), told == ('ready' if setup else 'setup: ' + fault))
        if rows.beside:
            with tempfile.TemporaryDirectory(prefix='beside-') as folder:
                rows.beside.init('%s, %s' % (row, new), Program(rows.beside.path, folder), files)


def output_of(cell):
    """What a cell says of an output: whether it is a fault, its lines (None for a text of clap)."""
    is_fault = cell.startswith('fault')
    return is_fault, None if 'a text of `clap`' in cell else text_of(re.findall('`([^`]*)`', cell))


def is_output(cell, printed_text, told_text):
    """Whether a command printed, or told, what a cell says."""
    if cell == NOTHING:
        return (printed_text, told_text) == ('', '')
    if '`' in cell and not re.match('`|fault|a text', cell):
        return False
    is_fault, wanted = output_of(cell)
    text, other = (told_text, printed_text) if is_fault else (printed_text, told_text)
    if wanted is None:
        return text != '' and other == ''
    if '`' not in cell:
        return other == '' and text.count('\n') == 1 and is_told(cell, json.loads(text))
    return (text, other) == (wanted, '')


def commands(rows):
    """The commands of an office that is made by the first of them."""
    commands_of_row(rows, 'Commands and their statuses', {})


def commands_of_row(rows, row, stores):
    """Commands one after the other, over files in one folder: those of the page, and stores that stand there."""
    first, demo = rows.page.first, files_of(rows.setup(row))
    files = {
        'partners.csv': demo[0], 'blocks.csv': demo[1], 'bad.csv': 'what,name\n', 'first.edi': first,
        'breaks.edi': first.replace("'", "'\n"), 'half.edi': first[:-1]}
    with tempfile.TemporaryDirectory(prefix='beside-') as folder:
        program = rows.beside and Program(rows.beside.path, folder)
        for name, text in files.items() if program else ():
            program.file(name, text)
        for name, office in stores.items() if program else ():
            write_store(os.path.join(folder, name), office)
        files.update(stores)
        for words, cell, ended in rows.page.table(row):
            words = words.strip('`').split()
            wanted = outcome(files, words)
            rows.expect(row, '%s: %s' % (words, wanted), is_output(cell, *wanted[:2]) and wanted[2] == int(ended))
            if program:
                got = program.run(*[os.path.join(folder, word) if '.' in word else word for word in words])
                clap = tuple(CLAP if CLAP == model and text else text for model, text in zip(wanted, got))
                rows.beside.expect('commands', ' '.join(words), wanted, clap[:2] + got[2:])


def accounts_by_commands(rows):
    """Accounts that are added by commands."""
    commands_of_row(rows, 'An account by a command', {})


# ---- old stores

OLD_ROWS = (
    'What waited in an old store', 'A full container on an empty one in an old store', 'A list replaced in an old store',
    'A weight in an old store')


def old_commands(rows):
    """A store of version 2 and the commands that are given to it."""
    old = Office(version=2)
    old.answer(rows.page.first)
    commands_of_row(rows, 'Old stores by commands', {'old.db': old})


def old_stores(rows):
    """What was delivered to a store of an old version, and after its migration."""
    for row in OLD_ROWS:
        table = [(int(version), rows.page.interchange(short), cell) for version, short, cell in rows.page.table(row)]
        office, before = Office(version=table[0][0]), [line for line in table if line[0] != NEWEST]
        for place, (version, text, cell) in enumerate(table):
            if place == len(before):
                office.migrate()
            given = office.answer(text)
            rows.expect(row, 'version %d, %s, and not %s' % (version, cell, json.dumps(given)), is_told(cell, given))
        told = told_in(rows.page, row)
        for word, key, what, text in told:
            got = table_text(office, word) if what == 'holds' else printed(office, word, key)[0]
            rows.expect(row, '%s %s: %s' % (word, key, got), got == text)
        rows.told.add(row)
        if rows.beside:
            over_old_store(rows, row, Office(version=table[0][0]), before, table[len(before):])


def over_old_store(rows, row, office, before, behind):
    """The same by the program: the old store is the model's."""
    for _version, text, _cell in before:
        office.answer(text)
    with tempfile.TemporaryDirectory(prefix='beside-') as folder:
        program, old = Program(rows.beside.path, folder), os.path.join(folder, 'old.db')
        write_store(old, office)
        rows.beside.expect('migrate', row, ('ready\n', '', 0), program.migrate(old))
        office.migrate()
        rows.beside.rows(row, program, office)
        for _version, text, _cell in behind:
            rows.beside.deliver(row, program, office, text)
        rows.beside.rows(row, program, office)
        for word, key, what, _text in told_in(rows.page, row):
            if what == 'reports':
                rows.beside.report(row, program, office, word, key)


# ---- requests

LENGTHS = {
    ' without a length': [], ' in chunks': ['Transfer-Encoding: chunked'],
    ' with two lengths': ['Content-Length: %d', 'Content-Length: %d'],
    ' of length 1048577': ['Content-Length: 1048577']}
BODIES = {' without its last byte': lambda text: text[:-1], ' and more after it': lambda text: text + 'AAAA'}
MANY_FIELDS = {' with a field of 8,192 bytes': ['X: ' + 'x' * 8189], ' with 65 fields': ['X: 1'] * 65}


def ending_of(words, endings):
    """The one that words end with, or nothing."""
    return ([ending for ending in endings if words.endswith(ending)] + [''])[0]


def request_of(page, cell):
    """The bytes of a request that a cell says, in the end perhaps by a field of its own. An addition has no body."""
    cell, field = re.fullmatch(r'(.*?)(?: with `([A-Za-z-]+: [^`]*)`)?', cell).groups()
    request = plain_request_of(page, cell)
    return request.replace('\r\n', '\r\n%s\r\n' % field, 1) if field else request


def plain_request_of(page, cell):
    """The same without that field."""
    method, _space, words = cell.partition(' ')
    if (method, words[:1]) == ('POST', '`'):
        return 'POST %s HTTP/1.1\r\nContent-Length: 0\r\n\r\n' % words.strip('`')
    if method != 'POST':
        fields = MANY_FIELDS.get(ending_of(words, MANY_FIELDS), [])
        return '\r\n'.join(['%s %s HTTP/1.1' % (method, words.split('`')[1])] + fields + ['', ''])
    words, _by, path = words.partition(' by `')
    ending = ending_of(words, [*LENGTHS, *BODIES])
    text = page.interchange(words[:len(words) - len(ending)])
    fields = [field.replace('%d', str(len(text))) for field in LENGTHS.get(ending, ['Content-Length: %d'])]
    return '\r\n'.join(['POST %s HTTP/1.1' % (path[:-1] or '/interchanges')] + fields + ['', BODIES.get(ending, str)(text)])


def is_response(cells, given):
    """Whether a response is what a row's cells say, to the byte but for what an answer is told in short."""
    request, status, cell = cells
    head, _empty, body = given.partition('\r\n\r\n')
    is_told_so = re.search('/replies/|/json/|health', request)
    is_report = request.startswith('GET') and status == '200 OK' and not is_told_so
    status, *allow = status.split(', ')
    kind = 'application/json' if not is_report else 'text/csv' if '/csv/' in request else 'text/plain'
    wanted = ['HTTP/1.1 ' + status, 'Content-Type: ' + kind]
    wanted += ['Content-Length: %d' % len(body)] + [field.strip('`') for field in allow] + ['Connection: close']
    told = re.findall('`([^`]*)`', cell)
    if told and not cell.startswith('`'):
        return False
    if cell == NOTHING:
        return head == '\r\n'.join(wanted) and body == ''
    is_body = is_told(cell, json.loads(body)) if not told else body == (text_of(told) if is_report else told[0])
    return head == '\r\n'.join(wanted) and is_body


def requests(rows):
    """The empty yard's response, to the byte, and requests one after the other."""
    empty = 'The yard, empty'
    asked = 'GET /yard HTTP/1.1\r\n\r\n'
    head, body = told_response(rows.page, empty)
    rows.expect(empty, asked, response(Office(rows.setup(empty)), asked) == head + body)
    page = 'More in the head of a page'
    for path in ('/', '/pages/yard', '/pages/nothing', '/picture'):
        lines = response(Office(), 'GET %s HTTP/1.1\r\n\r\n' % path).partition('\r\n\r\n')[0].split('\r\n')
        rows.expect(page, path, lines[3:-1] == rows.page.texts(page))
    requests_of_row(rows, 'Requests', [asked])


def requests_of_row(rows, row, every, ahead=None):
    """Requests one after the other, after some to which nothing is held but the model; and what they leave in a store."""
    office = Office(rows.setup(row))
    every = every + [request_of(rows.page, cells[0]) for cells in rows.page.table(row)]
    given = [response(office, request, ahead) for request in every]
    for cells, answer in zip(rows.page.table(row), given[-len(rows.page.table(row)):]):
        rows.expect(row, '%s: %s' % (cells[0], answer), is_response(cells, answer))
    for word, _key, _what, text in told_in(rows.page, row):
        rows.expect(row, 'the rows of ' + word, table_text(office, word) == text)
    rows.told.add(row)
    if rows.beside:
        with Store(rows.beside, row, office.opening) as store:
            rows.beside.serve(row, store.program, store.office, every, ahead)
            rows.beside.rows(row, store.program, store.office)


def accounts(rows):
    """Accounts that are added between interchanges; the answer to an addition, to the byte."""
    first, row = 'An answer to an addition', 'An account is added'
    asked = request_of(rows.page, 'POST `/partners/HAULC/gate`')
    rows.expect(first, asked, response(Office(), asked) == ''.join(told_response(rows.page, first))[:-1])
    for name in (row, 'No more accounts'):
        requests_of_row(rows, name, [])


def own_paths(rows):
    """Partners that deliver by paths of their own, and a server that bounds how far ahead."""
    requests_of_row(rows, 'By the path of a partner', [])
    requests_of_row(rows, 'No further ahead', [], ahead=1)


def told_response(page, row):
    """The head and the body of the response that a row sets on lines of its own."""
    texts = page.texts(row)
    behind = texts.index('Connection: close') + 1
    return '\r\n'.join(texts[:behind] + ['', '']), text_of(texts[behind:])


# ---- a store that is opened again

def has_own_calls(page, row):
    """Whether each delivery of a row is a call of its own."""
    return 'by a call of its own' in page.rows[row]


def calls_of_their_own(rows):
    """Each delivery by a call of its own."""
    for row in [row for row, text in rows.page.rows.items() if has_own_calls(rows.page, row) and '| Delivered |' in text]:
        office, texts = Office(rows.setup(row)), []
        for short, cell in rows.page.table(row):
            texts.append(rows.page.interchange(short))
            given = answers(office, texts[-1])
            rows.expect(row, '%s, and not %s' % (cell, lines(given)), len(given) == 1 and is_told(cell, given[0]))
        if rows.beside:
            with Store(rows.beside, row, office.setup) as store:
                for text in texts:
                    store.deliver(text)
                rows.beside.rows(row, store.program, store.office)


def changed_tables(office, statement):
    """The tables of an office after a statement."""
    store = sqlite3.connect(':memory:')
    for table, held in rows_of(office).items():
        columns = COLUMNS[table].split()
        store.execute('CREATE TABLE %s (%s)' % (table, ', '.join(columns)))
        store.executemany('INSERT INTO %s VALUES (%s)' % (table, ', '.join('?' * len(columns))), held)
    store.execute(statement)
    tables = tables_of(store)
    store.close()
    return tables


def change(path, statement):
    """Carries out a statement on a store's file."""
    store = sqlite3.connect(path)
    store.execute(statement)
    store.commit()
    store.close()


def full_on_empty(rows):
    """Another hand empties a container that carries a full one; then each delivery is a call of its own."""
    row, box = 'A full container that stands on an empty one', 'ABCU0000017'
    before = '\n'.join(rows.page.interchange(short) for short in ('IN(1, 17)', 'IN(2, 22, A001012)'))
    statement, table = rows.page.quoted(row)[0], rows.page.table(row)
    office = Office(rows.setup(row), keeps_fold=True)
    answers(office, before)
    emptied = changed_tables(office, statement)
    empty(office.fold().terminal, [box])
    rows.expect(row, statement, emptied == changed_tables(office, 'SELECT 1'))
    for short, cell in table:
        [given] = answers(office, rows.page.interchange(short))
        rows.expect(row, '%s, and not %s' % (cell, lines([given])), is_told(cell, given))
    if rows.beside:
        with Store(rows.beside, row, office.setup) as store:
            store.deliver(before)
            change(store.program.store, statement)
            empty(store.office.fold().terminal, [box])
            for short, _cell in table:
                store.deliver(rows.page.interchange(short))
            rows.beside.rows(row, store.program, store.office)


def changed_rows(rows):
    """A statement on a copy of a store, and what is told as it is opened."""
    row = 'Rows that another hand changed'
    texts = [rows.page.interchange(short) for short in ('IN(1, 17)', 'IN(3, 38)', 'LOADLIST(1, 22)')]
    office = rows.office(row, texts)
    table = [
        (statement.strip('`'), re.split('[,:](?= (?:an|it|no|num))', cell)[0])
        for statement, cell in rows.page.table(row)]
    wanted = [fault_of_rows(changed_tables(office, statement)) for statement, _told in table]
    for (statement, told), fault in zip(table, wanted):
        rows.expect(row, '%s: %s' % (statement, fault), told == ('store: ' + fault if fault else 'nothing'))
    if rows.beside:
        with Store(rows.beside, row, office.setup) as store:
            store.deliver('\n'.join(texts))
            for (statement, _told), fault in zip(table, wanted):
                copy = os.path.join(store.name, 'copy.db')
                for end in ('', '-wal'):
                    if os.path.exists(store.program.store + end):
                        shutil.copyfile(store.program.store + end, copy + end)
                change(copy, statement)
                _text, *got = store.program.run('report', copy, 'yard')
                rows.beside.expect('changed rows', statement, ['store: %s\n' % fault, 3] if fault else ['', 0], got)


EVERY = [
    keys, setup_files, commands, requests, calls_of_their_own, full_on_empty, changed_rows, accounts, own_paths,
    accounts_by_commands, old_commands, old_stores]
