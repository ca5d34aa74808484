"""Two processes on one store at the same time: what the second is told, and that nothing is lost or doubled."""
import copy
import itertools
import sqlite3
import subprocess
import tempfile
from contextlib import closing
from time import monotonic

from model.office import Office, json_text
from model.rows import rows_in, rows_of
from model.setup import DEMO
from model.setups import files_of

from .books import NO_STORE, Book, Different, expect, naming, prefilled
from .working import Delivering, Served, run

TRIALS = 40                 # of processes that start at once
AT_ONCE = [2, 2, 3, 4]
TEXTS = 3                   # of each


def second(book, counted):
    """Each command on a store on which another process works."""
    path = book.file('second.edi', ''.join(book.upcoming(2)))
    commands = [
        ('deliver', book.store, path), ('report', book.store, 'yard'), ('serve', book.store, '1', '1'),
        ('init', book.store, *book.files)]
    for words in commands:
        began = monotonic()
        expect('%s while another process works' % words[0], NO_STORE, run(book.program, *words))
        counted['%s while another works: store: Store' % words[0]] += 1
        counted['milliseconds, the longest'] = max(
            counted['milliseconds, the longest'], round(1000 * (monotonic() - began)))


def try_second(program, seed, counted):
    """Between the answers of a process that works."""
    for kind in (Delivering, Served):
        with tempfile.TemporaryDirectory(prefix='kill9-') as folder:
            book = prefilled(program, folder, seed, 10)
            with kind(program, book.store) as worker:
                for _place in range(5):
                    lines = []
                    worker.answers(book.upcoming(4), lines.append)
                    book.take(lines)
                    second(book, counted)
                    locked(book, counted)
                counted['answers of the process that works'] += len(book.answered) - 10
            book.found(None)
            book.again()


def locked(book, counted):
    """SQLite's own library finds the store locked."""
    with closing(sqlite3.connect(book.store, timeout=0)) as other:
        try:
            other.execute('SELECT count(*) FROM visit').fetchall()
            counted['sqlite3 while a process works: reads'] += 1
        except sqlite3.OperationalError as fault:
            counted['sqlite3 while a process works: ' + str(fault)] += 1


def try_sqlite(program, seed, counted):
    """While SQLite's own library has read the store, and once it has closed it."""
    with tempfile.TemporaryDirectory(prefix='kill9-') as folder:
        book = prefilled(program, folder, seed, 10)
        with closing(sqlite3.connect(book.store)) as other:
            other.execute('SELECT count(*) FROM visit').fetchall()
            told = run(program, 'report', book.store, 'yard')[1].strip() or 'the yard'
            counted['report while sqlite3 has the store open: ' + told] += 1
        book.looks()
        lines = run(program, 'deliver', book.store, book.file('more.edi', ''.join(book.upcoming(20))))[0].splitlines()
        expect('the answers', 20, len(lines))
        book.take(lines)
        counted['deliveries after sqlite3 had the store open'] += len(lines) + book.again()


def in_order(office, texts, lines, order):
    """The office after these processes' texts, one process after the other; none, if their lines are others."""
    office = copy.deepcopy(office)
    for place in order:
        if [json_text(office.answer(text)) for text in texts[place]] != lines[place]:
            return None
    return office


def at_once(book, counted):
    """Some processes that start at the same time, each with texts of its own."""
    count = book.chance.choice(AT_ONCE)
    every = book.upcoming(count * TEXTS)
    texts = [every[place * TEXTS:][:TEXTS] for place in range(count)]
    paths = [book.file('part%d.edi' % place, ''.join(part)) for place, part in enumerate(texts)]
    processes = [
        subprocess.Popen(
            [book.program, 'deliver', book.store, path], stdout=subprocess.PIPE, stderr=subprocess.PIPE)
        for path in paths]
    ended = [process.communicate() for process in processes]
    lines = [printed.decode('utf-8').splitlines() for printed, _told in ended]
    for printed, (_bytes, told) in zip(lines, ended):
        expect('what a process is told', b'' if printed else b'store: Store\n', told)
    going = [place for place, printed in enumerate(lines) if printed]
    counted['processes that started at once'] += count
    counted['of them worked'] += len(going)
    counted['of them told store: Store'] += count - len(going)
    got, faults = rows_in(book.store)
    expect('integrity and foreign keys', [], faults)
    found = [in_order(book.office, texts, lines, order) for order in itertools.permutations(going)]
    found = [office for office in found if office and rows_of(office) == got]
    if not found:
        raise Different('no order of the processes gives these lines and rows: %r, %r' % (lines, got))
    book.office = found[0]
    book.answered += every


def try_at_once(program, seed, counted):
    """Many times over one store; what was not taken is taken at the end."""
    with tempfile.TemporaryDirectory(prefix='kill9-') as folder:
        book = Book(program, folder, seed).init()
        for _trial in range(TRIALS):
            at_once(book, counted)
        counted['deliveries sent again at the end'] += book.again()


def try_inits(program, seed, counted):
    """Two set-ups at once for one store: it is made by one of them."""
    with tempfile.TemporaryDirectory(prefix='kill9-') as folder:
        book = Book(program, folder, seed)
        other = DEMO._replace(terminal='OTHER')
        files = [book.files, [book.file(name, text) for name, text in zip(('p.csv', 'b.csv'), files_of(other))]]
        processes = [
            subprocess.Popen([program, 'init', book.store, *pair], stdout=subprocess.PIPE, stderr=subprocess.PIPE)
            for pair in files]
        ended = [b''.join(process.communicate()).decode('utf-8').strip() for process in processes]
        counted['two inits at once: ' + ', '.join(sorted(ended))] += 1
        ready = [office for office, told in zip((book.office, Office(other)), ended) if told == 'ready']
        expect('inits that were ready', 1, len(ready))
        book.office = ready[0]
        book.found(None)


def try_all(program, seed, counted):
    """Each kind."""
    trials = [try_second, try_sqlite, try_at_once] + [try_inits] * 10
    for place, trial in enumerate(trials):
        with naming('%s, seed %d' % (trial.__name__, seed + place)):
            trial(program, seed + place, counted)
