"""What a loss of power may leave, made up from the calls of a process, with strace. No power is cut.

strace notes what a process writes and when it has a file synced. From that files are made as a loss of power may leave
them: what was written before the last sync of a file is there, and of each write after it some bytes or none, in any
order. The program opens them, and the rows have to be those after all answers that were written, or after one more.
"""
import copy
import os
import re
import tempfile

from model.reports import printed
from model.rows import rows_in, rows_of

from .books import Different, answer, expect, prefilled
from .calls import STRACE, moving, with_strace
from .working import Delivering, run

TEXTS = 6
LOSSES = 300                # for each store
CALL = re.compile(r'^\d+ +(\w+)\((\d+)<([^>]*)>(?:, (?:"((?:\\x..)*)", )?([\d, ]*))?\) += (\d+)$')


class File:
    """A file: what is surely there, and what was written since. One that is not there yet is empty."""

    def __init__(self, path):
        self.synced, self.since = b'', []
        if os.path.exists(path):
            with open(path, 'rb') as file:
                self.synced = file.read()

    def sync(self):
        """All is there."""
        for at, data in self.since:
            self.synced = written(self.synced, at, data)
        self.since = []

    def lost(self, chance):
        """What a loss of power may leave."""
        content = self.synced
        for at, data in self.since:
            content = torn(content, at, data, chance)
        return content


def written(content, at, data):
    """With these bytes at that place; None cuts the file there."""
    if data is None:
        return content[:at].ljust(at, b'\0')
    return content[:at].ljust(at, b'\0') + data + content[at + len(data):]


def torn(content, at, data, chance):
    """With some of these bytes: all, none, those in front, those behind, some sectors, or any."""
    how = chance.choice(['all', 'none', 'front', 'behind', 'sectors', 'bytes'])
    if data is None or how == 'all':
        return content if how == 'none' else written(content, at, data)
    if how == 'none':
        return content
    place = chance.randrange(len(data) + 1)
    if how in ('front', 'behind'):
        return written(content, at, data[:place]) if how == 'front' else written(content, at + place, data[place:])
    step = 512 if how == 'sectors' else 1
    marks = chance.randbytes(len(data) // step + 2)
    old = content[at:at + len(data)].ljust(len(data), b'\0')
    mixed = bytearray(data)
    for front in range(0, len(data), step):
        if marks[front // step] & 1:
            mixed[front:front + step] = old[front:front + step]
    return written(content, at, bytes(mixed))


def noting(log):
    """The words in front of the program's, so that strace notes what it writes."""
    trace = 'trace=pwrite64,fdatasync,fsync,ftruncate,write'
    return [STRACE, '-qq', '-f', '-y', '-xx', '-s', '5000000', '-o', log, '-e', trace]


def written_by(log, words):
    """The calls of a process with these words."""
    expect('status', 0, run(*noting(log), *words)[2])
    return calls_noted(log)


def calls_of(book, texts):
    """The calls of a process that takes these texts, and its answers."""
    log, lines = os.path.join(book.folder, 'calls'), []
    with Delivering(book.program, book.store, front=noting(log)) as worker:
        worker.answers(texts, lines.append)
        expect('status and fault', '', worker.ended()[1])
    return calls_noted(log), lines


def calls_noted(log):
    """The calls that strace has noted: kind, path, bytes, numbers."""
    with open(log, encoding='ascii', errors='replace') as file:
        found = [CALL.match(line) for line in file.read().splitlines()]
    calls = []
    for kind, _number, path, data, numbers, result in (call.groups() for call in found if call):
        path = re.sub(r'\\x(..)', lambda code: chr(int(code[1], 16)), path)
        data = bytes.fromhex(data.replace('\\x', '')) if data else b''
        calls.append((kind, path, data[:int(result)], [int(number) for number in re.findall(r'\d+', numbers or '')]))
    return calls


def replayed(calls, files, answered):
    """After each call: how many answers were written. The files follow the calls."""
    for kind, path, data, numbers in calls:
        if kind == 'write' and path not in files:
            answered += data.count(b'\n')
        elif path in files and kind == 'pwrite64':
            files[path].since.append((numbers[-1], data))
        elif path in files and kind == 'ftruncate':
            files[path].since.append((numbers[-1], None))
        elif path in files:
            files[path].sync()
        yield answered


def offices(book, texts, lines):
    """The office before these texts, and after each of them."""
    every = [book.office]
    for text, line in zip(texts, lines):
        book.office = copy.deepcopy(book.office)
        expect('the answer to %r' % text, answer(book.office, text), line)
        every.append(book.office)
    return every


def opened(book, files, every, answered):
    """The program opens what is left; gives which rows it has."""
    with tempfile.TemporaryDirectory(prefix='kill9-') as folder:
        store = os.path.join(folder, 'office.db')
        for path, content in files.items():
            with open(store + path[len(book.store):], 'wb') as file:
                file.write(content)
        yard = run(book.program, 'report', store, 'yard')
        got, faults = rows_in(store)
    expect('integrity and foreign keys', [], faults)
    fits = [place for place in (answered, answered + 1) if place < len(every) and rows_of(every[place]) == got]
    if not fits:
        expect('the rows after %d answers' % answered, rows_of(every[answered]), got)
    expect('report yard', (printed(every[fits[0]], 'yard')[0], '', 0), yard)
    return ' or '.join('n' if place == answered else 'n+1' for place in fits)


def losses(book, counted):
    """A process at work, and many losses of power at any of its calls."""
    texts = book.upcoming(TEXTS)
    files = {path: File(path) for path in (book.store, book.store + '-wal')}
    calls, lines = calls_of(book, texts)
    every, moments = offices(book, texts, lines), {}
    for place in book.chance.choices(range(len(calls)), k=LOSSES):
        moments[place] = moments.get(place, 0) + 1
    counted['calls that write or sync'] += sum(path in files for _kind, path, _data, _numbers in calls)
    for place, answered in enumerate(replayed(calls, files, 0)):
        for _loss in range(moments.get(place, 0)):
            lost = {path: file.lost(book.chance) for path, file in files.items()}
            counted['losses: found ' + opened(book, lost, every, answered)] += 1
    for path, file in files.items():
        file.sync()
        with open(path, 'rb') as real:
            expect('the bytes of %s, by its calls' % path, True, real.read() == file.synced)


@with_strace
def try_losses(program, seed, counted):
    """A new store, and one whose log is about to be moved into the file."""
    for before in (0, moving(program, seed)):
        with tempfile.TemporaryDirectory(prefix='kill9-') as folder:
            book = prefilled(program, folder, seed, before)
            try:
                losses(book, counted)
            except Different as fault:
                raise Different('seed %s, after %d deliveries: %s' % (seed, before, fault)) from fault
