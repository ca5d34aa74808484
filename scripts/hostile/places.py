"""Files and folders that are read-only, gone, moved or copied; SQLite's own library on them; readers that go away."""
import os
import shutil
import socket
import sqlite3
import struct
import subprocess
import tempfile
from contextlib import closing

from model.rows import rows_in, rows_of

from .books import NO_STORE, expect, naming, prefilled
from .full import Mounted
from .working import Delivering, Served, post, run

BEFORE = 12                 # deliveries
NOBODY = 65534              # root may write what is read-only, so its trials run as nobody
LEAVING = 20                # readers that go away


def someone(folder):
    """As whom the trials run, and the folder is theirs."""
    if os.geteuid():
        return {}
    for path in [folder] + [os.path.join(folder, name) for name in os.listdir(folder)]:
        os.chown(path, NOBODY, NOBODY)
    return dict(user=NOBODY, group=NOBODY, extra_groups=[])


def refused(book, name, how, counted):
    """Each command is told store: Store, and the store is as it was."""
    for words in (('report', book.store, 'yard'), ('deliver', book.store, '-'), ('serve', book.store, '1', '1')):
        expect('%s, %s' % (words[0], name), NO_STORE, run(book.program, *words, **how))
        counted['%s, %s: store: Store' % (name, words[0])] += 1


def try_read_only(program, seed, counted):
    """The file, its log, its folder: each read-only, or not to be read at all."""
    with tempfile.TemporaryDirectory(prefix='kill9-') as top:
        os.chmod(top, 0o755)
        shutil.copy2(program, os.path.join(top, 'office'))
        folder = os.path.join(top, 'store')
        os.mkdir(folder)
        book = prefilled(os.path.join(top, 'office'), folder, seed, BEFORE)
        how = someone(folder)
        for name, path, mode in (
                ('the file read-only', book.store, 0o444), ('the log read-only', book.store + '-wal', 0o444),
                ('the file not to be read', book.store, 0o000), ('the folder not to be read', folder, 0o000)):
            was = os.stat(path).st_mode
            os.chmod(path, mode)
            refused(book, name, how, counted)
            os.chmod(path, was)
            book.found(None)
        os.chmod(folder, 0o555)
        told = run(book.program, 'report', book.store, 'yard', **how)
        counted['the folder read-only, file and log there, report: ' + (told[1].strip() or 'the yard')] += 1
        deliver_to(book, how, 5)
        counted['the folder read-only, file and log there, deliver: answered'] += 5
        os.chmod(folder, 0o755)
        without_log(book, folder, how, counted)
        book.again()


def without_log(book, folder, how, counted):
    """SQLite's own library moves the log into the file and removes it; then it can't be made in a read-only folder."""
    with closing(sqlite3.connect(book.store)) as other:
        other.execute('SELECT count(*) FROM visit').fetchall()
    expect('a log', False, os.path.exists(book.store + '-wal'))
    os.chmod(folder, 0o555)
    refused(book, 'the folder read-only, no log', how, counted)
    os.chmod(folder, 0o755)


def deliver_to(book, how, count):
    """Some deliveries, each by its answer."""
    lines = []
    with Delivering(book.program, book.store, **how) as worker:
        worker.answers(book.upcoming(count), lines.append)
        worker.ended()
    expect('the answers', count, len(lines))
    expect('not now', 0, book.take(lines))


def try_gone(program, seed, counted):
    """The folder is gone; it is moved while a process works on the store in it, and while none does."""
    with tempfile.TemporaryDirectory(prefix='kill9-') as top:
        folder, moved = os.path.join(top, 'store'), os.path.join(top, 'moved')
        os.mkdir(folder)
        book = prefilled(program, folder, seed, BEFORE)
        with Served(program, book.store) as worker:
            for _turn in range(2):
                lines = []
                worker.answers(book.upcoming(5), lines.append)
                book.take(lines)
                if os.path.exists(folder):
                    os.rename(folder, moved)
            counted['the folder moved while serve works: answered'] += 5
        for words in (('report', book.store, 'yard'), ('deliver', book.store, '-')):
            expect('%s, the folder gone' % words[0], NO_STORE, run(program, *words))
            counted['the folder gone, %s: store: Store' % words[0]] += 1
        expect('a folder', False, os.path.exists(folder))
        book.folder, book.store = moved, os.path.join(moved, 'office.db')
        book.found(None)
        book.again()


def try_removed(program, seed, counted):
    """The folder is removed while a process works on the store in it: what comes then is not now, and no report lost."""
    with tempfile.TemporaryDirectory(prefix='kill9-') as top:
        folder = os.path.join(top, 'store')
        os.mkdir(folder)
        book = prefilled(program, folder, seed, BEFORE)
        with Served(program, book.store) as worker:
            for not_now in (0, 5):
                lines = []
                worker.answers(book.upcoming(5), lines.append)
                expect('the answers that are not now', not_now, book.take(lines))
                shutil.rmtree(folder, ignore_errors=True)
        expect('a folder', False, os.path.exists(folder))
        counted['the folder removed while serve works: not now'] += 5


def try_unmounted(program, seed, counted):
    """The file system of the store is unmounted while a process works on it, as `umount -l` does: the system keeps it for
    that process, and doesn't tell. What is answered is in effect there, and no other process finds a store."""
    with tempfile.TemporaryDirectory(prefix='kill9-') as folder, Mounted(folder) as mounted:
        if not mounted.is_there:
            counted['not run: a file system can only be mounted by root'] = 1
            return
        book = prefilled(program, folder, seed, BEFORE)
        with Served(program, book.store) as worker:
            for _turn in range(2):
                lines = []
                worker.answers(book.upcoming(5), lines.append)
                expect('not now', 0, book.take(lines))
                if mounted.is_there:
                    subprocess.run(['umount', '-l', folder], check=True)
                    mounted.is_there = False
            expect('report, unmounted', NO_STORE, run(program, 'report', book.store, 'yard'))
        counted['the file system unmounted while serve works: answered; report: store: Store'] += 1


def deliver_killed(book, count):
    """Some deliveries to a process that is killed then: their rows are in the log."""
    lines = []
    with Delivering(book.program, book.store) as worker:
        worker.answers(book.upcoming(count), lines.append)
    book.take(lines)


def by_itself(book, alone, words):
    """After a command that ends by itself the file without its log has all rows."""
    if words[0] == 'serve':
        with Served(book.program, book.store, 1) as worker:
            worker.exchange('GET /x HTTP/1.1\r\n\r\n')
            expect('the end of serve', (0, ''), worker.ended())
    else:
        _printed, told, status = run(book.program, *words)
        expect('the end of ' + words[0], ('', 0), (told, status))
    for end in ('', '-wal'):
        if os.path.exists(alone + end):
            os.remove(alone + end)
    shutil.copy2(book.store, alone)
    got, faults = rows_in(alone)
    expect('integrity and foreign keys', [], faults)
    expect('the rows of the file by itself', rows_of(book.office), got)
    expect('report yard', run(book.program, 'report', book.store, 'yard'), run(book.program, 'report', alone, 'yard'))


def try_copies(program, seed, counted):
    """A copy while nothing runs opens and goes on by itself; a copy of the file without its log; other names."""
    with tempfile.TemporaryDirectory(prefix='kill9-') as folder, tempfile.TemporaryDirectory(prefix='kill9-') as other:
        book = prefilled(program, folder, seed, BEFORE)
        copied = book.copied(other)
        copied.looks()
        deliver_to(copied, {}, 8)
        copied.again()
        counted['a copy of file and log: opens and goes on'] += 1
        book.found(None)
        alone = os.path.join(other, 'alone.db')
        shutil.copy2(book.store, alone)
        printed, told, _status = run(program, 'report', alone, 'yard')
        counted['a copy of the file without its log, of a process that was killed: ' + (told.strip() or 'opens')] += 1
        known = next(iter(book.office.setup.partners.items()))
        for words in (('deliver', book.store, '-'), ('account', book.store, *known), ('serve',)):
            deliver_killed(book, 3)
            by_itself(book, alone, words)
            counted['a copy of the file without its log, after %s: the whole' % words[0]] += 1
        os.link(book.store, os.path.join(folder, 'second.db'))
        refused(book, 'a second name (hard link)', {}, counted)
        os.remove(os.path.join(folder, 'second.db'))
        os.symlink(book.store, os.path.join(other, 'link.db'))
        wanted, linked = run(program, 'report', book.store, 'yard'), os.path.join(other, 'link.db')
        expect('a link', wanted, run(program, 'report', linked, 'yard'))
        counted['a symbolic link: opens'] += 1
        book.again()


def try_leaving(program, seed, counted):
    """A reader of answers that goes away: the delivery after it is in effect, and the process ends with 3."""
    with tempfile.TemporaryDirectory(prefix='kill9-') as folder:
        book = prefilled(program, folder, seed, BEFORE)
        for _place in range(LEAVING):
            lines = []
            with Delivering(program, book.store) as worker:
                worker.answers(book.upcoming(book.chance.randint(0, 3)), lines.append)
                book.take(lines)
                worker.process.stdout.close()
                behind = book.upcoming(1)[0]
                worker.send(''.join(book.upcoming(3)))
                expect('status and fault', (3, ''), worker.ended())
            found = book.found(behind)
            expect('found', True, found in ('n+1', 'n or n+1'))
            counted['a reader goes away from deliver, the delivery behind: in effect, status 3'] += 1
        book.again()


def try_hanging_up(program, seed, counted):
    """A client that hangs up before its response: the delivery is in effect or not, and serve goes on."""
    with tempfile.TemporaryDirectory(prefix='kill9-') as folder:
        book = prefilled(program, folder, seed, BEFORE)
        with Served(program, book.store) as worker:
            worker.listening()
            for _place in range(LEAVING):
                behind = book.upcoming(1)[0]
                with socket.create_connection(('127.0.0.1', worker.port), 60) as client:
                    client.setsockopt(socket.SOL_SOCKET, socket.SO_LINGER, struct.pack('ii', 1, 0))
                    client.sendall(post(behind).encode('latin-1'))
                worker.exchange('GET /x HTTP/1.1\r\n\r\n')
                found = book.found(behind)
                counted['a client hangs up on serve, the delivery: found ' + found] += 1
                lines = []
                worker.answers(book.upcoming(2), lines.append)
                expect('the answers', 2, len(lines))
                book.take(lines)
        book.again()


def try_all(program, seed, counted):
    """Each kind."""
    for trial in (try_read_only, try_gone, try_removed, try_unmounted, try_copies, try_leaving, try_hanging_up):
        with naming('%s, seed %d' % (trial.__name__, seed)):
            trial(program, seed, counted)
