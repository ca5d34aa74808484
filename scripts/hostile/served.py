"""`office serve` over a new store with the model's office beside it, and clients of it: curl and sockets."""
import os
import socket
import struct
import subprocess
import tempfile
import threading
import time

from model.asking import SECONDS, container, exchanged, free_port, read_all
from model.http import response
from model.office import Office
from model.setup import DEMO
from model.setups import files_of
from model.stores import Program, options_of

GATE_IN = (
    "UNB+UNOA:3+%s+TERM1+240305:0910+%d'UNH+1+CODECO:D:95B:UN'BGM+34+G1+9'EQD+CN+%s+22G1:102:5+++5'UNT+4+1'UNZ+1+%d'")


GATE_OUT = "UNB+UNOA:3+%s+TERM1+240305:0910+%d'UNH+1+CODECO:D:95B:UN'BGM+36+G1+9'EQD+CN+%s'UNT+4+1'UNZ+1+%d'"


def gate_in(number, sender='HAULA', serial=None):
    """An interchange that brings in a container, one of the number's own if none is named."""
    return GATE_IN % (sender, number, container(number if serial is None else serial), number)


def gate_out(number, sender, name):
    """An interchange that takes a container out."""
    return GATE_OUT % (sender, number, name, number)


class Checks:
    """How many have passed, and which have failed, over all threads. What has failed is printed at once, or `kept`."""

    def __init__(self, kept=None):
        self.passed, self.failed, self.lock, self.measured, self.kept = 0, 0, threading.Lock(), [], kept

    def expect(self, name, wanted, got):
        """One passes if both are the same."""
        with self.lock:
            self.passed += wanted == got
            self.failed += wanted != got
            if wanted != got:
                self.tell('FAILED: %s\n  wanted %s\n  came   %s' % (name, repr(wanted)[:600], repr(got)[:600]))

    def tell(self, text):
        """Prints what has failed, or keeps it."""
        if self.kept is None:
            print(text, flush=True)
        else:
            self.kept.append(text)

    def add(self, others):
        """Those of others, which kept theirs."""
        with self.lock:
            self.passed, self.failed = self.passed + others.passed, self.failed + others.failed
            self.measured += others.measured
            for text in others.kept:
                self.tell(text)

    def within(self, name, limit, took, unit='s'):
        """One passes if it took no more. What it took is told in the end."""
        with self.lock:
            self.measured.append('%s: %.2f %s (limit %g)' % (name, took, unit, limit))
        self.expect('%s: %.2f %s' % (name, took, unit), True, took <= limit)


class Pulse:
    """Wakes twenty times a second until it is left: `late` is by how many seconds it woke too late at most, since the machine
    was busy."""

    def __enter__(self):
        self.late, self.ends = 0, threading.Event()
        self.thread = threading.Thread(target=self.beat)
        self.thread.start()
        return self

    def __exit__(self, *_fault):
        self.ends.set()
        self.thread.join()

    def beat(self):
        """Sleeps, and looks how long."""
        began = time.monotonic()
        while not self.ends.wait(0.05):
            now = time.monotonic()
            self.late, began = max(self.late, now - began - 0.05), now


class Served:
    """A server on a port of its own, until it is left. `count` is how many connections it serves, `ahead` how far above the
    next one a number may be by the path of its partner, and `host` a name of the server."""

    def __init__(self, path, setup=DEMO, count=1000000, ahead=None, host=None):
        self.folder = tempfile.TemporaryDirectory(prefix='clients-')
        self.program, self.office = Program(path, self.folder.name), Office(setup, keeps_fold=True)
        self.program.init(*files_of(setup))
        self.count, self.ahead, self.host, self.process, self.port = count, ahead, host, None, None
        self.start()

    def start(self):
        """Serves the store, at a new port."""
        self.port = free_port()
        words = [self.program.path, 'serve', self.program.store, str(self.port), str(self.count)]
        words += options_of(self.ahead, self.host)
        self.process = subprocess.Popen(words, stdout=subprocess.PIPE, encoding='utf-8')
        self.process.stdout.readline()

    def wait(self):
        """What it printed since, and its status."""
        return self.process.stdout.read(), self.process.wait(SECONDS)

    def __enter__(self):
        return self

    def __exit__(self, *_fault):
        self.stop()
        self.folder.cleanup()

    def stop(self):
        """Ends it at once."""
        self.process.kill()
        self.process.wait()
        self.process.stdout.close()

    def ask(self, request):
        """The response to a request over a socket, which is ended after it."""
        return exchanged(self.port, request)

    def owed(self, request):
        """The response that the model gives."""
        return response(self.office, request, self.ahead, self.host)

    def same(self, checks, name, request):
        """A request is answered as it is owed."""
        checks.expect(name, self.owed(request), self.ask(request))

    def patient(self, request, seconds=2 * SECONDS):
        """The same for a client that waits longer."""
        with self.connect() as connection:
            connection.settimeout(seconds)
            connection.sendall(request.encode('latin-1'))
            return received(connection)

    def connect(self, receive=None):
        """A connection; it takes in no more than `receive` bytes unread, if that is given."""
        connection = socket.socket()
        if receive:
            connection.setsockopt(socket.SOL_SOCKET, socket.SO_RCVBUF, receive)
        connection.settimeout(2 * SECONDS)
        connection.connect(('127.0.0.1', self.port))
        return connection

    def url(self, path):
        """An address for curl."""
        return 'http://127.0.0.1:%d%s' % (self.port, path)

    def curl(self, path, *words):
        """What curl gets, head and body, and how many seconds it took."""
        started = time.monotonic()
        done = subprocess.run(
            ['curl', '-sS', '-i', '--max-time', str(SECONDS), *words, self.url(path)], stdin=subprocess.DEVNULL,
            capture_output=True, check=False)
        return (done.stdout + done.stderr).decode('latin-1'), time.monotonic() - started

    def file(self, text):
        """A file for curl's @, of that text."""
        return '@' + self.program.file('body.edi', text)


def received(connection):
    """All that comes over a connection until it ends, or what became of it."""
    parts = []
    try:
        read_all(connection, parts)
    except OSError as fault:
        return b''.join(parts).decode('latin-1') + ' then ' + repr(fault)
    return b''.join(parts).decode('latin-1')


def reset(connection):
    """Closes a connection by a reset."""
    connection.setsockopt(socket.SOL_SOCKET, socket.SO_LINGER, struct.pack('ii', 1, 0))
    connection.close()


def listening(pid):
    """The addresses at which a process listens, by /proc: as 0100007F:1F90."""
    sockets = set()
    for name in os.listdir('/proc/%d/fd' % pid):
        try:
            target = os.readlink('/proc/%d/fd/%s' % (pid, name))
        except OSError:
            continue
        if target.startswith('socket:['):
            sockets.add(target[len('socket:['):-1])
    found = []
    for table in ('tcp', 'tcp6', 'udp', 'udp6'):
        with open('/proc/net/' + table, encoding='ascii') as lines:
            rows = [line.split() for line in lines][1:]
        found += [table + ' ' + row[1] for row in rows if row[9] in sockets and (row[3] == '0A' or table.startswith('udp'))]
    return found
