"""A process of the program at work on a store: `deliver DB -` over pipes, and `serve DB PORT COUNT` over sockets.

Each has `answers(texts, read)`, which sends the texts and hands on each whole answer as it is read, until the process
is gone or all are answered.
"""
import socket
import subprocess
import threading
from urllib.parse import quote

from model.asking import SECONDS, account, free_port, post, read_all
from model.events import Added



def run(program, *words, **how):
    """What it prints, what it tells of faults, and its status."""
    done = subprocess.run([program, *words], stdin=subprocess.DEVNULL, capture_output=True, check=False, **how)
    return done.stdout.decode('utf-8'), done.stderr.decode('utf-8'), done.returncode


def printed_texts(program, store, passed=0):
    """The texts that it prints of a store, byte for byte, what it tells of faults, and its status."""
    done = subprocess.run(
        [program, 'texts', store, str(passed)], stdin=subprocess.DEVNULL, capture_output=True, check=False)
    return done.stdout.decode('latin-1'), done.stderr.decode('utf-8'), done.returncode


def request_of(sent):
    """A request that delivers a text, or adds an account."""
    if not isinstance(sent, Added):
        return post(sent)
    code, kind = (quote(part.encode('latin-1'), safe='') for part in sent)
    return account(code, kind)


class Worker:
    """A process of the program. It is stopped, whatever happens, where it is left."""

    def __init__(self, words, **how):
        self.process = subprocess.Popen(
            words, stdin=subprocess.PIPE, stdout=subprocess.PIPE, stderr=subprocess.PIPE, **how)

    def __enter__(self):
        return self

    def __exit__(self, *_fault):
        self.stop()

    def stop(self):
        """SIGKILL, and nothing is left of it."""
        self.process.kill()
        self.process.wait()
        for stream in (self.process.stdin, self.process.stdout, self.process.stderr):
            try:
                stream.close()
            except OSError:
                pass

    def ended(self):
        """Its status and what it told of faults, once it ends by itself."""
        try:
            self.process.stdin.close()
        except OSError:
            pass
        told = self.process.stderr.read().decode('utf-8')
        return self.process.wait(SECONDS), told


class Delivering(Worker):
    """`deliver DB -`. It is sent one text after each answer, or all at once, ahead of the answers."""

    def __init__(self, program, store, ahead=False, front=(), **how):
        self.ahead = ahead
        super().__init__([*front, program, 'deliver', store, '-'], **how)

    def send(self, text):
        """Bytes to its standard input; a process that is gone takes none."""
        try:
            self.process.stdin.write(text.encode('latin-1'))
            self.process.stdin.flush()
        except OSError:
            pass

    def answers(self, texts, read):
        """Each line that has its end is an answer."""
        writing = threading.Thread(target=self.send, args=(''.join(texts),), daemon=True)
        if self.ahead:
            writing.start()
        for text in texts:
            if not self.ahead:
                self.send(text)
            line = self.process.stdout.readline().decode('utf-8')
            if not line.endswith('\n'):
                break
            read(line[:-1])
        if self.ahead:
            writing.join()


class Served(Worker):
    """`serve DB PORT COUNT` at a port that was free."""

    def __init__(self, program, store, count=1000000, front=(), **how):
        self.port, self.listens = free_port(), None
        super().__init__([*front, program, 'serve', store, str(self.port), str(count)], **how)

    def listening(self):
        """Whether it came so far as to listen."""
        if self.listens is None:
            self.listens = self.process.stdout.readline() == b'listening 127.0.0.1:%d\n' % self.port
        return self.listens

    def exchange(self, request):
        """The response to a request, or what came of it before the process was gone."""
        parts = []
        if not self.listening():
            return ''
        try:
            with socket.create_connection(('127.0.0.1', self.port), SECONDS) as connection:
                connection.sendall(request.encode('latin-1'))
                connection.shutdown(socket.SHUT_WR)
                read_all(connection, parts)
        except OSError:
            pass
        return b''.join(parts).decode('latin-1')

    def answers(self, texts, read):
        """Each response that is whole is an answer: its body."""
        for text in texts:
            response = self.exchange(request_of(text))
            head, end, body = response.partition('\r\n\r\n')
            if not end or 'Content-Length: %d' % len(body) not in head.split('\r\n'):
                break
            read(body.encode('latin-1').decode('utf-8'))
