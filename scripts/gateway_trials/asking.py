"""Clients of the gateway with certificates: curl, and sockets for what curl doesn't send."""
import os
import socket
import ssl
import subprocess
from collections import namedtuple

from hostile.served import received

from .installed import HOST

SECONDS = 150               # that an answer may take

# what came back: the status, the body, and the head as it stood
Came = namedtuple('Came', 'status body head')


def parted(response):
    """A response as it came over a socket. Status 0 is none."""
    head, _end, body = response.partition('\r\n\r\n')
    words = head.split('\r\n')[0].split(' ')
    return Came(int(words[1]) if len(words) > 1 and words[1].isdigit() else 0, body, head)


def head_of(method, path, *fields, host=HOST):
    """The head of a request, after which nothing more comes on its connection."""
    return '\r\n'.join(['%s %s HTTP/1.1' % (method, path), 'Host: ' + host, *fields, 'Connection: close', '', ''])


def delivery(text, path='/interchanges', *fields):
    """The request that delivers a text."""
    return head_of('POST', path, *fields, 'Content-Length: %d' % len(text)) + text


def chunked(text, size, path='/interchanges'):
    """The request that delivers a text in pieces, without its length."""
    pieces = [text[place:place + size] for place in range(0, len(text), size)]
    body = ''.join('%x\r\n%s\r\n' % (len(piece), piece) for piece in pieces)
    return head_of('POST', path, 'Transfer-Encoding: chunked') + body + '0\r\n\r\n'


class Asking:
    """Clients of an installed gateway."""

    def __init__(self, installed):
        self.installed, self.contexts = installed, {}

    def context(self, name, authority):
        """How a client with that certificate connects; `name` None is one without."""
        if (name, authority) not in self.contexts:
            ours = self.installed.authority
            context = ssl.create_default_context(cafile=os.path.join(ours.folder, 'authority.crt'))
            if name:
                context.load_cert_chain(*(authority or ours).files(name))
            self.contexts[name, authority] = context
        return self.contexts[name, authority]

    def connect(self, name, port=None, authority=None, address='127.0.0.1'):
        """A connection."""
        plain = socket.create_connection((address, port or self.installed.port), SECONDS)
        plain.setsockopt(socket.IPPROTO_TCP, socket.TCP_NODELAY, 1)
        try:
            return self.context(name, authority).wrap_socket(plain, server_hostname=HOST)
        except BaseException:
            plain.close()
            raise

    def raw(self, name, request, port=None, authority=None, address='127.0.0.1'):
        """All that comes back for these bytes on one connection; where it breaks, what became of it."""
        try:
            with self.connect(name, port, authority, address) as connection:
                connection.sendall(request.encode('latin-1'))
                return received(connection)
        except OSError as fault:
            return repr(fault)

    def ask(self, name, request, port=None, authority=None, address='127.0.0.1'):
        """The same for one response."""
        return parted(self.raw(name, request, port, authority, address))

    def post(self, name, text, path='/interchanges', port=None, authority=None):
        """A delivery."""
        return self.ask(name, delivery(text, path), port, authority)

    def get(self, name, path, port=None, method='GET'):
        """A question."""
        return self.ask(name, head_of(method, path), port)

    def curl(self, name, path, *words, port=None):
        """The same by curl."""
        port = port or self.installed.port
        certificate, key = self.installed.authority.files(name)
        done = subprocess.run(
            ['curl', '-sS', '-i', '--path-as-is', '--max-time', str(SECONDS), '--http1.1',
             '--cacert', os.path.join(self.installed.authority.folder, 'authority.crt'), '--cert', certificate, '--key', key,
             '--resolve', '%s:%d:127.0.0.1' % (HOST, port), *words, 'https://%s:%d%s' % (HOST, port, path)],
            stdin=subprocess.DEVNULL, capture_output=True, check=False)
        return parted((done.stdout + done.stderr).decode('latin-1'))

    def inside(self, path, method='GET', *fields, host='localhost'):
        """What the office itself answers, past nginx, by its Unix socket: for looks that no certificate may take."""
        with socket.socket(socket.AF_UNIX) as connection:
            connection.settimeout(SECONDS)
            connection.connect(self.installed.file('queue.sock'))
            connection.sendall(head_of(method, path, *fields, host=host).encode('latin-1'))
            return parted(received(connection))
