"""What trials of the program share: containers by their serial numbers, requests as they are mostly sent, and connections."""
import random
import socket

from .names import check_digit

SECONDS = 300               # that an answer over a socket may take, by a slow program on a busy machine too


def container(serial, owner='ABCU'):
    """A container's number, with its check digit."""
    first_ten = '%s%06d' % (owner, serial)
    return first_ten + str(check_digit(first_ten))


# ---- requests

def post(text):
    """The request that delivers a text."""
    return 'POST /interchanges HTTP/1.1\r\nContent-Length: %d\r\n\r\n%s' % (len(text), text)


def account(code, kind):
    """The request that adds an account; both are escaped already."""
    return 'POST /partners/%s/%s HTTP/1.1\r\nContent-Length: 0\r\n\r\n' % (code, kind)


def get(path):
    """The request for a report."""
    return 'GET %s HTTP/1.1\r\n\r\n' % path


def in_two(request):
    """Two pieces of a request."""
    middle = len(request) % 61
    return [request[:middle], request[middle:]]


def in_bytes(request):
    """The first 300 bytes of a request, each by itself, and the rest."""
    return [*request[:300], request[300:]]


# ---- connections

def free_port():
    """A port that nobody has, and that the system gives to no client: one of those could have it before a server listens."""
    while True:
        with socket.socket() as free:
            try:
                free.bind(('127.0.0.1', random.randrange(10000, 32768)))
                return free.getsockname()[1]
            except OSError:
                pass


def read_all(connection, parts):
    """Adds what comes over a connection until it ends."""
    while not parts or parts[-1]:
        parts.append(connection.recv(65536))


def exchanged(port, request, pieces_of=in_two):
    """The response to a request, which is sent in pieces, and then its end."""
    with socket.create_connection(('127.0.0.1', port), SECONDS) as connection:
        connection.setsockopt(socket.IPPROTO_TCP, socket.TCP_NODELAY, 1)
        for piece in pieces_of(request):
            connection.sendall(piece.encode('latin-1'))
        connection.shutdown(socket.SHUT_WR)
        parts = []
        read_all(connection, parts)
        return b''.join(parts).decode('latin-1')
