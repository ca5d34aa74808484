"""Peaks of memory (VmHWM) on inputs of which nothing more is kept, and on ten times as much of them."""
import tempfile

from model.setup import DEMO
from model.setups import files_of
from model.asking import exchanged, post

from .sampled import Sampled
from .served import Served, gate_in

REPEATS = 5000              # of an interchange in a stream
POSTS = 40                  # of a mebibyte each


def fed(path, command, front):
    """The peak of a stream by the standard input. With `deliver` over a store of its own."""
    with tempfile.TemporaryDirectory(prefix='fuzz-') as folder:
        program = Sampled(path, folder)
        program.init(*files_of(DEMO))
        words = ['demo'] if command == 'demo' else ['deliver', program.store, '-']
        program.fed(words, front, '')
        return program.peaks.get(command, 0)


def served(path, request, count):
    """The peak of a server after so many of a request."""
    with Served(path) as server:
        for _request in range(count):
            exchanged(server.port, request)
        server.program = Sampled(path, server.folder.name)
        server.program.sample('serve', server.process)
        return server.program.peaks['serve']


def peaks_of(path):
    """What was fed, its peak, and the peak on ten times as much."""
    repeats, refused = gate_in(1) * REPEATS, gate_in(1).replace('HAULA', 'HAULX') * REPEATS
    for command in ('deliver', 'demo'):
        yield '%s, %d repeats' % (command, REPEATS), fed(path, command, repeats), fed(path, command, repeats * 10)
        yield '%s, %d refused' % (command, REPEATS), fed(path, command, refused), fed(path, command, refused * 10)
    body = post('UNB+' + 'A' * ((1 << 20) - 4))
    yield 'serve, %d bodies of a mebibyte' % POSTS, served(path, body, POSTS), served(path, body, 10 * POSTS)
    head = 'GET /yard HTTP/1.1\r\nX: ' + 'x' * 20000
    yield 'serve, %d heads too long' % POSTS, served(path, head, POSTS), served(path, head, 10 * POSTS)
