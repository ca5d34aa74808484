"""Clients that would hold the office up: ones that send nothing or slowly, that don't read or slowly, that stay or reset. Each is
given up within limits, and others are served meanwhile."""
import threading
import time

from model.asking import get, post

from .served import Served, gate_in, received, reset

FIRST_BYTE_LIMIT = 2        # seconds for the first byte of a request
REQUEST_LIMIT = 10          # seconds until a request is whole
RESPONSE_LIMIT = 10         # seconds until a response is taken, and until the peer has closed after it
AT_ONCE = 1.5               # seconds in which another one is served, on a busy machine; less than the first byte's limit
SLACK = 6                   # the same beside megabytes, whose own request takes its time; less than the limits of ten
SLOWEST = REQUEST_LIMIT + RESPONSE_LIMIT + SLACK     # seconds that a slow client goes on
SILENT = 3                  # clients that send nothing, one after the other
TRIES = 20                  # of a client that is in time, on a machine that holds it up itself

MESSAGES = 145              # of 999 lines each: a mebibyte, whose reply is some seven
TOO_SMALL = 4096            # bytes that a client takes in unread


def behind(checks, server, name, limit):
    """Another client is served within so many seconds."""
    started = time.monotonic()
    checks.expect('behind %s' % name, server.owed(get('/yard')), server.patient(get('/yard')))
    checks.within('behind %s' % name, limit, time.monotonic() - started)


def silent(checks, path):
    """It sends nothing, or a byte, or half a head, or half a body, and stays."""
    with Served(path) as server:
        for name, sent, limit in (
                ('a client that sends nothing', '', FIRST_BYTE_LIMIT),
                ('a client that sends a byte', 'G', REQUEST_LIMIT),
                ('half a head', 'GET /yard HT', REQUEST_LIMIT),
                ('half a body', post(gate_in(1))[:-9], REQUEST_LIMIT)):
            with server.connect() as connection:
                connection.sendall(sent.encode('latin-1'))
                behind(checks, server, name, AT_ONCE)
                began = time.monotonic()
                checks.expect('%s: it gets no answer' % name, '', received(connection))
                checks.within('%s: it is closed' % name, limit + SLACK, time.monotonic() - began)
        server.same(checks, 'half a body was not delivered', get('/replies/HAULA/1'))


def silent_ones(checks, path):
    """Several send nothing and stay: the next one is served at once, and each counts as a connection."""
    with Served(path, count=SILENT + 1) as server:
        staying = [server.connect() for _place in range(SILENT)]
        time.sleep(0.2)
        behind(checks, server, '%d clients that send nothing' % SILENT, AT_ONCE)
        checks.expect('each of them is counted', ('served %d\n' % (SILENT + 1), 0), server.wait())
        for connection in staying:
            connection.close()


def late(checks, path):
    """Its first byte comes in time, and its request whole, but not at once: it is answered."""
    in_time(checks, path, 'a client that is late, but in time', [
        (FIRST_BYTE_LIMIT / 2, 'GET /yard HT'), (REQUEST_LIMIT / 2 + 1, 'TP/1.1\r\n\r\n')])


def in_time(checks, path, name, pieces):
    """A client that sends a request piece by piece, each at its second, is answered. It begins anew where the machine was so busy
    that it was not in time itself."""
    with Served(path) as server:
        for _try in range(TRIES):
            came, is_in_time = sent_in(server, pieces)
            if is_in_time:
                break
        checks.expect(name, (server.owed(get('/yard')), True), (came, is_in_time))
        behind(checks, server, name, SLACK)


def sent_in(server, pieces):
    """What comes back for these pieces, and whether the first one and the last one were sent in time."""
    began, sent = time.monotonic(), []
    with server.connect() as connection:
        try:
            for second, piece in pieces:
                time.sleep(max(0, began + second - time.monotonic()))
                sent.append(time.monotonic() - began)
                connection.sendall(piece.encode('latin-1'))
            came = received(connection)
        except OSError as fault:
            came = repr(fault)
    return came, sent[0] < FIRST_BYTE_LIMIT and sent[-1] < REQUEST_LIMIT


def slow(checks, path):
    """It sends a byte a second, for longer than a request may take."""
    with Served(path) as server, server.connect() as connection:
        sender = threading.Thread(target=trickle, args=[connection, 'GET /yard HTTP/1.1\r\nX: ', SLOWEST])
        sender.start()
        time.sleep(0.2)
        behind(checks, server, 'a client that sends a byte a second', AT_ONCE)
        sender.join()


def slow_body(checks, path):
    """It sends the body of a delivery a byte a second."""
    with Served(path) as server:
        with server.connect() as connection:
            sender = threading.Thread(target=trickle, args=[connection, post(gate_in(1))[:-60], SLOWEST])
            sender.start()
            time.sleep(0.2)
            behind(checks, server, 'a client that sends a body a byte a second', AT_ONCE)
            sender.join()
        server.same(checks, 'it was not delivered', get('/replies/HAULA/1'))


def going_on(checks, path):
    """It has its answer, and goes on sending a byte a half second, so that each read brings something."""
    with Served(path) as server, server.connect() as connection:
        sender = threading.Thread(target=trickle, args=[connection, get('/yard'), SLOWEST, 0.5])
        sender.start()
        time.sleep(0.2)
        behind(checks, server, 'a client that goes on sending behind its answer', AT_ONCE)
        sender.join()


def trickle(connection, front, seconds, pause=1):
    """Sends a front, and then a byte after each pause, until the peer is gone or the time is over."""
    connection.sendall(front.encode('latin-1'))
    for _time in range(int(seconds / pause)):
        try:
            time.sleep(pause)
            connection.sendall(b'x')
        except OSError:
            return


def slow_but_whole(checks, path):
    """It sends a byte each twentieth of a second, which is slow and within the limits: it is answered."""
    in_time(checks, path, 'a client that is slow, but not too slow', [
        (0.05 * place, byte) for place, byte in enumerate(get('/yard'), 1)])


def long_reply():
    """An interchange of nearly a mebibyte whose reply is seven times as long: containers without numbers."""
    message = "UNH+%d+CODECO:D:95B:UN'BGM+34'" + "EQD+CN'" * 999 + "UNT+1002+%d'"
    messages = ''.join(message % (place, place) for place in range(1, MESSAGES + 1))
    return "UNB+UNOA:3+HAULA+TERM1+240305:0910+1'%sUNZ+%d+1'" % (messages, MESSAGES)


def unread(checks, path):
    """It asks for a long reply and doesn't read it."""
    with Served(path) as server:
        server.same(checks, 'a reply of megabytes', post(long_reply()))
        server.same(checks, 'the same, asked for', get('/replies/HAULA/1'))
        with server.connect(TOO_SMALL) as connection:
            connection.sendall(get('/replies/HAULA/1').encode('latin-1'))
            time.sleep(0.2)
            behind(checks, server, "a client that doesn't read", SLACK)
        with server.connect() as connection:
            connection.sendall(get('/yard').encode('latin-1'))
            time.sleep(0.2)
            behind(checks, server, "a client that reads nothing of a short one and stays", AT_ONCE)


def slow_reader(checks, path):
    """It asks for a long reply and reads a little of it every second."""
    with Served(path) as server:
        server.same(checks, 'a reply of megabytes', post(long_reply()))
        with server.connect(TOO_SMALL) as connection:
            connection.sendall(get('/replies/HAULA/1').encode('latin-1'))
            reader = threading.Thread(target=sip, args=[connection, SLOWEST])
            reader.start()
            time.sleep(0.2)
            behind(checks, server, 'a client that reads a little every second', SLACK)
            reader.join()


def sip(connection, seconds):
    """Reads a little every second, until the peer is gone or the time is over."""
    for _second in range(seconds):
        time.sleep(1)
        try:
            if not connection.recv(TOO_SMALL):
                return
        except OSError:
            return


def resets(checks, path):
    """It resets its connection: before it sends, within its head, within its body, before its answer, within it."""
    with Served(path) as server:
        server.same(checks, 'a reply of megabytes', post(long_reply()))
        for sent in ('', 'GET', post(gate_in(2))[:-9], get('/yard'), get('/replies/HAULA/1')):
            for pause in (0, 0.05):
                connection = server.connect()
                connection.sendall(sent.encode('latin-1'))
                time.sleep(pause)
                reset(connection)
                behind(checks, server, 'a client that resets behind %d bytes' % len(sent), SLACK)
        server.same(checks, 'nothing of it was delivered', get('/replies/HAULA/2'))


CHECKS = [slow, slow_body, slow_reader, silent, silent_ones, late, going_on, unread, resets, slow_but_whole]
