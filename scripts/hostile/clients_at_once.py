"""Many clients at once, clients that send more than they said, and a server that is stopped while it serves."""
import json
import random
import signal
import threading
import time

from model.asking import account, get, post
from model.setup import DEMO
from model.yard import Block

from .served import Served, gate_in, received

CLIENTS = 200
TOO_MUCH = 100              # clients that send more than their Content-Length
ADDED = 40                  # accounts that are added among deliveries, each by two clients
STOPS = 4                   # of a server, by each signal
SENT = 40                   # deliveries to a server that is stopped among them

LARGE_YARD = DEMO._replace(plan=[Block('A', bays=10, rows=6, tiers=4)])


def body_of(came):
    """The body of a response, as JSON."""
    return json.loads(came.split('\r\n\r\n')[1])


def at_once(requests, ask):
    """The responses to requests that begin at the same moment, each from a thread of its own."""
    came, ready = [None] * len(requests), threading.Barrier(len(requests))

    def client(place):
        """One of them."""
        ready.wait()
        try:
            came[place] = ask(requests[place])
        except OSError as fault:
            came[place] = repr(fault)

    threads = [threading.Thread(target=client, args=[place]) for place in range(len(requests))]
    for thread in threads:
        thread.start()
    for thread in threads:
        thread.join()
    return came


def two_hundred(checks, path):
    """Interchanges of one partner from many clients at once, out of order: each is taken or waits, and in the end all were
    taken, in the order of their numbers."""
    with Served(path, LARGE_YARD) as server:
        numbers = list(range(1, CLIENTS + 1))
        random.Random(1).shuffle(numbers)
        came = at_once([post(gate_in(number)) for number in numbers], server.ask)
        owed = {number: server.owed(post(gate_in(number))) for number in sorted(numbers)}
        for number, response in zip(numbers, came):
            name = 'client %d of %d' % (number, CLIENTS)
            if response.startswith('HTTP/1.1 202'):
                waits = body_of(response)
                told = waits['answer'], waits['number'], waits['partner']
                checks.expect(name + ' waits', ('waiting', number, 'HAULA'), told)
                checks.expect(name + ' waits for one before it', True, 1 <= waits['next'] < number)
            else:
                checks.expect(name, owed[number], response)
        again = at_once([post(gate_in(number)) for number in numbers], server.ask)
        for number, response in zip(numbers, again):
            checks.expect('client %d, again' % number, server.owed(post(gate_in(number))), response)
        server.same(checks, 'the yard behind them', get('/yard'))
        mixed = [get('/yard') if place % 2 else get('/tickets/HAULA/%d' % (place + 1)) for place in range(CLIENTS)]
        for request, response in zip(mixed, at_once(mixed, server.ask)):
            checks.expect(request, server.owed(request), response)


def accounts_at_once(checks, path):
    """Accounts that are added while interchanges come, each by two clients: one of them is told `added` and the other one
    `known`, with one id. The ids are those after the set-up's; and each of these senders is then admitted."""
    with Served(path, LARGE_YARD) as server:
        codes = ['HAUL-%d' % place for place in range(ADDED)]
        requests = [account(code, 'gate') for code in codes for _client in range(2)]
        requests += [post(gate_in(number)) for number in range(1, ADDED + 1)]
        order = random.Random(2).sample(range(len(requests)), len(requests))
        came = dict(zip(order, at_once([requests[place] for place in order], server.ask)))
        told = {code: [body_of(came[2 * place + client]) for client in range(2)] for place, code in enumerate(codes)}
        for code in sorted(codes, key=lambda code: told[code][0]['id']):
            owed = [server.owed(account(code, 'gate')) for _client in range(2)]
            pair = [came[2 * codes.index(code) + client] for client in range(2)]
            checks.expect('two clients add %s' % code, sorted(owed), sorted(pair))
        for number in range(1, ADDED + 1):
            server.owed(post(gate_in(number)))
        for number in range(1, ADDED + 1):
            server.same(checks, 'delivery %d among additions, again' % number, post(gate_in(number)))
        for place, code in enumerate(codes):
            server.same(checks, 'the first text of ' + code, post(gate_in(1, code, 1000 + place)))
        server.same(checks, 'the yard behind the additions', get('/yard'))


def more_than_said(checks, path):
    """What is sent after a body, or after a head that is refused, doesn't take the answer away."""
    with Served(path) as server:
        for place in range(TOO_MUCH):
            behind = random.Random(place).choice([1, 5000, 100000, 1000000, 3000000])
            request = post(gate_in(place % 7 + 1)) if place % 4 else 'POST /interchanges HTTP/1.1\r\nX: ' + 'x' * 9000
            owed = server.owed(request)
            with server.connect() as connection:
                sender = threading.Thread(target=send_all, args=[connection, request + 'A' * behind])
                sender.start()
                checks.expect('%d bytes too much, %d' % (behind, place), owed, received(connection))
                sender.join()


def send_all(connection, text):
    """Sends a text; the peer may close before."""
    try:
        connection.sendall(text.encode('latin-1'))
    except OSError:
        pass


# ---- stops

def stopped(checks, path):
    """SIGTERM and SIGINT while deliveries come in: what was answered is in effect when the store is served again."""
    for number in (signal.SIGTERM, signal.SIGINT):
        for trial in range(STOPS):
            stop_once(checks, path, number, trial)


def stop_once(checks, path, number, trial):
    """One stop, at a moment by chance."""
    name = '%s, trial %d' % (signal.Signals(number).name, trial)
    with Served(path, LARGE_YARD) as server:
        owed = [server.owed(post(gate_in(place))) for place in range(1, SENT + 1)]
        moment = random.Random(name).uniform(0.0, 0.3)
        stopper = threading.Timer(moment, server.process.send_signal, [number])
        stopper.start()
        answered = deliver_until_stopped(server, owed)
        stopper.cancel()
        if len(answered) == SENT:
            server.process.send_signal(number)
        checks.expect(name + ' ends it', ('', -number), server.wait())
        checks.expect(name + ', answers before', owed[:len(answered)], answered)
        server.start()
        sent_again(checks, name, server, owed, len(answered))


def deliver_until_stopped(server, owed):
    """The answers to deliveries one after the other, until one fails."""
    answered = []
    for place in range(1, len(owed) + 1):
        try:
            came = server.ask(post(gate_in(place)))
        except OSError:
            break
        if not came.endswith('}'):
            break
        answered.append(came)
        time.sleep(0.002)
    return answered


def sent_again(checks, name, server, owed, count):
    """All from the first again: what was answered is a repeat with the same reply, the one in flight is there or not."""
    for place in range(1, SENT + 1):
        came = server.ask(post(gate_in(place)))
        repeat = server.owed(post(gate_in(place)))
        if place == count + 1 and came.startswith('HTTP/1.1 200') and body_of(came)['answer'] == 'repeat':
            checks.expect('%s, the one in flight was whole' % name, repeat, came)
        else:
            checks.expect('%s, sent again: %d' % (name, place), repeat if place <= count else owed[place - 1], came)
    server.same(checks, name + ', the yard', get('/yard'))


CHECKS = [two_hundred, accounts_at_once, more_than_said, stopped]
