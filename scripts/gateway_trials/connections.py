"""Many connections, one after the other, each with a handshake of its own: a delivery, then questions for what became of it."""
import os
import time

from hostile.served import container, gate_in, gate_out

from .installed import Installed
from .judged import Judge, bare
from .load import PARTNERS, SETUP, prepared

CONNECTIONS = int(os.environ.get('CONNECTIONS', 10000))
LONGEST = 30                # seconds that an answer may take, where nothing else is asked


def text_of(code, number):
    """A gate-in under an odd number, under the next one the gate-out of the same container."""
    serial = PARTNERS.index(code) * 1000 + (number + 1) // 2
    if number % 2:
        return gate_in(number, code, serial)
    return gate_out(number, code, container(serial))


def asked(clients, judge, code, number):
    """The connections for an interchange: what is wanted of each, and what asks."""
    key = '%s/%d' % (code, number)
    yield judge.delivered(text_of(code, number)), lambda: clients.post(code, text_of(code, number))
    for kind, path in (('reply', '/replies/%d'), ('contrl', '/contrls/%d')):
        yield judge.report(kind, key), lambda path=path: clients.get(code, path % number)
    yield judge.standing(code), lambda: clients.get(code, '/standing')


def in_turn(checks, installed):
    """Partners take turns; each answer is the model's. Gives how long each took."""
    clients, judge, took = prepared(installed), Judge(installed, checks), []
    for place in range(CONNECTIONS // 4):
        code, number = PARTNERS[place % len(PARTNERS)], place // len(PARTNERS) + 1
        for wanted, ask in asked(clients, judge, code, number):
            began = time.monotonic()
            came = ask()
            took.append(time.monotonic() - began)
            checks.expect('%s, interchange %d' % (code, number), wanted, (came.status, bare(came.body)))
    judge.rows('%d connections' % len(took))
    return sorted(took)


def try_all(checks, program):
    """All of them before one gateway."""
    with Installed(program, SETUP) as installed:
        took = in_turn(checks, installed)
    checks.measured.append('%d connections in turn: median %.0f ms, 99%% %.0f ms' % (
        len(took), 1000 * took[len(took) // 2], 1000 * took[int(0.99 * len(took))]))
    checks.within('the longest', LONGEST, took[-1])
