"""Real clients against `office serve`: curl and sockets, kind ones and others. scripts/clients."""
import os
import signal
import sys
import time
from concurrent.futures import ThreadPoolExecutor

from model.files import PROGRAM

from . import clients_at_once, clients_beside, clients_by_curl, clients_in_the_way, clients_of_sites
from .served import Checks, Pulse

LATE = 0.3                  # seconds by which a busy machine may wake a thread; what fails while it is later begins anew
TRIES = 10
CHECKS = (
    clients_in_the_way.CHECKS + clients_beside.CHECKS + clients_at_once.CHECKS + clients_by_curl.CHECKS + clients_of_sites.CHECKS)


def tried(checks, check, path):
    """A check; a fault of its own counts as failed. It begins anew where it failed and the machine was too busy for it."""
    for place in range(TRIES):
        own = Checks(kept=[])
        with Pulse() as pulse:
            try:
                check(own, path)
            except Exception as fault:
                own.expect('%s: %r' % (check.__name__, fault), 'an end', 'a fault')
        if not own.failed or pulse.late < LATE:
            break
    checks.add(own)
    if place:
        checks.measured.append('%s: tried %d times, on a machine that was late by more than %g s' % (check.__name__, place + 1, LATE))


def main():
    """Runs all checks, those that wait beside the others. Gives the status."""
    names = sys.argv[1:]
    if not set(names) <= {check.__name__ for check in CHECKS}:
        print('clients: %s' % ' '.join(check.__name__ for check in CHECKS))
        return 2
    if not os.access(PROGRAM, os.X_OK):
        print('clients: %s is not built (make build)' % PROGRAM)
        return 2
    signal.signal(signal.SIGINT, signal.default_int_handler)     # which a shell may have had ignored, and its servers too
    checks, started = Checks(), time.monotonic()
    chosen = [check for check in CHECKS if not names or check.__name__ in names]
    with ThreadPoolExecutor(len(clients_in_the_way.CHECKS) + 1) as pool:
        waiting = [pool.submit(tried, checks, check, PROGRAM) for check in chosen if check in clients_in_the_way.CHECKS]
        for check in chosen[len(waiting):]:
            tried(checks, check, PROGRAM)
        for done in waiting:
            done.result()
    print('\n'.join(sorted(checks.measured)))
    print('%d seconds' % (time.monotonic() - started))
    print('%d passed, %d failed' % (checks.passed, checks.failed))
    return 1 if checks.failed else 0
