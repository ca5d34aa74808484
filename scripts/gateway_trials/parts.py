"""All parts: scripts/gateway."""
import os
import shutil
import signal
import sys
from time import monotonic

from hostile.served import Checks
from model.files import PROGRAM

from . import browser, by_page, certificates, connections, copies, health, load, partners, people, standby, units

WANTED = ['nginx', 'haproxy', 'openssl', 'curl']
PARTS = {
    'partners': partners.try_all, 'certificates': certificates.try_all, 'people': people.try_all, 'load': load.try_all,
    'connections': connections.try_all, 'copies': copies.try_all, 'health': health.try_all, 'units': units.try_all,
    'by_page': by_page.try_all, 'standby': standby.try_all, 'browser': browser.try_all}


def tried(checks, name, trial, program):
    """A part; a fault of its own counts as failed."""
    began = monotonic()
    try:
        trial(checks, program)
    except Exception as fault:
        checks.expect('%s: %r' % (name, fault), 'an end', 'a fault')
    print('%s: %d seconds, %d passed so far, %d failed' % (name, monotonic() - began, checks.passed, checks.failed), flush=True)


def main():
    """Runs the parts that are asked for. Gives the status."""
    names = sys.argv[1:] or list(PARTS)
    program = PROGRAM
    if not set(names) <= set(PARTS):
        print('usage: scripts/gateway [%s] ..' % '|'.join(PARTS), file=sys.stderr)
        return 2
    missing = [part for part in WANTED if not shutil.which(part)]
    if missing:
        print('gateway: skipped, without ' + ', '.join(missing))
        return 0
    if not os.access(program, os.X_OK):
        print('gateway: %s is not built (make build)' % program, file=sys.stderr)
        return 2
    signal.signal(signal.SIGTERM, lambda *_signal: sys.exit(143))      # so that each part ends what it started
    checks = Checks()
    for name in names:
        tried(checks, name, PARTS[name], program)
    print('\n'.join(checks.measured))
    print('%d passed, %d failed' % (checks.passed, checks.failed))
    return 1 if checks.failed else 0
