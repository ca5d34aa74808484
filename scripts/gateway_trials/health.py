"""What /health and office-health see: a good store, one whose sync failed, an office that hangs or is away, little room."""
import os
import shutil
import signal
import subprocess

from hostile.served import gate_in
from model.setup import DEMO

from .asking import Asking
from .installed import Installed, script, until
from .judged import NOT_NOW, READY

LOOKS = ['/partners', '/yard', '/blocks', '/picture', '/replies/HAULA/1', '/metrics', '/health']


class Supervised:
    """office-health over an installed office; to start it again is to make a file."""

    def __init__(self, installed):
        self.installed, self.file = installed, installed.file('started-again')

    def asked(self, **given):
        """Its status, and whether it had the office started again."""
        process = self.installed.office.process
        given = dict(
            os.environ, QUEUE=self.installed.file('queue.sock'), STORE=self.installed.folder, WAIT='1',
            RESTART='touch ' + self.file, **given)
        done = subprocess.run(
            [script('office-health'), str(process.pid if process else 0)], env=given, stdin=subprocess.DEVNULL, capture_output=True,
            encoding='utf-8', check=False)
        was = os.path.exists(self.file)
        if was:
            os.remove(self.file)
        return done.returncode, was, done.stderr


def failed_sync(checks, clients, health):
    """After a sync that failed each look is answered 503 `not now`, and each delivery; started again, all is as before, and
    the delivery whose sync failed is in effect or not at all."""
    office, text = clients.installed.office, gate_in(2)
    words = ['strace', '-qq', '-f', '-p', str(office.process.pid), '-o', '/dev/null', '-e', 'trace=fsync,fdatasync',
             '-e', 'inject=fsync,fdatasync:error=EIO']
    with subprocess.Popen(words, stdin=subprocess.DEVNULL, stderr=subprocess.DEVNULL) as tracing:
        until('strace', lambda: traced(office.process))
        checks.expect('a sync fails', NOT_NOW, clients.post('HAULA', text)[:2])
        tracing.send_signal(signal.SIGINT)
    for path in LOOKS:
        checks.expect('after a failed sync: GET ' + path, NOT_NOW, clients.inside(path)[:2])
    came = clients.get('HAULA', '/standing')
    checks.expect('after a failed sync: a partner', (*NOT_NOW, True), (*came[:2], 'retry-after: ' in came.head.lower()))
    checks.expect('after a failed sync: office-health', (1, True), health.asked()[:2])
    office.stop()
    office.start()
    checks.expect('started again: office-health', (0, False), health.asked()[:2])
    came = clients.post('HAULA', text)
    checks.expect('started again: the same', True, came.status == 200 and ('"taken"' in came.body or '"repeat"' in came.body))


def traced(process):
    """Whether a tracer holds it."""
    with open('/proc/%d/status' % process.pid, encoding='ascii') as status:
        return 'TracerPid:\t0\n' not in status.read()


def hangs(checks, clients, health):
    """An office that is held still answers nobody: it is started again, but for one that may be opening its store."""
    office = clients.installed.office
    office.process.send_signal(signal.SIGSTOP)
    try:
        young, old = health.asked(PATIENCE='2'), health.asked(PATIENCE='2', OPENING='0')
    finally:
        office.process.send_signal(signal.SIGCONT)
    checks.expect('an office that hangs, and is young', (1, False), young[:2])
    checks.expect('an office that hangs, and is not', (1, True), old[:2])
    checks.expect('it goes on', (0, False), health.asked()[:2])


def away(checks, clients, health):
    """An office that is away is its supervisor's; of little room it only says so."""
    office = clients.installed.office
    office.stop()
    checks.expect('an office that is away', (1, False), health.asked(PATIENCE='2')[:2])
    office.start()
    status, was, said = health.asked(ROOM='999999999')
    checks.expect('little room', (0, False, True), (status, was, ' MB are left for the store' in said))


def try_all(checks, program):
    """All of these over one store."""
    with Installed(program, DEMO) as installed:
        installed.authority.run('partner', 'HAULA')
        clients, health = Asking(installed), Supervised(installed)
        checks.expect('ready', READY, clients.inside('/health')[:2])
        checks.expect('ready: office-health', (0, False, ''), health.asked())
        checks.expect('a delivery', 200, clients.post('HAULA', gate_in(1)).status)
        hangs(checks, clients, health)
        away(checks, clients, health)
        if shutil.which('strace'):
            failed_sync(checks, clients, health)
        else:
            print('gateway: a sync that fails was not tried, without strace')
