"""The gateway as its page installs it, on a machine that is thrown away, with the users, units and log rotation of Debian."""
import contextlib
import os
import subprocess

from .installed import TOP
from .machine import Machine, joined, missing
from .pages import OPERATIONS, commands, steps

PLACE = '/srv/office'                               # where the machines have this repository's examples and the program
GATEWAY = PLACE + '/examples/gateway'
NAMES = 'gateway.example first.example'
PASSWORD = 'anna'
LOGS = '/var/log/office-gateway'
COPIES = '/var/lib/office-copies'
# A delivery by a partner from another machine, as step 8 has it.
SENT = 'cd && curl -sS -w " %%{http_code}" --cacert authority.crt %s --data-binary @%s https://gateway.example/interchanges'


@contextlib.contextmanager
def machines(program):
    """Two machines with the examples and the program, of which the second knows the first by its names."""
    with Machine('first') as first, Machine('second') as second:
        addresses = joined(first, second)
        packed = subprocess.run(
            ['tar', '-C', TOP, '-c', 'examples', '--transform', 's|^program$|crates/office/out/office|',
             '-C', os.path.dirname(program), '--transform', 's|^%s$|crates/office/out/office|' % os.path.basename(program),
             os.path.basename(program)], capture_output=True, check=True).stdout.decode('latin-1')
        for machine in (first, second):
            machine.sure('mkdir -p %s && tar -x -C %s' % (PLACE, PLACE), packed)
            machine.sure('cat >> /etc/hosts', ''.join('%s %s\n' % (address, NAMES) for address in addresses))
        yield first, second


def done(checks, machine, name, script, folder=GATEWAY):
    """Commands of a page. What they print."""
    printed, fault, status = machine.run('set -e\n' + script, folder=folder)
    checks.expect('%s: %s' % (name, fault or printed), 0, status)
    return printed


def installed(checks, first, second):
    """Steps 1 to 7, with HAULB's request made elsewhere. The packages are there."""
    page = steps(OPERATIONS, 'Who may send')
    second.sure("cd && openssl req -new -newkey ec -pkeyopt ec_paramgen_curve:prime256v1 -nodes -keyout HAULB.key -subj /CN=B "
                '-out haulb-request.pem 2> said')
    second.brings('/root/haulb-request.pem', first, GATEWAY + '/haulb-request.pem')
    for number in range(1, 8):
        script = page[number].replace('apt-get install', ': apt-get install').replace(
            '-out anna.p12', '-passout pass:%s -out anna.p12' % PASSWORD)
        done(checks, first, 'step %d' % number, script)
    for name in ('authority.crt', 'partners/HAULA.crt', 'partners/HAULA.key', 'partners/HAULB.crt', 'people/anna.p12'):
        first.brings('/etc/office-authority/' + name, second, '/root/' + os.path.basename(name))
    second.sure('cp %s/examples/gate-in.edi /root' % PLACE)
    first.until('the office', lambda: health(first) == '{"answer":"ready"}')


def health(machine):
    """What the office answers about itself, by its socket."""
    return machine.run('curl -s --unix-socket /run/office-queue.sock http://localhost/health')[0]


def tried(checks, first, second):
    """Step 8, by IPv4 and by IPv6, and what must fail."""
    haula, haulb = '--cert HAULA.crt --key HAULA.key', '--cert HAULB.crt --key HAULB.key'
    for name, who, wanted in (
            ('taken', haula, '"taken"'), ('repeat', haula + ' -4', '"repeat"'), ('repeat by IPv6', haula + ' -6', '"repeat"'),
            ('HAULB', haulb, '403'), ('HAULB', haulb, '"OtherSender"'), ('nobody', '', '"Certificate"')):
        printed, fault, _status = second.run(SENT % (who, 'gate-in.edi'))
        checks.expect('step 8: %s: %s %s' % (name, printed[:200], fault), True, wanted in printed)
    checks.expect('on the machine itself', 7, first.run('curl -s http://127.0.0.1:8080/yard')[2])
    for number in ('-4', '-6'):
        checks.expect("Debian's page, " + number, 7, second.run('curl -s %s http://gateway.example/' % number)[2])


def person(checks, _first, second):
    """A planner with the file for a browser."""
    for path, status, kind in (
            ('/', 200, 'text/html'), ('/pages/partners', 200, 'text/html'), ('/pages/replies/HAULA/1', 403, 'text/html'),
            ('/tickets/HAULA/1', 403, 'application/json')):
        printed = second.run(
            'cd && curl -sS -o /dev/null -w "%%{http_code} %%{content_type}" --cacert authority.crt --cert-type P12 '
            '--cert anna.p12:%s https://gateway.example:8443%s' % (PASSWORD, path))[0]
        checks.expect('a planner: ' + path, True, printed.startswith('%d %s' % (status, kind)))


def units(checks, first, _second):
    """What the page starts runs, and each unit that a timer starts succeeds. Nothing has failed."""
    for name in ('office.service', 'nginx.service', 'office-queue.socket', 'office-queue.service', 'office-health.timer',
                 'office-copy.timer', 'office-drill.timer', 'office-revoked.timer'):
        checks.expect(name, 'active', first.run('systemctl is-active ' + name)[0])
    for name in ('office-health', 'office-revoked'):
        done(checks, first, name, 'systemctl start %s.service' % name)
    failed(checks, first, 'installed')


def failed(checks, machine, name):
    """No unit has failed."""
    checks.expect(name + ': systemctl --failed', '', machine.run('systemctl --failed --no-legend --plain')[0])


def rotated(checks, first, second):
    """Two rotations of logs: nginx's workers go on in the new files, which only its group may read."""
    haulb = '--cert HAULB.crt --key HAULB.key'
    for time in range(3):
        second.run(SENT % (haulb, 'gate-in.edi'))
        for name, lines in (('office.log', None), ('refused.jsonl', '1' if time else None)):
            path = '%s/%s' % (LOGS, name)
            first.until('a line in ' + name, lambda path=path: first.run('test -s ' + path)[2] == 0)
            if lines:
                checks.expect('rotation %d: lines of %s' % (time, name), lines, first.run('wc -l < ' + path)[0])
            checks.expect('%s is nobody else\'s' % name, 1, first.run('runuser -u nobody -- cat ' + path)[2])
        checks.expect('the folder is nobody else\'s', 2, first.run('runuser -u nobody -- ls ' + LOGS)[2])
        done(checks, first, 'logrotate', 'logrotate -f /etc/logrotate.d/office')


def names(machine):
    """What lies in the folder of copies, without their times."""
    return machine.run("ls %s | sed 's/^2.*Z$/copy/'" % COPIES)[0].split()


def copied(checks, first, _second):
    """Copies as the page says, by the unit and by the store's user; root's are refused, and leave nothing that stops others."""
    _log, unit, by_hand = commands(OPERATIONS, 'Back up')
    as_root = by_hand.replace('runuser -u office -- ', '')
    checks.expect('the page has a command by hand', True, as_root != by_hand)
    checks.expect('root, before there is a folder', 1, first.run(as_root)[2])
    done(checks, first, 'the unit', unit)
    checks.expect('a copy', ['copy', 'lock'], names(first))
    printed, fault, status = first.run(as_root)
    wanted = 'office-copy: only office, who has %s, makes copies there: systemctl start office-copy.service' % COPIES
    checks.expect('root', ('', wanted, 1), (printed, fault, status))
    checks.expect('root leaves nothing', ['copy', 'lock'], names(first))
    done(checks, first, 'by hand', by_hand)
    done(checks, first, 'the unit again', unit)
    checks.expect('three copies', ['copy', 'copy', 'copy', 'lock'], names(first))
    checks.expect('all of them are the user\'s', '', first.run('find %s ! -user office' % COPIES)[0])
    done(checks, first, 'the drill', 'systemctl start office-drill.service')
    checks.expect('the office goes on', '{"answer":"ready"}', health(first))
    failed(checks, first, 'copied')


CASES = [installed, tried, person, units, rotated, copied]


def try_all(checks, program):
    """All of these, one after the other."""
    if missing():
        print('gateway: an install by the page was not tried, without ' + missing())
        return
    with machines(program) as (first, second):
        for case in CASES:
            case(checks, first, second)
