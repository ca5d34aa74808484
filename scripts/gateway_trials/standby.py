"""A standby that is set up by its page on a second machine, which follows the first, and then takes its place."""
from hostile.served import gate_in

from .by_page import GATEWAY, PLACE, done, failed, health, installed, machines
from .machine import missing
from .pages import OPERATIONS, STANDBY, steps

FOLDER = PLACE + '/examples/standby'
STORE = '/var/lib/office/office.db'
SENT = ('cd && curl -sS --cacert authority.crt --cert HAULA.crt --key HAULA.key %s https://gateway.example%s')
ASKED = 'curl -s --unix-socket /run/office-queue.sock http://localhost/'


def sent(machine, number):
    """HAULA's gate-in of that number, by the gateway."""
    return machine.run(SENT % ('--data-binary @-', '/interchanges'), gate_in(number, 'HAULA', number))[0]


def set_up(checks, first, second):
    """The gateway on the first, some texts in it, and the standby by its page, as each step says."""
    installed(checks, first, second)
    first.sure('systemctl start ssh.service')
    for number in (1, 2, 4):
        checks.expect('a delivery', True, '"answer":"' in sent(second, number))
    gateway, page = steps(OPERATIONS, 'Who may send'), steps(STANDBY, 'Set up')
    for number in (1, 2, 3):
        script = gateway[number].replace('apt-get install', ': apt-get install')
        done(checks, second, "the gateway's step %d" % number, script)
    fingerprint = done(checks, second, 'step 1', page[1], FOLDER).split(' ')[1]
    checks.expect('the fingerprint', True, fingerprint in first.sure('ssh-keygen -lf /etc/ssh/ssh_host_ed25519_key.pub'))
    second.brings('/etc/office-follow/key.pub', first, FOLDER + '/key.pub')
    done(checks, first, 'step 2', page[2], FOLDER)
    done(checks, second, 'step 3', page[3])


def reports(machine, asked):
    """Yard and partners, and where each partner's texts are."""
    return [machine.run(asked % what)[0] for what in ('yard', 'partners', 'visits/ABCU0000017')]


def are_same(checks, name, first, second):
    """After its turns, when the follower sleeps, the standby has what the first has."""
    second.until(name, lambda: second.run('pgrep -u office -x sleep')[2] == 0)
    wanted = reports(first, ASKED + '%s')
    checks.expect(name, wanted, reports(second, 'runuser -u office -- office report %s $(echo %%s | tr / " ")' % STORE))
    checks.expect(name, True, ' CONTAINERS' in wanted[0] and 'HAULA GATE NEXT' in wanted[1] and 'VISITS ' in wanted[2])
    checks.expect(name + ': the unit', 'active', second.run('systemctl is-active office-follow.service')[0])


def follows(checks, first, second):
    """It brings what came before it, what comes then, and accounts; the first may be away meanwhile."""
    are_same(checks, 'what was there', first, second)
    checks.expect('the gap is closed', True, '"taken"' in sent(second, 3))
    first.sure("curl -s --data '' --unix-socket /run/office-queue.sock http://localhost/partners/HAULC/gate")
    second.sure('systemctl restart office-follow.service')
    are_same(checks, 'what came then', first, second)
    first.sure('systemctl stop office-queue.socket office-queue.service office.service')
    second.sure('systemctl restart office-follow.service')
    second.until('it says so', lambda: 'no texts from the first' in second.run('journalctl -u office-follow -o cat')[0])
    first.sure('systemctl start office.service office-queue.socket')
    first.until('the office', lambda: health(first) == '{"answer":"ready"}')
    checks.expect('another delivery', True, '"taken"' in sent(second, 5))
    second.sure('systemctl restart office-follow.service')
    are_same(checks, 'after the first was away', first, second)
    failed(checks, second, 'it follows')


def may_only_ask(checks, _first, second):
    """What the standby's key may do at the first."""
    for words, wanted in (('partners', 0), ('id', 2), ('', 2), ("'texts 0; id'", 1), ("'partners | id'", 0)):
        printed, _fault, status = second.run('runuser -u office -- ssh -F /etc/office-follow/ssh_config first ' + words)
        checks.expect('ssh %s' % words, (wanted, False), (status, 'uid=' in printed))


def fails_over(checks, first, second):
    """The first is stopped with a text that the standby has not, which its disk still gives; the standby takes its place."""
    second.sure('systemctl stop office-follow.service')
    checks.expect('a last delivery', True, '"taken"' in sent(second, 6))
    wanted = reports(first, ASKED + '%s')
    first.sure('systemctl disable --now nginx office-queue.socket office-queue.service office.service')
    texts = first.sure('runuser -u office -- office texts %s 5' % STORE)
    printed = second.run('runuser -u office -- office deliver %s -' % STORE, texts + '\n')[0]
    checks.expect('what it lacks', (1, True), (printed.count('\n') + 1, '"taken"' in printed))
    packed = first.sure('tar -C / -c etc/office-authority')
    second.sure('tar -C / -x', packed)
    second.sure('systemctl disable office-follow.service')
    done(checks, second, 'step 7', steps(OPERATIONS, 'Who may send')[7], GATEWAY)
    second.sure("sed -i '/gateway.example/d' /etc/hosts && echo 127.0.0.1 gateway.example >> /etc/hosts")
    second.until('the office', lambda: health(second) == '{"answer":"ready"}')
    checks.expect('the same office', wanted, reports(second, ASKED + '%s'))
    checks.expect('its standing', 'HAULA GATE NEXT 7', second.run(SENT % ('', '/standing'))[0])
    checks.expect('the next', True, '"taken"' in sent(second, 7))
    failed(checks, second, 'the failover')


CASES = [set_up, follows, may_only_ask, fails_over]


def try_all(checks, program):
    """All of these, one after the other."""
    if missing('sshd'):
        print('gateway: the standby was not set up by its page, without ' + missing('sshd'))
        return
    with machines(program) as (first, second):
        for case in CASES:
            case(checks, first, second)
