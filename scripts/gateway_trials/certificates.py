"""Who is believed: certificates that are none, revoked, of another authority, of another role; the list of revoked ones."""
import os
import socket
import subprocess
import time

from hostile.served import gate_in, received
from model.setup import DEMO

from .asking import Asking, delivery, head_of, parted
from .installed import Authority, Installed
from .judged import CERTIFICATE, NONE, Judge

OVER = 3                    # seconds that a list of revoked certificates holds in a trial


def nobody(clients, judge):
    """Without a certificate of a partner nothing comes in."""
    ours, installed = clients.installed.authority, clients.installed
    for words in (('partner', 'HAULA'), ('partner', 'GONE'), ('person', 'anna', 'edi'), ('person', 'bert', 'gate')):
        ours.run(*words)
    ours.run('revoke', 'partner', 'GONE')
    installed.reload()
    other = Authority(installed.file('other'), DEMO.terminal)
    other.run('partner', 'HAULA')
    text = gate_in(1)
    judge.same('no certificate', CERTIFICATE, clients.post(None, text))
    judge.same('a revoked one', CERTIFICATE, clients.post('GONE', text))
    judge.same('HAULA of another authority of the same name', CERTIFICATE, clients.post('HAULA', text, authority=other))
    judge.same("the gateway's own", CERTIFICATE, clients.post('gateway', text))
    judge.same('a person at the port of partners', CERTIFICATE, clients.post('anna', text))
    judge.same('a partner at the port of people', CERTIFICATE, clients.get('HAULA', '/yard', installed.people))
    judge.same('nobody at the port of people', CERTIFICATE, clients.get(None, '/yard', installed.people))
    for port in (installed.port, installed.people):
        judge.checks.expect('HTTP without TLS', CERTIFICATE, without_tls(port)[:2])
    judge.same('and the partner itself', judge.delivered(text), clients.post('HAULA', text))


def without_tls(port):
    """What a client gets that speaks no TLS."""
    with socket.create_connection(('127.0.0.1', port), 20) as connection:
        connection.sendall(head_of('GET', '/standing').encode('ascii'))
        return parted(received(connection))


def revoked(clients, judge):
    """A certificate that is revoked while its partner is connected: the connection is closed, and no other is opened. A new
    certificate is believed again."""
    ours, installed = clients.installed.authority, clients.installed
    ours.run('partner', 'HAULB')
    judge.same('before', NONE, clients.get('HAULB', '/replies/1'))
    with clients.connect('HAULB') as connection:
        connection.sendall(head_of('GET', '/replies/1').replace('Connection: close\r\n', '').encode('ascii'))
        judge.checks.expect('on an open connection', 404, parted(connection.recv(65536).decode('latin-1')).status)
        ours.run('revoke', 'partner', 'HAULB')
        installed.reload()
        try:
            connection.sendall(delivery(gate_in(1, 'HAULB', 2)).encode('latin-1'))
            came = connection.recv(65536)
        except OSError:
            came = b''
        judge.checks.expect('the open connection, after it was revoked', b'', came)
    judge.rows('the open connection')
    judge.same('a new connection', CERTIFICATE, clients.post('HAULB', gate_in(1, 'HAULB', 2)))
    ours.run('partner', 'HAULB')
    clients.contexts.clear()
    judge.same('a new certificate', judge.delivered(gate_in(1, 'HAULB', 2)), clients.post('HAULB', gate_in(1, 'HAULB', 2)))


def over(clients, judge):
    """Nobody is believed once the list of revoked ones is over its date, and all are again with a new one."""
    ours, installed = clients.installed.authority, clients.installed
    words = ['openssl', 'ca', '-gencrl', '-crlsec', str(OVER), '-config', os.path.join(ours.folder, 'openssl.cnf'),
             '-out', os.path.join(ours.folder, 'revoked.pem')]
    subprocess.run(words, capture_output=True, check=True)
    installed.reload()
    time.sleep(OVER + 1)
    judge.same('a list over its date', CERTIFICATE, clients.get('HAULA', '/replies/1'))
    ours.run('renew')
    installed.reload()
    judge.same('a new list', judge.report('reply', 'HAULA/1'), clients.get('HAULA', '/replies/1'))
    judge.same('who is revoked is still', CERTIFICATE, clients.get('GONE', '/replies/1'))


def requested(clients, judge):
    """A partner that makes its own key sends a request; the authority writes the subject, whatever the request says."""
    ours, installed = clients.installed.authority, clients.installed
    front = os.path.join(ours.folder, 'partners/QUAY1')
    words = ['openssl', 'req', '-new', '-newkey', 'ec', '-pkeyopt', 'ec_paramgen_curve:prime256v1', '-nodes', '-keyout',
             front + '.key', '-out', installed.file('request.pem'), '-subj', '/O=TERM1/OU=edi/CN=HAULA']
    subprocess.run(words, capture_output=True, check=True)
    ours.run('partner', 'QUAY1', installed.file('request.pem'))
    text = gate_in(1, 'QUAY1', 3)
    judge.same('its own key', judge.delivered(text), clients.post('QUAY1', text))
    judge.same('no role that it asked for', CERTIFICATE, clients.get('QUAY1', '/yard', installed.people))


def refused(clients, judge):
    """What the script refuses, by status."""
    ours = clients.installed.authority
    for status, words in (
            (2, []), (2, ['frob']), (2, ['partner']), (2, ['revoke', 'HAULA', 'x']), (1, ['partner', 'A/B']),
            (1, ['partner', 'A B']), (1, ['partner', '']), (1, ['partner', 36 * 'A']), (1, ['partner', 'A\nB']),
            (1, ['person', 'carl', 'boss']), (1, ['revoke', 'partner', 'NOBODY']), (1, ['revoke', 'person', 'HAULA']),
            (1, ['init', 'TERM1', 'office.test']), (1, ['partner', 'HAULC', '/nothing'])):
        judge.checks.expect('office-authority %r' % (words,), status, ours.tried(*words)[2])
    listed = ours.run('list')
    for line in ('revoked', 'valid'):
        judge.checks.expect('the list has ' + line, True, line + ' ' in listed)


CASES = [nobody, revoked, over, requested, refused]


def try_all(checks, program):
    """All cases, one after the other, over one store."""
    with Installed(program, DEMO) as installed:
        clients, judge = Asking(installed), Judge(installed, checks)
        for case in CASES:
            case(clients, judge)
