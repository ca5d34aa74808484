"""Each role and each path at the port of the terminal's own people, and the way in past the gateway."""
import errno
import os
import re
import shutil
import socket
import subprocess

from hostile.served import gate_in
from model.http import HTML, PAGE_FIELDS
from model.pages import KINDS as PAGED
from model.setup import DEMO

from .asking import Asking, delivery, head_of
from .installed import GROUP, HOST, Installed
from .judged import ADDED, NONE, ORIGIN, ROLE, Judge, bare

ROLES = ['gate', 'planner', 'quay', 'edi']
OTHERS = ROLES[1:]
# what is asked, as a report of the model, and who may
REPORTS = [
    ('/yard', 'yard', '', ROLES), ('/yard.csv', 'yardcsv', '', ROLES), ('/blocks', 'blocks', '', ROLES),
    ('/picture', 'picture', '', ROLES), ('/containers/ABCU0000017', 'container', 'ABCU0000017', ROLES),
    ('/visits/ABCU0000017', 'visits', 'ABCU0000017', ROLES), ('/visits/ABCU0000022', 'visits', 'ABCU0000022', ROLES),
    ('/visits/%41BCU0000017', 'visits', 'ABCU0000017', ROLES),
    ('/calls', 'calls', '', OTHERS),
    ('/lists/91%2F23/V12/load', 'list', '91%2F23/V12/load', OTHERS),
    ('/work/91%2F23/V12/load', 'work', '91%2F23/V12/load', OTHERS),
    ('/tickets/HAULA/1', 'ticket', 'HAULA/1', ['gate', 'edi']), ('/replies/HAULA/1', 'reply', 'HAULA/1', ['edi']),
    ('/contrls/HAULA/1', 'contrl', 'HAULA/1', ['edi']), ('/partners', 'partners', '', OTHERS)]
# whoever may have a report may ask for its JSON and its CSV; of some there is none
DATA = [(front + path, allowed) for path, kind, _key, allowed in REPORTS if kind != 'yardcsv' for front in ('/json', '/csv')]
# whoever may have a report may see its page, where it has one; and these besides
PAGES = [('/pages' + path, allowed) for path, kind, _key, allowed in REPORTS if kind in PAGED] + [
    (path, ROLES) for path in (
        '/', '/pages/find', '/pages/find?', '/pages/find?container=abcu+000001-7', '/pages/find?container=%41BCU0000017',
        '/pages/find?container=ABCU0000018', '/pages/find?container=%3Cb%3E', '/pages/find?container=ABCU0000022&x=/partners',
        '/pages/find?x=ABCU0000017', '/pages/find?/../../partners', '/pages/containers/..', '/pages/visits/ABCU0000022')] + [
    ('/pages/yard/A', ROLES), ('/pages/partners/HAULA', OTHERS), ('/pages/partners/NOBODY', OTHERS),
    ('/pages/tickets/HAULA/2', ['gate', 'edi']), ("/pages/replies/HAULA'%3Cb%3E/1", ['edi']), ('/pages/replies/HAULA/x', ['edi'])]
LOAD_LIST = (
    "UNB+UNOA:3+LINEA+TERM1+240305:0910+1'UNH+1+COPRAR:D:95B:UN'BGM+45+L1+9'TDT+20+V12++++++91/23'"
    "EQD+CN+ABCU0000017+22G1:102:5+++5'LOC+11+NLRTM'UNT+6+1'UNZ+1+1'")
# what no role may ask
NOBODYS = [
    ('GET', '/?x'), ('GET', '/nothing'), ('GET', '/yard/'), ('GET', '/yard?x'), ('GET', '/%79ard'), ('GET', '/partners/../yard'),
    ('GET', '//yard'), ('GET', '/texts/0'), ('GET', '/containers/ABCU0000017/'), ('GET', '/interchanges'), ('POST', '/interchanges'),
    ('POST', '/partners/HAULA/interchanges'), ('POST', '/partners/HAULC/port'), ('POST', '/partners/%48AULC/gate'),
    ('POST', '/partners/HAULC/gate?x'), ('POST', '/yard'), ('PUT', '/partners/HAULC/gate'), ('DELETE', '/partners/HAULA'),
    ('POST', '/'), ('GET', '/pages'), ('GET', '/pages/'), ('GET', '/pages/nothing'), ('GET', '/pages/yard.csv'),
    ('GET', '/pages/health'), ('GET', '/pages/metrics'), ('GET', '/pages/interchanges'),
    ('GET', '/pages/yard/'), ('GET', '/pages/yard?x'), ('GET', '/pages/%79ard'), ('GET', '/pages//yard'), ('GET', '//pages/yard'),
    ('GET', '/pages/pages/yard'), ('GET', '/PAGES/yard'), ('GET', '/pages/../partners'), ('GET', '/pages/find/'),
    ('GET', '/pages/find/x?container=ABCU0000017'), ('GET', '/pages/finder'), ('POST', '/pages/find'), ('POST', '/pages/yard'),
    ('POST', '/pages/partners/HAULC/gate'),
    ('GET', '/json'), ('GET', '/json/'), ('GET', '/json/health'), ('GET', '/json/yard.csv'), ('GET', '/csv/metrics'),
    ('GET', '/json/csv/yard'), ('GET', '/json/pages/yard'), ('GET', '/pages/json/yard'), ('GET', '/json/archives/1/yard'),
    ('POST', '/json/yard'), ('POST', '/csv/partners/HAULC/gate'), ('GET', '/pages/yard/a'), ('GET', '/pages/yard/AB'),
    ('GET', '/archives/1/texts/0'), ('GET', '/archives/0/yard'), ('GET', '/archives/10000/yard'), ('GET', '/archives/x/yard'),
    ('GET', '/archives/1/archives/1/yard'), ('GET', '/archives/1/pages/yard'), ('GET', '/pages/archives/1/yard'),
    ('GET', '/archives/1/'), ('GET', '/archives/1'), ('POST', '/archives/1/partners/HAULC/gate')]
# what another site's page may ask for with a person's certificate, and what the own pages and programs do
FOREIGN = [
    ['Origin: https://evil.example'], ['Origin: null'], ['Origin: http://%s.evil.example' % HOST], ['Origin: %s' % HOST],
    ['Origin: https://%s https://evil.example' % HOST], ['Origin: https://%s:8080' % HOST], ['Origin: ftp://' + HOST],
    ['Sec-Fetch-Site: cross-site'], ['Sec-Fetch-Site: same-site'], ['Sec-Fetch-Site: none, cross-site'],
    ['Origin: https://evil.example', 'Sec-Fetch-Site: same-origin'], ['Origin: https://' + HOST, 'Sec-Fetch-Site: cross-site']]
OWN = [[], ['Origin: https://' + HOST], ['Origin: http://' + HOST], ['Sec-Fetch-Site: same-origin'], ['Sec-Fetch-Site: none'],
       ['Origin: https://' + HOST, 'Sec-Fetch-Site: same-origin']]


def reports(clients, judge):
    """Each role asks for each report."""
    port = clients.installed.people
    for code, text in (('HAULA', gate_in(1)), ('LINEA', LOAD_LIST)):
        judge.same('a delivery', judge.delivered(text), clients.post(code, text))
    for path, kind, key, allowed in REPORTS:
        for role in ROLES:
            wanted = judge.report(kind, key) if role in allowed else ROLE
            judge.same('%s: GET %s' % (role, path), wanted, clients.get(role, path, port))
    for path, allowed in DATA:
        for role in ROLES:
            wanted = judge.answered(path) if role in allowed else ROLE
            judge.same('%s: GET %s' % (role, path), wanted, clients.get(role, path, port))
    for role in ROLES:
        wanted = judge.standing('HAULA') if role in OTHERS else ROLE
        judge.same(role + ': GET /partners/HAULA', wanted, clients.get(role, '/partners/HAULA', port))
        judge.same(role + ': GET /health', (200, '{"answer":"ready"}'), clients.get(role, '/health', port))
        came = clients.get(role, '/metrics', port)
        judge.checks.expect(role + ': GET /metrics', (200, True), (came.status, '# TYPE ' in came.body))


def pages(clients, judge):
    """Each role asks for each page."""
    for path, allowed in PAGES:
        for role in ROLES:
            name = '%s: GET %s' % (role, path)
            came = clients.get(role, path, clients.installed.people)
            if role not in allowed:
                refused(judge, name, role, 'GET', path, came)
                continue
            judge.same(name, judge.answered(path), came)
            fields = came.head.lower().split('\r\n')       # HAProxy writes names in small letters
            wanted = ['Content-Type: ' + HTML, *PAGE_FIELDS]
            judge.checks.expect(name + ': what it is', [1] * 5, [fields.count(field.lower()) for field in wanted])


def refused(judge, name, role, method, path, came):
    """What a role may not have: who asks for a page gets a page, which names the role, and to the gate the ticket for a reply."""
    if method != 'GET' or not re.match(r'/(pages|\?|$)', path):
        judge.same(name, ROLE, came)
        judge.checks.expect(name + ': what it is', True, 'Content-Type: application/json\r\n' in came.head)
        return
    judge.checks.expect(name, (403, True), (came.status, 'has the role <b>%s</b>' % role in came.body))
    fields = came.head.split('\r\n')
    judge.checks.expect(name + ': what it is', [1] * 5, [fields.count(field) for field in (
        *ADDED, 'Content-Type: ' + HTML, PAGE_FIELDS[0])])
    reply = re.fullmatch(r'/pages/replies/([\w.%-]+/\d+)', path) if role == 'gate' else None
    links = ['/pages/tickets/' + reply.group(1)] if reply else []
    judge.checks.expect(name + ': links', links + ['/'], re.findall("href='(.*?)'", came.body))
    judge.rows(name)


def nobodys(clients, judge):
    """What no role may ask is refused, whoever asks."""
    for method, path in NOBODYS:
        for role in ROLES:
            request = delivery(gate_in(2), path) if method == 'POST' else head_of(method, path)
            came = clients.ask(role, request, clients.installed.people)
            refused(judge, '%s: %s %s' % (role, method, path), role, method, path, came)
    judge.same('dots are a key like any other', NONE, clients.get('gate', '/containers/..', clients.installed.people))


def accounts(clients, judge):
    """Only the EDI desk adds accounts."""
    port = clients.installed.people
    request = head_of('POST', '/partners/HAULC/gate', 'Content-Length: 0')
    explain = delivery(gate_in(2), '/explain')
    for role in ('gate', 'planner', 'quay'):
        judge.same(role + ': an account', ROLE, clients.ask(role, request, port))
        judge.same(role + ': POST /explain', ROLE, clients.ask(role, explain, port))
    judge.same('edi: POST /explain', judge.explained(gate_in(2)), clients.ask('edi', explain, port))
    for _time in range(2):
        judge.same('edi: an account', judge.added('HAULC', 'gate'), clients.ask('edi', request, port))
    wanted = 409, '{"answer":"refused","fault":"Kind"}'
    judge.same('edi: another kind', wanted, clients.ask('edi', request.replace('/gate', '/line'), port))
    came = clients.curl('edi', '/partners/HAULD/yard', '--data', '', port=port)
    judge.same('edi: an account by curl', judge.added('HAULD', 'yard'), came)
    clients.installed.authority.run('partner', 'HAULC')
    text = gate_in(1, 'HAULC', 2)
    judge.same('the new partner', judge.delivered(text), clients.post('HAULC', text))


def sites(clients, judge):
    """A POST from a page of another site is refused, whatever it posts; a link from there is followed."""
    port = clients.installed.people
    for fields in FOREIGN:
        for path in ('/partners/EVIL/gate', '/explain', '/nothing'):
            request = head_of('POST', path, *fields, 'Content-Length: 0')
            judge.same('edi: POST %s %s' % (path, fields), ORIGIN, clients.ask('edi', request, port))
        came = clients.ask('edi', head_of('GET', '/pages/yard', *fields), port)
        judge.same('edi: a link, %s' % fields, judge.answered('/pages/yard'), came)
    for fields in OWN:
        request = head_of('POST', '/partners/HAULC/gate', *fields, 'Content-Length: 0')
        judge.same('edi: its own %s' % fields, judge.added('HAULC', 'gate'), clients.ask('edi', request, port))


def archives(clients, judge):
    """Each role may ask an archive for what it may ask the office; the office says what is there."""
    office, port = clients.installed.office, clients.installed.people
    office.stop()
    copy = os.path.join(office.folder, 'office-0001.db')
    for end in ('', '-wal'):
        if os.path.exists(office.store + end):
            shutil.copy(office.store + end, copy + end)
    done = subprocess.run([office.program, 'close', office.store, copy], capture_output=True, encoding='utf-8', check=False)
    judge.checks.expect('history put away', ('ready\n', 0), (done.stdout, done.returncode))
    office.start()
    more = [('/metrics', '', '', ROLES), ('/partners/HAULA', '', '', OTHERS), ('/json/yard', '', '', ROLES),
            ('/csv/calls', '', '', OTHERS), ('/json/replies/HAULA/1', '', '', ['edi'])]
    for path, _kind, _key, allowed in REPORTS + more:
        path = '/archives/1' + path
        wanted = clients.inside(path)
        judge.checks.expect('GET %s: there' % path, 200, wanted.status)
        for role in ROLES:
            came = clients.get(role, path, port)
            wished = wanted if role in allowed else ROLE
            judge.checks.expect('%s: GET %s' % (role, path), (wished[0], bare(wished[1])), (came.status, bare(came.body)))
    judge.checks.expect('no such archive', NONE, clients.get('gate', '/archives/2/yard', port)[:2])


def ways_in(clients, judge):
    """Past the gateway: the port is not there for other programs, and only its group may open the socket."""
    installed = clients.installed
    if not installed.network.front:
        print('gateway: the ways in past it were not tried, which takes root')
        return
    with socket.socket() as client:
        outside = client.connect_ex(('127.0.0.1', installed.office.port))
    judge.checks.expect("the office's port, from outside its network", errno.ECONNREFUSED, outside)
    for user, group, wanted in (('nobody', 'nogroup', 7), (GROUP, GROUP, 0)):
        words = ['setpriv', '--reuid', user, '--regid', group, '--clear-groups', 'curl', '-s', '-m', '60', '-o', os.devnull,
                 '--unix-socket', installed.file('queue.sock'), 'http://localhost/yard']
        done = subprocess.run(words, check=False)
        judge.checks.expect('the socket, as ' + user, wanted, done.returncode)


CASES = [reports, pages, nobodys, accounts, sites, ways_in, archives]


def try_all(checks, program):
    """All cases, one after the other, over one store."""
    with Installed(program, DEMO) as installed:
        for code in ('HAULA', 'LINEA'):
            installed.authority.run('partner', code)
        for role in ROLES:
            installed.authority.run('person', role, role)
        clients, judge = Asking(installed), Judge(installed, checks)
        for case in CASES:
            case(clients, judge)
