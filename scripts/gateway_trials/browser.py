"""Debian's Chromium on a second machine, with a person's certificate and the authority's, as the page has a person import them."""
import json

from .by_page import PASSWORD, installed, machines
from .machine import missing

GATEWAY = 'https://gateway.example:8443'
POLICY = {'AutoSelectCertificateForUrls': [json.dumps({'pattern': GATEWAY, 'filter': {}})]}
KEPT = """cd
mkdir -p .pki/nssdb /etc/chromium/policies/managed /srv/other
cat > /etc/chromium/policies/managed/office.json
certutil -d sql:.pki/nssdb -N --empty-password
pk12util -d sql:.pki/nssdb -i anna.p12 -W %s
""" % PASSWORD
TRUSTED = 'cd && certutil -d sql:.pki/nssdb -A -n terminal -t C,, -i authority.crt'
# What the browser has in the end at an address.
SHOWN = ('cd && DBUS_SYSTEM_BUS_ADDRESS=unix:path=/nothing timeout 100 chromium --headless --no-sandbox --disable-gpu '
         '--no-first-run --disable-background-networking --virtual-time-budget=5000 --dump-dom ')
# Another site, whose page posts a form as soon as it is opened, and one whose link is followed.
OTHER = 'cd /srv/other && cat > index.html && (python3 -m http.server 8000 --bind 127.0.0.1 > /dev/null 2>&1 &)'
POSTING = '<form method=post action="%s/partners/EVIL/gate"></form><script>document.forms[0].submit()</script>'
LINKING = '<a href="%s/pages/partners">x</a><script>document.links[0].click()</script>'


def shown(machine, address):
    """The page that the browser has."""
    return machine.run(SHOWN + address)[0]


def looked(checks, second):
    """What the person may see and may not, once the authority is known."""
    checks.expect('an authority that the browser does not know', False, '<small>Office of</small>' in shown(second, GATEWAY + '/'))
    second.sure(TRUSTED)
    for path, heading in (
            ('/', '<small>Office of</small> TERM1'), ('/pages/partners', 'Partners'), ('/pages/replies/HAULA/1', 'Not for your role')):
        checks.expect('a planner opens ' + path, True, '<h1>%s</h1>' % heading in shown(second, GATEWAY + path))


def posted(checks, first, second):
    """A form of another site's page, which the browser posts with the person's certificate; and a link, which it may follow."""
    second.sure(OTHER, POSTING % GATEWAY)
    second.until('the other site', lambda: second.run('curl -s http://127.0.0.1:8000/')[2] == 0)
    came = shown(second, 'http://127.0.0.1:8000/')
    checks.expect('a form of another site: ' + came[:300], True, '{"answer":"refused","fault":"Origin"}' in came)
    seen = first.run('grep -c "CN=anna,OU=edi.* POST /partners/EVIL/gate 403" /var/log/office-gateway/office.log')[0]
    checks.expect('it came with the certificate', '1', seen)
    partners = first.run('curl -s --unix-socket /run/office-queue.sock http://localhost/partners')[0]
    checks.expect('and added nobody', (True, False), ('HAULA GATE' in partners, 'EVIL' in partners))
    second.sure('cat > /srv/other/index.html', LINKING % GATEWAY)
    checks.expect('a link of another site', True, '<h1>Partners</h1>' in shown(second, 'http://127.0.0.1:8000/'))


def try_all(checks, program):
    """As a planner, and as one of the EDI desk, who could add a partner."""
    without = missing('chromium', 'certutil', 'pk12util')
    if without:
        print('gateway: no browser was tried, without ' + without)
        return
    with machines(program) as (first, second):
        installed(checks, first, second)
        second.sure(KEPT, json.dumps(POLICY))
        looked(checks, second)
        first.sure('office-authority person anna edi && cd /etc/office-authority/people && '
                   'openssl pkcs12 -export -in anna.crt -inkey anna.key -passout pass:%s -out anna.p12' % PASSWORD)
        first.brings('/etc/office-authority/people/anna.p12', second, '/root/anna.p12')
        second.sure('rm -r /root/.pki')
        second.sure(KEPT + TRUSTED, json.dumps(POLICY))
        posted(checks, first, second)
