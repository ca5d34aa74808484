"""A person's browser that has the page of another site open: whatever that page posts to the office is refused, and it can
neither show a page of the office nor reach it by a name of its own. The office's own pages do what they do."""
import html
import json
import tempfile
import threading
from http.server import BaseHTTPRequestHandler, ThreadingHTTPServer

from browser_trials.chromium import Chromium, browser_here
from model.asking import account, get, post

from .served import Served, gate_in

EVIL = 'evil.example'       # which its owner lets lead to this machine
NAME = 'office.example'     # of the server
# an interchange whose text has `=`, as a form parts a name from its value
TEXT = gate_in(1).replace("UNT+4", "FTX+AAI+++A=B'UNT+5")
LOOKS = ['/partners', '/texts/0', '/yard', '/metrics', '/replies/HAULA/1']
ADDING = '/partners/EVIL/gate'

FORM = "<form method=post action='%s' %s>%s<button>Win</button></form>"
FRAME = "<iframe src='%s'></iframe>"
LINK = "<a href='%s'>here</a>"
# what a script of another site may send without a form
SENT = {
    'fetch': "fetch('%s', {method: 'POST', mode: 'no-cors', body: %s}).then(answer => answer.type)",
    'fetch with cookies': "fetch('%s', {method: 'POST', mode: 'no-cors', credentials: 'include', body: %s}).then(answer => answer.type)",
    'a beacon': "navigator.sendBeacon('%s', %s) ? new Promise(done => setTimeout(done, 500, 'opaque')) : 'not sent'"}


class OtherSite:
    """A site at another port of this machine, which gives one page at each of its addresses, until it is left."""

    def __init__(self):
        site = self

        class Handler(BaseHTTPRequestHandler):
            """Gives the page."""

            def do_GET(self):
                """Whatever is asked for."""
                body = ('<!doctype html><title>x</title>' + site.page).encode()
                self.send_response(200)
                self.send_header('Content-Type', 'text/html; charset=utf-8')
                self.send_header('Content-Length', str(len(body)))
                self.end_headers()
                self.wfile.write(body)

            def log_message(self, *_words):
                """Nothing is said of it."""

        self.page, self.server = '', ThreadingHTTPServer(('127.0.0.1', 0), Handler)
        self.port = self.server.server_address[1]
        self.thread = threading.Thread(target=self.server.serve_forever)

    def __enter__(self):
        self.thread.start()
        return self

    def __exit__(self, *_fault):
        self.server.shutdown()
        self.thread.join()
        self.server.server_close()


class Person:
    """A browser beside the office and another site."""

    def __init__(self, checks, server, site, browser):
        self.checks, self.server, self.site, self.browser = checks, server, site, browser

    def opens(self, host, page):
        """Opens that page of the other site, by a name."""
        self.site.page = page
        self.browser.gone(lambda: self.browser.call('Page.navigate', url='http://%s:%d/' % (host, self.site.port)))

    def posts(self, name, host, form):
        """Clicks on the button of a form there: the answer names the fault, and nothing is done."""
        self.opens(host, form)
        came = self.browser.moved(lambda: self.browser.click('document.querySelector("button")'))
        wanted = 403, '{"answer":"refused","fault":"Origin"}'
        self.checks.expect('%s, from %s' % (name, host), wanted, (came.status, came.text))
        self.same(name)

    def same(self, name):
        """The office holds what it should."""
        for path in LOOKS:
            self.server.same(self.checks, '%s: then %s' % (name, path), get(path))


def fields_of(text):
    """The field of a form of `text/plain` whose body is the text and a line's end."""
    name, _sign, value = text.partition('=')
    return "<input type=hidden name='%s' value='%s'>" % (html.escape(name, quote=True), html.escape(value, quote=True))


def forms(person):
    """An account, and a whole interchange as `text/plain`, by the ways of all and of its sender."""
    for host in ('127.0.0.1', EVIL):
        person.posts('an account', host, FORM % (person.server.url(ADDING), '', ''))
        for path in ('/interchanges', '/partners/HAULA/interchanges', '/explain'):
            form = FORM % (person.server.url(path), 'enctype=text/plain', fields_of(TEXT))
            person.posts('a CODECO to ' + path, host, form)


def scripts(person):
    """A script of another site sends what it likes; it can't read the answer, and nothing is done."""
    for host in ('127.0.0.1', EVIL):
        person.opens(host, '')
        for name, script in SENT.items():
            for path, body in ((ADDING, ''), ('/interchanges', TEXT)):
                came = person.browser.value(script % (person.server.url(path), json.dumps(body)))
                person.checks.expect('%s of %s from %s was sent' % (name, path, host), 'opaque', came)
        person.same('scripts of ' + host)


def frames(person):
    """No page of another site shows one of the office; a link from there is followed."""
    for path in ('/', '/pages/yard', '/picture'):
        person.browser.said.clear()
        person.opens(EVIL, FRAME % person.server.url(path))
        person.checks.expect('%s in a frame' % path, True, any('frame-ancestors' in said for said in person.browser.said))
    person.opens(EVIL, LINK % person.server.url('/pages/yard'))
    came = person.browser.moved(lambda: person.browser.click('document.links[0]'))
    person.checks.expect('a link of another site', (200, True), (came.status, '<h1>Yard</h1>' in came.text))


def names(person):
    """The name of another site leads to this machine, as its owner may have it: nothing is answered by it. The server's own name
    is one like `localhost`."""
    wanted = 403, '{"answer":"refused","fault":"Host"}'
    for path in ('/', '/pages/yard', '/yard', '/nothing'):
        came = person.browser.open('http://%s:%d%s' % (EVIL, person.server.port, path))
        person.checks.expect('%s by the name of another site' % path, wanted, (came.status, came.text))
    came = person.browser.open('http://%s:%d/pages/partners' % (NAME, person.server.port))
    person.checks.expect("by the server's own name", (200, True), (came.status, 'HAULA' in came.text))


def own(person):
    """The office's own form finds a container. What a page of the office posts is done, if it says from where it comes: a page that
    is to say nothing of itself to others (no-referrer) sends `Origin: null`, and the office's pages post nothing."""
    browser, server = person.browser, person.server
    server.same(person.checks, 'what the form of another site sent, by a program', post(TEXT + '\r\n'))
    for name, host in (('HAULC', '127.0.0.1'), ('HAULD', NAME)):
        browser.open('http://%s:%d/' % (host, server.port))
        browser.value('document.querySelector("#container").focus()')
        browser.write('abcu 000001-7')
        came = browser.moved(lambda: browser.click('document.querySelector("button")'))
        owed = server.owed(get('/pages/containers/ABCU0000017')).partition('\r\n\r\n')[2]
        person.checks.expect('the form of ' + host, (200, owed), (came.status, came.text))
        owed = 403, '{"answer":"refused","fault":"Origin"}'
        person.checks.expect('a form of a page of %s that says nothing' % host, owed, added(browser, name, ''))
        owed = 200, server.owed(account(name, 'gate')).partition('\r\n\r\n')[2]
        browser.open('http://%s:%d/' % (host, server.port))
        person.checks.expect('a form of a page of ' + host, owed, added(browser, name, "<meta name='referrer' content='origin'>"))
    person.same('its own forms')


def added(browser, name, said):
    """What answers a form that is put into the page, after what the page says of itself."""
    browser.value('document.head.innerHTML = ' + json.dumps(said))
    browser.value('document.body.innerHTML = ' + json.dumps(FORM % ('/partners/%s/gate' % name, '', '')))
    came = browser.moved(lambda: browser.click('document.querySelector("button")'))
    return came.status, came.text


def other_sites(checks, path):
    """All of it, over one store; passed over where there is no browser."""
    if not browser_here():
        checks.expect('there is no Chromium', True, True)
        return
    with Served(path, host=NAME) as server, OtherSite() as site, tempfile.TemporaryDirectory(prefix='clients-') as folder:
        with Chromium(browser_here(), folder, names=[EVIL, NAME]) as browser:
            person = Person(checks, server, site, browser)
            for part in (forms, scripts, frames, names, own):
                part(person)


CHECKS = [other_sites]
