"""Each case of a partner before the gateway: whom a text may come from, paths, methods, bodies, clients that are slow."""
import json
import threading
import time

from hostile.served import gate_in
from model.setup import DEMO
from model.syntax import LONGEST_TEXT

from .asking import Asking, chunked, delivery, head_of, parted
from .installed import AHEAD, HAS_IPV6, HOST, Installed
from .judged import BAD_REQUEST, METHOD, NONE, ORIGIN, OTHER_SENDER, TOO_LONG, Judge, bare

UNA = "UNA:+.? '"
SWAPPED = "UNA+:.? '"       # which makes a colon part elements, and a plus sign components
CODES = ['HAULA', 'HAULB', 'LINEA', 'STRANGER']
ASKED = 60                  # questions of one partner while others are slow
SLOW = 5                    # clients that send a byte each tenth of a second
MOST_WAIT = 15              # seconds that a question may take meanwhile, by a program with checks in it too


def swapped(text):
    """The same text with the separators of elements and of components in each other's place."""
    return SWAPPED + text.translate(str.maketrans('+:', ':+'))


def padded(text, length):
    """A text of so many bytes, by a segment that nobody reads."""
    front, back = text.replace("UNT+4", "UNT+5").split("UNT+5")
    free = length - len(front) - len(back) - len("FTX+'UNT+5")
    return "%sFTX+%s'UNT+5%s" % (front, 'A' * free, back)


def prepared(installed):
    """Certificates of all whom the cases speak of."""
    for code in CODES:
        installed.authority.run('partner', code)
    return Asking(installed)


# ---- whom a text may come from

def own(clients, judge):
    """A partner's own interchanges are what they are without a gateway, whatever form their header has."""
    texts = [
        ('itself', 'HAULA', gate_in(1)), ('the same again', 'HAULA', gate_in(1)),
        ('other bytes under its number', 'HAULA', gate_in(1, serial=9)), ('early', 'HAULA', gate_in(3)),
        ('early, the same again', 'HAULA', gate_in(3)), ('what was missing', 'HAULA', gate_in(2)),
        ('another recipient', 'HAULB', gate_in(1, 'HAULB', 11).replace('TERM1', 'TERM2')),
        ('a qualifier', 'HAULB', gate_in(1, 'HAULB:ZZ', 12)),
        ('line breaks before it', 'HAULB', '\r\n\n' + gate_in(2, 'HAULB', 13)),
        ('UNA', 'HAULB', UNA + gate_in(3, 'HAULB', 14)),
        ('UNA that swaps separators', 'HAULB', swapped(gate_in(4, 'HAULB', 15))),
        ('a release in its code', 'HAULB', gate_in(5, '?HAULB', 16)),
        ('a space before it', 'HAULB', ' ' + gate_in(6, 'HAULB', 17)),
        ('a byte order mark before it', 'HAULB', '\xef\xbb\xbf' + gate_in(6, 'HAULB', 17)),
        ('a NUL before it', 'HAULB', '\0' + gate_in(6, 'HAULB', 17)), ('nothing', 'HAULB', ''),
        ('a foreign interchange after its own', 'HAULB', gate_in(6, 'HAULB', 17) + gate_in(4)),
        ('a foreign header within', 'HAULB', gate_in(6, 'HAULB', 17).replace(
            "UNT+4", "UNB+UNOA:3+HAULA+TERM1+240305:0910+2'UNT+5")),
        ('a count of segments that is wrong', 'HAULB', gate_in(6, 'HAULB', 17).replace('UNT+4', 'UNT+9')),
        ('no account', 'STRANGER', gate_in(1, 'STRANGER', 18)),
        ('a kind of partner that may not order this', 'LINEA', gate_in(1, 'LINEA', 19))]
    for name, code, text in texts:
        judge.same('own: ' + name, judge.delivered(text), clients.post(code, text))
    for code in CODES[:3]:
        judge.same('standing of ' + code, judge.standing(code), clients.get(code, '/standing'))
    judge.same('standing of no account', NONE, clients.get('STRANGER', '/standing'))


def foreign(clients, judge):
    """What names another sender is refused by name, and its number stays free."""
    text = gate_in(4, 'HAULA', 20)
    texts = [
        ('its code', text), ('with a qualifier', gate_in(4, 'HAULA:ZZ', 20)), ('after line breaks', '\r\n' + text),
        ('UNA', UNA + text), ('UNA that swaps separators', swapped(text)), ('a release', gate_in(4, '?HAULA', 20)),
        ('a longer code', gate_in(6, 'HAULBX', 20)), ('a shorter code', gate_in(6, 'HAUL', 20)),
        ('small letters', gate_in(6, 'haulb', 20)), ('a code of nobody', gate_in(1, 'NOBODY', 20)),
        ('its code, and the own one as recipient', text.replace('TERM1', 'HAULB')),
        ('of a mebibyte', padded(text, LONGEST_TEXT)), ('a used number', gate_in(1)), ('an early number', gate_in(9))]
    for name, sent in texts:
        judge.same('foreign: ' + name, OTHER_SENDER, clients.post('HAULB', sent))
    judge.same('the number is free', judge.delivered(text), clients.post('HAULA', text))


def ahead(clients, judge):
    """How far ahead of its next number a partner may send: too early ones keep nothing, and their numbers stay free."""
    following = int(judge.standing('LINEA')[1].split(' NEXT ')[1].split()[0])
    too_early = 429, '{"answer":"refused","fault":"TooEarly","next":%d}' % following
    for number in (following + AHEAD + 1, 999999):
        came = clients.post('LINEA', gate_in(number, 'LINEA', 30))
        judge.same('number %d' % number, too_early, came)
        judge.checks.expect('it says when to try again', True, 'retry-after: ' in came.head.lower())
    text = gate_in(following + AHEAD, 'LINEA', 30)
    judge.same('the last that may come', judge.delivered(text), clients.post('LINEA', text))


# ---- paths and methods

def paths(clients, judge):
    """A partner reads its own answers, and can name no other's."""
    for number in ('1', '3', '77'):
        for kind, what in (('reply', 'replies'), ('contrl', 'contrls'), ('ticket', 'tickets')):
            wanted = judge.report(kind, 'HAULA/' + number)
            judge.same('GET /%s/%s' % (what, number), wanted, clients.get('HAULA', '/%s/%s' % (what, number)))
    others = [
        '/replies/HAULA/1', '/replies/%48AULA/1', '/replies/1%2f..%2fHAULA%2f1', '/replies/../HAULA/1',
        '/replies/1/../../yard', '//replies/1', '/replies/1?x=1', '/replies/1/', '/replies/x', '/replies/',
        '/replies/' + 15 * '1', '/yard', '/yard.csv', '/partners', '/partners/HAULA', '/containers/ABCU0000017',
        '/visits/ABCU0000017', '/picture', '/blocks', '/lists/9123456/V12/load', '/work/9123456/V12/load', '/health',
        '/metrics', '/texts/0', '/standing/HAULA', '/standing?x', '/interchanges/', '/./standing', '/.', '/']
    for path in others:
        judge.same('GET %s' % path[:40], NONE, clients.get('HAULB', path))
    for path in ('/partners/EVIL/gate', '/partners/HAULA/interchanges', '/interchanges/../partners/EVIL/gate',
                 '/interchanges/%2e%2e/partners/EVIL/gate', '/interchanges?x'):
        judge.same('POST ' + path, NONE, clients.post('HAULB', gate_in(6, 'HAULB', 20), path))
    for path, method in (('/interchanges', 'GET'), ('/standing', 'POST'), ('/replies/1', 'DELETE')):
        judge.same('%s %s' % (method, path), METHOD, clients.get('HAULA', path, method=method))
    for method in ('PUT', 'PATCH', 'OPTIONS', 'BREW'):
        judge.same(method + ' /interchanges', METHOD, clients.get('HAULA', '/interchanges', method=method))
    judge.same('small letters for a method', BAD_REQUEST, clients.get('HAULA', '/interchanges', method='post'))
    judge.same('a target of 9,000 bytes', BAD_REQUEST, clients.get('HAULA', '/replies/' + 9000 * '1'))
    judge.same('the path of an answer', NONE, clients.get('HAULA', '/office-bad-request'))


# ---- bodies

def bodies(clients, judge):
    """Bodies come whole or not at all, with their length or in pieces, and no field of the client's reaches the office."""
    number = iter(range(5, 30))

    def text(length=None):
        """HAULA's next."""
        place = next(number)
        return gate_in(place) if length is None else padded(gate_in(place), length)

    sent = text()
    judge.same('in pieces of 7 bytes', judge.delivered(sent), clients.ask('HAULA', chunked(sent, 7)))
    sent = text(LONGEST_TEXT)
    judge.same('of a mebibyte', judge.delivered(sent), clients.post('HAULA', sent))
    sent = text(LONGEST_TEXT)
    judge.same('of a mebibyte, in pieces', judge.delivered(sent), clients.ask('HAULA', chunked(sent, 7000)))
    sent = text()
    long = padded(sent, LONGEST_TEXT + 1)
    judge.same('a byte more', TOO_LONG, clients.post('HAULA', long))
    judge.same('a byte more, in pieces', TOO_LONG, clients.ask('HAULA', chunked(long, 60000)))
    head = head_of('POST', '/interchanges', 'Content-Length: 5', 'Content-Length: %d' % len(sent))
    judge.same('two lengths', BAD_REQUEST, clients.ask('HAULA', head + sent))
    judge.same('a length and pieces', BAD_REQUEST, clients.ask(
        'HAULA', chunked(sent, 50).replace('Host:', 'Content-Length: 5\r\nHost:')))
    with clients.connect('HAULA') as connection:
        connection.sendall(delivery(sent)[:-20].encode('latin-1'))
    judge.rows('a body shorter than it says')
    fields = ['X-%d: y' % place for place in range(70)] + ['X-Partner: HAULB', 'X: ' + 7000 * 'y']
    request = head_of('POST', '/interchanges', *fields, 'Content-Length: %d' % len(sent)) + sent
    judge.same('more fields than the office takes', judge.delivered(sent), clients.ask('HAULA', request))


# ---- where it comes from

def sites(clients, judge):
    """A page of another site can't post with a partner's certificate; IPv6 is a way in like any other."""
    text = gate_in(6, 'HAULB', 40)
    for fields in (
            ['Origin: https://evil.example'], ['Origin: null'], ['Sec-Fetch-Site: cross-site'], ['Sec-Fetch-Site: same-site'],
            ['Sec-Fetch-Site: same-origin', 'Origin: https://evil.example']):
        for path in ('/interchanges', '/explain', '/yard'):
            judge.same('POST %s %s' % (path, fields), ORIGIN, clients.ask('HAULB', delivery(text, path, *fields)))
    address = '::1' if HAS_IPV6 else '127.0.0.1'
    request = delivery(text, '/interchanges', 'Sec-Fetch-Site: same-origin', 'Origin: https://' + HOST)
    came = clients.ask('HAULB', request, address=address)
    judge.same('its own page, by IPv6', judge.delivered(text), came)


def explained(clients, judge):
    """What is wrong with a text, as the command says it, and nothing of it is kept."""
    judge.same('GET /explain', METHOD, clients.get('HAULB', '/explain'))
    judge.same('/explain of too much', TOO_LONG, clients.post('HAULB', 1048577 * ' ', '/explain'))
    for text in (gate_in(9, 'HAULB', 40), gate_in(9, 'HAULB', 40).replace('UNT+4', 'UNT+9'), gate_in(9, 'HAULB', 40)[:-9]):
        judge.same('/explain %s' % text[-20:], judge.explained(text), clients.post('HAULB', text, '/explain'))
    judge.same('/explain in pieces', judge.explained(text), clients.ask('HAULB', chunked(text, 7, '/explain')))


def hosts(clients, judge):
    """nginx names the office by a name of this machine, whatever the client says; past it the office takes no other name."""
    for host in ('evil.example', '127.0.0.1', HOST + ':443'):
        came = clients.ask('HAULB', head_of('GET', '/standing', host=host))
        judge.same('Host: ' + host, judge.standing('HAULB'), came)
    wanted = 403, '{"answer":"refused","fault":"Host"}'
    judge.checks.expect('past nginx, by another name', wanted, clients.inside('/health', host='evil.example')[:2])


def two_on_a_connection(clients, judge):
    """Each of two requests on a connection is judged by itself."""
    first, sent = gate_in(7, 'HAULB', 41), gate_in(9, 'HAULA', 42)
    request = delivery(first).replace('Connection: close\r\n', '') + delivery(sent)
    came = clients.raw('HAULB', request).split('HTTP/1.1 ')
    wanted = judge.delivered(first), OTHER_SENDER
    got = [parted('HTTP/1.1 ' + one) for one in came[1:]]
    judge.checks.expect('two on a connection, the second foreign', list(wanted), [(one.status, bare(one.body)) for one in got])
    judge.rows('two on a connection')


def by_curl(clients, judge):
    """What a partner's program may be: curl, with and without a length, with Expect."""
    number = iter(range(8, 30))

    def words(text, *more):
        """Words for curl that deliver a text."""
        path = clients.installed.file('sent.edi')
        with open(path, 'w', encoding='latin-1', newline='') as file:
            file.write(text)
        return [*more, '--data-binary', '@' + path]

    for name, more in (
            ('', []), (', in pieces', ['-H', 'Transfer-Encoding: chunked']), (', Expect', ['-H', 'Expect: 100-continue'])):
        text = gate_in(next(number), 'HAULB', 50 + len(name))
        came = clients.curl('HAULB', '/interchanges', *words(text, *more))
        if came.status == 100:
            came = parted(came.body)
        judge.same('curl' + name, judge.delivered(text), came)
    judge.same('curl, foreign', OTHER_SENDER, clients.curl('HAULB', '/interchanges', *words(gate_in(9, 'HAULA', 60))))
    judge.same('curl, its reply', judge.report('reply', 'HAULB/8'), clients.curl('HAULB', '/replies/8'))
    judge.same('curl, a path with dots', NONE, clients.curl('HAULB', '/replies/../yard'))


# ---- clients that are slow

def slow(clients, judge):
    """Clients that send a byte each tenth of a second, or nothing after a while, hold nobody up."""
    came = []

    def trickle(body, pause):
        """One of them."""
        with clients.connect('HAULB') as connection:
            connection.sendall(head_of('POST', '/interchanges', 'Content-Length: %d' % len(body)).encode('latin-1'))
            try:
                for byte in body.encode('latin-1')[:100]:
                    connection.sendall(bytes([byte]))
                    time.sleep(pause)
                connection.settimeout(30)
                came.append(connection.recv(65536))
            except OSError as fault:
                came.append(repr(fault).encode())

    body = gate_in(11, 'HAULB', 70) + 1000 * ' '
    threads = [threading.Thread(target=trickle, args=[body, 0.1], daemon=True) for _client in range(SLOW)]
    for thread in threads:
        thread.start()
    longest = 0
    for _question in range(ASKED):
        began = time.monotonic()
        judge.checks.expect('meanwhile', 200, clients.get('HAULA', '/replies/1').status)
        longest = max(longest, time.monotonic() - began)
        time.sleep(0.1)
    judge.checks.within('a question of another partner, while %d send slowly' % SLOW, MOST_WAIT, longest)
    for thread in threads:
        thread.join()
    judge.checks.expect('half a body is closed, or answered by nobody', True, all(b'"taken"' not in one for one in came))
    judge.rows('after slow ones')


# ---- what was refused

def refusals(clients, judge):
    """The gateway writes down the bytes of what was refused, one JSON object a line: 400, 403 and 409, and no other."""
    with open(clients.installed.file('logs/refused.jsonl'), encoding='latin-1') as file:
        lines = [json.loads(line) for line in file]
    judge.checks.expect('each line has a status', {400, 403, 409}, {line['status'] for line in lines})
    for status, by, text in (
            (403, 'HAULB', gate_in(4, 'HAULA', 20)), (409, 'HAULA', gate_in(1, serial=9)),
            (400, 'HAULB', '\0' + gate_in(6, 'HAULB', 17)), (400, 'HAULB', '\xef\xbb\xbf' + gate_in(6, 'HAULB', 17)),
            (403, 'HAULB', padded(gate_in(4, 'HAULA', 20), LONGEST_TEXT))):
        found = [line for line in lines if (line['status'], line['by'], line['text']) == (status, by, text)]
        judge.checks.expect('written down once: %d of %s, %r' % (status, by, text[:20]), 1, len(found))


CASES = [own, foreign, ahead, paths, bodies, sites, explained, hosts, two_on_a_connection, by_curl, slow, refusals]


def try_all(checks, program):
    """All cases, one after the other, over one store."""
    with Installed(program, DEMO) as installed:
        clients, judge = prepared(installed), Judge(installed, checks)
        for case in CASES:
            case(clients, judge)
