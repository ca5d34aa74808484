"""What curl and plain sockets ask for, and the bytes that they are owed: each route, lengths, forms of requests."""
import subprocess

from model.asking import account, get, post
from model.syntax import LONGEST_TEXT

from .served import Served, gate_in, listening, received

MOST_STALL = 5              # seconds that an answer may take, on a busy machine too
CURL_WAITS = 0.2            # seconds that curl is told to wait for a 100
WAITS_LONG = 30             # the same where an answer has to come before they are over

LOAD_LIST = (
    "UNB+UNOA:3+LINEA+TERM1+240305:0910+1'UNH+1+COPRAR:D:95B:UN'BGM+45+L1+9'TDT+20+V12++++++91/23'"
    "EQD+CN+ABCU0000017+22G1:102:5+++5'LOC+11+NLRTM'UNT+6+1'UNZ+1+1'")
PATHS = [
    '/yard', '/yard?a=b', '/visits/ABCU0000017', '/visits/%41BCU0000017', '/visits/ABCU0000022', '/lists/91%2F23/V12/load',
    '/lists/91%2f23/%5612/load', '/lists/91/23/V12/load', '/lists/91%2F23/V12/discharge', '/tickets/HAULA/1',
    '/tickets/HAULA/00001', '/tickets/HAULA/2', '/replies/HAULA/1', '/replies/LINEA/1', '/replies/HAULA/3', '/replies/HAULA/9',
    '/replies/HAULA%2F1', '/interchanges', '/', '/nothing', '/yard/', '/visits/%zz', '/yard.csv', '/picture', '/blocks', '/partners',
    '/containers/ABCU0000017', '/containers/%41BCU0000017', '/containers/ABCU0000022', '/work/91%2F23/V12/load',
    '/work/91/23/V12/load', '/work/91%2F23/V12/discharge', '/contrls/HAULA/1', '/contrls/HAULA/3', '/contrls/HAULA/9', '/picture/',
    '/partners/HAULA', '/partners/%48AULA', '/partners/HAULX', '/partners/', '/partners/%zz', '/partners/HAULA/interchanges',
    '/health', '/health?a=b', '/health/', '/metrics', '/metrics/HAULA', '/json/yard', '/json/yard?a=b', '/json/yard.csv',
    '/json/containers/%41BCU0000017', '/json/containers/ABCU0000022', '/json/work/91%2F23/V12/load', '/json/replies/HAULA/3',
    '/json/health', '/json/picture', '/json/interchanges', '/json/', '/json', '/jsonyard', '/csv/yard', '/csv/lists/91%2F23/V12/load',
    '/csv/lists/91%2F23/V12/discharge', '/csv/partners', '/csv/partners/HAULA', '/csv/tickets/HAULA/1', '/csv/json/yard', '/pages/calls',
    '/pages/yard/A', '/pages/yard/a', '/pages/yard/AB', '/pages/yard/%41', '/pages/yard.csv', '/pages/json/yard', '/pages/',
    '/pages/containers/ABCU0000022', '/pages/work/91%2F23/V12/load', '/pages/find?container=0017', '/pages/find?container=91/23',
    '/pages/find?container=HAULA&x', '/pages/find?container=%', '/archives/1/json/yard']
# a path of HAULA and what it may bring: its own, another's, one too early, one that names nobody, and paths that name nobody
OWN_TEXTS = [
    ('HAULA', gate_in(1)), ('HAULA', gate_in(1)), ('%48AULA', gate_in(4)), ('HAULA', gate_in(5)), ('HAULA', gate_in(2)),
    ('HAULA', gate_in(6)), ('HAULA', gate_in(7)), ('HAULB', gate_in(3)), ('HAULA', gate_in(3).replace('+HAULA+', '+haula+')),
    ('HAULA', 'UNA:+.? \'\r\n' + gate_in(3)), ('HAULA', 'AAAA'), ('HAULA', ''), ('HAULX', gate_in(9, 'HAULX')),
    ('HAULX', gate_in(1)), ('%zz', gate_in(8)), ('%00', gate_in(8)), (36 * 'H', gate_in(8)), ('', gate_in(8))]
ODD_ACCOUNTS = [
    '/partners/%48AULF/%67ate', '/partners/%zz/gate', '/partners/HAULG/%zz', '/partners/%00/gate', '/partners/%2F/gate',
    '/partners/HAUL%2fG/gate', '/partners/' + 35 * 'H' + '/yard', '/partners/' + 36 * 'H' + '/yard', '/partners/HAULG',
    '/partners/HAULG/', '/partners//gate', '/partners/HAULG/gate/1', '/partners/HAULC/gate?x=1']


def routes(checks, path):
    """Each route by name, what is found and what is not, with other methods too."""
    with Served(path) as server:
        for text in (LOAD_LIST, gate_in(1), gate_in(1), gate_in(1).replace('G1+9', 'G2+9'), gate_in(3), 'AAAA', ''):
            came, _seconds = server.curl('/interchanges', '--data-binary', server.file(text))
            checks.expect('curl --data-binary @file %s' % text[:40], server.owed(post(text)), came)
        for asked in PATHS:
            came, _seconds = server.curl(asked, '--path-as-is')
            checks.expect('curl ' + asked, server.owed(get(asked)), came)
            checks.expect('curl --http1.0 ' + asked, server.owed(get(asked)), server.curl(asked, '--path-as-is', '-0')[0])
        for method in ('PUT', 'DELETE', 'PATCH', 'OPTIONS', 'POST', 'GET'):
            for asked in ('/yard', '/interchanges', '/nothing'):
                came, _seconds = server.curl(asked, '-X', method)
                checks.expect('curl -X %s %s' % (method, asked), server.owed(get(asked).replace('GET', method)), came)
        target = server.url('/yard')
        came, _seconds = server.curl('/x', '--request-target', target)
        checks.expect('curl, absolute form', server.owed(get(target)), came)
        came, _seconds = server.curl('/yard', '--proxy', server.url(''))
        checks.expect('curl through the office as a proxy', server.owed(get(target)), came)
        chunked = ['-H', 'Transfer-Encoding: chunked', '--data-binary', server.file(gate_in(2))]
        owed = server.owed('POST /interchanges HTTP/1.1\r\nTransfer-Encoding: chunked\r\n\r\n')
        checks.expect('curl, chunked', owed, server.curl('/interchanges', *chunked)[0])


def accounts(checks, path):
    """Accounts by curl: with no body, with one that nobody looks at, with no length, and by parts that need their escapes.
    What a sender sent before stays refused, and what it sends after that is taken."""
    with Served(path) as server:
        text = gate_in(1, 'HAULC')
        server.same(checks, 'before its account', post(text))
        for kind in ('gate', 'gate', 'line', 'port', 'GATE'):
            came, _seconds = server.curl('/partners/HAULC/' + kind, '--data', '')
            checks.expect("curl --data '' as " + kind, server.owed(account('HAULC', kind)), came)
        came, _seconds = server.curl('/partners/HAULD/gate', '--data-binary', server.file(gate_in(1)))
        checks.expect('curl, an account with a body', server.owed(account('HAULD', 'gate')), came)
        server.same(checks, 'the body was not delivered', get('/replies/HAULA/1'))
        came, _seconds = server.curl('/partners/HAULE/gate', '-X', 'POST')
        checks.expect('curl -X POST', server.owed('POST /partners/HAULE/gate HTTP/1.1\r\n\r\n'), came)
        chunked = ['-H', 'Transfer-Encoding: chunked', '--data', '']
        owed = server.owed('POST /partners/HAULE/gate HTTP/1.1\r\nTransfer-Encoding: chunked\r\n\r\n')
        checks.expect('curl, an account, chunked', owed, server.curl('/partners/HAULE/gate', *chunked)[0])
        for asked in ODD_ACCOUNTS:
            came, _seconds = server.curl(asked, '--path-as-is', '--data', '')
            checks.expect('curl ' + asked, server.owed('POST %s HTTP/1.1\r\nContent-Length: 0\r\n\r\n' % asked), came)
        came, _seconds = server.curl('/partners/HAULC/gate')
        checks.expect('curl, GET of an account', server.owed(get('/partners/HAULC/gate')), came)
        server.same(checks, 'behind its account', post(text))


def own_paths(checks, path):
    """Interchanges by the paths of partners, with a bound: only the partner's own are delivered, and none too far ahead."""
    with Served(path, ahead=2) as server:
        for code, text in OWN_TEXTS:
            asked = '/partners/%s/interchanges' % code
            came, _seconds = server.curl(asked, '--path-as-is', '--data-binary', server.file(text))
            checks.expect('curl %s, %s' % (asked, text[:50]), server.owed(post(text).replace('/interchanges', asked, 1)), came)
            for look in ('/partners/HAULA', '/partners/HAULX', '/metrics'):
                server.same(checks, 'then ' + look, get(look))
        server.same(checks, 'by the way of all, no bound', post(gate_in(50)))
        server.same(checks, 'a path of its own without a length', 'POST /partners/HAULA/interchanges HTTP/1.1\r\n\r\n')


def forms(checks, path):
    """Requests as sockets may write them: ends of lines, versions, absolute forms, what stands after them."""
    with Served(path) as server:
        for name, request in (
                ('LF line ends', post(gate_in(1)).replace('\r\n', '\n')),
                ('HTTP/1.0', post(gate_in(2)).replace('1.1', '1.0')),
                ('empty lines in front', '\r\n\n' + get('/yard')),
                ('absolute form', get('http://127.0.0.1/yard')),
                ('no slash', get('yard')),
                ('HTTP/2', 'PRI * HTTP/2.0\r\n\r\nSM\r\n\r\n'),
                ('TLS', '\x16\x03\x01\x02\x00\x01\x00\x01\xfc\x03\x03'),
                ('%2F in a part', get('/visits/A%2FB'))):
            server.same(checks, name, request)
        # a second request after the first has no effect
        server.same(checks, 'a pipelined request', post(gate_in(3)) + post(gate_in(4)))
        server.same(checks, 'the second of them was not delivered', get('/replies/HAULA/4'))
        server.same(checks, 'a pipelined look', get('/yard') + get('/yard'))


def piece_by_piece(checks, path):
    """A request a byte at a time gives the same answer."""
    with Served(path) as server, server.connect() as connection:
        request = post(gate_in(1))
        connection.setsockopt(6, 1, 1)
        for byte in request.encode('latin-1'):
            connection.sendall(bytes([byte]))
        checks.expect('a byte at a time', server.owed(request), received(connection))


def padded(length):
    """A gate-in of so many bytes, by a segment that nobody reads."""
    text = gate_in(1).replace("'UNT+4", "''UNT+5")
    return text.replace("''", "'FTX+%s'" % ('A' * (length - len(text) - 4)))


def of_a_mebibyte(checks, path):
    """The longest interchange is taken, and one byte more is not; each without a stall."""
    with Served(path) as server:
        for length in (LONGEST_TEXT, LONGEST_TEXT + 1):
            text = padded(length)
            checks.expect('bytes of the file', length, len(text))
            came, seconds = server.curl('/interchanges', '--data-binary', server.file(text))
            checks.expect('curl, %d bytes' % length, server.owed(post(text)), came)
            checks.within('curl, %d bytes' % length, MOST_STALL, seconds)
        checks.expect('it was taken', '{"answer":"repeat"', server.ask(get('/replies/HAULA/1')).split('\r\n\r\n')[1][:18])


def expecting(checks, path):
    """`Expect: 100-continue`: the office sends no 100. Curl waits for one as long as it is told to, and then sends the body;
    after that wait the answer comes without a stall."""
    with Served(path) as server:
        head = ['-H', 'Expect: 100-continue', '--data-binary', server.file(padded(LONGEST_TEXT - 1))]
        came, seconds = server.curl('/interchanges', '--expect100-timeout', str(CURL_WAITS), *head)
        checks.expect('curl, Expect', server.owed(post(padded(LONGEST_TEXT - 1))), came)
        checks.within('curl, Expect, besides its own wait of %g s' % CURL_WAITS, MOST_STALL, seconds - CURL_WAITS)
        too_long = ['-H', 'Expect: 100-continue', '--data-binary', server.file(padded(LONGEST_TEXT + 1))]
        came, seconds = server.curl('/interchanges', '--expect100-timeout', str(WAITS_LONG), *too_long)
        checks.expect('curl, Expect, too long', server.owed(post(padded(LONGEST_TEXT + 1))), came)
        checks.within('curl, Expect, too long: it is told at once', MOST_STALL, seconds)


def bound(checks, path):
    """Nothing but this machine's address is listened at, and a port that is taken is told."""
    with Served(path) as server:
        checks.expect('what is bound', ['tcp 0100007F:%04X' % server.port], listening(server.process.pid))
        with Served(path) as other:
            other.stop()
            told = other.program.run('serve', other.program.store, str(server.port), '1')
        checks.expect('a port that is taken', ('', 'cannot listen\n', 3), told)


def served_so_many(checks, path):
    """A server ends after so many connections, also those that ask for nothing."""
    with Served(path, count=3) as server:
        server.connect().close()
        server.same(checks, 'the second of three', get('/yard'))
        server.same(checks, 'the third of three', post(gate_in(1)))
        checks.expect('served 3', ('served 3\n', 0), server.wait())
        done = subprocess.run(['curl', '-sS', server.url('/yard')], capture_output=True, check=False)
        checks.expect('nothing listens behind it', 7, done.returncode)


CHECKS = [bound, served_so_many, routes, accounts, own_paths, forms, piece_by_piece, of_a_mebibyte, expecting]
