"""Random keys of reports, and random requests of HTTP: what comes in them, and how often.

They are made from a random generator, a day (of days.py) and what was delivered so far. Numbers before each value in a
table are its weight.
"""

ESCAPED = 0.1               # of the characters of a key: written as % and two digits
ODD_KEYS = [
    '', '/', '//', '%', '%4', '%4g', '%zz/1', 'HAULA', 'HAULA/', '/1', 'HAULA/1/2', 'HAULA/0', 'HAULA/+1', 'HAULA/1a',
    'HAULA/999999999', 'HAULA/000000000000001', 'HAULX/1', 'ABCU0000071', 'abcu0000017', 'ABCU9999990', '9123456/V12',
    '9123456/V12/', '9123456/V12/Load', '9123456/V12/move', '9123456/V99/load', '9123456/V12/load/', '%FF/%00/load',
    '%2F/1', '9123456%2FV12%2Fload']

KEYED = ['visits', 'container', 'list', 'work', 'ticket', 'reply', 'contrl', 'partner']
WHOLE = ['yard', 'yard', 'yardcsv', 'blocks', 'calls', 'calls', 'partners', 'partners', 'picture', 'health', 'metrics']

KINDS = [
    (12, 'delivery'), (6, 'own delivery'), (2, 'altered delivery'), (8, 'report'), (2, 'odd report'), (1, 'method'), (1, 'route'),
    (2, 'length'), (1, 'cut'), (6, 'altered head'), (2, 'large'), (2, 'account'), (1, 'odd account'), (6, 'page'),
    (1, 'odd page'), (2, 'find'), (2, 'texts'), (1, 'odd texts'), (2, 'archive'), (1, 'odd archive'), (3, 'explain'),
    (6, 'view'), (1, 'odd view')]
METHODS = ['GET', 'POST', 'PUT', 'HEAD', 'get', 'OPTIONS', 'DELETE', 'X', 'PATCH', 'CONNECT', "!#$%&'*+-.^_`|~"]
PATHS = [
    '/', '*', '/x', '/yard/', '//yard', '/Yard', 'yard', 'http://127.0.0.1/yard', '/yardcsv', '/yard.CSV', '/visits',
    '/visits/', '/containers', '/containers/', '/containers/A/B', '/blocks/', '/calls/', '/calls/9123456', '/partners/',
    '/partners/HAULA', '/Partners', '/picture/1', '/work/9123456/V12', '/contrls/HAULA', '/contrls/HAULA/1/',
    '/visits/A/B', '/lists/9123456/V12', '/lists//V12/load', '/tickets/HAULA/', '/replies/HAULA', '/replies/HAULA/1/',
    '/interchanges/', '/interchanges/1', '/yard#1', '/%79ard', '/interchange', '/visits/%zz', '/tickets/HAULA%2F1',
    '/lists/a/b/c/d', '/yard\xe9', '/visits/\xc3\xa9', '/visits/\xff', '/explain', '/explain/', '/Explain', '/pages/explain',
    '/archives/1/explain', '/partners/HAULA/explain']
PAGES = [
    '/pages', '/pages/', '/pages/yard.csv', '/pages/picture', '/pages/health', '/pages/metrics', '/pages/interchanges',
    '/pages/partners/HAULA/interchanges', '/pages/partners/HAULZ/gate', '/pages/find', '/pages/find/', '/pages/find/x',
    '/pages/x', '/pagesyard', '/pages/pages/yard', '/pages//yard', '/Pages/yard', '/pages/Yard', '/%70ages/yard',
    '/pages/f%69nd', '/pages/%79ard', '//pages/yard', '/pages/visits', '/pages/visits/', '/pages/containers/A/B',
    '/page/yard', '/pages/work/9123456/V12', '/pages/contrls/HAULA', '/pages/calls/', '//', '/pages/yard/A', '/pages/yard/Z',
    '/pages/yard/a', '/pages/yard/AB', '/pages/yard/', '/pages/yard/%41', '/yard/A', '/json/yard/A', '/csv/yard/A', '/archives/1/yard/A']
# what stands in place of a report as JSON or CSV
VIEWS = [
    '/json', '/csv', '/json/', '/csv/', '/jsonyard', '/csvyard', '/json/Yard', '/JSON/yard', '/json//yard', '/json/yard/',
    '/json/yard.csv', '/csv/yard.csv', '/json/csv/yard', '/csv/json/yard', '/json/json/yard', '/json/pages/yard',
    '/pages/json/yard', '/json/archives/1/yard', '/json/interchanges', '/csv/interchanges', '/json/texts/0', '/csv/explain',
    '/json/partners/HAULZ/gate', '/json/picture', '/json/health', '/json/metrics', '/csv/picture', '/csv/health', '/csv/metrics',
    '/json/contrls/HAULA/1', '/csv/contrls/HAULA/1', '/csv/replies/HAULA/1', '/csv/tickets/HAULA/1', '/csv/partners/HAULA',
    '/csv/containers/ABCU0000017', '/json/visits', '/json/visits/%zz', '/csv/visits/ABCU0000018', '/yard.csv/', '/yard.csvx',
    '/%6ason/yard', '/json/%79ard', '/archives/1/json', '/archives/1/json/picture', '/archives/1/csv/tickets/HAULA/1',
    '/archives/1/yard.csv', '/archives/1/json/yard.csv', '/archives/1/json/archives/1/yard', '/archives/0/json/yard']
# what stands in an address after `/pages/find`, with a number that was typed
FORMS = [
    (24, '?container=%s'), (1, '?container=%s&x=1'), (1, '?container=%s&container=ABCU0000022'), (1, '?container=%s?'),
    (1, '?Container=%s'), (1, '?x=1&container=%s'), (1, '?container%s'), (1, '??container=%s'), (1, '?containers=%s'),
    (1, '?container==%s'), (1, '?'), (1, '')]
ODD_NUMBERS = [
    '', '+', '%20', '-', 'ABCU000001', 'ABCU00000177', 'ABC00000017', '0000017', 'ABCU0000018', 'abcu+000001-8', 'ABCU000001A',
    '%', '%4', '%zz', 'ABCU0000017%', '%25', '%00', '%0A', '%3Cb%3EABCU%3C/b%3E', "'><script>", '"onclick="x', '&amp;',
    'ABCU0000017%26', 'A' * 300, '%C3%A4bcu0000017', '\xc3\xa4', '%80%FF', '%E2%82%AC', 'ABCU0000017;', 'TEXU3070079',
    'ABCU000001%37', '%41%42%43%55%30%30%30%30%30%31%37', '+-+-', 'ABCU9999990', 'ZZZZ0000000', '017', '17', '22', 'BK7', 'bk7', 'HAULA',
    'LINEA', '9123456', 'V12', '9123456+V12']
# what stands in place of a number of texts
ODD_TEXTS = [
    '/texts', '/texts/', '/texts/00', '/texts/01', '/texts/+1', '/texts/-1', '/texts/1x', '/texts/x', '/texts/0x1', '/texts/%30',
    '/texts/1%20', '/texts/0/', '/texts/0/0', '/texts//0', '/texts/999999999', '/texts/1000000000', '/texts/0000000000',
    '/texts/99999999999999999999', '/Texts/0', '/text/0', '/pages/texts', '/pages/texts/0', '/texts/\xb2', '/texts/1.0']
# what stands in place of a report of an archive
ODD_ARCHIVES = [
    '/archives', '/archives/', '/archives/1', '/archives/1/', '/archives/0/yard', '/archives/01/yard', '/archives/+1/yard',
    '/archives/1x/yard', '/archives//yard', '/archives/10000/yard', '/archives/9999/yard', '/archives/%31/yard',
    '/archives/1//yard', '/archives/1/Yard', '/archives/1/x', '/archives/1/yard/', '/archives/1/texts/0',
    '/archives/1/interchanges', '/archives/1/partners/HAULZ/gate', '/archives/1/partners/HAULA/interchanges',
    '/archives/1/archives/1/yard', '/archives/1/pages/yard', '/pages/archives/1/yard', '/Archives/1/yard', '/archive/1/yard',
    '/archives/1/visits/ABCU0000018', '/archives/1/visits/%zz', '/archives/99999999999999999999/yard', '/archives/1?/yard',
    '/archives/1/yard?x', '/archives/1/find?container=ABCU0000017', '/archives/1/pages/find?container=ABCU0000017']
QUERIES = [(8, ''), (1, '?'), (1, '?a=b/c?d'), (1, '?%zz')]
LENGTHS = [
    [], ['Content-Length: %d', 'Content-Length: %d'], ['Content-Length: +%d'], ['Content-Length: '],
    ['Content-Length: %d', 'Transfer-Encoding: chunked'], ['transfer-encoding:', 'Content-Length: %d'],
    ['Content-Length: 1048577'], ['Content-Length: 1048576'], ['Content-Length: 9999999999999999999'],
    ['Content-Length: 10000000000000000000'], ['Content-Length: 00000000000%d'], ['Content-Length: 0'],
    ['Content-Length: %d, %d'], ['Content-Length: %d.'], ['Content-Length: 0x%d'],
    ['Content-Length: 18446744073709551616'],
    ['content-length:%d', 'CONTENT-LENGTH: %d'], ['Content-Length:\t %d\t '], ['X-Content-Length: %d'],
    ['Content-Length: 0000000000000000000'], ['Content-Length: -1'], ['Content-Length : %d']]
FIELDS = [
    'User-Agent: x', 'Accept:', 'X:\t', 'X-Y: a:b, c', 'Expect: 100-continue', 'X-Host: evil.example', 'Origins: null',
    'Connection: keep-alive', 'X: \xe9\xff', "!#$%&'*+-.^_`|~: 1", 'Content-Type: application/edifact']
# what a server may be named, and what may stand in Host: names of this machine, and others
NAME = 'office.example'
OWN_HOSTS = [
    '127.0.0.1', '127.0.0.1:8080', 'localhost', 'localhost:8080', 'LocalHost:1', 'localhost:', '[::1]', '[::1]:00080',
    '127.0.0.0', '127.255.255.255:99999', '127.00.000.1', NAME, NAME + ':8443', 'OFFICE.example']
OTHER_HOSTS = [
    '', ':', ':80', 'evil.example', 'evil.example:8080', '127.0.0.1.evil.example', 'localhost.evil.example', '127.0.0', '127.1',
    '127.0.0.256', '127.0.0.1000', '127.0.0.1.', '127.0.0.1.1', '127..0.1', '127.0.0.x', '127.0.0.-1', '126.0.0.1', '128.0.0.1',
    '0.0.0.0', '10.0.0.1', '2130706433', '0x7f000001', '0177.0.0.1', '::1', '[::1', '::1]', '[::]', '[::2]', '[::1]x', '[::1]]',
    '[0:0:0:0:0:0:0:1]', '[::ffff:127.0.0.1]', 'localhost.', 'localhostx', 'xlocalhost', 'localhost:80:80', 'localhost:x',
    'localhost:123456', 'localhost:-1', 'localhost :80', 'local host', 'user@localhost', 'localhost/', 'http://localhost',
    'localhost, evil.example', '127.0.0.1,127.0.0.1', 'loc\xe4lhost', '[::1]:x', '[::1]:123456', NAME + '.',
    'www.' + NAME, NAME[:-1], NAME + 'x', NAME + ':x']
# what may stand in Origin, where `%s` is a host, and in Sec-Fetch-Site
OWN_ORIGINS = ['http://%s', 'https://%s', 'HTTP://%s', 'hTTps://%s']
OTHER_ORIGINS = [
    '', 'null', '%s', '//%s', 'http:%s', 'http:/%s', 'http://', 'https://', 'http://%s/', 'http:// %s', 'httpx://%s',
    'ws://%s', 'ftp://%s', 'file://%s', 'http://%s:1', 'http://%s.evil.example', 'http://evil.example', 'https://evil.example/%s',
    'http://evil.example http://%s', 'http://%s http://evil.example', 'http://user@%s', 'http://x%s', 'http://%s\xe9']
SITES = ['same-origin', 'none']
OTHER_SITES = [
    'cross-site', 'same-site', '', 'Same-Origin', 'NONE', 'same-origins', 'same-origi', 'none, cross-site', 'same-origin;x',
    '"none"']
ODD_SITE = 0.12             # of the fields that say from where a request comes
COUNTS = [0] + [1] * 12 + [2]       # of each of these fields
PLACED_BYTES = ' \t\r\n\x00\x0b\x1f\x7f\x80\xe9:/%?#AZ19"(),;'
LARGE = [(3, 'fields'), (3, 'head'), (1, 'body')]
ODD_ACCOUNTS = [
    '%zz/gate', 'HAULZ/%zz', '%00/gate', '%2F/gate', 'HAULZ/GATE', 'HAULZ/port', 'HAULZ/', '/gate', 'HAULZ/gate/', 'HAULZ',
    'H' * 36 + '/gate', 'HAUL Z/gate', 'HAULA/1', '%/gate', 'HAULZ/gat%6', 'H\xc3\x84ULZ/gate', '\xff/gate', '%FF/gate',
    './gate', '../gate', '%2e%2E/line']

ODD_CODES = [str.lower, lambda code: code + 'X', lambda code: code[:-1], lambda code: '?' + code, lambda code: code * 9]


# ---- keys

def written(random, text, share=ESCAPED):
    """A part of a key, with some characters written as % and two hexadecimal digits, and always `/` and `%`."""
    form = random.choice(['%%%02x', '%%%02X'])
    return ''.join(
        form % ord(character) if character in '/%? \t' or random.random() < share else character for character in text)


def known(random, office):
    """A kind of report and a key under which something may be found."""
    kind = random.choice(['visits', 'container', 'list', 'work', 'ticket', 'reply', 'partner'])
    terminal, delivered = office.fold().terminal, office.deliveries
    if kind in ('visits', 'container') and terminal.visits:
        values = [random.choice(terminal.visits).number]
    elif kind in ('list', 'work') and terminal.lines:
        call, side, _number = random.choice(sorted(terminal.lines))
        values = [*call, random.choice([side, side, side, 'load', 'discharge'])]
    elif kind == 'partner':
        values = [random.choice(sorted(office.setup.partners))]
    elif kind == 'ticket' and terminal.visits and random.random() < 0.5:
        visit = random.choice(terminal.visits)
        partner, number = (visit.exit or visit.entry).source
        values = [partner, str(number)]
    elif delivered:
        delivery = random.choice(delivered)
        kind = random.choice(['ticket', 'reply', 'contrl'])
        number = delivery.number + random.choice([0, 0, 0, 0, 1])
        values = [delivery.partner, str(number).zfill(random.choice([0, 0, 6, 14]))]
    else:
        kind, values = random.choice(['ticket', 'reply', 'contrl']), ['HAULA', '1']
    return kind, '/'.join(written(random, value) for value in values)


def question(random, office):
    """A kind of report and a key, known or odd."""
    return odd(random, office) if random.random() < 0.3 else known(random, office)


def odd(random, office):
    """A kind of report and an odd key, of a partner that the office has."""
    partner = random.choice(sorted(office.setup.partners))
    return random.choice(KEYED), random.choice(ODD_KEYS).replace('HAULA', partner)


def every_key(office):
    """Each container, list and interchange of an office, as a kind of report and a key."""
    terminal = office.fold().terminal
    boxes = {visit.number for visit in terminal.visits}
    lists = {'/'.join([*call, side]) for call, side, _number in terminal.lines}
    used = {'%s/%d' % (delivery.partner, delivery.number) for delivery in office.deliveries}
    return [
        (kind, key) for kind, keys in (
            ('visits', boxes), ('container', boxes), ('list', lists), ('work', lists), ('ticket', used), ('reply', used),
            ('contrl', used), ('partner', office.setup.partners))
        for key in sorted(keys)]


# ---- requests

def weighted(random, table):
    """A value of a table, by weight."""
    return random.choices([value for _weight, value in table], [weight for weight, _value in table])[0]


def from_where(random):
    """Fields that say from where a request comes: most requests have none, and most of these are right."""
    def one_of(own, others):
        return random.choice(others if random.random() < ODD_SITE else own)

    hosts = [one_of(OWN_HOSTS, OTHER_HOSTS) for _field in range(random.choice(COUNTS))]
    origins = [one_of(OWN_ORIGINS, OTHER_ORIGINS) for _field in range(random.choice([0] * 6 + COUNTS))]
    sites = [one_of(SITES, OTHER_SITES) for _field in range(random.choice([0] * 6 + COUNTS))]
    host = random.choice((hosts or OWN_HOSTS) * 9 + OWN_HOSTS)
    fields = [('Host', host) for host in hosts] + [('Sec-Fetch-Site', site) for site in sites]
    fields += [('Origin', origin % host if '%s' in origin else origin) for origin in origins]
    letters, gaps = [str, str.lower, str.upper], [': ', ':', ':\t ']
    return [random.choice(letters)(name) + random.choice(gaps) + value for name, value in fields]


def request(random, line, fields, body=''):
    """The bytes of a request, with other fields by chance and ends of lines of both kinds."""
    fields = fields + random.sample(FIELDS, random.choice([0, 0, 1, 2, 3]))
    fields += from_where(random) if random.random() < 0.4 else []
    random.shuffle(fields)
    end = random.choice(['\r\n', '\r\n', '\r\n', '\n'])
    front = random.choice([''] * 9 + ['\r\n', '\n\r\n'])
    return front + end.join([line] + fields + ['', '']) + body


def post(random, text, behind=''):
    """A delivery."""
    name = random.choice(['Content-Length', 'content-length', 'CONTENT-LENGTH'])
    version = random.choice(['1.1', '1.1', '1.0'])
    line = 'POST /interchanges%s HTTP/%s' % (weighted(random, QUERIES), version)
    return request(random, line, ['%s: %d' % (name, len(text))], text + behind)


def explain(random, text):
    """A text that is to be explained, by POST mostly."""
    line = '%s /explain%s HTTP/1.1' % (random.choice(['POST'] * 9 + ['GET']), weighted(random, QUERIES))
    return request(random, line, ['Content-Length: %d' % len(text)], text)


def post_as(random, code, text):
    """A delivery by the path of a partner."""
    line = 'POST /partners/%s/interchanges%s HTTP/1.1' % (written(random, code), weighted(random, QUERIES))
    return request(random, line, ['Content-Length: %d' % len(text)], text)


def own_delivery(random, day, office, text):
    """A delivery by the path of a partner: mostly of the one that the text names, with what may make it name another."""
    codes = sorted(office.setup.partners)
    named = next((code for code in codes if '+%s+' % code in text), random.choice(codes))
    code = random.choice([named] * 6 + [random.choice(codes)] + [alter(named) for alter in ODD_CODES])
    front = random.choice([''] * 6 + ["UNA:+.? '", 'UNA:+.? ', ' ', '\r\n', "UNA+:.? '"])
    return post_as(random, code, random.choice([front + text] * 4 + [day.altered(text)]))


def get(random, path, method='GET'):
    """A request without a body."""
    return request(random, '%s %s%s HTTP/1.1' % (method, path, weighted(random, QUERIES)), [])


def path_of(kind, key):
    """Where a report stands."""
    fronts = {
        'yard': '/yard', 'yardcsv': '/yard.csv', 'picture': '/picture', 'blocks': '/blocks', 'calls': '/calls',
        'partners': '/partners', 'partner': '/partners/', 'health': '/health', 'metrics': '/metrics', 'visits': '/visits/', 'container': '/containers/', 'list': '/lists/', 'work': '/work/', 'ticket': '/tickets/',
        'reply': '/replies/', 'contrl': '/contrls/'}
    return fronts[kind] + key


def report_path(random, office):
    """The path of a report under which something may be found."""
    if random.random() < 0.3:
        return path_of(random.choice(WHOLE), '')
    return path_of(*known(random, office))


def of_archive(random, office, path):
    """The path of the same report, as an archive tells it: mostly one that is there."""
    return '/archives/%d%s' % (random.randrange(len(office.register.archives) + 1) + 1, path)


def typed(random, office):
    """A container's number as a person types it, or something else."""
    boxes = sorted({visit.number for visit in office.fold().terminal.visits})
    if not boxes or random.random() < 0.3:
        return random.choice(ODD_NUMBERS)
    number = random.choice(boxes)
    if random.random() < 0.15:
        number = number[:-1] + random.choice('0123456789')
    gaps = random.choice([['', '', '', '+', '%20', '-', '--'], ['']])
    letters = random.choice([str.lower, str.upper, str.swapcase, str])
    return ''.join(random.choice(['', '', random.choice(gaps)]) + written(random, character, 0.03) for character in letters(number))


def find(random, office):
    """A form that was filled in, mostly by GET."""
    form = weighted(random, FORMS)
    path = '/pages/find' + (form % typed(random, office) if '%s' in form else form)
    return request(random, '%s %s HTTP/1.1' % (random.choice(['GET'] * 9 + ['POST']), path), [])


def account(random, code, kind):
    """An addition, its body of any length and sometimes another method."""
    body = random.choice(['', '', '', 'x', "UNB+'", '\r\n'])
    method = random.choice(['POST'] * 8 + ['GET', 'PUT'])
    line = '%s /partners/%s/%s%s HTTP/1.1' % (
        method, written(random, code), written(random, kind), weighted(random, QUERIES))
    return request(random, line, ['Content-Length: %d' % len(body)], body + random.choice(['', '', 'AAAA']))


def odd_account(random):
    """An addition whose path is odd, or whose length is said in another way."""
    if random.random() < 0.5:
        return request(random, 'POST /partners/%s HTTP/1.1' % random.choice(ODD_ACCOUNTS), ['Content-Length: 0'])
    fields = [field.replace('%d', '0') for field in random.choice(LENGTHS)]
    return request(random, 'POST /partners/HAULZ/gate HTTP/1.1', fields)


def of_length(random, text):
    """A delivery whose length is said in another way."""
    fields = [field.replace('%d', str(len(text))) for field in random.choice(LENGTHS)]
    return request(random, 'POST /interchanges HTTP/1.1', fields, text)


def altered(random, text, most):
    """With up to four bytes among the first replaced, left out or put in."""
    for _change in range(random.choice([1, 1, 2, 4])):
        place = random.randrange(min(most, len(text)))
        added = random.choice(['', random.choice(PLACED_BYTES)])
        text = text[:place] + added + text[place + random.choice([0, 1, 1]):]
    return text


def large(random, text):
    """A request at a limit: of fields, of the bytes of a head, or of a body that says more than a text may have."""
    what = weighted(random, LARGE)
    if what == 'fields':
        count = random.choice([63, 64, 65])
        return 'GET /yard HTTP/1.1\r\n' + ''.join('X%d: %d\r\n' % (place, place) for place in range(count)) + '\r\n'
    if what == 'head':
        front, end = 'POST /interchanges HTTP/1.1\r\nContent-Length: %d\r\nX:' % len(text), '\r\n\r\n'
        count = random.choice([8190, 8191, 8192, 8193, 8194, 20000]) - len(front) - len(end)
        return front + 'x' * count + end + text
    return post(random, 'FTX+' + 'A' * random.choice([1048572, 1048573]))


def random_request(random, day, office):
    """The next request, whose kind is weighted."""
    kind = weighted(random, KINDS)
    text = day.delivery() if kind == 'delivery' else day.again()
    if kind == 'delivery':
        return post(random, text + random.choice(['', '', '\r\n']), random.choice(['', '', 'AAAA', "UNB+"]))
    if kind == 'own delivery':
        return own_delivery(random, day, office, random.choice([day.delivery(), text]))
    if kind == 'altered delivery':
        return post(random, day.altered(text))
    if kind == 'explain':
        return explain(random, random.choice([text, day.altered(text), text + '\r\n' + day.again()]))
    if kind == 'report':
        return get(random, report_path(random, office))
    if kind == 'odd report':
        return get(random, path_of(*odd(random, office)))
    if kind == 'method':
        return get(random, random.choice([report_path(random, office), '/interchanges']), random.choice(METHODS))
    if kind == 'route':
        return get(random, random.choice(PATHS), random.choice(['GET', 'POST', 'PUT']))
    if kind == 'length':
        return of_length(random, text)
    if kind == 'account':
        return account(random, *day.addition())
    if kind == 'odd account':
        return odd_account(random)
    if kind == 'page':
        return get(random, random.choice(['/', *['/pages' + report_path(random, office)] * 9]))
    if kind == 'odd page':
        path = random.choice([random.choice(PAGES), '/pages' + path_of(*odd(random, office))])
        return get(random, path, random.choice(['GET', 'GET', random.choice(METHODS)]))
    if kind == 'find':
        return find(random, office)
    if kind == 'view':
        return get(random, random.choice(['/json', '/csv']) + report_path(random, office))
    if kind == 'odd view':
        path = random.choice(['/json', '/csv']) + path_of(*odd(random, office))
        return get(random, random.choice([path] + [random.choice(VIEWS)] * 3), random.choice(['GET', 'GET', 'GET', *METHODS]))
    if kind == 'archive':
        return get(random, of_archive(random, office, random.choice(['', '', '/json', '/csv']) + report_path(random, office)))
    if kind == 'odd archive':
        return get(random, random.choice(ODD_ARCHIVES), random.choice(['GET', 'GET', 'GET', *METHODS]))
    if kind == 'texts':
        return get(random, '/texts/%d' % random.choice([0, 0, 1, random.randrange(len(office.deliveries) + 3)]))
    if kind == 'odd texts':
        return get(random, random.choice(['/texts/0'] * 4 + ODD_TEXTS), random.choice(['GET', 'GET', 'GET', *METHODS]))
    if kind == 'cut':
        whole = post(random, text)
        return whole[:random.randrange(len(whole))]
    if kind == 'altered head':
        whole = random.choice([post(random, text), get(random, report_path(random, office))])
        return altered(random, whole, 60)
    return large(random, text)


def random_requests(random, day, office, count):
    """That many requests for an office to which more was delivered than what they deliver themselves."""
    return [random_request(random, day, office) for _request in range(count)]
