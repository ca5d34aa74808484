"""One request of HTTP and its response: crates/office_http/README.md.

A request is bytes, and so is its response. The head is the shortest front of the request that is one within the limits
(RFC 9112, sections 2 to 5, as `httparse` reads it).
"""
import re
from collections import namedtuple

from .deliveries import kept_texts, run
from .explained import NOBODY, printed
from .keys import PARTS, decoded, read_key
from .moments import are_digits
from .office import json_text
from .pages import KINDS as PAGED, drawn, typed, typed_words
from .reports import OF_NUMBERS, Lost, own_report, report
from .setup import is_utf8
from .syntax import BREAKS, FAULTS, LONGEST_TEXT, is_printable, number_of, sender_of
from .value_pages import found as found_page, page, start, told, visits_of, yard
from .views import SHOWN, has_view, report_as

LONGEST_HEAD = 8192
MOST_FIELDS = 64

TOKEN = r"[A-Za-z0-9!#$%&'*+\-.^_`|~]+"
TARGET = r'[\x21-\x7e\x80-\xff]+'
VALUE = r'[\t\x20-\x7e\x80-\xff]*'
END = r'\r?\n'
FIELD = r'(%s):(%s)%s' % (TOKEN, VALUE, END)
HEAD = re.compile(r'(?:%s)*(%s) (%s) HTTP/1\.[01]%s((?:%s:%s%s)*)%s' % (
    END, TOKEN, TARGET, END, TOKEN, VALUE, END, END))

# fields are pairs of name and value, `length` how many bytes the head has
Head = namedtuple('Head', 'method target fields length')

# where a path leads, the method that it has, and what is asked there: a kind of report, one of the three that change the
# office, the kept texts, or what is wrong with a text
ROUTES = [
    (r'/interchanges', 'POST', 'delivery'),
    (r'/partners/([^/]+)/interchanges', 'POST', 'own delivery'),
    (r'/partners/([^/]+/[^/]+)', 'POST', 'account'),
    (r'/explain', 'POST', 'explain'),
    (r'/partners', 'GET', 'partners'),
    (r'/partners/([^/]+)', 'GET', 'partner'),
    (r'/health', 'GET', 'health'),
    (r'/metrics', 'GET', 'metrics'),
    (r'/yard', 'GET', 'yard'),
    (r'/blocks', 'GET', 'blocks'),
    (r'/calls', 'GET', 'calls'),
    (r'/picture', 'GET', 'picture'),
    (r'/containers/([^/]+)', 'GET', 'container'),
    (r'/visits/([^/]+)', 'GET', 'visits'),
    (r'/lists/([^/]+/[^/]+/[^/]+)', 'GET', 'list'),
    (r'/work/([^/]+/[^/]+/[^/]+)', 'GET', 'work'),
    (r'/tickets/([^/]+/[^/]+)', 'GET', 'ticket'),
    (r'/replies/([^/]+/[^/]+)', 'GET', 'reply'),
    (r'/contrls/([^/]+/[^/]+)', 'GET', 'contrl'),
    (r'/texts/([^/]+)', 'GET', 'texts'),
]
HTML = 'text/html; charset=utf-8'
# what each body of that type carries: it runs nothing, loads nothing, stands in no page of another's, and nobody keeps it
PAGE_FIELDS = [
    "Content-Security-Policy: default-src 'none'; style-src 'unsafe-inline'; img-src data:; form-action 'self'; "
    "frame-ancestors 'none'; base-uri 'none'",
    'X-Content-Type-Options: nosniff', 'Referrer-Policy: no-referrer', 'Cache-Control: no-store']
# what the body of a report is, if not plain text
CONTENT_TYPES = {'reply': 'application/json', 'contrl': 'application/EDIFACT',
    'texts': 'application/EDIFACT', 'picture': HTML,
    'health': 'application/json', 'metrics': 'text/plain; version=0.0.4'}

# and as JSON or CSV, whatever it is as text
OF_VIEWS = {'json': 'application/json', 'csv': 'text/csv'}
# the table of the yard has an address of its own, too
YARD_TABLE = '/yard.csv'

# the most bytes of a page of texts, unless its first text has more
MOST_OF_TEXTS = 1048576

# what stands before the path of a report whose page is asked for
PAGES = '/pages'
# and before that of a report of an archive: its place, 1 to 9999
ARCHIVE = re.compile(r'/archives/([1-9][0-9]{0,3})(/.*)', re.DOTALL)
# what is no report
NO_REPORTS = ('delivery', 'own delivery', 'account', 'texts', 'explain')

PHRASES = {
    200: 'OK', 202: 'Accepted', 400: 'Bad Request', 403: 'Forbidden', 404: 'Not Found', 405: 'Method Not Allowed',
    409: 'Conflict', 411: 'Length Required', 413: 'Payload Too Large', 429: 'Too Many Requests', 503: 'Service Unavailable'}
RETRY_LATER = (429, 503)
LATER = 5                   # seconds
# the faults of a head: where one of them applies, a text names nobody
HEAD_FAULTS = FAULTS[:8]
STATUSES = {'taken': 200, 'repeat': 200, 'waiting': 202, 'clash': 409, 'refused': 400, 'not now': 503}
ACCOUNT_FAULTS = {'Partner': 400, 'Kind': 409, 'Accounts': 409}


class Refusal(Exception):
    """Why a request is answered without the office: a status, and the answer, mostly a word."""

    def __init__(self, status, word, allowed=None, **more):
        super().__init__()
        self.status, self.answer, self.allowed = status, dict(more, answer=word), allowed


# ---- the request

def head_of(request):
    """Its head: empty lines, a line of method, target and version, fields, an empty line."""
    found = HEAD.match(request)
    if not found or len(found.group()) > LONGEST_HEAD:
        raise Refusal(400, 'bad request')
    method, target, lines = found.groups()
    fields = [(name, value.strip(' \t')) for name, value in re.findall(FIELD, lines)]
    if len(fields) > MOST_FIELDS or not is_utf8(target):
        raise Refusal(400, 'bad request')
    return Head(method, target, fields, len(found.group()))


def values_of(head, name):
    """The values of the fields of that name; the case of its letters doesn't matter."""
    return [value for other, value in head.fields if other.lower() == name]


# ---- from where, and by which name

def small(text):
    """A text with small letters of ASCII for capitals."""
    return text.encode('latin-1').lower().decode('latin-1')


def is_own(value, name):
    """Whether a value of Host is this machine: a loopback address, `localhost` or the name of the server, with a port or none."""
    found = re.fullmatch(r'(\[::1\]|[^:]*)(:[0-9]{0,5})?', value)
    host = small(found.group(1)) if found else None
    if host and re.fullmatch(r'127(\.[0-9]{1,3}){3}', host):
        return all(int(part) <= 255 for part in host.split('.'))
    return host in ('[::1]', 'localhost') or (None not in (host, name) and host == small(name))


def check_site(head, name):
    """A name by which another site may lead to this machine is refused, and so is a POST from a page of another site; and both
    where a field is there twice."""
    hosts, sites, origins = (values_of(head, field) for field in ('host', 'sec-fetch-site', 'origin'))
    if len(hosts) > 1 or not all(is_own(host, name) for host in hosts):
        raise Refusal(403, 'refused', fault='Host')
    own = [scheme + small(host) for host in hosts for scheme in ('http://', 'https://')]
    is_own_page = len(sites) <= 1 and set(sites) <= {'same-origin', 'none'}
    is_own_origin = len(origins) <= 1 and set(map(small, origins)) <= set(own)
    if head.method == 'POST' and not (is_own_page and is_own_origin):
        raise Refusal(403, 'refused', fault='Origin')


# ---- where it leads

def route_at(path):
    """What a path leads to: a method, what is asked there, and the key that stands in it. None where it leads nowhere."""
    for pattern, method, kind in ROUTES:
        found = re.fullmatch(pattern, path)
        if found:
            return method, kind, ''.join(found.groups())
    return None


def check_method(head, method):
    """What is there takes one method."""
    if head.method != method:
        raise Refusal(405, 'method', allowed=method)


def view_of(address):
    """As what an address asks for a report, under /json and /csv not as text; and the path of that."""
    if address == YARD_TABLE:
        return 'csv', '/yard'
    for view in OF_VIEWS:
        if address.startswith('/' + view):
            return view, address[len('/' + view):]
    return 'text', address


def is_shown(kind, view):
    """Whether it is a report that is shown so."""
    return kind not in NO_REPORTS and has_view(kind, view)


def route_of(head, path, view, is_archive=False):
    """What a path leads to, and the key that stands in it. As JSON, as CSV and of an archive there are only reports."""
    found = route_at(path)
    if found is None or ((is_archive or view != 'text') and not is_shown(found[1], view)):
        raise Refusal(404, 'none')
    method, kind, key = found
    check_method(head, method)
    return kind, key


# ---- pages

def address_of(head):
    """The target up to `?`."""
    return head.target.partition('?')[0]


def is_page(address):
    """Whether it is answered with a page."""
    return address == '/' or address.startswith(PAGES)


def typed_in(head):
    """What was typed into the field `container`, with which the form begins. Nothing, if it begins with another."""
    field, _, rest = head.target.partition('?')[2].partition('=')
    return rest.partition('&')[0] if field == 'container' else ''


def paged(office, head):
    """Status and page."""
    address = address_of(head)
    if address == '/':
        check_method(head, 'GET')
        return 200, start(office)
    if address == PAGES + '/find':
        check_method(head, 'GET')
        return found_by(office, typed_in(head))
    block = re.fullmatch(PAGES + r'/yard/([^/]+)', address)
    if block:
        check_method(head, 'GET')
        return (200, yard(office, block.group(1))) if re.fullmatch('[A-Z]', block.group(1)) else (404, told('not here'))
    method, kind, key = route_at(address[len(PAGES):]) or (None, None, None)
    if kind not in PAGED:
        return 404, told('not here')
    check_method(head, method)
    return page_of(office, kind, key)


def found_by(office, value):
    """Status and page of what was typed: a container by its number, or what another text finds."""
    what, number = typed(value)
    if what == 'number':
        return page_of(office, 'container', number)
    words = typed_words(value) if what == 'form' else None
    return (404, told(what, number)) if words is None else (200, found_page(office, words))


def page_of(office, kind, key):
    """Status and page of a report, as tables, also of a container that never came; or that there is nothing."""
    values = read_key(kind, key) if PARTS[kind] else []
    if values is None or kind != 'container' and report(office, kind, key) is None or kind == 'visits' and not visits_of(office, *values):
        return 404, told('not here')
    return 200, drawn(report(office, kind, key)) if kind == 'picture' else page(office, kind, values)


# ---- archives

def of_archive(office, head, place, address):
    """Kind and text of a report that the archive of a place tells, as the store that it was, and as what it is shown. A number
    that was closed before is told by its own archive, so the other needn't be there."""
    view, path = view_of(address)
    kind, key = route_of(head, path, view, True)
    archive = office.archives.get(place)
    values = read_key(kind, key) if PARTS[kind] else []
    if archive is None or values is None:
        return kind, None, view
    if place in office.lost and not (kind in OF_NUMBERS and archive.archive_of(*values)):
        raise Lost
    archive.lost, archive.told_still = office.lost, office.told_still
    try:
        return kind, own_report(archive, kind, key, SHOWN[view]), view
    finally:
        archive.lost, archive.told_still = {}, frozenset()


# ---- the body

def body_of(head, request):
    """As many bytes after the head as it says. What stands after them has no effect."""
    lengths = values_of(head, 'content-length')
    if values_of(head, 'transfer-encoding') or not lengths:
        raise Refusal(411, 'length')
    if len(lengths) > 1 or not are_digits(lengths[0], 1, 19):
        raise Refusal(400, 'bad request')
    if int(lengths[0]) > LONGEST_TEXT:
        raise Refusal(413, 'too long')
    body = request[head.length:head.length + int(lengths[0])]
    if len(body) < int(lengths[0]):
        raise Refusal(400, 'bad request')
    return body


# ---- the response

def response_text(status, content_type, body, allowed=None):
    """The bytes of a response."""
    lines = ['HTTP/1.1 %d %s' % (status, PHRASES[status])]
    lines += ['Content-Type: ' + content_type, 'Content-Length: %d' % len(body)]
    lines += ['Allow: ' + allowed] if allowed else []
    lines += ['Retry-After: %d' % LATER] if status in RETRY_LATER else []
    lines += PAGE_FIELDS if content_type == HTML else []
    lines += ['Connection: close', '', body]
    return '\r\n'.join(lines)


def added_by(key):
    """Code and kind of an account. A part that can't be decoded stands for itself, since no code and no kind has a `%`."""
    return [part if decoded(part) is None else decoded(part) for part in key.split('/')]


def code_of(part):
    """The partner that a part of a path names: 1 to 35 printable bytes."""
    code = decoded(part)
    if code is None or not 1 <= len(code) <= 35 or not is_printable(code):
        raise Refusal(404, 'none')
    return code


def pass_door(office, code, text, ahead):
    """By the path of a partner a text may name no other as its sender, and a number may be above the partner's next one by
    so many (own). A text whose head can't be read names nobody, and a partner without an account has no next number."""
    if any(applies(text) for _name, applies in HEAD_FAULTS):
        return
    if sender_of(text) != code:
        raise Refusal(403, 'refused', fault='OtherSender')
    following = run(office.deliveries, code) + 1
    if ahead is not None and code in office.setup.partners and number_of(text) > following + ahead:
        raise Refusal(429, 'refused', fault='TooEarly', next=following)


def page_of_texts(office, key):
    """The kept texts after so many, each with an LF after it: as many whole ones as have room, one at least if there is one.
    How many is said by 1 to 9 digits that don't begin with 0, or by 0, and there are at least so many. A store with archives
    gives none by HTTP."""
    if not re.fullmatch(r'0|[1-9][0-9]{0,8}', key):
        raise Refusal(404, 'none')
    if office.register.archives:
        raise Refusal(503, 'not now')
    kept = kept_texts(office.deliveries)
    if int(key) > len(kept):
        raise Refusal(404, 'none')
    lines = [text + '\n' for text in kept[int(key):]]
    counts = [count for count in range(len(lines) + 1) if count <= 1 or len(''.join(lines[:count])) <= MOST_OF_TEXTS]
    return ''.join(lines[:max(counts)])


def delivered(office, text):
    """Status, content type and body of the answer to a text."""
    answer = office.answer(text)
    return STATUSES[answer['answer']], 'application/json', json_text(answer)


def answered(office, request, ahead, name):
    """Status, content type and body; a text that is delivered and an account that is added count from here on."""
    head = head_of(request)
    check_site(head, name)
    if is_page(address_of(head)):
        status, text = paged(office, head)
        return status, HTML, text
    archive = ARCHIVE.fullmatch(address_of(head))
    if archive:
        return found(*of_archive(office, head, int(archive.group(1)), archive.group(2)))
    view, path = view_of(address_of(head))
    kind, key = route_of(head, path, view)
    if kind == 'delivery':
        return delivered(office, body_of(head, request))
    if kind == 'own delivery':
        code, text = code_of(key), body_of(head, request)
        pass_door(office, code, text.strip(BREAKS), ahead)
        return delivered(office, text)
    if kind == 'explain':
        return found(kind, ''.join(line + '\n' for line in printed(NOBODY, body_of(head, request))[0]))
    if kind == 'account':
        body_of(head, request)
        answer = office.add_account(*added_by(key))
        return ACCOUNT_FAULTS.get(answer.get('fault'), 200), 'application/json', json_text(answer)
    return found(kind, page_of_texts(office, key) if kind == 'texts' else report_as(office, view, kind, key), view)


def found(kind, text, view='text'):
    """Status, content type and body of a report, if there is something to tell."""
    if text is None:
        raise Refusal(404, 'none')
    return 200, OF_VIEWS.get(view) or CONTENT_TYPES.get(kind, 'text/plain'), text


def response(office, request, ahead=None, name=None):
    """The response to a request, by a server that takes numbers up to so many above the next ones (any, if that is None), and
    that has a name besides those of a machine for itself."""
    try:
        return response_text(*answered(office, request, ahead, name))
    except Refusal as refusal:
        return response_text(refusal.status, 'application/json', json_text(refusal.answer), refusal.allowed)
    except Lost:
        return response_text(503, 'application/json', json_text(dict(answer='not now')))
