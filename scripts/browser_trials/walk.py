"""The walk: from `/` over each kind of link, by clicks; what is typed into the form; and pages that ask again.

A kind of link is the kind of page on which it stands and the kind of page to which it leads, by their routes. Each page to which
the walk comes is the model's, to the byte, and the browser shows of it what a plain reader finds there; where it is a report's,
that report, letter by letter. So with all links: each leads to a page of the model, or to one that says that there is nothing.
"""
import html
import random
from collections import Counter
from urllib.parse import urljoin, urlsplit

from model.http import PAGES, is_page, route_at
from model.keys import PARTS, read_key
from model.names import check_digit, number_fault
from model.pages import KINDS, title
from model.reports import report
from model.value_pages import ASKING, lined

from . import looks

CLICKS = 2                  # on each kind of link, where a page has more than one of that kind
LINKS = 40                  # of a page, that are looked up by the model
AGAIN = 60                  # seconds after which a list's page asks again
TIMES = 3                   # that it may ask before it is seen to
LOGGED = 252                # bytes of a target that stand in the log, its method's four among the first 256
LISTED = (
    "UNB+UNOA:3+LINEA+TERM1+240309:0910+%d'UNH+1+COPRAR:D:95B:UN'BGM+45+L1+9'TDT+20+V12++++++9123456'EQD+CN+%s'UNT+5+1'UNZ+1+%d'")


# ---- addresses

def path_of(address):
    """Path and query of an address: what a browser asks for."""
    parts = urlsplit(address)
    return parts.path + ('?' + parts.query if parts.query else '')


def asked_at(path):
    """What a page shows: the kind of report and its key; or `start`, `find`, `block`, `picture`, with none."""
    address = path.partition('?')[0]
    if address == '/':
        return 'start', ''
    if address == PAGES + '/find':
        return 'find', ''
    if address.startswith(PAGES + '/yard/'):
        return 'block', ''
    found = route_at(address[len(PAGES):] if address.startswith(PAGES) else address)
    return (found[1], found[2]) if found else ('nothing', '')


def kind_at(address):
    """The kind of page, with the place within it if one is named."""
    return asked_at(path_of(address))[0] + ('#' if urlsplit(address).fragment else '')


def shown_as(text):
    """What a browser shows of a text whose bytes from 0x80 are written as numbers."""
    return ''.join(letter if letter < '\x80' else html.unescape('&#%d;' % ord(letter)) for letter in text)


def without_repeats(asked, again):
    """The same, but once what stands several times in a row and is one of these."""
    return [one for last, one in zip([None] + asked, asked) if one != last or one not in again]


# ---- the walk

class Walk:
    """A walk over the pages of a served store, until all kinds of links were clicked. `faults` are in words."""

    def __init__(self, chromium, served):
        self.chromium, self.served, self.chance = chromium, served, random.Random(1)
        self.clicked, self.looked, self.pages, self.links = Counter(), set(), set(), Counter()
        self.faults, self.opened, self.again, self.lost = [], [], [], 0

    def expect(self, holds, *fault):
        """A fault, where something does not hold."""
        self.faults += [] if holds else [' '.join(str(part)[:300] for part in fault)]

    # ---- a page

    def arrived(self, came, address=None):
        """A page to which the browser has come; to be at that address."""
        path = path_of(came.address)
        self.expect(address in (None, came.address), 'came to', came.address, 'for', address)
        status, text = self.served.owed(path)
        self.expect((came.status, came.text) == (status, text), path, 'is not the model\'s:', came.status, came.text[-300:])
        self.pages.add(path)
        if asked_at(path)[0] in ASKING and path not in self.again:
            self.again.append(path)
        self.opened += [] if urlsplit(came.address).fragment and path in self.opened[-1:] else [path]
        shows = looks.held(self.chromium)
        self.expect(shows == looks.Reader(text).held(), path, 'shows something else')
        self.reported(path, status, shows)
        if self.kind_looked_at(path, status) not in self.looked:
            self.looked.add(self.kind_looked_at(path, status))
            self.faults += ['%s: %s' % (path, fault) for fault in looks.wrong(self.chromium, came)]
            self.faults += ['%s: %s' % (path, fault) for fault in looks.wrong_on_paper(self.chromium)]
        return shows._replace(links=[(urljoin(path, address), words) for address, words in shows.links])

    @staticmethod
    def kind_looked_at(path, status):
        """Pages that are looked at once."""
        return asked_at(path)[0], status

    def reported(self, path, status, shows):
        """A report's page is called as its title says, also by its heading. Of an interchange that was taken the pages of reply and
        CONTRL show the CONTRL, a segment on each line; no other page shows a text."""
        kind, key = asked_at(path)
        if status != 200 or kind not in KINDS or kind == 'picture' or not is_page(path):
            return
        values = read_key(kind, key) if PARTS[kind] else [None]
        name = shown_as(title(kind, values[0] if len(values) == 1 else values))
        self.expect(
            (shows.title, looks.collapsed(shows.heading)) == (looks.collapsed(name),) * 2, path, 'is called', shows.title, shows.heading)
        contrl = report(self.served.office, 'contrl', key) if kind in ('reply', 'contrl') else None
        self.expect(shows.report == (contrl and shown_as(lined(contrl[:-1]))), path, 'has another CONTRL:', shows.report)

    def leading(self, shows):
        """All links of a page, or some, if it has many: each leads to a page of the model. One may lead to a container that never
        came."""
        places = range(len(shows.links))
        for place in places if len(places) <= LINKS else sorted(self.chance.sample(places, LINKS)):
            address, words = shows.links[place]
            kind, status = kind_at(address), self.served.owed(path_of(address))[0]
            self.links[kind] += 1
            self.lost += status == 404
            self.expect(status == 200 or status == 404 and kind == 'container', address, 'leads nowhere')
            self.expect(words.strip(), address, 'has no words')
            if kind == 'container' and number_fault(words) is None:
                self.expect(address == '/pages/containers/' + words, words, 'leads to', address)

    # ---- the way

    def walk(self):
        """From `/` on, until no page that was seen has a kind of link that was not clicked often enough."""
        shows = self.arrived(self.chromium.open(self.served.url('/')))
        ways = [('/', shows)]
        self.leading(shows)
        while ways:
            path, shows = ways[-1]
            place = self.next_link(path, shows)
            if place is None:
                ways.pop()
                continue
            if self.opened[-1] != path:
                self.arrived(self.chromium.open(self.served.url(path)))
            is_new, shows = self.click(place, shows.links[place][0])
            if is_new:
                ways.append((self.opened[-1], shows))
                self.leading(shows)

    def next_link(self, path, shows):
        """The place of a link to click, if one is left: by chance among those of its kind."""
        kinds = {}
        for place, (address, _words) in enumerate(shows.links):
            kinds.setdefault((asked_at(path)[0], kind_at(address)), []).append(place)
        for kind, places in kinds.items():
            if self.clicked[kind] < (CLICKS if len(places) > 1 else 1):
                self.clicked[kind] += 1
                return self.chance.choice(places)
        return None

    def click(self, place, address):
        """Clicks a link. Gives whether it has led to a page that was not seen, and what that shows."""
        seen = set(self.pages)
        came = self.chromium.moved(lambda: self.chromium.click('document.links[%d]' % place))
        shows = self.arrived(came, self.served.url(address))
        if urlsplit(address).fragment:
            self.expect(self.chromium.value(
                'Math.abs(document.querySelector(location.hash).getBoundingClientRect().top) < innerHeight'), address, 'is out of sight')
        return self.opened[-1] not in seen, shows

    # ---- the form

    def type_in(self, text, by_key):
        """Types a text into the form of the start page, and sends it off by the key or by the button. Gives what came, or None
        where the browser stays."""
        self.arrived(self.chromium.open(self.served.url('/')))
        self.chromium.click('document.querySelector("input")')
        self.chromium.write(text)
        send = (lambda: self.chromium.press('Enter', 13, '\r')) if by_key else (
            lambda: self.chromium.click('document.querySelector("button")'))
        if not text:
            send()
            stays = 'document.querySelector("input").validity.valueMissing && location.pathname === "/"'
            self.expect(self.chromium.value(stays), 'an empty field is sent off')
            return None
        return self.chromium.moved(send)

    def typed(self):
        """What persons type, and what else may stand in a field: the page is that of the container that is meant, of what the text
        finds, or says what is wrong."""
        for place, text in enumerate(typed_texts(self.served.office)):
            came = self.type_in(text, place % 2 == 0)
            if came is None:
                continue
            shows = self.arrived(came)
            self.expect(path_of(came.address).startswith('/pages/find?container='), text, 'is sent to', came.address)
            number = ''.join(letter for letter in text if letter not in ' +-').upper() if text.isascii() else text
            fault = number_fault(number)
            if fault is None:
                self.expect((came.status, came.text) == self.served.owed('/pages/containers/' + number), text, 'is not', number)
            elif fault == 'Form':
                name = looks.collapsed('Find ' + shown_as(text.encode().decode('latin-1')))     # byte by byte
                self.expect((came.status, looks.collapsed(shows.heading)) == (200, name), text, 'gives', came.status, shows.heading)
            else:
                self.expect((came.status, shows.heading) == (404, 'Another check digit'), text, 'gives', came.status, shows.heading)
            if fault not in (None, 'Form'):
                right = number[:10] + str(check_digit(number[:10]))
                self.click(shows.links.index(('/pages/containers/' + right, right)), '/pages/containers/' + right)

    # ---- what else a page does

    def focused(self):
        """The start page by the keyboard: each link, field and button once, and each is seen to have the focus."""
        self.arrived(self.chromium.open(self.served.url('/')))
        wanted = self.chromium.value('[...document.querySelectorAll("a, input, button")].map(e => e.localName)')
        for name in wanted:
            self.chromium.press('Tab', 9)
            has_focus, words, is_seen = self.chromium.value(looks.FOCUSED)
            self.expect((has_focus, is_seen) == (name, True), 'focus of', has_focus, words, is_seen)

    def asks_again(self, path, text):
        """A page asks again by itself, and then shows what was delivered meanwhile. On a busy machine it may have asked before
        that, or more often."""
        self.again.append(path)
        came = before = self.chromium.open(self.served.url(path))
        shown = self.arrived(before).shown
        self.served.deliver(text)
        for _time in range(TIMES):
            if came.text == before.text:
                came = self.chromium.moved(lambda: self.chromium.wait(AGAIN + 1))
        self.expect(self.arrived(came, self.served.url(path)).shown != shown, path, 'shows the same again')

    # ---- the whole

    def elsewhere(self):
        """The browser has asked for these pages, one after the other, and for nothing else; and it has had nothing to say but that
        there is nothing at an address."""
        logged = self.served.asked(len(self.chromium.asked))
        for who, asked, form in (
                ('', self.chromium.asked, self.served.url), ('the program was ', logged, lambda path: 'GET ' + path[:LOGGED])):
            again = list(map(form, self.again))
            wanted = without_repeats(list(map(form, self.opened)), again)
            self.expect(without_repeats(asked, again) == wanted, who + 'asked for', asked[-3:])
        said = [text for text in self.chromium.said if ' 404 ' not in text]
        self.expect(not said, 'the browser says', said[:3])


def typed_texts(office):
    """What is typed on a store: first containers of its yard, as people write them."""
    terminal = office.fold().terminal
    boxes = (sorted(terminal.yard) or ['ABCU0000017'])[:2] + [visit.number for visit in terminal.visits if visit.exit][:1]
    for box in boxes:
        yield box
        yield '%s %s-%s' % (box[:4].lower(), box[4:10], box[10])
        yield box[:10] + str((int(box[10]) + 1) % 10)
    yield from (
        '', ' ', '-', 'ABCU 000001', 'ABCU9999990', 'ABCU00000177', '0000017', '%', '%41BCU0000017', '+ABCU0000017+', 'ABCU0000017&x=1',
        "'><script>alert(1)</script>", '"onfocus="alert(1)', '<b>ABCU0000017</b>', '&amp;', '\u00e4\u00f6\u00fc\u0080\u00ff\u20ac\U0001f600',
        'ABCU\u00a00000017', 'A' * 300)
