"""The picture of the yard: what the browser holds of it, and how it lies on a desk and on a phone."""
from html.parser import HTMLParser

from model.lookups import standing
from model.names import slot_of, slot_text
from model.picture import is_forty
from model.words import load_text

WIDTHS = {'desk': (1280, 800), 'phone': (390, 844)}
VIEWS = {('wide', 'desk'): 'picture_desk.png', ('wide', 'phone'): 'picture_phone.png'}
LEAST_CELL = 60             # pixels across, at any width of the window
LEAST_LINK = 44             # pixels up, what a thumb hits
PAPER = (1045, 720)         # A4 across, between its margins
LEAST_ON_PAPER = 48         # pixels across of a cell: its smallest letters are 2.2 mm high
BAYS_ON_PAPER = 20          # in each part of a row

# Where the page lies: the window and the page across, the narrowest cell, the lowest link, how many rows can't be scrolled to their
# end and how many containers have lettering beyond their shape, and the links that lead to their block.
MEASURES = '''(() => {
const box = e => e.getBoundingClientRect(), all = (e, what) => [...e.querySelectorAll(what)];
const rows = all(document, 'figure'), links = all(document, 'nav a');
const view = row => row.querySelector('.row');
const cell = row => 64 * box(view(row)).width / view(row).viewBox.baseVal.width;
const scrolls = row => getComputedStyle(row).overflowX === 'auto';
const ends = row => {
    row.scrollLeft = scrolls(row) ? 1e6 : 0;
    return box(view(row)).right <= box(row).right + 1;
};
const holds = (out, e) => out.left <= e.left && e.right <= out.right && out.top <= e.top && e.bottom <= out.bottom + 1;
const fits = g => all(g, 'text').every(text => holds(box(g.querySelector('use')), box(text)));
const leads = link => {
    link.click();
    const block = document.querySelector(link.hash), top = box(block).top;
    const is_named = block.matches('section') && block.innerText.startsWith(link.innerText);
    return is_named && 0 <= Math.round(top) && top < innerHeight;
};
return {
    frame: innerWidth,
    page: document.documentElement.scrollWidth,
    cell: Math.min(...rows.map(cell)),
    link: links.length ? Math.min(...links.map(link => box(link).height)) : null,
    endless: rows.filter(row => !ends(row)).length,
    beyond: all(document, 'g[transform]').filter(g => !fits(g)).length,
    links: links.filter(leads).map(link => link.innerText)};
})()'''

# What paper shows: the narrowest cell, how many parts each row is in, and how many rows are there as on a screen.
ON_PAPER = '''(() => {
const box = e => e.getBoundingClientRect(), all = (e, what) => [...e.querySelectorAll(what)];
const cell = part => 64 * box(part).width / part.viewBox.baseVal.width;
return {
    cell: Math.min(...all(document, 'svg.paper').map(cell)),
    parts: all(document, 'figure').map(row => all(row, 'svg.paper').filter(part => box(part).height).length),
    wide: all(document, 'svg.row').filter(row => box(row).width).length};
})()'''


# ---- the page as the browser holds it

class Held(HTMLParser):
    """Each container's place, shape, title and lettering, each script, and how many rows there are."""

    def __init__(self, text):
        super().__init__()
        self.drawn, self.scripts, self.rows, self.words = [], 0, 0, None
        self.feed(text)

    def handle_starttag(self, tag, attrs):
        values = dict(attrs)
        if tag == 'g' and 'transform' in values:
            self.words = [values['transform']]
        elif tag == 'use' and self.words:
            self.words.append(values['href'])
        self.scripts += tag == 'script'
        self.rows += tag == 'figcaption'

    def handle_endtag(self, tag):
        if tag == 'g' and self.words:
            self.drawn.append(tuple(self.words))
            self.words = None

    def handle_data(self, data):
        if self.words:
            self.words.append(data)


def wanted(office):
    """What has to be drawn."""
    standings = [(slot_of(text), visit) for text, visit in standing(office.fold().terminal)]
    return sorted(
        ('translate(%d -%d)' % (32 * slot.bay, 40 * slot.tier),
         '%s %s %s %s' % (visit.number, visit.size_type, load_text(visit), slot_text(slot)),
         '#%s%s' % ('full' if visit.is_full else 'empty', 40 if is_forty(slot) else 20),
         visit.number[:4], visit.number[4:], slot_text(slot))
        for slot, visit in standings)


def misplaced(office, width, found):
    """What is wrong with where a page lies in a window of that width, in words, by its measures."""
    plan = office.setup.plan
    faults_by_name = {
        'the window is %(frame)d across': found['frame'] != width,
        'the page is %(page)d across': found['page'] > width,
        'a cell of %(cell)d': found['cell'] < LEAST_CELL,
        'a link of %(link)s': found['link'] is not None and found['link'] < LEAST_LINK,
        '%(endless)d rows without an end': found['endless'],
        '%(beyond)d containers with lettering beyond them': found['beyond'],
        'links that lead: %(links)s': found['links'] != ['Block ' + block.letter for block in plan if len(plan) > 1]}
    return [fault % found for fault, applies in faults_by_name.items() if applies]


def misprinted(office, found):
    """What is wrong with the page on paper, in words."""
    parts = [-(-block.bays // BAYS_ON_PAPER) for block in office.setup.plan for _row in range(block.rows)]
    faults_by_name = {
        'on paper a cell of %(cell)d': found['cell'] < LEAST_ON_PAPER,
        'on paper rows in %(parts)s parts': found['parts'] != parts,
        'on paper %(wide)d rows as on a screen': found['wide'] > 0}
    return [fault % found for fault, applies in faults_by_name.items() if applies]


def misdrawn(office, text):
    """What is wrong with a page as the browser holds it, in words."""
    held, drawn = Held(text), wanted(office)
    found = []
    if sorted(held.drawn) != drawn:
        found.append('%d containers drawn, %d in the yard, or not the same' % (len(held.drawn), len(drawn)))
    if held.rows != sum(block.rows for block in office.setup.plan):
        found.append('%d rows' % held.rows)
    if held.scripts:
        found.append('a script')
    if '//' in text:
        found.append('an address')
    return found


def look(chromium, served, width, saved):
    """What is wrong with the picture of a yard at one width. Keeps a view of it."""
    chromium.resize(*WIDTHS[width])
    came = chromium.open(served.url('/picture'))
    chromium.save(saved)
    found = [] if (came.status, came.text) == served.owed('/picture') else ["it is not the model's"]
    found += misdrawn(served.office, chromium.value('document.documentElement.outerHTML'))
    found += misplaced(served.office, WIDTHS[width][0], chromium.value(MEASURES))
    chromium.resize(*PAPER, is_paper=True)
    found += misprinted(served.office, chromium.value(ON_PAPER))
    print('picture, %s: %d containers, %d bytes' % (width, len(wanted(served.office)), len(came.text)), flush=True)
    return ['picture, %s: %s' % (width, fault) for fault in found]
