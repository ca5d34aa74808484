"""How a page looks to a browser: what it holds, where it lies at a phone's width and a desk's, its colours, and what it says to
who hears it."""
import re
from collections import namedtuple
from html.parser import HTMLParser

WIDTHS = {'phone': (360, 800), 'desk': (1000, 800)}
PAPER = 718                 # A4 with margins of a centimetre, in pixels of CSS
LEAST_CONTRAST = 4.5
MOST_FRAME = 20000          # bytes of a page without its text

# what of a page is compared: its title, heading, what its reports show, all that its middle shows, and its links, each with
# its address and what it shows
Held = namedtuple('Held', 'title heading report shown links')

HELD = '''(() => {
    const text = what => { const found = document.querySelector(what); return found ? found.textContent : null; };
    const reports = [...document.querySelectorAll('pre')].map(each => each.textContent);
    return [document.title, text('h1'), reports.length ? reports.join('') : null, text('main'),
        [...document.links].map(link => [link.getAttribute('href'), link.textContent])];
})()'''

# what is wrong with a page, in words: where it lies, which lettering has too little contrast, what has no name
WRONG = '''(() => {
    const all = (what, e = document) => [...e.querySelectorAll(what)], faults = [];
    const expect = (holds, fault) => holds || faults.push(fault);
    const is_shown = e => e.getClientRects().length > 0;

    const values = colour => {
        const drawn = Object.assign(document.createElement('canvas'), {width: 1, height: 1}).getContext('2d');
        drawn.fillStyle = colour;
        drawn.fillRect(0, 0, 1, 1);
        return [...drawn.getImageData(0, 0, 1, 1).data];
    };
    const part = value => value <= 0.04045 ? value / 12.92 : ((value + 0.055) / 1.055) ** 2.4;
    const light = ([red, green, blue]) => 0.2126 * part(red / 255) + 0.7152 * part(green / 255) + 0.0722 * part(blue / 255);
    const contrast = (one, other) => {
        const [less, more] = [light(values(one)), light(values(other))].sort((x, y) => x - y);
        return (more + 0.05) / (less + 0.05);
    };
    const ground = e => {
        for (; e; e = e.parentElement) {
            const colour = getComputedStyle(e).backgroundColor;
            if (values(colour)[3] === 255) return [colour];
        }
        return ['#ffffff'];
    };
    const paints = e => [e, ...all('*', e)].flatMap(each => ['fill', 'stroke'].map(what => each.getAttribute(what))).flatMap(
        paint => !paint || paint === 'none' ? [] : paint.startsWith('url(') ? paints(all(paint.slice(4, -1))[0]) : [paint]);
    const shape = e => e.matches('g[transform] > text') && all(all('use', e.parentElement)[0].getAttribute('href'))[0];
    const behind = e => shape(e) ? paints(shape(e)).filter(paint => paint !== shape(e).getAttribute('stroke')) : ground(e);
    const ink = e => e.matches('text') ? getComputedStyle(e).fill : getComputedStyle(e).color;
    const seen = new Map();
    const readable = (name, colour, grounds) => grounds.forEach(each => {
        const key = colour + ' on ' + each;
        if (!seen.has(key)) seen.set(key, contrast(colour, each));
        expect(seen.get(key) >= %(contrast)g, `contrast of ${name}: ${key}`);
    });
    const texts = document.createTreeWalker(document.body, NodeFilter.SHOW_TEXT);
    while (texts.nextNode()) {
        const e = texts.currentNode.parentElement;
        if (texts.currentNode.data.trim() && !e.matches('title') && is_shown(e)) readable(e.localName, ink(e), behind(e));
    }
    all('input').filter(is_shown).forEach(e => {
        readable('input', getComputedStyle(e).color, ground(e));
        readable('placeholder', getComputedStyle(e, '::placeholder').color, ground(e));
    });

    const page = document.documentElement;
    expect(page.scrollWidth <= innerWidth, `${page.scrollWidth} across in ${innerWidth}`);
    expect(document.body.scrollWidth <= innerWidth, `the body is ${document.body.scrollWidth} across in ${innerWidth}`);
    expect(innerWidth === %(width)d, `the window is ${innerWidth} across`);
    expect(page.lang === 'en', 'no language');
    expect(document.title.trim(), 'no title');
    expect(document.characterSet === 'UTF-8', 'characters: ' + document.characterSet);
    expect(document.compatMode === 'CSS1Compat', 'no doctype');
    expect(all('h1').length === 1, 'headings: ' + all('h1').length);
    expect(all('main').length === 1, 'middles: ' + all('main').length);
    expect(all('meta[name=viewport]').length === 1, 'no viewport');
    expect(!all('script, iframe, object, embed, img, link:not([href^="data:"]), [style], base').length, 'what no page has');
    expect(all('*').every(e => [...e.attributes].every(each => !each.name.startsWith('on'))), 'a script in an attribute');
    all('input, button, a').filter(is_shown).forEach(e => expect((e.computedName || '').trim(), `no name: ${e.outerHTML}`));
    all('input').forEach(e => expect(e.labels.length === 1 && e.labels[0].textContent.trim(), `no label: ${e.outerHTML}`));
    all('a').forEach(e => expect(e.getAttribute('href') && !e.hash || ['/picture', '/pages/picture'].includes(e.pathname), `odd link: ${e.outerHTML}`));
    return [...new Set(faults)];
})()'''

# whether what has the focus is seen to have it
FOCUSED = '''(() => {
    const e = document.activeElement, style = getComputedStyle(e);
    return [e.localName, e.textContent.trim() || e.name, style.outlineStyle !== 'none' && parseFloat(style.outlineWidth) >= 2];
})()'''
# what is wrong with a page on paper: of what is for clicking nothing, of the report all, dark on white
ON_PAPER = '''(() => {
    const is_shown = e => e.getClientRects().length > 0, all = what => [...document.querySelectorAll(what)];
    const faults = all('header, .beside').filter(is_shown).map(e => 'on paper: ' + e.localName);
    const white = ['rgba(0, 0, 0, 0)', 'rgb(255, 255, 255)'];
    const wide = document.documentElement.scrollWidth;
    return faults.concat(
        wide > innerWidth ? [`${wide} across on paper of ${innerWidth}`] : [],
        all('h1, pre').every(is_shown) ? [] : ['nothing on paper'],
        white.includes(getComputedStyle(document.body).backgroundColor) ? [] : ['paper has another ground']);
})()'''


def collapsed(text):
    """A text as a title shows it: one space for each run of spaces and line ends, none at its ends."""
    return ' '.join(re.findall('[^\t\n\f\r ]+', text))


class Reader(HTMLParser):
    """The same of a text, by a reader that is no browser."""

    def __init__(self, text):
        super().__init__()
        self.inside, self.texts, self.links, self.begins_report = [], {}, [], False
        self.feed(text)

    def handle_starttag(self, tag, attrs):
        if tag == 'title' and 'main' in self.inside:
            return                      # of a container in the picture
        if tag == 'a' and 'svg' in self.inside:
            return                      # of a container in the picture, which is none of a document's links
        if tag in ('title', 'h1', 'pre', 'main', 'a', 'svg'):
            self.inside.append(tag)
            self.texts.setdefault(tag, '')
        self.begins_report = tag == 'pre'
        if tag == 'a':
            self.links.append([dict(attrs)['href'], ''])

    def handle_endtag(self, tag):
        if tag in self.inside and not (tag == 'a' and 'svg' in self.inside):
            self.inside.remove(tag)

    def handle_data(self, data):
        if self.begins_report and data.startswith('\n'):
            data = data[1:]             # a line's end right after `<pre>` is not shown
        self.begins_report = False
        for tag in self.inside:
            self.texts[tag] += data
        if 'a' in self.inside:
            self.links[-1][1] += data

    def held(self):
        """What of it is compared."""
        title, *others = (self.texts.get(tag) for tag in ('title', 'h1', 'pre', 'main'))
        return Held(collapsed(title), *others, self.links)


def held(chromium):
    """What the browser holds."""
    return Held(*chromium.value(HELD))


def wrong(chromium, came, sizes=WIDTHS):
    """What is wrong with how a page looks, at each width and on paper."""
    frame = len(came.text.partition('<main>')[0] + came.text.rpartition('</main>')[2])
    found = [] if frame <= MOST_FRAME else ['%d bytes without its text' % frame]
    for width, height in sizes.values():
        chromium.resize(width, height)
        found += chromium.value(WRONG % dict(contrast=LEAST_CONTRAST, width=width))
    return found


def wrong_on_paper(chromium):
    """What is wrong with how it is printed. The window is a desk's again after it."""
    chromium.resize(PAPER, 1000, is_paper=True)
    found = chromium.value(ON_PAPER)
    chromium.resize(*WIDTHS['desk'])
    return found
