"""The picture of the yard (own): docs/PROFILE.md, *The picture of the yard*.

One page of HTML that needs nothing from elsewhere and no script. A cell is 64 wide and 40 high at any width of the window:
a row that is wider scrolls by itself. Bay b has its middle at 32 b, so that a forty in an even bay lies over the two odd
ones beside it. Tier t has its top 40 t above the ground.
"""
from .lookups import standing
from .names import slot_of, slot_text
from .words import load_text

STYLE = '''\
*{box-sizing:border-box}
body{margin:0;background:#eef2f6;color:#16263a;font:16px/1.4 system-ui,Roboto,'DejaVu Sans',sans-serif}
main{padding:1.5rem 1rem 3rem}
h1{margin:0;font-size:2rem;line-height:1.2;overflow-wrap:anywhere}
h2{margin:0 0 .5rem;font-size:1.25rem}
p,small,li{color:#526375;font-size:.875rem;font-weight:400}
p{margin:.25rem 0 0;font-size:1rem}
b{color:#16263a}
small{margin-left:.75rem}
nav{display:flex;flex-wrap:wrap;gap:.5rem;margin-top:1rem}
a{padding:.7rem 1rem;background:#fff;border:1px solid #c6d0da;border-radius:.5rem;color:#1f5a8c}
ul{display:flex;flex-wrap:wrap;gap:.5rem 1.5rem;margin:1rem 0 0;padding:0;list-style:none}
li{display:flex;align-items:center;gap:.5rem}
section{margin-top:1.25rem;padding:1rem;background:#fff;border:1px solid #c6d0da;border-radius:.5rem}
div{display:flex;flex-wrap:wrap;gap:1rem 2rem}
figure{margin:0;max-width:100%;overflow-x:auto}
figcaption{position:sticky;left:0;font-size:.875rem;font-weight:600}
svg{display:block;flex:none}
svg.parts{position:absolute;width:0;height:0}
svg.paper{display:none}
text{text-anchor:middle;font:600 11px ui-monospace,'DejaVu Sans Mono',Menlo,Consolas,monospace;fill:#16263a}
.parts text{font-weight:400;fill:#526375}
use~text:last-child{font-weight:400}
[href^='#full']~text{fill:#fff}
[href^='#empty']~text{stroke:#fff;stroke-width:3.5px;paint-order:stroke}
@media(max-width:40rem){main{padding:1rem .5rem 2rem}section{padding:.75rem .5rem}}
@page{size:landscape;margin:1cm}
@media print{body{background:none}main,section{padding:0}section{border:0}nav{display:none}figure{break-inside:avoid}figure svg{max-width:100%;height:auto}h2{break-after:avoid}svg.row{position:absolute;width:0;height:0}svg.paper{display:block}}
'''
TOP = '''\
<!doctype html>
<html lang='en'>
<head>
<meta charset='utf-8'>
<meta name='viewport' content='width=device-width,initial-scale=1'>
<link rel='icon' href='data:,'>
<style>
'''
HEAD = TOP + STYLE + '</style>\n'
SHAPES = '''\
</head>
<body>
<svg class='parts'>
<pattern id='hatch' width='6' height='6' patternUnits='userSpaceOnUse' patternTransform='rotate(45)'><path d='M0 0H6V6H0Z' fill='#fff'/><path d='M0 1H6' stroke='#dba170' stroke-width='2'/></pattern>
<pattern id='free' width='64' height='40' patternUnits='userSpaceOnUse'><rect x='2.5' y='3.5' width='59' height='35' rx='2' fill='#f7f9fb' stroke='#9fb0c0' stroke-dasharray='3'/></pattern>
<rect id='full20' x='-30' y='3' width='60' height='36' rx='2' fill='#1f5a8c' stroke='#0f3450' stroke-width='1.5'/>
<rect id='full40' x='-62' y='3' width='124' height='36' rx='2' fill='#1f5a8c' stroke='#0f3450' stroke-width='1.5'/>
<rect id='empty20' x='-30' y='3' width='60' height='36' rx='2' fill='url(#hatch)' stroke='#a04c0a' stroke-width='1.5'/>
<rect id='empty40' x='-62' y='3' width='124' height='36' rx='2' fill='url(#hatch)' stroke='#a04c0a' stroke-width='1.5'/>
</svg>
<main>
'''
LEGEND = '''\
<ul>
<li><svg viewBox='-32 0 64 40' width='64' height='40'><use href='#full20'/></svg>full</li>
<li><svg viewBox='-32 0 64 40' width='64' height='40'><use href='#empty20'/></svg>empty</li>
<li><svg viewBox='-64 0 128 40' width='128' height='40'><use href='#full40'/></svg>a forty, over two bays</li>
<li><svg viewBox='0 0 64 40' width='64' height='40'><path d='M0 0H64V40H0Z' fill='url(#free)'/></svg>free</li>
<li>bays along, tiers up</li>
</ul>
'''


def escaped(text):
    """A field with no markup: five characters by their names, each byte from 0x80 by its number."""
    names = {'&': '&amp;', '<': '&lt;', '>': '&gt;', '"': '&quot;', "'": '&apos;'}
    return ''.join(names.get(c, c if ord(c) < 0x80 else '&#%d;' % ord(c)) for c in text)


def is_forty(slot):
    """A forty stands in an even bay."""
    return slot.bay % 2 == 0


def container(slot, visit):
    """Its shape, its number in two lines, its slot, and its title."""
    shape = ('full' if visit.is_full else 'empty') + ('40' if is_forty(slot) else '20')
    title = '%s %s %s %s' % (visit.number, visit.size_type, load_text(visit), slot_text(slot))
    return "<g transform='translate(%d -%d)'><title>%s</title><use href='#%s'/>" % (
        32 * slot.bay, 40 * slot.tier, escaped(title), shape
    ) + "<text y='13'>%s</text><text y='24'>%s</text><text y='36'>%s</text></g>\n" % (
        escaped(visit.number[:4]), escaped(visit.number[4:]), escaped(slot_text(slot)))


def grid(block):
    """What all rows of a block have: its free cells, the ground, the numbers of bays and tiers."""
    cells = "<svg class='parts'><g id='%s'><path d='M0 0H%dV-%dH0Z' fill='url(#free)'/>" % (
        escaped(block.letter), 64 * block.bays, 40 * block.tiers)
    ground = "<path d='M-3 0H%dh3' stroke='#16263a'/>" % (64 * block.bays)
    bays = ["<text x='%d' y='15'>%d</text>" % (32 * bay, bay) for bay in range(1, 2 * block.bays, 2)]
    tiers = ["<text x='-11' y='-%d' dy='25'>%d</text>" % (40 * tier, tier) for tier in range(1, block.tiers + 1)]
    return cells + ground + ''.join(bays + tiers) + '</g></svg>\n'


def row_view(block, row, standings):
    """A side view: the grid, and the containers over it; for paper also in parts of 20 bays, which show it again."""
    letter, up, high = escaped(block.letter), 40 * block.tiers, 40 * block.tiers + 20
    width = 64 * block.bays + 28
    head = "<figure><figcaption>Row %d</figcaption><svg class='row' viewBox='-22 -%d %d %d' width='%d'>" % (
        row, up, width, high, width)
    group = "<g id='%s-%d'><use href='#%s'/>\n" % (letter, row, letter)
    containers = [container(slot, visit) for slot, visit in standings if slot.row == row]
    wide = 64 * min(block.bays, 20) + 28
    parts = ["<svg class='paper' viewBox='-22 -%d %d %d' width='%d'><use href='#%s-%d' x='-%d'/></svg>\n" % (
        up, wide, high, wide, letter, row, start) for start in ([0] if block.bays <= 20 else [0, 1302])]
    return head + group + ''.join(containers) + '</g></svg>\n' + ''.join(parts) + '</figure>\n'


def block_view(block, every):
    """How many cells are used, and each row."""
    standings = [(slot, visit) for slot, visit in every if slot.block == block.letter]
    used = sum(2 if is_forty(slot) else 1 for slot, _visit in standings)
    head = "<section id='block-%s'><h2>Block %s<small>%d of %d cells used</small></h2>\n" % (
        escaped(block.letter), escaped(block.letter), used, block.bays * block.rows * block.tiers)
    rows = ''.join(row_view(block, row, standings) for row in range(1, block.rows + 1))
    return head + grid(block) + '<div>\n' + rows + '</div></section>\n'


def index(plan):
    """A link to each block, where there is more than one."""
    links = ["<a href='#block-%s'>Block %s</a>\n" % (escaped(block.letter), escaped(block.letter)) for block in plan]
    return '<nav>\n' + ''.join(links) + '</nav>\n' if len(links) > 1 else ''


def page(name, plan, standings):
    """The page of a terminal's name, its blocks, and the containers in them, by the texts of their slots."""
    full = sum(visit.is_full for _slot, visit in standings)
    counts = '<p><b>%d</b> containers: <b>%d</b> full, <b>%d</b> empty</p>\n' % (
        len(standings), full, len(standings) - full)
    title = '<title>Yard of %s</title>\n' % escaped(name)
    heading = '<h1>Yard of %s</h1>\n' % escaped(name)
    blocks = ''.join(block_view(block, standings) for block in plan)
    return HEAD + title + SHAPES + heading + counts + index(plan) + LEGEND + blocks + '</main>\n</body>\n</html>\n'


def picture(office):
    """The page of an office's yard."""
    setup = office.setup
    standings = [(slot_of(text), visit) for text, visit in standing(office.fold().terminal)]
    return page(setup.terminal, setup.plan, standings)
