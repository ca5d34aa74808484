"""The pages of reports (own), each from what its report tells: tables with headings and sums, states as words on colours, and
links to what things name.

A page is at `/pages` and the path of its report. It needs no script and nothing from elsewhere. The picture is that of pages.py.
"""
import json
import re

from .deliveries import run
from .lookups import (
    going_down, open_on, own_lines, own_visits, standing, standing_visit, waiting, cell_count)
from .meanings import MEANINGS
from .moments import day_number
from .names import slot_text
from .picture import TOP, escaped
from .reports import as_text, reported
from .words import moment_text
from .yard import blocker, cells

STYLE = '''\
:root{color-scheme:light dark;--ground:#eef2f6;--sheet:#fff;--band:#f7f9fb;--ink:#16263a;--faint:#526375;--edge:#c6d0da;--rule:#dde4eb;--link:#1f5a8c;--focus:#a04c0a;--here:#dfe9f2;--track:#d5dee6;--part:#1f5a8c;--tight:#a04c0a;--whole:#2f7d4f;--ok:#e2f2e8;--ok-edge:#8fc3a3;--ok-ink:#14532d;--wait:#fdf0e3;--wait-edge:#dba170;--wait-ink:#7a3906;--bad:#fbe6e6;--bad-edge:#d99a9a;--bad-ink:#7d1a1a;--off:#eef2f6;--off-edge:#9fb0c0;--off-ink:#38485a;--full:#1f5a8c;--full-edge:#0f3450;--hatch:#f3dcc6}
@media screen and (prefers-color-scheme:dark){:root{--ground:#101922;--sheet:#18242f;--band:#1d2b38;--ink:#e4ebf2;--faint:#a9b8c6;--edge:#3d4d5d;--rule:#2c3a48;--link:#8fc3f0;--focus:#f0a060;--here:#24405a;--track:#334454;--part:#4f9bd9;--tight:#e08a45;--whole:#57b07c;--ok:#16382a;--ok-edge:#3f7d5c;--ok-ink:#b5e6c8;--wait:#40290f;--wait-edge:#8a5a2a;--wait-ink:#f4cfa5;--bad:#451e1e;--bad-edge:#8f4747;--bad-ink:#f5c2c2;--off:#24313e;--off-edge:#5a6d80;--off-ink:#c3cfda;--full:#1f5a8c;--full-edge:#8fc3f0;--hatch:#4a3218}}
*{box-sizing:border-box}
body{margin:0;background:var(--ground);color:var(--ink);font:16px/1.45 system-ui,Roboto,'DejaVu Sans',sans-serif}
header{background:var(--sheet);border-bottom:1px solid var(--edge)}
header>div,main{max-width:75rem;margin:0 auto;padding:.75rem 1rem}
header>div{display:flex;flex-wrap:wrap;gap:.5rem 1.5rem;align-items:center;justify-content:space-between}
main{padding:1.5rem 1rem 3rem}
nav,form,.beside,.only{display:flex;flex-wrap:wrap;gap:.25rem .5rem;align-items:center}
a{color:var(--link);text-underline-offset:.2em}
nav a,.beside a,.only a{padding:.55rem .75rem;border-radius:.5rem;text-decoration:none}
nav a:hover,.beside a:hover,.only a:hover{text-decoration:underline}
[aria-current]{background:var(--here);color:var(--ink);font-weight:600}
label{font-weight:600}
input,button{padding:.55rem .75rem;border:1px solid var(--faint);border-radius:.5rem;background:var(--sheet);color:var(--ink);font:inherit}
input{width:11rem;font-family:ui-monospace,'DejaVu Sans Mono',Menlo,Consolas,monospace}
input::placeholder{color:var(--faint)}
button{border-color:var(--full-edge);background:var(--full);color:#fff;font-weight:600}
:focus-visible{outline:3px solid var(--focus);outline-offset:2px}
h1{margin:0;font-size:1.75rem;line-height:1.2;overflow-wrap:anywhere}
h1 small{display:block;margin:0 0 .25rem;font-size:.875rem;font-weight:400;color:var(--faint)}
h2{display:flex;flex-wrap:wrap;gap:0 .75rem;align-items:baseline;margin:0;padding:.9rem 1rem;font-size:1.125rem}
h2 small,.note{font-size:.875rem;font-weight:400;color:var(--faint)}
.beside,.only{margin:.75rem 0 0}
.beside a,.only a{background:var(--sheet);border:1px solid var(--edge)}
.only [aria-current]{background:var(--full);border-color:var(--full-edge);color:#fff}
section{margin:1.25rem 0 0;background:var(--sheet);border:1px solid var(--edge);border-radius:.5rem;overflow-x:auto}
section>p{margin:0;padding:.75rem 1rem}
.fine{border-top:1px solid var(--rule);color:var(--faint)}
.two{display:grid;grid-template-columns:repeat(auto-fit,minmax(min(100%,30rem),1fr));gap:0 1.25rem;align-items:start}
table{width:100%;border-collapse:collapse}
th,td{padding:.6rem .5rem;border-top:1px solid var(--rule);text-align:left;vertical-align:baseline}
th:first-child,td:first-child{padding-left:1rem}
th:last-child,td:last-child{padding-right:1rem}
thead th{padding-top:.4rem;padding-bottom:.4rem;background:var(--band);font-size:.8125rem;font-weight:400;color:var(--faint)}
tbody th{font-weight:600}
tfoot td,tfoot th{background:var(--band);font-weight:600}
.n{text-align:right;font-variant-numeric:tabular-nums;white-space:nowrap}
.m{font-family:ui-monospace,'DejaVu Sans Mono',Menlo,Consolas,monospace;font-size:.9375rem;white-space:nowrap}
.r{white-space:nowrap}
.s{display:inline-block;padding:.05rem .55rem;border:1px solid;border-radius:1rem;font-size:.875rem;font-weight:600;white-space:nowrap}
.ok{background:var(--ok);border-color:var(--ok-edge);color:var(--ok-ink)}
.wait{background:var(--wait);border-color:var(--wait-edge);color:var(--wait-ink)}
.bad{background:var(--bad);border-color:var(--bad-edge);color:var(--bad-ink)}
.off{background:var(--off);border-color:var(--off-edge);color:var(--off-ink)}
.full{background:var(--full);border-color:var(--full-edge);color:#fff}
.empty{background:repeating-linear-gradient(45deg,var(--sheet) 0 4px,var(--hatch) 4px 6px);border-color:var(--wait-edge);color:var(--wait-ink)}
progress{appearance:none;-webkit-appearance:none;display:inline-block;width:100%;min-width:4rem;height:.75rem;border:0;border-radius:.5rem;background:var(--track);overflow:hidden;vertical-align:middle;color:var(--part)}
.tight{color:var(--tight)}
.whole{color:var(--whole)}
progress::-webkit-progress-bar{background:var(--track)}
progress::-webkit-progress-value{background:currentColor}
progress::-moz-progress-bar{background:currentColor}
.sum{display:grid;grid-template-columns:repeat(auto-fit,minmax(8.5rem,1fr));gap:.75rem;margin:1.25rem 0 0;padding:0;list-style:none}
.sum li{padding:.75rem 1rem;background:var(--sheet);border:1px solid var(--edge);border-radius:.5rem;color:var(--faint);font-size:.875rem}
.sum b{display:block;color:var(--ink);font-size:1.5rem;line-height:1.2;font-variant-numeric:tabular-nums}
.how{width:45%;white-space:nowrap}
.how span{display:inline-block;width:9rem;font-variant-numeric:tabular-nums}
.how progress{width:calc(100% - 9rem)}
.far{display:flex;flex-wrap:wrap;gap:.25rem 1rem;align-items:center;margin:1rem 0 0}
.far progress{flex:1 1 12rem;height:1.1rem}
.todo{margin:0;padding:0;list-style:none}
.todo li{display:flex;flex-wrap:wrap;gap:.25rem 1rem;align-items:baseline;padding:.75rem 1rem;border-top:1px solid var(--rule)}
dl{display:grid;grid-template-columns:max-content 1fr;gap:.35rem 1.25rem;margin:0;padding:.25rem 1rem 1rem}
dt{color:var(--faint)}
dd{margin:0;overflow-wrap:anywhere}
.place{display:flex;flex-wrap:wrap;gap:.5rem 1.5rem;align-items:center;padding:1rem}
.place>.m{font-size:2rem;font-weight:600;line-height:1.1}
pre{margin:0;padding:.25rem 1rem 1rem;font:14px/1.7 ui-monospace,'DejaVu Sans Mono',Menlo,Consolas,monospace;white-space:pre-wrap;overflow-wrap:anywhere}
@media(max-width:40rem){header>div{padding:.5rem}main{padding:1rem .5rem 2rem}nav{flex:1 1 100%;gap:0;justify-content:space-between}nav a{padding:.55rem .35rem;font-size:.9375rem}form{flex:1}input{flex:1;width:6rem;min-width:0}.o{display:none}th,td{padding:.55rem .3rem}th:first-child,td:first-child{padding-left:.6rem}th:last-child,td:last-child{padding-right:.6rem}h2{padding:.75rem .6rem}dl{padding-left:.6rem;padding-right:.6rem}.place,section>p,.todo li{padding:.75rem .6rem}.m{font-size:.875rem}pre{padding:.25rem .6rem .75rem;font-size:12.5px}.how span{width:auto}.how progress{display:block;width:100%;height:.5rem;margin:.35rem 0 .15rem}.sum{grid-template-columns:repeat(auto-fit,minmax(6rem,1fr));gap:.5rem}.sum li{padding:.6rem}}
@media print{body{background:none;font-size:11pt}header,.beside,.only{display:none}main{max-width:none;padding:0}section{border:0}tr,li{break-inside:avoid}thead{display:table-header-group}a{color:inherit;text-decoration:none}.s{border-color:#16263a;background:none;color:#16263a}}
'''
FINDING = '''\
</nav>
<form action='/pages/find'>
<label for='container'>Container</label>
<input id='container' name='container' placeholder='ABCU 000001 7' autocomplete='off' spellcheck='false' required%s>
<button>Find</button>
</form>
</div>
</header>
<main>
'''
END = '''\
</main>
</body>
</html>
'''
ASKED_AGAIN = "<meta http-equiv='refresh' content='60'>\n"
TABS = [('/', 'Start'), ('/pages/yard', 'Yard'), ('/pages/blocks', 'Blocks'), ('/pages/picture', 'Picture'), ('/pages/calls', 'Calls'), ('/pages/partners', 'Partners')]

# the pages that ask again each minute
ASKING = ('start', 'list', 'work', 'calls', 'partners')


# ---- what all pages have

def address(*parts):
    """Letters and digits stand for themselves, another byte for `%` and two digits."""
    return '/'.join(re.sub('[^A-Za-z0-9]', lambda c: '%%%02X' % ord(c.group()), part) for part in parts)


def framed(here, title, body, asks_again=False, typed=''):
    """A page: its title, the links to the reports without a key, of which one may be the page itself, the field, in which what was
    typed stays, and what it shows."""
    tabs = ["<a href='%s'%s>%s</a>\n" % (where, " aria-current='page'" if where == here else '', name) for where, name in TABS]
    return (TOP + STYLE + '</style>\n' + (ASKED_AGAIN if asks_again else '') + '<title>' + title
            + '</title>\n</head>\n<body>\n<header>\n<div>\n<nav>\n' + ''.join(tabs) + FINDING % (" value='%s'" % escaped(typed) if typed else '') + body + END)


def count(number):
    """With commas between thousands."""
    return '{:,}'.format(number)


def kilos(weight):
    """Nothing, if none was given."""
    return count(weight) + ' kg' if weight else ''


def box(number):
    """A container, which leads to its page."""
    return "<a class='m' href='/pages/containers/%s'>%s</a>" % (address(number), number)


def reply(partner, number):
    """An interchange, which leads to its reply."""
    return "<a href='/pages/replies/%s/%d'>%s %d</a>" % (address(partner), number, escaped(partner), number)


def call(vessel, voyage):
    """A call, as it is shown."""
    return escaped(vessel) + ' ' + escaped(voyage)


def state(kind, word):
    """A word on a colour."""
    return "<b class='s %s'>%s</b>" % (kind, word)


def load(visit):
    """Whether it is full."""
    return state('full', 'full') if visit.is_full else state('empty', 'empty')


def bar(kind, done, whole):
    """How much of a whole there is."""
    return "<progress class='%s' value='%d' max='%d' aria-label='%s of %s'></progress>" % (kind, done, whole, count(done), count(whole))


def done_bar(done, whole):
    """How much of what was to do is done."""
    return bar('whole' if done == whole else 'part', done, whole)


def columns(*names):
    """Names of columns, each with a class after a colon if it has one."""
    parted = [name.partition(':') for name in names]
    return ''.join("<th%s>%s</th>" % (" class='%s'" % kind if kind else '', name) for name, _colon, kind in parted)


def table(names, rows, none, foot=''):
    """Rows under the names of their columns, or a sentence in their place, and the end of what they stand in."""
    if not rows:
        return "<p class='fine'>%s</p>\n</section>\n" % none
    return '<table>\n<thead><tr>' + columns(*names) + '</tr></thead>\n<tbody>\n' + ''.join(rows) + '</tbody>\n' + foot + '</table>\n</section>\n'


def section(name, number, more=''):
    """What stands above a table, with how many rows it has."""
    return '<section>\n<h2>%s <small>%s%s</small></h2>\n' % (name, count(number), more)


# ---- a container

def visit_row(place, visit):
    """How it came, what it was, where it was put, and how it left."""
    def passage(stay):
        return "%s, %s<br><span class='note'>%s</span></td>" % (stay.way, reply(*stay.source), moment_text(stay.moment))

    row = "<tr><td class='n'>%s</td><td>%s<td class='o'><span class='m'>%s</span> %s</td><td class='m o'>%s</td><td class='o'>%s</td><td class='n o'>%s</td>" % (
        count(place), passage(visit.entry), visit.size_type, load(visit), slot_text(visit.entry_slot), escaped(visit.booking),
        kilos(visit.kilos))
    if visit.exit is None:
        return row + "<td>%s</td><td class='n'></td></tr>\n" % state('off', 'still here')
    return row + "<td>%s<td class='n'>%d</td></tr>\n" % (
        passage(visit.exit), day_number(visit.exit.moment) - day_number(visit.entry.moment))


def visits_of(office, number):
    """The visits of a container, with their numbers."""
    return [(place, visit) for place, visit in own_visits(office) if visit.number == number]


def visits_section(stays):
    """The table of visits."""
    names = ['Visit:n', 'In', 'Container:o', 'Slot of entry:o', 'Booking:o', 'Gross:n o', 'Out', 'Days:n']
    return section('Visits', len(stays)) + table(names, [visit_row(*stay) for stay in stays], '')


def visits(office, number):
    """The page of a container's visits."""
    title = "<h1><small>Visits of</small> %s</h1>\n<p class='beside'><a href='/pages/containers/%s'>Where it is</a></p>\n" % (number, number)
    return framed('', 'Visits of ' + number, title + visits_section(visits_of(office, number)))


def open_for(terminal, number):
    """The open lines that name it."""
    return sorted(
        (of_call, 'load discharge'.split().index(side), side, line.port or '')
        for (of_call, side, of_number), line in terminal.lines.items() if of_number == number and not line.is_done)


def wanted(terminal, number):
    """The table of these."""
    rows = ["<tr><td><a href='/pages/work/%s'>%s</a></td><td>%s</td><td class='m'>%s</td></tr>\n" % (
        address(*of_call, side), side.capitalize(), call(*of_call), escaped(port)) for of_call, _order, side, port in open_for(terminal, number)]
    return '<section>\n<h2>Wanted by</h2>\n' + table(['List', 'Call', 'Port'], rows, 'No list has an open line for it.')


def place_of(terminal, number):
    """Where it stands and what stands on it, or that it has left."""
    if number not in terminal.yard:
        return "<div class='place'>%s</div>\n" % state('off', 'has left')
    above = blocker(terminal.yard, number)
    shown = '<span>%s %s</span>' % (state('wait', 'under'), box(above)) if above else state('ok', 'free')
    return "<div class='place'>%s<span class='m'>%s</span>%s</div>\n" % (
        state('ok', 'in the yard'), slot_text(terminal.yard[number].slot), shown)


def fact(name, shown):
    """What is known of a container."""
    return '<dt>%s</dt><dd>%s</dd>\n' % (name, shown)


def facts(terminal, number, visit):
    """What it is, how it came or left, its booking and its weight, and where its block is drawn."""
    is_here = number in terminal.yard
    passage = visit.entry if is_here else visit.exit
    text = fact('Size-type', "<span class='m'>%s</span> %s" % (visit.size_type, load(visit)))
    text += fact('Came' if is_here else 'Left', 'by %s, %s, %s' % (passage.way, reply(*passage.source), moment_text(passage.moment)))
    if not is_here:
        return text
    block = terminal.yard[number].slot.block
    text += fact('Booking', escaped(visit.booking)) if visit.booking else ''
    text += fact('Gross', kilos(visit.kilos)) if visit.kilos else ''
    return text + fact('Block', "<a href='/pages/picture#block-%s'>%s in the picture</a>" % (block, block))


def container(office, number):
    """The page of a container, also of one that never came."""
    terminal, stays = office.fold().terminal, visits_of(office, number)
    body, is_wanted = '<h1><small>Container</small> %s</h1>\n<section>\n' % number, open_for(terminal, number)
    if not stays:
        mark = state('wait', 'not here yet') if is_wanted else state('off', 'never came')
        body += "<div class='place'>%s</div>\n</section>\n" % mark + wanted(terminal, number)
        return framed('', 'Container ' + number, body)
    body += '%s<dl>\n%s</dl>\n</section>\n' % (place_of(terminal, number), facts(terminal, number, stays[-1][1]))
    body += wanted(terminal, number) if number in terminal.yard or is_wanted else ''
    return framed('', 'Container ' + number, body + visits_section(stays))


# ---- a vessel

def done_view(lines):
    """How many lines are done."""
    done = sum(line.is_done for line in lines)
    return "<p class='far'>%s <b>%s of %s done</b></p>\n" % (done_bar(done, len(lines)), count(done), count(len(lines)))


def lines_of(office, vessel, voyage, side):
    """The lines of a list by container."""
    return sorted(
        (number, line) for (of_call, of_side, number), line in office.fold().terminal.lines.items()
        if of_call == (vessel, voyage) and of_side == side)


def titled(what, where, beside, vessel, voyage, side):
    """What a page on a list is called, and the link to the other page on it."""
    return "<h1><small>%s %s of</small> %s</h1>\n<p class='beside'><a href='/pages/%s/%s'>%s</a></p>\n" % (
        side.capitalize(), what, call(vessel, voyage), where, address(vessel, voyage, side), beside)


def vessel_list(office, vessel, voyage, side):
    """The page of a list."""
    lines = lines_of(office, vessel, voyage, side)
    rows = ["<tr><td>%s</td><td class='m'>%s</td><td>%s</td></tr>\n" % (
        box(number), escaped(line.port or ''), state('ok', 'done') if line.is_done else state('wait', 'open')) for number, line in lines]
    body = titled('list', 'work', 'What is left to do', vessel, voyage, side) + done_view([line for _number, line in lines])
    body += section('Lines', len(lines)) + table(['Container', 'Port', 'State'], rows, 'The list has no line.')
    return framed('/pages/calls', '%s list of %s' % (side.capitalize(), call(vessel, voyage)), body, True)


STANDING = ['Slot', 'Container', 'Size-type', 'Port']


def standing_row(terminal, number, port):
    """One that is in the yard."""
    return "<tr><td class='m'>%s</td><td>%s</td><td class='m'>%s</td><td class='m'>%s</td></tr>\n" % (
        slot_text(terminal.yard[number].slot), box(number), standing_visit(terminal, number).size_type, escaped(port or ''))


def covered_row(terminal, jobs, number, port):
    """One on which another stands, and whether that one is wanted too."""
    above = blocker(terminal.yard, number)
    note = 'on this list too' if above in [of_job for of_job, _port in jobs] else 'stays: it must move first'
    return "<tr><td class='m'>%s</td><td>%s</td><td class='m o'>%s</td><td class='m o'>%s</td><td>%s<br><span class='note'>%s</span></td></tr>\n" % (
        slot_text(terminal.yard[number].slot), box(number), standing_visit(terminal, number).size_type, escaped(port or ''), box(above), note)


def absent_rows(terminal, jobs):
    """Those that are not in the yard."""
    return ["<tr><td>%s</td><td class='m'>%s</td></tr>\n" % (box(number), escaped(port or '')) for number, port in jobs if number not in terminal.yard]


def load_sections(terminal, jobs):
    """What is free, what another stands on, and what is not in the yard."""
    here = sorted((job for job in jobs if job[0] in terminal.yard), key=lambda job: going_down(terminal.yard[job[0]].slot))
    free = [standing_row(terminal, *job) for job in here if not blocker(terminal.yard, job[0])]
    under = [covered_row(terminal, jobs, *job) for job in here if blocker(terminal.yard, job[0])]
    absent = absent_rows(terminal, jobs)
    return (section(state('ok', 'free now'), len(free), ', by slot') + table(STANDING, free, 'Nothing is free.')
            + section(state('wait', 'under another'), len(under), ', by slot, from the top down')
            + table(['Slot', 'Container', 'Size-type:o', 'Port:o', 'What stands on it'], under, 'Nothing is under another.')
            + section(state('bad', 'not in the yard'), len(absent)) + table(['Container', 'Port'], absent, 'All are in the yard.'))


def discharge_sections(terminal, jobs):
    """What is to come, and what is in the yard already."""
    here, absent = [standing_row(terminal, *job) for job in jobs if job[0] in terminal.yard], absent_rows(terminal, jobs)
    return (section(state('ok', 'to discharge'), len(absent)) + table(['Container', 'Port'], absent, 'Nothing is to be discharged.')
            + section(state('bad', 'in the yard already'), len(here)) + table(STANDING, here, 'None is in the yard already.'))


def work(office, vessel, voyage, side):
    """The page of what is left to do of a list."""
    terminal = office.fold().terminal
    body = titled('work', 'lists', 'The whole list', vessel, voyage, side)
    body += done_view([line for _number, line in lines_of(office, vessel, voyage, side)])
    body += {'load': load_sections, 'discharge': discharge_sections}[side](terminal, open_on(terminal, (vessel, voyage), side))
    return framed('/pages/calls', '%s work of %s' % (side.capitalize(), call(vessel, voyage)), body, True)


CALLS = ['Call', 'Work', 'Done', 'Open:n', '']


def lists_of(office):
    """Each list that has a line, by vessel, voyage and side, with how many of its lines are open and how many are done."""
    lines, found = own_lines(office), []
    for of_call in sorted({key[0] for key in lines}):
        for side in ('load', 'discharge'):
            done = [line.is_done for (call_of, side_of, _number), line in lines.items() if (call_of, side_of) == (of_call, side)]
            found += [(of_call, side, done.count(False), done.count(True))] if done else []
    return found


def call_row(of_call, side, pending, done):
    """How far a list is."""
    where = address(*of_call, side)
    return "<tr><th>%s</th><td><a href='/pages/work/%s'>%s</a></td><td class='how'><span>%s of %s</span>%s</td><td class='n'>%s</td><td><a href='/pages/lists/%s'>List</a></td></tr>\n" % (
        call(*of_call), where, side.capitalize(), count(done), count(pending + done), done_bar(done, pending + done),
        count(pending) if pending else state('ok', 'done'), where)


def calls(office):
    """The page of the calls."""
    lists = lists_of(office)
    body = '<h1>Calls</h1>\n<section>\n<h2>%s lists <small>%s lines open, %s done</small></h2>\n' % (
        count(len(lists)), count(sum(row[2] for row in lists)), count(sum(row[3] for row in lists)))
    return framed('/pages/calls', 'Calls', body + table(CALLS, [call_row(*row) for row in lists], 'No list has a line.'), True)


# ---- partners

def partner_rows(office):
    """Each account: its code, its kind, the number that is expected, and the numbers that wait."""
    return [(code, kind, run(office.deliveries, code) + 1, waiting(office, code)) for code, kind in office.setup.partners.items()]


def partner_cells(code, kind):
    """Its code, and what it is."""
    return "<tr><th><a href='/pages/partners/%s'>%s</a></th><td>%s</td><td class='n'>" % (address(code), escaped(code), kind)


def partners(office):
    """The page of the partners."""
    rows = partner_rows(office)
    wait = [partner_cells(code, kind) + "<b class='s wait'>%d</b></td><td class='n'>%s</td><td>%d to %d</td></tr>\n" % (
        expected, count(len(numbers)), numbers[0], numbers[-1]) for code, kind, expected, numbers in rows if numbers]
    rest = [partner_cells(code, kind) + '%d</td><td>%s</td></tr>\n' % (
        expected, reply(code, expected - 1) if expected > 1 else "<span class='note'>none yet</span>")
            for code, kind, expected, numbers in rows if not numbers]
    body = '<h1>Partners</h1>\n<section>\n<h2>Wait for a missing number <small>%s partners, %s interchanges</small></h2>\n' % (
        count(len(wait)), count(sum(len(row[3]) for row in rows)))
    body += table(['Partner', 'Kind', 'Missing:n', 'Wait:n', 'Numbers that wait'], wait, 'Nothing waits.')
    body += '<section>\n<h2>Nothing waits <small>%s partners</small></h2>\n' % count(len(rest))
    body += table(['Partner', 'Kind', 'Next number:n', 'Last reply'], rest, 'Something waits of each partner.')
    return framed('/pages/partners', 'Partners', body, True)


def partner(office, code):
    """The page of a partner."""
    expected, numbers = run(office.deliveries, code) + 1, waiting(office, code)
    shown = fact('Next number', '%d' % expected) if not numbers else fact('Missing', "<b class='s wait'>%d</b>" % expected) + fact(
        'Wait', '%s, %d to %d' % (count(len(numbers)), numbers[0], numbers[-1]))
    body = '<h1><small>Partner</small> %s</h1>\n<section>\n<dl>\n%s%s</dl>\n</section>\n<section>\n<h2>Last interchanges</h2>\n' % (
        escaped(code), fact('Kind', office.setup.partners[code]), shown)
    last = [reply(code, number) + '\n' for number in range(expected - 1, 0, -1)][:20]
    body += '<p>\n' + ''.join(last) + '</p>\n' if last else "<p class='fine'>It has sent none that was taken.</p>\n"
    return framed('', 'Partner ' + escaped(code), body + '</section>\n')


# ---- the yard

def yard(office, block=None):
    """The page of the containers in the yard, or in one of its blocks."""
    rows, title = standing(office.fold().terminal), 'Yard' + (', block ' + block if block else '')
    body = "<h1>%s</h1>\n<p class='only'>\n<a href='/pages/yard'%s>All %s</a>\n" % (
        title, '' if block else " aria-current='true'", count(len(rows)))
    for letter in 'ABCDEFGHIJKLMNOPQRSTUVWXYZ':
        inside = sum(slot[0] == letter for slot, _visit in rows)
        body += "<a href='/pages/yard/%s'%s>%s %s</a>\n" % (
            letter, " aria-current='true'" if letter == block else '', letter, count(inside)) if inside else ''
    shown = [(slot, visit) for slot, visit in rows if block in (None, slot[0])]
    full = sum(visit.is_full for _slot, visit in shown)
    foot = "<tfoot><tr><th colspan='2'>%s containers</th><td colspan='2'>%s full, %s empty</td></tr></tfoot>\n" % (
        count(len(shown)), count(full), count(len(shown) - full))
    body += '</p>\n<section>\n' + table(['Slot', 'Container', 'Size-type', 'Load'], [
        "<tr><td class='m'>%s</td><td>%s</td><td class='m'>%s</td><td>%s</td></tr>\n" % (slot, box(visit.number), visit.size_type, load(visit))
        for slot, visit in shown], 'No container is here.', foot)
    return framed('/pages/yard', title, body)


def use_cells(yard_of, numbers, cell_number):
    """How many cells are used of so many, the twenties and forties, how many have one on them, and the highest tier."""
    places = [yard_of[number] for number in numbers]
    used, twenties = sum(len(cells(place)) for place in places), sum(place.length == 20 for place in places)
    return "<td class='how'><span>%s of %s</span>%s</td><td class='n o'>%s</td><td class='n o'>%s</td><td class='n'>%s</td><td class='n o'>%s</td></tr>\n" % (
        count(used), count(cell_number), bar('tight' if cell_number * 9 <= used * 10 else 'part', used, cell_number), count(twenties),
        count(len(places) - twenties), count(sum(blocker(yard_of, number) is not None for number in numbers)),
        count(max((place.slot.tier for place in places), default=0)))


def blocks_section(terminal):
    """How full each block is, and all of them."""
    plan = sorted(terminal.plan)
    rows = ["<tr><th><a href='/pages/yard/%s'>%s</a></th>%s" % (block.letter, block.letter, use_cells(
        terminal.yard, [number for number, place in terminal.yard.items() if place.slot.block == block.letter], cell_count(block)))
        for block in plan]
    foot = '<tfoot><tr><th>All</th>%s</tfoot>\n' % use_cells(terminal.yard, list(terminal.yard), sum(map(cell_count, plan)))
    names = ['Block', 'Cells used', 'Twenties:n o', 'Forties:n o', 'Buried:n', 'Highest tier:n o']
    return section('Blocks', len(plan)) + table(names, rows, '', foot)


def blocks(office):
    """The page of the blocks."""
    return framed('/pages/blocks', 'Blocks', '<h1>Blocks</h1>\n' + blocks_section(office.fold().terminal))


# ---- an interchange

def ticket(office, partner, number):
    """The page of what an interchange did."""
    def cells_of(visit):
        return "<tr><td>%s</td><td class='m'>%s</td><td>%s</td><td" % (box(visit.number), visit.size_type, load(visit))

    seen = office.fold().terminal.visits
    entries = [cells_of(visit) + " class='m'>%s</td><td class='r'>%s</td></tr>\n" % (slot_text(visit.entry_slot), moment_text(visit.entry.moment))
               for visit in seen if visit.entry.source == (partner, number)]
    exits = [cells_of(visit) + " class='r'>%s</td></tr>\n" % moment_text(visit.exit.moment)
             for visit in seen if visit.exit and visit.exit.source == (partner, number)]
    name, where = '%s %d' % (escaped(partner), number), '%s/%d' % (address(partner), number)
    body = "<h1><small>Ticket of</small> %s</h1>\n<p class='beside'>\n<a href='/pages/replies/%s'>Reply</a>\n<a href='/pages/contrls/%s'>CONTRL</a>\n<a href='/pages/partners/%s'>Partner</a>\n</p>\n" % (
        name, where, where, address(partner))
    body += section('Came in', len(entries)) + table(['Container', 'Size-type', 'Load', 'Slot', 'Moment'], entries, 'It brought nothing in.')
    body += section('Went out', len(exits)) + table(['Container', 'Size-type', 'Load', 'Moment'], exits, 'It took nothing out.')
    return framed('', 'Ticket of ' + name, body)


# ---- a reply

def other_pages(partner, number, *pages):
    """Links to what else there is of an interchange."""
    where = '%s/%d' % (address(partner), number)
    links = ["<a href='/pages/%s/%s'>%s</a>\n" % (route, where, name) for route, name in pages]
    return "<p class='beside'>\n%s<a href='/pages/partners/%s'>Partner</a>\n</p>\n" % (''.join(links), address(partner))


def lined(contrl):
    """A CONTRL with an LF after each segment. A release character takes its meaning from the one after it."""
    return re.sub(r"\?.|'", lambda found: found[0] + ('\n' if found[0] == "'" else ''), contrl, flags=re.S)


def contrl_section(contrl):
    """The CONTRL, a segment on each line."""
    return '<section>\n<h2>CONTRL</h2>\n<pre>\n%s</pre>\n</section>\n' % escaped(lined(contrl))


def named(number):
    """The container that a line names, if its number can be read."""
    return box(number) if number else "<span class='note'>no number</span>"


def outcome(line):
    """What became of a line."""
    if line['outcome'] == 'refused':
        why = "%s <b>%s</b>: %s" % (state('bad', 'refused'), line['reason'], escaped(dict(MEANINGS)[line['reason']]))
        return why + (': ' + box(line['blocker']) if 'blocker' in line else '')
    if line['outcome'] == 'done':
        return state('ok', 'done') + (" now in <span class='m'>%s</span>" % line['slot'] if 'slot' in line else '')
    return state('ok', line['outcome']) + {'gone': ' it has left', 'listed': ' its line is open'}[line['outcome']]


def message(told):
    """A message, and what became of its lines or why it gave no orders."""
    if told['result'] == 'rejected':
        return '<section>\n<h2>Message %s %s</h2>\n<p><b>%s</b>: %s. The message gave no orders.</p>\n</section>\n' % (
            escaped(told['reference']), state('bad', 'rejected'), told['fault'], escaped(dict(MEANINGS)[told['fault']]))
    lines = told['lines']
    refused = sum(line['outcome'] == 'refused' for line in lines)
    text = '<section>\n<h2>Message %s %s <small>%s lines, %s refused</small></h2>\n' % (
        escaped(told['reference']), state('ok', 'accepted'), count(len(lines)), count(refused))
    if told.get('dropped'):
        text += '<p>%s open lines of the list that it replaced were dropped.</p>\n' % count(told['dropped'])
    rows = ["<tr><td class='n'>%s</td><td>%s</td><td>%s</td></tr>\n" % (count(line['line']), named(line.get('box')), outcome(line)) for line in lines]
    return text + table(['Line:n', 'Container', 'What became of it'], rows, 'It has no line.')


def reply_of(office, partner, number):
    """The page of the reply to an interchange that is kept."""
    answer, name = json.loads(reported(office, 'reply', [partner, number], as_text)), '%s %d' % (escaped(partner), number)
    body = '<h1><small>Reply to</small> %s</h1>\n' % name + other_pages(
        partner, number, ('tickets', 'What it did'), ('contrls', 'CONTRL'))
    if 'reply' not in answer:
        body += "<section>\n<div class='place'>%s<span>for number <b>%d</b>, which is missing</span></div>\n</section>\n" % (
            state('wait', 'waits'), answer['next'])
    else:
        body += "<section>\n<div class='place'>%s</div>\n</section>\n" % state('ok', 'taken')
        body += ''.join(message(told) for told in answer['reply']['messages']) + contrl_section(answer['reply']['contrl'])
    return framed('', 'Reply to ' + name, body)


def contrl(office, partner, number):
    """The page of the CONTRL of an interchange that was taken."""
    name = '%s %d' % (escaped(partner), number)
    body = '<h1><small>CONTRL to</small> %s</h1>\n' % name + other_pages(
        partner, number, ('tickets', 'What it did'), ('replies', 'Reply'))
    body += contrl_section(reported(office, 'contrl', [partner, number], as_text)[:-1])
    return framed('', 'CONTRL to ' + name, body)


# ---- the start page

def attention(rows, visits_ever, limit):
    """Partners whose number is missing, and visits from nine tenths of those that there may ever be; or that nothing waits."""
    lines = ["<li>%s<span><a href='/pages/partners/%s'>%s</a> waits for number <b>%d</b>: %s came after it, %d to %d</span></li>\n" % (
        state('wait', 'number missing'), address(code), escaped(code), expected, count(len(numbers)), numbers[0], numbers[-1])
             for code, _kind, expected, numbers in rows if numbers]
    if visits_ever * 10 >= limit * 9:
        lines.append('<li>%s<span>%s of %s visits so far: begin a new store soon, or nothing can enter</span></li>\n' % (
            state('bad', 'nearly full'), count(visits_ever), count(limit)))
    if not lines:
        return "<p class='fine'>Nothing waits, and there is room for %s more visits.</p>\n</section>\n" % count(limit - visits_ever)
    return "<ul class='todo'>\n" + ''.join(lines) + '</ul>\n</section>\n'


def sums(terminal, rows, visit_number):
    """How much there is of what."""
    twenties = sum(place.length == 20 for place in terminal.yard.values())
    told = [(len(terminal.yard), 'containers in the yard'), (twenties, 'twenties'), (len(terminal.yard) - twenties, 'forties'),
            (len(rows), 'partners'), (sum(len(row[3]) for row in rows), 'interchanges wait'), (visit_number, 'visits recorded')]
    return "<ul class='sum'>\n" + ''.join('<li><b>%s</b> %s</li>\n' % (count(number), name) for number, name in told) + '</ul>\n'


def start(office):
    """The start page."""
    terminal, rows, lists = office.fold().terminal, partner_rows(office), lists_of(office)
    name, visit_number = escaped(office.setup.terminal), len(own_visits(office))
    pending = [row for row in lists if row[2]]
    body = '<h1><small>Office of</small> %s</h1>\n<section>\n<h2>Needs attention</h2>\n' % name
    body += attention(rows, len(terminal.visits), office.setup.most_visits)
    body += sums(terminal, rows, visit_number)
    body += '<section>\n<h2>Calls with open work <small>%s of %s lists</small></h2>\n' % (count(len(pending)), count(len(lists)))
    body += table(CALLS, [call_row(*row) for row in pending], 'No list has an open line.') + blocks_section(terminal)
    return framed('/', 'Office of ' + name, body, True)


# ---- what a text finds

def found_rows(office, words):
    """The containers in the yard whose numbers end with it, if it is three digits or more, or whose booking it is."""
    for visit in office.fold().terminal.visits:
        is_end = re.fullmatch('[0-9]{3,}', words) and visit.number.endswith(words)
        if visit.exit is None and (is_end or visit.booking == words):
            yield "<tr><td>%s</td><td class='m'>%s</td><td>%s</td><td>%s</td></tr>\n" % (
                box(visit.number), visit.size_type, load(visit), escaped(visit.booking or ''))


def found(office, words):
    """The page of what a text finds: containers, the partner of that code, and the lists of calls of that vessel or voyage."""
    rows, lists = list(found_rows(office, words)), [row for row in lists_of(office) if words in row[0]]
    body = '<h1><small>Find</small> %s</h1>\n' % escaped(words)
    body += section('Containers in the yard', len(rows)) + table(
        ['Container', 'Size-type', 'Load', 'Booking'], rows, 'None has a number that ends so, or that booking.')
    if words in office.setup.partners:
        body += "<section>\n<h2>Partner</h2>\n<p><a href='/pages/partners/%s'>%s</a></p>\n</section>\n" % (address(words), escaped(words))
    body += section('Lists of calls', len(lists)) + table(
        CALLS, [call_row(*row) for row in lists], 'None is of a vessel or a voyage of that name.')
    return framed('', 'Find ' + escaped(words), body, typed=words)


# ---- what is told in place of a report

def told(what, right=None):
    """`not here`, `form`, or `check digit` with the right number."""
    name, sentence = {
        'not here': ('Not here', 'There is nothing under this address'),
        'form': ('No container number', 'A container has a number of four letters and seven digits, as ABCU 000001 7'),
        'check digit': ('Another check digit', 'The last digit is not the check digit. With the right one it is '),
    }[what]
    return framed('', name, '<h1>%s</h1>\n<section>\n<p>%s%s.</p>\n</section>\n' % (name, sentence, box(right) if right else ''))


PAGES = {
    'yard': yard, 'visits': visits, 'list': vessel_list, 'ticket': ticket, 'container': container, 'work': work, 'partners': partners,
    'partner': partner, 'blocks': blocks, 'calls': calls, 'reply': reply_of, 'contrl': contrl}


def archives_note(count):
    """How many archives were not asked, if there are any."""
    return "<p class='note'>%d archives were not asked: older visits may stand there.</p>\n" % count if count else ''


def page(office, kind, values):
    """The page of a report, on what its key names; with how many archives were not asked where its text tells that too."""
    text, archives = PAGES[kind](office, *values), len(office.register.archives)
    told_of = kind in ('container', 'visits') or kind == 'calls' and office.register.lists
    return text[:-len(END)] + archives_note(archives if told_of else 0) + END
