"""The reports for programs: JSON of each, and CSV of those that are lists (own).

JSON is compact, its members in byte order, each always there and null for nothing: no booking, no weight, nothing on top,
no exit. Words are in small letters, moments as in the texts. CSV has a row's members as columns, in the order in which the
text of the report says them, under a header; nothing is an empty field. Rows are in the order of the text. The table of the
yard is older, and has columns of its own.

`python3 -m model.views` in scripts/ holds them to examples that were worked out by hand.
"""
import csv
import io
from types import SimpleNamespace

from .deliveries import run
from .lookups import archives_line, going_down, own_lines, own_visits, standing, waiting
from .moments import day_number
from .names import Slot, slot_text
from .office import json_text
from .register import EMPTY
from .reports import as_text, printed, reply, report, yardcsv
from .setup import DEMO
from .terminal import ListLine, Passage, Terminal, Visit
from .words import load_text, moment_text
from .yard import Block, Place, blocker, cells


# ---- what rows say

def load_word(visit):
    """Full or empty."""
    return load_text(visit).lower()


def passage(way):
    """By what a container came or left."""
    partner, number = way.source
    return dict(moment=moment_text(way.moment), number=number, partner=partner, way=way.way)


def with_archives(office, told):
    """How many archives were not asked is a member, where there are any; also where there is nothing else to tell."""
    count = len(office.register.archives)
    return dict(told or {}, archives=count) if count else told


# ---- the yard

def yard(office):
    """A row for each container, by the texts of their slots."""
    return dict(rows=[
        dict(container=visit.number, load=load_word(visit), size_type=visit.size_type, slot=slot)
        for slot, visit in standing(office.fold().terminal)])


# ---- a container

def lists_of(terminal, box):
    """The open lines that name it, by vessel, voyage and side, load before discharge."""
    lines = sorted(
        (call, side == 'discharge', side, line.port)
        for (call, side, number), line in terminal.lines.items() if number == box and not line.is_done)
    return [
        dict(port=port or None, side=side, vessel=vessel, voyage=voyage) for (vessel, voyage), _is_second, side, port in lines]


def stay(terminal, box, visit):
    """How it is in the yard."""
    return dict(
        booking=visit.booking or None, gross=visit.kilos or None, lists=lists_of(terminal, box),
        slot=slot_text(terminal.yard[box].slot), under=blocker(terminal.yard, box))


def container(office, box):
    """Its last visit, the passage by which it came, or by which it left, and its stay, if it is here."""
    terminal = office.fold().terminal
    visits = [(place, visit) for place, visit in own_visits(office) if visit.number == box]
    if not visits:
        return with_archives(office, None)
    place, visit = visits[-1]
    is_here = box in terminal.yard
    return with_archives(office, dict(
        container=box, load=load_word(visit), passage=passage(visit.entry if is_here else visit.exit),
        size_type=visit.size_type, stay=stay(terminal, box, visit) if is_here else None, visit=place))


def visit_row(place, visit):
    """Entry and exit, and the days between their dates."""
    days = visit.exit and day_number(visit.exit.moment) - day_number(visit.entry.moment)
    return dict(
        booking=visit.booking or None, days=days, entry=passage(visit.entry), exit=visit.exit and passage(visit.exit),
        gross=visit.kilos or None, load=load_word(visit), size_type=visit.size_type, slot=slot_text(visit.entry_slot), visit=place)


def visits(office, box):
    """A row for each visit, by their numbers."""
    rows = [visit_row(place, visit) for place, visit in own_visits(office) if visit.number == box]
    return with_archives(office, dict(container=box, rows=rows) if rows else None)


# ---- vessels

def lines_on(office, vessel, voyage, side):
    """The lines of a list by the containers' numbers."""
    return sorted(
        (number, line) for (call, of_side, number), line in office.fold().terminal.lines.items()
        if call == (vessel, voyage) and of_side == side)


def vessel_list(office, vessel, voyage, side):
    """A row for each line."""
    rows = [
        dict(container=number, port=line.port or None, state='done' if line.is_done else 'open')
        for number, line in lines_on(office, vessel, voyage, side)]
    return dict(rows=rows, side=side, vessel=vessel, voyage=voyage) if rows else None


def job(terminal, number, port):
    """Where it is, if it is in the yard, and what stands on it."""
    told = dict(container=number, port=port or None, size_type=None, slot=None, under=None)
    if number in terminal.yard:
        size_type = next(visit.size_type for visit in reversed(terminal.visits) if visit.number == number)
        told.update(
            size_type=size_type, slot=slot_text(terminal.yard[number].slot), under=blocker(terminal.yard, number))
    return told


def work(office, vessel, voyage, side):
    """The open lines as jobs: loads that are here by block, row and bay, from the top tier down, and then the others."""
    terminal, lines = office.fold().terminal, lines_on(office, vessel, voyage, side)
    if not lines:
        return None
    numbers = [(number, line.port) for number, line in lines if not line.is_done]
    if side == 'load':
        here = [pair for pair in numbers if pair[0] in terminal.yard]
        absent = [pair for pair in numbers if pair[0] not in terminal.yard]
        numbers = sorted(here, key=lambda pair: going_down(terminal.yard[pair[0]].slot)) + absent
    return dict(
        done=sum(line.is_done for _number, line in lines), jobs=[job(terminal, *pair) for pair in numbers], lines=len(lines),
        side=side, vessel=vessel, voyage=voyage)


def calls(office):
    """A row for each list that has a line in the store, by vessel, voyage and side, load before discharge; and how many archives
    there are, if lists were put away."""
    lines, rows = own_lines(office), []
    for call, _is_second, side in sorted({(call, side == 'discharge', side) for call, side, _number in lines}):
        done = [line.is_done for (of_call, of_side, _number), line in lines.items() if (of_call, of_side) == (call, side)]
        rows.append(dict(done=done.count(True), open=done.count(False), side=side, vessel=call[0], voyage=call[1]))
    told = dict(rows=rows)
    return with_archives(office, told) if office.register.lists else told


# ---- the partners

def partner_row(office, code, kind):
    """The number that is expected, and what waits for it."""
    numbers = waiting(office, code)
    waits = dict(count=len(numbers), first=min(numbers), last=max(numbers)) if numbers else None
    return dict(code=code, kind=kind, next=run(office.deliveries, code) + 1, waiting=waits)


def partners(office):
    """A row for each account, in their order."""
    return dict(rows=[partner_row(office, code, kind) for code, kind in office.setup.partners.items()])


def partner(office, code):
    """The row of one account."""
    kind = office.setup.partners.get(code)
    return kind and partner_row(office, code, kind)


# ---- the blocks

def blocks(office):
    """A row for each block, by its letter."""
    terminal, rows = office.fold().terminal, []
    for block in sorted(terminal.plan):
        inside = {number: place for number, place in terminal.yard.items() if place.slot.block == block.letter}
        twenties = sum(place.length == 20 for place in inside.values())
        rows.append(dict(
            bays=block.bays, block=block.letter, cells=block.bays * block.rows * block.tiers, forties=len(inside) - twenties,
            highest=max((place.slot.tier for place in inside.values()), default=0), rows=block.rows, tiers=block.tiers,
            twenties=twenties, under=sum(blocker(terminal.yard, number) is not None for number in inside),
            used=sum(len(cells(place)) for place in inside.values())))
    return dict(rows=rows)


# ---- one interchange

def ticket(office, partner_code, number):
    """What it brought in and what it took out."""
    fold, source = office.fold(), (partner_code, number)
    if source not in fold.replies:
        return None
    opened = [
        dict(
            container=visit.number, load=load_word(visit), moment=moment_text(visit.entry.moment), size_type=visit.size_type,
            slot=slot_text(visit.entry_slot))
        for visit in fold.terminal.visits if visit.entry.source == source]
    closed = [
        dict(
            container=visit.number, load=load_word(visit), moment=moment_text(visit.exit.moment), size_type=visit.size_type)
        for visit in fold.terminal.visits if visit.exit and visit.exit.source == source]
    return dict(closed=closed, number=number, opened=opened, partner=partner_code)


# ---- as JSON

OBJECTS = {
    'yard': yard, 'container': container, 'visits': visits, 'list': vessel_list, 'work': work, 'calls': calls,
    'partners': partners, 'partner': partner, 'blocks': blocks, 'ticket': ticket}


def json_of(office, kind, *values):
    """The report of a kind on what a key names, on one line. None where there is nothing to tell. A reply is its answer."""
    if kind == 'reply':
        return reply(office, *values)
    told = OBJECTS[kind](office, *values)
    return None if told is None else json_text(told)


# ---- as CSV

PASSAGE = 'way partner number moment'.split()
COLUMNS = {
    'list': 'container state port'.split(),
    'work': 'slot container size_type port under'.split(),
    'visits': (
        'visit size_type load'.split() + ['entry_' + name for name in PASSAGE] + 'slot booking gross'.split()
        + ['exit_' + name for name in PASSAGE] + ['days']),
    'calls': 'vessel voyage side open done'.split(),
    'partners': 'code kind next waiting_count waiting_first waiting_last'.split(),
    'blocks': 'block bays rows tiers cells used twenties forties under highest'.split(),
}
ROWS = {'work': 'jobs'}


def flat(row):
    """A member that is an object has a column for each of its own members: none of them, where it is null."""
    fields = {}
    for name, value in row.items():
        if isinstance(value, dict):
            fields.update(('%s_%s' % (name, inner), of_inner) for inner, of_inner in value.items())
        else:
            fields[name] = value
    return fields


def field_text(value):
    """Nothing is an empty field."""
    return '' if value is None else str(value)


def csv_of(office, kind, *values):
    """The report of a kind that is a list; LF at the end of each record. None where there is nothing to tell."""
    if kind == 'yard':
        return yardcsv(office)
    told = OBJECTS[kind](office, *values)
    if told is None or ROWS.get(kind, 'rows') not in told:
        return None
    text = io.StringIO()
    writer = csv.writer(text, lineterminator='\n')
    writer.writerow(COLUMNS[kind])
    for row in map(flat, told[ROWS.get(kind, 'rows')]):
        writer.writerow([field_text(row.get(name)) for name in COLUMNS[kind]])
    return text.getvalue()


# ---- as what it is asked

SHOWN = {'text': as_text, 'json': json_of, 'csv': csv_of}
NO_JSON = ('picture', 'contrl', 'health', 'metrics', 'archives')


def has_view(kind, view):
    """Each report as text, those that are lists as CSV, and most as JSON: not pictures, CONTRLs and what watches over the
    office."""
    return view == 'text' or (view == 'json' and kind not in NO_JSON) or (view == 'csv' and kind in ['yard', *COLUMNS])


def report_as(office, view, kind, key=''):
    """The report of a kind under a key as it is asked for. None where it is not shown so."""
    return report(office, kind, key, SHOWN[view]) if has_view(kind, view) else None


def printed_as(office, view, kind, key=''):
    """What the command `report` prints of it, and its status: JSON has its line's end there."""
    if view == 'text':
        return printed(office, kind, key)
    text = report_as(office, view, kind, key)
    if text is None:
        return 'none\n', 1
    return text + '\n' * (view == 'json'), 0


# ---- examples that were worked out by hand

def example(register=EMPTY):
    """A full container under another, both to be loaded with a third that has not come, and a fourth that was loaded."""
    came, went = Passage('gate', ('HAULA', 1), '202403050910'), Passage('ship', ('QUAY1', 1), '202403070000')
    upper = Passage('gate', ('HAULA', 2), '202403050920')
    terminal = Terminal([Block('A', bays=4, rows=2, tiers=3)], 999)
    lower_slot, upper_slot, other = Slot('A', 1, 1, 1), Slot('A', 1, 1, 2), Slot('A', 2, 1, 1)
    terminal.visits = [
        Visit('ABCU0000017', '22G1', True, 'BK7', came, lower_slot, None, 21000),
        Visit('ABCU0000022', '22G1', False, '', upper, upper_slot, None, 0),
        Visit('ABCU0000043', '45G1', True, 'A,"B"', came, other, went, 1)]
    terminal.yard = {'ABCU0000017': Place(20, lower_slot, True), 'ABCU0000022': Place(20, upper_slot, False)}
    call = ('9123456', 'V12')
    terminal.lines = {
        (call, 'load', 'ABCU0000017'): ListLine('DEHAM', False), (call, 'load', 'ABCU0000022'): ListLine('DEHAM', False),
        (call, 'load', 'ABCU0000038'): ListLine('', False), (call, 'load', 'ABCU0000043'): ListLine('DEHAM', True)}
    delivered = [SimpleNamespace(partner='HAULA', number=number, text='') for number in (1, 2, 5, 4)]
    fold = SimpleNamespace(terminal=terminal, replies={('HAULA', 1): {}, ('QUAY1', 1): {}})
    return SimpleNamespace(
        fold=lambda: fold, setup=DEMO._replace(partners={'HAULA': 'gate', 'QUAY1': 'quay'}), deliveries=delivered,
        register=register, gone=frozenset(), away=frozenset())


IN_JSON = [
    (('container', 'ABCU0000017'),
     '{"container":"ABCU0000017","load":"full","passage":{"moment":"2024-03-05 09:10","number":1,"partner":"HAULA",'
     '"way":"gate"},"size_type":"22G1","stay":{"booking":"BK7","gross":21000,"lists":[{"port":"DEHAM","side":"load",'
     '"vessel":"9123456","voyage":"V12"}],"slot":"A001011","under":"ABCU0000022"},"visit":1}'),
    (('container', 'ABCU0000022'),
     '{"container":"ABCU0000022","load":"empty","passage":{"moment":"2024-03-05 09:20","number":2,"partner":"HAULA",'
     '"way":"gate"},"size_type":"22G1","stay":{"booking":null,"gross":null,"lists":[{"port":"DEHAM","side":"load",'
     '"vessel":"9123456","voyage":"V12"}],"slot":"A001012","under":null},"visit":2}'),
    (('container', 'ABCU0000043'),
     '{"container":"ABCU0000043","load":"full","passage":{"moment":"2024-03-07 00:00","number":1,"partner":"QUAY1",'
     '"way":"ship"},"size_type":"45G1","stay":null,"visit":3}'),
    (('container', 'ABCU0000038'), None),
    (('work', '9123456', 'V12', 'load'),
     '{"done":1,"jobs":[{"container":"ABCU0000022","port":"DEHAM","size_type":"22G1","slot":"A001012","under":null},'
     '{"container":"ABCU0000017","port":"DEHAM","size_type":"22G1","slot":"A001011","under":"ABCU0000022"},'
     '{"container":"ABCU0000038","port":null,"size_type":null,"slot":null,"under":null}],"lines":4,"side":"load",'
     '"vessel":"9123456","voyage":"V12"}'),
    (('work', '9123456', 'V12', 'discharge'), None),
    (('yard',),
     '{"rows":[{"container":"ABCU0000017","load":"full","size_type":"22G1","slot":"A001011"},'
     '{"container":"ABCU0000022","load":"empty","size_type":"22G1","slot":"A001012"}]}'),
    (('list', '9123456', 'V12', 'load'),
     '{"rows":[{"container":"ABCU0000017","port":"DEHAM","state":"open"},{"container":"ABCU0000022","port":"DEHAM",'
     '"state":"open"},{"container":"ABCU0000038","port":null,"state":"open"},{"container":"ABCU0000043","port":"DEHAM",'
     '"state":"done"}],"side":"load","vessel":"9123456","voyage":"V12"}'),
    (('visits', 'ABCU0000017'),
     '{"container":"ABCU0000017","rows":[{"booking":"BK7","days":null,"entry":{"moment":"2024-03-05 09:10","number":1,'
     '"partner":"HAULA","way":"gate"},"exit":null,"gross":21000,"load":"full","size_type":"22G1","slot":"A001011",'
     '"visit":1}]}'),
    (('visits', 'ABCU0000043'),
     '{"container":"ABCU0000043","rows":[{"booking":"A,\\"B\\"","days":2,"entry":{"moment":"2024-03-05 09:10","number":1,'
     '"partner":"HAULA","way":"gate"},"exit":{"moment":"2024-03-07 00:00","number":1,"partner":"QUAY1","way":"ship"},'
     '"gross":1,"load":"full","size_type":"45G1","slot":"A002011","visit":3}]}'),
    (('calls',), '{"rows":[{"done":1,"open":3,"side":"load","vessel":"9123456","voyage":"V12"}]}'),
    (('partners',),
     '{"rows":[{"code":"HAULA","kind":"gate","next":3,"waiting":{"count":2,"first":4,"last":5}},'
     '{"code":"QUAY1","kind":"quay","next":1,"waiting":null}]}'),
    (('partner', 'QUAY1'), '{"code":"QUAY1","kind":"quay","next":1,"waiting":null}'),
    (('partner', 'HAULB'), None),
    (('blocks',),
     '{"rows":[{"bays":4,"block":"A","cells":24,"forties":0,"highest":2,"rows":2,"tiers":3,"twenties":2,"under":1,'
     '"used":2}]}'),
    (('ticket', 'HAULA', 1),
     '{"closed":[],"number":1,"opened":[{"container":"ABCU0000017","load":"full","moment":"2024-03-05 09:10",'
     '"size_type":"22G1","slot":"A001011"},{"container":"ABCU0000043","load":"full","moment":"2024-03-05 09:10",'
     '"size_type":"45G1","slot":"A002011"}],"partner":"HAULA"}'),
    (('ticket', 'QUAY1', 1),
     '{"closed":[{"container":"ABCU0000043","load":"full","moment":"2024-03-07 00:00","size_type":"45G1"}],"number":1,'
     '"opened":[],"partner":"QUAY1"}'),
    (('ticket', 'HAULA', 2), None),
]

WITH_ARCHIVES = [
    (('container', 'ABCU0000038'), '{"archives":2}'),
    (('visits', 'ABCU0000038'), '{"archives":2}'),
    (('container', 'ABCU0000043'),
     '{"archives":2,"container":"ABCU0000043","load":"full","passage":{"moment":"2024-03-07 00:00","number":1,'
     '"partner":"QUAY1","way":"ship"},"size_type":"45G1","stay":null,"visit":3}'),
    (('calls',), '{"rows":[{"done":1,"open":3,"side":"load","vessel":"9123456","voyage":"V12"}]}'),
    (('partner', 'HAULB'), None),
]

IN_CSV = [
    (('yard',), 'slot,box,size,load\nA001011,ABCU0000017,22G1,full\nA001012,ABCU0000022,22G1,empty\n'),
    (('list', '9123456', 'V12', 'load'),
     'container,state,port\nABCU0000017,open,DEHAM\nABCU0000022,open,DEHAM\nABCU0000038,open,\nABCU0000043,done,DEHAM\n'),
    (('work', '9123456', 'V12', 'load'),
     'slot,container,size_type,port,under\nA001012,ABCU0000022,22G1,DEHAM,\nA001011,ABCU0000017,22G1,DEHAM,ABCU0000022\n'
     ',ABCU0000038,,,\n'),
    (('visits', 'ABCU0000017'),
     'visit,size_type,load,entry_way,entry_partner,entry_number,entry_moment,slot,booking,gross,exit_way,exit_partner,'
     'exit_number,exit_moment,days\n1,22G1,full,gate,HAULA,1,2024-03-05 09:10,A001011,BK7,21000,,,,,\n'),
    (('visits', 'ABCU0000043'),
     'visit,size_type,load,entry_way,entry_partner,entry_number,entry_moment,slot,booking,gross,exit_way,exit_partner,'
     'exit_number,exit_moment,days\n3,45G1,full,gate,HAULA,1,2024-03-05 09:10,A002011,"A,""B""",1,ship,QUAY1,1,'
     '2024-03-07 00:00,2\n'),
    (('visits', 'ABCU0000038'), None),
    (('calls',), 'vessel,voyage,side,open,done\n9123456,V12,load,3,1\n'),
    (('partners',),
     'code,kind,next,waiting_count,waiting_first,waiting_last\nHAULA,gate,3,2,4,5\nQUAY1,quay,1,,,\n'),
    (('blocks',),
     'block,bays,rows,tiers,cells,used,twenties,forties,under,highest\nA,4,2,3,24,2,2,0,1,2\n'),
]


def differing():
    """What is asked of the example, where the answer is not the one that was worked out."""
    beside = EMPTY._replace(archives=[None, None])
    views = [
        ('json', json_of, example(), IN_JSON), ('json', json_of, example(beside), WITH_ARCHIVES), ('csv', csv_of, example(), IN_CSV)]
    return [
        '%s %s: %r' % (view, ' '.join(map(str, asked)), given)
        for view, of_view, office, answers in views
        for asked, wanted in answers for given in [of_view(office, *asked)] if given != wanted]


if __name__ == '__main__':
    WRONG = differing()
    print('\n'.join(WRONG) if WRONG else '%d views compared' % (len(IN_JSON) + len(WITH_ARCHIVES) + len(IN_CSV)))
    raise SystemExit(1 if WRONG else 0)
