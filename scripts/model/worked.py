"""The worked rows of docs/WORKED_ROWS.md, and the day of examples/day, by the model and by the program.

Each row is a function. Interchanges and answers are read from the page and not repeated here; what the page says in
plain words is written out. Where a row has the set-up of `office demo`, its interchanges are a stream for the program
too, and each leaves a store. Rows that want a store of their own are in worked_stores.py.
"""
import glob
import os
import re
from functools import partial

from .files import contents
from .names import length_of, number_fault, slot_of, slot_text
from .office import Office, json_text
from .page import Page, is_told, short_of
from .setup import DEMO, read_setup, with_accounts
from .stream import answers, differences, lines, status
from .worked_stores import EVERY, check_told, has_own_calls, told_in
from .yard import Block, Place, blocker, first_slot, misfit, shift_misfit

OTHER_SETUPS = {
    'No room': DEMO._replace(plan=[Block('A', bays=1, rows=1, tiers=2)]),
    'Room for an empty container only': DEMO._replace(plan=[Block('A', bays=1, rows=1, tiers=2)]),
    'The first slot that fits a full container': DEMO._replace(plan=[Block('A', bays=2, rows=1, tiers=2)]),
    'No more visits': DEMO._replace(most_visits=1),
    'No more visits, opened again': DEMO._replace(most_visits=1),
    'No more accounts': with_accounts(999),
}


class Rows:
    """The page, the program as `office demo` and over stores, what counts comparisons over stores (or None), and what
    came of the checks so far."""

    def __init__(self, page, program, over_store):
        self.page, self.program, self.over_store = page, program, over_store
        self.beside = over_store.args[0] if isinstance(over_store, partial) else None
        self.compared, self.wrong, self.checked, self.told = 0, [], set(), set()

    def setup(self, row):
        """The set-up with which a row begins."""
        return OTHER_SETUPS.get(row, DEMO)

    def office(self, row, texts):
        """An office with the row's set-up, to which the texts were delivered."""
        office = Office(self.setup(row))
        for text in texts:
            office.answer(text)
        return office

    def expect(self, row, what, is_so):
        """Counts a check of a row, and keeps what is wrong."""
        self.compared += 1
        self.checked.add(row)
        if not is_so:
            self.wrong.append('%s: %s' % (row, what))

    def deliver(self, row, texts):
        """The answers of an office to which nothing was delivered before."""
        setup = self.setup(row)
        office = Office(setup)
        given = [office.answer(text) for text in texts]
        self.stream(row, '\n'.join(texts), given, setup)
        check_told(self, row, setup, office, texts)
        self.told.add(row)
        return given

    def stream(self, row, text, given, setup=DEMO):
        """The program's lines and status for a stream that is answered so; and what it leaves in a store of its own."""
        if setup == DEMO:
            shown = differences('the program', (lines(given), status(given)), self.program(text))
            self.expect(row, '\n'.join(shown), not shown)
        self.over_store(row, setup, text)

    def tell(self, row, texts, cells):
        """Each is answered as its cell says."""
        self.expect(row, 'as many answers as interchanges', len(texts) == len(cells))
        for cell, answer in zip(cells, self.deliver(row, texts)):
            self.expect(row, '%s, and not %s' % (cell, json_text(answer)), is_told(cell, answer))


# ---- rows that are a table of deliveries

def rows_of_tables(rows):
    """Each row with a table of what is delivered and what is answered."""
    for row, text in rows.page.rows.items():
        if '\n| Delivered | Answer |' in text and row != 'What no CONTRL answers' and not has_own_calls(rows.page, row):
            table = rows.page.table(row)
            rows.tell(row, [rows.page.interchange(cells[0]) for cells in table], [cells[1] for cells in table])


def what_no_contrl_answers(rows):
    """Four texts, two of them in one cell."""
    text = rows.page.interchange('IN(1, 17)')
    texts = [
        text.replace('UNOA:3', 'UNOD:3'), text.replace('UNOA:3', 'UNOA:4'), text.replace('240305', '240230'),
        text.replace("'UNH", "'UNG+1'UNH")]
    cells = [cells[1] for cells in rows.page.table('What no CONTRL answers')]
    rows.tell('What no CONTRL answers', texts, cells[:1] + cells)


def rejected_messages(rows):
    """Each interchange is taken, and its message rejected with that fault and that 0085."""
    table = rows.page.table('Rejected messages')
    given = rows.deliver('Rejected messages', [rows.page.interchange(cells[0]) for cells in table])
    for (short, fault, code), answer in zip(table, given):
        message = dict(fault=fault.split(':')[0], reference='1', result='rejected')
        rows.expect('Rejected messages', short, answer['answer'] == 'taken' and answer['reply']['messages'] == [message])
        rows.expect('Rejected messages', code, "+4+%s'UNT" % code in answer['reply']['contrl'])


# ---- rows of one or two interchanges

def first_and_again(rows):
    """The first gate-in, a repeat, a clash."""
    first, wanted = rows.page.texts('The first gate-in')
    clash = rows.page.quoted('A clash')[0]
    given = rows.deliver('A repeat', [first, first + '\r\n', first.replace("'", "'\n")])
    rows.expect('The first gate-in', given[0], json_text(given[0]) == wanted)
    rows.expect('A repeat', given[1], json_text(given[1]) == wanted.replace('"taken"', '"repeat"', 1))
    rows.expect('A clash', given[2], json_text(given[2]) == clash)


def numbers(rows):
    """The last number there is; references that are no numbers."""
    rows.tell('The last number there is', [rows.page.interchange('IN(999999999, 17)')], ['waiting, next 1'])
    for reference in ('1000000000', '0', 'A1', '123456789012345'):
        text = rows.page.interchange('IN(%s, 17)' % reference)
        rows.tell('A reference that is no number', [text], ['refused Number'])


def other_service_characters(rows):
    """No release character, and the defaults by name."""
    row = 'Other service characters'
    first, wanted = rows.page.texts('The first gate-in')
    text = first.replace("UNT+4+1'", "FTX+AAI+++WHY?'UNT+5+1'")
    rows.tell(row, ["UNA:+.  '" + text], ['taken: done A001011'])
    rows.expect(row, 'begun anew', lines(rows.deliver(row, ["UNA:+.? '\n" + first])) == [wanted])


def released_characters(rows):
    """What CONTRL, the reference and the visit hold."""
    row = 'Released characters and a booking'
    office = Office()
    answer = office.answer(rows.page.texts(row)[0])
    visit = office.fold().terminal.visits[0]
    rows.expect(row, answer, answer in rows.deliver(row, rows.page.texts(row)[:1]))
    rows.expect(row, 'CONTRL', "UCM+M?'1+CODECO:D:95B:UN+7'" in answer['reply']['contrl'])
    rows.expect(row, 'the reference', answer['reply']['messages'][0]['reference'] == "M'1")
    rows.expect(row, visit, (visit.size_type, visit.is_full, visit.booking) == ('22G1', False, 'A+B'))


def two_messages(rows):
    """One is rejected, the other taken."""
    row = 'Two messages, one of another directory'
    text, contrl, messages = rows.page.texts(row)
    [answer] = rows.deliver(row, [text])
    rows.expect(row, 'CONTRL', answer['reply']['contrl'] == contrl)
    rows.expect(row, 'the messages', json_text(answer['reply']['messages']) == messages)


def wrong_count(rows):
    """A refusal leaves the number free."""
    row = 'A wrong count, then the right one'
    first, wanted = rows.page.texts('The first gate-in')
    given = rows.deliver(row, [first.replace('UNT+4+1', 'UNT+3+1'), first])
    rows.expect(row, given, lines(given) == [rows.page.texts(row)[0], wanted])


def each_line(rows):
    """Six lines, and the same with another count."""
    row = 'Each line for a reason of its own'
    text = rows.page.texts(row)[0]
    [answer] = rows.deliver(row, [text])
    outcomes = answer['reply']['messages'][0]['lines']
    rows.expect(row, 'line 1', json_text(outcomes[0]) in rows.page.quoted(row))
    told = [(line.get('reason', line.get('slot')), line.get('box')) for line in outcomes]
    rows.expect(row, told, told == [
        ('Form', None), ('CheckDigit', None), ('Size', 'ABCU0000017'), ('Moment', 'ABCU0000022'),
        ('SlotText', 'ABCU0000038'), ('A002011', 'ABCU0000043')])
    [answer] = rows.deliver(row, [text.replace('CNT+16:6', 'CNT+16:5')])
    rows.expect(row, 'the count', answer['reply']['messages'][0].get('fault') == 'EquipmentCount')
    rows.expect(row, 'CONTRL', "UCM+1+CODECO:D:95B:UN+4+29'" in answer['reply']['contrl'])


# ---- names, and the yard by itself

def check_digits(rows):
    """Numbers, and their faults."""
    faults = {
        'ABCU0000070': None, 'ABCU0000090': None, 'CSQU3054383': None, 'ABCU0000071': 'CheckDigit',
        'abcu0000017': 'Form', 'ABCX0000017': 'Form'}
    for text, fault in faults.items():
        rows.expect('Check digits', text, text in rows.page.quoted('Check digits') and number_fault(text) == fault)


def size_types(rows):
    """Lengths, where they are taken."""
    for text, length in {'22G1': 20, '4510': 40, 'L5G1': 40, '10G1': None, '2G1': None}.items():
        rows.expect('Size-types', text, text in rows.page.quoted('Size-types') and length_of(text) == length)


LENGTHS = {'twenty': 20, 'forty': 40}
LOADS = {'full': True, 'empty': False}
CALL = r'(?:an? |(putting) an? )(full|empty) (twenty|forty) (?:back )?in (A\d{6})|moving it to (A\d{6})'


def twenties_and_forties(rows):
    """Calls on a yard by itself, each container going by its slot. What fits is placed. (Of Present and Absent the model
    has no call: it asks the yard before.)"""
    row = 'Twenties and forties on one another'
    yard = {name: Place(20, slot_of(name), True) for name in ('A001011', 'A003011')}
    for call, wanted in rows.page.table(row):
        words = call.split()
        if words[:2] in (['a', 'twenty'], ['a', 'forty']) and words[2:3] == ['in'] and slot_of(words[3]):
            place = Place(LENGTHS[words[1]], slot_of(words[3]), True)
            got = misfit(DEMO.plan, yard, place, is_wary=True) or 'fits'
            rows.expect(row, call, got == wanted.split(':')[0])
            yard.update({words[3]: place} if got == 'fits' else {})
    rows.expect(row, 'the twenty of A001011 is buried', blocker(yard, 'A001011') == 'A002012')
    rows.expect(row, 'the first slot for a forty', slot_text(first_slot(DEMO.plan, yard, 40, True)) == 'A002021')


def full_and_empty(rows):
    """The same of full and empty ones: placing, putting back, and moving the one that was put last."""
    row = 'Full and empty on one another'
    yard = {'A001011': Place(20, slot_of('A001011'), False), 'A003011': Place(20, slot_of('A003011'), True)}
    last = None
    for call, wanted in rows.page.table(row):
        words = re.fullmatch(CALL, call)
        is_put, load, length, name, to = words.groups()
        slot = slot_of(name or to)
        place = yard[last]._replace(slot=slot) if to else Place(LENGTHS[length], slot, LOADS[load])
        if to:
            got = shift_misfit(DEMO.plan, yard, last, slot)
        else:
            got = misfit(DEMO.plan, yard, place, is_wary=place.is_full and not is_put)
        rows.expect(row, call, (got or 'fits') == wanted.split(':')[0])
        if got is None:
            last = last if to else name
            yard[last] = place


# ---- nothing delivered

def nothing_delivered(rows):
    """What is told before the first delivery."""
    for row in ('Nothing yet', 'The rows of a set-up'):
        rows.deliver(row, [])


# ---- streams

def two_interchanges(rows):
    """CR and LF between them belong to neither."""
    row = 'Two interchanges, cut anywhere'
    text = rows.page.first + '\r\n' + rows.page.interchange('IN(2, 22)')
    given = answers(Office(), text)
    rows.expect(row, given, [answer['answer'] for answer in given] == ['taken', 'taken'])
    rows.stream(row, text, given)


def no_interchange(rows):
    """What is no interchange, as a delivery by itself and as a stream."""
    row = 'What is no interchange'
    for what, alone, streamed in rows.page.table(row):
        quoted = ''.join(re.findall(r'^`([^`]*)`', what))
        text = quoted + (rows.page.first if 'FIRST' in what else '') + ('A' * 1048573 if 'times' in what else '')
        text = text[:-1] if 'without its last byte' in what else text
        given = answers(Office(), text)
        rows.expect(row, what + ' by itself', is_told(alone, Office().answer(text)))
        rows.expect(row, what + ' as a stream', [streamed] == ([short_of(answer) for answer in given] or ['no line']))
        rows.stream(row, text, given)


def printed(rows, row, paths, path):
    """A row that stands in files: what is sent, file by file, and what the program is said to print."""
    text = ''.join(contents(sent) for sent in paths)
    wanted = contents(path).splitlines()
    given = answers(Office(), text)
    for place, line in enumerate(wanted):
        rows.expect(row, 'line %d' % (place + 1), lines(given)[place:place + 1] == [line])
    rows.expect(row, 'the number of lines', len(given) == len(wanted))
    rows.stream(row, text, given)


def examples(rows, top):
    """What examples/ shows: a day, and interchanges out of order."""
    day = sorted(glob.glob(os.path.join(top, 'examples/day/*.edi')))
    printed(rows, 'The day of examples/day', day, os.path.join(top, 'examples/day/expected.jsonl'))
    out_of_order = os.path.join(top, 'examples/out-of-order.edi')
    printed(rows, 'Sent as 3, 2, 1, and 3 again', [out_of_order], os.path.join(top, 'examples/out-of-order.jsonl'))


def check(top, program, over_store):
    """All rows and the day; prints what was compared, and each that is wrong. Gives how many are. `over_store` is
    `stores.over_store` with what it counts in, as a partial; with another the model alone answers what wants a store."""
    page = Page(contents(os.path.join(top, 'docs/WORKED_ROWS.md')))
    rows = Rows(page, program, over_store)
    for check_row in (
            rows_of_tables, what_no_contrl_answers, rejected_messages, first_and_again, numbers,
            other_service_characters, released_characters, two_messages, wrong_count, each_line, check_digits,
            size_types, twenties_and_forties, full_and_empty, nothing_delivered, two_interchanges, no_interchange, *EVERY):
        check_row(rows)
    said = read_setup(*(contents(os.path.join(top, 'examples/setup', name)) for name in ('partners.csv', 'blocks.csv')))
    rows.expect('The day of examples/day', 'examples/setup is the set-up of the demonstration', said == (DEMO, None))
    example = contents(os.path.join(top, 'examples/gate-in.edi'))
    rows.expect('The first gate-in', 'examples/gate-in.edi', Office().answer(example) == Office().answer(page.first))
    rows.expect('The first gate-in', 'crates/office/stdin', contents(os.path.join(top, 'crates/office/stdin')) == example)
    examples(rows, top)
    left = [row for row, part in page.rows.items() if part.startswith('**') and row not in rows.checked]
    left += [row for row in page.rows if told_in(page, row) and row not in rows.told]
    rows.expect('docs/WORKED_ROWS.md', 'rows that are not checked: %s' % left, not left)
    print(''.join('wrong: %s\n' % text[:2000] for text in rows.wrong), end='')
    print('worked rows and the day of examples/day: %d compared, %d wrong' % (rows.compared, len(rows.wrong)))
    return len(rows.wrong)
