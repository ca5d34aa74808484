"""docs/SAMPLES.md, made of the cases of cases.txt that have a `page`.

A sample is shown by what a case says, in its order. The page has an order, answer, fault and reason for everything that a
partner may meet: what no sample shows is told, and so is a page that is not what the cases make of it.
"""
import json
import os
import re

from .cases import all_cases
from .messages import MESSAGE_FAULTS
from .setup import CODE_NAMES
from .syntax import FAULTS

PAGE = 'docs/SAMPLES.md'

AT_A_PATH = ['OtherSender', 'TooEarly']
LINE_FAULTS = 'Form CheckDigit Size Moment SlotText'.split()
REASONS = (
    'AlreadyIn NotIn AlreadyListed NotListed ListLineDone Buried NoSlot SlotKind Taken OnAir OnEmpty NoRoom '
    'VisitLimit').split()
WANTED = [
    ('Orders', [meant.order for meant in CODE_NAMES.values()]),
    ('Answers', ['taken', 'repeat', 'waiting', 'clash', 'refused', 'cut']),
    ('Faults of an interchange', [name for name, _applies in FAULTS] + ['UnknownSender', 'WrongRecipient', 'End']),
    ('Faults at the path of a partner', AT_A_PATH),
    ('Faults of a message', [name for name, _applies in MESSAGE_FAULTS]),
    ('Outcomes of a line', ['done', 'gone', 'listed', 'refused']),
    ('Faults of a line', LINE_FAULTS),
    ('Reasons of a line', REASONS),
    ('Besides', ['dropped', 'GROSS']),
]

MADE = '## Where to find it\n'    # the heading from which on the page is made; what stands before it is written by hand


# ---- what a case shows

def kinds_in(case):
    """What its answers, messages, lines and reports show: pairs of a kind and a name of WANTED."""
    kinds = {('Besides', 'GROSS') for _path, told in case.looks if ' GROSS ' in told}
    for place, line in enumerate(case.lines):
        kinds.update(kinds_of(json.loads(line), case.texts[place] if place < len(case.texts) else ''))
    for _request, wanted in case.requests:
        fault = re.search('"fault":"(%s)"' % '|'.join(AT_A_PATH), wanted)
        if fault and wanted.startswith(('HTTP/1.1 403', 'HTTP/1.1 429')):
            kinds.add(('Faults at the path of a partner', fault[1]))
    return kinds


def kinds_of(answer, text):
    """What an answer to a text shows."""
    yield 'Answers', answer['answer']
    yield 'Faults of an interchange', answer.get('fault')
    for message in answer.get('reply', {}).get('messages', []):
        yield 'Faults of a message', message.get('fault')
        yield 'Besides', 'dropped' if message.get('dropped') else None
        for line in message.get('lines', []):
            yield 'Outcomes of a line', line['outcome']
            yield 'Faults of a line' if line.get('reason') in LINE_FAULTS else 'Reasons of a line', line.get('reason')
            yield 'Orders', order_of(text) if line['outcome'] != 'refused' else None


def order_of(text):
    """The order of a text's first message, by type and 1001."""
    found = re.search(r"UNH\+[^+]*\+(\w+).*?BGM\+(\w+)", text, re.S)
    orders = {(meant.type_name, meant.default): meant.order for meant in CODE_NAMES.values()}
    return orders.get(found.groups()) if found else None


# ---- the page

def block(text):
    """A text that is set on lines of its own."""
    return ''.join('    %s\n' % line if line else '\n' for line in text.rstrip('\n').split('\n')) + '\n'


def shown(case):
    """A case, from its name on."""
    parts = ['### %s\n\n' % case.name]
    for word, value in case.said:
        if word == 'say':
            parts.append(value + '\n\n')
        if word in ('deliver', 'stream', 'told', 'request', 'response'):
            parts.append(block(value.replace(r'\r', '').replace(r'\n', '\n')))
        if word in ('deliver', 'stream', 'request'):
            parts.append('Answer:\n\n')
        if word == 'answer':
            parts.append(block(value))
    return ''.join(parts)


def link(case):
    """A link to a case's heading."""
    return '[%s](#%s)' % (case.name, re.sub(r'[^a-z0-9 -]', '', case.name.lower()).replace(' ', '-'))


def index(cases):
    """Each name, and the first case that shows it."""
    rows = ['| What | Where |\n|---|---|\n']
    for what, names in WANTED:
        for case in cases:
            here = [name for name in names if first_with(cases, what, name) is case]
            if here:
                rows.append('| %s: %s | %s |\n' % (what, ', '.join('`%s`' % name for name in here), link(case)))
    return ''.join(rows)


def first_with(cases, what, name):
    """The first case that shows it, or None."""
    return next((case for case in cases if (what, name) in kinds_in(case)), None)


def heading_of(case):
    """Its heading on the page, or None where it is no sample."""
    return dict(case.said).get('page')


def missing_in(cases):
    """The names of WANTED, and those that any case of the file shows, that none of these shows."""
    wanted = {(what, name) for what, names in WANTED for name in names}
    wanted |= {(what, name) for case in all_cases() for what, name in kinds_in(case) if name}
    return sorted(name for what, name in wanted if not first_with(cases, what, name))


def page(written):
    """The page that has to stand where one is written, and the names that no sample shows."""
    cases = [case for case in all_cases() if heading_of(case)]
    parts, before = [written.partition(MADE)[0], MADE, '\n', index(cases), '\n'], None
    for case in cases:
        if heading_of(case) != before:
            before = heading_of(case)
            parts.append('## %s\n\n' % before)
        parts.append(shown(case))
    return ''.join(parts).rstrip('\n') + '\n', missing_in(cases)


def check(top):
    """Compares the page with what is made, and prints what is wrong. Gives how much is."""
    made, missing = page(contents(top))
    wrong = ['no sample shows ' + name for name in missing]
    if contents(top) != made:
        wrong.append('%s is not what scripts/model/cases.txt makes: scripts/samples' % PAGE)
    print(''.join('wrong: %s\n' % text for text in wrong), end='')
    print('%s: %d wrong' % (PAGE, len(wrong)))
    return len(wrong)


def contents(top):
    """The text of the page."""
    with open(os.path.join(top, PAGE), encoding='utf-8') as file:
        return file.read()


def write(top):
    """Writes the page anew. Gives the status: 1 where a name is shown by no case."""
    made, missing = page(contents(top))
    with open(os.path.join(top, PAGE), 'w', encoding='utf-8') as file:
        file.write(made)
    print(''.join('no sample shows %s\n' % name for name in missing), end='')
    return 1 if missing else 0
