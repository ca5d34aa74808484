"""Set-ups: the terminal's code, its partners, the codes of document names, the yard's blocks, the most visits.

The two files that say one, and what is wrong with them: crates/office_explain/README.md. Each fault is a predicate of
all records, which is asked only where none of those before it applies.
"""
import csv
import io
from collections import namedtuple

from .moments import DIGITS, are_digits
from .names import CAPITALS
from .yard import Block

# partners are a dict of their kinds, in the order of the set-up; codes are a dict by their names; the plan is a list of
# blocks; most_visits is how many there may be
Setup = namedtuple('Setup', 'terminal partners codes plan most_visits')

# a code of a document name (1001): type of message, default, what it orders, the kind of partner that may send it (own)
CodeName = namedtuple('CodeName', 'type_name default order kind')
CODE_NAMES = {
    'gate-in': CodeName('CODECO', '34', 'GateIn', 'gate'),
    'gate-out': CodeName('CODECO', '36', 'GateOut', 'gate'),
    'yard-move': CodeName('CODECO', 'YMV', 'Move', 'yard'),
    'discharge-list': CodeName('COPRAR', '43', 'ListDischarge', 'line'),
    'load-list': CodeName('COPRAR', '45', 'ListLoad', 'line'),
    'discharge-report': CodeName('COARRI', '44', 'Discharge', 'quay'),
    'load-report': CodeName('COARRI', '46', 'Load', 'quay'),
}
KINDS = ('gate', 'line', 'quay', 'yard')
DEFAULT_CODES = {name: meant.default for name, meant in CODE_NAMES.items()}
MOST_VISITS = 999999999

# the set-up of `office demo`
DEMO = Setup(
    terminal='TERM1',
    partners={'HAULA': 'gate', 'HAULB': 'gate', 'LINEA': 'line', 'QUAY1': 'quay', 'YARD1': 'yard'},
    codes=DEFAULT_CODES,
    plan=[Block('A', bays=4, rows=2, tiers=3)],
    most_visits=MOST_VISITS)


def with_accounts(count):
    """The demonstration's set-up with so many accounts, those after its own being P6, P7 and so on, of hauliers."""
    more = {'P%d' % place: 'gate' for place in range(len(DEMO.partners) + 1, count + 1)}
    return DEMO._replace(partners=dict(DEMO.partners, **more))


def orders_of(setup, kind):
    """What a partner of that kind may order: orders by type and 1001."""
    return {
        (meant.type_name, setup.codes[name]): meant.order for name, meant in CODE_NAMES.items() if meant.kind == kind}


# ---- records

PARTNERS_HEADER = ['what', 'name', 'value']
BLOCKS_HEADER = ['block', 'bays', 'rows', 'tiers']


def records_of(text):
    """The records of a file, each a list of fields (RFC 4180; a line with nothing on it is none, and a byte order mark
    in front is passed over)."""
    mark = '\u00ef\u00bb\u00bf'
    text = text[len(mark):] if text.startswith(mark) else text
    return [fields for fields in csv.reader(io.StringIO(text, newline='')) if fields]


def named(records, what):
    """Name and value of each record of one kind."""
    return [(name, value) for kind, name, value in records[1:] if kind == what]


# ---- values

def is_utf8(field):
    """Whether bytes are a text."""
    try:
        field.encode('latin-1').decode('utf-8')
    except UnicodeDecodeError:
        return False
    return True


def is_code(text):
    """1 to 35 letters, digits, hyphens, dots and underscores."""
    return 1 <= len(text) <= 35 and all(character in CAPITALS + CAPITALS.lower() + DIGITS + '-._' for character in text)


def is_document_name(text):
    """1 to 3 capitals or digits."""
    return 1 <= len(text) <= 3 and all(character in CAPITALS + DIGITS for character in text)


def is_number(text, least, most):
    """1 to 9 digits of a number within limits."""
    return are_digits(text, 1, 9) and least <= int(text) <= most


def are_different(values):
    """No value stands twice."""
    return len(set(values)) == len(values)


# ---- the six faults: predicates of the records of both files

def is_bad_csv(partners, blocks):
    """A wrong header, a record of another length, a field that isn't UTF-8, or another first field."""
    if partners[:1] != [PARTNERS_HEADER] or blocks[:1] != [BLOCKS_HEADER]:
        return True
    if any(len(record) != 3 for record in partners) or any(len(record) != 4 for record in blocks):
        return True
    if not all(is_utf8(field) for record in partners + blocks for field in record):
        return True
    return any(record[0] not in ('terminal', 'partner', 'code', 'limit') for record in partners[1:])


def is_bad_terminal(partners, _blocks):
    """Not just one, of a code alone."""
    terminals = named(partners, 'terminal')
    return len(terminals) != 1 or not is_code(terminals[0][0]) or terminals[0][1] != ''


def are_bad_partners(partners, _blocks):
    """Not 1 to 999, a code of another form or twice, another kind."""
    given = named(partners, 'partner')
    codes = [code for code, _kind in given]
    return not 1 <= len(given) <= 999 or not are_different(codes) or not all(
        is_code(code) and kind in KINDS for code, kind in given)


def are_bad_codes(partners, _blocks):
    """An unknown name, a name twice, a code of another form, or one that stands twice within one type of message."""
    given = named(partners, 'code')
    if not are_different([name for name, _code in given]):
        return True
    if not all(name in CODE_NAMES and is_document_name(code) for name, code in given):
        return True
    codes = dict(DEFAULT_CODES, **dict(given))
    return not are_different([(meant.type_name, codes[name]) for name, meant in CODE_NAMES.items()])


def is_bad_limit(partners, _blocks):
    """Two limits, one of anything but visits, or not from 1 to 999,999,999."""
    given = named(partners, 'limit')
    return len(given) > 1 or not all(name == 'visits' and is_number(value, 1, MOST_VISITS) for name, value in given)


def are_bad_blocks(_partners, blocks):
    """Not 1 to 20, another letter than a capital, a letter twice, not 1 to 40 odd bays, 12 rows and 6 tiers."""
    given = blocks[1:]
    letters = [letter for letter, _bays, _rows, _tiers in given]
    return not 1 <= len(given) <= 20 or not are_different(letters) or not all(
        len(letter) == 1 and letter in CAPITALS
        and is_number(bays, 1, 40) and is_number(rows, 1, 12) and is_number(tiers, 1, 6)
        for letter, bays, rows, tiers in given)


SETUP_FAULTS = [
    ('Csv', is_bad_csv), ('Terminal', is_bad_terminal), ('Partner', are_bad_partners), ('Code', are_bad_codes),
    ('Limit', is_bad_limit), ('Block', are_bad_blocks),
]


def read_setup(partners_text, blocks_text):
    """The set-up that two files say, and None; or None and the lowest fault."""
    partners, blocks = records_of(partners_text), records_of(blocks_text)
    for name, applies in SETUP_FAULTS:
        if applies(partners, blocks):
            return None, name
    plan = [Block(letter, int(bays), int(rows), int(tiers)) for letter, bays, rows, tiers in blocks[1:]]
    limits = [int(value) for _name, value in named(partners, 'limit')]
    return Setup(
        terminal=named(partners, 'terminal')[0][0],
        partners=dict(named(partners, 'partner')),
        codes=dict(DEFAULT_CODES, **dict(named(partners, 'code'))),
        plan=sorted(plan),
        most_visits=limits[0] if limits else MOST_VISITS), None
