"""Keys of reports, as the command line and HTTP have them: crates/office_reports/README.md."""
from .moments import DIGITS, are_digits
from .names import number_fault

# how many parts the key of each report has
PARTS = {
    'yard': 0, 'yardcsv': 0, 'picture': 0, 'blocks': 0, 'calls': 0, 'partners': 0, 'health': 0, 'metrics': 0, 'archives': 0,
    'visits': 1, 'container': 1, 'partner': 1, 'list': 3, 'work': 3, 'ticket': 2, 'reply': 2, 'contrl': 2}


def decoded(part):
    """`%` and two hexadecimal digits stand for a byte. None where another `%` stands there."""
    front, *others = part.split('%')
    if not all(len(other) >= 2 and all(digit in DIGITS + 'ABCDEFabcdef' for digit in other[:2]) for other in others):
        return None
    return front + ''.join(chr(int(other[:2], 16)) + other[2:] for other in others)


def number_in(text):
    """1 to 14 digits, or None."""
    return int(text) if are_digits(text, 1, 14) else None


def read_key(kind, key):
    """The values that a key names, or None where it can't be read. A key is parted first and decoded then (own)."""
    values = [decoded(part) for part in key.split('/')]
    if len(values) != PARTS[kind] or None in values:
        return None
    if PARTS[kind] == 2:
        values[1] = number_in(values[1])
    if PARTS[kind] == 3 and values[2] not in ('load', 'discharge'):
        return None
    if kind in ('visits', 'container') and number_fault(values[0]):
        return None
    return None if None in values else values
