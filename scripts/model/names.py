"""Container numbers, size-types (ISO 6346) and slot names (own): docs/PROFILE.md, section 5."""
from collections import namedtuple

from .moments import DIGITS, are_digits

CAPITALS = 'ABCDEFGHIJKLMNOPQRSTUVWXYZ'

# A is 10, B to K are 12 to 21, L to U 23 to 32, V to Z 34 to 38: the numbers from 10 on without the multiples of 11
LETTER_VALUES = dict(zip(CAPITALS, [number for number in range(10, 39) if number % 11 != 0]))

Slot = namedtuple('Slot', 'block bay row tier')


def check_digit(first_ten):
    """The sum of the values, weighted by 1, 2, 4 and so on to 512, modulo 11, with 10 written as 0."""
    total = 0
    for place, character in enumerate(first_ten):
        value = LETTER_VALUES[character] if character in LETTER_VALUES else int(character)
        total += value * 2 ** place
    return total % 11 % 10


def number_fault(text):
    """Form where it isn't three capitals, one of U, J and Z, six digits and one digit more; CheckDigit where the last
    is not the check digit; else None."""
    has_letters = all(character in CAPITALS for character in text[:3]) and text[3:4] in ('U', 'J', 'Z')
    if len(text) != 11 or not has_letters or not are_digits(text[4:], 7, 7):
        return 'Form'
    return None if int(text[10]) == check_digit(text[:10]) else 'CheckDigit'


def length_of(size_type):
    """20 for a twenty, 40 for a forty, None where the text has not the form of four capitals or digits, or begins
    with another length. A 45 foot container (L) is placed as a forty. Nothing more of it is looked at (own)."""
    has_form = len(size_type) == 4 and all(character in CAPITALS + DIGITS for character in size_type)
    return {'2': 20, '4': 40, 'L': 40}.get(size_type[0]) if has_form else None


def slot_of(text):
    """A block letter, a bay of three digits, a row of two, a tier of one (own). None where the text has another form."""
    if text[:1] not in CAPITALS or not are_digits(text[1:], 6, 6):
        return None
    return Slot(text[0], int(text[1:4]), int(text[4:6]), int(text[6]))


def slot_text(slot):
    """The name of a slot, which `slot_of` reads."""
    return '%s%03d%02d%d' % slot
