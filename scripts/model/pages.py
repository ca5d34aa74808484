"""What pages are called, which reports have one, the picture as a page, and what a person types into the field for a container
(own). The pages of what reports tell are those of value_pages.py.
"""
import re
from urllib.parse import unquote_to_bytes

from .names import check_digit, number_fault

# the kinds of reports that have a page
KINDS = (
    'yard', 'visits', 'list', 'ticket', 'reply', 'container', 'work', 'partners', 'blocks', 'calls', 'contrl', 'partner',
    'picture')


def title(kind, key):
    """What the page is called. The key has its parts decoded: a container, a partner, (partner, number), or
    (vessel, voyage, side)."""
    if kind in ('yard', 'partners', 'blocks', 'calls'):
        return kind.capitalize()
    if kind in ('list', 'work'):
        vessel, voyage, side = key
        return '%s %s of %s %s' % (side.capitalize(), kind, vessel, voyage)
    if kind in ('ticket', 'reply', 'contrl'):
        what = {'ticket': 'Ticket of', 'reply': 'Reply to', 'contrl': 'CONTRL to'}[kind]
        return '%s %s %d' % (what, key[0], key[1])
    return {'visits': 'Visits of ', 'container': 'Container ', 'partner': 'Partner '}[kind] + key


def drawn(text):
    """The picture with a link from each container, which is drawn on a line of its own, to its page, and with one to the
    start page at its top."""
    linked = re.sub(
        r"^(<g transform='translate\(-?\d+ -?\d+\)'><title>(.{11}) .*</g>)$",
        lambda found: "<a href='%s'>%s</a>" % ('/pages/containers/' + found[2], found[1]), text, flags=re.M)
    return linked.replace('\n<main>\n', "\n<main>\n<nav>\n<a href='/'>Start</a>\n</nav>\n", 1)


def typed(value):
    """What a person typed, from the bytes after `container=`: ('number', BOX), ('form', None), or
    ('check digit', the number with the right one)."""
    decoded = unquote_to_bytes(value)
    text = ''.join(chr(c) for c in decoded if c not in b' +-')
    text = ''.join(c.upper() if 'a' <= c <= 'z' else c for c in text)
    fault = number_fault(text)
    if fault is None:
        return 'number', text
    if fault == 'Form':
        return 'form', None
    return 'check digit', text[:10] + str(check_digit(text[:10]))


def typed_words(value):
    """The text that a person typed, from the same bytes, in which `+` writes a space. None, if it is empty or not UTF-8."""
    decoded = unquote_to_bytes(value.replace('+', ' ').encode('latin-1'))
    try:
        decoded.decode('utf-8')
    except UnicodeDecodeError:
        return None
    return ''.join(map(chr, decoded)) or None
