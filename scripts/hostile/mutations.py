"""Mutations of texts: bytes, segments, values and lines that are changed, left out, doubled, spliced or cut.

A mutation is made from a random generator, a text and another text of its kind. Numbers before each value in a table are
its weight.
"""
import re

from model.requests import weighted

# bytes that mean something somewhere, and values that stand at a limit
TELLING_BYTES = "'+:?*;!|UNABZHTCO0123459 ~,\"-./%\r\n\t\x00\x1f\x7f\x80\xc3\xe9\xff"
TELLING_VALUES = [
    '', '0', '1', '2', '3', '4', '9', '00', '000001', '7', '10', '999999', '0000004', '999999999', '1000000000',
    '00000000000001', '000000000000001', '99999999999999', '-1', '+1', ' 1', '1 ', 'A', 'X' * 35, 'X' * 36, 'X' * 14, 'X' * 15,
    '?', '??', "?'", '?+', '?:', '?A', '\xe9', '\x7f', '\r\n', '~', ' ', 'UNA', 'UNB', 'UNZ', 'UNH', 'UNT', 'UNG', 'UNE', 'BGM',
    'EQD', 'CNT', 'TDT', 'DTM', 'LOC', 'RFF', 'CODECO', 'COPRAR', 'COARRI', 'D', '95B', 'UN', 'CN', 'TE', 'ZZZ', '11', '203',
    '102', '16', '20', '34', '36', '43', '44', '45', '46', 'YMV', '22G1', '42G1', 'L5G1', '10G1', '240229', '230229', '2400',
    '2359', '202402292359', '20240229', '20230229', '00000229', '99991231', 'MEA', 'G', 'KGM', '24000', '024000', '1000000',
    '24.5', 'ABCU0000017', 'ABCU0000018', 'abcu0000017',
    'A001011', 'A002011', 'A001012', 'A000011', 'A009011', 'TERM1', 'HAULA', 'HAULB', 'LINEA', 'QUAY1', 'YARD1', '9123456']
FIELDS = [
    '', '0', '1', '2', '01', '6', '7', '12', '13', '40', '41', '000000040', '0000000040', '999999999', '1000000000', '-1', '+1',
    ' 1', '34', '36', '43', '44', '45', '46', 'YMV', 'ABC', 'ABCD', 'a', 'X' * 35, 'X' * 36, 'a.b-c_9', 'A/B', 'A B', '\xc3\xa9',
    '\xe9', '"A"', '"A""B"', '"A,B"', '"A', 'A"', 'gate', 'line', 'quay', 'yard', 'Gate', 'gate-in', 'gate-out', 'yard-move',
    'load-list', 'discharge-list', 'load-report', 'discharge-report', 'visits', 'TERM1', 'HAULA', 'LINEA']
LONGEST_RUN = 12


# ---- bytes

def any_byte(random):
    """One that means something, or any."""
    return random.choice(TELLING_BYTES) if random.random() < 0.6 else chr(random.randrange(256))


def byte_changed(random, text, _other):
    """One byte is another, or differs in one bit."""
    place = random.randrange(len(text))
    byte = any_byte(random) if random.random() < 0.7 else chr(ord(text[place]) ^ 1 << random.randrange(8))
    return text[:place] + byte + text[place + 1:]


def bytes_dropped(random, text, _other):
    """A short run is left out."""
    place = random.randrange(len(text))
    return text[:place] + text[place + random.choice([1, 1, 1, 2, LONGEST_RUN]):]


def bytes_doubled(random, text, _other):
    """A short run stands twice."""
    place = random.randrange(len(text))
    end = place + random.choice([1, 1, 2, LONGEST_RUN])
    return text[:end] + text[place:]


def byte_placed(random, text, _other):
    """One byte more."""
    place = random.randrange(len(text) + 1)
    return text[:place] + any_byte(random) + text[place:]


# ---- whole texts

def cut(random, text, _other):
    """A front of the text, or seldom a back."""
    place = random.randrange(len(text))
    return text[:place] if random.random() < 0.8 else text[place:]


def spliced(random, text, other):
    """A front of the text, and a back of another."""
    return text[:random.randrange(len(text) + 1)] + other[random.randrange(len(other) + 1):]


# ---- segments and values of interchanges

def segments_spliced(random, text, other):
    """A segment is left out, doubled, moved, or another's comes in."""
    segments = text.split("'")
    place, target = random.randrange(len(segments)), random.randrange(len(segments))
    segment = segments[place]
    what = weighted(random, [(3, 'drop'), (2, 'double'), (2, 'move'), (3, 'other')])
    if what in ('drop', 'move'):
        del segments[place]
    if what in ('double', 'move'):
        segments.insert(target, segment)
    if what == 'other':
        segments.insert(target, random.choice(other.split("'")))
    return "'".join(segments)


def value_changed(random, text, other):
    """One value is another: one at a limit, or one of another text."""
    values = list(re.finditer(r"[^+:']+", text))
    if not values:
        return byte_placed(random, text, other)
    place = random.choice(values)
    others = re.findall(r"[^+:']+", other) or ['']
    value = random.choice(TELLING_VALUES if random.random() < 0.6 else others)
    return text[:place.start()] + value + text[place.end():]


def separator_changed(random, text, _other):
    """One separator is left out, doubled or another."""
    separators = list(re.finditer(r"[+:']", text))
    if not separators:
        return text + "'"
    place = random.choice(separators)
    by = random.choice(['', place.group() * 2, '+', ':', "'", '+++', '?' + place.group()])
    return text[:place.start()] + by + text[place.end():]


def recounted(text):
    """With each UNT and the UNZ counting right, so far as the text is plain."""
    segments, since, messages = text.split("'"), 0, 0
    for place, segment in enumerate(segments):
        tag = segment.strip('\r\n')[:3]
        since = 1 if tag == 'UNH' else since + 1
        if tag == 'UNT':
            segments[place] = re.sub(r'UNT\+[^+]*', 'UNT+%d' % since, segment, count=1)
            messages += 1
        if tag == 'UNZ':
            segments[place] = re.sub(r'UNZ\+[^+]*', 'UNZ+%d' % messages, segment, count=1)
    return "'".join(segments)


# ---- lines of files and heads

def lines_spliced(random, text, other):
    """A line is left out, doubled, moved, or another's comes in."""
    lines = re.split(r'(?<=\n)', text)
    place, target = random.randrange(len(lines)), random.randrange(len(lines))
    line = lines[place]
    what = weighted(random, [(2, 'drop'), (2, 'double'), (1, 'move'), (2, 'other')])
    if what in ('drop', 'move'):
        del lines[place]
    if what in ('double', 'move'):
        lines.insert(target, line)
    if what == 'other':
        lines.insert(target, random.choice(re.split(r'(?<=\n)', other)))
    return ''.join(lines)


def field_changed(random, text, other):
    """One field after a comma is another: a value at a limit, or a field of another text."""
    fields = list(re.finditer(r'(?<=,)[^,\r\n]*', text))
    if not fields:
        return byte_placed(random, text, other)
    place = random.choice(fields)
    others = re.findall(r'[^,\r\n]+', other) or ['']
    field = random.choice(FIELDS if random.random() < 0.5 else others)
    return text[:place.start()] + field + text[place.end():]


BYTES = [(3, byte_changed), (2, bytes_dropped), (2, bytes_doubled), (2, byte_placed)]
INTERCHANGE = BYTES + [(1, cut), (1, spliced), (6, segments_spliced), (8, value_changed), (3, separator_changed)]
FILE = BYTES + [(0.5, cut), (0.5, spliced), (6, lines_spliced), (16, field_changed)]
HEAD = BYTES + [(0.5, cut), (0.5, spliced), (2, lines_spliced)]
KEY = BYTES + [(1, cut), (1, spliced)]


def mutated(random, text, other, table):
    """A text with one mutation or a few, so that it is another text."""
    found = text
    while found == text:
        for _mutation in range(random.choice([1, 1, 1, 2, 3])):
            found = weighted(random, table)(random, found or 'X', other or 'X')
    return found


def mutated_file(random, text, other):
    """A file so mutated, most often after its first line."""
    if random.random() < 0.1:
        return mutated(random, text, other, FILE)
    header, rest = re.match(r'([^\r\n]*[\r\n]*)(.*)', text, re.DOTALL).groups()
    return header + mutated(random, rest or 'A', other, FILE)


def mutated_interchange(random, text, other):
    """An interchange so mutated; half of them count right again, so that more of them are read whole."""
    found = mutated(random, text, other, INTERCHANGE)
    if random.random() < 0.5:
        counted = recounted(found)
        return counted if counted != text else found
    return found
