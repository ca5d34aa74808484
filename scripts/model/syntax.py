"""Service characters, segments and the fifteen faults of an interchange (ISO 9735, syntax version 3).

docs/PROFILE.md, sections 1 and 2. Each fault is a predicate of the whole text, which is asked only where none of
those before it applies.
"""
from collections import namedtuple
from functools import lru_cache

from .moments import are_digits, moment_of

LONGEST_TEXT = 1048576
TAG_CHARACTERS = 'ABCDEFGHIJKLMNOPQRSTUVWXYZ0123456789'
BREAKS = '\r\n'

Service = namedtuple('Service', 'component element release terminator')
DEFAULTS = Service(component=':', element='+', release='?', terminator="'")


class Segment(namedtuple('Segment', 'tag elements')):
    """A tag, and a list of elements, each a list of component values without their releases."""

    def value(self, element, component=1):
        """The value there, both counted from 1. One that is missing equals an empty one (own)."""
        values = self.values(element)
        return values[component - 1] if component <= len(values) else ''

    def values(self, element):
        """All components of an element."""
        return self.elements[element - 1] if element <= len(self.elements) else []


class Misfit(Exception):
    """A character stands where it may not, so that no continuation of the text is segments."""


class Ended(Exception):
    """The text ends within a segment."""


# ---- service characters

def service_of(text):
    """The service characters of a text: the defaults, or those that UNA names in the six bytes after it (ISO 9735,
    service string advice). Third byte and fifth, decimal mark and reserved, are not looked at (own). None where
    the six bytes are cut short or may not be service characters."""
    if not text.startswith('UNA'):
        return DEFAULTS
    if len(text) < 9:
        return None
    component, element, _mark, release, _reserved, terminator = text[3:9]
    service = Service(component, element, None if release == ' ' else release, terminator)
    used = [character for character in service if character is not None]
    may_be_used = len(set(used)) == len(used) and all(may_serve(character) for character in used)
    return service if may_be_used else None


def may_serve(character):
    """Below 0x80 and no letter, digit, space, CR or LF (own)."""
    return character < '\x80' and not character.isalnum() and character not in ' \r\n'


def may_be_data(character):
    """From 0x20 on but 0x7F; bytes from 0x80 are taken as they are (own)."""
    return character >= ' ' and character != '\x7f'


# ---- segments

def past_breaks(text, place):
    """The place after the CR and LF that stand at a place, if any."""
    while place < len(text) and text[place] in BREAKS:
        place += 1
    return place


def place_of_segments(text):
    """Where segments begin: after UNA, its six bytes and any CR and LF, or at the front."""
    return past_breaks(text, 9) if text.startswith('UNA') else 0


def read_tag(text, place):
    """A tag is three capitals or digits."""
    for at in range(place, place + 3):
        if at >= len(text):
            raise Ended
        if text[at] not in TAG_CHARACTERS:
            raise Misfit
    return text[place:place + 3]


def read_character(text, place, service):
    """What stands at a place, and the place after it: ('data', the character) for one that is ordinary or released,
    else the name of the service character. The release may stand before any byte that may stand in data, and before
    a service character (own)."""
    if place >= len(text):
        raise Ended
    character = text[place]
    for name in ('component', 'element', 'terminator'):
        if character == getattr(service, name):
            return name, '', place + 1
    if character == service.release:
        place += 1
        if place >= len(text):
            raise Ended
        character = text[place]
        if character in [used for used in service if used is not None]:
            return 'data', character, place + 1
    if not may_be_data(character):
        raise Misfit
    return 'data', character, place + 1


def read_segment(text, place, service):
    """The segment at a place, and the place after its terminator: a tag, then elements, each after an element
    separator, then the terminator. Component separators part the components of an element (ISO 9735, segments)."""
    tag = read_tag(text, place)
    place += 3
    if place < len(text) and text[place] not in (service.element, service.terminator):
        raise Misfit
    elements, what = [], None
    while what != 'terminator':
        what, character, place = read_character(text, place, service)
        if what == 'element':
            elements.append([[]])
        elif what == 'component':
            elements[-1].append([])
        elif what == 'data':
            elements[-1][-1].append(character)
    return Segment(tag, [[''.join(value) for value in values] for values in elements]), place


@lru_cache(maxsize=20000)
def segments_of(text):
    """All segments of a text whose service characters are in order, or None where it is no list of segments. CR and
    LF may stand after a terminator. (What was read is remembered: it depends on the text alone.)"""
    service, segments = service_of(text), []
    place = place_of_segments(text)
    try:
        while place < len(text):
            segment, place = read_segment(text, place, service)
            segments.append(segment)
            place = past_breaks(text, place)
    except (Misfit, Ended):
        return None
    return segments


# ---- the envelope

def is_printable(value):
    """From 0x20 (space) to 0x7E (tilde)."""
    return all(' ' <= character <= '~' for character in value)


def is_count(value, count):
    """1 to 6 digits with that value (0074, 0036, 6066)."""
    return are_digits(value, 1, 6) and int(value) == count


def header_of(text):
    """UNB, the first segment."""
    return segments_of(text)[0]


def sender_of(text):
    """0004, of S002."""
    return header_of(text).value(2)


def recipient_of(text):
    """0010, of S003."""
    return header_of(text).value(3)


def number_of(text):
    """0020, the control reference, as a number (own): leading zeros don't count."""
    return int(header_of(text).value(5))


def moment_of_header(text):
    """S004: 0017 is YYMMDD, 0019 is HHMM, and every YY is 20YY (own). None where there is no such moment."""
    date, time = header_of(text).value(4, 1), header_of(text).value(4, 2)
    if not are_digits(date, 6, 6) or not are_digits(time, 4, 4):
        return None
    return moment_of('20' + date + time, 12)


def messages_of(text):
    """The messages between the first segment and the last, each the list of its segments from UNH to UNT. None where
    anything else stands there, or UNB, UNZ, UNH or UNT within a message."""
    messages, is_inside = [], False
    for segment in segments_of(text)[1:-1]:
        if segment.tag in ('UNB', 'UNZ') or (segment.tag == 'UNH') == is_inside:
            return None
        if segment.tag == 'UNH':
            messages.append([])
        messages[-1].append(segment)
        is_inside = segment.tag != 'UNT'
    return None if is_inside else messages


# ---- the fifteen faults

def is_too_long(text):
    """Over 1,048,576 bytes (own)."""
    return len(text) > LONGEST_TEXT


def has_bad_service(text):
    """UNA is cut short, or names what may not serve."""
    return service_of(text) is None


def is_no_segments(text):
    """What follows UNA is no list of segments, each with its terminator."""
    return segments_of(text) is None


def has_no_envelope(text):
    """UNB is not first or UNZ not last; 0004 or 0010 is empty; a component of S002 or S003 isn't printable."""
    segments = segments_of(text)
    if not segments or segments[0].tag != 'UNB' or segments[-1].tag != 'UNZ':
        return True
    parties = segments[0].values(2) + segments[0].values(3)
    return '' in (sender_of(text), recipient_of(text)) or not all(is_printable(value) for value in parties)


def has_group(text):
    """UNG or UNE: functional groups are not taken."""
    return any(segment.tag in ('UNG', 'UNE') for segment in segments_of(text))


def is_other_version(text):
    """S001: 0001 is none of UNOA, UNOB, UNOC, or 0002 none of 1, 2, 3."""
    header = header_of(text)
    return header.value(1, 1) not in ('UNOA', 'UNOB', 'UNOC') or header.value(1, 2) not in ('1', '2', '3')


def has_no_number(text):
    """0020 isn't 1 to 14 digits with a value from 1 to 999,999,999 (own)."""
    reference = header_of(text).value(5)
    return not are_digits(reference, 1, 14) or not 1 <= int(reference) <= 999999999


def has_no_moment(text):
    """S004 isn't six and four digits of a moment that the calendar has."""
    return moment_of_header(text) is None


def is_test(text):
    """0035, the test indicator, is 1: test interchanges are not taken (own)."""
    return header_of(text).value(11) == '1'


def has_other_than_messages(text):
    """Between UNB and UNZ stands anything but messages."""
    return messages_of(text) is None


def has_wrong_segment_count(text):
    """0074 of a message isn't the number of its segments, UNH and UNT counted."""
    return any(not is_count(message[-1].value(1), len(message)) for message in messages_of(text))


def has_wrong_message_reference(text):
    """0062 of a message isn't 1 to 14 printable bytes, or is another in UNT; or one of the first five components of
    S009 isn't printable. References are compared by value (own)."""
    for message in messages_of(text):
        header, trailer = message[0], message[-1]
        reference = header.value(1)
        if not 1 <= len(reference) <= 14 or not is_printable(reference) or trailer.value(2) != reference:
            return True
        if not all(is_printable(value) for value in header.values(2)[:5]):
            return True
    return False


def is_empty(text):
    """There is no message."""
    return not messages_of(text)


def has_wrong_control_count(text):
    """0036 isn't the number of messages."""
    return not is_count(segments_of(text)[-1].value(1), len(messages_of(text)))


def has_wrong_control_reference(text):
    """0020 of UNZ is another than UNB's."""
    return segments_of(text)[-1].value(2) != header_of(text).value(5)


FAULTS = [
    ('TooLong', is_too_long), ('Service', has_bad_service), ('Segment', is_no_segments),
    ('NoEnvelope', has_no_envelope), ('Group', has_group), ('Version', is_other_version),
    ('Number', has_no_number), ('Moment', has_no_moment), ('Test', is_test),
    ('MessageFrame', has_other_than_messages), ('SegmentCount', has_wrong_segment_count),
    ('MessageReference', has_wrong_message_reference), ('Empty', is_empty),
    ('ControlCount', has_wrong_control_count), ('ControlReference', has_wrong_control_reference),
]


def fault_of(text):
    """The fault with the lowest number of those that apply to the whole text, or None."""
    for name, applies in FAULTS:
        if applies(text):
            return name
    return None
