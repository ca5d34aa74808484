"""What `office explain` tells of a file: docs/OPERATIONS.md, "Explain a file".

Of each interchange the lowest fault by which a delivery of it would be refused, else the faults of its messages and of their
lines: each with the segment and the byte where it stands, what was found there and what is expected. Of each line without
fault what was read, and what was passed over. At the end how many interchanges there are, and how they fare.
"""
import re
from collections import Counter, namedtuple

from .contrl import ERROR_CODES
from .cuts import cut_at
from .messages import (
    READ_MOMENT, READ_WEIGHT, container_groups, first, groups_of, has_limits, header_of, line_fault, lines_of, message_fault,
    number_in, transport_of, type_of)
from .moments import are_digits
from .names import check_digit, slot_text
from .office import refused
from .rules import NEWEST, RULES
from .setup import CODE_NAMES, DEFAULT_CODES, KINDS, Setup, orders_of
from .syntax import (
    LONGEST_TEXT, Ended, Misfit, fault_of, is_count, is_printable, messages_of, moment_of_header, number_of, past_breaks,
    place_of_segments, read_segment, recipient_of, segments_of, sender_of, service_of)
from .syntax import header_of as unb_of

# each sender has an account, and each recipient is the terminal: only the codes are looked at
NOBODY = Setup(terminal=None, partners=None, codes=DEFAULT_CODES, plan=None, most_visits=None)

# a fault: what has it (in words), its name, the error code of CONTRL or None, the segment from 1, the bytes of the text where
# it stands, and what is expected there
Found = namedtuple('Found', 'subject name code segment begin end expected')

# a line that is read: what is said of it
Read = namedtuple('Read', 'said')

# a segment that is passed over: of which message, or of the line before it (None); its number from 1, its bytes of the text,
# and what is read in its place
Passed = namedtuple('Passed', 'message segment begin end why')

# an interchange or what is cut off: the byte of the file where it begins, its text, what is said of it, how it fares, its
# faults and what was read, in order, and what its first bytes are if they are no interchange's
Explained = namedtuple('Explained', 'begin text said fares found stranger')


# ---- where segments stand

def spans_of(text):
    """Where each segment of a text begins and ends, its terminator in it, as far as there are whole segments."""
    service, spans = service_of(text), []
    place = place_of_segments(text)
    try:
        while place < len(text):
            _segment, end = read_segment(text, place, service)
            spans.append((place, end))
            place = past_breaks(text, end)
    except (Misfit, Ended):
        pass
    return spans


def misfit_in(text):
    """Where the first segment begins that is not whole, and the first byte with which no continuation is a segment, or None
    where the text only ends."""
    spans = spans_of(text)
    begin = past_breaks(text, spans[-1][1]) if spans else place_of_segments(text)
    if not is_misfit(text, begin, len(text)):
        return begin, None
    least, most = begin, len(text)      # no misfit in the bytes up to the one, and one in those up to the other
    while most - least > 1:
        middle = (least + most) // 2
        least, most = (least, middle) if is_misfit(text, begin, middle) else (middle, most)
    return begin, least


def is_misfit(text, begin, end):
    """No continuation of the bytes from one place up to another is a segment."""
    try:
        read_segment(text[:end], begin, service_of(text))
    except Misfit:
        return True
    except Ended:
        pass
    return False


# ---- faults of a text

def too_long(text):
    """The first byte too many."""
    return len(spans_of(text[:LONGEST_TEXT])) + 1, LONGEST_TEXT, len(text), 'at most 1048576 bytes up to the end of UNZ'


def bad_service(text):
    """UNA and what stands after it."""
    return 1, 0, min(9, len(text)), (
        'UNA and six bytes, of which the separators, the release character (or a space for none) and the terminator differ, '
        'and none is a letter, a digit, CR, LF or from 0x80')


def no_segment(text):
    """The byte that no segment has there."""
    begin, at = misfit_in(text)
    if at is None:
        return ended(text)
    return len(spans_of(text)) + 1, at, len(text), wanted(text, begin, at)


def wanted(text, begin, at):
    """What stands in the place of a byte: within a tag, after it, or within elements."""
    if at < begin + 3:
        return 'a tag: no space may stand between segments' if text[at] == ' ' else 'a tag of three capitals or digits'
    if at == begin + 3:
        return 'an element separator or the terminator, after a tag of three characters'
    if text[at] in '\r\n':
        return 'the rest of the segment: CR and LF may stand only after a terminator'
    return 'data, a separator or the terminator'


def ended(text):
    """The segment that the end cuts off, or the last one where it stands after a terminator."""
    spans = spans_of(text) if service_of(text) else []
    begin, _at = misfit_in(text) if service_of(text) else (0, None)
    if begin < len(text):
        return len(spans) + 1, begin, len(text), 'the rest of the segment, up to its terminator: the text ends here'
    last = spans[-1][0] if spans else len(text)
    return max(len(spans), 1), last, len(text), 'UNZ, and all that stands before it: the text ends here'


CUTS = {'TooLong': too_long, 'Service': bad_service, 'Segment': no_segment, 'End': ended}


def at_segment(text, place, expected):
    """A segment of a text, from 0, or from the end."""
    spans = spans_of(text)
    place = place % len(spans)
    return (place + 1,) + spans[place] + (expected,)


def at_header(expected):
    """The fault stands at UNB."""
    return lambda text: at_segment(text, 0, expected)


def no_envelope(text):
    """The first segment, the last, or the parties."""
    if segments_of(text)[0].tag != 'UNB':
        return at_segment(text, 0, 'UNB')
    if segments_of(text)[-1].tag != 'UNZ':
        return at_segment(text, -1, 'UNZ')
    return at_segment(text, 0, 'a sender (0004) and a recipient (0010), each byte from space to tilde')


def group(text):
    """The first UNG, or else the first UNE."""
    tags = [segment.tag for segment in segments_of(text)]
    return at_segment(text, tags.index('UNG' if 'UNG' in tags else 'UNE'), 'no functional group')


def misframed(text):
    """The first segment that neither goes on with a message nor begins one."""
    is_inside, tags = False, [segment.tag for segment in segments_of(text)]
    for place, tag in enumerate(tags[1:-1], 1):
        if tag in ('UNB', 'UNZ') or (tag == 'UNH') == is_inside:
            break
        is_inside = tag != 'UNT'
    else:
        place = len(tags) - 1
    return at_segment(text, place, (
        'UNT before it, the end of the message' if is_inside
        else 'UNH, the beginning of a message, or UNZ as the last segment'))


def placed_messages(text):
    """Each message, and the place of its first segment."""
    placed, place = [], 1
    for message in messages_of(text):
        placed.append((place, message))
        place += len(message)
    return placed


def miscounted(text):
    """The first UNT that counts otherwise."""
    for place, message in placed_messages(text):
        if not is_count(message[-1].value(1), len(message)):
            return at_segment(
                text, place + len(message) - 1, '%d (0074), the number of segments from UNH to UNT' % len(message))
    return None


def misreferenced(text):
    """The first UNH that isn't printable or has no reference of 1 to 14 bytes, or UNT with another one."""
    for place, message in placed_messages(text):
        reference = message[0].value(1)
        if not 1 <= len(reference) <= 14 or not all(is_printable(value) for value in [reference] + message[0].values(2)[:5]):
            return at_segment(
                text, place, 'a reference (0062) of 1 to 14 bytes and an identity (S009), each byte from space to tilde')
        if message[-1].value(2) != reference:
            return at_segment(
                text, place + len(message) - 1, '%s (0062), the reference that UNH gives' % shown_whole(reference))
    return None


PLACES = dict(
    CUTS, NoEnvelope=no_envelope, Group=group,
    Version=at_header('UNOA, UNOB or UNOC, and 1, 2 or 3 (S001)'),
    Number=at_header('a control reference (0020) of 1 to 14 digits, from 1 to 999999999'),
    Moment=at_header('YYMMDD and HHMM (S004) of a day that there is'),
    Test=at_header('no test indicator (0035)'),
    MessageFrame=misframed, SegmentCount=miscounted, MessageReference=misreferenced,
    Empty=lambda text: at_segment(text, -1, 'a message before it, from UNH to UNT'),
    ControlCount=lambda text: at_segment(text, -1, '%d (0036), the number of messages' % len(messages_of(text))),
    ControlReference=lambda text: at_segment(
        text, -1, '%s (0020), the control reference of UNB' % shown_whole(unb_of(text).value(5))),
    UnknownSender=at_header('a sender (0004) that has an account'))


def refusal_of(setup, text):
    """The name of the fault by which a delivery is refused, or None."""
    fault = fault_of(text)
    if fault or setup is NOBODY:
        return fault
    if sender_of(text) not in setup.partners:
        return 'UnknownSender'
    return None if recipient_of(text) == setup.terminal else 'WrongRecipient'


def refused_as(setup, text, fault):
    """What is found of an interchange that is refused."""
    if fault == 'WrongRecipient':
        place = at_segment(text, 0, '%s (0010), the terminal' % setup.terminal)
    else:
        place = PLACES[fault](text)
    has_contrl = setup is NOBODY or 'contrl' in refused(setup, text, fault)
    return Found('', fault, ERROR_CODES.get(fault) if has_contrl else None, *place)


# ---- faults of messages and lines

def kind_of(setup, text):
    """The kind of the sender's account; where that isn't known, the first that may send the first message that any may."""
    if setup is not NOBODY:
        return setup.partners[sender_of(text)]
    for message in messages_of(text):
        for kind in KINDS:
            if message_fault(message, orders_of(setup, kind), RULES[NEWEST]) not in ('OtherType', 'NoBgm', 'Code'):
                return kind
    return 'gate'


def codes_said(setup, kind):
    """What a kind may send."""
    orders = list(orders_of(setup, kind))
    return '%s with %s (1001), from an account of the kind %s' % (
        orders[0][0], ' or '.join(code for _type, code in orders), kind)


def message_place(setup, kind, message, fault):
    """The segment of a message that shows its fault, and what is expected."""
    bgm, unh = first(header_of(message), 'BGM'), message[0]
    control = first(message, 'CNT', lambda segment: segment.value(1) == '16')
    return {
        'OtherType': lambda: (unh, 'CODECO, COPRAR or COARRI, and D, 95B and UN (S009)'),
        'NoBgm': lambda: (unh, 'a BGM before the first EQD'),
        'Code': lambda: (bgm, codes_said(setup, kind)),
        'Function': lambda: (bgm, '9 or nothing (1225)' + (', or 5 to replace a list' if kind == 'line' else '')),
        'NoTransport': lambda: (transport_of(message) or unh, (
            'TDT+20 before the first EQD, with a voyage (8028) and a vessel (8213) of 1 to 35 bytes from space to tilde')),
        'NoEquipment': lambda: (unh, 'a container (EQD+CN)'),
        'EquipmentCount': lambda: (control, '%d (6066), the number of EQD' % len(groups_of(message))),
        'TooMany': lambda: (container_groups(message)[999][0], 'at most 999 containers (EQD+CN)'),
    }[fault]()


def line_place(found, fault):
    """The segment of a line that shows its fault, and what is expected."""
    number = number_in(found)
    slot = first(found, 'LOC', lambda segment: segment.value(1) == 'ZZZ')
    moment = first(found, 'DTM', lambda segment: segment.value(1, 3) in ('203', '102'))
    return {
        'Form': lambda: (found[0], 'three capitals, one of U, J and Z, and seven digits (8260)'),
        'CheckDigit': lambda: (found[0], '%s%d (8260), if its first ten characters are right' % (
            number[:10], check_digit(number[:10]))),
        'Size': lambda: (found[0], 'a size-type (8155) of four capitals or digits that begins with 2, 4 or L'),
        'Moment': lambda: (moment, 'CCYYMMDDHHMM (203) or CCYYMMDD (102) of a day that there is'),
        'SlotText': lambda: (slot or found[0], (
            "a slot such as A001011: a block's letter, and three digits of the bay, two of the row and one of the tier")),
    }[fault]()


def at(text, place, message, segment):
    """A segment of a message, which begins at a place."""
    index = next(index for index, other in enumerate(message) if other is segment)
    spans = spans_of(text)
    return (place + index + 1,) + spans[place + index]


def messages_told(setup, text):
    """The faults of the messages of a text and of their lines, and what was read of those without."""
    kind, found = kind_of(setup, text), []
    may_order = orders_of(setup, kind)
    for count, (place, message) in enumerate(placed_messages(text), 1):
        fault = message_fault(message, may_order, RULES[NEWEST])
        if fault:
            segment, expected = message_place(setup, kind, message, fault)
            found.append(Found('message %d rejected: ' % count, fault, ERROR_CODES[fault],
                               *at(text, place, message, segment), expected))
            continue
        order = may_order[type_of(message), first(header_of(message), 'BGM').value(1)]
        found += heading_told(text, place, count, message, order)
        lines = lines_of(message, may_order, moment_of_header(text), RULES[NEWEST])
        for line, (group_of_line, read) in enumerate(zip(container_groups(message), lines), 1):
            fault = line_fault(group_of_line, order, moment_of_header(text))
            if fault:
                segment, expected = line_place(group_of_line, fault)
                found.append(Found('message %d, line %d refused: ' % (count, line), fault, None,
                                   *at(text, place, message, segment), expected))
            else:
                found.append(Read('message %d, line %d read: %s' % (
                    count, line, ', '.join(order_said(group_of_line, read.order)))))
                found += [Passed(None, *at(text, place, message, segment), why)
                          for segment, why in passed_in(group_of_line, read.order)]
    return found


# ---- what was read of a line

ORDER_NAMES = {meant.order: name for name, meant in CODE_NAMES.items()}


def order_said(group, order):
    """What a line orders, in parts: each kind of order has what it reads."""
    said = [ORDER_NAMES[order.name], order.number]
    if order.name in READ_WEIGHT:
        said += [order.size_type, 'full' if order.is_full else 'empty']
    if order.name in READ_MOMENT:
        date, time = order.moment[:8], order.moment[8:]
        said.append('%s-%s-%s %s:%s (%s)' % (
            date[:4], date[4:6], date[6:], time[:2], time[2:], 'DTM' if moment_segment(group) else 'UNB'))
    if order.name in READ_WEIGHT:
        said.append('%d kg' % order.kilos if order.kilos else 'no weight')
        said.append('booking ' + order.booking if order.booking else 'no booking')
    if order.name == 'ListLoad':
        said.append('port ' + order.port if order.port else 'no port')
    if order.slot:
        said.append('slot ' + slot_text(order.slot))
    return said + (['vessel ' + order.call[0], 'voyage ' + order.call[1]] if order.call else [])


def moment_segment(group):
    """The DTM from which the moment is read, or None."""
    return first(group, 'DTM', lambda segment: segment.value(1, 3) in ('203', '102'))


# ---- what was passed over

WEIGHT = 'a weight is read of the first MEA with G (6313) and KGM (6411), of 1 to 6 digits'
MOMENT = 'a moment is read of the first DTM in 203 or 102 (2379)'
BOOKING = 'a booking is read of the first RFF+BN after its EQD, of 1 to 35 bytes from space to tilde'
PORT = 'a port is read of the first LOC+11 after its EQD, of 1 to 35 bytes from space to tilde'


def passed_in(group, order):
    """The segments of a line that say what its order reads, but from which nothing was read."""
    weight = first(group, 'MEA', lambda segment: (segment.value(2), segment.value(3, 1)) == ('G', 'KGM'))
    booking = first(group, 'RFF', lambda segment: segment.value(1) == 'BN')
    port = first(group, 'LOC', lambda segment: segment.value(1) == '11')
    for segment in group[1:]:
        is_weight = segment is weight and are_digits(segment.value(3, 2), 1, 6)
        if segment.tag == 'MEA' and order.name in READ_WEIGHT and not is_weight:
            yield segment, WEIGHT
        if segment.tag == 'DTM' and order.name in READ_MOMENT and segment is not moment_segment(group):
            yield segment, MOMENT
        if is_booking(segment) and order.name in READ_WEIGHT and not (segment is booking and has_limits(segment.value(1, 2))):
            yield segment, BOOKING
        is_port = segment.tag == 'LOC' and segment.value(1) == '11'
        if is_port and order.name == 'ListLoad' and not (segment is port and has_limits(segment.value(2))):
            yield segment, PORT


def is_booking(segment):
    """RFF+BN."""
    return segment.tag == 'RFF' and segment.value(1) == 'BN'


def heading_told(text, place, count, message, order):
    """The bookings before the first EQD of a message whose lines read one: they are nobody's."""
    return [Passed(count, *at(text, place, message, segment), BOOKING)
            for segment in header_of(message) if is_booking(segment) and order in READ_WEIGHT]


# ---- a file

STRANGERS = [
    ('\xef\xbb\xbf', 'a byte order mark stands here: save the file without it'),
    ('\xff\xfe', 'this is UTF-16: save the file in ASCII or Latin 1'),
    ('\xfe\xff', 'this is UTF-16: save the file in ASCII or Latin 1'),
    ('U\0', 'this is UTF-16: save the file in ASCII or Latin 1'),
    ('\0U', 'this is UTF-16: save the file in ASCII or Latin 1'),
    ('\xe4\xd5', 'this is EBCDIC: send the file in ASCII'),
]
MAIL = "this is a mail's head: save the interchange that is attached"


def stranger_in(text):
    """What a text that can't be split begins with, if that is known: a mark or another code, or a field of a mail's head."""
    for front, said in STRANGERS:
        if text.startswith(front):
            return said
    return MAIL if not text.startswith('UN') and re.match('[A-Za-z0-9-]+: ', text) else None


def explained(setup, file):
    """What is told of each interchange of a file."""
    interchanges, place, fault = cut_at(file)
    told, begin = [], past_breaks(file, 0)
    for text in interchanges:
        refusal = refusal_of(setup, text)
        if refusal:
            told.append(Explained(begin, text, 'refused, and nothing of it is kept', 'refused',
                                  [refused_as(setup, text, refusal)], None))
        else:
            said = 'number %d of %s, of the kind %s, to %s' % (
                number_of(text), shown_whole(sender_of(text)[:35]), kind_of(setup, text), shown_whole(recipient_of(text)[:35]))
            found = messages_told(setup, text)
            fares = 'with faults' if any(isinstance(one, Found) for one in found) else 'without a fault'
            told.append(Explained(begin, text, said, fares, found, None))
        begin = past_breaks(file, begin + len(text))
    if fault:
        told.append(Explained(place, file[place:], 'cut, and nothing after it is read', 'cut',
                              [Found('', fault, None, *CUTS[fault](file[place:]))], stranger_in(file[place:])))
    return told


def shown_whole(text):
    """Bytes, those that can't be printed in hexadecimal digits."""
    return ''.join(character if is_printable(character) else '\\x%02x' % ord(character) for character in text)


def shown(text):
    """The first 60 bytes."""
    return shown_whole(text[:60]) + ('..' if len(text) > 60 else '')


def told_lines(told, one):
    """What is printed of a fault, of a line that is read, or of a segment that is passed over."""
    if isinstance(one, Read):
        return ['  ' + one.said]
    if isinstance(one, Passed):
        return ['%s passed over: segment %d, byte %d, %s (%s)' % (
            '  message %d' % one.message if one.message else '   ', one.segment, told.begin + one.begin + 1,
            shown(told.text[one.begin:one.end]), one.why)]
    code = ' (CONTRL 4, %s)' % one.code if one.code else ''
    return ['  %s%s%s at segment %d, byte %d' % (one.subject, one.name, code, one.segment, told.begin + one.begin + 1),
            '    found     ' + shown(told.text[one.begin:one.end]),
            '    expected  ' + one.expected]


def block(number, told):
    """What is printed of an interchange."""
    lines = ['interchange %d, from byte %d: %s' % (number, told.begin + 1, told.said)]
    lines += ['  no fault'] if told.fares == 'without a fault' else []
    for one in told.found:
        lines += told_lines(told, one)
    return lines + (['    note      ' + told.stranger] if told.stranger else [])


FARES = ['without a fault', 'with faults', 'refused', 'cut']


def tally(file, told):
    """How many interchanges a file has and how they fare; that it has none; that a request takes only one."""
    if not told:
        return ['no interchange: ' + ('only CR and LF stand in the file' if file else 'the file is empty')]
    counted = Counter(one.fares for one in told)
    lines = ['%d interchange%s: %s' % (
        len(told), '' if len(told) == 1 else 's', ', '.join('%d %s' % (counted[fares], fares) for fares in FARES))]
    return lines + (['a POST takes one interchange: send each by itself'] if len(told) > 1 else [])


def printed(setup, file):
    """The lines that are printed of a file, and the status: 1 where there is any fault."""
    told = explained(setup, file)
    lines = [line for number, one in enumerate(told, 1) for line in block(number, one)] + tally(file, told)
    return lines, 1 if any(one.fares != 'without a fault' for one in told) else 0
