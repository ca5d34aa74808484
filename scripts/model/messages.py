"""CODECO, COPRAR and COARRI (UN/EDIFACT D.95B): what a message orders for each container. docs/PROFILE.md, section 3.

A message is the list of its segments from UNH to UNT. "The first" is the first that fits (own). Each fault is a
predicate, which is asked only where none of those before it applies. What its sender may order is a dict of orders by
type and 1001.
"""
from collections import namedtuple
from itertools import takewhile

from .moments import are_digits, moment_of
from .names import length_of, number_fault, slot_of
from .syntax import is_count, is_printable

READ_SIZE = ('GateIn', 'Discharge')
READ_SLOT = ('GateIn', 'Discharge', 'Move')
LISTS = ('ListLoad', 'ListDischarge')
READ_MOMENT = ('GateIn', 'GateOut', 'Discharge', 'Load')
READ_WEIGHT = ('GateIn', 'Discharge')

# what a line orders: `name` is the order's, `slot` None where none is asked for, `call` is (vessel, voyage) or None, `kilos`
# the gross weight, 0 where none is told
Order = namedtuple('Order', 'name number size_type is_full booking moment slot call port kilos')

# a line: its fault or None, the container's number where it could be read, its order where there is no fault
Line = namedtuple('Line', 'fault number order')


# ---- parts of a message

def first(segments, tag, fits=lambda segment: True):
    """The first segment with that tag that fits, or None."""
    for segment in segments:
        if segment.tag == tag and fits(segment):
            return segment
    return None


def header_of(message):
    """What stands before the first EQD."""
    return list(takewhile(lambda segment: segment.tag != 'EQD', message[1:-1]))


def groups_of(message):
    """Each EQD begins a group, which ends before the next EQD or the next CNT of any kind."""
    groups, is_open = [], False
    for segment in message[1:-1]:
        if segment.tag == 'EQD':
            groups.append([])
        is_open = segment.tag == 'EQD' or (is_open and segment.tag != 'CNT')
        if is_open:
            groups[-1].append(segment)
    return groups


def container_groups(message):
    """8053 is CN: a container. A group with another is passed over."""
    return [group for group in groups_of(message) if group[0].value(1) == 'CN']


def type_of(message):
    """0065, of S009."""
    return message[0].value(2, 1)


def code_of(message):
    """1001, of the first BGM in the header."""
    return first(header_of(message), 'BGM').value(1)


def transport_of(message):
    """The first TDT in the header whose 8051 is 20, or None."""
    return first(header_of(message), 'TDT', lambda segment: segment.value(1) == '20')


def call_of(message):
    """Vessel (8213) and voyage (8028), for COPRAR and COARRI alone."""
    if type_of(message) == 'CODECO':
        return None
    return transport_of(message).value(8), transport_of(message).value(2)


# ---- faults of a message

def is_other_type(message, may_order, rules):
    """S009 is none of the three types, then D, 95B, UN. The association code is free."""
    identifier = [message[0].value(2, component) for component in (2, 3, 4)]
    return type_of(message) not in ('CODECO', 'COPRAR', 'COARRI') or identifier != ['D', '95B', 'UN']


def has_no_bgm(message, may_order, rules):
    """The header has no BGM."""
    return first(header_of(message), 'BGM') is None


def is_other_code(message, may_order, rules):
    """1001 is no code that its sender may send in a message of that type (own)."""
    return (type_of(message), code_of(message)) not in may_order


def function_of(message):
    """1225, of the first BGM in the header: empty or 9 is an original, 5 replaces."""
    return first(header_of(message), 'BGM').value(3)


def is_other_function(message, may_order, rules):
    """1225 is none of an original, and is not 5 under the code of a list. (Version 1 knew no 5.)"""
    may_replace = rules.may_replace and may_order[type_of(message), code_of(message)] in LISTS
    return function_of(message) not in (('', '9', '5') if may_replace else ('', '9'))


def has_limits(value):
    """1 to 35 printable bytes."""
    return 1 <= len(value) <= 35 and is_printable(value)


def has_no_transport(message, may_order, rules):
    """A COPRAR or COARRI without such a TDT, or whose voyage or vessel is outside the limits."""
    if type_of(message) == 'CODECO':
        return False
    return transport_of(message) is None or not all(has_limits(value) for value in call_of(message))


def has_no_equipment(message, may_order, rules):
    """No EQD is a container."""
    return not container_groups(message)


def has_other_equipment_count(message, may_order, rules):
    """6066 of the first CNT in the whole message whose 6069 is 16, where there is one, isn't the number of all EQD."""
    control = first(message, 'CNT', lambda segment: segment.value(1, 1) == '16')
    return control is not None and not is_count(control.value(1, 2), len(groups_of(message)))


def has_too_many(message, may_order, rules):
    """Over 999 containers (own)."""
    return len(container_groups(message)) > 999


MESSAGE_FAULTS = [
    ('OtherType', is_other_type), ('NoBgm', has_no_bgm), ('Code', is_other_code), ('Function', is_other_function),
    ('NoTransport', has_no_transport), ('NoEquipment', has_no_equipment),
    ('EquipmentCount', has_other_equipment_count), ('TooMany', has_too_many),
]


def message_fault(message, may_order, rules):
    """The lowest fault of a message from a partner who may order that, or None."""
    for name, applies in MESSAGE_FAULTS:
        if applies(message, may_order, rules):
            return name
    return None


# ---- what stands in a group

def number_in(group):
    """8260, of EQD."""
    return group[0].value(2)


def size_type_in(group):
    """8155, of EQD."""
    return group[0].value(3)


def moment_in(group, moment_of_interchange):
    """The first DTM whose 2379 is 203 or 102, whatever 2005 is; without one the moment of UNB. None where there is
    no such moment, or the text is not of its format."""
    dtm = first(group, 'DTM', lambda segment: segment.value(1, 3) in ('203', '102'))
    if dtm is None:
        return moment_of_interchange
    return moment_of(dtm.value(1, 2), {'203': 12, '102': 8}[dtm.value(1, 3)])


def place_in(group, qualifier):
    """3225 of the first LOC with that 3227: ZZZ is the slot that is asked for (own), 11 the port of discharge. Empty
    where there is none."""
    loc = first(group, 'LOC', lambda segment: segment.value(1) == qualifier)
    return loc.value(2) if loc else ''


def booking_in(group):
    """1154 of the first RFF whose 1153 is BN. Empty where there is none."""
    rff = first(group, 'RFF', lambda segment: segment.value(1, 1) == 'BN')
    return rff.value(1, 2) if rff else ''


def kilos_in(group):
    """6314 of the first MEA whose 6313 is G and whose 6411 is KGM: the gross weight in kilograms. 0 where there is none, or
    where it isn't 1 to 6 digits (own)."""
    mea = first(group, 'MEA', lambda segment: (segment.value(2, 1), segment.value(3, 1)) == ('G', 'KGM'))
    return int(mea.value(3, 2)) if mea and are_digits(mea.value(3, 2), 1, 6) else 0


def kept(value):
    """A port or a booking that isn't 1 to 35 printable bytes is kept as empty (own)."""
    return value if has_limits(value) else ''


# ---- faults of a line

def line_fault(group, order, moment_of_interchange):
    """The lowest fault of a line, or None. What an order doesn't read may be anything."""
    slot = place_in(group, 'ZZZ')
    if number_fault(number_in(group)):
        return number_fault(number_in(group))
    if order in READ_SIZE and length_of(size_type_in(group)) is None:
        return 'Size'
    if order in READ_MOMENT and moment_in(group, moment_of_interchange) is None:
        return 'Moment'
    if order in READ_SLOT and slot and slot_of(slot) is None:
        return 'SlotText'
    if order == 'Move' and not slot:
        return 'SlotText'
    return None


def order_in(group, order, moment_of_interchange, call, rules):
    """The order of a line without fault. 8169 is 4 for empty, anything else for full. (Before version 3 no weight was read.)"""
    slot = place_in(group, 'ZZZ')
    return Order(
        name=order,
        number=number_in(group),
        size_type=size_type_in(group),
        is_full=group[0].value(6) != '4',
        booking=kept(booking_in(group)),
        moment=moment_in(group, moment_of_interchange),
        slot=slot_of(slot) if order in READ_SLOT and slot else None,
        call=call,
        port=kept(place_in(group, '11')) if order == 'ListLoad' else '',
        kilos=kilos_in(group) if rules.reads_weight and order in READ_WEIGHT else 0)


def list_replaced(message, may_order):
    """Call and order of the list that a message without fault replaces, or None."""
    if function_of(message) != '5':
        return None
    return call_of(message), may_order[type_of(message), code_of(message)]


def lines_of(message, may_order, moment_of_interchange, rules):
    """The lines of a message without fault, one for each container."""
    order = may_order[type_of(message), code_of(message)]
    lines = []
    for group in container_groups(message):
        fault = line_fault(group, order, moment_of_interchange)
        number = None if fault in ('Form', 'CheckDigit') else number_in(group)
        told = None if fault else order_in(group, order, moment_of_interchange, call_of(message), rules)
        lines.append(Line(fault, number, told))
    return lines
