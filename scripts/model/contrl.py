"""The text of CONTRL, which answers an interchange: docs/PROFILE.md, section 4.

Written in UNOA version 3 under the default service characters, without line breaks (own). 0083 is 7, acknowledged
with all below it unless rejected by name, or 4, rejected with all below it.
"""
from .syntax import header_of

# 0085: meanings, and which fault carries which, are own
ERROR_CODES = {
    'WrongRecipient': '7',
    'OtherType': '12', 'Code': '12', 'Function': '12',
    'MessageFrame': '13', 'Empty': '13', 'NoBgm': '13', 'NoTransport': '13', 'NoEquipment': '13',
    'TooMany': '18',
    'Test': '25',
    'MessageReference': '28', 'ControlReference': '28',
    'SegmentCount': '29', 'ControlCount': '29', 'EquipmentCount': '29',
}


def spelled(value):
    """A value anew, with a release before service characters alone."""
    return ''.join('?' + character if character in ":+?'" else character for character in value)


def without_empties(parts):
    """Without the parts that are empty at the end."""
    while parts and not parts[-1]:
        parts = parts[:-1]
    return parts


def segment_text(tag, *elements):
    """A segment of elements, each a list of components. What is empty at an end is dropped, and kept elsewhere."""
    texts = [':'.join(spelled(value) for value in without_empties(element)) for element in elements]
    return '+'.join([tag] + without_empties(texts)) + "'"


def envelope(text, body):
    """The CONTRL for an interchange, about the segments between UNH and UNT: it goes from the recipient that was named
    to the sender. Three components of S002 and S003 are sent back, and two of S004."""
    header = header_of(text)
    sender, recipient, moment = header.values(2)[:3], header.values(3)[:3], header.values(4)[:2]
    reference = header.value(5)
    segments = [
        segment_text('UNB', ['UNOA', '3'], recipient, sender, moment, [reference]),
        segment_text('UNH', ['1'], ['CONTRL', 'D', '3', 'UN']),
        *body,
        segment_text('UNT', [str(len(body) + 2)], ['1']),
        segment_text('UNZ', ['1'], [reference])]
    return ''.join(segments)


def interchange_response(text, *action):
    """UCI: 0020, S002 and S003 of the interchange, then 0083, and 0085 where it is rejected."""
    header = header_of(text)
    return segment_text('UCI', [header.value(5)], header.values(2)[:3], header.values(3)[:3], *action)


def message_response(message, fault):
    """UCM: 0062 and the five components of S009 of the message, then 0083, and 0085 where it is rejected."""
    action = [['4'], [ERROR_CODES[fault]]] if fault else [['7']]
    return segment_text('UCM', [message[0].value(1)], message[0].values(2)[:5], *action)


def acknowledgement(text, messages, faults):
    """CONTRL for an interchange that is taken, with the fault of each message or None."""
    responses = [message_response(message, fault) for message, fault in zip(messages, faults)]
    return envelope(text, [interchange_response(text, ['7'])] + responses)


def rejection(text, fault):
    """CONTRL for an interchange that is refused."""
    return envelope(text, [interchange_response(text, ['4'], [ERROR_CODES[fault]])])
