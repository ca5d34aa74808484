"""Interchanges out of a stream: crates/edi_syntax/README.md and crates/office/README.md.

An interchange runs from its first byte that is no CR or LF to the terminator of its first segment UNZ. A fault stands
at the earliest byte where one applies; after it there is no interchange.
"""
from .syntax import Ended, LONGEST_TEXT, Misfit, past_breaks, place_of_segments, read_segment, service_of


class BadAdvice(Exception):
    """The ninth byte is there, and the six bytes after UNA may not be service characters."""


def length_of_first(text):
    """How many bytes the interchange at the front of a text has."""
    if text.startswith('UNA') and len(text) < 9:
        raise Ended
    service = service_of(text)
    if service is None:
        raise BadAdvice
    tag, place = '', place_of_segments(text)
    while tag != 'UNZ':
        (tag, _elements), place = read_segment(text, past_breaks(text, place), service)
    return place


def first_of(stream, place):
    """The end of the interchange that begins at a place, or the fault that cuts it off. Segment says that no
    continuation is a list of segments. TooLong stands at the byte after the longest text, whatever it is. End says
    that the stream ends within it."""
    try:
        return place + length_of_first(stream[place:place + LONGEST_TEXT]), None
    except BadAdvice:
        return None, 'Service'
    except Misfit:
        return None, 'Segment'
    except Ended:
        return None, 'TooLong' if len(stream) - place > LONGEST_TEXT else 'End'


def cut(stream):
    """The interchanges of a stream, and the fault after them, or None where the stream ends after the last."""
    interchanges, _place, fault = cut_at(stream)
    return interchanges, fault


def cut_at(stream):
    """The interchanges of a stream, the place after them and the CR and LF that follow, and the fault there, or None."""
    interchanges, place = [], past_breaks(stream, 0)
    while place < len(stream):
        end, fault = first_of(stream, place)
        if fault:
            return interchanges, place, fault
        interchanges.append(stream[place:end])
        place = past_breaks(stream, end)
    return interchanges, place, None
