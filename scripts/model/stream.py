"""A stream of interchanges: one line for each, in their order, and the exit status (crates/office/README.md)."""
from .cuts import cut
from .office import json_text


def answers(office, stream):
    """The answer to each interchange of a stream, and a last one where it can't be cut further (or ends within an
    interchange)."""
    interchanges, fault = cut(stream)
    given = [office.answer(interchange) for interchange in interchanges]
    return given + [dict(answer='cut', fault=fault)] if fault else given


def status(given):
    """0 where each was taken, repeated or waits; 1 where one was refused, a clash or a cut; 3 where one was not now. (Another 3
    is for a want of memory or a port that fails, of which a model knows nothing.)"""
    if any(answer['answer'] == 'not now' for answer in given):
        return 3
    return 1 if any(answer['answer'] in ('refused', 'clash', 'cut') for answer in given) else 0


def lines(given):
    """The answers as lines of JSON, without their ends."""
    return [json_text(answer) for answer in given]


def differences(name, wanted, got):
    """Lines and status of the model beside those of the program: both texts of the first line that differs, or the
    statuses where they differ; nothing where all is the same."""
    (wanted_lines, wanted_status), (got_lines, got_status) = wanted, got
    for place in range(max(len(wanted_lines), len(got_lines))):
        model = wanted_lines[place] if place < len(wanted_lines) else '(no line)'
        program = got_lines[place] if place < len(got_lines) else '(no line)'
        if model != program:
            return ['%s, line %d' % (name, place + 1), '  model   ' + model, '  program ' + program]
    if wanted_status != got_status:
        return ['%s: the status is %d, by the model %d' % (name, got_status, wanted_status)]
    return []
