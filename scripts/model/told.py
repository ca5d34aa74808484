"""What a person is told of deliveries: how `office deliver` tallies a stream on a terminal, and what `office serve --log` writes
of each request (docs/OPERATIONS.md).

`python3 -m model.told FOLDER` writes a folder for each case of cases.txt that can be told of: its name, the files of its set-up,
and, by the answers of the model, a stream with what is told of it and the status, and requests with the lines of the log. Prints
each outcome, reason and fault that is in no tally or in no line, by the lists of the model.
"""
import os
import re
import sys
from collections import Counter

from .cases import all_cases, request_of
from .cuts import cut, cut_at
from .deliveries import order
from .events import Delivered
from .files import written
from .http import response
from .messages import MESSAGE_FAULTS
from .office import WITHOUT_CONTRL, Office
from .samples import LINE_FAULTS, REASONS
from .setups import files_of
from .stream import status
from .syntax import BREAKS, FAULTS, number_of, sender_of

LINES = 'done gone listed'.split() + ['refused: ' + name for name in LINE_FAULTS + REASONS]
MESSAGES = ['rejected: ' + name for name, _applies in MESSAGE_FAULTS]
COUNTED = [('line', what) for what in LINES] + [('message', what) for what in MESSAGES]
# a text that is too long for an interchange comes to no desk: over HTTP it is too long for a body, and in a stream a cut
REFUSED = [name for name, _applies in FAULTS if name != 'TooLong'] + ['UnknownSender', 'WrongRecipient']

LONGEST_CODE = 35
SEEN = 256                  # bytes of a request in which its target is looked for
SEEN_WORDS = re.compile('([!-~]*)[^!-~]([!-~]*)')  # each ends at the first character that is no printable ASCII


# ---- counts

def numbered(number, one, others):
    """A number with the word for one, or for any other number."""
    return '%d %s' % (number, one if number == 1 else others)


def counts_of(replies):
    """How many lines and messages of these replies came out in each way."""
    counts = Counter()
    for message in [message for reply in replies for message in reply['messages']]:
        if 'fault' in message:
            counts['message', 'rejected: ' + message['fault']] += 1
        for line in message.get('lines', []):
            refused = 'refused: %s' % line.get('reason')
            counts['line', refused if line['outcome'] == 'refused' else line['outcome']] += 1
    return counts


def phrases(counts):
    """What was counted, in words."""
    return ['%s %s' % (numbered(counts[kind, what], kind, kind + 's'), what) for kind, what in COUNTED if counts[kind, what]]


# ---- the tally of a stream

def delivered(office, text):
    """The answer to a text, and the replies to all that was taken by it."""
    before = len(order(office.deliveries))
    answer = office.answer(text)
    replies = office.fold().replies if answer['answer'] == 'taken' else {}
    return answer, [replies[pair] for pair in order(office.deliveries)[before:]]


def tally(setup, stream):
    """What is told of a stream, and the status."""
    office, (texts, place, fault) = Office(setup), cut_at(stream)
    given = [delivered(office, text) for text in texts]
    answers = Counter(answer['answer'] for answer, _taken in given)
    waited = sum(len(taken) - 1 for _answer, taken in given if taken)
    lines = ['%d taken, %d repeated, %d waiting, %s, %d refused, 0 not now' % (
        answers['taken'], answers['repeat'], answers['waiting'], numbered(answers['clash'], 'clash', 'clashes'),
        answers['refused'])]
    lines += [numbered(waited, 'interchange', 'interchanges') + ' taken that had waited'] if waited else []
    lines += phrases(counts_of([reply for _answer, taken in given for reply in taken]))
    if fault:
        lines += ['cut: interchange %d, which begins at byte %d: %s; what follows was not read' % (
            len(texts) + 1, place + 1, fault)]
    elif not texts:
        lines = ['nothing to deliver: there is no interchange in it']
    return lines, status([answer for answer, _taken in given] + ([dict(answer='cut')] if fault else []))


# ---- the log of requests

def code_shown(code):
    """A code as it is written: what stands in none by its byte, and of a long one the front."""
    front = re.sub('[^A-Za-z0-9._-]', lambda found: '%%%02X' % ord(found[0]), code[:LONGEST_CODE])
    return front + '..' if len(code) > LONGEST_CODE else front


def from_whom(text, answer):
    """Sender and number of a text whose head can be read."""
    if answer.get('fault') in WITHOUT_CONTRL:
        return ''
    text = text.strip(BREAKS)
    return ' %s/%d' % (code_shown(sender_of(text)), number_of(text))


def words_of(office, event):
    """What stands after a request's line, of the event that it brings."""
    if not isinstance(event, Delivered):
        answer = office.add_account(*event)
        fault = ' ' + answer['fault'] if 'fault' in answer else ''
        return ' %s %s%s' % (code_shown(event.code), answer['answer'], fault)
    answer, taken = delivered(office, event.text)
    words = from_whom(event.text, answer) + ' ' + answer['answer']
    if answer['answer'] == 'refused':
        return '%s %s' % (words, answer['fault'])
    if len(taken) > 1:
        words += ' with %d that had waited' % (len(taken) - 1)
    became = ', '.join(phrases(counts_of(taken)))
    return '%s: %s' % (words, became) if became else words


def log(setup, events):
    """The requests that bring these events, and the line of each, without its time."""
    office, other, requests, lines = Office(setup), Office(setup), [], []
    for event in events:
        request = request_of(event)
        given = response(office, request)
        method, target = SEEN_WORDS.match(request[:SEEN]).groups()
        requests.append(request)
        lines.append('TIME %s %s %s %d bytes N us%s' % (
            method, target, given.split(' ')[1], len(given), words_of(other, event)))
    return requests, lines


# ---- the cases

def missing(what, wanted, lines):
    """Those that are in no line."""
    told = '\n'.join(lines)
    return ['%s: no %s' % (what, name) for name in wanted if not re.search(re.escape(name) + r'(,|$)', told, re.M)]


def main(top):
    """Writes the cases."""
    tallies, logs = [], []
    for place, case in enumerate(case for case in all_cases() if not case.requests):
        folder = os.path.join(top, '%03d' % place)
        os.makedirs(folder)
        written(folder, 'name', case.name)
        for name, text in zip(['partners.csv', 'blocks.csv'], files_of(case.setup)):
            written(folder, name, text)
        texts = '\r\n'.join(case.texts)
        stream = texts if case.texts and cut(texts) == (case.texts, None) else case.stream
        if stream or not case.steps:
            lines, ended = tally(case.setup, stream)
            written(folder, 'stream.edi', stream)
            written(folder, 'told', 'status %d\n%s\n' % (ended, '\n'.join(lines)))
            tallies += lines
        if case.steps:
            requests, lines = log(case.setup, [event for event, _line in case.steps])
            for number, request in enumerate(requests):
                written(folder, 'request-%03d' % number, request)
            written(folder, 'log', ''.join(line + '\n' for line in lines))
            logs += lines
    shown = [what for _kind, what in COUNTED]
    cuts = [': %s; what follows was not read' % name for name in 'TooLong Service Segment End'.split()]
    for line in missing('tally', shown, tallies) + missing('tally', cuts, tallies) + missing(
            'log', shown + ['refused ' + name for name in REFUSED], logs):
        print(line)


if __name__ == '__main__':
    main(sys.argv[1])
