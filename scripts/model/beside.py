"""The program beside the model, on worked rows, cases, changed stores, random streams and stores: scripts/beside."""
import os
import subprocess
import sys
from collections import Counter
from functools import partial

from . import (
    cases, closed, closed_alone, counts, crowded, damaged, directory, full, meanings, migrated, refused_closings, replaced, samples,
    seals, shown, stores, worked)
from .days import stream
from .files import PROGRAM, TOP
from .messages import MESSAGE_FAULTS
from .office import Office
from .stream import answers, differences, lines, status
from .syntax import FAULTS


# streams, deliveries a stream, share of deliveries with altered bytes: some 60 seconds in all
MIXES = [(60, 300, 0.0), (600, 20, 0.1)]
LONGEST_ANEW = 25           # in longer streams the model keeps the fold of the order so far

# every kind that may come in a stream for `office demo`, as `kinds_of` and `counts` count them. TooLong, Service and Segment
# cut a stream, and VisitLimit needs another set-up: as answers to a delivery they are in the worked rows alone.
REFUSED = [name for name, _applies in FAULTS if name not in ('TooLong', 'Service', 'Segment')]
REASONS = (
    'Form CheckDigit Size Moment SlotText AlreadyIn NotIn AlreadyListed NotListed ListLineDone Buried NoSlot SlotKind '
    'Taken OnAir OnEmpty NoRoom').split()
EVERY_KIND = (
    ['answer taken', 'answer repeat', 'answer waiting', 'answer clash']
    + ['answer refused ' + name for name in REFUSED + ['UnknownSender', 'WrongRecipient']]
    + ['answer cut ' + name for name in ('TooLong', 'Service', 'Segment', 'End')]
    + ['message accepted'] + ['message rejected ' + name for name, _applies in MESSAGE_FAULTS]
    + ['line done', 'line gone', 'line listed'] + ['line refused ' + name for name in REASONS] + counts.EVERY)

USAGE = """usage: scripts/beside [demo | model | STREAMS DELIVERIES SHARE [SEED]]

Compares the program (OFFICE=PATH, else crates/office/out/office) with the model: first the worked rows, the day of examples/day and the cases of
scripts/model/cases.txt, as `office demo` and over stores in files, and the pages that show them or others; then the changed
stores of scripts/model/damaged.txt, a crowded yard, full lists replaced and full blocks; then random set-ups, deliveries and reports over
stores, and requests by HTTP; then stores that are closed from time to time; then random streams. With arguments the rows,
and STREAMS streams of DELIVERIES interchanges each, SHARE of them (0 to 1) with altered bytes, with the seeds from SEED on (1 where none is given). Without arguments: %s.
With `demo` no store is made. With `model` the program isn't needed: rows, cases and changed stores are held to the model
alone, and what comes in the streams is counted.
""" % ', then '.join('%d %d %s' % mix for mix in MIXES)


def answered_by_model(text):
    """The lines and the exit status of the model for a stream."""
    given = answers(Office(keeps_fold=True), text)
    return lines(given), status(given)


def answered_by_program(text):
    """The lines and the exit status of `office demo` for a stream."""
    done = subprocess.run([PROGRAM, 'demo'], input=text.encode('latin-1'), stdout=subprocess.PIPE, check=False)
    return done.stdout.decode('utf-8').split('\n')[:-1], done.returncode


def kinds_of(answer):
    """What an answer is counted as: by itself, by each of its messages, and by each of their lines."""
    kinds = [' '.join(['answer', answer['answer'], answer.get('fault', '')]).strip()]
    for message in answer.get('reply', {}).get('messages', []):
        kinds.append(' '.join(['message', message['result'], message.get('fault', '')]).strip())
        kinds += [
            ' '.join(['line', line['outcome'], line.get('reason', '')]).strip() for line in message.get('lines', [])]
    return kinds


def counted_as(office, given):
    """How many of each kind there are in the answers of an office, and in what it took."""
    return Counter(kind for answer in given for kind in kinds_of(answer)) + counts.counted_in(office.setup, office.deliveries)


def compare(mix, first_seed, answered_by):
    """Runs a mix; gives how many of each kind were compared and how many streams differ."""
    streams, deliveries, share = mix
    counted, differing = Counter(), 0
    for seed in range(first_seed, first_seed + streams):
        text, office = stream(seed, deliveries, share), Office(keeps_fold=deliveries > LONGEST_ANEW)
        given = answers(office, text)
        counted.update(counted_as(office, given))
        shown = differences('seed %d' % seed, (lines(given), status(given)), answered_by(text))
        differing += bool(shown)
        if shown:
            print('\n'.join(shown))
    return counted, differing


def report(mix, counted, differing):
    """Prints what was compared."""
    answers_counted = sum(count for kind, count in counted.items() if kind.startswith('answer'))
    print('%d streams of %d deliveries, %g of 1 with altered bytes: %d answers' % (*mix, answers_counted))
    for kind, count in sorted(counted.items()):
        print('%10d  %s' % (count, kind))
    never = [kind for kind in EVERY_KIND if kind not in counted]
    print('never came: ' + (', '.join(never) or 'none'))
    print('%d streams differ' % differing)


def read_arguments(words):
    """The mixes that are asked for, and the first seed."""
    if not words:
        return MIXES, 1
    if len(words) not in (3, 4):
        raise ValueError
    share = float(words[2])
    if not 0 <= share <= 1:
        raise ValueError
    return [(int(words[0]), int(words[1]), share)], int(words[3]) if len(words) == 4 else 1


def by_model_alone():
    """The worked rows, the day, the cases and the stores of damaged.txt, by the model alone, and what comes in each mix.
    Gives the status."""
    failed = worked.check(TOP, answered_by_model, lambda row, setup, text: None)
    failed += cases.check(None, with_stores=False)
    failed += samples.check(TOP) + shown.check(TOP, None) + directory.check(TOP) + meanings.check()
    failed += damaged.judge_all() + migrated.check_real() + closed_alone.judge_all()
    crowded.count_all()
    for mix in MIXES:
        report(mix, *compare(mix, 1, answered_by_model))
    return 1 if failed else 0


def main():
    """The worked rows and the cases, changed stores, a crowded yard, full lists and blocks; without arguments set-ups, stores and
    requests; then each mix. With `demo` alone no store is made. Gives the status."""
    demo_alone = sys.argv[1:] == ['demo']
    if sys.argv[1:] == ['model']:
        return by_model_alone()
    try:
        mixes, first_seed = read_arguments([] if demo_alone else sys.argv[1:])
    except ValueError:
        print(USAGE, end='', file=sys.stderr)
        return 2
    if not os.path.exists(PROGRAM):
        print('%s is not built: make build' % PROGRAM, file=sys.stderr)
        return 2
    beside = stores.Beside(PROGRAM)
    over_store = (lambda row, setup, text: None) if demo_alone else partial(stores.over_store, beside)
    failed = worked.check(TOP, answered_by_program, over_store)
    failed += cases.check(PROGRAM, with_stores=not demo_alone)
    failed += samples.check(TOP) + shown.check(TOP, None if demo_alone else PROGRAM) + directory.check(TOP) + meanings.check()
    failed += migrated.check_real()
    if not demo_alone:
        damaged.try_all(beside)
        damaged.try_all_old(beside)
        crowded.try_all(beside)
        replaced.try_all(beside)
        full.try_all(beside)
    if len(sys.argv) == 1:
        stores.try_all(beside)
        migrated.try_all(beside)
        refused_closings.try_all(beside)
        seals.try_all(beside)
        closed.try_all(beside)
    failed += stores.told(beside)
    for mix in mixes:
        counted, differing = compare(mix, first_seed, answered_by_program)
        report(mix, counted, differing)
        failed += differing
    return 1 if failed else 0
