"""Mutated inputs against the plain slow model: scripts/fuzz."""
import os
import signal
import sys
import time
from collections import Counter, deque
from concurrent.futures import ProcessPoolExecutor

from model.beside import EVERY_KIND
from model.files import PROGRAM

from .bounded import peaks_of
from .rounds import run_round

COUNT = 1000000
MOST_GROWTH = 2048          # KiB, on ten times the input
NOT_MUTATED = 'as they were, beside these'

USAGE = """usage: scripts/fuzz [COUNT [SEED]]

Holds the program (OFFICE=PATH, else crates/office/out/office) against the plain slow model on mutated inputs: rounds with
the seeds from SEED on (1 where none is given), until COUNT inputs were mutated (%d where none is given). Each seed stands
alone: `scripts/fuzz 1 SEED` runs that round again, and `scripts/fuzz COUNT SEED` goes on from it. JOBS=N runs N rounds at a
time (2 where none is given).
""" % COUNT


class Sums:
    """What all rounds so far come to."""

    def __init__(self):
        self.inputs, self.compared, self.peaks = Counter(), Counter(), {}
        self.rounds, self.differing, self.started = 0, [], time.monotonic()

    def add(self, seed, done):
        """A round; what differs is shown at once."""
        inputs, compared, shown, peaks = done
        self.inputs += inputs
        self.compared += compared
        self.rounds += 1
        for command, peak in peaks.items():
            self.peaks[command] = max(self.peaks.get(command, 0), peak)
        if shown:
            self.differing.append(seed)
            print('\n'.join(shown))

    def mutated(self):
        """How many inputs were mutated."""
        return sum(count for kind, count in self.inputs.items() if kind != NOT_MUTATED)

    def line(self, seed):
        """Where it stands."""
        seconds = time.monotonic() - self.started
        return 'seed %d: %d inputs, %d seconds, %d a second, %d seeds differ' % (
            seed, self.mutated(), seconds, self.mutated() / seconds, len(self.differing))

    def told(self):
        """Prints what was compared."""
        for title, counted in (('inputs', self.inputs), ('compared', self.compared)):
            print('%s:' % title)
            for kind, count in sorted(counted.items()):
                print('%10d  %s' % (count, kind))
        print('never came: ' + (', '.join(kind for kind in EVERY_KIND if kind not in self.compared) or 'none'))
        print('peak memory (VmHWM), KiB: ' + ', '.join('%s %d' % pair for pair in sorted(self.peaks.items())))
        print('seeds that differ: ' + (' '.join(map(str, self.differing)) or 'none'))


def run_rounds(path, count, seed, jobs):
    """Rounds until so many inputs were mutated, or until it is interrupted, some at a time, told in the order of their
    seeds."""
    sums, running, at = Sums(), deque(), seed
    with ProcessPoolExecutor(jobs, initializer=signal.signal, initargs=(signal.SIGINT, signal.SIG_IGN)) as pool:
        try:
            while sums.mutated() < count:
                while len(running) < 2 * jobs and (not running or count > 1):
                    running.append(pool.submit(run_round, path, seed))
                    seed += 1
                at, done = running.popleft().result()
                sums.add(at, done)
                if sums.rounds % 20 == 0 or done[2]:
                    print(sums.line(at), flush=True)
        except KeyboardInterrupt:
            signal.signal(signal.SIGINT, signal.SIG_IGN)
            print('interrupted: go on with seed %d' % (at + 1))
        for left in running:
            left.cancel()
    print(sums.line(at))
    return sums


def told_peaks(path):
    """Prints the peak of memory on inputs that grow while what is kept doesn't; gives whether one grew with them."""
    grown = False
    for name, few, many in peaks_of(path):
        grown |= many > few + MOST_GROWTH
        print('peak memory, %s: %d KiB, and on ten times as much %d KiB' % (name, few, many))
    return grown


def main():
    """Runs the rounds that are asked for. Gives the status."""
    words = sys.argv[1:]
    if len(words) > 2 or not all(word.isdigit() and int(word) > 0 for word in words):
        print(USAGE, end='', file=sys.stderr)
        return 2
    path = PROGRAM
    if not os.path.exists(path):
        print('%s is not built: make build' % path, file=sys.stderr)
        return 2
    count, seed = int(words[0]) if words else COUNT, int(words[1]) if len(words) == 2 else 1
    signal.signal(signal.SIGINT, signal.default_int_handler)
    sums = run_rounds(path, count, seed, int(os.environ.get('JOBS', '2')))
    sums.told()
    grown = count > 1 and told_peaks(path)
    return 1 if sums.differing or grown else 0
