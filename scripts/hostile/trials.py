"""What runs the parts of a script on the program, and prints what they counted and what differs."""
import os
import sys
from collections import Counter
from time import monotonic

from model.files import PROGRAM

from .books import Different



def done(name, trial, *given):
    """Runs one part, and prints what was counted and what differs; gives whether nothing does."""
    counted, began, fault = Counter(), monotonic(), None
    try:
        trial(*given, counted)
    except Different as different:
        fault = different
    print('%s, %d seconds' % (name, monotonic() - began))
    for what, count in sorted(counted.items()):
        print('%10d  %s' % (count, what))
    print('differs: %s' % fault if fault else 'nothing differs')
    sys.stdout.flush()
    return fault is None


def status_of(parts, usage):
    """Runs parts, each a name, a call and what it is given, up to the first that differs. Gives the status: 1 where one
    differs, 2 where there are no parts, for another command line, or no program."""
    if parts is None:
        print(usage, end='', file=sys.stderr)
        return 2
    if not os.access(PROGRAM, os.X_OK):
        print('%s is not built: make build' % PROGRAM, file=sys.stderr)
        return 2
    return 0 if all(done(name, trial, PROGRAM, *given) for name, trial, given in parts) else 1
