"""All parts, with what was counted: scripts/journal."""
import sys

from hostile.trials import status_of

from . import closed, drill, follow, odd, old, rebuild, serving

LISTS = 60
PARTS = {
    'rebuild': rebuild.try_all, 'follow': follow.try_all, 'serving': serving.try_all, 'closed': closed.try_all,
    'drill': drill.try_all, 'old': old.try_all, 'odd': odd.try_all}

USAGE = """usage: scripts/journal [LISTS [SEED]]
       scripts/journal %s [LISTS [SEED]]

Offices that are rebuilt and that follow, beside the model, for LISTS random lists of deliveries (%d); or one part alone. The
program is crates/office/out/office, or the one that OFFICE names in the environment.
""" % ('|'.join(PARTS), LISTS)


def parts_of(words):
    """The parts that are asked for, and how many lists from which seed on; None for another command line."""
    names = [words[0]] if words and words[0] in PARTS else list(PARTS)
    rest = words[1:] if words and words[0] in PARTS else words
    if len(rest) > 2 or not all(word.isdecimal() for word in rest):
        return None
    lists, seed = list(map(int, rest)) + [LISTS, 1][len(rest):]
    return [(name, PARTS[name], (lists, seed)) for name in names]


def main():
    """Gives the status: 1 at the first difference, 2 for another command line or where there is no program."""
    return status_of(parts_of(sys.argv[1:]), USAGE)
