"""All parts, with what was counted: scripts/kill9."""
import sys

from . import calls, calls_of_others, closings, commands, flips, full, kills, pairs, places, power, printing
from .trials import status_of

KILLS = 1000
PARTS = {
    'calls': calls.try_calls, 'others': calls_of_others.try_all, 'commands': commands.try_all, 'closings': closings.try_all,
    'printing': printing.try_all, 'power': power.try_losses,
    'full': full.try_all, 'places': places.try_all, 'pairs': pairs.try_all, 'flips': flips.try_all}

USAGE = """usage: scripts/kill9 [KILLS [SEED]]
       scripts/kill9 calls|others|commands|closings|printing|power|full|places|pairs|flips [SEED]

SIGKILL while deliveries are under way, KILLS times (%d), and then each of the other parts; or one of these alone. The
program is crates/office/out/office, or the one that OFFICE names in the environment.
""" % KILLS


def parts_of(words):
    """The parts that are asked for: name, call, and what it is given."""
    if words and words[0] in PARTS:
        seed = int(words[1]) if len(words) > 1 else 1
        return [(words[0], PARTS[words[0]], (seed,))] if len(words) <= 2 else None
    if len(words) > 2:
        return None
    count, seed = (list(map(int, words)) + [KILLS, 1][len(words):])
    return [('kills', kills.try_kills, (count, seed))] + [(name, trial, (seed,)) for name, trial in PARTS.items()]


def main():
    """Gives the status: 1 at the first difference, 2 for another command line or where there is no program."""
    try:
        parts = parts_of(sys.argv[1:])
    except ValueError:
        parts = None
    return status_of(parts, USAGE)
