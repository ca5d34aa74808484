"""What the register beside a store says: which archives hold what was put away of its history, and up to which number of each
account (crates/office_closing/README.md). It is empty of a store that was never closed.
"""
from collections import namedtuple

# places 1, 2 and so on as they were closed; `visits` is the number of the newest visit of an archive
Archive = namedtuple('Archive', 'place file visits')
# up to `last` the interchanges of an account, by its number, are in the archives 1 to this one; of what had been taken, the store
# had taken them as this one was closed
Segment = namedtuple('Segment', 'partner archive last')
# the lines of a list as they were put away with an archive, as a text: of each its container's number and its port; `side` is 1
# for a load list, 2 for a discharge list
Settled = namedtuple('Settled', 'vessel voyage side archive lines')
# what tells an archive from those of other stores: the terminal's code, and the seals of what it closes
Sealed = namedtuple('Sealed', 'archive terminal seals')
# `mark` is the file of the store that goes on, in an archive's own register, and else None; the lists are in order
Register = namedtuple('Register', 'archives segments mark lists taken sealed')

EMPTY = Register((), (), None, (), (), ())
MOST_ARCHIVES, MOST_ACCOUNTS, MOST_NUMBER = 9999, 999, 999999999


def last_closed(register, partner):
    """The last number of an account that is closed, 0 if none is."""
    return max((segment.last for segment in register.segments if segment.partner == partner), default=0)


def archive_of(register, partner, number):
    """The place of the archive that keeps a number: of the first whose segment reaches it. None, if none does."""
    reaching = [segment.archive for segment in register.segments if segment.partner == partner and number <= segment.last]
    return min(reaching, default=None) if number >= 1 else None


def newest_closed(register):
    """The number of the newest visit of the last archive, 0 if there is none."""
    return register.archives[-1].visits if register.archives else 0


def with_archive(register, archive, segments):
    """With one archive more, and what it closes."""
    return register._replace(archives=register.archives + (archive,), segments=register.segments + tuple(segments))


def lines_of(register, name):
    """The lines of a list, by its vessel, voyage and side, as they were put away last; None, if they never were."""
    texts = [settled.lines for settled in register.lists if settled[:3] == name]
    return texts[-1] if texts else None


def with_lists(register, lists):
    """With these lists more."""
    return register._replace(lists=tuple(sorted(register.lists + tuple(lists))))


def with_taken(register, taken):
    """With this more that had been taken."""
    return register._replace(taken=register.taken + tuple(taken))


def with_sealed(register, sealed):
    """With this more that is sealed."""
    return register._replace(sealed=register.sealed + (sealed,))


def without_what_came_with(register, place):
    """Without the lists that were put away with the archive of that place, what had been taken then and what was sealed."""
    return register._replace(
        lists=tuple(settled for settled in register.lists if settled.archive != place),
        taken=tuple(segment for segment in register.taken if segment.archive != place),
        sealed=tuple(sealed for sealed in register.sealed if sealed.archive != place))


def is_name(text):
    """A vessel or a voyage: 1 to 35 printable bytes."""
    return 1 <= len(text) <= 35 and all(' ' <= character <= '~' for character in text)


def is_file_name(name):
    """1 to 255 bytes without a slash or NUL."""
    return 1 <= len(name.encode('utf-8')) <= 255 and not set('/\0') & set(name)


def do_rise(values, strictly):
    """Whether each is above the one before, or also the same."""
    return all(earlier < later or earlier == later and not strictly for earlier, later in zip(values, values[1:]))


def is_sound(register):
    """Whether the rows of a register are one."""
    files = [archive.file for archive in register.archives]
    places = [archive.place for archive in register.archives]
    newest = [archive.visits for archive in register.archives]
    accounts = {segment.partner for segment in register.segments}
    lasts = [[segment.last for segment in sorted(register.segments) if segment.partner == partner] for partner in accounts]
    return (
        sorted(places) == list(range(1, len(places) + 1)) and len(places) <= MOST_ARCHIVES
        and all(map(is_file_name, files)) and len(set(files)) == len(files)
        and do_rise([visits for _place, visits in sorted(zip(places, newest))], strictly=False)
        and all(0 <= visits <= MOST_NUMBER for visits in newest)
        and all(
            1 <= segment.partner <= MOST_ACCOUNTS and segment.archive in places and 1 <= segment.last <= MOST_NUMBER
            for segment in register.segments + register.taken)
        and all(do_rise(numbers, strictly=True) for numbers in lasts)
        and all(
            is_name(settled.vessel) and is_name(settled.voyage) and settled.side in (1, 2) and settled.archive in places
            for settled in register.lists)
        and len({settled[:4] for settled in register.lists}) == len(register.lists)
        and len({segment[:2] for segment in register.taken}) == len(register.taken)
        and all(sealed.archive in places and is_name(sealed.terminal) for sealed in register.sealed)
        and len({sealed.archive for sealed in register.sealed}) == len(register.sealed)
        and (register.mark is None or is_file_name(register.mark)))
