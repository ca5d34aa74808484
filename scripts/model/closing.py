"""How a store's history is put away: which files `close` takes for an archive of a store, and what goes from it
(crates/office_closing/README.md).

Both are offices of the model, the archive a copy of the store as it was some time before. What is compared are their rows. Lists
of vessels go by the store alone: their lines are kept in its register.
"""
import copy
import hashlib

from .deliveries import kept, run
from .lookups import own_lines
from .naming import SIDES, lists_named
from .register import (
    EMPTY, Archive, Sealed, Segment, Settled, is_file_name, is_sound, last_closed, with_archive, with_lists, with_sealed,
    with_taken, without_what_came_with)
from .rows import interchange_rows, partner_rows, visit_rows


# ---- what an archive closes

def closed_by(archive):
    """What is closed of each account: the numbers above those that were closed before, and below its next."""
    lasts = [(identity, next_number - 1) for identity, _code, _kind, next_number in partner_rows(archive)]
    return [(identity, last) for identity, last in lasts if last_closed(archive.register, identity) < last]


def raised(archive, file):
    """The register of a store with this archive, after those that the archive's own register has."""
    place = len(archive.register.archives) + 1
    visits = max((visit[0] for visit in visit_rows(archive)), default=0)
    segments = [Segment(identity, place, last) for identity, last in closed_by(archive)]
    return with_archive(archive.register._replace(mark=None), Archive(place, file, visits), segments)


def taken_by(store, place):
    """All that a store has taken, as the archive of that place is closed."""
    return [
        Segment(identity, place, next_number - 1) for identity, _code, _kind, next_number in partner_rows(store) if next_number > 1]


SEALED = 50                 # interchanges that have one seal, at most


def seal(rows):
    """SHA-256 over texts and replies, each after its length in eight bytes."""
    each = [part for _partner, _number, text, reply in rows for part in (text, reply.encode('utf-8'))]
    return hashlib.sha256(b''.join(len(part).to_bytes(8, 'big') + part for part in each)).digest()


def sealed_by(archive, place):
    """What is sealed with an archive as it is closed: the terminal's code; of what it closes of each account, by number, a seal of
    each fifty interchanges and of those that are left."""
    seals, lasts = b'', dict(closed_by(archive))
    for identity in sorted(lasts):
        rows = sorted(row for row in interchange_rows(archive) if row[0] == identity and row[1] <= lasts[identity])
        seals += b''.join(seal(rows[start:start + SEALED]) for start in range(0, len(rows), SEALED))
    return Sealed(place, archive.setup.terminal, seals)


# ---- what has to be the same

def is_over(visit):
    """Whether a visit, a row, has an exit."""
    return visit[10] != 0


def visits_to_go(store, archive):
    """The rows of the archive's visits that are over, but for the store's newest: by their numbers."""
    newest = max((visit[0] for visit in visit_rows(store)), default=0)
    return {visit[0]: visit for visit in visit_rows(archive) if is_over(visit) and visit[0] != newest}


def are_alike(store, archive):
    """Whether the store keeps what goes as the archive does: text and reply under each number that is to be closed, and each
    visit that is to go, if the store has it."""
    own = {row[:2]: row for row in interchange_rows(store)}
    kept = {row[:2]: row for row in interchange_rows(archive)}
    lasts = dict(closed_by(archive))
    closed = [pair for pair in kept if pair[1] <= lasts.get(pair[0], 0)]
    visits, going = {visit[0]: visit for visit in visit_rows(store)}, visits_to_go(store, archive)
    return all(own.get(pair) == kept[pair] for pair in closed) and all(
        visits[number] == going[number] for number in going if number in visits)


def arrived(office, register):
    """The texts that an office keeps beyond what a register closes, closed since or waiting, each with its partner and its number,
    in the order in which they came."""
    return [row[:3] for row in interchange_rows(office) if row[1] > last_closed(register, row[0])]


def has_texts(store, archive, wants_all):
    """Whether the texts that the archive keeps beyond what the store's register closes are the first of the store's, or all of
    them, if all are wanted."""
    own, copied = (arrived(office, store.register) for office in (store, archive))
    return copied == (own if wants_all else own[:len(copied)])


def is_of_store(store, archive):
    """Of the same terminal, its accounts the first of the store's, none of its next numbers above the store's, its newest visit
    not newer."""
    own, copied = partner_rows(store), partner_rows(archive)
    newest = [max((visit[0] for visit in visit_rows(office)), default=0) for office in (store, archive)]
    return (
        store.setup.terminal == archive.setup.terminal
        and [row[:3] for row in own[:len(copied)]] == [row[:3] for row in copied]
        and all(row[3] <= other[3] for row, other in zip(copied, own)) and newest[1] <= newest[0])


# ---- lists

def waited_for(store):
    """The lists that a text names which waits: it is kept under a number beyond its account's next one."""
    deliveries, found = store.deliveries, set()
    for delivery in kept(deliveries):
        if delivery.number > run(deliveries, delivery.partner) + 1:
            found.update(lists_named(store.setup, delivery.text))
    return found


def text_of_lines(lines):
    """The text of a list's lines by their containers: the number, the port, and a line feed."""
    return ''.join('%s%s\n' % (number, line.port) for number, line in sorted(lines.items()))


def lists_to_go(store, place):
    """The lists that stand in the store, are done to the last line, and are named by no text that waits; each as it is put away
    with the archive of that place."""
    lists, waiting = {}, waited_for(store)
    for (call, side, number), line in own_lines(store).items():
        lists.setdefault((call, side), {})[number] = line
    return {
        (call, side): Settled(*call, SIDES[side], place, text_of_lines(lines)) for (call, side), lines in lists.items()
        if all(line.is_done for line in lines.values()) and (call, side) not in waiting}


# ---- closing

def close(store, archive, store_file, archive_file):
    """Closes a store by an archive, which are the files of these names in one folder. The fault, or None. A closing that was
    done is done again if the archive is the store's last; then of the lists those go again that its register has so with that
    archive."""
    if store.register.mark:
        return 'Closed'
    after = raised(archive, archive_file)
    place = len(after.archives)
    is_done = archive.register.mark == store_file and without_what_came_with(store.register, place) == after
    is_new = archive.register.mark in (None, store_file) and store.register == archive.register._replace(mark=None)
    if not is_of_store(store, archive) or not (is_done or is_new) or not is_sound(after) or not is_file_name(store_file):
        return 'Archive'
    if not is_done and not are_alike(store, archive):
        return 'Archive'
    if not has_texts(store, archive, is_new and not closed_by(archive)):
        return 'Archive'
    sealed = sealed_by(archive, place)
    if is_done and any(other.archive == place and other != sealed for other in store.register.sealed):
        return 'Archive'
    visits, lists = visits_to_go(store, archive), lists_to_go(store, place) if closed_by(archive) else {}
    archive.register = archive.register._replace(mark=store_file)
    if is_new:
        store.register = with_sealed(with_taken(with_lists(after, lists.values()), taken_by(store, place)), sealed)
    store.gone = store.gone | set(visits)
    store.away = store.away | {name for name, settled in lists.items() if settled in store.register.lists}
    return None


def never_closed(office):
    """The same office, of which nothing was put away."""
    whole = copy.deepcopy(office)
    whole.register, whole.gone, whole.away, whole.archives, whole.lost = EMPTY, frozenset(), frozenset(), {}, {}
    return whole
