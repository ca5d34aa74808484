"""Closings by the model alone: what its rules give has to hold together, as the program's crates prove of theirs.

A store that was closed passes the checks of its rows by its register, and without it is Damaged; its rows and those of its
archives are all rows; each closed number is told by its archive, asked as the store that it was, as by the whole; and the texts
of the archives and of the store, each once, are those that the whole keeps, in the order in which they came. The lists that are
away are done, stand in the register, and are named by no text that waits; each is told as by the whole.
"""
import copy
import random

from .closing import close, is_over, never_closed, text_of_lines, waited_for
from .days import NEWCOMERS, Day
from .deliveries import kept_texts
from .office import Office
from .naming import SIDES
from .opened import fault_of_rows
from .register import is_sound, last_closed, lines_of
from .reports import OF_LISTS, OF_NUMBERS, report
from .rows import interchange_rows, listed_rows, rows_of, visit_rows
from .vessels import Vessels

LISTS = 12
SIDES_OF = {code: side for side, code in SIDES.items()}
TURNS, DELIVERIES = 5, 14


def closed_by_turns(seed):
    """An office that was closed some times, by a copy of the day or of a turn earlier; its archives as they were; and the same
    office, never closed."""
    chance, day, office = random.Random(seed), Day('alone %s' % seed, newcomers=NEWCOMERS), Office(keeps_fold=True)
    archives, earlier, vessels = [], None, Vessels(chance, day)
    for _turn in range(TURNS):
        for _delivery in range(DELIVERIES):
            office.answer(day.delivery())
        names_lists(vessels, office)
        if chance.random() < 0.5:
            office.add_account(*day.addition())
        copied = copy.deepcopy(office)
        if chance.random() < 0.6:
            archive, earlier = earlier or copied, None
            archives.append(archive)
            if close(office, archive, 'office.db', '%d.db' % len(archives)):
                raise ValueError('a copy is refused')
        else:
            earlier = copied
    return office, archives, never_closed(office)


def names_lists(vessels, office):
    """A new call, and a list that is finished; then one that is away is named, if there is one."""
    for texts in (vessels.new_call, vessels.finished):
        for text in texts(office):
            office.answer(text)
    if office.away:
        text = vessels.named_again(office, vessels.chance.choice(sorted(office.away)))[0]
        if text:
            office.answer(text)


def lists_away(office, whole):
    """How many lists are away, and whether each is done, named by no text that waits, kept by the register as the whole has it, and
    told as by the whole, though it stays away."""
    lines = whole.fold().terminal.lines
    for call, side in office.away:
        own = {number: line for (of_call, of_side, number), line in lines.items() if (of_call, of_side) == (call, side)}
        kept = lines_of(office.register, (*call, SIDES[side]))
        if not own or not all(line.is_done for line in own.values()) or kept != text_of_lines(own):
            return len(office.away), False
    away, keys = office.away, ['%s/%s/%s' % (*call, side) for call, side in sorted(office.away) if '/' not in call[1]]
    are_told = all(report(office, kind, key) == report(whole, kind, key) for key in keys for kind in OF_LISTS)
    return len(away), are_told and office.away == away and not away & waited_for(office)


def are_parts(office, archives, whole):
    """Whether what the store has and what went by each archive are all rows, and no interchange twice."""
    texts, visits = interchange_rows(office), set(visit_rows(office))
    for place, archive in enumerate(archives, start=1):
        lasts = {segment.partner: segment.last for segment in office.register.segments if segment.archive == place}
        texts += [row for row in interchange_rows(archive) if row[1] <= lasts.get(row[0], 0)]
        visits |= {visit for visit in visit_rows(archive) if visit[0] in office.gone and is_over(visit)}
    lines = [row for row in listed_rows(whole) if (row[:2], SIDES_OF[row[2]]) in office.away]
    return (sorted(texts) == sorted(interchange_rows(whole)) and sorted(visits) == sorted(visit_rows(whole))
            and sorted(listed_rows(office) + lines) == sorted(listed_rows(whole)))


def told_alike(office, archives, whole):
    """How many closed numbers are told by their archives, and how many not as by the whole."""
    keys = [
        (kind, each, archives[office.archive_of(each.partner, each.number) - 1])
        for each in whole.deliveries if office.archive_of(each.partner, each.number) for kind in OF_NUMBERS]
    wrong = [
        key for key, (kind, each, archive) in enumerate(keys)
        if report(archive, kind, '%s/%d' % each[:2]) != report(whole, kind, '%s/%d' % each[:2])]
    return len(keys), len(wrong)


def texts_in(files):
    """The texts of archives one after the other, and of the file after them, if there is one: of each, as it stands, those beyond
    what was closed before it. Those that waited as it was copied stand in the next file too, as its first, and count there no
    more."""
    found, carried = [], 0
    for file, following in zip(files, files[1:] + [None]):
        rows = interchange_rows(file)
        found += [row[2].decode('latin-1') for row in rows[carried:]]
        carried = following and sum(number > last_closed(following.register, partner) for partner, number, *_rest in rows)
    return found


def are_in_order(office, archives):
    """Whether those are the texts that the office keeps, and of each archive, with those before it, those of its day."""
    files = [*archives, office]
    return all(
        texts_in(files[:place]) == kept_texts(file.deliveries) for place, file in enumerate(files, start=1))


def judge_all():
    """Gives how many lists are wrong."""
    wrong, told, away = [], 0, 0
    for seed in range(1, LISTS + 1):
        office, archives, whole = closed_by_turns(seed)
        rows, count = rows_of(office), told_alike(office, archives, whole)
        lists = lists_away(office, whole)
        told, away = told + count[0], away + lists[0]
        lost = fault_of_rows(rows) == ('Damaged' if office.register.segments else None)
        if not (is_sound(office.register) and fault_of_rows(rows, register=office.register) is None and lost and not count[1]
                and lists[1] and are_parts(office, archives, whole) and are_in_order(office, archives)):
            wrong.append(seed)
    print(''.join('wrong: closings, list %d\n' % seed for seed in wrong), end='')
    print('%d stores that the model closed, %d closed numbers told, %d lists away, %d wrong' % (LISTS, told, away, len(wrong)))
    return len(wrong)
