"""What can be asked of the office besides deliveries: crates/office_reports/README.md.

Each report is a text of whole lines, or None where there is nothing to tell. It is computed from all deliveries, as
answers are.
"""
from . import lookups
from .deliveries import first_text, run
from .keys import PARTS, read_key
from .lookups import own_visits, standing, with_archives
from .moments import day_number
from .names import slot_text
from .office import json_text
from .picture import picture
from .words import load_text, moment_text, passage_text, text_of


# ---- the yard

def yard(office):
    """A line for each container, and how many there are."""
    lines = [
        '%s %s %s %s' % (slot, visit.number, visit.size_type, load_text(visit))
        for slot, visit in standing(office.fold().terminal)]
    return text_of(['YARD'] + lines + ['%d CONTAINERS' % len(lines)])


def yardcsv(office):
    """The same as comma-separated values. None of them needs quotes."""
    lines = [
        ','.join([slot, visit.number, visit.size_type, load_text(visit).lower()])
        for slot, visit in standing(office.fold().terminal)]
    return text_of(['slot,box,size,load'] + lines)


# ---- visits

def visit_text(place, visit):
    """Its number, how it came, where it was put, its booking and its weight, how it went and after how many days."""
    text = '%d %s %s IN %s %s' % (
        place, visit.size_type, load_text(visit), passage_text(visit.entry), slot_text(visit.entry_slot))
    if visit.booking:
        text += ' BOOKING ' + visit.booking
    if visit.kilos:
        text += ' GROSS %d' % visit.kilos
    if visit.exit is None:
        return text + ' OUT -'
    days = day_number(visit.exit.moment) - day_number(visit.entry.moment)
    return '%s OUT %s DAYS %d' % (text, passage_text(visit.exit), days)


def visits(office, box):
    """A container's visits."""
    lines = [visit_text(place, visit) for place, visit in own_visits(office) if visit.number == box]
    return with_archives(office, ['VISITS ' + box] * (lines != []) + lines)


# ---- vessels

def vessel_list(office, vessel, voyage, side):
    """The lines of a list by container, and how many are open and done; those of one that is away as they were put away."""
    lines = [
        (number, line) for ((call, of_side, number), line) in sorted(office.fold().terminal.lines.items())
        if call == (vessel, voyage) and of_side == side]
    if not lines:
        return None
    texts = [
        ' '.join([number, 'DONE' if line.is_done else 'OPEN'] + ([line.port] if line.port else []))
        for number, line in lines]
    done = sum(line.is_done for _number, line in lines)
    head = '%s LIST %s %s' % (side.upper(), vessel, voyage)
    return text_of([head] + texts + ['%d OPEN %d DONE' % (len(lines) - done, done)])


# ---- one interchange

def ticket(office, partner, number):
    """What an interchange that was taken did at the gate and at the ships: entries, then exits."""
    fold = office.fold()
    if (partner, number) not in fold.replies:
        return None
    entries = [
        ' '.join([
            'IN', visit.number, visit.size_type, load_text(visit), slot_text(visit.entry_slot),
            moment_text(visit.entry.moment)])
        for visit in fold.terminal.visits if visit.entry.source == (partner, number)]
    exits = [
        ' '.join(['OUT', visit.number, visit.size_type, load_text(visit), moment_text(visit.exit.moment)])
        for visit in fold.terminal.visits if visit.exit and visit.exit.source == (partner, number)]
    return text_of(['TICKET %s %d' % (partner, number)] + (entries + exits or ['NOTHING']))


def reply(office, partner, number):
    """The body that answers a repeat of the interchange: with its reply, or that it waits."""
    if first_text(office.deliveries, partner, number) is None:
        return None
    answer = dict(number=number, partner=partner)
    if number <= run(office.deliveries, partner):
        answer.update(answer='repeat', reply=office.fold().replies[partner, number])
    else:
        answer.update(answer='waiting', next=run(office.deliveries, partner) + 1)
    return json_text(answer)


# ---- all of them

REPORTS = {
    'yard': yard, 'yardcsv': yardcsv, 'picture': picture, 'blocks': lookups.blocks, 'calls': lookups.calls,
    'partners': lookups.partners, 'partner': lookups.partner, 'health': lookups.health, 'metrics': lookups.metrics,
    'archives': lookups.archives,
    'visits': visits, 'container': lookups.container, 'list': vessel_list, 'work': lookups.work, 'ticket': ticket,
    'reply': reply, 'contrl': lookups.contrl}


# those on one interchange, and those on one list
OF_NUMBERS = ('ticket', 'reply', 'contrl')
OF_LISTS = ('list', 'work')


class Lost(Exception):
    """What is asked for is in an archive that can't be asked."""


def has_key(kind):
    """Those on the whole terminal have none."""
    return PARTS[kind] > 0


WHOLE = [(kind, '') for kind in PARTS if not has_key(kind)]


def as_text(office, kind, *values):
    """A report as text."""
    return REPORTS[kind](office, *values)


def report(office, kind, key='', shown=as_text):
    """The report of a kind under a key, shown so. None where nothing is found, also under a key that can't be read."""
    return reported(office, kind, read_key(kind, key) if has_key(kind) else [], shown)


def own_report(office, kind, key='', shown=as_text):
    """The same as an archive is asked by its store: of a list it tells what stands there."""
    values = read_key(kind, key) if has_key(kind) else []
    if values and kind in OF_LISTS and ((values[0], values[1]), values[2]) in office.away:
        return None
    return reported(office, kind, values, shown)


def reported(office, kind, values, shown):
    """The report of a kind on what a key names; None where it names nothing."""
    if values and kind in OF_NUMBERS and office.is_lost(*values):
        raise Lost
    return None if values is None else shown(office, kind, *values)


def printed(office, kind, key=''):
    """What the command `report` prints, and its status: JSON has its line's end there."""
    text = report(office, kind, key)
    if text is None:
        return 'none\n', 1
    return (text + '\n' if kind in ('reply', 'health') else text), 0
