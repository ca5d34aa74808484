"""What people look up: a container, what is left of a vessel's list, the calls, the partners, the blocks and a CONTRL; and
what watches over the office (docs/PROFILE.md, Reports).

Each is a text of whole lines, or None where there is nothing to tell, computed from all deliveries as the other reports
are.
"""
from .deliveries import run
from .names import slot_text
from .words import load_text, passage_text, text_of
from .yard import blocker, cells

PROGRAM_VERSION = '1.0.0'

# ---- the yard

def standing(terminal):
    """Slot and open visit of each container in the yard, by the text of the slot."""
    visits = {visit.number: visit for visit in terminal.visits if visit.exit is None}
    return sorted(
        ((slot_text(place.slot), visits[number]) for number, place in terminal.yard.items()), key=lambda pair: pair[0])


# ---- visits

def own_visits(office):
    """The visits that the store has, with their numbers, which are 1, 2 and so on as they were opened: all, but for those that
    a closing took."""
    numbered = enumerate(office.fold().terminal.visits, start=1)
    return [(number, visit) for number, visit in numbered if number not in office.gone]


def archives_line(office):
    """How many archives were not asked, if there are any."""
    count = len(office.register.archives)
    return ['ARCHIVES %d' % count] * (count > 0)


def with_archives(office, lines):
    """Lines on what the store has, and after them how many archives were not asked; None, if there is nothing to tell."""
    return text_of(lines + archives_line(office)) or None


# ---- a container

def open_lines(terminal, box):
    """The open lines that name it, by vessel, voyage and side, each with its port if it has one."""
    lines = [
        (call, 'load discharge'.split().index(side), line.port)
        for (call, side, number), line in terminal.lines.items() if number == box and not line.is_done]
    return [
        ' '.join([('LOAD', 'DISCHARGE')[side], *call] + ([port] if port else [])) for call, side, port in sorted(lines)]


def stay_text(place, visit, passage):
    """What it is, the number of its visit, and how it came or went."""
    return '%s %s VISIT %d %s' % (visit.size_type, load_text(visit), place, passage_text(passage))


def container(office, box):
    """Where it stands and by which visit, and what is to be done with it; or how it left last."""
    return with_archives(office, container_lines(office, box))


def container_lines(office, box):
    """The same of what the store has; none of a container that has no visit there."""
    terminal = office.fold().terminal
    stays = [(place, visit) for place, visit in own_visits(office) if visit.number == box]
    if not stays:
        return []
    place, visit = stays[-1]
    if box not in terminal.yard:
        return ['CONTAINER ' + box, 'OUT ' + stay_text(place, visit, visit.exit)]
    words = ['IN', slot_text(terminal.yard[box].slot), stay_text(place, visit, visit.entry)]
    words += ['BOOKING', visit.booking] if visit.booking else []
    words += ['GROSS %d' % visit.kilos] if visit.kilos else []
    above = blocker(terminal.yard, box)
    words += ['UNDER', above] if above else ['FREE']
    return ['CONTAINER ' + box, ' '.join(words)] + open_lines(terminal, box)


# ---- a vessel

def own_lines(office):
    """The lines of lists that the store has, by call, side and container: all, but for those of the lists that are away."""
    lines = office.fold().terminal.lines
    return {(call, side, number): line for (call, side, number), line in lines.items() if (call, side) not in office.away}


def words_of(*words):
    """Those that are not empty, with a space between each two."""
    return ' '.join(word for word in words if word)


def open_on(terminal, call, side):
    """The containers of a list's open lines with their ports, by their numbers."""
    return sorted(
        (number, line.port) for (of_call, of_side, number), line in terminal.lines.items()
        if (of_call, of_side) == (call, side) and not line.is_done)


def standing_visit(terminal, box):
    """The visit of a container that is in the yard."""
    return next(visit for visit in terminal.visits if visit.number == box and visit.exit is None)


def going_down(slot):
    """Slots by block, row and bay, from the top tier down."""
    return slot.block, slot.row, slot.bay, -slot.tier


def load_lines(terminal, jobs):
    """Those in the yard by their places, the others by their numbers, and the counts."""
    here = sorted((job for job in jobs if job[0] in terminal.yard), key=lambda job: going_down(terminal.yard[job[0]].slot))
    absent = [words_of(number, port, 'NOT IN') for number, port in jobs if number not in terminal.yard]
    above = {number: blocker(terminal.yard, number) for number, _port in here}
    lines = [
        words_of(
            slot_text(terminal.yard[number].slot), number, standing_visit(terminal, number).size_type, port,
            'UNDER ' + above[number] if above[number] else 'FREE')
        for number, port in here]
    under = sum(other is not None for other in above.values())
    return lines + absent + ['%d FREE %d UNDER %d NOT IN' % (len(here) - under, under, len(absent))]


def discharge_lines(terminal, jobs):
    """All by their numbers, with the slots of those that are here already, and the counts."""
    slots = {number: slot_text(terminal.yard[number].slot) for number, _port in jobs if number in terminal.yard}
    lines = [words_of(number, port, 'IN ' + slots[number] if number in slots else '') for number, port in jobs]
    return lines + ['%d OPEN %d IN' % (len(jobs), len(slots))]


def work(office, vessel, voyage, side):
    """What is left to do of a list that has a line, open or done."""
    terminal, call = office.fold().terminal, (vessel, voyage)
    if not any((of_call, of_side) == (call, side) for of_call, of_side, _number in terminal.lines):
        return None
    lines = {'load': load_lines, 'discharge': discharge_lines}[side](terminal, open_on(terminal, call, side))
    return text_of(['%s WORK %s %s' % (side.upper(), vessel, voyage)] + lines)


def calls(office):
    """Each list that has a line in the store, by vessel, voyage and side, with how many of its lines are open and how many are
    done; if lists were ever put away also how many archives there are."""
    lines = own_lines(office)
    texts = []
    for call in sorted({of_call for of_call, _side, _number in lines}):
        for side in ('load', 'discharge'):
            done = [line.is_done for (of_call, of_side, _number), line in lines.items() if (of_call, of_side) == (call, side)]
            if done:
                texts.append('%s %s %s %d OPEN %d DONE' % (*call, side.upper(), done.count(False), done.count(True)))
    return text_of(texts + (archives_line(office) if office.register.lists else []))


# ---- the partners

def waiting(office, partner):
    """The numbers that came and are not taken yet."""
    taken = run(office.deliveries, partner)
    return sorted({
        delivery.number for delivery in office.deliveries if delivery.partner == partner and delivery.number > taken})


def partner_line(office, partner, kind):
    """Its kind, the number that is expected, and what waits for it."""
    expected, numbers = run(office.deliveries, partner) + 1, waiting(office, partner)
    line = '%s %s NEXT %d' % (partner, kind.upper(), expected)
    if numbers:
        line += ' WAITING %d FROM %d TO %d MISSING %d' % (len(numbers), numbers[0], numbers[-1], expected)
    return line


def partners(office):
    """Each account in its order, and how many wait of all."""
    accounts = office.setup.partners
    lines = [partner_line(office, partner, kind) for partner, kind in accounts.items()]
    count = sum(len(waiting(office, partner)) for partner in accounts)
    return text_of(['PARTNERS'] + lines + ['%d PARTNERS %d WAITING' % (len(lines), count)])


def partner(office, code):
    """The line of one account."""
    kind = office.setup.partners.get(code)
    return None if kind is None else text_of([partner_line(office, code, kind)])


# ---- what watches over the office

def health(_office):
    """That it can be asked."""
    return '{"answer":"ready"}'


def gauge(name, what, value):
    """A value in the text format of Prometheus, version 0.0.4."""
    return ['# HELP %s %s' % (name, what), '# TYPE %s gauge' % name, '%s %s' % (name, value)]


def metrics(office):
    """How much there is of what, and the versions of program and store, which are labels of a value that is always 1."""
    visits = own_visits(office)
    waits = [len(waiting(office, partner)) for partner in office.setup.partners]
    info = '{version="%s",store_version="%s"}' % (PROGRAM_VERSION, office.version)
    return text_of(
        gauge('office_accounts', 'Partners that have an account.', len(waits))
        + gauge('office_containers', 'Containers in the yard.', len(office.fold().terminal.yard))
        + gauge('office_visits', 'Visits recorded, open and closed.', len(visits))
        + gauge('office_visits_ever', 'Visits recorded, put away ones too.', len(office.fold().terminal.visits))
        + gauge('office_visits_limit', 'Visits that may be recorded.', office.setup.most_visits)
        + gauge('office_interchanges_waiting', 'Interchanges that wait for a number that is missing.', sum(waits))
        + gauge('office_partners_waiting', 'Partners of whom an interchange waits.', sum(count > 0 for count in waits))
        + gauge('office_info', 'Versions of the program and of its store.', 1)[:2] + ['office_info%s 1' % info])


# ---- the archives

def archives(office):
    """Each archive by its place: its file, the number of its newest visit, and whether it is there."""
    return text_of([
        'ARCHIVE %d %s VISITS %d %s' % (*archive, office.lost.get(archive.place, 'THERE'))
        for archive in office.register.archives]) or None


# ---- the blocks

def use_text(yard, numbers):
    """The cells that some containers of a yard use, how many of each length they are, how many have one standing on
    them, and the highest tier of theirs."""
    places = [yard[number] for number in numbers]
    twenties = sum(place.length == 20 for place in places)
    return 'USED %d TWENTIES %d FORTIES %d UNDER %d HIGHEST %d' % (
        sum(len(cells(place)) for place in places), twenties, len(places) - twenties,
        sum(blocker(yard, number) is not None for number in numbers),
        max((place.slot.tier for place in places), default=0))


def cell_count(block):
    """How many twenties it holds."""
    return block.bays * block.rows * block.tiers


def blocks(office):
    """Each block by its letter, and all of them."""
    terminal = office.fold().terminal
    lines = [
        '%s BAYS %d ROWS %d TIERS %d CELLS %d %s' % (
            *block, cell_count(block),
            use_text(terminal.yard, [
                number for number, place in terminal.yard.items() if place.slot.block == block.letter]))
        for block in sorted(terminal.plan)]
    total = '%d BLOCKS CELLS %d %s' % (
        len(lines), sum(map(cell_count, terminal.plan)), use_text(terminal.yard, list(terminal.yard)))
    return text_of(['BLOCKS'] + lines + [total])


# ---- one interchange

def contrl(office, partner, number):
    """The CONTRL that an interchange was answered, once it was taken."""
    kept = office.fold().replies.get((partner, number))
    return text_of([kept['contrl']]) if kept else None
