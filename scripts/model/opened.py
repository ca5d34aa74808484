"""Whether the rows of a store are those of an office: docs/TABLES.md, what Damaged means.

Each check is a predicate of all tables, which are dicts of lists of rows. An old store is checked as if each weight in it
were 0. Of a store that was closed the checks go by its register: what is closed may stand there or not.
"""
from .moments import moment_of
from .names import length_of, number_fault, slot_of
from .register import EMPTY, last_closed, newest_closed
from .rows import COLUMNS, OLD_VERSIONS, VERSION
from .setup import (
    BLOCKS_HEADER, CODE_NAMES, KINDS, MOST_VISITS, PARTNERS_HEADER, are_bad_blocks, are_bad_codes, are_bad_partners,
    is_bad_limit, is_bad_terminal)
from .yard import Block, Place, is_sound

SETTINGS = {'version', 'terminal', 'visits', *CODE_NAMES}
NUMBERS = {
    'id', 'kind', 'next', 'partner', 'number', 'visit', 'laden', 'in_by', 'in_partner', 'in_number', 'out_by', 'out_partner',
    'out_number', 'kilos', 'side', 'done', 'bays', 'lanes', 'tiers'}
MOST_NUMBER = 999999999
MOST_KILOS = 999999


def are_readable(tables):
    """Whole numbers and texts, each in its columns. The bodies of interchanges are not read."""
    return all(
        isinstance(value, int if column in NUMBERS else str)
        for table, columns in COLUMNS.items() for row in tables[table] for column, value in zip(columns.split(), row)
        if column != 'body')


def is_setup(tables):
    """Just the ten settings; with accounts and blocks they are a set-up that files could give."""
    settings = dict(tables['setting'])
    if len(settings) != len(tables['setting']) or set(settings) != SETTINGS or settings['visits'].startswith('0'):
        return False
    kinds = dict(enumerate(KINDS, start=1))
    partners = [PARTNERS_HEADER, ['terminal', settings['terminal'], ''], ['limit', 'visits', settings['visits']]]
    partners += [['code', name, settings[name]] for name in CODE_NAMES]
    partners += [['partner', code, kinds.get(kind, '')] for _identity, code, kind, _next in tables['partner']]
    blocks = [BLOCKS_HEADER] + [[letter, *map(str, sizes)] for letter, *sizes in tables['block']]
    return not any(is_bad(partners, blocks) for is_bad in (
        is_bad_terminal, are_bad_partners, are_bad_codes, is_bad_limit, are_bad_blocks))


def are_accounts(tables):
    """Numbered from 1 on, each with a next number."""
    identities = sorted(identity for identity, _code, _kind, _next in tables['partner'])
    return identities == list(range(1, len(identities) + 1)) and all(
        1 <= next_number <= MOST_NUMBER + 1 for *_account, next_number in tables['partner'])


def are_interchanges(tables, register):
    """Below next each number that is not closed, with a reply; above it any, without one. All that is closed is below next."""
    nexts = {identity: next_number for identity, _code, _kind, next_number in tables['partner']}
    lasts = {segment.partner: last_closed(register, segment.partner) for segment in register.segments}
    replies = {
        (partner, number): reply for partner, number, _body, reply in tables['interchange']
        if not 1 <= number <= lasts.get(partner, 0)}
    return all(
        partner in nexts and 1 <= number <= MOST_NUMBER and number != nexts[partner]
        and (number < nexts[partner]) == (reply != '') for (partner, number), reply in replies.items()) and all(
        sum(partner == identity and number < next_number for partner, number in replies)
        == next_number - 1 - lasts.get(identity, 0) for identity, next_number in nexts.items()) and all(
        partner in nexts and last < nexts[partner] for partner, last in lasts.items())


def is_passage(tables, by, partner, number, moment):
    """By gate or ship, by an account's interchange, at a moment."""
    identities = [identity for identity, _code, _kind, _next in tables['partner']]
    return by in (1, 2) and partner in identities and 1 <= number <= MOST_NUMBER and moment_of(moment, 12) is not None


def is_kept_name(text):
    """A booking or a port: none, or 1 to 35 printable bytes."""
    return len(text) <= 35 and all(' ' <= character <= '~' for character in text)


def are_visits(tables, register):
    """Numbered from 1 on, with gaps up to the newest visit of the last archive; within the limit, of their forms, each exit whole
    or empty."""
    limit = int(dict(tables['setting'])['visits'])
    visits, closed = sorted(tables['visit']), newest_closed(register)
    numbers = [visit[0] for visit in visits]
    later = [number for number in numbers if number > closed]
    if later != list(range(closed + 1, closed + 1 + len(later))) or any(number < 1 for number in numbers):
        return False
    if max(numbers, default=0) > min(limit, MOST_VISITS):
        return False
    return all(
        number_fault(box) is None and length_of(size) and laden in (0, 1) and is_kept_name(booking)
        and is_passage(tables, *passages[:4]) and slot_of(passages[4])
        and (passages[5:] == [0, 0, 0, ''] or is_passage(tables, *passages[5:])) and 0 <= kilos <= MOST_KILOS
        for _visit, box, size, laden, booking, *passages, kilos in visits)


def are_lines(tables):
    """Of their forms; no port on a discharge list."""
    return all(
        is_kept_name(vessel) and vessel and is_kept_name(voyage) and voyage and side in (1, 2) and done in (0, 1)
        and number_fault(box) is None and is_kept_name(port) and (side == 1 or port == '')
        for vessel, voyage, side, box, port, done in tables['listed'])


def are_places(tables):
    """Just the open visits' containers, in a yard that is sound. A full one may stand on an empty one."""
    opened = {visit[1]: visit for visit in tables['visit'] if visit[10] == 0}
    placed = {box: (visit, slot) for box, visit, slot in tables['place']}
    if len(opened) != sum(visit[10] == 0 for visit in tables['visit']) or set(placed) != set(opened):
        return False
    if not all(visit == opened[box][0] and slot_of(slot) for box, (visit, slot) in placed.items()):
        return False
    yard = {
        box: Place(length_of(opened[box][2]), slot_of(slot), opened[box][3] == 1) for box, (_visit, slot) in placed.items()}
    return is_sound([Block(*block) for block in tables['block']], yard)


def is_of_day(tables, register):
    """Of no day before the register: no number is awaited that had been taken as an archive was closed."""
    nexts = {identity: next_number for identity, _code, _kind, next_number in tables['partner']}
    return all(segment.last < nexts.get(segment.partner, 0) for segment in register.taken)


def is_of_terminal(tables, register):
    """Of the terminal of which the register's archives were closed."""
    return all(sealed.terminal == dict(tables['setting'])['terminal'] for sealed in register.sealed)


def fault_of_rows(tables, versions=(VERSION,), register=EMPTY):
    """Store without a table or its columns; Version where it is another or none, which is before all tables but that of the
    settings; Damaged where the rows are those of no office; else None."""
    if not isinstance(tables.get('setting'), list):
        return 'Store'
    if dict(tables['setting']).get('version') not in versions:
        return 'Version'
    if not all(isinstance(tables.get(table), list) for table in COLUMNS):
        return 'Store'
    checks = [
        are_readable, is_setup, are_accounts, lambda tables: are_interchanges(tables, register),
        lambda tables: are_visits(tables, register), are_lines, are_places, lambda tables: is_of_day(tables, register),
        lambda tables: is_of_terminal(tables, register)]
    return None if all(check(tables) for check in checks) else 'Damaged'


def fault_of_old_rows(tables):
    """The same of a store that is to be brought to the newest version, its tables read by their old columns."""
    visits = tables.get('visit')
    if isinstance(visits, list):
        tables = dict(tables, visit=[(*visit, 0) for visit in visits])
    return fault_of_rows(tables, OLD_VERSIONS)
