"""What came: the text that is kept of an interchange, what each of its lines is read as and what became of it; and the
interchanges that came last (docs/PROFILE.md, Reports).

Both are told from all deliveries, as the other reports are: as text, as JSON, and the latter as CSV.

`python3 -m model.arrivals FILE ..` delivers files to a new office and prints what came last.
"""
import sys

from .deliveries import first_text, kept, run
from .messages import call_of, code_of, lines_of, list_replaced, message_fault, type_of
from .names import slot_text
from .office import Office
from .rules import NEWEST, RULES
from .setup import orders_of
from .syntax import messages_of, moment_of_header
from .words import moment_text, text_of

MOST_LAST = 50
NAMES = {
    'GateIn': 'gate-in', 'GateOut': 'gate-out', 'Move': 'yard-move', 'ListDischarge': 'discharge-list',
    'ListLoad': 'load-list', 'Discharge': 'discharge-report', 'Load': 'load-report'}


# ---- what was read

def stated(line):
    """What a line was read as, by the names of its JSON; None for what it doesn't say."""
    order = line.order
    facts = dict(container=line.number, size_type=None, load=None, moment=None, slot=None, booking=None, gross=None, port=None)
    if not order:
        return dict(facts, fault=line.fault)
    if order.name in ('GateIn', 'Discharge'):
        facts.update(
            size_type=order.size_type, load='full' if order.is_full else 'empty', booking=order.booking or None,
            gross=order.kilos or None)
    if order.name in ('GateIn', 'Discharge', 'GateOut', 'Load'):
        facts.update(moment=moment_text(order.moment))
    return dict(facts, slot=slot_text(order.slot) if order.slot else None, port=order.port or None, fault=None)


def message_read(office, partner, text, message):
    """A message of a text of that partner, as it is read today, without what became of its lines."""
    may_order, rules = orders_of(office.setup, office.setup.partners[partner]), RULES[NEWEST]
    told = dict(call=None, fault=message_fault(message, may_order, rules), kind=None, lines=[], replaces=False)
    told['reference'] = message[0].value(1)
    if told['fault']:
        return told
    lines = lines_of(message, may_order, moment_of_header(text), rules)
    call, kind = kind_of(message, may_order)
    return dict(
        told, call=call and dict(vessel=call[0], voyage=call[1]), kind=NAMES[kind], lines=[stated(line) for line in lines],
        replaces=list_replaced(message, may_order) is not None)


def kind_of(message, may_order):
    """The call that a message without fault is about, if it is about one, and what it orders."""
    return call_of(message), may_order[type_of(message), code_of(message)]


def reply_of(office, partner, number):
    """The reply that is kept, or None while it waits."""
    return office.fold().replies.get((partner, number))


def outcome_of(line):
    """What became of a line, by its part of a reply."""
    return dict(
        blocker=line.get('blocker'), name=line['outcome'], reason=line.get('reason'), slot=line.get('slot'))


# ---- an interchange

def interchange(office, partner, number):
    """What came under a partner's number, as an object; None if nothing did."""
    text = first_text(office.deliveries, partner, number)
    if text is None:
        return None
    reply = reply_of(office, partner, number)
    messages = [message_read(office, partner, text, message) for message in messages_of(text)]
    for place, message in enumerate(messages):
        outcomes = reply['messages'][place].get('lines', []) if reply else []
        for at, line in enumerate(message['lines']):
            line.update(line=at + 1, outcome=outcome_of(outcomes[at]) if at < len(outcomes) else None)
    return dict(
        messages=messages, next=None if reply else run(office.deliveries, partner) + 1, number=number, partner=partner, text=text)


def line_words(line):
    """The words of a line, and those of what became of it."""
    words = [str(line['line'])] + [line['container']] * bool(line['container'])
    words += [line['size_type'], line['load'].upper()] if line['size_type'] else []
    words += [line['moment']] if line['moment'] else []
    for name in ('slot', 'booking', 'gross', 'port', 'fault'):
        words += [name.upper(), str(line[name])] if line[name] else []
    outcome = line['outcome']
    if outcome:
        words += [outcome['name'].upper()] + [outcome[name] for name in ('slot', 'reason', 'blocker') if outcome[name]]
    return words


def message_lines(message):
    """The lines of a message in the text."""
    if message['fault']:
        return ['MESSAGE %s REJECTED %s' % (message['reference'], message['fault'])]
    words = ['MESSAGE', message['reference'], message['kind']]
    words += [message['call']['vessel'], message['call']['voyage']] if message['call'] else []
    words += ['REPLACES'] * message['replaces']
    return [' '.join(words)] + [' '.join(line_words(line)) for line in message['lines']]


def interchange_text(office, partner, number):
    """The same as text."""
    told = interchange(office, partner, number)
    if told is None:
        return None
    state = 'WAITING FOR %d' % told['next'] if told['next'] else 'TAKEN'
    lines = [line for message in told['messages'] for line in message_lines(message)]
    return text_of(['INTERCHANGE %s %d %s' % (partner, number, state)] + lines + ['TEXT', told['text']])


# ---- the last

def settled(reply):
    """What became of the lines and messages of a reply: how many, and each reason once."""
    lines = [line for message in reply['messages'] for line in message.get('lines', [])]
    names = []
    for message in reply['messages']:
        names += [message['fault']] if 'fault' in message else []
        names += [line['reason'] for line in message.get('lines', []) if line['outcome'] == 'refused']
    refused = sum(line['outcome'] == 'refused' for line in lines)
    rejected = sum('fault' in message for message in reply['messages'])
    return dict(done=len(lines) - refused, reasons=list(dict.fromkeys(names)), refused=refused, rejected=rejected)


def last(office):
    """The interchanges that came last, the last one first, as an object of rows."""
    rows = []
    for delivery in reversed(kept(office.deliveries)[-MOST_LAST:]):
        reply = reply_of(office, delivery.partner, delivery.number)
        first = message_read(office, delivery.partner, delivery.text, messages_of(delivery.text)[0])
        rows.append(dict(
            kind=first['kind'], number=delivery.number, partner=delivery.partner, settled=reply and settled(reply)))
    return dict(rows=rows)


def last_line(row):
    """The line of an interchange."""
    words = [row['partner'], str(row['number']), row['kind'] or '-']
    if not row['settled']:
        return ' '.join(words + ['WAITING'])
    for name in ('done', 'refused', 'rejected'):
        words += [name.upper(), str(row['settled'][name])]
    return ' '.join(words + row['settled']['reasons'])


def last_text(office):
    """The same as text."""
    rows = last(office)['rows']
    return text_of(['LAST'] + [last_line(row) for row in rows] + ['%d INTERCHANGES' % len(rows)])


def last_csv(office):
    """The same as rows of fields under their header; a writer of CSV quotes what has to be."""
    header = ['partner', 'number', 'kind', 'done', 'refused', 'rejected', 'reasons']
    rows = []
    for row in last(office)['rows']:
        told = row['settled'] or dict(done='', refused='', rejected='', reasons=[])
        rows.append([
            row['partner'], str(row['number']), row['kind'] or '', str(told['done']), str(told['refused']), str(told['rejected']),
            ' '.join(told['reasons'])])
    return [header] + rows


def main(paths):
    """What came last of these files, each with one interchange."""
    office = Office()
    for path in paths:
        with open(path, encoding='latin-1', newline='') as file:
            office.answer(file.read())
    print(last_text(office), end='')


if __name__ == '__main__':
    main(sys.argv[1:])
