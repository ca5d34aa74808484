"""Interchanges that get vessels' lists done, and others that name those lists again: for stores that are closed.

A list is finished by its line, which replaces it by a container whose line is done: what is open is dropped. So are new calls
listed, discharged or loaded, and finished. Numbers before each value in a table are its weight.
"""
from collections import namedtuple

from .asking import container
from .deliveries import run

VESSEL, VOYAGES = '9123456', ['V12', 'V13', 'W1', 'W 2', 'X/3']
LISTED = {'load': 'ListLoad', 'discharge': 'ListDischarge'}
REPORTED = {'load': 'Load', 'discharge': 'Discharge'}

# how a list is named again: by which orders, of a container without a line, or of one whose line is done, with which function
Naming = namedtuple('Naming', 'what orders is_new function')
NAMED = [
    (3, Naming('done line again', REPORTED, False, '9')), (2, Naming('container without a line', REPORTED, True, '9')),
    (2, Naming('same line', LISTED, False, '9')), (3, Naming('new line', LISTED, True, '9')),
    (2, Naming('replaced by a done line', LISTED, False, '5')), (3, Naming('replaced by a new line', LISTED, True, '5')),
    (1, Naming('rejected, so none is named', REPORTED, True, '7'))]
# under which number: the next, one that waits, one that is used and not closed, a closed one
NUMBERED = [(6, 'next'), (3, 'early'), (2, 'used'), (1, 'closed')]


def another_container(chance):
    """The number of a container that seldom comes."""
    return container(chance.randrange(300), 'TEXU')


class Vessels:
    """What a day's partners of both kinds send on lists, by the office as it stands."""

    def __init__(self, chance, day):
        self.chance, self.day = chance, day

    # ---- a text

    def sender(self, office, kind):
        """A partner of that kind, or None."""
        codes = [code for code, of_kind in office.setup.partners.items() if of_kind == kind]
        return self.chance.choice(codes) if codes else None

    def text(self, office, order, call, containers, function='9', when='next'):
        """An interchange of one message that orders this for containers of a call, under a number of its sender. None where nobody
        may send it, or there is no such number."""
        code = self.sender(office, 'line' if order.startswith('List') else 'quay')
        number = code and self.number(office, code, when)
        if not number:
            return None
        type_name, name = self.day.codes[order]
        body = ['UNH+1+%s:D:95B:UN' % type_name, 'BGM+%s+G1+%s' % (name, function), 'TDT+20+%s++++++%s' % (call[1], call[0])]
        body += ['EQD+CN+%s+22G1:102:5+++5' % container for container in containers]
        if order == 'ListLoad':
            body += ['LOC+11+' + self.chance.choice(['DEHAM', 'NLRTM', ''])]
        text = "UNB+UNOA:3+%s+%s+240305:0910+%d'%s'UNT+%d+1'UNZ+1+%d'" % (
            code, office.setup.terminal, number, "'".join(body), len(body) + 1, number)
        self.day.sent.setdefault(code, {}).setdefault(number, text)
        return text

    def number(self, office, code, when):
        """A number of a partner, or None where there is none such."""
        last = run(office.deliveries, code)
        if when in ('next', 'early'):
            return last + 1 + (self.chance.randint(1, 3) if when == 'early' else 0)
        used = [
            number for number in range(1, last + 1) if (office.archive_of(code, number) is not None) == (when == 'closed')]
        return self.chance.choice(used) if used else None

    # ---- lists that get done

    def lines_on(self, office, name):
        """The containers of a list by their lines' being done."""
        lines = office.fold().terminal.lines
        return [
            [number for (call, side, number), line in lines.items() if (call, side) == name and line.is_done == is_done]
            for is_done in (True, False)]

    def new_call(self, office):
        """A list of a call and what is done by it: two texts, of which the second is made after the first was answered."""
        call, side = (VESSEL, self.chance.choice(VOYAGES)), self.chance.choice(['load', 'discharge', 'discharge'])
        yard = sorted(office.fold().terminal.yard)
        if side == 'load' and yard:
            containers = self.chance.sample(yard, min(2, len(yard)))
        else:
            containers = [another_container(self.chance) for _container in range(self.chance.choice([1, 1, 2]))]
        yield self.text(office, LISTED[side], call, containers)
        yield self.text(office, REPORTED[side], call, containers)

    def finished(self, office):
        """A list with a line that is done and one that is open is replaced, so that the open ones go."""
        lines = office.fold().terminal.lines
        names = sorted({(call, side) for call, side, _number in lines})
        names = [name for name in names if all(self.lines_on(office, name))]
        if names:
            call, side = self.chance.choice(names)
            done = self.chance.choice(sorted(self.lines_on(office, (call, side))[0]))
            yield self.text(office, LISTED[side], call, [done], function='5')

    # ---- lists that are named again

    def named_again(self, office, name):
        """A text that names a list, or None; what it does, and when its number comes."""
        (call, side), when, naming = name, self.day.pick(NUMBERED), self.day.pick(NAMED)
        container = self.chance.choice(sorted(self.lines_on(office, name)[0]))
        if naming.is_new:
            container = another_container(self.chance)
        text = self.text(office, naming.orders[side], call, [container], naming.function, when)
        return text, naming.what, when
