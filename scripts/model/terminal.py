"""What an order does at the terminal (own): crates/terminal_core/README.md.

Each order is refused for the first reason that applies, and then changes nothing. Otherwise it is carried out. The
outcome is what the answer tells of it.
"""
from collections import namedtuple

from .names import length_of, slot_text
from .rules import NEWEST, RULES
from .yard import Place, blocker, first_slot, misfit, shift_misfit

# how a container came or went: by gate or ship, by which partner's number, when
Passage = namedtuple('Passage', 'way source moment')
# `kilos` is the gross weight that came with it, 0 where none did
Visit = namedtuple('Visit', 'number size_type is_full booking entry entry_slot exit kilos')
ListLine = namedtuple('ListLine', 'port is_done')

# on which side of a call an order's line is
SIDES = {'Load': 'load', 'ListLoad': 'load', 'Discharge': 'discharge', 'ListDischarge': 'discharge'}


def refused(reason, **more):
    """An outcome that changes nothing."""
    return dict(outcome='refused', reason=reason, **more)


class Terminal:
    """The plan, the most visits there may be, the rules that are in force, the yard, all visits in the order in which they
    were opened, and the lines of the vessels' lists by call, side and container."""

    def __init__(self, plan, most_visits):
        self.plan, self.most_visits, self.rules = plan, most_visits, RULES[NEWEST]
        self.yard, self.visits, self.lines = {}, [], {}

    def step(self, source, order):
        """Carries out an order that came with an interchange, its source (partner and number); gives the outcome."""
        orders = {
            'GateIn': self.gate_in, 'GateOut': self.gate_out, 'Move': self.move, 'Load': self.load,
            'Discharge': self.discharge, 'ListLoad': self.list_line, 'ListDischarge': self.list_line}
        return orders[order.name](source, order)

    # ---- the gate

    def gate_in(self, source, order):
        """Refused where it is in the yard; then as for any entry."""
        if order.number in self.yard:
            return refused('AlreadyIn')
        return self.enter(Passage('gate', source, order.moment), order)

    def gate_out(self, source, order):
        """Refused where it is not in the yard, or buried."""
        if order.number not in self.yard:
            return refused('NotIn')
        return self.leave(Passage('gate', source, order.moment), order)

    # ---- the yard

    def move(self, source, order):
        """Refused where it is not in the yard, or buried, or where the slot does not fit the yard without it. It may stay
        where it is."""
        if order.number not in self.yard:
            return refused('NotIn')
        if blocker(self.yard, order.number):
            return refused('Buried', blocker=blocker(self.yard, order.number))
        reason = shift_misfit(self.plan, self.yard, order.number, order.slot, self.rules.spares_empty)
        if reason:
            return refused(reason)
        self.yard[order.number] = self.yard[order.number]._replace(slot=order.slot)
        return dict(outcome='done', slot=slot_text(order.slot))

    # ---- vessels

    def list_line(self, source, order):
        """A line that stands, open or done, is not listed again."""
        if self.line_key(order) in self.lines:
            return refused('AlreadyListed')
        self.lines[self.line_key(order)] = ListLine(order.port, is_done=False)
        return dict(outcome='listed')

    def drop_open(self, call, order):
        """The lines of the list of that call and order that are not done are gone; gives how many."""
        side = SIDES[order]
        dropped = [
            key for key, line in self.lines.items() if key[0] == call and key[1] == side and not line.is_done]
        for key in dropped:
            del self.lines[key]
        return len(dropped)

    def load(self, source, order):
        """Refused where it is not in the yard; where it has no line, or its line is done; where it is buried."""
        if order.number not in self.yard:
            return refused('NotIn')
        if self.line_reason(order):
            return refused(self.line_reason(order))
        return self.then_done(order, self.leave(Passage('ship', source, order.moment), order))

    def discharge(self, source, order):
        """Refused where it is in the yard; where it has no line, or its line is done; then as for any entry."""
        if order.number in self.yard:
            return refused('AlreadyIn')
        if self.line_reason(order):
            return refused(self.line_reason(order))
        return self.then_done(order, self.enter(Passage('ship', source, order.moment), order))

    def line_key(self, order):
        """A call is vessel and voyage, a side load or discharge."""
        return order.call, SIDES[order.name], order.number

    def line_reason(self, order):
        """Why a container may not be loaded or discharged by the list, or None."""
        line = self.lines.get(self.line_key(order))
        if line is None:
            return 'NotListed'
        return 'ListLineDone' if line.is_done else None

    def then_done(self, order, outcome):
        """Where the order was carried out, its line is done."""
        if outcome['outcome'] != 'refused':
            self.lines[self.line_key(order)] = self.lines[self.line_key(order)]._replace(is_done=True)
        return outcome

    # ---- coming and going

    def enter(self, entry, order):
        """Refused where as many visits stand as the set-up allows; where the slot that is named does not fit (no other is
        tried), or none does. Otherwise it stands there, and a visit is opened."""
        if len(self.visits) >= self.most_visits:
            return refused('VisitLimit')
        length = length_of(order.size_type)
        is_wary = self.rules.spares_empty and order.is_full
        slot = order.slot or first_slot(self.plan, self.yard, length, is_wary)
        if slot is None:
            return refused('NoRoom')
        place = Place(length, slot, order.is_full)
        reason = misfit(self.plan, self.yard, place, is_wary)
        if reason:
            return refused(reason)
        self.yard[order.number] = place
        self.visits.append(Visit(
            order.number, order.size_type, order.is_full, order.booking, entry, slot, exit=None, kilos=order.kilos))
        return dict(outcome='done', slot=slot_text(slot))

    def leave(self, passage, order):
        """Out of the yard, where nothing stands on it: its open visit is closed."""
        if blocker(self.yard, order.number):
            return refused('Buried', blocker=blocker(self.yard, order.number))
        del self.yard[order.number]
        for place, visit in enumerate(self.visits):
            if visit.number == order.number and visit.exit is None:
                self.visits[place] = visit._replace(exit=passage)
        return dict(outcome='gone')
