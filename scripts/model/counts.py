"""What random streams are for and no answer tells: weights of all kinds, room that an empty container has alone, moves home.

Each is counted once for a list of deliveries, as its texts are taken.
"""
from collections import Counter

from .deliveries import order
from .messages import READ_WEIGHT, code_of, container_groups, groups_of, header_of, kilos_in, message_fault, type_of
from .moments import are_digits
from .names import length_of
from .office import Fold, Office, newest
from .setup import orders_of
from .syntax import messages_of
from .terminal import Terminal
from .yard import first_slot, rests_on_empty

KEPT, NO_NUMBER, ZEROS = 'weight kept', 'weight that is no number of 1 to 6 digits', 'weight of zeros'
PADDED, BEHIND, SECOND = 'weight with zeros in front', 'weight behind a MEA of another kind', 'weight behind a weight'
OTHER, UNREAD = 'MEA of another kind alone', 'weight that its order does not read'
FRONT, OUTSIDE = 'weight before the first EQD', 'weight behind a CNT'
SENT_PAST = 'full one put behind a slot that an empty one would get'
NO_ROOM = 'no room for a full one, and room for an empty one'
HOME_FULL, HOME_EMPTY = 'full one moved home', 'empty one moved home'
HOME_ABOVE = 'full one moved home above an empty one'     # which comes over old rows alone
EVERY = [
    KEPT, NO_NUMBER, ZEROS, PADDED, BEHIND, SECOND, OTHER, UNREAD, FRONT, OUTSIDE, SENT_PAST, NO_ROOM, HOME_FULL, HOME_EMPTY]


# ---- weights

def is_weight(segment):
    """A gross weight in kilograms."""
    return segment.tag == 'MEA' and (segment.value(2, 1), segment.value(3, 1)) == ('G', 'KGM')


def weights_in(segments):
    """All gross weights in kilograms that stand there."""
    return [segment.value(3, 2) for segment in segments if is_weight(segment)]


def kinds_in(group):
    """What a group says of weights, to an order that reads them."""
    measures, weights = [segment for segment in group if segment.tag == 'MEA'], weights_in(group)
    if not weights:
        return {OTHER} if measures else set()
    is_number, kept = are_digits(weights[0], 1, 6), kilos_in(group)
    kinds = {
        KEPT: kept > 0, NO_NUMBER: not is_number, ZEROS: is_number and kept == 0,
        PADDED: kept > 0 and weights[0].startswith('0'), BEHIND: kept > 0 and not is_weight(measures[0]),
        SECOND: len(weights) > 1}
    return {kind for kind, comes in kinds.items() if comes}


def count_weights(counted, message, name):
    """What a message without fault, of orders of that name, says of weights."""
    front, grouped = header_of(message), sum(groups_of(message), [])
    counted[FRONT] += len(weights_in(front))
    counted[OUTSIDE] += len(weights_in(message)) - len(weights_in(front)) - len(weights_in(grouped))
    for group in container_groups(message):
        counted.update(kinds_in(group) if name in READ_WEIGHT else {UNREAD} if weights_in(group) else set())


# ---- the yard

class Watched(Terminal):
    """A terminal that counts, by the yard before each order."""

    def __init__(self, setup, counted):
        super().__init__(setup.plan, setup.most_visits)
        self.counted = counted

    def enter(self, entry, order):
        """A full container that names no slot, beside an empty one of its length."""
        if order.is_full and order.slot is None and len(self.visits) < self.most_visits:
            slots = [first_slot(self.plan, self.yard, length_of(order.size_type), is_full) for is_full in (True, False)]
            self.counted[SENT_PAST] += None not in slots and slots[0] != slots[1]
            self.counted[NO_ROOM] += slots[0] is None and slots[1] is not None
        return super().enter(entry, order)

    def move(self, source, order):
        """A container that is moved to its own slot."""
        place, outcome = self.yard.get(order.number), super().move(source, order)
        if outcome['outcome'] == 'done' and place.slot == order.slot:
            others = {number: other for number, other in self.yard.items() if number != order.number}
            self.counted[HOME_FULL if place.is_full else HOME_EMPTY] += 1
            self.counted[HOME_ABOVE] += place.is_full and rests_on_empty(others, place)
        return outcome


class Counting(Fold):
    """A fold that counts what it takes."""

    def __init__(self, setup):
        super().__init__(setup)
        self.counted = Counter()
        self.terminal = Watched(setup, self.counted)

    def take(self, partner, number, text, rules):
        """Counts the weights of its messages, and takes it."""
        may_order = orders_of(self.setup, self.setup.partners[partner])
        for message in messages_of(text):
            if message_fault(message, may_order, rules) is None:
                count_weights(self.counted, message, may_order[type_of(message), code_of(message)])
        super().take(partner, number, text, rules)


def counting(setup):
    """An office that counts what it takes as it takes it, in `kept.counted`."""
    office = Office(setup, keeps_fold=True)
    office.kept = Counting(setup)
    return office


def counted_in(setup, deliveries):
    """How often each came, as the texts of a list of deliveries were taken."""
    fold = Counting(setup)
    fold.take_all(order(deliveries), deliveries, newest)
    return +fold.counted
