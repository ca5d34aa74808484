"""A crowded yard: two blocks, and orders for sixty-four containers drawn at random, most of them for slots of the plan, a
third of the containers empty. The program answers each as the model does, which goes through all containers at each.

After the first half of the orders another hand empties some of the containers that others stand on, in the store and in
the model. So full ones stand on empty ones, as they do in a yard of times when that was allowed.
"""
import random
import sqlite3
import tempfile
from collections import Counter

from . import counts
from .asking import container
from .names import Slot, slot_text
from .office import Office
from .setup import DEMO
from .setups import files_of
from .stores import Program
from .stream import answers
from .yard import Block, carriers, rests_on_empty

SETUP = DEMO._replace(
    partners={'HAULA': 'gate', 'YARD1': 'yard'},
    plan=[Block('C', bays=4, rows=2, tiers=3), Block('B', bays=2, rows=2, tiers=3)])
STREAMS, ORDERS, CONTAINERS = 14, 600, 64
CODES = [(6, '34'), (1, 'first'), (3, '36'), (6, 'YMV')]    # one in sixteen comes to the first slot that fits
ASKED_AGAIN = 0.5           # of the moves: of a container to the slot that was named for it last, where it may stand
EMPTIED = 0.7               # of those that carry a full one, by the other hand
TEXT = (
    "UNB+UNOA:3+%(sender)s+TERM1+240305:0910+%(number)d'UNH+1+CODECO:D:95B:UN'BGM+%(code)s'"
    "EQD+CN+%(box)s+%(size)s+++%(load)s'%(more)sUNT+%(count)d+1'UNZ+1+%(number)d'")


class Crowd:
    """The orders of one stream."""

    def __init__(self, seed):
        self.random, self.sent, self.asked = random.Random('crowded %d' % seed), {'HAULA': 0, 'YARD1': 0}, {}

    def slot(self, is_forty):
        """One of the plan's, or one time in eight one of another kind or next to the plan."""
        chance = self.random
        bay = chance.randrange(16) if chance.randrange(8) == 0 else 2 * chance.randrange(2) + (2 if is_forty else 1)
        tier = 1 + chance.randrange(2) + chance.randrange(2)
        return slot_text(Slot(chance.choice('BC'), bay, chance.randint(1, 2), tier))

    def move(self):
        """A container, its length, and where it is to go."""
        if self.asked and self.random.random() < ASKED_AGAIN:
            number = self.random.choice(sorted(self.asked))
            return number, False, self.asked[number]
        return self.named()

    def named(self):
        """A container, its length, and a slot that is named for it."""
        number, is_forty = self.random.randrange(CONTAINERS), self.random.randrange(4) == 0
        self.asked[number] = self.slot(is_forty)
        return number, is_forty, self.asked[number]

    def order(self):
        """A gate-in, a gate-out or a move."""
        chance = self.random
        code = chance.choices([code for _weight, code in CODES], [weight for weight, _code in CODES])[0]
        if code in ('34', 'YMV'):
            number, is_forty, slot = self.move() if code == 'YMV' else self.named()
            more = ['LOC+ZZZ+' + slot]
        else:
            number, is_forty, more = chance.randrange(CONTAINERS), chance.randrange(4) == 0, []
        more += ['MEA+AAE+G+KGM:%d' % chance.choice([0, 7, 24000, 999999, 1000000])] if chance.randrange(4) == 0 else []
        size, load = '42G1' if is_forty else '22G1', chance.choice('554')
        return self.text(code.replace('first', '34'), container(number), size, load, more)

    def text(self, code, box, size, load, more):
        """An interchange under its partner's next number."""
        sender = 'YARD1' if code == 'YMV' else 'HAULA'
        self.sent[sender] += 1
        return TEXT % {
            'sender': sender, 'number': self.sent[sender], 'code': code, 'box': box, 'size': size, 'load': load,
            'more': ''.join(segment + "'" for segment in more), 'count': 4 + len(more)}

    def orders(self, count):
        """A stream of so many."""
        return '\n'.join(self.order() for _order in range(count))

    def homes(self, terminal):
        """A stream of moves, each of a full container that rests on an empty one, to the slot in which it stands."""
        return '\n'.join(
            self.text('YMV', number, '', '', ['LOC+ZZZ+' + slot_text(place.slot)])
            for number, place in sorted(terminal.yard.items()) if place.is_full and rests_on_empty(terminal.yard, place))


# ---- another hand

def to_empty(terminal, chance):
    """The containers that another hand empties: most of the full ones that carry a full one."""
    yard = terminal.yard
    standing = {place.slot: number for number, place in yard.items()}
    carrying = {
        standing[carrier.slot] for place in yard.values() if place.is_full and place.slot.tier > 1
        for carrier in carriers(yard, place) if carrier.is_full}
    return [number for number in sorted(carrying) if chance.random() < EMPTIED]


def empty(terminal, numbers):
    """Empties them in the model: where they stand, and their open visits."""
    for number in numbers:
        terminal.yard[number] = terminal.yard[number]._replace(is_full=False)
    terminal.visits = [
        visit._replace(is_full=False) if visit.number in numbers and visit.exit is None else visit
        for visit in terminal.visits]


def empty_in(path, numbers):
    """Empties them in a store's file."""
    store = sqlite3.connect(path)
    store.executemany('UPDATE visit SET laden = 0 WHERE box = ? AND out_by = 0', [(number,) for number in numbers])
    store.commit()
    store.close()


# ---- trials

def new_office():
    """An office of the crowded yard, which counts what comes to it."""
    office = Office(SETUP, keeps_fold=True)
    office.kept = counts.Counting(SETUP)
    return office


def kinds_of(office, given):
    """How often what came that these streams are for."""
    reasons = Counter(
        line['reason'] for answer in given for message in answer['reply']['messages'] for line in message['lines']
        if line['outcome'] == 'refused')
    return {'refused ' + reason: reasons[reason] for reason in ('Buried', 'OnAir', 'OnEmpty', 'NoRoom')} | {
        kind: office.kept.counted[kind] for kind in (
            counts.KEPT, counts.SENT_PAST, counts.NO_ROOM, counts.HOME_FULL, counts.HOME_EMPTY, counts.HOME_ABOVE)}


def try_all(beside):
    """Each stream over a store of its own, with its rows and the yard after each half."""
    for seed in range(1, STREAMS + 1):
        name, crowd, office = 'crowded yard %d' % seed, Crowd(seed), new_office()
        with tempfile.TemporaryDirectory(prefix='beside-') as folder:
            program = Program(beside.path, folder)
            program.init(*files_of(SETUP))
            try_stream(beside, name, program, office, crowd.orders(ORDERS // 2))
            numbers = to_empty(office.kept.terminal, crowd.random)
            empty(office.kept.terminal, numbers)
            empty_in(program.store, numbers)
            homes = crowd.homes(office.kept.terminal)
            try_stream(beside, name + ', emptied', program, office, homes + '\n' + crowd.orders(ORDERS // 2))


def try_stream(beside, name, program, office, text):
    """A stream, the yard and the rows."""
    beside.deliver(name, program, office, text)
    beside.report(name, program, office, 'yard')
    beside.rows(name, program, office)


def count_all():
    """Prints how often what comes in these streams, by the model alone."""
    counted = Counter()
    for seed in range(1, STREAMS + 1):
        crowd, office = Crowd(seed), new_office()
        given = answers(office, crowd.orders(ORDERS // 2))
        empty(office.kept.terminal, to_empty(office.kept.terminal, crowd.random))
        given += answers(office, crowd.homes(office.kept.terminal)) + answers(office, crowd.orders(ORDERS // 2))
        counted.update(kinds_of(office, given))
    print('%d streams of %d orders on a crowded yard' % (STREAMS, ORDERS))
    for kind, count in sorted(counted.items()):
        print('%10d  %s' % (count, kind))
    never = [kind for kind, count in counted.items() if count == 0]
    print('never came: ' + (', '.join(never) or 'none'))
