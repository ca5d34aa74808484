"""A lost store: a copy of it is put back, and partners send again what came since. How many containers then stand elsewhere than
the first replies told, so than where they are.

By sending again alone some do, since the order across partners is another one. None does where the texts of the old store are
delivered in their order: to the copy, by a pipe or by office-follow; at a standby that had followed; or to a new store.
"""
import os
import random
import tempfile

from hostile.books import Book, Different, expect, naming
from hostile.served import gate_in, gate_out
from model.asking import container
from hostile.working import run
from model.office import Office, json_text
from model.rows import rows_in
from model.setup import read_setup

from .follow import Standby
from .offices import Made, are_same

PARTNERS = 'what,name,value\nterminal,TERM1,\n' + ''.join('partner,HAUL%s,gate\n' % letter for letter in 'ABCD')
BLOCKS = 'block,bays,rows,tiers\nA,4,4,3\nB,4,4,3\n'
SENDERS = ['HAUL' + letter for letter in 'ABCD']
TEXTS = 90
OUT = 0.25                  # of the texts: a gate-out of a container that its sender brought
DRILLS_EVERY = 3            # lists for a drill


class First(Book):
    """A first office of four hauliers, and all that they send, each in the order of its numbers."""

    def __init__(self, program, folder, seed):      # pylint: disable=super-init-not-called
        self.program, self.folder, self.seed, self.chance = program, folder, seed, random.Random('drill %d' % seed)
        self.store = os.path.join(folder, 'office.db')
        self.files = [self.file('partners.csv', PARTNERS), self.file('blocks.csv', BLOCKS)]
        self.office = Office(read_setup(PARTNERS, BLOCKS)[0], keeps_fold=True)
        expect('init', ('ready\n', '', 0), run(program, 'init', self.store, *self.files))
        self.sent = list(self.texts())

    def texts(self):
        """Gate-ins and gate-outs of the four in mixed order."""
        numbers, brought = dict.fromkeys(SENDERS, 0), {sender: [] for sender in SENDERS}
        for serial in range(TEXTS):
            sender = self.chance.choice(SENDERS)
            numbers[sender] += 1
            if brought[sender] and self.chance.random() < OUT:
                yield sender, gate_out(numbers[sender], sender, brought[sender].pop(0))
            else:
                brought[sender].append(container(serial))
                yield sender, gate_in(numbers[sender], sender, serial)


def delivered(office, texts, status=0):
    """Texts by one `deliver`, with the answers of the model; gives the lines."""
    wanted = ''.join(json_text(office.office.answer(text)) + '\n' for text in texts), '', status
    got = run(office.program, 'deliver', office.store, office.file('sent.edi', ''.join(texts)))
    expect('deliver', wanted, got)
    return got[0].splitlines()


def slots(office):
    """Where each container stands."""
    lines = run(office.program, 'report', office.store, 'yardcsv')[0].splitlines()[1:]
    return {line.split(',')[1]: line.split(',')[0] for line in lines}


def moved(office, before):
    """How many containers stand elsewhere than before, or in the yard where they weren't or the other way round: what left may be
    refused another time, under a container that stands on it."""
    after = slots(office)
    return sum(after.get(each) != before.get(each) for each in {*before, *after})


def drill(program, seed, counted):
    """A first office that is lost after 90 texts, of which a copy was made on the way."""
    with tempfile.TemporaryDirectory(prefix='journal-') as folder:
        first, copied_at = First(program, folder, seed), random.Random(seed).randint(20, 60)
        texts = [text for _sender, text in first.sent]
        delivered(first, texts[:copied_at])
        with tempfile.TemporaryDirectory(prefix='journal-') as kept:
            copy = Made(first, kept).begun_as(first.store, first.office)
            lines = delivered(first, texts[copied_at:])
            stood = slots(first)
            counted['containers that stood in the yard'] += len(stood)
            counted['texts that came behind the copy'] += len(lines)
            sent_again(first, copy, stood, copied_at, counted)
            in_their_order(first, copy, stood, copied_at, counted)
        stands_by(first, stood, texts, counted)
    counted['drills'] += 1


def sent_again(first, copy, stood, copied_at, counted):
    """The copy is put back, and partners send again from their next number on: one after the other, or in turns."""
    rest = first.sent[copied_at:]
    for way in ('one after the other', 'in turns'):
        with tempfile.TemporaryDirectory(prefix='journal-') as folder:
            back = Made(first, folder).begun_as(copy.store, copy.office)
            queues = [[text for by, text in rest if by == sender] for sender in first.chance.sample(SENDERS, len(SENDERS))]
            order = [text for queue in queues for text in queue]
            if way == 'in turns':
                order = [queue[place] for place in range(len(rest)) for queue in queues if place < len(queue)]
            delivered(back, order)
            counted['moved, sent again %s' % way] += moved(back, stood)


def in_their_order(first, copy, stood, copied_at, counted):
    """The copy is put back, and gets the texts of the old store, which can be read, by a pipe or by office-follow. Then partners
    send all again, and get the replies that they got. No container moves."""
    for way in ('by a pipe', 'by office-follow', 'to a new store'):
        with tempfile.TemporaryDirectory(prefix='journal-') as folder:
            back = Standby(first, folder)
            if way == 'to a new store':
                back.init().takes_texts_of(first)
            elif way == 'by a pipe':
                back.begun_as(copy.store, copy.office).takes_texts_of(first, copied_at)
            else:
                back.begun_as(copy.store, copy.office).whole_turn()
            counted['moved, %s' % way] += moved(back, stood)
            expect('moved, %s' % way, 0, moved(back, stood))
            are_same(first, back)
            delivered(back, [text for _sender, text in first.sent])
            expect('the rows, all sent again', rows_in(first.store), rows_in(back.store))


def stands_by(first, stood, texts, counted):
    """A standby that has followed to the end, or but for the last three texts: of the first nothing can be read, and partners
    send again what the standby has not."""
    for missing in (0, 3):
        with tempfile.TemporaryDirectory(prefix='journal-') as folder, tempfile.TemporaryDirectory(prefix='journal-') as other:
            before = Made(first, other)
            expect('init', ('ready\n', '', 0), run(before.program, 'init', before.store, *before.files))
            delivered(before, texts[:TEXTS - missing])
            standby = Standby(before, folder).init()
            standby.whole_turn()
            again = sorted(first.sent[TEXTS - missing:], key=lambda pair: pair[0], reverse=True)
            delivered(standby, [text for _sender, text in again])
            counted['moved, at a standby without the last %d texts' % missing] += moved(standby, stood)
            if missing == 0:
                expect('moved, at a standby', 0, moved(standby, stood))
                expect('the rows', rows_in(first.store), rows_in(standby.store))


def try_all(program, lists, seed, counted):
    """Drills, one for so many lists."""
    for each in range(seed, seed + -(-lists // DRILLS_EVERY)):
        with naming('seed %d' % each):
            drill(program, each, counted)
    if counted['moved, sent again one after the other'] == 0:
        raise Different('no container moved, so that nothing was tried')
