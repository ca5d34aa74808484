"""A block that is filled to its last slot, two tiers of it that go and come again, and a long list that is put away:
scripts/beside.

The model goes through all containers for each slot, which is too slow for so many. So what is wanted is counted here: slots in
the order in which they are tried, by tier, bay and row.

In the second store another hand empties the lower tier, as in `crowded.py`; so each full container above stands on an empty one.
"""
import json
import os
import sqlite3
import tempfile
from contextlib import closing

from .asking import container
from .names import Slot, slot_text
from .rows import copy_files
from .setup import DEMO
from .setups import files_of
from .stores import Program
from .yard import Block

BAYS, ROWS, TIERS = 40, 12, 6
TIER = BAYS * ROWS
LINES = 2 * TIER            # of a message
ROUNDS = 3                  # in which the upper tier goes and comes
LONGEST_LIST = 999
IN, OUT = '34', '36'
FULL, EMPTY = '5', '4'


def slot_of(serial):
    """The name of the slot that is tried after so many others."""
    return slot_text(Slot('K', 2 * (serial % TIER // ROWS) + 1, serial % ROWS + 1, serial // TIER + 1))


def interchange(sender, number, kind, segments):
    """One message of that type."""
    return "UNB+UNOA:3+%s+TERM1+240305:0910+%d'UNH+1+%s:D:95B:UN'%sUNT+%d+1'UNZ+1+%d'" % (
        sender, number, kind, ''.join(segments), len(segments) + 2, number)


def gate(number, code, serials, size='22G1', load=FULL):
    """An order at the gate for each of these containers."""
    groups = ["EQD+CN+%s+%s+++%s'" % (container(serial), size, load) for serial in serials]
    return interchange('HAULA', number, 'CODECO', ["BGM+%s'" % code, *groups])


def vessel(sender, kind, code, serials):
    """The list of a vessel's discharges, or what was discharged."""
    groups = ["EQD+CN+%s+22G1'" % container(serial) for serial in serials]
    return interchange(sender, 1, kind, ["BGM+%s'" % code, "TDT+20+V12++++++9123456'", *groups])


def outcomes(given):
    """What came of each line of an interchange: its slot, the reason for which it is refused, or its outcome."""
    lines = json.loads(given[0])['reply']['messages'][0]['lines']
    return [line.get('slot') or line.get('reason') or line['outcome'] for line in lines]


class Room:
    """A store of one block of so many tiers, with the number of the last interchange."""

    def __init__(self, beside, folder, tiers):
        self.beside, self.program, self.number, self.name = beside, Program(beside.path, folder), 0, 'a block of %d tiers' % tiers
        self.program.init(*files_of(DEMO._replace(plan=[Block('K', BAYS, ROWS, tiers)], most_visits=100_000)))

    def ordered(self, code, serials, wanted, **of_all):
        """An interchange, and what has to come of each line."""
        self.number += 1
        got = outcomes(self.program.deliver(gate(self.number, code, serials, **of_all)))
        self.beside.expect('full blocks', '%s, number %d' % (self.name, self.number), wanted, got)

    def changed(self, statement):
        """What another hand does to the store."""
        with closing(sqlite3.connect(self.program.store)) as store:
            store.execute(statement)
            store.commit()

    def reported(self, wanted):
        """The report of the yard."""
        self.beside.expect('full blocks', self.name + ', the yard', wanted, self.program.report('yard', ''))


def yard(slots, load):
    """The report of a yard with these containers, by their slots."""
    lines = ['%s %s 22G1 %s' % (slot, container(serial), load(serial)) for slot, serial in sorted(slots)]
    return '\n'.join(['YARD', *lines, '%d CONTAINERS\n' % len(lines)]), '', 0


def try_filled(beside):
    """Each slot is taken, and then there is no room, for a full container or an empty forty."""
    with tempfile.TemporaryDirectory(prefix='beside-') as folder:
        room, count = Room(beside, folder, TIERS), TIER * TIERS
        for first in range(0, count, LINES):
            serials = range(first, first + LINES)
            room.ordered(IN, serials, [slot_of(serial) for serial in serials])
        room.reported(yard([(slot_of(serial), serial) for serial in range(count)], lambda serial: 'FULL'))
        room.ordered(IN, [count], ['NoRoom'])
        room.ordered(IN, [count], ['NoRoom'], size='42G1', load=EMPTY)


def try_turned(beside):
    """The upper tier goes and comes again: full ones find no room above empty ones, empty ones do, in the order of the slots."""
    lower, upper = range(TIER), range(TIER, 2 * TIER)
    with tempfile.TemporaryDirectory(prefix='beside-') as folder:
        room = Room(beside, folder, 2)
        room.ordered(IN, range(LINES), [slot_of(serial) for serial in range(LINES)])
        room.changed('UPDATE visit SET laden = 0 WHERE visit <= %d' % TIER)
        stand = [(slot_of(serial), serial) for serial in (*lower, *upper)]
        room.reported(yard(stand, lambda serial: 'EMPTY' if serial in lower else 'FULL'))
        for _round in range(ROUNDS):
            room.ordered(OUT, upper, ['gone'] * TIER)
            room.ordered(IN, upper, ['NoRoom'] * TIER)
            room.ordered(IN, upper, [slot_of(serial) for serial in upper], load=EMPTY)
        room.reported(yard(stand, lambda serial: 'EMPTY'))
        with closing(sqlite3.connect(room.program.store)) as store:
            visits = store.execute('SELECT count(*), max(visit) FROM visit').fetchone()
        beside.expect('full blocks', room.name + ', the visits', (LINES + ROUNDS * TIER,) * 2, visits)
        room.changed("DELETE FROM place WHERE slot = '%s'" % slot_of(LINES - 1))
        room.reported(('', 'store: Damaged\n', 3))


def try_put_away(beside):
    """The longest list, done to its last line, is put away by a closing, and is reported as before."""
    with tempfile.TemporaryDirectory(prefix='beside-') as folder:
        room, serials = Room(beside, folder, TIERS), range(LONGEST_LIST)
        program, archive = room.program, os.path.join(folder, 'archive.db')
        for text in (vessel('LINEA', 'COPRAR', '43', serials), vessel('QUAY1', 'COARRI', '44', serials)):
            program.deliver(text)
        lines = ''.join('%s DONE\n' % number for number in sorted(map(container, serials)))
        wanted = 'DISCHARGE LIST 9123456 V12\n%s0 OPEN %d DONE\n' % (lines, LONGEST_LIST), '', 0
        beside.expect('full blocks', 'a long list', wanted, program.report('list', '9123456/V12/discharge'))
        copy_files(program.store, archive)
        beside.expect('full blocks', 'a closing', ('ready\n', '', 0), program.close(archive))
        beside.expect('full blocks', 'the calls', ('ARCHIVES 1\n', '', 0), program.report('calls', ''))
        beside.expect('full blocks', 'a list that is away', wanted, program.report('list', '9123456/V12/discharge'))


def try_all(beside):
    """All three."""
    try_filled(beside)
    try_turned(beside)
    try_put_away(beside)
