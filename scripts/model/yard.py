"""The yard (own): crates/yard_core/README.md.

A plan is a list of blocks. A yard is a dict from each container's number to its place: its length (20 or 40), its slot
and whether it is full. All is decided by the cells of all containers.
"""
from collections import namedtuple

from .names import Slot

# `bays` is the number of odd bays: 1, 3 and so on to 2 * bays - 1
Block = namedtuple('Block', 'letter bays rows tiers')
Place = namedtuple('Place', 'length slot is_full')


def slots(plan):
    """All slots of a plan, by tier, block letter, bay and row."""
    every = [
        Slot(block.letter, bay, row, tier)
        for block in plan
        for bay in range(1, 2 * block.bays)
        for row in range(1, block.rows + 1)
        for tier in range(1, block.tiers + 1)]
    return sorted(every, key=lambda slot: (slot.tier, slot.block, slot.bay, slot.row))


def is_in_plan(plan, slot):
    """Its block is there, its bay is from 1 to the last odd bay, its row and its tier are the block's."""
    return any(
        slot.block == block.letter and 1 <= slot.bay <= 2 * block.bays - 1
        and 1 <= slot.row <= block.rows and 1 <= slot.tier <= block.tiers for block in plan)


def cells(place):
    """A twenty in an odd bay covers that cell. A forty in an even bay covers those of the two odd bays beside it."""
    if place.length == 20:
        return [place.slot]
    return [place.slot._replace(bay=place.slot.bay - 1), place.slot._replace(bay=place.slot.bay + 1)]


def is_of_kind(place):
    """An odd bay is a twenty's, an even one a forty's."""
    return (place.slot.bay % 2 == 1) == (place.length == 20)


def covered(yard):
    """All cells that a container covers."""
    return [cell for place in yard.values() for cell in cells(place)]


def standing_in(yard, length, slot):
    """The containers of that length in a slot. In a sound yard there is one at most."""
    return [place for place in yard.values() if (place.length, place.slot) == (length, slot)]


def carriers(yard, place):
    """What carries it above tier 1: a twenty stands on the twenty below, a forty on a forty of its own bay or on two
    twenties, one in each of its bays. None where there is only air."""
    below = place._replace(slot=place.slot._replace(tier=place.slot.tier - 1))
    alike = standing_in(yard, below.length, below.slot)
    twenties = [standing_in(yard, 20, cell) for cell in cells(below)]
    return alike or (sum(twenties, []) if all(twenties) else [])


def is_carried(yard, place):
    """In tier 1 it stands on the ground."""
    return place.slot.tier == 1 or bool(carriers(yard, place))


def rests_on_empty(yard, place):
    """One that carries it is empty; of two twenties, either."""
    return place.slot.tier > 1 and any(not carrier.is_full for carrier in carriers(yard, place))


def misfit(plan, yard, place, is_wary):
    """Why one container more would not fit there, the first reason that applies, or None where it fits: the slot is not
    in the plan; it is of the other kind; a cell of it is covered; nothing carries it; it is wary, and one that carries it
    is empty. A full container is wary, but not of the slot in which it stands, nor where it is put back."""
    if not is_in_plan(plan, place.slot):
        return 'NoSlot'
    if not is_of_kind(place):
        return 'SlotKind'
    if any(cell in covered(yard) for cell in cells(place)):
        return 'Taken'
    if not is_carried(yard, place):
        return 'OnAir'
    return 'OnEmpty' if is_wary and rests_on_empty(yard, place) else None


def first_slot(plan, yard, length, is_wary):
    """The first of the plan's slots that fits, or None."""
    for slot in slots(plan):
        if misfit(plan, yard, Place(length, slot, is_wary), is_wary) is None:
            return slot
    return None


def shift_misfit(plan, yard, number, slot, spares_empty=True):
    """Why a container of the yard does not fit in another slot of the yard without it, or None where it does. Where it
    stands it may stay. Where empty ones are spared a full one is wary."""
    place = yard[number]
    others = {other: standing for other, standing in yard.items() if other != number}
    is_wary = spares_empty and place.is_full and slot != place.slot
    return misfit(plan, others, place._replace(slot=slot), is_wary)


def is_sound(plan, yard):
    """Each container stands in a slot of the plan, of its kind and carried, and no cell is covered twice. What is full or
    empty makes no difference: where a full one stands on an empty one, both stay."""
    every = covered(yard)
    return len(every) == len(set(every)) and all(
        is_in_plan(plan, place.slot) and is_of_kind(place) and is_carried(yard, place) for place in yard.values())


def blocker(yard, number):
    """The container that covers a cell directly above one of a container's cells, or None where it is free to move."""
    above = [cell._replace(tier=cell.tier + 1) for cell in cells(yard[number])]
    for other, place in yard.items():
        if any(cell in above for cell in cells(place)):
            return other
    return None
