"""The lists of vessels that a text names: those that it adds lines to, loads or discharges by, or replaces.

A list goes by its call (vessel and voyage) and its side.
"""
from .messages import call_of, code_of, message_fault, type_of
from .rules import NEWEST, RULES
from .setup import orders_of
from .syntax import messages_of, sender_of
from .terminal import SIDES as SIDES_OF_ORDERS

# as the rows have them
SIDES = {'load': 1, 'discharge': 2}


def lists_named(setup, text):
    """The lists that an interchange names, in the order of its messages. A message of a list, of loads or of discharges names
    that of its call; any other, or one that is rejected, none."""
    may_order, found = orders_of(setup, setup.partners[sender_of(text)]), []
    for message in messages_of(text):
        if message_fault(message, may_order, RULES[NEWEST]) is None:
            order = may_order[type_of(message), code_of(message)]
            found += [(call_of(message), SIDES_OF_ORDERS[order])] if order in SIDES_OF_ORDERS else []
    return found
