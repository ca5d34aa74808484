"""What happens to an office, in turn: texts are delivered, accounts are added, its store is brought to the newest version.

crates/office_admission/README.md. The words look back over the whole list: the accounts so far, and the deliveries, each
admitted or refused by the accounts that stood as it came.
"""
from collections import namedtuple

from .deliveries import Delivery
from .setup import KINDS, is_code
from .syntax import FAULTS, fault_of, number_of, recipient_of, sender_of

Delivered = namedtuple('Delivered', 'text')
Added = namedtuple('Added', 'code kind')            # as they came, of whatever form
Migrated = namedtuple('Migrated', 'version')        # the version that the store had

MOST_ACCOUNTS = 999
NAMES = [name for name, _applies in FAULTS]


# ---- accounts

def account_answer(setup, code, kind):
    """The answer to an addition, by the accounts that stand. They have the numbers 1, 2 and so on, and a new one has the
    next. The lowest fault: Partner is of the forms, Kind of an account of that code, Accounts of room for a new one."""
    codes = list(setup.partners)
    if not is_code(code) or kind not in KINDS:
        return dict(answer='refused', fault='Partner')
    if code in codes and setup.partners[code] != kind:
        return dict(answer='refused', fault='Kind')
    if code in codes:
        return dict(answer='known', id=codes.index(code) + 1, partner=code)
    if len(codes) >= MOST_ACCOUNTS:
        return dict(answer='refused', fault='Accounts')
    return dict(answer='added', id=len(codes) + 1, partner=code)


def setup_with(setup, event):
    """The set-up after an event: with one account more where one was added."""
    if not isinstance(event, Added) or account_answer(setup, event.code, event.kind)['answer'] != 'added':
        return setup
    return setup._replace(partners=dict(setup.partners, **{event.code: event.kind}))


def setup_after(opening, events):
    """The set-up with the accounts so far."""
    for event in events:
        opening = setup_with(opening, event)
    return opening


# ---- admission

def refusal(setup, text):
    """Why a text is not admitted, the first that applies: one of the fifteen faults, then UnknownSender, then
    WrongRecipient; or None. Sender and recipient are compared by 0004 and 0010 alone (own)."""
    fault = fault_of(text)
    if fault:
        return fault
    if sender_of(text) not in setup.partners:
        return 'UnknownSender'
    return None if recipient_of(text) == setup.terminal else 'WrongRecipient'


def as_delivery(text):
    """The delivery that an admitted text is."""
    return Delivery(sender_of(text), number_of(text), text)


def delivery_of(setup, event):
    """The delivery that an event is, or None: of texts, those that are admitted are one."""
    is_admitted = isinstance(event, Delivered) and refusal(setup, event.text) is None
    return as_delivery(event.text) if is_admitted else None


def deliveries_of(opening, events):
    """What was delivered and admitted, each text by the accounts that stood as it came. So one of a sender that is added
    later stays none."""
    found = [delivery_of(setup_after(opening, events[:place]), event) for place, event in enumerate(events)]
    return [delivery for delivery in found if delivery]


# ---- versions

def migration_in(events):
    """The first migration and the events before it; None and all events where there is none."""
    for place, event in enumerate(events):
        if isinstance(event, Migrated):
            return event, events[:place]
    return None, events
