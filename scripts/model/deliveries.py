"""The words of the headline, which look back over the whole list of deliveries: crates/partner_core/README.md.

There is no next number and no text that waits: each word is computed from the list anew.
"""
from collections import namedtuple

# a text that was delivered and admitted, with its partner and its number
Delivery = namedtuple('Delivery', 'partner number text')


def first_text(deliveries, partner, number):
    """The earliest text delivered under a partner's number, or None. Such a number is used."""
    for delivery in deliveries:
        if (delivery.partner, delivery.number) == (partner, number):
            return delivery.text
    return None


def kept(deliveries):
    """The first delivery under each number, in the order in which they came: each whose number was free by then. Those that
    wait are among them; a repeat or a clash adds none.
    """
    return [
        delivery for place, delivery in enumerate(deliveries)
        if first_text(deliveries[:place], delivery.partner, delivery.number) is None]


def kept_texts(deliveries):
    """The texts of these."""
    return [delivery.text for delivery in kept(deliveries)]


def run(deliveries, partner):
    """The greatest number such that each number from 1 to it is used."""
    used = {delivery.number for delivery in deliveries if delivery.partner == partner}
    greatest = 0
    while greatest + 1 in used:
        greatest += 1
    return greatest


def made_next(before, delivery):
    """Partner and number of each text that becomes next by a delivery: it makes its partner's run longer by them."""
    partner = delivery.partner
    old, new = run(before, partner), run(before + [delivery], partner)
    return [(partner, number) for number in range(old + 1, new + 1)]


def order(deliveries):
    """Partner and number of each text that is taken, as each became next."""
    pairs = []
    for place, delivery in enumerate(deliveries):
        pairs += made_next(deliveries[:place], delivery)
    return pairs


def answer_of(before, delivery, reply_of):
    """What is told of a delivery after those before it, without number and partner. `reply_of` gives the reply to a
    partner's number after a list of deliveries."""
    partner, number, text = delivery
    after = before + [delivery]
    if first_text(before, partner, number) not in (None, text):
        return dict(answer='clash')
    if number <= run(before, partner):
        return dict(answer='repeat', reply=reply_of(before, partner, number))
    if number <= run(after, partner):
        return dict(answer='taken', reply=reply_of(after, partner, number))
    return dict(answer='waiting', next=run(before, partner) + 1)
