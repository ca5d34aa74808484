"""The office: what taking a text does, and the answers to a delivery and to the addition of an account.

crates/office/README.md and crates/partner_core/README.md. An answer is a line of JSON, compact, its keys in order.
"""
import json

from .contrl import acknowledgement, rejection
from .deliveries import answer_of, first_text, made_next, order
from .events import (
    NAMES, Added, Delivered, Migrated, account_answer, as_delivery, deliveries_of, delivery_of, migration_in, refusal,
    setup_after, setup_with)
from .messages import lines_of, list_replaced, message_fault
from .naming import lists_named
from .register import EMPTY, archive_of
from .rules import NEWEST, RULES
from .setup import DEMO, orders_of
from .syntax import BREAKS, messages_of, moment_of_header, number_of, sender_of
from .terminal import Terminal

# the faults before Test: no CONTRL answers them
WITHOUT_CONTRL = NAMES[:NAMES.index('Test')]


# ---- refusals

def refused(setup, text, fault):
    """A refusal carries a CONTRL where the header could be read and the sender has an account."""
    answer = dict(answer='refused', fault=fault)
    if fault not in WITHOUT_CONTRL and sender_of(text) in setup.partners:
        answer['contrl'] = rejection(text, fault)
    return answer


# ---- taking

class Fold:
    """The terminal after the texts of an order were taken one after the other, and the reply to each by its partner
    and number."""

    def __init__(self, setup):
        self.setup, self.replies = setup, {}
        self.terminal = Terminal(setup.plan, setup.most_visits)

    def take(self, partner, number, text, rules):
        """Its messages in order and each message's lines in order. The reply is the CONTRL and what became of each
        line. A message with a fault gives no orders and drops no list, and the other messages do. One that replaces a list
        drops it first."""
        faults, reports = [], []
        self.terminal.rules = rules
        may_order = orders_of(self.setup, self.setup.partners[partner])
        for message in messages_of(text):
            fault = message_fault(message, may_order, rules)
            faults.append(fault)
            if fault:
                report = dict(fault=fault, result='rejected')
            else:
                report = self.replaced(list_replaced(message, may_order))
                lines = lines_of(message, may_order, moment_of_header(text), rules)
                report.update(lines=self.outcomes(lines, (partner, number)), result='accepted')
            reports.append(dict(report, reference=message[0].value(1)))
        contrl = acknowledgement(text, messages_of(text), faults)
        self.replies[partner, number] = dict(contrl=contrl, messages=reports)

    def replaced(self, list_of):
        """How many lines were dropped of the list that a message replaces: told if it replaces one, and only then."""
        return {} if list_of is None else dict(dropped=self.terminal.drop_open(*list_of))

    def outcomes(self, lines, source):
        """What became of each line, from 1 on. A line with a fault gives no order."""
        outcomes = []
        for place, line in enumerate(lines):
            if line.fault:
                outcome = dict(outcome='refused', reason=line.fault)
            else:
                outcome = self.terminal.step(source, line.order)
            if line.number:
                outcome['box'] = line.number
            outcomes.append(dict(outcome, line=place + 1))
        return outcomes

    def take_all(self, pairs, deliveries, rules_of):
        """The first texts under these partners and numbers, in turn, each by the rules of its pair."""
        for partner, number in pairs:
            self.take(partner, number, first_text(deliveries, partner, number), rules_of(partner, number))


def newest(_partner, _number):
    """The rules of the newest version, for each pair of partner and number."""
    return RULES[NEWEST]


def rules_by_place(opening, version, events):
    """The rules by which each pair is taken, as a function: what became next before the migration by those of the version
    that the store then had, and all else by those of the version that it has."""
    migration, before = migration_in(events)
    pairs = order(deliveries_of(opening, before)) if migration else []
    return lambda partner, number: RULES[migration.version if (partner, number) in pairs else version]


def fold_of(setup, deliveries, rules_of):
    """The fold over the whole order, from an empty terminal on."""
    fold = Fold(setup)
    fold.take_all(order(deliveries), deliveries, rules_of)
    return fold


# ---- answers

class Office:
    """The set-up with which it was opened, and all that happened to it since: texts that were delivered, admitted or not,
    accounts that were added, and the migration of its store. Each answer is computed from these alone, anew. `version` is
    that of its store. A closing is no event: `register` says what is closed, `gone` has the numbers of the visits that went
    from the store, `away` the calls and sides of the lists that did and were not brought back, `archives` are the offices that its
    archives are, and `lost` is what is said of one that can't be asked, both by place; of that these are `told_still`, accounts
    with numbers.

    For long streams that is too slow: 300 deliveries would take the first of them 300 times. There an office is made
    with `keeps_fold`, and keeps what was admitted and the fold of the order so far: the order after one delivery more begins
    with the order before it, no reply changes once it was given, and an account more changes neither. First texts and runs
    are computed anew all the same.
    """

    def __init__(self, opening=DEMO, keeps_fold=False, version=NEWEST):
        self.opening, self.events, self.version = opening, [], version
        self.kept, self.admitted = Fold(opening) if keeps_fold else None, []
        self.register, self.gone, self.away, self.archives, self.lost = EMPTY, frozenset(), frozenset(), {}, {}
        self.told_still = frozenset()

    @property
    def setup(self):
        """The set-up with the accounts so far."""
        return self.kept.setup if self.kept else setup_after(self.opening, self.events)

    @property
    def deliveries(self):
        """What was delivered so far and admitted as it came."""
        return self.admitted if self.kept else deliveries_of(self.opening, self.events)

    def fold(self):
        """Terminal and replies after what was delivered so far."""
        return self.kept or self.fold_after(self.deliveries)

    def fold_after(self, deliveries):
        """The fold of a list of deliveries: by the accounts so far, and by the rules of each pair."""
        return fold_of(self.setup, deliveries, rules_by_place(self.opening, self.version, self.events))

    def reply_of(self, deliveries, partner, number):
        """The reply to a partner's number, which is within its run, after a list of deliveries."""
        fold = self.kept or self.fold_after(deliveries)
        return fold.replies[partner, number]

    def happens(self, event):
        """An event more."""
        if self.kept:
            self.keep(event)
        self.events.append(event)

    def keep(self, event):
        """What is kept, with an event more."""
        delivery, before = delivery_of(self.kept.setup, event), self.admitted
        self.kept.setup = setup_with(self.kept.setup, event)
        if delivery:
            self.admitted = before + [delivery]
            rules = RULES[self.version]
            self.kept.take_all(made_next(before, delivery), self.admitted, lambda _partner, _number: rules)

    def answer(self, delivered):
        """The answer to a delivery, as a dict. CR and LF at both ends are no part of the text (own). One that is refused
        keeps nothing, and neither does one whose number only an archive could answer that can't be asked. The lists that an
        admitted one names are brought back, unless its number is closed."""
        event, setup, before = Delivered(delivered.strip(BREAKS)), self.setup, self.deliveries
        fault = refusal(setup, event.text)
        if not fault and self.is_lost(sender_of(event.text), number_of(event.text)):
            return dict(answer='not now')
        self.brings_back(self.lists_away_in(event.text))
        self.happens(event)
        if fault:
            return refused(setup, event.text, fault)
        delivery = as_delivery(event.text)
        answer = answer_of(before, delivery, self.reply_of)
        return dict(answer, number=delivery.number, partner=delivery.partner)

    def add_account(self, code, kind):
        """The answer to the addition of an account, as a dict."""
        answer = account_answer(self.setup, code, kind)
        self.happens(Added(code, kind))
        return answer

    def archive_of(self, partner, number):
        """The place of the archive that keeps a number; None, if it is not closed."""
        known = list(self.setup.partners)
        return archive_of(self.register, known.index(partner) + 1, number) if partner in known else None

    def lists_away_in(self, text):
        """The lists that are away and that a text names, each once, in its order; none, if it is not admitted, or its number is
        closed."""
        if not self.away or refusal(self.setup, text) or self.archive_of(sender_of(text), number_of(text)) is not None:
            return []
        return [name for name in dict.fromkeys(lists_named(self.setup, text)) if name in self.away]

    def brings_back(self, names):
        """These lists stand in its store again."""
        self.away = self.away - set(names)

    def is_lost(self, partner, number):
        """Whether the archive that keeps a number can't be asked for it."""
        return self.archive_of(partner, number) in self.lost and (partner, number) not in self.told_still

    @property
    def first_lost(self):
        """The place of the first of its archives that can't be asked; None, if all can."""
        return min((archive.place for archive in self.register.archives if archive.place in self.lost), default=None)

    def migrate(self):
        """Its store is brought to the newest version."""
        self.happens(Migrated(self.version))
        self.version = NEWEST


def json_text(value):
    """Compact, keys in order, as `serde_json` writes it."""
    return json.dumps(value, sort_keys=True, separators=(',', ':'), ensure_ascii=False)
