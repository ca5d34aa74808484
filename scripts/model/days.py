"""Random streams, as for `office demo`: what comes in them, and how often.

A stream is made from its seed and the set-up alone. Partners send in turn by chance; each numbers its interchanges from
1 on, sends some again, some early, and some that are spoiled, which it then sends anew under the same number. Numbers
before each value in a table are its weight.
"""
import random
import re

from .asking import container
from .setup import CODE_NAMES, DEMO

SENT_AGAIN = 0.12           # of all deliveries: one that was sent comes again, the same bytes
SENT_OTHERWISE = 0.04       # another interchange under a number that was sent
SENT_EARLY = 0.15           # the number is 1 to 3 above the partner's least that was not sent
SPOILED = 0.06              # an interchange of SPOILS
MESSAGE_SPOILED = 0.06      # a message of MESSAGE_SPOILS
MANY = 0.0004               # a message of 999 containers, or of one too many
OTHER_SERVICE = 0.04        # other service characters, told by UNA
BREAKS_WITHIN = 0.08        # a line break after each segment
WEIGHED = 0.35              # a MEA after an EQD, whatever is ordered
WEIGHED_AGAIN = 0.25        # of these: another one
WEIGHED_AT_FRONT = 0.05     # a MEA before the first EQD
ASKED_AGAIN = 0.25          # of the slots that are named: the one that was named for that container before
ON_TOP = 0.35               # of the others: the one above a slot that was named before, of whatever container
NEWCOMER = 0.08             # of all deliveries, where a sender has no account yet: one of such a sender
SENT_BEFORE = 0.5           # of what a sender sends after its addition: what it sent under that number before

# how many different containers a stream has, and of how many messages an interchange, of how many containers a message
CONTAINERS = [(1, 5), (2, 14), (1, 30)]
MESSAGES = [(8, 1), (2, 2), (1, 3)]
LINES = [(6, 1), (2, 2), (1, 3), (1, 5)]
MANY_LINES = [(1, 999), (1, 1000)]

# the functions of a list's message, and of another's
LIST_FUNCTIONS = [(3, ''), (3, '+9'), (3, '+5')]
OTHER_FUNCTIONS = [(12, ''), (12, '+9'), (1, '+5')]

# how often a partner of each kind sends, and what
SENDERS = {
    'gate': (3, [(3, 'GateIn'), (2, 'GateOut')]),
    'line': (2, [(1, 'ListLoad'), (1, 'ListDischarge')]),
    'quay': (3, [(1, 'Load'), (1, 'Discharge')]),
    'yard': (3, [(1, 'Move')]),
}

# what an interchange is refused for, what is replaced, and by what (the first place alone)
SPOILS = [
    ('NoEnvelope', r'\+TERM1', '+'), ('NoEnvelope', r'TERM1', 'T\u00c9RM1'), ('NoEnvelope', r"'UNZ.*", "'UNZ'UNZ'"),
    ('Group', r"'UNH", "'UNG+1'UNH"),
    ('Version', r'UNO[ABC]', 'UNOD'), ('Version', r':[123]\+', ':4+'),
    ('Number', r"\+\d+'", "+0'"), ('Number', r"\+\d+'", "+1000000000'"), ('Number', r"\+\d+'", "+A1'"),
    ('Moment', r'\+24\d\d\d\d:', '+240230:'), ('Moment', r':\d{4}\+', ':2400+'),
    ('Moment', r':\d{4}\+', ':2360+'),
    ('Test', r"'UNH", "++++++1'UNH"),
    ('MessageFrame', r"'UNT", "'UNH+2'UNT"), ('MessageFrame', r"'UNZ", "'FTX+AAI'UNZ"), ('MessageFrame', r"UNT\+", 'UNX+'),
    ('SegmentCount', r'UNT\+', 'UNT+9'), ('SegmentCount', r'UNT\+\d+', 'UNT+A'),
    ('MessageReference', r'(UNT\+\d+\+)', r'\1X'), ('MessageReference', r'UN:I', 'UN:\u00e9'),
    ('MessageReference', r"UNH\+\w+\+(.*?'UNT\+\d+\+)\w+'", r"UNH+123456789012345+\g<1>123456789012345'"),
    ('Empty', r"'UNH.*'UNZ\+\d+", "'UNZ+0"),
    ('ControlCount', r'UNZ\+', 'UNZ+9'),
    ('ControlReference', r'(UNZ\+\d+\+)', r'\g<1>0'),
    ('UnknownSender', r'\+(HAUL|LINE|QUAY|YARD).', '+HAULX'),
    ('WrongRecipient', r'TERM1', 'TERM2'), ('WrongRecipient', r'TERM1', 'TERM1?+:ZZ:R:S'),
]

# the same for a message
MESSAGE_SPOILS = [
    ('OtherType', r':95B', ':96A'), ('OtherType', r'\+CO[A-Z]+', '+BAPLIE'),
    ('NoBgm', r'BGM', 'FTX'),
    ('Code', r'BGM\+\w+', 'BGM+99'), ('Code', r'BGM\+\w+', 'BGM+34'), ('Code', r'BGM\+\w+', 'BGM+46'),
    ('Function', r'(BGM\+\w+\+\w*)\+?[59]?', r'\1+1'), ('Function', r'(BGM\+\w+\+\w*)\+?[59]?', r'\1+05'),
    ('NoTransport', r'TDT\+20', 'TDT+30'), ('NoTransport', r'9123456', ''), ('NoTransport', r'V12', 'V' * 36),
    ('NoEquipment', r'EQD\+CN', 'EQD+TE'), ('NoEquipment', r'EQD\+', 'FTX+'),
    ('EquipmentCount', r"'UNT", "'CNT+16:7'UNT"),
]

BAD_NUMBERS = [(2, 'another check digit'), (1, 'short'), (1, 'small letters'), (1, 'X')]
SIZES = [(6, '22G1'), (2, '22G1:102:5'), (4, '42G1'), (2, '4510'), (1, 'L5G1'), (0.2, '10G1'), (0.2, '2G1'), (0.2, '')]
FULL_OR_EMPTY = [(2, '+++5'), (2, '+++4'), (1, '+++'), (1, '')]
EQUIPMENT = [(40, 'CN'), (1, 'TE'), (1, '')]
ODD_SLOTS = ['A1', 'B001011', 'A009011', 'A001031', 'A001014', 'A000011', 'a001011', '']
BOOKINGS = [(2, 'BN:BK1'), (2, 'BN:A?+B'), (1, 'BN:'), (1, 'BN:' + 'X' * 36), (1, 'ABT:BK2'), (1, "BN:O?'K")]
MOMENTS = [
    (4, '7:202403080700:203'), (3, '7:20240308:102'), (1, '137:0:999'), (1, ':000002292359:203'),
    (0.4, '7:20240230:102'), (0.4, '7:20240308:203'), (0.4, '7:202403080700:102'), (0.4, '7:202403082400:203'),
    (0.4, '7:202403082360:203')]
MEASURES = [
    (6, 'AAE+G+KGM:24000'), (3, 'AAE+G+KGM:3900'), (1, '+G+KGM:7'), (1, 'WT+G+KGM:999999'), (1, 'AAE+G+KGM:024000'),
    (1, 'AAE+G:3+KGM:2500:1:9+X'), (1, 'AAE+G+KGM:000000'), (1, 'AAE+G+KGM:0024000'), (1, 'AAE+G+KGM:1000000'),
    (1, 'AAE+G+KGM:24.5'), (1, 'AAE+G+KGM:'), (0.5, 'AAE+G+KGM'), (0.5, 'AAE+G+KGM: 240'), (0.5, 'AAE+G+KGM:24 '),
    (0.5, 'AAE+G+KGM:-5'), (0.5, 'AAE+G+KGM:?+5'), (0.5, 'AAE+G+KGM:2?:4'), (0.5, 'AAE+G+KGM:24A'), (0.5, 'AAE+G+:24000'),
    (2, 'AAE+G+LBR:52911'), (1, 'AAE+G+TNE:24'), (1, 'AAE+G+kgm:24000'), (2, 'AAE+T+KGM:2200'), (1, 'AAE+AET+KGM:26200'),
    (0.5, 'AAE++KGM:24000'), (0.5, 'G+KGM+KGM:24000'), (0.5, '')]
PORTS = [(2, 'DEHAM:139:6'), (2, 'NLRTM'), (1, '')]
REFERENCES = [(8, '%d'), (4, "M?'%d"), (2, 'M??%d'), (2, 'M?:?+%d'), (2, '%014d')]
ADDED_KINDS = ['gate', 'line', 'quay', 'yard', 'port', 'GATE']
NEWCOMERS = {'HAULN': 'gate', 'LINE-N': 'line', 'YARD.N': 'yard'}
TRANSPORTS = [(6, 'TDT+20+V12++++++9123456:146'), (2, 'TDT+20+V13++++++9123456')]

BETWEEN = [(3, ''), (3, '\n'), (3, '\r\n'), (1, '\n\n')]
TAILS = [
    (20, ''), (0.5, 'UNB+'), (0.5, 'UNB+?'), (0.5, 'UNA:+'), (1, 'AAAA'), (1, "UNA++.? '"),
    (0.3, 'FTX+' + 'A' * 1048573)]
PLACED_BYTES = "'+:?UNZBHT0159 ~\r\n\x00\x1f\x7f\x80\xe9"


class Day:
    """One stream in the making, for a terminal of some set-up. Newcomers send too, by their codes and kinds, and have no
    account until one is added."""

    def __init__(self, seed, setup=DEMO, newcomers=()):
        self.random, self.setup, self.newcomers, self.earlier = random.Random(seed), setup, dict(newcomers), {}
        self.sent = {code: {} for code in setup.partners}
        self.senders = [(SENDERS[kind][0], (code, SENDERS[kind][1])) for code, kind in setup.partners.items()]
        self.codes = {meant.order: (meant.type_name, setup.codes[name]) for name, meant in CODE_NAMES.items()}
        self.containers, self.asked = [], {}
        self.containers += [container(number) for number in range(1, self.pick(CONTAINERS) + 1)]

    def happens(self, share):
        """By chance, that share of the times."""
        return self.random.random() < share

    def pick(self, table):
        """A value of a table, by weight."""
        weights = [weight for weight, _value in table]
        return self.random.choices([value for _weight, value in table], weights)[0]

    # ---- a line

    def number(self):
        """The number of a container, one in twenty of them bad."""
        number = self.random.choice(self.containers)
        if not self.happens(0.05):
            return number
        bad = {'another check digit': number[:-1] + str((int(number[-1]) + 1) % 10), 'short': number[:-1],
               'small letters': number.lower(), 'X': 'ABCX' + number[4:]}
        return bad[self.pick(BAD_NUMBERS)]

    def slot(self):
        """A slot of the plan, one in sixteen of them odd."""
        if self.happens(0.06):
            return self.random.choice(ODD_SLOTS)
        plan = self.setup.plan
        block = plan[0] if len(plan) == 1 else self.random.choice(plan)
        bay = self.random.randint(1, min(7, 2 * block.bays - 1))
        row = self.random.randint(1, min(2, block.rows))
        return '%s%03d%02d%d' % (block.letter, bay, row, min(self.random.choice([1, 1, 2, 2, 3]), block.tiers))

    def slot_for(self, number):
        """A slot for a container, often the one that was named for it before, where it may stand, or one above another that
        was named."""
        if number in self.asked and self.happens(ASKED_AGAIN):
            return self.asked[number]
        below = [slot for slot in self.asked.values() if slot[-1:] in ('1', '2')]
        if below and self.happens(ON_TOP):
            slot = self.random.choice(below)
            self.asked[number] = slot[:-1] + str(int(slot[-1]) + 1)
        else:
            self.asked[number] = self.slot()
        return self.asked[number]

    def group(self, order, equipment):
        """An EQD and what stands after it, in any order."""
        number, behind = self.number(), []
        if order == 'Move' or self.happens(0.3):
            behind.append('LOC+ZZZ+' + self.slot_for(number))
        if self.happens(WEIGHED):
            behind += ['MEA+' + self.pick(MEASURES) for _measure in range(2 if self.happens(WEIGHED_AGAIN) else 1)]
        if self.happens(0.2):
            behind.append('LOC+11+' + self.pick(PORTS))
        if self.happens(0.25):
            behind.append('RFF+' + self.pick(BOOKINGS))
        if self.happens(0.25):
            behind.append('DTM+' + self.pick(MOMENTS))
        if self.happens(0.1):
            behind.append(self.random.choice(['FTX+AAI+++WHY??', 'CNT+7:2']))
        self.random.shuffle(behind)
        eqd = '+'.join(['EQD', equipment, number, self.pick(SIZES)]) + self.pick(FULL_OR_EMPTY)
        return [eqd] + behind

    # ---- a message

    def message(self, order, reference):
        """A message of one order, from UNH to UNT."""
        type_name, code = self.codes[order]
        body = ['BGM+%s+G1%s' % (code, self.pick(LIST_FUNCTIONS if type_name == 'COPRAR' else OTHER_FUNCTIONS))]
        if type_name != 'CODECO':
            body.append(self.pick(TRANSPORTS))
        if self.happens(WEIGHED_AT_FRONT):
            body.append('MEA+' + self.pick(MEASURES))
        is_long = self.happens(MANY)
        for _line in range(self.pick(MANY_LINES if is_long else LINES)):
            body += self.group(order, 'CN' if is_long else self.pick(EQUIPMENT))
        if self.happens(0.2):
            body.append('CNT+16:%d' % sum(1 for segment in body if segment.startswith('EQD')))
        header = 'UNH+%s+%s:D:95B:UN%s' % (reference, type_name, self.random.choice(['', ':ITG14']))
        text = "'".join([header] + body + ['UNT+'])
        if self.happens(MESSAGE_SPOILED):
            _fault, what, by = self.random.choice(MESSAGE_SPOILS)
            text = re.sub(what, by, text, count=0 if what.startswith('EQD') else 1)
        count = len(re.sub(r'\?.', '', text).split("'"))
        return text.replace("'UNT+", "'UNT+%d+%s'" % (count, reference))

    # ---- an interchange

    def interchange(self, code, orders, number):
        """An interchange of a partner under a number, from UNB to UNZ."""
        written = str(number).zfill(self.random.choice([0, 0, 0, 6, 14]))
        count = self.pick(MESSAGES)
        messages = [
            self.message(self.pick(orders), self.pick(REFERENCES) % (place + 1)) for place in range(count)]
        header = 'UNB+%s+%s%s+%s+%s+%s' % (
            self.random.choice(['UNOA:3', 'UNOB:1', 'UNOC:2']), code, self.random.choice(['', '', ':ZZ', '::X']),
            self.setup.terminal, self.random.choice(['240305:0910', '240306:1200', '240229:0000']), written)
        return "%s'%sUNZ+%d+%s'" % (header, ''.join(messages), count, written)

    def written_otherwise(self, text):
        """With a line break after each segment, or under other service characters. (Where a release stands in a text,
        it is left as it is.)"""
        if '?' in text:
            return text
        if self.happens(BREAKS_WITHIN):
            text = text.replace("'", "'" + self.random.choice(['\n', '\r\n']))
        if self.happens(OTHER_SERVICE) and not set(text) & set('*;|'):
            text = 'UNA*;.! |' + text.translate(str.maketrans(":+'", '*;|'))
        return text

    def altered(self, text):
        """With one or two bytes replaced, left out or put in."""
        for _change in range(self.random.randint(1, 2)):
            place = self.random.randrange(len(text))
            removed = self.random.choice([0, 1, 1])
            added = self.random.choice(['', self.random.choice(PLACED_BYTES)])
            text = text[:place] + added + text[place + removed:]
        return text

    def spoiled(self, text):
        """With one of SPOILS."""
        _fault, what, by = self.random.choice(SPOILS)
        return re.sub(what, by, text, count=1, flags=re.DOTALL)

    # ---- accounts

    def addition(self):
        """Code and kind of an account: most often that of a newcomer, who sends as any partner from then on and numbers from
        1 again; or one that is known, of another kind or of no form."""
        if self.newcomers and self.happens(0.7):
            code = self.random.choice(sorted(self.newcomers))
            kind = self.newcomers.pop(code)
            self.earlier[code], self.sent[code] = self.sent.get(code, {}), {}
            self.senders.append((SENDERS[kind][0], (code, SENDERS[kind][1])))
            return code, kind
        code = self.random.choice(sorted(self.setup.partners))
        return self.pick([(2, code), (1, code.lower()), (1, code + '/'), (1, code * 9)]), self.random.choice(ADDED_KINDS)

    def of_newcomer(self):
        """An interchange of a sender that has no account yet."""
        code = self.random.choice(sorted(self.newcomers))
        sent = self.sent.setdefault(code, {})
        text = self.interchange(code, SENDERS[self.newcomers[code]][1], len(sent) + 1)
        sent[len(sent) + 1] = text
        return text

    # ---- a stream

    def again(self):
        """What was sent before, by whomever; the next delivery where nothing was."""
        texts = [text for _code, sent in sorted(self.sent.items()) for _number, text in sorted(sent.items())]
        return self.random.choice(texts) if texts else self.delivery()

    def delivery(self):
        """What is sent next, by whomever."""
        if self.newcomers and self.happens(NEWCOMER):
            return self.of_newcomer()
        code, orders = self.pick(self.senders)
        sent = self.sent[code]
        if sent and self.happens(SENT_AGAIN):
            return sent[self.random.choice(sorted(sent))]
        if sent and self.happens(SENT_OTHERWISE):
            return self.interchange(code, orders, self.random.choice(sorted(sent)))
        number = min(number for number in range(1, len(sent) + 2) if number not in sent)
        if self.happens(SENT_EARLY):
            number += self.random.randint(1, 3)
        if number in self.earlier.get(code, {}) and self.happens(SENT_BEFORE):
            sent[number] = self.earlier[code][number]
            return sent[number]
        text = self.interchange(code, orders, number)
        if self.happens(SPOILED):
            return self.spoiled(text)
        sent.setdefault(number, self.written_otherwise(text))
        return sent[number]


def streamed(day, deliveries, share):
    """What is sent next, that many deliveries one after the other, the share of them with altered bytes, with line breaks
    between, and seldom with something after them that is no interchange."""
    texts = []
    for _delivery in range(deliveries):
        text = day.delivery()
        texts.append(day.altered(text) if day.happens(share) else text)
        texts.append(day.pick(BETWEEN))
    return ''.join(texts) + day.pick(TAILS)


def stream(seed, deliveries, share):
    """The stream of a seed, for `office demo`."""
    return streamed(Day(seed), deliveries, share)
