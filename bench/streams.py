"""The streams of the bench, each a list of interchanges of one line of text each, and the set-up that they are for.

All are the same at each run: what is drawn is drawn by a seed.
"""
import heapq
import itertools
import random

from model.names import check_digit

PARTNERS = '\n'.join([
    'what,name,value', 'terminal,TERM1,', 'partner,HAULA,gate', 'partner,HAULB,gate', 'partner,LINEA,line',
    'partner,QUAYA,quay', 'partner,YARDA,yard', ''])
LARGE_YARD = 'block,bays,rows,tiers\n' + ''.join('%s,40,12,6\n' % letter for letter in 'ABCDEFGH')
WHOLE_YARD = 'block,bays,rows,tiers\n' + ''.join('%s,40,12,6\n' % letter for letter in 'ABCDEFGHIJKLMNOPQRST')
SLOTS_FOR_TWENTIES = 20 * 40 * 12 * 6   # of the whole yard
SMALL_YARD = 'block,bays,rows,tiers\nA,3,2,3\nB,2,1,2\n'

TYPES = {'34': 'CODECO', '36': 'CODECO', 'YMV': 'CODECO', '43': 'COPRAR', '45': 'COPRAR', '44': 'COARRI', '46': 'COARRI'}
IN_YARD = 200               # containers that are in the yard at a time, while others come and go
LIST = 10                   # lines of a load list, each followed by its gate-in and then by its load
FULL = 999                  # lines of the longest list
SEED = 'bench'


def box(serial):
    """A container's number, with its check digit. Each million has an owner's code of its own."""
    front = 'AB%sU%06d' % ('CDEFGH'[serial // 1000000], serial % 1000000)
    return front + str(check_digit(front))


def size_of(serial):
    """Every third is a forty."""
    return '42G1' if serial % 3 == 2 else '22G1'


class Group:
    """What a message says of one container."""

    def __init__(self, number, size='', slot='', booking='', port='', moment='', laden=True, weights=()):
        self.head = 'EQD+CN+%s+%s:102:5+++%s' % (number, size, '5' if laden else '4')
        self.parts = [
            part % value for part, value in (
                ('RFF+BN:%s', booking), ('DTM+7:%s:203', moment), ('LOC+ZZZ+%s', slot), ('LOC+11+%s:139:6', port)) if value]
        self.parts += ['MEA+AAE+' + weight for weight in weights]

    def segments(self):
        """Its segments."""
        return [self.head] + self.parts


def message(reference, code, groups, call=None, function=9):
    """A message of that code, for a vessel's call (vessel and voyage) if there is one. Function 5 replaces a list."""
    segments = ['UNH+%d+%s:D:95B:UN:ITG14' % (reference, TYPES[code]), 'BGM+%s+%d+%d' % (code, reference, function)]
    if call:
        segments.append('TDT+20+%s+1++172:20+++%s:146' % (call[1], call[0]))
    for group in groups:
        segments += group.segments()
    return segments + ['UNT+%d+%d' % (len(segments) + 1, reference)]


def interchange(partner, number, *messages):
    """An interchange of a partner's."""
    segments = ['UNB+UNOA:3+%s+TERM1+240305:0910+%06d' % (partner, number)]
    for segments_of_message in messages:
        segments += segments_of_message
    return ''.join(segment + "'" for segment in segments + ['UNZ+%d+%06d' % (len(messages), number)])


class Numbers:
    """Counts each partner's interchanges."""

    def __init__(self):
        self.last = {}

    def send(self, partner, *messages):
        """The partner's next interchange."""
        self.last[partner] = self.last.get(partner, 0) + 1
        return interchange(partner, self.last[partner], *messages)


def gate_in(serial, slot=''):
    """A gate-in of one container."""
    return message(1, '34', [Group(box(serial), size_of(serial), slot, booking='BOOK%d' % serial, moment='202403050910')])


def gates_without_end(in_yard=IN_YARD):
    """Gate-ins and gate-outs in turn, from one haulier, with so many containers in the yard."""
    numbers = Numbers()
    for serial in itertools.count():
        yield numbers.send('HAULA', gate_in(serial))
        if serial >= in_yard:
            yield numbers.send('HAULA', message(1, '36', [Group(box(serial - in_yard))]))


class Columns:
    """The columns of the large yard, of full twenties, each put into the first slot that fits: the lowest, and of these the first."""

    def __init__(self):
        bays, rows, self.tiers = 40, 12, 6      # of each block of LARGE_YARD
        self.stacks = [[] for _column in range(8 * bays * rows)]
        self.open = [(0, column) for column in range(len(self.stacks))]     # heights that columns have or had

    def offer(self, column):
        """The column has another height now."""
        height = len(self.stacks[column])
        if height < self.tiers:
            heapq.heappush(self.open, (height, column))

    def put(self, serial):
        """A container comes."""
        height, column = heapq.heappop(self.open)
        while height != len(self.stacks[column]):
            height, column = heapq.heappop(self.open)
        self.stacks[column].append(serial)
        self.offer(column)

    def take(self, chance):
        """A container that nothing stands on leaves: the top of a column that is drawn."""
        column = chance.randrange(len(self.stacks))
        while not self.stacks[column]:
            column = chance.randrange(len(self.stacks))
        serial = self.stacks[column].pop()
        self.offer(column)
        return serial

    def there(self):
        """The numbers of the containers that are there."""
        return sorted(box(serial) for stack in self.stacks for serial in stack)


def trade_without_end(in_yard, columns):
    """Gate-ins and gate-outs of full twenties in turn, from one haulier, with so many containers in the yard, of which only those leave
    that nothing stands on: each line is done. The columns are then those of the office's yard."""
    numbers, chance = Numbers(), random.Random(SEED)
    for serial in itertools.count():
        columns.put(serial)
        yield numbers.send('HAULA', message(1, '34', [Group(box(serial), '22G1', booking='BOOK%d' % serial, moment='202403050910')]))
        if serial >= in_yard:
            yield numbers.send('HAULA', message(1, '36', [Group(box(columns.take(chance)))]))


def gates(count, in_yard=IN_YARD):
    """So many of these."""
    return list(itertools.islice(gates_without_end(in_yard), count))


def lists(count):
    """Load lists of ten lines, each followed by the ten gate-ins and the ten loads; a call has 500 lines."""
    numbers, texts, serial = Numbers(), [], 0
    while len(texts) < count:
        call, serials = ('9123456', 'V%d' % (serial // 500)), range(serial, serial + LIST)
        serial += LIST
        listed = [Group(box(each), port='NLRTM') for each in serials]
        texts.append(numbers.send('LINEA', message(1, '45', listed, call)))
        texts += [numbers.send('HAULA', gate_in(each)) for each in serials]
        texts += [numbers.send('QUAYA', message(1, '46', [Group(box(each))], call)) for each in serials]
    return texts[:count]


def full_list(voyage, first, function=9):
    """A load list of as many lines as a message may have, from that container on."""
    return message(1, '45', [Group(box(each), port='NLRTM') for each in range(first, first + FULL)], ('9123456', voyage), function)


def reverse(count):
    """So many texts of one haulier in reverse order, and then the one that closes the gap."""
    def turn(number):
        serial = number // 2
        return gate_in(serial) if number % 2 else message(1, '36', [Group(box(serial - 1))])
    return [interchange('HAULA', number, turn(number)) for number in range(count + 1, 0, -1)]


def filling(count):
    """Gate-ins of so many containers, a hundred in a message."""
    numbers, texts = Numbers(), []
    for first in range(0, count, 100):
        groups = [Group(box(serial), size_of(serial), moment='202403050910') for serial in range(first, first + 100)]
        texts.append(numbers.send('HAULA', message(1, '34', groups)))
    return texts


def come_and_gone(count):
    """Gate-ins of so many containers, as many in a message as there may be; after each message all of them leave, the last
    one first, so that none is buried."""
    numbers, texts = Numbers(), []
    for first in range(0, count, FULL):
        serials = range(first, min(first + FULL, count))
        texts.append(numbers.send('HAULA', message(1, '34', [Group(box(serial), size_of(serial)) for serial in serials])))
        texts.append(numbers.send('HAULA', message(1, '36', [Group(box(serial)) for serial in reversed(serials)])))
    return texts


def listed(count):
    """A load list of the first containers of these, as many as a message may have, and those that are not in the yard."""
    return Numbers().send('LINEA', full_list('V0', count - FULL // 2))


def twenties(count):
    """Gate-ins of so many full twenties, in messages that are as long as they may be, from the second haulier."""
    numbers, texts = Numbers(), []
    for first in range(0, count, FULL):
        groups = [Group(box(serial), '22G1', moment='202403050910') for serial in range(first, min(first + FULL, count))]
        texts.append(numbers.send('HAULB', message(1, '34', groups)))
    return texts


def twenties_behind(count):
    """Gate-ins of so many full twenties more, one at a time, from the first haulier."""
    numbers = Numbers()
    return [
        numbers.send('HAULA', message(1, '34', [Group(box(serial), '22G1', moment='202403050910')]))
        for serial in range(SLOTS_FOR_TWENTIES, SLOTS_FOR_TWENTIES + count)]


# ---- all orders, and what is refused of them

SLOTS = [
    'A001011', 'A001012', 'A002011', 'A002012', 'A003021', 'A004021', 'A003022', 'A005012', 'B001012', 'B001011', 'B002011',
    'B009011', 'A001015', '']
WEIGHTS = ['G+KGM:24000', 'G+KGM:007', 'G+KGM:24.5', 'G+KGM:1000000', 'G+LBR:52911', 'T+KGM:2200']
CALLS = [('9123456', 'V1'), ('9123456', 'V2'), ('VESSEL B', 'W?+1')]
SENDERS = {'34': 'HAULA', '36': 'HAULB', 'YMV': 'YARDA', '43': 'LINEA', '45': 'LINEA', '44': 'QUAYA', '46': 'QUAYA'}


def drawn_group(chance, code):
    """What a message of that code may say of one of a few containers."""
    serial = chance.randrange(30)
    slot = chance.choice([slot for slot in SLOTS if slot or code != 'YMV'])
    return Group(
        box(serial), size_of(serial), slot if chance.random() < 0.6 or code == 'YMV' else '',
        booking=chance.choice(['', 'B?:1', 'BOOKING 7']), port=chance.choice(['', 'NLRTM']),
        moment=chance.choice(['', '202403061200']), laden=chance.random() < 0.6,
        weights=chance.sample(WEIGHTS, chance.choice([0, 0, 1, 2])))


def drawn_messages(chance, code):
    """One to three messages of a code, of one to four containers each."""
    return [
        message(reference, code, [drawn_group(chance, code) for _group in range(chance.randint(1, 4))],
                None if TYPES[code] == 'CODECO' else chance.choice(CALLS))
        for reference in range(1, chance.randint(1, 3) + 1)]


def mixed(count):
    """All seven orders over a few containers and a small yard, so that most reasons for a refusal come up; some early,
    some again, some under a number that is used."""
    chance, numbers, texts = random.Random(SEED), Numbers(), []
    while len(texts) < count:
        code = chance.choice(['34', '34', '36', '36', 'YMV', 'YMV', '43', '45', '44', '46'])
        text = numbers.send(SENDERS[code], *drawn_messages(chance, code))
        texts.insert(max(0, len(texts) - chance.choice([0, 0, 0, 1, 3])), text)
        if chance.random() < 0.1:
            texts.append(chance.choice(texts))
        if chance.random() < 0.05:
            sender = SENDERS[code]
            texts.append(interchange(sender, chance.randint(1, numbers.last[sender]), *drawn_messages(chance, code)))
    return texts
