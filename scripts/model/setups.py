"""Random set-ups: the two files that say one, and what may be wrong in them.

A set-up is made from its seed alone. Numbers before each value in a table are its weight.
"""
import random
import re

from .names import CAPITALS
from .setup import BLOCKS_HEADER, CODE_NAMES, DEMO, KINDS, PARTNERS_HEADER
from .yard import Block

TERMINALS = ['TERM1', 'TERM1', 'NLRTMEDK1', 'T', 'a.b-c_9', 'X' * 35]
PARTNERS = ['HAUL', 'LINE.', 'QUAY_', 'YARD-', 'p', 'Q' * 34]
OTHER_CODES = ['34', '36', '43', '44', '45', '46', 'YMV', 'A', '7', 'X9', '99', 'IN']
LIMITS = [(6, ''), (1, '1'), (1, '3'), (1, '0008'), (1, '999999999'), (1, '5000000')]
ENDS = [(3, '\n'), (2, '\r\n'), (1, '\r')]

TERMINAL = r'terminal,[^,]*,'
PARTNER = r'partner,[^,]*,\w+'

# what a set-up is refused for, in which file, what is replaced, and by what (the first place alone)
SPOILS = [
    ('Csv', 'partners', r'what', 'What'), ('Csv', 'partners', r',value', ''), ('Csv', 'partners', r'.*', ''),
    ('Csv', 'partners', r'terminal', 'port'), ('Csv', 'partners', r'partner,', 'partner ,'),
    ('Csv', 'partners', r'partner,', 'partner,,'), ('Csv', 'partners', r'partner,', 'partner;'),
    ('Csv', 'partners', r'gate\b', 'g\u00e9te'), ('Csv', 'blocks', r'tiers', 'tier'), ('Csv', 'blocks', r'\d+', '1,1'),
    ('Csv', 'blocks', r'(?s).*', ''), ('Csv', 'blocks', r',\d+', ''),
    ('Terminal', 'partners', TERMINAL, 'terminal,A B,'), ('Terminal', 'partners', TERMINAL, r'\g<0>x'),
    ('Terminal', 'partners', TERMINAL, 'terminal,' + 'X' * 36 + ','), ('Terminal', 'partners', TERMINAL, 'terminal,,'),
    ('Terminal', 'partners', TERMINAL, 'limit,visits,7'), ('Terminal', 'partners', TERMINAL, 'terminal,T,\n\\g<0>'),
    ('Partner', 'partners', r',gate\b', ',port'), ('Partner', 'partners', r',line\b', ','),
    ('Partner', 'partners', r',quay', ',Quay'), ('Partner', 'partners', r'partner,[^,]*,', 'partner,,'),
    ('Partner', 'partners', r'partner,[^,]*,', 'partner,A/B,'), ('Partner', 'partners', r'partner,[^,]*,', 'partner,"A""B",'),
    ('Partner', 'partners', r'(partner,[^,]*,)\w+', '\\g<0>\n\\1gate'),
    ('Code', 'partners', PARTNER, 'code,gate,34'), ('Code', 'partners', PARTNER, 'code,gate-in,ABCD'),
    ('Code', 'partners', PARTNER, 'code,gate-in,a'), ('Code', 'partners', PARTNER, 'code,gate-out,'),
    ('Code', 'partners', PARTNER, 'code,gate-in,G\ncode,gate-out,G\n\\g<0>'),
    ('Code', 'partners', PARTNER, 'code,load-list,44\ncode,load-list,44\n\\g<0>'),
    ('Code', 'partners', PARTNER, 'code,load-list,43\n\\g<0>'),
    ('none', 'partners', PARTNER, 'code,load-list,G1\ncode,load-report,G1\n\\g<0>'),
    ('Limit', 'partners', PARTNER, 'limit,visits,0\n\\g<0>'),
    ('Limit', 'partners', PARTNER, 'limit,visits,1000000000\n\\g<0>'),
    ('Limit', 'partners', PARTNER, 'limit,visits,+5\n\\g<0>'), ('Limit', 'partners', PARTNER, 'limit,visits,\n\\g<0>'),
    ('Limit', 'partners', PARTNER, 'limit,boxes,5\n\\g<0>'),
    ('Limit', 'partners', PARTNER, 'limit,visits,5\nlimit,visits,5\n\\g<0>'),
    ('Block', 'blocks', r'[A-Z],.*', '\\g<0>\n\\g<0>'), ('Block', 'blocks', r'[A-Z],', 'a,'),
    ('Block', 'blocks', r'[A-Z],', ','), ('Block', 'blocks', r'[A-Z],', 'AB,'),
    ('Block', 'blocks', r'[A-Z],', '\u00c3\u00a9,'), ('Block', 'blocks', r',\d+', ',0'), ('Block', 'blocks', r',\d+', ',41'),
    ('Block', 'blocks', r'(,\d+),\d+', r'\1,13'), ('Block', 'blocks', r'(,\d+,\d+),\d+', r'\1,7'),
    ('Block', 'blocks', r'(,\d+),\d+', r'\1,'), ('Block', 'blocks', r',\d+', ',0000000001'),
    ('none', 'blocks', r',\d+', ',000000002'), ('Block', 'blocks', r',\d+', ', 2'),
]
PLACED_BYTES = ',"\r\n;0A \u00e9\u00c3'


class Files:
    """The two files of one set-up in the making."""

    def __init__(self, seed):
        self.random = random.Random('set-up %s' % seed)

    def pick(self, table):
        """A value of a table, by weight."""
        return self.random.choices([value for _weight, value in table], [weight for weight, _value in table])[0]

    def partner_records(self):
        """One to eight partners, most often one of each kind first."""
        kinds = list(KINDS) if self.random.random() < 0.8 else []
        kinds += self.random.choices(KINDS, k=self.random.randint(0 if kinds else 1, 4))
        stems = self.random.choices(PARTNERS, k=len(kinds))
        return [['partner', stem + 'ABCDEFGH'[place], kind] for place, (stem, kind) in enumerate(zip(stems, kinds))]

    def code_records(self):
        """Other codes for some names. Now and then one stands twice within a type."""
        names = [name for name in CODE_NAMES if self.random.random() < 0.15]
        return [['code', name, self.random.choice(OTHER_CODES)] for name in names]

    def block_records(self):
        """One to three blocks, most often small ones."""
        letters = self.random.sample('ABCRZ', self.random.choice([1, 1, 2, 3]))
        return [
            [letter, str(self.random.choice([1, 2, 4, 4, 40])), str(self.random.choice([1, 2, 2, 12])),
             str(self.random.choice([1, 2, 3, 3, 6]))] for letter in letters]

    def text(self, header, records):
        """A file, with fields in quotes, empty lines and a byte order mark by chance."""
        end, lines = self.pick(ENDS), []
        for record in [header] + records:
            fields = ['"%s"' % field if self.random.random() < 0.05 else field for field in record]
            lines.append(','.join(fields) + end + (end if self.random.random() < 0.03 else ''))
        mark = '\u00ef\u00bb\u00bf' if self.random.random() < 0.05 else ''
        text = mark + ''.join(lines)
        return text[:-len(end)] if self.random.random() < 0.1 else text

    def both(self):
        """The file of partners and the file of blocks."""
        records = [['terminal', self.random.choice(TERMINALS), '']] + self.partner_records() + self.code_records()
        limit = self.pick(LIMITS)
        records += [['limit', 'visits', limit]] if limit else []
        if self.random.random() < 0.3:
            self.random.shuffle(records)
        return self.text(PARTNERS_HEADER, records), self.text(BLOCKS_HEADER, self.block_records())

    def spoiled(self, partners, blocks):
        """With one of SPOILS, and now and then with a byte put in or left out."""
        _fault, which, what, by = self.random.choice(SPOILS)
        texts = {'partners': partners, 'blocks': blocks}
        header, *rest = re.split(r'(?<=\n)|(?<=\r)(?!\n)', texts[which], maxsplit=1)
        if re.search(what, ''.join(rest)) and what not in ('.*', '(?s).*'):
            texts[which] = header + re.sub(what, by, ''.join(rest), count=1)
        else:
            texts[which] = re.sub(what, by, texts[which], count=1)
        if self.random.random() < 0.3:
            which = self.random.choice(['partners', 'blocks'])
            place = self.random.randrange(len(texts[which]) + 1)
            added = self.random.choice(['', self.random.choice(PLACED_BYTES)])
            texts[which] = texts[which][:place] + added + texts[which][place + self.random.choice([0, 1]):]
        return texts['partners'], texts['blocks']


def at_limits():
    """Set-ups of as many partners and blocks as there may be, and of one more."""
    plan = [Block(letter, 1, 1, 1) for letter in CAPITALS]
    for partners, blocks in ((999, 1), (1000, 1), (1, 20), (1, 21), (999, 20)):
        yield files_of(DEMO._replace(
            partners={'P%d' % place: 'gate' for place in range(partners)}, plan=plan[:blocks]))


def files_of(setup):
    """Two files that say a set-up."""
    records = [['terminal', setup.terminal, '']] + [['partner', code, kind] for code, kind in setup.partners.items()]
    records += [['code', name, code] for name, code in setup.codes.items()]
    records += [['limit', 'visits', str(setup.most_visits)]]
    blocks = [[block.letter, str(block.bays), str(block.rows), str(block.tiers)] for block in setup.plan]
    return tuple(
        ''.join(','.join(record) + '\n' for record in table)
        for table in ([PARTNERS_HEADER] + records, [BLOCKS_HEADER] + blocks))
