"""Examples, samples and the interchanges that pages show, held to the table of docs/PROFILE.md, *What the directory wants*: its
order of segments, those that are mandatory, and how often each may stand. Messages that are rejected are left out.
"""
import glob
import json
import os
import re
from collections import Counter, namedtuple

from .cases import all_cases
from .files import contents
from .office import Office, json_text
from .samples import heading_of
from .setup import DEMO
from .shown import PAGES, Sent, shown_parts
from .syntax import messages_of

# Where segments of a type may stand: `order` has the tags of the message and those below a segment, each list in its order, by
# what they stand below (nothing for the message, as `EQD`, as `TDT of EQD`), `most` how often a tag may stand there where the
# page says so, by that and the tag, and `mandatory` the tags without which no message is
Table = namedtuple('Table', 'order most mandatory')


def place_of(cell):
    """What the segments of a row stand below, and their tags."""
    below, tags = re.fullmatch(r'(?:below ([A-Z]{3}(?: of [A-Z]{3})?): )?([A-Z]{3}(?:, [A-Z]{3})*)', cell).groups()
    return below or '', tags.split(', ')


def tables_of(page):
    """The table of each type, read from the page."""
    part = page.partition('## What the directory wants\n')[2].partition('\n## ')[0]
    rows = [[cell.strip() for cell in line.strip('|').split('|')] for line in part.splitlines() if line.startswith('|')]
    tables = {type_name: Table({}, {}, []) for type_name in rows[0][1:4]}
    for cells in rows[2:]:
        below, tags = place_of(cells[0])
        for table, cell in zip(tables.values(), cells[1:4]):
            status = re.fullmatch(r'(?:([MC])(?: ([0-9,]+))?)?', cell)
            table.order.setdefault(below, []).extend(tags if status[1] else [])
            table.mandatory.extend(tags if status[1] == 'M' else [])
            table.most.update({(below, tag): int(status[2].replace(',', '')) for tag in tags if status[2]})
    return tables


class Level:
    """What stands below one segment so far: how far in the order it came, and how often each tag was there."""

    def __init__(self, below):
        self.below, self.place, self.counts = below, 0, Counter()

    def place_from(self, table, tag):
        """The place of a tag in the order from where it came to, or None."""
        order = table.order.get(self.below, [])
        return order.index(tag, self.place) if tag in order[self.place:] else None

    def below_it(self, tag):
        """What stands below a segment of this level."""
        return Level('%s of %s' % (tag, self.below) if self.below else tag)


def fault_of_order(table, tags):
    """What the table has against the tags of a message, or None."""
    levels = [Level('')]
    for tag in tags:
        while levels and levels[-1].place_from(table, tag) is None:
            levels.pop()
        if not levels:
            return '%s is out of place' % tag
        level = levels[-1]
        level.place = level.place_from(table, tag)
        level.counts[tag] += 1
        if level.counts[tag] > table.most.get((level.below, tag), level.counts[tag]):
            return '%s stands there too often' % tag
        levels.append(level.below_it(tag))
    missing = [tag for tag in table.mandatory if tag not in tags]
    return 'without ' + ', '.join(missing) if missing else None


def faults_of_text(tables, text, line):
    """What it has against each message of an interchange that its answer accepts."""
    results = json.loads(line).get('reply', {}).get('messages', [])
    for message, result in zip(messages_of(text) if results else [], results):
        if result['result'] != 'accepted':
            continue
        fault = fault_of_order(tables[message[0].value(2, 1)], [segment.tag for segment in message])
        if fault:
            yield fault


def answered(texts):
    """Each text with the line that answers it, one after the other at a new office."""
    office = Office(DEMO)
    return [(text, json_text(office.answer(text))) for text in texts]


def all_texts(top):
    """What is held to it: names, texts and the lines that answer them."""
    for paths in (['examples/gate-in.edi'], sorted(glob.glob(os.path.join(top, 'examples/day/*.edi')))):
        for path, pair in zip(paths, answered(contents(os.path.join(top, path)).strip() for path in paths)):
            yield os.path.basename(path), *pair
    for case in all_cases():
        for pair in zip(case.texts, case.lines) if heading_of(case) else []:
            yield case.name, *pair
    for page in PAGES:
        for name, steps in shown_parts(page, contents(os.path.join(top, page))):
            for pair in answered(step.text for step in steps if isinstance(step, Sent)):
                yield name, *pair


def check(top):
    """Prints how many interchanges were held to the table, and what is wrong. Gives how much is."""
    tables = tables_of(contents(os.path.join(top, 'docs/PROFILE.md')))
    held = list(all_texts(top))
    wrong = ['%s: %s' % (name, fault) for name, text, line in held for fault in faults_of_text(tables, text, line)]
    print(''.join('wrong: %s\n' % text for text in wrong), end='')
    print('%d examples and samples held to the directory: %d wrong' % (len(held), len(wrong)))
    return len(wrong)
