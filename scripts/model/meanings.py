"""What the names of faults and reasons mean: the sentences of docs/PROFILE.md, and that the program's table has them."""
import os
import re

from .files import TOP

PAGE = 'docs/PROFILE.md'
TABLE = 'crates/office_pages/src/meanings.rt'


def read(path):
    """The text of a file of the repository."""
    with open(os.path.join(TOP, path), encoding='utf-8') as file:
        return file.read()


def plain(sentence):
    """A sentence without its marks: code, links, the full stop."""
    return re.sub(r'\[([^\]]*)\]\([^)]*\)', r'\1', sentence).replace('`', '').rstrip('.')


def numbered(page, heading):
    """Names and sentences of the numbered list below a heading."""
    part = page.partition('**%s** ' % heading)[2].partition('\n\n')[2].partition('\n\n')[0]
    return [(name, plain(sentence)) for name, sentence in re.findall(r'^\d+\. \*\*(\w+)\*\*: (.*)$', part, re.M)]


def reasons(page):
    """Names and sentences of the table of reasons: its first cells and its last."""
    part = page.partition('| Reason |')[2].partition('\n\n')[0]
    rows = [[cell.strip() for cell in line.strip('|').split('|')] for line in part.splitlines()[2:]]
    return [(cells[0], plain(cells[-1])) for cells in rows]


def meanings():
    """Each name that a kept reply may give, and its sentence: faults of a message, faults of a line, other reasons."""
    page = read(PAGE)
    return numbered(page, 'Faults of a message.') + numbered(page, 'Faults of a line of a message.') + reasons(page)


MEANINGS = meanings()


def check():
    """Compares the program's table with the page. Prints what is wrong, and gives how much is."""
    table = re.findall(r'\bMeaning\(\s*"([^"]*)",\s*"([^"]*)",?\s*\)', read(TABLE))
    wrong = [pair for pair in MEANINGS if pair not in table] + [pair for pair in table if pair not in MEANINGS]
    if not wrong and table != MEANINGS:
        wrong = ['another order']
    print(''.join('wrong: %s\n' % (one,) for one in wrong), end='')
    print('%s: %d names compared, %d wrong' % (TABLE, len(MEANINGS), len(wrong)))
    return len(wrong)
