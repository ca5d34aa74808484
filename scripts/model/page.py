"""docs/WORKED_ROWS.md, read: its rows by their names, and the interchanges and answers that it writes in short."""
import re

from .office import json_text


class Page:
    """Each row is the text from its name, which is in bold, to the next row or heading."""

    def __init__(self, text):
        parts = re.split(r'^(?=\*\*|## )', text, flags=re.M)
        self.rows = {re.split(r'\*\*|\n', part.strip('*# '))[0].rstrip('.'): part for part in parts}
        shorts = re.findall(r'^\| ([A-Z]+)\((.*?)\) \| (.*) \|$', self.rows['How the rows are written'], re.M)
        self.shorts = {(name, arguments.count(',') + 1): meant for name, arguments, meant in shorts}
        self.first = self.texts('The first gate-in')[0]

    def texts(self, row):
        """What a row sets on lines of its own."""
        return re.findall(r'^    (\S.*)$', self.rows[row], re.M)

    def quoted(self, row):
        """What stands in quotes of code within a row."""
        return re.findall(r'`([^`\n]*)`', self.rows[row])

    def table(self, row):
        """The lines of a row's table, each a list of its cells, without the head."""
        lines = re.findall(r'^\| (.*) \|$', self.rows[row], re.M)
        return [line.split(' | ') for line in lines][1:]

    def interchange(self, short):
        """The text of an interchange that is written in short, as `IN(1, 17) from HAULB`, or in full between quotes."""
        if short.startswith('`'):
            return short.strip('`')
        name, _brackets, arguments, edits = re.match(r'([A-Z]+)(\((.*?)\))?(.*)', short).groups()
        if name == 'FIRST':
            return edited(self.first, edits)
        values = [value.strip() for value in arguments.split(',')]
        return edited(with_values(self.interchange(self.shorts[name, len(values)]), values), edits)


def with_values(text, values):
    """The text of a short one, with its reference, its container (by the last two digits) and its slot put in."""
    number, container = values[0], values[1] if values[1] == 'b' else 'ABCU00000' + values[1]
    text = text.replace("+k'", "+%s'" % number).replace('+b+', '+%s+' % container)
    return text.replace("+slot'", "+%s'" % values[2]) if len(values) == 3 else text


def edited(text, edits):
    """A text with what is said after it: empty, from whom, to whom, with a segment in place of the one with its tag."""
    if re.match(r' E\b', edits):
        text = text.replace("+++5'", "+++4'")
    words = r'(from|to|without its|with|and) (?:with )?`?([^`, ]+)`?( after its EQD| at the end of its UNB)?'
    for word, value, where in re.findall(words, edits):
        what, by = edit(word, value, where)
        text = re.sub(what, lambda found: found.expand(by), text, count=1)
    return text


def edit(word, value, where):
    """What is replaced, and by what."""
    if word == 'from':
        return r'(UNB\+[^+]*\+)[^+]*', r'\g<1>' + value
    if word == 'to':
        return r'(UNB\+[^+]*\+[^+]*\+)[^+]*', r'\g<1>' + value
    if word == 'without its':
        return value + r"\+[^']*'", ''
    if where == ' after its EQD':
        return r"(EQD\+[^']*')", r'\g<1>' + value
    if where == ' at the end of its UNB':
        return r"(UNB\+[^']*)\+\d+'", r'\g<1>' + value
    if value.endswith("'"):
        return value[:3] + r"\+[^']*'", value
    return 'COPRAR', value


def short_of(answer):
    """An answer as the page writes it in short."""
    word = answer['answer']
    if word == 'waiting':
        return 'waiting, next %d' % answer['next']
    if word in ('taken', 'repeat'):
        message = answer['reply']['messages'][0]
        if 'fault' in message:
            return '%s: rejected %s' % (word, message['fault'])
        line = message['lines'][0]
        return ' '.join([word + ':', line['outcome'], line.get('reason', line.get('slot', ''))]).strip()
    code = re.findall(r"UCI.*\+4\+(\d+)'UNT\+3\+1'", answer.get('contrl', ''))
    return ' '.join([word, answer.get('fault', '')]).strip() + ''.join(', ' + number for number in code)


def is_told(cell, answer):
    """Whether the answer is what a cell says: the short one, and in it each text that the cell quotes."""
    told = re.sub(r'\. Then .*', '', cell)
    quoted = re.findall(r'`([^`]*)`', told)
    short = re.sub(r",? (by|the line|with) `[^`]*`", '', re.sub(r", with the CONTRL's `.*\+(\d+)'`", r', \1', told))
    return short == short_of(answer) and all(text in json_text(answer) for text in quoted)
