"""What docs/PROFILE.md and docs/SURPRISES.md show: interchanges, the answers below them, and the reports after them, by the
model and by the program. What stands below one heading begins with nothing delivered.
"""
import os
import re
import tempfile
from collections import namedtuple

from .asking import get, post
from .cases import read
from .http import response
from .office import Office, json_text
from .reports import printed
from .setup import DEMO
from .setups import files_of
from .stores import Program

PAGES = ('docs/PROFILE.md', 'docs/SURPRISES.md')

# what is on lines of its own on a page: an interchange, answers, a report with its kind and key
Sent = namedtuple('Sent', 'text')
Said = namedtuple('Said', 'lines')
Told = namedtuple('Told', 'kind key text')

REPORTS = [
    (r'VISITS (\S+)\n', 'visits', '%s'), (r'LOAD LIST (\S+) (\S+)\n', 'list', '%s/%s/load'),
    (r'DISCHARGE LIST (\S+) (\S+)\n', 'list', '%s/%s/discharge'),
    (r'LOAD WORK (\S+) (\S+)\n', 'work', '%s/%s/load'), (r'DISCHARGE WORK (\S+) (\S+)\n', 'work', '%s/%s/discharge'),
    (r'CONTAINER (\S+)\n', 'container', '%s')]
ROUTES = {'visits': 'visits', 'list': 'lists', 'work': 'work', 'container': 'containers'}


def steps_of(part):
    """What stands on lines of its own below one heading, in its order."""
    for found in re.findall(r'(?:^    .*\n)+', part, re.M):
        text = re.sub(r'^    ', '', found, flags=re.M)
        if re.match(r"UN[AB][^ ]*'", text):
            yield Sent(read(text[:-1]))
        if text.startswith('{"answer"'):
            yield Said(text.splitlines())
        for pattern, kind, key in REPORTS:
            if re.match(pattern, text):
                yield Told(kind, key % re.match(pattern, text).groups(), text)


def shown_parts(path, text):
    """The headings of a page below which interchanges stand, and the steps there."""
    for part in re.split(r'^#+ ', text, flags=re.M)[1:]:
        steps = list(steps_of(part))
        if any(isinstance(step, Sent) for step in steps):
            yield '%s, %s' % (path, part.split('\n')[0]), steps


def differing(name, steps, deliver, tell):
    """What is said where a delivery is answered by another line than stands after it, or a report tells something else."""
    given, said = [], []
    for step in steps:
        if isinstance(step, Sent):
            given.append(deliver(step.text))
        if isinstance(step, Said):
            said += step.lines
        if isinstance(step, Told) and tell(step.kind, step.key) != step.text:
            yield '%s\n  page %r\n  came %r' % (name, step.text, tell(step.kind, step.key))
    if given != said:
        yield '%s\n  page %s\n  came %s' % (name, said, given)


def by_model(name, steps):
    """What differs from the model's answers."""
    office = Office(DEMO)
    return differing(
        name, steps, lambda text: json_text(office.answer(text)), lambda kind, key: printed(office, kind, key)[0])


def by_program(path, name, steps):
    """What differs between the program's answers over HTTP and the model's."""
    office, requests, wrong = Office(DEMO), [], []
    for step in steps:
        if isinstance(step, Sent):
            requests.append(post(step.text))
        if isinstance(step, Told):
            requests.append(get('/%s/%s' % (ROUTES[step.kind], step.key)))
    with tempfile.TemporaryDirectory(prefix='beside-') as folder:
        program = Program(path, folder)
        program.init(*files_of(DEMO))
        program.serve(
            [(request, response(office, request)) for request in requests],
            lambda what, wanted, came: wanted == came or wrong.append('%s, %s: %r' % (name, what, came)))
    return wrong


def check(top, path):
    """Compares the pages with the model, and with the program (None for the model alone). Prints what is wrong, and gives how
    much is."""
    compared, wrong = 0, []
    for page in PAGES:
        with open(os.path.join(top, page), encoding='utf-8') as file:
            parts = list(shown_parts(page, file.read()))
        for name, steps in parts:
            compared += len(steps)
            wrong += by_model(name, steps)
            wrong += by_program(path, name, steps) if path else []
    print(''.join('wrong: %s\n' % text[:2000] for text in wrong), end='')
    print('%s: %d compared, %d wrong' % (' and '.join(PAGES), compared, len(wrong)))
    return len(wrong)
