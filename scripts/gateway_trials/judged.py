"""What an answer has to be, and which rows have to be there, by the slow model."""
import json
import os
import shutil
import sqlite3
import subprocess
import tempfile

from model.asking import get
from model.http import STATUSES, response
from model.office import Office, json_text
from model.reports import report as report_of
from model.rows import rows_in, rows_of

OTHER_SENDER = 403, '{"answer":"refused","fault":"OtherSender"}'
CERTIFICATE = 403, '{"answer":"refused","fault":"Certificate"}'
ORIGIN = 403, '{"answer":"refused","fault":"Origin"}'
ROLE = 403, '{"answer":"refused","fault":"Role"}'
NONE = 404, '{"answer":"none"}'
METHOD = 405, '{"answer":"method"}'
TOO_LONG = 413, '{"answer":"too long"}'
BAD_REQUEST = 400, '{"answer":"bad request"}'
NOT_NOW = 503, '{"answer":"not now"}'
READY = 200, '{"answer":"ready"}'
# what the gateway adds to each answer
ADDED = ['X-Content-Type-Options: nosniff', 'Cache-Control: no-store', 'Strict-Transport-Security: max-age=31536000']


def bare(text):
    """A report without the line's end."""
    return text.rstrip('\n')


class Judge:
    """The model's office beside an installed one, and how many checks have passed."""

    def __init__(self, installed, checks):
        self.installed, self.checks = installed, checks
        self.office = Office(installed.setup, keeps_fold=True)

    def delivered(self, text):
        """Status and text that answer a delivery. It is in effect from here on."""
        answer = self.office.answer(text)
        return STATUSES[answer['answer']], json_text(answer)

    def added(self, code, kind):
        """The same for an account that may be added."""
        return 200, json_text(self.office.add_account(code, kind))

    def report(self, kind, key=''):
        """Status and text of a report."""
        text = report_of(self.office, kind, key)
        return NONE if text is None else (200, bare(text))

    def answered(self, path):
        """Status and text of the office's own answer to a question."""
        head, _end, body = response(self.office, get(path)).partition('\r\n\r\n')
        return int(head.split(' ')[1]), bare(body)

    def explained(self, text):
        """What is wrong with a text, as the command says it."""
        words = [self.installed.office.program, 'explain', '-']
        said = subprocess.run(words, input=text.encode('latin-1'), stdout=subprocess.PIPE, check=False).stdout
        return 200, bare(said.decode('latin-1'))

    def standing(self, code):
        """A partner's line of the partners' report."""
        lines = report_of(self.office, 'partners').splitlines()
        return 200, next(line for line in lines if line.startswith(code + ' '))

    def same(self, name, wanted, came):
        """An answer is as wanted, with what the gateway adds, and the rows after it are those of the model."""
        self.checks.expect(name, wanted, (came.status, bare(came.body)))
        fields = came.head.split('\r\n')
        self.checks.expect(name + ': what is added', [1, 1, 1], [fields.count(field) for field in ADDED])
        self.rows(name)

    def rows(self, name):
        """Not one row is other than it should be."""
        rows, faults = rows_in(self.installed.office.store)
        self.checks.expect(name + ': SQLite finds', [], faults)
        wanted = rows_of(self.office)
        self.checks.expect(name + ': the rows', True, rows == wanted)
        if rows != wanted:
            differing = [table for table in wanted if wanted[table] != rows.get(table)]
            self.checks.expect(name + ': tables that differ', [], differing)


# ---- a store whose order of arrival is not known

def texts_in(store):
    """The texts that a store keeps, in the order in which they came: an interchange is never removed, so SQLite's own number
    of a row grows as they come."""
    with tempfile.TemporaryDirectory(prefix='gateway-') as folder:
        held = os.path.join(folder, 'store')
        for end in ('', '-wal'):
            if os.path.exists(store + end):
                shutil.copyfile(store + end, held + end)
        opened = sqlite3.connect(held)
        try:
            return [body.decode('latin-1') for (body,) in opened.execute('SELECT body FROM interchange ORDER BY rowid')]
        finally:
            opened.close()


class Replayed:
    """The model fed with what a store keeps, and so with its next state: what was kept before comes first."""

    def __init__(self, setup):
        self.office, self.texts = Office(setup, keeps_fold=True), []

    def follows(self, checks, name, store):
        """A store keeps what it kept before, and more after it; it has as many visits as the model, which is cheap to see. Gives
        its rows."""
        texts = texts_in(store)
        checks.expect(name + ': what was kept before is kept', True, self.texts == texts[:len(self.texts)])
        for text in texts[len(self.texts):]:
            self.office.answer(text)
        self.texts = texts
        rows, faults = rows_in(store)
        checks.expect(name + ': SQLite finds', [], faults)
        checks.expect(name + ': visits', len(self.office.fold().terminal.visits), len(rows.get('visit', [])))
        return rows

    def holds(self, checks, name, store):
        """All rows of a store are the model's, after the texts that it keeps, in their order."""
        rows = self.follows(checks, name, store)
        checks.expect(name + ': the rows are the model\'s', True, rows == rows_of(self.office))
        return len(self.texts)

    def replied(self, checks, name, partner, number, body):
        """An answer with a reply has the model's."""
        answer = json.loads(body)
        if 'reply' in answer:
            wanted = json.loads(json_text(self.office.fold().replies[partner, number]))
            checks.expect('%s: the reply to %s %d' % (name, partner, number), wanted, answer['reply'])
