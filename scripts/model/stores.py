"""The program over stores in files, beside the model: set-ups, deliveries, reports, rows, HTTP."""
import json
import os
import random
import subprocess
import tempfile
from collections import Counter
from functools import partial

from .asking import SECONDS, exchanged, free_port
from .closing import never_closed
from .commands import outcome, texts_before_lost
from .days import NEWCOMERS, Day, streamed
from .deliveries import kept_texts
from .files import written
from .http import response
from .office import Office, json_text
from .reports import WHOLE, has_key, text_of
from .requests import NAME, every_key, question, random_requests
from .rows import REGISTER_COLUMNS, register_rows, registered_in, rows_in, rows_of
from .setup import DEMO, read_setup
from .setups import Files, at_limits, files_of
from .stream import answers, lines, status

LONGEST = 600               # seconds that a command may take

# how many set-ups are tried, lists of deliveries over a store, requests by HTTP, and what is asked after each list
SETUPS = 150
LISTS = 40
DELIVERIES = 12             # in each of one to three calls
ALTERED = 0.08              # of them with altered bytes
QUESTIONS = 6
SERVED = 6                  # lists that are followed by requests
REQUESTS = 35
BOUNDS = [None, 1, 2]       # how far above its next number a partner's may be
HOSTS = [None, NAME]        # the name of the server


class Program:
    """The program, with a store in a folder of its own."""

    def __init__(self, path, folder):
        self.path, self.folder = path, folder
        self.store = os.path.join(folder, 'office.db')

    def file(self, name, text):
        """A file in the folder, of those bytes."""
        return written(self.folder, name, text)

    def run(self, *words, given=''):
        """What it prints, what it tells of faults, and its status, with what is given to its standard input."""
        whole = dict(input=given.encode('latin-1'), capture_output=True, check=False, timeout=LONGEST)
        try:
            done = subprocess.run([self.path, *words], **whole)
        except subprocess.TimeoutExpired:
            return '', 'it does not end', None
        return done.stdout.decode('utf-8'), done.stderr.decode('utf-8'), done.returncode

    def init(self, partners, blocks):
        """Makes the tables by a set-up."""
        return self.run('init', self.store, self.file('partners.csv', partners), self.file('blocks.csv', blocks))

    def deliver(self, text):
        """The answers to a stream."""
        return self.run('deliver', self.store, self.file('stream.edi', text))

    def texts(self, passed):
        """The texts that are kept, after so many of them, byte for byte."""
        done = subprocess.run([self.path, 'texts', self.store, str(passed)], capture_output=True, check=False)
        return done.stdout.decode('latin-1'), done.stderr.decode('utf-8'), done.returncode

    def account(self, code, kind):
        """The answer to the addition of an account."""
        return self.run('account', self.store, code, kind)

    def migrate(self, old):
        """Brings an old store to the newest version, as this one."""
        return self.run('migrate', old, self.store)

    def close(self, *archive):
        """Puts away what an archive keeps; of a copy that is made, if none is named."""
        return self.run('close', self.store, *archive)

    def report(self, kind, key, view=()):
        """A report, as text or as a flag says; those on the whole terminal have no key."""
        return self.run('report', self.store, kind, *([key] if has_key(kind) else []), *view)

    def before_last(self, process):
        """What is done with a server before its last request."""

    def serve(self, requests, expect, exchange=None, ahead=None, host=None):
        """Sends each request on a connection of its own, and hands on the response that it should have beside the one
        that it has. By the path of a partner numbers may be above its next one by so many, or by any; the server may have a
        name."""
        exchange = exchange or exchanged
        port = free_port()
        words = [self.path, 'serve', self.store, str(port), str(len(requests))]
        words += options_of(ahead, host)
        with subprocess.Popen(words, stdout=subprocess.PIPE, encoding='utf-8') as process:
            try:
                expect('listening', 'listening 127.0.0.1:%d\n' % port, process.stdout.readline())
                for place, (request, wanted) in enumerate(requests):
                    if place == len(requests) - 1:
                        self.before_last(process)
                    expect('request %d, %r' % (place, request[:300]), wanted, exchange(port, request))
                expect('served', ('served %d\n' % len(requests), 0), (process.stdout.read(), process.wait(SECONDS)))
            except (OSError, subprocess.TimeoutExpired) as fault:
                expect('a connection', 'an answer', repr(fault))
            finally:
                process.kill()


class Beside:
    """What was compared, by what it was, and what differs."""

    def __init__(self, path):
        self.path, self.counted, self.shown = path, Counter(), []

    def expect(self, kind, name, wanted, got):
        """Counts a comparison, and keeps what differs."""
        self.counted[kind] += 1
        if wanted != got:
            texts = name, kind, cut_short(wanted), cut_short(got)
            self.shown.append('%s: %s\n  model   %s\n  program %s' % texts)

    # ---- one thing at a time

    def init(self, name, program, files):
        """Makes a store by a set-up, twice. The office that it is for, or None where the set-up is refused."""
        setup, fault = read_setup(*files)
        refused = ('', 'setup: %s\n' % fault, 1)
        self.expect('init ' + (fault or 'ready'), name, refused if fault else ('ready\n', '', 0), program.init(*files))
        if fault:
            self.expect('no store', name, False, os.path.exists(program.store))
            return None
        self.expect('init again', name, ('', 'store: Store\n', 3), program.init(*files))
        return Office(setup, keeps_fold=True)

    def deliver(self, name, program, office, text):
        """A stream over a store: every line, and the status."""
        given = answers(office, text)
        self.expect('deliver', name, (text_of(lines(given)), '', status(given)), program.deliver(text))
        self.counted['answers over a store'] += len(given)

    def account(self, name, program, office, code, kind):
        """An addition by a command."""
        answer = office.add_account(code, kind)
        wanted = json_text(answer) + '\n', '', 1 if answer['answer'] == 'refused' else 0
        self.expect('account ' + answer['answer'], name, wanted, program.account(code, kind))

    def report(self, name, program, office, kind, key='', view=()):
        """A report, or that there is none, or that it can't be had; as text or as a flag says."""
        wanted = outcome({'store': office}, ['report', 'store', kind, *([key] if has_key(kind) else []), *view])
        found, got = {0: 'found', 1: 'not found'}.get(wanted[2], 'not to be had'), program.report(kind, key, view)
        self.expect(' '.join(['report', kind, *view, found]), '%s, %s' % (name, key), wanted, got)

    def rows(self, name, program, office):
        """The rows of all tables, and that the store is sound."""
        wanted, (got, faults) = rows_of(office), rows_in(program.store)
        self.expect('integrity and foreign keys', name, [], faults)
        for table in sorted(set(wanted) | set(got)):
            model, stored = Counter(wanted.get(table, [])), Counter(got.get(table, []))
            self.expect('table ' + table, name, sorted(model - stored), sorted(stored - model))

    def register(self, name, path, office):
        """The rows of the register beside a store."""
        wanted, (got, faults) = register_rows(office), registered_in(path)
        self.expect('integrity and foreign keys', name, [], faults)
        for table in REGISTER_COLUMNS:
            self.expect('register, table ' + table, name, wanted[table], got.get(table))
        self.expect('register, tables', name, set(REGISTER_COLUMNS), set(got))

    def texts(self, name, program, office, chance):
        """The texts that are kept, from the first and from another one on, after the last, and beyond it. Before an archive that
        can't be asked some may be printed."""
        count, lost = len(kept_texts(office.deliveries)), office.first_lost
        kind = 'texts, an archive is lost' if lost else 'texts, with archives' if office.register.archives else 'texts'
        for passed in sorted({0, chance.randint(0, count), count, count + 1}):
            wanted, got = outcome({'store': office}, ['texts', 'store', str(passed)]), program.texts(passed)
            if lost and got[0] in texts_before_lost(office, passed):
                got = wanted[0], *got[1:]
            self.expect(kind, '%s, after %d' % (name, passed), wanted, got)

    def rebuilt(self, name, program, office):
        """An office of the same set-up and accounts, to which the texts are delivered that this one keeps: it has the rows of one
        that was never closed, and the same texts in the same order."""
        kept = program.texts(0)
        with tempfile.TemporaryDirectory(prefix='beside-') as folder:
            other = Program(self.path, folder)
            other.init(*files_of(office.setup))
            answers_of = Counter(json.loads(line)['answer'] for line in other.deliver(kept[0])[0].splitlines())
            self.expect('rebuilt', name + ', answers', set(), set(answers_of) - {'taken', 'waiting'})
            self.expect('rebuilt', name + ', rows', (rows_of(never_closed(office)), []), rows_in(other.store))
            self.expect('rebuilt', name + ', texts', kept, other.texts(0))

    def serve(self, name, program, office, requests, ahead=None, host=None):
        """Requests by HTTP, each with the response that it should have."""
        responses = [(request, response(office, request, ahead, host)) for request in requests]
        program.serve(responses, partial(self.served, name), ahead=ahead, host=host)

    def served(self, name, what, wanted, got):
        """What came over a connection."""
        self.expect(kind_of(wanted), '%s, %s' % (name, what), wanted, got)


def options_of(ahead, host):
    """The words by which a server has a bound and a name."""
    return ([] if ahead is None else ['--ahead', str(ahead)]) + ([] if host is None else ['--host', host])


def cut_short(value):
    """A value, as far as it is shown."""
    return repr(value)[:2000]


def kind_of(wanted):
    """What a response is counted as: its status line, or what the program says of its port."""
    return 'serve ' + wanted.split('\r\n')[0] if isinstance(wanted, str) and wanted.startswith('HTTP') else 'serve'


# ---- runs

def try_setup(beside, name, files):
    """A set-up, and the rows of its store."""
    with tempfile.TemporaryDirectory(prefix='beside-') as folder:
        program = Program(beside.path, folder)
        office = beside.init(name, program, files)
        if office:
            beside.rows(name, program, office)


def try_setups(beside):
    """Set-ups at the limits, and random ones, most of them spoiled."""
    for place, files in enumerate(at_limits(), start=1):
        try_setup(beside, 'set-up %d at the limits' % place, files)
    for seed in range(1, SETUPS + 1):
        files = Files(seed)
        texts = files.both()
        try_setup(beside, 'set-up %d' % seed, files.spoiled(*texts) if seed % 10 else texts)


def try_list(beside, seed, requests):
    """Deliveries in one to three calls over a store of a random set-up, with additions between them, with all reports and
    rows after them, and then requests by HTTP, with the rows again."""
    name, chance = 'list %d' % seed, random.Random('list %d' % seed)
    files = Files(seed).both()
    if read_setup(*files)[1] or seed % 8 == 0:
        files = files_of(DEMO)
    with tempfile.TemporaryDirectory(prefix='beside-') as folder:
        program = Program(beside.path, folder)
        office = beside.init(name, program, files)
        day = Day(seed, office.setup, NEWCOMERS)
        for _call in range(chance.choice([1, 2, 3])):
            beside.deliver(name, program, office, streamed(day, DELIVERIES, ALTERED))
            if chance.random() < 0.7:
                beside.account(name, program, office, *day.addition())
        asked = [question(chance, office) for _question in range(QUESTIONS)]
        for kind, key in WHOLE + asked:
            beside.report(name, program, office, kind, key)
            beside.report(name, program, office, kind, key, (chance.choice(['--json', '--csv']),))
        beside.rows(name, program, office)
        beside.texts(name, program, office, chance)
        beside.rebuilt(name, program, office)
        if requests:
            beside.serve(name, program, office, random_requests(chance, day, office, requests), chance.choice(BOUNDS), chance.choice(HOSTS))
            beside.rows(name, program, office)


def try_faults(beside):
    """Command lines, files and stores that are at fault, the first fault by the order of the words (own)."""
    with tempfile.TemporaryDirectory(prefix='beside-') as folder:
        program = Program(beside.path, folder)
        store, missing = program.store, os.path.join(folder, 'missing')
        partners, blocks = (program.file(name, text) for name, text in zip(('partners', 'blocks'), files_of(DEMO)))
        bad = program.file('bad', 'what,name\n')
        usage, unread, no_store = 'usage: office report DB KIND [KEY]\n', 'cannot read\n', 'store: Store\n'
        for words, told_of, ended in (
                (['init', store, missing, blocks], unread, 3), (['init', store, bad, missing], unread, 3),
                (['init', store, bad, blocks], 'setup: Csv\n', 1), (['report', store, 'yard'], no_store, 3),
                (['report', store, 'visits', '%'], no_store, 3), (['deliver', store, missing], unread, 3),
                (['deliver', store, partners], no_store, 3), (['report', store, 'list'], usage, 2),
                (['report', store, 'yard', 'A'], usage, 2), (['report', store, 'yardcsv', ''], usage, 2),
                (['report', store, 'container'], usage, 2), (['report', store, 'blocks', ''], usage, 2),
                (['report', store, 'yard', '--json', '--csv'], usage, 2), (['report', store, 'yardcsv', '--json'], usage, 2),
                (['report', store, 'archives', '--csv'], usage, 2), (['report', store, '--json', 'container'], usage, 2)):
            beside.expect('faults', ' '.join(words), ('', told_of, ended), program.run(*words))
        beside.expect('init ready', 'faults', ('ready\n', '', 0), program.run('init', store, partners, blocks))
        beside.expect('faults', 'init again', ('', 'setup: Csv\n', 1), program.run('init', store, bad, blocks))
        beside.expect('faults', 'an odd key', ('none\n', '', 1), program.run('report', store, 'visits', '%'))


def over_store(beside, name, setup, text):
    """A stream over a new store: its lines, the rows, and each report."""
    with tempfile.TemporaryDirectory(prefix='beside-') as folder:
        program = Program(beside.path, folder)
        office = beside.init(name, program, files_of(setup))
        beside.deliver(name, program, office, text)
        beside.rows(name, program, office)
        for kind, key in WHOLE + every_key(office):
            beside.report(name, program, office, kind, key)


def try_all(beside):
    """Faults, and then all random ones."""
    try_faults(beside)
    try_setups(beside)
    for seed in range(1, LISTS + 1):
        try_list(beside, seed, REQUESTS if seed <= SERVED else 0)


def told(beside):
    """Prints what was compared and what differs; gives how many do."""
    print('set-ups, stores and requests: %d compared' % sum(beside.counted.values()))
    for kind, count in sorted(beside.counted.items()):
        print('%10d  %s' % (count, kind))
    print('%d differ' % len(beside.shown))
    print(''.join(text + '\n' for text in beside.shown), end='')
    return len(beside.shown)
