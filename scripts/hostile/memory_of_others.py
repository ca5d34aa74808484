"""Each allocation of `init`, `report`, `texts`, `serve`, `account`, `migrate` and `close` refused in turn: scripts/memory.

With one allocation refused, a command does what it does with all of them, or it tells by name that memory ran out. An
`init` that told so left no store, or a whole one; a `report` or a request that is answered so changes nothing.
"""
import os
import subprocess
import tempfile
from copy import deepcopy
from functools import partial

from model.asking import account, exchanged, free_port, get, post
from model.commands import outcome
from model.files import SETUP
from model.http import response
from model.office import Office, json_text
from model.pages import KINDS as PAGED
from model.reports import REPORTS, WHOLE, printed
from model.requests import every_key, path_of
from model.rows import copy_files, rows_in, rows_of
from model.setup import DEMO
from model.syntax import sender_of
from model.vessels import REPORTED
from model.views import SHOWN, has_view, printed_as

from .books import Different, expect
from .calls_of_others import NOT_NOW
from .closings import CLOSED, SEED, Prepared, refuse_closing
from .commands import CODE, KIND, SHARES, refuse_addition, refuse_migration


UNUSED = 'ABCU9999990'      # a container that never came
PRINTING = 20               # more allocations than printing takes that nothing is found

# what a command may tell that had no memory
WANTS = {('', 'store: Memory\n', 3), ('', 'setup: Memory\n', 1), ('', 'cannot read\n', 3), ('', '', 3)}
# what `serve` tells, too, as it begins to listen
NO_PORT = ('', 'cannot listen\n', 3)
# and what `deliver` prints that takes nothing then
LEFT = {('{"answer":"not now"}\n', '', 3), ('{"answer":"cut","fault":"Memory"}\n', '', 3)}


def allocations_of(refusing, words):
    """How many a process makes that nothing is refused."""
    refusing.run(words)
    return refusing.allocations()


def remove(store):
    """Removes a store and its log."""
    for end in ('', '-wal'):
        if os.path.exists(store + end):
            os.remove(store + end)


# ---- init

def refuse_init(refusing, _office, _text, steps, counted):
    """Allocations of `init`, each of the second step."""
    words = ['init', refusing.store, *SETUP]
    remove(refusing.store)
    wanted = rows_of(Office(DEMO)), []
    for refused in range(1, allocations_of(refusing, words) + 1, steps[1]):
        remove(refusing.store)
        what = 'init, allocation %d' % refused
        given = refusing.run(words, refused)
        if given not in WANTS:
            expect(what, ('ready\n', '', 0), given)
            counted['init: ready'] += 1
        else:
            again = refusing.run(words)
            if again not in {('ready\n', '', 0), ('', 'store: Store\n', 3)}:
                raise Different('%s, again: %r' % (what, again))
            counted['init: told that memory ran out; ' + ('no store' if again[2] == 0 else 'a store')] += 1
        expect(what + ', rows', wanted, rows_in(refusing.store))


# ---- report

def keys_of(office):
    """Each kind of report, under a key that finds something where one does."""
    found = {kind: key for kind, key in every_key(office) if printed(office, kind, key)[1] == 0}
    expect('kinds of reports', sorted(REPORTS), sorted([kind for kind, _key in WHOLE] + list(found)))
    return [*WHOLE, *found.items()]


def views_of(kind):
    """As what a report is shown that is no page."""
    return [view for view in SHOWN if view == 'text' or kind in PAGED and has_view(kind, view)]


def refuse_reports(refusing, office, _text, steps, counted):
    """Allocations of a report of each kind, as text, JSON and CSV: of those by which it opens the store each of a first step, of
    those after them each of a second."""
    before = rows_in(refusing.store)
    opened = allocations_of(refusing, ['report', refusing.store, 'visits', UNUSED]) - PRINTING
    for kind, key, view in [(kind, key, view) for kind, key in keys_of(office) for view in views_of(kind)]:
        words = ['report', refusing.store, kind, *([key] if key else []), *(['--' + view] if view != 'text' else [])]
        text, ended = printed_as(office, view, kind, key)
        wanted = text, '', ended
        behind = range(opened + 1, allocations_of(refusing, words) + 1, steps[1])
        for refused in [*range(1, opened + 1, steps[0]), *behind]:
            given = refusing.run(words, refused)
            if given not in WANTS:
                expect('report %s as %s, allocation %d' % (kind, view, refused), wanted, given)
            counted['report %s as %s: %s' % (kind, view, 'told that memory ran out' if given in WANTS else 'the report')] += 1
    expect('rows behind the reports', before, rows_in(refusing.store))


# ---- texts

def refuse_texts(refusing, _office, _text, steps, counted):
    """Allocations of `texts` of a store with an archive: of those by which it opens the store each of a first step, of those after
    them each of a second. What it printed before memory ran out is a front of what it owes."""
    with tempfile.TemporaryDirectory(prefix='memory-') as folder:
        book = Prepared(refusing.program, folder, SEED, True).book
        wanted, before = outcome({'store': book.office}, ['texts', 'store']), rows_in(book.store)
        opened = allocations_of(refusing, ['report', book.store, 'visits', UNUSED]) - PRINTING
        words = ['texts', book.store]
        expect('texts', wanted, refusing.run(words, coded='latin-1'))
        every = refusing.allocations()
        for refused in [*range(1, opened + 1, steps[0]), *range(opened + 1, every + 1, steps[1])]:
            given = refusing.run(words, refused, 'latin-1')
            is_told = ('', *given[1:]) in WANTS and wanted[0].startswith(given[0])
            if not is_told:
                expect('texts, allocation %d' % refused, wanted, given)
            counted['texts: %s' % ('told that memory ran out' if is_told else 'all')] += 1
        expect('rows behind the texts', before, rows_in(book.store))


# ---- lists

def refuse_lists(refusing, _office, _text, steps, counted):
    """Allocations of a delivery that names a list that is away, and of a report on it, once the store is open: each of a second
    step. Without memory the delivery leaves the list away or there, and all else as before; a report changes nothing."""
    with tempfile.TemporaryDirectory(prefix='memory-') as folder:
        book = Prepared(refusing.program, folder, SEED, True).book
        start = os.path.join(folder, 'start.db')
        copy_files(book.store, start)
        call, side = min(book.office.away)
        text = book.vessels().text(book.office, REPORTED[side], call, ['ABCU0000017'])
        key = '/'.join(word.replace('/', '%2F') for word in (*call, side))
        back, taken = deepcopy(book.office), deepcopy(book.office)
        back.brings_back([(call, side)])
        opened = allocations_of(refusing, ['report', book.store, 'visits', UNUSED]) - PRINTING
        naming, asking = ['deliver', book.store, book.file('naming.edi', text)], ['report', book.store, 'list', key]
        for words, wanted, after, others in (
                (naming, (json_text(taken.answer(text)) + '\n', '', 0), taken, [book.office, back]),
                (asking, (printed(book.office, 'list', key)[0], '', 0), book.office, [book.office])):
            copy_files(start, book.store)
            for refused in range(opened + 1, allocations_of(refusing, words) + 1, steps[1]):
                copy_files(start, book.store)
                what, given = '%s a list that is away, allocation %d' % (words[0], refused), refusing.run(words, refused)
                rows = [rows_of(office) for office in ([after] if given == wanted else others)]
                if given not in WANTS | LEFT | {wanted} or rows_in(book.store)[0] not in rows:
                    raise Different('%s: %r' % (what, given))
                if given != wanted:
                    expect(what + ', again', wanted, refusing.run(words))
                    expect(what + ', rows again', (rows_of(after), []), rows_in(book.store))
                counted['%s a list that is away: %s' % (words[0], 'as ever' if given == wanted else 'no memory')] += 1


# ---- serve

class Server:
    """`serve` of a few connections with an allocation refused."""

    def __init__(self, refusing, count, refused):
        self.port = free_port()
        words = [refusing.program, 'serve', refusing.store, str(self.port), str(count)]
        added = dict(LD_PRELOAD=refusing.library, REFUSE_AT=str(refused), REFUSE_TOLD=refusing.told)
        self.process = subprocess.Popen(
            words, stdout=subprocess.PIPE, stderr=subprocess.PIPE, encoding='utf-8', env=dict(os.environ, **added))
        self.line = self.process.stdout.readline()

    def end(self):
        """What it printed after its first line, what it told, and its status."""
        printed_behind, told = self.process.communicate(timeout=60)
        return printed_behind, told, self.process.returncode


def refuse_requests(refusing, before, text, steps, counted):
    """Each allocation of a server that is sent a delivery, a question and the delivery again, and then an account twice."""
    start = os.path.join(refusing.folder, 'start.db')
    refusing.copy_to(start)
    requests = [post(text), get('/yard'), post(text), account(CODE, KIND), account(CODE, KIND)]
    opened = serve(refusing, before, requests[:1], 0, counted, 'serve')
    refusing.copy_from(start)
    every = serve(refusing, before, requests, 0, counted, 'serve')
    first = opened - (every - opened)
    for refused in [*range(1, first, steps[0]), *range(max(first, 1), every + 1, steps[1])]:
        refusing.copy_from(start)
        serve(refusing, before, requests, refused, counted, 'serve')
    refusing.copy_from(start)


def routes_of(office, text):
    """Requests by each route that shows pages, JSON, CSV or texts, and a delivery by the path of its sender, each by its name."""
    found = {'/': get('/'), '/calls': get('/calls'), '/texts/..': get('/texts/0'), '/pages/yard/..': get('/pages/yard/A')}
    for kind, key in keys_of(office):
        for front in (['/pages'] if kind in PAGED else []) + ['/' + view for view in views_of(kind) if view != 'text']:
            path = front + path_of(kind, key)
            found['/'.join([*path.split('/')[:3], *['..'] * bool(key)])] = get(path)
        if kind == 'container':
            found['/pages/find'] = get('/pages/find?container=' + key)
            found['/pages/find, the end of a number'] = get('/pages/find?container=' + key[-4:])
            found['/pages/containers/.., never came'] = get('/pages/containers/' + UNUSED)
    found['/partners/../interchanges'] = post(text).replace(' /', ' /partners/%s/' % sender_of(text), 1)
    return found


def refuse_routes(refusing, before, text, steps, counted):
    """Each allocation of a server, once it listens, that is sent one of these requests twice."""
    start = os.path.join(refusing.folder, 'start.db')
    refusing.copy_to(start)
    opened = serve(refusing, before, [get('/none')], 0, counted, 'serve') - PRINTING
    for name, request in routes_of(before, text).items():
        every = serve(refusing, before, [request, request], 0, counted, 'serve ' + name)
        for refused in range(opened + 1, every + 1, steps[1]):
            refusing.copy_from(start)
            serve(refusing, before, [request, request], refused, counted, 'serve ' + name)
        refusing.copy_from(start)


def answer_to(server, request):
    """What a server answers to a request; nothing, if it closes the connection without an answer."""
    try:
        return exchanged(server.port, request)
    except OSError:
        return ''


def serve(refusing, before, requests, refused, counted, name):
    """A server that is sent these requests: how many allocations it made. It may close one connection for which it had no memory,
    with nothing done."""
    office, server = deepcopy(before), Server(refusing, len(requests), refused)
    what = '%s, allocation %d' % (name, refused)
    if not server.line:
        if server.end() not in WANTS | {NO_PORT}:
            raise Different(what + ', not opened')
        counted[name + ': told that memory ran out'] += 1
        return refusing.allocations()
    closed = 0
    for request in requests:
        given = answer_to(server, request)
        if given == NOT_NOW:
            counted[name + ': not now'] += 1
        elif not given and refused and not closed:
            closed = 1
            counted[name + ': closed'] += 1
        else:
            expect(what, response(office, request), given)
            counted[name + ': answered'] += 1
    expect(what + ', end', ('served %d\n' % len(requests), '', 0), server.end())
    expect(what + ', rows', (rows_of(office), []), rows_in(refusing.store))
    return refusing.allocations()


# each with whatever it is tried on: the program, the office that its store holds, and a text that is next
OTHERS = {
    **{'migrate, version %d, share %d' % (version, share): partial(refuse_migration, version, share)
       for version in (1, 2) for share in range(SHARES)},
    'init': refuse_init, 'serve': refuse_requests, 'routes': refuse_routes, 'reports': refuse_reports,
    'texts': refuse_texts, 'lists': refuse_lists,
    'account': refuse_addition, **{'close, %s' % what: partial(refuse_closing, what) for what in CLOSED}}
