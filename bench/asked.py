"""What a request costs: pages beside the reports that they show, the journal from the front and from the back of a store, and a
report that several clients ask for at a time.

Instructions are those of so many requests more to a server that valgrind counts, so those of its start and opening are left out.
"""
import os
import shutil
import tempfile

import streams
from pages import MOST_TEXTS, begun, what_of
from rows import IN_MEMORY, MARKS, Row, filled, free_port, medians
from running import COUNTING, Server, Stream, counted_in, processor_seconds

FEW, MORE = 5, 15           # requests whose instructions are counted
CLIENTS, GETS, POSTS = (1, 10, 100), 5_000, 2_000   # how many are open at a time; requests that are timed
SMALL = 200                 # containers of a small yard
TURNS, TIMED = 5, 20        # of which the least counts; requests that are timed together
SIZE = 1024                 # bytes of a page of a new store
BOX = streams.box(5000)
SHOWN = [                   # a page, and the report beside it
    ('/pages/yard', '/yard'), ('/pages/containers/' + BOX, '/containers/' + BOX), ('/', '/blocks'),
    ('/pages/blocks', '/blocks')]


def counted(stores, client, store, path):
    """Thousands of instructions of a GET."""
    told, totals = stores.path_of('told'), []
    for count in (FEW, MORE):
        server = Server(*COUNTING, '--log-file=' + told, stores.office, 'serve', store, str(free_port()), str(count))
        server.asked(client, path, str(count))
        server.close()
        with open(told, 'rb') as file:
            totals.append(counted_in(file.read()))
    return (totals[1] - totals[0]) / (MORE - FEW) / 1e3


def timed(stores, client, store, path):
    """Milliseconds of a processor of a GET."""
    server, spent = Server(stores.office, 'serve', store, str(free_port()), str(TURNS * TIMED)), []
    for _turn in range(TURNS):
        before = processor_seconds(server.process)
        server.asked(client, path, str(TIMED))
        spent.append((processor_seconds(server.process) - before) / TIMED * 1e3)
    server.close()
    return min(spent)


def shown(stores, client):
    """Pages of a yard of 10,000 containers."""
    store, costs = filled(stores)[0], {}
    for path in dict.fromkeys(path for both in SHOWN for path in both):
        costs[path] = counted(stores, client, store, path)
    for page, report in SHOWN:
        what = 'GET %s, 10,000 containers; peer: GET %s' % (page, report)
        yield Row(what, 'thousand instructions', costs[page], costs[report], '1.5 times')


def journal(stores, client, kept, measure, unit, wanted=''):
    """A mebibyte of the journal, or a little less, from both ends."""
    for store in begun(stores, SIZE, kept):
        for after in (0, kept - MOST_TEXTS):
            path = '/texts/%d' % after
            yield Row(what_of('GET ' + path, SIZE, kept), unit, measure(stores, client, store, path), None, wanted)


def asked(stores, client):
    """All of these; without valgrind only what is timed."""
    if shutil.which('valgrind'):
        yield from shown(stores, client)
        yield from journal(stores, client, MARKS[1], counted, 'thousand instructions')
    yield from journal(stores, client, MARKS[-1], timed, 'ms of a processor', '10 ms')


def by_clients(stores, client):
    """A small yard's report and deliveries without sync, by so many clients at a time; beside the office of the path BEFORE in the
    environment, if it names one, else beside the peer. Five runs, in each of which one program follows the other."""
    store = stores.new('office-clients')
    office = Stream(stores.office, 'deliver', store, '-')
    office.feed(streams.filling(SMALL))
    office.close()
    posts = stores.file('posts.edi', ''.join(text + '\n' for text in streams.gates(POSTS)))
    return medians(lambda: [
        of(stores, client, what, clients) for of, what in ((got_by, store), (posted_by, posts)) for clients in CLIENTS])


def got_by(stores, client, store, clients):
    """The row of a yard's report by so many clients."""
    spent = [by_so_many(program, client, store, GETS, '/yard', str(GETS), str(clients)) for program in both(stores)]
    return row_of('GET /yard, %d containers, %d at a time' % (SMALL, clients), spent)


def posted_by(stores, client, posts, clients):
    """The row of deliveries by so many clients, to a new store of each program in memory."""
    spent = []
    with tempfile.TemporaryDirectory(prefix='bench-', dir=IN_MEMORY) as folder:
        for number, program in enumerate(both(stores)):
            store = stores.new('posted-%d' % number, folder=folder)
            spent.append(by_so_many(program, client, store, POSTS, '@' + posts, str(clients)))
    return row_of('POST of a gate-in or gate-out, no sync, %d at a time' % clients, spent)


def both(stores):
    """The office and what it is measured beside, if there is anything."""
    return [program for program in (stores.office, os.environ.get('BEFORE') or stores.peer) if program]


def by_so_many(program, client, store, requests, *words):
    """Microseconds of a request, of so many to a server."""
    server = Server(program, 'serve', store, str(free_port()), str(requests))
    spent = server.asked(client, *words)[0] * 1e6
    server.close()
    return spent


def row_of(what, spent):
    """The row of what was spent by both."""
    return Row(what, 'us', *(spent + [None])[:2], '1.0 times' if os.environ.get('BEFORE') else '', True)
