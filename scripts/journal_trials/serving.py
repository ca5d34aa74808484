"""A standby that asks office-first, at a first office that serves meanwhile: texts come by its route, a page at a time.

The server is killed by chance between turns and within them, and so is a whole turn.
"""
import os
import signal
import tempfile
import threading

from hostile.books import expect, naming
from hostile.kills import Moment, Pace
from hostile.working import Served
from model.deliveries import kept_texts
from model.files import TOP

from .follow import Standby
from .offices import are_same, new_book

FIRST = os.path.join(TOP, 'examples/standby/bin/office-first')

SHARE = 5                   # of the lists, one in so many
TURNS = 6
MOST = 6                    # deliveries and additions from turn to turn
KILLED = 0.4                # of the times that the first takes something
WHOLE, SERVER = 0.3, 0.4    # of the turns: killed whole, or the first's server meanwhile


class AsksServed(Standby):
    """A standby of a first office that serves."""

    def __init__(self, book, folder):
        super().__init__(book, folder)
        self.environment.update(FIRST=FIRST, SOCKET='', TMPDIR=folder, OFFICE=self.program)

    def asks(self, served):
        """It asks this server from now on, which is ready for it."""
        expect('it serves', True, served.listening())
        self.environment['URL'] = 'http://127.0.0.1:%d' % served.port
        return served


def goes_on(book, served, pace, counted):
    """The first takes what comes next by its server, which is killed meanwhile by chance. Gives the one that then serves."""
    sent = book.upcoming(book.chance.randint(0, MOST))
    if not sent or book.chance.random() > KILLED:
        lines = []
        served.answers(sent, lines.append)
        expect('as many answers', len(sent), len(lines))
        book.take(lines)
        return served
    moment = Moment(book.chance, served, pace)
    served.answers(sent, moment.read)
    moment.over()
    served.stop()
    book.take(moment.lines)
    book.found(sent[len(moment.lines)] if len(moment.lines) < len(sent) else None)
    counted['kills of the first while it takes something'] += 1
    return Served(book.program, book.store)


def turn(standby, served, counted):
    """A turn, which is killed by chance, or the server within it. Gives the one that then serves."""
    book, kind = standby.first, standby.chance.random()
    if kind < WHOLE:
        status, said = standby.turn(standby.chance.uniform(0, 1.2 * standby.pace))
        expect('a turn that is killed: %s' % said, True, status in (-signal.SIGKILL, 0))
        counted['turns killed whole'] += status == -signal.SIGKILL
    elif kind < WHOLE + SERVER:
        killing = threading.Timer(standby.chance.uniform(0, standby.pace), served.process.kill)
        killing.start()
        status, said = standby.turn()
        killing.join()
        served.stop()
        expect('a turn whose server is killed: %s' % said, True, status in (0, 3))
        counted['kills of the first within a turn, which ended with %d' % status] += 1
        served = Served(book.program, book.store)
    else:
        expect('a turn', (0, ''), standby.turn())
        counted['turns without a kill'] += 1
    counted['texts that came in turns'] += standby.brought()
    return served


def followed(standby, counted):
    """Turns, between which the first serves on; at the end one without a kill, and once nobody serves both are the same."""
    book, pace = standby.first, Pace()
    served = standby.asks(Served(book.program, book.store))
    try:
        for _turn in range(TURNS):
            served = standby.asks(goes_on(book, served, pace, counted))
            served = standby.asks(turn(standby, served, counted))
        expect('the last turn', (0, ''), standby.turn())
    finally:
        served.stop()
    standby.brought()
    expect('texts at the end', len(kept_texts(book.office.deliveries)), standby.has)
    are_same(book, standby)
    counted['standbys that followed an office that serves'] += 1


def try_all(program, lists, seed, counted):
    """A share of that many lists."""
    for each in range(seed, seed + -(-lists // SHARE)):
        with naming('seed %d' % each), tempfile.TemporaryDirectory(prefix='journal-') as folder:
            book, other = new_book(program, folder, each), os.path.join(folder, 'standby')
            os.mkdir(other)
            followed(AsksServed(book, other).init(), counted)
