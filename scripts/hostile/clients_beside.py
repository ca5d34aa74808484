"""Clients that lie beside others: silent ones, ones that drip, ones that hold or leave much, and a browser. None holds up a
delivery, none takes a wrong answer along, and what is held for them stays within its bound."""
import selectors
import tempfile
import threading
import time

from browser_trials.chromium import Chromium, browser_here
from model.asking import SECONDS, exchanged, get, post

from .clients_at_once import LARGE_YARD
from .clients_in_the_way import SLACK, TOO_SMALL, long_reply
from .served import Served, gate_in, received

SILENT = 200                # connections that send nothing
DRIPPING = 20               # connections that send a byte now and then
DRIP = 0.1                  # seconds between two such bytes
DELIVERIES = 30             # whose times are taken, alone and beside
MORE = 0.05                 # seconds that a delivery may take longer beside them
TRIES = 6                   # of times that the machine may have spoiled itself

CONNECTIONS = 10000
AT_ONCE = 40                # clients that make them
MOST_MORE = 64              # MB of memory that all of them may take
HOLDING = 250               # connections that each have sent nearly a mebibyte
UNREAD = 16                 # connections that each don't read seven
MOST_HELD = 68 + 32         # MB: the bound of what is held, and what lies between and what else a request of these sizes takes
TABS = 2


def most_memory(server):
    """The most memory that a server has taken, in MB."""
    with open('/proc/%d/status' % server.process.pid, encoding='ascii') as file:
        return next(int(line.split()[1]) for line in file if line.startswith('VmHWM')) * 1024 / 1e6


class Beside:
    """Silent and dripping connections beside others, until it is left. One that is closed comes again at once."""

    def __init__(self, server, silent=SILENT, dripping=DRIPPING):
        self.server, self.kinds, self.ends = server, [False] * silent + [True] * dripping, False
        self.came, self.drips = selectors.DefaultSelector(), set()
        self.thread = threading.Thread(target=self.stay)

    def __enter__(self):
        for drips in self.kinds:
            self.come(drips)
        self.thread.start()
        return self

    def __exit__(self, *_fault):
        self.ends = True
        self.thread.join()
        for key in list(self.came.get_map().values()):
            key.fileobj.close()
        self.came.close()

    def come(self, drips):
        """One more."""
        connection = self.server.connect()
        self.came.register(connection, selectors.EVENT_READ, drips)
        if drips:
            self.drips.add(connection)

    def stay(self):
        """They stay, and drip."""
        while not self.ends:
            end = time.monotonic() + DRIP
            while (left := end - time.monotonic()) > 0:
                for key, _event in self.came.select(left):
                    self.again(key.fileobj, key.data)
            for connection in list(self.drips):
                try:
                    connection.sendall(b'G')
                except OSError:
                    self.again(connection, True)

    def again(self, connection, drips):
        """One was closed, and another one comes."""
        self.came.unregister(connection)
        self.drips.discard(connection)
        connection.close()
        try:
            self.come(drips)
        except OSError:
            pass


def times(checks, server, name, numbers):
    """How long deliveries took, one after the other, from the connection to the end of the answer."""
    taken = []
    for _delivery in range(DELIVERIES):
        request = post(gate_in(next(numbers)))
        owed, began = server.owed(request), time.monotonic()
        with server.connect() as connection:
            connection.sendall(request.encode('latin-1'))
            came = received(connection)
        taken.append(time.monotonic() - began)
        checks.expect(name, owed, came)
    return taken


def no_later(checks, server, name, beside):
    """Deliveries beside others take no longer than alone, but for little. It begins anew where the machine was so busy that
    it held them up itself."""
    numbers = iter(range(1, 1000000))
    for _try in range(TRIES):
        alone = times(checks, server, 'alone', numbers)
        with beside(server):
            time.sleep(0.5)
            together = times(checks, server, name, numbers)
        more = max(together) - max(alone)
        if more <= MORE:
            break
    checks.within('the slowest of %d deliveries beside %s, more than alone (%.3f s; the middle one %.4f s, alone %.4f s)' % (
        DELIVERIES, name, max(alone), sorted(together)[DELIVERIES // 2], sorted(alone)[DELIVERIES // 2]), MORE, more)


def silent_and_dripping(checks, path):
    """Deliveries beside 200 that send nothing and 20 that drip."""
    with Served(path, LARGE_YARD) as server:
        server.same(checks, 'the first', get('/yard'))
        before = most_memory(server)
        no_later(checks, server, '%d silent and %d dripping connections' % (SILENT, DRIPPING), Beside)
        checks.within('memory beside them', MOST_MORE, most_memory(server) - before, 'MB more')


def ten_thousand(checks, path):
    """So many connections beside them, each with its right answer."""
    with Served(path, LARGE_YARD) as server:
        for number in range(1, 21):
            server.same(checks, 'delivery %d' % number, post(gate_in(number)))
        requests = [get('/yard'), get('/containers/ABCU0000017')] + [post(gate_in(number)) for number in range(1, 21)]
        owed = {request: server.owed(request) for request in requests}
        before, wrong = most_memory(server), []
        with Beside(server):
            clients = [threading.Thread(target=ask_many, args=[server, requests, owed, place, wrong]) for place in range(AT_ONCE)]
            for client in clients:
                client.start()
            for client in clients:
                client.join()
        checks.expect('%d connections, wrong answers' % CONNECTIONS, [], wrong[:3])
        checks.within('memory over %d connections' % CONNECTIONS, MOST_MORE, most_memory(server) - before, 'MB more')


def ask_many(server, requests, owed, place, wrong):
    """A client's share of the connections; what was answered wrong is added."""
    for turn in range(CONNECTIONS // AT_ONCE):
        request = requests[(place + turn) % len(requests)]
        try:
            came = exchanged(server.port, request)
        except OSError as fault:
            came = repr(fault)
        if came != owed[request]:
            wrong.append((request, came))


class Holding:
    """Connections that have each sent nearly a mebibyte of a delivery, and stay."""

    front = post('x' * (1 << 20))[:-9].encode('latin-1')
    receive, count = None, HOLDING

    def __init__(self, server):
        self.server, self.came = server, []

    def __enter__(self):
        for _place in range(self.count):
            connection = self.server.connect(self.receive)
            self.came.append(connection)
            connection.setblocking(False)
            left, end = self.front, time.monotonic() + 1
            while left and time.monotonic() < end:
                try:
                    left = left[connection.send(left):]
                except BlockingIOError:
                    time.sleep(0.001)
                except OSError:
                    break
        return self

    def __exit__(self, *_fault):
        for connection in self.came:
            connection.close()


class Unread(Holding):
    """Connections that each asked for seven megabytes, and read none."""

    front = get('/replies/HAULA/1').encode('latin-1')
    receive, count = TOO_SMALL, UNREAD


def much_sent(checks, path):
    """More unfinished requests are sent than may be held, and others are served beside them. It begins anew where the machine was
    so busy that it held them up itself."""
    with Served(path) as server:
        server.same(checks, 'before them', get('/yard'))
        before = most_memory(server)
        for _try in range(TRIES):
            with Holding(server):
                time.sleep(3)               # till it has read what it may
                began = time.monotonic()
                server.same(checks, 'beside unfinished deliveries of a mebibyte', get('/yard'))
                taken = time.monotonic() - began
            if taken <= SLACK:
                break
        checks.within('beside %d unfinished deliveries of a mebibyte' % HOLDING, SLACK, taken)
        checks.within('memory beside them', MOST_HELD, most_memory(server) - before, 'MB more')


def much_unread(checks, path):
    """More answers are left unread than may be held, and others are served beside them, once these were made."""
    with Served(path) as server:
        server.same(checks, 'a reply of megabytes', post(long_reply()))
        began = time.monotonic()
        for _time in range(2):              # one answer is still held while the next is made
            server.same(checks, 'the same, asked for', get('/replies/HAULA/1'))
        before, patience = most_memory(server), 2 * SECONDS + 2 * UNREAD * (time.monotonic() - began)
        with Unread(server):
            came = server.patient(get('/yard'), patience)
            checks.expect('beside unread answers of megabytes', server.owed(get('/yard')), came)
        checks.within('memory beside %d unread answers of megabytes' % UNREAD, MOST_HELD, most_memory(server) - before, 'MB more')


class Tabs:
    """A browser with two tabs that load a page again and again, and may open connections ahead of requests."""

    def __init__(self, server):
        self.server, self.folder, self.ends = server, tempfile.TemporaryDirectory(prefix='clients-'), False
        self.thread, self.loads = threading.Thread(target=self.load), 0

    def __enter__(self):
        self.browser = Chromium(browser_here(), self.folder.name, is_plain=True)
        self.thread.start()
        return self

    def __exit__(self, *_fault):
        self.ends = True
        self.thread.join()
        self.browser.__exit__()
        self.folder.cleanup()

    def load(self):
        """Loads each tab in turn."""
        browser = self.browser
        sessions = [browser.session]
        for _tab in range(1, TABS):
            browser.session = None
            target = browser.call('Target.createTarget', url='about:blank')['targetId']
            sessions.append(browser.call('Target.attachToTarget', targetId=target, flatten=True)['sessionId'])
        while not self.ends:
            for browser.session in sessions:
                browser.call('Page.navigate', url=self.server.url('/pages/yard'))
                self.loads += 1
            time.sleep(0.1)


def browser_beside(checks, path):
    """Deliveries beside a browser; passed over where there is none."""
    if not browser_here():
        checks.expect('there is no Chromium', True, True)
        return
    with Served(path, LARGE_YARD) as server:
        no_later(checks, server, 'a browser with %d tabs that load again and again' % TABS, Tabs)


CHECKS = [silent_and_dripping, ten_thousand, much_sent, much_unread, browser_beside]
