"""A round of mutated inputs, from its seed alone: set-up files, streams, keys and requests over a new store, each held
against the model, and in some rounds the rows of the store after them."""
import json
import os
import random
import tempfile
from collections import Counter
from functools import partial
from urllib.parse import quote

from model.beside import EVERY_KIND, kinds_of
from model.counts import counting
from model.cuts import cut
from model.days import Day
from model.http import response
from model.reports import printed, text_of
from model.requests import (
    FORMS, get, known, of_length, own_delivery, post, post_as, question, random_request, report_path, request, typed)
from model.setup import DEMO, is_utf8, read_setup
from model.setups import Files, files_of
from model.stores import BOUNDS, HOSTS, Beside
from model.stream import answers, lines, status
from model.syntax import LONGEST_TEXT, segments_of

from .mutations import HEAD, KEY, mutated, mutated_file, mutated_interchange, weighted
from .sampled import Sampled

# how many of each a round has
STREAMED = 160              # mutated interchanges in each of its streams
REQUESTED = 320             # mutated requests
SETUPS = 2                  # mutated set-ups
KEYS = 2                    # mutated keys by the command
SHORT = 2                   # bytes: what has fewer is not altered any further
THOROUGH_EVERY = 4          # of so many rounds one has its rows compared, and its streams cut as one
LARGE_EVERY = 240           # and one, which is thorough too, has interchanges of a MiB, or nearly

REQUEST_KINDS = [
    (8, 'body'), (4, 'own body'), (6, 'head'), (2, 'key'), (2, 'length'), (2, 'page'), (2, 'form'), (1, 'plain')]


class Round:
    """What a seed gives, and what was compared."""

    def __init__(self, path, seed):
        self.name, self.seed = 'seed %d' % seed, seed
        self.random = random.Random('fuzz %d' % seed)
        self.beside, self.inputs, self.path = Beside(path), Counter(), path
        self.program, self.office, self.day, self.broken = None, None, None, []
        self.is_thorough = seed % THOROUGH_EVERY == 0

    def run(self):
        """All of it. Gives what was put in, what was compared, what differs, and the peaks of memory."""
        segments_of.cache_clear()
        with tempfile.TemporaryDirectory(prefix='fuzz-', dir=room()) as folder:
            self.program = Sampled(self.path, folder)
            setup = self.setups()
            self.office, self.day = counting(setup), Day(self.seed, setup)
            self.streams()
            self.keys()
            self.requests()
            self.beside.counted += self.office.kept.counted
            if self.is_thorough:
                self.beside.rows(self.name, self.program, self.office)
            return self.inputs, self.beside.counted, self.beside.shown, self.program.peaks

    # ---- set-ups

    def setups(self):
        """Mutated set-up files, each beside the model; then the store of the round. Gives its set-up."""
        files = Files(self.seed).both()
        if read_setup(*files)[1] or self.seed % 2 == 0:
            files = files_of(DEMO)
        for count in range(SETUPS):
            self.spoiled_setup(files, Files('%d other' % self.seed).both(), count)
        self.beside.init(self.name, self.program, files)
        return read_setup(*files)[0]

    def spoiled_setup(self, files, others, count):
        """One of the two files mutated, or both."""
        which = self.random.choice([(0,), (0,), (1,), (1,), (0, 1)])
        texts = list(files)
        for place in which:
            texts[place] = mutated_file(self.random, texts[place], others[place])
        folder = os.path.join(self.program.folder, 'setup %d' % count)
        os.mkdir(folder)
        program = Sampled(self.path, folder)
        office = self.beside.init('%s, set-up %d' % (self.name, count), program, texts)
        self.inputs['set-up files'] += 1
        if office and self.is_thorough:
            self.beside.rows('%s, set-up %d' % (self.name, count), program, office)

    # ---- streams

    def variants(self, count):
        """So many mutated interchanges, each with whether it was mutated. After some mutations of an interchange it comes
        itself, so that its partner's run goes on."""
        texts, found = [self.day.delivery()], 0
        while found < count:
            text = self.day.delivery()
            for _variant in range(self.random.choice([1, 2, 3, 4])):
                yield mutated_interchange(self.random, text, self.random.choice(texts)), True
                found += 1
            yield text, False
            texts = texts[-40:] + [text]

    def stream(self):
        """Mutated interchanges one after the other. One that can't be cut may stand at the end alone, so most such are kept
        for requests."""
        texts, interchanges = [], []
        for text, is_mutated in self.variants(STREAMED):
            found, fault = cut(text)
            if fault:
                self.broken.append(text)
                continue
            interchanges += found
            texts.append(text + self.day.pick([(3, ''), (2, '\n'), (1, '\r\n')]))
            self.inputs['interchanges in streams' if is_mutated else 'as they were, beside these'] += 1
        if self.seed % LARGE_EVERY == 0:
            texts.append(self.large())
            interchanges.append(texts[-1])
            self.inputs['interchanges of a MiB'] += 1
        if self.random.random() < 0.7 and self.broken:
            self.inputs['ends of streams that can\'t be cut'] += 1
            return ''.join(texts), self.broken.pop() + self.random.choice(['', texts[0]]), interchanges
        return ''.join(texts), '', interchanges

    def large(self):
        """An interchange with a long segment, so that its length is at the limit."""
        text = self.day.again()
        front, _unt, back = text.rpartition("'UNT")
        length = LONGEST_TEXT + self.random.choice([-1, 0, 1, -5000])
        return front + "'FTX+" + 'A' * (length - len(text) - 5) + "'UNT" + back

    def streams(self):
        """By a file and by the standard input, over the store; by the standard input, over tables in memory."""
        store = self.program.store
        self.answered('deliver DB FILE', self.office, lambda front, end: self.program.deliver(front + end))
        self.answered('deliver DB -', self.office, partial(self.program.fed, ['deliver', store, '-']))
        if self.office.setup == DEMO:
            in_memory = counting(DEMO)
            self.answered('demo', in_memory, partial(self.program.fed, ['demo']))
            self.beside.counted += in_memory.kept.counted

    def answered(self, kind, office, program):
        """A stream: every line, and the status. The model cuts each of its texts by itself, and in thorough rounds the whole
        stream."""
        front, end, interchanges = self.stream()
        if self.is_thorough:
            given = answers(office, front + end)
        else:
            given = [office.answer(text) for text in interchanges] + answers(office, end)
        wanted = text_of(lines(given)), '', status(given)
        self.beside.expect(kind, self.name, wanted, program(front, end))
        self.beside.counted.update(kind for answer in given for kind in kinds_of(answer))

    # ---- keys

    def keys(self):
        """Mutated keys by the command. Words are UTF-8 without zeros, and none that reads as an option."""
        for _key in range(KEYS):
            kind, key = question(self.random, self.office)
            key = mutated(self.random, key, known(self.random, self.office)[1], KEY)
            if '\0' in key or key.startswith('-') or not is_utf8(key):
                continue
            self.inputs['keys by the command'] += 1
            text, ended = printed(self.office, kind, key)
            word = key.encode('latin-1').decode('utf-8')
            found = 'report ' + ('found' if ended == 0 else 'not found')
            self.beside.expect(found, '%s, %s %r' % (self.name, kind, key), (text, '', ended), self.program.run(
                'report', self.program.store, kind, word))

    # ---- requests

    def requests(self):
        """By HTTP: bodies, heads and paths that are mutated, each on a connection of its own."""
        found, bodies = [], self.bodies()
        while sum(is_mutated for _request, is_mutated in found) < REQUESTED:
            found.append(self.request(weighted(self.random, REQUEST_KINDS), bodies))
        if self.seed % LARGE_EVERY == 0:
            found.append((post(self.random, self.large()), True))
        self.random.shuffle(found)
        ahead, host = self.random.choice(BOUNDS), self.random.choice(HOSTS)
        responses = [(text, response(self.office, text, ahead, host)) for text, _is_mutated in found]
        self.program.serve(responses, partial(self.beside.served, self.name), ahead=ahead, host=host)
        self.beside.counted.update(kind for _text, wanted in responses for kind in kinds_told(wanted))

    def bodies(self):
        """Those that no stream could take, and more."""
        for text in self.broken:
            yield text, True
        while True:
            yield from self.variants(REQUESTED)

    def request(self, kind, bodies):
        """The next request, with whether it is mutated."""
        chance = self.random
        if kind == 'plain':
            return random_request(chance, self.day, self.office), False
        self.inputs['requests, mutated ' + kind] += 1
        if kind in ('body', 'own body'):
            text, is_mutated = next(bodies)
            self.inputs['requests, mutated ' + kind] -= not is_mutated
            return post(chance, text) if kind == 'body' else self.own(text), is_mutated
        if kind == 'key':
            path = chance.choice([report_path(chance, self.office)] * 9 + ['/texts/%d' % chance.randrange(60)])
            front, slash, key = path[1:].partition('/')
            other = known(chance, self.office)[1]
            return get(chance, '/' + front + slash + mutated(chance, key or front, other, KEY)), True
        if kind == 'length':
            return self.of_any_length(), True
        if kind == 'page':
            return get(chance, self.mutated_target(self.page(), self.page())), True
        if kind == 'form':
            return get(chance, '/pages/find' + self.mutated_target(self.form(), self.form())), True
        whole = chance.choice([
            post(chance, self.day.again()), get(chance, report_path(chance, self.office)), self.own(self.day.again()),
            get(chance, self.page()), get(chance, '/pages/find' + self.form())])
        other = random_request(chance, self.day, self.office)
        head, end, body = whole.partition('\r\n\r\n')
        return mutated(chance, head + end, other, HEAD) + body, True

    def own(self, text):
        """A delivery by the path of a partner: of the sender mostly, or of another; of what is too short to be altered, of any."""
        if len(text) < SHORT:
            return post_as(self.random, self.random.choice(sorted(self.office.setup.partners)), text)
        return own_delivery(self.random, self.day, self.office, text)

    def page(self):
        """The path of a page, or of a report as JSON or CSV, under which something may be found."""
        front = self.random.choice(['/pages', '/pages', '/json', '/csv'])
        return self.random.choice(['/', *[front + report_path(self.random, self.office)] * 9])

    def form(self):
        """What stands after the path of the form, with a number that was typed."""
        form = weighted(self.random, FORMS)
        return form % typed(self.random, self.office) if '%s' in form else form

    def mutated_target(self, text, other):
        """A target so mutated, of which half have odd bytes escaped, so that more of them are read."""
        found = mutated(self.random, text, other, KEY)
        return found if self.random.random() < 0.5 else quote(found, safe='/%?&=+', encoding='latin-1')

    def of_any_length(self):
        """A delivery whose length is another than it says, or is said in another way."""
        text = self.day.again()
        if self.random.random() < 0.4:
            return of_length(self.random, text)
        length = len(text) + self.random.choice([-3, -1, 1, 2, 4096, -len(text)])
        behind = self.random.choice(['', '', 'X', "'", text, 'GET /yard HTTP/1.1\r\n\r\n'])
        return request(self.random, 'POST /interchanges HTTP/1.1', ['Content-Length: %d' % max(length, 0)], text + behind)


def kinds_told(told):
    """What the answer of a response is counted as, if it is one of those that may come in a stream."""
    body = told.partition('\r\n\r\n')[2]
    kinds = kinds_of(json.loads(body)) if body.startswith('{"answer":') else []
    return [kind for kind in kinds if kind in EVERY_KIND]


def room():
    """Where stores stand: in memory if there is such a file system, so that no disk is worn by a million commits."""
    return '/dev/shm' if os.access('/dev/shm', os.W_OK) else None


def run_round(path, seed):
    """A round, with its seed."""
    return seed, Round(path, seed).run()
