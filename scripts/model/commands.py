"""What a command prints, over files: docs/OPERATIONS.md.

Files are a dict by their names, of texts and, where one is a store, of offices. The first fault is told, in this order:
the words, input files as the words name them, the set-up, the store; of a migration, the old store and then the new one; of a
closing, the store and then the archive. The register beside a store is a part of its office, and stands by itself where its
store is gone.
"""
import copy
import os

from .closing import close as closed
from .deliveries import kept_texts
from .keys import PARTS
from .moments import are_digits
from .office import Office, json_text
from .register import EMPTY, MOST_ARCHIVES
from .reports import Lost, has_key
from .rows import REGISTER
from .rules import NEWEST
from .setup import read_setup
from .stream import answers, lines, status
from .views import printed_as
from .words import text_of

# how many words stand after each command: at least, at most
WORDS = {
    'init': (3, 3), 'deliver': (2, 2), 'serve': (3, 3), 'report': (2, 3), 'demo': (0, 0), 'account': (3, 3),
    'migrate': (2, 2), 'texts': (1, 2), 'close': (1, 2)}
# as what a report may be asked for
VIEWS = {'--json': 'json', '--csv': 'csv'}
CLAP = 'a text of clap'     # which the model doesn't know
MOST_CONNECTIONS = 1000000


class Fault(Exception):
    """What standard error gets, and the status."""

    def __init__(self, text, ended):
        super().__init__()
        self.text, self.ended = text, ended


def text_in(files, name):
    """The text of an input file."""
    if name not in files:
        raise Fault('cannot read', 3)
    return files[name]


def store_in(files, name):
    """The office whose store a file is, of whatever version."""
    if not isinstance(files.get(name), Office):
        raise Fault('store: Store', 3)
    return files[name]


def office_in(files, name):
    """The office whose store a file is, of the newest version."""
    office = store_in(files, name)
    if office.version != NEWEST:
        raise Fault('store: Version', 3)
    return office


def open_in(files, name):
    """The same, which takes deliveries: an archive takes none."""
    office = office_in(files, name)
    if office.register.mark:
        raise Fault('store: Closed', 3)
    return office


def is_free(files, name):
    """Whether a store can be made there: neither is one, nor does the register of one lie beside."""
    return not files.get(name) and files.get(name + REGISTER, EMPTY) == EMPTY


def init(files, store, partners, blocks):
    """Makes a store. A file with something in it stays as it is."""
    setup, fault = read_setup(text_in(files, partners), text_in(files, blocks))
    if fault:
        raise Fault('setup: ' + fault, 1)
    if not is_free(files, store):
        raise Fault('store: Store', 3)
    files[store] = Office(setup)
    return 'ready\n', 0


def deliver(files, store, name):
    """A line for each answer."""
    text = text_in(files, name)
    given = answers(open_in(files, store), text)
    return text_of(lines(given)), status(given)


def serve(files, store, port, count):
    """Only its faults: what it answers is in http.py."""
    if not all(are_digits(text, 1, 9) and 1 <= int(text) <= most
               for text, most in ((port, 65535), (count, MOST_CONNECTIONS))):
        raise Fault('usage: office serve DB PORT COUNT', 2)
    open_in(files, store)
    return 'listening 127.0.0.1:%d\nserved %d\n' % (int(port), int(count)), 0


def report(files, store, kind, key=None, views=()):
    """A report on the whole terminal has no key, and any other has one. It is text, or what one option asks for; the archives
    are text, and `yardcsv` is CSV."""
    view = views[0] if views else 'text'
    if kind == 'yardcsv' and view != 'json':
        kind, view = 'yard', 'csv'
    if (kind not in PARTS or has_key(kind) != (key is not None) or len(views) > 1
            or (view != 'text' and kind in ('archives', 'yardcsv'))):
        raise Fault('usage: office report DB KIND [KEY]', 2)
    try:
        return printed_as(office_in(files, store), view, kind, key or '')
    except Lost as lost:
        raise Fault('store: Store', 3) from lost


def texts(files, store, passed='0'):
    """The texts that are kept, after so many of them, as if none had been put away. There are none where one of the archives
    can't be asked."""
    if not are_digits(passed, 1, 9) or (passed[0] == '0' and passed != '0'):
        raise Fault('usage: office texts DB [FROM]', 2)
    office = office_in(files, store)
    if office.first_lost:
        raise Fault('store: Store', 3)
    kept = kept_texts(office.deliveries)
    if int(passed) > len(kept):
        return 'none\n', 1
    return text_of(kept[int(passed):]), 0


def texts_before_lost(office, passed=0):
    """What may be printed before the first archive that can't be asked: of the texts that the archives before it keep, any number
    of the first."""
    before = office.archives[office.first_lost - 1].deliveries if office.first_lost > 1 else []
    kept = kept_texts(before)[passed:]
    return [text_of(kept[:count]) for count in range(len(kept) + 1)]


def account(files, store, code, kind):
    """The words are no keys: nothing in them is decoded."""
    answer = open_in(files, store).add_account(code, kind)
    return json_text(answer) + '\n', 1 if answer['answer'] == 'refused' else 0


def migrate(files, old, new):
    """The old store stays as it is, and the new one goes on from it."""
    office = store_in(files, old)
    if office.version == NEWEST:
        raise Fault('store: Version', 3)
    if not is_free(files, new):
        raise Fault('store: Store', 3)
    files[new] = copy.deepcopy(office)
    files[new].migrate()
    return 'ready\n', 0


def free_name(files, store, register):
    """The file under which a closing makes an archive of a store, where these are the files: the first name that the register has
    not, and that no file has."""
    folder, name = os.path.split(store)
    stem = name[:-len('.db')] if name.endswith('.db') else name
    named = {archive.file for archive in register.archives}
    for number in range(1, MOST_ARCHIVES + 1):
        file = '%s-%04d.db' % (stem, number)
        path = os.path.join(folder, file)
        if file not in named and path not in files and path + REGISTER not in files:
            return path
    raise Fault('store: Store', 3)


def close(files, store, archive=None):
    """What the archive keeps goes from the store. They are in one folder, and not the same file. Without one a copy is made of the
    store as it is."""
    if archive is None:
        archive = free_name(files, store, open_in(files, store).register)
        files[archive] = copy.deepcopy(files[store])
    own, copied = office_in(files, store), office_in(files, archive)
    if own is copied:
        raise Fault('store: Store', 3)
    (folder, store_file), (other, archive_file) = os.path.split(store), os.path.split(archive)
    fault = closed(own, copied, store_file, archive_file) if folder == other else 'Archive'
    if fault:
        raise Fault('store: ' + fault, 3)
    return 'ready\n', 0


def outcome(files, words):
    """What is printed, what is told of faults, and the status."""
    command, *others = words
    if words == ['--help']:
        return CLAP, '', 0
    options = {}
    if command == 'report':
        options = dict(views=[VIEWS[word] for word in others if word in VIEWS])
        others = [word for word in others if word not in VIEWS]
    if command not in WORDS or not WORDS[command][0] <= len(others) <= WORDS[command][1]:
        return '', CLAP, 2
    try:
        does = {
            'init': init, 'deliver': deliver, 'serve': serve, 'report': report, 'account': account, 'migrate': migrate,
            'texts': texts, 'close': close}
        text, ended = does[command](files, *others, **options)
        return text, '', ended
    except Fault as fault:
        return '', fault.text + '\n', fault.ended
