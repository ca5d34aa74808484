"""Archives that keep other texts or replies than were put away in them, beside the model: scripts/beside.

A register has a seal of each fifty numbers that an archive closes of an account, and of those that are left. A number is answered
by an archive only if that keeps what was sealed together with it; an archive with another seal anywhere is another one.
"""
import copy
import itertools
import os
import shutil
import tempfile

from .asking import container, get
from .closing import SEALED
from .days import Day
from .refused_closings import DELIVERIES, Room, edit
from .register import last_closed
from .rows import ENDS, copy_files, identities
from .setup import DEMO

# what comes between closings: of each account the last number that it has sent by then
TAKEN = [{'HAULA': 101, 'HAULB': 3, 'LINEA': 50}, {'HAULA': 151, 'HAULB': 3, 'LINEA': 51}, {'HAULA': 152, 'HAULB': 4, 'LINEA': 51}]
# what makes another interchange of one
CHANGES = [
    "UPDATE interchange SET body = CAST(body || x'0A' AS BLOB) WHERE partner = %d AND number = %d",
    "UPDATE interchange SET body = CAST(substr(body, 1, length(body) - 1) AS BLOB) WHERE partner = %d AND number = %d",
    "UPDATE interchange SET reply = reply || ' ' WHERE partner = %d AND number = %d",
    "UPDATE interchange SET reply = replace(reply, 'TERM1', 'TERM2') WHERE partner = %d AND number = %d"]
# numbers that are changed: at the ends of what has a seal together, and within it; by the account's code
CHANGED = [
    ('HAULA', 1), ('HAULA', 50), ('HAULA', 51), ('HAULA', 77), ('HAULA', 100), ('HAULA', 101), ('HAULA', 102), ('HAULA', 151),
    ('HAULA', 152), ('HAULB', 2), ('HAULB', 4), ('LINEA', 50), ('LINEA', 51)]
PATHS = [
    '/tickets/HAULA/49', '/archives/1/yard', '/archives/2/blocks', '/archives/2/replies/HAULA/1', '/archives/3/replies/HAULA/102',
    '/archives/3/partners', '/archives/1/replies/HAULB/2']


def text_of_number(code, number):
    """A gate-in, which of a line is a message that it may not send."""
    return "UNB+UNOA:3+%s+TERM1+240305:0910+%d'UNH+1+CODECO:D:95B:UN:ITG14'BGM+34+G%d+9'EQD+CN+%s+22G1:102:5+++5'UNT+4+1'UNZ+1+%d'" % (
        code, number, number, container(number, 'TEXU'), number)


# ---- what has a seal together

def sealed_together(office, code, number):
    """The numbers of an account that have one seal with this one, in the archive that closed it."""
    partner, place = identities(office.setup)[code], office.archive_of(code, number)
    earlier = office.register._replace(segments=tuple(each for each in office.register.segments if each.archive < place))
    until = office.register._replace(segments=tuple(each for each in office.register.segments if each.archive <= place))
    begin, end = last_closed(earlier, partner), last_closed(until, partner)
    first = begin + (number - begin - 1) // SEALED * SEALED + 1
    return range(first, min(first + SEALED, end + 1))


def is_changed(office, code, number):
    """The archive that closed a number keeps something else under it: it can't be asked, but for the numbers that have another
    seal."""
    place, together = office.archive_of(code, number), sealed_together(office, code, number)
    office.lost = {place: 'OTHER'}
    office.told_still = {
        each[:2] for each in office.deliveries
        if office.archive_of(*each[:2]) == place and not (each.partner == code and each.number in together)}


# ---- one that was changed

def make_closed(room):
    """A store that was closed three times."""
    room.make('office.db')
    office, sent = room.offices[room.path('office.db')], dict.fromkeys(TAKEN[0], 0)
    for place, lasts in enumerate(TAKEN, start=1):
        pairs = [(code, number) for code, last in lasts.items() for number in range(sent[code] + 1, last + 1)]
        room.deliver('office.db', [text_of_number(*pair) for pair in pairs])
        room.copy('office.db', 'archive-%d.db' % place)
        room.close('office.db', 'archive-%d.db' % place)
        office.archives[place] = room.offices[room.path('archive-%d.db' % place)]
        sent = lasts
    return office


def asked(room, what, office):
    """Numbers again, the archives, reports on numbers and of archives over HTTP, the texts."""
    program, beside = room.program('office.db'), room.beside
    beside.deliver(what, program, office, '\n'.join(text_of_number(*pair) for pair in CHANGED))
    beside.report(what, program, office, 'archives')
    paths = ['/%s/%s/%d' % (kind, *pair) for pair in CHANGED for kind in ('replies', 'contrls')]
    beside.serve(what, program, office, [get(path) for path in paths + PATHS])
    beside.texts(what, program, office, DAY.random)


def try_changed(room):
    """One text or reply of an archive is another: the numbers that have a seal with it are not now, all others are
    answered as ever."""
    office = make_closed(room)
    asked(room, 'sealed', office)
    for place, pair in enumerate(CHANGED):
        change = (CHANGES + [None])[place % (len(CHANGES) + 1)]    # one of five stays
        if change is None:
            continue
        names = 'office.db', 'archive-%d.db' % office.archive_of(*pair)
        for name in names:
            copy_files(room.path(name), room.path('kept-' + name))
        edit(room.path(names[1]), change % (identities(office.setup)[pair[0]], pair[1]))
        is_changed(office, *pair)
        asked(room, 'sealed, %s of %s/%d' % (change.split(' WHERE')[0], *pair), office)
        room.beside.counted['an archive of which one interchange is another'] += 1
        for name in names:
            copy_files(room.path('kept-' + name), room.path(name))
        office.lost, office.told_still = {}, frozenset()
    asked(room, 'sealed, put back', office)


# ---- a twin

def of_twin(text):
    """The same text of another document."""
    return text.replace('+G1', '+G2')


def make_twins(room, day):
    """Two stores of one set-up, to which as many texts came that do the same, each of another document, and what each closed. Gives
    what was delivered to the first."""
    texts = [day.delivery() for _delivery in range(DELIVERIES)]
    for folder, change in (('own', str), ('twin', of_twin)):
        os.mkdir(room.path(folder))
        store, archive = folder + '/office.db', folder + '/first.db'
        room.make(store)
        room.deliver(store, [change(text) for text in texts])
        room.copy(store, archive)
        room.close(store, archive)
    return texts


def mixed(room, folders):
    """The store, its register, its archive, and the archive's register, each of one of the twins."""
    shutil.rmtree(room.path('mixed'), ignore_errors=True)
    os.mkdir(room.path('mixed'))
    parts = [('office.db', ENDS[:2]), ('office.db', ENDS[2:]), ('first.db', ENDS[:2]), ('first.db', ENDS[2:])]
    for folder, (name, ends) in zip(folders, parts):
        for end in ends:
            if os.path.exists(room.path('%s/%s' % (folder, name)) + end):
                shutil.copyfile(room.path('%s/%s' % (folder, name)) + end, room.path('mixed/' + name) + end)


def try_twins(room):
    """Files of twins, mixed in each way. The archive is the store's own if it is the register's. A register with an archive of
    its own store is not told from the store's, and its numbers are answered as that store answered them."""
    texts = make_twins(room, DAY)
    for folders in itertools.product(['own', 'twin'], repeat=4):
        store, register, archive, _archive_register = folders
        if register == archive != store:
            continue
        mixed(room, folders)
        office = copy.deepcopy(room.offices[room.path(store + '/office.db')])
        office.archives = {1: copy.deepcopy(room.offices[room.path(store + '/first.db')])}
        office.lost = {1: 'OTHER'} if register != archive else {}
        asked_of_twin(room, 'twins, ' + ' '.join(folders), office, [str, of_twin][store == 'twin'], texts)


def asked_of_twin(room, what, office, change, texts):
    """A closing that was done, the archives, reports on numbers and of the archive over HTTP, the texts, and all texts again as they
    came to the store and as they came to its twin."""
    program, beside = room.program('mixed/office.db'), room.beside
    beside.counted['files of twins, mixed'] += 1
    wanted = ('', 'store: Archive\n', 3) if office.lost else ('ready\n', '', 0)
    beside.expect('files of twins, closed again', what, wanted, program.close(room.path('mixed/first.db')))
    beside.report(what, program, office, 'archives')
    paths = ['/%s/%s/1' % (kind, code) for kind in ('replies', 'contrls', 'tickets') for code in office.setup.partners]
    paths += ['/archives/1/yard', '/archives/1/calls', '/yard', '/partners', '/calls']
    beside.serve(what, program, office, [get(path) for path in paths])
    beside.texts(what, program, office, DAY.random)
    beside.deliver(what, program, office, '\n'.join(each(text) for each in (change, of_twin, str) for text in texts))


DAY = Day('seals', DEMO)


def try_all(beside):
    """Each in a folder of its own."""
    for trial in (try_changed, try_twins):
        with tempfile.TemporaryDirectory(prefix='beside-') as folder:
            trial(Room(beside, folder))
