"""Copies while it serves, and the drill that restores one."""
import fcntl
import os
import shutil
import signal
import subprocess
import threading
import time
from datetime import datetime, timezone

from .installed import SECONDS, Installed, free_port, script, until
from .judged import Replayed, texts_in
from .load import PARTNERS, SETUP, Senders, prepared, text_of, word_of

COPIES = int(os.environ.get('COPIES', 200))
SENDERS = PARTNERS[:6]      # partners that send meanwhile
MEANWHILE = 40              # interchanges that they send around each copy, without a pause
WHOLE_EVERY = 10            # copies of which one has all its rows compared


class Copying:
    """The scripts over an installed office, and the folder of its copies."""

    def __init__(self, installed):
        self.installed, self.into = installed, installed.file('copies')
        os.mkdir(self.into)

    def run(self, name, *words, **given):
        """A script: what it prints, what it reports of faults, and its status."""
        given = {**os.environ, 'OFFICE': self.installed.office.program, **given}
        done = subprocess.run(
            [script(name), *words], env=given, stdin=subprocess.DEVNULL, capture_output=True, encoding='utf-8', check=False)
        return done.stdout.strip(), done.stderr.strip(), done.returncode

    def copy(self, **given):
        """A copy of the store."""
        office = self.installed.office
        return self.run('office-copy', office.store, self.into, str(office.process.pid), **given)

    def names(self):
        """What lies there."""
        return sorted(os.listdir(self.into))


def moment_of(folder):
    """When a copy was begun, just before the office was held still: its name."""
    name = datetime.strptime(os.path.basename(folder), '%Y%m%dT%H%M%S.%fZ')
    return name.replace(tzinfo=timezone.utc).timestamp()


def state_of(process):
    """Its state, as the system has it: T is held still."""
    with open('/proc/%d/stat' % process.pid, encoding='latin-1') as stat:
        return stat.read().rpartition(')')[2].split()[0]


# ---- copies under load

def looked_at(checks, name, folder, senders, model, is_whole):
    """A copy has each answer that was given before its SIGSTOP, and nothing but what was sent; its rows are the model's, of
    which all are compared where `is_whole`."""
    store = os.path.join(folder, 'office.db')
    kept = set(texts_in(store))
    began = moment_of(folder)
    with senders.lock:
        answered = [(code, number) for when, code, number, _body in senders.answers if when < began]
        sent = set(senders.texts.values())
    lost = [one for one in answered if senders.texts[one] not in kept]
    checks.expect(name + ': answered and not there', [], lost)
    checks.expect(name + ': there and not sent', set(), kept - sent)
    (model.holds if is_whole else model.follows)(checks, name, store)
    return len(answered)


def begun(senders):
    """Partners that send in order, as far as they are let, until it is over."""
    senders.texts, senders.allowed = {}, 0

    def partner(code):
        """One of them."""
        number = 0
        while not senders.over.is_set():
            if len(senders.texts) >= senders.allowed:
                time.sleep(0.005)
                continue
            number += 1
            with senders.lock:
                senders.texts[code, number] = text_of(code, number)
            senders.send(code, number)

    threads = [threading.Thread(target=partner, args=[code], daemon=True) for code in SENDERS]
    for thread in threads:
        thread.start()
    return threads


def copied(checks, copying, senders, model):
    """Copies, one after the other, each looked at. Gives the one in the middle; the last one stays too."""
    middle, counts, began = copying.installed.file('middle'), [], time.monotonic()
    for place in range(COPIES):
        name = 'copy %d' % place
        senders.allowed = len(senders.texts) + MEANWHILE
        folder, fault, status = copying.copy(KEEP='all')
        checks.expect(name, ('', 0), (fault, status))
        checks.expect(name + ': the office goes on', False, state_of(copying.installed.office.process) == 'T')
        if status:
            continue
        counts.append(looked_at(checks, name, folder, senders, model, place % WHOLE_EVERY == 0))
        if place == COPIES // 2:
            shutil.copytree(folder, middle)
        if place + 1 < COPIES:
            shutil.rmtree(folder)
    name = '%d copies, with %d to %d answered interchanges in them' % (COPIES, min(counts, default=0), max(counts, default=0))
    senders.measured(checks, name, time.monotonic() - began)
    return middle


def under_load(checks, program):
    """Copies while partners send; the drill; and a copy put back."""
    with Installed(program, SETUP) as installed:
        senders, copying, model = Senders(prepared(installed)), Copying(installed), Replayed(SETUP)
        threads = begun(senders)
        middle = copied(checks, copying, senders, model)
        senders.over.set()
        for thread in threads:
            thread.join()
        model.holds(checks, 'the store in the end', installed.office.store)
        for _time, code, number, body in senders.answers:
            model.replied(checks, 'the store in the end', code, number, body)
        drilled(checks, copying)
        put_back(checks, installed, senders, middle)


def slots_of(office):
    """Where each container of a model's office stands."""
    return {box: place.slot for box, place in office.fold().terminal.yard.items()}


def put_back(checks, installed, senders, folder):
    """A copy is put back, and partners send again, each from its next number on, one partner after the other: all is in
    effect once, and the slots are those of the new order."""
    before, after = Replayed(SETUP), Replayed(SETUP)
    before.holds(checks, 'before the loss', installed.office.store)
    installed.office.stop()
    for end in ('', '-wal'):
        if os.path.exists(installed.office.store + end):
            os.remove(installed.office.store + end)
        if os.path.exists(os.path.join(folder, 'office.db' + end)):
            shutil.copy(os.path.join(folder, 'office.db' + end), installed.office.store + end)
    installed.office.start()
    for code in SENDERS:
        line = senders.clients.get(code, '/standing').body
        following = int(line.split(' NEXT ')[1].split()[0])
        last = max(number for (sender, number), text in senders.texts.items() if sender == code and text in before.texts)
        for number in range(max(1, following - 1), last + 1):
            came = senders.clients.post(code, senders.texts[code, number])
            wanted = 'repeat' if number < following else 'taken'
            checks.expect('put back: %s %d' % (code, number), (200, wanted), (came.status, word_of(came.body)))
    after.holds(checks, 'put back', installed.office.store)
    checks.expect('put back: the same texts', sorted(before.texts), sorted(after.texts))
    old, new = slots_of(before.office), slots_of(after.office)
    checks.measured.append('put back and sent again, one partner after the other: %d of %d containers in another slot' % (
        sum(old[box] != new[box] for box in old), len(old)))


def drilled(checks, copying):
    """The drill restores the newest copy; and fails where there is none that is new, or it is damaged."""
    port = str(free_port())
    printed, fault, status = copying.run('office-drill', copying.into, port)
    checks.expect('the drill: ' + fault, (0, True), (status, printed.startswith('restored ' + copying.into)))
    checks.expect('the drill leaves nothing', [], [name for name in copying.names() if name.startswith('drill')])
    newest = os.path.join(copying.into, [name for name in copying.names() if name.endswith('Z')][-1])
    checks.expect('an old copy', 1, copying.run('office-drill', copying.into, port, MOST_AGE='-1')[2])
    with open(os.path.join(newest, 'yard.txt'), 'a', encoding='ascii') as file:
        file.write('A001011 ABCU0000017 22G1 FULL\n')
    checks.expect('a copy with another yard', 1, copying.run('office-drill', copying.into, port)[2])
    os.truncate(os.path.join(newest, 'office.db'), 5000)
    checks.expect('a damaged copy', 1, copying.run('office-drill', copying.into, port)[2])
    shutil.rmtree(newest)
    checks.expect('no copy', 1, copying.run('office-drill', copying.into, port)[2])


# ---- what goes wrong

def went_on(checks, name, copying, earlier):
    """The office goes on, what was begun is gone, and earlier copies stay."""
    checks.expect(name + ': the office goes on', False, state_of(copying.installed.office.process) == 'T')
    checks.expect(name + ': what is left', [earlier, 'lock'], copying.names())


def slow_tools(installed):
    """A folder before the PATH in which `cp` takes three seconds."""
    tools = installed.file('tools')
    os.mkdir(tools)
    with open(os.path.join(tools, 'cp'), 'w', encoding='ascii') as file:
        file.write('#!/bin/sh\nsleep 3\nexec /bin/cp "$@"\n')
    os.chmod(os.path.join(tools, 'cp'), 0o755)
    return tools + ':' + os.environ['PATH']


def ended(checks, copying, path, earlier, number):
    """The script is ended by a signal while it copies, also where this trial runs in the background or by nohup, and so with
    signals ignored."""
    name, office = 'a copy ended by ' + signal.Signals(number).name, copying.installed.office
    words = ['env', '--default-signal', script('office-copy'), office.store, copying.into, str(office.process.pid)]
    process = subprocess.Popen(
        words, env=dict(os.environ, OFFICE=office.program, PATH=path), stdin=subprocess.DEVNULL, stderr=subprocess.DEVNULL)
    until('the copy', lambda: state_of(office.process) == 'T')
    process.send_signal(number)
    checks.expect(name, 1, process.wait(SECONDS))
    went_on(checks, name, copying, earlier)


def broken_off(checks, program):
    """However the script ends, the office goes on, what was begun is gone, and earlier copies stay."""
    with Installed(program, SETUP) as installed:
        copying = Copying(installed)
        earlier, path = os.path.basename(copying.copy()[0]), slow_tools(installed)
        for number in (signal.SIGTERM, signal.SIGINT, signal.SIGHUP):
            ended(checks, copying, path, earlier, number)
        for name, given in (('held still for too long', dict(PATH=path, MOST_STILL='1')), ('no office', dict(OFFICE='false'))):
            checks.expect(name, 1, copying.copy(**given)[2])
            went_on(checks, name, copying, earlier)
        with open(os.path.join(copying.into, 'lock'), 'rb') as lock:
            fcntl.flock(lock, fcntl.LOCK_EX)
            checks.expect('another copy at the same time', 1, copying.copy()[2])
        went_on(checks, 'another copy at the same time', copying, earlier)
        wrong = copying.run('office-copy', installed.office.store, copying.into, str(os.getpid()))
        checks.expect('a process that works on no store', 1, wrong[2])
        shutil.rmtree(os.path.join(copying.into, earlier))
        thinned(checks, copying)


def thinned(checks, copying):
    """Of earlier copies the newest eight stay, and the last of each of the newest fourteen days."""
    older = ['202601%02dT%02d0000.000Z' % (day, hour) for day in range(1, 21) for hour in (3, 9, 21)]
    for name in older:
        os.mkdir(os.path.join(copying.into, name))
    newest = os.path.basename(copying.copy()[0])
    last_of_days = [name for name in older if 'T21' in name][-13:]
    wanted = set(last_of_days) | set(older[-7:]) | {newest, 'lock'}
    checks.expect('what stays of earlier copies', sorted(wanted), copying.names())


def try_all(checks, program):
    """All of these."""
    broken_off(checks, program)
    under_load(checks, program)
