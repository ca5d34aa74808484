"""The units by systemd-analyze, and the rotation of logs, each with the paths of a folder of its own."""
import os
import re
import shutil
import subprocess

from hostile.served import gate_in
from model.setup import DEMO

from .asking import Asking
from .installed import EXAMPLES, PAGE, Installed, put, until

NETWORKED = ['office.service', 'office-queue.service', 'office-copy.service', 'office-drill.service', 'office-health.service']
UNITS = sorted(os.listdir(os.path.join(EXAMPLES, 'systemd')))


def verified(checks, program, folder):
    """Each unit, with what it starts where it lies here. systemd has no fault to find."""
    bins = os.path.join(EXAMPLES, 'bin')
    for name in UNITS:
        with open(os.path.join(EXAMPLES, 'systemd', name), encoding='utf-8') as file:
            text = file.read()
        text = text.replace('/usr/local/sbin', os.path.realpath(bins)).replace('/usr/local/bin/office', program)
        with open(os.path.join(folder, name), 'w', encoding='utf-8') as file:
            file.write(text)
    for name in UNITS:
        words = ['systemd-analyze', 'verify', '--man=no', os.path.join(folder, name)]
        done = subprocess.run(words, capture_output=True, encoding='utf-8', check=False)
        checks.expect('systemd-analyze verify ' + name, ('', 0), (done.stdout + done.stderr, done.returncode))
    for name in NETWORKED:
        with open(os.path.join(folder, name), encoding='utf-8') as file:
            checks.expect(name + ' has a network of its own', True, '\nPrivateNetwork=yes\n' in file.read())


def enabled(checks):
    """Each timer and each service that starts by itself is in the list that an operator enables."""
    with open(PAGE, encoding='utf-8') as file:
        page = file.read()
    for name in UNITS:
        with open(os.path.join(EXAMPLES, 'systemd', name), encoding='utf-8') as file:
            if '\n[Install]\n' in file.read():
                found = re.search(r'systemctl enable --now .*\b%s' % re.escape(name), page)
                checks.expect('%s is enabled by the page' % name, True, found is not None)


def rotated(checks, installed):
    """The logs are renamed and begun anew, and nginx goes on in the new ones."""
    clients, logs = Asking(installed), installed.file('logs')
    put('logrotate/office', installed.file('rotation'), [
        ('/var/log/office-gateway', logs), ('/run/nginx.pid', installed.file('nginx.pid'))])
    clients.post('HAULA', 'nothing')
    done = subprocess.run(
        ['logrotate', '-f', '-s', installed.file('rotated'), installed.file('rotation')], capture_output=True, encoding='utf-8',
        check=False)
    checks.expect('logrotate', ('', 0), (done.stderr, done.returncode))
    clients.post('HAULA', gate_in(1, 'HAULB'))
    for name in ('office.log', 'office.log.1', 'refused.jsonl', 'refused.jsonl.1'):
        until('a line in ' + name, lambda: count_of(os.path.join(logs, name)))
        checks.expect('lines of ' + name, 1, count_of(os.path.join(logs, name)))


def count_of(path):
    """How many lines a file has."""
    with open(path, encoding='latin-1') as file:
        return len(file.readlines())


def try_all(checks, program):
    """All of these."""
    with Installed(program, DEMO) as installed:
        if shutil.which('systemd-analyze'):
            folder = installed.file('units')
            os.mkdir(folder)
            verified(checks, program, folder)
        else:
            print('gateway: the units were not looked at, without systemd-analyze')
        enabled(checks)
        if shutil.which('logrotate') and not os.geteuid():
            installed.authority.run('partner', 'HAULA')
            rotated(checks, installed)
        else:
            print('gateway: the rotation of logs was not tried, without logrotate or root')
