"""Machines that are thrown away: this one's files, with what is written to them in memory, under a systemd of its own.

Each has its processes, its network with loopback only, its users and its clock's timers. Two of them are joined by a cable of their
own, and reach nothing else. They need root, systemd and overlayfs.
"""
import os
import re
import shutil
import subprocess
import tempfile
from time import monotonic, sleep

from .installed import LIFE

SYSTEMD = '/lib/systemd/systemd'
NAMESPACES = ['--mount', '--pid', '--net', '--uts', '--ipc', '--cgroup']
SECONDS = 120               # that something may take in one
# What makes one of the namespaces that it is run in: FOLDER gets its files, and systemd is its first process. Nothing of this
# machine's is enabled in it.
BEGUN = """
set -e
mount --make-rprivate /
mount -t tmpfs tmpfs "$FOLDER"
cd "$FOLDER"
mkdir upper work root
mount -t overlay overlay -o lowerdir=/,upperdir=upper,workdir=work root
cd root
mount -t proc proc proc
mount --bind proc/sys proc/sys
mount -o remount,bind,ro proc/sys
mount -t sysfs sysfs sys -o ro
mount -t cgroup2 cgroup2 sys/fs/cgroup
for place in run tmp dev; do mount -t tmpfs -o mode=755 tmpfs $place; done
chmod 1777 tmp
for name in null zero full random urandom tty; do touch dev/$name; mount --bind /dev/$name dev/$name; done
mkdir dev/pts dev/shm
mount -t devpts devpts dev/pts -o newinstance,ptmxmode=0666
ln -s pts/ptmx dev/ptmx
for place in fd fd/0:stdin fd/1:stdout fd/2:stderr; do ln -s /proc/self/${place%:*} dev/${place##*[:/]}; done
rm -rf etc/systemd/system/*.wants usr/sbin/policy-rc.d
: > etc/fstab
ip link set lo up
exec env -i container=trial PATH=/usr/sbin:/usr/bin:/sbin:/bin chroot . "$SYSTEMD" systemd.unit=multi-user.target
"""


def group_mount():
    """Where the system has its control groups (version 2); None if it has none."""
    with open('/proc/self/mounts', encoding='utf-8') as mounts:
        return next((line.split()[1] for line in mounts if line.split()[2] == 'cgroup2'), None)


def missing(*programs):
    """What is missing for such a machine with these programs, or None."""
    if os.geteuid():
        return 'root'
    for what, is_there in [('systemd', os.path.exists(SYSTEMD)), ('control groups', group_mount())] + [
            (program, shutil.which(program)) for program in ('unshare', 'nsenter', 'ip', 'adduser', 'logrotate', *programs)]:
        if not is_there:
            return what
    with open('/proc/filesystems', encoding='ascii') as file:
        return None if re.search(r'\boverlay$', file.read(), re.MULTILINE) else 'overlayfs'


class Machine:
    """One of them, until it is left."""

    def __init__(self, name):
        self.name, self.folder = name, tempfile.mkdtemp(prefix='machine-')
        self.group = os.path.join(group_mount(), os.path.basename(self.folder))
        self.process = self.first = None

    def __enter__(self):
        try:
            os.mkdir(self.group)
            words = ['sh', '-c', 'echo $$ > "$1" && shift && exec "$@"', 'machine', os.path.join(self.group, 'cgroup.procs'),
                     'timeout', '-s', 'KILL', str(LIFE), 'unshare', *NAMESPACES, '--fork', '--kill-child', 'sh', '-c', BEGUN]
            with open(self.folder + '.log', 'wb') as log:
                self.process = subprocess.Popen(
                    words, env=dict(os.environ, FOLDER=self.folder, SYSTEMD=SYSTEMD), stdin=subprocess.DEVNULL, stdout=log, stderr=log)
            self.until('it runs', self.has_begun)
            self.sure('hostname %s; echo 127.0.0.1 localhost %s > /etc/hosts; echo ::1 localhost >> /etc/hosts' % (
                self.name, self.name))
        except BaseException:
            self.__exit__()
            raise
        return self

    def __exit__(self, *_fault):
        if self.process:
            for child in children(self.process.pid):       # unshare, with which its first process goes, and so all of it
                os.kill(child, 9)
            self.process.wait(SECONDS)
        end = monotonic() + SECONDS
        while os.path.isdir(self.group) and not emptied(self.group) and monotonic() < end:
            sleep(0.05)
        os.remove(self.folder + '.log')
        os.rmdir(self.folder)

    def has_begun(self):
        """Whether its systemd has started all."""
        if self.process.poll() is not None:
            with open(self.folder + '.log', encoding='utf-8') as log:
                raise OSError('no machine: ' + log.read())
        for unshare in children(self.process.pid):
            self.first = next(iter(children(unshare)), None)
        if not self.first:
            return False
        with open('/proc/%d/comm' % self.first, encoding='ascii') as name:
            return name.read() == 'systemd\n' and self.run('systemctl is-system-running')[0] in ('running', 'degraded')

    def run(self, script, given='', folder='/'):
        """A script in it, as root: what it prints, what it reports of faults, and its status."""
        done = subprocess.run(
            ['nsenter', '-t', str(self.first), *NAMESPACES, '--root', '--wd=/proc/%d/root' % self.first, 'env', '-i',
             'PATH=/usr/local/sbin:/usr/local/bin:/usr/sbin:/usr/bin:/sbin:/bin', 'HOME=/root', 'LC_ALL=C.UTF-8',
             'bash', '-c', 'cd "$0" && eval "$1"', folder, script],
            input=given.encode('latin-1'), capture_output=True, check=False)
        return done.stdout.decode('latin-1').rstrip('\n'), done.stderr.decode('latin-1').rstrip('\n'), done.returncode

    def sure(self, script, given='', folder='/'):
        """What a script prints that has to succeed."""
        printed, fault, status = self.run('set -e\n' + script, given, folder)
        if status:
            raise OSError('%s: %s: %d: %s %s' % (self.name, script, status, printed, fault))
        return printed

    def until(self, what, is_so):
        """Waits for something."""
        end = monotonic() + SECONDS
        while not is_so():
            if monotonic() > end:
                raise OSError('%s: in vain: %s' % (self.name, what))
            sleep(0.1)

    def brings(self, path, other, target):
        """A file of this one comes to another one."""
        other.sure('umask 077 && base64 -d > ' + target, self.sure('base64 ' + path))


def children(process):
    """The processes that a process started."""
    try:
        with open('/proc/%d/task/%d/children' % (process, process), encoding='ascii') as file:
            return list(map(int, file.read().split()))
    except FileNotFoundError:
        return []


def emptied(group):
    """Removes a control group with all below it. Whether it is gone."""
    try:
        for folder, _names, _files in os.walk(group, topdown=False):
            os.rmdir(folder)
    except OSError:
        return False
    return True


def joined(one, two):
    """A cable between two machines, by IPv4 and IPv6. Gives the addresses of the first."""
    one.sure('ip link add cable type veth peer name cable-end')
    subprocess.run(['nsenter', '-t', str(one.first), '-n', 'ip', 'link', 'set', 'cable-end', 'netns', str(two.first)], check=True)
    for machine, end, place in ((one, 'cable', 1), (two, 'cable-end', 2)):
        machine.sure('ip address add 10.79.0.%d/24 dev %s; ip address add fd79::%d/64 dev %s nodad; ip link set %s up' % (
            place, end, place, end, end))
    return '10.79.0.1', 'fd79::1'
