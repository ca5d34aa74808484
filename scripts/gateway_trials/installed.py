"""The parts of examples/gateway as an operator installs them, but in a folder and on ports of their own."""
import os
import re
import shutil
import signal
import socket
import subprocess
import tempfile
import time

from model.asking import free_port
from model.files import TOP, written
from model.setups import files_of

EXAMPLES = os.path.join(TOP, 'examples/gateway')
HOST = 'office.test'
SECONDS = 300               # that the office or a part may take to start or to stop, on a busy machine too
LIFE = 4 * 3600             # seconds after which nothing of a trial is left, whatever happens
AHEAD = 1000                # how far ahead a partner may send
GROUP = 'www-data'          # of nginx on Debian
PAGE = os.path.join(TOP, 'docs/OPERATIONS.md')
HAS_IPV6 = os.path.exists('/proc/net/if_inet6')

NGINX = """user %s;
worker_processes 2;
pid %s/nginx.pid;
error_log %s/logs/nginx.log warn;
events { worker_connections 1024; }
http {
    client_body_temp_path %s/bodies;
    proxy_temp_path %s/answers;
    fastcgi_temp_path %s/fastcgi;
    uwsgi_temp_path %s/uwsgi;
    scgi_temp_path %s/scgi;
    include %s/office.conf;
}
"""


def script(name):
    """A script of the example."""
    return os.path.join(EXAMPLES, 'bin', name)


def put(source, target, changes):
    """A file of the example, with each of these texts in it put in the place of another."""
    with open(os.path.join(EXAMPLES, source), encoding='utf-8', newline='') as file:
        text = file.read()
    for old, new in changes:
        if old not in text:
            raise ValueError('%s has no %r' % (source, old))
        text = text.replace(old, new)
    with open(target, 'w', encoding='utf-8', newline='') as file:
        file.write(text)


def until(what, is_so):
    """Waits for something."""
    end = time.monotonic() + SECONDS
    while not is_so():
        if time.monotonic() > end:
            raise OSError('in vain: ' + what)
        time.sleep(0.02)


class Network:
    """A network of its own, with loopback only, for root; else that of the machine. `front` goes before a command in it."""

    def __init__(self):
        self.front, self.holder = [], None
        if os.geteuid():
            return
        words = ['unshare', '-n', 'sh', '-c', 'ip link set lo up && echo up && exec sleep %d' % LIFE]
        self.holder = subprocess.Popen(words, stdout=subprocess.PIPE, stderr=subprocess.DEVNULL)
        if self.holder.stdout.readline() == b'up\n':
            self.front = ['nsenter', '--net=/proc/%d/ns/net' % self.holder.pid, '--']

    def close(self):
        """Its last process ends."""
        if self.holder:
            self.holder.kill()
            self.holder.wait()
            self.holder.stdout.close()


class Authority:
    """The terminal's own authority, by the script of the example."""

    def __init__(self, folder, terminal):
        self.folder = folder
        self.run('init', terminal, HOST)

    def tried(self, *words):
        """What the script prints, what it reports of faults, and its status."""
        given = dict(os.environ, AUTHORITY=self.folder)
        done = subprocess.run(
            [script('office-authority'), *words], env=given, stdin=subprocess.DEVNULL, capture_output=True, encoding='utf-8',
            check=False)
        return done.stdout, done.stderr, done.returncode

    def run(self, *words):
        """The same where it has to succeed."""
        printed, fault, status = self.tried(*words)
        if status:
            raise OSError('office-authority %s: %s' % (' '.join(words), fault))
        return printed

    def files(self, name):
        """Certificate and key of a partner, of a person, or of the gateway itself."""
        for folder in ('partners', 'people', '.'):
            front = os.path.join(self.folder, folder, name)
            if os.path.exists(front + '.crt'):
                return front + '.crt', front + '.key'
        raise OSError('no certificate of ' + name)


class Office:
    """`office serve`, started and stopped as a supervisor does."""

    def __init__(self, program, folder, network, port, setup):
        self.program, self.folder, self.network, self.port, self.process = program, folder, network, port, None
        self.store = os.path.join(folder, 'office.db')
        self.log = os.path.join(folder, 'logs/served.log')
        words = [program, 'init', self.store]
        for name, text in zip(('partners.csv', 'blocks.csv'), files_of(setup)):
            words.append(written(folder, name, text))
        subprocess.run(words, stdout=subprocess.DEVNULL, check=True)

    def start(self):
        """Serves the store; gives how many seconds it took to open."""
        began = time.monotonic()
        words = [self.program, 'serve', self.store, str(self.port), '1000000', '--log', '--ahead', str(AHEAD)]
        with open(self.log, 'ab') as log:
            self.process = subprocess.Popen(self.network.front + words, stdout=subprocess.PIPE, stderr=log)
        line = self.process.stdout.readline()
        if line != b'listening 127.0.0.1:%d\n' % self.port:
            raise OSError('serve says %r, see %s' % (line, self.log))
        return time.monotonic() - began

    def stop(self, number=signal.SIGTERM):
        """Ends it by a signal."""
        if self.process:
            self.process.send_signal(number)
            self.process.wait(SECONDS)
            self.process.stdout.close()
            self.process = None


class Installed:
    """The office, the queue and nginx, until it is left. `port` is for partners, `people` for people."""

    def __init__(self, program, setup):
        self.folder = tempfile.mkdtemp(prefix='gateway-')
        self.network, self.nginx, self.haproxy, self.socket = None, None, None, None
        self.setup, self.port, self.people = setup, free_port(), free_port()
        os.chmod(self.folder, 0o711)
        self.make_logs()
        self.authority = Authority(self.file('authority'), setup.terminal)
        self.network = Network()
        self.office = Office(program, self.folder, self.network, free_port(), setup)

    def file(self, name):
        """A path below its folder."""
        return os.path.join(self.folder, name)

    def make_logs(self):
        """The folder of logs, for whom the page makes it."""
        with open(PAGE, encoding='utf-8') as file:
            mode, group = re.search(r'install -d -m (\d+) -g (\w+) /var/log/office-gateway', file.read()).groups()
        os.mkdir(self.file('logs'))
        os.chmod(self.file('logs'), int(mode, 8))
        if not os.geteuid():
            shutil.chown(self.file('logs'), 'root', group)

    def __enter__(self):
        try:
            self.office.start()
            self.start_queue()
            self.start_nginx()
        except BaseException:
            self.__exit__()
            raise
        return self

    def __exit__(self, *_fault):
        for process in (self.nginx, self.haproxy):
            if process:
                process.terminate()
                process.wait(SECONDS)
        self.office.stop(signal.SIGKILL)
        self.network.close()
        if self.socket:
            self.socket.close()
        shutil.rmtree(self.folder)

    def start_queue(self):
        """HAProxy, with the socket that systemd opens: only its group may open it."""
        path = self.file('queue.sock')
        self.socket = socket.socket(socket.AF_UNIX)
        self.socket.bind(path)
        self.socket.listen(4096)
        if not os.geteuid():
            shutil.chown(path, 'root', GROUP)
        os.chmod(path, 0o660)
        shutil.copy(os.path.join(EXAMPLES, 'haproxy/no-answer.http'), self.folder)
        put('haproxy/queue.cfg', self.file('queue.cfg'), [
            ('/etc/office-gateway/', self.folder + '/'), ('127.0.0.1:8080', '127.0.0.1:%d' % self.office.port)])
        number = self.socket.fileno()
        words = ['sh', '-c', 'exec "$@" 3<&%d' % number, 'queue', 'haproxy', '-db', '-f', self.file('queue.cfg')]
        with open(self.file('logs/queue.log'), 'ab') as log:
            self.haproxy = subprocess.Popen(
                self.network.front + words, stdin=subprocess.DEVNULL, stdout=log, stderr=log, pass_fds=[number])

    def start_nginx(self):
        """nginx, which has to be listening at both ports."""
        os.makedirs(self.file('snippets'))
        put('nginx/office.conf', self.file('office.conf'), [
            ('/var/log/office-gateway/', self.file('logs/')), ('/run/office-queue.sock', self.file('queue.sock')),
            *[('listen %s%s ssl;' % (of_all, port), 'listen %s:%d ssl;' % (loopback, ours) if loopback else '')
              for of_all, loopback in (('', '127.0.0.1'), ('[::]:', '[::1]' if HAS_IPV6 else None))
              for port, ours in ((443, self.port), (8443, self.people))]])
        put('nginx/office-shared.conf', self.file('snippets/office-shared.conf'), [
            ('/etc/office-authority/', self.file('authority/')), ('/var/log/office-gateway/', self.file('logs/'))])
        text = NGINX % (GROUP, *[self.folder] * 8)
        with open(self.file('nginx.conf'), 'w', encoding='utf-8') as file:
            file.write(text if not os.geteuid() else text.partition('\n')[2])
        self.nginx = subprocess.Popen(
            ['nginx', '-p', self.folder, '-c', self.file('nginx.conf'), '-g', 'daemon off;'], stdin=subprocess.DEVNULL)
        until('nginx', lambda: os.path.exists(self.file('nginx.pid')) and self.listens(self.port))

    def listens(self, port):
        """Whether something answers at a port."""
        with socket.socket() as client:
            return client.connect_ex(('127.0.0.1', port)) == 0

    def reload(self):
        """nginx reads certificates and the list of revoked ones anew; the workers that knew the old ones are gone."""
        old = self.workers()
        self.nginx.send_signal(signal.SIGHUP)
        until('reload', lambda: self.workers() and not self.workers() & old)

    def workers(self):
        """The processes of nginx that serve."""
        with open('/proc/%d/task/%d/children' % (self.nginx.pid, self.nginx.pid), encoding='ascii') as file:
            return set(file.read().split())
