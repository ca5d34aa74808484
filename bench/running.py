"""Programs that are measured: a stream that is fed in parts, a command, a server."""
import hashlib
import os
import re
import select
import subprocess
import threading
import time


def processor_seconds(process):
    """User and system time that a running process has had, by its own clock of the kernel."""
    return time.clock_gettime_ns((~process.pid << 3) | 2) / 1e9


PATIENCE = 600              # seconds that an answer may take


class Part:
    """What a part of a stream took, in seconds of a clock and of a processor, and a hash of its answers."""

    def __init__(self, seconds, processor, answers):
        self.seconds, self.processor, self.answers = seconds, processor, answers


class Stream:
    """A program that answers each interchange by a line; it runs from part to part, so that no part counts its start."""

    def __init__(self, *words):
        self.process = subprocess.Popen(words, stdin=subprocess.PIPE, stdout=subprocess.PIPE)
        self.peak = 0

    def feed(self, texts):
        """Feeds some interchanges, each a text, and waits for as many lines."""
        data = ''.join(text + '\n' for text in texts).encode('latin-1')
        wanted, answers = len(texts), hashlib.sha256()
        before, started = processor_seconds(self.process), time.monotonic()
        writer = threading.Thread(target=self.write, args=(data,))
        writer.start()
        while wanted > 0:
            if not select.select([self.process.stdout], [], [], PATIENCE)[0]:
                raise SystemExit('bench: %s holds answers back' % ' '.join(self.process.args))
            piece = os.read(self.process.stdout.fileno(), 1 << 16)
            if not piece:
                raise SystemExit('bench: %s ended early' % ' '.join(self.process.args))
            answers.update(piece)
            wanted -= piece.count(b'\n')
        taken = Part(time.monotonic() - started, processor_seconds(self.process) - before, answers.hexdigest())
        writer.join()
        return taken

    def write(self, data):
        """Writes all of it."""
        self.process.stdin.write(data)
        self.process.stdin.flush()

    def close(self):
        """Keeps the most memory that the program has had, in megabytes, and ends its input."""
        with open('/proc/%d/status' % self.process.pid, encoding='ascii') as status:
            self.peak = int(re.search(r'VmHWM:\s+(\d+)', status.read()).group(1)) / 1024
        self.process.stdin.close()
        self.process.stdout.read()
        self.process.wait()


def command(*words):
    """What a command prints."""
    done = subprocess.run(words, stdout=subprocess.PIPE, check=False)
    if done.returncode not in (0, 1):
        raise SystemExit('bench: %s ended with %d' % (' '.join(words), done.returncode))
    return done.stdout


def spent(*words):
    """Seconds of a clock and of a processor that a command takes, and the most memory that it has, in megabytes."""
    started = time.monotonic()
    with subprocess.Popen(words, stdout=subprocess.DEVNULL) as process:
        _pid, status, used = os.wait4(process.pid, 0)
        process.returncode = os.waitstatus_to_exitcode(status)
    if process.returncode != 0:
        raise SystemExit('bench: %s ended with %d' % (' '.join(words), process.returncode))
    return time.monotonic() - started, used.ru_utime + used.ru_stime, used.ru_maxrss / 1024


def least_seconds(times, *words):
    """The least time that a command takes from its start to its end."""
    least = None
    for _time in range(times):
        started = time.monotonic()
        command(*words)
        seconds = time.monotonic() - started
        least = seconds if least is None else min(least, seconds)
    return least


class Cost:
    """The least time that a command took, in seconds, and the most resident memory that it had, in megabytes."""

    def __init__(self, times, *words, statuses=(0, 1), before=lambda: None):
        self.seconds, self.peak = None, 0
        for _time in range(times):
            before()
            started = time.monotonic()
            with subprocess.Popen(words, stdout=subprocess.DEVNULL, stderr=subprocess.DEVNULL) as process:
                _pid, status, usage = os.wait4(process.pid, 0)
                process.returncode = os.waitstatus_to_exitcode(status)
            seconds = time.monotonic() - started
            if process.returncode not in statuses:
                raise SystemExit('bench: %s ended with %d' % (' '.join(words), process.returncode))
            self.seconds = seconds if self.seconds is None else min(self.seconds, seconds)
            self.peak = max(self.peak, usage.ru_maxrss / 1024)


COUNTING = ['valgrind', '--tool=cachegrind', '--cache-sim=no', '--cachegrind-out-file=/dev/null']


def counted_in(told):
    """The count in what valgrind tells."""
    return int(re.search(rb'I +refs: +([0-9,]+)', told).group(1).replace(b',', b''))


def instructions(path, *words, statuses=(0,)):
    """How many instructions a program runs on a file as its input, by valgrind."""
    with open(path, 'rb') as file:
        done = subprocess.run([*COUNTING, *words], stdin=file, stdout=subprocess.DEVNULL, stderr=subprocess.PIPE, check=False)
    if done.returncode not in statuses:
        raise SystemExit('bench: %s ended with %d' % (' '.join(words), done.returncode))
    return counted_in(done.stderr)


class Server:
    """A program that serves so many connections."""

    def __init__(self, *words):
        self.process = subprocess.Popen(words, stdout=subprocess.PIPE)
        self.port = self.process.stdout.readline().decode().rpartition(':')[2].strip()

    def asked(self, client, *words):
        """Seconds and hash of the responses to a client's requests."""
        seconds, others, responses = command(client, self.port, *words).decode().split()
        if others != '0':
            raise SystemExit('bench: %s of the responses to %s are not 200' % (others, words[0]))
        return float(seconds), responses

    def close(self):
        """Waits for the end, which comes by itself after the last connection."""
        self.process.stdout.read()
        self.process.wait()
