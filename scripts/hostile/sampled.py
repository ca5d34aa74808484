"""The program over a store, with the peak of its memory (VmHWM) for each command, as far as it can be read."""
import fcntl
import re
import struct
import subprocess
import tempfile
import termios
import time

from model.asking import SECONDS
from model.stores import Program


def peak_of(process):
    """Its greatest resident memory so far, in KiB; 0 if it has ended."""
    try:
        with open('/proc/%d/status' % process.pid, encoding='ascii') as status:
            found = re.search(r'VmHWM:\s*(\d+)', status.read())
    except OSError:
        return 0
    return int(found.group(1)) if found else 0


def is_sleeping(process):
    """Whether it waits for something, or has ended."""
    try:
        with open('/proc/%d/stat' % process.pid, encoding='latin-1') as stat:
            return stat.read().rpartition(')')[2].split()[0] in ('S', 'Z')
    except OSError:
        return True


def is_read(pipe):
    """Whether all that was written to a pipe was read."""
    return struct.unpack('i', fcntl.ioctl(pipe, termios.FIONREAD, b'\0' * 4))[0] == 0


class Sampled(Program):
    """The program, with `peaks`: the greatest memory by command."""

    def __init__(self, path, folder):
        super().__init__(path, folder)
        self.peaks = {}

    def sample(self, command, process):
        """Keeps the peak of a process that is still there."""
        self.peaks[command] = max(self.peaks.get(command, 0), peak_of(process))

    def fed(self, words, front, end):
        """What it prints, tells and ends with on a standard input. Its memory is sampled when it has read the front."""
        with tempfile.TemporaryFile() as printed, tempfile.TemporaryFile() as told:
            with subprocess.Popen([self.path, *words], stdin=subprocess.PIPE, stdout=printed, stderr=told) as process:
                try:
                    self.feed(words[0], process, front.encode('latin-1'), end.encode('latin-1'))
                    ended = process.wait(SECONDS)
                except subprocess.TimeoutExpired:
                    process.kill()
                    ended = 'no end'
            printed.seek(0)
            told.seek(0)
            return printed.read().decode('utf-8'), told.read().decode('utf-8'), ended

    def feed(self, command, process, front, end):
        """Writes the front, waits until it was read and the program waits for more, samples, and writes the end."""
        try:
            process.stdin.write(front)
            process.stdin.flush()
            started = time.monotonic()
            while process.poll() is None and time.monotonic() - started < SECONDS:
                if is_read(process.stdin) and is_sleeping(process):
                    break
                time.sleep(0.0005)
            self.sample(command, process)
            process.stdin.write(end)
            process.stdin.close()
        except BrokenPipeError:
            pass

    def before_last(self, process):
        """Samples the memory of a server."""
        self.sample('serve', process)
