"""Runs the program for fuzz.py: fast, within a time, and with streams and memory that fail."""
import functools
import os
import resource
import signal
import subprocess

# a Wait that isn't met is looked at 100,000 times in a race, which takes long beside other work
SECONDS = 300
MIB = 1 << 20


class TookTooLong(Exception):
    """A run that didn't end in its time."""


def too_long(number, frame):
    raise TookTooLong("no end after %d seconds" % SECONDS)


def started(words, streams):
    """Starts a program in the fastest way. Gives its number, and a call that waits for its status."""
    moved = [(os.POSIX_SPAWN_DUP2, stream, number) for number, stream in enumerate(streams)]
    child = os.posix_spawn(words[0], words, {}, file_actions=moved)
    return child, lambda: os.waitstatus_to_exitcode(os.waitpid(child, 0)[1])


def limited(words, streams, memory):
    """The same, with so much memory at most."""
    limit = functools.partial(resource.setrlimit, resource.RLIMIT_AS, (memory, memory))
    child = subprocess.Popen(words, stdin=streams[0], stdout=streams[1], stderr=streams[2], preexec_fn=limit)
    return child.pid, child.wait


class Program:
    """The program, with memory files for its streams, which are faster than pipes."""

    def __init__(self, path):
        self.path = path
        self.input, self.output, self.error = [os.memfd_create(name) for name in ("in", "out", "error")]
        signal.signal(signal.SIGALRM, too_long)
        self.given = None
        self.has_judge = self.run(["judge"], b"")[0] != 2

    def give(self, text):
        """Puts a text where the next runs read it."""
        if text is not self.given:
            os.ftruncate(self.input, 0)
            os.pwrite(self.input, text, 0)
            self.given = text

    def run(self, words, text, memory=None):
        """The status of a run, with its output and its standard error."""
        self.give(text)
        os.lseek(self.input, 0, os.SEEK_SET)
        for stream in (self.output, self.error):
            os.ftruncate(stream, 0)
            os.lseek(stream, 0, os.SEEK_SET)
        status = self.wait(words, self.input, self.output, memory)
        return (status, *[os.pread(stream, os.fstat(stream).st_size, 0) for stream in (self.output, self.error)])

    def wait(self, words, from_, to, memory=None):
        """The status of a run with these streams, and with so much memory at most."""
        words, streams = [self.path, *words], (from_, to, self.error)
        child, wait = started(words, streams) if memory is None else limited(words, streams, memory)
        signal.alarm(SECONDS)
        try:
            return wait()
        except TookTooLong:
            os.kill(child, signal.SIGKILL)
            wait()
            raise
        finally:
            signal.alarm(0)

    def with_bad_input(self, word):
        """A run whose input can't be read."""
        folder = os.open("/", os.O_RDONLY)
        os.ftruncate(self.output, 0)
        os.lseek(self.output, 0, os.SEEK_SET)
        status = self.wait([word], folder, self.output)
        os.close(folder)
        return status, os.pread(self.output, MIB, 0)

    def with_full_output(self, words, text):
        """The status of a run whose output is full."""
        self.give(text)
        os.lseek(self.input, 0, os.SEEK_SET)
        with open("/dev/full", "wb") as full:
            return self.wait(words, self.input, full.fileno())

    @functools.cache
    def least_memory(self):
        """About how much memory the program needs for its usage line, in bytes."""
        low, high = MIB, 256 * MIB
        while high - low > MIB // 4:
            middle = (low + high) // 2
            low, high = (low, middle) if self.run([], b"", middle)[0] == 2 else (middle, high)
        return high
