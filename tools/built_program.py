"""Runs the built program, many times a second, also with calls of the system that fail (failing_calls.c)."""
import os
import signal
import struct
import subprocess
import sys
import tempfile
import time

HERE = os.path.dirname(os.path.abspath(__file__))
PROGRAM = os.path.join(os.path.dirname(HERE), "crates", "group_board", "out", "group_board")
TOLD = 9


class Slow(Exception):
    """A run that was ended after so many seconds."""


class Answer:
    """How a run ended, what it put out, and how many calls of the failing kind it made, and how many of these failed."""

    def __init__(self, status, out, err, seconds, made, failed):
        self.status, self.out, self.err, self.seconds, self.made, self.failed = status, out, err, seconds, made, failed

    def kept(self):
        return self.status, self.out, self.err


def compiled(folder):
    """The library that lets calls fail."""
    made = os.path.join(folder, "failing_calls.so")
    subprocess.run(["cc", "-O1", "-Wall", "-shared", "-fPIC", "-o", made, os.path.join(HERE, "failing_calls.c"), "-ldl"], check=True)
    return made


def is_late(_signal, _frame):
    raise Slow


class BuiltProgram:
    """A program whose input and outputs are files in memory, used again for each run."""

    def __init__(self, path=PROGRAM, seconds=10):
        if not os.access(path, os.X_OK):
            sys.exit(f"there is no program at {path}: './group_board --build' makes it, and --program names another one")
        self.path, self.seconds, self.library = path, seconds, None
        self.files = [os.memfd_create(name) for name in ("input", "output", "errors", "told")]
        self.actions = [(os.POSIX_SPAWN_DUP2, file, at) for file, at in zip(self.files, (0, 1, 2, TOLD))]
        signal.signal(signal.SIGALRM, is_late)

    def let_fail(self):
        """From here on runs may be told which calls fail. The library lives as long as this program's object."""
        self.folder = tempfile.TemporaryDirectory()
        self.library = compiled(self.folder.name)

    def run(self, words, text, kind="", first=0, every=0, error=0, piece=0):
        source, out, err, told = self.files
        for file, content in zip(self.files, (text, b"", b"", bytes(16))):
            os.ftruncate(file, 0)
            os.pwrite(file, content, 0)
            os.lseek(file, 0, os.SEEK_SET)
        begun = time.monotonic()
        status = self.status_of(words, self.environment(kind, first, every, error, piece))
        made, failed = struct.unpack("ll", os.pread(told, 16, 0))
        return Answer(status, self.content(out), self.content(err), time.monotonic() - begun, made, failed)

    def environment(self, kind, first, every, error, piece):
        if not self.library:
            return {}
        return {"LD_PRELOAD": self.library, "FAILING_KIND": kind, "FAILING_FROM": str(first), "FAILING_EVERY": str(every),
                "FAILING_ERROR": str(error), "FAILING_PIECE": str(piece), "FAILING_TOLD": str(TOLD)}

    def status_of(self, words, environment):
        """The exit status; the signal's number, negative, where one ended it; None where it took too long."""
        process = os.posix_spawn(self.path, [self.path, *words], environment, file_actions=self.actions)
        signal.setitimer(signal.ITIMER_REAL, self.seconds)
        try:
            _, status = os.waitpid(process, 0)
        except Slow:
            os.kill(process, signal.SIGKILL)
            os.waitpid(process, 0)
            return None
        finally:
            signal.setitimer(signal.ITIMER_REAL, 0)
        return os.waitstatus_to_exitcode(status)

    def content(self, file):
        return os.pread(file, os.fstat(file).st_size, 0)
