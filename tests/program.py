"""The program as the scripts of this folder run it: words and an input, to a status and what was written."""
import os
import signal
import sys
import time

ROOT = os.path.dirname(os.path.dirname(os.path.abspath(__file__)))
PROGRAM = os.environ.get("JETLAB", os.path.join(ROOT, "crates", "jetlab", "out", "jetlab"))
SECONDS = 60

FORM = ("word", "number", "limit", "repeated", "unknown", "wrongside", "noend", "afterend")
CAUSES = {"serial": FORM, "migrate": FORM, "run": FORM}
for _command in ("check", "table", "json", "why"):
    CAUSES[_command] = FORM + ("entry", "count")


class Hang(Exception):
    """The program didn't end in SECONDS."""


def need_program():
    """Stops where no program was built."""
    if not os.access(PROGRAM, os.X_OK):
        sys.exit(f"{sys.argv[0]}: no program: ./jetlab build makes it")


class Runner:
    """Runs the program, one run after another, with an input and an output that stay in memory. `taken` is how many bytes
    of its input the last run took."""

    def __init__(self):
        self.input = os.memfd_create("input")
        self.output = os.memfd_create("output")
        self.data = None
        self.taken = 0
        self.runs = 0
        signal.signal(signal.SIGALRM, self._stop)
        self.child = None

    def _stop(self, _signal, _frame):
        if self.child is not None:
            os.kill(self.child, signal.SIGKILL)
            raise Hang()

    def run(self, words, data):
        """The status, negative where a signal ended the program, and the bytes on standard output."""
        if data is not self.data:
            os.ftruncate(self.input, 0)
            _write_whole(self.input, data)
            self.data = data
        os.lseek(self.input, 0, os.SEEK_SET)
        os.ftruncate(self.output, 0)
        os.lseek(self.output, 0, os.SEEK_SET)
        self.runs += 1
        signal.setitimer(signal.ITIMER_REAL, SECONDS)
        self.child = os.posix_spawn(
            PROGRAM,
            ["jetlab", *words],
            {},
            file_actions=[(os.POSIX_SPAWN_DUP2, self.input, 0), (os.POSIX_SPAWN_DUP2, self.output, 1)],
        )
        try:
            _, ended = os.waitpid(self.child, 0)
        except Hang:
            os.waitpid(self.child, 0)
            raise
        finally:
            self.child = None
            signal.setitimer(signal.ITIMER_REAL, 0)
        self.taken = os.lseek(self.input, 0, os.SEEK_CUR)
        length = os.lseek(self.output, 0, os.SEEK_END)
        status = os.WEXITSTATUS(ended) if os.WIFEXITED(ended) else -os.WTERMSIG(ended)
        return status, os.pread(self.output, length, 0)


def _write_whole(where, data):
    at, data = 0, memoryview(data)
    while at < len(data):
        at += os.pwrite(where, data[at:], at)


def since(began):
    return f"{time.time() - began:.1f} seconds"
