"""Starts the program over the library that makes its calls fail, and reports how it ended."""

import os
import signal
import struct
from pathlib import Path

MOMENT = 951782400
SECONDS = 20
# The calls that the library counts, in its order.
SORTS = "MEMORY READ WRITE CREATE MODE OWNER SYNC CLOSE RENAME REMOVE LINK".split()
LIST = "made.krl"


class Ended:
    """How a run ended: a status below zero is a signal. The counts are those of the library."""

    def __init__(self, status, output, error, made, left, counts):
        self.status = status
        self.output = output
        self.error = error
        # The bytes of the list that -k was to make, or None.
        self.made = made
        # How many files with other names the run left.
        self.left = left
        self.counts = counts

    def says(self):
        return self.status, self.output, self.error, self.made, self.left

    def shown(self):
        made = "" if self.made is None else ", a list of %d bytes" % len(self.made)
        made += ", %d files more" % self.left if self.left else ""
        return "status %d, output %r, error %r%s" % (
            self.status,
            self.output[-90:],
            self.error[-200:],
            made,
        )


class Counts:
    """The numbers of calls and of failed calls, and the descriptor of the last failed call."""

    def __init__(self, called, failed, descriptor):
        self.called = called
        self.failed = failed
        self.descriptor = descriptor


class Program:
    """The program, in the current folder, which has the files that it reads."""

    def __init__(self, program, library, name="ssh-keygen"):
        self.program = program
        self.library = library
        self.name = name
        signal.signal(signal.SIGALRM, self.stop)
        self.process = None

    def stop(self, *_):
        os.kill(self.process, signal.SIGKILL)

    def faults(self, error):
        """Standard error, without the name of the program before a fault, or the front of it."""
        before = self.name.encode() + b": "
        return b"" if before.startswith(error) else error.removeprefix(before)

    def run(self, words, given=os.devnull, old=None, **failing):
        """Runs it with the words, and standard input from the file given. Where the words make a
        list, old is what is there already."""
        for name, content in [("report", bytes(24 * len(SORTS))), (LIST, old)]:
            if content is None:
                if os.path.exists(name):
                    os.remove(name)
                continue
            with open(name, "wb") as out:
                out.write(content)
        wanted = os.O_WRONLY | os.O_CREAT | os.O_TRUNC
        names = {*os.listdir(), LIST, "output", "error"}
        self.process = os.posix_spawn(
            self.program,
            [self.name] + words,
            {"LD_PRELOAD": self.library, "REPORT": "report", "MOMENT": str(MOMENT), **failing},
            file_actions=[
                (os.POSIX_SPAWN_OPEN, 0, given, os.O_RDONLY, 0),
                (os.POSIX_SPAWN_OPEN, 1, "output", wanted, 0o600),
                (os.POSIX_SPAWN_OPEN, 2, "error", wanted, 0o600),
            ],
        )
        signal.alarm(SECONDS)
        status = os.waitstatus_to_exitcode(os.waitpid(self.process, 0)[1])
        signal.alarm(0)
        numbers = struct.unpack("%dQ" % (3 * len(SORTS)), Path("report").read_bytes())
        return Ended(
            status,
            Path("output").read_bytes(),
            self.faults(Path("error").read_bytes()),
            Path(LIST).read_bytes() if os.path.exists(LIST) else None,
            remove_all({*os.listdir()} - names),
            {sort: Counts(*numbers[3 * at : 3 * at + 3]) for at, sort in enumerate(SORTS)},
        )


def remove_all(names):
    """Removes the files, and gives their number."""
    for name in names:
        os.remove(name)
    return len(names)
