"""Runs of the program over the library that counts its calls on files, and acts at one of them."""

import collections
import os
import signal
import subprocess

from replacing.folder import LIST, NOBODY, timeless
from wire import HEADER

# The first bytes of a list: its magic, then a format version that every reader refuses.
REFUSED = HEADER[:8] + b"\xff" * 4
UPDATE = ("-k", "-u", "-f", LIST, "-s", "none", "../spec")
ANEW = ("-k", "-f", LIST, "-s", "none", "../spec")
LOCK = ".%s.lock" % LIST
LOCKED = b"ssh-keygen: %s: file 7 Locked\n" % LIST.encode()
WAITS = b"ssh-keygen: waiting for another update of %s\n" % LIST.encode()

# A call: its name, the path of its file, from the current folder on where it is there, and more.
Call = collections.namedtuple("Call", "name path more")


class Ended:
    def __init__(self, process, was_stopped):
        self.stdout, self.stderr = process.communicate(timeout=120)
        self.returncode = process.returncode
        # Whether the call was made at which the program was to stop.
        self.was_stopped = was_stopped


def ended(process, was_stopped):
    """The end of a run that was stopped."""
    if was_stopped:
        os.kill(process.pid, signal.SIGCONT)
    return Ended(process, was_stopped)


def is_stopped(process):
    """Whether the run is stopped by now, or has ended."""
    # It is left to be waited for, where it has ended.
    found = os.waitid(os.P_PID, process.pid, os.WSTOPPED | os.WEXITED | os.WNOWAIT)
    return found.si_code == os.CLD_STOPPED


class Steps:
    """Runs with these words, maybe as another user. Standard input is a pipe with this text, if
    there is one."""

    def __init__(self, place, words=UPDATE, user=None, text=None):
        self.place = place
        self.words = words
        self.user = user
        self.text = text

    def as_user(self):
        """The user as whom it runs, in no other group."""
        return {"user": self.user, "group": self.user, "extra_groups": []}

    def run(self, **orders):
        """A run to its end, by the orders that the library is given."""
        environment = {"LD_PRELOAD": self.place.library, **orders}
        more = {} if self.user is None else self.as_user()
        more |= {} if self.text is None else {"input": self.text}
        return self.place.run(*self.words, env=environment, **more)

    def calls(self, acts=None, **orders):
        """The names of the calls of a run, in their order, and how it ended."""
        calls, done = self.seen(acts, **orders)
        return [it.name for it in calls], done

    def seen(self, acts=None, **orders):
        """The calls of a run, in their order, and how it ended. It may be stopped as by
        `stopped_at`."""
        log = os.path.join(self.place.scratch, "calls")
        with open(log, "wb") as out:
            os.fchmod(out.fileno(), 0o666)
        orders["CALLS"] = log
        done = self.stopped_at(acts, **orders) if acts else self.run(**orders)
        with open(log, encoding="utf-8") as text:
            lines = [line.rstrip("\n").split("\t") for line in text]
        here = os.getcwd()
        return [Call(*(it.replace(here + "/", "") for it in line)) for line in lines], done

    def begun(self, *numbers, **orders):
        """A run that is stopped before the first of these calls, or has ended, and whether it is
        stopped."""
        as_user = {} if self.user is None else self.as_user()
        at = ",".join(map(str, numbers))
        orders |= {"AT": at, "SIGNAL": str(int(signal.SIGSTOP))}
        process = subprocess.Popen(
            [self.place.program, *self.words],
            stdin=subprocess.DEVNULL if self.text is None else subprocess.PIPE,
            stdout=subprocess.PIPE,
            stderr=subprocess.PIPE,
            env={"LD_PRELOAD": self.place.library, **orders},
            **as_user,
        )
        if self.text is not None:
            process.stdin.write(self.text)
            process.stdin.close()
            process.stdin = None
        return process, is_stopped(process)

    def stopped(self, number, meanwhile, **orders):
        """A run that stops before this call. Then `meanwhile` is called, and the run continues."""
        return self.stopped_at({number: meanwhile}, **orders)

    def stopped_at(self, acts, **orders):
        """A run that stops before each call that has an act by its number, in their order. The act
        is called then, and the run continues."""
        process, was_stopped = self.begun(*acts, **orders)
        *before, last = acts.values()
        for act in before:
            if was_stopped:
                act()
                os.kill(process.pid, signal.SIGCONT)
                was_stopped = is_stopped(process)
        if was_stopped:
            last()
        return ended(process, was_stopped)


def content(name=LIST):
    if not os.path.exists(name):
        return None
    with open(name, "rb") as file:
        return file.read()


def same(left, right):
    """Whether both are the same list, but for its time."""
    if left is None or right is None:
        return left is right
    return timeless(left) == timeless(right)


def closed(place, old):
    """A folder that takes no new file, and a list in it that the user may write."""
    user = NOBODY if os.geteuid() == 0 else None
    place.enter(old=old)
    if user is not None:
        os.chown(LIST, user, user)
    os.chmod(".", 0o555)
    return user


def shown(done):
    return "status %d, error %r" % (done.returncode, done.stderr)
