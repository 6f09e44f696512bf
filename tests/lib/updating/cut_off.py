"""Updates that a signal ends before each of their calls."""

import os
import signal
import stat
import subprocess

from replacing.folder import LIST, OLD
from updating.steps import LOCK, REFUSED, Steps, closed, content, same, shown

SIGNALS = (signal.SIGTERM, signal.SIGINT, signal.SIGHUP, signal.SIGKILL)
OPENSSH = os.environ.get("OPENSSH", "ssh-keygen")


def is_refused(place):
    """What is wrong if neither program may take the list."""
    wrong = []
    ours = place.run("-Q", "-f", LIST, "../key.pub")
    if (ours.returncode, ours.stdout) != (255, b""):
        wrong.append("asked, it says %d %r" % (ours.returncode, ours.stdout))
    theirs = subprocess.run(
        [OPENSSH, "-Q", "-f", LIST, "../key.pub"], capture_output=True, check=False
    )
    if theirs.returncode in (0, 1) and b": ok" in theirs.stdout or theirs.returncode == 0:
        wrong.append("OpenSSH says %d %r" % (theirs.returncode, theirs.stdout))
    return wrong


def by_rename(place, made):
    """The folder has the old list or the new one, and beside it at most the new file and the lock,
    which no one else may read. The next update takes over the lock."""
    steps = Steps(place)
    place.enter()
    calls, _ = steps.calls()
    wrong, left = [], 0
    for number, name in enumerate(calls, 1):
        for sent in SIGNALS:
            place.enter()
            os.chmod(LIST, 0o600)
            done = steps.run(AT=str(number), SIGNAL=str(int(sent)))
            others = {*os.listdir()} - {LIST}
            modes = {stat.S_IMODE(os.stat(it).st_mode) for it in others}
            is_whole = content() == OLD or same(content(), made)
            is_much = len(others - {LOCK}) > 1
            if done.returncode != -sent or not is_whole or is_much or modes - {0o600}:
                wrong.append("%s at call %d, %s: %s" % (sent.name, number, name, shown(done)))
                wrong.append("%r with the modes %s" % (os.listdir(), modes))
            left += len(others)
            wrong += place.revoked() + place.differs(place.update(), 0, b"") + place.revoked()
            wrong += ["the lock is left"] if LOCK in os.listdir() else []
    if not left:
        wrong.append("no new file was ever left")
    place.judge("signals at each of %d calls of an update" % len(calls), wrong)


def in_place(place, made):
    """The folder has the old list, the new one, or one that every reader refuses."""
    user = closed(place, OLD)
    steps = Steps(place, user=user)
    calls, _ = steps.calls()
    wrong, seen = [], set()
    for number, name in enumerate(calls, 1):
        for sent in SIGNALS:
            closed(place, OLD)
            done = steps.run(AT=str(number), SIGNAL=str(int(sent)))
            found = content()
            if done.returncode != -sent or os.listdir() != [LIST]:
                wrong.append("%s at call %d, %s: %s" % (sent.name, number, name, shown(done)))
            if found.startswith(REFUSED):
                wrong += is_refused(place) if found not in seen else []
                seen.add(found)
            elif found != OLD and not same(found, made):
                wrong.append("%s at call %d, %s: %r" % (sent.name, number, name, found[:60]))
            else:
                wrong += place.revoked()
    if not seen:
        wrong.append("no list was ever refused")
    place.judge("signals at each of %d calls in place" % len(calls), wrong)


def all_of_them(place):
    made = place.made()
    by_rename(place, made)
    in_place(place, made)
