"""Lists in a folder that takes no new file: the list's content between calls, and after faults."""

import errno
import os

from replacing.folder import LIST, OLD, fault, without_key
from updating.cut_off import is_refused
from updating.moved import ANOTHER, with_lines
from updating.steps import ANEW, REFUSED, UPDATE, Steps, closed, content, same, shown
from wire import HEADER

CHANGES = ("write", "ftruncate")


def between(place, name, old, words, wanted):
    """Before each call the folder has the old list, one that every reader refuses, or the new
    one."""
    user = closed(place, old)
    steps = Steps(place, words, user)
    calls, _ = steps.calls()
    wrong = []
    for number, call in enumerate(calls, 1):
        closed(place, old)
        seen = []
        done = steps.stopped(number, lambda: seen.append(content()))
        it = seen[0]
        if it != old and not it.startswith(REFUSED) and not same(it, wanted):
            wrong.append("before call %d, %s, it is %r" % (number, call, it[:40]))
        if done.returncode or not same(content(), wanted):
            wrong.append("stopped at call %d, %s: %s" % (number, call, shown(done)))
    place.judge("%s in place, at each of %d calls" % (name, len(calls)), wrong)


def synced(place):
    """The refused version is synced before all else, and the rest before the true version."""
    calls, _ = Steps(place, user=closed(place, OLD)).calls()
    order = [it for it in calls if it in CHANGES + ("fsync",)]
    changes = [at for at, it in enumerate(order) if it in CHANGES]
    # The front, the rest, the length and the true version.
    wrong = [] if len(changes) >= 4 else ["the changes are %s" % order]
    for at in [changes[0], *changes[-2:]]:
        if order[at + 1 : at + 2] != ["fsync"]:
            wrong.append("no sync comes after change %d of %s" % (at, order))
    place.judge("syncs in place", wrong)


def failing(place, made):
    """Each change and each sync fails in turn: the fault is reported, and the list is refused or is
    the old one."""
    calls, _ = Steps(place, user=closed(place, OLD)).calls()
    wrong = []
    for name in CHANGES + ("fsync",):
        for turn in range(1, calls.count(name) + 1):
            steps = Steps(place, user=closed(place, OLD))
            done = steps.run(FAIL="%s:%d-%d:%d" % (name, turn, turn, errno.EIO))
            found = content()
            counts = {fault(it) for it in (0, len(REFUSED), len(made))}
            if done.returncode != 255 or done.stderr not in counts:
                wrong.append("%s %d: %s" % (name, turn, shown(done)))
            # Only the very last sync fails when all has its place.
            is_last = (name, turn) == ("fsync", calls.count("fsync"))
            is_old = (name, turn) == ("write", 1) and found == OLD
            if not is_old and not (same(found, made) if is_last else found.startswith(REFUSED)):
                wrong.append("%s %d: it has %d bytes, %r" % (name, turn, len(found), found[:40]))
    place.judge("changes and syncs that fail in place", wrong)


def limits(place, made):
    """A file that may not grow further: the count is what went out, and no reader takes it."""
    wrong = []
    for length in (len(OLD), len(OLD) + 1, len(made) // 2, len(made) - 1):
        user = closed(place, OLD)
        done = place.update(user=user, limit=length)
        found = place.differs(done, 255, fault(length)) + is_refused(place)
        if not content().startswith(REFUSED):
            found.append("it begins with %r" % content()[:12])
        wrong += ["%d bytes: %s" % (length, it) for it in found]
        done = place.run(*ANEW, user=user)
        wrong += place.differs(done, 0, b"")
        if content()[28:] != without_key(made)[28:]:
            wrong.append("it is not made anew")
    place.judge("a list in place that may not grow", wrong)


def replaced(place, made):
    """Another program, which may make files there, renames its list over the one in place."""
    steps = Steps(place, user=closed(place, OLD))
    calls, _ = steps.calls()
    last = len(calls) - calls[::-1].index("stat")
    wrong = []
    for number, name in enumerate(calls, 1):
        user = closed(place, OLD)
        put_another(place, user)
        done = steps.stopped(number, put_over)
        # After the last look at the name it is too late to see.
        wanted = ANOTHER if number > last else with_lines(ANOTHER, made)
        if done.returncode or not same(content(), wanted):
            wrong.append("before call %d, %s: %s" % (number, name, shown(done)))
    place.judge("another list over one in place, at each of %d calls" % len(calls), wrong)


def put_another(place, user):
    place.put("../another", ANOTHER)
    if user is not None:
        os.chown("../another", user, user)


def put_over():
    os.chmod(".", 0o755)
    os.rename("../another", LIST)
    os.chmod(".", 0o555)


def all_of_them(place):
    made = place.made()
    anew = without_key(made)[:12] + bytes(8) + without_key(made)[20:]
    between(place, "an update", OLD, UPDATE, made)
    between(place, "a list anew", OLD, ANEW, anew)
    between(place, "a list over an empty file", b"", ANEW, anew)
    between(place, "a list over a longer file", made + bytes(5000), ANEW, anew)
    with open("../key.pub", "rb") as keys:
        between(place, "a list over a file of keys", keys.read(), ANEW, anew)
    between(place, "a shorter list", made, ("-k", "-f", LIST, "-z", "1"), HEADER)
    replaced(place, made)
    synced(place)
    failing(place, made)
    limits(place, made)
