"""Which file each call of an update belongs to, and in which order they come.

The name is followed once before the lock. The other rows are what the manual page promises: the
lock is there before the list is read, until all is done; the new file has the list's group, owner
and mode, and all of its bytes, when it is synced; then it takes the name; then the folder is
synced, and the name followed once more."""

import errno
import os
import re

from replacing.folder import LIST, NOBODY, OLD
from updating.steps import ANEW, LOCK, REFUSED, UPDATE, Steps, closed, content, same, shown

NEW = re.compile(r"\.r\.krl\.[0-9a-f]{16}\.new")
KINDS = "create flock fchown fchmod ftruncate fsync rename link unlink stat".split()
INTERRUPTED = "open create flock fchown fchmod write ftruncate fsync read".split()
WRITER = "2"


def changes(calls):
    """The calls that change or lock something, of the list and what is beside it, each as a line;
    writes that follow each other once, the first read of the list, and the looks at the name."""
    lines = []
    for it in calls:
        path = NEW.sub("NEW", it.path).replace(os.getcwd(), ".")
        if it.name in KINDS or (it.name, path) in (
            ("write", "NEW"),
            ("write", LIST),
            ("read", LIST),
        ):
            line = " ".join((it.name, path, it.more.replace(os.getcwd() + "/", ""))).rstrip()
            if lines[-1:] != [line] and not (line.startswith("read") and line in lines):
                lines.append(line)
    return lines


def owned(place, words, old, mode):
    """A list of this mode, which is nobody's where root updates it."""
    place.enter(old=old)
    if old is not None:
        os.chmod(LIST, mode)
        if os.geteuid() == 0:
            os.chown(LIST, NOBODY, NOBODY)
    return Steps(place, words)


def replaced(place):
    is_root = os.geteuid() == 0
    for words, mode in ((UPDATE, 0o640), (UPDATE, 0o664), (ANEW, 0o604)):
        calls, done = owned(place, words, OLD, mode).seen()
        group, owner = ("-1:%d" % NOBODY, "%d:-1" % NOBODY)
        if not is_root:
            group, owner = "-1:%d" % os.getegid(), "%d:-1" % os.geteuid()
        is_shared = mode & 0o020
        wanted = ["stat %s" % LIST, "create %s 600" % LOCK, "flock %s 6" % LOCK]
        wanted += ["fchown %s %s" % (LOCK, group)] if is_shared and is_root else []
        wanted += ["fchown %s %s" % (LOCK, owner)] if is_root else []
        wanted += ["fchmod %s 660" % LOCK] if is_shared else []
        wanted += ["flock %s 6" % LIST, "read %s" % LIST] if words == UPDATE else []
        wanted += [
            "create NEW 600",
            "flock NEW 6",
            "fchown NEW %s" % group,
            "fchown NEW %s" % owner,
            "fchmod NEW %o" % mode,
            "write NEW",
            "fsync NEW",
            "rename NEW %s" % LIST,
            "fsync .",
            "stat %s" % LIST,
            "unlink %s" % LOCK,
        ]
        wrong = place.differs(done, 0, b"")
        found = changes(calls)
        wrong += [] if found == wanted else ["the calls are %s" % found]
        # The lock is there until its file is closed.
        names = [(it.name, it.path.replace(" (deleted)", "")) for it in calls]
        if names.count(("close", LOCK)) != 1 or ("flock", LOCK, "8") in [tuple(it) for it in calls]:
            wrong.append("the lock is closed more than once, or released")
        if not names.index(("unlink", LOCK)) < names.index(("close", LOCK)):
            wrong.append("the lock ends before its file is removed")
        place.judge("the calls of %s over a list of mode %o" % (" ".join(words[:2]), mode), wrong)


def first(place):
    calls, done = owned(place, ANEW, None, 0).seen()
    wanted = [
        "stat %s" % LIST,
        "create %s 600" % LOCK,
        "flock %s 6" % LOCK,
        "create NEW 666",
        "write NEW",
        "fsync NEW",
        "link NEW %s" % LIST,
        "unlink NEW",
        "fsync .",
        "stat %s" % LIST,
        "unlink %s" % LOCK,
    ]
    found = changes(calls)
    wrong = place.differs(done, 0, b"")
    place.judge("the calls of a first list", wrong + ([] if found == wanted else [str(found)]))


def in_place(place):
    calls, done = Steps(place, user=closed(place, OLD)).seen()
    wanted = [
        "stat %s" % LIST,
        "create %s 600" % LOCK,
        "flock %s 6" % LIST,
        "read %s" % LIST,
        "write %s" % LIST,
        "fsync %s" % LIST,
        "write %s" % LIST,
        "ftruncate %s" % LIST,
        "fsync %s" % LIST,
        "write %s" % LIST,
        "fsync %s" % LIST,
        "stat %s" % LIST,
    ]
    found = changes(calls)
    wrong = place.differs(done, 0, b"")
    place.judge("the calls of a list in place", wrong + ([] if found == wanted else [str(found)]))


def interrupted(place, made):
    """Calls that are interrupted are made again, and the run ends."""
    for user in (None, "in place"):
        wrong = []
        for name in INTERRUPTED:
            place.enter()
            steps = Steps(place, user=closed(place, OLD) if user else None)
            done = steps.run(FAIL="%s:1-900:%d" % (name, errno.EINTR))
            is_asked = name in ("write", "read", "fchown")
            if (done.returncode or not same(content(), made)) and name != "fchown":
                wrong.append("%s: %s" % (name, shown(done)))
            if is_asked and name != "fchown":
                steps = Steps(place, user=closed(place, OLD) if user else None)
                done = steps.run(FAIL="%s:1-%d:%d" % (name, 1 << 62, errno.EINTR))
                if done.returncode != 255:
                    wrong.append("%s without end: %s" % (name, shown(done)))
        place.judge(
            "calls that are interrupted 900 times%s" % (", in place" if user else ""), wrong
        )


def refused_modes(place):
    """If the mode cannot be kept, the old list is unchanged, with its mode."""
    place.enter()
    os.chmod(LIST, 0o644)
    done = Steps(place).run(FAIL="fchmod@.new:1-1:%d" % errno.EPERM)
    wrong = place.differs(done, 255, b"ssh-keygen: r.krl: output 1 Write after 0 bytes\n")
    wrong += place.stands(OLD)
    if os.stat(LIST).st_mode & 0o7777 != 0o644:
        wrong.append("its mode is %o" % os.stat(LIST).st_mode)
    place.judge("a mode that cannot be kept", wrong)


def all_of_them(place):
    made = place.made()
    replaced(place)
    first(place)
    in_place(place)
    interrupted(place, made)
    refused_modes(place)
