"""The lock of an update: the file beside the list, who can hold it, and how long is waited for
it."""

import contextlib
import fcntl
import os
import stat
import subprocess
import time

from replacing.folder import LIST, NOBODY, OLD
from updating.steps import ANEW, LOCK, LOCKED, UPDATE, WAITS, Steps, closed, content, same

OTHER_USER = 65533
GROUP = 65532
MINUTE = 60
VICTIM = b"another file\n"


@contextlib.contextmanager
def held(path, user=None):
    """Another process, of the user, may read the file, and has a lock on it."""
    ready, begin = os.pipe()
    end, done = os.pipe()
    child = os.fork()
    if child == 0:
        try:
            os.close(done)
            if user is not None:
                os.setgroups([])
                os.setgid(user)
                os.setuid(user)
            with open(path, "rb") as file:
                fcntl.flock(file, fcntl.LOCK_EX)
                os.write(begin, b"x")
                os.read(end, 1)
        finally:
            os._exit(0)
    os.close(begin)
    assert os.read(ready, 1) == b"x"
    try:
        yield
    finally:
        for it in (ready, end, done):
            os.close(it)
        os.waitpid(child, 0)


def slept(calls):
    return round(sum(float(it.more) for it in calls if it.name == "sleep"), 3)


def is_locked_out(place, done, calls, says=WAITS + LOCKED):
    """What is wrong with an update that waited for a minute and then left the list as it was."""
    wrong = place.differs(done, 255, says)
    if not MINUTE <= slept(calls) < MINUTE + 1:
        wrong.append("it slept for %f seconds" % slept(calls))
    if content() != OLD:
        wrong.append("the list is another one")
    return wrong


def by_readers(place, made):
    """A user who may only read the list cannot delay an update by a lock on it."""
    user = NOBODY if os.geteuid() == 0 else None
    for words, wanted in ((UPDATE, made), (ANEW, None)):
        place.enter()
        os.chmod(LIST, 0o644)
        with held(LIST, user):
            calls, done = Steps(place, words).seen()
        wrong = place.differs(done, 0, b"") + place.stands(wanted)
        if slept(calls):
            wrong.append("it slept for %f seconds" % slept(calls))
        place.judge("a reader's lock on the list, and %s" % " ".join(words[:2]), wrong)


def by_writers(place, made):
    """A list that is written in place is waited for, as long as it is no whole list."""
    user = closed(place, OLD)
    steps = Steps(place, user=user)
    calls, _ = steps.calls()
    closed(place, OLD)
    ended = []

    def update():
        os.chmod(".", 0o755)
        ended.append(Steps(place).seen(HURRY="1"))
        os.chmod(".", 0o555)

    done = steps.stopped(calls.index("ftruncate") + 1, update)
    calls, other = ended[0]
    wrong = place.differs(done, 0, b"") + place.differs(other, 255, WAITS + LOCKED)
    if not MINUTE <= slept(calls) < MINUTE + 1 or not same(content(), made):
        wrong.append("it slept for %f seconds" % slept(calls))
    place.judge("a list that is being written in place", wrong)


def in_place(place, made):
    """A list in a folder that takes no new file is locked itself, for a minute at most."""
    user = closed(place, OLD)
    with held(LIST, user):
        calls, done = Steps(place, user=user).seen(HURRY="1")
    wrong = is_locked_out(place, done, calls)
    done = Steps(place, user=user).run()
    wrong += place.differs(done, 0, b"") + ([] if same(content(), made) else ["it is not made"])
    place.judge("a lock on a list that is written in place", wrong)


def without_streams(place):
    """The line about waiting goes nowhere if the standard streams are closed: not into the list
    that is written in place, whose file would otherwise get the number of one of them."""
    user = closed(place, OLD)
    for streams in ("2>&-", "1>&- 2>&-", "0<&- 1>&- 2>&-"):
        steps = Steps(place, user=user)
        place.program, program = "/bin/sh", place.program
        steps.words = ("-c", 'exec "$0" "$@" ' + streams, program, *UPDATE)
        with held(LIST, user):
            done = steps.run(HURRY="1")
        place.program = program
        wrong = place.differs(done, 255, b"")
        if content() != OLD:
            wrong.append("the list is %r" % content()[:60])
        place.judge("a lock on a list that is written in place, with %s" % streams, wrong)


def leftovers(place, made):
    """The new file of an update that was killed is removed by the next one that has the lock. One
    that waits for the lock leaves it alone: it may belong to the update that has the lock."""
    left = ".%s.0123456789abcdef.new" % LIST
    place.enter()
    place.put(left, b"half a list")
    with open(LOCK, "wb") as lock:
        fcntl.flock(lock, fcntl.LOCK_EX)
        calls, done = Steps(place).seen(HURRY="1")
    wrong = is_locked_out(place, done, calls) + place.stands(OLD, names=[LIST, LOCK, left])
    place.judge("the new file of another update, while its lock is held", wrong)
    wrong = place.differs(place.update(), 0, b"") + place.stands(made)
    place.judge("a new file that was left", wrong)


def after_faults(place):
    """No fault leaves the lock, whether it is found before the lock is taken or under it."""
    full = OLD[:12] + b"\xff" * 8 + OLD[20:]
    for name, old, lines in (
        ("a wrong line", OLD, b"serial: 9-7\n"),
        ("a list that is none", b"garbage", b"serial: 5\n"),
        ("the last version", full, b"serial: 5\n"),
        ("a list that is truncated", OLD[:-1], b"serial: 5\n"),
    ):
        place.enter(old=old)
        place.put("../spec", lines)
        done = place.update()
        wrong = [] if done.returncode == 255 else ["it ends with %d" % done.returncode]
        place.judge("nothing is left after %s" % name, wrong + place.stands(old))


def real_minute(place):
    """Begins an update that waits in real time, in a folder of its own. Its end is judged later."""
    place.enter("minute")
    lock = open(LOCK, "wb")
    fcntl.flock(lock, fcntl.LOCK_EX)
    begun = time.monotonic()
    process = subprocess.Popen(
        [place.program, *UPDATE], stdin=subprocess.DEVNULL, stderr=subprocess.PIPE
    )

    def end():
        said = process.communicate(timeout=600)[1]
        took = time.monotonic() - begun
        os.chdir(os.path.join(place.scratch, "minute"))
        lock.close()
        wrong = [] if (process.returncode, said) == (255, WAITS + LOCKED) else ["%r" % said]
        wrong += place.stands(OLD, names=[LIST, LOCK])
        if took < MINUTE:
            wrong.append("it took %f seconds" % took)
        place.judge("an update that waits for a minute", wrong)

    return end


def waits(place, made):
    """After a second an update says once that it waits. It continues if the lock ends before the
    minute is over."""
    for words, old in ((UPDATE, OLD), (ANEW, OLD), (ANEW, None)):
        place.enter(old=old)
        with open(LOCK, "wb") as lock:
            fcntl.flock(lock, fcntl.LOCK_EX)
            calls, done = Steps(place, words).seen(HURRY="1")
        wrong = place.differs(done, 255, WAITS + LOCKED)
        wrong += place.stands(old, names=[LIST, LOCK] if old else [LOCK])
        if not MINUTE <= slept(calls) < MINUTE + 1:
            wrong.append("it slept for %f seconds" % slept(calls))
        name = "%s over %s" % (" ".join(words[:2]), "a list" if old else "nothing")
        place.judge("a lock that stays, and %s" % name, wrong)
    for turn, says in ((100, b""), (102, WAITS), (5990, WAITS)):
        place.enter()
        with open(LOCK, "wb") as lock:
            fcntl.flock(lock, fcntl.LOCK_EX)
            calls, _ = Steps(place).seen(HURRY="1")
            turns = [at for at, it in enumerate(calls, 1) if it.name == "sleep"]

            def go_on():
                os.remove(LOCK)
                lock.close()

            done = Steps(place).stopped(turns[turn - 1], go_on, HURRY="1")
        wrong = place.differs(done, 0, says) + place.stands(made)
        place.judge("a lock that ends at turn %d of waiting" % turn, wrong)


def control_bytes(place):
    """The line about waiting has the name as a fault line has it."""
    name = "\t\x7f\n"
    place.enter(old=None)
    place.put(name, OLD)
    with open(".%s.lock" % name, "wb") as lock:
        fcntl.flock(lock, fcntl.LOCK_EX)
        words = ("-k", "-u", "-f", name, "-s", "none", "../spec")
        done = Steps(place, words).run(HURRY="1")
    says = (WAITS + LOCKED).replace(LIST.encode(), b"\\x09\\x7f\\x0a")
    place.judge("a lock whose list has control bytes in its name", place.differs(done, 255, says))


def compared(place):
    """An update that gets a lock whose file has lost its name looks for the new one."""
    place.enter()
    with open(LOCK, "wb") as lock:
        fcntl.flock(lock, fcntl.LOCK_EX)
        calls, _ = Steps(place).calls(HURRY="1")
    others = []

    def swap():
        os.remove(LOCK)
        others.append(open(LOCK, "wb"))
        fcntl.flock(others[0], fcntl.LOCK_EX)

    place.enter()
    place.put(LOCK, b"")
    done = Steps(place).stopped(calls.index("flock") + 1, swap, HURRY="1")
    wrong = place.differs(done, 255, WAITS + LOCKED) + place.stands(OLD, names=[LIST, LOCK])
    others[0].close()
    place.judge("a lock whose file has lost its name", wrong)


def planted(place):
    """Nothing of the lock's name is followed, written to or removed that is no lock."""
    for sort in ("link", "dangling link", "folder", "pipe"):
        place.enter()
        place.put("../victim", VICTIM)
        if sort == "folder":
            os.mkdir(LOCK)
        elif sort == "pipe":
            os.mkfifo(LOCK)
        else:
            os.symlink("../victim" if sort == "link" else "../none", LOCK)
        before = os.lstat(LOCK)
        calls, done = Steps(place).seen(HURRY="1")
        wrong = is_locked_out(place, done, calls)
        if os.path.exists("../none") or content("../victim") != VICTIM:
            wrong.append("the link is followed")
        if os.lstat(LOCK).st_ino != before.st_ino:
            wrong.append("it is another file")
        place.judge("a %s of the lock's name" % sort, wrong)


def swapped(place):
    """A pipe or a device that takes the place of the lock's file after it was looked at is not
    used, and does not let the update hang."""
    for sort in ("pipe", "device"):
        place.enter()
        place.put(LOCK, b"")
        calls, _ = Steps(place).seen(HURRY="1")
        opened = [at for at, it in enumerate(calls, 1) if (it.name, it.path) == ("open", LOCK)]

        def swap():
            os.remove(LOCK)
            if sort == "pipe":
                os.mkfifo(LOCK)
            else:
                os.mknod(LOCK, stat.S_IFCHR | 0o666, os.makedev(1, 3))

        if sort == "device" and os.geteuid():
            continue
        place.enter()
        place.put(LOCK, b"")
        done = Steps(place).stopped(opened[0], swap, HURRY="1")
        wrong = place.differs(done, 255, WAITS + LOCKED) + place.stands(OLD, names=[LIST, LOCK])
        place.judge("a %s put in place of the lock" % sort, wrong)


def leased(place):
    """Another user's file is not opened, so that a lease on it makes no update wait."""
    if os.geteuid():
        print("# only root makes files for others, so no lease of another user is tried")
        return
    place.enter()
    os.chmod(".", 0o1777)
    place.put(LOCK, b"")
    os.chown(LOCK, OTHER_USER, OTHER_USER)
    calls, done = Steps(place).seen(HURRY="1")
    wrong = is_locked_out(place, done, calls)
    if ("open", LOCK) in [(it.name, it.path) for it in calls]:
        wrong.append("it is opened")
    place.judge("the file of a user who may not write the list", wrong)


def left(place, made):
    """The file of an update that was killed is taken over, and taken away."""
    for mode in (0o600, 0o660, 0o000):
        place.enter()
        place.put(LOCK, b"")
        os.chmod(LOCK, mode)
        if mode == 0 and os.geteuid():
            continue
        done = place.update()
        wrong = place.differs(done, 0, b"") + place.stands(made)
        place.judge("a lock of mode %o that was left" % mode, wrong)


def shown_files(place, made):
    """The lock of a list that its group may write is the group's, at the end of links too. A user
    who is not in that group keeps its members from the lock of a list of mode 664."""
    user, group = (NOBODY, GROUP) if os.geteuid() == 0 else (os.geteuid(), os.getegid())
    rows = [(0o640, 0o600), (0o664, 0o660), (0o646, 0o606), (0o666, 0o666), (0o606, 0o606)]
    shown_to(place, rows, user, group, None)
    if os.geteuid() == 0:
        rows = [(0o640, 0o600), (0o664, 0o600), (0o646, 0o600), (0o666, 0o666), (0o606, 0o600)]
        shown_to(place, rows, user, group, user)
    long_name(place, made)


def shown_to(place, rows, user, group, maker):
    """The lock has this mode, and the list's group if the maker of the lock may set that."""
    for mode, wanted in rows:
        place.enter(old=None)
        os.mkdir("a")
        os.symlink("a/it.krl", LIST)
        place.put("a/it.krl", OLD)
        os.chmod("a/it.krl", mode)
        os.chown("a/it.krl", user, group)
        os.chown("a", user, -1)
        steps = Steps(place, user=maker)
        calls, _ = steps.seen()
        os.chmod("a/it.krl", mode)
        os.chown("a/it.krl", user, group)
        os.chmod("a/it.krl", mode)
        read = [(it.name, os.path.basename(it.path)) for it in calls].index(("read", "it.krl"))
        found = []
        steps.stopped(read + 1, lambda: found.append(os.lstat("a/.it.krl.lock")))
        wrong = [] if found else ["there is none"]
        for it in found:
            got = stat.S_IMODE(it.st_mode), it.st_uid, it.st_gid
            is_shared = maker is None and wanted & 0o066
            if got[:2] != (wanted, user) or is_shared and got[2] != group:
                wrong.append("it is %o, %d, %d" % got)
        who = "" if maker is None else ", by a user out of its group"
        place.judge("the lock of a list of mode %o%s" % (mode, who), wrong)


def long_name(place, made):
    """The name of the lock is short enough for every file system."""
    place.enter(old=None)
    name = "\u00e9" * 127
    place.put(name, OLD)
    steps = Steps(place, ("-k", "-u", "-f", name, "-s", "none", "../spec"))
    calls, done = steps.seen(LONGEST="254")
    longest = max(len(it.path.encode()) for it in calls if it.name == "create")
    wrong = place.differs(done, 0, b"") + ([] if longest <= 143 else ["one has %d bytes" % longest])
    place.judge("the lock of a list with a long name", wrong)


def of_others(place, made):
    """In a folder where all may make files, a lock of another user blocks an update, since that
    user could remove it while it is held. A lock of root or of the list's owner is taken over."""
    if os.geteuid():
        print("# only root makes files for others, so no lock of another user is tried")
        return
    for maker, is_taken in ((0, True), (NOBODY, True), (OTHER_USER, False)):
        for user in (None, NOBODY):
            place.enter()
            os.chmod(".", 0o1777)
            os.chown(LIST, NOBODY, NOBODY)
            place.put(LOCK, b"")
            os.chown(LOCK, maker, maker)
            os.chmod(LOCK, 0o666)
            calls, done = Steps(place, user=user).seen(HURRY="1")
            wrong = is_locked_out(place, done, calls) if not is_taken else []
            if is_taken:
                wrong = place.differs(done, 0, b"")
                wrong += [] if same(content(), made) else ["it is not made"]
            place.judge("a lock of %d, and an update by %s" % (maker, user or "root"), wrong)
    # A lock of a member of the group is taken over if the group may write the list, and any other
    # user's if all may.
    for mode, group, is_taken in (
        (0o640, GROUP, False),
        (0o660, GROUP, True),
        (0o660, OTHER_USER, False),
        (0o606, GROUP, True),
        (0o666, OTHER_USER, True),
    ):
        place.enter()
        os.chown(LIST, NOBODY, GROUP)
        os.chmod(LIST, mode)
        place.put(LOCK, b"")
        os.chown(LOCK, OTHER_USER, group)
        os.chmod(LOCK, 0o666)
        calls, done = Steps(place).seen(HURRY="1")
        wrong = [] if is_taken else is_locked_out(place, done, calls)
        if is_taken:
            wrong = place.differs(done, 0, b"") + place.stands(made)
        member = "a member" if group == GROUP else "no member"
        place.judge("a lock of %s of the group, list of mode %o" % (member, mode), wrong)
    # A lock that cannot be opened keeps those out who make files there, and no others.
    place.enter()
    os.chmod(".", 0o777)
    os.chown(LIST, NOBODY, NOBODY)
    place.put(LOCK, b"")
    os.chmod(LOCK, 0o600)
    calls, done = Steps(place, user=NOBODY).seen(HURRY="1")
    place.judge("a lock that cannot be opened", is_locked_out(place, done, calls))
    os.chmod(".", 0o755)
    done = Steps(place, user=NOBODY).run(HURRY="1")
    wrong = place.differs(done, 0, b"") + place.stands(made, names=[LIST, LOCK])
    place.judge("a lock that cannot be opened, beside a list in place", wrong)


def streams(place):
    """A pipe and a device take no lock."""
    place.enter(old=None)
    os.mkfifo(LIST)
    with subprocess.Popen(["cat", LIST], stdout=subprocess.PIPE) as reader:
        calls, done = Steps(place, ANEW).seen()
        reader.stdout.read()
    wrong = place.differs(done, 0, b"")
    if {it.name for it in calls} & {"create", "flock"}:
        wrong.append("it is locked")
    place.judge("a pipe takes no lock", wrong)


def all_of_them(place):
    made = place.made()
    for case in (by_readers, by_writers, in_place, waits, left, shown_files, of_others, leftovers):
        case(place, made)
    for case in (control_bytes, compared, planted, swapped, leased, streams):
        case(place)
    for case in (without_streams, after_faults):
        case(place)
