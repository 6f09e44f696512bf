"""The list's name during an update: given to another file, taken away, or not to be looked at."""

import errno
import os
import struct

from files import OTHER
from replacing.folder import LIST, OLD, without_key
from updating.steps import ANEW, UPDATE, Steps, content, same, shown
from wire import HEADER, section, string

# What other programs put there has a higher version, which counts where it is updated.
HIGHER = HEADER[:12] + struct.pack(">Q", 77) + HEADER[20:]
ANOTHER = HIGHER + section(2, string(OTHER))
LONGER = HIGHER + section(2, string(OTHER + b"+"))
FAULTS = (b"ssh-keygen: r.krl: output 1 Write after 0 bytes\n", b"ssh-keygen: r.krl: file 1 Open\n")
SORTS = (errno.EIO, errno.EACCES, errno.ENOMEM)
ALL = 1 << 62


def begin(place):
    """The old list, and another one beside the folder. Links show whether a file is written."""
    place.enter()
    for name in ("../another", "../old"):
        if os.path.exists(name):
            os.remove(name)
    place.put("../another", ANOTHER)
    os.link(LIST, "../old")


def with_lines(base, made):
    """The list that an update makes of this one, by the one that it makes of the old one."""
    made = made.replace(OLD[len(HEADER) :], base[len(HEADER) :])
    version = struct.unpack(">Q", base[12:20])[0] + 1
    return made[:12] + struct.pack(">Q", version) + made[20:]


def replaced(place, made):
    """Another program renames its list over it. One call before the renaming is too late to see."""
    steps = Steps(place)
    begin(place)
    calls, _ = steps.calls()
    wrong = []
    for number, name in enumerate(calls, 1):
        begin(place)
        done = steps.stopped(number, lambda: (os.link("../another", "x"), os.rename("x", LIST)))
        wanted = [(0, with_lines(ANOTHER, made)), (255, ANOTHER)]
        # Right before the renaming it is too late to see, and after the last look at the name.
        wanted += [(0, made)] if name == "rename" else []
        wanted += [(0, ANOTHER)] if "stat" not in calls[number - 1 :] else []
        found = content()
        if not is_one_of((done.returncode, found), wanted):
            wrong.append("before call %d, %s: %s, %r" % (number, name, shown(done), found[:60]))
        if content("../old") != OLD or content("../another") != ANOTHER:
            wrong.append("before call %d, %s: a list is written in place" % (number, name))
        if os.listdir() != [LIST] or (done.returncode and done.stderr not in FAULTS):
            wrong.append("before call %d, %s: %s, %r" % (number, name, shown(done), os.listdir()))
    place.judge("a list replaced by another program at each of %d calls" % len(calls), wrong)


def write(place, base):
    """Writes the list in place. The time of one of another length does not tell that."""
    before = os.stat(LIST)
    place.put(LIST, base)
    if len(base) != before.st_size:
        os.utime(LIST, ns=(before.st_atime_ns, before.st_mtime_ns))


def written(place, made):
    """Another program writes the list itself: a list of another length, with the time of the old
    one, and one of the same length. What it writes before the renaming is kept, also if it comes
    right before that."""
    steps = Steps(place)
    same_length = HIGHER + OLD[len(HIGHER) : -1] + bytes((OLD[-1] ^ 1,))
    for name, base in (("another", LONGER), ("the same", same_length)):
        begin(place)
        calls, _ = steps.calls()
        wrong = []
        for number, call in enumerate(calls, 1):
            begin(place)
            done = steps.stopped(number, lambda: write(place, base))
            is_named = "rename" not in calls[number - 1 :]
            wanted = base if is_named else with_lines(base, made)
            if done.returncode or not same(content(), wanted):
                wrong.append("before call %d, %s: %s" % (number, call, shown(done)))
            if os.listdir() != [LIST]:
                wrong.append("before call %d, %s: %r" % (number, call, os.listdir()))
        place.judge("a list of %s length written at each of %d calls" % (name, len(calls)), wrong)


def taken_away(place, made):
    """Another program moves it away, and no other list comes."""
    steps = Steps(place)
    begin(place)
    calls, _ = steps.calls()
    wrong = []
    for number, name in enumerate(calls, 1):
        begin(place)
        done = steps.stopped(number, lambda: os.rename(LIST, "../away"))
        is_named = "rename" not in calls[number - 1 :]
        is_done = "stat" not in calls[number - 1 :]
        wanted = [(255, None, made if is_named else OLD)]
        wanted += [(0, made, OLD)] if name == "rename" else []
        wanted += [(0, None, made)] if is_done else []
        if not is_one_of((done.returncode, content(), content("../away")), wanted):
            wrong.append("before call %d, %s: %s" % (number, name, shown(done)))
        if content("../old") != OLD or set(os.listdir()) - {LIST}:
            wrong.append("before call %d, %s: %r" % (number, name, os.listdir()))
    place.judge("a list moved away at each of %d calls" % len(calls), wrong)


def link_another():
    if LIST not in os.listdir():
        os.link("../another", LIST)


def is_one_of(found, wanted):
    """Whether a status and lists are wanted together."""
    return any(
        it[0] == found[0] and all(same(*pair) for pair in zip(it[1:], found[1:])) for it in wanted
    )


def first_list(place, made):
    """If there was no list, one that another program makes is not replaced unseen."""
    steps = Steps(place, ANEW)
    begin(place)
    os.remove(LIST)
    calls, _ = steps.calls()
    made = without_key(made)
    wrong = []
    for number, name in enumerate(calls, 1):
        begin(place)
        os.remove(LIST)
        done = steps.stopped(number, link_another)
        # It is made anew, so that the other list is replaced, as if it had been there before.
        if done.returncode or content()[28:] != made[28:]:
            wrong.append("before call %d, %s: %s" % (number, name, shown(done)))
        if content("../another") != ANOTHER or os.listdir() != [LIST]:
            wrong.append("before call %d, %s: %r" % (number, name, os.listdir()))
    place.judge("a first list beside another one, at each of %d calls" % len(calls), wrong)


def failing(place, made):
    """Each call fails in turn, and all of a name: the list is replaced whole, or stays."""
    steps = Steps(place)
    begin(place)
    calls, _ = steps.calls()
    for name in sorted({*calls} - {"close", "unlink"}):
        turns = ["%d-%d" % (it, it) for it in range(1, calls.count(name) + 1)] + ["1-%d" % ALL]
        wrong = []
        for turn in turns:
            for error in SORTS:
                begin(place)
                done = steps.run(FAIL="%s:%s:%d" % (name, turn, error))
                # If the lock cannot be made, the folder takes no new file.
                in_place = (name, error) == ("create", errno.EACCES) and turn.startswith("1-")
                # After the renaming the old list and the name are looked at.
                is_whole = done.returncode == 0 or name in ("stat", "fstat")
                is_whole = is_whole and same(content(), made)
                if not is_whole and (done.returncode, content()) != (255, OLD):
                    wrong.append("%s of %s: %s" % (turn, os.strerror(error), shown(done)))
                if (content("../old") != OLD) != in_place or os.listdir() != [LIST]:
                    wrong.append("%s of %s: it is written in place" % (turn, os.strerror(error)))
        place.judge("each %s of an update fails" % name, wrong)


def without_locks(place, made):
    """A file system without locks is written as ever. Other faults of a lock are refused opens."""
    for error in (errno.EOPNOTSUPP, errno.ENOSYS, errno.ENOLCK):
        begin(place)
        done = Steps(place).run(FAIL="flock:1-%d:%d" % (ALL, error))
        wrong = place.differs(done, 0, b"") + place.stands(made)
        place.judge("no locks: %s" % os.strerror(error), wrong)
    begin(place)
    done = Steps(place).run(FAIL="flock:1-1:%d" % errno.EIO)
    place.judge("a lock that fails", place.differs(done, 255, FAULTS[1]) + place.stands(OLD))


def unseen(place):
    """A list whose path is never seen is left as it is, at the end of a bounded number of tries."""
    begin(place)
    done = Steps(place).run(FAIL="lstat@%s:1-%d:%d" % (LIST, ALL, errno.EIO))
    wrong = place.differs(done, 255, FAULTS[0]) + place.stands(OLD)
    place.judge("a path that cannot be looked at", wrong)
    # If no link can be made, the update checks that the name is free before the renaming.
    place.enter(old=None)
    fails = "lstat@%s:1-%d:%d,link:1-%d:%d" % (LIST, ALL, errno.EIO, ALL, errno.EPERM)
    done = Steps(place, ANEW).run(FAIL=fails)
    wrong = place.differs(done, 255, FAULTS[0]) + place.stands(None, names=[])
    place.judge("a free path that cannot be looked at", wrong)


def refused_opens(place):
    """A list, or the new file beside it, that cannot be opened, is so reported."""
    for name in ("open", "create"):
        for error in (errno.EIO, errno.ENOSPC, errno.EMFILE):
            begin(place)
            done = Steps(place).run(FAIL="%s:1-%d:%d" % (name, ALL, error))
            wrong = place.differs(done, 255, FAULTS[1]) + place.stands(OLD)
            place.judge("no %s: %s" % (name, os.strerror(error)), wrong)


def synced(place):
    """The new file is synced before it gets its name, and the folder after that."""
    for words, naming, old in ((UPDATE, "rename", OLD), (ANEW, "link", None)):
        place.enter(old=old)
        calls, _ = Steps(place, words).calls()
        order = [it for it in calls if it in ("write", "fsync", naming)]
        wanted = ["write", "fsync", naming, "fsync"]
        place.judge("syncs beside the %s" % naming, [] if order == wanted else ["%s" % order])
        place.enter(old=old)
        done = Steps(place, words).run(FAIL="fsync:1-1:%d" % errno.EIO)
        wrong = place.differs(done, 255, FAULTS[0])
        wrong += place.stands(old, names=[LIST] if old else [])
        place.judge("a first sync that fails, beside the %s" % naming, wrong)


def all_of_them(place):
    made = place.made()
    for case in (replaced, written, taken_away, first_list, failing, without_locks):
        case(place, made)
    unseen(place)
    synced(place)
    refused_opens(place)
