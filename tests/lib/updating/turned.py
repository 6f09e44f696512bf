"""A link to the list that is turned during an update, and a pipe that is swapped for a list."""

import contextlib
import fcntl
import os
import threading

from replacing.folder import LIST, NOBODY, OLD, without_key
from updating.moved import ANOTHER, with_lines
from updating.steps import ANEW, UPDATE, Steps, content, same, shown


def two_lists(place, old=OLD, another=ANOTHER):
    """Two lists in folders of their own, and a link to the first one."""
    place.enter(old=None)
    for name, text in (("a", old), ("b", another)):
        os.mkdir(name)
        if text is not None:
            place.put(name + "/it.krl", text)
    os.symlink("a/it.krl", LIST)


def turn():
    os.symlink("b/it.krl", "next")
    os.rename("next", LIST)


def turned(place, name, words, old, another, wanted):
    """Before each call the link is turned: what ends well is in the list that the name led to at
    some moment, and that is the other one until the name was followed for the last time."""
    steps = Steps(place, words)
    two_lists(place, old, another)
    calls, _ = steps.calls()
    last = len(calls) - calls[::-1].index("stat")
    wrong = []
    for number, call in enumerate(calls, 1):
        two_lists(place, old, another)
        done = steps.stopped(number, turn)
        kept, found = content("a/it.krl"), content("b/it.krl")
        is_right = same(found, wanted[1]) and (same(kept, old) or same(kept, wanted[0]))
        if number > last:
            is_right = same(kept, wanted[0]) and same(found, another)
        if done.returncode or not is_right:
            wrong.append("before call %d, %s: %s" % (number, call, shown(done)))
        if not os.path.islink(LIST) or {*os.listdir("a"), *os.listdir("b")} - {"it.krl"}:
            wrong.append("before call %d, %s: %r" % (number, call, os.listdir("a")))
    place.judge("%s, a link that is turned at each of %d calls" % (name, len(calls)), wrong)


def turned_in_place(place, made):
    """The same of lists in folders that take no new file."""
    user = NOBODY if os.geteuid() == 0 else None

    def begin():
        for it in ("here/a", "here/b"):
            path = os.path.join(place.scratch, it)
            if os.path.exists(path):
                os.chmod(path, 0o755)
        two_lists(place)
        for it in ("a", "b"):
            if user is not None:
                os.chown(it + "/it.krl", user, user)
            os.chmod(it, 0o555)

    steps = Steps(place, user=user)
    begin()
    calls, _ = steps.calls()
    last = len(calls) - calls[::-1].index("stat")
    wrong = []
    for number, call in enumerate(calls, 1):
        begin()
        done = steps.stopped(number, turn)
        kept, found = content("a/it.krl"), content("b/it.krl")
        is_right = same(found, with_lines(ANOTHER, made))
        if number > last:
            is_right = same(kept, made) and found == ANOTHER
        if done.returncode or not is_right:
            wrong.append("before call %d, %s: %s" % (number, call, shown(done)))
    for it in ("a", "b"):
        os.chmod(it, 0o755)
    place.judge("in place, a link that is turned at each of %d calls" % len(calls), wrong)


def while_it_waits(place, name, words, old, another, wanted, begin=two_lists):
    """The link is turned while the update waits for the lock beside the first list: nothing is
    written there."""
    begin(place, old, another)
    with open("a/.it.krl.lock", "wb") as lock:
        fcntl.flock(lock, fcntl.LOCK_EX)
        steps = Steps(place, words)
        calls, _ = steps.calls(HURRY="1")

        def go_on():
            turn()
            os.remove("a/.it.krl.lock")
            fcntl.flock(lock, fcntl.LOCK_UN)

        done = steps.stopped(calls.index("sleep") + 1, go_on)
    wrong = place.differs(done, 0, b"")
    if not same(content("a/it.krl"), old) or not same(content("b/it.krl"), wanted):
        wrong.append("the update is in the wrong list")
    place.judge("%s, a link that is turned while it waits" % name, wrong)


def one_list(place, old, another):
    """One list under both names."""
    two_lists(place, old, None)
    os.link("a/it.krl", "b/it.krl")


def link_for_list(place, made):
    """The list is moved away and a link to it takes its place: the link stays where it is seen."""
    steps = Steps(place)
    place.enter()
    calls, _ = steps.calls()
    seen = calls.index("rename") - calls[: calls.index("rename")][::-1].index("lstat")
    wrong = []
    for number, call in enumerate(calls, 1):
        place.enter()
        os.mkdir("away")

        def swap():
            os.rename(LIST, "away/it.krl")
            os.symlink("away/it.krl", LIST)

        done = steps.stopped(number, swap)
        if done.returncode or not same(content(), made):
            wrong.append("before call %d, %s: %s" % (number, call, shown(done)))
        if number <= seen and not os.path.islink(LIST):
            wrong.append("before call %d, %s: the link is replaced" % (number, call))
    place.judge("a link for a list at each of %d calls" % len(calls), wrong)


def fed(path):
    """Gives the old list to whom reads the pipe, and then takes what is written to it, unless a list
    took its name."""

    def feed():
        with open(path, "wb") as pipe:
            pipe.write(OLD)
        with contextlib.suppress(FileNotFoundError), open(path, "rb") as pipe:
            pipe.read()

    threading.Thread(target=feed, daemon=True).start()


def pipe_for_list(place):
    """Bytes that were read from a pipe go into no list, whenever a list takes the name of the
    pipe."""
    steps = Steps(place)

    def begin():
        place.enter(old=None)
        os.mkfifo(LIST)
        fed(LIST)

    def swap():
        place.put("x", ANOTHER)
        os.rename("x", LIST)

    begin()
    calls, done = steps.seen()
    wrong = place.differs(done, 0, b"")
    names = [(it.name, it.path) for it in calls]
    first = names.index(("read", LIST)) + 1
    last = len(names) - names[::-1].index(("open", LIST))
    for number in range(first + 1, last + 1):
        begin()
        done = steps.stopped(number, swap)
        if done.returncode != 255 or content() != ANOTHER:
            wrong.append("before call %d, %s: %s" % (number, names[number - 1], shown(done)))
    place.judge("a list for a pipe, at each of %d calls" % (last - first), wrong)


def list_for_pipe(place):
    """Bytes that were read from a list go into no pipe, whenever a pipe takes the name of the
    list."""
    steps = Steps(place)
    place.enter()
    found, _ = steps.seen()
    calls = [it.name for it in found]
    # A pipe that has the name at first is read as one.
    opened = [(it.name, it.path) for it in found].index(("open", LIST)) + 1
    wrong = []
    for number, call in [*enumerate(calls, 1)][opened:]:
        place.enter()
        got = []

        def swap():
            os.mkfifo("x")
            os.rename("x", LIST)
            got.append(os.open(LIST, os.O_RDONLY | os.O_NONBLOCK))

        done = steps.stopped(number, swap, HURRY="1")
        text = os.read(got[0], 1 << 16) if got else b""
        for it in got:
            os.close(it)
        if text:
            wrong.append("before call %d, %s: the pipe got %d bytes" % (number, call, len(text)))
        is_late = "rename" not in calls[number - 1 :] or call == "rename"
        if not done.returncode and not is_late:
            wrong.append("before call %d, %s: %s" % (number, call, shown(done)))
    place.judge("a pipe for a list, at each of %d calls" % len(calls), wrong)


def all_of_them(place):
    made = place.made()
    both = (made, with_lines(ANOTHER, made))
    anew = without_key(made)[:12] + bytes(8) + without_key(made)[20:]
    turned(place, "an update", UPDATE, OLD, ANOTHER, both)
    turned(place, "a list anew", ANEW, OLD, ANOTHER, (anew, anew))
    turned(place, "a first list", ANEW, None, None, (anew, anew))
    turned_in_place(place, made)
    while_it_waits(place, "an update", UPDATE, OLD, ANOTHER, both[1])
    while_it_waits(place, "a list anew", ANEW, OLD, ANOTHER, anew)
    while_it_waits(place, "a first list", ANEW, None, None, anew)
    while_it_waits(place, "an update of one file", UPDATE, OLD, OLD, made, begin=one_list)
    link_for_list(place, made)
    list_for_pipe(place)
    pipe_for_list(place)
