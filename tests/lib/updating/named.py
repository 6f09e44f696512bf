"""The names of the list and of the new file beside it."""

import errno
import os
import subprocess

from replacing.folder import LIST, OLD
from updating.steps import Steps, content
from wire import HEADER

# The number of the new file's name, where all random bytes are 7.
NUMBER = "0707070707070707"
NEW = ".%s.%s.new" % (LIST, NUMBER)
VICTIM = b"another file\n"


def clashes(place, made):
    """Nothing is written to a file that has the new name already, nor over a link of that name."""
    for sort in ("file", "link"):
        place.enter()
        place.put("../victim", VICTIM)
        os.symlink("../victim", NEW)
        steps = Steps(place)
        if sort == "link":
            done = steps.run(NUMBER="7")
        else:
            # It comes after the update has removed what was left.
            os.remove(NEW)
            calls, _ = steps.seen(NUMBER="7")
            at = [it.path for it in calls].index(NEW) + 1
            place.enter()
            done = steps.stopped(at, lambda: place.put(NEW, VICTIM), NUMBER="7")
        wrong = place.differs(done, 255, b"ssh-keygen: r.krl: file 1 Open\n")
        wrong += place.stands(OLD, names=[LIST, NEW])
        if content(NEW) != VICTIM or content("../victim") != VICTIM:
            wrong.append("it is written to")
        place.judge("a %s of the new file's name" % sort, wrong)
    place.enter()
    done = Steps(place).run(FAIL="create@.new:1-15:%d" % errno.EEXIST)
    wrong = place.differs(done, 0, b"") + place.stands(made)
    place.judge("names that are taken, fifteen times", wrong)


def short_names(place, made):
    """On a file system whose names have 143 bytes at most, a list with such a name is replaced."""
    name = "x" * 143
    place.enter(old=None)
    place.put(name, OLD)
    before = os.stat(name).st_ino
    words = ("-k", "-u", "-f", name, "-s", "none", "../spec")
    done = Steps(place, words).run(LONGEST="143")
    wrong = place.differs(done, 0, b"") + place.stands(made, names=[name], name=name)
    if os.stat(name).st_ino == before:
        wrong.append("it is written in place")
    place.judge("names of 143 bytes at most", wrong)


def over_descriptor(place, file):
    """A run that makes its list over a file that is open for it, by its name in /proc."""
    number = file.fileno()
    words = ("-k", "-f", "/dev/fd/%d" % number, "-s", "none", "../spec")
    return place.run(*words, pass_fds=[number])


def another_stands(place, name, done, file, another):
    """Neither the list that is open nor the other one, at its path, was written."""
    wrong = [] if done.returncode == 255 else ["it ends with %d" % done.returncode]
    if content(another) != HEADER or os.listdir() != [another]:
        wrong.append("the other list is written")
    file.seek(0)
    if file.read() != OLD:
        wrong.append("the list is written")
    place.judge(name, wrong)


def by_descriptor(place):
    place.enter()
    with open(LIST, "rb") as file, open(LIST, "r+b") as writable:
        done = over_descriptor(place, writable)
        wrong = place.differs(done, 0, b"") + ([] if content() != OLD else ["it is not made"])
        if file.read() != OLD:
            wrong.append("it is written in place")
        place.judge("a list by a name of /proc", wrong)


def without_a_name(place):
    place.enter()
    # So Linux names the path of a file that has no name any more.
    gone = LIST + " (deleted)"
    with open(LIST, "r+b") as file:
        os.remove(LIST)
        place.put(gone, HEADER)
        done = over_descriptor(place, file)
        another_stands(place, "a list without a name, another one at its path", done, file, gone)


def mounted(path):
    words = ["mount", "-t", "tmpfs", "-o", "size=256k,mode=755", "none", path]
    return os.geteuid() == 0 and subprocess.run(words, capture_output=True).returncode == 0


def on_another_device(place):
    """The file at the path of the list is one of another device, with the same number there."""
    path = os.path.join(place.scratch, "twice")
    os.mkdir(path)
    if not mounted(path):
        print("# no file system can be mounted here, so no list of another device is tried")
        return
    place.enter("twice")
    with open(LIST, "r+b") as file:
        os.chdir(place.scratch)
        if mounted(path):
            os.chdir(path)
            place.put(LIST, HEADER)
            same = os.stat(LIST).st_ino == os.fstat(file.fileno()).st_ino
            place.judge("two files of one number", [] if same else ["they have two"])
            done = over_descriptor(place, file)
            another_stands(place, "a list of another device at its path", done, file, LIST)
            os.chdir(place.scratch)
            subprocess.run(["umount", path], check=True)
    subprocess.run(["umount", path], check=True)


def all_of_them(place):
    made = place.made()
    clashes(place, made)
    short_names(place, made)
    by_descriptor(place)
    without_a_name(place)
    on_another_device(place)
