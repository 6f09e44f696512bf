"""Writes that fail, or are cut off, at one length after the other."""

import os
import signal
import subprocess

from replacing.folder import LIST, OLD, PAGE, fault, without_key
from wire import HEADER


def section_ends(content):
    """The lengths at which a section of the list ends. After each, a reader sees a good list."""
    ends, at = [len(HEADER)], len(HEADER)
    while at < len(content):
        at += 5 + int.from_bytes(content[at + 1 : at + 5], "big")
        ends.append(at)
    return ends


def limits(place, made):
    """Files may not be longer than this number of bytes."""
    lengths = {*range(64), *range(0, len(made), 509)}
    for end in section_ends(made)[:-1]:
        lengths |= {end - 1, end, end + 1}
    lengths.add(len(made) - 1)
    wrong = []
    place.enter()
    for length in sorted(lengths):
        done = place.update(limit=length)
        found = place.differs(done, 255, fault(0)) + place.stands(OLD) + place.revoked()
        wrong += ["%d bytes: %s" % (length, it) for it in found]
        if found:
            place.enter()
    place.judge("files of a limited length: %d lengths" % len(lengths), wrong)


def new_limits(place, made):
    """The same where there was no list."""
    wrong = []
    made = without_key(made)
    for length in [0, 1, *section_ends(made)[:-1], len(made) - 1]:
        place.enter(old=None)
        done = place.run("-k", "-f", LIST, "-s", "none", "../spec", limit=length)
        found = place.differs(done, 255, fault(0)) + place.stands(None, names=[])
        wrong += ["%d bytes: %s" % (length, it) for it in found]
    place.judge("a new list, and files of a limited length", wrong)


def full(place, made):
    """A file system with room for a number of pages. Two sections of the list end with a page."""
    path = os.path.join(place.scratch, "small")
    os.mkdir(path)
    words = ["mount", "-t", "tmpfs", "-o", "size=256k,mode=755", "none", path]
    if os.geteuid() != 0 or subprocess.run(words, capture_output=True, check=False).returncode:
        print("# no file system can be mounted here, so none that is full is tried")
        return
    try:
        ends = section_ends(made)
        place.judge("sections end with a page", [] if {PAGE, 2 * PAGE} <= {*ends} else [str(ends)])
        for pages in range(-(-len(made) // PAGE)):
            fill(place, pages)
            done = place.update()
            wrong = place.differs(done, 255, fault(0))
            wrong += place.stands(OLD, names=[LIST, "filler"]) + place.revoked()
            place.judge("a file system with %d pages free" % pages, wrong)
        read_only(place, path)
    finally:
        os.chdir(place.scratch)
        subprocess.run(["umount", path], check=True)


def fill(place, pages):
    """Leaves this number of pages free."""
    place.enter("small")
    room = os.statvfs(".")
    place.put("filler", bytes(room.f_bfree * room.f_bsize - pages * PAGE))
    left = os.statvfs(".")
    assert left.f_bfree * left.f_bsize == pages * PAGE


def read_only(place, path):
    place.enter("small")
    subprocess.run(["mount", "-o", "remount,ro", path], check=True)
    done = place.update()
    wrong = place.differs(done, 255, b"ssh-keygen: r.krl: file 1 Open\n")
    place.judge("a file system that is only read", wrong + place.stands(OLD))
    subprocess.run(["mount", "-o", "remount,rw", path], check=True)


def killed(place, made):
    """The program is killed when half of the list is out."""
    place.enter()
    done = place.update(env={"LD_PRELOAD": place.library, "KILL": "1"})
    lock = ".%s.lock" % LIST
    left = [it for it in os.listdir() if it not in (LIST, lock)]
    wrong = place.differs(done, -signal.SIGKILL, b"") + place.revoked()
    wrong += place.stands(OLD, names=[LIST, lock, *left])
    if len(left) != 1 or os.path.getsize(left[0]) != len(made) // 2:
        wrong.append("beside it stands %r" % left)
    place.judge("a program that is killed", wrong)
    others = [
        ".%s.0123456789abcde.new" % LIST,
        ".%s.0123456789ABCDEF.new" % LIST,
        ".%s.0123456789abcdef.newer" % LIST,
        ".%s.0123456789abcdef0.new" % LIST,
        ".other.0123456789abcdef.new",
        "%s.0123456789abcdef.new" % LIST,
        "x.%s.0123456789abcdef.new" % LIST,
    ]
    for name in others:
        place.put(name, b"")
    folder, link = (".%s.%016x.new" % (LIST, it) for it in (1, 2))
    os.mkdir(folder)
    os.symlink(others[0], link)
    done = place.update()
    wrong = place.differs(done, 0, b"")
    wrong += place.stands(made, names=[LIST, *others, folder, link])
    place.judge("an update removes what was left, and nothing else", wrong)


def all_faults(place):
    made = place.made()
    limits(place, made)
    new_limits(place, made)
    full(place, made)
    killed(place, made)
