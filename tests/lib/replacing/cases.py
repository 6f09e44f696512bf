"""Lists in all kinds of places: behind links, with a mode, without permission, as a pipe or a
device."""

import os
import stat
import subprocess
import threading

from replacing.folder import LIST, NOBODY, OLD, fault, without_key


def links(place, made):
    """Links to a list in another folder: the list is replaced, and the links stay."""
    for name, chain in {
        "a relative link": [("r.krl", "below/to.krl")],
        "an absolute link": [("r.krl", os.path.join(place.scratch, "here/below/to.krl"))],
        "a chain of links": [("r.krl", "below/a"), ("below/a", "../b"), ("b", "./below/to.krl")],
    }.items():
        for old in (OLD, None):
            place.enter(old=None)
            os.mkdir("below")
            if old:
                place.put("below/to.krl", old)
            for link, target in chain:
                os.symlink(target, link)
            done = place.update() if old else place.run("-k", "-f", LIST, "-s", "none", "../spec")
            wrong = place.differs(done, 0, b"")
            if any(not os.path.islink(it) or os.readlink(it) != to for it, to in chain):
                wrong.append("a link is another")
            if old:
                wrong += place.stands(made, names=os.listdir(), name="below/to.krl")
            below = {"to.krl"} | {os.path.basename(it) for it, _ in chain if "/" in it}
            if {*os.listdir("below")} != below or os.path.islink("below/to.krl"):
                wrong.append("the folder has %r" % os.listdir("below"))
            place.judge("%s to %s" % (name, "a list" if old else "nothing"), wrong)
    long_chains(place, made)
    place.enter(old=None)
    os.symlink(LIST, LIST)
    done = place.run("-k", "-f", LIST, "../spec", "-s", "none")
    place.judge("a link to itself", place.differs(done, 255, b"ssh-keygen: r.krl: file 1 Open\n"))


def long_chains(place, made):
    """As many links as the system follows, and one more."""
    for count in (9, 40, 41):
        place.enter(old=None)
        place.put("0", OLD)
        for number in range(count):
            os.symlink(str(number), str(number + 1))
        before = os.stat("0").st_ino
        done = place.update(str(count))
        names = [str(it) for it in range(count + 1)]
        if count > 40:
            wrong = place.differs(done, 255, b"ssh-keygen: 41: file 1 Open\n")
            wrong += place.stands(OLD, names=names, name="0")
        else:
            wrong = place.differs(done, 0, b"") + place.stands(made, names=names, name="0")
            if os.path.islink("0") or os.stat("0").st_ino == before:
                wrong.append("it is not replaced")
        place.judge("a chain of %d links" % count, wrong)


def modes(place, made):
    """The old list's mode stays, whatever the mask; a new list has the usual one."""
    for mode in (0o640, 0o600, 0o666, 0o755, 0o2640, 0o1640):
        place.enter()
        os.chmod(LIST, mode)
        done = place.update(umask=0o077)
        place.judge(
            "the mode %o stays" % mode,
            place.differs(done, 0, b"") + place.stands(made) + is_mode(mode),
        )
    for mask in (0o022, 0o077, 0o002):
        place.enter(old=None)
        done = place.run("-k", "-f", LIST, "-s", "none", "../spec", umask=mask)
        wrong = place.differs(done, 0, b"") + is_mode(0o666 & ~mask)
        place.judge("a new list with the mask %o" % mask, wrong)
    if os.geteuid() == 0:
        place.enter()
        os.chown(LIST, NOBODY, NOBODY)
        done = place.update()
        found = os.stat(LIST)
        wrong = place.differs(done, 0, b"") + place.stands(made)
        if (found.st_uid, found.st_gid) != (NOBODY, NOBODY):
            wrong.append("they are %d and %d" % (found.st_uid, found.st_gid))
        place.judge("owner and group stay, where root updates", wrong)


def is_mode(mode):
    got = stat.S_IMODE(os.stat(LIST).st_mode)
    return [] if got == mode else ["the mode is %o" % got]


def leave(place, made):
    """A folder that takes no new file, and a list that may not be written."""
    user = NOBODY if os.geteuid() == 0 else None
    place.enter()
    if user is not None:
        os.chown(LIST, user, user)
    os.chmod(".", 0o555)
    before = os.stat(LIST).st_ino
    done = place.update(user=user)
    wrong = place.differs(done, 0, b"") + place.stands(made)
    if os.stat(LIST).st_ino != before:
        wrong.append("it is another file")
    place.judge("a folder without leave to write", wrong)
    place.enter(old=None)
    os.chmod(".", 0o555)
    done = place.run("-k", "-f", LIST, "-s", "none", "../spec", user=user)
    wrong = place.differs(done, 255, b"ssh-keygen: r.krl: file 1 Open\n")
    place.judge("a new list there", wrong + place.stands(None, names=[]))
    place.enter()
    os.chmod(".", 0o777)
    os.chmod(LIST, 0o444)
    done = place.update(user=user)
    wrong = place.differs(done, 255, b"ssh-keygen: r.krl: file 1 Open\n")
    place.judge("a list without leave to write", wrong + place.stands(OLD))
    place.enter()
    os.chmod(".", 0o755)
    done = place.run("-k", "-f", "none/r.krl", "-s", "none", "../spec")
    wrong = place.differs(done, 255, b"ssh-keygen: none/r.krl: file 1 Open\n")
    place.judge("a list in no folder", wrong + place.stands(OLD))


def names(place, made):
    """Names as long as they may be, and paths of other forms."""
    here = os.path.join(place.scratch, "here")
    plain = ["x" * 255, "é" * 127, "." * 3, "a b"]
    for name in plain + ["./r.krl", "../here/r.krl", here + "//r.krl"]:
        place.enter(old=None)
        place.put(name, OLD)
        done = place.update(name)
        wrong = place.differs(done, 0, b"")
        wrong += place.stands(made, names=[os.path.basename(name)], name=name)
        place.judge("the name %s" % name.replace(place.scratch, "")[:40], wrong)
    for name in ["", ".", "..", "none/", "none/.."]:
        place.enter()
        done = place.run("-k", "-f", name, "-s", "none", "../spec")
        wrong = place.differs(done, 255, b"ssh-keygen: %s: file 1 Open\n" % name.encode())
        place.judge("the name '%s'" % name, wrong + place.stands(OLD))


def others(place, made):
    """A pipe, standard output and a device get their bytes in place."""
    place.enter(old=None)
    os.mkfifo(LIST)
    with subprocess.Popen(["cat", LIST], stdout=subprocess.PIPE) as reader:
        done = place.run("-k", "-f", LIST, "-s", "none", "../spec")
        got = reader.stdout.read()
    wrong = place.differs(done, 0, b"") + is_new(got, made)
    if not stat.S_ISFIFO(os.stat(LIST).st_mode):
        wrong.append("it is no pipe any more")
    place.judge("a pipe", wrong + place.stands(None))
    done = place.run("-k", "-f", "/dev/stdout", "-s", "none", "../spec")
    place.judge("standard output", place.differs(done, 0, b"") + is_new(done.stdout, made))
    place.enter(old=None)
    try:
        os.mknod(LIST, stat.S_IFCHR | 0o666, os.makedev(1, 7))
        with open(LIST, "wb"):
            pass
    except OSError:
        print("# no device can be made here, so none is tried")
        return
    done = place.run("-k", "-f", LIST, "-s", "none", "../spec")
    wrong = place.differs(done, 255, fault(0)) + place.stands(None)
    if not stat.S_ISCHR(os.stat(LIST).st_mode):
        wrong.append("it is no device any more")
    place.judge("a full device", wrong)


def is_new(got, made):
    """What is wrong with a list of the lines alone. Its version is another, and its time."""
    return [] if got[28:] == without_key(made)[28:] else ["%d bytes" % len(got)]


def reading(place):
    """A reader beside a hundred updates sees only whole lists."""
    place.enter()
    seen, stops = set(), threading.Event()

    def read():
        while not stops.is_set():
            with open(LIST, "rb") as file:
                seen.add(file.read())

    thread = threading.Thread(target=read)
    whole, wrong = {OLD}, []
    thread.start()
    for number in range(1, 101):
        # The first line makes a list that takes a while to write.
        text = "id: %s" % ("long " * 40000) if number == 1 else "serial: %d" % number
        place.put("../more", text.encode() + b"\n")
        done = place.run("-k", "-u", "-f", LIST, "-s", "none", "../more")
        wrong += place.differs(done, 0, b"")
        with open(LIST, "rb") as file:
            whole.add(file.read())
    stops.set()
    thread.join()
    halves = sorted(len(it) for it in seen - whole)
    if halves:
        wrong.append("lists of %s bytes were seen" % halves)
    if len(seen) < 3:
        wrong.append("only %d lists were seen" % len(seen))
    place.judge("a reader beside a hundred updates", wrong + place.revoked())


def all_cases(place):
    made = place.made()
    for case in (links, modes, leave, names, others):
        case(place, made)
    reading(place)
