"""Updates of one list by a user who makes files beside it, and by one who writes it in place."""

import os
import subprocess

from replacing.folder import LIST, NOBODY, OLD, fault
from updating.locked import held as locked
from updating.steps import Steps, ended
from updating.together import held

FIRST, SECOND = "5", "7"


def begin(place):
    place.enter()
    os.chmod(LIST, 0o644)
    os.chown(LIST, NOBODY, NOBODY)
    for serial in (FIRST, SECOND):
        place.put("../" + serial, b"serial: %s\n" % serial.encode())


def update(place, serial, user):
    words = ("-k", "-u", "-f", LIST, "-s", "none", "../" + serial)
    return Steps(place, words, user)


def at_each_call(place, name, users):
    """The first one stops before each of its calls; meanwhile the second one runs to its end."""
    one, other = (update(place, *it) for it in zip((FIRST, SECOND), users))
    begin(place)
    calls, _ = one.calls()
    wrong, ends = [], set()
    for number, call in enumerate(calls, 1):
        begin(place)
        between = []
        done = one.stopped(number, lambda: between.append(other.run(HURRY="1")))
        statuses = (done.returncode, between[0].returncode)
        wanted = {int(it) for it, end in zip((FIRST, SECOND), statuses) if end == 0}
        version, found, text = held(place)
        # An update that is made again adds its lines to a list that may have them.
        is_version = len(wanted) < version <= 2 + len(wanted)
        if found != wanted or b"\nkey: " not in text or not is_version:
            wrong.append(
                "before call %d, %s: %s, version %d, %s: %r"
                % (number, call, statuses, version, found, done.stderr + between[0].stderr)
            )
        ends.add(statuses)
    if (0, 0) not in ends or statuses[0]:
        wrong.append("they end with %s" % ends)
    place.judge("%s, at each of %d calls" % (name, len(calls)), wrong)


def before_renaming(place):
    """An update in place has the lock of the list, and another one comes, which replaces the list.
    The first one ends right before the renaming of the second one."""
    one, other = (update(place, *it) for it in ((FIRST, NOBODY), (SECOND, None)))
    begin(place)
    calls, _ = one.seen()
    number = [(it.name, it.path) for it in calls].index(("read", LIST)) + 1
    begin(place)
    with locked(LIST):
        calls, _ = other.calls(HURRY="1")
    begin(place)
    process = one.begun(number)
    ends = []
    done = other.stopped(
        calls.index("rename") + 1, lambda: ends.append(ended(*process)), HURRY="1"
    )
    wrong = place.differs(done, 0, b"") + place.differs(ends[0], 0, b"")
    version, found, text = held(place)
    if found != {int(FIRST), int(SECOND)} or b"\nkey: " not in text or version != 3:
        wrong.append("version %d with %s" % (version, found))
    if os.listdir() != [LIST]:
        wrong.append("there is %r" % os.listdir())
    place.judge("an update in place that ends right before the renaming of another one", wrong)


def mounted(place):
    """A list that is a mount point of its own is not replaced beside the mount."""
    begin(place)
    place.put("../source", OLD)
    words = ["mount", "--bind", "../source", LIST]
    if subprocess.run(words, capture_output=True, check=False).returncode:
        print("# nothing can be mounted here, so no list is a mount point")
        return
    try:
        done = update(place, FIRST, None).run()
        wrong = place.differs(done, 255, fault(0)) + place.stands(OLD)
    finally:
        subprocess.run(["umount", LIST], check=True)
    wrong += place.stands(OLD)
    place.judge("a list that is a mount point", wrong)


def all_of_them(place):
    if os.geteuid():
        print("# only root may make files where another user may not, so no two are tried")
        return
    at_each_call(place, "an update in place, and one by a rename in between", (NOBODY, None))
    at_each_call(place, "an update by a rename, and one in place in between", (None, NOBODY))
    at_each_call(place, "an update in place, and another one in between", (NOBODY, NOBODY))
    at_each_call(place, "an update by a rename, and another one in between", (None, None))
    before_renaming(place)
    mounted(place)
