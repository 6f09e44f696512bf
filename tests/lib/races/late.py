"""Another program changes the list right before each call of a run."""

import os

from races.lists import LATE, LATER, OLD, differs
from replacing.folder import LIST


def write(text):
    """Writes a list in place."""
    with open(LIST, "r+b") as file:
        over(file, text)


def over(file, text):
    """Writes a list in place, by a file that is open."""
    file.seek(0)
    file.write(text)
    file.truncate()
    file.flush()


def put(run):
    """Renames a list over the name."""
    run.place.put("../late", LATE)
    os.rename("../late", LIST)


def each(run, name, old, act, wanted):
    """The act comes before each call in turn. `wanted` gives the lists that may be there then, by
    the calls from that one on. Those of one name are judged together."""
    run.begin(old)
    calls, _ = run.calls()
    wrong = {}
    for number, call in enumerate(calls, 1):
        run.begin(old)
        done = run.stopped(number, act)
        found = differs(done, *wanted(calls[number - 1 :]))
        found += [] if done.was_stopped else ["there is no call %d" % number]
        wrong.setdefault(call, []).extend("before call %d: %s" % (number, it) for it in found)
    for call, found in wrong.items():
        run.judge("%s before each of %d %s calls" % (name, calls.count(call), call), found)


def written(run):
    """A list that is written in place before the renaming, also right before it, is the one that
    the new list follows. One that is written after it stays."""

    def wanted(rest):
        return [run.follows(LATE) if "rename" in rest else LATE]

    each(run, "a list written", OLD, lambda: write(LATE), wanted)


def twice(run):
    """The other program writes right before the first renaming, and once more before each call
    until the second one, when a list of this run is under the name: into the file that it has open,
    or into the one that has the name. The new list follows what was written last. Right before the
    second renaming it is too late to see what was written to the list of this run."""
    run.begin()
    calls, _ = run.calls()
    first = calls.index("rename") + 1

    def raced(begun, write_later, later=None):
        run.begin()
        with open(LIST, "r+b") as file:
            acts = {first: lambda: over(file, LATE)}
            acts |= {later: lambda: write_later(file)} if later else {}
            return begun(acts)

    calls, done = raced(run.calls, None)
    run.judge("a list written before the renaming", differs(done, run.follows(LATE)))
    second = len(calls) - calls[::-1].index("rename")
    count = [] if calls.count("rename") == 2 else ["the calls are %s" % calls]
    for name, write_later in (
        ("to the open file", lambda file: over(file, LATER)),
        ("to the list of this run", lambda file: write(LATER)),
    ):
        wrong = list(count)
        for number in range(first + 1, second + 1):
            done = raced(run.stopped_at, write_later, number)
            wanted = [run.follows(LATER)]
            if number == second and name == "to the list of this run":
                wanted.append(run.follows(LATE))
            found = differs(done, *wanted)
            wrong += ["before call %d, %s: %s" % (number, calls[number - 1], it) for it in found]
        run.judge("written %s before each of the next %d calls" % (name, second - first), wrong)


def renamed(run):
    """A list that another program renames over the old one. One call before the renaming is too
    late to see, and after the last look at the name the list of this run was there already."""

    def wanted(rest):
        if "rename" in rest[1:]:
            return [run.follows(LATE)]
        if rest[0] == "rename":
            return [run.follows(LATE), run.follows(OLD)]
        return [run.follows(LATE), LATE] if "stat" in rest else [LATE]

    each(run, "a list renamed over the old one", OLD, lambda: put(run), wanted)


def appeared(run):
    """A list that another program puts where there was none."""

    def wanted(rest):
        return [run.follows(LATE)] if "link" in rest or "stat" in rest else [LATE]

    each(run, "a list where there was none", None, lambda: put(run), wanted)
