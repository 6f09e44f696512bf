"""Each call of a run fails in turn."""

import errno
import os

from races.lists import OLD
from replacing.folder import LIST
from updating.steps import content, same, shown

SORTS = (errno.EIO, errno.EACCES, errno.ENOSPC, errno.ENOMEM)
ALL = 1 << 62


def is_whole(done, run):
    """Whether the run did all or nothing."""
    if os.listdir() != [LIST]:
        return False
    if done.returncode == 0:
        return not done.stderr and same(content(), run.follows(OLD))
    return done.returncode == 255 and content() == OLD


def failing(run):
    """Each call fails in turn, and all of a name: the new list follows the old one, or the old one
    is unchanged, and nothing is left beside it."""
    run.begin()
    calls, _ = run.calls()
    for name in sorted({*calls} - {"close", "unlink"}):
        turns = ["%d-%d" % (it, it) for it in range(1, calls.count(name) + 1)] + ["1-%d" % ALL]
        wrong = []
        for turn in turns:
            for error in SORTS:
                run.begin()
                done = run.run(FAIL="%s:%s:%d" % (name, turn, error))
                if not is_whole(done, run):
                    said = "%s of %s: %s, list %r"
                    wrong.append(said % (turn, os.strerror(error), shown(done), content()[:20]))
        run.judge("each of %d %s calls fails" % (calls.count(name), name), wrong)


def after_renaming(run):
    """A call fails once that looks at the lists after the renaming: the new list still follows the
    old one."""
    run.begin()
    calls, _ = run.calls()
    renaming = calls.index("rename")
    for name in ("stat", "fstat", "lstat", "open", "fsync"):
        before = calls[:renaming].count(name)
        turns = range(before + 1, calls.count(name) + 1)
        wrong = []
        for turn in turns:
            for error in SORTS:
                run.begin()
                done = run.run(FAIL="%s:%d-%d:%d" % (name, turn, turn, error))
                if done.returncode or not is_whole(done, run):
                    said = "%s: %s, list %r"
                    wrong.append(said % (os.strerror(error), shown(done), content()[:20]))
        if turns:
            run.judge("each of %d %s calls after the renaming fails" % (len(turns), name), wrong)
