"""Runs the program again and again: its calls fail in turn, until a run meets no failure."""

import errno

import trial
from inject_faults import answers

ALWAYS = 1 << 62
SHORT, NOTHING = -1, 0
# How often the program repeats a call that was interrupted.
PATIENCE = 1000


class Sweep:
    """The first call of a sort fails, then the second, and so on."""

    def __init__(self, name, sort, answer, how=0, piece=ALWAYS, lasts=False):
        self.name = name
        self.sort = sort
        self.answer = answer
        self.how = how
        # How many bytes a call moves at most.
        self.piece = piece
        # Whether all calls after the one that fails fail too.
        self.lasts = lasts

    def failing(self, first, last):
        return {self.sort: "%d-%d:%d:%d" % (first, last, self.how, self.piece)}

    def at(self, number):
        return self.failing(number, ALWAYS if self.lasts else number)


READS = [
    Sweep("reads that fail", "READ", answers.after_read, errno.EIO),
    Sweep("reads that fail, each of one byte", "READ", answers.after_read, errno.EIO, 1),
    Sweep("short reads", "READ", answers.same, SHORT),
    Sweep("interrupted reads", "READ", answers.same, errno.EINTR),
]
WRITES = [
    Sweep("writes that fail", "WRITE", answers.after_write, errno.ENOSPC),
    Sweep("writes that fail, each of three bytes", "WRITE", answers.after_write, errno.ENOSPC, 3),
    Sweep("writes that take nothing", "WRITE", answers.after_write, NOTHING),
    Sweep("short writes", "WRITE", answers.same, SHORT),
    Sweep("interrupted writes", "WRITE", answers.same, errno.EINTR),
]
MEMORY = [
    Sweep("refused allocations", "MEMORY", answers.without_memory),
    Sweep("last allocations refused", "MEMORY", answers.without_any_memory, lasts=True),
]
AUDIT_READS = [
    Sweep("reads that fail", "READ", answers.after_audit_read, errno.EIO),
    Sweep("short reads", "READ", answers.same, SHORT),
    Sweep("interrupted reads", "READ", answers.same, errno.EINTR),
]
FILES = [
    Sweep("lists that are not created", "CREATE", answers.unopened, errno.ENOSPC),
    Sweep("new names that are taken", "CREATE", answers.same, errno.EEXIST),
    Sweep("folders that take no new file", "CREATE", answers.in_place, errno.EACCES),
    Sweep("folders that cannot be written", "CREATE", answers.in_place, errno.EROFS),
    Sweep("modes that are not kept", "MODE", answers.unwritten, errno.EIO),
    Sweep("owners that are not kept", "OWNER", answers.same, errno.EPERM),
    Sweep("syncs that fail", "SYNC", answers.unsynced, errno.EIO),
    Sweep("closings that fail", "CLOSE", answers.same, errno.EIO),
    Sweep("lists that get no name", "RENAME", answers.unwritten, errno.EIO),
    Sweep("lists that get no link", "LINK", answers.same, errno.EPERM),
]


def numbers(count, most):
    """Each number up to the count and the one after it; where they are too many, the first forty
    and some of the others, the last ones among them."""
    if count <= most:
        return range(1, count + 2)
    step = -(-count // (most - 40))
    return sorted({*range(1, 41), *range(count + 1, 40, -step), count})


class Room(trial.Tests):
    """The place of the runs, and their results."""

    def __init__(self, program, files, most):
        super().__init__()
        self.program = program
        self.files = files
        self.most = most
        self.runs = 0

    def start(self, run, failing):
        self.runs += 1
        return self.program.run(run.words, run.given, run.before, **run.environment, **failing)

    def sweep(self, run, sweep):
        ample = self.start(run, sweep.failing(0, 0))
        count = ample.counts[sweep.sort].called
        wrong = []
        for number in numbers(count, self.most):
            got = self.start(run, sweep.at(number))
            what = sweep.answer(run, ample, got)
            if number > count:
                what = answers.same(run, ample, got)
            if (got.counts[sweep.sort].failed > 0) != (number <= count):
                what = "whether a call failed"
            if what:
                wrong.append("the %d of %d: %s: %s" % (number, count, what, got.shown()))
        self.judge("%s: %d %s" % (run.name, count, sweep.name), wrong[:3])

    def once(self, name, run, ample, failing, answer):
        got = self.start(run, failing)
        what = answer(run, ample, got)
        self.judge(name, ["%s: %s" % (what, got.shown())] if what else [])

    def pieces(self, run):
        """Devices that read and write only a few bytes in each call."""
        ample = self.start(run, {})
        for sort in ("READ", "WRITE"):
            for piece in (1, 3, 7):
                name = "%s: %ss of %d bytes at most" % (run.name, sort.lower(), piece)
                self.once(name, run, ample, {sort: "0-0:0:%d" % piece}, answers.same)

    def patience(self, run):
        """A thousand interruptions are ignored, and no more."""
        ample = self.start(run, {})
        for sort, fault in (("READ", answers.after_read), ("WRITE", answers.after_write)):
            if not ample.counts[sort].called:
                continue
            for count, answer in ((PATIENCE, answers.same), (PATIENCE + 1, fault)):
                name = "%s: %d interruptions of a %s" % (run.name, count, sort.lower())
                self.once(name, run, ample, {sort: "1-%d:%d" % (count, errno.EINTR)}, answer)

    def unremoved(self, run):
        """Neither does the list get its name, nor can the new file be removed."""
        ample = self.start(run, {})
        if not ample.counts["RENAME"].called:
            return
        failing = {"RENAME": "1-1:%d" % errno.EIO, "REMOVE": "1-1:%d" % errno.EIO}
        self.once(run.name + ": a new file that stays", run, ample, failing, answers.unremoved)

    def all(self, run):
        run.before = self.files[run.old] if run.old else None
        for sweep in MEMORY + (AUDIT_READS if run.audits() else READS) + WRITES:
            self.sweep(run, sweep)
        for sweep in FILES if run.makes() else []:
            self.sweep(run, sweep)
        self.unremoved(run)
        self.pieces(run)
        if run.is_patient:
            self.patience(run)
