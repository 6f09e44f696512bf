"""The answers that are allowed when a call of a run failed, compared with the answer when no call
fails.

Each function returns None, or what is wrong."""

import re

UNREAD = b"it cannot be read to its end"


def fault_lines(words, fault):
    """Matches the lines of a fault, after the name of the program. krl says it in words first."""
    return rb"[^\n]+: (?:%s|%s \[%s\])\n" % (fault, words, fault)


NO_MEMORY = re.compile(
    rb"usage 3 NoMemory\n|" + fault_lines(b"out of memory", rb"(?:file 4|run 1) NoMemory")
)
READ = re.compile(fault_lines(UNREAD, rb"(?:file 2|krl 13) Read"))
WRITE = b"%s: output 1 Write after %d bytes\n"
KRL_WRITE = b"%s: it takes no more bytes [output 1 Write after %d bytes]\n"
OPEN = b"made.krl: file 1 Open\n"
DONE = b'{"status":"done",'
FAULT = 255
REVOKED, UNKNOWN = 1, 3
OUTPUT, ERROR = 1, 2


def is_front(output, whole):
    """Whether it is whole lines from the beginning."""
    return whole.startswith(output) and (not output or output.endswith(b"\n"))


def same(run, ample, got):
    return None if got.says() == ample.says() else "another answer"


def stopped(run, ample, got):
    """A run that stopped: it may have printed some lines, and each byte of a list is unchanged."""
    if got.status != FAULT:
        return "the status"
    if not is_front(got.output, ample.output):
        return "standard output"
    if run.makes() and (got.made, got.left) != (run.before, 0):
        return "the list is not as it was"
    return None


def lacks_summary(run, ample, got):
    """Whether an audit is whole, but for its last line on standard error."""
    whole = (ample.status, ample.output, b"")
    return run.audits() and (got.status, got.output, got.error) == whole


def without_memory(run, ample, got):
    """Memory was refused once: of a run with a fault to report, maybe that for the line of it."""
    if got.says() == ample.says() or lacks_summary(run, ample, got):
        return None
    if not NO_MEMORY.fullmatch(got.error) and (got.error or ample.status != FAULT):
        return "standard error"
    return stopped(run, ample, got)


def without_any_memory(run, ample, got):
    """Memory was refused from some call on, so there may be none for the line that reports it."""
    if got.says() == ample.says() or lacks_summary(run, ample, got):
        return None
    if got.error and not NO_MEMORY.fullmatch(got.error):
        return "standard error"
    return stopped(run, ample, got)


def after_read(run, ample, got):
    """A read failed: it is reported, unless the run has an earlier fault to report."""
    if ample.status == FAULT and got.says() == ample.says():
        return None
    if not READ.fullmatch(got.error):
        return "standard error"
    return stopped(run, ample, got)


def after_audit_read(run, ample, got):
    """A read of an audit failed: the list is refused, or what was read is reported as unread, and
    the status says so. All other lines are among those of a whole audit."""
    if got.status == FAULT:
        return after_read(run, ample, got)
    lines = ample.output.split(b"\n")
    new = [it for it in got.output.split(b"\n") if it not in lines]
    unread = [it for it in new if UNREAD in it]
    if len(unread) != 1 or not all(it in unread or it.startswith(DONE) for it in new):
        return "standard output"
    return None if got.status in (REVOKED, UNKNOWN) else "the status"


def after_write(run, ample, got):
    """A write failed: only the bytes before it are in the file, and their length is reported."""
    descriptor = got.counts["WRITE"].descriptor
    if descriptor == ERROR:
        said = (got.status, got.output, got.made) == (ample.status, ample.output, ample.made)
        is_front_of_line = ample.error.startswith(got.error)
        return None if said and is_front_of_line else "a line that could not be written"
    if descriptor == OUTPUT and not ample.output.startswith(got.output):
        return "standard output"
    if descriptor != OUTPUT:
        return unwritten(run, ample, got)
    line = KRL_WRITE if run.audits() else WRITE
    if got.error != line % (b"output", len(got.output)):
        return "standard error"
    return None if got.status == FAULT else "the status"


def unopened(run, ample, got):
    """The new file could not be made."""
    return "standard error" if got.error != OPEN else stopped(run, ample, got)


def in_place(run, ample, got):
    """The folder takes no lock, and so no new file: a list that was there is written in place.
    Where it takes the lock, and then not the new file, the list stays."""
    is_taken = run.before is None or got.counts["CREATE"].called > 1
    return (unopened if is_taken else same)(run, ample, got)


def unwritten(run, ample, got):
    """The new file did not get the name of the list: the old list is unchanged, and 0 bytes are
    reported."""
    if got.error != WRITE % (b"made.krl", 0):
        return "standard error"
    return stopped(run, ample, got)


def unsynced(run, ample, got):
    """The sync of the list comes first, then that of its folder, which no fault reports."""
    named = sum(got.counts[sort].called for sort in ("RENAME", "LINK"))
    if ample.counts["SYNC"].called == 1:
        return "the folder is not synced"
    return (same if named else unwritten)(run, ample, got)


def unremoved(run, ample, got):
    """The list was not given its name, nor could the new file be removed."""
    if got.left != 1:
        return "whether a file is left"
    got.left = 0
    return unwritten(run, ample, got)
