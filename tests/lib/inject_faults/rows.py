"""Single cases, each with its answer."""

import errno
import struct

from inject_faults.runs import Run
from wire import HEADER

FULL = "4-4:%d:3" % errno.ENOSPC


def asked(room, words, **failing):
    run = Run("", words)
    run.before = None
    return room.start(run, failing)


def equal_growths(room, name, small, large):
    """Both lists take the same number of allocations, however many numbers they name."""
    # Both end within their front, which is as long as the file of keys.
    few, many = (asked(room, "-Q -f %s many.pub" % krl) for krl in (small, large))
    wrong = []
    if few.says() != many.says():
        wrong.append("%s, and %s" % (few.shown(), many.shown()))
    counts = [it.counts["MEMORY"].called for it in (few, many)]
    if counts[0] != counts[1]:
        wrong.append("%d allocations, and %d" % tuple(counts))
    room.judge(name, wrong)


def fault(room, name, says, words, output=b"", **failing):
    """A run that ends with this fault line, and leaves no list."""
    got = asked(room, words, **failing)
    is_right = got.says() == (255, output, says + b"\n", None, 0)
    room.judge(name, [] if is_right else [got.shown()])


def made_at(room, moment, date):
    """The list that is made when the clock shows the moment has this date."""
    got = asked(room, "-k -f made.krl empty", MOMENT=str(moment))
    wanted = HEADER[:12] + struct.pack(">QQ", 0, date) + HEADER[28:]
    name = "a list that is made %d seconds after 1970" % moment
    room.judge(name, [] if got.says() == (0, b"", b"", wanted, 0) else [got.shown()])


def failing_after(count):
    """Reads of one byte, of which all after the first ones fail."""
    return "%d-%d:%d:1" % (count + 1, 1 << 62, errno.EIO)


def all_rows(room):
    equal_growths(room, "a range of a thousand numbers", "one.krl", "thousand.krl")
    equal_growths(room, "a bitmap of a thousand bytes", "byte.krl", "bytes.krl")
    fault(
        room,
        "a query whose fourth write of three bytes fails",
        b"output: output 1 Write after 9 bytes",
        "-Q -f key.krl g.pub",
        output=b"g.pub: RE",
        WRITE=FULL,
    )
    fault(
        room,
        "a list whose fourth write of three bytes fails",
        b"made.krl: output 1 Write after 0 bytes",
        "-k -f made.krl empty",
        WRITE=FULL,
    )
    for moment in (-1, -(1 << 40), 0, 1, 1 << 32):
        made_at(room, moment, max(moment, 0))
    for count in range(len(room.files["four.krl"]) + 1):
        fault(
            room,
            "a list whose reading fails after %d bytes" % count,
            b"four.krl: krl 13 Read",
            "-Q -f four.krl",
            READ=failing_after(count),
        )
    fault(
        room,
        "an unknown section, and then reads that fail",
        b"unknown.krl: krl 4 UnknownSection",
        "-Q -f unknown.krl",
        READ=failing_after(len(room.files["unknown.krl"])),
    )
