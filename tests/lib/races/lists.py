"""Lists that another program writes during a run, and the lists that the run makes over them."""

import os
import struct

import files
from replacing.folder import LIST
from updating.steps import Steps, content, same, shown
from wire import HEADER, certificates, section, serials, strings


def listed(version, *sections):
    return b"".join((HEADER[:12], struct.pack(">Q", version), HEADER[20:], *sections))


# The text of each run names this.
OWN = certificates(b"", serials(1))
OLD = listed(5, section(2, strings(files.KEY)))
# Two lists of the other program. No two have the same length, so that a write is seen even if the
# clock has not moved since the list was read.
LATE = listed(77, section(2, strings(files.OTHER, files.KEY)))
LATER = listed(
    200,
    certificates(files.AUTHORITY, serials(9), files.ids("an id")),
    section(2, strings(files.OTHER)),
)


class Run(Steps):
    """Runs of a program that make a list of the text and put it under the name."""

    def __init__(self, place, name, words, lines, keeps):
        super().__init__(place, words)
        self.name = name
        self.lines = lines
        # Whether it keeps what the old list names.
        self.keeps = keeps

    def begin(self, old=OLD):
        self.place.enter(old=old)
        self.place.put("../text", self.lines)

    def follows(self, base):
        """The list that it makes over this one."""
        version = struct.unpack(">Q", base[12:20])[0] + 1
        return listed(version, OWN, base[len(HEADER) :] if self.keeps else b"")

    def judge(self, name, wrong):
        self.place.judge("%s: %s" % (self.name, name), wrong)


def updates(place):
    """Runs of `krl-keygen -k -u`."""
    words = ("-k", "-u", "-f", LIST, "-s", "none", "../text")
    return Run(place, "-k -u", words, b"serial: 1\n", True)


def makes(place):
    """Runs of `krl make`."""
    words = ("make", "-q", "-f", LIST, "../text")
    return Run(place, "krl make", words, b"ca: all\nserial: 1\n", False)


def grows(place):
    """Runs of `krl make -u`."""
    words = ("make", "-q", "-u", "-f", LIST, "../text")
    return Run(place, "krl make -u", words, b"ca: all\nserial: 1\n", True)


def differs(done, *wanted):
    """What is wrong if the run did not end well, with one of these lists alone in the folder."""
    found = content()
    wrong = []
    if done.returncode or done.stdout or done.stderr:
        wrong.append(shown(done))
    if not any(same(found, it) for it in wanted):
        wrong.append("the list is %s" % told(found))
    if os.listdir() != [LIST]:
        wrong.append("the folder has %r" % sorted(os.listdir()))
    return wrong


def told(found):
    """A list in few words."""
    if found is None:
        return "missing"
    version = int.from_bytes(found[12:20], "big")
    return "of version %d, with %d bytes: %r" % (version, len(found), found[len(HEADER) :][:60])
