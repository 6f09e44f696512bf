"""Updates of one list at the same time."""

import os
import re
import subprocess

from replacing.folder import LIST, OLD

WORDS = ("-u", "-f", LIST, "-s", "none", "-")
SERIAL = re.compile(rb"^serial: (\d+)(?:-(\d+))?$", re.MULTILINE)
VERSION = re.compile(rb"^# KRL version (\d+)$", re.MULTILINE)


def started(place, *words):
    """A run that waits for its lines."""
    return subprocess.Popen(
        [place.program, "-k", *words],
        stdin=subprocess.PIPE,
        stdout=subprocess.PIPE,
        stderr=subprocess.PIPE,
    )


def ended(runs, lines):
    """All of the runs get their lines, one after the other, and end."""
    for run, line in zip(runs, lines):
        run.stdin.write(line)
        run.stdin.close()
        run.stdin = None
    return [(run.communicate(timeout=300)[1], run.returncode) for run in runs]


def held(place):
    """The version of the list, the serials in it, and all that is printed of it."""
    text = place.run("-Q", "-l", "-f", LIST).stdout
    serials = set()
    for first, last in SERIAL.findall(text):
        serials |= {*range(int(first), int(last or first) + 1)}
    version = VERSION.search(text)
    return int(version[1]) if version else -1, serials, text


def faults(ends):
    """What is wrong with the updates. One that waits for more than a second may say so."""
    says = b"ssh-keygen: waiting for another update of %s\n" % LIST.encode()
    return ["%d: %r" % (status, it) for it, status in ends if status or it not in (b"", says)][:2]


def updates(place, count, rounds):
    """Each of them adds a serial. They all wait for their lines, and get them at the same time."""
    for number in range(rounds):
        place.enter()
        serials = [*range(1, 2 * count, 2)]
        ends = ended(
            [started(place, *WORDS) for _ in serials], [b"serial: %d\n" % it for it in serials]
        )
        wrong = faults(ends)
        version, found, text = held(place)
        done = {it for it, (_, status) in zip(serials, ends) if status == 0}
        if not done <= found:
            wrong.append("%d of %d are lost" % (len(done - found), len(done)))
        if version != 1 + len(done):
            wrong.append("the version is %d" % version)
        if b"\nkey: " not in text:
            wrong.append("the old key is lost")
        if os.listdir() != [LIST]:
            wrong.append("there is %r" % os.listdir())
        if wrong:
            break
    place.judge("%d updates at once, %d times" % (count, number + 1), wrong)


def among(place, count, rounds):
    """One list is made anew beside updates: nothing of the old one comes back."""
    for number in range(rounds):
        place.enter()
        runs = [started(place, *WORDS) for _ in range(count)]
        runs.insert(count // 2, started(place, *WORDS[1:]))
        lines = [b"serial: %d\n" % (2 * at + 1) for at in range(count)]
        lines.insert(count // 2, b"id: anew\n")
        ends = ended(runs, lines)
        wrong = faults(ends)
        version, found, text = held(place)
        if b"\nkey: " in text or b"\nid: anew\n" not in text:
            wrong.append("the list that was made anew is lost")
        if version != len(found):
            wrong.append("the version is %d with %d serials" % (version, len(found)))
        if os.listdir() != [LIST]:
            wrong.append("there is %r" % os.listdir())
        if wrong:
            break
    place.judge("a list made anew among %d updates, %d times" % (count, number + 1), wrong)


def first(place, count, rounds):
    """Several make a list at the same time where there is none: the list is that of one of them."""
    for number in range(rounds):
        place.enter(old=None)
        runs = [started(place, *WORDS[1:]) for _ in range(count)]
        wrong = faults(ended(runs, [b"serial: %d\n" % it for it in range(1, count + 1)]))
        version, found, _ = held(place)
        if (version, len(found)) != (0, 1):
            wrong.append("version %d with %d serials" % (version, len(found)))
        if os.listdir() != [LIST]:
            wrong.append("there is %r" % os.listdir())
        if wrong:
            break
    place.judge("%d first lists at once, %d times" % (count, number + 1), wrong)


def slow_lines(place):
    """An update that waits for lines blocks no other one, and adds them to the list as it is
    then."""
    place.enter()
    slow = started(place, *WORDS)
    lines = [b"serial: %d\n" % it for it in (1, 3, 5)]
    wrong = faults(ended([started(place, *WORDS) for _ in lines], lines))
    if slow.poll() is not None:
        wrong.append("it did not wait")
    wrong += faults(ended([slow], [b"serial: 7\n"]))
    version, found, _ = held(place)
    if (version, found) != (5, {1, 3, 5, 7}):
        wrong.append("version %d with the serials %r" % (version, found))
    place.judge("an update that waits for its lines, and three more", wrong)


def all_of_them(place, rounds):
    slow_lines(place)
    for count in (2, 20, 100):
        updates(place, count, rounds)
    among(place, 8, 4 * rounds)
    first(place, 20, rounds)
