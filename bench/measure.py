"""Time and memory of programs, and the programs that are measured."""

import os
import re
import resource
import subprocess
import sys

TOP = os.path.dirname(os.path.dirname(os.path.abspath(__file__)))
OURS = os.path.abspath(os.environ.get("PROGRAM", os.path.join(TOP, "built", "ssh-keygen")))
AUDIT = os.path.abspath(os.environ.get("KRL", os.path.join(TOP, "built", "krl")))
THEIRS = os.environ.get("OPENSSH", "ssh-keygen")
# A program that takes longer, in seconds, is ended.
LIMIT = int(os.environ.get("LIMIT", "100"))


def build():
    """The launcher builds the program if it is not built yet."""
    if "PROGRAM" not in os.environ:
        subprocess.run(
            [os.path.join(TOP, "ssh-keygen"), "-h"], stdout=subprocess.DEVNULL, check=True
        )


def build_audit():
    """The same for the program that audits files."""
    if "KRL" not in os.environ:
        subprocess.run([os.path.join(TOP, "krl"), "-h"], stdout=subprocess.DEVNULL, check=True)


def plain_rust(name="main"):
    """A program of bench/plain, compiled in the current folder. `main` is the plain reader of
    lists."""
    plain = os.path.join(os.getcwd(), "plain_" + name)
    subprocess.run(
        ["rustc", "-O", "-o", plain, os.path.join(TOP, "bench", "plain", name + ".rs")], check=True
    )
    return plain


def children_seconds():
    """The processor seconds of all commands that have ended."""
    used = resource.getrusage(resource.RUSAGE_CHILDREN)
    return used.ru_utime + used.ru_stime


def measure(words, statuses=(0, 1)):
    """The processor seconds and the most memory, in KiB, of a command; none where it took too
    long."""
    # GNU time starts the command from a small process, so that this one's memory is not counted.
    timed = ["timeout", str(LIMIT), "time", "--quiet", "-f", "%M", "-o", "memory"] + words
    errors = subprocess.DEVNULL if 255 in statuses else None
    start = children_seconds()
    status = subprocess.run(timed, stdout=subprocess.DEVNULL, stderr=errors).returncode
    taken = children_seconds() - start
    if status == 124:
        return None
    if status not in statuses:
        sys.exit("%s ended with status %d" % (" ".join(words), status))
    with open("memory") as memory:
        return taken, int(memory.read())


def instructions(words, statuses=(0, 1)):
    """The instructions that a command runs, whatever its processor's caches do."""
    counted = ["valgrind", "--tool=cachegrind", "--cache-sim=no", "--cachegrind-out-file=/dev/null"]
    ran = subprocess.run(
        counted + words, stdout=subprocess.DEVNULL, stderr=subprocess.PIPE, text=True
    )
    if ran.returncode not in statuses:
        sys.exit("%s ended with status %d" % (" ".join(words), ran.returncode))
    return int(re.search(r"I +refs: +([0-9,]+)", ran.stderr)[1].replace(",", ""))


def least(words, prepare=lambda: None, statuses=(0, 1)):
    """The same, the least of three runs where they are short, each after what prepares it."""
    prepare()
    first = measure(words, statuses)
    if first is None or first[0] > 2:
        return first
    others = []
    for _ in range(2):
        prepare()
        others.append(measure(words, statuses))
    return min([first] + others)


def least_in_turn(commands, rounds=7):
    """The least of each command. They are run in turn, so that a slow moment of the machine slows
    all of them."""
    taken = [[measure(words) for words in commands] for _ in range(rounds)]
    return [min(runs) for runs in zip(*taken)]


def over(other, ours):
    """The columns of a program beside ours."""
    if other is None:
        return "%7s %7s" % ("> %.0f" % (LIMIT / ours[0]), "-")
    return "%7.1f %7.2f" % (other[0] / ours[0], other[1] / ours[1])


def own(ours):
    return "%8.3f %6.0f" % (ours[0], ours[1] / 1024)
