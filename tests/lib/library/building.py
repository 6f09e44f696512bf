"""Running commands, and compiling callers of the library that was built."""

import os
import re
import subprocess
from pathlib import Path

from trial import TOP

BUILT = os.path.join(TOP, "built")
STATIC = os.path.join(BUILT, "libkrl.a")
KRL_H = os.path.join(TOP, "library", "krl.h")
HEADER = Path(KRL_H).read_text(encoding="utf-8")
VERSION = ".".join(re.findall(r"#define KRL_VERSION_\w+ (\d+)", HEADER))
SHARED = os.path.join(BUILT, "libkrl.so." + VERSION)
# The calls that the header declares.
CALLS = sorted(re.findall(r"^\w+ (krl_\w+)\(", HEADER, re.M))
WARNINGS = "-Wall -Wextra -Werror -pedantic-errors".split()


def run(*words, **more):
    return subprocess.run(list(map(str, words)), capture_output=True, text=True, **more)


def told(ran, status=0):
    """What is wrong with a run that should end with this status."""
    return [] if ran.returncode == status else [(ran.stdout + ran.stderr)[-400:]]


def same(tests, name, found, wanted):
    tests.judge(name, [] if found == wanted else ["%s, and not %s" % (found, wanted)])


def compiled(tests, source, name, *words):
    """Compiles a caller, and links it with the static library."""
    flags = ["-std=c11", "-O2", "-I", os.path.dirname(KRL_H), "-o", name]
    tests.judge("%s is compiled" % name, told(run("cc", *flags, source, STATIC, *words)))
