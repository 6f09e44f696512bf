"""What a query of a list takes in memory, however many entries the list has."""

import os
import struct
import sys
from pathlib import Path

import trial
from building import WARNINGS, compiled, run, told
from files import KEY
from wire import HEADER

sys.path.append(os.path.join(trial.TOP, "bench"))
import lists

SIZE = 1 << 20
# The additional KiB of memory that a query may take if the list is long.
MORE = 16


def most_held(tests, library, content):
    """The most bytes that are held at a time while a list is queried."""
    Path("streamed.krl").write_bytes(content)
    Path("counted").write_bytes(bytes(24))
    environment = {"LD_PRELOAD": library, "COUNTED": "counted"}
    ran = run("./streaming", "streamed.krl", "streamed.key", env=environment)
    if ran.returncode:
        tests.judge("a list that is streamed is queried", told(ran))
    return struct.unpack("3Q", Path("counted").read_bytes())[1]


def long_lists(tests):
    """Each call that takes a list stores nothing of it but what it names of the key."""
    source = os.path.join(os.path.dirname(os.path.abspath(__file__)), "streaming.c")
    compiled(tests, source, "streaming", *WARNINGS)
    library = trial.built_library("counting.c", os.getcwd())
    Path("streamed.key").write_bytes(KEY)
    least = most_held(tests, library, HEADER)
    for name in ("random serials", "key IDs", "explicit keys"):
        more = (most_held(tests, library, lists.SHAPES[name](SIZE)) - least) / 1024
        wrong = ["it takes %.1f" % more] if more > MORE else []
        text = "KiB that libkrl takes for a query of %s: %.1f, of %d at most"
        tests.judge(text % (name, more, MORE), wrong)
