"""What krl_load takes for a list with many entries under one long authority."""

import os
import sys
from pathlib import Path

from authorities import OTHER_SPELLING
from building import WARNINGS, compiled
from trial import TOP

sys.path.append(os.path.join(TOP, "bench"))
import worst
from measure import instructions

SIZE = 1 << 18


def long_authority(tests):
    """An authority is searched for once, and not for each entry under it, however long it is."""
    source = os.path.join(os.path.dirname(os.path.abspath(__file__)), "loading.c")
    compiled(tests, source, "loading", *WARNINGS)
    # The long one is no key, so krl_load reads the list to its end and then refuses it.
    shapes = {
        OTHER_SPELLING: worst.under_authority(1 / 2)(SIZE),
        0: worst.under_authority(0)(SIZE // 2),
    }
    taken = {}
    for answer, content in shapes.items():
        Path("authority.krl").write_bytes(content)
        taken[answer] = instructions(["./loading", "authority.krl", str(answer)], (0,))
    ratio = taken[OTHER_SPELLING] / taken[0]
    name = "instructions of krl_load under a long authority, beside a short one"
    wrong = ["it takes %.2f" % ratio] if ratio > 2 else []
    tests.judge("%s: %.2f, of 2 at most" % (name, ratio), wrong)
