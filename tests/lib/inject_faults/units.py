"""The tests of out_of_memory_tests, each for each of its allocations: a call answers as with ample
memory, or the test says that memory ran out, and it says so only where an allocation was
refused."""

import os
import subprocess
import sys

from inject_faults import process, runs, sweeps

BINARY = "crates/out_of_memory_tests/out/out_of_memory_tests_tests"
RAN_OUT = b"memory ran out\n"


class Answered:
    """Judges the runs of a test, and notes whether memory ran out in one of them."""

    def __init__(self):
        self.ran_out = False

    def __call__(self, run, ample, got):
        if ample.status or RAN_OUT in ample.output:
            return "the test does not pass with ample memory"
        self.ran_out = self.ran_out or RAN_OUT in got.output
        said = got.output.replace(RAN_OUT, b"")
        if (got.status, said, got.error) != (0, ample.output, ample.error):
            return "the test fails"
        return None


def all_units(room, top):
    binary = os.path.join(top, BINARY)
    if not os.path.exists(binary):
        print("# %s is not there: make test builds it" % BINARY)
        return
    listed = subprocess.run([binary, "--list"], check=True, capture_output=True, text=True)
    lines = [line.partition(": ") for line in listed.stdout.splitlines()]
    names = [name for name, _, sort in lines if sort == "test"]
    if not names:
        sys.exit("%s has no tests" % BINARY)
    program, room.program = room.program, process.Program(binary, room.program.library)
    for name in names:
        run = runs.Run(name, name)
        run.before = None
        answered = Answered()
        room.sweep(run, sweeps.Sweep("refused allocations", "MEMORY", answered))
        never = [] if answered.ran_out else ["it never does"]
        room.judge("%s says that memory ran out" % name, never)
    room.program = program
