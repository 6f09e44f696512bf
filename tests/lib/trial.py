"""The shared code of the programs of tests/: the program that is tested, the count of tests, and
libraries that are loaded before a program, and change what its calls do."""

import os
import subprocess
import sys

LIB = os.path.dirname(os.path.abspath(__file__))
TOP = os.path.dirname(os.path.dirname(LIB))
PROGRAM = os.path.abspath(os.environ.get("PROGRAM", os.path.join(TOP, "built", "ssh-keygen")))
KRL = os.path.abspath(os.environ.get("KRL", os.path.join(TOP, "built", "krl")))


def built_library(source, folder):
    """Compiles a C file of this folder, or of one in it, into another folder."""
    name = os.path.splitext(os.path.basename(source))[0]
    library = os.path.join(folder, name + ".so")
    words = ["cc", "-O2", "-shared", "-fPIC", "-o", library, os.path.join(LIB, source)]
    subprocess.run(words, check=True)
    return library


class Tests:
    """Tests that are counted, each of which passes where nothing is wrong."""

    def __init__(self):
        self.passed = 0
        self.failed = 0

    def judge(self, name, wrong):
        self.failed += bool(wrong)
        self.passed += not wrong
        line = "not ok %s\n  %s" % (name, "\n  ".join(wrong[:3])) if wrong else "ok " + name
        print(line, flush=True)

    def end(self):
        print("%d passed, %d failed" % (self.passed, self.failed))
        sys.exit(1 if self.failed else 0)
