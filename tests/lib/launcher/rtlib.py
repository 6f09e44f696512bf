"""The functions of a kit's rtlib that build.py uses, for the crates of tests/cases/launcher.sh."""

import functools
import os
import re
import subprocess


@functools.lru_cache(maxsize=None)
def guarded():
    """The words before a command with which it ends when this process does."""
    ends, _held = os.pipe()
    guard = subprocess.Popen(["sh", "-c", "read _; kill -9 0"], stdin=ends, preexec_fn=os.setpgrp)
    join = "import os, sys; os.setpgid(0, %d); os.execvp(sys.argv[1], sys.argv[1:])" % guard.pid
    return ["python3", "-ISc", join]


class Crate:
    def __init__(self, folder, root, known):
        with open(root + "/crates.txt", encoding="utf-8") as it:
            rows = dict(re.findall(r"^(\w+(?: staticlib)?):(.*)$", it.read(), re.M))
        self.folder, self.name = folder, os.path.basename(folder)
        self.is_static = self.name + " staticlib" in rows
        self.is_program = os.path.exists(folder + "/src/main.rt")
        self.rlib = "%s/out/rlib/%s.rlib" % (folder, self.name)
        words = rows[self.name + " staticlib" * self.is_static].split()
        self.said = {"name": self.name, "deps": words}
        self.deps = []
        for it in words:
            if it in rows:
                known.setdefault(it, Crate("%s/crates/%s" % (root, it), root, known))
                self.deps.append(known[it])

    def makes_rlib(self):
        return not self.is_program and not self.is_static

    def below(self):
        found = []
        for it in self.deps:
            found += [of for of in [*it.below(), it] if of not in found]
        return found

    def words(self, flags):
        libraries = [word for it in self.below() for word in ("--extern", it.rlib)]
        return ["--crate-name", self.name, *libraries, *flags]
