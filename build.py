#!/usr/bin/env python3
"""Proves a crate and all crates below it, and writes the program or the static library that is made
of them.

    build.py CALLER CRATE FILE

The launcher and library/build call this. CALLER is the name that each message begins with.

Each library is built as statements, without its proofs, by `rattle build` with the words that rt
itself takes from the kit's rtlib.py. The user's cache keeps each proved library by a checksum of
the kit, of the crate's files and of the libraries below. So a build that was interrupted continues
where it stopped, and each clone of the repository uses the proofs of the others. rt keeps its own
work in crates/NAME/out, and build.py writes nothing there.

The version of the programs gets the commit of their sources, in a copy of the one crate that has
it. What rt itself builds, also in make test, has no commit in its version.
"""

import contextlib
import fcntl
import glob
import hashlib
import importlib.machinery
import importlib.util
import os
import re
import resource
import shutil
import signal
import stat
import subprocess
import sys
import tempfile
import time

sys.dont_write_bytecode = True
TOP = os.path.dirname(os.path.realpath(__file__))
BUILT = os.path.join(TOP, "built")
TOOLS = ("rattle", "rattle-link", "rtlib.py")
# The processor that the programs and libkrl need: any of the 64-bit x86 family.
CPU = "x86-64"
# The memory in bytes of a process that proves a crate.
NEED = 2_500_000_000
# The crate that has the version of the programs in src/lib.rt, and no other file of a crate.
VERSION = "program_version"
# What the programs are made of, as git's patterns. No other file changes their version.
SOURCES = (
    "crates.txt",
    ":(glob)crates/**/*.rt",
    ":(glob)crates/**/*.antt",
    ":(exclude,glob)crates/*_tests/**",
    ":(exclude)crates/test_fixtures",
)
# In an archive that `git archive` made, this is the archived commit.
ARCHIVED = "$Format:%H$"
# How many builds of a crate stay in the cache; each stays for this many seconds after its last use.
STAY, LEAST_AGE = 3, 86400


def say(*lines):
    for line in lines:
        print(f"{sys.argv[1]}: {line}", file=sys.stderr, flush=True)


def refuse(*lines):
    say(*lines)
    sys.exit(255)


def read(path):
    with open(path, "rb") as it:
        return it.read()


class OtherWords(Exception):
    """The kit takes other words than this script knows."""


@contextlib.contextmanager
def words_of_kit():
    try:
        yield
    except (AttributeError, ImportError, KeyError, SyntaxError, TypeError, ValueError) as error:
        raise OtherWords from error


def load_kit():
    """Returns the kit's folder and its rtlib."""
    rt = shutil.which("rt")
    if not rt:
        refuse(
            "not built yet, and the command rt, which builds it, is not on the PATH",
            "install the Rattle kit that README.md names, and put its folder bin on the PATH",
        )
    kit = os.path.dirname(os.path.dirname(os.path.realpath(rt)))
    if not all(os.path.isfile(f"{kit}/bin/{it}") for it in TOOLS):
        raise OtherWords
    with words_of_kit():
        loader = importlib.machinery.SourceFileLoader("rtlib", f"{kit}/bin/rtlib.py")
        rtlib = importlib.util.module_from_spec(importlib.util.spec_from_loader("rtlib", loader))
        sys.modules["rtlib"] = rtlib
        loader.exec_module(rtlib)
        # Its first call sets a signal's handler.
        rtlib.guarded()
    return kit, rtlib


def make_store():
    """Returns the folder that keeps what is proved: in the user's cache, or one of this user's
    temporary folders. Whoever may write there decides what counts as proved."""
    cache = os.environ.get("XDG_CACHE_HOME") or os.path.expanduser("~/.cache")
    for folder in (f"{cache}/krl-keygen", f"{tempfile.gettempdir()}/krl-keygen-{os.geteuid()}"):
        with contextlib.suppress(OSError):
            os.makedirs(folder, 0o700, exist_ok=True)
            found = os.lstat(folder)
            if not stat.S_ISDIR(found.st_mode):
                why = "is a link"
            elif found.st_uid != os.geteuid():
                why = f"belongs to user {found.st_uid}"
            elif found.st_mode & (stat.S_IWGRP | stat.S_IWOTH):
                why = "may be written by other users"
            elif os.access(folder, os.W_OK | os.X_OK):
                return os.path.abspath(folder)
            else:
                continue
            refuse(
                f"{folder} {why}, so what is in it may not be proved",
                "remove it, or name another folder in XDG_CACHE_HOME",
            )
    return refuse(f"nothing can be kept in {cache}: name another folder in XDG_CACHE_HOME")


def shrink(store):
    """Removes from the cache the builds of each crate that were used before its newest ones."""
    ages = {}
    for it in os.scandir(store):
        found = re.fullmatch(r"(\w+)-[0-9a-f]{32}(\.new)?", it.name)
        if found:
            ages.setdefault(found[1], []).append((time.time() - it.stat().st_mtime, it.path))
    for found in ages.values():
        for age, path in sorted(found)[STAY:]:
            if age > LEAST_AGE:
                shutil.rmtree(path, ignore_errors=True)


def free_memory():
    """Returns the free memory in bytes, also under the limits of the process and of its control
    group."""
    free = [1024 * int(re.search(rb"MemAvailable:\s+(\d+)", read("/proc/meminfo"))[1])]
    limit = resource.getrlimit(resource.RLIMIT_AS)[0]
    free += [limit] if limit != resource.RLIM_INFINITY else []
    group = "/sys/fs/cgroup/memory"
    for limit, held, word in (
        (f"{group}.max", f"{group}.stat", rb"anon (\d+)"),
        (f"{group}/memory.limit_in_bytes", f"{group}/memory.stat", rb"total_rss (\d+)"),
    ):
        # If there is no limit, there is no file, or the file has a word.
        with contextlib.suppress(OSError, TypeError, ValueError):
            free.append(int(read(limit)) - int(re.search(word, read(held))[1]))
    return min(free)


def count_lanes():
    """Returns how many processes prove at the same time: one a processor with memory, or the number
    in RT_JOBS."""
    fixed = os.environ.get("RT_JOBS", "")
    if re.fullmatch("[1-9][0-9]*", fixed):
        return int(fixed)
    free = free_memory()
    if free < NEED:
        refuse(
            f"proving takes {NEED // 1_000_000:,} MB of memory,"
            f" and {free // 1_000_000:,} MB are free"
        )
    return min(len(os.sched_getaffinity(0)), free // NEED)


def ask_git(*words):
    """Returns git's answer about this repository, and about no other that is around it or that the
    environment names. Git asks no server and no user, and sees files that the user's settings
    ignore."""
    env = {name: it for name, it in os.environ.items() if not name.startswith("GIT_")}
    env["GIT_CEILING_DIRECTORIES"] = os.path.dirname(TOP)
    how = {"cwd": TOP, "env": env, "stdin": subprocess.DEVNULL, "stderr": subprocess.DEVNULL}
    git = ["git", "--no-optional-locks", "-c", "protocol.allow=never", "-c", "core.fsmonitor=false"]
    git += ["-c", "core.excludesFile=/dev/null"]
    ran = subprocess.run([*git, *words], check=True, stdout=subprocess.PIPE, **how)
    return ran.stdout.decode(errors="replace").strip()


def find_commit():
    """Returns the last commit that changed a source, in 12 digits, with -dirty if the sources are
    changed. If git does not know it, it is the commit of the archive, or None."""
    found, changes = ARCHIVED, ""
    with contextlib.suppress(OSError, subprocess.CalledProcessError):
        last = ask_git("rev-list", "-1", "HEAD", "--", *SOURCES)
        status = ask_git("status", "--porcelain", "--untracked-files=all", "--", *SOURCES)
        if last:
            found, changes = last, status
    found = found[:12]
    if not re.fullmatch("[0-9a-f]{12}", found):
        return None
    return f"{found}-dirty" if changes else found


class Task:
    """A crate of the build: the crates that it depends on, and the place of its library in the
    cache."""

    def __init__(self, crate, below):
        self.crate, self.name, self.below = crate, crate.name, below
        self.made = self.place = self.process = self.lock = None
        self.was_killed = self.is_waiting = False
        self.began = 0
        lines = sum(read(it).count(b"\n") for it in self.files() if it.endswith(".rt"))
        self.libraries = {*below}.union(*(it.libraries for it in below))
        # About how many seconds the proofs of the crate take. The libraries below it are read
        # first, and the code of all of them is compiled with the program's.
        self.seconds = lines / 8 + 2 * len(self.libraries) + (80 if crate.is_program else 0)

    def files(self):
        walked = [
            it
            for part in ("src", "specs", "proofs")
            for it in os.walk(f"{self.crate.folder}/{part}")
        ]
        return sorted(os.path.join(at, name) for at, _, names in walked for name in names)

    def state(self):
        """Returns data that shows whether a file was changed meanwhile, even if it was changed
        back."""
        found = []
        for it in self.files():
            with contextlib.suppress(FileNotFoundError):
                of = os.stat(it)
                found.append((it, of.st_ino, of.st_size, of.st_mtime_ns, of.st_ctime_ns))
        return found

    def output(self):
        if self.crate.is_program:
            return self.name
        return f"lib{self.name}.a" if self.crate.is_static else f"{self.name}.rlib"

    def look(self, store, kit_sum):
        """Finds the place in the cache of these files over these libraries, and returns whether it
        is filled."""
        self.read_at = self.state()
        texts = [(os.path.relpath(it, self.crate.folder), read(it)) for it in self.files()]
        # A library's file `format` has a checksum of its other files.
        below = [(it.name, read(f"{it.made}/format")) for it in self.below]
        how = [] if self.crate.makes_rlib() else [CPU]
        told = repr((kit_sum, self.name, sorted(self.crate.said.items()), texts, below, *how))
        self.place = f"{store}/{self.name}-{hashlib.sha256(told.encode()).hexdigest()[:32]}"
        return self.take()

    def take(self):
        if self.place and os.path.isdir(self.place):
            os.utime(self.place)
            self.made = self.crate.rlib = f"{self.place}/{self.output()}"
        return self.made is not None


class Build:
    def __init__(self, top, store):
        self.store, self.lanes, self.pace = store, None, None
        # The seconds that the crates took which this build has proved, and those reckoned before.
        self.taken = self.reckoned = 0
        self.kit, self.rtlib = load_kit()
        tools = [os.stat(f"{self.kit}/bin/{it}") for it in TOOLS]
        named = [
            read(f"{self.kit}/{it}")
            for it in ("WHAT", "KIT-ID")
            if os.path.isfile(f"{self.kit}/{it}")
        ]
        self.kit_sum = repr((named, [(it.st_size, it.st_mtime_ns) for it in tools]))
        tasks = {}
        with words_of_kit():
            last = self.rtlib.Crate(f"{TOP}/crates/{top}", TOP, {})
            for crate in [*last.below(), last]:
                if crate.name == VERSION:
                    self.add_commit(crate)
                tasks[crate.name] = Task(crate, [tasks[it.name] for it in crate.below()])
        self.tasks, self.last = [*tasks.values()], tasks[top]
        # If rt ci has just proved all crates, this build uses the libraries that it left.
        if os.environ.get("AFTER_CI"):
            for it in self.tasks[:-1]:
                it.made = it.crate.rlib if os.path.isfile(f"{it.crate.rlib}/format") else None
        # How many seconds are left from the beginning of a crate to the end of all that waits for
        # it.
        self.chain = {}
        for it in reversed(self.tasks):
            above = [self.chain[other] for other in self.chain if it in other.below]
            self.chain[it] = it.seconds + max(above, default=0)

    def add_commit(self, crate):
        """Lets a copy of the crate be built whose version has the commit, if a commit is known. The
        copy is not in built/, since rt refuses sources there."""
        commit = find_commit()
        if not commit:
            return
        text = read(f"{crate.folder}/src/lib.rt").decode()
        self.room = tempfile.TemporaryDirectory(prefix="krl-keygen-")
        crate.folder = self.room.name
        os.mkdir(f"{crate.folder}/src")
        with open(f"{crate.folder}/src/lib.rt", "w", encoding="utf-8") as it:
            it.write(re.sub(r'(VERSION: &str = "[^"]*)', rf"\1 ({commit})", text))

    def run(self):
        """Returns the file that was made, once all is proved."""
        while self.last.made is None:
            ready = [
                it
                for it in self.tasks
                if not it.made and not it.process and all(at.made for at in it.below)
            ]
            if not any(
                [it.take() if it.place else it.look(self.store, self.kit_sum) for it in ready]
            ):
                self.begin_some(sorted(ready, key=self.chain.get, reverse=True))
                time.sleep(0.1)
            for it in self.tasks:
                if it.process and it.process.poll() is not None:
                    self.finish(it)
        return self.last.made

    def begin_some(self, ready):
        """Begins to prove the crates that are ready, the longest chain first. A second process in a
        crate repeats parts of the work. So a crate whose chain is by far the longest gets one if
        there are more than two processors, and a crate with a short chain, which can wait, gets
        none: others get one if no other crate can use the processor."""
        if self.lanes is None:
            self.lanes, self.began = count_lanes(), time.time()
            say(f"proving and building, this once: {len(self.tasks)} crates")
        busy = [it for it in self.tasks if it.process]
        idle = self.lanes - sum(it.jobs for it in busy)
        share = sum(it.seconds for it in self.tasks if not it.made) / self.lanes
        for number, it in enumerate(ready):
            if idle < 1 or busy and any(at.was_killed for at in (it, *busy)):
                return
            most = 4 if it is self.last else 2
            chain = self.chain[it] / share
            jobs = 1 if chain < 0.95 else idle // (len(ready) - number)
            if self.lanes > 2 and chain > 1.5:
                jobs = most
            it.jobs = 1 if it.was_killed else max(1, min(jobs, most, self.lanes))
            if self.begin(it):
                busy.append(it)
                idle -= it.jobs

    def begin(self, it):
        """Begins to prove a crate, and returns whether it did: another build may be proving it, or
        has proved it."""
        it.lock = it.lock or open(f"{self.store}/{it.name}.lock", "w")
        try:
            fcntl.flock(it.lock, fcntl.LOCK_EX | fcntl.LOCK_NB)
        except BlockingIOError:
            if not it.is_waiting:
                say(f"another build is proving {it.name}: waiting for that")
            it.is_waiting = True
            return False
        if it.look(self.store, self.kit_sum):
            self.release(it)
            return False
        say(f"proving {it.name}{self.how_far()}")
        it.began = time.time()
        self.release_place(it)
        os.mkdir(f"{it.place}.new")
        with words_of_kit():
            words = [*self.rtlib.guarded(), *self.words(it)]
        with open(f"{BUILT}/{it.name}.log", "w") as log:
            how = {
                "cwd": it.crate.folder,
                "stdin": subprocess.DEVNULL,
                "stdout": log,
                "stderr": log,
            }
            it.process = subprocess.Popen(words, **how)
        return True

    def how_far(self):
        """Returns how many seconds the build has taken, of how many, once a crate has shown how
        quick this machine is."""
        if not self.pace:
            return ""
        taken = time.time() - self.began
        return f": {taken:.0f} of about {taken + self.rest():.0f} seconds"

    def rest(self):
        """Returns about how many seconds are left: each processor takes the crate that is ready and
        whose chain is the longest."""
        ends = {it: 0 for it in self.tasks if it.made}
        free, waiting = [0] * self.lanes, [it for it in self.tasks if not it.made]
        while waiting:
            begins, it = min(
                (
                    (max([min(free), *(ends[at] for at in it.below)]), it)
                    for it in waiting
                    if all(at in ends for at in it.below)
                ),
                key=lambda found: (found[0], not found[1].process, -self.chain[found[1]]),
            )
            behind = time.time() - it.began if it.process else 0
            ends[it] = begins + max(0, self.pace * it.seconds - behind)
            free[free.index(min(free))] = ends[it]
            waiting.remove(it)
        return max(ends.values())

    def words(self, it):
        made = f"{it.place}.new/{it.output()}"
        words = [f"{self.kit}/bin/rattle", "build", *it.crate.words(["--jobs", str(it.jobs)])]
        if it.crate.makes_rlib():
            return [*words, "--statements", "-o", made]
        words += ["--backend", "llvm", "--toolchain", f"{self.kit}/toolchain", "--cpu", CPU]
        return [*words, "-o", f"{made}.o" if it.crate.is_program else made]

    def finish(self, it):
        """A crate's process has ended: keeps what it made."""
        status, it.process = it.process.returncode, None
        if status == 0 and it.crate.is_program:
            status = self.link(it, f"{it.place}.new/{it.output()}")
        # A file that was changed meanwhile may be in it or not.
        if status == 0 and it.state() == it.read_at:
            os.rename(f"{it.place}.new", it.place)
            it.take()
            self.set_pace(it)
        self.release_place(it)
        self.release(it)
        if not it.made:
            it.place = None
        if status == -signal.SIGKILL and not it.was_killed:
            say(
                f"the process that proves {it.name} was killed, most likely for memory:"
                " once more, alone"
            )
            it.was_killed = True
        elif status:
            self.give_up(it, status)

    def set_pace(self, it):
        """The crates that this build has proved show how quick this machine is, except the last one
        and the one of the version, which is too small."""
        if it is self.last or it.name == VERSION:
            return
        is_first = not self.pace
        self.taken += time.time() - it.began
        self.reckoned += it.seconds
        self.pace = self.taken / self.reckoned
        if is_first:
            minutes = max(1, round((time.time() - self.began + self.rest()) / 60))
            plural = "" if minutes == 1 else "s"
            say(f"this takes about {minutes} minute{plural} on this machine, judging by {it.name}")

    def link(self, it, program):
        words = [f"{self.kit}/bin/rattle-link", "--target", "x86_64-unknown-linux-gnu"]
        words += ["--toolchain", f"{self.kit}/toolchain", "-o", program, f"{program}.o"]
        words += [f"{self.kit}/c/libos_c.a", f"{self.kit}/c/liblibc_c.a"]
        with open(f"{BUILT}/{it.name}.log", "a") as log:
            return subprocess.run(
                words, stdin=subprocess.DEVNULL, stdout=log, stderr=log
            ).returncode

    def give_up(self, it, status):
        log = f"{BUILT}/{it.name}.log"
        said = read(log).decode(errors="replace")
        if status == 2 and "Usage: rattle" in said:
            raise OtherWords
        sys.stderr.write("".join(said.splitlines(True)[-20:]))
        refuse(f"{it.name} is not proved: all that was said is in {log}")

    def release_place(self, it):
        shutil.rmtree(f"{it.place}.new", ignore_errors=True)

    def release(self, it):
        it.lock.close()
        it.lock, it.is_waiting = None, False

    def end(self):
        """Ends all processes that are left. Each is in a group of the kit's, with those that it
        started."""
        left = [it for it in self.tasks if it.process]
        for it in left:
            with contextlib.suppress(ProcessLookupError):
                group = os.getpgid(it.process.pid)
                os.kill(it.process.pid, signal.SIGKILL) if group == os.getpgrp() else os.killpg(
                    group, signal.SIGKILL
                )
        for it in left:
            it.process.wait()
            self.release_place(it)


def by_rt(top):
    """Builds by rt, over what it keeps in out/, and returns the file that was made."""
    folder = f"{TOP}/crates/{top}"
    is_program = os.path.isfile(f"{folder}/src/main.rt")
    # rt builds a program where it runs it, so it runs the one that needs no file.
    words = ["rt", "run", "--cpu", CPU, "--", "-h"] if is_program else ["rt", "lib", "--cpu", CPU]
    with open(f"{BUILT}/{top}.log", "w") as log:
        ran = subprocess.run(words, cwd=folder, stdin=subprocess.DEVNULL, stdout=log, stderr=log)
    if ran.returncode:
        sys.stderr.write("".join(read(log.name).decode(errors="replace").splitlines(True)[-20:]))
        refuse(f"{top} is not proved: all that was said is in {log.name}")
    return f"{folder}/out/{top if is_program else f'lib{top}.a'}"


def build(top):
    """Returns the file that was made of the crate."""
    # Libraries that rt kept in out/ have a stamp and hold their proofs, so only rt builds over
    # them.
    if os.environ.get("AFTER_CI") and glob.glob(f"{TOP}/crates/*/out/rlib/stamp"):
        return by_rt(top)
    made = None
    try:
        made = Build(top, make_store())
        return made.run()
    except OtherWords:
        say("this kit takes other words than build.py knows, so rt builds, which takes longer")
        if made:
            made.end()
        return by_rt(top)
    finally:
        for it in (signal.SIGHUP, signal.SIGINT, signal.SIGTERM):
            signal.signal(it, signal.SIG_IGN)
        if made:
            made.end()


def main(top, file):
    for it in (signal.SIGHUP, signal.SIGINT, signal.SIGTERM):
        signal.signal(it, lambda *_: sys.exit(255))
    try:
        os.makedirs(BUILT, exist_ok=True)
        # If two builds run at the same time, the second waits, and finds all proved.
        lock = open(f"{BUILT}/lock", "w")
    except OSError as error:
        refuse(f"{error.filename} cannot be made, so nothing can be built: {error.strerror}")
    try:
        fcntl.flock(lock, fcntl.LOCK_EX | fcntl.LOCK_NB)
    except BlockingIOError:
        say("another build is at work in this folder: waiting for that")
        fcntl.flock(lock, fcntl.LOCK_EX)
    # The file's time is that of the build's beginning, so a source that changes meanwhile is newer.
    with open(f"{BUILT}/begun", "w") as begun:
        begun.write("\n")
    begun = os.stat(f"{BUILT}/begun")
    made = build(top)
    shutil.copy(made, f"{file}.new")
    os.utime(f"{file}.new", ns=(begun.st_mtime_ns, begun.st_mtime_ns))
    os.rename(f"{file}.new", file)
    shrink(make_store())


if __name__ == "__main__":
    try:
        main(*sys.argv[2:])
    except OSError as error:
        refuse(f"{error.filename or BUILT}: {error.strerror}")
