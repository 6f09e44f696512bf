"""Scans trees that are there, beside the model of places.py.

    python3 tests/lib/scanned/given.py

These are the folders of this repository, and at most 3,000 files of /usr/share, from each of its
folders alike many. The list revokes keys of the repository, as OpenSSH says.
The environment may name another build of krl in KRL, and OpenSSH's ssh-keygen in OPENSSH.
"""

import os
import subprocess
import sys
import tempfile

sys.dont_write_bytecode = True
sys.path.append(os.path.join(os.path.dirname(os.path.abspath(__file__)), ".."))
import places
import trial
from findings import LONGEST, Run, Wanted

OPENSSH = os.environ.get("OPENSSH", "ssh-keygen")
FOLDERS = ["completions", "crates", "demo", "docs", "examples", "library", "packaging", "tests"]
# A build writes there.
LEFT_OUT = ["out", "__pycache__"]
REVOKED = ["demo/alice.pub", "demo/ca.pub", "demo/audit/etc/ssh/ssh_host_ed25519_key.pub"]
MOST_FILES, MOST_BYTES = 3000, 100 << 20


def compared(tests, name, paths, wanted, *options):
    """Judges runs as text and as JSON over paths, of which this is wanted."""
    for form in [("-a",), ("-a", "--json")]:
        run = Run(LIST, paths, form + options)
        tests.judge("%s: krl audit %s" % (name, " ".join(form)), run.differences(wanted))


def of_repository(tests, answers):
    wanted = Wanted(answers, True, [os.fsencode(it) for it in LEFT_OUT])
    paths = [os.fsencode(os.path.join(trial.TOP, it)) for it in FOLDERS]
    for it in paths:
        wanted.tree(it)
    options = [word for it in LEFT_OUT for word in ("--exclude", it)]
    compared(tests, "the repository", paths, wanted, *options)
    few = [it for it in ("revoked", "keys") if getattr(wanted, it) < 3]
    tests.judge("it has keys, of which some are revoked", few)


def files_of(top):
    """Regular files below a directory, with names that can be read, some of each folder in turn."""
    folders = [
        sorted(
            path
            for path in (os.path.join(folder, it) for it in names)
            if not os.path.islink(path) and os.path.isfile(path) and os.access(path, os.R_OK)
        )
        for folder, _, names in os.walk(os.fsencode(top))
    ]
    size = 0
    for at in range(max(map(len, folders), default=0)):
        for names in folders:
            if at < len(names):
                size += min(os.path.getsize(names[at]), LONGEST)
                if size > MOST_BYTES:
                    return
                yield names[at]


def of_system(tests, answers, room):
    paths = [path for _, path in zip(range(MOST_FILES), files_of("/usr/share"))]
    with open(room + "/names", "wb") as out:
        out.write(b"".join(it + b"\0" for it in paths))
    wanted = Wanted(answers, True)
    for it in paths:
        wanted.file(it)
    name = "%d files of /usr/share" % len(paths)
    compared(tests, name, [], wanted, "--files0-from", room + "/names")


def main():
    global LIST
    tests = trial.Tests()
    with tempfile.TemporaryDirectory() as room:
        LIST = room + "/r.krl"
        keys = [os.path.join(trial.TOP, it) for it in REVOKED]
        subprocess.run([OPENSSH, "-q", "-k", "-f", LIST, *keys], check=True)
        answers = places.Answers(OPENSSH, LIST, room)
        of_repository(tests, answers)
        of_system(tests, answers, room)
    tests.end()


if __name__ == "__main__":
    main()
