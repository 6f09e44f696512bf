"""The crates that crates.txt lists for a crate, and that none of its files uses.

    unused.py TOP [CRATES.TXT]

Each line of the output is a crate for which builds wait in vain.
"""

import glob
import os
import re
import sys

TOP = sys.argv[1]
LISTS = sys.argv[2] if len(sys.argv) > 2 else os.path.join(TOP, "crates.txt")
# The first name of a path, in a clause or a proof and in code.
USE = re.compile(r"\bRattle\.(\w+)\.|(?<!::)\b(\w+)::")


def read(path):
    """A file's text without its comments."""
    with open(path) as file:
        return re.sub(r"(?m)--.*$" if path.endswith(".antt") else r"(?m)//.*$", "", file.read())


def used_by(crate):
    names = set()
    for part in ("src", "specs", "proofs"):
        folder = os.path.join(TOP, "crates", crate, part)
        for path in glob.glob(os.path.join(folder, "**", "*.*"), recursive=True):
            for pair in USE.findall(read(path)):
                names.update(pair)
    return names


def main():
    with open(LISTS) as file:
        lines = re.findall(r"(?m)^(\w+)(?: staticlib)?:(.*)$", file.read())
    for crate, others in lines:
        used = used_by(crate)
        for other in others.split():
            if other not in used:
                print("  %s: %s" % (crate, other))
    if not lines:
        print("  no crate was found")


main()
