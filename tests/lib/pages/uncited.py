"""The lemmas of the crates' proofs that nothing cites.

    uncited.py TOP

Each line of the output is a lemma whose name stands nowhere but in its own lines. Files that answer
goals are not read for lemmas, since the prover asks for these by their names.
"""

import glob
import os
import re
import sys
from collections import Counter

TOP = sys.argv[1]
CRATES = os.path.join(TOP, "crates")
GOALS = ("Answers.antt", "Invariants.antt", "Proof.antt", "Lib.antt")
WORD = re.compile(r"[^\s(){}.,;:=λ→×∷`]+")
LEMMA = re.compile(r"(?m)^(?:abbrev |unfoldable )?(?:pub )?([^\s:()]+) :")


def read(path):
    """A file's text without its comments."""
    with open(path) as file:
        text = file.read()
    return re.sub(r"(?m)--.*$" if path.endswith(".antt") else r"(?m)//.*$", "", text)


def main():
    paths = glob.glob(os.path.join(CRATES, "*", "*", "**", "*.*"), recursive=True)
    texts = {
        path: read(path)
        for path in sorted(paths)
        if path.endswith((".rt", ".antt")) and "/out/" not in path
    }
    used = Counter()
    for text in texts.values():
        used.update(WORD.findall(text))
    sought = 0
    for path, text in texts.items():
        if "/proofs/" not in path or path.endswith(GOALS):
            continue
        # A lemma and its proof are lines without an empty one between them.
        for block in re.split(r"\n\s*\n", text):
            own = Counter(WORD.findall(block))
            for name in LEMMA.findall(block):
                sought += 1
                if used[name] <= own[name]:
                    print(f"{os.path.relpath(path, TOP)}: nothing cites {name}")
    if not sought:
        print("no lemma was found")


main()
