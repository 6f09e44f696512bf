"""The names that the tables of docs/THEOREMS.md and docs/theorems/ cite, sought in the crates.

    cited.py TOP

Each line of the output is a name that is not there. A name is a public function, a type, the name
of a clause, a definition of specs/, or a crate. Each name that a row cites is looked up in the
crates that the section's heading, or the name itself, gives; definitions also in the other crates.
docs/THEOREMS.md also has a link to each page of docs/theorems/.
"""

import glob
import os
import re
import sys

TOP = sys.argv[1]
CRATES = os.path.join(TOP, "crates")
INDEX = os.path.join("docs", "THEOREMS.md")


def texts(crate, part):
    """The files of a part of a crate."""
    for folder, _, names in os.walk(os.path.join(CRATES, crate, part)):
        for name in names:
            if name.endswith((".rt", ".antt")):
                with open(os.path.join(folder, name)) as file:
                    yield os.path.relpath(os.path.join(folder, name), CRATES), file.read()


class Crate:
    def __init__(self, name):
        self.name = name
        source = dict(texts(name, "src"))
        specs = dict(texts(name, "specs"))
        whole = "\n".join(source.values())
        page = source.get(name + "/src/lib.rt", source.get(name + "/src/main.rt", ""))
        exported = set(re.findall(r"\w+", " ".join(re.findall(r"(?s)\bpub use [^;]*;", page))))
        self.types = set(re.findall(r"\bpub (?:struct|enum|trait|type) (\w+)", whole)) & exported
        self.functions = (
            set(re.findall(r"(?m)^pub (?:unsafe )?(?:extern \"C\" )?fn (\w+)", whole)) & exported
        )
        self.laws = set()
        if re.search(r"\bpub mod laws;", page):
            laws = (text for path, text in source.items() if "/src/laws" in path)
            self.laws = set(re.findall(r"(?m)^pub fn (\w+)", "\n".join(laws)))
        self.methods = set()
        for text in source.values():
            self.methods |= methods(text)
        # A type that is an alias of another one has its methods.
        for other, one in re.findall(r"\bpub type (\w+)[^=;]*= (\w+)", whole):
            self.methods |= {(other, name) for it, name in self.methods if it == one}
        self.clauses = set(re.findall(r"\b(?:ensures|requires|law|ghost) (\w+) [{=]", whole))
        self.definitions = set()
        for text in specs.values():
            self.definitions |= set(re.findall(r"\bpub (?:record |data )?(\w+)\b", text))
            # The fields of a record, and the cases of a definition by cases.
            self.definitions |= set(re.findall(r"(?m)^  (?:pub )?(\w+) :", text))
        if re.search(r"(?m)^%s staticlib:" % name, open(os.path.join(TOP, "crates.txt")).read()):
            # A function that C calls is exported by its symbol.
            self.functions = set(re.findall(r"\bfn (krl_\w+)", whole))


def methods(text):
    """The pairs of a type or a trait and a function that a block of a file gives it."""
    found = set()
    head = r"(?m)^(?:pub )?(?:impl(?:<[^{]*?>)? (?:[^{]*? for )?|trait )(\w+)[^{]*\{"
    for block in re.finditer(head, text):
        end = re.search(r"(?m)^\}", text[block.end() :])
        body = text[block.end() : block.end() + (end.start() if end else 0)]
        is_trait = "trait " in block.group(0)
        # Before a trait's name stands the type's, where the block is of both.
        for name in re.findall(r"(?m)^    %sfn (\w+)" % ("" if is_trait else "(?:pub )?"), body):
            found.add((block.group(1), name))
    return found


def spread(cited):
    """`a::{b, c}_d` as a::b_d and a::c_d."""
    group = re.search(r"\{([^}]*)\}", cited)
    if not group:
        return [cited]
    return [
        cited[: group.start()] + it.strip() + cited[group.end() :]
        for it in group.group(1).split(",")
    ]


def stands(name, crates, every):
    """Whether one of these crates has the name."""
    parts = name.split("::")
    if parts[0] in every:
        crates, parts = [every[parts[0]]], parts[1:]
        if not parts:
            return True
    if parts[-1].endswith("*"):
        start = parts[-1].rstrip("*")
        return any(it.startswith(start) for crate in crates for it in crate.functions)
    if parts[0] == "laws":
        return any((len(parts) == 1 and crate.laws) or parts[-1] in crate.laws for crate in crates)
    if len(parts) == 2:
        return any(parts[0] in crate.types and tuple(parts) in crate.methods for crate in crates)
    it = parts[0]
    return any(
        it in crate.types | crate.functions | crate.clauses | crate.definitions for crate in crates
    ) or any(it in crate.definitions for crate in every.values())


def rows(paths):
    """The page, the line, the heading and the last column of each row of the tables of pages."""
    for path in paths:
        heading = ""
        with open(os.path.join(TOP, path)) as page:
            for number, line in enumerate(page, 1):
                if line.startswith("#"):
                    heading = line
                elif line.startswith("| ") and not line.startswith("|---"):
                    yield path, number, heading, line.rstrip().rstrip("|").split(" | ")[-1]


def main():
    names = [
        it for it in sorted(os.listdir(CRATES)) if os.path.isdir(os.path.join(CRATES, it, "src"))
    ]
    every = {
        name: Crate(name)
        for name in names
        if not name.endswith("_tests") and name != "test_fixtures"
    }
    with open(os.path.join(TOP, INDEX)) as page:
        index = page.read()
    pages = sorted(glob.glob(os.path.join(TOP, "docs", "theorems", "*.md")))
    pages = [os.path.relpath(it, TOP) for it in pages]
    for path in pages:
        if "(theorems/%s)" % os.path.basename(path) not in index:
            print("  %s has no link to %s" % (INDEX, path))
    cited = 0
    for path, number, heading, column in rows([INDEX, *pages]):
        if "`" not in heading:
            continue
        crates = [every[it] for it in re.findall(r"`(\w+)`", heading) if it in every] or list(
            every.values()
        )
        for name in re.findall(r"`([^`]+)`", column):
            # Files, commands, and what the standard library names.
            if re.match(r"(docs|tests|specs)/|make ", name) or name == "Display":
                continue
            for one in spread(name):
                cited += 1
                if not stands(one, crates, every):
                    print("  %s, line %d: %s" % (path, number, one))
    if cited < 10:
        print("  only %d names were found" % cited)


main()
