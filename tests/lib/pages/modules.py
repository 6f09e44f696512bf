"""The files and names that the crates' pages and docs/ARCHITECTURE.md cite, sought in the crates.

    modules.py TOP

Each line of the output is a name that is not there. Read are the section "Inside" of each crate's
page, and SECTIONS of the map. The picture at the beginning of the map has each crate of a program,
and what a crate uses is below it or to its right.
"""

import glob
import os
import re
import sys

TOP = sys.argv[1]
CRATES = os.path.join(TOP, "crates")
NAME = r"`([\w./]+)`"
SECTIONS = (
    "Where to change what",
    "How a stranger's text is shown",
    "The words of a fault",
    "The lock of a list",
)


def text(path):
    with open(path) as file:
        return file.read()


def section(page, heading):
    """The lines below a heading, up to the next one."""
    found = re.search(r"(?ms)^## %s\n(.*?)(?=^## |\Z)" % heading, page)
    return found[1] if found else ""


def units(text):
    """The last column of each row of a section, and each of its other paragraphs and list items."""
    for block in re.split(r"\n(?=\||\d+\. |\n)", text):
        yield block.rstrip("| \n").split(" | ")[-1] if block.startswith("|") else block


def misplaced(picture, uses):
    """What is wrong with the picture of the map."""
    place = {}
    for at, name in enumerate(re.findall(r"\w+", picture)):
        place.setdefault(name, at)
    for name in uses:
        if name not in place:
            yield name + " is not in the picture"
        for other in uses[name]:
            if name in place and other in place and place[other] < place[name]:
                yield "%s is not below %s" % (other, name)


class Crate:
    def __init__(self, name):
        self.folder = os.path.join(CRATES, name)
        self.files = set()
        self.names = set()
        for path in glob.glob(os.path.join(self.folder, "*", "**", "*.*"), recursive=True):
            if not path.endswith((".rt", ".antt")):
                continue
            self.files.add(os.path.basename(path).split(".")[0])
            if path.endswith(".rt"):
                kinds = r"\b(?:fn|struct|enum|trait|type|const|static) (\w+)"
            else:
                kinds = r"(?m)^(?:unfoldable |abbrev )?(?:pub )?(?:record |data )?([\w-]+)"
            self.names |= set(re.findall(kinds, text(path)))

    def has(self, name):
        return (
            name in self.files | self.names
            or os.path.exists(os.path.join(self.folder, name))
            or os.path.exists(os.path.join(self.folder, "src", name + ".rt"))
        )


def main():
    every = {name: Crate(name) for name in os.listdir(CRATES)}
    known = text(os.path.join(TOP, "crates.txt"))
    libraries = set(re.findall(r"\w+", known))
    sought = 0
    places = []
    for name, crate in sorted(every.items()):
        page = os.path.join(crate.folder, "README.md")
        if os.path.exists(page):
            places.append((page, [crate], section(text(page), "Inside")))
    page = os.path.join(TOP, "docs", "ARCHITECTURE.md")
    for heading in SECTIONS:
        words = section(text(page), heading)
        around = [every[it] for it in re.findall(NAME, words) if it in every]
        for unit in units(words):
            crates = [every[it] for it in re.findall(NAME, unit) if it in every]
            places.append((page, crates or around, unit))
        if not words:
            print("  %s: no section %s" % (os.path.relpath(page, TOP), heading))
    for page, crates, words in places:
        for name in re.findall(NAME, words):
            sought += 1
            if name.endswith("/") or name in libraries or os.path.exists(os.path.join(TOP, name)):
                continue
            # What the standard library names, and the file of a lock.
            if name == "Display" or name.startswith("."):
                continue
            is_type = name[0].isupper()
            if not any(it.has(name) for it in (every.values() if is_type else crates)):
                print("  %s: %s" % (os.path.relpath(page, TOP), name))
    uses = dict(re.findall(r"(?m)^(\w+)(?: staticlib)?:(.*)$", known))
    left = re.compile(r".*_tests|test_fixtures|text_laws|span_vec")
    uses = {it: uses[it].split() for it in uses if not left.fullmatch(it)}
    uses = {it: [other for other in uses[it] if other in uses] for it in uses}
    picture = re.search(r"(?ms)^```text\n(.*?)^```", text(page))
    for fault in misplaced(picture[1] if picture else "", uses):
        print("  %s: %s" % (os.path.relpath(page, TOP), fault))
    if sought < 100:
        print("  only %d names were found" % sought)


main()
