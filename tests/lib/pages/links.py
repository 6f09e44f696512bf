"""The links of pages in Markdown.

    links.py FOLDER

Each line of the output is a link of a page below the folder that leads to no file there, or to no
heading of its page.
"""

import os
import re
import sys

TOP = os.path.realpath(sys.argv[1])
LINK = re.compile(r"!?\[[^\]]*\]\(([^)\s]+)\)")


def text_of(path):
    """The text of a page without its code, where brackets are no links."""
    with open(path) as page:
        text = page.read()
    text = re.sub(r"(?ms)^```.*?^```", "", text)
    return re.sub(r"(?m)^    .*$", "", text)


def anchors(path):
    """What the headings of a page are called in links, as GitHub does it."""
    heads = re.findall(r"(?m)^#+ (.*)$", text_of(path))
    return {re.sub(r"[^\w\- ]", "", head.lower()).replace(" ", "-") for head in heads}


def faults(path):
    for target in LINK.findall(text_of(path)):
        if re.match(r"[a-z]+:", target):
            continue
        name, _, anchor = target.partition("#")
        to = os.path.normpath(os.path.join(os.path.dirname(path), name)) if name else path
        if not to.startswith(TOP + os.sep) or not os.path.exists(to):
            yield target
        elif anchor and anchor not in anchors(to):
            yield target


def pages():
    for at, folders, names in os.walk(TOP):
        folders[:] = [it for it in folders if it not in (".git", "built", "out")]
        yield from (os.path.join(at, name) for name in names if name.endswith(".md"))


def main():
    found = sorted(pages())
    for path in found:
        for target in faults(path):
            print("  %s: %s" % (os.path.relpath(path, TOP), target))
    if not found:
        print("  there are no pages")


main()
