"""The options of the tasks of krl: those of its manual page and of the README, beside its help.

    forms.py PROGRAM MANUAL README

Each line of the output is an option that one of them has and another has not, or with another value.
The help of a task also has -h and -V, which the manual page has once. The README leaves out the form
of a check with --print-version.
"""

import re
import subprocess
import sys

PROGRAM, MANUAL, README = sys.argv[1:]
OPTION = re.compile(r"^ +(?:(-\w)(?:, )?)?(?:--([\w-]+))?(?: <([^>]+)>)?(?:\.\.\.)?(?:  |$)")


def spelled(letter, long, value):
    return (letter or "--" + long) + (" " + value if value else "")


def of_help(task):
    ran = subprocess.run([PROGRAM, task, "--help"], capture_output=True, text=True, check=True)
    lines = ran.stdout.partition("\nOptions:\n")[2].partition("\n\n")[0].splitlines()
    found = [it.groups() for it in map(OPTION.match, lines) if it and it[0].strip()]
    return {spelled(*it) for it in found if it[1] not in ("help", "version")}


def options_in(forms):
    """The options of forms of use, in plain text: [-aq] [--json] -f krl."""
    found = set()
    for dashes, name, value in re.findall(r"(?<=[\s\[])(--?)([\w-]+)(?: ([\w-]+)(?=[\]\s]))?", forms):
        if dashes == "--":
            found.add(spelled(None, name, value))
        elif len(name) == 1:
            found.add(spelled("-" + name, None, value))
        else:
            found |= {"-" + it for it in name}
    return found


def of_manual(task):
    with open(MANUAL, encoding="utf-8") as page:
        synopsis = page.read().partition("\n.Sh SYNOPSIS\n")[2].partition("\n.Sh ")[0]
    forms = []
    for form in synopsis.split(".Nm krl\n")[1:]:
        words = [re.sub(r"^\.(Op )?|\b(Fl|Ar|Cm) ", lambda it: {"Fl": "-"}.get(it[2], ""), line)
                 for line in form.splitlines()]
        if words[0] == task:
            # A letter behind Fl has a hyphen by now, and the rest of a line may be more words.
            forms += ["[" + it + "]" for it in words[1:]]
    return options_in(" " + " ".join(forms) + " ")


def of_readme(task):
    with open(README, encoding="utf-8") as page:
        block = page.read().partition("\n## Options\n")[2].partition("\n| ")[0]
    forms = re.sub(r"\n +\[", " [", block)
    return options_in(" ".join(it for it in forms.splitlines() if it.startswith("    krl %s " % task)))


def main():
    for task in "audit", "logins", "check", "show", "make", "diff":
        wanted = of_help(task)
        if not wanted:
            print("  the help of krl %s has no options" % task)
        for page, found in (MANUAL, of_manual(task)), (README, of_readme(task)):
            if page == README:
                found |= {"--print-version"} & wanted
            for it in sorted(wanted ^ found):
                where = ("the help", page) if it in wanted else (page, "the help")
                print("  krl %s %s is in %s, and not in %s" % (task, it, *where))


main()
