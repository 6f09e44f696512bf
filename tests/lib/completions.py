"""The completions of zsh and fish beside what a program says of itself.

    completions.py SHELL FILE PROGRAM NAME [TASK]

SHELL is zsh or fish, FILE has its completions, and PROGRAM is called NAME there. Each line of the
output is an option that the shell offers and `PROGRAM [TASK] --help` has not, or the other way, an
option that takes a value in one of both alone, or words about an option that are not those with
which the help begins.
"""

import re
import subprocess
import sys

SHELL, FILE, PROGRAM, NAME, *TASK = sys.argv[1:]
OPTION = re.compile(r"^  (?:(-\w)(?:, )?)?(?:    )?(--[\w-]+)?(?: <([^>]+)>)?  +(\S.*)$")
SPEC = re.compile(r"^(?:\([^)]*\))?\*?(--?[\w-]+)([+=]?)\[([^\]]*)\]")


def of_help():
    """Each option of the help, with its words and whether it takes a value."""
    ran = subprocess.run([PROGRAM, *TASK, "--help"], capture_output=True, text=True, check=True)
    found = {}
    for line in ran.stdout.partition("\nOptions:\n")[2].partition("\n\n")[0].splitlines():
        it = OPTION.match(line)
        for name in filter(None, it.groups()[:2]):
            found[name] = (it[4], it[3] is not None)
    return found


def of_zsh():
    """What _arguments is called with, for the options of the task."""
    told = "_arguments() { print -rl -- \"$@\" }; _alternative() { : }; compdef() { : }; "
    told += 'source "$1" >/dev/null 2>&1; words=("$2"); '
    told += "_krl_task" if TASK else 'source "$1"'
    ran = subprocess.run(
        ["zsh", "-f", "-c", told, "zsh", FILE, *TASK], capture_output=True, text=True, check=False
    )
    found = {}
    for line in ran.stdout.splitlines():
        it = SPEC.match(line)
        if it:
            found[it[1]] = (it[3], bool(it[2]))
    return found


def fish(words):
    """What fish offers for the last of the words."""
    told = 'source $argv[1]; complete -C "$argv[2]"'
    ran = subprocess.run(
        ["fish", "--no-config", "-c", told, FILE, words], capture_output=True, text=True, check=False
    )
    return [line.partition("\t")[::2] for line in ran.stdout.splitlines()]


def of_fish():
    """The options that it offers, and whether it was told that they take a value."""
    offered = {}
    for dash in "-", "--":
        for name, words in fish(" ".join([NAME, *TASK, dash])):
            offered[name.rstrip("=")] = words
    told = 'source $argv[1]; complete -c "$argv[2]"'
    ran = subprocess.run(
        ["fish", "--no-config", "-c", told, FILE, NAME], capture_output=True, text=True, check=False
    )
    taking = set()
    for line in ran.stdout.splitlines():
        if re.search(r" --(require-parameter|exclusive|force-files) ", line):
            taking |= {"-" + it for it in re.findall(r" (?:-s|--short-option) '?(\w)", line)}
            taking |= {"--" + it for it in re.findall(r" (?:-l|--long-option) '?([\w-]+)", line)}
    return {name: (words, name in taking) for name, words in offered.items()}


def is_begun(words, help_words):
    """Whether these are the first words of the help. zsh begins in lower case."""
    return bool(words) and help_words.lower().startswith(words.lower())


def main():
    wanted, found = of_help(), of_zsh() if SHELL == "zsh" else of_fish()
    if len(wanted) < 3:
        print("  %s has no options" % PROGRAM)
    for name in sorted(wanted.keys() ^ found.keys()):
        print("  %s is only in %s" % (name, "the help" if name in wanted else SHELL))
    for name in sorted(wanted.keys() & found.keys()):
        if not is_begun(found[name][0], wanted[name][0]):
            print("  %s: %r, and not %r" % (name, found[name][0], wanted[name][0]))
        if found[name][1] != wanted[name][1]:
            print("  %s takes a value: %s, and not %s" % (name, found[name][1], wanted[name][1]))


main()
