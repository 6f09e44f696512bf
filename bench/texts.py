"""Lists as texts: shown, made and compared, beside the commands that print and make the same
lists."""

import random
import subprocess

import lists
import specs
from files import AUTHORITY, certificate, line
from measure import AUDIT, OURS, build_audit, instructions, least_in_turn, own

LIST = 4 << 20
# Bytes of each of two lists that are compared.
COMPARED = 31 << 19
# Lines of each text with names, what they have, and how many names they have.
NAMED = 100000
NAMED_LINES = {
    "random serials": specs.random_serials,
    "ranges": specs.ranges,
    "key IDs": specs.ids,
}
NAMES = (1, 50)
# Last days: one to come, and one that is over.
DAYS = {"to come": "2999-12-31", "over": "1999-12-31"}
# Audited files, each of which has as many revoked keys as are printed one by one.
AUDITED, PRINTED = 50, 20
EXPLAINED_LINES = {**NAMED_LINES, "keys": specs.keys}
# Shapes whose entries differ if the sizes do, and those whose entries then are nearly the same.
PAIRS = ("random serials", "ranges", "key IDs", "many authorities", "explicit keys")


def head(name, other, more=""):
    print("%-48s %13s" % (name, "over " + other))
    print("%-48s %6s %6s %15s %s" % ("", "time", "memory", "seconds, MiB", more))


def row(name, ours, other, more=""):
    ratios = ours[0] / other[0], ours[1] / other[1]
    print("%-48s %6.2f %6.2f %s %s" % (name, *ratios, own(ours), more), flush=True)


def save(name, content):
    with open(name, "wb") as out:
        out.write(content)


def shown():
    head("krl show, 4 MiB", "-Q -l")
    for name, shape in lists.SHAPES.items():
        save("list.krl", shape(LIST))
        commands = [AUDIT, "show", "list.krl"], [OURS, "-Q", "-l", "-f", "list.krl"]
        row(name, *least_in_turn(commands))


def made():
    """The text has the lines of -k, below one for all authorities. On a machine that others use,
    times vary by more than the commands differ, so their instructions are compared as well, and
    each time is the least of 31."""
    head("krl make", "-k", "instructions")
    for name, (count, lines) in specs.MADE.items():
        (spec,) = specs.write(lines, count, 1)
        with open(spec) as given, open("text", "w") as out:
            out.write("ca: all\n" + given.read())
        commands = (
            [AUDIT, "make", "-q", "--replace", "-f", "made.krl", "text"],
            [OURS, "-k", "-f", "other.krl", "-z", "1", "-s", "none", spec],
        )
        make, other = (instructions(words) for words in commands)
        row(name, *least_in_turn(commands, 31), "%12.2f" % (make / other))


def named():
    """The text has a name before each entry. The other one has the same entries in the same order,
    those of each authority below one line of it."""
    head("krl make, a name before each entry", "ca: lines", "instructions")
    commands = [[AUDIT, *"make -q --replace -f made.krl".split(), it] for it in ("text", "other")]
    for count in NAMES:
        keys = [specs.key_line(at) for at in range(count)]
        for name, lines in NAMED_LINES.items():
            source = random.Random(count)
            entries = [(source.randrange(count), it) for it in lines(NAMED, source)]
            entries.sort(key=lambda it: it[0])
            with open("text", "w") as out:
                out.writelines("@ca-%d: %s" % it for it in enumerate(keys))
                out.writelines("@ca-%d %s" % it for it in entries)
            with open("other", "w") as out:
                for at, key in enumerate(keys):
                    out.write("ca: " + key)
                    out.writelines(line for of, line in entries if of == at)
            make, other = map(instructions, commands)
            what = "%d %s, %d name%s" % (NAMED, name, count, "s"[: count - 1])
            row(what, *least_in_turn(commands, 31), "%12.2f" % (make / other))


def dated():
    """The text has a last day before each entry. The other one has the same entries without."""
    head("krl make, a last day before each entry", "no last day", "instructions")
    command = [AUDIT, *"make -q --replace --allow-empty -f made.krl".split()]
    commands = [[*command, it] for it in ("text", "other")]
    for when, day in DAYS.items():
        for name, lines in NAMED_LINES.items():
            entries = list(lines(NAMED, random.Random(1)))
            with open("text", "w") as out:
                out.writelines(["ca: all\n", *("until %s %s" % (day, it) for it in entries)])
            with open("other", "w") as out:
                out.writelines(["ca: all\n", *entries])
            make, other = map(instructions, commands)
            what = "%d %s, %s" % (NAMED, name, when)
            row(what, *least_in_turn(commands, 31), "%12.2f" % (make / other))


def revoked_by(entry):
    """The line of a key or of a certificate that an entry revokes."""
    word, _, value = entry.partition(": ")
    if word == "serial":
        return line(certificate(int(value.split("-")[0]), b"nobody"))
    return line(certificate(1, value.strip().encode())) if word == "id" else entry


def explained():
    """Findings that are explained by the lines of a text, whether the list is made of it or given,
    beside the same audit by the list alone. So each figure is the price of the text. The last row
    of each kind adds up krl make and the audit by its list."""
    findings = AUDITED * PRINTED
    head("krl audit -t, %d findings in %d files" % (findings, AUDITED), "-f alone")
    files = ["audited-%d" % at for at in range(AUDITED)]
    make = [AUDIT, *"make -q --replace -f made.krl text".split()]
    for name, lines in EXPLAINED_LINES.items():
        entries = lines(NAMED, random.Random(1))
        with open("text", "w") as out:
            out.writelines(["ca: " + line(AUTHORITY), *entries])
        revoked = [revoked_by(it) for it in entries[:: NAMED // findings]]
        for at, file in enumerate(files):
            with open(file, "w") as out:
                out.writelines(revoked[at * PRINTED : (at + 1) * PRINTED])
        subprocess.run(make, check=True)
        audit = [AUDIT, "audit"]
        alone, text, beside, made = least_in_turn(
            [
                [*audit, "-f", "made.krl", *files],
                [*audit, "-t", "text", *files],
                [*audit, "-f", "made.krl", "-t", "text", *files],
                make,
            ]
        )
        what = "%d %s" % (NAMED, name)
        row(what + ", -t", text, alone)
        row(what + ", -f and -t", beside, alone)
        both = made[0] + alone[0], max(made[1], alone[1])
        row(what + ", -t beside krl make and -f", text, both)


def compared():
    """Two lists, beside both of them printed."""
    if subprocess.run([AUDIT, "help", "diff"], capture_output=True).returncode != 0:
        return
    head("krl diff, twice 15.5 MiB", "-Q -l")
    for name in PAIRS:
        save("old.krl", lists.SHAPES[name](COMPARED - (1 << 12)))
        save("new.krl", lists.SHAPES[name](COMPARED))
        printed = ([OURS, "-Q", "-l", "-f", it] for it in ("old.krl", "new.krl"))
        differ, *both = least_in_turn([[AUDIT, "diff", "old.krl", "new.krl"], *printed])
        times, memory = zip(*both)
        row(name, differ, (sum(times), max(memory)))


def texts():
    """Each figure is that of krl, divided by that of the other command."""
    build_audit()
    shown()
    made()
    named()
    dated()
    explained()
    compared()
