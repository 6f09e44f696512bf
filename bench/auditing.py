"""Files of keys that are audited, beside the questions that answer the same."""

import os

import lists
import specs
from measure import AUDIT, OURS, build_audit, least, least_in_turn, own, plain_rust

FILES, KEYS = 10_000, 34_000
USERS = 10_000
LIST = 4 << 20
# The most bytes that a file may have.
LONGEST = 16 << 20


def tree(root):
    """Folders of home directories, each with an authorized_keys file of three keys or four. All
    files of it."""
    names = []
    for number in range(FILES):
        folder = os.path.join(root, "%03d" % (number // 100), "%02d" % (number % 100))
        os.makedirs(folder)
        names.append(os.path.join(folder, "authorized_keys"))
        first, end = number * KEYS // FILES, (number + 1) * KEYS // FILES
        with open(names[-1], "w") as out:
            out.writelines(specs.key_line((1 << 60) + it) for it in range(first, end))
    return names


def users(root):
    """Users with 20 files of a key each, half of them below their homes. The settings of an sshd
    that reads all of these, the users, and the names of the files, each ended by a zero byte."""
    homes = ["%s/home/u%d" % (root, number) for number in range(USERS)]
    below = [".k%d/keys" % number for number in range(10)]
    beside = ["%s/k%d/" % (root, number) for number in range(10)]
    for it in beside:
        os.makedirs(it)
    names = []
    for number, home in enumerate(homes):
        for it in below:
            os.makedirs(os.path.dirname("%s/%s" % (home, it)))
        names += ["%s/%s" % (home, it) for it in below] + ["%su%d" % (it, number) for it in beside]
    for number, name in enumerate(names):
        with open(name, "w") as out:
            out.write(specs.key_line((1 << 60) + number))
    with open("sshd", "w") as out:
        out.write("authorizedkeysfile %s %s\n" % (" ".join(below), "%u ".join(beside) + "%u"))
        out.write("trustedusercakeys none\nauthorizedkeyscommand none\n")
        out.write("revokedkeys %s\n" % os.path.abspath("list.krl"))
    with open("passwd", "w") as out:
        out.writelines("u%d:x:%d:1::%s:\n" % (it, it, home) for it, home in enumerate(homes))
    with open("names", "w") as out:
        out.writelines(name + "\0" for name in names)


def of_sshd():
    """An audit of what an sshd reads, beside one of the same files by their names."""
    users(os.path.abspath("of_sshd"))
    by_sshd, by_name = least_in_turn(
        [
            [AUDIT, "audit", "--sshd", "sshd", "--passwd", "passwd"],
            [AUDIT, "audit", "-f", "list.krl", "--files0-from", "names"],
        ]
    )
    ratio("%d users with 20 files each, by --sshd" % USERS, by_sshd, by_name)


def ratio(name, one, other):
    print("%-48s %6.2f %s" % (name, one[0] / other[0], own(one)), flush=True)


def auditing():
    """An audit reads the list once, and so does what prints it; a question about all keys reads it
    once more."""
    build_audit()
    walk = plain_rust("walk")
    print("%-48s %6s %15s" % ("krl audit", "ratio", "seconds, MiB"))
    names = tree("tree")
    for shape in ("random serials", "explicit keys", "many authorities"):
        with open("list.krl", "wb") as out:
            out.write(lists.SHAPES[shape](LIST))
        with open("all.pub", "w") as out:
            for name in names:
                with open(name) as part:
                    out.write(part.read())
        printed, asked, audited, walked = least_in_turn(
            [
                [OURS, "-Q", "-l", "-f", "list.krl"],
                [OURS, "-Q", "-f", "list.krl", "all.pub"],
                [AUDIT, "audit", "-f", "list.krl", "tree"],
                [walk, "tree"],
            ]
        )
        both = printed[0] + asked[0], printed[1]
        ratio("%d files, %d keys, 4 MiB of %s" % (FILES, KEYS, shape), audited, both)
        ratio("    the same files, read by plain Rust", walked, both)
        print(
            "%-48s %6.1f MiB more than -Q -l" % ("", (audited[1] - printed[1]) / 1024), flush=True
        )
    with open("list.krl", "wb") as out:
        out.write(lists.HEADER)
    of_sshd()
    with open("long.pub", "w") as out:
        out.write("#" * (LONGEST - 1))
    print(
        "%-48s %6s %s"
        % ("a line of 16 MiB", "", own(least([AUDIT, "audit", "-f", "list.krl", "long.pub"])))
    )
    for count in 250_000, 1_000_000:
        os.mkdir("many")
        for number in range(count):
            os.close(os.open("many/file %d" % number, os.O_CREAT))
        # A directory of which no file is taken would be reported as unread.
        with open("many/authorized_keys", "w") as out:
            out.write(specs.key_line(1 << 60))
        taken = least([AUDIT, "audit", "-f", "list.krl", "many"])
        print(
            "%-48s %6s %s" % ("a directory of %d files that are not read" % count, "", own(taken)),
            flush=True,
        )
        for entry in os.scandir("many"):
            os.remove(entry.path)
        os.rmdir("many")
