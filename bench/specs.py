"""Key lines, and specification files of every shape."""

import base64
import random

import lists


def key_line(number):
    return "ssh-ed25519 %s key %d\n" % (base64.b64encode(lists.key(number)).decode(), number)


def random_serials(count, source):
    return ["serial: %d\n" % source.randrange(1, 1 << 64) for _ in range(count)]


def rising_serials(count, source):
    """Each second number or so, in order."""
    at, lines = 0, []
    for _ in range(count):
        at += source.randrange(2, 40)
        lines.append("serial: %d\n" % at)
    return lines


def each_number(step):
    """Each second number, each third and so on, in order."""
    return lambda count, _: ["serial: %d\n" % (1 + step * at) for at in range(count)]


def ranges(count, source):
    """Ten numbers in a row, at random places."""
    starts = (source.randrange(1, 1 << 48) for _ in range(count))
    return ["serial: %d-%d\n" % (at, at + 9) for at in starts]


def ids(count, source):
    return ["id: user-%012x\n" % source.randrange(1 << 48) for _ in range(count)]


def keys(count, source):
    return [key_line(source.randrange(1 << 64)) for _ in range(count)]


def dense_serials(count, source):
    """Half of the numbers from 1 on."""
    return ["serial: %d\n" % number for number in source.sample(range(1, 2 * count), count)]


def clustered_serials(count, source):
    """Fifty of a hundred numbers in a row, at random places."""
    lines = []
    for _ in range(count // 50):
        at = source.randrange(1, 1 << 48)
        lines += ["serial: %d\n" % (at + number) for number in source.sample(range(100), 50)]
    return lines


def neighbouring_serials(count, source):
    """Numbers that a busy authority gave within an hour: two to ten in a row, then a gap."""
    at, lines = 1, []
    while len(lines) < count:
        at += source.randrange(2, 200)
        for _ in range(source.randrange(2, 11)):
            lines.append("serial: %d\n" % at)
            at += 1
    return lines[:count]


SHAPES = {
    "dense": dense_serials,
    "sparse": random_serials,
    "clustered": clustered_serials,
    "in short rows": neighbouring_serials,
}

# The lines that lists are made of: their number and their shape.
MADE = {
    "200,000 random serials": (200000, random_serials),
    "200,000 rising serials": (200000, rising_serials),
    "each second of 400,000 serials": (200000, each_number(2)),
    "each third of 600,000 serials": (200000, each_number(3)),
    "each tenth of 2,000,000 serials": (200000, each_number(10)),
    "200,000 ranges": (200000, ranges),
    "200,000 key IDs": (200000, ids),
    "100,000 keys": (100000, keys),
}


def write(lines, count, files):
    """The names of a number of files, each with a number of lines, together lines of the shape."""
    every = lines(count * files, random.Random(count))
    names = ["spec%d" % at for at in range(files)]
    for at, name in enumerate(names):
        with open(name, "w") as out:
            out.writelines(every[at * count : (at + 1) * count])
    return names
