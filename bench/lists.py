"""Revocation lists (PROTOCOL.krl) of every shape, at about a given size in bytes."""

import os
import random
import struct
import sys

from measure import TOP

sys.path.append(os.path.join(TOP, "tests", "lib"))
from wire import HEADER, bitmap, certificates, serials, span, string

# Bytes of one section at the most, and of one bitmap: OpenSSH reads none that is larger.
PIECE = 1 << 16
BITMAP = 1 << 11


def key(number):
    """The blob of an Ed25519 key that is made from a number."""
    return string(b"ssh-ed25519") + string(struct.pack(">Q", number) + bytes(24))


def pieces(items, count):
    return (items[at : at + count] for at in range(0, len(items), count))


def of_serials(numbers):
    """A list of these serials under all authorities, in this order."""
    parts = (serials(*part) for part in pieces(numbers, PIECE // 8))
    return HEADER + certificates(b"", *parts)


def of_strings(section, strings):
    parts = pieces([string(it) for it in strings], 1024)
    return HEADER + b"".join(section + string(b"".join(part)) for part in parts)


def random_serials(size):
    source = random.Random(size)
    return of_serials([source.randrange(1, 1 << 64) for _ in range(size // 8)])


def odd_serials(size):
    return of_serials(range(1, size // 4, 2))


def falling_serials(size):
    return of_serials(range(size // 4 - 1, 0, -2))


def alternating_serials(size):
    """Odd serials, the lowest and the highest in turn."""
    rising, falling = range(1, size // 4, 2), range(size // 4 - 1, 0, -2)
    return of_serials([it for pair in zip(rising, falling) for it in pair][: size // 8])


def ranges(size):
    source = random.Random(size)
    starts = [source.randrange(1, 1 << 63) for _ in range(size // 21)]
    return HEADER + certificates(b"", *(span(lo, lo + 999) for lo in starts))


def bitmaps(size):
    """Each second serial, in large bitmaps."""
    content = b"\x55" * BITMAP
    parts = (bitmap(1 + 8 * BITMAP * at, content) for at in range(size // BITMAP))
    return HEADER + certificates(b"", *parts)


def small_bitmaps(size, step):
    """Bitmaps of eight bytes, at offsets that rise or fall."""
    count = size // 25
    offsets = [1 + 128 * at for at in range(count)][::step]
    return HEADER + certificates(b"", *(bitmap(offset, b"\x55" * 8) for offset in offsets))


def rising_bitmaps(size):
    return small_bitmaps(size, 1)


def falling_bitmaps(size):
    return small_bitmaps(size, -1)


def ids(size):
    source = random.Random(size)
    names = [b"user-%012x" % source.randrange(1 << 48) for _ in range(size // 21)]
    parts = (b"\x23" + string(b"".join(map(string, part))) for part in pieces(names, 1024))
    return HEADER + certificates(b"", *parts)


def authorities(size):
    """Many authorities, each with one serial."""
    numbers = shuffled(size // 81)
    return HEADER + b"".join(certificates(key(it), serials(it + 1)) for it in numbers)


def shuffled(count):
    numbers = list(range(count))
    random.Random(count).shuffle(numbers)
    return numbers


def keys(size):
    return of_strings(b"\2", [key(number) for number in shuffled(size // 55)])


def hashes(section, width, size):
    source = random.Random(size)
    return of_strings(section, [source.randbytes(width) for _ in range(size // (4 + width))])


def sha1s(size):
    return hashes(b"\3", 20, size)


def sha256s(size):
    return hashes(b"\5", 32, size)


SERIALS = {
    "random serials": random_serials,
    "odd serials, rising": odd_serials,
    "odd serials, falling": falling_serials,
    "serials from both ends": alternating_serials,
    "ranges": ranges,
    "bitmaps of each second serial": bitmaps,
    "small bitmaps, rising": rising_bitmaps,
    "small bitmaps, falling": falling_bitmaps,
}

SHAPES = {
    **SERIALS,
    "key IDs": ids,
    "many authorities": authorities,
    "explicit keys": keys,
    "SHA-1 hashes": sha1s,
    "SHA-256 hashes": sha256s,
}
