"""Lists that make a reader work the most for their bytes."""

import struct

from lists import BITMAP, HEADER, bitmap, certificates, key, of_strings, shuffled, span, string


def large_bitmaps(*contents, order=shuffled):
    """Bitmaps of 2,048 bytes, all with the one content and then all with the next, in an order."""

    def shape(size):
        count = size // (BITMAP + 17) // len(contents)
        parts = (bitmap(1 + 8 * BITMAP * at, bits) for bits in contents for at in order(count))
        return HEADER + certificates(b"", b"".join(parts))

    return shape


def far_apart(content):
    """Small bitmaps, each in windows of its own, in no order."""

    def shape(size):
        offsets = (1 + 1000 * at + 37 for at in shuffled(size // (17 + len(content))))
        return HEADER + certificates(b"", b"".join(bitmap(it, content) for it in offsets))

    return shape


def short_ids(size):
    """Key IDs of one byte: five bytes each, of which only 256 differ."""
    return HEADER + certificates(
        b"", b"\x23" + string(b"".join(string(bytes([at % 256])) for at in range(size // 5)))
    )


def three_byte_ids(size):
    """Key IDs of three bytes, in no order: the shortest that all differ."""
    numbers = shuffled(min(size // 7, 1 << 24))
    return HEADER + certificates(
        b"", b"\x23" + string(b"".join(string(struct.pack(">I", at)[1:]) for at in numbers))
    )


def two_byte_ids(count, falling=False):
    """Authorities of three bytes, each with `count` key IDs, in the order of their bytes or in
    reverse."""

    def shape(size):
        ids = sorted((struct.pack(">H", at) for at in range(count)), reverse=falling)
        part = b"\x23" + string(b"".join(map(string, ids)))
        number = size // len(certificates(b"abc", part))
        return HEADER + b"".join(
            certificates(struct.pack(">I", at)[1:], part) for at in range(number)
        )

    return shape


def empty_keys(size):
    return of_strings(b"\2", [b""] * (size // 4))


def short_keys(size):
    return of_strings(
        b"\2", [struct.pack(">I", at)[1:] for at in shuffled(min(size // 7, 1 << 24))]
    )


def short_authorities(size):
    """Authorities of three bytes, each with one serial."""
    serial = b"\x20" + string(struct.pack(">Q", 1))
    numbers = shuffled(min(size // 29, 1 << 24))
    return HEADER + b"".join(certificates(struct.pack(">I", at)[1:], serial) for at in numbers)


def same_authority(size):
    """One authority in a section for each serial."""
    return HEADER + b"".join(
        certificates(key(0), b"\x20" + string(struct.pack(">Q", 2 * at + 1)))
        for at in shuffled(size // 81)
    )


def under_authority(share):
    """Ranges that do not touch, in no order, under an authority that has a share of the bytes."""

    def shape(size):
        count = int(size * (1 - share)) // 21
        parts = (span(8 * at + 1, 8 * at + 3) for at in shuffled(count))
        return HEADER + certificates(bytes(int(size * share)), b"".join(parts))

    return shape


def long_comment(size):
    """A comment, and no entry."""
    return HEADER[:40] + string(b"c" * size)


def merged_ranges(size):
    """Ranges that do not touch, and one at the end that joins them all."""
    count = size // 21 - 1
    parts = [b"\x21" + string(struct.pack(">QQ", 8 * at + 1, 8 * at + 3)) for at in shuffled(count)]
    return HEADER + certificates(
        b"", b"".join(parts) + b"\x21" + string(struct.pack(">QQ", 1, 8 * count))
    )


def merged_one_by_one(size):
    """Each second serial, and then those between, so that each of these joins two intervals."""
    count = size // 16
    odd = struct.pack(">%dQ" % count, *range(1, 2 * count, 2))
    even = struct.pack(">%dQ" % count, *(2 * at + 2 for at in shuffled(count)))
    return HEADER + certificates(b"", b"\x20" + string(odd) + b"\x20" + string(even))


def empty_sections(size):
    """Sections and subsections without anything in them."""
    return HEADER + (
        certificates(b"", b"\x20" + string(b"") + b"\x23" + string(b"")) + b"\2" + string(b"")
    ) * (size // 28)


def lying_section(size):
    """A section that claims more bytes than the list has, of keys that fill it."""
    return HEADER + b"\2\xff\xff\xff\xff" + string(b"\0" * 60) * (size // 64)


def lying_key(size):
    return HEADER + b"\2\xff\xff\xff\xff" + b"\xff\xff\xff\xf0" + b"\0" * size


def lying_bitmap(size):
    length = struct.pack(">I", 0xFFFFFF00)
    inner = struct.pack(">I", 0xFFFFFF00 - 12)
    head = (
        b"\1\xff\xff\xff\xff"
        + string(b"")
        + string(b"")
        + b"\x22"
        + length
        + struct.pack(">Q", 1)
        + inner
    )
    return HEADER + head + b"\x55" * size


# The lists that take the most memory for a byte: many intervals in few bytes, or few in windows of
# their own.
BITMAPS = {
    "bitmaps of 0x55, in no order": large_bitmaps(b"\x55" * BITMAP),
    "bitmaps of 0x55, in order": large_bitmaps(b"\x55" * BITMAP, order=range),
    "bitmaps of 0x77, in no order": large_bitmaps(b"\x77" * BITMAP),
    "runs over each window's end": large_bitmaps(b"\x01\xff" * (BITMAP // 2)),
    "bitmaps of 8 bytes, far apart": far_apart(b"\x55" * 8),
    "bitmaps of 1 byte, far apart": far_apart(b"\x55"),
    "even bits, then odd ones": large_bitmaps(b"\x55" * BITMAP, b"\x2a" * BITMAP),
}

# A reader keeps a whole field in memory if it is longer than the buffer.
LONG = {"half of it one authority": under_authority(1 / 2), "all of it one comment": long_comment}

# Lists that are refused at their end.
LYING = {
    "a section that is not whole": lying_section,
    "a key that is not whole": lying_key,
    "a bitmap that is not whole": lying_bitmap,
}

SHAPES = {
    **BITMAPS,
    "key IDs of one byte": short_ids,
    "key IDs of three bytes": three_byte_ids,
    "2,048 key IDs an authority": two_byte_ids(2048),
    "the same, that fall": two_byte_ids(2048, falling=True),
    "20,000 key IDs an authority": two_byte_ids(20_000),
    "keys of no byte": empty_keys,
    "keys of three bytes": short_keys,
    "authorities of three bytes": short_authorities,
    "sections of one authority": same_authority,
    "ranges that one range joins": merged_ranges,
    "serials that fill gaps": merged_one_by_one,
    "sections of nothing": empty_sections,
    **LONG,
    **LYING,
}
