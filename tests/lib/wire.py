"""Bytes as the formats spell them: strings, and the parts of lists (PROTOCOL.krl)."""

import struct

HIGHEST = 2**64 - 1
# The header of a list of version 1, from the first second of 1970.
HEADER = b"SSHKRL\n\0" + struct.pack(">IQQQII", 1, 1, 0, 0, 0, 0)


def string(content):
    return struct.pack(">I", len(content)) + content


def strings(*contents):
    return b"".join(string(it if isinstance(it, bytes) else it.encode()) for it in contents)


def section(sort, *contents):
    """A section, or a subsection."""
    return bytes([sort]) + string(b"".join(contents))


def serials(*numbers):
    return section(0x20, struct.pack(">%dQ" % len(numbers), *numbers))


def span(least, most):
    return section(0x21, struct.pack(">QQ", least, most))


def bitmap(offset, bits):
    return section(0x22, struct.pack(">Q", offset), string(bits))


def certificates(authority, *subsections):
    return section(1, strings(authority, b""), *subsections)
