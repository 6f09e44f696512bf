"""Which bytes are the blob of a plain key in its one spelling (docs/FORMATS.md, Public keys), and
keys of every kind, right and wrong, at random."""

import struct

from wire import string, strings

LONGEST = 1 << 16
CURVES = {b"nistp256": 65, b"nistp384": 97, b"nistp521": 133}


def is_number(part):
    """A number above zero, without a needless zero byte before it."""
    if part[:1] == b"\0":
        return len(part) > 1 and part[1] >= 0x80
    return bool(part) and part[0] < 0x80


def is_point_of(curve):
    return lambda part: len(part) == CURVES[curve] and part[0] == 4


def is_application(part):
    return b"\0" not in part


def is_any_of_32(part):
    return len(part) == 32


def is_the_curve(curve):
    return lambda part: part == curve


def ecdsa(curve):
    return [is_the_curve(curve), is_point_of(curve)]


# The fields of each type of key, after its name.
FIELDS = {
    b"ssh-rsa": [is_number] * 2,
    b"ssh-dss": [is_number] * 4,
    **{b"ecdsa-sha2-" + curve: ecdsa(curve) for curve in CURVES},
    b"ssh-ed25519": [is_any_of_32],
    b"sk-ecdsa-sha2-nistp256@openssh.com": ecdsa(b"nistp256") + [is_application],
    b"sk-ssh-ed25519@openssh.com": [is_any_of_32, is_application],
}


def parts_of(blob):
    """The strings that a blob consists of, or none where it does not."""
    parts, at = [], 0
    while at < len(blob):
        if at + 4 > len(blob):
            return None
        size = struct.unpack_from(">I", blob, at)[0]
        if at + 4 + size > len(blob):
            return None
        parts.append(blob[at + 4 : at + 4 + size])
        at += 4 + size
    return parts


def is_key(blob):
    parts = parts_of(blob) if len(blob) <= LONGEST else None
    fields = FIELDS.get(parts[0]) if parts else None
    if fields is None or len(fields) != len(parts) - 1:
        return False
    return all(is_right(part) for is_right, part in zip(fields, parts[1:]))


# ---- at random


def number(source, size):
    """A number of this many bytes, with the zero byte that its highest bit wants."""
    first = source.randrange(1, 256)
    return b"\0" * (first >> 7) + bytes([first]) + source.randbytes(size - 1)


def field(source, kind, is_right):
    """A right one. Which curve a point is on, the type of the key says."""
    if is_right is is_number:
        return number(source, source.choice([1, 3, 64, 128, 129]))
    if is_right is is_any_of_32:
        return source.randbytes(32)
    if is_right is is_application:
        some = [b"ssh:", b"", "ssh:\u00e9".encode(), source.randbytes(3).strip(b"\0")]
        return source.choice(some)
    curve = kind[11:19] if kind[:1] == b"e" else b"nistp256"
    return curve if is_right(curve) else b"\4" + source.randbytes(CURVES[curve] - 1)


def key(source, kinds=None):
    """The blob of a key of one of these kinds."""
    kind = source.choice(list(kinds or FIELDS))
    return strings(kind, *(field(source, kind, it) for it in FIELDS[kind]))


def misspelt(source):
    """Bytes that are nearly a key: each is none, or is one by chance."""
    parts = parts_of(key(source))
    at = source.randrange(len(parts))
    part = parts[at]
    parts[at] = source.choice(
        [b"\0" + part, part + b"\0", part[:-1], part[1:], b"", b"\xff" + part, part.upper()]
    )
    whole = strings(*parts)
    return source.choice([whole, whole, whole[:-1], whole + b"\0", whole + string(b"")])


def other_bytes(source):
    return source.choice([b"x", b"all", b"\0", source.randbytes(source.randrange(1, 40))])


def long_key(source, size):
    """The blob of an RSA key, this many bytes long."""
    return strings(b"ssh-rsa", b"\3", b"\x7f" + source.randbytes(size - 21))


def blob(source, certificate):
    """The bytes of a key or a certificate authority: mostly a key, and never no bytes."""
    sort = source.randrange(20)
    if sort < 12:
        return key(source)
    if sort < 16:
        return misspelt(source)
    if sort == 16:
        return certificate
    if sort == 17 and source.random() < 0.1:
        return long_key(source, LONGEST + source.randrange(2))
    return other_bytes(source)
