"""Lists at random, with every kind of name, section and subsection, and what they name."""

import hashlib
import struct

from files import AUTHORITY, SEVENTH
from texts.keys import blob, is_key
from texts.named import MAGIC, Named
from wire import HIGHEST, bitmap, section, serials, span, string, strings

# Key IDs that a line has as they are, and others.
WORDS = [b"bob", b"alice@example.org", b"a b  c", b"ca: all", b"serial: 5", b"0", b"\\x23", b"all"]
WORDS += [b"ssh-rsa", b"ssh-rsa: a", b"ssh-ed25519-cert-v01@openssh.com"]
WORDS += [b'"', b"'", b'"bob', b"bob'", b"'a' b", b"\"a'", b"CN=bob,OU=ops", b"a,", b",b", b"a ,b"]
WORDS += [b"until", b"until tomorrow", b"bob until 2027-1-01", b"until the 2027-01-01", b"2027-01-01"]
WORDS += [b"until 12027-01-01", b"until-2027-01-01", b"unti 2027-01-01", b"2027-01-01 until"]
AWKWARD = [
    b"",
    b" ",
    b" bob",
    b"bob ",
    b"\tbob",
    b"bob\r",
    b"eve#1",
    b"#",
    b"a #b",
    b"a\nid: b",
    b"a\0b",
    b"ssh-rsa AAAA",
    b"ssh-ed25519-cert-v01@openssh.com of bob",
    b'"bob"',
    b"'bob'",
    b'""',
    b"''",
    b'"a" b "c"',
    b"a, b",
    b", b",
    b"Doe, John",
    b'"a", "b"',
    b"'a', b",
    b"bob until 2027-01-01",
    b"until2027-02-30",
    b"not-UNTIL : = 0000-00-00, or so",
    b"untiluntil=9999-99-999",
    b"\"bob until 2027-01-01\"",
    b"bob until\t2027-01-01",
    "Zo\u00eb".encode(),
    "\u009f".encode(),
    b"Zo\xeb",
    b"\x7f",
    b"long " * 60 + b"!",
]


class Pool:
    """What lists are made of. They share it, so that several of them name the same."""

    def __init__(self, source):
        self.source = source
        self.blobs = [blob(source, SEVENTH) for _ in range(300)]
        self.keys = [it for it in self.blobs if is_key(it)]
        self.authorities = self.blobs
        self.ids = WORDS + AWKWARD + [source.randbytes(source.randrange(1, 9)) for _ in range(60)]
        self.ids += [b"user-%d" % at for at in range(60)]
        self.under = UNDER + [some_extension]
        self.sections = SECTIONS + [lambda pool, named: some_extension(pool, named, sort=255)]
        self.signed = 0.1
        self.current = []

    def begin(self):
        """A list, or a text, has entries under a few authorities."""
        self.current = [b"", *self.source.sample(self.authorities, 4)]

    def authority(self):
        return self.source.choice(self.current)

    def serial(self):
        """Mostly a small number, and now and then one that is near the least or the most."""
        sort = self.source.randrange(12)
        if sort == 0:
            return self.source.choice([0, 1, 2, HIGHEST - 1, HIGHEST, 1 << 63, (1 << 32) - 1])
        if sort < 3:
            return self.source.randrange(HIGHEST + 1)
        return self.source.randrange(400)

    def hash_of(self, digest):
        if self.source.random() < 0.5:
            return digest(self.source.choice(self.blobs)).digest()
        return self.source.randbytes(digest().digest_size)


# ---- lists


def some_serials(pool, named, authority):
    numbers = [pool.serial() for _ in range(pool.source.randrange(12))]
    for it in numbers:
        named.add_serials(authority, it, it)
    return serials(*numbers)


def some_span(pool, named, authority):
    least = pool.serial()
    most = min(HIGHEST, pool.source.choice([least, least + pool.source.randrange(300), HIGHEST]))
    if least == most or pool.source.random() < 0.9:
        most = min(most, least + 1000)
    named.add_serials(authority, least, most)
    return span(least, most)


def some_bits(pool, named, authority):
    """A bitmap, which may lead with zero bytes."""
    source = pool.source
    size = source.choice([1, 2, 3, 20, 200])
    bits = int.from_bytes(source.randbytes(size), "big") & source.choice([HIGHEST, (1 << 1600) - 1])
    offset = min(pool.serial(), HIGHEST - max(bits.bit_length() - 1, 0))
    for at in range(bits.bit_length()):
        if bits >> at & 1:
            named.add_serials(authority, offset + at, offset + at)
    content = bits.to_bytes(bits.bit_length() // 8 + 1, "big")
    return bitmap(offset, source.choice([b"", b"", b"\0\0"]) + content)


def some_ids(pool, named, authority):
    texts = [pool.source.choice(pool.ids) for _ in range(pool.source.randrange(5))]
    for it in texts:
        named.add_id(authority, it)
    return section(0x23, strings(*texts))


def some_extension(pool, named, authority=None, sort=0x39):
    return section(sort, strings("name"), b"\0", strings("contents"))


UNDER = [some_serials, some_serials, some_span, some_span, some_bits, some_ids, some_ids]


def some_certificates(pool, named):
    authority = pool.authority()
    parts = [pool.source.choice(pool.under) for _ in range(pool.source.choice([0, 1, 1, 2, 3, 6]))]
    inner = b"".join(part(pool, named, authority) for part in parts)
    reserved = pool.source.choice([b"", b"reserved"])
    return section(1, strings(authority, reserved), inner)


def some_keys(pool, named):
    blobs = [pool.source.choice(pool.blobs + [b""]) for _ in range(pool.source.randrange(4))]
    named.keys.update(blobs)
    return section(2, strings(*blobs))


def some_hashes(sort, digest, of):
    def sections(pool, named):
        hashes = [pool.hash_of(digest) for _ in range(pool.source.randrange(4))]
        of(named).update(hashes)
        return section(sort, strings(*hashes))

    return sections


SECTIONS = [
    some_certificates,
    some_certificates,
    some_certificates,
    some_keys,
    some_hashes(3, hashlib.sha1, lambda named: named.sha1s),
    some_hashes(5, hashlib.sha256, lambda named: named.sha256s),
]


def header(pool):
    """The bytes of a header, and its version, its date and its comment."""
    source = pool.source
    version = source.choice([0, 1, 7, HIGHEST, source.randrange(1 << 40)])
    date = source.choice([0, source.randrange(1 << 32), source.randrange(1 << 38), HIGHEST])
    comment = source.choice([b"", b"", b"of May", b"a\x1b", source.choice(pool.ids)])
    content = struct.pack(">IQQQ", 1, version, date, source.randrange(HIGHEST + 1))
    content = MAGIC + content + strings(source.choice([b"", b"reserved"]), comment)
    return content, (version, date, comment)


def some_list(pool):
    """The bytes of a list, the facts of its header, and what it names."""
    named = Named()
    pool.begin()
    content, facts = header(pool)
    for _ in range(pool.source.choice([0, 1, 2, 5, 10])):
        content += pool.source.choice(pool.sections)(pool, named)
    if pool.source.random() < pool.signed:
        content += section(4, AUTHORITY) + string(b"signature")
    return content, facts, named
