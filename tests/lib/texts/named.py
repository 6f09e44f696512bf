"""What lists name: a model of lists (PROTOCOL.krl) and of their texts (krl(1), THE TEXT OF A LIST)
that shares nothing with the program."""

import base64
import datetime
import hashlib
import re
import struct
import unicodedata

from texts import days
from texts.keys import FIELDS, is_key, parts_of

MAGIC = b"SSHKRL\n\0"
# The first second of the year 9999.
YEAR_9999 = 253_370_764_800
# Unicode's bidirectional controls, and its line and paragraph separators.
MOVING = "\u061c\u200e\u200f\u2028\u2029\u202a\u202b\u202c\u202d\u202e\u2066\u2067\u2068\u2069"
# The types of certificates.
CERTIFICATES = {it.replace(b"@openssh.com", b"") + b"-cert-v01@openssh.com" for it in FIELDS}


class Named:
    """Serial numbers and key IDs by the bytes of their certificate authority, which has none where
    they count for all of them; keys, and hashes of keys."""

    def __init__(self):
        self.serials = {}
        self.ids = {}
        self.keys, self.sha1s, self.sha256s = set(), set(), set()

    def add_serials(self, authority, least, most):
        """Serial number 0 names no certificate."""
        if max(least, 1) <= most:
            self.serials.setdefault(authority, []).append((max(least, 1), most))

    def add_id(self, authority, text):
        self.ids.setdefault(authority, set()).add(text)

    def add(self, other):
        """All that another one names."""
        for authority, spans in other.serials.items():
            self.serials.setdefault(authority, []).extend(spans)
        for authority, texts in other.ids.items():
            self.ids.setdefault(authority, set()).update(texts)
        self.keys |= other.keys
        self.sha1s |= other.sha1s
        self.sha256s |= other.sha256s

    def spans(self, authority):
        """Its serial numbers, as the fewest spans that rise."""
        spans = []
        for least, most in sorted(self.serials.get(authority, [])):
            if spans and least <= spans[-1][1] + 1:
                spans[-1][1] = max(spans[-1][1], most)
            else:
                spans.append([least, most])
        return [tuple(it) for it in spans]

    def authorities(self):
        """Those with a serial number or a key ID, by their bytes."""
        return sorted(set(self.serials) | set(self.ids))

    def facts(self):
        """All that is named, in the order in which it is shown. Each fact is a tuple of what it
        is, its authority if it has one, and its value."""
        for authority in self.authorities():
            yield "ca", authority
            yield from (("serial", authority, span) for span in self.spans(authority))
            yield from (("id", authority, it) for it in sorted(self.ids.get(authority, [])))
        yield from (("key", it) for it in sorted(self.keys))
        yield from (("SHA1", it) for it in sorted(self.sha1s))
        yield from (("SHA256", it) for it in sorted(self.sha256s))

    def __eq__(self, other):
        return list(self.facts()) == list(other.facts())

    def without(self, other):
        """What is named here and not there."""
        lost = Named()
        for authority in self.authorities():
            for least, most in left_of(self.spans(authority), other.spans(authority)):
                lost.add_serials(authority, least, most)
            for it in self.ids.get(authority, set()) - other.ids.get(authority, set()):
                lost.add_id(authority, it)
        lost.keys = self.keys - other.keys
        lost.sha1s, lost.sha256s = self.sha1s - other.sha1s, self.sha256s - other.sha256s
        return lost

    def counts(self):
        """How many authorities, serial numbers, key IDs, keys and hashes there are."""
        serials = sum(
            most - least + 1 for it in self.authorities() for least, most in self.spans(it)
        )
        return (
            len(self.authorities()),
            serials,
            sum(map(len, self.ids.values())),
            len(self.keys),
            len(self.sha1s) + len(self.sha256s),
        )

    def revokes(self, key, authority=None, serial=0, key_id=b""):
        """Whether a key is revoked, or its certificate by an authority."""
        if any(it is not None and self.names_key(it) for it in (key, authority)):
            return True
        return authority is not None and any(
            key_id in self.ids.get(it, ())
            or any(least <= serial <= most for least, most in self.spans(it))
            for it in (b"", authority)
        )

    def names_key(self, blob):
        hashes = hashlib.sha1(blob).digest(), hashlib.sha256(blob).digest()
        return blob in self.keys or hashes[0] in self.sha1s or hashes[1] in self.sha256s


def left_of(spans, others):
    """The parts of spans that rise, without those of others that rise."""
    for least, most in spans:
        for first, last in others:
            if first <= most and least <= last:
                if least < first:
                    yield least, first - 1
                least = last + 1
        if least <= most:
            yield least, most


# ---- lists


class Reader:
    """Fields, one after the other."""

    def __init__(self, content):
        self.left = content

    def take(self, size):
        if size > len(self.left):
            raise ValueError("the list is truncated")
        part, self.left = self.left[:size], self.left[size:]
        return part

    def byte(self):
        return self.take(1)[0]

    def number(self, form):
        return struct.unpack(form, self.take(struct.calcsize(form)))[0]

    def string(self):
        return self.take(self.number(">I"))


def read_bitmap(named, authority, reader):
    offset, bits = reader.number(">Q"), int.from_bytes(reader.string(), "big")
    digits = bin(bits)[:1:-1]
    for at, digit in enumerate(digits):
        if digit == "1":
            named.add_serials(authority, offset + at, offset + at)


def read_certificates(named, content):
    reader = Reader(content)
    authority = reader.string()
    reader.string()
    while reader.left:
        sort, inner = reader.byte(), Reader(reader.string())
        if sort == 0x20:
            while inner.left:
                serial = inner.number(">Q")
                named.add_serials(authority, serial, serial)
        elif sort == 0x21:
            named.add_serials(authority, inner.number(">Q"), inner.number(">Q"))
        elif sort == 0x22:
            read_bitmap(named, authority, inner)
        elif sort == 0x23:
            while inner.left:
                named.add_id(authority, inner.string())
        elif sort != 0x39:
            raise ValueError("a subsection of type %d" % sort)


def read_list(content):
    """The version, the date and the comment of a list, and what it names."""
    reader, named = Reader(content), Named()
    if reader.take(8) != MAGIC or reader.number(">I") != 1:
        raise ValueError("it does not begin as a list")
    header = reader.number(">Q"), reader.number(">Q")
    reader.take(8)
    reader.string()
    header += (reader.string(),)
    blobs = {2: named.keys, 3: named.sha1s, 5: named.sha256s}
    while reader.left:
        sort = reader.byte()
        if sort == 1:
            read_certificates(named, reader.string())
        elif sort in blobs:
            blobs[sort].update(parts_of(reader.string()))
        elif sort == 4:
            reader.string()
            reader.string()
        elif sort == 255:
            reader.string()
        else:
            raise ValueError("a section of type %d" % sort)
    return header, named


def read_keys(content):
    """What a plain list of keys names, each of which has a line of its own."""
    named = Named()
    for line in content.splitlines():
        named.keys.add(base64.b64decode(line.split()[1]))
    return named


# ---- texts


def coded(content):
    return base64.b64encode(content).decode()


def unpadded(digest):
    return coded(digest).rstrip("=")


def fingerprint(blob):
    return "SHA256:" + unpadded(hashlib.sha256(blob).digest())


def of_blob(label, blob):
    if not is_key(blob):
        return "%s-blob: %s" % (label, coded(blob))
    return "%s: %s %s # %s" % (label, parts_of(blob)[0].decode(), coded(blob), fingerprint(blob))


def of_serials(span):
    least, most = span
    return "serial: %d" % least if least == most else "serial: %d-%d" % span


def begins_as_key(text):
    word, *rest = re.split(b"[ \t]", text)
    return bool(rest) and (word in FIELDS or word in CERTIFICATES)


def is_quoted(text):
    return len(text) > 1 and any(text[0] == text[-1] == it for it in b"\"'")


def looks_otherwise(text):
    """Whether it would be taken for a key, for a key ID between quotes, for several, or for one
    with a last day."""
    return begins_as_key(text) or is_quoted(text) or b", " in text or days.is_said(text)


def of_id(text):
    plain = all(0x20 <= it < 0x7F and it != 0x23 for it in text)
    if plain and text and text == text.strip(b" ") and not looks_otherwise(text):
        return "id: " + text.decode()
    return "id-hex: " + text.hex()


def name_of(fact, names):
    """The name of the authority of a fact, if it has one. Keys and hashes have no authority."""
    return names.get(fact[1]) if fact[0] in ("ca", "serial", "id") else None


def line_of(fact, names={}):
    """The line of a fact, by the names of authorities, of which none has one mostly."""
    kind, value = fact[0], fact[-1]
    name = name_of(fact, names)
    if kind == "ca":
        return of_blob("@" + name if name else "ca", value) if value else "ca: all"
    mark = "@%s " % name if name else ""
    if kind == "serial":
        return mark + of_serials(value)
    if kind == "id":
        return mark + of_id(value)
    if kind == "key":
        return of_blob("key", value)
    return "hash: %s:%s" % (kind, unpadded(value))


def lines_of(named, names={}):
    """The lines that name it."""
    return [line_of(fact, names) for fact in named.facts()]


# ---- changes


def marked(mark, named, names={}):
    """The lines of what one of two lists names, each authority without the mark."""
    return [("  " if fact[0] == "ca" else mark) + line_of(fact, names) for fact in named.facts()]


def changes(old, new, names={}):
    """The lines of what only the new one names, and then of what only the old one does."""
    return marked("+ ", new.without(old), names) + marked("- ", old.without(new), names)


def lost(name, named, other_name, other, names={}):
    """The lines about a list that is to name all that another one names."""
    lines = marked("- ", other.without(named), names)
    count = sum(line.startswith("- ") for line in lines)
    if not lines:
        return []
    entries = "1 entry is" if count == 1 else "%d entries are" % count
    return [*lines, "lost: %s: %s not in %s" % (other_name, entries, name)]


# ---- the line about a list


def visible(content, escaped=""):
    """A text with control characters by their numbers, the bytes of those that move text likewise,
    and some others behind a backslash."""
    try:
        text, numbered = content.decode(), lambda it: unicodedata.category(it) == "Cc"
    except UnicodeDecodeError:
        text, numbered = content.decode("latin-1"), lambda it: not " " <= it <= "~"

    def shown(it):
        numbers = it.encode() if it in MOVING else [ord(it)] * numbered(it)
        return "".join("\\x%02x" % byte for byte in numbers) or "\\" * (it in escaped) + it

    return "".join(map(shown, text))


def date(seconds):
    if seconds >= YEAR_9999:
        return "@%d" % seconds
    moment = datetime.datetime(1970, 1, 1) + datetime.timedelta(seconds=seconds)
    return moment.strftime("%Y-%m-%dT%H:%M:%SZ")


def first_line(name, header):
    """The comment about a list of this name, or about a plain list, which has no header."""
    if header is None:
        return "# %s: a plain list" % visible(name)
    version, seconds, comment = header
    said = ", " + visible(comment) if comment else ""
    return "# %s: version %d, %s%s" % (visible(name), version, date(seconds), said)


# ---- objects


def text_field(name, content):
    """A text, in base64 where it is no UTF-8."""
    try:
        return {name: content.decode()}
    except UnicodeDecodeError:
        return {name + "_base64": coded(content)}


def object_of(fact, names={}):
    """The object of a fact. An authority has none of its own."""
    kind, value = fact[0], fact[-1]
    if kind == "key":
        return {"key": fingerprint(value)}
    if kind in ("SHA1", "SHA256"):
        return {"hash": "%s:%s" % (kind, unpadded(value))}
    authority = {"ca": fingerprint(fact[1]) if fact[1] else "all"}
    if name_of(fact, names):
        authority["name"] = name_of(fact, names)
    if kind == "serial":
        return {**authority, "serial": [str(it) for it in value]}
    return {**authority, **text_field("id", value)}


def objects_of_facts(named, names={}):
    return [object_of(it, names) for it in named.facts() if it[0] != "ca"]


def objects_of(name, header, named, names={}):
    first = {"list": name}
    if header is not None:
        version, seconds, comment = header
        first.update(version=str(version), generated=date(seconds))
        first.update(text_field("comment", comment))
    return [first, *objects_of_facts(named, names)]


def object_of_counts(counts):
    """That of serial numbers is a string, since it may be above 2^53, and above 2^64 too."""
    cas, serials, ids, keys, hashes = counts
    return {"cas": cas, "serials": str(serials), "ids": ids, "keys": keys, "hashes": hashes}


def last_object(lists):
    """The counts of all lists."""
    totals = map(sum, zip(*(named.counts() for named in lists)))
    return {"status": "done", "lists": len(lists), **object_of_counts(totals)}


def objects_of_changes(old, new, names={}):
    """Those of the lines that say what changed, and the counts of each side."""
    sides = {"added": new.without(old), "removed": old.without(new)}
    objects = [
        {"change": it, **each} for it in sides for each in objects_of_facts(sides[it], names)
    ]
    counts = {it: object_of_counts(sides[it].counts()) for it in sides}
    return [*objects, {"status": "done", **counts}]


# ---- the line of krl make

NOUNS = ["CA", "serial number", "key ID", "key", "hashed key"]


def amounts(counts):
    """How many there are of each kind."""
    return ", ".join(
        "%d %s%s" % (count, noun, "" if count == 1 else "s")
        for count, noun in zip(counts, NOUNS)
        if count
    )


def said(name, version, named, lost=None, over=0):
    """The line about a list that was made, where only the list before it names what is lost, and
    this many lines of its texts are over."""
    line = "krl make: %s: version %d: %s" % (name, version, amounts(named.counts()) or "nothing")
    counts = lost.counts()[1:] if lost else [0]
    if any(counts):
        verb = "is" if sum(counts) == 1 else "are"
        line += "; %s %s no longer revoked" % (amounts([0, *counts]), verb)
    if over:
        line += "; 1 entry is over" if over == 1 else "; %d entries are over" % over
    return line
