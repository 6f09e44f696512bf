"""Texts at random, as people write them, and a reader of them (krl(1), THE TEXT OF A LIST) that
shares nothing with the program. It knows of each line what it says, and finds out what all texts of
a command name, or which line is refused and why."""

import hashlib
import re

from files import AUTHORITY, CERT, certificate
from texts import days, faults
from texts.at_random import WORDS
from texts.keys import is_key, key
from texts.named import Named, coded, fingerprint, line_of, of_blob, unpadded, visible
from wire import HIGHEST

# The names of authorities: some are nearly the same, and some look like something else.
NEARLY = ["user-ca", "User-CA", "usr-ca", "user-cb", "users-ca", "suer-ca", "user_ca", "USER-C"]
OTHERS = ["hosts", "a", "b", "A.1", "-", "_", "...", "ALL", "al", "0", "serial", "id", "ca", "key"]
OTHERS += ["cert-authority", "revoked", "x" * 64, "y" * 63]
# What may be before a line.
FRONTS = ["", "", " ", "\t\r "]


# ---- what lines say


class Reading:
    """What the texts of a command name on a day, all together and in each line that has an entry,
    and how many of their lines are over, up to the first line that is refused: the index of its
    text, its number and the words about it. A text is the name of its file and its lines."""

    def __init__(self, *texts, today=days.TODAY):
        self.texts, self.today = texts, today
        self.named, self.names, self.over, self.refused = Named(), {}, 0, None
        self.entries = []
        for at, (file, lines) in enumerate(texts):
            self.current = None
            for number, line in enumerate(lines, 1):
                self.place = place(file, number)
                self.own = Named()
                fault = line.say(self)
                if fault is not None:
                    self.refused = at, number, self.words(line, fault)
                    return
                self.named.add(self.own)
                if list(self.own.facts()):
                    self.entries.append(Entry(file, number, line.written, self.own))

    def names_by_key(self):
        """The names of each authority that has some, in the order of their bytes."""
        found = {}
        for name in sorted(self.names, key=str.encode):
            found.setdefault(self.names[name][0], []).append(name)
        return found

    def named_by_key(self):
        """The name of each authority that has one: of several the first one by its bytes."""
        return {it: names[0] for it, names in self.names_by_key().items()}

    def words(self, line, fault):
        line = undated(line)
        if fault == faults.OTHER_KEY:
            return faults.other_key(line.name, self.names[line.name][1])
        if fault == faults.UNKNOWN_NAME:
            return faults.unknown_name(line.name, self.nearest(line.name))
        return faults.words(fault, line.written)

    def nearest(self, name):
        """This name, or otherwise the first one that is nearly the same, and its place. It may be
        given later."""
        given = [
            (line.name, place(file, number))
            for file, lines in self.texts
            for number, line in enumerate(lines, 1)
            if isinstance(line, Naming) and faults.can_be_meant(line.name)
        ]
        near = [it for it in given if faults.is_near(name, it[0])]
        return next((it for it in near if it[0] == name), near[0] if near else None)


class Entry:
    """A line that has an entry, and what it names by itself."""

    def __init__(self, file, number, written, named):
        self.file, self.number, self.written, self.named = file, number, written, named


def place(file, number):
    return "%s, line %d" % (visible(file.encode()), number)


class Line:
    """A line that says nothing."""

    def __init__(self, written):
        self.written = written

    def say(self, reading):
        """Says to the reading what the line says, or returns its fault."""


class OfAuthority(Line):
    """The authority of the serial numbers and key IDs that follow."""

    def __init__(self, written, authority):
        super().__init__(written)
        self.authority = authority

    def say(self, reading):
        reading.current = self.authority


class Naming(Line):
    """The name of an authority from here on, in all texts that follow."""

    def __init__(self, written, name, authority):
        super().__init__(written)
        self.name, self.authority = name, authority

    def say(self, reading):
        authority, _ = reading.names.setdefault(self.name, (self.authority, reading.place))
        return None if authority == self.authority else faults.OTHER_KEY


class Under(Line):
    """Serial numbers or a key ID, which the function adds under an authority."""

    def __init__(self, written, add):
        super().__init__(written)
        self.add = add

    def say(self, reading):
        if reading.current is None:
            return faults.NO_AUTHORITY
        self.add(reading.own, reading.current)
        return None


class Marked(Line):
    """A line of serial numbers or of a key ID behind the name of their authority. The one that is
    current stays so."""

    def __init__(self, written, name, line):
        super().__init__(written)
        self.name, self.line = name, line

    def say(self, reading):
        authority = b""
        if self.name != "all":
            if self.name not in reading.names:
                return faults.UNKNOWN_NAME
            authority, _ = reading.names[self.name]
        current, reading.current = reading.current, authority
        fault = self.line.say(reading)
        reading.current = current
        return fault


class Alone(Line):
    """A key, a hash or a certificate, which the function adds. It ends the authority."""

    def __init__(self, written, add, is_certificate=False):
        super().__init__(written)
        self.add, self.is_certificate = add, is_certificate

    def say(self, reading):
        self.add(reading.own)
        reading.current = None


class Dated(Line):
    """A line behind its last day. Once the day is over it names nothing, and does all else."""

    def __init__(self, written, day, line):
        super().__init__(written)
        self.day, self.line = day, line

    def say(self, reading):
        if self.day >= reading.today:
            return self.line.say(reading)
        fault = self.line.say(reading)
        reading.own = Named()
        reading.over += fault is None
        return fault


def undated(line):
    return line.line if isinstance(line, Dated) else line


class Wrong(Line):
    """A line with a fault. Where it needs an authority, the lack of one is its first fault."""

    def __init__(self, written, fault, needs):
        super().__init__(written)
        self.fault, self.needs = fault, needs

    def say(self, reading):
        return faults.NO_AUTHORITY if self.needs and reading.current is None else self.fault


# ---- right lines


def cased(source, word):
    return "".join(source.choice([it.lower(), it.upper()]) for it in word)


def numeral(source, number):
    """A hexadecimal number may have zeros behind its 0x. No other one begins with a zero."""
    return source.choice(["%d", "%d", "%d", "0x%x", "0X%X", "0x00%x"]) % number


def as_written(source, line, some=tuple(days.COMMENTS)):
    """A line as people write it, often with one of some comments. What it says is the same."""
    word, colon, value = line.partition(": ")
    if colon and " " not in word:
        if word[0] != "@" and source.random() < 0.3:
            word = cased(source, word)
        line = word + ":" + source.choice([" ", " ", "", "\t "]) + value
    line = source.choice(FRONTS) + line
    return line + source.choice(["", "", " ", "\r", source.choice(some), "\t# a # b", " #"])


def an_authority(pool):
    return of_authority(pool, pool.authority())


def of_authority(pool, authority):
    """Given by its bytes, or as it is in a .pub file."""
    line = "ca: all"
    if authority and pool.source.random() < 0.3:
        line = "ca-blob: " + coded(authority)
    elif authority:
        line = of_blob("ca", authority).partition(" # ")[0]
    return OfAuthority(as_written(pool.source, line, days.WITH_DAY), authority)


def naming(pool, name, authority):
    """The line that gives an authority this name. The comment of its key says nothing."""
    line = of_blob("@" + name, authority).partition(" # ")[0]
    line += pool.source.choice(["", "", " me@home", " a: b", " @user-ca: c"])
    return Naming(as_written(pool.source, line, days.WITH_DAY), name, authority)


def marked(pool, name, line):
    """A line behind the name of its authority."""
    mark = pool.source.choice(FRONTS) + "@" + name + pool.source.choice([" ", " ", "\t", " \t "])
    return Marked(mark + line.written.lstrip(" \t\r"), name, line)


def a_serial(pool):
    least = max(pool.serial(), 1)
    most = min(HIGHEST, least + pool.source.choice([0, 0, 1, 100, HIGHEST]))
    value = numeral(pool.source, least)
    if least != most or pool.source.random() < 0.2:
        hyphen = pool.source.choice(["-", " - ", "\t-"])
        value += hyphen + numeral(pool.source, most)
    return Under(
        as_written(pool.source, "serial: " + value),
        lambda named, authority: named.add_serials(authority, least, most),
    )


def an_id(pool):
    text = pool.source.choice([it for it in pool.ids if b"\0" not in it])
    digits = text.hex()
    line = "id-hex: " + pool.source.choice([digits, digits.upper()])
    if text in WORDS:
        line = "id: " + text.decode()
    return Under(
        as_written(pool.source, line), lambda named, authority: named.add_id(authority, text)
    )


def a_key(pool):
    """A key by its line, alone or with its word, by its bytes, or by a hash."""
    source = pool.source
    it = key(source) if source.random() < 0.5 else source.choice(pool.blobs)
    line = line_of(("key", it)).partition(" # ")[0]
    add = lambda named: named.keys.add(it)
    if line.startswith("key: "):
        line = line[5:] + source.choice(["", " me@home", " a: b"])
        word = source.choice(["", "key: ", "key-blob: ", "sha1: ", "sha256: ", "hash: "])
        if word == "sha1: ":
            add = lambda named: named.sha1s.add(hashlib.sha1(it).digest())
        elif word in ("sha256: ", "hash: "):
            add = lambda named: named.sha256s.add(hashlib.sha256(it).digest())
        if word == "key-blob: ":
            line = coded(it)
        line = word + (fingerprint(it) if word == "hash: " else line)
    return Alone(as_written(source, line), add)


def a_sha1(pool):
    digest = pool.hash_of(hashlib.sha1)
    line = as_written(pool.source, "hash: SHA1:" + unpadded(digest))
    return Alone(line, lambda named: named.sha1s.add(digest))


def a_certificate(pool):
    """It counts under its own authority. A key ID that it counts by may have any byte but zero."""
    serial = pool.source.choice([0, 7, HIGHEST])
    text = pool.source.choice([it for it in pool.ids if serial or b"\0" not in it])
    add = lambda named: named.add_id(AUTHORITY, text)
    if serial:
        add = lambda named: named.add_serials(AUTHORITY, serial, serial)
    line = "%s %s of a" % (CERT, coded(certificate(serial, text)))
    return Alone(as_written(pool.source, line), add, is_certificate=True)


def a_comment(pool):
    some = ["", "# ca: all", " \t\r", "#", "# key: a", "\r", pool.source.choice(days.WITH_DAY)]
    return Line(pool.source.choice(some))


# ---- last days


def before_day(pool):
    source = pool.source
    word = cased(source, "until") if source.random() < 0.3 else "until"
    return word + source.choice([" ", " ", "\t", " \t "])


def dated(pool, line, day=None):
    """A line behind its last day. Its comment may have another one."""
    source = pool.source
    day = day or days.near(source, pool.today)
    front = source.choice(FRONTS) + before_day(pool) + days.text(day)
    front += source.choice([" ", " ", "\t", " \t "]) + line.written.lstrip(" \t\r")
    return Dated(front + source.choice(["", "", *days.WITH_DAY]), day, line)


def can_end(line):
    return isinstance(line, (Under, Marked)) or isinstance(line, Alone) and line.is_certificate


def maybe_dated(pool, line):
    return dated(pool, line) if can_end(line) and pool.source.random() < 0.3 else line


def damaged(pool, line):
    """A line behind its last day, of which one letter is another one, missing or too much."""
    source, rest = pool.source, line.written.lstrip(" \t\r")
    front = before_day(pool) + days.text(days.near(source, pool.today))
    letter, at = source.choice("0123456789-/ \txut:="), source.randrange(len(front))
    front = front[:at] + source.choice(["", letter, letter + front[at]]) + front[at + 1 :]
    front += source.choice(["", " ", " ", "\t ", letter])
    content = (front + rest).lstrip(" \t")
    word = re.match("until[ \t]+", content, re.IGNORECASE)
    if not word:
        return Wrong(front + rest, faults.UNKNOWN_WORD, False)
    behind = content[word.end() :]
    day = days.in_calendar(behind[:10])
    if day is None or behind[10] not in " \t":
        return Wrong(front + rest, faults.BAD_DATE, False)
    return Dated(front + rest, day, line)


def commented(pool, line):
    """An entry with a day in its comment."""
    return Wrong(line.written + pool.source.choice(days.WITH_DAY), faults.DATE_IN_COMMENT, False)


ENTRIES = [a_serial, an_id]
BESIDE = [a_key, a_key, a_sha1, a_certificate]


def begin(pool):
    """A text has names for a few authorities, some of which other lines have too."""
    pool.begin()
    source = pool.source
    keys = [it for it in pool.current if is_key(it)] + source.sample(pool.keys, 2)
    names = source.sample(NEARLY, 2) + source.sample(OTHERS, 2)
    pool.names = {it: source.choice(keys) for it in names}
    pool.given = ["all"]
    pool.today = days.TODAY


def a_naming(pool):
    name = pool.source.choice(list(pool.names))
    pool.given.append(name)
    return naming(pool, name, pool.names[name])


def a_marked(pool):
    """An entry with one of the names that were given."""
    return marked(pool, pool.source.choice(pool.given), pool.source.choice(ENTRIES)(pool))


def right_text(pool):
    """The lines of a text in which each serial number and key ID has an authority."""
    lines, is_current = [], False
    begin(pool)
    for _ in range(pool.source.randrange(25)):
        sort = pool.source.randrange(14)
        some = [a_comment]
        if sort < 3:
            some, is_current = [an_authority], True
        elif sort < 7 and is_current:
            some = ENTRIES
        elif sort < 9:
            some, is_current = BESIDE, False
        elif sort < 11:
            some = [a_naming]
        elif sort < 13:
            some = [a_marked]
        lines.append(maybe_dated(pool, pool.source.choice(some)(pool)))
    return lines


def any_naming(pool):
    """Now and then it has the key of another authority."""
    name = pool.source.choice(list(pool.names))
    authority = pool.source.choice(pool.keys) if pool.source.random() < 0.1 else pool.names[name]
    return naming(pool, name, authority)


def any_marked(pool):
    """The name may be given later, or never."""
    name = pool.source.choice([*pool.names, "all"])
    return marked(pool, name, pool.source.choice(ENTRIES)(pool))


def any_text(pool):
    """Lines in any order, as those of several people that were appended or merged. Half of the
    texts have names, most of which are given at the beginning."""
    begin(pool)
    source = pool.source
    some = [an_authority, an_authority, *ENTRIES, *ENTRIES, source.choice(BESIDE), a_comment]
    lines = [an_authority(pool)] if source.random() < 0.8 else []
    if source.random() < 0.5:
        some += [any_naming] * 3 + [any_marked] * 10
        lines += [naming(pool, *it) for it in pool.names.items() if source.random() < 0.8]
    lines += [source.choice(some)(pool) for _ in range(source.randrange(10))]
    return [maybe_dated(pool, it) for it in lines]


def days_text(pool, today, most=20):
    """Lines with last days, mostly near the given one. In each third text some may be damaged."""
    begin(pool)
    source, pool.today = pool.source, today
    lines = [naming(pool, *it) for it in pool.names.items()] + [an_authority(pool)]
    odds = 0.15 if source.random() < 0.3 else 0
    for _ in range(source.randrange(1, most)):
        line = source.choice([*ENTRIES, any_marked, any_marked, a_certificate, *BESIDE])(pool)
        sort = source.random()
        if sort < odds:
            line = (damaged if can_end(line) and source.random() < 0.7 else commented)(pool, line)
        elif sort < 0.7 and can_end(line):
            line = dated(pool, line)
        lines.append(line)
        if isinstance(undated(line), Alone):
            lines.append(an_authority(pool))
    return lines


def with_more_names(pool, lines):
    """The lines, and a few more names among them, which no line has. Some authorities have several
    names then."""
    source = pool.source
    some = [it for it in NEARLY + OTHERS if it not in pool.names]
    for it in source.sample(some, source.randrange(1, 5)):
        pool.names[it] = source.choice([*pool.names.values(), *pool.keys])
        lines.insert(source.randrange(len(lines) + 1), naming(pool, it, pool.names[it]))
    return lines


# ---- texts that name the same


def in_three_forms(pool):
    """Texts that name the same: with a line of its authority before an entry, with its name in the
    same line, and the latter in any order behind the names. A text is in one piece or in two."""
    begin(pool)
    source = pool.source
    names = [naming(pool, *it) for it in pool.names.items()]
    under, alone, current = [], [], None
    for _ in range(source.randrange(20)):
        if source.random() < 0.2:
            line, current = maybe_dated(pool, source.choice(BESIDE)(pool)), None
            under.append(line)
            alone.append(line)
            continue
        name, entry = source.choice([*pool.names, "all"]), source.choice(ENTRIES)(pool)
        authority = pool.names.get(name, b"")
        if authority != current or source.random() < 0.2:
            under.append(of_authority(pool, authority))
        both = [entry, marked(pool, name, entry)]
        if source.random() < 0.3:
            day = days.near(source, pool.today)
            both = [dated(pool, it, day) for it in both]
        under.append(both[0])
        alone.append(both[1])
        current = authority
    shuffled = source.sample(names, len(names)) + source.sample(alone, len(alone))
    cut = source.randrange(len(shuffled) + 1)
    return [under], [names + alone], [shuffled[:cut], shuffled[cut:]]


def branches(pool):
    """A text, and what two people append to it: lines that need no other one but that of a name,
    which each of them gives where the text does not. Some lines are the same."""
    source, base = pool.source, right_text(pool)
    names = {it: naming(pool, it, authority) for it, authority in pool.names.items()}
    entries = [any_marked(pool) for _ in range(source.randrange(1, 12))]
    entries += [source.choice([*BESIDE, a_comment])(pool) for _ in range(source.randrange(4))]
    entries = [maybe_dated(pool, it) for it in entries]
    sides = []
    for _ in range(2):
        lines, given = [], set(pool.given)
        for it in source.sample(entries, source.randrange(len(entries) + 1)):
            name = getattr(undated(it), "name", "all")
            if name not in given:
                same = source.random() < 0.7
                lines.append(names[name] if same else naming(pool, name, pool.names[name]))
                given.add(name)
            lines.append(it)
        sides.append(lines)
    return base, sides
