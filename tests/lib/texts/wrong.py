"""Texts with a wrong line, which has one of the faults of docs/FAULTS.md."""

import re

from files import AUTHORITY, CERT, OTHER, SEVENTH, certificate
from texts import days
from texts.faults import BAD_DATE, BAD_NAME, DATE_IN_COMMENT, DATE_IN_ID, HEX, MARKED_WORD, NO_KEY
from texts.faults import NO_LAST_DAY, NUMBER, SPEC, UNKNOWN_WORD
from texts.keys import FIELDS
from texts.named import CERTIFICATES, coded, of_blob
from texts.written import Dated, Marked, Naming, OfAuthority, Under, Wrong, naming, right_text

CERTIFICATE = "text 2 Certificate"
WORD_DIFFERS = SPEC + "6 Key, line 3 WordDiffers"

# What a misspelt line and other files of keys have before a key.
BEFORE_A_KEY = [
    "ca ",
    "ca : ",
    "ca= ",
    "ca; ",
    "SERIAL ",
    "user ",
    '"ca" ',
    "no-pty ",
    'command="a: b" ',
    "host.example ",
]
OF_AUTHORITY = of_blob("key", AUTHORITY).partition(" # ")[0][5:]
# Lines by their fault where an authority is current.
WHERE_CURRENT = {
    NUMBER: [
        "serial:",
        "serial: x",
        "serial: -5",
        "serial: +5",
        "serial: 5-",
        "serial: 5-6-7",
        "serial: 1,000",
        "serial: 18446744073709551616",
        "serial: 0x10000000000000000",
        "serial: 0x",
        "serial: 0xg",
        "serial: 5-0x",
        "serial: 1f3",
        "serial: 0a",
        "serial: 1-1f",
        "serial: 5 until 2027-12-01",
        "serial: 5-7 UNTIL=2026-02-30",
        "serial: until:2027-12-01",
        "serial: 1f3 until 2027-12-01",
        "serial: 5 until tomorrow",
        "serial: 5 until 2027/01/01",
    ],
    SPEC + "2 Zero": ["serial: 0", "serial: 0-5", "serial: 0x0", "serial: 0x00"],
    SPEC + "3 Reversed": ["serial: 9-7", "serial: 0x10-15"],
    SPEC + "5 EmptyId": ["id:", "id: # bob"],
    HEX: [
        "id-hex: 656",
        "id-hex: 0x65",
        "id-hex: 6162 until 2027-01-01",
        "id-hex: until=0000-00-00",
        "id-hex: 6162 until then",
    ],
    "text 9 ZeroInId": ["id-hex: 00", "id-hex: 6100", "id-hex: 610062"],
}
# And those that have their fault anywhere.
ANYWHERE = {
    SPEC + "7 Fingerprint, fingerprint 1 Prefix": ["hash: MD5:AQ"],
    SPEC + "7 Fingerprint, fingerprint 3 Length": ["hash: SHA1:AQ", "hash: SHA256:" + "A" * 27],
    WORD_DIFFERS: ["key: ssh-rsa " + coded(AUTHORITY)],
    NO_KEY: [
        "ca:",
        "ca: everyone",
        "ca: ALL",
        "ca: all " + OF_AUTHORITY,
        "key: AQ==",
        "sha1: SHA1:" + "A" * 27,
        "ca: @wrong-ca",
        *("key: " + it + OF_AUTHORITY for it in [*BEFORE_A_KEY, "@wrong-ca ", "@revoked * "]),
    ],
    CERTIFICATE: ["ca: %s %s" % (CERT, coded(SEVENTH))],
    "text 3 NoBytes": ["ca-blob:"],
    "text 4 Base64": ["ca-blob: eA", "key-blob: AQ"],
    "text 6 CutId": ["id: eve#1", 'id: "eve#1"'],
    UNKNOWN_WORD: [
        "serials: 5",
        "+ serial: 5",
        "- ca: all",
        "until",
        "until:",
        "until: 2027-01-01 serial: 5",
        "UNTIL=2027-01-01 serial: 5",
        "untill 2027-01-01 serial: 5",
        "utnil 2027-01-01 serial: 5",
        "until2027-01-01 serial: 5",
        "untiill 2027-01-01 serial: 5",
        "2027-01-01 serial: 5",
        *(it + OF_AUTHORITY for it in BEFORE_A_KEY),
    ],
    "text 8 ControlInId": [
        "id: a\tb",
        "id: a,\tb",
        "id: a\rid: b",
        "id: \x1b",
        "id: a\x7f",
        "id: \0",
        'id: "a\tb"',
    ],
    "text 9 ZeroInId": ["%s %s" % (CERT, coded(certificate(0, b"a\0b")))],
    "text 10 KeyAsId": [
        "id: %s of bob" % it.decode() for it in [*FIELDS, *sorted(CERTIFICATES)]
    ],
    "text 11 LeadingZero": [
        "serial: 00",
        "serial: 01",
        "serial: 010",
        "serial: 08",
        "serial: 000000000000000000001",
        "serial: 0100-0199",
        "serial: 01-5",
        "serial: 1-05",
        "serial: 1 - 05",
        "serial: 5 until 2026-01-15",
        "serial: 05 until 2026-11-15",
        "serial: 1-\t00",
        "serial: 0x1-0777",
        "serial: 00x10",
    ],
    "text 12 QuotedId": [
        'id: "bob"',
        "id: 'bob'",
        'id: ""',
        "id: ''",
        'id: " bob "',
        "id: 'it''s'",
        'id: "a" "b"',
        'id: "a", "b"',
        "id:'bob' # bob",
    ],
    "text 13 SeveralIds": ["id: a, b", "id: , b", "id: alice,  bob", "id: \"a\", 'b'", "ID:Doe, J"],
    DATE_IN_ID: [
        "id: bob until 2027-01-01",
        "id: until 2027-01-01",
        "ID:until:2027-01-01 # bob",
        "id: bob UNTIL : = 2026-02-30 or so",
        "id: untiluntil2027-01-011",
        "id: until 0000-00-00",
    ],
}

# ---- names

# Behind "@wrong-ca:".
BEHIND_A_NAME = {
    NO_KEY: [
        "",
        "all",
        "everyone",
        "ca.pub",
        "/etc/ssh/ca.pub",
        "~/ca",
        "./ca pub",
        "SHA256:" + "A" * 43,
        "sha256: " + OF_AUTHORITY,
        "@wrong-ca",
        ": " + OF_AUTHORITY,
        "ca: " + OF_AUTHORITY,
        "serial: 5",
        "SERIAL:0",
        "key: " + OF_AUTHORITY,
        "serial 5",
        "until 2027-01-01 serial: 5",
        *(it + OF_AUTHORITY for it in [*BEFORE_A_KEY, "@wrong-ca ", "@revoked * "]),
    ],
    CERTIFICATE: ["%s %s" % (CERT, coded(SEVENTH))],
    WORD_DIFFERS: ["ssh-rsa " + coded(AUTHORITY)],
}
# Names that no line gives.
BAD_NAMES = ["", "all", "x" * 65, "x" * 300, "a@b", "@a", "a/b", "a,b", "a;", '"a"', "a\\", "*"]
BAD_NAMES += ["a\r", "a\x1b", "zo\u00eb", "a\xa0serial"]
# Behind "@wrong-ca".
BEHIND_A_MARK = [
    "",
    " " + OF_AUTHORITY,
    " :",
    " : " + OF_AUTHORITY,
    "\t:" + OF_AUTHORITY,
    "=" + OF_AUTHORITY,
    "= " + OF_AUTHORITY,
    " = " + OF_AUTHORITY,
    "=serial: 5",
    "= serial: 5",
    " =serial: 5",
    " ca: all",
    " CA:" + OF_AUTHORITY,
    " ca-blob: eA==",
    " key: " + OF_AUTHORITY,
    " key-blob: eA==",
    " sha1: " + OF_AUTHORITY,
    " SHA256: " + OF_AUTHORITY,
    " hash: SHA1:" + "A" * 27,
    " serial",
    " serial 5",
    " serial : 5",
    " Serial=5",
    "\tserial= 5: 6",
    " seral: 5",
    " SERAIL: 5",
    " serials: 5",
    " + serial: 5",
    " \rserial: 5",
    " id bob",
    " idd: bob",
    " i\"d: bob",
    " id-hx: 61",
    " id_hex: 61",
    " id-hex 61",
    " user: 5",
    " keys: x",
    " kye: " + OF_AUTHORITY,
    " key " + OF_AUTHORITY,
    " ca all",
    " CAS: all",
    " hahs: SHA1:" + "A" * 27,
    " sha-1: x",
    " 5",
    " @wrong-ca serial: 5",
    " wrong-ca: " + OF_AUTHORITY,
    " *.example.com " + OF_AUTHORITY,
    "# serial: 5",
    " # serial: 5",
    " until",
    " until 2027-01-01 serial: 5",
    "\tUNTIL: 2027-01-01 serial: 5",
    " unti=2027-01-01 serial: 5",
    " unil 2027-01-01 serial: 5",
]
# What is behind the mark is looked at before the name.
MARKS = ["wrong-ca", "wrong-ca", "all", "nobody", "", "a@b"]
# None of them is given. The first ones are nearly one that is, if it is.
UNKNOWN = ["wrong-cb", "Wrong-CA", "WRONG-C", "worng-ca", "wrong-caa", "wrong_ca", "wrong-ca\r"]
UNKNOWN += ["wrong-ca\"", "@wrong-ca", "GOOD-C", "good-cab", "nobody", "", "alll", "All"]
UNKNOWN += ["w-rong-c-a", "w\"x\\", "zo\u00eb", "\x1b", "x" * 300]
FIFTH = Under("serial: 5", lambda named, authority: named.add_serials(authority, 5, 5))
GOOD = [
    OfAuthority("ca: all", b""),
    FIFTH,
    Naming("@good-ca: " + OF_AUTHORITY, "good-ca", AUTHORITY),
]


def namings():
    """The name is looked at before the key, and that before the key of another line."""
    for fault, lines in BEHIND_A_NAME.items():
        yield from (Wrong("@wrong-ca: " + it, fault, False) for it in lines)
    for name in BAD_NAMES:
        yield Wrong("@%s: %s" % (name, OF_AUTHORITY), BAD_NAME, False)
    yield from (Wrong("@%s:" % it, BAD_NAME, False) for it in BAD_NAMES[:3])
    for blanks in "", "\t":
        line = of_blob("@wrong-ca", OTHER).replace(": ", ":" + blanks)
        yield Naming(line, "wrong-ca", OTHER)


def words_behind():
    for at, line in enumerate(BEHIND_A_MARK):
        yield Wrong("@" + MARKS[at % len(MARKS)] + line, MARKED_WORD, False)
    for line in "@ wrong-ca: ", "@cert-authority *.example.com ", "@revoked * ":
        yield Wrong(line + OF_AUTHORITY, MARKED_WORD, False)


def entries(lines):
    """The wrong lines of serial numbers and key IDs behind names, and right ones behind names that
    no line gives."""
    lines = [it for it in lines if it.written.lower().startswith(("serial:", "id:", "id-hex:"))]
    for at, line in enumerate(lines):
        name = ["wrong-ca", "all", "good-ca", "wrong-ca", "nobody"][at % 5]
        yield Marked("@%s %s" % (name, line.written), name, line)
    for name in UNKNOWN:
        yield Marked("@%s serial: 5" % name, name, FIFTH)


# ---- last days

# Behind "until" and a blank.
NO_DAYS = ["serial: 5", "@wrong-ca serial: 5", "ca: all", ": 2027-01-01 serial: 5", "x", "\rx"]
NO_DAYS += ["2027-01-01serial: 5", "2027-01-01: serial: 5", "2027-01-01,2027-01-02 serial: 5"]
NO_DAYS += [
    it + " @wrong-ca serial: 5"
    for it in [
        *("2027-02-29", "1900-02-29", "2028-02-30", "2027-04-31", "2027-00-01", "2027-13-01"),
        *("2027-01-00", "2027-01-32", "2027-1-01", "2027-01-1", "27-01-01", "02027-01-01"),
        *("20270101", "2027/01/01", "01.01.2027", "2027-01-01T00:00", "2027-01-010", "2027-01-0x"),
        *("2027 -01-01", "2027-01- 1", "+027-01-01", '"2027-01-01"', "until 2027-01-01", "never"),
    ]
]
# A last day that is over, that of the list, and one that is not over.
LAST_DAYS = ["2028-02-28", "0000-02-29", "2028-02-29", "2028-03-01", "9999-12-31"]
ENDED = ["certificate", "key"]


def form_of(line):
    """What a line is about by its form: a certificate, a key, an authority, nothing, or none."""
    content = line.partition("#")[0].strip(" \t\r")
    word = re.match("[^:]*:|", content)[0].lower()
    kind = re.match("[^ \t]*", content)[0].encode()
    if word in ("serial:", "id:", "id-hex:") or kind in CERTIFICATES:
        return "certificate"
    if word in ("ca:", "ca-blob:") or re.match("@[^:= \t]*:", content):
        return "authority"
    if word in ("key:", "key-blob:", "sha1:", "sha256:", "hash:") or kind in FIELDS:
        return "key"
    return "none" if content else "nothing"


def last_days(lines):
    """Lines that begin with no day, and lines behind one, most of which are wrong otherwise."""
    yield from (Wrong("until " + it, BAD_DATE, False) for it in NO_DAYS)
    for at, line in enumerate([Wrong("", "", False), GOOD[0], GOOD[2], *lines]):
        day = LAST_DAYS[at % len(LAST_DAYS)]
        written = ["until ", "UNTIL\t"][at % 2] + day + " " + line.written
        if form_of(line.written) in ("authority", "key", "nothing"):
            yield Wrong(written, NO_LAST_DAY, False)
        else:
            yield Dated(written, days.in_calendar(day), line)


def days_in_comments(lines):
    """A day in the comment of an entry is its first fault, whatever else is wrong with it."""
    lines = [it.written for it in lines if isinstance(it, Marked) or form_of(it.written) in ENDED]
    for at, line in enumerate([*lines, OF_AUTHORITY, "serial: 5", "@all id: a"]):
        yield Wrong(line + days.WITH_DAY[at % len(days.WITH_DAY)], DATE_IN_COMMENT, False)


PLAIN = [Wrong(line, fault, True) for fault, lines in WHERE_CURRENT.items() for line in lines]
PLAIN += [Wrong(line, fault, False) for fault, lines in ANYWHERE.items() for line in lines]
MARKED = [*entries(PLAIN)]
UNDATED = [*PLAIN, *namings(), *words_behind(), *MARKED]
WRONG = [*UNDATED, *last_days(UNDATED), *days_in_comments([*PLAIN, *MARKED])]


def wrong_text(pool, turn):
    """The lines of a text with a wrong one. The wrong ones take turns. The name that many of them
    have is mostly given before."""
    source, lines = pool.source, right_text(pool)
    at = source.randrange(len(lines) + 1)
    wrong = WRONG[turn % len(WRONG)]
    before = [OfAuthority("ca: all", b"")] if source.random() < 0.9 else []
    lines = [*lines[:at], *before, wrong, *lines[at:]]
    named = naming(pool, "wrong-ca", AUTHORITY)
    if isinstance(wrong, Naming) or source.random() < 0.8:
        lines.insert(source.randrange(at + 1), named)
    else:
        lines.append(named)
    return lines
