"""The words on standard error for the faults of texts, and for what their lines may be meant as
(docs/FAULTS.md, and krl(1), KRL MAKE)."""

import re

from texts import days
from texts.keys import FIELDS
from texts.named import visible

SPEC = "text 1 Spec, spec "
NUMBER = SPEC + "1 Number"
NO_AUTHORITY = SPEC + "4 NoAuthority"
NO_KEY = SPEC + "6 Key, line 1 NoKey"
HEX = "text 5 Hex"
LEADING_ZERO = "text 11 LeadingZero"
UNKNOWN_WORD = "text 7 UnknownWord"
BAD_NAME = "text 14 BadName"
OTHER_KEY = "text 15 OtherKey"
UNKNOWN_NAME = "text 16 UnknownName"
MARKED_WORD = "text 17 MarkedWord"
BAD_DATE = "text 18 BadDate"
NO_LAST_DAY = "text 19 NoLastDay"
DATE_IN_COMMENT = "text 20 DateInComment"
DATE_IN_ID = "text 21 DateInId"

# The words that a line can begin with, in the order in which one is thought to be meant.
BEGINNINGS = ["serial", "id", "hash", "key", "ca", "ca-blob", "id-hex", "key-blob", "sha1"]
BEGINNINGS += ["sha256"]
OF_CERTIFICATES, OF_KEYS = BEGINNINGS[:2] + ["id-hex"], ["key", "key-blob", "sha1", "sha256", "hash"]
LAST_DAY = "a last day comes first on a line: until YYYY-MM-DD"
WORDS = {
    NUMBER: "a serial number is a number below 2^64",
    SPEC + "2 Zero": "serial number 0 names no certificate",
    SPEC + "3 Reversed": "a range of serial numbers ends below its first one",
    NO_AUTHORITY: "no CA is given: by @NAME before the word, or by a ca: line with no key or hash "
    "between",
    SPEC + "5 EmptyId": "a key ID is empty",
    NO_KEY: "no key type stands there",
    SPEC + "6 Key, line 3 WordDiffers": "the key is of another type",
    SPEC + "7 Fingerprint, fingerprint 1 Prefix": "the hash is cut, padded or misspelt",
    SPEC + "7 Fingerprint, fingerprint 3 Length": "the hash is cut, padded or misspelt",
    "text 2 Certificate": "a CA is given by its key, and not by a certificate",
    "text 3 NoBytes": "a CA has bytes",
    "text 4 Base64": "no whole base64 with padding",
    HEX: "no pairs of hexadecimal digits",
    "text 6 CutId": "a # with no blank before it would cut the key ID short: use id-hex:",
    UNKNOWN_WORD: "a line begins with ca:, ca-blob:, serial:, id:, id-hex:, key:, key-blob:, "
    "sha1:, sha256: or hash:, with @NAME, or with the type of a key, and nothing may be before it, "
    "such as options",
    "text 8 ControlInId": "a key ID has a control character, such as a tab or a carriage return: "
    "use id-hex:",
    "text 9 ZeroInId": "OpenSSH takes no key ID with a zero byte: use serial:",
    "text 10 KeyAsId": "a key stands where a key ID belongs: use key:, or id-hex: for a key ID "
    "that begins so",
    LEADING_ZERO: "a serial number has a leading zero: OpenSSH would read octal digits",
    "text 12 QuotedId": "a key ID has no quotes around it: use id-hex: for one that has them",
    "text 13 SeveralIds": "a line has one key ID: use id-hex: for one that has a comma and a blank",
    BAD_NAME: "a name behind @ has 1 to 64 letters, digits, -, _ and ., and is not all",
    MARKED_WORD: "behind @NAME comes a colon and a key, or serial:, id: or id-hex:",
    BAD_DATE: "until needs a day, as YYYY-MM-DD",
    NO_LAST_DAY: "only a serial number, a key ID or a certificate has a last day",
    DATE_IN_COMMENT: "a day in a comment ends nothing: begin the line with until YYYY-MM-DD",
    DATE_IN_ID: "a day in a key ID ends nothing: begin the line with until YYYY-MM-DD, or use "
    "id-hex: for a key ID that has one",
}


def words(fault, line):
    """What is said of a line with this fault, where the last day that it begins with is left out.
    OTHER_KEY and UNKNOWN_NAME depend on other lines."""
    hint = HINTS.get(fault, lambda content: None)(line.partition("#")[0].strip(" \t\r"))
    return "%s [%s]" % (hint or WORDS[fault], fault)


def other_key(name, place):
    return 'the name "%s" has another key: %s [%s]' % (quoted(name), place, OTHER_KEY)


def can_be_meant(name):
    """Whether a name may be that of one authority."""
    return 0 < len(name.encode()) <= 64 and name != "all"


def unknown_name(name, near):
    """The near name and its place are none where no line names such an authority."""
    if not can_be_meant(name):
        return "no CA has this name above [%s]" % UNKNOWN_NAME
    hint = ': did you mean "%s" (%s)?' % (quoted(near[0]), near[1]) if near else ""
    return 'no CA is named "%s" above%s [%s]' % (quoted(name), hint, UNKNOWN_NAME)


def quoted(text):
    return "".join("\\" + it if it in '"\\' else visible(it.encode()) for it in text)


# ---- what a line may be meant as


def is_slip(given, meant):
    """Whether one has a byte more, or another one, or two neighbouring ones are exchanged."""
    if len(given) < len(meant):
        return is_slip(meant, given)
    if len(given) > len(meant):
        return any(given[:at] + given[at + 1 :] == meant for at in range(len(given)))
    differ = [at for at, pair in enumerate(zip(given, meant)) if pair[0] != pair[1]]
    if len(differ) == 2:
        one, other = differ
        return other == one + 1 and given[one : other + 1] == meant[one : other + 1][::-1]
    return len(differ) == 1


def is_near(given, meant):
    """Whether they are the same, or one slip off. Letters in either case count the same."""
    given, meant = given.encode().lower(), meant.encode().lower()
    return given == meant or is_slip(given, meant)


def misspelt(content, words=tuple(BEGINNINGS)):
    """The word that content begins with, if it is nearly one of these, or that of a last day."""
    given = re.match("[^:= \t]*", content)[0]
    if is_near(given, "until"):
        return LAST_DAY
    meant = next((it for it in words if is_near(given, it)), None)
    return meant and '"%s" is no word of a text: did you mean "%s:"?' % (quoted(given), meant)


def misspelt_behind(content):
    """The same behind a name, where only a word of certificates is meant. A word of texts with its
    colon is not misspelt there."""
    entry = re.sub("^@[^:= \t]*[ \t]*", "", content)
    word, colon, _ = entry.partition(":")
    return None if colon and word.lower() in BEGINNINGS else misspelt(entry, OF_CERTIFICATES)


def value_in(content):
    return content.partition(":")[2].lstrip(" \t")


def day_behind(content):
    return LAST_DAY if days.is_said(value_in(content)) else None


def day_of_key(content):
    """The words where content names a key or a hash, by its form."""
    word, colon, _ = content.partition(":")
    kind = re.match("[^ \t]*", content)[0].encode()
    if colon and word.lower() in OF_KEYS or kind in FIELDS:
        return "a key has no last day: take the day out of its comment"
    return None


def no_number(content):
    if day_behind(content):
        return LAST_DAY
    numbers = [it.strip(" \t\r") for it in value_in(content).split("-", 1)]
    bare = [it for it in numbers if re.fullmatch("[0-9A-Fa-f]+", it) and re.search("[A-Fa-f]", it)]
    return "hexadecimal digits need 0x before them" if bare else None


def is_print(text):
    return bool(re.fullmatch("SHA(1|256):[^ \t]*", text))


def instead_of_key(content):
    value = value_in(content)
    word, colon, _ = value.partition(":")
    is_entry = value == "all" or colon and word.lower() in BEGINNINGS
    if content[0] == "@" and is_entry and not is_print(value):
        return "behind @NAME and a colon comes a key: an entry has no colon there"
    if is_print(content):
        return 'a fingerprint needs "hash:" before it'
    if re.fullmatch(r"[^ \t]*\.pub|[/~.][^ \t]*", value):
        return "the key itself stands here, not its file"
    return None


HINTS = {
    NUMBER: no_number,
    LEADING_ZERO: day_behind,
    HEX: day_behind,
    DATE_IN_COMMENT: day_of_key,
    NO_KEY: instead_of_key,
    UNKNOWN_WORD: misspelt,
    MARKED_WORD: misspelt_behind,
}
