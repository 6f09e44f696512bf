"""What a line of sshd's log reports, by regular expressions: a model that shares nothing with the
program."""

import re

from wire import HIGHEST

OPENINGS = b"Accepted publickey for ", b"Partial publickey for ", b"Accepted hostbased for "
TAG = re.compile(rb"(?:\A|(?<= ))sshd(?:-session)?\[[0-9]+\]: ")
# The last of 43 digits of base64 has two bits that are not of the 32 bytes, and are zero.
KEY = rb"([A-Z0-9-]+) (SHA256:[A-Za-z0-9+/]{42}[AEIMQUYcgkosw048])"
MESSAGE = re.compile(
    rb"(Accepted|Partial) publickey for ([^ ]+) from ([^ ]+) port [0-9]+ ssh2: "
    + (KEY + rb"(?: ID (.*) \(serial ([0-9]+)\) CA " + KEY + rb")?")
    + rb"(?:, signature count = [0-9]+)?\r?",
    re.DOTALL,
)
ESCAPE = rb"\\([\\ntrabvf]|[0-3][0-7][0-7])"
ESCAPED = re.compile(rb"(?:[^\\]|" + ESCAPE + rb")*", re.DOTALL)
LETTERS = dict(zip(b"\\ntrabvf", b"\\\n\t\r\a\b\v\f"))

CUT = "the line of a login is cut"
MALFORMED = "the line of a login is malformed"
HOSTBASED = "a login by the key of a host is not looked at"
TOO_LONG = "the line has more than 16 MiB, and what follows is not read"
LONGEST = 1 << 24


class Login:
    """A login. The serial number, the key ID and the authority are those of a certificate."""

    def __init__(self, prefix, parts):
        self.prefix = prefix
        step, self.user, self.address, kind, self.print = parts[:5]
        self.step, self.kind, self.print = step.lower().decode(), kind.decode(), self.print.decode()
        self.serial = self.key_id = self.authority = None
        if parts[5] is not None:
            self.key_id, self.serial = unescaped(parts[5]), int(parts[6])
            self.authority = parts[8].decode()


def unescaped(text):
    """The bytes that a text represents, or None."""
    byte = lambda it: LETTERS[it[1][0]] if len(it[1]) == 1 else int(it[1], 8)
    if not ESCAPED.fullmatch(text):
        return None
    return re.sub(ESCAPE, lambda it: bytes([byte(it)]), text)


def report(line):
    """The login of a line, why it is unread, or None."""
    tag = None if line.startswith(OPENINGS) else TAG.search(line)
    start = tag.end() if tag else 0
    message = line[start:]
    if not message.startswith(OPENINGS):
        return None
    if message.startswith(OPENINGS[2]):
        return HOSTBASED
    if len(message) in (500, 501) or len(message) > 1020:
        return CUT
    parts = MESSAGE.fullmatch(message)
    login = parts and Login(line[:start], parts.groups())
    if not login or login.authority and (login.key_id is None or login.serial > HIGHEST):
        return MALFORMED
    return login


def reports(content):
    """The number of each line of a log that reports something, and what."""
    lines = content.split(b"\n")
    for number, line in enumerate(lines if lines[-1] else lines[:-1], 1):
        if len(line) > LONGEST:
            yield number, TOO_LONG
            return
        it = report(line)
        if it is not None:
            yield number, it
