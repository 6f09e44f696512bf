"""The keys and certificates in a text, by what crates/key_places/README.md says of a place. This
shares nothing with the program: it is made of regular expressions, and asks OpenSSH about keys.
"""

import base64
import collections
import re
import struct
import subprocess

PLAIN = ["ssh-rsa", "ssh-dss", "ssh-ed25519", "ecdsa-sha2-nistp256", "ecdsa-sha2-nistp384"]
PLAIN += ["ecdsa-sha2-nistp521", "sk-ssh-ed25519@openssh.com"]
PLAIN += ["sk-ecdsa-sha2-nistp256@openssh.com"]
SUFFIX = "-cert-v01@openssh.com"
NAMES = PLAIN + [it.removesuffix("@openssh.com") + SUFFIX for it in PLAIN]
# A name at the start, or behind a byte of no name, or behind an escape of JSON. Blanks follow, and
# the longest run of symbols, in which a slash may have a backslash before it.
START = rb"(?:(?<![A-Za-z0-9.@-])|(?<=\\[nrt]))"
NAME = rb"(?P<name>%s)" % b"|".join(re.escape(it.encode()) for it in NAMES)
PLACE = re.compile(rb"%s(?=%s[ \t]+(?P<word>(?:[A-Za-z0-9+/=]|\\/)*))" % (START, NAME))

# A column of bytes from 1 on, the type, and the base64 word.
Place = collections.namedtuple("Place", "column name word")


def decoded(word):
    """The bytes whose base64 is the word, or None if it is that of no bytes."""
    try:
        content = base64.b64decode(word, validate=True)
    except ValueError:
        return None
    return content if base64.b64encode(content) == word else None


def begins_blob(name, word):
    """Whether the word begins with the base64 of bytes that begin with the name as a string."""
    start = struct.pack(">I", len(name)) + name
    content = decoded(word[: (len(start) + 2) // 3 * 4])
    return content is not None and content.startswith(start)


def places_of_line(line):
    # Each name has a hyphen. Most lines of a binary file have none.
    for found in PLACE.finditer(line) if b"-" in line else ():
        word = found["word"].replace(b"\\/", b"/")
        if begins_blob(found["name"], word):
            yield Place(found.start() + 1, found["name"].decode(), word)


def places_of(text):
    """The places of a text, each with the number of its line."""
    for number, line in enumerate(text.split(b"\n"), 1):
        for place in places_of_line(line):
            yield number, place


class Answers:
    """What OpenSSH answers about keys by a list. Each key is asked about once."""

    def __init__(self, openssh, list_name, room):
        self.openssh, self.list_name, self.file = openssh, list_name, room + "/asked.pub"
        self.known = {}

    def ask(self, *words):
        done = subprocess.run([self.openssh, *words], capture_output=True, stdin=subprocess.DEVNULL)
        return done.returncode, done.stdout.decode(errors="replace")

    def answer(self, place):
        """Whether the key of a place is revoked, ok or unread, and its fingerprint."""
        key = place.name, place.word
        if key not in self.known:
            self.known[key] = self.asked(place)
        return self.known[key]

    def asked(self, place):
        if decoded(place.word) is None:
            return "unread", None
        with open(self.file, "wb") as out:
            out.write(place.name.encode() + b" " + place.word + b"\n")
        status, said = self.ask("-l", "-f", self.file)
        if status != 0:
            return "unread", None
        status, _ = self.ask("-Q", "-f", self.list_name, self.file)
        if status not in (0, 1):
            raise RuntimeError("OpenSSH cannot ask %s about %r" % (self.list_name, place))
        return "revoked" if status == 1 else "ok", said.split(" ")[1]
