"""What krl audit --scan must find in files, and what it finds, in one form.

A finding is where it is, its kind, and the fingerprint of its key. It is where its file, its line
and its column say.
"""

import json
import os
import re
import stat
import subprocess

import places
import trial

# No more findings of a kind in a file have a line of their own.
MOST = 20
LONGEST = 16 << 20
LINE = re.compile(
    rb"(?P<file>.*?)(?::(?P<line>[0-9]+):(?P<column>[0-9]+))?"
    rb": (?P<kind>revoked|ok|unread|same): (?P<said>.*)"
)
CONTROLS = re.compile("[\0-\x1f\x7f-\x9f\u061c\u200e\u200f\u2028-\u202e\u2066-\u2069]")


def visible(name):
    """A name as the lines of an audit have it."""
    try:
        shown = name.decode()
    except UnicodeDecodeError:
        return "".join(chr(it) if 32 <= it < 127 else "\\x%02x" % it for it in name)
    return CONTROLS.sub(lambda found: escaped(found.group()), shown)


def escaped(sign):
    """A control character, or each byte of another sign that a line does not show."""
    codes = [ord(sign)] if ord(sign) < 256 else sign.encode()
    return "".join("\\x%02x" % it for it in codes)


def readable(name):
    """The name as the objects of an audit have it."""
    try:
        return name.decode()
    except UnicodeDecodeError:
        return visible(name)


class Wanted:
    """What must be found in files, by the answers about their keys. The names of files are bytes."""

    def __init__(self, answers, fine, left_out=()):
        self.answers, self.fine, self.left_out = answers, fine, left_out
        self.findings, self.seen = [], set()
        self.files = self.keys = self.revoked = self.unread = self.same = 0

    def say(self, name, where, kind, *rest):
        if kind != "ok" or self.fine:
            self.findings.append((name, where, kind) + rest)

    def unread_file(self, name):
        self.files += 1
        self.unread += 1
        self.say(name, None, "unread", None)

    def text(self, name, content):
        """The places of a text, and how many there are beyond those that are said."""
        self.files += 1
        count = dict.fromkeys(["revoked", "unread", "ok"], 0)
        for number, place in places.places_of(content):
            kind, fingerprint = self.answers.answer(place)
            count[kind] += 1
            if count[kind] <= MOST:
                self.say(name, (number, place.column), kind, fingerprint)
        for kind, among in count.items():
            if among > MOST:
                self.say(name, None, kind, among - MOST)
        self.keys += count["revoked"] + count["ok"]
        self.revoked += count["revoked"]
        self.unread += count["unread"]

    def file(self, name):
        """A regular file, or a link to one."""
        try:
            name.decode()
            facts = os.stat(name)
        except (UnicodeDecodeError, OSError):
            self.unread_file(name)
            return
        identity = facts.st_dev, facts.st_ino
        if identity in self.seen:
            self.same += 1
            self.say(name, None, "same", None)
        elif facts.st_size > LONGEST:
            self.unread_file(name)
        else:
            self.seen.add(identity)
            with open(name, "rb") as given:
                self.text(name, given.read())

    def tree(self, top):
        """Each regular file below a directory, in the order of the names."""
        for name in sorted(os.listdir(top)):
            path = top + b"/" + name
            sort = os.lstat(path).st_mode
            if name in self.left_out:
                continue
            if stat.S_ISDIR(sort):
                self.tree(path)
            elif stat.S_ISLNK(sort) and os.path.isdir(path):
                self.unread_file(path)
            elif stat.S_ISREG(sort) or stat.S_ISLNK(sort):
                self.file(path)

    def status(self):
        return 1 if self.revoked else 3 if self.unread else 0


def words_of(line):
    """What a line of text finds. Its file is as it is shown."""
    found = LINE.fullmatch(line)
    if not found:
        return line, "is no finding"
    kind, said = found["kind"].decode(), found["said"].decode()
    if found["line"]:
        where = int(found["line"]), int(found["column"])
        fingerprint = re.fullmatch(r"\S+ (SHA256:\S+)(?: .*)?", said)
        return found["file"].decode(), where, kind, fingerprint and fingerprint[1]
    among = re.fullmatch("and ([0-9]+) more lines? (?:is|are) " + kind, said)
    return found["file"].decode(), None, kind, among and int(among[1])


def object_of(line):
    it = json.loads(line)
    where = (it["line"], it["column"]) if "line" in it else None
    rest = it.get("fingerprint", it.get("count"))
    return it["file"], where, it["status"], rest


class Run:
    """A run of krl audit --scan over files, beside what is wanted of it."""

    def __init__(self, list_name, paths, options=(), given=b""):
        self.words = [trial.KRL, "audit", "--scan", "-f", list_name, *options]
        self.options = options
        done = subprocess.run(
            self.words + [b"--", *paths] if paths else self.words,
            input=given,
            capture_output=True,
            timeout=120,
        )
        self.status, self.output, self.error = done.returncode, done.stdout, done.stderr

    def differences(self, wanted):
        """What differs. The findings are in their order."""
        if self.status not in (0, 1, 3):
            return ["it ends with status %d: %s" % (self.status, self.error.decode()[:300])]
        try:
            return self.differences_in(self.output.split(b"\n")[:-1], wanted)
        except (LookupError, ValueError) as fault:
            return ["what it prints cannot be read: %r" % fault]

    def differences_in(self, lines, wanted):
        is_json = "--json" in self.options
        wrong = []
        if self.status != wanted.status():
            wrong.append("the status is %d instead of %d" % (self.status, wanted.status()))
        shown = readable if is_json else visible
        findings = [(shown(it[0]),) + it[1:] for it in wanted.findings]
        if is_json:
            wrong += self.wrong_counts(json.loads(lines.pop()), wanted)
        got = [object_of(it) if is_json else words_of(it) for it in lines]
        if got != findings:
            wrong += ["wanted %s" % (it,) for it in findings if it not in got][:3]
            wrong += ["got %s" % (it,) for it in got if it not in findings][:3]
            wrong = wrong or ["they are in another order, or there twice"]
        return wrong

    @staticmethod
    def wrong_counts(last, wanted):
        names = "files", "keys", "revoked", "unread", "same"
        return [
            "%s %s instead of %d" % (last.get(it), it, getattr(wanted, it))
            for it in names
            if last.get(it) != getattr(wanted, it)
        ]
