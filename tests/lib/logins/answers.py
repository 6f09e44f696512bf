"""What krl logins prints of logs by a list: a model that shares nothing with the program."""

import json
import re

from logins.reading import CUT, HOSTBASED, MALFORMED, TOO_LONG, reports
from texts.named import date, fingerprint, text_field, unpadded, visible

WORDS = ["its key", "its SHA-256", "the key of its CA", "the SHA-256 of its CA"]
OBJECTS = [{"by": "key"}, {"by": "sha256"}]
OBJECTS += [{"by": "authority", "of": it} for it in ("key", "sha256")]
# The faults of lines and files that are not read (docs/FAULTS.md).
FAULTS = {CUT: "login 1 Cut", MALFORMED: "login 2 Malformed", HOSTBASED: "login 3 Hostbased"}
FAULTS.update({TOO_LONG: "login 4 LongLine", "No such file or directory": "file 1 Open"})
PACKED = "login 5 Packed"
# What JSON allows in a string, and a terminal may obey.
CONTROLS = "[\x7f-\x9f\u061c\u200e\u200f\u2028-\u202e\u2066-\u2069]"


def json_line(value):
    text = json.dumps(value, ensure_ascii=False, separators=(",", ":"))
    return re.sub(CONTROLS, lambda it: "\\u%04x" % ord(it[0]), text)


def amount(count, noun):
    return "%d %s%s" % (count, noun, "" if count == 1 else "s")


class Asked:
    """What a list or a line of a text names, by what sshd logs of it."""

    def __init__(self, named):
        self.keys = {fingerprint(it) for it in named.keys}
        self.hashes = {"SHA256:" + unpadded(it) for it in named.sha256s}
        by_print = lambda those: {fingerprint(it) if it else "all": those[it] for it in those}
        self.serials, self.ids = by_print(named.serials), by_print(named.ids)

    def reasons(self, login):
        """The places of the reasons by which it revokes a login."""
        found = [login.print in self.keys, login.print in self.hashes]
        if login.authority:
            found += [login.authority in self.keys, login.authority in self.hashes]
            for it in login.authority, "all":
                spans = self.serials.get(it, [])
                found.append(any(least <= login.serial <= most for least, most in spans))
            found += [login.key_id in self.ids.get(it, ()) for it in (login.authority, "all")]
        return [at for at, it in enumerate(found) if it]


def word(login, reason, names):
    if reason < 4:
        return WORDS[reason]
    of = "of CA " + names.get(login.authority, login.authority)
    of = "of all CAs" if reason % 2 else of
    if reason < 6:
        return "serial %d %s" % (login.serial, of)
    return 'key ID "%s" %s' % (visible(login.key_id, '"\\'), of)


def words(login, reasons, names):
    """In words. An authority has its name, if it has one, and otherwise its fingerprint."""
    return "by " + ", by ".join(word(login, it, names) for it in reasons)


def objects(login, reasons, names):
    some = []
    for reason in reasons:
        authority = {"authority": "all" if reason % 2 else login.authority}
        if reason % 2 == 0 and login.authority in names:
            authority["name"] = names[login.authority]
        if reason < 4:
            some.append(OBJECTS[reason])
        elif reason < 6:
            some.append({"by": "serial", "serial": str(login.serial), **authority})
        else:
            some.append({"by": "id", **text_field("id", login.key_id), **authority})
    return some


class Finding:
    """A line that reports something. The entries are those of texts, if there are any, and the
    names those that they give to authorities, by the fingerprints of these."""

    def __init__(self, file, number, report, asked, entries, names):
        self.file, self.number, self.why, self.explained = file, number, None, None
        self.names = names
        if isinstance(report, str):
            self.why, self.status = report, "unread"
            return
        self.login, self.reasons = report, asked.reasons(report)
        self.status = "revoked" if self.reasons else "ok"
        if entries is not None:
            given = [(entry, set(it.reasons(report))) for entry, it in entries]
            lines = [entry for entry, some in given if some.intersection(self.reasons)]
            named = set().union(*(some for _, some in given))
            self.explained = lines, [it for it in self.reasons if it not in named]

    def authority(self):
        """That of the certificate, if a reason has it."""
        if self.status == "revoked" and any(it > 3 and it % 2 == 0 for it in self.reasons):
            return self.login.authority
        return None

    def lines(self):
        place = visible(self.file) + (":%d" % self.number if self.number else "")
        if self.why:
            return ["%s: unread: %s" % (place, self.why)]
        login = self.login
        line = "%s: %s: %s %s" % (place, self.status, login.kind, login.print)
        line += " " + words(login, self.reasons, self.names) if self.reasons else ""
        line += ": %s from %s" % (visible(login.user), visible(login.address))
        line += " (ID %s)" % visible(login.key_id) if login.authority else ""
        lines, unnamed = self.explained or ([], [])
        line = [line]
        for it in lines:
            place = "  %s:%d: " % (visible(it.file.encode()), it.number)
            line.append(place + visible(it.written.encode()))
        if unnamed:
            unnamed = words(login, unnamed, self.names)
            line.append("  no line of the texts names it " + unnamed)
        return line

    def object(self):
        place = {**text_field("file", self.file), "line": self.number}
        if not self.number:
            del place["line"]
        if self.why:
            fault = FAULTS.get(self.why, PACKED)
            return {**place, "status": "unread", "fault": fault, "why": self.why}
        login = self.login
        it = {**place, "status": self.status, "type": login.kind, "fingerprint": login.print}
        it.update({**text_field("user", login.user), **text_field("from", login.address)})
        it.update(text_field("time", login.prefix) if login.prefix else {})
        it["step"] = login.step
        if login.authority:
            names = {"serial": str(login.serial), **text_field("id", login.key_id)}
            it["certificate"] = {**names, "authority": login.authority}
        it["reasons"] = objects(login, self.reasons, self.names)
        if self.explained:
            lines, unnamed = self.explained
            it["entries"] = [
                {"file": it.file, "line": it.number, "text": it.written} for it in lines
            ]
            it["unnamed"] = objects(login, unnamed, self.names)
        return it


class Listed:
    """The list of a run: its name, what it names, its version and its date, which a plain list does
    not have, and the SHA-256 of its bytes."""

    def __init__(self, name, named, stated, sha256):
        self.name, self.named, self.stated, self.sha256 = name, named, stated, sha256

    def words(self):
        if not self.stated:
            return "plain list"
        return "list version %d, %s" % (self.stated[0], date(self.stated[1]))

    def object(self):
        it = {"file": self.name}
        if self.stated:
            it.update(version=str(self.stated[0]), generated=date(self.stated[1]))
        return {**it, "sha256": self.sha256}


class Run:
    """A run over files, each of which is a name and its bytes, or why it is not read. With texts
    the entries are those of their lines, and the names those that they give to keys."""

    def __init__(self, listed, files, entries=None, names={}, options=()):
        self.listed, self.options, self.findings, self.files = listed, options, [], 0
        names = {fingerprint(it): names[it] for it in names}
        asked = Asked(listed.named)
        if entries is not None:
            entries = [(it, Asked(it.named)) for it in entries]
        for name, content in files:
            unread = [(0, content)] if isinstance(content, str) else reports(content)
            self.findings += [Finding(name, *it, asked, entries, names) for it in unread]
            self.files += 1
            if "-q" in options and self.count("revoked"):
                break

    def count(self, status):
        return sum(it.status == status for it in self.findings)

    def counts(self):
        logins = self.count("revoked") + self.count("ok")
        return logins, self.count("revoked"), self.count("unread")

    def status(self):
        if self.count("revoked"):
            return 1
        return 3 if self.count("unread") or self.listed.named.sha1s else 0

    def output(self):
        """The lines of standard output."""
        if "-q" in self.options:
            return []
        shown = [it for it in self.findings if it.status != "ok" or "-a" in self.options]
        if "--json" not in self.options:
            return [line for it in shown for line in it.lines()]
        done = dict(zip(("files", "logins", "revoked", "unread"), (self.files, *self.counts())))
        done = {"status": "done", **done, "list": self.listed.object()}
        return [json_line(it) for it in [*(it.object() for it in shown), done]]

    def error(self):
        """The lines of standard error."""
        some, hashes = [], len(self.listed.named.sha1s)
        if hashes:
            are = "%d entries are SHA-1 hashes" % hashes
            are = "1 entry is a SHA-1 hash" if hashes == 1 else are
            name = visible(self.listed.name.encode())
            some.append("krl: %s: %s, and no log has these" % (name, are))
        logins, revoked, unread = self.counts()
        counts = amount(self.files, "file"), amount(logins, "login"), revoked, unread
        line = "krl logins: %s, %s: %d revoked, %d unread (%s)"
        return [*some, line % (*counts, self.listed.words())]
