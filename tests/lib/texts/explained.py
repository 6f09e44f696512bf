"""Keys and certificates that are audited by texts, or by a list beside texts, and what krl audit -t
prints of them: by the entries of single lines (written.Reading), and by nothing of the program."""

import base64
import hashlib

from files import AUTHORITY, CERT, certificate
from texts import at_random, days, written
from texts.at_random import AWKWARD, WORDS
from texts.keys import blob, is_key, key, parts_of
from texts.named import Named, date, fingerprint, text_field, visible
from wire import HEADER, HIGHEST, certificates, section, span, strings

ED25519 = [b"ssh-ed25519"]


class Pool(at_random.Pool):
    """Few keys, authorities, numbers and key IDs, so that lines and certificates often have the
    same ones. No list is refused for its authorities, which are keys that OpenSSH reads."""

    def __init__(self, source):
        super().__init__(source)
        self.keys = [AUTHORITY, *(key(source, ED25519) for _ in range(6))]
        self.authorities = self.keys
        self.blobs = self.keys * 3 + [key(source) for _ in range(6)] + [blob(source, b"x")]
        some = [it for it in AWKWARD if b"\0" not in it]
        self.ids = source.sample(WORDS, 8) + source.sample(some, 8)

    def serial(self):
        sort = self.source.randrange(12)
        if sort == 0:
            return self.source.choice([HIGHEST - 1, HIGHEST, 1 << 63, (1 << 32) - 1])
        return self.source.randrange(1, 200 if sort < 3 else 12)


# ---- what is audited


class Subject:
    """A key, or a certificate by an authority, on a line with a comment."""

    def __init__(self, key, names=None, comment=""):
        self.key, self.comment = key, comment
        self.authority, self.serial, self.key_id = names or (None, 0, b"")

    def kind(self):
        return CERT if self.authority else parts_of(self.key)[0].decode()

    def line(self):
        it = self.key
        if self.authority:
            it = certificate(self.serial, self.key_id, key=it, authority=self.authority)
        return " ".join([self.kind(), base64.b64encode(it).decode(), *self.comment.split()])

    def reasons(self, named):
        """The numbers of the reasons by which what is named revokes it, in their order."""
        found = by_key(named, self.key)
        if self.authority:
            found += by_key(named, self.authority)
            for it in self.authority, b"":
                spans = named.serials.get(it, [])
                found.append(any(least <= self.serial <= most for least, most in spans))
            ids = [self.key_id in named.ids.get(it, ()) for it in (self.authority, b"")]
            found += ids
        return [at for at, it in enumerate(found) if it]

    def has_authority(self, reasons):
        """Whether one of the reasons has the authority."""
        return any(it >= 6 and it % 2 == 0 for it in reasons)

    def words(self, reasons, names):
        """In words. An authority has its name, if it has one, and otherwise its fingerprint."""
        return "by " + ", by ".join(self.word(it, names) for it in reasons)

    def word(self, reason, names):
        if reason < 6:
            return OF_KEYS[reason]
        of = names.get(self.authority) or fingerprint(self.authority)
        of = "of all CAs" if reason % 2 else "of CA " + of
        if reason < 8:
            return "serial %d %s" % (self.serial, of)
        return 'key ID "%s" %s' % (visible(self.key_id, '"\\'), of)

    def objects(self, reasons, names):
        return [self.object_of(it, names) for it in reasons]

    def object_of(self, reason, names):
        hashes = ["key", "sha1", "sha256"]
        if reason < 3:
            return {"by": hashes[reason]}
        if reason < 6:
            return {"by": "authority", "of": hashes[reason - 3]}
        authority = {"authority": "all"}
        if reason % 2 == 0:
            authority = {"authority": fingerprint(self.authority)}
            if self.authority in names:
                authority["name"] = names[self.authority]
        if reason < 8:
            return {"by": "serial", "serial": str(self.serial), **authority}
        return {"by": "id", **text_field("id", self.key_id), **authority}

    def certificate(self):
        if not self.authority:
            return {}
        names = {"serial": str(self.serial), **text_field("id", self.key_id)}
        return {"certificate": {**names, "authority": fingerprint(self.authority)}}


OF_KEYS = ["its key", "its SHA-1", "its SHA-256"]
OF_KEYS += ["the key of its CA", "the SHA-1 of its CA", "the SHA-256 of its CA"]


def by_key(named, key):
    """Whether a key is named, by itself, by its SHA-1 and by its SHA-256."""
    hashes = hashlib.sha1(key).digest(), hashlib.sha256(key).digest()
    return [key in named.keys, hashes[0] in named.sha1s, hashes[1] in named.sha256s]


def a_subject(pool, named):
    """Mostly a certificate, often with a number at the end of a range or beside it."""
    source = pool.source
    comment = source.choice(["", "", "me@home", "a b"])
    if source.random() < 0.2:
        return Subject(source.choice([it for it in pool.blobs if is_key(it)]), comment=comment)
    authority = source.choice([AUTHORITY, *filter(None, pool.current), *pool.names.values()])
    serial = pool.serial()
    ends = [it for spans in named.serials.values() for pair in spans for it in pair]
    if ends and source.random() < 0.6:
        serial = min(max(source.choice(ends) + source.randrange(-1, 2), 0), HIGHEST)
    # Now and then the key that signs is the one that is certified.
    subject = authority if source.random() < 0.1 else source.choice(pool.keys)
    return Subject(subject, (authority, serial, source.choice(pool.ids)), comment)


# ---- texts and lists


def some_texts(pool, today):
    """Up to three texts with one set of names, of which some are wrong. An authority does not count
    in the next text, so each begins with one."""
    lines = written.with_more_names(pool, written.days_text(pool, today, most=60))
    cuts = sorted(pool.source.choices(range(len(lines)), k=pool.source.randrange(3)))
    parts = [lines[start:end] for start, end in zip([0, *cuts], [*cuts, len(lines)])]
    return [parts[0], *([written.an_authority(pool), *it] for it in parts[1:])]


def list_of(named):
    """The bytes of a list of version 1, from the first second of 1970."""
    content = HEADER
    for authority in named.authorities():
        parts = [span(*it) for it in named.spans(authority)]
        parts += [section(0x23, strings(it)) for it in sorted(named.ids.get(authority, ()))]
        content += certificates(authority, *parts)
    for sort, blobs in (2, named.keys), (3, named.sha1s), (5, named.sha256s):
        content += section(sort, strings(*sorted(blobs))) if blobs else b""
    return content


def some_of(source, entries, odds):
    named = Named()
    for it in entries:
        if source.random() < odds:
            named.add(it.named)
    return named


# ---- what is printed


class Audit:
    """What an audit of files by a list prints. Each file is a name and its subjects. The entries
    are those of the texts that explain, and the names those that the texts give to authorities, by
    their keys."""

    def __init__(self, files, held, entries, names):
        self.files, self.names, self.found = files, names, []
        for name, subjects in files:
            for number, it in enumerate(subjects, 1):
                reasons = it.reasons(held)
                by = [(entry, it.reasons(entry.named)) for entry in entries]
                lines = [entry for entry, given in by if set(given) & set(reasons)]
                given = {reason for _, some in by for reason in some}
                unnamed = [reason for reason in reasons if reason not in given]
                self.found.append((name, number, it, reasons, lines, unnamed))

    def revoked(self):
        return [it for it in self.found if it[3]]

    def lines(self, all_keys):
        """Those of keys that are revoked, or of all of them."""
        for name, number, it, reasons, lines, unnamed in self.found if all_keys else self.revoked():
            verdict = "revoked" if reasons else "ok"
            words = ["%s:%d: %s: %s" % (name, number, verdict, it.kind()), fingerprint(it.key)]
            words += [it.words(reasons, self.names)] * bool(reasons)
            yield " ".join(words) + (": " + it.comment if it.comment else "")
            for entry in lines:
                place = "  %s:%d: " % (visible(entry.file.encode()), entry.number)
                yield place + visible(entry.written.encode())
            if unnamed:
                yield "  no line of the texts names it " + it.words(unnamed, self.names)

    def objects(self):
        for name, number, it, reasons, lines, unnamed in self.found:
            yield {
                "file": name,
                "line": number,
                "status": "revoked" if reasons else "ok",
                "type": it.kind(),
                "fingerprint": fingerprint(it.key),
                "comment": it.comment,
                **it.certificate(),
                "reasons": it.objects(reasons, self.names),
                "entries": [
                    {"file": entry.file, "line": entry.number, "text": entry.written}
                    for entry in lines
                ],
                "unnamed": it.objects(unnamed, self.names),
            }

    def done(self, name, seconds):
        """The last object, by a list of this name and date, whose bytes are not known."""
        of_list = {"file": name, "version": "1", "generated": date(seconds), "sha256": ""}
        counts = {"files": len(self.files), "keys": len(self.found), "revoked": len(self.revoked())}
        others = dict.fromkeys(["unread", "skipped", "excluded", "elsewhere", "same"], 0)
        return {"status": "done", **counts, **others, "list": of_list}

    def said(self, seconds):
        """The summary, by a list of version 1 and of this date."""
        revoked = self.revoked()
        counts = amount(len(self.files), "file"), amount(len(self.found), "key"), len(revoked)
        of = amount(len({name for name, *_ in revoked}), "file")
        line = "krl audit: %s, %s: %d revoked in %s, 0 unread (list version 1, %s)\n"
        return line % (*counts, of, date(seconds))


def amount(count, noun):
    return "%d %s%s" % (count, noun, "" if count == 1 else "s")
