"""Cases: some changed files, and the words with which both programs are run on them."""

import random

from fuzz import change


class Case:
    """A case to run: files by name, our runs and OpenSSH's, one after the other."""

    def __init__(self, number, kind):
        self.number = number
        self.kind = kind
        self.files = {}
        self.ours = []
        self.theirs = []
        # Whether a key file has one line, about which both programs say the same.
        self.is_single = False

    def name(self, what):
        return "%d.%s" % (self.number, what)


class Maker:
    """Makes the case of a number from a corpus, the same for the same seed."""

    def __init__(self, corpus, seed, kinds, has_contents):
        self.corpus = corpus
        self.seed = seed
        self.kinds = kinds
        # Whether the program prints the contents of a list.
        self.has_contents = has_contents
        names = list(corpus)
        self.keys = [it for it in names if it.endswith(".pub")]
        self.plain = [it for it in self.keys if not it.startswith("cert")]
        self.certs = [it for it in self.keys if it.startswith("cert")]
        self.lists = [it for it in names if it.endswith(".krl")]
        self.specs = [it for it in names if it.startswith("spec")]
        self.private = [it for it in names if it + ".pub" in corpus]

    def make(self, number):
        source = random.Random("%s:%d" % (self.seed, number))
        case = Case(number, source.choice(self.kinds))
        getattr(self, case.kind)(source, case)
        return case

    def changed(self, source, names, changes):
        """One of these files, changed a few times; it is left as it is now and then."""
        content = self.corpus[source.choice(names)]
        count = 0 if source.random() < 0.03 else 1
        while count and source.random() < 0.3:
            count += 1
        for _ in range(count):
            other = self.corpus[source.choice(names)]
            content = source.choice(changes)(source, content, other)[: change.MOST]
        return content

    def asked(self, source):
        return source.sample(self.plain, 3) + source.sample(self.certs, 6)

    def lists_asked(self, source, case):
        """-Q of a changed list about keys and certificates as they were made."""
        case.files["krl"] = self.changed(
            source, self.lists, [change.change_list, change.change_list, change.change_bytes]
        )
        words = ["-f", case.name("krl")] + self.asked(source)
        prints = source.random() < 0.3 and self.has_contents
        case.ours = [["-Q"] + (["-l"] if prints else []) + words]
        case.theirs = [["-Q"] + words]

    def key_lines(self, source, names):
        changes = [change.change_key, change.change_key, change.change_bytes, change.change_lines]
        return self.changed(source, names, changes)

    def keys_listed(self, source, case):
        """-l of a changed key file, of one line or of several."""
        content = self.key_lines(source, self.keys)
        if source.random() < 0.2:
            content += b"\n" + self.key_lines(source, self.keys)
        case.files["key"] = content
        case.is_single = is_single(content)
        hash_name = source.choice(["sha256", "md5"])
        case.ours = case.theirs = [["-l", "-E", hash_name, "-f", case.name("key")]]

    def keys_asked(self, source, case):
        """-Q of a list as it was made about a changed key file."""
        case.files["key"] = self.key_lines(source, self.keys)
        case.is_single = is_single(case.files["key"])
        case.ours = case.theirs = [["-Q", "-f", source.choice(self.lists), case.name("key")]]

    def certs_listed(self, source, case):
        """-L of a changed certificate."""
        case.files["key"] = self.key_lines(source, self.certs)
        case.is_single = is_single(case.files["key"])
        case.ours = case.theirs = [["-L", "-f", case.name("key")]]

    def private_listed(self, source, case):
        """-l of a changed private key."""
        changes = [
            change.change_private,
            change.change_private,
            change.change_private,
            change.change_bytes,
        ]
        case.files["key"] = self.changed(source, self.private, changes)
        case.is_single = True
        case.ours = case.theirs = [["-l", "-f", case.name("key")]]

    def lists_made(self, source, case):
        """-k of a changed specification file, or -k -u of a list; then queries of both lists."""
        case.files["spec"] = self.changed(
            source, self.specs, [change.change_spec, change.change_spec, change.change_bytes]
        )
        words = (
            []
            if source.random() < 0.05
            else ["-s", source.choice(["none", "ca-one.pub", "ca-two.pub"])]
        )
        if source.random() < 0.8:
            words += ["-z", str(source.choice(change.LARGE))]
        if source.random() < 0.3:
            words += ["-u"]
            case.files["made"] = case.files["theirs"] = self.changed(
                source, self.lists, [change.change_list]
            )
        files = self.asked(source)
        case.ours = [
            ["-k", "-f", case.name("made")] + words + [case.name("spec")],
            ["-Q", "-f", case.name("made")] + files,
        ]
        case.theirs = [["-k", "-f", case.name("theirs")] + words + [case.name("spec")]]
        case.theirs += [["-Q", "-f", case.name(it)] + files for it in ("made", "theirs")]


def is_single(content):
    """Whether exactly one line of it could be a key, and that line has only printable ASCII
    characters."""
    lines = [it.lstrip(b" \t").rstrip(b" \t\r") for it in content.split(b"\n")]
    lines = [it for it in lines if it and not it.startswith(b"#")]
    return len(lines) == 1 and all(0x20 <= it < 0x7F for it in lines[0])
