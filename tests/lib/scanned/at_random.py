"""Scans trees of texts at random, beside a model.

    python3 tests/lib/scanned/at_random.py [--seed TEXT] [--cases NUMBER]

Each text is written as people and programs write keys: lines of authorized_keys and known_hosts,
JSON, Terraform, cloud-init, LDIF and prose, with other line ends, tabs, bytes that are not UTF-8,
and without a last line feed. Names are within longer words, and base64 is cut or of another type.
The keys are OpenSSH's, and it says which of them the list revokes. The model, in places.py, says
where they are. The same seed gives the same texts around new keys.
The environment may name another build of krl in KRL, and OpenSSH's ssh-keygen in OPENSSH.
"""

import argparse
import json
import os
import random
import subprocess
import sys
import tempfile

sys.dont_write_bytecode = True
sys.path.append(os.path.join(os.path.dirname(os.path.abspath(__file__)), ".."))
import places
import trial
from findings import Run, Wanted

OPENSSH = os.environ.get("OPENSSH", "ssh-keygen")
SORTS = [("ed25519",), ("ed25519",), ("ecdsa", "-b", "256"), ("ecdsa", "-b", "521")]
SORTS += [("rsa", "-b", "2048"), ("rsa", "-b", "3072"), ("ecdsa", "-b", "384"), ("ed25519",)]
# What stands before a name. Behind some of these it is within a longer word.
FRONTS = [b"", b" ", b"\t", b'"', b"'", b"=", b",", b":", b"(", b"<k>", b"_", b"/", b"+", b"\\n"]
FRONTS += [b"\\r\\n", b"\\t", b"\xc3\xa9", b"\xff", b"\0", b"\\", b"#", b"|", b"%20"]
FRONTS += [b"a", b"Z", b"7", b"-", b".", b"@", b"\\x", b"\\b", b"x-", b"my.", b"key@", b"\\u006e"]
GAPS = [b" ", b"\t", b"  ", b" \t ", b" " * 9, b"", b"\\t", b"\xc2\xa0", b"\r", b"%20", b",", b"\v"]
ENDS = [b"", b" me@host", b"\r", b'"', b"',", b"\\n", b"\\", b"\t", b"=", b"-", b".", b"\xe9", b"\\/"]
ENDS += [b"\\u003d", b"&", b"</k>", b"\0", b" ssh-rsa", b"A", b"==", b"/", b"\\r", b"$"]
LINE_ENDS = [b"\n", b"\n", b"\n", b"\r\n", b"\n\n", b"\r", b"\n\r"]
PROSE = [b"use an ssh-rsa key for bob", b"ssh-ed25519 AAAA", b"ssh-rsa AAAAB3NzaC1yc2E=", b"# none"]
PROSE += [b"ssh-dss AAAAB3NzaC1kc3M", b"ssh-rsa", b"ecdsa-sha2-nistp256", b"\xff\xfe\0\1", b""]
PROSE += [b"algorithms: ssh-ed25519,ssh-rsa", b"AAAAC3NzaC1lZDI1NTE5AAAA ssh-ed25519", b"-ssh- -"]
NAMES = [b"authorized_keys", b"known_hosts", b"main.tf", b"user-data", b"a.json", b"a b", b"-f", b"x"]
NAMES += [b"id_rsa", b"\x1b[31m", b"a\nb", b"caf\xc3\xa9", b"\xc2\x9b", b"tab\t", b"\xe2\x80\xae", b"*"]
NAMES += [b"x.pub", b"config", b"ORIG_HEAD", b"dump.ldif", b".hidden", b"log: 1", b"\x7f"]
FOLDERS = [b".git", b".git/objects/ab", b"a", b"a/b c", b".ssh", b"node_modules/x", b"d\n"]


# ---- keys


class Keys:
    """Keys of OpenSSH, of which the list in a room revokes some."""

    def __init__(self, room):
        self.room, self.names = room, []
        for at, sort in enumerate(SORTS):
            self.make("k%d" % at, *sort)
        # Certificates: revoked by their keys, by their serial numbers, and not at all.
        for at, name in enumerate(["k0", "k2", "k4", "k7"]):
            self.run("-q", "-s", "k1", "-I", "id %d" % at, "-z", str(at), name + ".pub")
            self.names.append(name + "-cert")
        self.run("-q", "-k", "-f", "r.krl", "-s", "k1.pub", "-", given=b"serial: 1\nserial: 3\n")
        self.run("-q", "-k", "-u", "-f", "r.krl", "k0.pub", "k4.pub", "k6.pub")
        self.lines = [self.line_of(it) for it in self.names]

    def make(self, name, sort, *words):
        self.run("-q", "-N", "", "-C", "", "-f", name, "-t", sort, *words)
        self.names.append(name)

    def run(self, *words, given=b""):
        subprocess.run([OPENSSH, *words], cwd=self.room, check=True, input=given)

    def line_of(self, name):
        with open("%s/%s.pub" % (self.room, name), "rb") as given:
            return tuple(given.read().split()[:2])


# ---- texts


class Writer:
    """Writes keys as a source of random numbers says."""

    def __init__(self, source, keys):
        self.source, self.keys = source, keys
        self.pick = source.choice

    def key(self):
        """A type and a word, which is cut, changed or of another type now and then."""
        name, word = self.pick(self.keys.lines)
        sort = self.source.randrange(16)
        if sort == 0:
            word = word[: self.source.randrange(len(word))]
        elif sort == 1:
            word = word.rstrip(b"=") + self.pick([b"", b"=", b"==", b"===", b"A"])
        elif sort == 2:
            at = self.source.randrange(len(word))
            word = word[:at] + self.pick([b"-", b"_", b" ", b"=", b"\n ", b"\\", b"\\\\"]) + word[at:]
        elif sort == 3:
            name = self.pick(places.NAMES).encode()
        elif sort == 4:
            word += self.pick([b"AAAA", word, b"AA=="])
        return name, word

    def escaped(self, word):
        """The word, with some or all of its slashes as JSON may spell them."""
        share = self.pick([0, 0, 0.5, 1])
        return b"/".join(
            part + b"\\" * (self.source.random() < share and at < word.count(b"/"))
            for at, part in enumerate(word.split(b"/"))
        )

    def loose(self):
        """A key between bytes at random."""
        name, word = self.key()
        front = self.pick(FRONTS) if self.source.random() < 0.6 else b" "
        gap = self.pick(GAPS) if self.source.random() < 0.3 else b" "
        end = self.pick(ENDS) if self.source.random() < 0.6 else b" "
        return front + name + gap + self.escaped(word) + end

    def plain(self):
        return b" ".join(self.key())

    def loose_line(self):
        return b"".join(self.loose() for _ in range(self.pick([1, 1, 1, 2, 2, 3, 7])))

    def authorized(self):
        options = [b"", b'from="10.0.0.0/8",command="a \\"b\\"" ', b"# ", b"cert-authority ", b"\t "]
        return self.pick(options) + self.plain() + self.pick([b"", b" me@host", b" ssh-rsa key"])

    def known_host(self):
        hosts = [b"a.example,10.0.0.1 ", b"[a]:2222 ", b"@cert-authority *.a ", b"@revoked * "]
        return self.pick(hosts + [b"|1|F1E1KeoE/eEWhi10WpGv4OdiO6Y=|3988QV0VE8w= "]) + self.plain()

    def json_text(self):
        keys = [b" ".join(self.key()).decode() for _ in range(self.pick([1, 2, 3]))]
        text = {"user": "bob", "keys": keys, "one": self.pick(["\n", "\r\n", "\t", " "]).join(keys)}
        indent = self.pick([None, 2])
        return self.escaped(json.dumps(text, indent=indent).encode())

    def terraform(self):
        form = self.pick([b'  public_key = "%s me"', b"  keys = <<EOT\n%s\nEOT", b"key=%s;", b"(%s)"])
        return form % self.plain()

    def cloud_init(self):
        form = self.pick([b"  - %s bob", b'ssh_authorized_keys: ["%s"]', b"  - '%s'", b"\t- %s"])
        return form % self.plain()

    def ldif(self):
        form = self.pick([b"sshPublicKey: %s", b"sshPublicKey:%s", b"sshPublicKey:: %s"])
        line = form % self.plain()
        if self.source.random() < 0.3:
            line = b"\n ".join(line[at : at + 76] for at in range(0, len(line), 76))
        return line

    def line(self):
        ways = [self.loose_line] * 4 + [self.authorized, self.known_host, self.json_text]
        ways += [self.terraform, self.cloud_init, self.ldif, lambda: self.pick(PROSE)]
        return self.pick(ways)()

    def text(self):
        sort = self.source.randrange(20)
        if sort == 0:
            return b""
        if sort == 1:
            return self.source.randbytes(self.source.randrange(3000)) + self.line()
        if sort == 2:
            return b"x" * self.source.randrange(70000) + self.loose_line() + b"\n" + self.line()
        if sort == 3:
            return (self.plain() + self.pick([b"\n", b",", b" "])) * self.pick([19, 20, 21, 22, 45])
        lines = [self.line() + self.pick(LINE_ENDS) for _ in range(self.pick([1, 2, 3, 5, 9]))]
        text = b"".join(lines)
        return text if self.source.random() < 0.6 else text.rstrip(b"\r\n")


# ---- trees


class Case:
    """A folder with files, and now and then what is none."""

    def __init__(self, source, keys, top):
        self.source, self.top = source, top
        self.writer = Writer(source, keys)
        self.files = []
        for folder in [b""] + source.sample(FOLDERS, 3):
            for name in source.sample(NAMES, source.choice([1, 2, 3, 5])):
                self.put(os.path.join(top, folder), name)
        self.put_odd()

    def put(self, folder, name):
        os.makedirs(folder, exist_ok=True)
        path = folder.rstrip(b"/") + b"/" + name
        if os.path.lexists(path):
            return
        with open(path, "wb") as out:
            out.write(self.writer.text())
        self.files.append(path)

    def put_odd(self):
        sort = self.source.randrange(8)
        path = self.top + b"/odd"
        if sort == 0:
            os.link(self.files[0], path)
        elif sort == 1:
            os.symlink(self.files[-1], path)
        elif sort == 2:
            os.symlink(b"gone", path)
        elif sort == 3:
            os.mkfifo(path)
        elif sort == 4:
            with open(path + b"\xe9", "wb") as out:
                out.write(self.writer.plain())
        elif sort == 5:
            with open(path, "wb") as out:
                out.write(self.writer.plain() + b"\n")
                out.truncate(self.source.choice([(16 << 20) + 1, 16 << 20]))

    def tried(self, answers, list_name):
        """What differs: in a tree, in a file that is named, and in a text on standard input."""
        wrong = []
        for options in [(), ("-a",), ("--json",), ("-a", "--json")]:
            wanted = Wanted(answers, "-a" in options)
            wanted.tree(self.top)
            wrong += Run(list_name, [self.top], options).differences(wanted)
        options = self.source.choice([("-a",), ("-a", "--json")])
        named = self.source.choice(self.files)
        wanted = Wanted(answers, True)
        wanted.file(named)
        wrong += Run(list_name, [named], options).differences(wanted)
        text = self.writer.text()
        wanted = Wanted(answers, True)
        wanted.text(b"-", text)
        wrong += Run(list_name, [b"-"], options, text).differences(wanted)
        return wrong, wanted


def main():
    words = argparse.ArgumentParser(
        description=__doc__, formatter_class=argparse.RawDescriptionHelpFormatter
    )
    words.add_argument("--seed", default="of places")
    words.add_argument("--cases", type=int, default=150)
    words = words.parse_args()
    tests = trial.Tests()
    wrong, kinds = [], dict.fromkeys(["revoked", "ok", "unread"], 0)
    with tempfile.TemporaryDirectory() as room:
        keys = Keys(room)
        answers = places.Answers(OPENSSH, room + "/r.krl", room)
        for at in range(words.cases):
            source = random.Random("%s %d" % (words.seed, at))
            case = Case(source, keys, os.fsencode(room) + b"/tree%d" % at)
            try:
                found, _ = case.tried(answers, room + "/r.krl")
            except subprocess.TimeoutExpired:
                wrong.append("case %d: it does not end" % at)
                break
            wrong += ["case %d: %s" % (at, it) for it in found]
        for kind, _ in answers.known.values():
            kinds[kind] += 1
    tests.judge("%d trees at random, seed %s" % (words.cases, words.seed), wrong)
    tests.judge("their keys are of each kind", [it for it, number in kinds.items() if number < 4])
    tests.end()


if __name__ == "__main__":
    main()
