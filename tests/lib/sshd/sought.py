"""Audits what sshds read for keys by texts at random, beside a model.

    python3 tests/lib/sshd/sought.py [--seed TEXT] [--cases NUMBER]

A text of sshd -T and one of users have words, names, homes and numbers at random, also such that
look like others. The model reads both as sshd_config(5) and passwd(5) say, and shares nothing with
the program. It says which files are named, in which order, and what is said of each. At each path
that a word, a user or another reading of them could mean there is a file, nothing, or something
that is no file. Each file has keys of its own, so a wrong path is seen. Each text is then made
wrong, and refused. The same seed gives the same files.
The environment may name another build of krl in KRL.
"""

import argparse
import base64
import hashlib
import json
import os
import random
import re
import subprocess
import sys
import tempfile

sys.dont_write_bytecode = True
sys.path.append(os.path.join(os.path.dirname(os.path.abspath(__file__)), ".."))
import files
import trial
from wire import HEADER, section, string, strings

NAMES = ["bob", "ann", "none", "known_hosts", "a b", "%h", "id_x", "%U", "x.pub", "7", "Bob", "é"]
NAMES += ["a?"]
HOMES = ["h/bob", "h/ann", "h/a b", "h/%u", "h/bob/", "h//ann", "h/né", "h/0x7", "n", "h/%h%%"]
HOMES += ["h"]
NUMBERS = ["0", "7", "007", "1000", "1001", "255", "4294967295", "65534", "0000"]
WORDS = [".ssh/authorized_keys", "%h/.k/%u", "ROOM/n/%u", "ROOM/i/%U", "ROOM/p%%/%u-%U", "none"]
WORDS += ["None", "nonesuch", "%u", "x%U", "ROOM/one", "./%u", "ROOM/n/../n/%u", "%%u", "keys2"]
WORDS += ["%h/%%h", "ROOM/n/b*", "[x]/%u"]
WRONG_WORDS = ["%x", "ROOM/%", "%H/x", "ROOM/n/%%%", "%uu%d"]
WRONG_USERS = ["eve:x:7:7::/h", "+", "-eve:x:7:7::/h:", ":x:7:7::/h:", "e:x:0x7:7::/h:"]
WRONG_USERS += ["e:x::7::/h:"]
# A path that has one may stand for others.
WILDCARDS = "*?[\\"
COMMANDS = ["none", "NONE", "/usr/bin/x %u", "/x"]
OUTPUT = "output"
SETTINGS = ["authorizedkeysfile", "trustedusercakeys", "revokedkeys", "authorizedkeyscommand"]


# ---- the model


def expanded(word, user):
    """The path of a word, as TOKENS and AuthorizedKeysFile of sshd_config(5) say."""
    name, number, home = user
    values = {"%%": "%", "%h": home, "%u": name, "%U": "%d" % int(number, 10)}
    path = re.sub("%.", lambda found: values[found.group()], word)
    return path if path.startswith("/") else home + "/" + path


def users_of(text):
    """The users of a text: the name, the number and the home."""
    lines = [it.lstrip(" \t") for it in text.split("\n")]
    fields = [it.split(":", 6) for it in lines if it and not it.startswith("#")]
    return [(it[0], it[2], it[5]) for it in fields]


def sought(texts, users, asked):
    """What is audited: the path or the command, and its kind, each of them once."""
    found = []
    for text in texts:
        lines = [it.partition(" ")[::2] for it in text.splitlines()]
        value, every = dict(lines), lambda word: [it for name, it in lines if name == word]
        words = value["authorizedkeysfile"].split()
        words = [it for it in words if it.lower() != "none"]
        found += [(expanded(word, user), "keys") for user in users for word in words]
        if value["trustedusercakeys"].lower() != "none":
            found.append((value["trustedusercakeys"], "keys"))
        found += [(it, "host") for it in every("hostkey")]
        found += [(it, "keys") for it in every("hostcertificate")]
        if value["authorizedkeyscommand"].lower() != "none" and not asked:
            found.append((value["authorizedkeyscommand"], "command"))
    return list(dict.fromkeys(found))


# ---- files


class Disk:
    """The files of a case, each with keys of its own, of which some are revoked."""

    def __init__(self, source, room):
        self.source, self.room = source, room
        self.count, self.keys, self.revoked, self.odd = 0, {}, [], set()

    def key(self):
        self.count += 1
        blob = files.ed25519(0)[:-32] + hashlib.sha256(b"%d" % self.count).digest()
        if self.source.randrange(3) == 0:
            self.revoked.append(blob)
        return blob

    def write(self, path, content, keys):
        """A file with these keys, each on the line of its number, unless another is there."""
        if os.path.lexists(path):
            return
        try:
            os.makedirs(os.path.dirname(path), exist_ok=True)
        except OSError:
            return
        with open(path, "w") as out:
            out.write(content)
        self.keys[os.path.realpath(path)] = keys

    def put_keys(self, path):
        blobs = [self.key() for _ in range(self.source.choice([1, 1, 2]))]
        content = "# keys\n" + "".join(files.line(it) for it in blobs)
        self.write(path, content, list(enumerate(blobs, 2)))

    def put_private(self, path):
        blob = self.key()
        content = files.container(blob, strings("ssh-ed25519", blob[-32:], bytes(64)), "")
        self.write(path, content, [(1, blob)])

    def put_certificate(self, path):
        blob = self.key()
        self.write(path, files.line(files.certificate(7, "x", key=blob)), [(1, blob)])

    def put_odd(self, path):
        """No file, which is unread."""
        if os.path.lexists(path):
            return
        try:
            os.makedirs(os.path.dirname(path), exist_ok=True)
            sort = self.source.randrange(3)
            if sort == 0:
                os.mkfifo(path)
            elif sort == 1:
                os.symlink(os.path.basename(path), path)
            else:
                os.mkdir(path)
        except OSError:
            pass

    def put(self, path):
        sort = self.source.randrange(10)
        if sort < 7:
            self.put_keys(path)
        elif sort == 7:
            self.put_odd(path)

    def put_host(self, path):
        sort = self.source.randrange(5)
        if sort < 3:
            self.put_private(path)
        if sort in (0, 1, 4):
            self.put_keys(path + ".pub")

    def list_of(self):
        return HEADER + section(2, *(string(it) for it in self.revoked))


class Said:
    """What is said of the files."""

    def __init__(self, disk):
        self.disk, self.objects, self.seen = disk, [], set()

    def unread(self, shown):
        self.objects.append((shown, None, "unread", None))

    def file(self, path):
        try:
            is_file = os.path.isfile(path) or not os.stat(path)
        except (FileNotFoundError, NotADirectoryError):
            return
        except OSError:
            is_file = False
        if not is_file:
            self.unread(path)
            return
        real = os.path.realpath(path)
        if real in self.seen:
            self.objects.append((path, None, "same", None))
            return
        self.seen.add(real)
        for number, blob in self.disk.keys[real]:
            status = "revoked" if blob in self.disk.revoked else "ok"
            digest = base64.b64encode(hashlib.sha256(blob).digest()).decode().rstrip("=")
            self.objects.append((path, number, status, "SHA256:" + digest))

    def one(self, path, kind):
        if kind == "command":
            self.unread("AuthorizedKeysCommand " + path)
        elif kind == "keys" and any(it in path for it in WILDCARDS):
            self.unread(path)
        elif kind == "host" and os.path.exists(path + ".pub"):
            self.file(path + ".pub")
        else:
            self.file(path)

    def status(self):
        statuses = [it[2] for it in self.objects]
        return 1 if "revoked" in statuses else 3 if "unread" in statuses else 0


# ---- texts at random


class Case:
    def __init__(self, source, room):
        self.source, self.room = source, room
        self.disk = Disk(source, room)
        self.users = [self.user() for _ in range(source.choice([1, 1, 2, 3, 5, 9]))]
        self.words = [self.rooted(it) for it in WORDS]
        self.hosts = [room + "/host/" + it for it in ("a", "b", "c.pub", "gone/x")]
        self.certificates = [room + "/host/cert%d.pub" % it for it in range(2)]
        self.ca = source.choice(["none", "None", room + "/ca", room + "/ca", room + "/gone"])
        self.command = source.choice(COMMANDS)
        self.texts = [self.text() for _ in range(source.choice([1, 1, 1, 2, 3]))]
        self.passwd = self.passwd_text()
        self.outputs = source.choice([0, 0, 1, 2])

    def rooted(self, word):
        return word.replace("ROOM", self.room)

    def user(self):
        pick = self.source.choice
        return pick(NAMES), pick(NUMBERS), self.room + "/" + pick(HOMES)

    def text(self):
        pick = self.source.choice
        words = [pick(self.words) for _ in range(pick([0, 1, 2, 2, 4]))] or ["none"]
        lines = ["authorizedkeysfile " + pick([" ", " ", "  "]).join(words)]
        lines += ["trustedusercakeys " + self.ca, "authorizedkeyscommand " + self.command]
        lines += ["revokedkeys %s/a list" % self.room, "port 22", "authorizedprincipalsfile none"]
        lines += ["hostkeyagent none", "permitrootlogin yes", "acceptenv LANG"]
        self.source.shuffle(lines)
        # Lines of one word keep their order.
        lines += ["hostkey " + pick(self.hosts) for _ in range(pick([0, 1, 2, 3]))]
        lines += ["hostcertificate " + pick(self.certificates) for _ in range(pick([0, 0, 1, 2]))]
        return "".join(it + "\n" for it in lines)

    def passwd_text(self):
        pick = self.source.choice
        lines = []
        for name, number, home in self.users:
            lines += [pick(["", "# a:b", "  # x:x:1:1::/:", " \t"]) for _ in range(pick([0, 0, 1]))]
            shell = pick(["/bin/sh", "", "/bin/sh:x", "/usr/sbin/nologin"])
            password, gecos = pick(["x", "*", "!", ""]), pick(["", "A B", "%h", "#"])
            lines.append(":".join([name, password, number, "100", gecos, home, shell]))
        return "\n".join(lines) + pick(["", "\n"]) * bool(lines)

    def likely(self):
        """Paths that the texts mean, or that a wrong reading of them would."""
        numbers = ["%d", "%s", "%x", "0x%x", "%o"]
        for name, number, home in self.users:
            of = [(name, number, home), (name, number, "."), (name, number, self.room + "/cwd")]
            for word in self.words:
                yield from (expanded(word, it) for it in of)
                yield home + "/" + word
                yield from (
                    word.replace("%h", home).replace("%u", name).replace("%U", it % int(number, 10))
                    for it in numbers
                )
                swapped = {"%u": "%U", "%U": "%u", "%h": "%u"}
                yield expanded(re.sub("%[uUh]", lambda it: swapped[it.group()], word), of[0])
        yield from [self.ca, self.room + "/none"]

    def fill(self):
        os.makedirs(self.room + "/cwd")
        os.chdir(self.room + "/cwd")
        for it in sorted(set(map(os.path.abspath, self.likely()))):
            if it.startswith(self.room + "/"):
                self.disk.put(it)
        for it in self.hosts[:3]:
            self.disk.put_host(it)
        for it in self.certificates:
            if self.source.randrange(4):
                self.disk.put_certificate(it)
        for it in range(self.outputs):
            self.disk.put_keys("%s/cwd/%s%d" % (self.room, OUTPUT, it))
        with open(self.room + "/a list", "wb") as out:
            out.write(self.disk.list_of())

    def write_texts(self):
        for it, text in enumerate(self.texts):
            with open("sshd%d" % it, "w") as out:
                out.write(text)
        with open("users", "w") as out:
            out.write(self.passwd)

    def command_line(self):
        words = [trial.KRL, "audit", "-a", "--json", "--passwd", "users"]
        for it in range(len(self.texts)):
            words += ["--sshd", "sshd%d" % it]
        for it in range(self.outputs):
            words += ["--command-output", OUTPUT + str(it)]
        return words

    def wanted(self):
        said = Said(self.disk)
        for path, kind in sought(self.texts, users_of(self.passwd), self.outputs > 0):
            said.one(path, kind)
        for it in range(self.outputs):
            said.file(OUTPUT + str(it))
        return said.objects, said.status()

    def spoil(self):
        """Makes a text wrong. Returns how the fault ends."""
        sort = self.source.randrange(4)
        at = self.source.randrange(len(self.texts))
        if sort == 0:
            word = self.source.choice(SETTINGS)
            line = re.search("^%s .*\n" % word, self.texts[at], re.M).group()
            other = self.source.choice(["", line * 2])
            self.texts[at] = self.texts[at].replace(line, other)
            return " [sshd 1 NoSettings]\n"
        if sort == 1:
            lines = self.passwd.split("\n")
            number = self.source.randrange(len(lines))
            lines.insert(number, self.source.choice(WRONG_USERS))
            self.passwd = "\n".join(lines)
            return ": line %d: it is no user, as getent passwd prints them [sshd 2 NoUser]\n" % (
                number + 1
            )
        if sort == 2:
            self.passwd = self.source.choice(["", "\n", "# x:x:1:1::/:\n"])
            return ": it has no user [sshd 2 NoUser]\n"
        word = self.rooted(self.source.choice(WRONG_WORDS))
        key = "authorizedkeysfile "
        self.texts[at] = self.texts[at].replace(key, key + word + " ")
        return ": sshd expands no such word: %s [sshd 3 BadToken]\n" % word


def answer(words):
    done = subprocess.run(words, capture_output=True, timeout=30, stdin=subprocess.DEVNULL)
    return done.returncode, done.stdout.decode(), done.stderr.decode()


def objects_of(output):
    """The objects, and the last one, which counts them."""
    every = [json.loads(it) for it in output.splitlines()]
    rest = [
        (it["file"], it.get("line"), it["status"], it.get("fingerprint")) for it in every[:-1]
    ]
    return rest, every[-1]


def differences(case):
    """What differs in a case, whose texts are right."""
    wanted, status = case.wanted()
    got_status, output, error = answer(case.command_line())
    if got_status == 255 or not output:
        return ["it ends with status %d: %s" % (got_status, error)]
    got, last = objects_of(output)
    wrong = []
    if got_status != status:
        wrong.append("the status is %d instead of %d" % (got_status, status))
    if got != wanted:
        wrong += ["wanted %s" % (it,) for it in wanted if it not in got][:2]
        wrong += ["got %s" % (it,) for it in got if it not in wanted][:2]
        wrong = wrong or ["they are in another order"]
    same = [it[0] for it in wanted if it[2] == "same"]
    counts = {
        "files": len({it[0] for it in wanted if it[2] != "same"}),
        "keys": len([it for it in wanted if it[3]]),
        "revoked": len([it for it in wanted if it[2] == "revoked"]),
        "unread": len([it for it in wanted if it[2] == "unread"]),
        "same": len(same),
    }
    for it, count in counts.items():
        if last[it] != count:
            wrong.append("%d %s instead of %d" % (last[it], it, count))
    return wrong


def refusals(case, end):
    """What differs in a case with a text that is refused."""
    status, output, error = answer(case.command_line())
    wrong = []
    if (status, output) != (255, ""):
        wrong.append("it ends with status %d and %d bytes" % (status, len(output)))
    if not error.endswith(end) or error.count("\n") != 1:
        wrong.append("wanted %r, got %r" % (end, error))
    return wrong


def tried(case):
    """What differs in a case, and then with one of its texts wrong."""
    case.fill()
    case.write_texts()
    wrong = differences(case)
    end = case.spoil()
    case.write_texts()
    return wrong, refusals(case, end)


def main():
    words = argparse.ArgumentParser(description=__doc__)
    words.add_argument("--seed", default="of sshd")
    words.add_argument("--cases", type=int, default=100)
    words = words.parse_args()
    tests = trial.Tests()
    named, refused = [], []
    with tempfile.TemporaryDirectory() as folder:
        for at in range(words.cases):
            source = random.Random("%s %d" % (words.seed, at))
            case = Case(source, os.path.realpath(folder) + "/room%d" % at)
            try:
                wrong, why_not = tried(case)
            except subprocess.TimeoutExpired:
                named.append("case %d: it does not end" % at)
                break
            named += ["case %d: %s" % (at, it) for it in wrong]
            refused += ["case %d: %s" % (at, it) for it in why_not]
        os.chdir("/")
    tests.judge("%d texts at random, seed %s" % (words.cases, words.seed), named)
    tests.judge("%d texts that are wrong, at random" % words.cases, refused)
    tests.end()


if __name__ == "__main__":
    main()
