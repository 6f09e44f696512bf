"""Real files for the fuzzer to change: what the installed OpenSSH makes, once for a folder."""

import os
import random
import subprocess

from wire import HIGHEST

KEYS = [("ed25519", "ed25519", None), ("rsa", "rsa", "1024"), ("ecdsa", "ecdsa", "256")]
KEYS += [("ecdsa384", "ecdsa", "384"), ("ecdsa521", "ecdsa", "521"), ("dsa", "dsa", None)]
AUTHORITIES = [("ca-one", "ed25519", None), ("ca-two", "ecdsa", "256"), ("ca-three", "rsa", "1024")]
CERTS = [
    ["-I", "id 1", "-z", "7"],
    ["-I", "id 2", "-z", str(HIGHEST), "-n", "root,backup", "-O", "force-command=ls -l"],
    ["-I", "id 3", "-h", "-n", "host.example", "-V", "always:20300101"],
    ["-I", "", "-z", "1000", "-O", "clear", "-O", "critical:a@b=c", "-O", "extension:d@e"],
]


def made(program, folder, words):
    """Whether the program did what the words say."""
    done = subprocess.run(
        [program] + words, cwd=folder, capture_output=True, stdin=subprocess.DEVNULL
    )
    return done.returncode == 0


def make_keys(openssh, folder):
    for name, sort, bits in KEYS + AUTHORITIES:
        words = ["-t", sort, "-N", "", "-C", "of " + name, "-f", name]
        made(openssh, folder, words + (["-b", bits] if bits else []))
    made(openssh, folder, ["-t", "ed25519", "-N", "a passphrase", "-C", "closed", "-f", "closed"])
    with open(os.path.join(os.path.dirname(__file__), "..", "device_keys")) as lines:
        for at, line in enumerate(lines):
            with open(os.path.join(folder, "device%d.pub" % at), "w") as out:
                out.write("%s of device%d\n" % (line.strip(), at))


def make_certs(openssh, folder):
    keys = sorted(
        it
        for it in os.listdir(folder)
        if it.endswith(".pub") and not it.startswith(("ca-", "closed"))
    )
    for number, key in enumerate(keys):
        for at, words in enumerate(CERTS):
            authority = AUTHORITIES[(number + at) % len(AUTHORITIES)][0]
            if made(openssh, folder, ["-s", authority] + words + [key]):
                os.rename(
                    os.path.join(folder, key[:-4] + "-cert.pub"),
                    os.path.join(folder, "cert%d-%s" % (at, key)),
                )


def line_of(folder, name):
    with open(os.path.join(folder, name)) as file:
        return file.read().strip()


def directives(folder, source):
    """The lines of a specification file, of some sort."""
    keys = sorted(it for it in os.listdir(folder) if it.endswith(".pub"))
    low, width = source.choice(
        [(1, 20), (1, 300), (990, 100), (1, 10**6), (HIGHEST - 400, 400), (1, HIGHEST - 1)]
    )
    lines = []
    for _ in range(source.randrange(1, 40)):
        sort = source.randrange(12)
        at = low + source.randrange(width)
        if sort < 6:
            lines.append("serial: %s" % source.choice(["%d", "0x%x", "0%o"]) % at)
        elif sort < 8 and at < HIGHEST:
            lines.append("serial: %d-%d" % (at, min(HIGHEST, at + 1 + source.randrange(100))))
        elif sort < 10:
            lines.append("id: id %d" % source.randrange(12))
        elif sort == 10:
            lines.append(
                "%s: %s"
                % (source.choice(["key", "sha1", "sha256"]), line_of(folder, source.choice(keys)))
            )
        else:
            lines.append(line_of(folder, source.choice(keys)))
    return lines


def make_lists(openssh, program, folder):
    """Lists that OpenSSH's program makes, and ours where it can."""
    source = random.Random(4711)
    for number in range(40):
        spec, krl = "spec%d" % number, "list%d.krl" % number
        with open(os.path.join(folder, spec), "w") as out:
            out.writelines(line + "\n" for line in directives(folder, source))
        words = ["-k", "-f", krl, "-z", str(source.choice([0, 1, 77, HIGHEST]))]
        made(
            openssh,
            folder,
            words + ["-s", source.choice(["ca-one.pub", "ca-two.pub", "none"]), spec],
        )
        if program and number % 2 == 0:
            made(program, folder, ["-k", "-f", "own%d.krl" % number, "-s", "none", spec])
        if number % 3 == 0:
            made(openssh, folder, words + ["-u", "-s", "ca-three.pub", spec])


def make(openssh, program, folder):
    """The folder, filled; with lists of our program, if one is given."""
    if not os.path.exists(os.path.join(folder, "whole")):
        os.makedirs(folder, exist_ok=True)
        make_keys(openssh, folder)
        make_certs(openssh, folder)
        make_lists(openssh, program, folder)
        open(os.path.join(folder, "whole"), "w").close()


def read(folder):
    """The contents by name, sorted."""
    contents = {}
    for name in sorted(os.listdir(folder)):
        with open(os.path.join(folder, name), "rb") as file:
            contents[name] = file.read()
    return contents
