"""Lists that OpenSSH reads, and what its ssh-keygen answers about keys and certificates."""

import base64
import os
import shutil
import subprocess
from pathlib import Path

from texts import at_random
from texts.keys import key

OPENSSH = os.environ.get("OPENSSH", "ssh-keygen")
AUTHORITIES = {"ca-one": "ed25519", "ca-two": "ecdsa", "ca-three": "ed25519"}
IDS = [b"bob", b"a b  c", b" bob", "Zo\u00eb".encode(), b"eve#1", b'"bob"', b"a, b", b"'"]
# The serial numbers of certificates are 1, 2 and so on, up to this one.
SERIALS = 6


def run(*words):
    subprocess.run([OPENSSH, "-q", *words], check=True, stdin=subprocess.DEVNULL)


def blob_of(name):
    return base64.b64decode(Path(name).read_bytes().split()[1])


class Subject:
    """The file of a key or of a certificate, and what it has."""

    def __init__(self, name, *facts):
        self.name = name
        self.facts = facts


def signed(authority, count, key_id, first):
    """Certificates of the key one.pub, with serial numbers from the first one on."""
    stems = ["%s-%d-%s" % (authority, first + at, key_id.hex()) for at in range(count)]
    for stem in stems:
        shutil.copy("one.pub", stem + ".pub")
    words = ["-s", authority, "-I", key_id.decode(), "-z", "+%d" % first]
    run(*words, *(stem + ".pub" for stem in stems))
    for at, stem in enumerate(stems):
        os.remove(stem + ".pub")
        facts = blob_of("one.pub"), blob_of(authority + ".pub"), first + at, key_id
        yield Subject(stem + "-cert.pub", *facts)


def subjects():
    """Keys and certificates that OpenSSH makes, in the current folder."""
    for name, sort in {**AUTHORITIES, "one": "ed25519", "two": "ecdsa"}.items():
        run("-t", sort, "-N", "", "-C", name, "-f", name)
        yield Subject(name + ".pub", blob_of(name + ".pub"))
    for authority in AUTHORITIES:
        yield from signed(authority, SERIALS, b"nobody", 1)
        for key_id in IDS:
            yield from signed(authority, 1, key_id, 1000)


class Pool(at_random.Pool):
    """Lists of these keys, authorities and key IDs. OpenSSH reads none with serial number 0, an
    extension, a signature that is wrong, or a zero byte in a text."""

    def __init__(self, source, asked):
        super().__init__(source)
        others = [key(source, [b"ssh-ed25519"]) for _ in range(4)]
        self.authorities = [blob_of(it + ".pub") for it in AUTHORITIES] + others[:2]
        # A list that names an authority or the one key says little more.
        self.blobs = [blob_of("two.pub")] * 4 + others * 4 + [it.facts[0] for it in asked[:4]]
        self.ids = IDS + [b"no %d" % at for at in range(10)]
        self.under, self.sections, self.signed = at_random.UNDER, at_random.SECTIONS, 0

    def serial(self):
        return self.source.choice([1, 2, 1000, self.source.randrange(1, 300), 1 << 63])


def answers(name, asked):
    """For each subject whether it is revoked, or what is wrong."""
    ran = subprocess.run(
        [OPENSSH, "-Q", "-f", name, *(it.name for it in asked)], capture_output=True
    )
    lines = ran.stdout.splitlines()
    if ran.returncode not in (0, 1) or len(lines) != len(asked):
        return "OpenSSH ends with status %d: %r" % (ran.returncode, ran.stderr)
    return [line.endswith(b": REVOKED") for line in lines]
