"""The reasons that krl_why gives, from C, Rust and Python."""

import hashlib
import os
import random
from pathlib import Path

import krl
from building import BUILT, KRL_H, WARNINGS, compiled, run, told
from files import AUTHORITY, KEY, OTHER, certificate, ids
from numbers_answered import BLOBS, LISTS
from wire import HEADER, certificates, section, serials, string

HERE = os.path.dirname(os.path.abspath(__file__))
CERT = certificate(7, "a")


def hashed(sort, make, blob):
    return section(sort, string(make(blob).digest()))


# The name of each reason in krl.h, and a section of a list that has it alone.
SECTIONS = {
    "KEY": section(2, string(KEY)),
    "KEY_SHA1": hashed(3, hashlib.sha1, KEY),
    "KEY_SHA256": hashed(5, hashlib.sha256, KEY),
    "AUTHORITY": section(2, string(AUTHORITY)),
    "AUTHORITY_SHA1": hashed(3, hashlib.sha1, AUTHORITY),
    "AUTHORITY_SHA256": hashed(5, hashlib.sha256, AUTHORITY),
    "SERIAL": certificates(AUTHORITY, serials(6, 7)),
    "SERIAL_OF_ALL": certificates(b"", serials(7)),
    "KEY_ID": certificates(AUTHORITY, ids("b", "a")),
    "KEY_ID_OF_ALL": certificates(b"", ids("a")),
}
# Sections that name neither the certificate nor its key.
OTHERS = (
    section(2, string(OTHER)),
    hashed(3, hashlib.sha1, OTHER),
    hashed(5, hashlib.sha256, CERT),
    certificates(AUTHORITY, serials(8), ids("b")),
    certificates(b"", serials(6), ids("A")),
    certificates(OTHER, serials(7), ids("a")),
)


def why(library, content, blob):
    return library.krl_why(content, len(content), blob, len(blob))


def bits(tests):
    """Each reason has its own bit, and the sum of all that hold is answered."""
    library = krl.loaded()
    header = Path(KRL_H).read_text(encoding="utf-8")
    wrong = []
    for at, name in enumerate(SECTIONS):
        if "#define KRL_WHY_%s %d\n" % (name, 1 << at) not in header:
            wrong.append("%s in krl.h" % name)
    source = random.Random(1)
    for _ in range(300):
        chosen = [at for at in range(len(SECTIONS)) if source.random() < 0.3]
        parts = [list(SECTIONS.values())[at] for at in chosen]
        parts += [it for it in OTHERS if source.random() < 0.5]
        source.shuffle(parts)
        content = HEADER + b"".join(parts)
        of_cert, of_key = why(library, content, CERT), why(library, content, KEY)
        wanted = sum(1 << at for at in chosen)
        if (of_cert, of_key) != (wanted, wanted & 7):
            wrong.append("%s: %d and %d" % (chosen, of_cert, of_key))
        if library.krl_check(content, len(content), CERT, len(CERT)) != (wanted > 0):
            wrong.append("%s: krl_check says otherwise" % chosen)
    tests.judge("the reasons of 300 lists", wrong)
    faults(tests, library)
    callers(tests, library)


def faults(tests, library):
    """The answers below zero are those of krl_check."""
    good, wrong = HEADER + section(2, string(OTHER)), []
    asked = [(it, KEY) for it in LISTS.values()] + [(good, it) for it in BLOBS.values()]
    for content, blob in asked:
        answers = why(library, content, blob), library.krl_check(
            content, len(content), blob, len(blob)
        )
        if answers[0] != answers[1] or answers[0] >= 0:
            wrong.append("%d, and %d by krl_check" % answers)
    tests.judge("%d faults" % len(asked), wrong)


def callers(tests, library):
    """A caller in C and one in Rust get the same numbers."""
    compiled(tests, os.path.join(HERE, "why.c"), "why_in_c", *WARNINGS)
    words = ["-O", "-L", BUILT, "-l", "krl", "-o", "why_in_rust", os.path.join(HERE, "why.rs")]
    tests.judge("why_in_rust is compiled", told(run("rustc", *words)))
    environment = {**os.environ, "LD_LIBRARY_PATH": BUILT}
    all_of_them, wrong = HEADER + b"".join(SECTIONS.values()), []
    for content in all_of_them, HEADER + SECTIONS["SERIAL"], HEADER, all_of_them[:-3]:
        Path("why.krl").write_bytes(content)
        Path("why.blob").write_bytes(CERT)
        wanted = "%d\n" % why(library, content, CERT)
        for caller in "./why_in_c", "./why_in_rust":
            said = run(caller, "why.krl", "why.blob", env=environment).stdout
            if said != wanted:
                wrong.append("%s: %r, and not %r" % (caller, said, wanted))
    tests.judge("callers of krl_why in C and Rust", wrong)
