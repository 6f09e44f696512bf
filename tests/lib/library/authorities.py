"""Lists that name a certificate authority in another spelling than its key's own, no key, or a key
that OpenSSH refuses; and lists and certificates with a key ID that has a zero byte."""

import base64
import os
import struct
from pathlib import Path

import krl
from building import run
from files import AUTHORITY, DEVICE, ECDSA, KEY, OTHER, RSA, SEVENTH, certificate, ids, line, of_all
from trial import PROGRAM
from wire import HEADER, bitmap, certificates, section, serials, span, string, strings

OPENSSH = os.environ.get("OPENSSH", "ssh-keygen")
# The answers of a list that is read, and has such an authority or such a key ID, and of such a
# certificate.
OTHER_SPELLING = -116
LIST_KEY_ID = -118
CERT_KEY_ID = -410


def fields(blob):
    """The strings that a key's blob consists of."""
    at = 0
    while at < len(blob):
        size = struct.unpack(">I", blob[at : at + 4])[0]
        yield blob[at + 4 : at + 4 + size]
        at += 4 + size


def spellings(blob):
    """The key with a zero byte more in one of its fields: OpenSSH reads it as the same key."""
    parts = list(fields(blob))
    kind = parts[0].decode()
    yield "a zero byte after the type", strings(parts[0] + b"\0", *parts[1:])
    if kind.startswith("ecdsa"):
        yield "a zero byte after the curve", strings(parts[0], parts[1] + b"\0", parts[2])
    if kind == "ssh-rsa":
        for at in 1, 2:
            more = [*parts[:at], b"\0" + parts[at], *parts[at + 1 :]]
            yield "a zero byte before number %d" % at, strings(*more)


def under(authority, *subsections):
    return HEADER + certificates(authority, *subsections)


def answers(content, text):
    """The answers of each call about the key of a line."""
    library = krl.loaded()
    handle = krl.Handle(library)
    loaded = handle.load(content)
    checked = library.krl_check_line(content, len(content), text, len(text))
    held = handle.ask_line(text) if loaded == 0 else loaded
    handle.unload()
    return checked, held


def signed(kind):
    """A key and a certificate of it by an authority of this kind, with the serial number 7."""
    for name, sort in ("ca", kind), ("user", "ed25519"):
        run(OPENSSH, "-q", "-t", sort, "-N", "", "-C", "", "-f", name)
    run(OPENSSH, "-q", "-s", "ca", "-I", "user", "-z", "7", "user.pub")
    word = Path("ca.pub").read_bytes().split()[1]
    blob = base64.b64decode(word)
    text = Path("user-cert.pub").read_bytes().strip()
    for name in "ca", "ca.pub", "user", "user.pub":
        os.remove(name)
    return blob, text


def beside_openssh(tests, kind):
    """OpenSSH takes each other spelling for the key, and so the library lets nobody in."""
    blob, text = signed(kind)
    wrong = []
    for what, spelled in [("its own spelling", blob), *spellings(blob)]:
        wanted = 1 if spelled == blob else OTHER_SPELLING
        content = under(spelled, serials(7))
        Path("spelled.krl").write_bytes(content)
        theirs = run(OPENSSH, "-Q", "-f", "spelled.krl", "user-cert.pub").returncode
        if theirs != 1:
            wrong.append("%s: OpenSSH ends with %d" % (what, theirs))
        found = answers(content, text)
        if found != (wanted, wanted):
            wrong.append("%s: %s, and not %d" % (what, found, wanted))
    os.remove("user-cert.pub")
    tests.judge("an authority of %s in another spelling" % kind, wrong)


def named(tests):
    """Which authorities are compared, whatever their sections revoke and whatever the query is."""
    text = line(SEVENTH).strip().encode()
    keys = {"none": b"", "ed25519": AUTHORITY, "rsa": RSA, "device": DEVICE}
    others = {
        "a byte": b"a",
        "a key that is cut": AUTHORITY[:-1],
        "a key and a byte": AUTHORITY + b"\0",
        "a certificate": SEVENTH,
        "a device with a zero byte": DEVICE[:-8] + string(b"ssh:\0"),
        "a point on no curve": ECDSA,
    }
    wrong = []

    def case(name, content, wanted, asked=text):
        found = answers(content, asked)
        if found != (wanted, wanted):
            wrong.append("%s: %s, and not %d" % (name, found, wanted))

    for name, authority in keys.items():
        revokes = authority in (b"", AUTHORITY)
        case(name, under(authority, serials(7)), int(revokes))
        case(name + ", of nothing", under(authority), 0)
    for name, authority in others.items():
        case(name, under(authority, serials(7)), OTHER_SPELLING)
        case(name + ", of nothing", under(authority), OTHER_SPELLING)
        good = certificates(AUTHORITY, serials(7)) + section(2, string(KEY))
        case(name + ", behind others", HEADER + good + certificates(authority), OTHER_SPELLING)
        case(name + ", of a plain key", under(authority), OTHER_SPELLING, line(OTHER).encode())
        case(name + ", of no key", under(authority), OTHER_SPELLING, b"no key")
        case(name + ", before a fault", under(authority) + b"\2", -103)
        signature = section(2, string(KEY)) + b"\4" + strings(AUTHORITY, b"signature")
        case(name + ", and a signature", under(authority) + signature, OTHER_SPELLING)
    tests.judge("which authorities are compared", wrong)


def key_ids(tests):
    """Which key IDs are compared, of lists and of certificates."""
    library = krl.loaded()
    wrong = []

    def case(name, content, wanted, blob=SEVENTH):
        found = answers(content, line(blob).strip().encode())
        any_list = library.krl_check_any(content, len(content), blob, len(blob))
        why = library.krl_why(content, len(content), blob, len(blob))
        if found != (wanted, wanted) or any_list != wanted or min(why, 0) != min(wanted, 0):
            wrong.append("%s: %s, %d and %d, not %d" % (name, found, any_list, why, wanted))

    case("the key ID", of_all(ids("a")), 1)
    case("another one", of_all(ids("ab", "")), 0)
    # Bytes that are zero elsewhere count for nothing.
    case("serial numbers", of_all(serials(7), span(1, 256), bitmap(1, bytes(9))), 1)
    odd = {"at the end": b"a\0", "at the start": b"\0a", "within": b"a\0b", "alone": b"\0"}
    for name, text in odd.items():
        case("a zero byte " + name, of_all(ids(text)), LIST_KEY_ID)
        behind = of_all(serials(5), ids("a", text))
        case("a zero byte %s, behind others" % name, behind, LIST_KEY_ID)
        late = of_all(ids("a")) + certificates(AUTHORITY, serials(7), ids(text))
        case("a zero byte %s, in a later section" % name, late, LIST_KEY_ID)
        case("a zero byte %s, of a plain key" % name, late, LIST_KEY_ID, KEY)
        case("a zero byte %s, before a fault" % name, of_all(ids(text)) + b"\2", -103)
        case("a zero byte %s, and an authority" % name, late + certificates(b"a"), OTHER_SPELLING)
        asked = certificate(7, text)
        for content in of_all(ids("a")), of_all(), of_all(serials(7)):
            case("a certificate with a zero byte " + name, content, CERT_KEY_ID, asked)
        case("both, a zero byte " + name, of_all(ids(text)), LIST_KEY_ID, asked)
        plain = line(OTHER).encode()
        found = library.krl_check_any(plain, len(plain), asked, len(asked))
        if found != CERT_KEY_ID:
            wrong.append("a plain list, a zero byte %s: %d" % (name, found))
    tests.judge("which key IDs are compared", wrong)


def by_the_program(tests):
    """The program reads such a list, and its answer is by the bytes, as the manual page says."""
    Path("other.krl").write_bytes(under(strings(b"ssh-ed25519\0", AUTHORITY[-32:]), serials(7)))
    ran = run(PROGRAM, "-Q", "-f", "other.krl", "cert.pub")
    right = (ran.returncode, ran.stdout, ran.stderr) == (0, "cert.pub: ok\n", "")
    tests.judge("the program, of another spelling", [] if right else [ran.stdout + ran.stderr])


def authorities(tests):
    named(tests)
    key_ids(tests)
    by_the_program(tests)
    for kind in "ed25519", "ecdsa", "rsa":
        beside_openssh(tests, kind)
