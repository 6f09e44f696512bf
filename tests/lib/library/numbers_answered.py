"""An input for each number below zero that krl.h names: a list, a line, a key or a certificate."""

import struct

import krl
from authorities import CERT_KEY_ID, LIST_KEY_ID, OTHER_SPELLING, under
from files import AUTHORITY, KEY, OTHER, certificate, extension, ids, line, of_all
from wire import HEADER, HIGHEST, bitmap, certificates, section, serials, span, string, strings

LISTS = {
    -101: b"plain text",
    -102: HEADER[:11] + b"\2" + HEADER[12:],
    -103: HEADER[:7],
    -104: HEADER + b"\x99",
    -105: HEADER + certificates(b"", section(0x24)),
    -106: HEADER + b"\2\0\0\0\2\0\0\0",
    -107: of_all(span(2, 1)),
    -108: of_all(bitmap(1, b"\x80")),
    -109: of_all(bitmap(HIGHEST, b"\2")),
    -110: HEADER + section(3, string(bytes(19))),
    -111: HEADER + b"\4" + strings(AUTHORITY, b"") + section(2),
    -112: HEADER + section(2, string(bytes(1 << 26))),
    -115: HEADER + section(255, strings("name"), b"\1", strings("contents")),
    OTHER_SPELLING: under(b"a", serials(7)),
    LIST_KEY_ID: of_all(ids(b"a\0")),
}
OTHER_LINE = -117
LINES = {
    -201: b"no key",
    -202: b"ssh-ed25519 AAAA=",
    -203: line(OTHER).replace("ssh-ed25519", "ssh-rsa").strip().encode(),
}
ECDSA, POINT = "ecdsa-sha2-nistp256", b"\4" + bytes(64)
# By the last two digits, the type of a key and its public fields.
KEYS = {
    2: ("ssh-none", strings(b"\1")),
    3: (ECDSA, strings("nistp384", POINT)),
    4: (ECDSA, strings("nistp256", b"\2" + bytes(64))),
    5: ("ssh-ed25519", strings(bytes(31))),
    6: ("ssh-rsa", strings(b"", b"\1")),
    7: ("ssh-ed25519", strings(bytes(32)) + b"\0"),
    8: ("ssh-rsa", strings(b"\1", b"\1" * 70000)),
    11: ("ssh-ed25519", b"\0\0\0\x20"),
    12: ("ssh-rsa", strings(b"\xff", b"\1")),
    13: ("ssh-rsa", strings(b"\0\1", b"\1")),
}


def plain(kind, public):
    return strings(kind) + public


def certified(kind, public, authority=AUTHORITY, role=1, inner=(b"", b"", b""), last=None):
    """A certificate; `inner` are its principals, its critical options and its extensions."""
    signature = strings("ssh-ed25519", bytes(64)) if last is None else last
    name = kind.partition("@")[0] + "-cert-v01@openssh.com"
    return (
        strings(name, b"nonce")
        + public
        + struct.pack(">QI", 7, role)
        + strings("id", inner[0])
        + struct.pack(">QQ", 0, HIGHEST)
        + strings(inner[1], inner[2], b"", authority, signature)
    )


ED25519 = ("ssh-ed25519", strings(KEY[-32:]))
WHOLE = certified(*ED25519)
BLOBS = {
    -401: WHOLE[:90],
    -404: certified(*ED25519, role=3),
    -405: certified(*ED25519, inner=(b"", b"\0", b"")),
    -406: certified(*ED25519, inner=(b"\0", b"", b"")),
    -408: certified(*ED25519, last=b""),
    -409: WHOLE + b"\0",
    CERT_KEY_ID: certificate(7, b"a\0"),
}
BLOBS.update({-300 - it: plain(*key) for it, key in KEYS.items()})
# The type of a certificate is known, and other fields follow its key.
BLOBS.update({-500 - it: certified(*key) for it, key in KEYS.items() if it not in (2, 7, 11)})
BLOBS[-511] = certified(*ED25519)[: len(strings("ssh-ed25519-cert-v01@openssh.com", b"nonce")) + 9]
BLOBS.update({-600 - it: certified(*ED25519, plain(*key)) for it, key in KEYS.items()})
# Numbers of faults that no call answers: reading borrowed bytes does not fail, and see above for
# the others.
NEVER = {-113, -402, -502, -507}


def numbers(tests):
    """Each number is answered, and no other."""
    library, good, text = krl.loaded(), HEADER + extension(255), line(OTHER).strip().encode()

    def of_line(content, asked):
        return library.krl_check_line(content, len(content), asked, len(asked))

    def of_any(content, asked=OTHER):
        return library.krl_check_any(content, len(content), asked, len(asked))

    found = {it: of_line(content, text) for it, content in LISTS.items()}
    found.update({it: of_line(good, asked) for it, asked in LINES.items()})
    for it, blob in BLOBS.items():
        found[it] = library.krl_check(good, len(good), blob, len(blob))
    found[OTHER_LINE] = of_any(LISTS[-101])
    wrong = ["%d is answered as %d" % it for it in sorted(found.items()) if it[0] != it[1]]
    # A list that has the magic has one answer; one without it is a plain list.
    for it, content in sorted(LISTS.items()):
        if content.startswith(HEADER[:8]) and of_any(content) != it:
            wrong.append("%d is answered as %d for any list" % (it, of_any(content)))
    for it, content in (0, b""), (0, b"# none\n"), (1, text), (-112, b"\n" * ((1 << 26) + 1)):
        if of_any(content) != it:
            wrong.append("%d is answered as %d for a plain list" % (it, of_any(content)))
    wrong += ["%d of a blob" % it for it, blob in BLOBS.items() if of_any(text, blob) != it]
    named = set(krl.FAULTS) | {OTHER_SPELLING, OTHER_LINE, LIST_KEY_ID, CERT_KEY_ID}
    wrong += ["%d has no input" % it for it in sorted(named - set(found) - NEVER)]
    wrong += ["%d is no number of the header" % it for it in sorted(set(found) - named)]
    tests.judge("an input for each of %d numbers" % len(found), wrong)
