"""Keys, certificates, lists and specification files, small, with one of everything in them."""

import base64
import hashlib
import os
import struct

from wire import HEADER, HIGHEST, bitmap, certificates, section, serials, span, string, strings

CERT = "ssh-ed25519-cert-v01@openssh.com"


def ed25519(byte):
    return strings("ssh-ed25519", bytes([byte]) * 32)


KEY = ed25519(0x47)
OTHER = ed25519(0x0B)
AUTHORITY = ed25519(0x11)
RSA = strings("ssh-rsa", b"\3", b"\0" + b"\xc5" * 128)
ECDSA = strings("ecdsa-sha2-nistp256", "nistp256", b"\4" + b"\x21" * 64)
DEVICE = strings("sk-ssh-ed25519@openssh.com", b"\x31" * 32, "ssh:")


def certificate(
    serial,
    key_id,
    principals=b"",
    after=0,
    before=HIGHEST,
    critical=b"",
    extensions=b"",
    key=KEY,
    authority=AUTHORITY,
):
    return (
        strings(CERT, b"nonce", key[-32:])
        + struct.pack(">QI", serial, 1)
        + strings(key_id, principals)
        + struct.pack(">QQ", after, before)
        + strings(critical, extensions, b"", authority, strings("ssh-ed25519", bytes(64)))
    )


SEVENTH = certificate(7, "a")
FULL = certificate(
    0,
    "the \x1b id",
    strings("root", "backup"),
    1000,
    1 << 60,
    strings("force-command", strings("id"), "no-touch", b"\xff"),
    strings("permit-pty", b"", "permit-user-rc", b""),
)


def line(blob, comment=""):
    word = blob[4 : 4 + struct.unpack(">I", blob[:4])[0]].decode()
    return " ".join([word, base64.b64encode(blob).decode()] + [comment] * bool(comment)) + "\n"


def container(public, private, comment):
    """The file of a private key, without a passphrase."""
    inner = b"check" [:4] * 2 + private + strings(comment)
    inner += bytes(range(1, 1 + -len(inner) % 8))
    blob = b"openssh-key-v1\0" + strings("none", "none", b"") + struct.pack(">I", 1)
    text = base64.b64encode(blob + strings(public, inner)).decode()
    lines = [text[at : at + 70] for at in range(0, len(text), 70)]
    name = "OPENSSH PRIVATE KEY-----"
    return "\n".join(["-----BEGIN " + name] + lines + ["-----END " + name, ""])


def ids(*texts):
    return section(0x23, strings(*texts))


def extension(sort):
    return section(sort, strings("name"), b"\0", strings("contents"))


def of_all(*subsections):
    """A list of these under all authorities."""
    return HEADER + certificates(b"", *subsections)


def whole_list():
    """A list with every section and every subsection, and a comment."""
    return (
        HEADER[:40]
        + strings("a \t comment")
        + certificates(b"", serials(3, 9, 8), ids("b", "id of all"), extension(0x39))
        + certificates(AUTHORITY, span(5, 4000), bitmap(70000, b"\x0f\x55"), ids("an id", "a", "a"))
        + section(2, strings(OTHER, ECDSA))
        + section(3, strings(hashlib.sha1(RSA).digest()))
        + section(5, strings(hashlib.sha256(DEVICE).digest()))
        + extension(255)
        + section(4, AUTHORITY)
        + string(b"signature")
    )


def whole_spec():
    """A line for each directive, and key lines of keys and certificates."""
    hashed = base64.b64encode(hashlib.sha256(KEY).digest()).decode().rstrip("=")
    return (
        "# of everything\n\nserial: 5\nSerial: 0x10-0x2f # and more\n"
        + "serial: 1000000\nserial: 30000-40000\n"
        + "".join("serial: %d\n" % it for it in range(301, 330, 2))
        + "id: an id\nid: b\nid: an id\n"
        + "key: %ssha1: %ssha256: %s" % (line(OTHER), line(RSA), line(ECDSA, "a comment"))
        + "hash: SHA256:%s\n" % hashed
        + line(DEVICE, "a device")
        + line(SEVENTH)
        + line(FULL, "with an id")
    )


def whole_text():
    """A text of a list with every word, a name, and a last day that is over and one that is not."""
    hashed = base64.b64encode(hashlib.sha256(KEY).digest()).decode().rstrip("=")
    return (
        "# of everything\n\n@users: %s@users serial: 5-4000 # OPS-1\n" % line(AUTHORITY, "users")
        + "until 2099-12-31 @users id: a\nuntil 1999-12-31 @all serial: 7\n"
        + "ca: all\nserial: 3\nserial: 0x8-0x9\nid-hex: 62 # b\n"
        + "ca-blob: %s\nid: an id\n" % base64.b64encode(AUTHORITY).decode()
        + "key: %ssha1: %ssha256: %s" % (line(OTHER), line(RSA), line(ECDSA, "a comment"))
        + "key-blob: AQ==\nhash: SHA256:%s\n" % hashed
        + line(DEVICE, "a device")
        + line(SEVENTH)
    )


def log():
    """What sshd logs of a login by a key, and of one by a certificate."""
    prints = [base64.b64encode(hashlib.sha256(it).digest()) for it in (OTHER, KEY, AUTHORITY)]
    prints = ["SHA256:" + it.decode().rstrip("=") for it in prints]
    login = "Accepted publickey for root from 192.0.2.7 port 4242 ssh2: ED25519%s\n"
    certificate = "-CERT %s ID a (serial 7) CA ED25519 %s" % tuple(prints[1:])
    return login % (" " + prints[0]) + login % certificate


def scattered(count):
    """The first odd numbers, no two in one interval, the lowest and the highest in turn."""
    rising = range(1, 2 * count, 2)
    return [rising[-1 - at // 2 if at % 2 else at // 2] for at in range(count)]


def keys():
    sorts = [KEY, RSA, ECDSA, DEVICE, SEVENTH]
    lines = "".join(line(it, "the %d\x1b\t key" % at) for at, it in enumerate(sorts))
    return "# keys\n\n" + lines + 'no-pty,command="a \\" b" ' + line(OTHER)


def contents():
    """The files by name."""
    texts = {
        "g.pub": line(KEY),
        "other.pub": line(OTHER, "other@host"),
        "ca.pub": line(AUTHORITY),
        "cert.pub": line(SEVENTH, "of seven"),
        "certs.pub": line(SEVENTH, "one") + line(KEY) + line(FULL),
        "keys.pub": keys(),
        "many.pub": "".join(line(ed25519(at), "long " * 200) for at in range(70)),
        "private": container(KEY, strings("ssh-ed25519", KEY[-32:], bytes(64)), "me@home"),
        "private-rsa": container(
            RSA, strings("ssh-rsa", RSA[-129:], b"\3", b"\5", b"\6", b"\7", b"\x0b"), "a\x1b"
        ),
        "empty": "",
        "wrong.pub": line(KEY) + "ssh-ed25519 AAAA",
        "spec": whole_spec(),
        "more.spec": "serial: 6-8\nid: c\n",
        "wrong.spec": "serial: 6\nid: c\nserial: 9-7\n",
        "scattered.spec": "".join("serial: %d\n" % it for it in scattered(1024)),
        "long.spec": "".join("id: %s%d\n" % ("a long id " * 100, at) for at in range(70)),
        "whole.txt": whole_text(),
        "more.txt": "@users serial: 7 # OPS-2\n",
        "wrong.txt": whole_text() + "@users serial: 9-7\n",
        "auth.log": log(),
    }
    bytes_of = {
        "key.krl": HEADER + section(2, string(KEY)),
        "whole.krl": whole_list(),
        "logins.krl": HEADER
        + certificates(AUTHORITY, serials(7), ids("a"))
        + section(2, string(OTHER)),
        "cut.krl": whole_list()[:-3],
        "one.krl": of_all(span(1, 1)),
        "thousand.krl": of_all(span(1, 1000)),
        "byte.krl": of_all(bitmap(1, b"\x7f")),
        "bytes.krl": of_all(bitmap(1, b"\x7f" + b"\xff" * 999)),
        "four.krl": of_all(bitmap(1, b"\x55")),
        "scattered.krl": of_all(serials(*scattered(1024))),
        "joined.krl": of_all(serials(*scattered(1024)), span(2, 2046)),
        "unknown.krl": HEADER + b"\x99",
        "highest.krl": HEADER[:12] + struct.pack(">Q", HIGHEST) + HEADER[20:],
    }
    return {**{name: text.encode() for name, text in texts.items()}, **bytes_of}


def make_home():
    """The folder home, with a file of each sort that an audit reads, and the file names, of names
    that each end with a zero byte."""
    private = contents()["private"]
    os.makedirs("home/.ssh/below")
    for name, content in {
        "home/.ssh/authorized_keys": line(KEY).encode(),
        "home/.ssh/below/x.pub": line(OTHER).encode(),
        "home/.ssh/id_ed25519": private,
        "home/.ssh/id_of_host": line(OTHER).encode(),
        "names": b"g.pub\0other.pub\0home\0",
    }.items():
        with open(name, "wb") as out:
            out.write(content)
