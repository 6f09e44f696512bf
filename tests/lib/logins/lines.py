"""Logs at random: lines as sshd, syslog and the journal write them, and others like them."""

from logins.reading import LETTERS, OPENINGS
from texts import explained
from texts.named import fingerprint, unpadded
from wire import HIGHEST

ANY = b"SHA256:" + b"A" * 43
GROUP = b" (serial 7) CA ED25519 " + ANY
# Key IDs that look like the rest of a line, or like what sshd writes for other bytes.
LOOKING = [b"bob" + GROUP, b"bob (serial 9) CA ED25519 SHA256:x", b"a (serial 7)", b"(", b"a)("]
LOOKING += [b"sshd[1]: x", b"x sshd[1]: Accepted publickey for y", b", signature count = 5"]
LOOKING += [b"\\n", b"a\\", b"\\", b"\\101", b"\\\\", b"a\tb", b"a\rb", b"a\bb", b"\a\v\f\x7f"]
LOOKING += ["b\u00fcrger".encode(), "\u009b1m".encode(), "a\u202eb\u2028c".encode(), b"\xff\xfe"]
LOOKING += [b"\0019", b'"', b'a "b" c', b" a  b ", b"y" * 300, b"z" * 900, b" " * 400]

PREFIXES = [b"", b"", b"Nov 29 06:07:06 host sshd[812]: ", b"sshd[1]: ", b"  sshd[1]: "]
PREFIXES += [b"2026-11-29T06:07:06.123456+00:00 host sshd-session[7]: "]
PREFIXES += [b"Mon 2026-11-30 18:27:50 UTC h sshd-session[65536]: ", "h\u00f6st sshd[3]: ".encode()]
PREFIXES += [b"Nov 29 06:07:06.918467 \xff sshd[3]: ", b"[ 1232.642834] a sshd[3]: "]
NO_PREFIXES = [b"Nov 29 06:07:06 host ", b"host xsshd[1]: ", b"\tsshd[1]: ", b"sshd[]: "]
NO_PREFIXES += [b"sshd[x]: ", b"sshd[1]:", b"sshd[1] ", b"sshd-sessions[1]: ", b"SSHD[1]: ", b" "]
NO_PREFIXES += [b"sshd-auth[1]: ", b"sshd[1]: sshd[2]: ", b"cron[1]: sshd[2]: ", b"sshd[1]: \r"]
OTHERS = [b"", b"\r", b"\0", b"\xff" * 600, b"p" * 500, b"Server listening on :: port 22."]
OTHERS += [b"Invalid user Accepted publickey for x from 1.2.3.4 port 1 ssh2 from 127.0.0.1 port 4"]
OTHERS += [b"Accepted password for root from 10.0.0.1 port 4 ssh2"]
OTHERS += [b"Accepted key ED25519 " + ANY + b" found at /root/.ssh/authorized_keys:1"]
OTHERS += [b"Authentication key ED25519 " + ANY + b" revoked by file /etc/ssh/revoked"]

# The parts of a message, and what may be there instead.
OPENING, USER, ADDRESS, PORT, KIND, PRINT, ID, SERIAL, TAIL = range(9)
WRONG = {
    OPENING: [b"Accepted hostbased for ", b"accepted publickey for ", b"Failed publickey for "],
    USER: [b"", b"a b", b"sshd[1]:", b"sshd[1]: x", b"\xff", b"a\tb", b"\0", b"a\x9b", b"from"],
    ADDRESS: [b"", b"::1", b"UNKNOWN", b"a b", b"10.0.0.1 port 4", b"\x1b[2J", b"fe80::1%eth0"],
    PORT: [b"", b"0", b"x", b"-1", b"65536", b"9" * 30, b"4 "],
    KIND: [b"", b"ed25519", b"ED25519_", b"-", b"A B", b"9", b"ED25519-CERT ", b"\xc3\x84"],
    PRINT: [b"", ANY[:-1], ANY + b"A", ANY[:-1] + b"B", ANY + b"=", b" " + ANY],
    ID: [b"\\", b"a\\", b"\\x41", b"\\8", b"\\400", b"\\18", b"\\00", b"\\M-a", b"\\^A", b"\\s"],
    SERIAL: [b"", b"0", b"00", b"007", b"-1", b"+1", b"0x7", b" 7", b"7 ", b"0" * 30 + b"7"],
    TAIL: [b"\r", b"\r\r", b" ", b"x", b"\t", b" [preauth]", b" ID x", GROUP],
}
WRONG[OPENING] += [b"Invalid user Accepted publickey for ", b" Accepted publickey for "]
WRONG[OPENING] += [b"Partial publickey for ", b"Accepted publickey for", b"Accepted password for "]
WRONG[OPENING] += [b"Partial hostbased for ", b"sshd[1]: Accepted publickey for "]
WRONG[OPENING] += [b"auth.c:1 (pid=1): Accepted publickey for "]
WRONG[USER] += ["\u202e\u00fc".encode(), b"\r", b"root from 10.0.0.1 port 1 ssh2: ED25519 " + ANY]
WRONG[PRINT] += [b"MD5:" + b":".join([b"0a"] * 16), b"SHA1:" + b"A" * 27, b"sha256:" + ANY[7:]]
WRONG[PRINT] += [ANY[:20] + b"_" + ANY[21:]]
WRONG[ID] += [b"\\\\\\", b"\\0000", b"\\303\\274", b"\\e", b"\\n\\t\\r\\a\\b\\v\\f", b"a\nb", b"\0"]
WRONG[ID] += [b"\\377\\000"]
WRONG[SERIAL] += [b"%d" % it for it in (HIGHEST, HIGHEST + 1, HIGHEST + 2, 10 * HIGHEST, 1 << 63)]
COUNT = b", signature count = "
WRONG[TAIL] += [COUNT] + [COUNT + it for it in (b"7", b"7\r", b"7x", b"7\r\r", b"7" + COUNT + b"8")]
KINDS = [b"ED25519", b"RSA", b"ECDSA", b"ED25519-SK", b"ECDSA-SK", b"DSA"]
SIZES = [498, 499, 500, 501, 502, 503, 1019, 1020, 1021, 1022, 1023]


class Pool(explained.Pool):
    """Few keys, authorities, serial numbers and key IDs, so that lists and logins often have the
    same ones."""

    def __init__(self, source):
        super().__init__(source)
        self.ids += source.sample(LOOKING, 12)


def escaped(text, syslog):
    """What sshd writes for bytes to syslog, or to a file."""
    letters = {byte: b"\\%c" % letter for letter, byte in LETTERS.items()}
    if not syslog:
        letters = {92: b"\\\\", **{it: b"%c" % it for it in (7, 8, 9, 10, 13)}}
    plain = lambda it: b"%c" % it if 32 <= it < 127 else b"\\%03o" % it
    return b"".join(letters.get(it) or plain(it) for it in text)


def a_print(pool, named, blobs):
    hashes = sorted(named.sha256s)
    if hashes and pool.source.random() < 0.15:
        return b"SHA256:" + unpadded(pool.source.choice(hashes)).encode()
    return fingerprint(pool.source.choice(blobs)).encode()


def a_serial(pool, named):
    """Often one at the end of a range of the list, or beside it."""
    ends = [it for spans in named.serials.values() for pair in spans for it in pair]
    if not ends or pool.source.random() < 0.4:
        return pool.source.choice([0, pool.serial()])
    return min(max(pool.source.choice(ends) + pool.source.randrange(-1, 2), 0), HIGHEST)


def a_message(pool, named):
    """The parts of a message with the words before each: those of a key, and mostly those of a
    certificate."""
    source, syslog = pool.source, pool.source.random() < 0.5
    opening = source.choice([OPENINGS[0]] * 25 + [OPENINGS[1]] * 3 + [OPENINGS[2]])
    kind, tail = source.choice(KINDS), source.choice([b""] * 5 + [b"\r", COUNT + b"7"])
    parts = [(b"", OPENING, opening), (b"", USER, source.choice([b"root", b"bob", b"www-data"]))]
    parts += [(b" from ", ADDRESS, b"10.0.0.%d" % source.randrange(256))]
    parts += [(b" port ", PORT, b"%d" % source.randrange(1 << 16))]
    key = a_print(pool, named, pool.blobs)
    if source.random() < 0.2:
        return [*parts, (b" ssh2: ", KIND, kind), (b" ", PRINT, key), (b"", TAIL, tail)]
    signer = source.choice([[it for it in named.authorities() if it], pool.keys])
    ids = [it for some in named.ids.values() for it in sorted(some)]
    ids = ids if ids and source.random() < 0.3 else pool.ids
    parts += [(b" ssh2: ", KIND, kind + b"-CERT"), (b" ", PRINT, key)]
    parts += [(b" ID ", ID, escaped(source.choice(ids), syslog))]
    parts += [(b" (serial ", SERIAL, b"%d" % a_serial(pool, named))]
    parts += [(b") CA ", KIND, source.choice(KINDS))]
    parts += [(b" ", PRINT, a_print(pool, named, signer or pool.keys)), (b"", TAIL, tail)]
    return parts


def joined(parts):
    return b"".join(before + part for before, _, part in parts)


def padded(pool, parts, size, end=b""):
    """A message of this size, if it is not longer anyway: its user or its key ID has more bytes,
    and then the end."""
    at = max(at for at, it in enumerate(parts) if it[1] in (USER, ID))
    before, role, part = parts[at]
    part += b"p" * (size - len(joined(parts)) - len(end)) + end
    return joined([*parts[:at], (before, role, part), *parts[at + 1 :]])


def cut(pool, parts):
    """A message that is cut right behind a group in its key ID."""
    size = pool.source.choice([500, 1021])
    after = joined(parts[[it[1] for it in parts].index(ID) + 1 :]) if len(parts) > 7 else b""
    return padded(pool, parts, size + len(after), GROUP)[:size]


def misspelt(pool, parts):
    """A message of which one part or the words before it are others, missing, or there twice."""
    source, at = pool.source, pool.source.randrange(len(parts))
    before, role, part = parts[at]
    sort = source.randrange(12)
    if sort < 7:
        part = source.choice(WRONG[role])
    elif sort == 7:
        before = source.choice([b"", b" ", before + b" ", before.upper(), before * 2])
    some = {8: [], 9: [parts[at]] * 2, 10: [parts[at], source.choice(parts)]}
    return joined([*parts[:at], *some.get(sort, [(before, role, part)]), *parts[at + 1 :]])


def damaged(pool, message):
    """A message that ends early, or of which a byte is another one, missing or too much."""
    source, at = pool.source, pool.source.randrange(len(message))
    if source.random() < 0.3:
        return message[:at]
    byte = b"%c" % source.choice(b" ():\\[]\0\r\xff0Aa")
    some = [b"", byte, message[at : at + 1] + byte]
    return message[:at] + source.choice(some) + message[at + 1 :]


def a_line(pool, named):
    """Each third line is hostile."""
    source, parts = pool.source, a_message(pool, named)
    sort = source.randrange(30)
    if sort < 1:
        return source.choice(PREFIXES) + source.choice(OTHERS)
    if sort < 20:
        return source.choice(PREFIXES) + joined(parts)
    prefix = source.choice(PREFIXES if sort < 28 else NO_PREFIXES)
    if sort < 24:
        return prefix + misspelt(pool, parts)
    if sort < 25:
        return prefix + damaged(pool, joined(parts))
    if sort < 27:
        return prefix + padded(pool, parts, source.choice(SIZES))
    return prefix + (cut(pool, parts) if sort < 28 else joined(parts))


def a_log(pool, named, lines):
    """The bytes of a log, whose last line may lack its end."""
    end = pool.source.choice([b"\n", b"\n", b"\r\n"])
    content = end.join(a_line(pool, named) for _ in range(lines))
    return content + pool.source.choice([end, end, b""])
