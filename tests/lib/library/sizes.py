"""Lists of sizes about 64 KiB and 256 KiB, and lengths that 16 or 32 bits do not hold."""

import ctypes
import mmap
import os
import struct
from pathlib import Path

import krl
from building import run
from files import AUTHORITY, KEY, OTHER, SEVENTH, ed25519, line
from trial import PROGRAM
from wire import HEADER, certificates, section, serials, string

OPENSSH = os.environ.get("OPENSSH", "ssh-keygen")
FAR = 1 << 32
# MAP_NORESERVE of Linux, which mmap names only in later versions.
NO_RESERVE = 0x4000
# The last bytes of a list: they revoke a key, and a certificate by its serial number.
LAST = section(2, string(KEY)) + certificates(AUTHORITY, serials(7))
ASKED = {"key": KEY, "other": OTHER, "cert": SEVENTH}


def fillers(size):
    """A section of keys that no query asks about, `size` bytes long."""
    left, keys = size - 5, []
    while left > 2000:
        keys.append(string(ed25519(0x77) * 15))
        left -= len(keys[-1])
    return section(2, *keys, string(bytes(left - 4)))


def list_of(size, front=0):
    """A list `size` bytes long, of which only the last ones revoke the keys of the queries. Its
    first `front` bytes are a list too, which revokes none of them."""
    begun = HEADER + (fillers(front - len(HEADER)) if front else b"")
    return begun + fillers(size - len(begun) - len(LAST)) + LAST


def sizes(tests):
    """Each call says of a list what the program and OpenSSH say."""
    library = krl.loaded()
    for at in (1 << 16, 1 << 18):
        wrong = []
        for size in (at - 1, at, at + 1, at + 44, at + len(LAST)):
            content = list_of(size)
            Path("sized.krl").write_bytes(content)
            handle = krl.Handle(library)
            wrong += ["%d bytes: not loaded" % size] * (handle.load(content) != 0)
            for name, blob in ASKED.items():
                text = line(blob).strip().encode()
                ours = run(PROGRAM, "-Q", "-f", "sized.krl", name + ".pub").returncode
                found = {
                    handle.ask_line(text),
                    library.krl_check(content, size, blob, len(blob)),
                    library.krl_check_line(content, size, text, len(text)),
                    int(name != "other"),
                    ours,
                }
                if name != "cert":  # its signature is none, which OpenSSH looks at
                    found.add(run(OPENSSH, "-Q", "-f", "sized.krl", name + ".pub").returncode)
                if len(found) > 1:
                    wrong.append("%d bytes, %s: %s" % (size, name, sorted(found)))
            handle.unload()
        tests.judge("lists of about %d bytes" % at, wrong)


def of_16_bits(tests):
    """The first bytes of each list are one that does not revoke: as many as 16 bits say."""
    library = krl.loaded()
    wrong = []
    for size in (70000, 5000000):
        content = list_of(size, size % (1 << 16))
        front = content[: size % (1 << 16)]
        handle, text = krl.Handle(library), line(KEY).strip().encode()
        if library.krl_check(front, len(front), KEY, len(KEY)) != 0:
            wrong.append("the first bytes of %d are no list" % size)
        handle.load(content)
        found = (
            library.krl_check(content, size, KEY, len(KEY)),
            library.krl_check_line(content, size, text, len(text)),
            handle.ask_line(text),
        )
        handle.unload()
        if found != (1, 1, 1):
            wrong.append("%d bytes: %s" % (size, found))
    tests.judge("lists of 70 KB and of 5 MB", wrong)


class Far:
    """Bytes, and 4 GiB of zero bytes behind them, which take no memory until they are written."""

    def __init__(self, content):
        flags = mmap.MAP_PRIVATE | mmap.MAP_ANONYMOUS | NO_RESERVE
        self.room = mmap.mmap(-1, FAR + (1 << 20), flags)
        self.room[: len(content)] = content
        self.at = ctypes.cast(
            ctypes.addressof(ctypes.c_char.from_buffer(self.room)), ctypes.c_char_p
        )


def of_32_bits(tests):
    """Lengths above 4 GiB: as many bytes as 16 or 32 bits say of each are good ones."""
    library = krl.loaded()
    small, text = HEADER + section(2, string(KEY)), line(KEY).strip().encode()
    wrong = []

    def case(name, found, wanted):
        if found != wanted:
            wrong.append("%s: %s, and not %s" % (name, found, wanted))

    for more in (0, 1 << 16):
        content, blob, word = Far(small), Far(KEY), Far(text + b" ")
        handle = krl.Handle(library)
        size = FAR + more + len(small)
        # Behind the list comes a section of the type 0.
        found = library.krl_check_line(content.at, size, text, len(text))
        case("krl_check_line, list", found, -104)
        case("krl_check, list", library.krl_check(content.at, size, KEY, len(KEY)), -104)
        case("krl_why, list", library.krl_why(content.at, size, KEY, len(KEY)), -104)
        # Behind the line come zero bytes.
        plain = Far(text + b"\n")
        found = library.krl_check_any(plain.at, FAR + more + len(text), KEY, len(KEY))
        case("krl_check_any, list", found, -112)
        case("krl_load", library.krl_load(handle.krl, content.at, size), -104)
        case("krl_load of the list alone", handle.load(small), 0)
        size = FAR + more + len(KEY)
        case("krl_check, blob", library.krl_check(small, len(small), blob.at, size), -308)
        case("krl_check_any, blob", library.krl_check_any(small, len(small), blob.at, size), -308)
        case("krl_why, blob", library.krl_why(small, len(small), blob.at, size), -308)
        case("krl_ask", library.krl_ask(handle.krl, blob.at, size), -308)
        # So many bytes of the line have its key in part.
        size = FAR + more + len(text) - 9
        case("krl_check_line", library.krl_check_line(small, len(small), word.at, size), 1)
        case("krl_ask_line", library.krl_ask_line(handle.krl, word.at, size), 1)
        handle.unload()
    # A section that is longer than a list may be.
    content = Far(HEADER + b"\2" + struct.pack(">II", 1 << 27, (1 << 27) - 4))
    case("a long section", library.krl_check(content.at, FAR, KEY, len(KEY)), -112)
    room = Far(b"~" * 80)
    library.krl_fault_text(-103, room.at, FAR + 3)
    case("krl_fault_text", room.room[:15], b"krl 3 EndsEarly")
    tests.judge("lengths above 4 GiB", wrong)


def lengths(tests):
    sizes(tests)
    of_16_bits(tests)
    of_32_bits(tests)
