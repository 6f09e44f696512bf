"""The calls of libkrl.so.1 from Python, and the words that the program prints for an answer."""

import ctypes
import os

from trial import TOP

SHARED = os.path.join(TOP, "built", "libkrl.so.1")
LIST = (
    "Magic FormatVersion EndsEarly UnknownSection UnknownCertSection Length RangeReversed"
    " BitmapNegative BitmapWraps HashLength AfterSignature TooLong Read NoMemory CriticalExtension"
).split()
LINE = "NoKey Base64 WordDiffers".split()
KEY = "Wire UnknownType Curve Point Length Number Trailing TooLong".split()
WIRE = "Short Negative NotShortest".split()
CERT = "Wire UnknownType Key CertType Options Principals Authority Signature Trailing".split()


class Krl(ctypes.Structure):
    _fields_ = [("at", ctypes.c_void_p)]


def loaded():
    """The library, with what its calls take and answer."""
    library = ctypes.CDLL(SHARED)
    library.krl_size.restype = ctypes.c_size_t
    library.krl_init.argtypes = [ctypes.c_void_p]
    library.krl_unload.argtypes = [ctypes.POINTER(Krl)]
    for call in library.krl_load, library.krl_ask, library.krl_ask_line:
        call.argtypes = [ctypes.POINTER(Krl), ctypes.c_char_p, ctypes.c_size_t]
        call.restype = ctypes.c_int32
    for call in library.krl_check, library.krl_check_any, library.krl_check_line, library.krl_why:
        call.argtypes = [ctypes.c_char_p, ctypes.c_size_t] * 2
        call.restype = ctypes.c_int32
    library.krl_fault_text.argtypes = [ctypes.c_int32, ctypes.c_char_p, ctypes.c_size_t]
    library.krl_fault_text.restype = ctypes.c_size_t
    return library


def text(library, answer):
    """The library's words for an answer."""
    room = ctypes.create_string_buffer(library.krl_fault_text(answer, None, 0) + 1)
    library.krl_fault_text(answer, room, len(room))
    return room.value.decode()


class Handle:
    """A place without a list yet."""

    def __init__(self, library):
        self.library = library
        self.room = ctypes.create_string_buffer(library.krl_size() + 15)
        self.krl = Krl((ctypes.addressof(self.room) + 15) & ~15)
        library.krl_init(self.krl.at)

    def load(self, content):
        return self.library.krl_load(self.krl, content, len(content))

    def ask_line(self, line):
        return self.library.krl_ask_line(self.krl, line, len(line))

    def unload(self):
        self.library.krl_unload(self.krl)


def of_key(number):
    if number > 10:
        return "key 1 Wire, wire %d %s" % (number - 10, WIRE[number - 11])
    return "key %d %s" % (number, KEY[number - 1])


# The last two digits for a key.
OF_KEY = (*range(2, 9), *range(11, 14))
# The numbers of all faults, but that memory ran out.
FAULTS = [-100 - it for it in range(1, len(LIST) + 1) if LIST[it - 1] != "NoMemory"]
FAULTS += [-200 - it for it in range(1, len(LINE) + 1)]
FAULTS += [-sort - it for sort in (300, 500, 600) for it in OF_KEY]
FAULTS += [-400 - it for it in range(1, len(CERT) + 1) if CERT[it - 1] not in ("Key", "Authority")]


def fault_text(answer):
    """The words that the program prints for a fault."""
    sort, number = divmod(-answer, 100)
    if sort == 1:
        return "krl %d %s" % (number, LIST[number - 1])
    if sort == 2:
        return "line %d %s" % (number, LINE[number - 1])
    if sort == 3:
        return "subject 1 Key, " + of_key(number)
    if sort == 4:
        return "subject 2 Cert, cert %d %s" % (number, CERT[number - 1])
    if sort == 5:
        return "subject 2 Cert, cert 3 Key, " + of_key(number)
    return "subject 2 Cert, cert 7 Authority, " + of_key(number)
