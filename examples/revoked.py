"""Asks a key revocation list about each key of an authorized_keys file, by the shared library.

    python3 revoked.py revoked.krl ~/.ssh/authorized_keys

It ends with 0 where no key is revoked, with 1 where one is, and with 255 where that is not known.
"""

import ctypes
import sys

library = ctypes.CDLL("libkrl.so.1")
library.krl_check_line.argtypes = [ctypes.c_char_p, ctypes.c_size_t] * 2
library.krl_check_line.restype = ctypes.c_int32
library.krl_fault_text.argtypes = [ctypes.c_int32, ctypes.c_char_p, ctypes.c_size_t]
library.krl_fault_text.restype = ctypes.c_size_t


def words(answer):
    buffer = ctypes.create_string_buffer(65)
    library.krl_fault_text(answer, buffer, len(buffer))
    return buffer.value.decode()


def main(list_name, keys_name):
    with open(list_name, "rb") as file:
        content = file.read()
    with open(keys_name, "rb") as file:
        lines = file.read().split(b"\n")
    status = 0
    for number, line in enumerate(lines, 1):
        if not line.strip() or line.strip().startswith(b"#"):
            continue
        answer = library.krl_check_line(content, len(content), line, len(line))
        print("line %d: %s" % (number, words(answer)))
        status = max(status, answer if answer in (0, 1) else 255)
    return status


try:
    status = main(*sys.argv[1:3])
except (OSError, TypeError) as fault:
    print(fault, file=sys.stderr)
    status = 255
sys.exit(status)
