"""Logs of logins, beside the commands that find their lines and read the list."""

import base64
import hashlib

import lists
from measure import AUDIT, OURS, build_audit, least_in_turn, own

LINES, LOGINS, KEYS = 1_000_000, 10_000, 100_000
HOST = "2026-11-24T09:12:03.551877+00:00 host sshd[%d]: "
OTHER = HOST + "Connection closed by authenticating user root 198.51.100.%d port %d [preauth]\n"
LOGIN = HOST + "Accepted publickey for alice from 192.0.2.7 port %d ssh2: ED25519 SHA256:%s\n"


def print_of(number):
    return base64.b64encode(hashlib.sha256(lists.key(number)).digest()).decode().rstrip("=")


def lines():
    """One line in a hundred is a login, and one login in ten is by a key of the list."""
    for at in range(LINES):
        if at % (LINES // LOGINS):
            yield OTHER % (at % 30_000, at % 255, at % 60_000)
        else:
            number = at // 10 if at % 1_000 == 0 else (1 << 60) + at
            yield LOGIN % (at % 30_000, at % 60_000, print_of(number))


def logins():
    """A search for logins reads each line of the log, and keeps the fingerprints of the list."""
    build_audit()
    with open("list.krl", "wb") as out:
        out.write(lists.of_strings(b"\2", [lists.key(number) for number in range(KEYS)]))
    with open("log", "w") as out:
        out.writelines(lines())
    found, printed, searched = least_in_turn(
        [
            # Where nothing is written, grep ends at the first line that it finds.
            ["sh", "-c", "grep -c 'Accepted publickey' log >counted"],
            [OURS, "-Q", "-l", "-f", "list.krl"],
            [AUDIT, "logins", "-f", "list.krl", "log"],
        ]
    )
    print("%-48s %6s %15s" % ("krl logins", "ratio", "seconds, MiB"))
    name = "%d lines, %d logins, %d keys" % (LINES, LOGINS, KEYS)
    print("%-48s %6.2f %s" % (name, searched[0] / (found[0] + printed[0]), own(searched)))
