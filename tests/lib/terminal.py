"""Runs a program at a terminal, and keeps what the terminal is sent.

    terminal.py FILE STREAMS PROGRAM WORD..

STREAMS are the numbers of the standard streams that are the terminal: 1, 2 or 12. The others, and
standard input, are those of this script. The terminal changes no byte. The status is that of the
program.
"""

import errno
import os
import pty
import subprocess
import sys
import tty


def main():
    name, streams, words = sys.argv[1], sys.argv[2], sys.argv[3:]
    ours, theirs = pty.openpty()
    tty.setraw(theirs)
    program = subprocess.Popen(
        words, stdout=theirs if "1" in streams else None, stderr=theirs if "2" in streams else None
    )
    os.close(theirs)
    with open(name, "wb") as kept:
        while True:
            try:
                sent = os.read(ours, 65536)
            except OSError as error:
                # Nobody has the terminal any more.
                if error.errno != errno.EIO:
                    raise
                break
            if not sent:
                break
            kept.write(sent)
    sys.exit(program.wait())


main()
