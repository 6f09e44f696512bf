"""A program that is started once and run many times, over serving.c."""

import os
import struct
import subprocess


class Request:
    """The arguments of a run, and the files for its output."""

    def __init__(self, words, output, error, seconds, memory):
        self.texts = [str(seconds), str(memory), output, error] + words
        self.count = len(words)

    def packed(self):
        content = b"".join(it.encode() + b"\0" for it in self.texts)
        return struct.pack("=I", len(content)) + content


class Server:
    """The program, started once for a number of arguments; its runs begin in the current folder."""

    def __init__(self, program, library, count):
        self.program = program
        # Late is better, if the program reaches that place.
        for late in ({"SERVE_LATE": "1"}, {}):
            self.process = subprocess.Popen(
                [program] + ["-"] * (count - 1),
                env={**os.environ, "LD_PRELOAD": library, **late},
                stdin=subprocess.PIPE,
                stdout=subprocess.PIPE,
                stderr=subprocess.DEVNULL,
                bufsize=0,
            )
            if len(self.process.stdout.read(4)) == 4:
                return
            self.end()
        raise OSError("%s does not serve" % program)

    def run(self, requests):
        """The statuses of these runs, one after the other."""
        self.process.stdin.write(b"".join(it.packed() for it in requests))
        content = b""
        while len(content) < 4 * len(requests):
            more = self.process.stdout.read(4 * len(requests) - len(content))
            if not more:
                raise OSError("the server of %s ended" % self.program)
            content += more
        return struct.unpack("=%di" % len(requests), content)

    def end(self):
        self.process.stdin.close()
        self.process.stdout.close()
        self.process.wait()


class Servers:
    """A program, with a server for each count of words."""

    def __init__(self, program, library):
        self.program = program
        self.library = library
        self.by_count = {}

    def run(self, requests):
        """The statuses of these runs, of which those with as many words follow each other."""
        places = {}
        for place, request in enumerate(requests):
            places.setdefault(request.count, []).append(place)
        statuses = {}
        for count, wanted in places.items():
            if count not in self.by_count:
                self.by_count[count] = Server(self.program, self.library, count)
            ended = self.by_count[count].run([requests[it] for it in wanted])
            statuses.update(zip(wanted, ended))
        return [statuses[it] for it in range(len(requests))]

    def end(self):
        for it in self.by_count.values():
            it.end()
