"""Logins of OpenSSH's client to the server of examples/, which asks a list about each key."""

import os
import shutil
import socket
import subprocess
import time

from building import WARNINGS, compiled, run
from trial import PROGRAM, TOP

OPENSSH = os.environ.get("OPENSSH", "ssh-keygen")
OPTIONS = """IdentitiesOnly=yes IdentityAgent=none BatchMode=yes StrictHostKeyChecking=no
    UserKnownHostsFile=/dev/null GSSAPIAuthentication=no LogLevel=ERROR""".split()


def listening(seconds=10):
    """The server, on a port of the loopback that was free, and the port."""
    for _ in range(5):
        with socket.socket() as free:
            free.bind(("127.0.0.1", 0))
            port = free.getsockname()[1]
        with open("said", "wb") as said:
            words = ["./libssh_server", str(port), "host", "allowed", "revoked.krl"]
            server = subprocess.Popen(words, stderr=said)
        end = time.monotonic() + seconds
        while server.poll() is None and time.monotonic() < end:
            try:
                socket.create_connection(("127.0.0.1", port), 1).close()
                return server, port
            except OSError:
                time.sleep(0.05)
        server.kill()
        server.wait()
    raise OSError("the server of examples/ does not listen")


def enters(port, key):
    """Whether the server lets in a client with the key."""
    options = [word for it in OPTIONS for word in ("-o", it)]
    words = ["ssh", "-F", "none", "-p", port, *options, "-i", key, "somebody@127.0.0.1", "true"]
    ran = run(*words, stdin=subprocess.DEVNULL, timeout=60)
    return (ran.returncode, ran.stdout) == (0, "let in\n")


def listed(*keys):
    """The program makes a list of these keys, in the place of the one that is there."""
    run(PROGRAM, "-k", "-f", "revoked.krl", *(it + ".pub" for it in keys))


def logins(tests):
    """A key of the file is let in, unless the list that is there at the login revokes it."""
    os.mkdir("logins")
    os.chdir("logins")
    kinds = {"one": "ed25519", "two": "ecdsa", "three": "rsa", "other": "ed25519"}
    for name, kind in {"host": "ed25519", **kinds}.items():
        run(OPENSSH, "-q", "-t", kind, "-N", "", "-C", name, "-f", name)
    with open("allowed", "wb") as allowed:
        for name in "one", "two", "three":
            with open(name + ".pub", "rb") as key:
                shutil.copyfileobj(key, allowed)
    source = os.path.join(TOP, "examples", "libssh_server.c")
    compiled(tests, source, "libssh_server", *WARNINGS, "-lssh")
    server, port = listening()

    def case(name, let_in):
        wrong = [it for it in kinds if enters(port, it) != (it in let_in)]
        tests.judge(name, ["%s is let in: %s" % (it, it not in let_in) for it in wrong])

    def reported(name, why):
        """The log has the user, the fingerprint of the key and the reason."""
        shown = run(OPENSSH, "-l", "-f", name + ".pub").stdout.split()[1]
        line = "revoked.krl: user somebody, key %s: %s" % (shown, why)
        with open("said", encoding="utf-8") as said:
            lines = said.read().splitlines()
        tests.judge("the server logs who is refused: %s" % why, [] if line in lines else lines)

    listed()
    case("a list of nothing lets in the keys of the file alone", ("one", "two", "three"))
    listed("two", "other")
    case("a revoked key is not let in", ("one", "three"))
    reported("two", "revoked by its key")
    listed("one", "three")
    case("a list that takes its place counts at once", ("two",))
    os.truncate("revoked.krl", os.path.getsize("revoked.krl") - 1)
    case("a list that is cut lets nobody in", ())
    reported("one", "krl 3 EndsEarly")
    with open("revoked.krl", "wb") as plain, open("two.pub", "rb") as key:
        shutil.copyfileobj(key, plain)
    case("a plain list", ("one", "three"))
    reported("two", "revoked by a line of a plain list")
    os.remove("revoked.krl")
    case("without a list nobody is let in", ())
    os.mkdir("revoked.krl")
    case("a folder in its place lets nobody in", ())
    os.rmdir("revoked.krl")
    server.kill()
    server.wait()
    os.chdir("..")
