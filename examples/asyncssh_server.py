"""A server that lets in the keys of an authorized_keys file and the certificates of some
authorities, but none that a list revokes.

    python3 asyncssh_server.py PORT HOST_KEY authorized_keys authorities revoked.krl

It listens on the loopback, and says "let in" to each client that asks it to run a command.
Your own server needs the code before the comment "The server": it decides about the key.
"""

import asyncio
import base64
import ctypes
import sys

import asyncssh

library = ctypes.CDLL("libkrl.so.1")
for call in library.krl_check_any, library.krl_why:
    call.argtypes = [ctypes.c_char_p, ctypes.c_size_t] * 2
    call.restype = ctypes.c_int32
library.krl_fault_text.argtypes = [ctypes.c_int32, ctypes.c_char_p, ctypes.c_size_t]
library.krl_fault_text.restype = ctypes.c_size_t


# The words for the reasons of krl_why, from its lowest bit on.
REASONS = """its key, the SHA-1 of its key, the SHA-256 of its key,
    its authority, the SHA-1 of its authority, the SHA-256 of its authority,
    its serial number, its serial number under all authorities,
    its key ID, its key ID under all authorities""".split(",")


def why(content, blob):
    """For the log: by what the list revokes the key or the certificate."""
    bits = library.krl_why(content, len(content), blob, len(blob))
    if bits < 0:
        return "a line of a plain list"
    return ", ".join(it.strip() for at, it in enumerate(REASONS) if bits >> at & 1)


def fingerprint(blob):
    """That of the key, or of the key of the certificate, as sshd logs it."""
    name = blob[4 : 4 + int.from_bytes(blob[:4], "big")]
    text = name + b" " + base64.b64encode(blob)
    try:
        if b"-cert-v01@" in name:
            return asyncssh.import_certificate(text).key.get_fingerprint()
        return asyncssh.import_public_key(text).get_fingerprint()
    except asyncssh.KeyImportError:
        return "unknown"


def is_not_revoked(name, user, blob):
    """Whether the list, a KRL or a plain file of keys, does not revoke the key or the certificate. It
    is read at each login, so a new one counts immediately. A list that cannot be read lets nobody
    in."""
    try:
        with open(name, "rb") as file:
            content = file.read()
    except OSError as fault:
        print(fault, file=sys.stderr, flush=True)
        return False
    answer = library.krl_check_any(content, len(content), blob, len(blob))
    if answer != 0:
        words = ctypes.create_string_buffer(65)
        library.krl_fault_text(answer, words, len(words))
        said = words.value.decode() + (" by " + why(content, blob) if answer == 1 else "")
        # A client may send any characters as the name of a user.
        shown = "".join(it if "!" <= it <= "~" else "?" for it in user)
        line = "%s: user %s, key %s: %s" % (name, shown, fingerprint(blob), said)
        print(line, file=sys.stderr, flush=True)
    return answer == 0


class Server(asyncssh.SSHServer):
    """asyncssh shows a server the authority of a certificate, but not the certificate. So the call
    of the connection that takes a key or a certificate is replaced by one that asks the list first.
    If a version of asyncssh did not make this call, is_asked would stay False, and nobody would get
    in."""

    def __init__(self, allowed, authorities, revoked):
        self.allowed, self.authorities, self.revoked = allowed, authorities, revoked
        self.is_asked = False

    def connection_made(self, conn):
        validate = conn.validate_public_key

        async def asks_first(username, key_data, *signed):
            self.is_asked = is_not_revoked(self.revoked, username, key_data)
            return self.is_asked and await validate(username, key_data, *signed)

        conn.validate_public_key = asks_first

    def public_key_auth_supported(self):
        return True

    def validate_public_key(self, username, key):
        return self.is_asked and key.public_data in self.allowed

    def validate_ca_key(self, username, key):
        return self.is_asked and key.public_data in self.authorities


# The server.
def keys(name):
    return {it.public_data for it in asyncssh.read_public_key_list(name)}


def let_in(process):
    process.stdout.write("let in\n")
    process.exit(0)


async def main(port, host_key, allowed, authorities, revoked):
    files = keys(allowed), keys(authorities), revoked
    server = await asyncssh.listen(
        "127.0.0.1",
        int(port),
        server_factory=lambda: Server(*files),
        server_host_keys=[host_key],
        process_factory=let_in,
    )
    await server.wait_closed()


asyncio.run(main(*sys.argv[1:6]))
