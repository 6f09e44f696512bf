"""A web server on the loopback, for tests/cases/pull.sh.

    web.py FOLDER PORTS [CERTIFICATE]

It serves the files of the folder, over TLS if the file of a certificate and its key is given, and
writes its port to the file PORTS. It never says how long a file is. A name that ends in .endless has
more bytes than any list, one that ends in .slow never comes, and one with .moved leads to the same
name without that.
"""

import http.server
import os
import ssl
import sys
import time

FOLDER, PORTS = sys.argv[1:3]


class Handler(http.server.BaseHTTPRequestHandler):
    def do_GET(self):
        path = FOLDER + self.path
        if self.path.endswith(".slow"):
            time.sleep(60)
        elif ".moved" in self.path:
            self.send_response(302)
            self.send_header("Location", self.path.replace(".moved", ""))
            self.end_headers()
        elif self.path.endswith(".endless"):
            self.send_response(200)
            self.end_headers()
            for _ in range(100):
                self.wfile.write(bytes(1 << 20))
        elif os.path.exists(path):
            self.send_response(200)
            self.end_headers()
            with open(path, "rb") as file:
                self.wfile.write(file.read())
        else:
            self.send_error(404)

    def log_message(self, *_):
        pass


class Server(http.server.ThreadingHTTPServer):
    def handle_error(self, *_):
        pass


server = Server(("127.0.0.1", 0), Handler)
if len(sys.argv) > 3:
    context = ssl.SSLContext(ssl.PROTOCOL_TLS_SERVER)
    context.load_cert_chain(sys.argv[3])
    server.socket = context.wrap_socket(server.socket, server_side=True)
with open(PORTS + ".new", "w") as file:
    file.write(str(server.server_port))
os.rename(PORTS + ".new", PORTS)
server.serve_forever()
