"""Serves a page that tries a TURN server, and hands out its ICE servers with credentials that expire.

    python3 examples/web/server.py SECRET-FILE URL [PORT]

SECRET-FILE is that of `relayd serve --secret`, and URL what a page gives to its peer connections, as
turn:relay.example.org:3478. It prints the address of the page, at port 8000 unless PORT is another; with 0 the system chooses
one. It listens on 127.0.0.1 alone: for visitors a web server with TLS stands before it. Whoever gets an answer of
`/ice-servers` may use the relay for a day, so an application gives one to visitors that it knows, with their name in it.
"""

import contextlib
import http.server
import json
import pathlib
import sys

HERE = pathlib.Path(__file__).resolve().parent
sys.path.insert(0, str(HERE.parent))
from credentials import ice_servers, read_secret

PORT = 8000


class Handler(http.server.BaseHTTPRequestHandler):
    """Answers requests for the page and for ICE servers."""

    def do_GET(self):
        """Answers with the page, or with ICE servers whose credentials begin now."""
        if self.path == "/":
            self.answer("text/html; charset=utf-8", (HERE / "index.html").read_bytes())
        elif self.path == "/ice-servers":
            self.answer("application/json", json.dumps(ice_servers(read_secret(self.server.secret), self.server.url)).encode())
        else:
            self.send_error(404)

    def answer(self, kind, body):
        """Sends a body of a type, which no cache may keep."""
        self.send_response(200)
        self.send_header("Content-Type", kind)
        self.send_header("Content-Length", str(len(body)))
        self.send_header("Cache-Control", "no-store")
        self.end_headers()
        self.wfile.write(body)


def main():
    """Serves until it is interrupted."""
    if len(sys.argv) not in (3, 4):
        sys.exit("usage: server.py SECRET-FILE URL [PORT]")
    secret, url, port = [*sys.argv[1:], PORT][:3]
    server = http.server.ThreadingHTTPServer(("127.0.0.1", int(port)), Handler)
    server.secret, server.url = secret, url
    print(f"http://127.0.0.1:{server.server_port}/", flush=True)
    with contextlib.suppress(KeyboardInterrupt):
        server.serve_forever()


if __name__ == "__main__":
    main()
