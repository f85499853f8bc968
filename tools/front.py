#!/usr/bin/env python3
"""Stands before `ripley serve` on this machine, so that a page can be looked at in a browser without nginx.

usage: front.py PORT ADDRESS     PORT where the browser comes, ADDRESS where `ripley serve` listens, as 127.0.0.1:8080

It listens on 127.0.0.1 alone, over plain HTTP, and is for trying: visitors come through nginx (docs/DEPLOYING.md). `/`
without the field Ripley-Open is the loader, `/ripley/` are the files of browser/, and all else is handed on to the server.
"""

import http.client
import pathlib
import sys
from http.server import BaseHTTPRequestHandler, ThreadingHTTPServer

BROWSER = pathlib.Path(__file__).resolve().parent.parent / "browser"
TYPES = {".html": "text/html; charset=utf-8", ".js": "text/javascript", ".css": "text/css", ".json": "application/json"}


class Front(BaseHTTPRequestHandler):
    protocol_version = "HTTP/1.1"
    server_address: tuple[str, int] = ("127.0.0.1", 8080)

    def do_GET(self) -> None:
        name = "index.html" if self.path == "/" and not self.headers["Ripley-Open"] else None
        if self.path.startswith("/ripley/"):
            name = self.path.removeprefix("/ripley/")
        if name is None:
            self.hand_on()
        else:
            self.file(name)

    def do_POST(self) -> None:
        self.hand_on()

    def file(self, name: str) -> None:
        """Answers a file of browser/ that lies directly there."""
        files = {each.name: each for each in BROWSER.iterdir() if each.suffix in TYPES}
        if name in files:
            self.answer(200, [("Content-Type", TYPES[files[name].suffix])], files[name].read_bytes())
        else:
            self.answer(404, [], b"")

    def hand_on(self) -> None:
        """Asks the server the same, without the browser's fields, and answers what it does."""
        body = self.rfile.read(int(self.headers["Content-Length"] or 0))
        asked = http.client.HTTPConnection(*self.server_address)
        try:
            asked.request(self.command, self.path, body or None)
            answer = asked.getresponse()
            fields = [(name, value) for name, value in answer.getheaders() if name.lower() not in ("connection", "content-length")]
            self.answer(answer.status, fields, answer.read())
        except OSError:
            self.answer(502, [], b"")
        finally:
            asked.close()

    def answer(self, code: int, fields: list[tuple[str, str]], body: bytes) -> None:
        self.send_response(code)
        for name, value in [*fields, ("Content-Length", str(len(body))), ("Cache-Control", "no-store")]:
            self.send_header(name, value)
        self.end_headers()
        self.wfile.write(body)

    def log_message(self, *_) -> None:
        """Says nothing: the log is the server's."""


def main() -> int:
    if len(sys.argv) != 3:
        print(__doc__, file=sys.stderr)
        return 2
    host, _, port = sys.argv[2].rpartition(":")
    Front.server_address = (host, int(port))
    try:
        ThreadingHTTPServer(("127.0.0.1", int(sys.argv[1])), Front).serve_forever()
    except KeyboardInterrupt:
        return 0


if __name__ == "__main__":
    sys.exit(main())
