"""What the scripts of real sockets share: a client of the server's HTTP over a plain socket.

The server is `ripley serve` over the page and the manifest in crates/ripley/data: its script calls f(1) and f(2), and
no function has that name.
"""

import json
import socket

CALLS = [["call", 1, "f", [1]], ["call", 2, "f", [2]]]
SERVED = [[1, {"error": "unknown"}], [2, {"error": "unknown"}]]


def address(text):
    host, port = text.rsplit(":", 1)
    return host, int(port)


class Ended(Exception):
    """The server ended the connection."""


class Client:
    """A connection to the server."""

    def __init__(self, where, seconds=10):
        self.socket = socket.create_connection(where)
        self.socket.settimeout(seconds)
        self.socket.setsockopt(socket.IPPROTO_TCP, socket.TCP_NODELAY, 1)
        self.unread = b""

    def send(self, data):
        self.socket.sendall(data)

    def more(self):
        data = self.socket.recv(65536)
        if not data:
            raise Ended
        self.unread += data

    def answer(self, bare=False):
        """The next answer: its code, its fields and its body."""
        while b"\r\n\r\n" not in self.unread:
            self.more()
        head, self.unread = self.unread.split(b"\r\n\r\n", 1)
        first, *lines = head.decode("ascii").split("\r\n")
        fields = dict(line.split(": ", 1) for line in lines)
        size = 0 if bare else int(fields["Content-Length"])
        while len(self.unread) < size:
            self.more()
        body, self.unread = self.unread[:size], self.unread[size:]
        return int(first.split(" ")[1]), fields, body

    def is_shut(self):
        """Whether the server ends the connection, and sends no more."""
        try:
            return not self.unread and self.socket.recv(1) == b""
        except ConnectionResetError:
            return True

    def ask(self, method, target, body=None):
        self.send(request(method, target, body))
        return self.answer()

    def open(self):
        """Opens a session and gives its identifier."""
        code, fields, _ = self.ask("GET", "/")
        if code != 200:
            raise AssertionError(f"an opening was answered {code}")
        return fields["Ripley-Session"]

    def batch(self, session, number, items):
        return self.ask("POST", f"/e/{session}", text({"batch": number, "items": items}))

    def close(self):
        self.socket.close()


def text(value):
    return json.dumps(value, separators=(",", ":")).encode()


def request(method, target, body=None):
    length = "" if body is None else f"Content-Length: {len(body)}\r\n"
    head = f"{method} {target} HTTP/1.1\r\nHost: a\r\n{length}\r\n".encode()
    return head if body is None else head + body


def truthful_visit(client):
    """Opens a session, reports both calls, and closes it. Each answer is compared."""
    session = client.open()
    code, _, body = client.batch(session, 1, CALLS)
    told = json.loads(body)
    served = [[number, reply] for number, _, reply in told["served"]]
    if (code, told["batch"], told["ended"], served) != (200, 1, None, SERVED):
        raise AssertionError(f"a truthful batch was answered {code} {body!r}")
    code, _, body = client.ask("POST", f"/q/{session}", b"")
    if code != 200 or json.loads(body)["ended"] != "closed":
        raise AssertionError(f"a closing was answered {code} {body!r}")
