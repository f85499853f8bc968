#!/usr/bin/env python3
"""Sends hostile input to a running `ripley serve` over real sockets, and says of each kind whether it was borne.

    ripley serve crates/ripley/data/page.html crates/ripley/data/app.json 127.0.0.1:8080 > log &
    tools/hostile_sockets.py 127.0.0.1:8080 [--slow=SECONDS]

A body comes a byte a second for SECONDS, 60 if none are given. The status is 0 only where all was borne.
"""

import socket
import struct
import sys
import threading
import time

from sockets import CALLS, Client, address, request, text, truthful_visit

GET = b"GET / HTTP/1.1\r\nHost: a\r\n\r\n"

REFUSED = [
    ("a method in small letters", b"get / HTTP/1.1\r\nHost: a\r\n\r\n", 405),
    ("PUT", b"PUT / HTTP/1.1\r\nHost: a\r\n\r\n", 405),
    ("no Host", b"GET / HTTP/1.1\r\n\r\n", 400),
    ("two Hosts", b"GET / HTTP/1.1\r\nHost: a\r\nHost: a\r\n\r\n", 400),
    ("no head at all", b"\x00\x01\x02\r\n\r\n", 400),
    ("an unknown path", b"GET /nowhere HTTP/1.1\r\nHost: a\r\n\r\n", 404),
    ("a session of no such name", request("POST", "/e/x", b""), 404),
    ("no length", b"POST /e/x HTTP/1.1\r\nHost: a\r\n\r\n", 411),
    ("a signed length", b"POST /e/x HTTP/1.1\r\nHost: a\r\nContent-Length: +1\r\n\r\n", 400),
    ("two lengths", b"POST /e/x HTTP/1.1\r\nHost: a\r\nContent-Length: 1\r\nContent-Length: 1\r\n\r\n", 400),
    ("a length too large", b"POST /e/x HTTP/1.1\r\nHost: a\r\nContent-Length: 65537\r\n\r\n" + b"x" * 65537, 413),
    ("a coding", b"POST /e/x HTTP/1.1\r\nHost: a\r\nTransfer-Encoding: chunked\r\n\r\n", 501),
    ("65 fields", b"GET / HTTP/1.1\r\n" + b"Host: a\r\n" + b"F: x\r\n" * 64 + b"\r\n", 400),
    ("20 pieces of A", b"A" * 81920, 431),
]


def refusals(where):
    for name, data, code in REFUSED:
        client = Client(where)
        try:
            client.send(data)
        except ConnectionError:
            pass
        got = client.answer()[0]
        assert got == code, f"{name}: answered {got} in place of {code}"
        client.close()
    client = Client(where)
    client.send(b"HEAD / HTTP/1.1\r\nHost: a\r\n\r\n")
    assert client.answer(bare=True)[0] == 405, "HEAD"
    assert client.is_shut(), "HEAD: bytes behind the head of its answer"


def split_head(where):
    client = Client(where)
    for byte in GET:
        client.send(bytes([byte]))
        time.sleep(0.002)
    code, fields, _ = client.answer()
    assert code == 200, f"answered {code}"
    client.ask("POST", f"/q/{fields['Ripley-Session']}", b"")
    client.close()


def slow_body(where, seconds):
    opener = Client(where)
    session = opener.open()
    body = text({"batch": 1, "items": CALLS})
    head, whole = request("POST", f"/e/{session}", body).split(b"\r\n\r\n")
    slow = Client(where, seconds + 20)
    slow.send(head + b"\r\n\r\n")
    longest, end, sent = 0.0, time.time() + seconds, 0
    truthful = Client(where)
    while time.time() < end and sent < len(whole) - 1:
        slow.send(whole[sent:sent + 1])
        sent += 1
        start = time.time()
        truthful_visit(truthful)
        longest = max(longest, time.time() - start)
        time.sleep(1)
    slow.send(whole[sent:])
    assert slow.answer()[0] == 200
    assert longest < 1, f"a truthful client waited {longest:.2f} seconds"
    opener.ask("POST", f"/q/{session}", b"")
    for client in (opener, slow, truthful):
        client.close()


def too_many(where):
    clients = []
    for _ in range(64):
        client = Client(where)
        client.send(request("POST", "/q/x", b""))
        assert client.answer()[0] == 404
        clients.append(client)
    last = Client(where)
    assert last.is_shut(), "the 65th connection was not shut"
    for client in clients:
        client.send(request("POST", "/q/x", b""))
        assert client.answer()[0] == 404
        client.close()
    time.sleep(0.5)


def never_reads(where):
    """Asks on and on, and reads nothing: others are served, and in the end it is gone or the system takes no more."""
    greedy = socket.create_connection(where)
    greedy.setsockopt(socket.SOL_SOCKET, socket.SO_RCVBUF, 4096)
    greedy.settimeout(2)
    asks = request("POST", "/q/x", b"") * 1000

    def ask():
        try:
            for _ in range(500):
                greedy.sendall(asks)
        except OSError:
            pass

    thread = threading.Thread(target=ask)
    thread.start()
    client = Client(where)
    while thread.is_alive():
        start = time.time()
        truthful_visit(client)
        assert time.time() - start < 1, "a truthful client waited"
    thread.join()
    truthful_visit(client)
    greedy.close()
    client.close()


def reset(where):
    for _ in range(20):
        client = Client(where)
        client.send(request("POST", "/q/x", b"") * 1000)
        client.socket.recv(10)
        client.socket.setsockopt(socket.SOL_SOCKET, socket.SO_LINGER, struct.pack("ii", 1, 0))
        client.close()
    client = Client(where)
    truthful_visit(client)
    client.close()


def main():
    where = address(sys.argv[1])
    slow = [word for word in sys.argv[2:] if word.startswith("--slow=")]
    seconds = int(slow[0][len("--slow="):]) if slow else 60
    kinds = [
        ("a truthful client", lambda: truthful_visit(Client(where))),
        ("heads and bodies that are refused", lambda: refusals(where)),
        ("a head that comes byte by byte", lambda: split_head(where)),
        ("a body that comes a byte a second", lambda: slow_body(where, seconds)),
        ("65 connections", lambda: too_many(where)),
        ("a client that never reads", lambda: never_reads(where)),
        ("a reset in the middle of an answer", lambda: reset(where)),
    ]
    failed = 0
    for name, run in kinds:
        try:
            run()
            print(f"borne: {name}")
        except Exception as error:
            failed += 1
            print(f"NOT BORNE: {name}: {type(error).__name__} {error}")
    sys.exit(1 if failed else 0)


if __name__ == "__main__":
    main()
