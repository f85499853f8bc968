#!/usr/bin/env python3
"""Measures how long one session of `ripley serve` keeps the others waiting.

    tools/waiting.py RIPLEY [--runs=20]

A session does what takes long: an event that computes, a batch of 64 calls that each get a value, the same batch sent
again, whose answer is stored. Meanwhile another sends empty batches, one after the other. For each it prints the
processor time of the server, the time until the answer, and how long the other waited at most: of RUNS the least of each.
"""

import json
import os
import pathlib
import socket
import subprocess
import sys
import tempfile
import threading
import time

from sockets import Client

SIZES = (10, 1000, 16000)
CALLS = 64

# Node numbers are those of the page below.
PUT, GET, COMPUTE = 6, 8, 10
PAGE = """<!DOCTYPE html><html><head><title>waiting</title></head><body><button id="put">put</button>\
<button id="get">get</button><button id="go">go</button><script>"use strict";
document.getElementById("put").addEventListener("click", function () {
  var value = "%s";
  ripley.call("put", ["k", value]);
});
document.getElementById("get").addEventListener("click", function () {
  for (var i = 0; i < 64; i++) { ripley.call("get", ["k"]); }
});
document.getElementById("go").addEventListener("click", function () {
  for (var i = 0; i < 60000; i++) { }
});
</script></body></html>"""
APP = '{"version":1,"functions":{"put":["put",""],"get":["get",""]},"limits":{"fuel":1000000,"units":200000}}'


def processor(pid: int) -> float:
    """Milliseconds that a process has had of a processor."""
    return int(pathlib.Path(f"/proc/{pid}/schedstat").read_text().split()[0]) / 1e6


class Other(threading.Thread):
    """Sends empty batches until it is told to stop, and keeps the longest time that one took."""

    def __init__(self, where):
        super().__init__()
        self.client = Client(where)
        self.session, self.number, self.longest, self.is_on = self.client.open(), 0, 0.0, True

    def run(self):
        while self.is_on:
            self.number += 1
            start = time.perf_counter()
            code, _, _ = self.client.batch(self.session, self.number, [])
            assert code == 200, code
            self.longest = max(self.longest, (time.perf_counter() - start) * 1000)
        self.client.ask("POST", f"/q/{self.session}", b"")
        self.client.close()


def measured(where, pid, client, session, number, items):
    """Milliseconds of a processor, until the answer, and of the other's longest wait, and the bytes of the answer."""
    alone = processor(pid)
    code, _, body = client.batch(session, number, items)
    alone = processor(pid) - alone
    assert code == 200 and json.loads(body)["ended"] is None, body[:200]
    return alone, len(body)


def beside(where, client, session, number, items):
    """Milliseconds until the answer, and of the other's longest wait."""
    other = Other(where)
    other.start()
    time.sleep(0.02)
    start = time.perf_counter()
    code, _, body = client.batch(session, number, items)
    taken = (time.perf_counter() - start) * 1000
    other.is_on = False
    other.join()
    assert code == 200 and json.loads(body)["ended"] is None, body[:200]
    return taken, other.longest


def session_with_value(where, value):
    """A session whose page was asked to put the value, and to get it 64 times: what the batch with these calls is."""
    client = Client(where)
    session = client.open()
    client.batch(session, 1, [["event", "click", PUT], ["call", 1, "put", ["k", value]]])
    client.batch(session, 2, [["event", "click", GET]])
    return client, session, [["call", number, "get", ["k"]] for number in range(2, CALLS + 2)]


def run(where, pid, value, found):
    def keep(what, *figures):
        found[what] = [min(pair) for pair in zip(found.get(what, figures), figures)]

    sized = f"{CALLS} calls that get {len(value)} bytes"
    for what in ("alone", "beside"):
        client, session, calls = session_with_value(where, value)
        if what == "alone":
            taken, size = measured(where, pid, client, session, 3, calls)
            again, _ = measured(where, pid, client, session, 3, calls)
            went, _ = measured(where, pid, client, session, 4, [["event", "click", COMPUTE]])
        else:
            keep(sized, taken, size, *beside(where, client, session, 3, calls))
            keep("the same again, a stored answer", again, size, *beside(where, client, session, 3, calls))
            keep("an event that computes", went, 0, *beside(where, client, session, 4, [["event", "click", COMPUTE]]))
        client.ask("POST", f"/q/{session}", b"")
        client.close()


def serve(ripley, folder, value):
    (folder / "page.html").write_text(PAGE % value)
    (folder / "app.json").write_text(APP)
    with socket.socket() as free:
        free.bind(("127.0.0.1", 0))
        port = free.getsockname()[1]
    with open(folder / "log", "wb") as log:
        words = [ripley, "serve", folder / "page.html", folder / "app.json", f"127.0.0.1:{port}"]
        server = subprocess.Popen(words, stdout=log, stderr=subprocess.DEVNULL)
    while server.poll() is None:
        try:
            socket.create_connection(("127.0.0.1", port)).close()
            return server, ("127.0.0.1", port)
        except ConnectionRefusedError:
            time.sleep(0.05)
    sys.exit(f"{ripley} ended with status {server.returncode}")


def main():
    ripley = os.path.abspath(sys.argv[1])
    words = dict(word[2:].split("=", 1) for word in sys.argv[2:])
    # The two clients are threads of one interpreter, of which none is to hold the other for long.
    sys.setswitchinterval(0.00005)
    print("| what one session does | bytes of its answer | processor, ms | until its answer, ms | another waits at most, ms |")
    print("|---|---|---|---|---|")
    for size in SIZES:
        found = {}
        with tempfile.TemporaryDirectory() as folder:
            server, where = serve(ripley, pathlib.Path(folder), "x" * size)
            try:
                for _ in range(int(words.get("runs", 20))):
                    run(where, server.pid, "x" * size, found)
            finally:
                server.terminate()
                server.wait()
        for what, (taken, bytes_, until, waited) in found.items():
            print(f"| {what} | {bytes_} | {taken:.2f} | {until:.2f} | {waited:.2f} |", flush=True)


if __name__ == "__main__":
    main()
