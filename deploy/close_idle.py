#!/usr/bin/env python3
"""Closes sessions of a running `ripley serve` that have been silent, or of which there are too many, by the server's log.

    deploy/close_idle.py LOG ADDRESS [--seconds=900] [--app=APP] [--each=50] [--openings=SOCKET] [--spent=FILE]

The server keeps a session until it is closed, and a browser that was killed closes nothing. So these are closed, once a
second:

- a session that has been silent for SECONDS. A recorder whose page is seen reports every few minutes.
- the longest silent of an address that has more than EACH sessions. The address of a session is known where nginx sends
  it to SOCKET, as deploy/nginx.conf does.
- where more than nine tenths of the `sessions` of the manifest APP are alive: the longest silent of the address that has
  the most.

Where the 1,000,000 sessions of a run are opened, FILE is made, and a unit of systemd that waits for it starts the server
anew. A visitor whose session was closed sees so in the page, at the next report.
"""

import http.client
import json
import os
import select
import socket
import sys
import time
from collections import defaultdict

from follow import ANOTHER_RUN, SESSIONS_OF_A_RUN, Log, Sessions, entry, sessions_of

ROUND = 1

# How long the address of a session is kept whose line in the log was not read yet.
EARLY = 60


class Openings:
    """The addresses of sessions by identifier, as nginx tells them to a socket."""

    def __init__(self, path: str | None):
        self.known: dict[str, tuple[str, float]] = {}
        self.socket = socket.socket(socket.AF_UNIX, socket.SOCK_DGRAM | socket.SOCK_NONBLOCK)
        if path:
            if os.path.exists(path):
                os.unlink(path)
            self.socket.bind(path)

    def read(self, now: float) -> None:
        """A datagram ends with an address and an identifier."""
        while True:
            try:
                words = self.socket.recv(4096).decode("latin-1").split()
            except BlockingIOError:
                return
            if len(words) > 1 and len(words[-1]) == 36:
                self.known[words[-1]] = (words[-2], now)

    def wait(self, seconds: float) -> None:
        """Reads what comes for so long: a datagram that finds the queue full is lost."""
        end = time.monotonic() + seconds
        while (left := end - time.monotonic()) > 0:
            if select.select([self.socket], [], [], left)[0]:
                self.read(time.monotonic())

    def forget(self, alive: set[str], now: float) -> None:
        for name in [name for name, (_, at) in self.known.items() if name not in alive and at < now - EARLY]:
            del self.known[name]

    def address(self, name: str) -> str:
        return self.known.get(name, ("", 0.0))[0]


class Watch:
    """Which sessions are to be closed, and why."""

    def __init__(self, log: Log, openings: Openings, seconds: float, most: int, each: int):
        self.log, self.openings = log, openings
        self.seconds, self.nearly, self.each = seconds, most * 9 // 10, each
        self.begin()

    def begin(self) -> None:
        self.sessions = Sessions()
        self.last: dict[int, float] = {}

    def read(self, now: float) -> None:
        self.openings.read(now)
        for line in self.log.read():
            if line == ANOTHER_RUN:
                self.begin()
            elif told := entry(line):
                self.sessions.take(told)
                if told.session in self.sessions.alive:
                    self.last[told.session] = now
        alive = self.sessions.alive
        self.last = {number: self.last[number] for number in alive}
        self.openings.forget(set(alive.values()), now)

    def due(self, now: float) -> list[tuple[int, str]]:
        """The numbers of sessions to close with the reason, each once."""
        due = {}
        by_address = defaultdict(list)
        for number, name in self.sessions.alive.items():
            if self.last[number] <= now - self.seconds:
                due[number] = f"silent for {self.seconds:.0f} s"
            else:
                by_address[self.openings.address(name)].append(number)
        for address, numbers in by_address.items():
            while address and len(numbers) > self.each:
                due[numbers.pop(0)] = f"its address has more than {self.each}"
        for _ in range(len(self.sessions.alive) - len(due) - self.nearly):
            due[max(by_address.values(), key=len).pop(0)] = f"more than {self.nearly} are alive"
        return list(due.items())


def close(where: str, due: list[tuple[int, str]], alive: dict[int, str]) -> None:
    """Asks the server to close sessions, over one connection. One that is busy is asked for again in the next round."""
    connection = http.client.HTTPConnection(where, timeout=10)
    try:
        for number, reason in due:
            connection.request("POST", f"/q/{alive[number]}", body=b"")
            answer = connection.getresponse()
            told = json.loads(answer.read())
            print(f"session {number}: {reason}: {answer.status} {told.get('ended') or told.get('error')}", flush=True)
    except (OSError, http.client.HTTPException, ValueError) as error:
        print(f"{where}: {type(error).__name__} {error}", file=sys.stderr, flush=True)
    finally:
        connection.close()


def main() -> None:
    path, where = [word for word in sys.argv[1:] if not word.startswith("--")]
    words = dict(word[2:].split("=", 1) for word in sys.argv[1:] if word.startswith("--"))
    openings = Openings(words.get("openings"))
    most = sessions_of(words["app"]) if "app" in words else SESSIONS_OF_A_RUN
    watch = Watch(Log(path), openings, float(words.get("seconds", 900)), most, int(words.get("each", 50)))
    while True:
        watch.read(time.monotonic())
        if due := watch.due(time.monotonic()):
            close(where, due, watch.sessions.alive)
        spent = words.get("spent")
        if spent and watch.sessions.opened >= SESSIONS_OF_A_RUN and not os.path.exists(spent):
            print(f"all {SESSIONS_OF_A_RUN} sessions of this run are opened", flush=True)
            open(spent, "w").close()
        openings.wait(ROUND)


if __name__ == "__main__":
    main()
