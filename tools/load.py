#!/usr/bin/env python3
"""Loads a running `ripley serve` with random truthful and lying clients, and compares each answer.

    ripley serve crates/ripley/data/page.html tools/load.json 127.0.0.1:8080 > log &
    tools/load.py 127.0.0.1:8080 --pid=$! [--seconds=600] [--connections=64] [--seed=1] [--rest=0] [--idle=0]

Client N draws from the seed `SEED + N`, and rests before each visit for up to REST milliseconds, as it draws. IDLE sessions
are opened before, and stay: the manifest has to allow as many beside the connections, and that of `tools/load.json` allows
1,019 in all. At the end it prints how many visits of each kind there were, the time of an answer, and the resident memory of the
process in the second minute and in the last. The status is 0 only where each answer was the due one and memory grew no more
than it may:

- where visitors rest, that of the last minute is at most a tenth above that of the second;
- a storm of openings, with no rest, grows by at most 64 bytes for each session that was ever opened. The server keeps as
  much of one that ended, so that what is asked of it is still answered.
"""

import json
import random
import sys
import threading
import time

from sockets import CALLS, Client, address, truthful_visit

LIES = [
    [["call", 1, "f", [2]]],
    [["call", 1, "g", [1]]],
    [["call", 2, "f", [2]]],
    [["event", "click", 99]],
    [["call", 1, "f", [1]], ["call", 2, "f", [3]]],
    [["reply", 1]],
]


class Load:
    def __init__(self, where, seconds, seed, rest):
        self.where = where
        self.rest = rest / 1000
        self.end = time.time() + seconds
        self.seed = seed
        self.counts = {"truthful": 0, "lying": 0, "new connections": 0}
        self.times = []
        self.wrong = []
        self.lock = threading.Lock()

    def count(self, kind):
        with self.lock:
            self.counts[kind] += 1

    def visit(self, client, draw):
        if draw.random() < 0.5:
            truthful_visit(client)
            self.count("truthful")
            return
        session = client.open()
        start = time.time()
        code, _, body = client.batch(session, 1, draw.choice(LIES))
        with self.lock:
            self.times.append(time.time() - start)
        ended = json.loads(body)["ended"]
        if code != 200 or ended not in ("mismatch", "report"):
            raise AssertionError(f"a lie was answered {code} {body!r}")
        code, _, body = client.batch(session, 2, [])
        if code != 410 or json.loads(body)["ended"] != ended:
            raise AssertionError(f"an ended session answered {code} {body!r}")
        self.count("lying")

    def run(self, number):
        draw = random.Random(self.seed + number)
        client = Client(self.where)
        while time.time() < self.end and not self.wrong:
            try:
                time.sleep(draw.random() * self.rest)
                self.visit(client, draw)
                if draw.random() < 0.05:
                    client.close()
                    time.sleep(0.1)
                    client = Client(self.where)
                    self.count("new connections")
            except Exception as error:
                with self.lock:
                    self.wrong.append(f"client {number}: {type(error).__name__} {error}")
        client.close()


def open_idle(where, count):
    """Opens so many sessions, which tell nothing."""
    client = Client(where)
    for _ in range(count):
        client.open()
    client.close()


def resident(pid):
    with open(f"/proc/{pid}/status") as lines:
        for line in lines:
            if line.startswith("VmRSS:"):
                return int(line.split()[1])
    return 0


def grew(memory, seconds, rest, opened):
    """Whether resident memory grew more than it may, by what it was at which time in KiB."""
    second = max(kib for at, kib in memory if 60 <= at < 120)
    last = max(kib for at, kib in memory if at >= seconds - 60)
    print(f"resident in the second minute {second} KiB, in the last {last} KiB")
    if rest:
        print("visitors rest: the last may be a tenth above the second")
        return last * 10 > second * 11
    each = max(0, last - second) * 1024 / opened
    print(f"a storm of {opened} openings: {each:.1f} bytes for each, of which 64 are allowed")
    return each > 64


def main():
    words = dict(word[2:].split("=", 1) for word in sys.argv[2:])
    seconds = int(words.get("seconds", 600))
    load = Load(address(sys.argv[1]), seconds, int(words.get("seed", 1)), int(words.get("rest", 0)))
    print(f"seed {load.seed}, {words.get('connections', 64)} connections, {seconds} seconds")
    open_idle(load.where, int(words.get("idle", 0)))
    threads = [
        threading.Thread(target=load.run, args=(number,))
        for number in range(int(words.get("connections", 64)))
    ]
    for thread in threads:
        thread.start()
    memory, start = [], time.time()
    while any(thread.is_alive() for thread in threads):
        time.sleep(1)
        if "pid" in words:
            memory.append((time.time() - start, resident(words["pid"])))
    for kind, count in load.counts.items():
        print(f"{kind} {count}")
    times = sorted(load.times) or [0]
    print(f"a lie was answered in {times[len(times) // 2] * 1000:.2f} ms, the slowest in {times[-1] * 1000:.2f} ms")
    for line in load.wrong[:10]:
        print(f"WRONG {line}")
    opened = load.counts["truthful"] + load.counts["lying"]
    too_much = bool(memory) and seconds >= 180 and grew(memory, seconds, load.rest, opened)
    sys.exit(1 if load.wrong or too_much else 0)


if __name__ == "__main__":
    main()
