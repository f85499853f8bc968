#!/usr/bin/env python3
"""Tries how the program `ripley` shares turns: a run that is cut after each turn, 64 sessions that are busy for long, and
64 whose batches would take more than half an hour.

usage: turns.py PROGRAM

A run of N turns puts the lines of the first N turns of the whole run, with status 3, and no more. Of 64 sessions each of
which tells a batch of about half a million units, all at once, each takes 1,000 units a turn, so all are done within some
600 turns, in the order of their opening; and within a minute. Where each tells 64 clicks of 9,600,005 units, a run of 200
turns is at its end within a minute too, with nothing of these batches done: no batch is run ahead of its turns. The status
is 0 where all is so.
"""
import pathlib
import re
import subprocess
import sys
import tempfile
import time

SHOP = pathlib.Path(__file__).resolve().parent.parent / "examples/shop"
SECONDS = 60
SESSIONS = 64

LOOP = """<!DOCTYPE html>
<html><head><title>Loop</title></head><body><button id="b">Go</button><script>
"use strict";
document.getElementById("b").addEventListener("click", function () {
  var sum = 0;
  for (var i = 0; i < 50000; i++) { sum += i; }
  ripley.call("told", ["sums", sum], null);
}, false);
</script></body></html>
"""
MANIFEST = '{"version":1,"functions":{"told":["push","sums"]},"limits":{"fuel":10000000}}'
SUM = sum(range(50000))


def replayed(program, page, manifest, trace, *words):
    words = [program, "replay", page, manifest, trace, *words]
    done = subprocess.run(words, capture_output=True, text=True, timeout=2 * SECONDS)
    return done.returncode, done.stdout.splitlines()


def turn_of(line):
    return int(line.split()[1])


def cut_runs(program):
    """What is wrong with the runs of the shop's visit that are cut after each turn."""
    files = SHOP / "page.html", SHOP / "app.json", SHOP / "true.txt"
    _, whole = replayed(program, *files)
    last = turn_of(whole[-1])
    wrong = []
    for turns in range(1, last + 2):
        status, lines = replayed(program, *files, f"--turns={turns}")
        first = [line for line in whole if turn_of(line) <= turns]
        is_cut = status == 3 and lines[: len(first)] == first and len(lines) <= len(first) + 1
        if not (is_cut or (status == 0 and lines == whole)):
            wrong.append(f"--turns={turns}: status {status}, {len(lines)} lines for {len(first)}")
    return wrong


def long_batches(program):
    """What is wrong with 64 sessions that tell a long batch each."""
    lines = ["open 0"] + ["say 0 get"] * SESSIONS
    call = f'["call",1,"told",["sums",{SUM}]]'
    items = f'{{"batch":1,"items":[["event","click",{BUTTON}],{call}]}}'
    lines += [f"say 0 e {session} {items}" for session in range(1, SESSIONS + 1)]
    with tempfile.TemporaryDirectory() as room:
        page, manifest, trace = (pathlib.Path(room) / name for name in ("page.html", "app.json", "trace.txt"))
        page.write_text(LOOP)
        manifest.write_text(MANIFEST)
        trace.write_text("".join(f"{line}\n" for line in lines))
        start = time.monotonic()
        status, log = replayed(program, page, manifest, trace)
        taken = time.monotonic() - start
    done = [line for line in log if re.match(r"done \d+ \d+ 1 ok$", line)]
    served = [line for line in log if line.startswith("serve ")]
    ordinals = [int(line.split()[2]) for line in done]
    wrong = []
    if status != 0 or ordinals != list(range(1, SESSIONS + 1)):
        wrong.append(f"status {status}; done are {ordinals}: {log[-3:]}")
    if [int(line.split()[-1]) for line in served] != list(range(1, SESSIONS + 1)):
        wrong.append("the replies are not those of the order of calls")
    if taken > SECONDS:
        wrong.append(f"{taken:.0f} seconds")
    print(f"{SESSIONS} sessions of {turn_of(done[0]) if done else 0} turns in {taken:.1f} seconds")
    return wrong


BUTTON = 6

WORK = (
    '<html><head></head><body><button>W</button><script>"use strict";'
    'document.body.firstChild.addEventListener("click",function(){for(var i=0;i<1600000;i++){}},false);'
    "</script></body></html>"
)
TURNS = 200


def endless_batches(program):
    """What is wrong with 64 sessions whose batches are far from done when the turns are spent."""
    clicks = ",".join(['["event","click",4]'] * 64)
    lines = [f"{word} {place}{more}" for place in range(SESSIONS) for word, more in (("open", ""), ("say", " get"))]
    lines += [f'say {place} e {place + 1} {{"batch":1,"items":[{clicks}]}}' for place in range(SESSIONS)]
    with tempfile.TemporaryDirectory() as room:
        page, manifest, trace = (pathlib.Path(room) / name for name in ("page.html", "app.json", "trace.txt"))
        page.write_text(WORK)
        manifest.write_text(MANIFEST.replace('"told":["push","sums"]', ""))
        trace.write_text("".join(f"{line}\n" for line in lines))
        start = time.monotonic()
        status, log = replayed(program, page, manifest, trace, f"--turns={TURNS}")
        taken = time.monotonic() - start
    expected = [f"{word} {2 * s} {s} " for s in range(1, SESSIONS + 1) for word in ("open", "done")]
    expected += [f"batch {2 * SESSIONS + s} {s} 1 " for s in range(1, SESSIONS + 1)] + [f"end {TURNS} 3"]
    is_so = len(log) == len(expected) and all(line.startswith(front) for line, front in zip(log, expected))
    print(f"{SESSIONS} sessions cut after {TURNS} turns in {taken:.1f} seconds")
    wrong = [] if status == 3 and is_so else [f"status {status}; {len(log)} lines: {log[-3:]}"]
    return wrong + ([f"{taken:.0f} seconds"] if taken > SECONDS else [])


def main():
    wrong = cut_runs(sys.argv[1]) + long_batches(sys.argv[1]) + endless_batches(sys.argv[1])
    print("\n".join(wrong) or "turns are shared as they are to be")
    return 1 if wrong else 0


if __name__ == "__main__":
    sys.exit(main())
