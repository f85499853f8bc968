#!/usr/bin/env python3
"""Measures how long one slice of a session takes, by what its script does: a slice is 1,000 units of fuel.

    tools/slices.py RIPLEY [--runs=5]

A click makes rounds of ten statements over texts of 65,535 units. A trace with it is replayed, and one in which it makes
none; the difference of their processor times is what its slices took. Of RUNS the least. Prints a table in Markdown.
"""

import json
import pathlib
import resource
import subprocess
import sys
import tempfile

LIMITS = {"fuel": 10_000_000, "units": 4_000_000, "cells": 1_000_000}
# What the script does ten times a round, and how many rounds: `a` and `b` differ in their last unit, and `c` is half as long
# as they are.
STATEMENTS = [
    ("numbers are compared", "q = (i === i);", 20_000),
    ("two equal texts of 65,535 units are compared", "q = (a === a2);", 400),
    ("the order of two texts that differ in their last unit", "q = (a < b);", 400),
    ("one unit that is nowhere is looked for", 'q = a.indexOf("z");', 100),
    ("a text of 32,768 units that is nowhere is looked for", "q = a.indexOf(c);", 100),
]
PAGE = """<html><head></head><body><button>go</button><script>"use strict";
var a = "ab", i;
for (i = 0; i < 14; i++) { a = a + a; }
a = a + a.substring(0, 32766) + "x";
var a2 = a.substring(0, 65534) + "x", b = a.substring(0, 65534) + "y", c = a.substring(0, 32767) + "y";
document.body.firstChild.addEventListener("click", function () {
  var q;
  for (var i = 0; i < %d; i++) { %s }
}, false);</script></body></html>"""
BUTTON = 4


def replayed(ripley: str, folder: pathlib.Path, rounds: int, statement: str) -> tuple[float, int]:
    """Milliseconds of a processor for a visit with one click, and the turn in which that is done."""
    (folder / "page.html").write_text(PAGE % (rounds, statement * 10))
    (folder / "app.json").write_text(json.dumps({"version": 1, "functions": {}, "limits": LIMITS}))
    batch = json.dumps({"batch": 1, "items": [["event", "click", BUTTON]]}, separators=(",", ":"))
    (folder / "trace").write_text(f"open 0\nsay 0 get\nsay 0 e 1 {batch}\n" + "quiet\n" * 5000)
    before = resource.getrusage(resource.RUSAGE_CHILDREN).ru_utime
    words = [ripley, "replay", folder / "page.html", folder / "app.json", folder / "trace"]
    log = subprocess.run(words, capture_output=True, text=True, check=True).stdout
    taken = (resource.getrusage(resource.RUSAGE_CHILDREN).ru_utime - before) * 1000
    done = [line.split() for line in log.splitlines() if line.startswith("done ")][-1]
    if done[-1] != "ok":
        sys.exit(f"the click ended the session: {' '.join(done)}")
    return taken, int(done[1])


def main() -> None:
    ripley = sys.argv[1]
    runs = int(dict(word[2:].split("=", 1) for word in sys.argv[2:]).get("runs", 5))
    print("| what each statement of the slice does | slices | processor, ms a slice |")
    print("|---|---|---|")
    with tempfile.TemporaryDirectory() as name:
        for what, statement, rounds in STATEMENTS:
            none = min(replayed(ripley, pathlib.Path(name), 0, statement) for _ in range(runs))
            some = min(replayed(ripley, pathlib.Path(name), rounds, statement) for _ in range(runs))
            slices = some[1] - none[1]
            print(f"| {what} | {slices} | {(some[0] - none[0]) / slices:.2f} |", flush=True)


if __name__ == "__main__":
    main()
