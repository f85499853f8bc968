#!/usr/bin/env python3
"""Tries the tools that read logs on those of examples/: whole, cut within a line, and appended to a log that was cut.

usage: logs_test.py PROGRAM

`orders.py` gives the orders of the shop's true log and none of its false one. The trace that `log_to_trace.py` makes of a
log, replayed by the program `ripley`, begins with the log's whole lines, and is the log where that was whole. What
`gestures_of.py` makes of a log is driven to its end. What is left out is told on standard error, and nothing else is. The
status is 0 where all is so.
"""
import csv
import io
import pathlib
import subprocess
import sys
import tempfile

TOOLS = pathlib.Path(__file__).resolve().parent
EXAMPLES = TOOLS.parent / "examples"
NAMES = ("shop", "booking", "game", "votes")
PLACES = 6
SECONDS = 60


def ran(*words):
    """Status, output and what was told of a command."""
    done = subprocess.run([str(word) for word in words], capture_output=True, text=True, timeout=SECONDS)
    return done.returncode, done.stdout, done.stderr


def tool(name, *words):
    return ran(sys.executable, TOOLS / name, *words)


def orders_of(path):
    """The orders of a log as pairs of key and total, and what was told."""
    status, text, told = tool("orders.py", path)
    rows = list(csv.DictReader(io.StringIO(text)))
    return status, [(row["key"], row["total"]) for row in rows], told


def shop(room):
    """What is wrong with the orders of the shop's logs."""
    both = [("1", "6200"), ("2", "3600")]
    text = (EXAMPLES / "shop/true.log").read_text()
    kept = text.index("serve 14") + 30
    logs = {
        "whole": (text, both, ""),
        "cut in the second order": (text[:kept], both[:1], "is cut"),
        "cut, and then a run": (text[:kept] + text, both[:1] + both, "is cut"),
        "false": ((EXAMPLES / "shop/false.log").read_text(), [], ""),
        "empty": ("", [], ""),
    }
    wrong = []
    for name, (log, due, telling) in logs.items():
        (room / "log").write_text(log)
        status, orders, told = orders_of(room / "log")
        if status != 0 or orders != due or not (telling in told if telling else told == ""):
            wrong.append(f"orders.py, {name}: {status} {orders} {told}")
    return wrong


def replayed(program, folder, room, log):
    """What is wrong with the trace and the gestures of a log, which may be cut."""
    (room / "log").write_text(log)
    whole = log[: log.rfind("\n") + 1]
    status, trace, told = tool("log_to_trace.py", room / "log")
    (room / "trace").write_text(trace)
    again = ran(program, "replay", folder / "page.html", folder / "app.json", room / "trace")
    is_so = status == 0 and again[0] == 0 and again[1].startswith(whole) and (log != whole or again[1] == log)
    wrong = [] if is_so and ("is cut" in told) == (log != whole) else [f"log_to_trace.py: {status} {told}"]
    if "done " in whole:
        status, gestures, told = tool("gestures_of.py", room / "log", 1)
        (room / "gestures").write_text(gestures)
        driven = ran(program, "drive", folder / "page.html", folder / "app.json", room / "gestures")
        wrong += [] if status == 0 and driven[0] == 0 else [f"gestures_of.py: {status} {told} {driven[:2]}"]
    return [f"{folder.name}, {len(log)} bytes of its log: {each}" for each in wrong]


def main():
    program, wrong = pathlib.Path(sys.argv[1]).resolve(), []
    with tempfile.TemporaryDirectory() as name:
        room = pathlib.Path(name)
        wrong += shop(room)
        for folder in (EXAMPLES / name for name in NAMES):
            for log in ((folder / kind).read_text() for kind in ("true.log", "false.log")):
                for place in range(1, PLACES + 1):
                    wrong += replayed(program, folder, room, log[: len(log) * place // PLACES])
    print("\n".join(wrong) or "logs are read, also where they are cut")
    return 1 if wrong else 0


if __name__ == "__main__":
    sys.exit(main())
