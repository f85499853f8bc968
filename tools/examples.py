#!/usr/bin/env python3
"""Drives and replays the pages of examples/ by the program `ripley`, and says where what it puts is not what stands there.

usage: examples.py PROGRAM [--write]

Of each example: `true.txt` is the trace that `drive` puts of `gestures.txt`, `true.log` and `false.log` are the logs that
`replay` puts of `true.txt` and `false.txt`; in the true one each batch is done well, in the false one a batch is not.
--write puts the three files that a program makes, to be read before they are kept.

Then of each example visits of a hundred gestures are made up from the seeds below: what is not legal at its place is left
out, which `drive` tells, and the trace of the rest, replayed, ends no session. What `gestures_of` makes of each true log,
driven, has the log's calls. A visit of a day, 2,500 gestures at the controls of an example, ends by no limit, and its
manifest allows for 250 sessions. Such a visit makes ten orders, one vote or holds three seats, as the page says; of a browser
in which the bound was rewritten no more is served, and its session ends. The status is 0 where all is so.
"""
import collections
import json
import pathlib
import random
import re
import subprocess
import sys
import tempfile

from gestures_of import gestures
from log_lines import last_run

EXAMPLES = pathlib.Path(__file__).resolve().parent.parent / "examples"
SEEDS = range(1, 4)
LINES = 100
LINES_OF_A_DAY = 2500
SESSIONS = 250
SECONDS = 60


def ran(program, verb, folder, last):
    """The status of a command over a page, and what it put."""
    words = [program, verb, folder / "page.html", folder / "app.json", last]
    done = subprocess.run(words, capture_output=True, text=True, timeout=SECONDS)
    return done.returncode, done.stdout


def ends(log):
    """The lines of a log that say of a batch that it was not done well."""
    return [line for line in log.splitlines() if re.match(r"done \d+ \d+ \d+ (?!ok$)", line)]


def files(program, folder, writes):
    """Holds the files of an example to what the program puts; answers what differs."""
    wrong = []

    def compare(name, verb, given):
        status, text = ran(program, verb, folder, folder / given)
        file = folder / name
        if writes:
            file.write_text(text)
        if status != 0 or text != file.read_text():
            wrong.append(f"{folder.name}: {verb} {given} does not put {name}")
        return text

    if (folder / "gestures.txt").exists():
        compare("true.txt", "drive", "gestures.txt")
    if ends(compare("true.log", "replay", "true.txt")):
        wrong.append(f"{folder.name}: a batch of the true trace is not done well")
    if not ends(compare("false.log", "replay", "false.txt")):
        wrong.append(f"{folder.name}: each batch of the false trace is done well")
    return wrong


def made_up(draw, page):
    """A gesture at a control of the page, whose nodes are numbered in document order."""
    node, kind = draw.choice(page)
    if draw.random() < 0.2:
        return "flush"
    if kind == "number":
        return f"input {node} {draw.randrange(30)}"
    if kind == "text":
        return f"input {node} {draw.choice(['Ann', 'Bo', 'Cleo', ''])}"
    if kind == "choice":
        return f"change {node} {draw.randrange(2)}"
    return f"click {node}"


def visit(program, folder, page, seed):
    """Drives a visit of a hundred gestures and replays its trace; answers what is wrong."""
    draw = random.Random(seed)
    lines = [made_up(draw, page) for _ in range(LINES)]
    with tempfile.TemporaryDirectory() as room:
        gestures, trace = pathlib.Path(room) / "gestures.txt", pathlib.Path(room) / "trace.txt"
        for _ in range(LINES):
            gestures.write_text("".join(f"{line}\n" for line in lines))
            status, text = ran(program, "drive", folder, gestures)
            refused = re.fullmatch(r"refused gestures (\d+)\n", text)
            if status != 2 or not refused:
                break
            lines[int(refused[1]) - 1] = "flush"
        trace.write_text(text)
        told = ran(program, "replay", folder, trace)
    if status != 0 or "# ended" in text or told[0] != 0 or ends(told[1]):
        return [f"{folder.name}: the visit of seed {seed} ends: {status} {told[0]} {ends(told[1])[:1]}"]
    return []


def calls_of(lines):
    """The calls that batches tell, of lines that end in their items."""
    items = [item for line in lines for item in json.loads(line)]
    return [item for item in items if item[0] == "call"]


def again(program, folder):
    """Drives what the visitor of the true log did; answers what is wrong where the calls are others."""
    lines = last_run(folder / "true.log")
    with tempfile.TemporaryDirectory() as room:
        file = pathlib.Path(room) / "gestures.txt"
        file.write_text("".join(f"{line}\n" for line in gestures(lines, "1")))
        status, trace = ran(program, "drive", folder, file)
    bodies = [json.loads(line.split(" ", 4)[4]) for line in trace.splitlines() if line.startswith("say 0 e 1 ")]
    driven = calls_of(json.dumps(body["items"]) for body in bodies)
    in_log = calls_of(line.split(" ", 4)[4] for line in lines if line.startswith("batch "))
    return [] if status == 0 and driven == in_log else [f"{folder.name}: driven again, the visit of true.log has other calls"]


def greedy(draw, page, bound):
    """The gestures of a day, in which the replies behind a button are awaited. So many buttons stay off, once they are pressed."""
    lines, off = [], set()
    while len(lines) < LINES_OF_A_DAY:
        line = made_up(draw, page)
        if line in off:
            continue
        if line.startswith("click"):
            lines += [line, "flush", "flush"]
            off |= {line} if len(off) < bound else set()
        else:
            lines.append(line)
    return "".join(f"{line}\n" for line in lines)


def day(program, folder, page, seed):
    """Drives a visit of a day; answers what is wrong."""
    bound = BOUNDS.get(folder.name)
    with tempfile.TemporaryDirectory() as room:
        file = pathlib.Path(room) / "gestures.txt"
        file.write_text(greedy(random.Random(seed), page, bound.off if bound else 0))
        status, text = ran(program, "drive", folder, file)
    wrong = [] if status == 0 and "# ended" not in text else [f"the day of seed {seed} ends: {status} {text[-60:]}"]
    if bound and text.count(f'"{bound.call}",[') != bound.most:
        wrong.append(f"the day of seed {seed} has {text.count(bound.call)} calls of {bound.call}")
    if json.loads((folder / "app.json").read_text())["limits"].get("sessions") != SESSIONS:
        wrong.append(f"the manifest is not for {SESSIONS} sessions")
    return [f"{folder.name}: {each}" for each in wrong]


def rewritten(program, folder, page, bound):
    """Drives a day over the page with another bound, and replays it over the page as it is; answers what is wrong."""
    text = (folder / "page.html").read_text()
    with tempfile.TemporaryDirectory() as name:
        room = pathlib.Path(name)
        (room / "page.html").write_text(text.replace(*bound.rewritten))
        (room / "app.json").write_text((folder / "app.json").read_text())
        (room / "gestures.txt").write_text(greedy(random.Random(SEEDS[0]), page, bound.off_then))
        status, trace = ran(program, "drive", room, room / "gestures.txt")
        (room / "trace.txt").write_text(trace)
        _, log = ran(program, "replay", folder, room / "trace.txt")
    served = len(re.findall(rf'^serve (?:\d+ ){{4}}"{bound.call}" ', log, re.M))
    is_so = text.count(bound.rewritten[0]) == 1 and status == 0 and served == bound.most and len(ends(log)) == 1
    return [] if is_so else [f"{folder.name}: with its bound rewritten, {served} calls of {bound.call} are served: {status} {ends(log)}"]


# The controls of each page: the number of a node, and what a user may do there.
CONTROLS = {
    "shop": [(19, "number"), (24, "number"), (29, "number"), (34, "choice"), (43, "text"), (45, "button")],
    "booking": [(node, "button") for node in (18, 20, 22, 24, 28, 30, 32, 34)],
    "game": [(node, "button") for node in (15, 17, 19, 23, 25, 27, 31, 33, 35, 44)],
    "votes": [(14, "button")],
}

# What a visit may do of one thing at the most: the call, how often, and how many buttons that were pressed stay off; then
# what a browser with another bound has in the page's place, and how many buttons stay off there.
Bound = collections.namedtuple("Bound", "call most off rewritten off_then")
BOUNDS = {
    "shop": Bound("order", 10, 0, ("mostOrders = 10", "mostOrders = 1000"), 0),
    "votes": Bound("vote", 1, 1, ("vote.disabled = true", "vote.disabled = false"), 0),
    "booking": Bound("hold", 3, 3, ("most = 3", "most = 30"), 8),
}


def main():
    program, writes = pathlib.Path(sys.argv[1]).resolve(), "--write" in sys.argv
    wrong = []
    for folder in sorted(EXAMPLES.iterdir()):
        wrong += files(program, folder, writes)
        wrong += again(program, folder)
        for seed in SEEDS if folder.name in CONTROLS else []:
            wrong += visit(program, folder, CONTROLS[folder.name], seed)
            wrong += day(program, folder, CONTROLS[folder.name], seed)
        if folder.name in BOUNDS:
            wrong += rewritten(program, folder, CONTROLS[folder.name], BOUNDS[folder.name])
    print("\n".join(wrong) or "the examples are as they stand")
    return 1 if wrong else 0


if __name__ == "__main__":
    sys.exit(main())
