#!/usr/bin/env python3
"""Says what gestures are charged for, at which one a limit is met, and which limits a visit of a given length wants.

usage: limits.py PROGRAM PAGE APP GESTURES [--gestures=N]

PROGRAM is `ripley`. The file of gestures is played again and again in one session, by `drive`, as a truthful browser tells
it, with a store that begins empty. Three tables are printed:

- what each kind of gesture takes, as the mean of two repetitions: cells, units and nodes are what the session is charged,
  `sent` the bytes of its batches, `log` those of its lines. A `flush` takes what the callbacks of replies do;
- the limits of APP: what one item takes at most of fuel, depth and queue; and where cells, units and nodes are met, each
  for itself, with the other limits at their greatest. `-` is a limit that is not met before another one at its greatest
  or in 200,000 gestures;
- what N gestures take in all, 2,500 where no number is named, and how many sessions fit with limits of that size.

A gesture that `drive` refuses at its place, as a click at a button that is off or a line that is no gesture, is waited
there and from there on, and is named. The status is 1 where a visit ends by something else than a limit that is too small,
as by a fault.
"""
import argparse
import dataclasses
import json
import pathlib
import re
import subprocess
import sys
import tempfile

DEFAULTS = {"fuel": 100_000, "cells": 20_000, "units": 100_000, "nodes": 2_000, "depth": 500, "queue": 65_536, "sessions": 64}
GREATEST = {"fuel": 10_000_000, "cells": 1_000_000, "units": 4_000_000, "nodes": 50_000, "depth": 5_000, "queue": 1_048_576}
CHARGED = ("cells", "units", "nodes")
OF_AN_ITEM = ("fuel", "depth", "queue")
MEMORY = 4_294_967_296
MOST_GESTURES = 200_000
SECONDS = 300


@dataclasses.dataclass
class Played:
    """A visit: its trace, and the reason and gesture at which it ended, where it did. Gesture 0 is the opening."""

    trace: str
    reason: str | None
    ended_at: int | None


class Impossible(Exception):
    """The gesture of this number, counted from 1, can't be made at its place."""


class Player:
    """Plays lists of gestures over a page, by the program."""

    def __init__(self, program: str, page: str, app: str, room: str) -> None:
        self.program, self.page, self.room = program, page, pathlib.Path(room)
        self.manifest = json.loads(pathlib.Path(app).read_text(encoding="utf-8"))

    def run(self, verb: str, limits: dict[str, int], text: str) -> str:
        """What the program puts for a file of gestures or a trace, with the manifest under these limits."""
        limits = {**self.manifest["limits"], **limits, "sessions": 1}
        (self.room / "app.json").write_text(json.dumps({**self.manifest, "limits": limits}))
        (self.room / "text").write_text(text, encoding="utf-8")
        words = [self.program, verb, self.page, self.room / "app.json", self.room / "text"]
        done = subprocess.run(words, capture_output=True, encoding="utf-8", timeout=SECONDS)
        refused = re.fullmatch(r"refused gestures (\d+)\n", done.stdout)
        if refused:
            raise Impossible(int(refused[1]))
        if done.returncode:
            sys.exit(f"limits: {verb} ends with status {done.returncode}: {done.stdout.strip() or done.stderr.strip()}")
        return done.stdout

    def play(self, gestures: list[str], **limits: int) -> Played:
        """A visit of these gestures; the limits that are not named are at their greatest."""
        trace = self.run("drive", {**GREATEST, **limits}, "".join(f"{line}\n" for line in gestures))
        ended = re.search(r"^# ended (\S+) (\d+)\n\Z", trace, re.M)
        return Played(trace, ended[1], int(ended[2])) if ended else Played(trace, None, None)

    def log(self, trace: str) -> str:
        return self.run("replay", GREATEST, trace)


def possible(player: Player, once: list[str], repetitions: int) -> tuple[list[str], dict[str, int]]:
    """The gestures that many times over. What can't be made is waited from there on: which, and from which gesture."""
    lines, waited = once * repetitions, {}
    while True:
        try:
            player.play(lines)
            return lines, waited
        except Impossible as refusal:
            at = refusal.args[0]
            line = lines[at - 1]
            waited[line] = at
            lines[at - 1 :] = ["flush" if each == line else each for each in lines[at - 1 :]]


def least(player: Player, gestures: list[str], limit: str) -> int:
    """The least limit with which the gestures do not meet it: what they take of it."""
    low, high = 1, GREATEST[limit]
    while low < high:
        middle = (low + high) // 2
        if player.play(gestures, **{limit: middle}).reason == limit:
            low = middle + 1
        else:
            high = middle
    return low


def charges(player: Player, gestures: list[str], limit: str) -> list[int]:
    """What the session was charged of a limit after the opening and after each gesture."""
    taken: list[int | None] = [None] * (len(gestures) + 1)

    def place(low: int, low_end: int, high: int, high_end: int) -> None:
        # With `low` the visit ends at gesture low_end, with `high` at high_end: those from low_end on take more than `low`.
        if low_end == high_end:
            return
        if low + 1 == high:
            taken[low_end:high_end] = [high] * (high_end - low_end)
            return
        middle = (low + high) // 2
        ended_at = player.play(gestures, **{limit: middle}).ended_at
        middle_end = len(taken) if ended_at is None else ended_at
        place(low, low_end, middle, middle_end)
        place(middle, middle_end, high, high_end)

    place(0, 0, least(player, gestures, limit), len(taken))
    return taken


def bytes_of(player: Player, gestures: list[str]) -> tuple[list[int], list[int]]:
    """How many bytes of batches were sent and how many of log were written, after the opening and after each gesture."""
    sent, logged = [], []
    for count in range(len(gestures) + 1):
        trace = player.play(gestures[:count]).trace
        batches = [line.split(" ", 4)[4] for line in trace.splitlines() if line.startswith("say 0 e 1 ")]
        sent.append(sum(len(batch.encode()) for batch in batches))
        logged.append(len(player.log(trace).encode()))
    return sent, logged


def kind(gesture: str) -> str:
    """A gesture without what is typed or chosen."""
    return " ".join(gesture.split(" ")[:2])


def table(rows: list[list[str]]) -> str:
    """Rows of cells as text in columns: the first to the left, the others to the right."""
    widths = [max(len(row[place]) for row in rows) for place in range(len(rows[0]))]
    lines = []
    for first, *others in rows:
        lines.append("  ".join([first.ljust(widths[0])] + [cell.rjust(width) for cell, width in zip(others, widths[1:])]))
    return "\n".join(line.rstrip() for line in lines)


def tenths(number: float) -> str:
    return f"{number:,.1f}".removesuffix(".0")


def costs(player: Player, gestures: list[str]) -> str:
    """The table of what each kind of gesture takes."""
    columns = [charges(player, gestures, limit) for limit in CHARGED] + list(bytes_of(player, gestures))
    rows = [["gesture", "times", *CHARGED, "sent", "log"]]
    rows.append(["(the opening)", "1"] + [tenths(column[0]) for column in columns])
    places: dict[str, list[int]] = {}
    for place, gesture in enumerate(gestures, 1):
        places.setdefault(kind(gesture), []).append(place)
    for name, at in places.items():
        means = [sum(column[place] - column[place - 1] for place in at) / len(at) for column in columns]
        rows.append([name, str(len(at))] + [tenths(mean) for mean in means])
    totals = [(column[-1] - column[0]) / 2 for column in columns]
    rows.append(["a repetition", ""] + [tenths(total) for total in totals])
    return table(rows)


def met(player: Player, once: list[str], limit: str, given: int) -> int | None:
    """The gesture at which a limit is met, the others being at their greatest."""
    repetitions = 64
    while True:
        gestures, _ = possible(player, once, repetitions)
        played = player.play(gestures, **{limit: given})
        if played.reason is not None:
            return played.ended_at if played.reason == limit else None
        if len(gestures) >= MOST_GESTURES:
            return None
        repetitions = min(8 * repetitions, -(-MOST_GESTURES // len(once)))


def limits_met(player: Player, once: list[str], twice: list[str], limits: dict[str, int]) -> tuple[str, str]:
    """The table of the limits of the manifest, and the sentence on the one that is met first."""
    rows, first = [["limit", "is", "one item takes", "met at gesture", "in repetition"]], None
    for limit in OF_AN_ITEM:
        rows.append([limit, f"{limits[limit]:,}", f"{least(player, twice, limit):,}", "", ""])
    for limit in CHARGED:
        at = met(player, once, limit, limits[limit])
        where = ["-", "-"] if at is None else [f"{at:,}", f"{-(-at // len(once)):,}"]
        rows.append([limit, f"{limits[limit]:,}", "", *where])
        if at is not None and (first is None or at < first[1]):
            first = limit, at
    ends = f"A visit ends by {first[0]} at gesture {first[1]:,}." if first else "No limit ends a visit."
    return table(rows), ends


def sessions(limits: dict[str, int]) -> int:
    """How many sessions a manifest may ask for with these limits."""
    costs = {"cells": 32, "units": 2, "nodes": 64, "depth": 64, "queue": 1}
    return min(1_024, MEMORY // (3_145_728 + sum(cost * limits[limit] for limit, cost in costs.items())))


def wanted(player: Player, once: list[str], count: int, limits: dict[str, int]) -> str:
    """The sentence on what a visit of that many gestures takes."""
    gestures, _ = possible(player, once, -(-count // len(once)))
    gestures = gestures[:count]
    played = player.play(gestures)
    if played.reason is not None:
        return f"{count:,} gestures can't be had: with all limits at their greatest {played.reason} ends it at {played.ended_at:,}."
    taken = {limit: least(player, gestures, limit) for limit in CHARGED}
    fit = sessions({**limits, **taken})
    named = ", ".join(f"{number:,} {limit}" for limit, number in taken.items())
    return f"{count:,} gestures take {named}; with limits of that size {fit:,} sessions fit."


def gestures_of(path: str) -> list[str]:
    """The lines of a file of gestures but its comments."""
    lines = pathlib.Path(path).read_text(encoding="utf-8").removesuffix("\n").split("\n")
    return [line for line in lines if not line.startswith("#")] or sys.exit(f"limits: {path} has no gesture")


def main() -> int:
    words = argparse.ArgumentParser(description=__doc__, formatter_class=argparse.RawDescriptionHelpFormatter)
    for word in ("program", "page", "app", "file"):
        words.add_argument(word)
    words.add_argument("--gestures", type=int, default=2_500)
    given = words.parse_args()
    once = gestures_of(given.file)
    checked = subprocess.run([given.program, "check", given.page, given.app], capture_output=True, text=True)
    if checked.returncode:
        sys.exit(f"limits: check ends with status {checked.returncode}: {checked.stdout.strip() or checked.stderr.strip()}")
    with tempfile.TemporaryDirectory() as room:
        player = Player(given.program, given.page, given.app, room)
        limits = {**DEFAULTS, **player.manifest["limits"]}
        twice, waited = possible(player, once, 2)
        played = player.play(twice)
        if played.reason is not None:
            print(f"with all limits at their greatest the visit ends by {played.reason} at gesture {played.ended_at}")
            return 1
        for line, at in waited.items():
            print(f"'{line}' is refused at gesture {at}, and is waited from there on")
        print(costs(player, twice), *limits_met(player, once, twice, limits), sep="\n\n")
        print(wanted(player, once, given.gestures, limits))
        print(f"With the limits of the manifest {sessions(limits):,} sessions fit.")
    return 0


if __name__ == "__main__":
    try:
        sys.exit(main())
    except OSError as error:
        sys.exit(f"limits: {error}")
