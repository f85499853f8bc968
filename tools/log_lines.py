"""Reads the log of `ripley serve`, for the tools beside this file.

A log may be that of a server that is running, may end in a line that a crash cut, and may hold several runs where each run
was appended to the one before. A run begins with the line of its first session; where a crash has cut the line before, that
line stands in front of it.
"""
import json
import re
import sys
from collections.abc import Iterator

OPENING = re.compile(r"(.*?)(open \d+ 1 [0-9a-f]{8}(?:-[0-9a-f]{4}){3}-[0-9a-f]{12} \d+ \d+)")


def tell(text: str) -> None:
    """Tells a person something, on standard error."""
    print(text, file=sys.stderr)


def whole_lines(path: str) -> Iterator[str]:
    """The lines of a log. A line that is cut is left out, and told."""
    with open(path, encoding="utf-8", errors="replace", newline="\n") as log:
        for number, line in enumerate(log, 1):
            opening = OPENING.fullmatch(line.removesuffix("\n"))
            if opening and opening[1]:
                tell(f"{path}: line {number} is cut before the first session of a run, and left out up to there")
                yield opening[2]
            elif line.endswith("\n"):
                yield line.removesuffix("\n")
            else:
                tell(f"{path}: line {number}, the last one, is cut, and left out")


def last_run(path: str) -> list[str]:
    """The lines of the last run of a log. That there are others is told."""
    lines: list[str] = []
    runs = 0
    for line in whole_lines(path):
        if OPENING.fullmatch(line):
            runs += 1
            if runs > 1:
                lines = []
        lines.append(line)
    if runs > 1:
        tell(f"{path}: the last of {runs} runs is read")
    return lines


def served(line: str) -> tuple[int, str, list, int, object]:
    """Session, name, arguments, moment and reply of a line `serve T S N K NAME ARGS TIME REPLY`."""
    _, _, session, _, _, rest = line.split(" ", 5)
    read = json.JSONDecoder().raw_decode
    name, end = read(rest)
    arguments, end = read(rest, end + 1)
    moment, reply = rest[end + 1 :].split(" ", 1)
    return int(session), name, arguments, int(moment), json.loads(reply)
