#!/usr/bin/env python3
"""Tries deploy/follow.py and close_idle.py: logs that grow, are rotated at any place, are cut off, and give way to another
run; and which sessions are closed.

    tools/following.py [--seed=1] [--rounds=100]

Each round draws a log, and writes it by pieces while it is followed and rotated, as logrotate does with
deploy/logrotate.conf. Each line is to come once and in order, and a follower that begins late is to have them all.
"""

import contextlib
import gzip
import importlib
import os
import random
import sys
import tempfile

sys.dont_write_bytecode = True
sys.path.insert(0, os.path.join(os.path.dirname(os.path.dirname(os.path.abspath(__file__))), "deploy"))
follow, cut_log, close_idle = map(importlib.import_module, ["follow", "cut_log", "close_idle"])

# The writer is this process, which does not write while it cuts.
cut_log.writers = lambda log: [0]
cut_log.stopped = lambda pids: contextlib.nullcontext()


def drawn(draw: random.Random, number: int) -> bytes:
    """A line of a log, an empty line, or a very long one."""
    size = draw.choice([0, 1, 5, 40, 300, 70_000]) if draw.random() < 0.3 else 20
    return b"batch %d 1 %d [%s]\n" % (number, number, b"x" * size) + b"\n" * (draw.random() < 0.1)


def rotate(path: str, late: bytes) -> None:
    """What logrotate does with `copy`, `compress` and `delaycompress`, and cut_log.py behind it. Something is written
    between the two."""
    for each in follow.parts(path):
        stem, _, number = each.removesuffix(".gz").rpartition(".")
        with follow.opened(each) as old, gzip.open(f"{stem}.{int(number) + 1}.gz", "wb") as new:
            new.write(old.read())
        os.unlink(each)
    with open(path, "rb") as file, open(path + ".1", "wb") as copy:
        copy.write(file.read())
    with open(path, "ab") as file:
        file.write(late)
    cut_log.cut(path)


def has_line(path: str) -> bool:
    with open(path, "rb") as file:
        return b"\n" in file.read()


def round_of(draw: random.Random, folder: str, run: int) -> None:
    path, link = os.path.join(folder, f"{run}Z.log"), os.path.join(folder, "link")
    open(path, "wb").close()
    os.symlink(path, link + ".new")
    os.rename(link + ".new", link)
    log, due, got = follow.Log(link), [], []
    with open(path, "ab", buffering=0) as file:
        for number in range(1, draw.randrange(2, 60)):
            line = drawn(draw, number)
            due += filter(None, line.split(b"\n"))
            places = sorted(draw.sample(range(len(line)), 2))
            for piece in (line[:places[0]], line[places[0]:places[1]], line[places[1]:]):
                if draw.random() < 0.2 and has_line(path):
                    rotate(path, piece)
                else:
                    file.write(piece)
                if draw.random() < 0.4:
                    got += log.read()
    got += log.read()
    assert got == due, f"round {run}: {[line[:16] for line in got]} in place of {[line[:16] for line in due]}"
    late = list(follow.Log(link).read())
    assert late == due, f"round {run}: {len(late)} lines of {len(due)} came to one that began late"
    with open(path, "rb") as file:
        whole = b"".join(follow.opened(each).read() for each in follow.parts(path)) + file.read()
    assert list(filter(None, whole.split(b"\n"))) == due, f"round {run}: rotation lost something"


def another_run(folder: str) -> None:
    """A log whose last line is cut gives way to another, which is read from its start; what is no entry is none."""
    link = os.path.join(folder, "link")
    for name, text in [("a", b"open 1 1 i 2 3\ndone 1 1 0 o"), ("b", b"open 1 1 j 2 3\n")]:
        with open(os.path.join(folder, name), "wb") as file:
            file.write(text)
    os.symlink("a", link)
    log = follow.Log(link)
    first = list(log.read())
    os.unlink(link)
    os.symlink("b", link)
    assert (first, list(log.read())) == ([b"open 1 1 i 2 3"], [follow.ANOTHER_RUN, b"open 1 1 j 2 3"]), "another run"
    for text in (b"", b" ", b"\0\0\0open 1", b"open 1 x i 2 3", b"open 1 1 i", b"done 1 1 0", b"serve", b"batch -1 1 1 []"):
        assert follow.entry(text) is None, text
    follow.Log(os.path.join(folder, "nowhere")).read()


def closings(folder: str) -> None:
    """Of ten sessions the silent ones are closed, then the longest silent of an address that has more than three, then
    those of the address that has the most where more than nine tenths of those that may be are alive."""
    path = os.path.join(folder, "log")
    names = [f"{number:08x}-0000-4000-8000-000000000000" for number in range(11)]

    def told(*lines: str) -> None:
        with open(path, "a") as file:
            file.writelines(line + "\n" for line in lines)

    openings = close_idle.Openings(None)
    openings.known = {names[number]: ("a" if number < 6 else "b" if number < 9 else "c", 0.0) for number in range(1, 11)}
    told(*(f"open {number} {number} {names[number]} 1 2" for number in range(1, 11)))
    watch = close_idle.Watch(follow.Log(path), openings, 900, 1000, 3)
    watch.read(0.0)
    assert [number for number, _ in watch.due(1.0)] == [1, 2], "an address has more than three"
    told("batch 11 1 1 []", "done 11 1 1 ok", "close 12 3", "batch 13 4 1 []", "done 13 4 1 report 1 due")
    watch.read(500.0)
    assert watch.due(501.0) == [], "three are left"
    assert [number for number, _ in watch.due(901.0)] == [2, 5, 6, 7, 8, 9, 10], "all but the first are silent"
    watch.nearly = 5
    assert [number for number, _ in watch.due(600.0)] == [2, 6, 5], "more than five are alive"
    told("end 14 0")
    watch.read(601.0)


# In memory where it can be: each cut waits for the disk.
FOLDER = "/dev/shm" if os.path.isdir("/dev/shm") else None


def main() -> None:
    words = dict(word[2:].split("=", 1) for word in sys.argv[1:])
    seed = int(words.get("seed", 1))
    with tempfile.TemporaryDirectory(dir=FOLDER) as folder:
        another_run(folder)
    with tempfile.TemporaryDirectory(dir=FOLDER) as folder:
        closings(folder)
    for run in range(int(words.get("rounds", 100))):
        with tempfile.TemporaryDirectory(dir=FOLDER) as folder:
            round_of(random.Random(seed + run), folder, run)
    print(f"seed {seed}: each line came once, and sessions are closed as they are to be")


if __name__ == "__main__":
    main()
