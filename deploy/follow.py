"""What the programs beside `ripley serve` share: its log as it grows, the entries of its lines, the sessions alive.

A log is the history of one run. Its path may be a link to the log of the latest run, and rotation may have moved its
beginning to PATH.1, PATH.2.gz and so on, and have cut the file itself to nothing (deploy/cut_log.py): each of these
begins with a line and ends with one.
"""

import gzip
import json
import os
import re
from collections.abc import Iterator
from typing import BinaryIO, NamedTuple

# What `Log.read` gives in the place of a line where the log of another run has taken the name.
ANOTHER_RUN = b""

# As much of a line as is kept, what is read at a time, and the beginning of a file by which it is known again.
LONGEST = 1 << 20
PIECE = 1 << 16
HEAD = 256

# The sessions that one run opens at most.
SESSIONS_OF_A_RUN = 1_000_000

KINDS = (b"open", b"batch", b"serve", b"done", b"close", b"end")


def parts(path: str) -> list[str]:
    """The rotated parts of a log, the oldest first."""
    folder, name = os.path.split(path)
    found: dict[int, str] = {}
    for each in sorted(os.listdir(folder or "."), reverse=True):
        numbered = re.fullmatch(re.escape(name) + r"\.([1-9][0-9]*)(\.gz)?", each)
        if numbered:
            found[int(numbered[1])] = os.path.join(folder, each)
    return [found[number] for number in sorted(found, reverse=True)]


def opened(path: str) -> BinaryIO:
    return gzip.open(path) if path.endswith(".gz") else open(path, "rb")


def standing(path: str) -> list[tuple[str, int, int]]:
    """The rotated parts with what tells whether one has changed."""
    states = [(each, os.stat(each)) for each in parts(path)]
    return [(each, state.st_ino, state.st_size) for each, state in states]


def first(beginning: bytes) -> bytes:
    """What a file is known by: its first line, or as much of it as is looked at."""
    line, end, _ = beginning[:HEAD].lstrip(b"\n").partition(b"\n")
    return line + end


def is_known(line: bytes) -> bool:
    return len(line) == HEAD or line.endswith(b"\n")


def close_all(files: list[BinaryIO]) -> None:
    for each in files:
        each.close()


class Log:
    """The log under a path. `read` gives each line once, whatever was rotated meanwhile, in bounded memory."""

    def __init__(self, path: str):
        self.path = path
        self.file: BinaryIO | None = None
        self.real = path
        self.bytes = 0
        self._begin()

    def _begin(self) -> None:
        """Nothing is read. What is read begins in the rotated parts, and then goes on in the file."""
        self.is_in_parts = True
        self._next()

    def _next(self) -> None:
        """The place is the start of a part or of the file. These begin with a line and end with one: what is left of a
        line is thrown away, since it stands there again."""
        self.place = 0
        self.start = b""
        self.rest = b""

    def _take(self, piece: bytes) -> Iterator[bytes]:
        """The lines that end in the piece at the place. An empty line is none."""
        self.place += len(piece)
        self.start = (self.start + piece[:HEAD])[:HEAD]
        self.bytes += len(piece)
        *lines, rest = (self.rest + piece).split(b"\n")
        self.rest = rest[:LONGEST]
        yield from filter(None, lines)

    def _at(self, place: int, size: int) -> bytes:
        assert self.file
        return os.pread(self.file.fileno(), size, place)

    def _parts(self) -> tuple[list[BinaryIO], list[bytes]]:
        """The rotated parts, the oldest first, and the first lines of these and of the file. A part that begins as what is
        behind it does is a copy that was not finished, and none."""
        while True:
            before = standing(self.real)
            files = [opened(each) for each, _, _ in before]
            start = self._at(0, HEAD)
            if standing(self.real) == before:
                break
            close_all(files)
        heads = [first(each.read(HEAD)) for each in files] + [first(start)]
        kept = [at for at in range(len(files)) if heads[at] not in (b"", heads[at + 1])]
        return [files[at] for at in kept], [heads[at] for at in kept] + heads[-1:]

    def _number(self, heads: list[bytes]) -> int | None:
        """The number of the part in which the place is."""
        if not self.place:
            return 0
        return next((at for at in range(len(heads) - 1) if heads[at] == first(self.start)), None)

    def _through_parts(self) -> Iterator[bytes]:
        """The lines behind the place in the rotated parts, and the first ones of the file."""
        while self.is_in_parts:
            before = standing(self.real)
            files, heads = self._parts()
            number = self._number(heads)
            if number is None:
                self._begin()
                yield ANOTHER_RUN
            for part, head in list(zip(files, heads))[number or 0:]:
                if head != first(self.start):
                    self._next()
                part.seek(self.place)
                while piece := part.read(PIECE):
                    yield from self._take(piece)
            close_all(files)
            start = self._at(0, HEAD)
            if standing(self.real) == before and first(start) == heads[-1]:
                if not is_known(first(start)):
                    return
                self.is_in_parts = False
                self._next()
                yield from self._take(start)

    def _new(self) -> Iterator[bytes]:
        """The lines of this run that came since the last call."""
        yield from self._through_parts()
        while not self.is_in_parts:
            piece = self._at(self.place, PIECE)
            if first(self._at(0, HEAD)) != first(self.start):
                self.is_in_parts = True
                yield from self._through_parts()
            elif piece:
                yield from self._take(piece)
            else:
                return

    def read(self) -> Iterator[bytes]:
        """The lines that came since the last call: at the first all that there are."""
        try:
            if self.file is None:
                self._open()
            yield from self._new()
            while self._is_another():
                yield from self._new()
                self._open()
                yield ANOTHER_RUN
                yield from self._new()
        except FileNotFoundError:
            return

    def _is_another(self) -> bool:
        assert self.file
        return not os.path.samestat(os.fstat(self.file.fileno()), os.stat(self.path))

    def _open(self) -> None:
        real = os.path.realpath(self.path)
        file = open(real, "rb")
        if self.file:
            self.file.close()
        self.real, self.file = real, file
        self._begin()


class Entry(NamedTuple):
    """A line of a log: its kind, its turn, its session (of `end` the status) and what stands behind."""

    kind: str
    turn: int
    session: int
    words: list[bytes]


def entry(line: bytes) -> Entry | None:
    """The entry of a line, or None where the line is none."""
    kind, *words = line.split(b" ", 5)
    if kind not in KINDS or len(words) < 2 or not (words[0].isdigit() and words[1].isdigit()):
        return None
    least = {b"open": 5, b"batch": 4, b"serve": 5, b"done": 4}.get(kind, 2)
    return Entry(kind.decode(), int(words[0]), int(words[1]), words[2:]) if len(words) >= least else None


class Sessions:
    """The sessions of a run by its entries."""

    def __init__(self) -> None:
        # The identifiers of the sessions that are alive, the longest silent first.
        self.alive: dict[int, str] = {}
        self.opened = 0

    def take(self, each: Entry) -> str | None:
        """Takes the next entry, and gives the reason where it ends a session."""
        number = each.session
        if each.kind == "open":
            self.opened = max(self.opened, number)
            self.alive[number] = each.words[0].decode("latin-1")
        elif number in self.alive:
            self.alive[number] = self.alive.pop(number)
        if each.kind == "close":
            return "closed" if self.alive.pop(number, None) else None
        if each.kind == "done" and each.words[1] != b"ok":
            return each.words[1].decode("latin-1") if self.alive.pop(number, None) else None
        return None


def sessions_of(app: str) -> int:
    """How many sessions the manifest of this file lets be alive at once."""
    with open(app, encoding="utf-8-sig") as file:
        return json.load(file)["limits"].get("sessions", 64)
