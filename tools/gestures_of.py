#!/usr/bin/env python3
"""Makes a file of gestures of what the visitor of one session did, to be driven again.

usage: gestures_of.py LOG SESSION > GESTURES
       ripley drive PAGE APP GESTURES > TRACE

SESSION is the number that the log's lines have. Each event is a gesture, and a batch without an event is a `flush`, where
replies come or nothing is done. What ended the session stands behind the last one, as a comment.

`drive` opens the session from seed 3, at moment 0, with an empty store, and has no other visitors. So the calls are the
same where the page does not ask for random numbers or the time, and where its replies are the same. It delivers each reply
before the next gesture; where the visitor was quicker than the reply, this is told on standard error. Of an input a line
end is left out, since a gesture is one line; this is told too.
"""
import json
import sys
from collections.abc import Iterator

from log_lines import last_run, tell


def ended(line: str) -> tuple[str, int] | None:
    """The reason and the item of a line `done T S N REASON I ..`, or None of `done T S N ok`."""
    words = line.split(" ", 6)
    return None if words[4] == "ok" else (words[4], int(words[5]))


def batches(lines: list[str], session: str) -> Iterator[tuple[int, list, str | None]]:
    """The batches of a session: number, the items that were done, and how the session ended there, if it did."""
    admitted: tuple[int, list] | None = None
    for line in lines:
        kind, _, of, *rest = line.split(" ", 4)
        if of != session:
            continue
        if kind == "batch":
            admitted = int(rest[0]), json.loads(rest[1])
        elif kind == "done" and admitted is not None:
            end = ended(line)
            number, items = admitted
            admitted = None
            if end is None:
                yield number, items, None
            else:
                # An event that can't have happened is no gesture; one that met a limit or a fault is.
                done = items[: end[1] - 1] if end[0] == "report" else items[: end[1]]
                yield number, done, line.split(" ", 4)[4]
    if admitted is not None:
        yield *admitted, None


def gesture(event: list) -> str:
    """The line of an event item."""
    line = " ".join(str(word) for word in event[1:])
    if "\n" in line:
        tell(f"line ends are left out of: {event[1]} {event[2]}")
    return line.replace("\n", "")


class Replies:
    """Follows which replies `drive` has delivered by now: those to the calls of the gestures before."""

    def __init__(self, delivered_later: set[int]) -> None:
        self.waiting = delivered_later
        self.before: set[int] = set()
        self.here: set[int] = set()
        self.is_behind_event = False

    def item(self, item: list) -> None:
        """A reply or a call. A call behind an event is of its gesture, another one of the gesture that comes."""
        if item[0] == "reply":
            self.waiting.discard(item[1])
            self.is_behind_event = False
        else:
            (self.before if self.is_behind_event else self.here).add(item[1])

    def gesture(self, is_event: bool) -> list[int]:
        """The replies that `drive` delivers before this gesture, and the visit behind it."""
        early = sorted(self.waiting & self.before) if is_event else []
        self.waiting -= set(early)
        self.before |= self.here
        self.here = set()
        self.is_behind_event = is_event
        return early


def gestures(lines: list[str], session: str) -> Iterator[str]:
    """The lines of the file."""
    replies = Replies({item[1] for _, items, _ in batches(lines, session) for item in items if item[0] == "reply"})
    for number, items, end in batches(lines, session):
        for item in items:
            if item[0] != "event":
                replies.item(item)
                continue
            for call in replies.gesture(True):
                tell(f"batch {number}: '{item[1]} {item[2]}' was done before the reply to call {call}; driven, the reply comes first")
            yield gesture(item)
        if not any(item[0] == "event" for item in items):
            replies.gesture(False)
            yield "flush"
        if end is not None:
            yield f"# The session ended here: {end}"


def main() -> int:
    if len(sys.argv) != 3:
        sys.exit("usage: gestures_of.py LOG SESSION > GESTURES")
    path, session = sys.argv[1:]
    try:
        lines = last_run(path)
    except OSError as error:
        sys.exit(f"gestures_of: {error}")
    if not any(line.startswith("open ") and line.split(" ")[2] == session for line in lines):
        sys.exit(f"gestures_of: {path} has no session {session}")
    for line in gestures(lines, session):
        print(line)
    return 0


if __name__ == "__main__":
    sys.exit(main())
