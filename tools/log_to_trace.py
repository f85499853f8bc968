#!/usr/bin/env python3
"""Makes of the log of `ripley serve` a trace over which `ripley replay` writes the same log.

    tools/log_to_trace.py LOG > TRACE
    ripley replay PAGE APP TRACE | cmp - LOG

A trace has one knock a turn, so this goes where no two requests were handled in one turn, and where turns without a
request are left to open connections in; else it says at which turn it doesn't go, with status 1. Requests that were
refused are not in a log, and leave no mark in it. A line `end T 0` is written again; a server that is stopped from outside
writes none, and one whose turns are spent another, so that line is then left out of the comparison.

Of a log whose last line a crash cut, that line is left out, which is told on standard error; `replay` then writes the whole
lines, and behind them what the server would have written next. Where several runs were appended to one log, the trace is
that of the last one.
"""

import json
import sys
import uuid

from log_lines import last_run

# The longest piece that comes in one turn.
LONGEST_PIECE = 4096


def read(path):
    """The requests by turn, the moments by turn, the words, and the last turn of an entry."""
    asked, moments, words, done, last = {}, {}, [], {}, 0
    for line in last_run(path):
        kind, turn, *rest = line.split(" ", 3)
        turn = int(turn)
        if kind == "end":
            # (a trace's own end takes a turn)
            last = max(last, turn - 1)
            continue
        last = max(last, turn)
        session = int(rest[0])
        if kind == "open":
            name, seed, moment = line.split()[3:6]
            drawn = uuid.UUID(name).int
            words += [drawn >> 64, drawn % 2**64, int(seed)]
            moments[turn] = int(moment)
            asked.setdefault(turn, []).append((session, 0, "get"))
        elif kind == "batch":
            number, items = line.split(" ", 4)[3:]
            body = '{"batch":%s,"items":%s}' % (number, items)
            asked.setdefault(turn, []).append((session, int(number), f"e {session} {body}"))
        elif kind == "close":
            asked.setdefault(turn, []).append((session, None, f"q {session}"))
            done[session, None] = turn
        elif kind == "serve":
            behind = line.split(" ", 6)[6]
            _, end = json.JSONDecoder().raw_decode(behind)
            moments[turn] = int(behind[end:].split()[0])
        elif kind == "done":
            done[session, int(line.split()[3])] = turn
    return asked, moments, words, done, last


def request_bytes(say):
    """How many bytes the request of a line has: a batch's head has 84 and the digits of its length."""
    if not say.startswith("e "):
        return 0
    size = len(say.split(" ", 2)[2].encode())
    return 84 + len(str(size)) + size


def trace(asked, moments, words, done, last):
    lines = [f"word {word:016x}" for word in words]
    knocks, opens, free_at, free = {}, 0, {}, []
    for turn in range(1, last + 1):
        here = asked.get(turn, [])
        if len(here) > 1:
            sys.exit(f"turn {turn}: two requests were handled")
        if not here:
            free.append(turn)
            continue
        session, number, say = here[0]
        if request_bytes(say) > LONGEST_PIECE:
            sys.exit(f"turn {turn}: a request of more than {LONGEST_PIECE} bytes takes several turns of a trace")
        ready = [c for c in range(opens) if free_at[c] < turn]
        if ready:
            c = ready[0]
        elif free and opens < 64:
            knocks[free.pop(0)] = f"open {opens}"
            c, opens = opens, opens + 1
        else:
            sys.exit(f"turn {turn}: no connection can be opened before it")
        # (a request that has no end in the log keeps its connection)
        free_at[c] = done.get((session, number), last)
        knocks[turn] = f"say {c} {say}"
    moment = 0
    for turn in range(1, last + 1):
        if moments.get(turn, moment) != moment:
            moment = moments[turn]
            lines.append(f"time {moment}")
        lines.append(knocks.get(turn, "quiet"))
    return lines


if __name__ == "__main__":
    if len(sys.argv) != 2:
        sys.exit("usage: log_to_trace.py LOG > TRACE")
    try:
        for each in trace(*read(sys.argv[1])):
            print(each)
    except OSError as error:
        sys.exit(f"log_to_trace: {error}")
