#!/usr/bin/env python3
"""Prints the log of `ripley serve` as lines of JSON, for tools that read these (jq, a collector of logs).

    deploy/log_to_json.py LOG [--follow] [--identifiers]

With `--follow` it goes on as the log grows and is rotated, and each run begins with {"kind":"run"}. The identifiers of
sessions are left out, since who has one can speak for its visitor; `--identifiers` shows them. A line that is none is
told of on standard error.
"""

import json
import sys
import time

from follow import ANOTHER_RUN, Entry, Log, entry

ROUND = 1


def quoted(word: bytes) -> str:
    return json.dumps(word.decode("utf-8", "replace"))


def member(name: str, value: str) -> str:
    return f',"{name}":{value}'


def text(words: list[bytes]) -> str:
    return b" ".join(words).decode("utf-8")


def values(line: str, count: int) -> list[str]:
    """The texts of so many values of JSON that stand in a line, a space between them."""
    found, place = [], 0
    for _ in range(count):
        _, end = json.JSONDecoder().raw_decode(line, place)
        found.append(line[place:end])
        place = end + 1
    return found


def done(words: list[bytes]) -> str:
    """The members of a `done` line behind its batch: what came of it."""
    outcome, rest = words[1], text(words[2:])
    told = member("outcome", quoted(outcome))
    if outcome == b"ok":
        return told
    item, _, behind = rest.partition(" ")
    told += member("item", item)
    if outcome == b"report":
        return told + member("what", json.dumps(behind))
    if outcome != b"mismatch":
        return told
    number, _, calls = behind.partition(" ")
    _, end = json.JSONDecoder().raw_decode(calls)
    made = calls[end + 1:]
    return told + member("call", number) + member("reported", calls[:end]) + member("made", "null" if made == "none" else made)


def object_of(each: Entry, is_shown: bool) -> str:
    """The entry as an object of JSON. What is JSON in the log stands in it as it is there."""
    told = f'{{"kind":"{each.kind}","turn":{each.turn}'
    if each.kind == "end":
        return told + member("status", str(each.session)) + "}"
    told += member("session", str(each.session))
    words = each.words
    if each.kind == "open":
        told += member("identifier", quoted(words[0])) if is_shown else ""
        told += member("seed", words[1].decode()) + member("time", words[2].decode())
    elif each.kind != "close":
        told += member("batch", words[0].decode())
    if each.kind == "batch":
        told += member("items", text(words[1:]))
    elif each.kind == "serve":
        name, list_, moment, reply = values(text(words[2:]), 4)
        told += member("call", words[1].decode()) + member("name", name) + member("arguments", list_)
        told += member("time", moment) + member("reply", reply)
    elif each.kind == "done":
        told += done(words)
    return told + "}"


def show(line: bytes, is_shown: bool) -> None:
    each = entry(line)
    try:
        if each is None:
            raise ValueError
        print(object_of(each, is_shown))
    except (ValueError, IndexError):
        print(f"no line of a log: {line[:80]!r}", file=sys.stderr)


def main() -> None:
    path, *options = sys.argv[1:]
    log = Log(path)
    while True:
        for line in log.read():
            if line == ANOTHER_RUN:
                print('{"kind":"run"}')
            else:
                show(line, "--identifiers" in options)
        sys.stdout.flush()
        if "--follow" not in options:
            return
        time.sleep(ROUND)


if __name__ == "__main__":
    main()
