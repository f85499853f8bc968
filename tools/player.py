#!/usr/bin/env python3
"""Makes one HTML file that plays a session's visit step by step: what was reported, and what the page's script does.

usage: player.py PAGE LOG SESSION > visit.html     LOG a log of `ripley serve` or `replay`, SESSION the number of a session in it

The file runs the page's script in a frame of its own, which reaches nothing else, over the events and replies of the log, and shows
beside it each reported call, the call that the script made, the reply, and the document. It needs no server. Behind the step that
ended a session nothing is played. A last line that is cut is left out. The status is 1 where the log has no such session.
"""

import json
import pathlib
import re
import sys
from html import escape

PARTS = pathlib.Path(__file__).resolve().parent / "player"
DECODER = json.JSONDecoder()


def values(text: str) -> list:
    """The values of JSON, and the words, that stand in a text with spaces between."""
    found, at = [], 0
    while at < len(text):
        if text[at] in '["{':
            value, at = DECODER.raw_decode(text, at)
            found.append(value)
        else:
            word = text[at:].split(" ", 1)[0]
            at += len(word)
            found.append(int(word) if word.lstrip("-").isdigit() else {"null": None, "true": True, "false": False}.get(word, word))
        at += 1
    return found


def entries(log: str, session: int) -> list[list]:
    """The entries of a session, each as its words and values."""
    found = []
    for line in log.split("\n")[:-1]:
        words = line.split(" ", 3)
        if len(words) > 2 and words[0] != "end" and words[2] == str(session):
            found.append([words[0], int(words[1]), *values(words[3] if len(words) > 3 else "")])
    return found


def ending(done: list) -> str | None:
    """What is said of a batch that was not done well, as a sentence."""
    how, *rest = done
    if how == "ok":
        return None
    if how == "mismatch":
        item, call = rest[:2]
        why = f"Item {item} reported call {call}, which the page's script does not make there."
        return f"{why} The call was not served, and the session has ended."
    if how == "report":
        return f"Item {rest[0]} reported what cannot have happened ({rest[1]}). The session has ended."
    return f"At item {rest[0]} the script met the limit or fault '{how}'. The session has ended."


def step(turn: int, batch: int, kind: str, title: str, **more) -> dict:
    return {"turn": turn, "batch": batch, "kind": kind, "title": title, **more}


def item_title(item: list, replies: dict) -> str:
    """An item of a batch, in words."""
    kind, *rest = item
    if kind == "event":
        shown = f": {json.dumps(rest[2], ensure_ascii=False)}" if len(rest) > 2 else ""
        return f"{rest[0]} at node {rest[1]}{shown}"
    if kind == "call":
        return f"call {rest[0]}: {rest[1]}"
    return f"reply to call {rest[0]}: {json.dumps(replies.get(rest[0], (0, None))[1], ensure_ascii=False)}"


def steps(found: list[list]) -> list[dict]:
    """The steps of a visit: its opening, each item, how each batch was done, its closing."""
    replies = {entry[3]: (entry[6], entry[7]) for entry in found if entry[0] == "serve"}
    out: list[dict] = []
    for kind, turn, *rest in found:
        if kind == "open":
            out.append(step(turn, 0, "open", "the page is opened", seed=rest[1], time=rest[2]))
        elif kind == "batch":
            for number, item in enumerate(rest[1], 1):
                served = replies.get(item[1]) if item[0] in ("call", "reply") else None
                out.append(step(turn, rest[0], item[0], item_title(item, replies), number=number, item=item, served=served))
        elif kind == "done":
            said = ending(rest[1:])
            if said and rest[0] > 0:
                drop_behind(out, rest[0], rest[2])
            title = f"batch {rest[0]} is done" if rest[0] else "the opening is done"
            calls = rest[4:6] if rest[1] == "mismatch" else None
            out.append(step(turn, rest[0], "end" if said else "done", "the session ends" if said else title, says=said, calls=calls))
        elif kind == "close":
            out.append(step(turn, 0, "close", "the page is left"))
    return out


def drop_behind(out: list[dict], batch: int, item: int) -> None:
    """Marks the items of a batch from the one that ended the session on: they are shown, and not played."""
    for each in out:
        if each["batch"] == batch and each.get("number", 0) >= item:
            each["unplayed"] = True


def quoted(value) -> str:
    """JSON that may stand in an element `script`."""
    return json.dumps(value, ensure_ascii=False).replace("<", "\\u003c")


def made(page: str, log: str, name: str, session: int) -> str | None:
    found = entries(log, session)
    if not found or found[0][0] != "open":
        return None
    part = {each.name: each.read_text(encoding="utf-8") for each in PARTS.iterdir()}
    title = f"Session {session} of {name}"
    data = {"page": page, "identifier": found[0][2], "steps": steps(found), "frame": part["frame.js"]}
    filled = {"TITLE": escape(title), "STYLE": part["player.css"], "DATA": quoted(data), "SCRIPT": part["player.js"]}
    return re.sub("@([A-Z]+)@", lambda place: filled[place[1]], part["player.html"])


def main() -> int:
    if len(sys.argv) != 4 or not sys.argv[3].isdigit():
        print(__doc__, file=sys.stderr)
        return 2
    page, log = (pathlib.Path(word) for word in sys.argv[1:3])
    page_text = page.read_text(encoding="utf-8-sig")
    html = made(page_text, log.read_bytes().decode("utf-8", "replace"), log.name, int(sys.argv[3]))
    if html is None:
        print(f"{log} has no session {sys.argv[3]} that was opened", file=sys.stderr)
        return 1
    print(html, end="")
    return 0


if __name__ == "__main__":
    sys.exit(main())
