#!/usr/bin/env python3
"""Makes the pictures of README and docs: visits that tools/player.py plays, in a headless Chromium.

usage: pictures.py PROGRAM     PROGRAM the program `ripley`; Debian's package `chromium` is wanted

First each example's logs are played to their last step: in the true one the page's script is to have made each reported call, in
the false one not. Then docs/pictures/ gets `player.png`, the lie of docs/TUTORIAL.md, and `shop.png`, a shop whose price was
rewritten. A picture has less than 200,000 bytes. The status is 0 where all is so.
"""

import json
import pathlib
import re
import subprocess
import sys
import tempfile
from html.parser import HTMLParser

import player
import tutorial

TOP = pathlib.Path(__file__).resolve().parent.parent
PICTURES = TOP / "docs/pictures"
WORDS = ["chromium", "--headless=new", "--no-sandbox", "--disable-gpu", "--hide-scrollbars", "--virtual-time-budget=4000"]
# With the frame in a process of its own the browser may be done before the frame is.
WORDS += ["--disable-features=IsolateSandboxedIframes"]
MOST_BYTES = 200_000
SECONDS = 90
TRIES = 3


class Calls(HTMLParser):
    """The rows of the table of calls: for each its number, what the script made, what was reported."""

    def __init__(self):
        super().__init__()
        self.rows: list[list[str]] = []

    def handle_starttag(self, tag, attributes):
        if tag == "tr":
            self.rows.append([])
        if tag == "td":
            self.rows[-1].append("")

    def handle_data(self, data):
        if self.rows and self.rows[-1]:
            self.rows[-1][-1] += data


def browsed(file: pathlib.Path, *words: str) -> str:
    """What the browser prints of the last step of a visit."""
    steps = json.loads(re.search(r'application/json">(.*?)</script>', file.read_text(), re.S)[1])["steps"]
    with tempfile.TemporaryDirectory() as home:
        asked = [*WORDS, f"--user-data-dir={home}", *words, f"{file.as_uri()}#{len(steps) - 1}"]
        return subprocess.run(asked, capture_output=True, text=True, timeout=SECONDS).stdout


def visit(folder: pathlib.Path, log: pathlib.Path, room: pathlib.Path) -> pathlib.Path:
    file = room / f"{folder.name}.{log.stem}.html"
    file.write_text(player.made((folder / "page.html").read_text(), log.read_text(), log.name, 1))
    return file


def calls(file: pathlib.Path) -> list[list[str]]:
    """The rows of calls of a visit; asked again where the browser was too slow to have any."""
    rows: list[list[str]] = []
    for _ in range(TRIES):
        found = Calls()
        found.feed(re.search(r'<table id="calls">.*?</table>', browsed(file, "--dump-dom"), re.S)[0])
        rows = [row for row in found.rows if row]
        if rows:
            break
    return rows


def examples(room: pathlib.Path) -> list[str]:
    """What is wrong with the visits of the examples."""
    wrong = []
    for folder in sorted((TOP / "examples").iterdir()):
        for name in ("true", "false"):
            rows = calls(visit(folder, folder / f"{name}.log", room))
            same = bool(rows) and all(made == reported for _, made, reported, *_ in rows if reported)
            print(f"{folder.name} {name}: {len(rows)} calls, {'as' if same else 'other than'} reported")
            if same != (name == "true"):
                wrong.append(f"{folder.name}/{name}.log: {rows}")
    return wrong


def lie_of_the_tutorial(program: str, room: pathlib.Path) -> pathlib.Path:
    """The visit that the tutorial looks at."""
    tutorial.run(program, room, [each[1] for each in tutorial.BLOCK.finditer(tutorial.PAGE.read_text())])
    return next(room.glob("tmp.*/visit.html"))


def picture(file: pathlib.Path, name: str, size: str) -> list[str]:
    browsed(file, f"--window-size={size}", f"--screenshot={PICTURES / name}")
    size_of = (PICTURES / name).stat().st_size
    return [f"{name} has {size_of} bytes"] if size_of >= MOST_BYTES else []


def main() -> int:
    if len(sys.argv) != 2:
        print(__doc__, file=sys.stderr)
        return 2
    with tempfile.TemporaryDirectory() as name:
        room = pathlib.Path(name)
        wrong = examples(room)
        wrong += picture(lie_of_the_tutorial(sys.argv[1], room), "player.png", "1240,460")
        shop = TOP / "examples/shop"
        wrong += picture(visit(shop, shop / "false.log", room), "shop.png", "1240,640")
    print("\n".join(wrong) or "the pictures are made")
    return 1 if wrong else 0


if __name__ == "__main__":
    sys.exit(main())
