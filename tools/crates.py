#!/usr/bin/env python3
"""Writes the tables of crates in docs/CRATES.md, one for each layer of tables/layers.txt.

usage: tools/crates.py [--check]

A row has the crate, what it is for (the first sentence of its root file), the crates of the repository that it stands on,
and its lines of code, definitions and proofs, in hundreds. With --check nothing is written: the status is 1 where the page
is not as the crates say.
"""

from __future__ import annotations

import re
import sys
from pathlib import Path

ROOT = Path(__file__).resolve().parent.parent
PAGE = ROOT / "docs" / "CRATES.md"
BEGIN, END = "<!-- tables: made by tools/crates.py -->", "<!-- end of the tables -->"


def table_of(path: Path) -> dict[str, list[str]]:
    """The lines `name: word word ..` of a file, without comments."""
    found = {}
    for line in path.read_text().splitlines():
        line = line.split("#")[0].strip()
        if line:
            name, words = line.split(":")
            found[name.split()[0]] = words.split()
    return found


def purpose(crate: str) -> str:
    """The first sentence of a crate's root file; of a long one what stands before its details."""
    folder = ROOT / "crates" / crate / "src"
    root = folder / "lib.rt" if (folder / "lib.rt").exists() else folder / "main.rt"
    text = []
    for line in root.read_text().splitlines():
        words = line.removeprefix("//!").strip()
        if not line.startswith("//!") or not words:
            break
        text.append(words)
    sentence = re.split(r"(?<=\.) ", " ".join(text))[0]
    return sentence if len(sentence.split()) <= 40 else re.split(r", from|: ", sentence)[0] + "."


def hundreds(crate: str, part: str) -> int:
    """The lines of a part of a crate, in hundreds, rounded up."""
    folder = ROOT / "crates" / crate / part
    lines = sum(path.read_text().count("\n") for path in folder.rglob("*") if path.suffix in (".rt", ".antt"))
    return -(-lines // 100)


def layer_lines(layer: str, members: list[str], deps: dict[str, list[str]]) -> list[str]:
    """The table of one layer."""
    lines = [f"### {layer.capitalize()}", "", "| crate | what it is for | stands on | code | specs | proofs |", "|---|---|---|---|---|---|"]
    for crate in members:
        below = " ".join(word.removeprefix("rip_") for word in deps[crate] if word in deps)
        parts = " | ".join(str(hundreds(crate, part)) for part in ("src", "specs", "proofs"))
        lines.append(f"| `{crate}` | {purpose(crate)} | {below} | {parts} |")
    return lines + [""]


def made() -> str:
    """The page with its tables made anew."""
    deps, layers = table_of(ROOT / "crates.txt"), table_of(ROOT / "tables" / "layers.txt")
    lines = [BEGIN, ""]
    for layer, members in layers.items():
        lines += layer_lines(layer, members, deps)
    head, rest = PAGE.read_text().split(BEGIN)
    return head + "\n".join(lines + [END]) + rest.split(END)[1]


def main() -> int:
    text = made()
    if text == PAGE.read_text():
        return 0
    if "--check" in sys.argv[1:]:
        print("docs/CRATES.md is not as the crates say: write it with tools/crates.py", file=sys.stderr)
        return 1
    PAGE.write_text(text)
    return 0


if __name__ == "__main__":
    sys.exit(main())
