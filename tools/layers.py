#!/usr/bin/env python3
"""Holds crates.txt to the layers of the house.

usage: tools/layers.py [--chain]

tables/layers.txt names the layers, lowest first, each with its crates. The tool says what is wrong, one line each, and
ends with 1, where

- a crate stands in no layer, or in two, or a layer names one that is not there;
- crates.txt is not lowest first: a line names a crate that comes later;
- a crate stands on one of a higher layer;
- a crate is said to stand on one that none of its files names, or names one that its line leaves out.

With --chain it prints the longest chain of crates that stand on one another instead.
"""

from __future__ import annotations

import re
import sys
from pathlib import Path

ROOT = Path(__file__).resolve().parent.parent
PROGRAMS = {"ripley", "script"}


def lines_of(path: Path) -> list[tuple[str, list[str]]]:
    """The lines `name: word word ..` of a file, without comments."""
    found = []
    for line in path.read_text().splitlines():
        line = line.split("#")[0].strip()
        if line:
            name, words = line.split(":")
            found.append((name.split()[0], words.split()))
    return found


def without_comments(path: Path) -> str:
    """The text of a source or a definition, without its comment lines."""
    return re.sub(r"^\s*(//|--).*$", "", path.read_text(), flags=re.M)


def named_in(crate: str, crates: set[str]) -> set[str]:
    """The crates of the repository that the files of this one name."""
    folder = ROOT / "crates" / crate
    found: set[str] = set()
    for path in folder.rglob("*"):
        if path.suffix in (".rt", ".antt") and "out" not in path.relative_to(folder).parts:
            found.update(re.findall(r"\b([a-z_]+)(?=::|\.)", without_comments(path)))
    return (found & crates) - {crate} - PROGRAMS


def wrong_layers(layers: list[tuple[str, list[str]]], crates: list[str]) -> list[str]:
    """What is wrong with the table of layers itself."""
    placed = [crate for _, members in layers for crate in members]
    wrong = [f"{crate} stands in no layer of tables/layers.txt" for crate in crates if crate not in placed]
    wrong += [f"tables/layers.txt names {crate}, and there is none" for crate in placed if crate not in crates]
    wrong += [f"{crate} stands in two layers" for crate in sorted(set(placed)) if placed.count(crate) > 1]
    return wrong


def wrong_edges(deps: dict[str, list[str]], rank: dict[str, int]) -> list[str]:
    """What is wrong with the lines of crates.txt."""
    wrong, seen = [], set()
    for crate, words in deps.items():
        own = [word for word in words if word in deps]
        named = named_in(crate, set(deps))
        for below in own:
            if below not in seen:
                wrong.append(f"crates.txt: {crate} stands above {below}, which comes later")
            if rank.get(below, 0) > rank.get(crate, 0):
                wrong.append(f"crates.txt: {crate} stands on {below}, of a higher layer")
            if below not in named:
                wrong.append(f"crates.txt: no file of {crate} names {below}")
        wrong += [f"crates.txt: {crate} names {below} and does not list it" for below in sorted(named - set(own))]
        seen.add(crate)
    return wrong


def longest_chain(deps: dict[str, list[str]]) -> list[str]:
    """The longest chain of crates, lowest first."""
    chains: dict[str, list[str]] = {}
    for crate, words in deps.items():
        below = [chains[word] for word in words if word in chains]
        chains[crate] = max(below, key=len, default=[]) + [crate]
    return max(chains.values(), key=len)


def main() -> int:
    deps = dict(lines_of(ROOT / "crates.txt"))
    if "--chain" in sys.argv[1:]:
        chain = longest_chain(deps)
        print(len(chain), " ".join(chain))
        return 0
    layers = lines_of(ROOT / "tables" / "layers.txt")
    rank = {crate: at for at, (_, members) in enumerate(layers) for crate in members}
    wrong = wrong_layers(layers, list(deps)) + wrong_edges(deps, rank)
    for line in wrong:
        print(line, file=sys.stderr)
    if not wrong:
        print(f"{len(deps)} crates in {len(layers)} layers, as crates.txt says")
    return 1 if wrong else 0


if __name__ == "__main__":
    sys.exit(main())
