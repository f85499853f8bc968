#!/usr/bin/env python3
"""Holds docs/TRUSTED.md to the crates at the edge: each function there that no clause speaks of has its line, and no other has.

    trusted.py            tells what is missing or too much, and how many functions and lines are trusted
    trusted.py --list     prints the functions, as the page names them

A function has a clause where its header has an `ensures`, or where it is a method of a trait, whose clauses it is proved to
meet. All others of the crates at the edge (rip_real and the two programs) are trusted.
"""
import glob
import os
import re
import sys
from typing import Iterator, NamedTuple

TOP = os.path.dirname(os.path.dirname(os.path.abspath(__file__)))
PAGE = "docs/TRUSTED.md"
EDGE = ["rip_real", "ripley", "script"]
HEADER = re.compile(r"^( *)(?:pub )?(?:unsafe )?fn (\w+)")
IMPL = re.compile(r"^impl(?:<.*?>)? (?:(\w+)(?:<.*?>)? for )?(\w+)")


class Function(NamedTuple):
    """A function that no clause speaks of, and its lines."""
    name: str
    lines: int


def functions_of(crate: str, path: str) -> Iterator[Function]:
    """The functions of a file that no clause speaks of."""
    lines = open(path, encoding="utf-8").read().split("\n")
    place = os.path.splitext(os.path.basename(path))[0]
    owner, of_trait = "", False
    for number, line in enumerate(lines):
        if line == "}":
            owner, of_trait = "", False
        if found := IMPL.match(line):
            owner, of_trait = found[2], found[1] is not None
        found = HEADER.match(line)
        if not found or of_trait:
            continue
        body = next(i for i in range(number, len(lines)) if lines[i].endswith("{"))
        end = next(i for i in range(body, len(lines)) if lines[i] == found[1] + "}")
        if any("ensures" in it for it in lines[number:body]):
            continue
        name = f"{owner}::{found[2]}" if owner else found[2]
        yield Function(f"{crate}::{place}::{name}", end - number + 1)


def trusted() -> list[Function]:
    """The functions at the edge that no clause speaks of."""
    found = []
    for crate in EDGE:
        for path in sorted(glob.glob(f"{TOP}/crates/{crate}/src/*.rt")):
            found.extend(functions_of(crate, path))
    return found


def told() -> set[str]:
    """The functions that the page names in the first column of its tables."""
    names = set()
    for line in open(f"{TOP}/{PAGE}", encoding="utf-8"):
        if line.startswith("| `"):
            place, of_row = "", re.findall(r"`([^`]+)`", line.split("|")[1])
            for name in of_row:
                place = name.rsplit("::", name.count("::") - 1)[0] if name.startswith(tuple(EDGE)) else place
                names.add(name if name.startswith(tuple(EDGE)) else f"{place}::{name}")
    return names


def main(words: list[str]) -> int:
    functions = trusted()
    if words == ["--list"]:
        for function in functions:
            print(function.name, function.lines)
        return 0
    there, said = {it.name for it in functions}, told()
    for name in sorted(there - said):
        print(f"{PAGE}: no line says what is believed of {name}", file=sys.stderr)
    for name in sorted(said - there):
        print(f"{PAGE}: {name} is not there, or has a clause", file=sys.stderr)
    count = f"{len(functions)} functions of {sum(it.lines for it in functions)} lines"
    is_counted = count in open(f"{TOP}/{PAGE}", encoding="utf-8").read()
    if not is_counted:
        print(f"{PAGE}: it is to say '{count}'", file=sys.stderr)
    return 0 if there == said and is_counted else 1


if __name__ == "__main__":
    sys.exit(main(sys.argv[1:]))
