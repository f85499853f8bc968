#!/usr/bin/env python3
"""Checks that what the pages of this repository point at is there.

    links.py            checks README.md and docs/, and prints each place that points at nothing

A link leads to a file, and where it has a `#`, to a heading of that page or to a line of that file. A name such as
`rip_cli::ripley` or `rip_http` in code marks is that of a crate, and what stands behind the `::` is spelled somewhere in it.
In a table whose last column is `crate`, so is each name in the column before it, in one of the crates that the row names.
Addresses outside the repository are not looked up. The status is 0 where all is there.
"""

import pathlib
import re
import sys

TOP = pathlib.Path(__file__).resolve().parent.parent
FENCE = re.compile(r"^(```|~~~).*?^\1[^\n]*$", re.M | re.S)
LINK = re.compile(r"!?\[(?:[^\[\]]|\[[^\]]*\])*\]\(([^()\s]+)\)")
HEADING = re.compile(r"^#{1,6} (.*?)#*$", re.M)
CODE = re.compile(r"`([^`\n]+)`")
NAME = re.compile(r"\b(rip_\w+)((?:::\w+)*)")


def without_blocks(text: str) -> str:
    """The text with its fenced blocks blank, so that each line keeps its number."""
    return FENCE.sub(lambda found: "\n" * found[0].count("\n"), text)


def anchor(heading: str) -> str:
    """The anchor that a heading gets: small letters, without marks, hyphens for spaces."""
    shown = re.sub(r"\[([^\]]*)\]\([^)]*\)", r"\1", heading).replace("`", "")
    return re.sub(r"[^\w\- ]", "", shown.strip().lower()).replace(" ", "-")


def anchors(page: pathlib.Path) -> set[str]:
    found: set[str] = set()
    for heading in HEADING.findall(without_blocks(page.read_text(encoding="utf-8"))):
        name, again = anchor(heading), 0
        while (name if not again else f"{name}-{again}") in found:
            again += 1
        found.add(name if not again else f"{name}-{again}")
    return found


def wrong_link(page: pathlib.Path, link: str) -> str | None:
    """What is wrong with a link of a page, if anything is."""
    if re.match(r"[a-z]+:", link):
        return None
    path, _, part = link.partition("#")
    target = (page.parent / path).resolve() if path else page
    if not target.exists():
        return f"{link}: there is no such file"
    if not part:
        return None
    line = re.fullmatch(r"L(\d+)", part)
    if line:
        lines = target.read_text(encoding="utf-8").count("\n")
        return None if int(line[1]) <= lines else f"{link}: the file has {lines} lines"
    if target.suffix == ".md" and part in anchors(target):
        return None
    return f"{link}: there is no such heading"


def words_of(crate: str, known: dict[str, set[str]]) -> set[str]:
    """All words that are spelled in the sources, definitions and proofs of a crate."""
    if crate not in known:
        known[crate] = set()
        for file in (TOP / "crates" / crate).rglob("*"):
            if file.suffix in (".rt", ".antt") and "out" not in file.parts:
                known[crate].update(re.findall(r"\w+", file.read_text(encoding="utf-8")))
    return known[crate]


def wrong_names(code: str, known: dict[str, set[str]]) -> list[str]:
    """The names in a piece of code that no crate has."""
    wrong = []
    for crate, path in NAME.findall(code):
        if not (TOP / "crates" / crate).is_dir():
            wrong.append(f"{crate}: there is no such crate")
            continue
        missing = [part for part in path.split("::")[1:] if part not in words_of(crate, known)]
        wrong += [f"{crate}{path}: {part} is not in that crate" for part in missing]
    return wrong


def wrong_row(line: str, known: dict[str, set[str]]) -> list[str]:
    """The names of a row of a table by crate that none of its crates has."""
    cells = line.strip().strip("|").replace("\\|", "").split("|")
    crates = re.findall(r"`(rip_\w+)(?:::\w+)*`", cells[-1])
    if not crates:
        return []
    crates += re.findall(r"`(rip_\w+)(?:::\w+)*`", cells[-2])
    there = set().union(*(words_of(crate, known) for crate in crates))
    names = [name for code in CODE.findall(cells[-2]) for name in re.findall(r"[A-Za-z_]\w*", code)]
    return [f"{name}: not in {', '.join(crates)}" for name in names if name not in there and name not in crates]


def wrong_in(page: pathlib.Path, known: dict[str, set[str]]) -> list[str]:
    """What is wrong with a page, each with its line."""
    wrong, by_crate = [], False
    for number, line in enumerate(without_blocks(page.read_text(encoding="utf-8")).split("\n"), 1):
        found = [wrong_link(page, link) for link in LINK.findall(line)]
        for code in CODE.findall(line):
            found += wrong_names(code, known)
        by_crate = line.startswith("|") and (by_crate or line.endswith("| crate |"))
        if by_crate and line.count("|") > 3:
            found += wrong_row(line, known)
        wrong += [f"{page.relative_to(TOP)}:{number}: {each}" for each in found if each]
    return wrong


def main() -> int:
    wrong, known = [], {}
    for page in [TOP / "README.md", *sorted((TOP / "docs").glob("**/*.md"))]:
        wrong += wrong_in(page, known)
    print("\n".join(wrong) or "each link and each name of a crate in the pages leads to something")
    return 1 if wrong else 0


if __name__ == "__main__":
    sys.exit(main())
