#!/usr/bin/env python3
"""Lists the files of definitions in docs/DEFINITIONS.md, and prints the definitions themselves.

    definitions.py                     writes docs/DEFINITIONS.md: each file of crates/*/specs with what it is about
    definitions.py --check             whether that page is what would be written, and each definition has a comment;
                                       the gate runs this
    definitions.py --rows [CRATE ..]   prints a table of each public definition of these crates, or of all

A row has the definition's name with its type, its file, the section of a standard that its comment names, and the comment
directly above it; of the first definition of a file that is otherwise the file's. A section with which a comment begins
stands in its own column alone. What a file is about is the first sentence of the first comment in it.
"""

import os
import re
import sys
from collections.abc import Iterator

TOP = os.path.dirname(os.path.dirname(os.path.abspath(__file__)))
PAGE = os.path.join(TOP, "docs", "DEFINITIONS.md")
HEAD = re.compile(r"^(?:abbrev |unfoldable |lazy )*pub (?!use|mod)(?:(data|record) )?([^\s:({]+)(.*)$")
COMMENT = re.compile(r"^ *--(?! ----)")
SECTION = re.compile(r"\(((?:[^()]|\([^()]*\))*)\)")
STANDARD = re.compile(
    r"((?:ECMA-262|RFC \d+|DOM Level 2(?: \w+)?|HTML(?: living standard)?|JSON|Unicode)?,? ?(?:section )?"
    r"(?:annex )?[A-Z]?\.?\d+(?:\.\d+)+(?:\([a-z]\))?(?:(?:,| and| to) \d+(?:\.\d+)+)*|RFC \d+(?: section \d+)?)"
)
FIRST = re.compile(
    r"((?:(?:ECMA-262|RFC \d+|DOM Level 2(?: \w+)?|HTML) (?:section )?)?[A-Z]?\.?\d+(?:\.\d+)+"
    r"(?:(?:,| and| to) \d+(?:\.\d+)+)*)(?:[:,] (.*))?"
)
# sections alone; without a point only the chapters of ECMA-262 on the grammar, since a code of a unit may stand so too
NUMBERS = re.compile(r"(?:\d+(?:\.\d+)+|1[1-4])(?:(?: and|,| to) (?:\d+(?:\.\d+)+|1[1-4]))*")
LINE = 160

INTRODUCTION = """# Definitions

A contract cites definitions, and a reader has to believe those that public clauses cite. They stand in `specs/` of each
crate, each with a comment that says what it is and which section of a standard it states. This page lists the files.

Every definition with its type, its section and its comment is printed, of some crates or of all, by

```sh
python3 tools/definitions.py --rows rip_values rip_heap
```

A rule without a section is Ripley's own. A section without a standard is one of ECMA-262 5.1, and in `rip_dom` and
`rip_nodes` one of DOM Level 2 Core. What each crate is for stands in [CRATES.md](CRATES.md), which clause cites a definition in
[PROMISES.md](PROMISES.md), why something is defined as it is in [DECISIONS.md](DECISIONS.md).
`tools/definitions.py` writes this page, and the gate compares it."""


def crates() -> Iterator[str]:
    with open(os.path.join(TOP, "crates.txt"), encoding="utf-8") as f:
        for line in f:
            words = line.split("#")[0].split(":")[0].split()
            if words:
                yield words[0]


def spec_files(crate: str) -> list[str]:
    specs = os.path.join(TOP, "crates", crate, "specs")
    found = []
    for folder, _, names in os.walk(specs):
        for name in names:
            if name.endswith(".antt") and name != "Lib.antt":
                found.append(os.path.relpath(os.path.join(folder, name), specs))
    return sorted(found)


def lines_of(crate: str, file: str) -> list[str]:
    with open(os.path.join(TOP, "crates", crate, "specs", file), encoding="utf-8") as f:
        return f.read().split("\n")


def words_of(line: str) -> str:
    """The words of a line of a comment."""
    return line.strip().lstrip("-").strip()


def about(lines: list[str]) -> str:
    """The first sentence of the first comment; of a file that only names others, that it does."""
    if all(line.startswith("pub mod ") for line in lines if line):
        return "The files in the folder of its name"
    comment: list[str] = []
    for line in lines:
        if COMMENT.match(line):
            comment.append(words_of(line))
        elif comment:
            break
    text = " ".join(comment)
    found = re.match(r"(.*?[.:])(?: (?=[A-Z`])|$)", text)
    sentence = (found[1] if found else text).rstrip(".:")
    return sentence[:1].upper() + sentence[1:]


def type_of(kind: str | None, rest: str, following: list[str]) -> str:
    """The type of a definition in one line: what stands between its name and its end."""
    text = rest.strip()
    for line in following:
        if not line.startswith(" ") or kind:
            break
        text += " " + line.strip()
    if kind:
        text = text.split(" where")[0].rstrip(" {")
    text = text.lstrip(":").strip() if not kind else text.strip()
    text = re.sub(r"\s+", " ", text)
    if kind:
        text = (kind + " " + text).strip()
    return text if len(text) <= LINE else text[: LINE - 2].rstrip() + " .."


def comment_above(lines: list[str], at: int) -> str:
    """The comment directly above a line, in one line."""
    comment: list[str] = []
    above = at - 1
    while above >= 0 and re.match(r"^ *(?:infix|syntax|instance|mutual|abbrev mutual)", lines[above]):
        above -= 1
    while above >= 0 and COMMENT.match(lines[above]):
        comment.insert(0, words_of(lines[above]))
        above -= 1
    return " ".join(comment)


def rows(crate: str) -> Iterator[tuple[str, str, str, str, str]]:
    """Each public definition of a crate: name, type, file, sections, and what it says."""
    for file in spec_files(crate):
        lines = lines_of(crate, file)
        last, mutual = None, False
        for n, line in enumerate(lines):
            mutual = line in ("mutual", "abbrev mutual") or (mutual and (not line or line.startswith(" ")))
            head = HEAD.match(line[2:] if mutual and line.startswith("  ") else line)
            if not head:
                continue
            kind, name, rest = head.groups()
            says = comment_above(lines, n)
            if says or not last:
                says, last = says or about(lines), name
            else:
                says = f"a part of `{last}`"
            where, says = first_section(says)
            yield name, type_of(kind, rest, lines[n + 1 :]), file, where, says


def first_section(says: str) -> tuple[str, str]:
    """The sections of a comment, and the comment without the one that it begins with."""
    first = FIRST.fullmatch(says)
    if not first:
        return section(says), says
    where, rest = first.group(1), first.group(2) or "what the section says"
    return ", ".join(filter(None, (where, section(rest)))), rest


def section(says: str) -> str:
    found = []
    for inside in SECTION.findall(says):
        if NUMBERS.fullmatch(inside):
            found.append(inside)
            continue
        found += [m.group(0).strip(" ,") for m in STANDARD.finditer(inside)]
    return ", ".join(dict.fromkeys(found))


def cell(text: str) -> str:
    return text.replace("|", "\\|")


def page() -> str:
    """The page of files: a heading for each crate, and a row for each of its files."""
    out = [INTRODUCTION]
    for crate in crates():
        files = spec_files(crate)
        if files:
            out += ["", f"## {crate}", "", "| file | about |", "|---|---|"]
            out += [f"| `{file}` | {cell(about(lines_of(crate, file)))} |" for file in files]
    return "\n".join(out) + "\n"


def table(crate: str) -> str:
    """The definitions of a crate as a table."""
    out = [f"## {crate}", "", "| definition | file | standard | what it says |", "|---|---|---|---|"]
    for name, kind, file, where, says in rows(crate):
        shown = f"`{name}`" + (f" : `{kind}`" if kind else "")
        out.append(f"| {cell(shown)} | `{file}` | {cell(where)} | {cell(says)} |")
    return "\n".join(out) + "\n"


def check() -> int:
    """Says what is wrong with the page and with the comments; answers the status."""
    wrong = []
    with open(PAGE, encoding="utf-8") as f:
        if f.read() != page():
            wrong.append("docs/DEFINITIONS.md is not that of specs/: run tools/definitions.py")
    for crate in crates():
        silent = [file for file in spec_files(crate) if not about(lines_of(crate, file))]
        wrong += [f"crates/{crate}/specs/{file}: no comment says what it is about" for file in silent]
        wrong += [f"crates/{crate}/specs/{file}: {name} has no comment" for name, _, file, _, says in rows(crate) if not says]
    print("\n".join(wrong) or "docs/DEFINITIONS.md is that of specs/, and each definition has a comment")
    return 1 if wrong else 0


def main() -> int:
    words = sys.argv[1:]
    if words == ["--check"]:
        return check()
    if words[:1] == ["--rows"]:
        print("\n".join(table(crate) for crate in words[1:] or crates() if spec_files(crate)), end="")
        return 0
    if words:
        print(__doc__, file=sys.stderr)
        return 2
    with open(PAGE, "w", encoding="utf-8") as f:
        f.write(page())
    return 0


if __name__ == "__main__":
    sys.exit(main())
