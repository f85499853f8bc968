#!/usr/bin/env python3
"""Runs tables of scripts with their results through the program `script`, and says which rows do not agree.

usage: library_rows.py TABLES PROGRAM

TABLES is a Markdown file. The tables under the headings that SECTIONS names are read, a row a script; others are passed
over. A heading may go on behind a colon. In a cell `\\n`, `\\r` and `\\uHHHH` stand for one unit of the text, `\\xHH`
for a byte, `\\\\` for a backslash, `\\|` for a bar, and `\\{N TEXT}` for the text N times, in which `\\#` is the number of
each, from 0; a text stands between backticks. PROGRAM is the program `script`; two rows run at a time. Prints a line for
each row that does not agree, with what is wanted and what came, and last how many rows agree; the status is 0 where all
do.

| heading | columns |
|---|---|
| Operators, Built-ins | an expression; its value, `fault NAME`, or `throws a CLASS` |
| Numbers of texts | a text between quotes; its number, or `fault NAME` |
| Evaluation, Objects and members | a script; what `r` holds at the end, `fault NAME`, `throws VALUE`, or `ends` |
| Early errors, Directive | a script, in the second with its directive; `accepted`, or a kind of refusal and its place |
| Charges | a script; fuel, cells, units |
| Limits | a script; the limits that are not the usual ones; the outcome; fuel, cells, units |
"""
import concurrent.futures
import os
import re
import subprocess
import sys
import tempfile

DIRECTIVE = '"use strict";'
SECONDS = 60

# The usual limits, in the order of the program's words.
USUAL = {"fuel": 100000, "cells": 20000, "units": 100000, "depth": 500}


def cells_of(line):
    """The cells of a line of a table. A bar behind a backslash is part of its cell."""
    return [cell.strip() for cell in re.split(r"(?<!\\)\|", line.strip())[1:-1]]


def text_of(cell):
    """The text that a cell stands for."""
    if cell == "(empty)":
        return ""
    cell = cell.replace("\\|", "|")
    quoted = re.fullmatch(r"(`+) ?(.*?) ?\1", cell, re.S)
    text = quoted.group(2) if quoted else cell
    return unescaped(text)


def unescaped(text):
    """A text with what its escapes stand for. Two that are a pair of surrogates stand for one character."""
    decoded_all = re.sub(r"\\(u[0-9a-f]{4}|x[0-9a-f]{2}|\{\d+ [^}]*\}|.)", decoded, text)
    return re.sub("[\ud800-\udbff][\udc00-\udfff]", joined, decoded_all)


def joined(pair):
    """The character that a pair of surrogates stands for."""
    return pair.group().encode("utf-16", "surrogatepass").decode("utf-16")


def decoded(escape):
    """What an escape in a cell stands for: a byte past ASCII is a surrogate, as in the file names of Python."""
    name = escape.group(1)
    if name[0] == "u" and len(name) == 5:
        return chr(int(name[1:], 16))
    if name[0] == "x" and len(name) == 3:
        return bytes.fromhex(name[1:]).decode("utf-8", "surrogateescape")
    if name[0] == "{" and name[-1] == "}":
        times, _, repeated = name[1:-1].partition(" ")
        if "\\#" not in repeated:
            return int(times) * unescaped(repeated)
        return "".join(unescaped(repeated.replace("\\#", str(number))) for number in range(int(times)))
    return {"n": "\n", "r": "\r"}.get(name, name)


class Row:
    """A row of a table: the script, the words for its limits, and what is wanted of the answer, by the answer's keys."""

    def __init__(self, heading, cells, script, wanted, limits=()):
        self.heading = heading
        self.cells = cells
        self.script = script
        self.wanted = wanted
        self.limits = list(limits)


def ending(cell):
    """What is wanted of a run that a cell tells: of its outcome, or of what `r` holds."""
    text = text_of(cell)
    if cell.startswith("fault ") or cell.startswith("limit "):
        return {"outcome": text}
    if cell == "ends":
        return {"outcome": "value undefined"}
    if cell.startswith("throws a "):
        return {"thrown": cell.split()[-1]}
    if cell.startswith("throws "):
        return {"outcome": "thrown " + text[len("throws "):]}
    # The prototype of an object, which may stand behind it, is not shown.
    return {"outcome": "value undefined", "r": text.split("^")[0]}


def expression_row(heading, cells):
    return Row(heading, cells, DIRECTIVE + "var r=(" + text_of(cells[0]) + ");", ending(cells[1]))


def number_row(heading, cells):
    # Between its quotes stands a text itself, in which a literal writes some units by escapes.
    literal = re.sub(r"[^ -~]", lambda unit: f"\\u{ord(unit.group()):04x}", text_of(cells[0]))
    return Row(heading, cells, DIRECTIVE + "var r=" + literal + "-0;", ending(cells[1]))


def script_row(heading, cells):
    return Row(heading, cells, DIRECTIVE + text_of(cells[0]), ending(cells[1]))


def judged(cell):
    return {"refused": None if cell == "accepted" else cell}


def early_row(heading, cells):
    return Row(heading, cells, DIRECTIVE + text_of(cells[0]), judged(cells[1]))


def directive_row(heading, cells):
    return Row(heading, cells, text_of(cells[0]), judged(cells[1]))


def counts(cells):
    return {name: cell for name, cell in zip(("fuel", "cells", "units"), cells) if cell}


def charge_row(heading, cells):
    return Row(heading, cells, DIRECTIVE + text_of(cells[0]), {"outcome": "value undefined", **counts(cells[1:])})


def limit_row(heading, cells):
    """A row with limits; none where a limit is named that the program does not take."""
    limits = dict(USUAL)
    if cells[1] != "defaults":
        for part in cells[1].split(", "):
            name, number = part.split()
            if name not in limits:
                return None
            limits[name] = int(number)
    words = [str(number) for number in limits.values()]
    return Row(heading, cells, DIRECTIVE + text_of(cells[0]), {**ending(cells[2]), **counts(cells[3:])}, words)


SECTIONS = {
    "Operators": expression_row,
    "Built-ins": expression_row,
    "Numbers of texts": number_row,
    "Evaluation": script_row,
    "Objects and members": script_row,
    "Early errors": early_row,
    "Directive": directive_row,
    "Charges": charge_row,
    "Limits": limit_row,
}


def rows_of(tables):
    """The rows of the tables that are read, and how many were passed over for a limit that can't be set."""
    rows, passed, heading, before = [], 0, None, None
    for line in tables.splitlines():
        if line.startswith("#"):
            heading = line.lstrip("#").strip()
        make = SECTIONS.get(heading.partition(":")[0]) if heading else None
        is_row = line.startswith("|") and make is not None
        # The first line of a table names its columns, and the second is a rule.
        if is_row and before is not None and not re.fullmatch(r"[|\-: ]+", line):
            row = make(heading, cells_of(line))
            rows += [row] if row else []
            passed += 0 if row else 1
        before = line if is_row else None
    return rows, passed


def answer_of(printed):
    """What the program printed, by its keys: a refusal; or the outcome, the counts, and the bindings by their names."""
    answer = {"refused": None}
    for line in printed.splitlines():
        first, _, rest = line.partition(" ")
        if " = " in line and "outcome" in answer:
            name, _, value = line.partition(" = ")
            answer.setdefault(name, value)
        else:
            answer[first] = rest
    thrown = re.match(r"thrown (?:Thrown)?(\w+)\{", answer.get("outcome", ""))
    answer["thrown"] = thrown.group(1) if thrown else None
    return answer


def differences(row, printed):
    """What is wanted of a row's answer and did not come: of each key what is wanted and what came."""
    answer = answer_of(printed)
    return [(key, want, answer.get(key)) for key, want in row.wanted.items() if answer.get(key) != want]


def run(program, folder, row):
    """What the program prints for a row's script."""
    with tempfile.NamedTemporaryFile("w", dir=folder, encoding="utf-8", errors="surrogateescape", newline="") as file:
        file.write(row.script)
        file.flush()
        ran = subprocess.run([program, "run", file.name, *row.limits], capture_output=True, timeout=SECONDS)
    return ran.stdout.decode("utf-8", "replace") or f"status {ran.returncode}\n"


def report(rows, passed, print_of):
    """Prints the rows that do not agree, and how many do; tells whether all do."""
    wrong = 0
    with concurrent.futures.ThreadPoolExecutor(2) as pool:
        all_printed = list(pool.map(print_of, rows))
    for row, printed in zip(rows, all_printed):
        found = differences(row, printed)
        if found:
            wrong += 1
            print(f"{row.heading}: {' | '.join(row.cells)}")
            for key, want, came in found:
                print(f"    {key}: {want!r} is wanted, and {came!r} came")
            print(f"    all that came: {printed!r}")
    print(f"{len(rows) - wrong} of {len(rows)} rows agree; {passed} passed over")
    return wrong == 0


def main(words):
    if len(words) != 2:
        print("usage: library_rows.py TABLES PROGRAM", file=sys.stderr)
        return 2
    with open(words[0], encoding="utf-8") as file:
        rows, passed = rows_of(file.read())
    with tempfile.TemporaryDirectory() as folder:
        program = os.path.abspath(words[1])
        return 0 if report(rows, passed, lambda row: run(program, folder, row)) else 1


if __name__ == "__main__":
    sys.exit(main(sys.argv[1:]))
