#!/usr/bin/env python3
"""Judges the texts of data in src/tests.rt by another reader of JSON, the module `json` of Python.

    python3 vectors/rows.py      compares each row of the tables with what the rules give

The rules, on bytes: no UTF-8, or no JSON (RFC 8259), or a lone surrogate escape, or more than 127 levels, or a
number past the range of a float: Syntax. Then, of repeated members keeping the last: a number that is not spelled
as a whole number of absolute value at most 2^53 - 1: NotWhole; more than 8 levels: TooDeep; a canonical text of
more than 16,384 bytes: DataTooLong. Else the canonical text: no space, members by the bytes of their names.
"""
import json
import math
import re
import sys
from pathlib import Path

TESTS = Path(__file__).resolve().parent.parent / "src" / "tests.rt"


class NotWhole:
    pass


class Syntax(Exception):
    pass


def whole(spelled):
    if spelled == "-0":
        return NotWhole()
    number = int(spelled)
    if abs(number) > 2**53 - 1:
        if len(spelled) > 308 and math.isinf(float(spelled)):
            raise Syntax
        return NotWhole()
    return number


def fraction(spelled):
    if math.isinf(float(spelled)):
        raise Syntax
    return NotWhole()


def constant(_):
    raise Syntax


def levels(text):
    most = level = 0
    for piece in re.findall(r'"(?:[^"\\]|\\.)*"|[\[{\]}]', text, re.S):
        level += {"[": 1, "{": 1, "]": -1, "}": -1}.get(piece, 0)
        most = max(most, level)
    return most


def is_whole(value):
    if isinstance(value, NotWhole):
        return False
    if isinstance(value, list):
        return all(map(is_whole, value))
    if isinstance(value, dict):
        return all(map(is_whole, value.values()))
    return True


def depth(value):
    if isinstance(value, list):
        return 1 + max(map(depth, value), default=0)
    if isinstance(value, dict):
        return 1 + max(map(depth, value.values()), default=0)
    return 0


def ordered(value):
    if isinstance(value, list):
        return [ordered(part) for part in value]
    if isinstance(value, dict):
        return {name: ordered(value[name]) for name in sorted(value, key=lambda name: name.encode())}
    return value


def paired(value):
    if isinstance(value, str):
        value.encode()
    elif isinstance(value, list):
        for part in value:
            paired(part)
    elif isinstance(value, dict):
        for name, part in value.items():
            name.encode()
            paired(part)


def all_members(pairs):
    """Every member is read, the replaced ones too; the last of a name is kept."""
    for pair in pairs:
        paired(pair[0])
        paired(pair[1])
    return dict(pairs)


def answer(data):
    try:
        text = data.decode("utf-8")
        if text.startswith("\ufeff"):
            raise Syntax
        value = json.loads(text, parse_int=whole, parse_float=fraction, parse_constant=constant,
                           object_pairs_hook=all_members)
        paired(value)
    except (Syntax, ValueError, RecursionError):
        return "Syntax"
    if levels(text) > 127:
        return "Syntax"
    if not is_whole(value):
        return "NotWhole"
    if depth(value) > 8:
        return "TooDeep"
    written = json.dumps(ordered(value), separators=(",", ":"), ensure_ascii=False).encode("utf-8")
    return "DataTooLong" if len(written) > 16384 else written


def unspelled(literal):
    """The bytes of a literal of Rust, a text or a byte string."""
    short = {"n": "\n", "r": "\r", "t": "\t", '"': '"', "\\": "\\"}

    def one(match):
        code = match.group(1)
        if code[0] == "u":
            return chr(int(code[2:-1], 16))
        return chr(int(code[1:], 16)) if code[0] == "x" else short[code]

    is_bytes = literal.startswith("b")
    text = re.sub(r'\\(x[0-9a-f]{2}|u\{[0-9a-f]+\}|[nrt"\\])', one, literal[2 if is_bytes else 1:-1])
    return text.encode("latin-1" if is_bytes else "utf-8")


LITERAL = r'b?"(?:[^"\\]|\\.)*"'
ROW = re.compile(rf"\(\s*({LITERAL}),\s*(?:Want::Text\(\s*({LITERAL}),?\s*\)|Want::(\w+)),?\s*\)")


def main():
    wrong = count = 0
    for text, written, refused in ROW.findall(TESTS.read_text()):
        data = unspelled(text)
        want = refused if refused else unspelled(written)
        count += 1
        if answer(data) != want:
            wrong += 1
            print(f"{text}: {answer(data)} and not {want}")
    print(f"{count} rows, {wrong} wrong")
    return 1 if wrong or count == 0 else 0


if __name__ == "__main__":
    sys.exit(main())
