#!/usr/bin/env python3
"""Gives the orders of a shop's log as a table of comma-separated values (RFC 4180), a line each, in the order of serving.

usage: orders.py LOG.. [--call=NAME] > ORDERS.csv

An order is a call of the name `order`, or of the one that is named, with a key and an object, whose reply is `true`, as in
examples/shop: it was served, so the page's own script has made it. The columns are the key, the moment of serving in UTC,
the session and, in the order in which they first occur, the fields of the orders. Logs that were rotated are named one
after the other, the oldest first; each run of a server counts keys and sessions from 1.

The log may be that of a server that is running, or have a line that a crash cut: that line is left out. What was left out
is told on standard error: cut lines, lines that are none of a log, and how many orders the store did not take.

A text that a spreadsheet would take for a formula has a ' before it.
"""
import argparse
import csv
import datetime
import json
import sys

from log_lines import served, tell, whole_lines

# What a spreadsheet begins to compute at.
FORMULAS = ("=", "+", "-", "@", "\t", "\r")


def cell(value: object) -> str:
    """A value as a table has it: a text as it stands, all else as JSON."""
    if not isinstance(value, str):
        return json.dumps(value, ensure_ascii=False)
    return f"'{value}" if value.startswith(FORMULAS) else value


def row(session: int, key: object, order: dict, moment: int) -> dict[tuple[str, str], str]:
    """An order by columns: those of the serving, and those of its fields."""
    time = datetime.datetime.fromtimestamp(moment / 1000, datetime.timezone.utc).isoformat(timespec="seconds")
    of_serving = {("serving", "key"): cell(key), ("serving", "served"): time, ("serving", "session"): str(session)}
    return of_serving | {("order", field): cell(value) for field, value in order.items()}


def orders(path: str, call: str) -> tuple[list[dict[tuple[str, str], str]], int]:
    """The orders that were kept, each as a row, and how many were not kept."""
    rows, refused = [], 0
    for line in whole_lines(path):
        if not line.startswith("serve "):
            continue
        try:
            session, name, arguments, moment, reply = served(line)
        except ValueError:
            tell(f"{path}: a line is none of a log, and left out: {line[:60]}")
            continue
        if name == call and len(arguments) == 2 and isinstance(arguments[1], dict):
            if reply is True:
                rows.append(row(session, arguments[0], arguments[1], moment))
            else:
                refused += 1
    return rows, refused


def main() -> int:
    words = argparse.ArgumentParser(description=__doc__, formatter_class=argparse.RawDescriptionHelpFormatter)
    words.add_argument("logs", metavar="LOG", nargs="+")
    words.add_argument("--call", default="order")
    given = words.parse_args()
    rows, refused = [], 0
    for path in given.logs:
        of_log, refused_here = orders(path, given.call)
        rows += of_log
        refused += refused_here
    columns = dict.fromkeys([("serving", "key"), ("serving", "served"), ("serving", "session")])
    for each in rows:
        columns |= dict.fromkeys(each)
    table = csv.writer(sys.stdout)
    table.writerow(name for _, name in columns)
    table.writerows([each.get(column, "") for column in columns] for each in rows)
    if refused:
        tell(f"orders that the store did not take, and that are left out: {refused}")
    return 0


if __name__ == "__main__":
    try:
        sys.exit(main())
    except OSError as error:
        sys.exit(f"orders: {error}")
