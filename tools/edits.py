#!/usr/bin/env python3
"""Wrong bodies that the prover must refuse, beside those that the gate tries.

    edits.py --check     each edit of edits/NAME/ can be applied: every old text stands once in its file
    edits.py NAME ..     tries the edits of these crates, those of the gate and the others (the crates below are built first)

The gate tries one or two edits of some thirty crates (crates/NAME/must-fail/), since its time is bounded. The others are
of the same form and stand in edits/NAME/. Try a crate's when it, or a crate below it, has changed.
"""

import os
import shutil
import subprocess
import sys

TOP = os.path.dirname(os.path.dirname(os.path.abspath(__file__)))


def edits(crate):
    folder = os.path.join(TOP, "edits", crate)
    return [os.path.join(folder, name) for name in sorted(os.listdir(folder)) if name.endswith(".edit")]


def fault(crate, edit):
    """What keeps the edit from being applied, or none."""
    texts, path, old = {}, None, None
    with open(edit, encoding="utf-8") as f:
        lines = f.read().split("\n")
    for line in lines:
        if line.startswith("file: "):
            path = os.path.join(TOP, "crates", crate, line[len("file: "):].strip())
            if not os.path.isfile(path):
                return "there is no file " + path
        elif line.startswith("old: "):
            old = line[len("old: "):]
        elif line.startswith("new:"):
            if path not in texts:
                with open(path, encoding="utf-8") as f:
                    texts[path] = f.read()
            found = texts[path].count(old)
            if found != 1:
                return "an old text stands %d times in %s" % (found, os.path.relpath(path, TOP))
            texts[path] = texts[path].replace(old, line[len("new: "):])
    return None if texts else "it has no old and new text"


def check():
    failed = 0
    for crate in sorted(os.listdir(os.path.join(TOP, "edits"))):
        for edit in edits(crate):
            why = fault(crate, edit)
            if why:
                failed += 1
                print("%s: %s" % (os.path.relpath(edit, TOP), why))
    print("the edits can be applied" if not failed else "%d edits cannot be applied" % failed)
    return 1 if failed else 0


def attempt(crate):
    """Tries the edits of a crate, all in one run over one another's work."""
    added = []
    folder = os.path.join(TOP, "crates", crate, "must-fail")
    os.makedirs(folder, exist_ok=True)
    try:
        for edit in edits(crate):
            to = os.path.join(folder, os.path.basename(edit))
            if os.path.exists(to):
                sys.exit("%s stands in both places" % os.path.relpath(to, TOP))
            added.append(to)
            shutil.copyfile(edit, to)
        return subprocess.run(["rt", "must-fail", crate], cwd=TOP).returncode
    finally:
        for to in added:
            if os.path.exists(to):
                os.remove(to)
        if not os.listdir(folder):
            os.rmdir(folder)


def main(words):
    if words == ["--check"]:
        return check()
    if not words or words[0].startswith("-"):
        print(__doc__)
        return 2
    return max(attempt(crate) for crate in words)


if __name__ == "__main__":
    sys.exit(main(sys.argv[1:]))
