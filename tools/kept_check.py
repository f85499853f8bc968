#!/usr/bin/env python3
"""Checks one crate over the libraries that `rt ci` kept on this machine, or tries wrong bodies of it.

usage: tools/kept_check.py NAME [FLAG ..]          rattle check of the crate; FLAGs as of `rt check` (--only PATH, --start F, ..)
       tools/kept_check.py NAME --edits FILE ..    tries these edits on a copy of the crate: each must be refused

`rt check` proves what lies below a crate from its own out/. After `rt ci NAME` in any checkout of this machine the same
libraries are kept, by all that they were made of; this tool takes them where their sources are the same here, so that a
check of a crate in the middle of the house begins at once. It says which are not kept: `rt ci` those first. It proves
nothing for the gate.
"""

from __future__ import annotations

import importlib.machinery
import importlib.util
import os
import shutil
import subprocess
import sys
import tempfile
import types

TOP = os.path.dirname(os.path.dirname(os.path.abspath(__file__)))


def rt_module() -> types.ModuleType:
    """The toolchain's command `rt`, as a module."""
    found = subprocess.run(["sh", "-c", "readlink -f $(command -v rt)"], capture_output=True, text=True, check=True)
    loader = importlib.machinery.SourceFileLoader("rt_command", found.stdout.strip())
    module = importlib.util.module_from_spec(importlib.util.spec_from_loader("rt_command", loader))
    sys.modules["rt_command"] = module
    loader.exec_module(module)
    return module


def crates_of(rt: types.ModuleType) -> dict[str, object]:
    """The crates of this checkout, by name."""
    rt.Crate.allowed = rt.handles_of(TOP)
    rt.rtlib.Crate = rt.Crate
    return {crate.name: crate for crate in rt.rtlib.crates_below(TOP)}


def take_libraries(rt: types.ModuleType, crate: object) -> list[str]:
    """Puts the kept libraries below a crate in place, lowest first, and returns the names of those that are not kept."""
    below = sorted(crate.below(), key=lambda it: len(it.below()))
    kept, missing = rt.Kept([*below, crate]), []
    kept.drop = lambda path: None  # what is kept stays, whatever this tool makes of it
    for library in below:
        shutil.rmtree(f"{library.folder}/out/rlib", ignore_errors=True)
        os.makedirs(f"{library.folder}/out", exist_ok=True)
        if kept.give(library, False, kept.key(library)):
            kept.is_built(library)
        else:
            missing.append(library.name)
    return missing


def words_for(rt: types.ModuleType, crate: object, flags: list[str]) -> list[str]:
    """The words of a check of the crate over those libraries."""
    root = "src/main.rt" if crate.is_program else "src/lib.rt"
    below = crate.below()
    kit = sorted({"core", "std", *(name for it in [*below, crate] for name in it.of_kit)})
    words = ["--crate-name", crate.name, root, "-L", f"dependency={rt.KIT}/rlibs"]
    for name in kit:
        words += ["--extern", f"{name}={rt.KIT}/rlibs/{name}.rlib"]
    for it in below:
        rlib = f"{it.folder}/out/rlib"
        words += ["--extern", f"{it.name}={rlib}/{it.name}.rlib", "-L", f"dependency={rlib}"]
    project = f"{rt.KIT}/rattle/logic/antt-project.json"
    words += ["--antt-project", project, "--logic-built", f"{rt.KIT}/logic_built"]
    return words + ["--incremental", f"{crate.folder}/out/kept_check", *flags]


def try_edits(rt: types.ModuleType, crate: object, edits: list[str]) -> int:
    """Tries edits one after another; 1 where one is not refused."""
    failed = 0
    with tempfile.TemporaryDirectory() as room:
        for edit in edits:
            came_to, said = rt.must_fail(crate, edit, ["--jobs", "1"], room)
            failed += came_to not in (rt.REFUSED, rt.AT_LIMIT)
            print(said, flush=True)
    return 1 if failed else 0


def main(words: list[str]) -> int:
    if not words:
        print(__doc__, file=sys.stderr)
        return 2
    rt = rt_module()
    crate = crates_of(rt)[words[0]]
    missing = take_libraries(rt, crate)
    if missing:
        print(f"not kept: {' '.join(missing)}; prove them with: rt ci {missing[-1]}", file=sys.stderr)
        return 2
    if words[1:2] == ["--edits"]:
        return try_edits(rt, crate, words[2:])
    os.chdir(crate.folder)
    command = [*rt.rtlib.guarded(), rt.rtlib.RATTLE, "check", *words_for(rt, crate, words[1:])]
    return subprocess.run(command, check=False).returncode


if __name__ == "__main__":
    sys.exit(main(sys.argv[1:]))
