#!/usr/bin/env python3
"""What each crate costs to check: its lines by kind, and on request the processor time of its proof, tests and edits.

    crate_costs.py                    a table of lines for all crates
    crate_costs.py --measure NAME ..  also proves these crates and their tests from nothing and tries their edits
                                      (the crates below are built first, and are not counted)
    crate_costs.py --watch            beside a run of `rt ci`: the processor time of each crate that is proved from nothing,
                                      told once no prover has been seen for a minute
"""

import os
import re
import resource
import subprocess
import sys
import time

TOP = os.path.dirname(os.path.dirname(os.path.abspath(__file__)))
FUNCTION = re.compile(r"^\s*(?:pub(?:\([a-z]+\))? )?(?:const )?fn ", re.M)


def crates():
    with open(os.path.join(TOP, "crates.txt"), encoding="utf-8") as f:
        return [line.split(":")[0].split()[0] for line in f if line.split("#")[0].strip()]


def files(folder, ending):
    for at, _, names in os.walk(folder):
        for name in sorted(names):
            if name.endswith(ending):
                yield os.path.join(at, name)


def text_of(path):
    with open(path, encoding="utf-8") as f:
        return f.read()


def is_test(path):
    return "tests" in os.path.relpath(path, TOP)


def sizes(crate):
    """Lines of code, tests, specs and proofs, functions outside tests, and edits."""
    at = os.path.join(TOP, "crates", crate)
    code = tests = functions = 0
    for path in files(os.path.join(at, "src"), ".rt"):
        text = text_of(path)
        if is_test(path):
            tests += text.count("\n")
        else:
            code += text.count("\n")
            functions += len(FUNCTION.findall(text))
    lines = lambda part: sum(text_of(it).count("\n") for it in files(os.path.join(at, part), ".antt"))
    edits = len(list(files(os.path.join(at, "must-fail"), ".edit")))
    return code, tests, lines("specs"), lines("proofs"), functions, edits


def processor_seconds(words, folder):
    """The processor time of a command and all that it starts, and whether it ended well."""
    before = resource.getrusage(resource.RUSAGE_CHILDREN)
    status = subprocess.run(words, cwd=folder, stdout=subprocess.DEVNULL, stderr=subprocess.STDOUT).returncode
    after = resource.getrusage(resource.RUSAGE_CHILDREN)
    return round(after.ru_utime + after.ru_stime - before.ru_utime - before.ru_stime), status == 0


def measured(crate):
    folder = os.path.join(TOP, "crates", crate)
    subprocess.run(["rt", "check"], cwd=folder, stdout=subprocess.DEVNULL, stderr=subprocess.STDOUT)
    told = []
    for words, at in (["rt", "verdict"], folder), (["rt", "must-fail", crate], TOP):
        seconds, is_well = processor_seconds(words, at)
        told.append(f"{seconds}" if is_well else f"{seconds} (failed)")
    return told


def provers():
    """Each prover that runs: its process, its crate, what it proves, and its processor time in seconds."""
    for pid in filter(str.isdigit, os.listdir("/proc")):
        try:
            with open(f"/proc/{pid}/cmdline", encoding="utf-8") as f:
                words = f.read().split("\0")
            if not words[0].endswith("/rattle") or "--crate-name" not in words:
                continue
            with open(f"/proc/{pid}/stat", encoding="utf-8") as f:
                fields = f.read().rsplit(")", 1)[1].split()
            folder = os.readlink(f"/proc/{pid}/cwd")
        except OSError:
            continue
        kind = "tests" if "--test" in words else "edits" if "/rt-edit-" in folder else "proof"
        ticks = sum(map(int, fields[11:15]))
        yield (pid, fields[19]), words[words.index("--crate-name") + 1], kind, ticks / os.sysconf("SC_CLK_TCK")


def watch():
    """Sums up what provers took, of each crate by kind, and tells it. What is gone within three seconds is not seen."""
    taken, last = {}, time.time()
    while time.time() < last + 60:
        for process, crate, kind, seconds in provers():
            taken[process, crate, kind] = seconds
            last = time.time()
        time.sleep(3)
    print("| crate | proof, s | tests, s | edits, s |\n|---|---|---|---|")
    for crate in crates():
        sums = [sum(s for (_, c, k), s in taken.items() if (c, k) == (crate, kind)) for kind in ("proof", "tests", "edits")]
        if any(sums):
            print(f"| {crate} | " + " | ".join(f"{s:.0f}" if s else "" for s in sums) + " |")


def main(words):
    if words == ["--watch"]:
        watch()
        return
    named = words[1:] if words[:1] == ["--measure"] else []
    head = "| crate | code | tests | specs | proofs | functions | edits |"
    print(head + (" proof and tests, s | edits, s |" if named else ""))
    print("|---" * (head.count("|") - 1 + (2 if named else 0)) + "|")
    for crate in named or crates():
        row = [crate, *map(str, sizes(crate)), *(measured(crate) if named else [])]
        print("| " + " | ".join(row) + " |", flush=True)


if __name__ == "__main__":
    main(sys.argv[1:])
