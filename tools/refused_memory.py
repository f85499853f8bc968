#!/usr/bin/env python3
"""Replays the examples where memory is refused, one call for it after the other, and looks that `ripley` bears it as promised.

    tools/refused_memory.py PROGRAM [--most=N] [--step=N] [--seconds=10] [EXAMPLE/TRACE ..]

A small library that stands before the program's malloc, calloc, realloc, aligned_alloc, posix_memalign and mmap refuses their
N-th call, and in a second round all from the N-th on. N is 1, 2 and so on (or goes in steps), until a run makes fewer calls
than N, or up to the most. It is made by `cc`, `gcc` or `clang`, whichever there is (`apt-get install gcc` on Debian), and works
where the program is linked with the C library at its start, as `rt` makes it. The traces are first/true and shop/true.

Of each run is looked, by what docs/PROMISES.md says of want of memory:
- it ends by itself, with status 0 or 5, by no signal and within the seconds;
- what was put is a front of the log of the run that is refused nothing. With status 0 this is so of the entries, behind which
  the line of the end stands; where some are left out, since a request was refused, the last tells that a batch is done;
- or a session ended with `memory`: then so it is of what stands before that entry, the item that it names is one of its batch
  and reports a call, and no entry comes behind it. So no opening, event or reply ends so.

One line is printed for each run, then what each round came to. The status is 0 only where all of it held.
"""
import collections
import json
import os
import pathlib
import re
import shutil
import struct
import subprocess
import sys
import tempfile

EXAMPLES = pathlib.Path(__file__).resolve().parent.parent / "examples"
TRACES = ["first/true", "shop/true"]
ROUNDS = ["one", "all"]
DONE = re.compile(rb"^(done|close) .*\n\Z", re.M)
LACK = re.compile(rb"done (\d+) (\d+) (\d+) memory (\d+)\n")

LIBRARY = r"""
#define _GNU_SOURCE
#include <dlfcn.h>
#include <errno.h>
#include <fcntl.h>
#include <stdint.h>
#include <stdlib.h>
#include <sys/mman.h>
#include <unistd.h>

// What the file tells: the calls, those that were refused, and the bytes that the first of these asked for.
static struct told { uint64_t calls, refused, bytes; } *told;
static uint64_t from;
static int all;

static void *real(const char *name) { return dlsym(RTLD_NEXT, name); }

// Counting begins when all libraries are in their places, before the program's first call.
__attribute__((constructor)) static void begin(void) {
    const char *file = getenv("REFUSED_FILE");
    int f = file ? open(file, O_RDWR) : -1;
    if (f < 0) _exit(99);
    void *room = mmap(0, sizeof *told, PROT_READ | PROT_WRITE, MAP_SHARED, f, 0);
    if (room == MAP_FAILED) _exit(99);
    close(f);
    from = strtoull(getenv("REFUSED_FROM"), 0, 10);
    all = *getenv("REFUSED_ROUND") == 'a';
    told = room;
}

static int refuses(uint64_t bytes) {
    if (!told) return 0;
    uint64_t n = ++told->calls;
    if (n < from || (n > from && !all)) return 0;
    if (!told->refused++) told->bytes = bytes;
    errno = ENOMEM;
    return 1;
}

#define REAL(answer, name, ...) static answer (*call)(__VA_ARGS__); if (!call) call = real(name)

void *malloc(size_t n) {
    REAL(void *, "malloc", size_t);
    return refuses(n) ? 0 : call(n);
}

void *calloc(size_t m, size_t n) {
    REAL(void *, "calloc", size_t, size_t);
    return refuses(m * n) ? 0 : call(m, n);
}

void *realloc(void *p, size_t n) {
    REAL(void *, "realloc", void *, size_t);
    return refuses(n) ? 0 : call(p, n);
}

void *aligned_alloc(size_t a, size_t n) {
    REAL(void *, "aligned_alloc", size_t, size_t);
    return refuses(n) ? 0 : call(a, n);
}

int posix_memalign(void **p, size_t a, size_t n) {
    REAL(int, "posix_memalign", void **, size_t, size_t);
    return refuses(n) ? ENOMEM : call(p, a, n);
}

void *mmap(void *p, size_t n, int access, int kind, int f, off_t at) {
    REAL(void *, "mmap", void *, size_t, int, int, int, off_t);
    return refuses(n) ? MAP_FAILED : call(p, n, access, kind, f, at);
}
"""

Run = collections.namedtuple("Run", "status log calls refused bytes")


def library(room):
    """Makes the library that refuses, in this folder; answers its file."""
    compiler = next(filter(None, map(shutil.which, ("cc", "gcc", "clang"))), None)
    if compiler is None:
        sys.exit("no C compiler is here: `apt-get install gcc` on Debian, or any that answers to cc, gcc or clang")
    source, made = room / "refused.c", room / "refused.so"
    source.write_text(LIBRARY)
    subprocess.run([compiler, "-O2", "-shared", "-fPIC", "-o", made, source, "-ldl"], check=True)
    return made


def replayed(program, made, trace, kind, n, seconds):
    """A replay in which the n-th call for memory is refused, in the round `all` with those behind it; with 0 and `one` none."""
    told = made.with_suffix(".told")
    told.write_bytes(bytes(24))
    folder = EXAMPLES / trace.split("/")[0]
    words = [program, "replay", folder / "page.html", folder / "app.json", EXAMPLES / f"{trace}.txt"]
    named = {"LD_PRELOAD": str(made), "REFUSED_FILE": str(told), "REFUSED_FROM": str(n), "REFUSED_ROUND": kind}
    try:
        done = subprocess.run(words, capture_output=True, timeout=seconds, env={**os.environ, **named})
        status, log = done.returncode, done.stdout
    except subprocess.TimeoutExpired as late:
        status, log = None, late.stdout or b""
    return Run(status, log, *struct.unpack("QQQ", told.read_bytes()))


def names_a_call(entries, lack):
    """Whether an entry that ends a session with `memory` names an item that reports a call, of the batch that was told last."""
    _, session, batch, item = (int(number) for number in lack.groups())
    told = re.findall(rb"^batch \d+ %d (\d+) (.*)$" % session, entries, re.M)
    if batch == 0 or not told or int(told[-1][0]) != batch:
        return False
    items = json.loads(told[-1][1])
    return 1 <= item <= len(items) and items[item - 1][0] == "call"


def judged(run, whole):
    """What a run came to beside the log of the one that was refused nothing, and whether that may be."""
    if run.status is None:
        return "does not end", False
    if run.status not in (0, 5):
        return "signal %d" % -run.status if run.status < 0 else "another status", False
    if run.refused == 0:
        return "nothing was refused", (run.status, run.log) == (0, whole)
    entries, end = run.log, re.search(rb"^end \d+ 0\n\Z", run.log, re.M)
    if end:
        entries = run.log[:end.start()]
    if run.status == 0 and not end:
        return "a log without its end", False
    lack = LACK.search(entries)
    before = entries[:lack.start()] if lack else entries
    if not whole.startswith(before) or lack and lack.end() != len(entries):
        return "another log", False
    if lack:
        return "a session ended with memory", names_a_call(before, lack)
    if run.status == 5:
        return "the run ended", True
    if run.log == whole:
        return "all was done", True
    return "a request left no entry", before == b"" or DONE.search(before) is not None


def tried(program, made, trace, kind, most, step, seconds):
    """All runs of a round, of which each is printed; answers what they came to, and how many did not hold."""
    whole = replayed(program, made, trace, "one", 0, seconds)
    if whole.status != 0 or whole.log != (EXAMPLES / f"{trace}.log").read_bytes():
        sys.exit(f"{trace}: its log is not put where nothing is refused (status {whole.status})")
    came, wrong, n = collections.Counter(), 0, 1
    if whole.calls == 0:
        sys.exit(f"{trace}: no call for memory came by the library: is the program linked with the C library at its start?")
    while n <= most:
        run = replayed(program, made, trace, kind, n, seconds)
        what, holds = judged(run, whole.log)
        wrong += not holds
        lines = run.log.count(b"\n")
        print(f"{trace} {kind} {n}: {run.refused} of {run.calls} calls refused, the first of {run.bytes} bytes; "
              f"status {run.status}, {lines} lines: {what}{'' if holds else ', WRONG'}")
        if not holds and run.log:
            print(run.log.decode(errors="replace").rstrip("\n"))
        if run.calls < n:
            break
        came[what] += 1
        n += step
    told = "; ".join(f"{what}: {count}" for what, count in sorted(came.items()))
    runs = f"{sum(came.values())} runs, of {whole.calls} calls where nothing is refused"
    return f"{trace} {kind}: {runs}. {told}. Wrong: {wrong}", wrong


def main():
    words = [word for word in sys.argv[1:] if not word.startswith("--")]
    given = dict(word[2:].split("=", 1) for word in sys.argv[1:] if word.startswith("--"))
    if not words or not set(given) <= {"most", "step", "seconds"}:
        sys.exit(__doc__)
    program = pathlib.Path(words[0]).resolve()
    most, step, seconds = (int(given.get(name, other)) for name, other in (("most", 10**9), ("step", 1), ("seconds", 10)))
    sums = []
    with tempfile.TemporaryDirectory() as room:
        made = library(pathlib.Path(room))
        for trace in words[1:] or TRACES:
            sums += [tried(program, made, trace, kind, most, step, seconds) for kind in ROUNDS]
    print("\n".join(line for line, _ in sums))
    return 1 if any(wrong for _, wrong in sums) else 0


if __name__ == "__main__":
    sys.exit(main())
