#!/usr/bin/env python3
"""Runs the programs where they end with each status, and compares status, standard output and standard error to the letter.

    tools/standard_error.py crates/ripley/out/ripley crates/script/out/script [--sessions]

With --sessions it opens 1,000,000 sessions too, which takes minutes to half an hour. The status is 0 only where all was as it is to be.
"""

import argparse
import contextlib
import ctypes
import os
import re
import resource
import shutil
import socket
import struct
import subprocess
import sys
import tempfile

FIRST = os.path.join(os.path.dirname(os.path.abspath(__file__)), "..", "examples", "first")
LONGEST = 16_777_216
APP = '{"version":1,"functions":{},"limits":{}}'
FILES = {
    "crossed.html": "<html><head></head><body><b><i></b></i></body></html>",
    "eval.html": '<html><head></head><body><script>"use strict";eval=1;</script></body></html>',
    "version.json": APP.replace("1", "2", 1),
    "bad.txt": "open 0\nwave\n",
    "gestures.txt": "click 99\n",
    "eval.js": '"use strict";eval=1;\n',
    "good.js": '"use strict";\n',
}
FORMS = "check PAGE APP | replay PAGE APP TRACE [--turns=N] | serve PAGE APP ADDRESS [--turns=N] | drive PAGE APP GESTURES | generate N"
SCRIPT_FORMS = "tokens FILE | tree FILE | run FILE [FUEL [CELLS [UNITS [DEPTH]]]]"
TURNS = "ripley: the turns are spent, and not all is done: give more by --turns=N\n"
MEMORY = "ripley: out of memory: give it more, or lower the limits of the manifest\n"
LEFT = [
    "100000 of the 1000000 sessions of this run are left: start the program anew before they are spent\n",
    "10000 of the 1000000 sessions of this run are left: start the program anew before they are spent\n",
    "all 1000000 sessions of this run are opened: start the program anew to open more\n",
]

# The words of a run, its status, its standard output, its standard error without the name of the program.
RUNS = [
    ("", 1, "usage: ripley check|replay|serve|drive|generate\n", f"no such arguments; they are {FORMS}"),
    ("generate 07", 1, "usage: ripley check|replay|serve|drive|generate\n", f"no such arguments; they are {FORMS}"),
    ("check page.html app.json", 0, "ok nodes 6 scripts 1\n", None),
    ("check none.html app.json", 4, "", "none.html: No such file or directory"),
    ("check page.html none.json", 4, "", "none.json: No such file or directory"),
    ("check folder app.json", 4, "", "folder: Is a directory"),
    ("check page.html/x app.json", 4, "", "page.html/x: Not a directory"),
    ("replay page.html app.json none.txt", 4, "", "none.txt: No such file or directory"),
    ("drive page.html app.json none.txt", 4, "", "none.txt: No such file or directory"),
    ("serve none.html app.json 127.0.0.1:0", 4, "", "none.html: No such file or directory"),
    ("replay page.html app.json true.txt --turns=1", 3, "end 1 3\n", "the turns are spent, and not all is done: give more by --turns=N"),
    ("serve page.html app.json 127.0.0.1:99999", 4, "", "127.0.0.1:99999: invalid port value"),
    ("serve page.html app.json 127.0.0.1", 4, "", "127.0.0.1: invalid socket address"),
    ("serve page.html app.json 203.0.113.1:0", 4, "", "203.0.113.1:0: Cannot assign requested address"),
]
SCRIPT_RUNS = [
    ("", 1, f"usage: script {SCRIPT_FORMS.replace(' | ', ' | script ')}\n", f"no such arguments; they are {SCRIPT_FORMS} | nodes PAGE"),
    ("tokens none.js", 4, "", "none.js: No such file or directory"),
    ("tree folder", 4, "", "folder: Is a directory"),
    ("run good.js 1000 4000000000", 5, "", "out of memory: give it more, or lower the limits of the run"),
]


class Programs:
    """The programs, and the folder of the files that they read. `wrong` counts what was not as it is to be."""

    def __init__(self, ripley: str, script: str, folder: str):
        self.ripley, self.script, self.folder = os.path.abspath(ripley), os.path.abspath(script), folder
        self.wrong = 0

    def compare(self, name: str, got: object, wanted: object) -> None:
        if got != wanted:
            self.wrong += 1
            print(f"{name}\n  got    {got!r}\n  wanted {wanted!r}")

    def run(self, program: str, words: str, **how) -> subprocess.CompletedProcess:
        pipes = {"stdout": subprocess.PIPE, "stderr": subprocess.PIPE}
        return subprocess.run([program, *words.split()], cwd=self.folder, timeout=60, text=True, **{**pipes, **how})

    def listen(self, words: str, **how) -> subprocess.Popen:
        pipes = {"stdout": subprocess.PIPE, "stderr": subprocess.PIPE}
        return subprocess.Popen([self.ripley, *words.split()], cwd=self.folder, text=True, **{**pipes, **how})


def make_files(folder: str) -> None:
    for name in ("page.html", "app.json", "true.txt"):
        shutil.copy(os.path.join(FIRST, name), folder)
    for name, text in FILES.items():
        with open(os.path.join(folder, name), "w", encoding="utf-8") as file:
            file.write(text)
    with open(os.path.join(folder, "bytes.js"), "wb") as file:
        file.write(b"\xff")
    with open(os.path.join(folder, "long.html"), "wb") as file:
        file.truncate(LONGEST + 1)
    os.mkdir(os.path.join(folder, "folder"))


def words_and_files(programs: Programs) -> None:
    """Each row of the tables, and once more where standard error takes nothing: status and output are the same."""
    for program, rows in ((programs.ripley, RUNS), (programs.script, SCRIPT_RUNS)):
        name = os.path.basename(program).split(".")[0]
        for words, status, output, said in rows:
            wanted = (status, output, "" if said is None else f"{name}: {said}\n")
            ran = programs.run(program, words)
            programs.compare(f"{name} {words}", (ran.returncode, ran.stdout, ran.stderr), wanted)
            with open("/dev/full", "w") as full:
                mute = programs.run(program, words, stderr=full)
            programs.compare(f"{name} {words} 2>/dev/full", (mute.returncode, mute.stdout), wanted[:2])


def outputs(programs: Programs) -> None:
    """Standard output on a full disk, behind a pipe that nobody reads, and closed."""
    words = "replay page.html app.json true.txt"
    with open("/dev/full", "w") as full:
        ran = programs.run(programs.ripley, words, stdout=full)
    programs.compare("a full disk", (ran.returncode, ran.stderr), (4, "ripley: standard output: No space left on device\n"))
    reading, writing = os.pipe()
    os.close(reading)
    ran = programs.run(programs.ripley, words, stdout=writing)
    os.close(writing)
    programs.compare("a closed pipe", (ran.returncode, ran.stderr), (4, "ripley: standard output: Broken pipe\n"))
    with open(os.devnull) as unwritable:
        ran = programs.run(programs.ripley, words, stdout=unwritable)
    programs.compare("an output that is only read", (ran.returncode, ran.stderr), (4, "ripley: standard output: Bad file descriptor\n"))


def addresses(programs: Programs) -> None:
    """Where it listens, and an address that is taken."""
    for host, family in (("127.0.0.1", socket.AF_INET), ("[::1]", socket.AF_INET6), ("localhost", None)):
        if family == socket.AF_INET6 and not has_address("::1", family):
            continue
        server = programs.listen(f"serve page.html app.json {host}:0 --turns=1")
        line = server.stderr.readline()
        shown = re.escape(host) if family else r"(127\.0\.0\.1|\[::1\])"
        found = re.fullmatch(rf"listening on http://({shown}):(\d+)\n", line)
        programs.compare(f"{host}:0 listens", bool(found) or line, True)
        if found:
            with contextlib.closing(socket.create_connection((found[1].strip("[]"), int(found[found.lastindex])))):
                output, said = server.communicate(timeout=60)
            programs.compare(f"{host}:0 ends", (server.returncode, output, said), (3, "end 1 3\n", TURNS))
        else:
            server.kill()
            server.communicate()
    with contextlib.closing(socket.create_server(("127.0.0.1", 0))) as other:
        where = f"127.0.0.1:{other.getsockname()[1]}"
        ran = programs.run(programs.ripley, f"serve page.html app.json {where}")
    programs.compare("a taken port", (ran.returncode, ran.stdout, ran.stderr), (4, "", f"ripley: {where}: Address already in use\n"))


def has_address(host: str, family: int) -> bool:
    try:
        with contextlib.closing(socket.create_server((host, 0), family=family)):
            return True
    except OSError:
        return False


def deny_random_numbers() -> None:
    """Has the call getrandom answer ENOSYS in this process, by a filter of the kernel (seccomp(2), on x86-64)."""
    load, equal, answer = 0x20, 0x15, 0x06
    steps = [(load, 0, 0, 0), (equal, 0, 1, 318), (answer, 0, 0, 0x00050000 | 38), (answer, 0, 0, 0x7FFF0000)]
    code = b"".join(struct.pack("HBBI", *step) for step in steps)
    buffer = ctypes.create_string_buffer(code)
    program = struct.pack("HxxxxxxP", len(steps), ctypes.addressof(buffer))
    library = ctypes.CDLL(None, use_errno=True)
    if library.prctl(38, 1, 0, 0, 0) != 0 or library.prctl(22, 2, program, 0, 0) != 0:
        raise OSError(ctypes.get_errno(), "prctl")


def without_random_numbers(programs: Programs) -> None:
    """A server doesn't begin, and what needs no random numbers is done."""
    if os.uname().machine != "x86_64":
        return
    ran = programs.run(programs.ripley, "serve page.html app.json 127.0.0.1:0", preexec_fn=deny_random_numbers)
    wanted = (4, "", "ripley: random numbers of the system: Function not implemented\n")
    programs.compare("no random numbers", (ran.returncode, ran.stdout, ran.stderr), wanted)
    ran = programs.run(programs.ripley, "check page.html app.json", preexec_fn=deny_random_numbers)
    programs.compare("none needed", (ran.returncode, ran.stdout, ran.stderr), (0, "ok nodes 6 scripts 1\n", ""))


def without_memory(programs: Programs) -> None:
    """A page of 16 MB, in an address space that the program and the page alone nearly fill."""
    with open(os.path.join(programs.folder, "large.html"), "w") as file:
        file.write("<html><head></head><body>" + "a" * (LONGEST - 64) + "</body></html>")

    def bound() -> None:
        resource.setrlimit(resource.RLIMIT_AS, (40_000_000, 40_000_000))

    ran = programs.run(programs.ripley, "check large.html app.json", preexec_fn=bound)
    programs.compare("no memory", (ran.returncode, ran.stdout, ran.stderr), (5, "", MEMORY))


class Visitor:
    """A connection that opens a session and closes it, again and again."""

    GET = b"GET / HTTP/1.1\r\nHost: a\r\n\r\n"

    def __init__(self, port: int):
        self.socket = socket.create_connection(("127.0.0.1", port), timeout=60)
        self.unread = b""

    def answer(self) -> bytes:
        while b"\r\n\r\n" not in self.unread:
            self.unread += self.socket.recv(65536)
        head, self.unread = self.unread.split(b"\r\n\r\n", 1)
        size = int(re.search(rb"Content-Length: (\d+)", head)[1])
        while len(self.unread) < size:
            self.unread += self.socket.recv(65536)
        self.unread = self.unread[size:]
        return head

    def close_and_open(self) -> bool:
        """False where the server opens no more."""
        found = re.search(rb"Ripley-Session: (\S+)", self.answer())
        if not found:
            return False
        self.socket.sendall(b"POST /q/%b HTTP/1.1\r\nHost: a\r\nContent-Length: 0\r\n\r\n" % found[1] + self.GET)
        self.answer()
        return True


def many_sessions(programs: Programs) -> None:
    """Opens and closes sessions until the server opens no more: it is said three times what is left."""
    server = programs.listen("serve page.html app.json 127.0.0.1:0", stdout=subprocess.DEVNULL)
    port = int(server.stderr.readline().rsplit(":", 1)[1])
    visitors = [Visitor(port) for _ in range(60)]
    for visitor in visitors:
        visitor.socket.sendall(visitor.GET)
    opening = True
    while opening:
        for visitor in visitors:
            opening = visitor.close_and_open() and opening
    server.kill()
    programs.compare("sessions that are left", server.stderr.readlines(), LEFT)


def main() -> int:
    reader = argparse.ArgumentParser(usage=__doc__)
    reader.add_argument("ripley")
    reader.add_argument("script")
    reader.add_argument("--sessions", action="store_true")
    given = reader.parse_args()
    with tempfile.TemporaryDirectory() as folder:
        make_files(folder)
        programs = Programs(given.ripley, given.script, folder)
        parts = [words_and_files, outputs, addresses, without_random_numbers, without_memory]
        for part in parts + [many_sessions] * given.sessions:
            part(programs)
    print(f"standard error: {programs.wrong} wrong")
    return 1 if programs.wrong else 0


if __name__ == "__main__":
    sys.exit(main())
