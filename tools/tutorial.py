#!/usr/bin/env python3
"""Runs the commands of docs/TUTORIAL.md and README.md as they are printed, and compares what they print.

usage: tutorial.py PROGRAM [--write]     PROGRAM the program `ripley`; --write puts what is printed into the pages

All blocks of a page marked `sh` run one after the other in one shell, which begins in the repository's folder. The block without a
mark behind one is its standard output; where there is none, nothing is to be printed. What differs from run to run counts as equal:
identifiers of sessions, and times of a real clock. The two ports of the tutorial stand for two that are free. PROGRAM stands in the
place of README's `rt try`, which builds it anew. Where there is no `curl`, a small one that knows the tutorial's options stands in
its place. The status is 0 where all is so.
"""

import os
import pathlib
import re
import signal
import socket
import subprocess
import sys
import tempfile
import time

TOP = pathlib.Path(__file__).resolve().parent.parent
PAGE = TOP / "docs/TUTORIAL.md"
README = TOP / "README.md"
BUILT = ("cd crates/ripley; rt try -- ", "ripley ")
BLOCK = re.compile(r"^```sh\n(.*?)^```\n(?:\n^```\n(.*?)^```\n)?", re.M | re.S)
END = "-- the block is over --"
SECONDS = 60
PORTS = ("8080", "8000")
IDENTIFIER = re.compile(r"[0-9a-f]{8}(?:-[0-9a-f]{4}){3}-[0-9a-f]{12}")
TIME = re.compile(r"\b1\d{12}\b")

CURL = '''#!/usr/bin/env python3
import http.client, sys, urllib.parse
words, body, shown = sys.argv[1:], None, False
while words:
    word = words.pop(0)
    if word == "-d":
        body = words.pop(0)
    elif word.startswith("-"):
        shown = shown or "i" in word
    else:
        where = urllib.parse.urlsplit(word)
connection = http.client.HTTPConnection(where.netloc)
connection.request("POST" if body else "GET", where.path, body)
answer = connection.getresponse()
if shown:
    print(f"HTTP/1.1 {answer.status} {answer.reason}", *(f"{name}: {value}" for name, value in answer.getheaders()), "", sep="\\n")
sys.stdout.write(answer.read().decode())
'''


class Shell:
    """A shell that runs block after block, in a process group of its own."""

    def __init__(self, room: pathlib.Path):
        path = f"{room}:{os.environ['PATH']}"
        words = {"stdin": subprocess.PIPE, "stdout": subprocess.PIPE, "text": True, "cwd": TOP, "start_new_session": True}
        self.process = subprocess.Popen(["bash", "--norc"], env={**os.environ, "PATH": path, "TMPDIR": str(room)}, **words)

    def run(self, block: str) -> str:
        """What a block prints."""
        self.process.stdin.write(f"{block}\nprintf '%s\\n' '{END}'\n")
        self.process.stdin.flush()
        printed = ""
        for line in self.process.stdout:
            if line.endswith(f"{END}\n"):
                return printed + line.removesuffix(f"{END}\n")
            printed += line
        return printed

    def close(self) -> None:
        os.killpg(self.process.pid, signal.SIGKILL)
        self.process.wait()


def free_port() -> int:
    with socket.socket() as one:
        one.bind(("127.0.0.1", 0))
        return one.getsockname()[1]


def wait_for(port: int) -> None:
    """Waits until something listens at a port."""
    end = time.monotonic() + SECONDS
    while time.monotonic() < end:
        with socket.socket() as one:
            if one.connect_ex(("127.0.0.1", port)) == 0:
                return
        time.sleep(0.05)
    raise TimeoutError(f"nothing listens at {port}")


def same(printed: str, shown: str) -> bool:
    """Whether two outputs are equal but for what differs from run to run."""
    alike = lambda text: TIME.sub("TIME", IDENTIFIER.sub("IDENTIFIER", text)).rstrip("\n")
    return alike(printed) == alike(shown)


def install(room: pathlib.Path, program: str) -> None:
    """Puts the program, and a curl where there is none, where the shell finds them."""
    (room / "ripley").symlink_to(pathlib.Path(program).resolve())
    if subprocess.run(["sh", "-c", "command -v curl"], capture_output=True).returncode != 0:
        (room / "curl").write_text(CURL)
        (room / "curl").chmod(0o755)


def run(program: str, room: pathlib.Path, blocks: list[str]) -> list[str]:
    """What each block prints, in the page's own ports."""
    install(room, program)
    ports = {name: free_port() for name in PORTS}
    shell, outputs = Shell(room), []
    try:
        for block in blocks:
            block = block.replace(*BUILT)
            for name, port in ports.items():
                block = re.sub(rf"\b{name}\b", str(port), block)
            printed = shell.run(block)
            if re.search(r" &$", block, re.M):
                begun = [port for port in ports.values() if re.search(rf"(?<!:){port} |:{port} >", block)]
                wait_for(begun[0])
            for name, port in ports.items():
                printed = printed.replace(str(port), name)
            outputs.append(printed.replace("\r", ""))
    finally:
        shell.close()
    return outputs


def stop(*_) -> None:
    raise TimeoutError("the tutorial takes too long")


def checked(program: str, page: pathlib.Path, writes: bool) -> bool:
    """Whether the blocks of a page print what stands below them; says where they do not, and puts it there if asked."""
    text = page.read_text(encoding="utf-8")
    found = list(BLOCK.finditer(text))
    with tempfile.TemporaryDirectory() as room:
        outputs = run(program, pathlib.Path(room), [each[1] for each in found])
    wrong = [(each, printed) for each, printed in zip(found, outputs) if not same(printed, each[2] or "")]
    for each, printed in wrong:
        print(f"{page.name}: {each[1].splitlines()[-1]!r} prints\n{printed}in place of\n{each[2] or ''}")
    if not wrong:
        print(f"{page.name}: the {len(found)} blocks print what stands below them")
    elif writes:
        for each, printed in reversed(wrong):
            shown = f"\n```\n{printed.rstrip()}\n```\n" if printed.strip() else ""
            text = text[: each.start()] + f"```sh\n{each[1]}```\n{shown}" + text[each.end() :]
        page.write_text(text, encoding="utf-8")
    return not wrong


def main() -> int:
    if len(sys.argv) < 2:
        print(__doc__, file=sys.stderr)
        return 2
    signal.signal(signal.SIGALRM, stop)
    signal.alarm(8 * SECONDS)
    return 0 if all([checked(sys.argv[1], page, "--write" in sys.argv) for page in (README, PAGE)]) else 1


if __name__ == "__main__":
    sys.exit(main())
