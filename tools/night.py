#!/usr/bin/env python3
"""Writes the log of a long night through rotation, and looks at what follows it: lines, memory and time.

    tools/night.py [--bytes=1000000000]

The log is made up, as fast as it goes, by a process that writes by append as `ripley serve` does. logrotate runs every
second by deploy/logrotate.conf, of which the path alone is changed. deploy/metrics.py, close_idle.py and log_to_json.py
follow; at the end another metrics.py begins late. It wants Debian's logrotate and python3-prometheus-client. The status
is 0 only where the parts together are what was written, each follower has all of it, and none had more than 100 MB.
"""

import hashlib
import json
import os
import pathlib
import shutil
import socket
import subprocess
import sys
import tempfile
import time
import urllib.request

TOP = pathlib.Path(__file__).resolve().parent.parent
PYTHON = "/usr/bin/python3"
MOST = 100 * 1024
ENDS = ["close", "done mismatch", "done fuel", ""]


def visit(number: int, turn: int) -> tuple[bytes, dict[str, int]]:
    """The lines of a visit, and what they come to. Of four visits one is not closed, and of these the next 200 are."""
    name = f"{number:08x}-0000-4000-8000-000000000000"
    lines = [f"open {turn} {number} {name} 7 1796183946500", f"done {turn} {number} 0 ok"]
    for batch in range(1, 7):
        turn += 1
        call = f'["shop.order.{number}",{{"cup":{batch},"name":"Ann Ångström","note":"{"as last time, please; " * 12}"}}]'
        lines.append(f'batch {turn} {number} {batch} [["event","click",44],["call",{batch},"order",{call}]]')
        lines.append(f'serve {turn} {number} {batch} {batch} "order" {call} 1796183946600 {{"error":"full"}}')
        lines.append(f"done {turn} {number} {batch} ok")
    end = ENDS[number % 4]
    counts = {"opened": 1, "batches": 6, "served": 6, "full": 6, end: 1}
    if end == "close":
        lines.append(f"close {turn + 1} {number}")
    elif end:
        reason = end.split()[1]
        behind = ' 1 1 ["f",[1]] none' if reason == "mismatch" else " 1"
        lines += [f'batch {turn + 1} {number} 7 [["event","click",44]]', f"done {turn + 1} {number} 7 {reason}{behind}"]
        counts["batches"] += 1
    if number > 200 and not ENDS[(number - 200) % 4]:
        lines.append(f"close {turn + 1} {number - 200}")
        counts["close"] = counts.get("close", 0) + 1
    return ("\n".join(lines) + "\n").encode(), counts


def write(size: int, told: str) -> None:
    """Writes so much of a log to standard output, and what it is to a file."""
    digest, total, longest = hashlib.sha256(), {}, 0.0
    written = number = 0
    while written < size:
        number += 1
        text, counts = visit(number, number * 8)
        start = time.monotonic()
        os.write(1, text)
        longest = max(longest, time.monotonic() - start)
        digest.update(text)
        written += len(text)
        for each, count in counts.items():
            total[each] = total.get(each, 0) + count
    last = {"bytes": written, "sha256": digest.hexdigest(), "longest": longest, "lines": 0, **total}
    pathlib.Path(told).write_text(json.dumps(last))


def metrics(port: int) -> dict[str, float]:
    with urllib.request.urlopen(f"http://127.0.0.1:{port}/metrics") as answer:
        lines = [line.rsplit(" ", 1) for line in answer.read().decode().splitlines() if not line.startswith("#")]
    return {name: float(value) for name, value in lines}


def memory(pid: int) -> int:
    """The most memory that a process had, in KiB."""
    status = pathlib.Path(f"/proc/{pid}/status").read_text()
    return int(next(line for line in status.splitlines() if line.startswith("VmHWM")).split()[1])


def free() -> int:
    with socket.socket() as some:
        some.bind(("127.0.0.1", 0))
        return some.getsockname()[1]


class Night:
    def __init__(self, folder: pathlib.Path):
        self.folder = folder
        self.log = folder / "8080-Z.log"
        self.log.touch()
        (folder / "8080.log").symlink_to(self.log.name)
        (folder / "app.json").write_text('{"version":1,"functions":{},"limits":{"sessions":250}}')
        conf = (TOP / "deploy/logrotate.conf").read_text()
        conf = conf.replace("/var/log/ripley", str(folder)).replace("/usr/share/ripley", f"{PYTHON} -B {TOP}/deploy")
        (folder / "logrotate.conf").write_text(conf)
        self.followers: dict[str, subprocess.Popen] = {}
        self.wrong: list[str] = []

    def follow(self, name: str, *words: str) -> None:
        with open(self.folder / f"{name}.out", "wb") as out:
            command = [PYTHON, "-B", TOP / "deploy" / words[0], self.folder / "8080.log", *words[1:]]
            self.followers[name] = subprocess.Popen(command, stdout=out, stderr=subprocess.DEVNULL)

    def rotate(self) -> None:
        state = ["--state", self.folder / "state", self.folder / "logrotate.conf"]
        if subprocess.run(["/usr/sbin/logrotate", *state]).returncode:
            self.wrong.append("logrotate failed")

    def write(self, size: int) -> dict:
        told = self.folder / "told"
        with open(self.log, "ab") as out:
            writer = subprocess.Popen([PYTHON, __file__, "write", str(size), told], stdout=out)
        while writer.poll() is None:
            self.rotate()
            time.sleep(1)
        return json.loads(told.read_text())

    def check(self, is_so: bool, what: str) -> None:
        print(f"{'as due' if is_so else 'WRONG'}: {what}", flush=True)
        if not is_so:
            self.wrong.append(what)

    def has_all(self, port: int, due: dict) -> bool:
        got = metrics(port)
        ended = 'ripley_sessions_ended_total{reason="%s"}'
        return (
            got["ripley_sessions_opened_total"] == due["opened"]
            and got["ripley_batches_total"] == due["batches"]
            and got["ripley_calls_served_total"] == due["served"]
            and got['ripley_replies_with_error_total{error="full"}'] == due["full"]
            and got[ended % "closed"] == due["close"]
            and got[ended % "mismatch"] == due["done mismatch"]
            and got[ended % "fuel"] == due["done fuel"]
            and got["ripley_runs_total"] == 1
        )

    def wait(self, port: int, due: dict, seconds: float) -> bool:
        end = time.monotonic() + seconds
        while time.monotonic() < end:
            try:
                if self.has_all(port, due):
                    return True
            except OSError:
                pass
            time.sleep(0.2)
        return False

    def objects(self, batches: int, seconds: float) -> bool:
        """Whether log_to_json.py comes to print so many batches."""
        end, count = time.monotonic() + seconds, 0
        with open(self.folder / "log_to_json.py.out", "rb") as out:
            while count < batches and time.monotonic() < end:
                count += sum(line.startswith(b'{"kind":"batch"') for line in out)
                time.sleep(0.2)
        return count == batches

    def cost(self, name: str) -> None:
        pid = self.followers[name].pid
        fields = pathlib.Path(f"/proc/{pid}/stat").read_text().rsplit(")", 1)[1].split()
        seconds = (int(fields[11]) + int(fields[12])) / os.sysconf("SC_CLK_TCK")
        self.check(memory(pid) < MOST, f"{name} had {memory(pid)} KiB of memory at most, and {seconds:.1f} s of a processor")

    def whole(self) -> str:
        sys.path.insert(0, str(TOP / "deploy"))
        sys.dont_write_bytecode = True
        import follow
        digest = hashlib.sha256()
        for each in [*follow.parts(str(self.log)), str(self.log)]:
            with follow.opened(each) as part:
                while piece := part.read(1 << 20):
                    digest.update(piece)
        return digest.hexdigest()


def run(size: int, folder: pathlib.Path) -> list[str]:
    night = Night(folder)
    one, other, app = free(), free(), f"--app={folder}/app.json"
    night.follow("metrics.py", "metrics.py", f"127.0.0.1:{one}", app)
    night.follow("close_idle.py", "close_idle.py", "127.0.0.1:1", "--seconds=86400")
    night.follow("log_to_json.py", "log_to_json.py", "--follow")
    start = time.monotonic()
    due = night.write(size)
    taken = time.monotonic() - start
    print(f"{due['bytes']} bytes written in {taken:.0f} s, through {len(list(folder.glob('8080-Z.log.*')))} rotations; "
          f"the writer stood still for {due['longest'] * 1000:.0f} ms at most")
    night.check(night.whole() == due["sha256"], "the parts together are what was written")
    night.check(night.wait(one, due, 1200), "metrics.py has all of it")
    night.cost("metrics.py")
    night.cost("close_idle.py")
    night.cost("log_to_json.py")
    start = time.monotonic()
    night.follow("late", "metrics.py", f"127.0.0.1:{other}", app)
    night.check(night.wait(other, due, 1200), "a metrics.py that begins late has all of it")
    print(f"after {time.monotonic() - start:.0f} s")
    night.cost("late")
    night.check(night.objects(due["batches"], 1200), "log_to_json.py has all of it")
    for each in night.followers.values():
        each.terminate()
        each.wait()
    return night.wrong


def main() -> None:
    if sys.argv[1:2] == ["write"]:
        return write(int(sys.argv[2]), sys.argv[3])
    words = dict(word[2:].split("=", 1) for word in sys.argv[1:])
    folder = pathlib.Path(tempfile.mkdtemp(prefix="ripley-night-"))
    try:
        wrong = run(int(words.get("bytes", 10**9)), folder)
    finally:
        shutil.rmtree(folder)
    sys.exit(1 if wrong else 0)


if __name__ == "__main__":
    main()
