#!/usr/bin/env python3
"""Cuts a log of `ripley serve` to nothing, once logrotate has copied it to LOG.1, and loses no line.

    deploy/cut_log.py LOG

What was written since the copy is put behind it, up to the last line's end. While the last of it is, the processes that
have LOG open for writing stand still, some milliseconds. The server opens its log by append, and so goes on at the start
of the file. Where LOG.1 is no beginning of LOG, nothing is done, and the status is 1. Processes are found by what they
have open, so this runs as the server's user and in the same user namespace; where it finds none it says so.
"""

import contextlib
import os
import shutil
import signal
import sys
import time
from collections.abc import Iterator
from typing import BinaryIO

# What is left to be copied when the writers are stopped, and how long is waited until they stand.
LITTLE = 1 << 16
PATIENCE = 2.0
PIECE = 1 << 20


def has_open(pid: str, log: os.stat_result) -> bool:
    """Whether a process has the file open for writing."""
    with contextlib.suppress(OSError):
        for number in os.listdir(f"/proc/{pid}/fd"):
            with contextlib.suppress(OSError):
                if os.path.samestat(os.stat(f"/proc/{pid}/fd/{number}"), log):
                    with open(f"/proc/{pid}/fdinfo/{number}") as lines:
                        flags = next(line for line in lines if line.startswith("flags:"))
                    if int(flags.split()[1], 8) & os.O_ACCMODE != os.O_RDONLY:
                        return True
    return False


def writers(log: os.stat_result) -> list[int]:
    return [int(pid) for pid in os.listdir("/proc") if pid.isdigit() and int(pid) != os.getpid() and has_open(pid, log)]


def stands(pid: int) -> bool:
    with open(f"/proc/{pid}/stat") as file:
        return file.read().rsplit(")", 1)[1].split()[0] in "TtZX"


@contextlib.contextmanager
def stopped(pids: list[int]) -> Iterator[None]:
    """While this lasts, the processes stand still."""
    try:
        for pid in pids:
            os.kill(pid, signal.SIGSTOP)
        end = time.monotonic() + PATIENCE
        while not all(stands(pid) for pid in pids):
            if time.monotonic() > end:
                raise TimeoutError("a writer does not stop")
            time.sleep(0.0005)
        yield
    finally:
        for pid in pids:
            with contextlib.suppress(ProcessLookupError):
                os.kill(pid, signal.SIGCONT)


def is_beginning(copy: str, log: str) -> bool:
    """Whether the copy is a beginning of the log, by its size and its first and last bytes."""
    size = os.path.getsize(copy)
    with open(copy, "rb") as one, open(log, "rb") as other:
        for place in (0, max(0, size - PIECE)):
            one.seek(place)
            other.seek(place)
            piece = one.read(PIECE)
            if piece != other.read(len(piece)):
                return False
    return size <= os.path.getsize(log)


def begun(copy: BinaryIO) -> bytes:
    """What stands behind the last line of a copy: nothing, but where a line is not written to its end."""
    size = copy.tell()
    copy.seek(max(0, size - PIECE))
    return copy.read().rpartition(b"\n")[2]


def cut(log: str) -> None:
    copy = log + ".1"
    if not is_beginning(copy, log):
        sys.exit(f"{copy} is no beginning of {log}: it is not cut")
    with open(log, "rb") as source, open(copy, "r+b") as target:
        source.seek(target.seek(0, os.SEEK_END))
        while os.fstat(source.fileno()).st_size - source.tell() > LITTLE:
            target.write(source.read(PIECE))
        os.fsync(target.fileno())
        pids = writers(os.fstat(source.fileno()))
        if not pids:
            print(f"{log}: no process has it open", file=sys.stderr)
        with stopped(pids), open(log, "ab") as emptied:
            shutil.copyfileobj(source, target)
            rest = begun(target)
            target.truncate(target.tell() - len(rest))
            emptied.truncate(0)
            emptied.write(rest)


if __name__ == "__main__":
    cut(sys.argv[1])
