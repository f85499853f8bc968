#!/usr/bin/python3
"""Serves what the log of a running `ripley serve` comes to, as Prometheus reads it.

    deploy/metrics.py LOG ADDRESS --app=APP

It listens at ADDRESS, say 127.0.0.1:18080, and follows LOG as it grows and is rotated. APP is the manifest, which says
how many sessions may be alive. Counts are those of the run that the log is of. Debian's package is
python3-prometheus-client.
"""

import sys
import threading
import time
from collections import Counter
from collections.abc import Iterator

from prometheus_client import CollectorRegistry, start_http_server
from prometheus_client.core import CounterMetricFamily, GaugeMetricFamily, Metric

from follow import ANOTHER_RUN, SESSIONS_OF_A_RUN, Entry, Log, Sessions, entry, sessions_of

ROUND = 1

# The errors of a reply, and the reasons for which a session ends (docs/DEPLOYING.md). What is none of these is `other`.
ERRORS = ("arguments", "full", "range", "unknown")
REASONS = (
    "closed mismatch report fuel cells units nodes depth queue replies not-whole infinite out-of-range hole not-in-profile "
    "object-to-primitive text-too-long bad-argument lone-surrogate memory"
).split()


def error_of(reply: bytes) -> str | None:
    """The error of a `serve` line's end, which is NAME ARGS TIME REPLY."""
    return next((name for name in ERRORS if reply.endswith(b' {"error":"%s"}' % name.encode())), None)


class Run:
    """What the log of one run comes to."""

    def __init__(self) -> None:
        self.sessions = Sessions()
        self.entries: Counter[str] = Counter()
        self.ended: Counter[str] = Counter(dict.fromkeys(REASONS, 0))
        self.errors: Counter[str] = Counter(dict.fromkeys(ERRORS, 0))

    def take(self, each: Entry) -> None:
        self.entries[each.kind] += 1
        reason = self.sessions.take(each)
        if reason:
            self.ended[reason if reason in REASONS else "other"] += 1
        if each.kind == "serve" and (error := error_of(each.words[-1])):
            self.errors[error] += 1


class Watch:
    """Follows a log, and collects the metrics when they are asked for."""

    def __init__(self, log: Log, most: int):
        self.log, self.most = log, most
        self.lock = threading.Lock()
        self.run, self.runs, self.last = Run(), 1, time.time()

    def read(self) -> None:
        for line in self.log.read():
            with self.lock:
                if line == ANOTHER_RUN:
                    self.run, self.runs = Run(), self.runs + 1
                elif each := entry(line):
                    self.run.take(each)
                    self.last = time.time()

    def collect(self) -> Iterator[Metric]:
        with self.lock:
            yield from self._gauges()
            yield from self._counters()

    def _gauges(self) -> Iterator[Metric]:
        alive, opened = len(self.run.sessions.alive), self.run.sessions.opened
        for name, text, value in [
            ("sessions_alive", "Sessions that are alive.", alive),
            ("sessions_most", "Sessions that may be alive at once.", self.most),
            ("nearly_full", "Whether more than nine tenths of these are alive.", alive > self.most * 9 // 10),
            ("sessions_left", "Sessions that this run may still open.", max(0, SESSIONS_OF_A_RUN - opened)),
            ("spent", "Whether this run can open none.", opened >= SESSIONS_OF_A_RUN),
            ("seconds_since_last_entry", "Time since the log had its last line.", time.time() - self.last),
            ("run_over", "Whether the log has the line of its end.", self.run.entries["end"]),
        ]:
            yield GaugeMetricFamily(f"ripley_{name}", text, value)

    def _counters(self) -> Iterator[Metric]:
        entries = self.run.entries
        for name, text, value in [
            ("sessions_opened", "Sessions that this run opened.", self.run.sessions.opened),
            ("batches", "Batches that came.", entries["batch"]),
            ("calls_served", "Calls that were served.", entries["serve"]),
            ("log_bytes", "Bytes of log that were read.", self.log.bytes),
            ("runs", "Runs whose log was read.", self.runs),
        ]:
            yield CounterMetricFamily(f"ripley_{name}", text, value)
        yield labelled("sessions_ended", "Sessions that ended, by reason.", "reason", self.run.ended)
        yield labelled("replies_with_error", "Served calls whose reply is an error, by error.", "error", self.run.errors)


def labelled(name: str, text: str, label: str, counts: Counter[str]) -> Metric:
    family = CounterMetricFamily(f"ripley_{name}", text, labels=[label])
    for value, count in counts.items():
        family.add_metric([value], count)
    return family


def main() -> None:
    path, where = [word for word in sys.argv[1:] if not word.startswith("--")]
    words = dict(word[2:].split("=", 1) for word in sys.argv[1:] if word.startswith("--"))
    host, port = where.rsplit(":", 1)
    watch = Watch(Log(path), sessions_of(words["app"]))
    watch.read()
    registry = CollectorRegistry()
    registry.register(watch)
    start_http_server(int(port), host, registry)
    while True:
        watch.read()
        time.sleep(ROUND)


if __name__ == "__main__":
    main()
