#!/usr/bin/env python3
"""Plays attacks of one address on the set-up of deploy/, and looks at how another address is served meanwhile.

    tools/attacks.py RIPLEY [--page=examples/shop] [--seconds=15] [--parts=openings,reports,..]

It runs as root, in a network namespace of its own, with Debian's nginx, haproxy, logrotate, nftables
and openssl. nginx, HAProxy, close_idle.py and logrotate run by the files of deploy/, of which paths alone are changed.
Each attack lasts SECONDS. The status is 0 only where each request of the other address had its due answer within 100 ms,
and each bound held.
"""

import asyncio
import collections
import contextlib
import importlib
import json
import logging
import multiprocessing
import os
import pathlib
import re
import resource
import shutil
import signal
import socket
import ssl
import statistics
import subprocess
import sys
import tempfile
import threading
import time

TOP = pathlib.Path(__file__).resolve().parent.parent
sys.dont_write_bytecode = True
sys.path.insert(0, str(TOP / "deploy"))
follow = importlib.import_module("follow")

FOLDER = "/dev/shm" if os.path.isdir("/dev/shm") else None
ATTACKER, OTHER = "127.0.0.66", "127.0.0.9"
LIMIT = 0.1

TLS = ssl.create_default_context()
TLS.check_hostname = False
TLS.verify_mode = ssl.CERT_NONE

# A click on the button of this page runs for some seconds: 2,000,000 units of fuel.
LONG_PAGE = """<!DOCTYPE html><html><head><title>long</title></head><body><button id="b">go</button><script>"use strict";
document.getElementById("b").addEventListener("click", function () { while (true) { } });</script></body></html>"""
LONG_APP = '{"version":1,"functions":{},"limits":{"sessions":250,"fuel":2000000}}'

FIELDS = {
    "content-security-policy", "cross-origin-opener-policy", "cross-origin-resource-policy", "referrer-policy",
    "strict-transport-security", "x-content-type-options", "cache-control",
}


class Answer:
    """An answer: its code, its fields, and its body."""

    def __init__(self, head: bytes, body: bytes):
        first, *lines = head.decode("latin-1").split("\r\n")
        self.code = int(first.split(" ")[1])
        self.fields = {name.lower(): value for name, value in (line.split(": ", 1) for line in lines)}
        self.body = body


class Client:
    """A connection to the site from an address of the loopback."""

    def __init__(self, source: str, port: int = 443, host: str = "127.0.0.1"):
        self.source, self.port, self.host = source, port, host
        self.streams: tuple[asyncio.StreamReader, asyncio.StreamWriter] | None = None

    async def open(self) -> None:
        tls = TLS if self.port == 443 else None
        self.streams = await asyncio.open_connection(self.host, self.port, ssl=tls, local_addr=(self.source, 0))

    async def ask(self, method: str, path: str, body: bytes | None = None, *fields: str) -> Answer:
        if self.streams is None:
            await self.open()
        assert self.streams
        reader, writer = self.streams
        length = [] if body is None else [f"Content-Length: {len(body)}"]
        head = "\r\n".join([f"{method} {path} HTTP/1.1", "Host: site", *length, *fields, "", ""])
        writer.write(head.encode() + (body or b""))
        top = (await reader.readuntil(b"\r\n\r\n"))[:-4]
        answer = Answer(top, b"")
        answer.body = await reader.readexactly(int(answer.fields.get("content-length", 0)))
        if answer.fields.get("connection") == "close":
            self.close()
        return answer

    def close(self) -> None:
        if self.streams:
            self.streams[1].transport.abort()
        self.streams = None


def batch(number: int, *items: list) -> bytes:
    return json.dumps({"batch": number, "items": items}, separators=(",", ":")).encode()


OPENING = ("GET", "/", None, "Ripley-Open: 1")


class Crowd:
    """What an attacker does: coroutines side by side for some seconds, and the codes of the answers they had."""

    def __init__(self, seconds: float):
        self.end = time.monotonic() + seconds
        self.codes: collections.Counter[str] = collections.Counter()

    async def ask(self, client: Client, *words) -> Answer | None:
        try:
            answer = await asyncio.wait_for(client.ask(*words), 20)
        except (OSError, EOFError, asyncio.TimeoutError, ssl.SSLError) as error:
            client.close()
            self.codes[type(error).__name__] += 1
            return None
        self.codes[str(answer.code)] += 1
        return answer

    @property
    def is_on(self) -> bool:
        return time.monotonic() < self.end


async def openings(crowd: Crowd, source: str) -> None:
    """Opens as many sessions as it can, and keeps each alive."""
    kept: dict[str, int] = {}

    async def opens() -> None:
        client = Client(source)
        while crowd.is_on:
            if (answer := await crowd.ask(client, *OPENING)) and answer.code == 200:
                kept[answer.fields["ripley-session"]] = 0
            await asyncio.sleep(0.01)

    async def keeps() -> None:
        client = Client(source)
        while crowd.is_on:
            for name in list(kept):
                answer = await crowd.ask(client, "POST", f"/e/{name}", batch(kept[name] + 1))
                if answer and answer.code == 200:
                    kept[name] += 1
                elif answer and answer.code == 410:
                    kept.pop(name)
            await asyncio.sleep(0.1)

    await asyncio.gather(*(opens() for _ in range(8)), keeps())


async def reports(crowd: Crowd, source: str) -> None:
    """Sends batches as fast as it can."""

    async def sends() -> None:
        client, answer = Client(source), None
        while crowd.is_on and not (answer and answer.code == 200):
            answer = await crowd.ask(client, *OPENING)
            await asyncio.sleep(0.2)
        number, name = 1, answer.fields.get("ripley-session", "none") if answer else "none"
        while crowd.is_on:
            answer = await crowd.ask(client, "POST", f"/e/{name}", batch(number))
            number += answer is not None and answer.code == 200

    await asyncio.gather(*(sends() for _ in range(16)))


async def slow(crowd: Crowd, source: str) -> None:
    """Holds 1,500 connections of TLS by half a head, and opens another for each that is shut."""

    async def holds(number: int) -> None:
        await asyncio.sleep(number * 0.001)
        while crowd.is_on:
            with contextlib.suppress(OSError, asyncio.TimeoutError):
                client = Client(source)
                await asyncio.wait_for(client.open(), 20)
                crowd.codes["held"] += 1
                reader, writer = client.streams
                for letter in b"GET / HTTP/1.1\r\nHost: a\r\nX: " + b"x" * 100:
                    if not crowd.is_on or reader.at_eof():
                        break
                    writer.write(bytes([letter]))
                    await asyncio.sleep(1)
                client.close()

    await asyncio.gather(*(holds(number) for number in range(1500)))


def is_held(one: socket.socket) -> bool:
    """Whether a connection stands, over which nothing came."""
    try:
        one.recv(1)
    except BlockingIOError:
        return True
    except OSError:
        pass
    return False


async def many(crowd: Crowd, source: str) -> None:
    """Opens up to 5,000 connections that say nothing, and others for those that are refused or shut."""
    held: list[socket.socket] = []
    while crowd.is_on:
        for _ in range(500 if len(held) < 5000 else 0):
            one = socket.socket()
            one.setblocking(False)
            one.bind((source, 0))
            one.connect_ex(("127.0.0.1", 443))
            held.append(one)
        await asyncio.sleep(0.2)
        standing = [one for one in held if is_held(one)]
        crowd.codes["shut or refused"] += len(held) - len(standing)
        crowd.codes["held at most"] = max(crowd.codes["held at most"], len(standing))
        held = standing


async def bodies(crowd: Crowd, source: str) -> None:
    """Holds 200 requests by half a body each."""

    async def holds() -> None:
        while crowd.is_on:
            with contextlib.suppress(OSError, EOFError, asyncio.TimeoutError):
                client = Client(source)
                await client.open()
                reader, writer = client.streams
                writer.write(b"POST /e/00000000-0000-4000-8000-000000000000 HTTP/1.1\r\nHost: a\r\nContent-Length: 9999\r\n\r\n{")
                head = await asyncio.wait_for(reader.readuntil(b"\r\n"), crowd.end - time.monotonic())
                crowd.codes[head.split()[1].decode()] += 1
                client.close()
                await asyncio.sleep(0.1)

    await asyncio.gather(*(holds() for _ in range(200)))


async def long(crowd: Crowd, source: str) -> None:
    """Sends 40 batches at a time that compute for seconds each, of as many sessions as it gets."""

    async def computes() -> None:
        client = Client(source)
        while crowd.is_on:
            answer = await crowd.ask(client, *OPENING)
            if answer and answer.code == 200:
                name, code = answer.fields["ripley-session"], 429
                while crowd.is_on and code == 429:
                    answer = await crowd.ask(client, "POST", f"/e/{name}", batch(1, ["event", "click", 6]))
                    code = answer.code if answer else 0
                    await asyncio.sleep(0.02)
            await asyncio.sleep(0.2)

    await asyncio.gather(*(computes() for _ in range(40)))


async def networks(crowd: Crowd, source: str) -> None:
    """Opens sessions from 200 addresses of one network of IPv6."""

    async def opens(number: int) -> None:
        client = Client(f"fd00:66::{number:x}", host="::1")
        await crowd.ask(client, *OPENING)
        client.close()

    await asyncio.gather(*(opens(number) for number in range(1, 201)))


ATTACKS = {each.__name__: each for each in (openings, reports, slow, many, bodies, long, networks)}


def attack(name: str, seconds: float, told: multiprocessing.Queue) -> None:
    """Runs an attack in a process of its own, which takes no processor that the others want."""
    os.nice(15)

    async def run() -> Crowd:
        crowd = Crowd(seconds)
        await ATTACKS[name](crowd, ATTACKER)
        return crowd

    told.put(dict(asyncio.run(run()).codes))


async def opens(source: str, count: int) -> list[tuple[int, float, str]]:
    """Opens sessions one after the other: the code of each answer, how long it took, and the identifier."""
    client, got = Client(source), []
    for _ in range(count):
        start = time.monotonic()
        answer = await client.ask(*OPENING)
        got.append((answer.code, time.monotonic() - start, answer.fields.get("ripley-session", "")))
    client.close()
    return got


class Visitor(threading.Thread):
    """The other address: a session that reports, new connections that open and close one, and the files."""

    def __init__(self, seconds: float, source: str = OTHER):
        super().__init__()
        self.end = time.monotonic() + seconds
        self.source = source
        self.times: list[float] = []
        self.wrong: list[str] = []

    def run(self) -> None:
        asyncio.run(self.visit())

    async def ask(self, client: Client, code: int, *words) -> Answer:
        start = time.monotonic()
        answer = await asyncio.wait_for(client.ask(*words), 20)
        taken = time.monotonic() - start
        self.times.append(taken)
        if answer.code != code:
            self.wrong.append(f"{words[0]} {words[1][:8]} was answered {answer.code} {answer.body[:60]!r}")
        if taken > LIMIT:
            self.wrong.append(f"{words[0]} {words[1][:8]} took {taken * 1000:.0f} ms")
        return answer

    async def visit(self) -> None:
        kept, number, last = Client(self.source), 0, 0.0
        try:
            name = (await self.ask(kept, 200, *OPENING)).fields["ripley-session"]
            while time.monotonic() < self.end:
                number += 1
                await self.ask(kept, 200, "POST", f"/e/{name}", batch(number))
                if time.monotonic() > last + 3:
                    last = time.monotonic()
                    await self.short()
                await asyncio.sleep(0.1)
            await self.ask(kept, 200, "POST", f"/q/{name}", b"")
        except Exception as error:
            self.wrong.append(f"{type(error).__name__} {error}")
        kept.close()

    async def short(self) -> None:
        client = Client(self.source)
        await self.ask(client, 200, "GET", "/ripley/wire.js")
        name = (await self.ask(client, 200, *OPENING)).fields["ripley-session"]
        await self.ask(client, 200, "POST", f"/q/{name}", b"")
        client.close()


class Site:
    """The set-up of deploy/ in a folder."""

    def __init__(self, ripley: str, home: pathlib.Path):
        self.ripley, self.home = ripley, home
        self.started: list[subprocess.Popen] = []
        for name in ("log", "nginx", "state"):
            (home / name).mkdir()
        self.paths = [
            ("%i", "8080"), ("/var/log/ripley", f"{home}/log"), ("/var/log/nginx", f"{home}/nginx"), ("/run/nginx.pid", f"{home}/nginx.pid"),
            ("/etc/ripley", str(home)), ("/usr/share/ripley/browser", f"{TOP}/browser"), ("/usr/share/ripley", f"{TOP}/deploy"),
            ("/run/ripley/8080", str(home)), ("/run/haproxy", str(home)),
        ]
        words = "req -x509 -newkey ec -pkeyopt ec_paramgen_curve:P-256 -nodes -days 2 -subj /CN=site".split()
        files = ["-keyout", home / "key.pem", "-out", home / "certificate.pem"]
        subprocess.run(["openssl", *words, *files], check=True, capture_output=True)

    def text(self, name: str) -> str:
        text = (TOP / "deploy" / name).read_text()
        for old, new in self.paths:
            text = text.replace(old, new)
        return text

    def file(self, name: str, *changes: tuple[str, str]) -> pathlib.Path:
        text = self.text(name)
        for old, new in changes:
            assert old in text, f"{name} has no {old}"
            text = text.replace(old, new)
        (self.home / name).write_text(text)
        return self.home / name

    def start(self, *words, **options) -> subprocess.Popen:
        self.started.append(subprocess.Popen(words, **options))
        return self.started[-1]

    def page(self, page: str, app: str) -> None:
        (self.home / "page.html").write_text(page)
        (self.home / "app.json").write_text(app)
        policy = subprocess.run([TOP / "deploy/policy.py", self.home / "page.html"], check=True, capture_output=True)
        (self.home / "policy.conf").write_bytes(policy.stdout)

    def serve(self, port: int = 8080) -> subprocess.Popen:
        log = self.home / "log" / f"{port}-{len(self.started)}Z.log"
        link = self.home / "log" / f"{port}.log"
        link.unlink(missing_ok=True)
        link.symlink_to(log.name)
        with open(log, "ab") as file:
            words = ["serve", self.home / "page.html", self.home / "app.json", f"127.0.0.1:{port}"]
            return self.start(self.ripley, *words, stdout=file, stderr=subprocess.DEVNULL)

    def idle(self, *more: str) -> None:
        """close_idle.py, by the words of its unit."""
        unit = self.text("ripley-idle@.service").replace("\\\n", " ")
        words = re.search(r"^ExecStart=(.*)$", unit, re.M)[1].split()
        with open(self.home / "idle.out", "ab") as file:
            self.follower = self.start(sys.executable, "-B", *words, *more, stdout=file, stderr=file)
        until((self.home / "openings").exists, "close_idle.py listens")
        (self.home / "openings").chmod(0o666)

    def idle_anew(self, *more: str) -> None:
        """Another close_idle.py in the place of the one that runs."""
        self.follower.kill()
        self.follower.wait()
        (self.home / "openings").unlink()
        self.idle(*more)

    def nginx(self, *changes: tuple[str, str]) -> None:
        conf = self.file("nginx.conf", *changes)
        self.start("nginx", "-c", conf, "-e", self.home / "nginx/error.log", "-g", "daemon off;", stderr=subprocess.DEVNULL)

    def lines(self, port: int = 8080) -> list[bytes]:
        """The lines of a log, those that were rotated away too."""
        return list(follow.Log(str(self.home / "log" / f"{port}.log")).read())

    def alive(self) -> int:
        sessions = follow.Sessions()
        for line in self.lines():
            if each := follow.entry(line):
                sessions.take(each)
        return len(sessions.alive)

    def stop(self) -> None:
        for each in reversed(self.started):
            each.send_signal(signal.SIGCONT)
            each.terminate()
            each.wait()
        self.started = []


def until(is_so, what: str, seconds: float = 10) -> None:
    end = time.monotonic() + seconds
    while not is_so():
        if time.monotonic() > end:
            raise AssertionError(f"{what}: not within {seconds} s")
        time.sleep(0.05)


def answers(port: int) -> bool:
    async def ask() -> int:
        client = Client("127.0.0.1", port)
        try:
            return (await client.ask("GET", "/nowhere")).code
        finally:
            client.close()

    try:
        return asyncio.run(ask()) == 404
    except OSError:
        return False


class Attacks:
    def __init__(self, ripley: str, folder: pathlib.Path, seconds: float):
        self.ripley, self.seconds = ripley, seconds
        self.shop = ((folder / "page.html").read_text(), (folder / "app.json").read_text())
        self.wrong: list[str] = []

    @contextlib.contextmanager
    def site(self, page: str, app: str, *changes: tuple[str, str], idle: tuple[str, ...] = ()):
        # In memory where it can be, so that no disk is waited for.
        home = pathlib.Path(tempfile.mkdtemp(prefix="ripley-attacks-", dir=FOLDER))
        home.chmod(0o755)
        site = Site(self.ripley, home)
        try:
            site.page(page, app)
            site.serve()
            until(lambda: answers(8080), "the server answers")
            site.idle(*idle)
            site.nginx(*changes)
            until(lambda: answers(443), "nginx answers")
            yield site
            self.identifiers(site)
        finally:
            site.stop()
            shutil.rmtree(home)

    def check(self, is_so: bool, what: str) -> None:
        print(f"  {'as due' if is_so else 'WRONG'}: {what}", flush=True)
        if not is_so:
            self.wrong.append(what)

    def identifiers(self, site: Site) -> None:
        """No log of nginx has the identifier of a session."""
        text = "".join((site.home / "nginx" / name).read_text() for name in ("access.log", "error.log"))
        self.check(not re.search(r"[0-9a-f]{8}-[0-9a-f]{4}-4[0-9a-f]{3}-", text), "no identifier in nginx's logs")

    def under(self, name: str, seconds: float | None = None) -> dict[str, int]:
        """Another address beside an attack: how it was served, and what the attacker had."""
        seconds = self.seconds if seconds is None else seconds
        told: multiprocessing.Queue = multiprocessing.Queue()
        visitor = Visitor(seconds)
        attacker = multiprocessing.Process(target=attack, args=(name, seconds, told))
        attacker.start()
        visitor.start()
        codes = told.get(timeout=seconds + 60)
        visitor.join()
        attacker.join()
        times = sorted(visitor.times)
        print(f"{name}: {ATTACKS[name].__doc__}\n  the attacker had {codes}", flush=True)
        print(f"  the other had {len(times)} answers, half within {statistics.median(times) * 1000:.1f} ms, "
              f"the slowest in {times[-1] * 1000:.1f} ms", flush=True)
        self.check(not visitor.wrong, f"{name}: the other is served within 100 ms {visitor.wrong[:5] or ''}")
        return codes

    def openings(self) -> None:
        """With a bound of 10 sessions, which the attacker meets soon."""
        with self.site(*self.shop) as site:
            asyncio.run(opens(ATTACKER, 1))
            site.idle_anew("--each=10")
            most: list[int] = []

            def looks() -> None:
                for _ in range(int(self.seconds * 2)):
                    time.sleep(0.5)
                    most.append(site.alive())

            watch = threading.Thread(target=looks)
            watch.start()
            self.under("openings")
            watch.join()
            print(f"  {max(most)} sessions were alive at most, and {most[-1]} at the end")
            self.check(max(most) <= 35 and most[-1] <= 15, "one address has 10 sessions, and for a second those that it opens")

    def reports(self) -> None:
        with self.site(*self.shop) as site:
            codes = self.under("reports")
            self.check(codes.get("200", 0) <= 80 + 20 * (self.seconds + 2), "20 batches a second are let through")
            print(f"  the log has {sum(map(len, site.lines()))} bytes")

    def slow(self) -> None:
        with self.site(*self.shop):
            self.under("slow", self.seconds + 15)

    def many(self) -> None:
        """With the rules of deploy/nftables.conf."""
        subprocess.run(["nft", "-f", TOP / "deploy/nftables.conf"], check=True)
        with self.site(*self.shop):
            self.check(self.under("many").get("held at most", 0) <= 100, "one address has 100 connections")
        subprocess.run(["nft", "flush", "ruleset"], check=True)

    def bodies(self) -> None:
        with self.site(*self.shop):
            self.under("bodies")

    def long(self) -> None:
        with self.site(LONG_PAGE, LONG_APP):
            codes = self.under("long")
            self.check("502" not in codes and "504" not in codes, "no 502")

    def networks(self) -> None:
        with self.site(*self.shop):
            codes = self.under("networks", 3)
            self.check(codes.get("200", 0) <= 25, "a network of IPv6 has the openings of one visitor")


def fields(attacks: Attacks) -> None:
    """Fields of safety on every answer, the Host that is not echoed, and IPv6."""
    with attacks.site(*attacks.shop):
        async def asks() -> dict[str, Answer]:
            client, got = Client(OTHER), {}
            for what, words in {
                "the loader": ("GET", "/"), "a file": ("GET", "/ripley/wire.js"), "an opening": OPENING,
                "no such path": ("GET", "/x"), "no such session": ("POST", "/e/x", batch(1)), "a closing": ("POST", "/q/x", b""),
                "a body too large": ("POST", "/e/x", b"x" * 66000), "no method": ("BREW", "/"),
            }.items():
                got[what] = await client.ask(*words)
            got["too many"] = got["an opening"]
            while got["too many"].code != 429:
                got["too many"] = await client.ask(*OPENING)
            six = Client("::1", host="::1")
            got["over IPv6"] = await six.ask("GET", "/")
            moved = await Client(OTHER, 80).ask("GET", "/a", None)
            attacks.check(moved.fields["location"] == "https://localhost/a", "the name of the site is not that of the request")
            return got

        for what, answer in asyncio.run(asks()).items():
            lacking = FIELDS - set(answer.fields)
            attacks.check(not lacking, f"{what} ({answer.code}) has the fields of safety {lacking or ''}")


def rotation(attacks: Attacks) -> None:
    """logrotate cuts the log while visitors report; no line is lost, and what is silent is closed after it."""
    with attacks.site(*attacks.shop) as site:
        site.idle_anew("--seconds=4")
        conf, state = site.file("logrotate.conf", ("size 100M", "size 1k")), site.home / "state/state"
        visitor = Visitor(8)
        visitor.start()
        for _ in range(4):
            time.sleep(1.5)
            subprocess.run(["/usr/sbin/logrotate", "--state", state, conf], check=True)
        visitor.join()
        attacks.check(not visitor.wrong, f"the log is rotated: the other is served within 100 ms {visitor.wrong[:5] or ''}")

        name = asyncio.run(opens(OTHER, 1))[0][2]
        until(lambda: site.alive() == 0, "the silent session is closed after a rotation", 8)
        lines = [line.decode() for line in site.lines()]
        turns = [int(line.split()[1]) for line in lines]
        numbers = [int(line.split()[3]) for line in lines if line.startswith("batch ") and line.split()[2] == "1"]
        attacks.check(turns == sorted(turns) and numbers == list(range(1, len(numbers) + 1)), f"no line of {len(lines)} is lost")
        attacks.check(any(name in line for line in lines), "the session that was closed was opened after a rotation")


def several(attacks: Attacks) -> None:
    """HAProxy before two servers: one that is full is passed over, and one that stands still is taken out."""
    page, app = attacks.shop
    with attacks.site(page, app, ("server 127.0.0.1:8080", "server 127.0.0.1:8090")) as site:
        small = re.sub(r'"sessions":\d+', '"sessions":3', app) if '"sessions"' in app else app.replace("{}", '{"sessions":3}')
        (site.home / "app.json").write_text(re.sub(r'"limits":\{\}', '"limits":{"sessions":3}', small))
        second = site.serve(8082)
        until(lambda: answers(8082), "the second server answers")
        site.start("haproxy", "-f", site.file("haproxy.cfg"), stderr=subprocess.DEVNULL)
        until(lambda: answers(8090), "HAProxy answers")

        got = asyncio.run(opens(OTHER, 10))
        here = sum(line.startswith(b"open ") for line in site.lines(8082))
        attacks.check([code for code, _, _ in got] == [200] * 10 and here == 3, f"a server that is full is passed over: {here} of 10 are its own")
        second.send_signal(signal.SIGSTOP)
        time.sleep(7)
        got = asyncio.run(opens(OTHER, 10))
        attacks.check(all(code == 200 and taken < LIMIT for code, taken, _ in got), f"a server that stands still is taken out {got[:3]}")


def full(attacks: Attacks) -> None:
    """Twelve addresses fill a server that may have 100 sessions: room is made at their cost."""
    page, app = attacks.shop
    manifest = json.loads(app)
    manifest["limits"]["sessions"] = 100
    with attacks.site(page, json.dumps(manifest)) as site:
        async def fills() -> tuple[str, list[int]]:
            name = (await opens(OTHER, 1))[0][2]
            got = await asyncio.gather(*(opens(f"127.0.0.{number}", 20) for number in range(70, 82)))
            return name, [code for each in got for code, _, _ in each]

        name, codes = asyncio.run(fills())
        attacks.check(codes.count(503) > 0, f"the server was full for a moment: {codes.count(200)} of {len(codes)} were opened")
        until(lambda: site.alive() <= 90, "room is made", 5)

        async def goes_on() -> list[int]:
            client = Client(OTHER)
            return [(await client.ask("POST", f"/e/{name}", batch(1))).code, (await client.ask(*OPENING)).code]

        attacks.check(asyncio.run(goes_on()) == [200, 200], "the other goes on, and opens another session")


PARTS = ["openings", "reports", "slow", "many", "bodies", "long", "networks", "fields", "rotation", "full", "several"]


def in_namespace() -> None:
    """Begins again in a network namespace of its own."""
    if os.environ.get("RIPLEY_ATTACKS") != "here":
        os.environ["RIPLEY_ATTACKS"] = "here"
        os.execvp("unshare", ["unshare", "--net", sys.executable, *sys.argv])
    subprocess.run(["ip", "link", "set", "lo", "up"], check=True)
    subprocess.run(["ip", "-6", "route", "add", "local", "fd00:66::/64", "dev", "lo", "table", "local"], check=True)
    pathlib.Path("/proc/sys/net/ipv6/ip_nonlocal_bind").write_text("1")
    # As systemd sets it for a machine.
    pathlib.Path("/proc/sys/net/unix/max_dgram_qlen").write_text("512")
    resource.setrlimit(resource.RLIMIT_NOFILE, (16384, 16384))


def main() -> None:
    in_namespace()
    logging.getLogger("asyncio").setLevel(logging.CRITICAL)
    words = dict(word[2:].split("=", 1) for word in sys.argv[2:])
    attacks = Attacks(os.path.abspath(sys.argv[1]), TOP / words.get("page", "examples/shop"), float(words.get("seconds", 15)))
    for part in words.get("parts", ",".join(PARTS)).split(","):
        if part in ATTACKS:
            getattr(attacks, part)()
        else:
            print(f"{part}: {globals()[part].__doc__}")
            globals()[part](attacks)
    for each in attacks.wrong:
        print(f"WRONG {each}")
    sys.exit(1 if attacks.wrong else 0)


if __name__ == "__main__":
    main()
