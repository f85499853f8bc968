#!/usr/bin/env python3
"""Loads `ripley serve` and nginx with the same page by the same generator, and prints the requests a second of each.

usage: beside_nginx.py RIPLEY [SECONDS]     RIPLEY the built program, SECONDS how long each row is loaded (5)

It wants Debian's packages `nginx` and `wrk`. Both serve examples/first/page.html on loopback, nginx with one worker; wrk
keeps its connections. A GET opens a session here and runs its script, so the rows of ripley are these: a batch that is
repeated, whose answer is stored; and an opening with the closing of its session, which count as two requests. For these wrk
runs a script at each request and answer, which costs it more than a fixed request: so nginx is loaded once more by a script
that does as much, and the last rows are held to that. Beside the requests a second stands the processor time that the server
took for one, in microseconds, which other work on the machine changes less. The status is 0 where no answer was other than
200."""
import os
import pathlib
import re
import subprocess
import sys
import tempfile
import time
import urllib.request

FIRST = pathlib.Path(__file__).resolve().parent.parent / "examples/first"
NGINX, RIPLEY = 8971, 8972

CONF = """
user root; worker_processes 1; daemon off; pid {room}/pid; error_log {room}/error.log;
events {{ worker_connections 256; }}
http {{ access_log off; keepalive_requests 100000000; types {{ text/html html; }}
  server {{ listen 127.0.0.1:{port}; root {root}; index page.html; }} }}
"""

# One that opens a session and closes it, again and again; each thread has a state of its own and one connection.
VISITS = """
local session
request = function()
  if session then
    local path = "/q/" .. session
    session = nil
    return wrk.format("POST", path, nil, "")
  end
  return wrk.format("GET", "/")
end
response = function(status, headers, body)
  session = headers["Ripley-Session"] or headers["ripley-session"]
end
"""

# As costly for the generator: the same file again and again.
FILES = """
local session
request = function()
  if session then
    local path = "/?" .. session
    session = nil
    return wrk.format("GET", path)
  end
  return wrk.format("GET", "/")
end
response = function(status, headers, body)
  session = headers["Content-Length"] or headers["content-length"]
end
"""

BATCH = """
wrk.method = "POST"
wrk.body = '{"batch":1,"items":[]}'
wrk.headers["Content-Type"] = "application/json"
"""


def waits_for(port):
    for _ in range(100):
        try:
            return urllib.request.urlopen(f"http://127.0.0.1:{port}/", timeout=1)
        except OSError:
            time.sleep(0.05)
    sys.exit(f"nothing answers at {port}")


def loaded(url, connections, seconds, script=None):
    """The requests a second, and how many answers were other than of the codes 200 to 399."""
    words = ["wrk", f"-t{connections if script in (VISITS, FILES) else 1}", f"-c{connections}", f"-d{seconds}s"]
    with tempfile.NamedTemporaryFile("w", suffix=".lua") as file:
        file.write(script or "")
        file.flush()
        words += ["-s", file.name] if script else []
        text = subprocess.run([*words, url], capture_output=True, text=True).stdout
    others = re.search(r"Non-2xx or 3xx responses: (\d+)", text)
    return float(re.search(r"Requests/sec:\s+([\d.]+)", text)[1]), int(others[1]) if others else 0


def spent(pid):
    """The processor time of a process and of its children that run, in seconds."""
    pids = [pid, *map(int, pathlib.Path(f"/proc/{pid}/task/{pid}/children").read_text().split())]
    ticks = 0
    for each in pids:
        fields = pathlib.Path(f"/proc/{each}/stat").read_text().rsplit(") ", 1)[1].split()
        ticks += int(fields[11]) + int(fields[12])
    return ticks / os.sysconf("SC_CLK_TCK")


def rows(session, seconds, nginx, ripley):
    at = f"http://127.0.0.1:{RIPLEY}"
    table = [
        ("nginx, the page", f"http://127.0.0.1:{NGINX}/", None),
        ("ripley, a stored answer", f"{at}/e/{session}", BATCH),
        ("nginx, the page by a script", f"http://127.0.0.1:{NGINX}/", FILES),
        ("ripley, an opening and its closing", f"{at}/", VISITS),
    ]
    wrong, first = 0, {}
    columns = ["what", "connections", "requests a second", "of nginx", "processor us a request", "answers of other codes"]
    print("| " + " | ".join(columns) + " |\n" + "|---" * len(columns) + "|")
    for name, url, script in table:
        pid = nginx if name.startswith("nginx") else ripley
        for connections in (1, 32):
            before = spent(pid)
            speed, others = loaded(url, connections, seconds, script)
            each = (spent(pid) - before) / (speed * seconds) * 1e6
            if name.startswith("nginx"):
                first[connections] = speed
            wrong += others
            print(f"| {name} | {connections} | {speed:.0f} | {speed / first[connections]:.2f} | {each:.1f} | {others} |", flush=True)
    return wrong


def main():
    program, seconds = sys.argv[1], int(sys.argv[2]) if len(sys.argv) > 2 else 5
    with tempfile.TemporaryDirectory() as room:
        conf = pathlib.Path(room) / "nginx.conf"
        conf.write_text(CONF.format(room=room, port=NGINX, root=FIRST))
        nginx = subprocess.Popen(["nginx", "-c", conf, "-p", room])
        words = [program, "serve", FIRST / "page.html", FIRST / "app.json", f"127.0.0.1:{RIPLEY}"]
        ripley = subprocess.Popen(words, stdout=subprocess.DEVNULL, stderr=subprocess.DEVNULL)
        try:
            waits_for(NGINX)
            session = waits_for(RIPLEY).headers["Ripley-Session"]
            wrong = rows(session, seconds, nginx.pid, ripley.pid)
        finally:
            ripley.kill()
            nginx.terminate()
            nginx.wait()
    sys.exit(1 if wrong else 0)


main()
