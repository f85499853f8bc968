#!/usr/bin/env python3
"""Runs the rows of a folder through the programs `script` and `ripley`, and says which do not agree.

usage: rows.py FOLDER SCRIPT RIPLEY [NAME ..]

FOLDER is `rows/`; with NAMEs only the files of these names are run. Prints of each row that does not agree what is wanted
and what came, and last how many agree; the status is 0 where all do. What is wanted comes from outside the programs: the
standards, other implementations, and the tables that say what a program is to print.

A file `.md` has Markdown tables. The heading of a section, up to a colon, says how its rows are run: EACH, OF_SECTION and
ALL below name the function for each, whose first lines tell the columns; the headings that `library_rows.py` knows are run
as there. Cells are written as there. A line `WORD: ..` in front of a table, with a cell behind it, holds for all its rows.

A file `.txt` has cases. Each begins with a line `== NAME`, and a line with the command: `script` or `ripley`, its
arguments, ` -> STATUS` where the status is not 0, and ` > FILE` where the standard output is a file. Then come the files that
it is run over, each behind a line `-- NAME`, and what it prints behind `-- stdout`. Files in front of the first case
belong to all. Behind `-- NAME escaped` line ends count for nothing, and escapes stand for what they stand for in cells;
behind `-- stdout has` stand lines that come in this order, among others.
"""
import concurrent.futures
import json
import pathlib
import re
import socket
import subprocess
import sys
import tempfile
import time
from collections.abc import Callable, Iterator

import library_rows
from library_rows import cells_of, text_of

ROWS = pathlib.Path(__file__).resolve().parent.parent / "rows"
SECONDS = 60
WORKERS = 3

MANIFEST = '{"version":1,"functions":{},"limits":{}}'
ROOMY = '"cells":1000000,"units":4000000,"fuel":10000000,"queue":1048576'

Cells = list[str]
# A row, what is wanted of it, and what came.
Outcome = tuple[str, str, str]


def data(text: str) -> bytes:
    return text.encode("utf-8", "surrogateescape")


def lines_of(printed: str) -> list[str]:
    """The lines of what a program printed; units that count as line ends elsewhere belong to a line."""
    return printed.split("\n")[:-1]


class Programs:
    """The two programs, run over files in a folder of their own."""

    def __init__(self, script: str, ripley: str) -> None:
        self.paths = {"script": pathlib.Path(script).resolve(), "ripley": pathlib.Path(ripley).resolve()}

    def run(self, command: Cells, files: dict[str, str], output: str | None = None) -> tuple[int, str]:
        """The status, and what was printed."""
        with tempfile.TemporaryDirectory() as folder:
            for name, text in files.items():
                (pathlib.Path(folder) / name).write_bytes(data(text))
            words = [str(self.paths[command[0]]), *command[1:]]
            with open(output or "/dev/null", "wb") as sink:
                out = sink if output else subprocess.PIPE
                ran = subprocess.run(words, cwd=folder, stdin=subprocess.DEVNULL, stdout=out,
                                     stderr=subprocess.DEVNULL, timeout=SECONDS)
        return ran.returncode, (ran.stdout or b"").decode("utf-8", "surrogateescape")


class Section:
    """A heading, the lines between it and its table, and the rows, each a list of cells as they are written."""

    def __init__(self, heading: str) -> None:
        self.heading = heading
        self.kind = heading.partition(":")[0]
        self.lines: list[str] = []
        self.rows: list[Cells] = []

    def told(self, word: str, default: str) -> str:
        """What the line `WORD: ..` in front of the table says."""
        for line in self.lines:
            if line.startswith(word + ": "):
                return text_of(line[len(word) + 2:])
        return default


def sections_of(text: str) -> list[Section]:
    found: list[Section] = []
    in_table = False
    for line in text.split("\n"):
        if line.startswith("#"):
            found.append(Section(line.lstrip("#").strip()))
            in_table = False
        elif found and line.startswith("|"):
            # The first line of a table names its columns, and the second is a rule.
            if in_table and not re.fullmatch(r"[|\-: ]+", line):
                found[-1].rows.append(cells_of(line))
            in_table = True
        elif found:
            found[-1].lines.append(line)
            in_table = False
    return found


# Sections of which each row is a run of its own: what is wanted of it, and what came.

def tokens(programs: Programs, cells: Cells) -> tuple[str, str]:
    """A script; its tokens, each as KIND(START,COUNT) or KIND(START,COUNT,line), or its refusal."""
    return text_of(cells[1]), shown_tokens(*programs.run(["script", "tokens", "s"], {"s": text_of(cells[0])}))


def shown_tokens(status: int, printed: str) -> str:
    if status == 2 and printed.startswith("refused "):
        return printed[len("refused "):].strip()
    words = [line.split() for line in lines_of(printed)]
    if status != 0 or any(len(line) != 4 for line in words):
        return f"status {status}: {printed}"
    return " ".join(f"{kind}({start},{count}{',line' if line == 'line' else ''})" for kind, start, count, line in words)


def tree(programs: Programs, cells: Cells) -> tuple[str, str]:
    """A script; `a tree`, or its statements as FORM or (FORM CHILD ..), with @PLACE where one has it, or its refusal."""
    status, printed = programs.run(["script", "tree", "s"], {"s": text_of(cells[0])})
    wanted = text_of(cells[1])
    if status == 2 and printed.startswith("refused "):
        return wanted, printed[len("refused "):].strip()
    if status != 0 or not printed.startswith("Script @0\n"):
        return wanted, f"status {status}: {printed}"
    if wanted == "a tree":
        return wanted, wanted
    found = shown_tree(lines_of(printed))
    return wanted, found if "@" in wanted else re.sub(r"@\d+", "", found)


def shown_tree(lines: Cells) -> str:
    """The forms below the script, as a text with parentheses."""
    depths = [(len(line) - len(line.lstrip())) // 2 for line in lines] + [0]
    shown = ""
    for at, line in enumerate(lines[1:], 1):
        has_children = depths[at + 1] > depths[at]
        gap = " " if shown else ""
        shown += gap + ("(" if has_children else "") + "".join(line.split())
        closed = max(depths[at] - max(depths[at + 1], 1), 0)
        shown += ")" * closed
    return shown


def run(programs: Programs, cells: Cells) -> tuple[str, str]:
    """A script; words behind it for its limits; lines that are printed, in their order, with ` ; ` between them."""
    command = ["script", "run", "s", *text_of(cells[1]).split()]
    _, printed = programs.run(command, {"s": text_of(cells[0])})
    wanted = text_of(cells[2]).split(" ; ")
    return " ; ".join(wanted), " ; ".join(line for line in lines_of(printed) if line in wanted) or printed


def check(programs: Programs, cells: Cells) -> tuple[str, str]:
    """A page, with ^ where it is refused; `ok nodes N scripts N`, or a kind. The manifest is empty where it is refused."""
    page, wanted = text_of(cells[0]), cells[1]
    if "^" in page and not wanted.startswith("ok"):
        before, _, behind = page.partition("^")
        page, wanted = before + behind, f"{wanted} {len(data(before))}"
    return checked(programs, page, wanted)


def check_body(programs: Programs, cells: Cells) -> tuple[str, str]:
    """The same of what a page has behind `<body>`, with its end tags behind it where the body has no ^ at its end."""
    body = text_of(cells[0])
    page = f"<html><head></head><body>{body}" + ("" if body.endswith("^") else "</body></html>")
    before, _, behind = page.partition("^")
    wanted = cells[1] if cells[1].startswith("ok") or "^" not in page else f"{cells[1]} {len(data(before))}"
    return checked(programs, before + behind, wanted)


def checked(programs: Programs, page: str, wanted: str) -> tuple[str, str]:
    is_ok = wanted.startswith("ok")
    _, printed = programs.run(["ripley", "check", "p", "a"], {"p": page, "a": MANIFEST if is_ok else ""})
    if not is_ok and not wanted.startswith("script"):
        wanted = f"page {wanted}"
    return wanted if is_ok else f"refused {wanted}", printed.strip()


def manifest(programs: Programs, cells: Cells) -> tuple[str, str]:
    """A manifest; `ok`, or why it is refused."""
    page = "<html><head></head><body></body></html>"
    _, printed = programs.run(["ripley", "check", "p", "a"], {"p": page, "a": text_of(cells[0])})
    wanted = "ok nodes 4 scripts 0" if cells[1] == "ok" else f"refused app {cells[1]}"
    return wanted, printed.strip()


def functions(programs: Programs, cells: Cells) -> tuple[str, str]:
    """The functions of a manifest; `ok`, or why it is refused."""
    whole = f'{{"version":1,"functions":{{{text_of(cells[0])}}},"limits":{{}}}}'
    return manifest(programs, [whole.replace("\\", "\\\\"), cells[1]])


def limits(programs: Programs, cells: Cells) -> tuple[str, str]:
    """The limits of a manifest; `ok`, or why it is refused."""
    return manifest(programs, [f'{{"version":1,"functions":{{}},"limits":{{{text_of(cells[0])}}}}}', cells[1]])


def words(programs: Programs, cells: Cells) -> tuple[str, str]:
    """Arguments of `ripley` where there are no files; its status."""
    status, printed = programs.run(["ripley", *text_of(cells[0]).split(" ")], {})
    usage = "usage: ripley check|replay|serve|drive|generate\n"
    is_as_told = printed.startswith("generate ") if status == 0 else printed == (usage if status == 1 else "")
    return cells[1], str(status) if is_as_told else f"status {status}: {printed}"


def trace(programs: Programs, cells: Cells) -> tuple[str, str]:
    """A trace; `read`, or the number of the line that is refused."""
    files = {"p": "<html><head></head><body></body></html>", "a": MANIFEST, "t": text_of(cells[0])}
    status, printed = programs.run(["ripley", "replay", "p", "a", "t"], files)
    is_read = status == 0 and printed.endswith(" 0\n")
    return f"refused trace {cells[1]}" if cells[1] != "read" else "read", "read" if is_read else printed.strip()


def gestures(programs: Programs, cells: Cells) -> tuple[str, str]:
    """A file of gestures; `read`, or the line of the first that is refused, be it no gesture or one that can't be made."""
    files = {"p": "<html><head></head><body></body></html>", "a": MANIFEST, "g": text_of(cells[0])}
    status, printed = programs.run(["ripley", "drive", "p", "a", "g"], files)
    is_read = status == 0 and printed.startswith("open 0\n")
    return f"refused gestures {cells[1]}" if cells[1] != "read" else "read", "read" if is_read else printed.strip()


def page_of(body: str, script: str) -> str:
    return f'<html><head></head><body>{body}<script>"use strict";{script}</script></body></html>'


def calls_in(trace_text: str) -> list[list]:
    """The calls that a trace tells, each with its name and arguments; and last how a session ended, if it did."""
    found = []
    for line in lines_of(trace_text):
        if line.startswith("say ") and "{" in line:
            items = json.loads(line[line.index("{"):])["items"]
            found += [[item[2], item[3]] for item in items if item[0] == "call"]
        elif line.startswith("# ended "):
            found.append(["ended", line.split()[2]])
    return found


def driven(programs: Programs, page: str, app: str, lines: str) -> list[list]:
    _, printed = programs.run(["ripley", "drive", "p", "a", "g"], {"p": page, "a": app, "g": lines})
    return calls_in(printed) if printed.startswith("open ") else [["printed", printed]]


def with_limits(text: str) -> str:
    return f'{{"version":1,"functions":{{}},"limits":{{{text}}}}}'


def document(programs: Programs, cells: Cells) -> tuple[str, str]:
    """A body; a script that calls `f` with a list; limits; that list as JSON, or `ended WORD`."""
    page = page_of(text_of(cells[0]), "function f(x){ripley.call(\"f\",[x],null);}" + text_of(cells[1]))
    found = driven(programs, page, with_limits(text_of(cells[2])), "flush\n")
    told = [f"ended {it[1]}" if it[0] == "ended" else json.dumps(it[1][0], ensure_ascii=False, separators=(",", ":"))
            if it[0] == "f" else it[1] for it in found]
    return text_of(cells[3]), " ".join(told)


def nodes(programs: Programs, cells: Cells) -> tuple[str, str]:
    """A page; its nodes behind the document, each with the number of its parent. A script at its end tells them."""
    page = text_of(cells[0])
    at = page.rindex("</body")
    dump = page_of("", (ROWS / "nodes.js").read_text())
    script = dump[len("<html><head></head><body>"):-len("</body></html>")]
    found = driven(programs, page[:at] + script + page[at:], with_limits(ROOMY), "flush\n")
    return text_of(cells[1]), " ".join(it[1][0] if it[0] == "n" else str(it) for it in found)


def events(programs: Programs, cells: Cells) -> tuple[str, str]:
    """Listeners; what functions do; what is done; the calls. `rows/events.html` says how each is written."""
    page = (ROWS / "events.html").read_text()
    page = page.replace("LISTENERS", text_of(cells[0])).replace("DEEDS", text_of(cells[1]))
    found = driven(programs, page, with_limits(ROOMY), text_of(cells[2]).replace("; ", "\n") + "\n")
    return text_of(cells[3]), json.dumps([it[1] for it in found], separators=(",", ":"))


# Sections of which all rows come to one run.

def sessions(programs: Programs, page: str, bodies: Cells) -> list[Cells]:
    """The lines of the log of each of as many sessions as there are bodies, each of which is told to its session."""
    lines = "open 0\n" + "".join(f"say 0 get\nsay 0 e {at} {body}\n" for at, body in enumerate(bodies, 1))
    files = {"p": page, "a": with_limits('"cells":10000,"sessions":1019'), "t": lines}
    _, printed = programs.run(["ripley", "replay", "p", "a", "t"], files)
    found: list[Cells] = [[] for _ in bodies]
    for line in lines_of(printed):
        parts = line.split(" ")
        if parts[0] in ("batch", "serve", "done") and int(parts[2]) <= len(bodies):
            found[int(parts[2]) - 1].append(line)
    return found


def items_of(lines: Cells) -> str:
    """The items of the first batch of a session, `refused` where it was opened and has none."""
    batch = next((line for line in lines if line.startswith("batch ")), None)
    if batch is not None:
        return batch.split(" ", 4)[4]
    return "refused" if lines and lines[0].endswith(" 0 ok") else "no session"


def bodies(programs: Programs, section: Section) -> Iterator[Outcome]:
    """A body that is told to a session of its own; the items as the log has them, or `refused`."""
    asked = [text_of(cells[0]) for cells in section.rows]
    told = sessions(programs, "<html><head></head><body></body></html>", asked)
    for body, cells, lines in zip(asked, section.rows, told):
        yield body, text_of(cells[1]), items_of(lines)


def arguments(programs: Programs, section: Section) -> Iterator[Outcome]:
    """A list of arguments of a call that is told; the list as the log has it, or `refused`."""
    asked = [text_of(cells[0]) for cells in section.rows]
    whole = [f'{{"batch":1,"items":[["call",1,"f",{text}]]}}' for text in asked]
    told = sessions(programs, "<html><head></head><body></body></html>", whole)
    for text, cells, lines in zip(asked, section.rows, told):
        items = items_of(lines)
        yield text, text_of(cells[1]), items[len('[["call",1,"f",'):-2] if items.startswith("[") else items


def reports(programs: Programs, section: Section) -> Iterator[Outcome]:
    """An item that is told to a session of its own, over `rows/reports.html`; how the batch is done."""
    page = (ROWS / "reports.html").read_text()
    asked = [text_of(cells[0]) for cells in section.rows]
    told = sessions(programs, page, [f'{{"batch":1,"items":[{item}]}}' for item in asked])
    for item, cells, lines in zip(asked, section.rows, told):
        done = next((line for line in lines if line.startswith("done ") and line.split(" ")[3] == "1"), "none")
        yield item, cells[1], done.split(" ", 4)[-1]


def store_calls(section: Section) -> list[tuple[str, str, str]]:
    """Each call of a table of calls, with its arguments and its reply. One that stands `N times` is made so often."""
    found = []
    for function, args, reply in section.rows:
        name, _, times = function.partition(" × ")
        for number in range(int(times or 1)):
            found.append((name, text_of(args).replace("#", str(number)) if times else text_of(args), text_of(reply)))
    return found


def store(programs: Programs, section: Section) -> Iterator[Outcome]:
    """A function, arguments, the reply; the calls are made one behind the other. `Functions: ..` says which there are."""
    asked = store_calls(section)
    script = "".join(f'ripley.call("{name}",{args},null);' for name, args, _ in asked)
    app = f'{{"version":1,"functions":{{{section.told("Functions", "")}}},"limits":{{{ROOMY}}}}}'
    files = {"p": page_of("", script), "a": app, "g": "flush\n"}
    _, driven_trace = programs.run(["ripley", "drive", "p", "a", "g"], files)
    # The opening takes turns of its own, and a connection keeps 77,824 bytes at most meanwhile.
    files["t"] = driven_trace.replace("say 0 get\n", "say 0 get\n" + 100 * "quiet\n")
    _, printed = programs.run(["ripley", "replay", "p", "a", "t"], files)
    served = [line for line in lines_of(printed) if line.startswith("serve ")]
    for at, (name, args, reply) in enumerate(asked):
        line = served[at] if at < len(served) else printed[-200:]
        in_the_log = json.dumps(json.loads(args), ensure_ascii=False, sort_keys=True, separators=(",", ":"))
        want = f'"{name}" {in_the_log} 0 {reply}'
        yield f"{name} {args}", want, line.split(" ", 5)[-1]


# The words of the tables of operators, and those of the log.
FAULTS = {"whole": "not-whole", "infinite": "infinite", "range": "out-of-range", "profile": "not-in-profile",
          "primitive": "object-to-primitive", "long": "text-too-long"}


def faults(programs: Programs, script: str, expressions: Cells) -> Cells:
    """What each expression ends with, in a session of its own that is told to find it."""
    cases = "".join(f'case "{at}":r=({text});break;' for at, text in enumerate(expressions))
    listener = f'function(){{var r;switch(document.body.firstChild.value){{{cases}}}}}'
    page = page_of("<input>", f'{script}document.body.firstChild.addEventListener("input",{listener},false);')
    told = sessions(programs, page, [f'{{"batch":1,"items":[["event","input",4,"{at}"]]}}' for at in range(len(expressions))])
    words = {f"{name} 1": word for word, name in FAULTS.items()}
    ends = [lines[-1].split(" ", 4)[-1] if lines else "no session" for lines in told]
    return [words.get(end, end) for end in ends]


def values(programs: Programs, script: str, expressions: Cells) -> Cells:
    """What each expression comes to in one run: a value, or `throws`."""
    steps = "".join(f"try{{r.push({text});}}catch(e){{r.push(e.name);}}" for text in expressions)
    command = ["script", "run", "s", "1000000000", "4000000", "4000000"]
    _, printed = programs.run(command, {"s": f"{library_rows.DIRECTIVE}{script}var r=[];{steps}"})
    found = next((line[len("r = ["):-1].split(",") for line in lines_of(printed) if line.startswith("r = [")), [printed])
    return [item.replace('"TypeError"', "throws").replace('"', "'") for item in found]


def operators(programs: Programs, section: Section) -> Iterator[Outcome]:
    """An expression in which `_` is each of the operands in turn; what each comes to."""
    script, operands = section.told("Script", ""), section.told("Operands", "").split(" ; ")
    made = [text_of(cells[0]).replace("_", operand) for cells in section.rows for operand in operands]
    wanted = [word for cells in section.rows for word in text_of(cells[1]).split(" ")]
    ending = [text for text, word in zip(made, wanted) if word in FAULTS]
    valued = [text for text, word in zip(made, wanted) if word not in FAULTS]
    came = dict(zip(ending, faults(programs, script, ending)))
    came.update(zip(valued, values(programs, script, valued)))
    for text, word in zip(made, wanted):
        yield text, word, came.get(text, "none")


# Sections that are run over the sockets of a server.

NOWHERE = b"GET /x HTTP/1.1\r\nHost: a\r\n\r\n"


class Server:
    """`ripley serve` on a free port of this machine, and what one connection at a time is answered."""

    def __init__(self, programs: Programs, page: str, app: str) -> None:
        self.folder = tempfile.TemporaryDirectory()
        for name, text in (("p", page), ("a", app)):
            (pathlib.Path(self.folder.name) / name).write_bytes(data(text))
        with socket.create_server(("127.0.0.1", 0)) as free:
            self.where = free.getsockname()
        words = [programs.paths["ripley"], "serve", "p", "a", f"127.0.0.1:{self.where[1]}"]
        self.process = subprocess.Popen(words, cwd=self.folder.name, stdout=subprocess.DEVNULL, stderr=subprocess.DEVNULL)

    def connect(self) -> socket.socket:
        for _ in range(200):
            try:
                connection = socket.create_connection(self.where, timeout=SECONDS)
                connection.setsockopt(socket.IPPROTO_TCP, socket.TCP_NODELAY, 1)
                return connection
            except ConnectionRefusedError:
                time.sleep(0.02)
        raise TimeoutError("the server can't be reached")

    def end(self) -> None:
        self.process.kill()
        self.process.wait()
        self.folder.cleanup()


def sent(connection: socket.socket, request: bytes, piece: int) -> None:
    """Sends a request in such pieces, or what the server takes of it: one that is refused early may be shut meanwhile."""
    try:
        for at in range(0, len(request), piece):
            connection.sendall(request[at:at + piece])
    except ConnectionError:
        pass


def received(connection: socket.socket, is_bare: bool) -> bytes:
    """One answer, its head and its body; less where no more comes."""
    found, size = b"", None
    try:
        while size is None or len(found) < size:
            more = connection.recv(1 if size is None else size - len(found))
            if not more:
                break
            found += more
            if size is None and found.endswith(b"\r\n\r\n"):
                length = re.search(rb"Content-Length: (\d+)", found)
                size = len(found) + (0 if is_bare or length is None else int(length[1]))
    except OSError:
        pass
    return found


def asked(server: Server, requests: list[bytes], piece: int) -> tuple[bytes, str]:
    """What requests are answered, the last of them, where they are sent in such pieces; and whether the connection is shut."""
    session = answer = b""
    with server.connect() as connection:
        for request in requests:
            sent(connection, request.replace(b"SESSION", session), piece)
            answer = received(connection, request.startswith(b"HEAD"))
            opened = re.search(rb"Ripley-Session: (\S+)", answer)
            session = opened[1] if opened else session
        sent(connection, NOWHERE, len(NOWHERE))
        return answer, "kept" if received(connection, False).startswith(b"HTTP/1.1 404") else "shut"


def answer_text(status: str, body: str, end: str, page: str) -> str:
    """An answer as it is sent; what is drawn stands as `*`."""
    code, _, allow = status.partition(", ")
    form = "text/html; charset=utf-8" if body == "page" else "application/json"
    drawn = ["Ripley-Session: *", "Ripley-Seed: *", "Ripley-Time: *"]
    lines = [f"HTTP/1.1 {code}", f"Content-Type: {form}", *(drawn if body == "page" or code[:3] == "500" else [])]
    text = page if body == "page" else body
    lines += [allow] * (allow != "") + [f"Content-Length: {len(data(text))}"] * (text != "")
    return "\r\n".join(lines + ["Connection: close"] * (end == "shut")) + "\r\n\r\n" + text


def answers(programs: Programs, section: Section) -> Iterator[Outcome]:
    """What is sent, ` » ` where an answer is waited for, and SESSION for the identifier that one told; how the last is
    answered: status, with a field `Allow` behind it; body, or `page`; and whether the connection is kept or shut. Each is
    sent in one piece, and where it is short byte by byte. `Page: ..` and `Manifest: ..` say what is served."""
    page = section.told("Page", "<html><head></head><body></body></html>")
    server = Server(programs, page, section.told("Manifest", MANIFEST))
    try:
        for request, status, body, end in section.rows:
            requests = [data(text) for text in text_of(request).split(" » ")]
            for piece in (65536, 1) if sum(map(len, requests)) < 500 else (65536,):
                answer, ended = asked(server, requests, piece)
                came = re.sub(r"(Ripley-\w+: )\S+", r"\1*", answer.decode("utf-8", "surrogateescape"))
                came = re.sub(r"(\[\d+),\d{13},", r"\1,0,", came)
                length = len(data(came.partition("\r\n\r\n")[2]))
                came = re.sub(r"Content-Length: \d+", f"Content-Length: {length}", came)
                yield request, answer_text(text_of(status), text_of(body), end, page) + end, came + ended
    finally:
        server.end()


EACH: dict[str, Callable[[Programs, Cells], tuple[str, str]]] = {
    "Tokens": tokens,
    "Trees": tree,
    "Runs": run,
    "Pages": check,
    "Bodies of pages": check_body,
    "Nodes": nodes,
    "Manifests": manifest,
    "Functions": functions,
    "Limits of manifests": limits,
    "Words": words,
    "Traces": trace,
    "Gestures": gestures,
    "Document": document,
    "Flows of events": events,
}

ALL: dict[str, Callable[[Programs, Section], Iterator[Outcome]]] = {
    "Bodies of batches": bodies,
    "Arguments": arguments,
    "Reports": reports,
    "Store": store,
    "Operands": operators,
    "Answers": answers,
}


def expression(programs: Programs, section: Section, cells: Cells) -> tuple[str, str]:
    """An expression, behind the script of the section; its value as `r` holds it, `fault NAME`, `throws a CLASS`."""
    script = f"{library_rows.DIRECTIVE}{section.told('Script', '')}var r=({text_of(cells[0])});"
    return compared(programs, library_rows.Row(section.heading, cells, script, library_rows.ending(cells[1])))


def library(programs: Programs, section: Section, cells: Cells) -> tuple[str, str]:
    """A row of a section that `library_rows.py` knows."""
    row = library_rows.SECTIONS[section.kind](section.heading, cells)
    return compared(programs, row) if row else ("a limit that can be set", "another")


def compared(programs: Programs, row: library_rows.Row) -> tuple[str, str]:
    _, printed = programs.run(["script", "run", "s", *row.limits], {"s": row.script})
    found = library_rows.differences(row, printed)
    if not printed.startswith(("outcome ", "refused ")):
        found = [("a run", "one", printed)]
    return "", "".join(f"{key}: {want!r} is wanted, and {came!r} came; " for key, want, came in found)


OF_SECTION = {"Expressions": expression}


def outcomes(programs: Programs, section: Section) -> list[Outcome]:
    """What is wanted of the rows of a section, and what came."""
    if section.kind in ALL:
        return list(ALL[section.kind](programs, section))

    def one(cells: Cells) -> Outcome:
        if section.kind in EACH:
            return (" | ".join(cells), *EACH[section.kind](programs, cells))
        return (" | ".join(cells), *OF_SECTION.get(section.kind, library)(programs, section, cells))

    with concurrent.futures.ThreadPoolExecutor(WORKERS) as pool:
        return list(pool.map(one, section.rows))


KINDS = {*EACH, *OF_SECTION, *ALL, *library_rows.SECTIONS}


# Cases.

class Case:
    """A command over files, and what it is to print."""

    def __init__(self, name: str, command: str, files: dict[str, str]) -> None:
        self.name = name
        command, _, output = command.partition(" > ")
        command, _, status = command.partition(" -> ")
        self.command, self.status, self.output = command.split(), int(status or 0), output or None
        self.files = dict(files)
        self.wanted, self.has = "", False


def cases_of(text: str) -> list[Case]:
    """The cases of a file."""
    shared: dict[str, str] = {}
    found: list[Case] = []
    for part in re.split(r"^(?=== |-- )", text, flags=re.M)[1:]:
        head, _, rest = part.partition("\n")
        if head.startswith("== "):
            found.append(Case(head[3:], rest.strip(), shared))
            continue
        name, _, how = head[3:].partition(" ")
        if how == "escaped":
            rest = text_of(rest.replace("\n", ""))
        if name == "stdout":
            found[-1].wanted, found[-1].has = rest, how == "has"
        else:
            (found[-1].files if found else shared)[name] = rest
    return found


def case_outcome(programs: Programs, case: Case) -> Outcome:
    status, printed = programs.run(case.command, case.files, case.output)
    if case.has:
        wanted = case.wanted.splitlines()
        printed = "".join(f"{line}\n" for line in lines_of(printed) if line in wanted)
    return case.name, f"status {case.status}\n{case.wanted}", f"status {status}\n{printed}"


def file_outcomes(programs: Programs, path: pathlib.Path) -> Iterator[Outcome]:
    text = path.read_text(encoding="utf-8")
    if path.suffix == ".txt":
        with concurrent.futures.ThreadPoolExecutor(WORKERS) as pool:
            yield from pool.map(lambda case: case_outcome(programs, case), cases_of(text))
        return
    for section in sections_of(text):
        if section.rows and section.kind not in KINDS:
            yield section.heading, "a heading that says how its rows are run", "none"
        elif section.rows:
            yield from outcomes(programs, section)


def main(arguments_given: Cells) -> int:
    if len(arguments_given) < 3:
        print("usage: rows.py FOLDER SCRIPT RIPLEY [NAME ..]", file=sys.stderr)
        return 2
    folder, script, ripley, *names = arguments_given
    programs = Programs(script, ripley)
    for path in programs.paths.values():
        if not path.is_file():
            print(f"rows.py: there is no program {path}; `rt run` in its crate, or the gate, makes it", file=sys.stderr)
            return 2
    agreed = wrong = 0
    for path in sorted(pathlib.Path(folder).iterdir()):
        if path.suffix not in (".md", ".txt") or (names and path.name not in names):
            continue
        for row, wanted, came in file_outcomes(programs, path):
            agreed += wanted == came
            if wanted != came:
                wrong += 1
                print(f"{path.name}: {row[:300]}\n    wanted: {wanted[:600]!r}\n    came:   {came[:600]!r}")
    print(f"{agreed} of {agreed + wrong} rows agree")
    return 0 if wrong == 0 else 1


if __name__ == "__main__":
    sys.exit(main(sys.argv[1:]))
