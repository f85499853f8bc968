#!/usr/bin/env python3
"""The messages on standard error, each tried over a small page.

    diagnostics.py RIPLEY [SCRIPT]     runs the programs over each case, and says what differs

A case is a page, a manifest or a third file with one mistake, the line on standard output that it has to have, and what
the message has to say: the place, what is wrong, and what to write instead. Each kind of refusal that the tables of docs/
name has a case. The status is 0 where all is as due.
"""

import os
import re
import subprocess
import sys
import tempfile

TOP = os.path.dirname(os.path.dirname(os.path.abspath(__file__)))
APP = '{"version":1,"functions":{},"limits":{}}'
HEAD = '<!doctype html>\n<html lang="en">\n<head>\n<title>t</title>\n</head>\n<body>\n'
TAIL = "</body>\n</html>\n"


def body(text: str) -> str:
    """A page with this in its body, from line 7 on."""
    return f"{HEAD}{text}\n{TAIL}"


def script(text: str) -> str:
    """A page whose script has this from line 8 on, its second."""
    return body(f'<script>"use strict";\n{text}\n</script>')


def app(functions: str = "{}", limits: str = "{}", version: str = "1") -> str:
    """A manifest of three lines."""
    return f'{{"version":{version},\n"functions":{functions},\n"limits":{limits}}}\n'


# Of a page: its text, the line on standard output, the place, and words of the message.
PAGES = [
    (body("<p>caf\udce9</p>"), "page NotUtf8 78", "7:7", ["UTF-8", "save the page"]),
    ("<html><body></body></html>\n", "page MissingPart 6", "1:7", ["`<head>` should begin here"]),
    ("<body></body>\n", "page MissingPart 0", "1:1", ["`<html>` should begin here"]),
    ("<html><head></head><p>\n", "page MissingPart 19", "1:20", ["`<body>` should begin here"]),
    ("<html><head></head><body>a\n", "page MissingPart 27", "2:1", ["`</head>` or `</body>` is missing"]),
    ("<html><head></head><body></body><p>\n", "page MissingPart 32", "1:33", ["`</html>` should stand here"]),
    (body("a < b"), "page BadTag", "7:3", ["begins no tag", "&lt;"]),
    (body("<b/>"), "page BadTag", "7:1", ["`<b`", "</b>"]),
    (body("<b></b x>"), "page BadTag", "7:4", ["an end tag has its name alone", "write `</b>`"]),
    (body("<!doctype html>"), "page BadTag", "7:1", ["doctype", "leave it out"]),
    (body("<b a=></b>"), "page BadAttribute", "7:4", ["`a`", '`a="value"`']),
    (body("<b =x></b>"), "page BadAttribute", "7:4", ["no name"]),
    (body("<p id=a ID=b></p>"), "page DoubleAttribute", "7:9", ["`ID` stands twice"]),
    (body("fish &chips;"), "page BadReference", "7:6", ["&amp;"]),
    (body("<!-- note"), "page OpenComment", "7:1", ["not closed", "-->"]),
    (body("<div>\n<b><i></b></i></div>"), "page Misnested", "8:7", ["`</i>` should stand here", "`<i>` begins at page.html:8:4"]),
    (body("<br></br>"), "page Misnested", "7:5", ["void element", "leave `</br>` out"]),
    ("<html><head></head><body><p>a", "page Misnested 29", "1:30", ["the page ends in `<p>`", "write `</p>`"]),
    ("<html><head>text</head>", "page TextOutside 12", "1:13", ["text stands outside", "body"]),
    (body("</body></html>"), "page TextOutside", None, []),
    (body("<script></script><p></p>"), "page ScriptNotLast", "7:18", ["follows a script", "end of the body"]),
    (body("<div><script></script></div>"), "page ScriptNotLast", "7:6", ["child of `body`"]),
    (body('<script src="a.js"></script>'), "page ExternalScript", "7:9", ["`src`", "into the page"]),
    (body("<iframe></iframe>"), "page NotInSubset", "7:1", ["`<iframe>` is not in the subset"]),
    (body('<button onclick="f()">b</button>'), "page NotInSubset", "7:9", ["`onclick`", "addEventListener"]),
    (body('<input type="radio">'), "page NotInSubset", "7:1", ["radio", "<select>"]),
    (body("<select multiple></select>"), "page NotInSubset", "7:1", ["one choice", "checkboxes"]),
    (body("<script type=module></script>"), "page NotInSubset", "7:9", ["`type`", "leave `type` out"]),
    (body("<script>a<!--</script>"), "page NotInSubset", "7:10", ["`<!--`", "< !--"]),
    ("<html><head><p></p></head>", "page NotInSubset 12", "1:13", ["no element of the head"]),
    (body("<body></body>"), "page NotInSubset", "7:1", ["one `<body>`"]),
    (body("<b>" * 199), "page TooNested", "7:595", ["200 elements"]),
]

# Of a script: its text from line 8 of the page on, the kind, the place, and words of the message.
SCRIPTS = [
    ("var é;", "BadCharacter", "8:5", ["outside texts and comments", "ASCII"]),
    ("var a = `b`;", "BadCharacter", "8:9", ["template", '"a" + b']),
    ("1px;", "BadCharacter", "8:2", ["directly behind a number"]),
    ("var a = #b;", "BadCharacter", "8:9", ["`#` has no meaning"]),
    ('var a = "x', "OpenText", "8:9", ["not closed", "\\n"]),
    ("/* a", "OpenComment", "8:1", ["*/"]),
    ("var x = 1.5;", "FractionLiteral", "8:9", ["whole", "150 hundredths"]),
    ("var x = 010;", "OctalLiteral", "8:9", ["`0`"]),
    ('var x = "\\1";', "OctalLiteral", "8:10", ["\\x08"]),
    ("9007199254740992;", "LiteralTooLarge", "8:1", ["9007199254740991"]),
    ('"\\x4";', "BadEscape", "8:2", ["two hexadecimal digits"]),
    ("const a = 1;", "Unexpected", "8:1", ["there is no `const`", "write `var`"]),
    ("let a = 1;", "Unexpected", "8:1", ["there is no `let`", "write `var`"]),
    ("class A {}", "Unexpected", "8:1", ["classes", "prototype"]),
    ("import a;", "Unexpected", "8:1", ["modules"]),
    ("var f = (a) => a;", "Unexpected", None, ["arrow functions", "function (a)"]),
    ("var f = () => 1;", "Unexpected", None, ["arrow functions", "function (a)"]),
    ("f(...b);", "Unexpected", "8:3", ["`...`"]),
    ("a?.b;", "Unexpected", "8:3", ["`?.`", "a && a.b"]),
    ("a ?? b;", "Unexpected", "8:4", ["`??`", "=== null"]),
    ("for (k in o) {}", "Unexpected", "8:8", ["names of an object"]),
    ("for (k of o) {}", "Unexpected", "8:8", ["elements of an array"]),
    ("a: for (;;) {}", "Unexpected", "8:2", ["labels"]),
    ("with (a) {}", "Unexpected", "8:1", ["with"]),
    ("debugger;", "Unexpected", "8:1", ["leave it out"]),
    ("{ function f() {} }", "Unexpected", "8:3", ["within a block", "var f = function"]),
    ("var o = {a};", "Unexpected", "8:11", ["{a: a}"]),
    ("var o = {get a() {}};", "Unexpected", "8:14", ["accessors"]),
    ("var o = {a() {}};", "Unexpected", "8:11", ["methods in short"]),
    ("[a,,b];", "Unexpected", "8:4", ["element is left out", "undefined"]),
    ("f(a,);", "Unexpected", "8:5", ["leave the comma out"]),
    ("1 = a;", "Unexpected", "8:3", ["cannot be assigned"]),
    ("/a/.test(b);", "Unexpected", "8:1", ["regular expressions"]),
    ("throw\na;", "Unexpected", "9:1", ["next line"]),
    ("var package;", "Unexpected", "8:5", ["`package` is a reserved word"]),
    ("function f(a = 1) {}", "Unexpected", "8:14", ["undefined"]),
    ("var {a} = b;", "Unexpected", "8:5", ["pattern"]),
    ("2 ** 3;", "Unexpected", "8:4", ["`**`"]),
    ("function f() {", "Unexpected", "9:1", ["the script ends here"]),
    ("a b;", "Unexpected", "8:3", ["no script goes on with `b`"]),
    ("(" * 198 + "1" + ")" * 198 + ";", "TooNested", None, ["200 deep"]),
    ("function f(a, a) {}", "Duplicate", "8:15", ["`a` stands here a second time"]),
    ("eval = 1;", "BadBinding", "8:1", ["`eval`", "another name"]),
    ("var Math;", "BadBinding", "8:5", ["`Math` is a global"]),
    ("var a; delete a;", "BadDelete", "8:8", ["undefined"]),
    ("foo();", "UnknownGlobal", "8:1", ["`foo` is declared nowhere", "function foo() {}"]),
    ('JSON.parse("1");', "UnknownGlobal", "8:1", ["JSON", "ripley.call"]),
    ("console.log(1);", "UnknownGlobal", "8:1", ["console"]),
    ("window.a = 1;", "UnknownGlobal", "8:1", ["window"]),
    ("setTimeout(f, 1);", "UnknownGlobal", "8:1", ["timers"]),
    ("new Date();", "UnknownGlobal", "8:5", ["ripley.now()"]),
    ("this.a = 1;", "NoGlobalObject", "8:1", ["`this`"]),
    ("return;", "BadJump", "8:1", ["outside all functions"]),
    ("break;", "BadJump", "8:1", ["no loop"]),
    ("continue;", "BadJump", "8:1", ["no loop"]),
]

# Of a manifest: its text, the kind, the place, and words of the message.
APPS = [
    ('{"version":1,\n"functions":{,\n', "Syntax", "2:14", ["no JSON"]),
    (app(version="1.0"), "Syntax", "1:12", ["not whole"]),
    (app(functions='{"f":' + "[" * 9 + "]" * 9 + "}"), "Syntax", None, ["8 deep"]),
    ('{"version":1,"functions":{}}\n', "Member", "1:1", ["`limits` is missing"]),
    ('{"version":1,\n"functions":{},\n"limit":{}}\n', "Member", "3:1", ["no member `limit`"]),
    ("[]\n", "Member", "1:1", ["no object"]),
    (app(version="2"), "Version", "1:12", ["version", '"version":1']),
    (app(functions='{"f":["set",""]}'), "Function", "2:18", ["`f` has an operation", "`push`"]),
    (app(functions='{"f g":["put",""]}'), "Function", "2:14", ["`f g` is no name"]),
    (app(functions='{"f":"put"}'), "Function", "2:18", ["`f` is no array"]),
    (app(functions='{"f":["put","a b"]}'), "Function", "2:18", ["prefix"]),
    (app(limits='{"fuel":0}'), "LimitRange", "3:18", ["`fuel` is out of its range"]),
    (app(limits='{"feul":1}'), "LimitRange", "3:11", ["no limit `feul`"]),
    (app(limits='{"sessions":1020}'), "LimitsTooLarge", "3:1", ["4294967296"]),
]

# Where places are told exactly: the bytes of a page, and the place.
PLACES = [
    ("\r\n".join(script("  const a = 1;").split("\n")), "8:3 (script 1, line 2)"),
    (script("\t\tconst a = 1;"), "8:3 (script 1, line 2)"),
    (script('var b = "\u00e9\u20ac\U0001f600"; const a = 1;'), "8:16 (script 1, line 2)"),
    ("\ufeff" + script("const a = 1;"), "8:1 (script 1, line 2)"),
    ("\ufeff<p>", "1:1"),
    (script("").replace("</body>", '<script>"use strict";\n\nlet a;</script>\n</body>'), "12:1 (script 2, line 3)"),
]

# What a browser mends: the body of a page that is accepted, and words of the warning.
MENDED = [
    ("<table><tr><td>a</td></tr></table>", "7:8", ["<tbody>"]),
    ("<table>a<tbody></tbody></table>", "7:8", ["text stands in a table"]),
    ("<table><tbody><td>a</td></tbody></table>", "7:15", ["belongs in a table"]),
    ("<table><p>a</p></table>", "7:8", ["no part of a table"]),
    ("<p><div>a</div></p>", "7:4", ["closes the `<p>`"]),
    ("<a><b><a>a</a></b></a>", "7:7", ["`<a>` stands in `<a>`"]),
    ("<ul><li><li>a</li></li></ul>", "7:9", ["its like"]),
    ("<select><b>a</b></select>", "7:9", ["<select>"]),
    ('<input type="date">', "7:1", ["type"]),
]


def run(program: str, words: list[str], folder: str, wanted: dict[str, str] | None = None) -> tuple[str, str, int]:
    """What a run puts on standard output and standard error, and its status."""
    environment = {"PATH": os.environ.get("PATH", ""), **(wanted or {})}
    ended = subprocess.run([program, *words], cwd=folder, capture_output=True, timeout=60, env=environment, check=False)
    return ended.stdout.decode(), ended.stderr.decode(errors="replace"), ended.returncode


def write(folder: str, name: str, text: str) -> None:
    """Writes a file; `\\udcXX` stands for the byte XX."""
    with open(os.path.join(folder, name), "wb") as file:
        file.write(text.encode(errors="surrogateescape"))


class Table:
    """The cases so far: the kinds that were refused, and what was not as due."""

    def __init__(self, program: str, folder: str) -> None:
        self.program, self.folder = program, folder
        self.kinds: set[str] = set()
        self.faults: list[str] = []
        self.count = 0

    def judge(self, name: str, told: tuple[str, str, int], line: str, words: list[str]) -> None:
        """Compares what a run told with what is due."""
        put, said, _ = told
        self.count += 1
        self.kinds.update(re.findall(r"^refused (?:\w+ )*?([A-Z]\w+)", put))
        if not put.startswith(line):
            self.faults.append(f"{name!r}: standard output is {put!r}, due is {line!r}")
        self.faults += [f"{name!r}: {word!r} is not told:\n{said}" for word in words if word not in said]

    def check(self, page: str, manifest: str, line: str, words: list[str]) -> None:
        """Judges a page and a manifest."""
        write(self.folder, "page.html", page)
        write(self.folder, "app.json", manifest)
        told = run(self.program, ["check", "page.html", "app.json"], self.folder)
        self.judge(page if manifest == APP else manifest, told, line, words)


def place_of(file: str, place: str | None) -> list[str]:
    """How a message begins its second line."""
    return [] if place is None else [f" --> {file}:{place}"]


def try_checks(table: Table) -> None:
    """Tries what `check` refuses."""
    for page, line, place, words in PAGES:
        if place is not None:
            table.check(page, APP, f"refused {line}", place_of("page.html", place) + words)
    for text, kind, place, words in SCRIPTS:
        within = None if place is None else f"{place} (script 1, line {int(place.split(':')[0]) - 6})"
        table.check(script(text), APP, f"refused script 1 {kind} ", place_of("page.html", within) + words)
    table.check(body("<script>var a;</script>"), APP, "refused script 1 NotStrict 0", [" --> page.html:7:9 (script 1, line 1)", '"use strict";'])
    table.check("<html><head></head><body></body></html><p>", APP, "refused page TextOutside 39", [":1:40", "behind `</html>`"])
    for manifest, kind, place, words in APPS:
        table.check(body(""), manifest, f"refused app {kind}", place_of("app.json", place) + words)
    for page, place in PLACES:
        table.check(page, APP, "refused ", place_of("page.html", place))
    for text, place, words in MENDED:
        table.check(body(text), APP, "ok nodes ", ["warning: ", *place_of("page.html", place), *words])
    table.check(body("<p>a</p>" + " " * 16_777_216), APP, "refused page TooLong", ["16777216 bytes"])


def try_files(table: Table) -> None:
    """Tries what is refused of traces and gestures, and a call that is not made."""
    files = ["page.html", "app.json", "third.txt"]
    write(table.folder, "page.html", body('<button id="go">b</button>'))
    write(table.folder, "app.json", APP)
    for command, text, line, words in [
        ("replay", "open 0\nopne 1\n", "refused trace 2", [" --> third.txt:2:1", "none of a trace"]),
        ("drive", "click 7\nclik 7\n", "refused gestures 2", [" --> third.txt:2:1", "no gesture"]),
        ("drive", "# a\nclick 7\ninput 7 a\n", "refused gestures 3", [" --> third.txt:3:1", 'node 7 is `<button id="go">`']),
        ("drive", "click 99\n", "refused gestures 1", [" --> third.txt:1:1", "no such node"]),
    ]:
        write(table.folder, "third.txt", text)
        table.judge(text, run(table.program, [command, *files], table.folder), line, words)
    example = os.path.join(TOP, "examples", "first")
    told = run(table.program, ["replay", "page.html", "app.json", "false.txt"], example)
    table.judge("first/false.txt", told, "open ", ['reported | ["f",[3]]', 'made     | ["f",[2]]', "^"])


def try_all(table: Table) -> None:
    """Tries that all refusals are told on request, and no colour where standard error is a file."""
    page = script("const a = 1;").replace("</body>", "<script>foo(</script>\n</body>").replace("<title>", "<title>")
    write(table.folder, "page.html", page)
    write(table.folder, "app.json", app(version="2"))
    told = run(table.program, ["check", "page.html", "app.json"], table.folder, {"RIPLEY_ALL": "1"})
    table.judge("all", told, "refused script 1 Unexpected 14\n", [":8:1 (script 1, line 2)", "(script 2, line 1)", "app.json:1:12"])
    if "\x1b" in told[1]:
        table.faults.append("colours where standard error is no terminal")


def try_script(table: Table, program: str) -> None:
    """Tries what `script` says of a script alone, and its list of nodes."""
    write(table.folder, "script.js", '"use strict";\r\nvar \U0001f600 = 1;\n')
    told = run(program, ["tokens", "script.js"], table.folder)
    table.judge("script.js", told, "refused BadCharacter 19\n", [" --> script.js:2:5\n", "outside texts"])
    write(table.folder, "script.js", '"use strict";\nfoo();\n')
    told = run(program, ["run", "script.js"], table.folder)
    table.judge("script.js", told, "refused UnknownGlobal 14\n", [" --> script.js:2:1\n", "`foo`"])
    write(table.folder, "page.html", '<html><head></head><body><p id="a">b</p></body></html>')
    nodes = '0 #document\n1   html\n2     head\n3     body\n4       p id="a"\n5         #text "b"\n'
    table.judge("nodes", run(program, ["nodes", "page.html"], table.folder), nodes, [])


def kinds_of(page: str) -> set[str]:
    """The kinds that the tables of a page of the docs name."""
    with open(os.path.join(TOP, "docs", page), encoding="utf-8") as file:
        text = file.read()
    told = re.findall(r"^\| `(?:refused app )?([A-Z][A-Za-z0-9]+)` \|", text, re.M)
    return set(told) - {"OutOfRange", "NotWhole", "Infinite", "ObjectToPrimitive", "TextTooLong", "Hole", "NotInProfile", "BadArgument", "LoneSurrogate", "KIND", "Math"}


def main() -> int:
    """Tries all cases, and says what is not as due."""
    if len(sys.argv) < 2:
        print(__doc__, file=sys.stderr)
        return 2
    with tempfile.TemporaryDirectory() as folder:
        table = Table(os.path.abspath(sys.argv[1]), folder)
        try_checks(table)
        try_files(table)
        try_all(table)
        if len(sys.argv) > 2:
            try_script(table, os.path.abspath(sys.argv[2]))
    untold = set.union(*map(kinds_of, ["PAGES.md", "SCRIPTS.md", "APPLICATIONS.md"])) - table.kinds
    table.faults += [f"no case is refused as {kind}" for kind in sorted(untold)]
    for fault in table.faults:
        print(fault)
    print(f"{table.count} cases, {len(table.faults)} faults")
    return 1 if table.faults else 0


if __name__ == "__main__":
    sys.exit(main())
