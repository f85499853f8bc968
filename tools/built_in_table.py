#!/usr/bin/env python3
"""Writes the table of calls of the built-in functions, with arguments and receivers of every kind, and their outcomes.

usage: built_in_table.py > tables/built_ins.md
       built_in_table.py --node

The outcomes come from `built_in_model.py` and from no run. `tools/library_rows.py tables/built_ins.md PROGRAM` compares
them with what the program `script` gives. With `--node` each row whose outcome is a value or a throw is compared with
what node gives in strict mode: a line for each that differs, and last how many agree; the status is 0 where all do.

A heading `Built-ins: SUBJECT` stands above each table, which has these columns.

| column | what it holds |
|---|---|
| expression | an expression of a script |
| result | its value as `script` prints it, `fault NAME`, or `throws a CLASS` |
"""
import json
import subprocess
import sys
from itertools import product

sys.dont_write_bytecode = True
from built_in_model import (
    GLOBALS, GREATEST, HAS_OWN_PROPERTY, NAN, OF_ARRAYS, OF_FUNCTIONS, OF_MATH, OF_TEXTS, UNDEFINED,
    Array, BuiltIn, Failure, Plain, Script, called, constructed, member, outcome, shown)

PLAIN = Plain({"a": 1})
FAILURE = Failure("Error", {"message": "m"})

# A value of every kind. 2, "3", "0x1" and " 4 " are places within the receivers below, 9 is past them.
KINDS = [
    UNDEFINED, None, True, False, NAN, 0, 2, -2, 9, 4294967298, "", "3", "0x1", " 4 ", "abc", Array(1), PLAIN, Script(),
    GLOBALS["isNaN"]]

# Further values of one argument.
FURTHER = [
    GREATEST, -GREATEST, "-3", "+1", "-0", "00012", "0X1F", "-0x1", "0x", "12px", "1 2", "\n5\t", "\u00a06\ufeff",
    "1.5", "1.", ".", "-1e+3", "Infinity", "-Infinity", "infinity", "9007199254740991", "9007199254740992",
    "-9007199254740992", "0x20000000000000", "length", "constructor", "__a", "01", FAILURE, GLOBALS["Math"]]

# Arguments behind those that are read: two of them would end the run if they were.
UNREAD = [PLAIN, "1.5", UNDEFINED, 1]

# Arguments of receivers that are not usual.
FEW = [[], [2], [PLAIN]]

# Places around a length of 5, and the furthest.
BOUNDS = [-6, -5, -1, 1, 4, 5, 6, GREATEST, -GREATEST]

NUMERALS = [
    "1f", "0x1f", "-0X1fz", "0x", "zZ", "- 7", "+0x", "\n\u2028 -12.5e3", "101", "0b1", "12\u0663", "\u212a", "8",
    "9007199254740991", "9007199254740992", "-9007199254740992x", "0x1fffffffffffff", "0x20000000000000", 255, -10]
RADIXES = [UNDEFINED, -1, 0, 2, 10, 16, 36, 37, 4294967312, -4294967286]

WORDS = "2nullabc undefined-20x1 4 true3false9NaN0null2"
NAMES = ["undefined", "null", "true", "NaN", "0", "-2", "4294967298", "", "abc", "1.5", "length"]
MANY = [0, None, "3", GLOBALS["isNaN"], UNDEFINED, -2, True, "", 9, NAN, False, 2, "abc", 0, None, 2]

# How many arguments a function reads that reads all.
ALL = 99


def source(value):
    """An expression for a value."""
    if isinstance(value, Script):
        return "function(){}"
    if isinstance(value, Failure):
        return f"{value.name}({shown(value.properties['message'])})"
    if isinstance(value, Array):
        return "[" + ",".join(source(element) for element in value.elements) + "]"
    return value.name if isinstance(value, BuiltIn) else shown(value)


# A call is a form, with dots for its arguments, and its value as a function of them.


def plain_call(form, function, this=lambda: UNDEFINED):
    """A call of a function with a new `this`."""
    return form, lambda arguments: called(function, this(), arguments)


def member_call(form, base, name):
    """A call of a member of a new value."""
    def value(arguments):
        this = base()
        return called(member(this, name), this, arguments)
    return f"{form}.{name}(...)", value


def changing_call(elements, name):
    """A call of a member of a new array: its value, and the array as it is then."""
    def value(arguments):
        this = Array(*elements)
        return Array(called(member(this, name), this, arguments), this)
    return f"(function(a){{return [a.{name}(...),a]}})({source(Array(*elements))})", value


def array_call(elements, name):
    return member_call(source(Array(*elements)), lambda: Array(*elements), name)


def fresh(value):
    """The value, or an array like it, which a call may change."""
    return Array(*value.elements) if isinstance(value, Array) else value


def text_call(text, name):
    return member_call(source(text), lambda: text, name)


def row(call, arguments):
    """A row: the expression, and its outcome."""
    form, value = call
    listed = ",".join(source(argument) for argument in arguments)
    return form.replace("...", listed), outcome(lambda: value(list(arguments)))


def rows(call, lists):
    return [row(call, arguments) for arguments in lists]


def singles(call, values=KINDS + FURTHER):
    """A call without arguments, and with each one."""
    return rows(call, [[]] + [[value] for value in values])


def severals(call, reads):
    """A call with two and three arguments; `reads` says how many are read."""
    some = [UNDEFINED, None, 2, -2, "3", "abc"]
    if reads == ALL:
        threes = product([2, NAN, "3"], [None, -2, PLAIN], [True, 9, "1.5"])
    elif reads == 2:
        threes = product(some, [UNDEFINED, 4294967298], UNREAD[:2])
    else:
        threes = product(some, UNREAD[:2], UNREAD[1:3])
    twos = product(KINDS, KINDS) if reads >= 2 else product([2, "3", "abc"], UNREAD)
    return rows(call, twos) + rows(call, threes)


def neighbours(call):
    """A call with two and three arguments, each of which is of every kind."""
    turned = [KINDS[count:] + KINDS[:count] for count in (0, 1, 4, 9)]
    return rows(call, zip(turned[0], turned[1])) + rows(call, zip(turned[0], turned[2])) + rows(call, zip(*turned[1:]))


def these(this, arguments):
    return Array(this, *(arguments + [UNDEFINED, UNDEFINED])[:2])


def tables_of_functions():
    """The rows of each function with its usual receivers, by its name."""
    for name, reads in [("parseInt", 2)] + [(name, 1) for name in GLOBALS if name not in ("parseInt", "Math")]:
        call = plain_call(f"{name}(...)", GLOBALS[name])
        values = KINDS if name in ("TypeError", "RangeError") else KINDS + FURTHER
        yield name, singles(call, values) + severals(call, reads)
    call = plain_call("parseInt(...)", GLOBALS["parseInt"])
    yield "parseInt, numerals and radixes", rows(call, product(NUMERALS, RADIXES))
    for name, reads in ("abs", 1), ("floor", 1), ("max", ALL), ("min", ALL):
        call = plain_call(f"Math.{name}(...)", OF_MATH[name])
        yield f"Math.{name}", singles(call) + severals(call, reads)
    yield from tables_of_arrays()
    yield from tables_of_texts()
    yield "hasOwnProperty", rows_of_names()
    call = member_call("(function(a,b){return [this,a,b]})", lambda: Script(these), "call")
    yield "call", singles(call) + neighbours(call)


def tables_of_arrays():
    call = changing_call([7], "push")
    yield "push", singles(call) + neighbours(call)
    call = changing_call([7, 8], "pop")
    yield "pop", singles(call, KINDS) + severals(call, 0) + rows(changing_call([], "pop"), FEW)
    call = array_call([1, 2, 3, 4, 5], "slice")
    yield "slice", (
        singles(call) + severals(call, 2) + rows(call, product(BOUNDS, BOUNDS)) + rows(array_call([], "slice"), FEW))
    call = array_call(MANY, "indexOf")
    yield "indexOf of an array", (
        singles(call) + severals(call, 2) + rows(call, product([0, None], range(-17, 18)))
        + rows(array_call([], "indexOf"), [[], [2], [2, PLAIN], [2, "1.5"]]))
    call = array_call([1, None, "x", UNDEFINED, True, NAN, -1], "join")
    yield "join", singles(call) + severals(call, 1) + rows(array_call([], "join"), FEW) + [
        each for value in KINDS for each in rows(array_call([1, value, 2], "join"), [[], [""], [PLAIN]])]


def tables_of_texts():
    for name in "charAt", "charCodeAt":
        call = text_call("hello", name)
        yield name, singles(call) + severals(call, 1) + rows(call, [[place] for place in BOUNDS]) + [
            row(text_call(text, name), [place]) for text in ("", "\ud83d\u00e9\"\\") for place in range(-1, 5)]
    call = text_call("hello", "substring")
    yield "substring", singles(call) + severals(call, 2) + rows(call, product(BOUNDS, BOUNDS))
    call = text_call(WORDS, "indexOf")
    yield "indexOf of a text", singles(call) + severals(call, 2) + [
        row(text_call(text, "indexOf"), pair)
        for text in ("aabaab", "") for pair in product(["", "a", "aab", "abaaba"], range(-1, 8))]


def rows_of_names():
    """Rows of `hasOwnProperty`."""
    named = "({" + ",".join(f"{shown(name)}:1" for name in NAMES) + "})"
    call = member_call(named, lambda: Plain(dict.fromkeys(NAMES, 1)), "hasOwnProperty")
    of_function = member_call("(function(){}).prototype", lambda: Plain({}, of_function=True), "hasOwnProperty")
    of_array = array_call([1, 2, 3], "hasOwnProperty")
    places = [["2"], ["03"], ["2.0"], [3], ["4294967295"]]
    return (
        singles(call) + severals(call, 1) + singles(of_array) + rows(of_array, places)
        + singles(of_function, KINDS + ["constructor", "__a"]))


def sources():
    """Each built-in function by an expression for it."""
    found = {name: function for name, function in GLOBALS.items() if function.body}
    found.update({f"Math.{name}": function for name, function in OF_MATH.items()})
    found.update({f"[].{name}": function for name, function in OF_ARRAYS.items() if function is not HAS_OWN_PROPERTY})
    found.update({f"\"\".{name}": function for name, function in OF_TEXTS.items()})
    return {**found, "{}.hasOwnProperty": HAS_OWN_PROPERTY, "function(){}.call": OF_FUNCTIONS["call"]}


def tables_of_receivers():
    """The rows of other receivers, of names on bases of every kind, and of `new`."""
    put = "(function(o){o.p=%s;return o.p(...)})(%s)"
    of_prototype = "(function(F){F.prototype.p=%s;return new F().p(...)})(function(){})"
    for form, function in sources().items():
        calls = [
            plain_call(f"(0,{form})(...)", function),
            plain_call(f"({{p:{form}}}).p(...)", function, lambda: Plain({"p": function})),
            plain_call(of_prototype % form, function, lambda: Plain({})),
            plain_call(put % (form, "Error(\"m\")"), function, lambda: FAILURE),
            plain_call(put % (form, "function(a,b){return [this,a,b]}"), function, lambda: Script(these))]
        yield f"receivers of {form}", [each for call in calls for each in rows(call, FEW)]
    bases = KINDS + [FAILURE, GLOBALS["Math"]]
    names = list(dict.fromkeys([*OF_MATH, *OF_ARRAYS, *OF_TEXTS, *OF_FUNCTIONS]))
    yield "names on bases of every kind", [
        row(member_call(f"({source(base)})", lambda: fresh(base), name), ["a"]) for name in names for base in bases]
    methods = {form: function for form, function in sources().items() if "." in form and not form.startswith("Math.")}
    yield "call of a built-in", [
        each for form, function in methods.items()
        for each in rows(member_call(form, lambda: function, "call"), [[this] for this in KINDS])]


def new_call(form, function):
    return f"new {form}(...)", lambda arguments: constructed(function, arguments)


def tables_of_new():
    makers = [name for name, function in GLOBALS.items() if function.made]
    others = [new_call(form, function) for form, function in sources().items() if form not in makers]
    yield "new", [each for name in makers for each in singles(new_call(name, GLOBALS[name]), KINDS)] + [
        each for call in others for each in rows(call, FEW)]
    math = GLOBALS["Math"]
    yield "Math", rows(plain_call("Math(...)", math), FEW) + rows(new_call("Math", math), FEW)


def tables():
    """Every table by its heading, each expression once."""
    for tables in tables_of_functions(), tables_of_receivers(), tables_of_new():
        for heading, found in tables:
            yield heading, dict(found)


def cell(text):
    return "`" + text.replace("\\", "\\\\").replace("|", "\\|") + "`"


def write():
    print("# Calls of the built-in functions\n")
    print("Written by `tools/built_in_table.py`, which says how the rows are read and compared.")
    for heading, found in tables():
        print(f"\n## Built-ins: {heading}\n\n| expression | result |\n|---|---|")
        for expression, result in found.items():
            quoted = cell(result[1:-1]) if result.startswith("`") else result
            print(f"| {cell(expression)} | {quoted} |")


# Reads a list of expressions, and writes the outcome of each as a row has it.
NODE = r"""
function text(unit) { return "\\u" + ("000" + unit.charCodeAt(0).toString(16)).slice(-4); }
function shown(v) {
  if (typeof v === "string") return '"' + v.replace(/[^ !#-\[\]-~]/g, text) + '"';
  if (Array.isArray(v)) return "[" + v.map(shown).join(",") + "]";
  if (v === Math) return "builtin Math";
  if (typeof v === "function") return /native code/.test(v) ? "builtin " + v.name : "function";
  if (typeof v !== "object" || v === null) return String(v);
  var isError = v instanceof Error;
  var keys = Object.getOwnPropertyNames(v).filter(function (k) { return !isError || k === "message"; });
  return (isError ? v.name : "") + "{" + keys.map(function (k) { return k + ":" + shown(v[k]); }).join(",") + "}";
}
function outcome(expression) {
  try { return "`" + shown((0, eval)('"use strict";(' + expression + ")")) + "`"; }
  catch (e) { return "throws a " + e.name; }
}
var all = JSON.parse(require("fs").readFileSync(0, "utf8"));
console.log(JSON.stringify(all.map(outcome)));
"""


def compare():
    """Prints the rows that node sees otherwise; tells whether there is none."""
    judged = [each for _, found in tables() for each in found.items() if not each[1].startswith("fault ")]
    given = json.dumps([expression for expression, _ in judged])
    ran = subprocess.run(["node", "-e", NODE], input=given, capture_output=True, text=True, check=True)
    found = [each for each in zip(judged, json.loads(ran.stdout)) if each[0][1] != each[1]]
    for (expression, result), came in found:
        print(f"{expression}: {result} here, {came} in node")
    print(f"{len(judged) - len(found)} of {len(judged)} rows agree with node")
    return not found


def main(words):
    if words == ["--node"]:
        return 0 if compare() else 1
    if words:
        print("usage: built_in_table.py [--node]", file=sys.stderr)
        return 2
    write()
    return 0


if __name__ == "__main__":
    sys.exit(main(sys.argv[1:]))
