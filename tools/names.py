#!/usr/bin/env python3
"""Makes the code, the definitions and the lemmas that are tables of names from tables/names.txt.

    names.py            writes them
    names.py --check    tells whether each is what would be written (the gate runs this)

A new built-in function is a line of tables/names.txt: its name in code, its name in scripts, and its home. Numbers, lengths
and places of texts are counted here. Each file that is made says so in its first line.
"""
import os
import sys
from typing import Callable, Iterable, NamedTuple

TOP = os.path.dirname(os.path.dirname(os.path.abspath(__file__)))
TABLE = "tables/names.txt"
MADE = "Made from tables/names.txt by tools/names.py."
# The crate of the names, and that of the tables of calls.
VALUES = "rip_values"
MEMBERS = "rip_ops"
SPECS = f"Rattle.{VALUES}.specs"
# The longest list that `rt fmt` leaves on one line, in characters.
LONGEST_LIST = 60


class Home(NamedTuple):
    """What built-ins are members of."""
    name: str
    prefix: str
    says: str


class Text(NamedTuple):
    """A fixed text, with the comment above it."""
    name: str
    text: str
    comment: str


class BuiltIn(NamedTuple):
    """A built-in; `member` is the fixed text that names it, where one does."""
    name: str
    text: str
    home: str
    is_function: bool
    member: str


class Global(NamedTuple):
    """A global name, and what it means: a value, the document, or nothing where it is a built-in."""
    name: str
    text: str
    meaning: str


class Calls(NamedTuple):
    """A table of members that are looked up by name."""
    name: str
    members: list[BuiltIn]
    says: str


class Names(NamedTuple):
    """All that the table says."""
    homes: list[Home]
    texts: list[Text]
    built_ins: list[BuiltIn]
    globals: list[Global]
    calls: list[Calls]


class Row(NamedTuple):
    """A line of the table in three columns, of which the last may have spaces; a missing one is empty."""
    number: int
    name: str
    second: str
    third: str


# READING THE TABLE


def fail(row: Row, reason: str) -> None:
    sys.exit(f"{TABLE}, line {row.number}: {reason}.")


def sections() -> dict[str, list[Row]]:
    """The rows of each section. A comment of the code is a row whose name is `//`."""
    found: dict[str, list[Row]] = {}
    rows: list[Row] = []
    with open(os.path.join(TOP, TABLE), encoding="utf-8") as file:
        for number, line in enumerate(file, 1):
            line = line.strip()
            if line.startswith("== "):
                rows = found.setdefault(line.strip("= "), [])
            elif line.startswith("//"):
                rows.append(Row(number, "//", line[2:].strip(), ""))
            elif line and not line.startswith("#"):
                columns = line.split(maxsplit=2) + ["", ""]
                rows.append(Row(number, columns[0], columns[1], columns[2]))
    return found


def spelled(row: Row) -> str:
    """The name in scripts: ASCII that needs no escape."""
    if not row.second or not row.second.isascii() or '"' in row.second or "\\" in row.second:
        fail(row, f"the name of `{row.name}` in scripts is to be ASCII without quotes and backslashes (or `-`)")
    return "" if row.second == "-" else row.second


def read_texts(rows: list[Row]) -> list[Text]:
    """The fixed texts, in the order in which they first stand in the table."""
    texts: dict[str, Text] = {}
    names: dict[str, str] = {}
    comment = ""
    for row in rows:
        if row.name == "//":
            comment = row.second
            continue
        text = spelled(row)
        if names.setdefault(text, row.name) != row.name:
            fail(row, f"`{text}` is `{names[text]}` in a line above")
        if row.name in texts and (texts[row.name].text != text or not row.third):
            fail(row, f"`{row.name}` stands in a line above")
        if row.name not in texts:
            texts[row.name] = Text(row.name, text, comment)
            comment = ""
    return list(texts.values())


def read_built_ins(own: list[Row], members: list[Row], homes: list[Home]) -> list[BuiltIn]:
    """The built-ins, in the order of their numbers."""
    found: dict[str, list[BuiltIn]] = {home.name: [] for home in homes}
    prefixes = {home.name: home.prefix for home in homes}
    for row in own:
        if row.third not in ("object", "function"):
            fail(row, f"`{row.name}` is to be an `object` or a `function`")
        found["Global"].append(BuiltIn(row.name, spelled(row), "Global", row.third == "function", ""))
    for row in members:
        if row.third and row.third not in found:
            fail(row, f"there is no home `{row.third}`")
        if row.third:
            found[row.third].append(BuiltIn(prefixes[row.third] + row.name, spelled(row), row.third, True, row.name))
    built_ins = [built_in for home in homes for built_in in found[home.name]]
    names = [built_in.name for built_in in built_ins]
    for name in names:
        if names.count(name) > 1:
            sys.exit(f"{TABLE}: two built-ins are `{name}` in code.")
    return built_ins


def read_global(row: Row, built_ins: list[BuiltIn]) -> Global:
    if row.second:
        return Global(row.name, spelled(row), row.third)
    for built_in in built_ins:
        if built_in.name == row.name and built_in.home == "Global":
            return Global(row.name, built_in.text, "")
    fail(row, f"`{row.name}` is no built-in with a global name, so that it needs a name and a value")
    raise AssertionError


def read_calls(row: Row, built_ins: list[BuiltIn]) -> Calls:
    members = []
    for home in row.second.split(","):
        found = [built_in for built_in in built_ins if built_in.home == home and built_in.member]
        if not found:
            fail(row, f"`{home}` is no home with members")
        members += found
    return Calls(row.name, members, row.third)


def read() -> Names:
    rows = sections()
    homes = [Home(row.name, "" if row.second == "-" else row.second, row.third) for row in rows["homes"]]
    members = [row for row in rows["texts and members"] if row.name != "//"]
    built_ins = read_built_ins(rows["built-ins with a global name"], members, homes)
    return Names(
        homes, read_texts(rows["texts and members"]), built_ins,
        [read_global(row, built_ins) for row in rows["globals"]], [read_calls(row, built_ins) for row in rows["calls"]])


def starts(texts: list[Text]) -> list[int]:
    """Where each text begins among the texts, which stand one after another."""
    found, start = [], 0
    for text in texts:
        found.append(start)
        start += len(text.text)
    return found


def size(texts: list[Text]) -> int:
    return sum(len(text.text) for text in texts)


def longest(texts: list[Text]) -> int:
    return max(len(text.text) for text in texts)


def by_length(texts: list[Text]) -> list[list[Text]]:
    """The texts of each length, from 0 to the longest."""
    return [[text for text in texts if len(text.text) == length] for length in range(longest(texts) + 1)]


# PARTS OF FILES


def enum(says: str, name: str, variants: Iterable[str]) -> str:
    """A public enum. A variant may have a comment above it."""
    lines = "\n".join(variants)
    return f"/// {says}\n#[derive(Clone, Copy, Debug, PartialEq, Eq)]\npub enum {name} {{\n{lines}\n}}\n"


def variant(name: str, comment: str = "") -> str:
    return f"    {comment}\n    {name}," if comment else f"    {name},"


def array(says: str, head: str, rows: list[str]) -> str:
    """An array with a row on each line; `head` is what stands before its length."""
    lines = "".join(f"    {row},\n" for row in rows)
    return f"{says}\n{head}; {len(rows)}] = [\n{lines}];\n"


def method(says: str, head: str, ensures: list[str], rows: list[str]) -> str:
    """A method that is a table of `self`."""
    clauses = "".join(f"        ensures {clause}\n" for clause in ensures)
    lines = "".join(f"            {row},\n" for row in rows)
    return f"    {says}\n    {head}\n{clauses}    {{\n        match self {{\n{lines}        }}\n    }}\n"


def equations(says: str, head: str, rows: Iterable[str]) -> str:
    """A definition by equations, or a lemma by cases."""
    return f"-- {says}\n{head}\n" + "".join(f"{row}\n" for row in rows)


def codes(text: str) -> str:
    return f'codes "{text}"' if text else "[]"


def slice_of(names: list[str]) -> str:
    """A reference to an array, as `rt fmt` lays it out as an element of an array."""
    line = ", ".join(names)
    if len(line) <= LONGEST_LIST:
        return f"&[{line}]"
    return "&[\n" + "".join(f"        {name},\n" for name in names) + "    ]"


def variants(module: str, name: str, of: Iterable[str]) -> str:
    """The imports of an enum and of its variants."""
    declared = f"use {SPECS}.declared.{module}.{name}"
    return f"{declared}.{{{name}}}\n{declared}.TheVariants.{{{', '.join(of)}}}\n"


# THE FILES


def builtin_code(names: Names) -> str:
    of = names.built_ins
    first = {built_in.home: built_in.name for built_in in reversed(of)}
    rows = [variant(b.name, f"// Home: `{b.home}`." if first[b.home] == b.name else "") for b in of]
    methods = [
        method("/// The number of the built-in as an object.", "pub fn number(self) -> u32",
               ["number { result ≡ number_of self }", "below { result < FIRST_HEAP_OBJECT }"],
               [f"Builtin::{b.name} => {number}" for number, b in enumerate(of)]),
        method("/// The name by which it is found at its home, which is ASCII.", "pub fn name(self) -> &'static str",
               ["{ result.now ≡ name_of self }"], [f'Builtin::{b.name} => "{b.text}"' for b in of]),
        method("/// What the built-in is a member of.", "pub fn home(self) -> BuiltinHome",
               ["{ result ≡ home_of self }"], [f"Builtin::{b.name} => BuiltinHome::{b.home}" for b in of]),
        method("/// Whether the built-in is a function, and no object.", "pub fn is_function(self) -> bool",
               ["{ result ≡ is_function self }"],
               [f"Builtin::{b.name} => false" for b in of if not b.is_function] + ["_ => true"])]
    return "\n".join([
        f"// {MADE}\n"
        "ghost use Rattle.std.specs.Prelude.{◌≡◌, ◌<◌};\n"
        f"ghost use {SPECS}.Builtins.{{number_of, name_of, home_of, is_function}};\n",
        "use crate::builtin_lookup::FIRST_HEAP_OBJECT;\n",
        enum("What a built-in is a member of.", "BuiltinHome",
             [variant(home.name, f"/// {home.says}" if home.says else "") for home in names.homes]),
        enum("The built-in objects and functions of the profile. Each has a number below [`FIRST_HEAP_OBJECT`], its place "
             "here.", "Builtin", rows),
        array("/// Every built-in, at the place of its number.", "pub static BUILTINS: [Builtin",
              [f"Builtin::{b.name}" for b in of]),
        "impl Builtin {\n" + "\n".join(methods) + "}\n"])


def builtin_definitions(names: Names) -> str:
    of = names.built_ins
    lines = [" ∷ ".join(b.name for b in of if b.home == home.name) for home in names.homes]
    return "\n".join([
        f"-- {MADE}\n"
        "use Rattle.std.specs.Prelude.{ℕ, Bool, true, false, List, [], ◌∷◌, codes}\n"
        + variants("builtin", "Builtin", [b.name for b in of])
        + f"use {SPECS}.declared.builtin.BuiltinHome.{{BuiltinHome}}\n"
        f"use {SPECS}.declared.builtin.BuiltinHome.TheVariants as home\n",
        equations("the table of built-ins: their numbers, their names, and what they are members of",
                  "abbrev pub number_of : Builtin → ℕ", [f"number_of {b.name} = {number}" for number, b in enumerate(of)]),
        equations("the name of a built-in", "abbrev pub name_of : Builtin → List ℕ",
                  [f"name_of {b.name} = {codes(b.text)}" for b in of]),
        equations("what a built-in is a member of", "abbrev pub home_of : Builtin → BuiltinHome",
                  [f"home_of {b.name} = home.{b.home}" for b in of]),
        equations("the built-in is a function, and no object", "abbrev pub is_function : Builtin → Bool",
                  [f"is_function {b.name} = {str(b.is_function).lower()}" for b in of]),
        "-- every built-in, in the order of their numbers\nunfoldable pub builtins : List Builtin\nbuiltins =\n"
        + "".join(f"    {line} ∷{' []' if line is lines[-1] else ''}\n" for line in lines)])


def builtin_lemmas(names: Names) -> str:
    of = names.built_ins
    return "\n".join([
        f"-- {MADE}\n"
        "use Rattle.std.proofs.Common.{◌≡◌, Some, refl}\n"
        "use Rattle.std.specs.Prelude.{slice_get}\n"
        + variants("builtin", "Builtin", [b.name for b in of])
        + f"use {SPECS}.Builtins.{{number_of, builtins}}\n",
        equations("each built-in stands at the place of its number",
                  "pub slice_get-number_of : (builtin : Builtin) → slice_get builtins (number_of builtin) ≡ Some builtin\n"
                  "unfolding builtins", [f"slice_get-number_of {b.name} = refl" for b in of])])


def global_code(names: Names) -> str:
    def value(g: Global) -> str:
        if not g.meaning:
            return f"Value::Object(Builtin::{g.name}.number())"
        return "Value::Object(FIRST_NODE)" if g.meaning == "document" else f"Value::{g.meaning}"

    of = names.globals
    methods = [
        method("/// Its name.", "pub fn name(self) -> &'static str", ["{ result.now ≡ global_name self }"],
               [f'Global::{g.name} => "{g.text}"' for g in of]),
        method("/// Its value.", "pub fn value(self) -> Value", ["{ result ≡ global_value self }"],
               [f"Global::{g.name} => {value(g)}" for g in of])]
    return "\n".join([
        f"// {MADE}\n"
        "ghost use Rattle.std.specs.Prelude.{◌≡◌};\n"
        f"ghost use {SPECS}.GlobalTable.{{global_name, global_value}};\n",
        "use crate::builtin::Builtin;\nuse crate::builtin_lookup::FIRST_NODE;\nuse rip_base::Value;\n",
        enum("A global name of the profile (ECMA-262 15.1).", "Global", [variant(g.name) for g in of]),
        array("/// All global names.", "pub const GLOBALS: [Global", [f"Global::{g.name}" for g in of]),
        "impl Global {\n" + "\n".join(methods) + "}\n"])


def global_definitions(names: Names) -> str:
    def value(g: Global) -> str:
        if not g.meaning:
            return f"value.Object (number_of builtin.{g.name})"
        return "value.Object (2 ^ 31)" if g.meaning == "document" else f"value.{g.meaning}"

    of = names.globals
    return "\n".join([
        f"-- {MADE}\n"
        "use Rattle.std.specs.Prelude.{ℕ, ◌^◌, List, [], ◌∷◌, codes}\n"
        f"use {SPECS}.declared.builtin.Builtin.TheVariants as builtin\n"
        + variants("global", "Global", [g.name for g in of])
        + "use Rattle.rip_base.specs.declared.value.Value.{Value}\n"
        "use Rattle.rip_base.specs.declared.value.Value.TheVariants as value\n"
        f"use {SPECS}.Builtins.{{number_of}}\n",
        equations("the name of a global", "abbrev pub global_name : Global → List ℕ",
                  [f"global_name {g.name} = {codes(g.text)}" for g in of]),
        equations("the value of a global where no scope binds the name (ECMA-262 15.1); the document is the object of the "
                  "first number of a node", "abbrev pub global_value : Global → Value",
                  [f"global_value {g.name} = {value(g)}" for g in of]),
        "-- all globals\nunfoldable pub globals : List Global\n"
        f"globals = {' ∷ '.join(g.name for g in of)} ∷ []\n"])


def fixed_code(names: Names) -> str:
    of = names.texts
    spellings = method(
        "/// The text, which is ASCII.", "pub fn text(self) -> &'static str", ["{ result.now ≡ text_of self }"],
        [f'FixedText::{t.name} => "{t.text}"' for t in of])
    places = method(
        "// Where the text begins in every pool.", "pub(crate) fn start(self) -> u32", ["{ result ≡ start_of self }"],
        [f"FixedText::{t.name} => {start}" for t, start in zip(of, starts(of))])
    return "\n".join([
        f"// {MADE}\n"
        "ghost use Rattle.std.specs.Prelude.{◌≡◌};\n"
        f"ghost use {SPECS}.FixedTable.{{text_of, start_of}};\n",
        enum("The texts that stand in every pool at no charge: the empty text, and each member name, event type and text\n"
             "/// answer of the profile, each once.", "FixedText",
             [variant(t.name, f"// {t.comment}" if t.comment else "") for t in of]),
        array("/// Every fixed text, in the order in which they stand in a pool.", "pub static FIXED_TEXTS: [FixedText",
              [f"FixedText::{t.name}" for t in of]),
        f"/// How many units the fixed texts have together.\npub(crate) const FIXED_UNITS: u32 = {size(of)};\n",
        array("/// The fixed texts of each length.", "pub(crate) static BY_LENGTH: [&[FixedText]",
              [slice_of([f"FixedText::{t.name}" for t in texts]) for texts in by_length(of)]),
        "impl FixedText {\n" + spellings + "\n" + places + "}\n"])


def fixed_definitions(names: Names) -> str:
    of = names.texts
    groups: list[list[str]] = []
    for text in of:
        if text.comment or not groups:
            groups.append([])
        groups[-1].append(text.name)
    return "\n".join([
        f"-- {MADE}\n"
        "use Rattle.std.specs.Prelude.{ℕ, List, [], ◌∷◌, codes}\n"
        + variants("fixed", "FixedText", [t.name for t in of]),
        equations("the table of the texts that stand in every pool at no charge", "abbrev pub text_of : FixedText → List ℕ",
                  [f"text_of {t.name} = {codes(t.text)}" for t in of]),
        "-- every fixed text, in the order in which they stand in a pool\n"
        "unfoldable pub fixed_texts : List FixedText\nfixed_texts =\n"
        + "".join(f"    {' ∷ '.join(group)} ∷{' []' if group is groups[-1] else ''}\n" for group in groups),
        f"-- how many units they have together\nabbrev pub fixed_size : ℕ\nfixed_size = {size(of)}\n",
        f"-- how many units the longest of them has\nabbrev pub longest_fixed : ℕ\nlongest_fixed = {longest(of)}\n",
        equations("where each fixed text begins in a pool", "abbrev pub start_of : FixedText → ℕ",
                  [f"start_of {t.name} = {start}" for t, start in zip(of, starts(of))])])


def length_lemmas(of: list[Text]) -> list[str]:
    """The table of the texts by length, and that it is one."""
    rows = "".join(f"    ({''.join(t.name + ' ∷ ' for t in texts)}[]) ∷\n" for texts in by_length(of))
    places = longest(of) + 1
    return [
        "-- the fixed texts of each length from 0 on, and that they are: `IsByLength` tells it of lists from a length on\n"
        f"abbrev pub by_length : List (List FixedText)\nby_length =\n{rows}    []\n",
        "abbrev pub IsByLength : ℕ → List (List FixedText) → Type 0\n"
        "IsByLength n [] = ⊤\n"
        "IsByLength n (texts ∷ longer) = (texts ≡ texts_of_length n) × IsByLength (suc n) longer\n",
        "pub by_length_is : IsByLength 0 by_length\nunfolding texts_of_length fixed_texts\n"
        f"by_length_is = {'(refl, ' * places}tt{')' * places}\n"]


def fixed_lemmas(names: Names) -> str:
    of = names.texts

    def cases(says: str, name: str, states: str, unfolding: str) -> str:
        head = f"pub {name} : (fixed : FixedText) → {states}" + (f"\nunfolding {unfolding}" if unfolding else "")
        return equations(says, head, [f"{name} {t.name} = refl" for t in of])

    return "\n".join([
        f"-- {MADE}\n"
        "use Rattle.std.proofs.Common.{◌≡◌, ℕ, suc, ◌+◌, true, Some, List, [], ◌∷◌, length, refl, nat_le}\n"
        "use Rattle.std.specs.Prelude.{⊤, slice_range}\n"
        "use Rattle.std.specs.List.{list_all}\n"
        + variants("fixed", "FixedText", [t.name for t in of])
        + f"use {SPECS}.FixedTable.{{text_of, fixed_texts, fixed_size, longest_fixed, start_of}}\n"
        f"use {SPECS}.FixedTexts.{{fixed_units, fixed_span}}\n"
        f"use {SPECS}.FixedSearch.{{texts_of_length, fixed_text}}\n",
        cases("the search finds each fixed text by its spelling", "fixed_text-text_of",
              "fixed_text (text_of fixed) ≡ Some fixed", "fixed_text texts_of_length fixed_texts"),
        cases("each fixed text has its place in the table", "fixed_span-text_of",
              "fixed_span (text_of fixed) ≡ Some (record { start = start_of fixed; count = length (text_of fixed) })",
              "fixed_span fixed_texts"),
        cases("each fixed text stands where it begins", "stands_at",
              "slice_range fixed_units (start_of fixed) (start_of fixed + length (text_of fixed)) ≡ text_of fixed",
              "fixed_units fixed_texts"),
        cases("and ends among the fixed texts", "lies_within",
              "nat_le (start_of fixed + length (text_of fixed)) fixed_size ≡ true", ""),
        *length_lemmas(of),
        "-- no fixed text is longer than the longest\n"
        "pub short_all : list_all (λ fixed. nat_le (length (text_of fixed)) longest_fixed) fixed_texts ≡ true\n"
        "unfolding fixed_texts\nshort_all = refl\n",
        "pub length-fixed_units : length fixed_units ≡ fixed_size\nunfolding fixed_units fixed_texts\n"
        "length-fixed_units = refl\n"])


def call_code(names: Names) -> str:
    return "\n".join(
        [f"// {MADE}\nuse {VALUES}::{{Builtin, FixedText}};\n"]
        + [array(f"// The calls {calls.says}.", f"pub(crate) static CALLS_OF_{calls.name.upper()}: [(FixedText, Builtin)",
                 [f"(FixedText::{b.member}, Builtin::{b.name})" for b in calls.members]) for calls in names.calls])


def call_definitions(names: Names) -> str:
    def table(calls: Calls) -> str:
        rows = "".join(f"    (text.{b.member}, builtin.{b.name}) ∷\n" for b in calls.members)
        name = f"calls_of_{calls.name}"
        return f"-- {calls.says}\nabbrev pub {name} : List (FixedText × Builtin)\n{name} =\n{rows}    []\n"

    return "\n".join(
        [f"-- {MADE}\n-- The calls that arrays, texts and `Math` have as members.\n"
         "use Rattle.std.specs.Prelude.{List, [], ◌∷◌}\n"
         f"use {SPECS}.declared.fixed.FixedText.{{FixedText}}\n"
         f"use {SPECS}.declared.fixed.FixedText.TheVariants as text\n"
         f"use {SPECS}.declared.builtin.Builtin.{{Builtin}}\n"
         f"use {SPECS}.declared.builtin.Builtin.TheVariants as builtin\n"]
        + [table(calls) for calls in names.calls])


FILES: dict[str, Callable[[Names], str]] = {
    f"crates/{VALUES}/src/builtin.rt": builtin_code,
    f"crates/{VALUES}/src/fixed.rt": fixed_code,
    f"crates/{VALUES}/src/global.rt": global_code,
    f"crates/{VALUES}/specs/Builtins.antt": builtin_definitions,
    f"crates/{VALUES}/specs/FixedTable.antt": fixed_definitions,
    f"crates/{VALUES}/specs/GlobalTable.antt": global_definitions,
    f"crates/{VALUES}/proofs/BuiltinTableLemmas.antt": builtin_lemmas,
    f"crates/{VALUES}/proofs/FixedTableLemmas.antt": fixed_lemmas,
    f"crates/{MEMBERS}/src/access/call_table.rt": call_code,
    f"crates/{MEMBERS}/specs/CallTable.antt": call_definitions,
}


def stands(path: str, text: str) -> bool:
    """The file is there, and is this text."""
    if not os.path.exists(path):
        return False
    with open(path, encoding="utf-8") as file:
        return file.read() == text


def main() -> None:
    if sys.argv[1:] not in ([], ["--check"]):
        sys.exit(__doc__)
    names = read()
    others = {file: text for file, make in FILES.items() if not stands(os.path.join(TOP, file), text := make(names))}
    if sys.argv[1:] and others:
        sys.exit(f"Not as {TABLE} says: {', '.join(others)}. Write them with tools/names.py.")
    for file, text in others.items():
        with open(os.path.join(TOP, file), "w", encoding="utf-8") as made:
            made.write(text)
    print(f"{len(names.texts)} fixed texts, {len(names.built_ins)} built-ins, {len(names.globals)} globals: "
          f"{len(FILES)} files stand, {len(others)} of them written now.")


if __name__ == "__main__":
    main()
