#!/usr/bin/env python3
"""Holds the C header to the library's source and to the Rust binding: every declaration, every constant, and the version, which the changelog has too.

Then it damages copies of them in memory, and fails where a damaged copy passes.
"""
import re
import sys
from pathlib import Path

ROOT = Path(__file__).resolve().parent.parent
HEADER = "include/local_statistics.h"
SOURCE = "crates/c_interface/src/*.rt"
RESULTS = "crates/c_interface/src/results.rt"
BINDING = "bindings/rust/src/calls.rs"
TYPES = "bindings/rust/src/types.rs"
REFUSALS = "bindings/rust/src/refusal.rs"
CONDITIONS = "crates/spec_picture/specs/Conditions.antt"
SIX_SUMS = "crates/spec_statistics/specs/SixSums.antt"
LINES = "crates/spec_picture/src/lib.rt"
SHAPES = "crates/spec_picture/src/shape.rt"
PLANES = "crates/spec_picture/src/plane.rt"
PANEL = "crates/spec_panel/specs/Panel.antt"
VERSION = "crates/spec_c/specs/Version.antt"
CARGO = "bindings/rust/Cargo.toml"
CHANGELOG = "CHANGELOG.md"

# What a number of Rattle, or of Rust, is in C.
C_TYPES = {
    "usize": "size_t",
    "u8": "uint8_t",
    "u32": "uint32_t",
    "i16": "int16_t",
    "i32": "int32_t",
    "i64": "int64_t",
    "f32": "float",
}

# Where the version stands beside the header, the newest first.
VERSIONS = [
    (VERSION, r"(?m)^version = version_number (\d+) (\d+) (\d+)$"),
    (CARGO, r'(?m)^version = "(\d+)\.(\d+)\.(\d+)"$'),
    (CHANGELOG, r"(?m)^## (\d+)\.(\d+)\.(\d+)\b"),
]

# Where each constant of the header stands as a literal, `@` for its digits; a run of blanks matches any other.
CONSTANTS = {
    "LS_OK": [(BINDING, "OK: i32 = @;")],
    "LS_REFUSED_SIZE": [(LINES, "    Size = @,"), (CONDITIONS, "@ when not (frame_legal z)"), (REFUSALS, " Size = @,")],
    "LS_REFUSED_PICTURE": [(LINES, "    Length = @,"), (CONDITIONS, "@ when not (eqb (length f) (cells z))"), (REFUSALS, " Picture = @,")],
    "LS_REFUSED_WINDOW": [(LINES, "    Window = @,"), (CONDITIONS, "@ when not (window_legal w)"), (REFUSALS, " Window = @,")],
    "LS_REFUSED_SHIFT": [(LINES, "    Shift = @,"), (CONDITIONS, "@ when not (shift_legal d)"), (REFUSALS, " Shift = @,")],
    "LS_REFUSED_PLANE": [(LINES, "    Plane = @,"), (CONDITIONS, "@ when ltb 5 p"), (REFUSALS, " Plane = @,")],
    "LS_REFUSED_CELL": [(LINES, "    Cell = @,"), (CONDITIONS, "@ when not (ltb i z.rows"), (REFUSALS, " Cell = @,")],
    "LS_REFUSED_REQUEST": [(LINES, "    Position = @,"), (CONDITIONS, "@ when (ltb z.rows position"), (REFUSALS, " Request = @,")],
    "LS_REFUSED_AREA": [(LINES, "    Area = @,"), (CONDITIONS, "@ when not (eqb given wanted)"), (REFUSALS, " Area = @,")],
    "LS_REFUSED_SUMS": [(LINES, "    Sums = @,"), (SIX_SUMS, "(@ when impossible z)"), (REFUSALS, " Sums = @,")],
    "LS_REFUSED_TEXT": [(LINES, "    Text = @,"), (PANEL, "windowed z w None = refused @")],
    "LS_REFUSED_WIDTH": [(LINES, "    Width = @,"), (CONDITIONS, "@ when not (fits z w)"), (REFUSALS, " Width = @,")],
    "LS_EMPTY": [(RESULTS, "const EMPTY: i32 = @;"), (BINDING, "const EMPTY: i32 = @;")],
    "LS_FLAT": [(RESULTS, "const FLAT: i32 = @;"), (BINDING, "const FLAT: i32 = @;")],
    "LS_NOWHERE": [(RESULTS, "const NOWHERE: i32 = @;"), (BINDING, "const NOWHERE: i32 = @;")],
    "LS_RECTANGLE": [(SHAPES, "@ => Ok(Shape::Rectangle),"), (TYPES, "shape: @, first: a, second: b")],
    "LS_DIAMOND": [(SHAPES, "@ => Ok(Shape::Diamond),"), (TYPES, "shape: @, first: r, second: 0")],
    "LS_HEXAGON": [(SHAPES, "@ => Ok(Shape::Hexagon),"), (TYPES, "shape: @, first: k, second: h")],
    "LS_PLANE_ONE": [(PLANES, "@ => Ok(Plane::One),"), (SIX_SUMS, " n = direct_sum (on_plane x @)"), (TYPES, "ONE: Plane = Plane(@)")],
    "LS_PLANE_F": [(PLANES, "@ => Ok(Plane::F),"), (SIX_SUMS, " s = direct_sum (on_plane x @)"), (TYPES, "F: Plane = Plane(@)")],
    "LS_PLANE_G": [(PLANES, "@ => Ok(Plane::G),"), (SIX_SUMS, " t = direct_sum (on_plane x @)"), (TYPES, "G: Plane = Plane(@)")],
    "LS_PLANE_F_SQUARED": [(PLANES, "@ => Ok(Plane::FSquared),"), (SIX_SUMS, " a = direct_sum (on_plane x @)"), (TYPES, "F_SQUARED: Plane = Plane(@)")],
    "LS_PLANE_G_SQUARED": [(PLANES, "@ => Ok(Plane::GSquared),"), (SIX_SUMS, " b = direct_sum (on_plane x @)"), (TYPES, "G_SQUARED: Plane = Plane(@)")],
    "LS_PLANE_PRODUCT": [(PLANES, "@ => Ok(Plane::Product),"), (SIX_SUMS, " p = direct_sum (on_plane x @)"), (TYPES, "PRODUCT: Plane = Plane(@)")],
    "LS_STEADY": [(RESULTS, "const STEADY: u32 = @;"), (BINDING, "const STEADY: u32 = @;")],
    "LS_GRAINY": [(RESULTS, "const GRAINY: u32 = @;")],
    "LS_MAX_ROWS": [("crates/spec_picture/specs/Frame.antt", "leb z.rows @"), (TYPES, "MAX_ROWS: usize = @;")],
    "LS_MAX_COLUMNS": [("crates/spec_picture/specs/Frame.antt", "leb z.columns @"), (TYPES, "MAX_COLUMNS: usize = @;")],
    "LS_MAX_DOWN": [("crates/spec_picture/specs/Picture.antt", "(pos @) d.down"), (TYPES, "MAX_DOWN: i32 = @;")],
    "LS_MAX_RIGHT": [("crates/spec_picture/specs/Picture.antt", "(pos @) d.right"), (TYPES, "MAX_RIGHT: i32 = @;")],
    "LS_MAX_WINDOW": [("crates/spec_picture/specs/Window.antt", "(k +ℤ h) (pos @)"), (TYPES, "MAX_WINDOW: i32 = @;")],
    "LS_MAX_CELLS": [(SIX_SUMS, "lt_z (pos @) z.n"), (TYPES, "MAX_CELLS: i64 = @;")],
    "LS_PANEL_MAX_BYTES": [(PANEL, "ltb @ (length text)"), (TYPES, "PANEL_MAX_BYTES: usize = @;")],
    "LS_PANEL_MAX_CELLS": [(PANEL, "leb (cells z) @"), (TYPES, "PANEL_MAX_CELLS: usize = @;")],
    "LS_PANEL_ROOM": [
        ("crates/panel_text/specs/Rendered.antt", "ltb (length out) @"),
        (TYPES, "PANEL_ROOM: usize = @;"),
    ],
}


class Unreadable(Exception):
    """A text that is not laid out as this test expects."""


def one_spaced(text):
    return " ".join(text.split())


def parts(text, separator):
    return [part for part in (one_spaced(part) for part in text.split(separator)) if part]


def matched(pattern, text, what):
    match = re.fullmatch(pattern, text, re.S)
    if not match:
        raise Unreadable(f"{what}: {text}")
    return match.groups()


def c_type(name):
    if name not in C_TYPES:
        raise Unreadable(f"a type that C has no name for here: {name}")
    return C_TYPES[name]


# ---- Declarations: each of the three as {function: [what it returns, (type, parameter), ..]}, in the words of C.


def in_header(text):
    text = re.sub(r"/\*.*?\*/", " ", text, flags=re.S)
    text = re.sub(r"^\s*#.*$", "", text, flags=re.M)
    text = re.sub(r"^static inline [^{]*\{.*?^\}$", "", text, flags=re.M | re.S)
    (body,) = matched(r'\s*extern "C" \{(.*)\}\s*', text, "the header")
    functions = {}
    for declaration in parts(body, ";"):
        returned, name, parameters = matched(r"(\w+) (\w+)\((.*)\)", declaration, "a declaration of the header")
        functions[name] = [returned]
        for parameter in parts("" if parameters == "void" else parameters, ","):
            constant, number, star, of = matched(r"(const )?(\w+) (\*?)(\w+)", parameter, f"a parameter of {name}")
            functions[name].append(((constant or "") + number + star, of))
    return functions


def in_source(text):
    text = re.sub(r"//.*$", "", text, flags=re.M)
    found = re.findall(r'#\[unsafe\(no_mangle\)\]\s*pub extern "C" fn (\w+)\s*\(([^)]*)\)\s*->\s*(\w+)', text)
    if len(found) != text.count('extern "C"') or len(found) != text.count("no_mangle"):
        raise Unreadable("the source has an exported function that is not `#[unsafe(no_mangle)] pub extern \"C\" fn .. -> ..`")
    functions = {}
    for name, parameters, returned in found:
        functions[name] = [c_type(returned)]
        for parameter in parts(parameters, ","):
            of, lent, slice_of, number = matched(r"(\w+): (&mut |&)?(?:\[(\w+)\]|(\w+))", parameter, f"a parameter of {name}")
            constant = "const " if lent == "&" else ""
            star = "*" if lent else ""
            functions[name].append((constant + c_type(slice_of or number) + star, of))
            if slice_of:
                functions[name].append(("size_t", of + "_length"))
    return functions


def in_binding(text):
    bodies = re.findall(r'extern "C" \{(.*?)\n\}', text, re.S)
    if len(bodies) != 1:
        raise Unreadable("the binding has not one block of declarations")
    functions = {}
    for declaration in parts(bodies[0], ";"):
        name, parameters, returned = matched(r"fn (\w+)\((.*)\) -> (\w+)", declaration, "a declaration of the binding")
        functions[name] = [c_type(returned)]
        for parameter in parts(parameters, ","):
            of, pointer, number = matched(r"(\w+): (?:\*(const|mut) )?(\w+)", parameter, f"a parameter of {name}")
            constant = "const " if pointer == "const" else ""
            functions[name].append((constant + c_type(number) + ("*" if pointer else ""), of))
    return functions


def unlike(header, other, where):
    """What differs between the header's functions and those of another side."""
    for name in sorted(header.keys() | other.keys()):
        if name not in other:
            yield f"{name} is in the header and not in {where}"
        elif name not in header:
            yield f"{name} is in {where} and not in the header"
        elif header[name] != other[name]:
            yield f"{name} is in the header {header[name]} and in {where} {other[name]}"


# ---- Constants


def literal(text, form):
    """The number at the place of `@` in the one form, wherever the text has it."""
    pattern = r"\s+".join(re.escape(word).replace("@", r"(-?\d+)") for word in re.split(r"\s+", form))
    values = set(re.findall(pattern, text))
    if len(values) != 1:
        raise Unreadable(f"`{form}` has {len(values)} values")
    return int(values.pop())


def constants_unlike(header, texts):
    given = {name: int(value) for name, value in re.findall(r"^#define (LS_(?!VERSION_)\w+) \(?(-?\d+)\)?", header, re.M)}
    for name in sorted(given.keys() ^ CONSTANTS.keys()):
        yield f"{name} is not both in the header and in this test"
    for name in sorted(given.keys() & CONSTANTS.keys()):
        for where, form in CONSTANTS[name]:
            value = literal(texts[where], form)
            if value != given[name]:
                yield f"{name} is {given[name]} in the header and {value} in {where}"


def versions_unlike(header, texts):
    parts_of = tuple("".join(re.findall(rf"^#define LS_VERSION_{part} (\d+)$", header, re.M)) for part in ("MAJOR", "MINOR", "PATCH"))
    for where, pattern in VERSIONS:
        there = re.search(pattern, texts[where])
        if not there or there.groups() != parts_of:
            yield f"the version is {'.'.join(parts_of)} in the header and {'.'.join(there.groups()) if there else 'nowhere'} in {where}"


def words_unlike(header):
    """The words of `ls_status_text` are those behind the statuses."""
    defined = {name: words for name, words in re.findall(r"^#define (LS_(?:OK|REFUSED_\w+|EMPTY|FLAT|NOWHERE)) \S+ +/\* (.*) \*/$", header, re.M)}
    worded = dict(re.findall(r'^    case (LS_\w+):\n        return "(.*)";$', header, re.M))
    for name in sorted(defined.keys() | worded.keys()):
        if defined.get(name) != worded.get(name):
            yield f"{name} is '{defined.get(name)}' where it is defined and '{worded.get(name)}' in ls_status_text"


# ---- The comparison, and damaged copies


def all_unlike(texts):
    try:
        header = in_header(texts[HEADER])
        return [
            *unlike(header, in_source(texts[SOURCE]), "the source"),
            *unlike(header, in_binding(texts[BINDING]), "the binding"),
            *constants_unlike(texts[HEADER], texts),
            *versions_unlike(texts[HEADER], texts),
            *words_unlike(texts[HEADER]),
        ]
    except Unreadable as reason:
        return [str(reason)]


# What is done to which text, as a pattern and what takes its place.
DAMAGES = [
    ("a parameter dropped", HEADER, r",\s*size_t \*written", ""),
    ("a switch dropped", HEADER, r" uint32_t columns_wrap,", ""),
    ("two parameters exchanged", HEADER, r"int32_t down,\s*int32_t right", "int32_t right, int32_t down"),
    ("another width", HEADER, r"int64_t \*sum", "int32_t *sum"),
    ("another sign", HEADER, r"uint32_t shape", "int32_t shape"),
    ("a const missing", HEADER, r"const int64_t \*table", "int64_t *table"),
    ("a const too many", HEADER, r"uint8_t \*out", "const uint8_t *out"),
    ("a pointer missing", HEADER, r"float \*level", "float level"),
    ("a length missing", HEADER, r",\s*size_t work_length", ""),
    ("another name", HEADER, r"int64_t \*variance", "int64_t *mean"),
    ("another result", HEADER, r"int32_t ls_mean", "int64_t ls_mean"),
    ("a function missing", HEADER, r"int32_t ls_voice\([^;]*;", ""),
    ("a function too many", HEADER, r"int32_t ls_mean\(", "int32_t ls_median(int64_t n);\nint32_t ls_mean("),
    ("another status", HEADER, r"LS_FLAT \(-2\)", "LS_FLAT (-4)"),
    ("another limit", HEADER, r"LS_MAX_ROWS 256", "LS_MAX_ROWS 255"),
    ("a constant missing", HEADER, r"#define LS_GRAINY 2", ""),
    ("other words for a status", HEADER, r'return "plane above 5"', 'return "plane above 6"'),
    ("a status without words", HEADER, r"    case LS_FLAT:\n.*\n", ""),
    ("another version", HEADER, r"LS_VERSION_MINOR 0", "LS_VERSION_MINOR 1"),
    ("another version", VERSION, r"version_number 2 0 0", "version_number 2 0 1"),
    ("another version", CARGO, r'version = "2', 'version = "3'),
    ("another version", CHANGELOG, r"## 2", "## 3"),
    ("a function missing", SOURCE, r'#\[unsafe\(no_mangle\)\]\s*pub extern "C" fn ls_steady', "fn ls_steady"),
    ("a function not exported", SOURCE, r"#\[unsafe\(no_mangle\)\]\s*", ""),
    ("another width", SOURCE, r"table: &\[i64\]", "table: &[i32]"),
    ("a slice that is written", SOURCE, r"text: &\[u8\]", "text: &mut [u8]"),
    ("another status", RESULTS, r"EMPTY: i32 = -1", "EMPTY: i32 = -4"),
    ("two parameters exchanged", BINDING, r"n: i64, s: i64", "s: i64, n: i64"),
    ("an area that is only read", BINDING, r"work: \*mut i64", "work: *const i64"),
    ("a function missing", BINDING, r"fn ls_panel\([^;]*;", ""),
    ("another limit", TYPES, r"PANEL_ROOM: usize = 28672", "PANEL_ROOM: usize = 28671"),
    ("another refusal", REFUSALS, r"Cell = 6", "Cell = 7"),
    ("another refusal", LINES, r"Area = 8,", "Area = 7,"),
    ("another refusal", CONDITIONS, r"11 when", "9 when"),
]


def main():
    paths = {HEADER, SOURCE, BINDING, *(where for where, _ in VERSIONS), *(where for places in CONSTANTS.values() for where, _ in places)}
    texts = {path: "\n".join(file.read_text(encoding="utf-8") for file in sorted(ROOT.glob(path))) for path in paths}
    found = all_unlike(texts)
    for what, where, pattern, instead in DAMAGES:
        damaged = re.sub(pattern, instead, texts[where], count=1)
        if damaged == texts[where]:
            found.append(f"{where}: nothing to damage for '{what}'")
        elif not all_unlike({**texts, where: damaged}):
            found.append(f"{where}: '{what}' is not seen")
    for line in found:
        print(f"header.py: {line}", file=sys.stderr)
    if found:
        return 1
    functions = len(in_header(texts[HEADER]))
    print(f"{functions} functions and {len(CONSTANTS)} constants agree, {len(DAMAGES)} damaged copies are refused")
    return 0


if __name__ == "__main__":
    sys.exit(main())
