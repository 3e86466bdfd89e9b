#!/usr/bin/env python3
"""Holds the documents to the tree: every path, crate, module, definition, theorem, function and edit that they name is there, and every edit is traced.
So is every law that the first line of an edit names.
And every text that an edit replaces stands once in its file, which `rt` would say only after the proofs.

Then it damages copies of the texts in memory, and fails where a damaged copy passes.
"""
import os
import re
import sys
from fnmatch import fnmatchcase
from functools import lru_cache
from pathlib import Path

ROOT = Path(__file__).resolve().parent.parent
CRATES = "crates.txt"
README = "README.md"
CHANGELOG = "CHANGELOG.md"
ARCHITECTURE = "docs/ARCHITECTURE.md"
TRACE = "docs/TRACE.md"
# They name what stood before, and are not read.
BEFORE = ("docs/PORT.md", "docs/DESIGN-PASS.md", "docs/LOOK-BACK.md")
DECISIONS = "docs/DECISIONS.md"
FOLDERS = ("bench", "bindings", "crates", "docs", "include", "samples", "tests")
# What begins a comment of the source; the documents are read whole.
COMMENTS = {"rt": "//", "antt": "--", "edit": "#"}
# What stands before `::` in a document and is no crate of this repository: OpenCV, the kit's crates, the language.
FOREIGN = {"cv", "io", "libc", "std"}
# What has a dash or an underscore and is declared nowhere in this repository: its library, a function of the kit, the kit's lines.
NAMES_BESIDE = ("local_statistics", "read_full", "rattle-kit-", "ls_status_text")


def kind(path):
    return path.rpartition(".")[2]


def tree():
    """The texts of the repository by their paths, read where a name may stand in them."""
    texts = {path: (ROOT / path).read_text(encoding="utf-8") for path in (CRATES, README, CHANGELOG)}
    for folder in FOLDERS:
        for place, below, files in os.walk(ROOT / folder):
            below[:] = [name for name in below if name not in ("out", "target") and not name.startswith(".")]
            for file in (Path(place, name) for name in files):
                read = kind(file.name) in (*COMMENTS, "md") and file.relative_to(ROOT).as_posix() not in BEFORE
                texts[file.relative_to(ROOT).as_posix()] = file.read_text(encoding="utf-8") if read else ""
    return texts


def documents(texts):
    return [path for path in texts if path in (README, CHANGELOG) or path.startswith("docs/") and kind(path) == "md"]


# ---- What one text has


@lru_cache(maxsize=None)
def quoted(text):
    """What stands between backquotes, each once."""
    return tuple(dict.fromkeys(re.findall(r"`([^`\n]+)`", text)))


@lru_cache(maxsize=None)
def paths_named(text, comment):
    if comment:
        text = "\n".join(line.partition(comment)[2] for line in text.splitlines() if comment in line)
    return tuple(set(re.findall(rf"(?<![\w./-])(?:{'|'.join(FOLDERS)})/[\w./*-]*[\w*]", text)))


@lru_cache(maxsize=None)
def links(text):
    return tuple(re.findall(r"\]\(([^):#]+)", text))


@lru_cache(maxsize=None)
def declared(text):
    """The names that a file of definitions or laws declares or passes on."""
    words = r"(?:(?:pub|abbrev|unfoldable) )"
    names = set(re.findall(rf"^{words}*(?:record|data) (\S+)", text, re.M))
    names |= set(re.findall(rf"^(?:{words}*|\s+{words}+)(\S+)(?: \{{[^}}]*\}})? :(?:\s|$)", text, re.M))
    for passed in re.findall(r"^pub use \S+\.\{([^}]*)\}", text, re.M):
        names |= {name.split()[-1] for name in passed.split(",")}
    return names


@lru_cache(maxsize=None)
def items(text):
    """The functions, types and constants that a file of code has or passes on."""
    text = re.sub(r"//.*$", "", text, flags=re.M)
    names = set(re.findall(r"\b(?:fn|struct|enum|const) (\w+)", text))
    for passed in re.findall(r"^pub use ([^;]+);", text, re.M):
        for part in re.sub(r"^.*\{|\}", "", passed, flags=re.S).split(","):
            names |= set(re.findall(r"(\w+)\s*$", part))
    return names


@lru_cache(maxsize=None)
def fields(text):
    """The fields that others may name of the types that a file of code has, and what its traits have for proofs alone."""
    return set(re.findall(r"^\s+pub (?:ghost )?(\w+):", text, re.M)) | set(re.findall(r"^\s+ghost (\w+): .*;$", text, re.M))


@lru_cache(maxsize=None)
def crate_rows(text):
    """The cells of the tables that have a column Crate: a dict a row, by the names of the columns."""
    rows, heads = [], None
    for line in text.splitlines():
        cells = [cell.strip() for cell in line.strip().strip("|").split("|")]
        if not line.startswith("|"):
            heads = None
        elif heads is None:
            heads = cells
        elif "Crate" in heads and not set(line) <= set("|-: "):
            rows.append(dict(zip(heads, cells)))
    return rows


def crates_in(text):
    """Each crate, with those that it rests on; a word before the colon says what it is made into."""
    return {crate: below.split() for crate, below in re.findall(r"^(\w+)[^:#\n]*:(.*)$", text, re.M)}


# ---- What the tree has


def code_in(texts):
    """The files of code of each crate, by their modules: `lib`, `legal_frames`, `steps::step`."""
    code = {}
    for path, text in texts.items():
        if kind(path) == "rt":
            _, crate, _, file = path[: -len(".rt")].split("/", 3)
            code.setdefault(crate, {})[file.replace("/", "::")] = text
    return code


def has_item(code, name):
    """`crate::fn` anywhere in the crate, `crate::module::fn` in the file of that module; so `Type::fn`, in a file that declares the type too."""
    crate, *modules, item = name.split("::")
    sought = {modules.pop(), item} if modules and modules[-1][:1].isupper() else {item}
    files = code.get(crate, {})
    return any(sought <= items(text) for text in ([files.get("::".join(modules), "")] if modules else files.values()))


def has_module(code, name):
    crate, _, module = name.partition("::")
    return module in code.get(crate, {})


def has_declaration(texts, name):
    """`crate.File.name` in the definitions or in the laws of the crate; `crate.File` is the file."""
    crate, file, *rest = name.split(".", 2)
    found = [texts[path] for path in (f"crates/{crate}/{part}/{file}.antt" for part in ("specs", "proofs")) if path in texts]
    return bool(found) and all(any(part in declared(text) for text in found) for part in rest)


def edit_path(name):
    return f"crates/{name.replace('/', '/must-fail/')}.edit"


# ---- What is wrong


def wrong_paths(texts):
    there = set(texts)
    for path in texts:
        while "/" in path:
            path = path.rpartition("/")[0]
            there.add(path)
    for where, text in texts.items():
        for path in paths_named(text, COMMENTS.get(kind(where), "")):
            if path not in there and "/out/" not in path and not ("*" in path and any(fnmatchcase(each, path) for each in there)):
                yield f"{where}: there is no {path}"
    for where in documents(texts):
        for link in links(texts[where]):
            if os.path.normpath(os.path.join(os.path.dirname(where), link)) not in there:
                yield f"{where}: the link {link} leads nowhere"


def wrong_names(texts, crates, code, where):
    """In the trace every name of these forms is one of this repository; elsewhere a `lib.Ieee` or a `tests/run` may stand beside them."""
    traced = where == TRACE
    for name in quoted(texts[where]):
        first = re.match(r"\w*", name)[0]
        if re.fullmatch(r"\w+\.[A-Z]\w*(\..+)?", name) and (traced or first in crates) and not has_declaration(texts, name):
            yield f"{where}: there is no definition or theorem {name}"
        if re.fullmatch(r"\w+/\w+", name) and (first in crates or traced and first not in FOLDERS) and edit_path(name) not in texts:
            yield f"{where}: there is no edit {name}"
        if re.fullmatch(r"[a-z]\w*(::\w+)+", name) and first not in FOREIGN:
            if first not in crates:
                yield f"{where}: {name} is in no crate"
            elif not has_item(code, name) and (traced or not has_module(code, name)):
                yield f"{where}: there is no {name}"


def wrong_words(texts, crates, code):
    """A name with a dash or an underscore is one of the tree, also where it stands alone. Those of the environment have no small letters."""
    there = set(crates)
    for path, text in texts.items():
        if kind(path) == "antt":
            there |= declared(text)
        elif kind(path) == "edit":
            there.add(path.rpartition("/")[2].removesuffix(".edit"))
    for files in code.values():
        for module, text in files.items():
            there |= {module, *items(text), *fields(text)}
    for where, text in texts.items():
        if where in documents(texts) or kind(where) == "edit":
            for name in quoted("\n".join(line for line in text.splitlines() if line.startswith("#") or kind(where) == "md")):
                if re.fullmatch(r"[A-Za-z][\w'→-]*[-_][\w'→-]*", name) and not name.isupper() and not name.startswith(NAMES_BESIDE) and name not in there:
                    yield f"{where}: there is nothing named {name}"


def wrong_edits(texts, crates):
    """Every edit is named in the trace, but for those of the crates that its head excuses."""
    excused = {name for sentence in re.findall(r"The edits of ([^.]*) that no line names", texts[TRACE]) for name in quoted(sentence)}
    for crate in sorted(excused.difference(crates)):
        yield f"{TRACE}: {crate}, whose edits no line names, is no crate"
    named = {edit_path(name) for name in quoted(texts[TRACE])}
    for path in texts:
        if path.endswith(".edit") and path.split("/")[1] not in excused and path not in named:
            yield f"{TRACE}: no line names {path}"


@lru_cache(maxsize=None)
def replacements(text):
    """Of an edit: the file, the old text and the new one of each of its replacements."""
    found, file, old = [], "", ""
    for line in text.splitlines():
        if line.startswith("file: "):
            file = line[len("file: ") :]
        elif line.startswith("old: "):
            old = line[len("old: ") :]
        elif line.startswith("new:"):
            found.append((file, old, line[len("new:") :].removeprefix(" ")))
    return tuple(found)


def wrong_replacements(texts):
    for path in texts:
        if path.endswith(".edit"):
            edited = {}
            for file, old, new in replacements(texts[path]):
                where = f"crates/{path.split('/')[1]}/{file}"
                text = edited.get(where, texts.get(where, ""))
                if not old or text.count(old) != 1:
                    yield f"{path}: {where} has not one place with its old text"
                edited[where] = text.replace(old, new)
            if not edited:
                yield f"{path}: it replaces nothing"


def wrong_table(texts, crates):
    """The table of crates has every crate once, and none that another one above it rests on."""
    rows = crate_rows(texts[ARCHITECTURE])
    listed = [name for row in rows for name in quoted(row["Crate"])]
    for crate in sorted(set(listed) ^ set(crates)):
        yield f"{ARCHITECTURE}: {crate} is not both in the table of crates and in {CRATES}"
    if len(listed) != len(set(listed)):
        yield f"{ARCHITECTURE}: the table of crates has one twice"
    place = {crate: row for row, each in enumerate(rows) for crate in quoted(each["Crate"])}
    for crate, below in crates.items():
        for other in below:
            if place.get(other, 0) > place.get(crate, len(place)):
                yield f"{ARCHITECTURE}: {crate} rests on {other}, which stands below it in the table"


def all_wrong(texts):
    crates = crates_in(texts[CRATES])
    code = code_in(texts)
    return [
        *wrong_paths(texts),
        *(wrong for where in documents(texts) for wrong in wrong_names(texts, crates, code, where)),
        *wrong_words(texts, crates, code),
        *wrong_edits(texts, crates),
        *wrong_replacements(texts),
        *wrong_table(texts, crates),
    ]


# ---- Damaged copies

# What is done to which text, as a pattern and what takes its place.
DAMAGES = [
    ("a definition renamed", "crates/spec_picture/specs/Frame.antt", r"\bframe_legal :", "frame_allowed :"),
    ("a theorem renamed", "crates/spec_picture/proofs/Refusals.antt", r"\bdirect-order :", "direct-checks :"),
    ("a field renamed", "crates/agreement/specs/Agreement.antt", r"\bjoined_length :", "joined_size :"),
    ("a law of a trait renamed", "crates/slope_loops/src/loops.rt", r"ghost added_moved:", "ghost moved_added:"),
    ("a function renamed", "crates/checks/src/legal_frames.rt", r"fn frame_legal\(", "fn frame_allowed("),
    ("a function in a comment alone", "crates/checks/src/legal_frames.rt", r"pub fn frame_legal\(", "// fn frame_legal\npub fn legal("),
    ("another field", TRACE, r"`joined_length`", "`joined-length`"),
    ("a law that is not there", DECISIONS, r"`direct-fits`", "`direct-fit`"),
    ("another definition", TRACE, r"spec_picture\.Frame\.frame_legal", "spec_picture.Frame.legal"),
    ("another file of laws", TRACE, r"spec_picture\.Refusals\.direct-order", "spec_picture.Calls.direct-order"),
    ("another module", TRACE, r"row_steps::step::enter_and_leave_at", "row_steps::slanted::enter_and_leave_at"),
    ("another edit", TRACE, r"spec_picture/plane_6`", "spec_picture/plane_7`"),
    ("an edit of a crate that is gone", TRACE, r"The edits of `arithmetic`", "The edits of `wrapping`"),
    ("an old text that is nowhere", "crates/spec_picture/must-fail/plane_6.edit", r"old: +5 =>", "old: the 5 =>"),
    ("an old text that is not the only one", "crates/spec_picture/must-fail/plane_6.edit", r"(?m)^old: .*$", "old: Plane"),
    ("an edit that replaces nothing", "crates/spec_picture/must-fail/plane_6.edit", r"(?m)^new:.*$", ""),
    ("a crate missing", ARCHITECTURE, r"\n\| `plane_rows`[^\n]*", ""),
    ("a crate twice", ARCHITECTURE, r"(\n\| `plane_rows`[^\n]*)", r"\1\1"),
    ("a crate below one that rests on it", ARCHITECTURE, r"(\n\| `statistics`[^\n]*)(\n\| `steady_search`[^\n]*)", r"\2\1"),
    ("a field that is not there", CHANGELOG, r"`columns_wrap`", "`columns_loop`"),
    ("a path that is not there", README, r"samples/hill\.txt", "samples/valley.txt"),
    ("a link that leads nowhere", README, r"\]\(docs/TRACE\.md\)", "](TRACE.md)"),
    ("a function that is not there", README, r"`direct_sum::direct_sum`", "`direct_sum::direct_sums`"),
    ("a function of a crate that is gone", README, r"`smoothing::smooth`", "`smooth::smooth`"),
    ("a crate too many", CRATES, r"\Z", "\nmedians: numbers\n"),
    ("a crate missing", CRATES, r"(?m)^plane_rows:.*$", ""),
    ("a crate that rests on one below it", CRATES, r"(?m)^windows:", "windows: panel_text"),
    ("a path in a comment of the code", "crates/checks/src/lib.rt", r"\A", "// crates/picture/specs has them.\n"),
    ("a path in a comment of a definition", "crates/spec_picture/specs/Frame.antt", r"\A", "-- crates/picture/specs has them.\n"),
    ("a law in the first line of an edit", "crates/numbers/must-fail/toward_zero.edit", r"`floor-law`", "`floors-law`"),
    ("a path in the first line of an edit", "crates/spec_picture/must-fail/plane_6.edit", r"\A", "# crates/picture/specs has them.\n"),
]

# Which file is called what else, or is added.
MOVES = [
    ("an edit renamed", "crates/spec_picture/must-fail/plane_6.edit", "crates/spec_picture/must-fail/plane_7.edit"),
    ("an edit that no line names", None, "crates/spec_picture/must-fail/plane_7.edit"),
    ("a file of definitions renamed", "crates/spec_picture/specs/Frame.antt", "crates/spec_picture/specs/Frames.antt"),
    ("a module renamed", "crates/row_steps/src/step.rt", "crates/row_steps/src/gain.rt"),
    ("a sample renamed", "samples/hill.txt", "samples/valley.txt"),
]


def damaged(texts):
    """Each damage, where it is done, and the texts with it; None where there is nothing to damage."""
    for what, where, pattern, instead in DAMAGES:
        changed = re.sub(pattern, instead, texts[where], count=1) if where in texts else None
        yield what, where, {**texts, where: changed} if changed not in (None, texts.get(where)) else None
    for what, where, new in MOVES:
        kept = {path: text for path, text in texts.items() if path != where}
        yield what, where or new, {**kept, new: texts.get(where, "")} if where is None or where in texts else None


def main():
    texts = tree()
    found = all_wrong(texts)
    usual = set(found)
    count = 0
    for what, where, copy in damaged(texts):
        count += 1
        if copy is None:
            found.append(f"{where}: nothing to damage for '{what}'")
        elif set(all_wrong(copy)) <= usual:
            found.append(f"{where}: '{what}' is not seen")
    for line in found:
        print(f"names.py: {line}", file=sys.stderr)
    if found:
        return 1
    names = len([name for name in quoted(texts[TRACE]) if re.search(r"[./]|::", name)])
    print(f"{names} names of the trace and {len(crates_in(texts[CRATES]))} crates are in the tree, {count} damaged copies are refused")
    return 0


if __name__ == "__main__":
    sys.exit(main())
