#!/usr/bin/env python3
"""Respells what `port.py` left in an older spelling: run once at the top, after `port.py`, before any edit by hand.

- Definitions and lemmas in camel case come to snake case, as `windowSum` to `window_sum`, in code, definitions, proofs, edits and documents.
- Fields of records with a dash get an underscore, as `length-f` to `length_f`.
- Lemmas that would then have their definition's name end in `_lem`.
- Must-fail edits: what `port.py` did to the line that an edit replaces is done to the edit's two texts.

It says which edits have no single place afterwards; those are mended by hand.
"""
import difflib
import os
import re
import subprocess
import sys

LANDED = "452912864663d31ef78e915488ec57dd539d95bd"
# Names of the library in lemmas' names and in edits.
OTHERS = {"getD": "get_or", "negℤ": "neg_ℤ"}
LEMMAS = {name: name + "_lem" for name in ("with_value", "root_in", "cell_below", "no_number")}
TOKEN = re.compile(r"[^\W\d][\w']*(?:-[\w'ℤ]+)*")
FIELD = re.compile(r"^\s+(?:pub )?([a-z][\w']*(?:-[\w']+)+)\s+:(?:\s|$)")


def files(*endings):
    for top in ("crates",):
        for folder, below, names in os.walk(top):
            below[:] = sorted(name for name in below if name != "out")
            for name in sorted(names):
                if name.endswith(endings):
                    yield os.path.join(folder, name)


def read(path):
    with open(path, encoding="utf-8") as file:
        return file.read()


def write(path, text):
    if read(path) != text:
        with open(path, "w", encoding="utf-8") as file:
            file.write(text)


def snake(name):
    return re.sub(r"(?<=[a-z0-9])(?=[A-Z])|(?<=[A-Z])(?=[A-Z][a-z])", "_", name).lower()


def part(name):
    if name in OTHERS:
        return OTHERS[name]
    return snake(name) if re.fullmatch(r"[a-z][a-z0-9]*(?:[A-Z][a-z0-9]*)+", name) else name


def dashed_fields():
    """The fields of records, whose names have a dash."""
    found = set()
    for path in files(".antt"):
        in_record = False
        for line in read(path).splitlines():
            if re.match(r"\s*(pub )?record\b.*\bwhere\b", line):
                in_record, indent = True, len(line) - len(line.lstrip())
            elif in_record and line.strip() and len(line) - len(line.lstrip()) <= indent and not line.startswith("--"):
                in_record = False
            field = FIELD.match(line)
            if in_record and field and len(line) - len(line.lstrip()) == indent + 2:
                found.add(field[1])
    return found


def respelled(text, fields, lemmas):
    def token(match):
        name = match[0]
        if lemmas and name in LEMMAS:
            return LEMMAS[name]
        if name in fields:
            return name.replace("-", "_")
        return "-".join(part(each) for each in name.split("-"))

    return TOKEN.sub(token, text)


def alike(line):
    """What a line has in both spellings."""
    return re.sub(r"[\W_]|now|entry|exit|old|new", "", line).lower()


def landed(path):
    return subprocess.run(["git", "show", f"{LANDED}:{path}"], capture_output=True, text=True).stdout


def ported_edit(path, fields):
    """Does to the texts of an edit what was done to the line that it replaces."""
    out, missed = [], []
    where, now, old, pairs = "", "", "", {}
    for line in read(path).splitlines():
        if line.startswith("file: "):
            where = os.path.join(os.path.dirname(os.path.dirname(path)), line[6:].strip())
            before, now = landed(where).splitlines(), read(where)
            matcher = difflib.SequenceMatcher(None, [alike(each) for each in before], [alike(each) for each in now.splitlines()], autojunk=False)
            pairs = {}
            for a, b, n in matcher.get_matching_blocks():
                for k in range(n):
                    pairs[before[a + k]] = now.splitlines()[b + k]
        elif line.startswith(("old:", "new:")):
            head, text = line[:5], line[5:]
            if head.startswith("old:"):
                old = text
            text = turned(text, [(a, b) for a, b in pairs.items() if old.strip() and old in a or text.strip() and text in a], fields, where)
            if head.startswith("old:") and now.count(text) != 1:
                missed.append(text)
            line = head + text
        out.append(line)
    write(path, "\n".join(out) + "\n")
    return missed


def turned(text, pairs, fields, where):
    text = re.sub(r"(?<=[\w')]) \.(?=[a-z])", ".", text)
    if ".antt" in where:
        text = re.sub(r"(?<= )\(([\w']+(?:\.[\w']+)+)\)", r"\1", text)
    names = {}
    for a, b in pairs:
        x, y = TOKEN.findall(a), TOKEN.findall(b)
        if len(x) == len(y):
            names.update({s: t for s, t in zip(x, y) if s != t})
    text = TOKEN.sub(lambda m: names.get(m[0], m[0]), text)
    return respelled(text, fields, False)


def main():
    fields = dashed_fields()
    for path in files(".antt"):
        write(path, respelled(read(path), fields, True))
    for path in files(".rt"):
        write(path, respelled(read(path), fields, False))
    for path in ["README.md"] + [os.path.join("docs", name) for name in sorted(os.listdir("docs")) if name.endswith(".md")]:
        text = read(path)
        write(path, re.sub(r"`[^`\n]+`", lambda m: respelled(m[0], fields, False), text))
    for path in files(".edit"):
        for text in ported_edit(path, fields):
            print(f"{path}: not one place: {text}")
    print(f"fields: {len(fields)}")


if __name__ == "__main__":
    sys.exit(main())
