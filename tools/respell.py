#!/usr/bin/env python3
"""Spells the repository's own definitions and lemmas as the installed Rattle does: words in snake case, facts like types.

Run once at the top, after the kit's port.py. `respell.tsv` beside it has a row for each name: old, a tab, new. Whole words
turn: in specs/ and proofs/, in the clauses of src/ (whose own functions are no rows of the table: they are in snake case
already), in the code spans of README.md, docs/DECISIONS.md and docs/DIFFERENCES.md, and in the texts of the edits that change
a file of specs/. Those also take the spelling that port.py gave that file. A name that a file brings in from the library keeps
its spelling there, and so does a name behind a library's path.
"""

import glob
import os
import re

here = os.path.dirname(os.path.abspath(__file__))


def table_of(name):
    with open(os.path.join(here, name), encoding="utf-8") as f:
        return dict(line.rstrip("\n").split("\t") for line in f)


table = table_of("respell.tsv")
with open("crates.txt", encoding="utf-8") as f:
    own = {line.split(":")[0].strip() for line in f if ":" in line and not line.startswith("#")}

PATH = re.compile(r'[^\s(){};,@"«»`]+')
USE = re.compile(r"use ([^\s{}]+)\.\{([^{}]*)\}")


def is_own(path):
    parts = path.split(".")
    return parts[0] in ("tie", "goal") or not parts[0][:1].isupper() and parts[0] not in ("mathlib", "native", "borrow", "lib") or (
        parts[0] == "Rattle" and len(parts) > 1 and parts[1] in own
    )


def turn_path(path, kept):
    parts = path.split(".")
    if len(parts) > 1 and not is_own(path):
        return path
    return ".".join(part if part in kept and len(parts) == 1 else table.get(part, part) for part in parts)


def turn(text):
    kept = set()
    for m in USE.finditer(text):
        if not is_own(m[1]):
            kept |= {item.split(" as ")[-1].strip() for item in m[2].split(",")}
    out, at = [], 0
    for m in USE.finditer(text):
        out.append(PATH.sub(lambda w: turn_path(w[0], kept), text[at : m.start()]))
        out.append(PATH.sub(lambda w: turn_path(w[0], set()), m[0]) if is_own(m[1]) else m[0])
        at = m.end()
    out.append(PATH.sub(lambda w: turn_path(w[0], kept), text[at:]))
    return "".join(out)


def spans(text):
    return re.sub(r"`[^`\n]+`", lambda m: PATH.sub(lambda w: turn_path(w[0], set()), m[0]), text)


# What port.py makes of a line of specs/, as far as the edits have it.
SPELT = [
    (re.compile(r"\(([^\s(){}]+) \.([a-z][^\s(){};,]*)\)"), r"\1.\2"),
    (re.compile(r"(?<=\S) \.(?=[a-z0-9])"), "."),
    (re.compile("′"), "'"),
    (re.compile(r"\bmathlib\.Core\.Bool\.|\bPrim\.Native\.Nat\.|\blib\.Dec\.|\blib\.ListN\."), "Rattle.std.specs.Prelude."),
    (re.compile(r"\blib\.Ieee\.(nan|inf|fin|binary64)\b"), r"Rattle.std.specs.Float.\1"),
    (re.compile(r"\blib\.Ieee\."), "Rattle.std.specs.Float.Ieee."),
]


def edit(text):
    out, specs = [], False
    for line in text.split("\n"):
        if line.startswith("file: "):
            specs = line.startswith("file: specs/")
        elif specs and line.startswith(("old: ", "new: ")):
            head, body = line[:5], line[5:]
            for pattern, by in SPELT:
                body = pattern.sub(by, body)
            line = head + PATH.sub(lambda w: turn_path(w[0], set()), body)
        out.append(line)
    return "\n".join(out)


def rewrite(path, how):
    with open(path, encoding="utf-8") as f:
        old = f.read()
    new = how(old)
    if new != old:
        with open(path, "w", encoding="utf-8") as f:
            f.write(new)


for at in ("specs/**/*.antt", "proofs/**/*.antt", "src/*.rt"):
    for path in sorted(glob.glob("crates/*/" + at, recursive=True)):
        rewrite(path, turn)
for path in sorted(glob.glob("crates/*/must-fail/**/*.edit", recursive=True)):
    rewrite(path, edit)
for path in ("README.md", "docs/DECISIONS.md", "docs/DIFFERENCES.md"):
    rewrite(path, spans)
