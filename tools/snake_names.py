#!/usr/bin/env python3
"""Brings the repository's own definitions and lemmas to today's spelling: words in snake case, as `windowsOf` to `windows_of`.

usage: tools/snake_names.py [--list] at the top of the repository, once, after port.py and before any edit by hand

It goes by text over crates/ (.antt files, .rt files and must-fail edits), tests/edits and the pages of docs/ and README.md (there only what
stands between backticks). Comments and strings of .rt files, names from src/ and names of types and modules stay. A new name that is
already another thing's gets the ending of TAKEN. --list prints each old and new name, and changes nothing.
"""

import os
import re
import sys

WORD = re.compile(r"(?<![\w'·])[a-z][A-Za-z0-9_']*(?:-[A-Za-z0-9_'≡≤<≢ℕ₀-₉]+)*")
CAMEL = re.compile(r"^[a-z][a-z0-9]*(?:[A-Z][a-z0-9]*)+'*$")
# Names of std's older logic that only the walks of Proof.antt files cite.
STAY = {"uint_Makes", "uint_Tells", "shr_slice_Tells", "walk_Meets"}
# What the plain rule would give a name that something else has.
TAKEN = {}


def snake(part):
    if not CAMEL.match(part):
        return part
    return re.sub(r"([A-Z])", lambda m: "_" + m[1].lower(), part)


def turned(word):
    if word in STAY:
        return word
    return "-".join(TAKEN.get(p, snake(p)) for p in word.split("-"))


def in_antt(text):
    return "".join(WORD.sub(lambda m: turned(m[0]), piece) if not piece.startswith("--") else piece for piece in re.split(r"(--[^\n]*)", text))


def in_rt(text):
    return "".join(piece if piece.startswith(("//", '"')) else WORD.sub(lambda m: turned(m[0]), piece) for piece in re.split(r'(//[^\n]*|"(?:[^"\\\n]|\\.)*")', text))


def in_edit(text):
    return "".join(in_rt(line) if line.startswith(("old:", "new:")) else line for line in text.splitlines(True))


def in_page(text):
    return re.sub(r"`[^`\n]+`", lambda m: WORD.sub(lambda n: turned(n[0]), m[0]), text)


def files():
    for top in ("crates", "tests/edits"):
        for folder, folders, names in os.walk(top):
            folders[:] = sorted(it for it in folders if it not in ("out", "target"))
            for name in sorted(names):
                kind = {".antt": in_antt, ".rt": in_rt, ".edit": in_edit}.get(os.path.splitext(name)[1])
                if kind:
                    yield os.path.join(folder, name), kind
    for folder, folders, names in os.walk("docs"):
        for name in sorted(names):
            if name.endswith(".md") and name != "PORT.md":
                yield os.path.join(folder, name), in_page
    yield "README.md", in_page


def main():
    seen = {}
    for path, kind in files():
        with open(path, encoding="utf-8") as f:
            text = f.read()
        for m in WORD.finditer(text):
            for part in m[0].split("-"):
                if m[0] not in STAY and (part in TAKEN or CAMEL.match(part)):
                    seen[part] = TAKEN.get(part, snake(part))
        new = kind(text)
        if new != text and "--list" not in sys.argv:
            with open(path, "w", encoding="utf-8") as f:
                f.write(new)
    for old in sorted(seen):
        if "--list" in sys.argv:
            print(old, seen[old])


main()
