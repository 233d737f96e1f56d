#!/usr/bin/env python3
"""Brings this repository's own names to today's spelling, once, behind the kit's port/port.py (docs/PORT.md tells what for).

usage: python3 tools/respell.py        at the top of the repository

- Words of specs/ and proofs/ are in snake case: `readAnswer` becomes `read_answer`, `length-putAll` becomes `length-put_all`.
  Types keep their capital. Functions of src/ were spelled so before.
- A lemma that then has its function's name gets `_lem`.
- The crate `bytes` is called `classes`, since the kit has a library of that name.
- crates.txt names no crate of the older library.
"""

import glob
import os
import re
import subprocess

CAMEL = re.compile(r"(?<![\w'\\])([a-z][a-z0-9]*(?:[A-Z][a-z0-9]*)+)(?![\w])")
# a lemma that has its function's name once that is respelled, and the files that name it
LEMMAS = {
    "block_room": ["crates/previews/proofs/Previews.antt"],
    "goes_on": ["crates/body/proofs/Turns.antt"],
    "last_byte": ["crates/blocks/proofs/Cases.antt"],
    "row_words": ["crates/fonts/proofs/Inserts.antt"],
}
# parts of letters and of bytes in comments
LETTERS = re.compile(r"x[A-F][0-9A-F]|bB1?|f1A|fonttblA")
PAGES = ["README.md", "CONTRIBUTING.md", "docs/DECISIONS.md", "docs/DIFFERENCES.md", "docs/PROOFS.md", "docs/REFUSALS.md", "docs/STANDARD.md"]


def read(path):
    with open(path, encoding="utf-8") as f:
        return f.read()


def write(path, text):
    if read(path) != text:
        with open(path, "w", encoding="utf-8") as f:
            f.write(text)


def snake(text):
    def turned(m):
        word = m.group(1)
        if LETTERS.fullmatch(word):
            return word
        if word == "getD":
            return "get_or"
        return re.sub(r"[A-Z]", lambda c: "_" + c.group(0).lower(), word)

    return CAMEL.sub(turned, text)


def files():
    for kind in ("rt", "antt", "edit"):
        yield from sorted(glob.glob(f"crates/*/**/*.{kind}", recursive=True))


def main():
    for name, paths in LEMMAS.items():
        for p in paths:
            write(p, re.sub(rf"(?<![\w.'-]){name}(?![\w'-])", name + "_lem", read(p)))
    for p in files():
        write(p, snake(read(p)))
    for p in PAGES:
        write(p, re.sub(r"`[^`\n]+`", lambda m: snake(m.group(0)), read(p)))
    if os.path.isdir("crates/bytes"):
        subprocess.run(["git", "mv", "crates/bytes", "crates/classes"], check=True)
    for p in files():
        t = read(p).replace("Rattle.bytes.", "Rattle.classes.")
        if not p.endswith(".antt"):
            t = re.sub(r"(?<![\w.])bytes::", "classes::", t)
        write(p, t)
    lines = []
    for line in read("crates.txt").split("\n"):
        m = re.match(r"(\w+):([^#]*)(#.*)?$", line)
        if m:
            words = [{"bytes": "classes"}.get(w, w) for w in m.group(2).split() if w not in ("io", "libc", "os")]
            head = {"bytes": "classes"}.get(m.group(1), m.group(1))
            line = f"{head}: {' '.join(words)}".rstrip()
            if m.group(3):
                line = f"{line:<58} {m.group(3)}"
        lines.append(line)
    write("crates.txt", "\n".join(lines))


if __name__ == "__main__":
    main()
