#!/usr/bin/env python3
"""Brings the names of this repository's definitions and lemmas to the spelling that Rattle's own have.

usage: python3 tools/respell.py    at the top of the repository, once, after port.py

Words are in snake case, `_` joins plain words, and a dash joins a function of the library or a type to what is said of it. Turned are the names that files of
crates/*/specs and lemma files of crates/*/proofs declare, and every name in lower camel case there; where they are cited
(proofs of functions, clauses, must-fail edits, documents) they follow. Names of src/ and names that Rattle makes stay.
"""

import collections
import glob
import os
import re

TOKEN = re.compile(r"(?<![A-Za-z0-9_'\-])[A-Za-z_][A-Za-z0-9_'\-₀-₉]*")
DECLARED = re.compile(r"^ *(?:abbrev +|unfoldable +)*(?:pub +)?(?:abbrev +)?([A-Za-z_][A-Za-z0-9_'\-]*) *:(?=\s)", re.M)
# Functions of the library that lemmas are named after, and arithmetic.
HEADS = set("length get_or take drop map set replicate reverse append mul add sub div pow mod cond eqb leb ltb".split())
# Where the new name stands in that file already, as a local definition: there the local one gets `_lem`.
LOCAL = {
    "crates/exchange/proofs/Ordered.antt": {"in_order": "in_order_lem"},
    "crates/exchange/proofs/Asked.antt": {"pair_fits": "pair_fits_lem"},
    "crates/exchange/proofs/Staged.antt": {"pair_fits": "pair_fits_lem"},
    "crates/reached/proofs/Requests.antt": {"pair_fits": "pair_fits_lem"},
    "crates/prefix/proofs/Bits.antt": {"same_bit": "same_bit_lem"},
}


# Stays: in clauses it is the local name for what the parameter of that name in snake case points to.
STAYS = {"nat-source", "nat-destination"}
# Fields of records, which may have the name that a definition elsewhere gets too.
FIELDS = {"list-mark", "update-mark", "child-room", "child-taken"}


def read(path):
    with open(path, encoding="utf-8") as f:
        return f.read()


def snake(word):
    return re.sub(r"(?<=[a-z0-9])([A-Z])", lambda m: "_" + m.group(1).lower(), word) if word[:1].islower() else word


def is_lemma_file(path):
    """A file of specs/, or one right in proofs/: not the proof of a function."""
    parts = path.split("/")
    return parts[2] == "specs" or (parts[2] == "proofs" and len(parts) == 4)


def plain(text):
    return re.sub(r"(?:(?<=\s)|^)(?:--|//).*", "", text, flags=re.M)


def names():
    antt = sorted(glob.glob("crates/*/specs/**/*.antt", recursive=True) + glob.glob("crates/*/proofs/**/*.antt", recursive=True))
    rt = sorted(glob.glob("crates/*/src/**/*.rt", recursive=True))
    own = set(os.listdir("crates"))
    kit, declared, camel = set(), set(), set()
    for path in antt + rt:
        text = read(path)
        for m in re.finditer(r"use ([\w.+]+?)\.\{([^}]*)\}", text):
            steps = m.group(1).split(".")
            if not (steps[0] == "Rattle" and len(steps) > 1 and steps[1] in own):
                kit |= set(TOKEN.findall(m.group(2)))
    for path in antt:
        text = plain(read(path))
        camel |= {t for t in TOKEN.findall(text) if t[0].islower() and re.search(r"[a-z0-9][A-Z]", t)}
        if is_lemma_file(path):
            declared |= set(DECLARED.findall(text))
    to = {}
    for t in sorted((declared | camel) - kit - STAYS):
        parts = [snake(p) for p in t.split("-")]
        new = parts[0]
        for p in parts[1:]:
            joins = new[:1].isupper() or p[:1].isupper() or new in HEADS
            new += ("-" if joins else "_") + p
        if t[0].islower() and new != t:
            to[t] = new
    # A lemma with a dash that would get a function's name.
    functions = {n for t, n in to.items() if "-" not in t} | {t for t in declared | kit if "-" not in t}
    for t in to:
        if "-" in t and t not in FIELDS and to[t] in functions:
            to[t] += "_lem"
    return antt, rt, to


def turn(text, to):
    return TOKEN.sub(lambda m: to.get(m.group(0), m.group(0)), text)


def turn_line(line, to, mark):
    """A line of code; in its comment names in camel case, and others only between backticks."""
    m = re.search(r"(?:(?<=\s)|^)" + re.escape(mark), line)
    code, said = (line[: m.start()], line[m.start() :]) if m else (line, "")
    return turn(code, to) + turn_prose(said, to)


def turn_prose(text, to):
    text = re.sub(r"`[^`\n]*`", lambda m: turn(m.group(0), to), text)
    return turn(text, {t: n for t, n in to.items() if "-" not in t and re.search(r"[a-z0-9][A-Z]", t)})


def main():
    antt, rt, to = names()
    for path in antt + rt:
        text = read(path)
        if path in LOCAL:
            text = turn(text, LOCAL[path])
        mark = "--" if path.endswith(".antt") else "//"
        new = "".join(turn_line(l, to, mark) for l in text.splitlines(keepends=True))
        if path.endswith(".rt"):
            # Rust's own text has no name that is turned: only clauses, imports and comments do.
            assert not [t for t in to if "-" in t and re.search(r"^\s*(pub )?fn " + re.escape(t), text, re.M)]
        with open(path, "w", encoding="utf-8") as f:
            f.write(new)
    for path in sorted(glob.glob("crates/*/must-fail/*.edit")):
        lines = read(path).splitlines(keepends=True)
        with open(path, "w", encoding="utf-8") as f:
            f.write("".join(turn(l, to) if l.startswith(("old:", "new:")) else turn_prose(l, to) if l.startswith("#") else l for l in lines))
    for path in sorted(glob.glob("docs/*.md")) + ["README.md", "CONTRIBUTING.md"]:
        text = read(path)
        with open(path, "w", encoding="utf-8") as f:
            f.write(turn_prose(text, to))
    falls = collections.defaultdict(list)
    for t, n in to.items():
        falls[n].append(t)
    for n, ts in sorted(falls.items()):
        if len(ts) > 1:
            print("fall together:", n, ts)
    print(len(to), "names turned")


if __name__ == "__main__":
    main()
