#!/usr/bin/env python3
"""Spells the repository's own definitions, lemmas, fields and variables in snake case, after the kit's port.py.

usage: python3 tools/port_names.py [--list]     at the top, once, with everything committed but what port.py wrote

Names of the kit are kept: they are those that `use` lines take from modules outside this repository. A lemma that would get its definition's
name gets `_lem` after it. Code, strings, exported names, inputs and outputs are not touched: only .antt files, and the clauses and ghost
items of .rt files, which alone have names in camel case. Must-fail edits of specs/ are turned with them.
"""

import os
import re
import sys

USE = re.compile(r"^\s*(?:ghost )?use ([\w.+'-]+?)\.\{([^}]*)\}", re.M)
USE_ONE = re.compile(r"^\s*(?:ghost )?use ([\w.+'-]+?)\.([^.{}\s]+)\s*$", re.M)
TOKEN = re.compile(r"[^\s(){}\[\],;.«»`\"]+")
# Definitions and the lemmas that would take their names.
LEMMAS = """sides-suit depth-suits long-enough doubled-below pair-suits hvs-score record-suits first-max total-suits max-suits places-suit
counts-suit fed-all scale-max count-suits suit-at sample-at ring-a ring-b lent_total row_walked""".split()


def files(suffixes):
    for folder, dirs, names in os.walk("crates"):
        dirs[:] = sorted(d for d in dirs if d != "out")
        for n in sorted(names):
            if n.endswith(suffixes):
                yield os.path.join(folder, n)


def read(path):
    with open(path, encoding="utf-8") as f:
        return f.read()


def is_old(n):
    return bool(re.fullmatch(r"[A-Za-z][\w']*(-[\w']+)+", n) or re.fullmatch(r"[a-z][a-z0-9_']*[A-Z][\w']*(⁻¹)?", n))


def snake(n):
    n = n.replace("-", "_")
    return re.sub(r"(?<=[a-z0-9])([A-Z])", lambda m: "_" + m.group(1).lower(), n) if n[0].islower() else n


def kit_names():
    own, kit = set(os.listdir("crates")), set()
    for path in files((".antt", ".rt")):
        t = read(path)
        for m in USE.finditer(t):
            module = m.group(1).split(".")
            if not (module[0] == "Rattle" and module[1] in own):
                kit |= {p.strip() for n in m.group(2).split(",") for p in n.split(" as ")}
        kit |= {m.group(2) for m in USE_ONE.finditer(t)}
    return kit


def own_names(kit):
    found = set()
    for path in files((".antt",)):
        if os.path.basename(path) != "Proof.antt":
            t = re.sub(r"(^|\s)--[^\n]*", " ", read(path))
            found |= {n for n in TOKEN.findall(t) if n not in kit and is_old(n)}
    return found


def turned(text, names):
    def new(m):
        n = m.group(0)
        if n not in names and n not in LEMMAS:
            return n
        before = text[m.start() - 1 : m.start()]
        return snake(n) + ("_lem" if n in LEMMAS and before != "." else "")

    return TOKEN.sub(new, text)


def turned_camel(text, names):
    """A .rt file or a page: names in camel case only, and not in strings of code."""
    camel = sorted((n for n in names if "-" not in n), key=len, reverse=True)
    return re.sub(r"(?<![\w'\"/-])(" + "|".join(map(re.escape, camel)) + r")(?![\w'\"/-])", lambda m: snake(m.group(1)), text)


def write(path, text):
    if text != read(path):
        with open(path, "w", encoding="utf-8") as f:
            f.write(text)


def main():
    names = own_names(kit_names())
    if "--list" in sys.argv:
        for n in sorted(names):
            print(n, snake(n) + ("_lem" if n in LEMMAS else ""))
        return
    for path in files((".antt",)):
        write(path, turned(read(path), names))
    for path in files((".rt",)):
        write(path, turned_camel(read(path), names))


if __name__ == "__main__":
    main()
