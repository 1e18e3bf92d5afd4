#!/usr/bin/env python3
"""Brings this repository's own specification and proof names to one spelling: words in snake case, types and facts in
upper camel case (`row-error` becomes `row_error`, `Rows-fit` becomes `RowsFit`).

usage: python3 tools/respell.py [ROOT]

Renames what the .antt files below ROOT/crates declare, and the names that `as` gives an import, in every .antt file and in
the clauses of every .rt file. Names of goals that Rattle makes, names that a file imports from a library, strings and
comments stay. Also mends three comments in which `m·N` and its like were read as a path.
"""

import collections
import os
import re
import sys

END = r"\s(){};,.⟦⟧«»\[\]|⌜⌝∗@\\"
TOKEN = re.compile(rf"[^{END}]+")
DECLARED = re.compile(r"^\s*(?:(?:abbrev|unfoldable|pub|ruleset|data|record)\s+)*([^\s(){};,.:]+)\s*(.*)$")
IMPORT = re.compile(r"use\s+([A-Za-z_][\w.'+-]*)\.\{([^}]*)\}")
# In a function's own proof files, what follows these variables are names that Rattle makes.
MADE = re.compile(r"(?<![^\s(\[,;])[cwl]\.$")
GARBLED = {"typeof.m.N": "m·N", "typeof.gamma.X": "gamma·X"}


def files(root, *ends):
    for folder, dirs, names in os.walk(os.path.join(root, "crates")):
        dirs[:] = sorted(d for d in dirs if d != "out")
        for name in sorted(names):
            if name.endswith(ends):
                yield os.path.join(folder, name)


def read(path):
    with open(path, encoding="utf-8") as f:
        return f.read()


def dashed(name):
    return re.fullmatch(r"[^\W\d_][^\s-]*(-[^\s-]+)+", name) is not None


def spelled(name):
    parts = name.split("-")
    if parts[0][0].isupper() and not any(c.isdigit() for c in parts[0]):
        return "".join(p[0].upper() + p[1:] for p in parts)
    return "_".join(parts)


def own(module, crates):
    parts = module.split(".")
    return parts[0] == "Rattle" and len(parts) > 1 and parts[1] in crates


def declared(root, crates):
    """The names that this repository declares, and those that are goals of Rattle's."""
    names, goals = set(), set()
    for path in files(root, ".antt"):
        for line in read(path).splitlines():
            m = DECLARED.match(line)
            if not m or not dashed(m.group(1)) or not re.match(r"[:({]", m.group(2)) or ":" not in m.group(2):
                continue
            (goals if re.search(r":\s*goal\.", m.group(2)) else names).add(m.group(1))
    for path in files(root, ".antt", ".rt"):
        for module, items in IMPORT.findall(read(path)):
            for item in items.split(","):
                if m := re.fullmatch(r"\s*(\S+)\s+as\s+(\S+)\s*", item):
                    if dashed(m.group(2)) and (m.group(2) not in library(item, module, crates)):
                        names.add(m.group(2))
    return names - goals


def library(item, module, crates):
    return set() if own(module, crates) else {item.split(" as ")[0].strip()}


def foreign(text, crates):
    """The dashed names that a file imports from a library."""
    found = set()
    for module, items in IMPORT.findall(text):
        if own(module, crates):
            continue
        for item in items.split(","):
            name = item.split(" as ")[-1].strip()
            if " as " not in item and dashed(name):
                found.add(name)
    return found


def respell(text, names, walks=False):
    """The text with the names respelled, outside of strings and comments; `walks` is true of a function's own proof files."""

    def turned(m):
        name = m.group(0)
        if name not in names or (walks and MADE.search(m.string, 0, m.start())):
            return name
        return spelled(name)

    out = []
    for piece in re.split(r'("(?:[^"\\]|\\.)*"|//[^\n]*|--[^\n]*)', text):
        if piece.startswith(('"', "//", "--")):
            out.append(piece)
        else:
            out.append(TOKEN.sub(turned, piece))
    return "".join(out)


def main(root):
    crates = set(os.listdir(os.path.join(root, "crates")))
    names = declared(root, crates)
    for name in sorted(n for n in names if spelled(n) in {spelled(x) for x in names if x != n}):
        print(f"falls together: {name}")
    changed = collections.Counter()
    for path in files(root, ".antt", ".rt"):
        text = read(path)
        alien = foreign(text, crates) & names
        for name in sorted(alien):
            print(f"a library's name, kept: {path}: {name}")
        new = respell(text, names - alien, os.path.basename(path) in ("Answers.antt", "Invariants.antt"))
        for old, mended in GARBLED.items():
            new = new.replace(old, mended)
        if new != text:
            with open(path, "w", encoding="utf-8") as f:
                f.write(new)
            changed[path] += 1
    print(f"{len(names)} names, {len(changed)} files changed")


main(sys.argv[1] if len(sys.argv) > 1 else ".")
