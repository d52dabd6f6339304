#!/usr/bin/env python3
"""Brings the names of the repository's own definitions and lemmas to snake case, once, after port.py.

usage: python3 tools/respell.py         at the top of the repository

A name is respelled part by part, where a dash joins parts: `roundedOf` becomes `rounded_of`, `ltZ-true` `lt_z-true`. Types, modules and
constructors, which begin with a capital, keep their spelling, and so do Rattle's functions, which had it already. In .rt files, comments,
must-fail edits and pages only names are turned that stand in an .antt file outside its comments. It says which names fall together.
"""

import collections
import os
import re
import subprocess

WORD = re.compile(r"[A-Za-z_0-9'\u2080-\u2089\u0370-\u03ffℤℕ+*→←-]*[A-Za-z][A-Za-z_0-9'\u2080-\u2089\u0370-\u03ffℤℕ+*→←-]*")
CAMEL = re.compile(r"^[a-z][a-z0-9_']*[A-Z]")
PAGES = (".md", ".sh", ".py", ".cfg", ".edit")


def part(p):
    """One part of a name: `isFull` to `is_full`; one that begins with a capital stays."""
    if not CAMEL.match(p):
        return p
    p = re.sub(r"([a-z0-9'])([A-Z])", r"\1_\2", p)
    p = re.sub(r"([A-Z])([A-Z][a-z])", r"\1_\2", p)
    return p.lower()


def name(n):
    return "-".join(part(p) for p in n.split("-"))


def code(line):
    """An .antt line's code and its comment."""
    m = re.search(r"(^|\s)--(\s|$)", line)
    return (line, "") if not m else (line[: m.start()], line[m.start() :])


def files():
    out = subprocess.run(["git", "ls-files", "-co", "--exclude-standard"], capture_output=True, text=True, check=True).stdout
    return [f for f in out.splitlines() if os.path.isfile(f) and not os.path.islink(f)]


def main():
    antt = [f for f in files() if f.endswith(".antt")]
    names = {}
    for f in antt:
        for line in open(f, encoding="utf-8"):
            for w in WORD.findall(code(line)[0]):
                if name(w) != w:
                    names[w] = name(w)
    taken = collections.defaultdict(set)
    for old, new in names.items():
        taken[new].add(old)
    for f in antt:
        for line in open(f, encoding="utf-8"):
            for w in WORD.findall(code(line)[0]):
                if w in taken:
                    taken[w].add(w)
    for new, olds in sorted(taken.items()):
        if len(olds) > 1:
            print("together:", new, "<-", ", ".join(sorted(olds)))

    def known(m):
        return names.get(m.group(0), m.group(0))

    turned = 0
    for f in files():
        if not (f.endswith((".antt", ".rt")) or f.endswith(PAGES)) or f == "tools/respell.py" or f.startswith(("second/", "docs/PORT")):
            continue
        text = open(f, encoding="utf-8").read()
        new = WORD.sub(known, text)
        if new != text:
            turned += 1
            open(f, "w", encoding="utf-8").write(new)
    print(len(names), "names,", turned, "files")


main()
