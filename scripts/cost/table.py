#!/usr/bin/env python3
"""table.py DUMP..: a row for each counted call of callgrind's dumps: its name, its instructions, and how many of them copy or compare
octets (memcpy and its like, see plain.c)."""

import re
import sys

PLAIN = {"memcpy", "memmove", "memset", "memcmp"}


def counted(path):
    """The name of the call, all instructions, and those of plain.c: the cost lines of a function that do not follow `calls=`."""
    names, name, total, plain, function, called = {}, None, 0, 0, None, False
    for line in open(path):
        if line.startswith("desc: Trigger: Client Request: "):
            name = line.rstrip("\n").split(": ", 3)[3]
        elif line.startswith("summary: "):
            total = int(line.split()[1])
        elif found := re.match(r"fn=\((\d+)\)(?: (.+))?", line):
            names.setdefault(found[1], found[2])
            function = names[found[1]]
        elif found := re.match(r"cfn=\((\d+)\)(?: (.+))?", line):
            names.setdefault(found[1], found[2])
        elif line.startswith("calls="):
            called = True
        elif re.match(r"[+\-*\d]", line):
            if not called and function in PLAIN:
                plain += int(line.split()[1])
            called = False
    return name, total, plain


def main():
    parts = sorted(sys.argv[1:], key=lambda path: int(path.rsplit(".", 1)[1]))
    for name, total, plain in map(counted, parts):
        print(f"| {name} | {total:,} | {plain:,} |")


main()
