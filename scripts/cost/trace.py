#!/usr/bin/env python3
"""trace.py PROGRAM OBJECT.. -- FUNCTION..: table.py's rows without callgrind, for a machine that is not x86-64: PROGRAM runs under
qemu-x86_64, which writes down each instruction. Between two calls of mark() (count.h), once a FUNCTION is entered, those of the OBJECTs
count, and those of plain.c that they call."""

import re
import subprocess
import sys

PLAIN = {"memcpy", "memmove", "memset", "memcmp"}
STEP = re.compile(r"^Trace .*?\[[0-9a-f]+/([0-9a-f]+)/")


def symbols(path):
    """The functions of a file: name, start, length."""
    out = subprocess.run(["x86_64-linux-gnu-nm", "-S", "--defined-only", path], capture_output=True, text=True, check=True).stdout
    found = (re.match(r"([0-9a-f]+) ([0-9a-f]+) [tTwW] (.+)$", line) for line in out.splitlines())
    return [(f[3], int(f[1], 16), int(f[2], 16)) for f in found if f]


def kinds(program, objects, functions):
    """What the instruction at an address is."""
    counted = {name for path in objects for name, _, _ in symbols(path)}
    kind = {}
    for name, start, length in symbols(program):
        what = "plain" if name in PLAIN else "counted" if name in counted else None
        if what:
            kind.update((address, what) for address in range(start, start + length))
        if name == "mark" or name in functions and what == "counted":
            kind[start] = "mark" if name == "mark" else "entry"
    return kind


def rows(program, objects, functions):
    kind, counts, total, plain = kinds(program, objects, functions), [], 0, 0
    marked = entered = ours = False  # behind a first mark; in a function that counts, so far; its instruction came last
    run = ["qemu-x86_64", "-L", "/usr/x86_64-linux-gnu", "-singlestep", "-d", "exec,nochain", "-D", "/dev/stderr", program]
    with subprocess.Popen(run, stdout=subprocess.PIPE, stderr=subprocess.PIPE, text=True) as emulated:
        for line in emulated.stderr:
            step = STEP.match(line)
            if not step:
                continue
            what = kind.get(int(step[1], 16))
            if what == "mark":
                if marked:
                    counts.append((total, plain))
                marked, entered, ours, total, plain = not marked, False, False, 0, 0
                continue
            entered = entered or what == "entry"
            ours = entered and (what in ("entry", "counted") or ours and what == "plain")
            total += ours
            plain += ours and what == "plain"
        names = emulated.stdout.read().splitlines()
    if emulated.returncode or len(names) != len(counts):
        sys.exit(f"trace.py: {program} ended with {emulated.returncode}: {len(names)} names for {len(counts)} counts")
    return zip(names, counts)


def main():
    split = sys.argv.index("--")
    for name, (total, plain) in rows(sys.argv[1], sys.argv[2:split], sys.argv[split + 1 :]):
        print(f"| {name} | {total:,} | {plain:,} |")


main()
