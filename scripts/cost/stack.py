#!/usr/bin/env python3
"""stack.py LIBRARY PREFIX: the deepest stack of each function of LIBRARY (x86-64, ELF) whose name begins with PREFIX.

Each function is walked instruction by instruction from its start, with the depth that push, sub and the like give, over all branches;
a call adds the return address and the callee's own deepest. Counted from the caller's call instruction on: return address included,
arguments that the caller puts on its stack not. A line for each function: octets, the functions on the deepest path, and what is called
outside the library, whose own stack is not counted. OBJDUMP names another objdump."""

import os
import re
import subprocess
import sys

HEAD = re.compile(r"^([0-9a-f]+) <(.+)>:$")
LINE = re.compile(r"^\s*([0-9a-f]+):\t(\S+)\s*(.*)$")
RELOCATION = re.compile(r"^\s*[0-9a-f]+: R_X86_64_\w+\s+(.+?)([-+]0x[0-9a-f]+)?$")
TARGET = re.compile(r"^([0-9a-f]+) <")


def called(symbol, args):
    """The function that a call or a jump leads to: by its relocation, or where the assembler has settled it, by the name in the operand."""
    inside = re.match(r"^[0-9a-f]+ <([^+>]+)>$", args)
    return symbol or (inside[1] if inside else "*" + args)


def signed(text):
    value = int(text, 16)
    return value - (1 << 64) if value >> 63 else value


class Function:
    """Its instructions: [address, operation, operands, symbol of the relocation], in order."""

    def __init__(self, name, start):
        self.name, self.start, self.lines = name, start, []
        self.deepest, self.calls = 0, []  # own depth; (callee, depth at which it is entered)
        self.red = 0  # how deep the red zone is used, which only a function that calls nothing has

    def grow(self, op, args, depth, frame):
        """The depth behind an instruction; `frame` keeps that of %rbp and of the probe's end."""
        number = re.match(r"\$(-?0x[0-9a-f]+),%rsp$", args)
        address = re.match(r"(-?)(0x[0-9a-f]+)\(%(rsp|rbp)\),%(rsp|r11)$", args)
        if op == "push":
            return depth + 8
        if op == "pop":
            return depth - 8
        if op == "sub" and number:
            return depth + signed(number[1])
        if op == "add" and number:
            return depth - signed(number[1])
        if op == "and" and number:
            return depth - signed(number[1])  # at most so much is lost to alignment
        if op == "mov" and args == "%rsp,%rbp":
            frame["rbp"] = depth
        if op == "leave":
            return frame["rbp"] - 8
        if op == "lea" and address:
            base = depth if address[3] == "rsp" else frame["rbp"]
            end = base + int(address[2], 16) * (1 if address[1] else -1)
            if address[4] == "rsp":
                return end
            frame["r11"] = end
        if re.search(r"%rsp$", args) and op in ("mov", "sub", "add", "xchg"):
            raise SystemExit(f"{self.name}: {op} {args}: this use of the stack is not known here")
        return depth

    def after(self, i, depth, frame):
        """Where control goes from instruction i, and how deep."""
        address, op, args, symbol = self.lines[i]
        op = args.split()[0] if op in ("notrack", "bnd") else op
        below = re.search(r"-(0x[0-9a-f]+)\(%rsp\)", args)
        if below and op != "lea":
            self.red = max(self.red, depth + int(below[1], 16))
        if op.startswith(("ret", "ud2", "hlt", "int3")):
            return []
        if op == "call":
            self.calls.append((called(symbol, args), depth + 8))
            return [(i + 1, depth)]
        if op.startswith("j"):
            inside = None if symbol else TARGET.match(args)
            place = self.at.get(int(inside[1], 16)) if inside else None
            on = [] if op == "jmp" else [(i + 1, depth)]
            if place is None and (symbol or inside):
                self.calls.append((called(symbol, args), depth))  # a tail call
            if place is None:
                self.jumps = max(self.jumps, depth) if not symbol and not inside else self.jumps
                return on
            if op == "jne" and i > 0 and self.lines[i - 1][2] == "%r11,%rsp":
                return [(i + 1, frame["r11"])]  # the loop that touches each page of a large frame
            return on + [(place, depth)]
        return [(i + 1, self.grow(op, args, depth, frame))]

    def reach(self, todo, depths, frame):
        """Walks from the places given until nothing new, or nothing deeper, is reached."""
        while todo:
            i, depth = todo.pop()
            if i >= len(self.lines) or depths.get(i, -1) >= depth:
                continue
            if depth > 1 << 20:
                raise SystemExit(f"{self.name}: the stack grows in a loop")
            depths[i] = depth
            self.deepest = max(self.deepest, depth)
            todo += self.after(i, depth, frame)

    def walk(self):
        self.at = {line[0]: i for i, line in enumerate(self.lines)}
        self.jumps = -1  # the depth at jumps through a table: what is not reached otherwise is reached from there
        depths, frame = {}, {}
        self.reach([(0, 0)], depths, frame)
        for i, line in enumerate(self.lines):
            if i not in depths and not line[1].startswith(("nop", "xchg", "data16", "cs")):
                if self.jumps < 0:
                    raise SystemExit(f"{self.name}: nothing leads to {line[0]:x}")
                self.reach([(i, self.jumps)], depths, frame)
        if not self.calls:
            self.deepest = max(self.deepest, self.red)


def functions(library):
    """All functions by name; and by section, for relocations that name one."""
    dump = os.environ.get("OBJDUMP", "objdump")
    text = subprocess.run([dump, "-dr", "--no-show-raw-insn", "-w", library], capture_output=True, text=True, check=True).stdout
    found, sections, section, current = {}, {}, None, None
    for line in text.split("\n"):
        if line.startswith("Disassembly of section "):
            section = line[len("Disassembly of section "):-1]
        elif head := HEAD.match(line):
            current = found[head[2]] = Function(head[2], int(head[1], 16))
            sections.setdefault(section, {})[current.start] = current
        elif current and (one := LINE.match(line)):
            operands, _, relocation = one[3].partition("\t")
            reloc = RELOCATION.match(relocation.strip()) if "R_X86_64" in relocation else None
            current.lines.append([int(one[1], 16), one[2], operands.split("#")[0].strip(), reloc and (reloc[1], reloc[2])])
    for function in found.values():
        for line in function.lines:
            if line[3]:
                line[3] = resolved(line[3], sections)
    return found


def resolved(relocation, sections):
    """The name of the function that a relocation names, by itself or by its section and place."""
    symbol, addend = relocation
    if symbol in sections:
        place = int(addend or "0x0", 16) + 4
        return sections[symbol][place].name if place in sections[symbol] else symbol
    return symbol


def deepest(name, found, path, memo):
    """Octets below the return address, the path, and what is called outside."""
    if name in path:
        raise SystemExit(f"recursion: {' '.join(path)} {name}")
    if name not in found:
        return 0, [], {name}
    if name not in memo:
        function = found[name]
        function.walk()
        best, way, outside = function.deepest, [], set()
        for callee, depth in set(function.calls):
            below, further, out = deepest(callee, found, path + [name], memo)
            outside |= out
            if depth + below > best:
                best, way = depth + below, further
        memo[name] = best, [name] + way, outside
    return memo[name]


def main():
    if len(sys.argv) != 3:
        raise SystemExit(__doc__)
    found, memo = functions(sys.argv[1]), {}
    for name in sorted(n for n in found if n.startswith(sys.argv[2])):
        octets, path, outside = deepest(name, found, [], memo)
        print(f"{octets + 8:6}  {' > '.join(path)}  outside: {' '.join(sorted(outside)) or 'nothing'}")


main()
