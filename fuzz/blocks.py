#!/usr/bin/env python3
"""Lists the blocks of proved code in a program: blocks.py PROGRAM ANCHOR OBJECT. First the lowest, then each, as distances from the anchor's address.

A block begins at a function's first instruction, where a jump leads, and behind a jump or a return. Functions of the kit's own library are left out: most of
those in a program tell errors of the system, which no input of a target brings about, and they may lie far from the others."""
import re
import subprocess
import sys

program, anchor, code = sys.argv[1:]


def symbols(path):
    out = subprocess.run(["nm", path], capture_output=True, text=True, check=True).stdout
    return [line.split(maxsplit=2) for line in out.splitlines() if re.match(r"[0-9a-f]+ [tT] ", line)]


ours = {name for _, _, name in symbols(code) if not re.match(r"(core|std\w*)::", name)}
start = next(int(address, 16) for address, _, name in symbols(program) if name == anchor)
text = subprocess.run(["objdump", "-d", "--no-show-raw-insn", program], capture_output=True, text=True, check=True).stdout
blocks, function, after = set(), None, False
inside, targets = {}, {}
for line in text.splitlines():
    head = re.match(r"([0-9a-f]+) <(.*)>:$", line)
    if head:
        function, after = (head[2] if head[2] in ours else None), True
    step = re.match(r"\s+([0-9a-f]+):\s+(\S+)\s*(.*)$", line)
    if not function or not step:
        continue
    address, name, rest = int(step[1], 16), step[2], step[3]
    padding = name in ("int3", "xchg", "nop", "nopw", "nopl", "cs", "data16") or rest.startswith("nopw")
    if after and not padding:
        blocks.add(address)
        after = False
    inside[address] = function
    if name.startswith("j") or name in ("ret", "retq", "ud2"):
        after = True
        to = re.match(r"([0-9a-f]+) <", rest)
        if to:
            targets[int(to[1], 16)] = function
blocks |= {address for address in targets if address in inside}
print(min(blocks) - start)
for address in sorted(blocks):
    print(address - start)
