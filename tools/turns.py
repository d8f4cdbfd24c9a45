#!/usr/bin/env python3
"""turns.py PROGRAM STDIN: what count.sh prints, by valgrind and objdump: the instructions that a program executes, a string move counted
once, and how many turns string moves made. Valgrind counts an instruction for each turn of a string move; how often one was begun is what
the instruction before it counts."""
import os
import re
import subprocess
import sys
import tempfile

program, stdin = sys.argv[1:]


def counted():
    """By object and address: how many instructions valgrind counted there."""
    with tempfile.TemporaryDirectory() as folder, open(stdin, "rb") as given:
        out = os.path.join(folder, "out")
        words = ["valgrind", "--tool=callgrind", "--dump-instr=yes", f"--callgrind-out-file={out}", program]
        subprocess.run(words, stdin=given, stdout=subprocess.DEVNULL, stderr=subprocess.DEVNULL, check=True)
        with open(out) as text:
            return parsed(text)


def parsed(text):
    counts, objects, here, address, of_a_call = {}, {}, None, 0, False
    for line in text:
        line = line.rstrip("\n")
        name = re.match(r"(c?ob)=\((\d+)\)(?: (.*))?$", line)
        cost = re.match(r"(0x[0-9a-f]+|[+-]\d+|\*) \S+ (\d+)$", line)
        if name:
            objects.setdefault(name[2], name[3])
            here = objects[name[2]] if name[1] == "ob" else here
        elif line.startswith("calls="):
            of_a_call = True
        elif cost:
            address = int(cost[1], 16) if cost[1].startswith("0x") else address + (0 if cost[1] == "*" else int(cost[1]))
            if not of_a_call:  # what a callee cost is counted with the callee
                counts[here, address] = counts.get((here, address), 0) + int(cost[2])
            of_a_call = False
    return counts


def string_moves(path):
    """The addresses of an object's string moves, and of the instruction before each."""
    listing = subprocess.run(["objdump", "-d", "--no-show-raw-insn", path], capture_output=True, text=True).stdout
    found = re.findall(r"^ *([0-9a-f]+):\t(\S+)", listing, re.M)
    return {int(a, 16): int(b, 16) for (b, _), (a, what) in zip(found, found[1:]) if what.startswith("rep")}


counts = counted()
moves = {path: string_moves(path) for path in {path for path, _ in counts}}
total = turns = 0
for (path, address), count in counts.items():
    if address in moves[path]:
        turns += count
        count = min(count, counts.get((path, moves[path][address]), 1))
    total += count
print(total, turns)
