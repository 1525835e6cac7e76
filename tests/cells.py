#!/usr/bin/env python3
"""Makes the table of cells that the program netlist_cases computes: its input, and the answers of Icarus Verilog.

    tests/cells.py [FOLDER]      the table 'cells' of crates/netlist_cases; needs iverilog and vvp

A line of the input is a kind, the sign, the width of Y, and for each input port its width and its number, as
`add unsigned 8 8:255 8:1`. Each line is one assignment in Verilog, and its answer is what the simulator prints.
"""
import os
import random
import subprocess
import tempfile

from lib import tables


WIDTHS = (1, 2, 8, 64, 128)
UNARY = {"not": "~a", "neg": "-a"}
BINARY = {"and": "a & b", "or": "a | b", "xor": "a ^ b", "xnor": "a ~^ b", "add": "a + b", "sub": "a - b", "mul": "a * b"}
RELATIONS = {"lt": "a < b", "le": "a <= b", "gt": "a > b", "ge": "a >= b", "eq": "a == b", "ne": "a != b"}
SHIFTS = {"shl": "a << b", "shr": "a >> b", "sshr": "a >>> b"}
REDUCTIONS = {"rand": "&a", "ror": "|a", "rxor": "^a", "rnand": "~&a", "rnor": "~|a", "rxnor": "~^a", "lnot": "!a"}
LOGICAL = {"land": "a && b", "lor": "a || b"}


def corners(width):
    """Numbers at which a word of this width may go wrong."""
    top = 1 << (width - 1)
    return sorted({0, 1 % (2 * top), top - 1, top, 2 * top - 1})


def cases(word):
    """Kind, sign, width of Y, words as (width, number), and the statements in Verilog that give y."""
    for width in (8, 9):
        yield "add", False, width, [(width, 255), (width, 1)], "y = a + b;"
    for width in WIDTHS:
        some = corners(width) + [word.randrange(1 << width) for _ in range(2)]

        def pairs(count):
            return [(word.choice(some), word.choice(some)) for _ in range(count)] + [(some[-1], some[-1])]

        for kind, text in UNARY.items():
            for a in word.sample(some, min(3, len(some))):
                yield kind, False, width, [(width, a)], f"y = {text};"
        for kind, text in REDUCTIONS.items():
            for a in {0, (1 << width) - 1, word.choice(some)}:
                yield kind, False, 1, [(width, a)], f"y = {text};"
        for kind, text in BINARY.items():
            for a, b in pairs(2):
                yield kind, False, width, [(width, a), (width, b)], f"y = {text};"
        for kind, text in RELATIONS.items():
            for signed in (False, True):
                for a, b in pairs(2):
                    yield kind, signed, 1, [(width, a), (width, b)], f"y = {text};"
        for kind, text in LOGICAL.items():
            for a, b in ((0, 0), (0, some[-1]), (some[-1], 0), (some[-1], 1)):
                yield kind, False, 1, [(width, a), (8, b % 256)], f"y = {text};"
        for kind, text in SHIFTS.items():
            for a in ((1 << width) - 1, 1 << (width - 1), some[-1]):
                for b in {0, 1, width - 1, width, word.randrange(256)}:
                    yield kind, kind == "sshr", width, [(width, a), (8, b)], f"y = {text};"
            yield kind, kind == "sshr", width, [(width, some[-1]), (128, 1 << 127)], f"y = {text};"
        for s in (0, 1):
            a, b = word.choice(some), word.choice(some)
            yield "mux", False, width, [(1, s), (width, a), (width, b)], "y = a ? c : b;"
        for out in (1, 8):
            for b in {0, 1, width - 1, width, word.randrange(256)}:
                yield "pick", False, out, [(width, some[-1]), (8, b)], "y = a >> b;"
            yield "pick", False, out, [(width, (1 << width) - 1), (128, 1 << 64)], "y = a >> b;"
        for part in (1, 4):
            for b in {0, 1, width - 1, width, word.randrange(256)}:
                d = word.randrange(1 << part)
                yield "put", False, width, [(width, some[-1]), (8, b), (part, d)], f"y = a; y[b +: {part}] = c;"


def block(number, case):
    kind, signed, width, words, text = case
    sign = "signed " if signed else ""
    lines = [f"module t{number};", f"  reg {sign}[{width - 1}:0] y;"]
    for name, (wide, value) in zip("abc", words):
        own = sign if not (kind == "sshr" and name == "b") else ""
        lines.append(f"  reg {own}[{wide - 1}:0] {name};")
    lines.append("  initial begin")
    lines.append(f"    #{number + 1};")
    for name, (wide, value) in zip("abc", words):
        lines.append(f"    {name} = {wide}'h{value:x};")
    lines.append(f"    {text}")
    lines.append('    $display("%0d", $unsigned(y));')
    lines.append("  end")
    lines.append("endmodule")
    return "\n".join(lines)


def main():
    table = list(cases(random.Random(2005)))
    with tempfile.TemporaryDirectory() as room:
        source = os.path.join(room, "cells.v")
        program = os.path.join(room, "cells")
        with open(source, "w") as out:
            out.write("\n".join(block(i, case) for i, case in enumerate(table)) + "\n")
        subprocess.run(["iverilog", "-g2005", "-o", program, source], check=True)
        answers = subprocess.run(["vvp", "-n", program], check=True, capture_output=True, text=True).stdout
    if len(answers.split()) != len(table):
        raise SystemExit("an answer is missing")
    rows = [
        f"{kind} {'signed' if signed else 'unsigned'} {width} " + " ".join(f"{wide}:{value}" for wide, value in words) + "\n"
        for kind, signed, width, words, _ in table
    ]
    tables.save("netlist_cases", "".join(rows), answers, "cells")


main()
