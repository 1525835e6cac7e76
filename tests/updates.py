#!/usr/bin/env python3
"""Makes the table of assignments that the program value_cases carries out: its input, and the answers of Icarus Verilog.

    tests/updates.py [FOLDER]      the table 'updates' of crates/value_cases; needs iverilog and vvp

A line of the input is an assignment, as `{a[5:2], c} = d[c +: 8]`. Each has as answer the values of four signals after it, from the same
values on. The right sides read no bit out of range, so that the simulator has no unknown bits. The left sides lie out of range now and
then, as a whole or in part, and some have bits in common. No left side of several parts writes what one of its indices reads: the
simulator evaluates an index when its part is written, and here all are evaluated before.
"""
import random
import re
import subprocess
import tempfile

from lib import tables

START = "a = 8'd200; b = -8'sd3; c = 4'd9; d = 64'h0123456789abcdef;"
DECLARATIONS = "reg [9:2] a; reg signed [7:0] b; reg [3:0] c; reg [63:0] d;"
LOW = {"a": 2, "b": 0, "c": 0, "d": 0}
WIDTH = {"a": 8, "b": 8, "c": 4, "d": 64}


def value(rng, depth=2):
    if depth == 0 or rng.random() < 0.3:
        return rng.choice(["a", "b", "c", "d", "c[2]", "a[5:3]", "d[c +: 8]", "b[6:1]", f"{rng.randint(1, 70)}'d{rng.randrange(2)}", "8'hb5", "(-3)", "70'h3a5a5a5a5a5a5a5a5"])
    left, right = value(rng, depth - 1), value(rng, depth - 1)
    kind = rng.randrange(4)
    if kind == 0:
        return f"({left} {rng.choice('+ - * & | ^'.split())} {right})"
    if kind == 1:
        return f"(c[1] ? {left} : {right})"
    if kind == 2:
        return f"(~{left})"
    return f"({left} {rng.choice(['<<', '>>'])} c)"


def part(rng):
    """A part of a left side, and how many bits it has."""
    name = rng.choice("abcd")
    low, width = LOW[name], WIDTH[name]
    kind = rng.randrange(5)
    if kind == 0:
        return name, width
    if kind == 1:
        return f"{name}[{rng.choice(['c', 'b', 'c + 4', str(low + rng.randrange(width)), str(low + width), 'd[3:0]'])}]", 1
    if kind == 2:
        lsb = rng.randrange(width)
        msb = rng.randrange(lsb, width)
        return f"{name}[{low + msb}:{low + lsb}]", msb - lsb + 1
    base, size = rng.choice(["c", "c - 4'd8", "b[3:0]", "4'd1", "d[5:0]"]), rng.randint(1, 9)
    return f"{name}[{base} +: {size}]", size


def joined(parts):
    return "{" + ", ".join(text for text, _ in parts) + "}", sum(size for _, size in parts)


def left(rng):
    """A left side of at most 128 bits. It writes no signal that one of its own indices reads, where it has several parts."""
    if rng.random() < 0.5:
        return part(rng)[0]
    parts = [part(rng) if rng.random() < 0.85 else joined([part(rng), part(rng)]) for _ in range(rng.randint(1, 4))]
    text, size = joined(parts)
    written = set(re.findall(r"[{ ]([abcd])", re.sub(r"\[[^]]*\]", "", text)))
    read = set(re.findall(r"[abcd](?![abcd']*[0-9])", " ".join(re.findall(r"\[([^]]*)", text))))
    return text if size <= 128 and not written & read else left(rng)


def main():
    rng = random.Random(20)
    cases = ["a = b", "b = a", "{a, b} = 16'h1234", "a[9] = 1'b0", "a[1] = 1'b1", "a[10] = 1'b1", "{a[5:2], a[7:4]} = 8'h5a", "d[c +: 8] = 8'hff", "{c, c[1:0]} = 6'd36",
             "a[b +: 7] = 7'h5a", "d[b +: 8] = 8'hff", "d[b +: 3] = 3'd7", "c[b + 2 +: 3] = 3'd5", "{c[0], d[b +: 8]} = 9'h15a", "{a[b +: 8], d[b +: 4]} = 12'h9a5"]
    while len(cases) < 300:
        cases.append(f"{left(rng)} = {value(rng)}")
    body = "\n".join(f"{START} {case}; $display(\"%0d\\n%0d\\n%0d\\n%0d\", a, $unsigned(b), c, d);" for case in cases)
    with tempfile.TemporaryDirectory() as work:
        with open(f"{work}/m.v", "w") as out:
            out.write(f"module m; {DECLARATIONS}\ninitial begin\n{body}\nend\nendmodule\n")
        subprocess.run(["iverilog", "-g2005", "-o", f"{work}/m.vvp", f"{work}/m.v"], check=True)
        shown = subprocess.run(["vvp", "-n", f"{work}/m.vvp"], check=True, capture_output=True, text=True).stdout
    tables.save("value_cases", cases, shown, "updates")


main()
