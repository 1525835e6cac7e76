#!/usr/bin/env python3
"""Expressions of testbenches with `$random` and `$time`, and their values in three evaluations.

    tests/random_values.py [FOLDER]      the table 'draws' of crates/value_cases

Written from the standard and from O'Neill's reference of PCG (XSH RR 64/32), and not from the program. Each evaluation first
draws every `$random`, from left to right, and then evaluates at the expression's own size (IEEE 1364-2005, 5.4 and 5.5).
"""
import random

from lib.pcg import MASK64, MULTIPLIER_64, rotated, seed_bytes
from lib import tables


class Words:
    """The generator XSH RR 64/32, whose word is of the state before the step."""

    def __init__(self, seed):
        data = seed_bytes(seed)
        self.increment = int.from_bytes(data[8:16], "little") | 1
        self.state = (int.from_bytes(data[:8], "little") + self.increment) & MASK64
        self.step()

    def step(self):
        self.state = (self.state * MULTIPLIER_64 + self.increment) & MASK64

    def word(self):
        state = self.state
        self.step()
        return rotated((state >> 18 ^ state) >> 27 & 0xFFFFFFFF, state >> 59, 32)


# A leaf is ("n", width, signed, value); `$random` and `$time` are leaves until they are drawn.
A = ("n", 8, False, 200, "a")
B = ("n", 8, True, 253, "b")


def text(x):
    kind = x[0]
    if kind == "n":
        return x[4]
    if kind in ("$random", "$time"):
        return kind
    if kind == "u":
        return f"({x[1]}{text(x[2])})"
    if kind == "b":
        return f"({text(x[2])} {x[1]} {text(x[3])})"
    if kind == "?":
        return f"({text(x[1])} ? {text(x[2])} : {text(x[3])})"
    if kind == "{}":
        return "{" + ", ".join(text(y) for y in x[1]) + "}"
    if kind == "{{}}":
        return "{" + str(x[1]) + "{" + text(x[2]) + "}}"
    return f"{kind}({text(x[1])})"


def drawn(x, words, phase):
    kind = x[0]
    if kind == "n":
        return x
    if kind == "$random":
        return ("n", 32, True, words.word(), "")
    if kind == "$time":
        return ("n", 64, False, phase, "")
    if kind == "{}":
        return (kind, [drawn(y, words, phase) for y in x[1]])
    return tuple(drawn(y, words, phase) if isinstance(y, tuple) else y for y in x)


COMMON = "+ - * & | ^ ~^".split()
COMPARED = "< <= > >= == !=".split()


def shape(x):
    kind = x[0]
    if kind == "n":
        return x[1], x[2]
    if kind == "u":
        return (1, False) if x[1] in "!&|^" else shape(x[2])
    if kind == "b":
        (i, s), (j, t) = shape(x[2]), shape(x[3])
        if x[1] in COMMON:
            return max(i, j), s and t
        return (i, s) if x[1] in ("<<", ">>", ">>>") else (1, False)
    if kind == "?":
        (i, s), (j, t) = shape(x[2]), shape(x[3])
        return max(i, j), s and t
    if kind == "{}":
        return sum(shape(y)[0] for y in x[1]), False
    if kind == "{{}}":
        return x[1] * shape(x[2])[0], False
    return shape(x[1])[0], kind == "$signed"


def integer(width, signed, value):
    return value - (1 << width) if signed and value >> (width - 1) else value


def own(x):
    return value(x, *shape(x))


def value(x, width, signed):
    """The value at a width and sign."""
    kind, mask = x[0], (1 << width) - 1
    if kind == "n":
        return integer(x[1], signed, x[3]) & mask
    if kind == "u":
        if x[1] == "~":
            return ~value(x[2], width, signed) & mask
        if x[1] == "-":
            return -value(x[2], width, signed) & mask
        v, w = own(x[2]), shape(x[2])[0]
        return {"!": v == 0, "&": v == (1 << w) - 1, "|": v != 0, "^": bin(v).count("1") % 2 == 1}[x[1]] + 0
    if kind == "b":
        op = x[1]
        if op in ("&&", "||"):
            left, right = own(x[2]) != 0, own(x[3]) != 0
            return (left and right if op == "&&" else left or right) + 0
        if op in COMPARED:
            (i, s), (j, t) = shape(x[2]), shape(x[3])
            w, sign = max(i, j), s and t
            a, b = (integer(w, sign, value(y, w, sign)) for y in (x[2], x[3]))
            return {"<": a < b, "<=": a <= b, ">": a > b, ">=": a >= b, "==": a == b, "!=": a != b}[op] + 0
        a = value(x[2], width, signed)
        if op in ("<<", ">>", ">>>"):
            by = own(x[3])
            if op == "<<":
                return a << by & mask if by < 200 else 0
            if op == ">>" or not signed:
                return a >> min(by, 200)
            return integer(width, True, a) >> min(by, 200) & mask
        b = value(x[3], width, signed)
        return {"+": a + b, "-": a - b, "*": a * b, "&": a & b, "|": a | b, "^": a ^ b, "~^": ~(a ^ b)}[op] & mask
    if kind == "?":
        return value(x[2] if own(x[1]) else x[3], width, signed)
    if kind == "{}":
        v = 0
        for y in x[1]:
            v = v << shape(y)[0] | own(y)
        return v
    if kind == "{{}}":
        v, w = 0, shape(x[2])[0]
        for _ in range(x[1]):
            v = v << w | own(x[2])
        return v
    return integer(shape(x[1])[0], signed and True, own(x[1])) & mask if kind == "$signed" else own(x[1])


def constant(rng):
    width, signed = rng.choice([1, 3, 8, 16, 32]), rng.random() < 0.4
    v = rng.randrange(1 << width)
    return ("n", width, signed, v, f"{width}'{'s' if signed else ''}h{v:x}")


def expr(rng, depth):
    if depth == 0 or rng.random() < 0.15:
        return rng.choice([A, B, ("$random",), ("$random",), ("$random",), ("$time",), constant(rng)])
    kind = rng.choice("b b b b u ? {} {{}} $signed $unsigned".split())
    deeper = lambda: expr(rng, depth - 1)
    if kind == "b":
        return ("b", rng.choice(COMMON + COMPARED + ["&&", "||", "<<", ">>", ">>>"]), deeper(), deeper())
    if kind == "u":
        return ("u", rng.choice("~-!&|^"), deeper())
    if kind == "?":
        return ("?", deeper(), deeper(), deeper())
    if kind == "{}":
        return ("{}", [deeper() for _ in range(rng.randint(1, 2))])
    if kind == "{{}}":
        return ("{{}}", rng.randint(1, 2), deeper())
    return (kind, deeper())



def main():
    rng = random.Random(19)
    lines, values = [], []
    plain = [("$random",), ("$time",), ("b", "-", ("$random",), ("$random",)), ("?", A, ("$random",), ("$random",)), A, B, ("b", "+", A, B)]
    while len(lines) < 300:
        x = plain[len(lines)] if len(lines) < len(plain) else expr(rng, rng.randint(1, 4))
        if wide(x):
            continue
        seed, phase = rng.choice([0, 1, 7, rng.randrange(1 << 64)]), rng.choice([0, 1, 600, rng.randrange(1 << 64)])
        words = Words(seed)
        lines.append(f"{seed} {phase} {text(x)}")
        for _ in range(3):
            y = drawn(x, words, phase)
            values.append(own(y))
    tables.save("value_cases", lines, values, "draws")


def wide(x):
    """Whether a part has more than 128 bits."""
    parts = [y for y in x[1:] if isinstance(y, tuple)] + (x[1] if x[0] == "{}" else [])
    dead = drawn(x, Words(0), 0)
    return shape(dead)[0] > 128 or any(wide(y) for y in parts)


if __name__ == "__main__":
    main()
