#!/usr/bin/env python3
"""Expressions of Verilog with the values that Icarus Verilog gives them.

    tests/expressions.py [FOLDER]      the tables of crates/value_cases and crates/elab_cases; needs iverilog and vvp

A line of the first is the width to which the value is extended, the values of the names, `;` and the expression in postfix
form. Rows whose value is not of two values are left out, but for selects beyond a vector, whose missing bits are 0. CELLS
has those rows alone that become cells, where nothing but constants is divided or a power.
"""
import random
import subprocess
import tempfile

from lib import tables

# name: width, lowest bit, signed
NAMES = {
    "a": (8, 0, False), "b": (8, 0, True), "c": (4, 0, False), "d": (4, 0, True),
    "e": (16, 0, False), "f": (32, 0, True), "g": (128, 0, False), "h": (1, 0, False), "k": (64, 0, True),
}
COMMON = "* + - & | ^ ~^".split()
BINARY = COMMON + "/ % ** << >> <<< >>> < <= > >= == != === !== && ||".split()
UNARY = "+ - ! ~ & ~& | ~| ^ ~^".split()


def number(width, signed, value):
    return ("n", width, signed, value % 2 ** width)


def name(n):
    return ("v", n)


def verilog(x):
    kind = x[0]
    if kind == "n":
        return f"{x[1]}'{'s' if x[2] else ''}h{x[3]:x}"
    if kind == "v":
        return x[1]
    if kind == "u":
        return f"({x[1]} {verilog(x[2])})"
    if kind == "b":
        return f"({verilog(x[2])} {x[1]} {verilog(x[3])})"
    if kind == "?":
        return f"({verilog(x[1])} ? {verilog(x[2])} : {verilog(x[3])})"
    if kind == "{}":
        return "{" + ", ".join(map(verilog, x[1])) + "}"
    if kind == "{{}}":
        return "{" + verilog(x[1]) + "{" + ", ".join(map(verilog, x[2])) + "}}"
    if kind == "[]":
        return f"{x[1]}[{verilog(x[2])}]"
    if kind == "[:]":
        return f"{x[1]}[{verilog(x[2])}:{verilog(x[3])}]"
    if kind == "[+:]":
        return f"{x[1]}[{verilog(x[2])} +: {verilog(x[3])}]"
    return f"{x[1]}({verilog(x[2])})"


def postfix(x):
    kind = x[0]
    if kind == "n":
        return [f"{'s' if x[2] else 'u'}{x[1]}:{x[3]}"]
    if kind == "v":
        return [x[1]]
    if kind == "u":
        return postfix(x[2]) + ["unary" + x[1]]
    if kind == "b":
        return postfix(x[2]) + postfix(x[3]) + [x[1]]
    if kind == "?":
        return postfix(x[1]) + postfix(x[2]) + postfix(x[3]) + ["?:"]
    if kind == "{}":
        return sum(map(postfix, x[1]), []) + [f"{{{len(x[1])}}}"]
    if kind == "{{}}":
        return postfix(x[1]) + sum(map(postfix, x[2]), []) + [f"{{{{{len(x[2])}}}}}"]
    if kind == "[]":
        return postfix(x[2]) + [f"{x[1]}[]"]
    if kind in ("[:]", "[+:]"):
        return postfix(x[2]) + postfix(x[3]) + [x[1] + kind]
    return postfix(x[2]) + [x[1]]


def names_in(x):
    if isinstance(x, tuple):
        here = {x[1]} if x[0] in ("v", "[]", "[:]", "[+:]") else set()
        return here.union(*map(names_in, x[1:]))
    if isinstance(x, list):
        return set().union(*map(names_in, x))
    return set()


def int32(value):
    return number(32, True, value)


def designed():
    """Each operator with each mixture of widths and signs, and each rule of width and sign."""
    rows = []
    pairs = [("a", "c"), ("b", "d"), ("b", "c"), ("c", "b"), ("d", "f"), ("d", "b")]
    for op in BINARY:
        for left, right in pairs if op in ("-", "*", ">>>", "<<", "<", ">=", "==", "**", "/", "%") else pairs[1:4]:
            rows.append((16, ("b", op, name(left), name(right))))
    for op in UNARY:
        for operand in "abd":
            rows.append((16, ("u", op, name(operand))))
    # a carry, a sign and a shift that the context decides
    rows += [
        (9, ("b", "+", name("a"), name("a"))),
        (8, ("b", ">>", ("b", "+", name("a"), name("a")), int32(1))),
        (16, ("b", ">>>", ("b", "+", name("b"), name("b")), int32(1))),
        (16, ("b", ">>>", ("b", "+", name("b"), number(1, False, 0)), int32(1))),
        (16, ("b", "+", ("b", ">>>", name("b"), int32(2)), number(1, False, 0))),
        (32, ("b", ">>", ("u", "~", name("c")), int32(1))),
        (8, ("{}", [("b", "+", name("c"), name("c"))])),
        (8, ("b", "==", ("b", "+", name("c"), name("c")), name("a"))),
        (8, ("b", "<", ("u", "-", name("b")), name("d"))),
        (8, ("b", "<", ("u", "-", name("c")), name("d"))),
        (16, ("$", "$signed", name("a"))),
        (16, ("$", "$unsigned", name("b"))),
        (16, ("b", "+", ("$", "$signed", name("c")), name("d"))),
        (16, ("b", "+", ("$", "$signed", name("c")), name("a"))),
        (16, ("b", ">>>", ("$", "$signed", name("a")), name("c"))),
        (16, ("b", ">>>", ("$", "$unsigned", name("b")), name("c"))),
        (16, ("u", "-", ("$", "$unsigned", name("d")))),
        (32, ("$", "$clog2", int32(1000))),
        (32, ("$", "$clog2", int32(1024))),
        (32, ("$", "$clog2", int32(1))),
        (64, ("b", "**", int32(-2), int32(3))),
        (64, ("b", "**", int32(-1), int32(-3))),
        (64, ("b", "**", int32(1), int32(-3))),
        (64, ("b", "**", int32(3), int32(-1))),
        (8, ("b", "**", name("c"), number(2, False, 3))),
    ]
    for yes, no in [("a", "d"), ("b", "d"), ("d", "b"), ("c", "b"), ("h", "a")]:
        rows.append((16, ("?", name("h"), name(yes), name(no))))
        rows.append((16, ("?", ("b", ">", name("a"), name("b")), name(yes), ("u", "~", name(no)))))
        rows.append((16, ("b", ">>>", ("?", name("c"), name(yes), name(no)), int32(1))))
    for n, at in [("a", 0), ("a", 7), ("b", 3), ("e", 4), ("e", 19), ("g", 127)]:
        rows.append((4, ("[]", n, int32(at))))
        rows.append((4, ("b", "+", ("[]", n, int32(at)), ("[]", n, int32(at)))))
    for n, msb, lsb in [("a", 7, 0), ("a", 5, 2), ("b", 7, 4), ("e", 19, 4), ("e", 9, 6), ("g", 100, 64)]:
        rows.append((64, ("[:]", n, int32(msb), int32(lsb))))
        rows.append((64, ("u", "-", ("[:]", n, int32(msb), int32(lsb)))))
    for n, base, width in [("a", ("v", "h"), 3), ("a", int32(2), 4), ("e", int32(8), 8), ("g", ("v", "c"), 16), ("e", ("b", "+", ("v", "c"), int32(4)), 1)]:
        rows.append((32, ("[+:]", n, base, int32(width))))
    for n, at in [("a", 8), ("a", 200), ("e", 3), ("e", 20), ("d", 4)]:
        rows.append((4, ("[]", n, int32(at))))
    for n, msb, lsb in [("a", 9, 6), ("e", 6, 2), ("e", 22, 17), ("a", 12, 9)]:
        rows.append((16, ("[:]", n, int32(msb), int32(lsb))))
        rows.append((16, ("{}", [("[:]", n, int32(msb), int32(lsb)), name("c")])))
    for n, base, width in [("a", 6, 4), ("e", 1, 6), ("e", 18, 4)]:
        rows.append((16, ("[+:]", n, int32(base), int32(width))))
    for parts in [["a", "b"], ["d", "h", "c"], ["b", "b", "d"], ["f", "k"]]:
        rows.append((96, ("{}", [name(n) for n in parts])))
        rows.append((128, ("u", "~", ("{}", [name(n) for n in parts]))))
    for count, parts in [(1, ["d"]), (3, ["d"]), (4, ["a", "c"]), (128, ["h"]), (2, ["k"])]:
        rows.append((128, ("{{}}", int32(count), [name(n) for n in parts])))
    rows.append((16, ("{{}}", ("b", "-", int32(5), int32(3)), [("b", "+", name("c"), name("c"))])))
    rows.append((128, ("b", "*", name("g"), name("k"))))
    rows.append((128, ("b", "-", name("d"), name("g"))))
    rows.append((128, ("b", ">>>", name("k"), name("a"))))
    rows.append((128, ("b", "<<", name("h"), name("a"))))
    return rows


def worked():
    """A carry that is lost and kept, and -1 compared as a signed and as an unsigned number."""
    carry = ("b", "+", name("a"), number(8, False, 1))
    minus_one = ("u", "-", int32(1))
    return [
        (8, carry, {"a": 255}),
        (9, carry, {"a": 255}),
        (1, ("b", ">", minus_one, int32(0)), {}),
        (1, ("b", ">", minus_one, number(1, False, 0)), {}),
    ]


def nested():
    """Constants 60 deep in the bounds, widths and counts of others: with a = 2 each level is worth 2, as what it stands in is."""
    a = {"a": 2}
    kinds = [
        (a, lambda s: ("[:]", "a", ("b", "+", s, int32(0)), int32(0))),
        (a, lambda s: ("[:]", "a", ("?", number(1, False, 1), s, int32(0)), int32(0))),
        (a, lambda s: ("[:]", "a", ("$", "$signed", s), int32(0))),
        (a, lambda s: ("[+:]", "a", int32(0), ("b", "+", s, int32(0)))),
        ({}, lambda s: ("{{}}", ("b", "-", s, int32(1)), [number(2, False, 2)])),
    ]
    tests = []
    for values, around in kinds:
        row = int32(2)
        for _ in range(60):
            row = around(row)
        tests.append(((16, row, values), 2))
    return tests


def drawn(rng, depth):
    """An expression of random form."""
    kind = rng.random()
    if depth == 0 or kind < 0.1:
        if rng.random() < 0.7:
            return name(rng.choice("abcdefhk"))
        width = rng.choice([1, 3, 4, 8, 16, 32])
        return number(width, rng.random() < 0.5, rng.getrandbits(width))
    sub = lambda: drawn(rng, depth - 1)
    if kind < 0.6:
        op = rng.choice(BINARY)
        if op == "**":
            return ("b", op, sub(), number(2, False, rng.getrandbits(2)))
        if op in ("<<", ">>", "<<<", ">>>"):
            return ("b", op, sub(), name("c"))
        return ("b", op, sub(), sub())
    if kind < 0.75:
        return ("u", rng.choice(UNARY), sub())
    if kind < 0.87:
        return ("?", sub(), sub(), sub())
    if kind < 0.92:
        return ("{}", [name(rng.choice("abcdh")) for _ in range(rng.randint(1, 3))])
    return ("$", rng.choice(["$signed", "$unsigned"]), sub())


def values_for(rng, row):
    values = {}
    for n in sorted(names_in(row)):
        width = NAMES[n][0]
        values[n] = rng.choice([rng.getrandbits(width), rng.getrandbits(width), 2 ** width - 1, 2 ** (width - 1), 1])
    return values


def declared(n):
    width, low, signed = NAMES[n]
    return f"reg {'signed ' if signed else ''}[{width + low - 1}:{low}] {n};"


def simulated(rows):
    """The value of each row as bits with x and z, and with x and z as 0."""
    lines = ["module t;"] + [declared(n) for n in NAMES]
    for i, (width, row, values) in enumerate(rows):
        lines.append(f"reg [{width - 1}:0] y{i}; bit [{width - 1}:0] z{i};")
    lines.append("initial begin")
    for i, (width, row, values) in enumerate(rows):
        lines += [f"{n} = {NAMES[n][0]}'h{v:x};" for n, v in values.items()]
        lines.append(f'y{i} = {verilog(row)}; z{i} = {verilog(row)}; $display("%b %b", y{i}, z{i});')
    lines += ["end", "endmodule"]
    with tempfile.TemporaryDirectory() as folder:
        with open(f"{folder}/t.v", "w") as out:
            out.write("\n".join(lines))
        subprocess.run(["iverilog", "-g2012", "-o", f"{folder}/t", f"{folder}/t.v"], check=True)
        out = subprocess.run(["vvp", "-n", f"{folder}/t"], check=True, capture_output=True, text=True).stdout
    return [line.split() for line in out.splitlines()]


def selects_only(row):
    """A select, or a concatenation with one: what is beyond the vector is 0 there."""
    return row[0] in ("[]", "[:]", "[+:]") or (row[0] == "{}" and any(selects_only(p) for p in row[1]))


def divides_names(row):
    """Whether more than constants is divided or a power, which no cell computes."""
    if isinstance(row, tuple):
        here = row[0] == "b" and row[1] in ("/", "%", "**") and names_in(row)
        return bool(here) or any(map(divides_names, row[1:]))
    return isinstance(row, list) and any(map(divides_names, row))


def all_rows():
    """Widths, expressions and the values of their names."""
    rng = random.Random(1364)
    rows = [(w, row, values_for(rng, row)) for w, row in designed() for _ in range(2)]
    for _ in range(150):
        row = drawn(rng, rng.randint(1, 3))
        rows.append((128 if rng.random() < 0.2 else 64, row, values_for(rng, row)))
    return rows + worked()


def line_of(width, row, values):
    given = " ".join(f"{n}={v}" for n, v in values.items())
    return f"{width} {given} ; {' '.join(postfix(row))}"


def write(crate, name, tests):
    tables.save(crate, [line_of(*row) for row, _ in tests], [answer for _, answer in tests], name)


def main():
    rows = all_rows()
    tests = [
        (row, int(zeroed, 2))
        for row, (seen, zeroed) in zip(rows, simulated(rows))
        if not set(seen) - set("01") or selects_only(row[1])
    ]
    write("value_cases", "constants", tests + nested())
    write("elab_cases", "expressions", [(row, answer) for row, answer in tests if not divides_names(row[1])])


if __name__ == "__main__":
    main()
