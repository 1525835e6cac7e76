#!/usr/bin/env python3
"""Pairs of netlists for `bench/equiv.sh`: small designs, each beside mutants of it at drawn sites, and two forms of one design.

    bench/lib/equiv.py FOLDER          writes FOLDER/read (the pairs), FOLDER/tested (the same with a test of each) and FOLDER/*.cnf, and
                                   FOLDER/large.1 and FOLDER/large.200: a product of 96 bits beside the one with its operands
                                   exchanged, tested with so many lemmas; and FOLDER/cone.*: two forms of a sum of 6 bits alone,
                                   beside a product of 96 bits of other inputs, and beside one of the same inputs
    bench/lib/equiv.py --told FOLDER   compares what the program told in FOLDER/told with what minisat told of the clauses

The clauses are made by the gates of `tests/`, not by the program.
"""
import collections
import copy
import itertools
import pathlib
import random
import re
import resource
import subprocess
import sys

sys.path.insert(0, str(pathlib.Path(__file__).resolve().parents[2] / "tests"))
from cell_gates import Gates
from pairs import Netlist, apart, clauses_of

LIMIT, PAIRS = 20_000, 220


class Design(Netlist):
    """A netlist whose nets are numbered as they are made."""

    def __init__(self):
        super().__init__()
        self.fresh = itertools.count()

    def nets(self, width):
        return [next(self.fresh) for _ in range(width)]

    def input(self, name, width):
        self.inputs.append((name, self.nets(width)))
        return self.inputs[-1][1]

    def cell(self, kind, *ports, width=None, signed=False):
        y = self.nets(len(ports[-1]) if width is None else width)
        self.cells.append((kind, signed, [list(bits) for bits in ports] + [y]))
        return y

    def shown(self, name, bits):
        self.outputs.append((name, list(bits)))


def constant(number, width):
    return [bool(number >> i & 1) for i in range(width)]


def counter(width):
    """Counts up to a limit and stays there."""
    d = Design()
    enable, clear = d.input("enable", 1), d.input("clear", 1)
    q = d.nets(width)
    top = d.cell("eq", q, constant(2**width - 2, width), width=1)
    up = d.cell("mux", top, d.cell("add", q, constant(1, width)), q)
    d.registers.append(("count", d.cell("mux", clear, d.cell("mux", enable, q, up), constant(0, width)), q))
    d.shown("full", top)
    d.shown("count", q)
    return d


def unit(width):
    """Sums, differences, orders and shifts by a selection."""
    d = Design()
    a, b, op = d.input("a", width), d.input("b", width), d.input("op", 2)
    least = d.cell("mux", d.cell("lt", a, b, width=1), b, a)
    low = d.cell("mux", op[:1], d.cell("add", a, b), d.cell("sub", a, b))
    high = d.cell("mux", op[:1], d.cell("shl", a, b[:2], width=width), least)
    y = d.cell("mux", op[1:], low, high)
    d.shown("y", y)
    d.shown("zero", d.cell("rnor", y, width=1))
    return d


def machine(states):
    """A machine of some states, each with its own output."""
    d = Design()
    width = (states - 1).bit_length()
    go, stop = d.input("go", 1), d.input("stop", 1)
    q = d.nets(width)
    after, out = q, constant(0, width)
    for k in range(states):
        here = d.cell("eq", q, constant(k, width), width=1)
        move = d.cell("mux", go, constant(k, width), constant((k + 1) % states, width))
        after = d.cell("mux", here, after, d.cell("mux", stop, move, constant(0, width)))
        out = d.cell("mux", here, out, constant(k ^ k >> 1, width))
    d.registers.append(("state", after, q))
    d.shown("y", out)
    return d


def sums(width):
    """The sum of a word's bits, by a chain, and whether it is even."""
    d = Design()
    a = d.input("a", width)
    most = width.bit_length()
    total = constant(0, most)
    for bit in a:
        total = d.cell("add", total, [bit] + constant(0, most - 1))
    d.shown("count", total)
    d.shown("even", d.cell("rxnor", a, width=1))
    d.shown("odd", d.cell("not", d.cell("rxnor", a, width=1)))
    return d


def stored(words, width):
    """Some words, one of which is written and one read."""
    d = Design()
    write, at, data = d.input("write", 1), d.input("at", (words - 1).bit_length()), d.input("data", width)
    y = constant(0, width)
    for k in range(words):
        q = d.nets(width)
        here = d.cell("eq", at, constant(k, len(at)), width=1)
        d.registers.append((f"word{k}", d.cell("mux", d.cell("and", write, here), q, data), q))
        y = d.cell("mux", here, y, q)
    d.shown("y", y)
    return d


def orders(width):
    """The greater and the lesser of two numbers, with and without a sign, and some tests of both."""
    d = Design()
    a, b = d.input("a", width), d.input("b", width)
    for signed in (False, True):
        less = d.cell("lt", a, b, width=1, signed=signed)
        d.shown(f"min{signed:d}", d.cell("mux", less, b, a))
        d.shown(f"max{signed:d}", d.cell("mux", less, a, b))
        d.shown(f"test{signed:d}", d.cell("lnot", d.cell("ge", a, b, width=1, signed=signed), width=1))
    return d


def product(width, exchanged=False):
    d = Design()
    a, b = d.input("a", width), d.input("b", width)
    d.shown("y", d.cell("mul", b, a) if exchanged else d.cell("mul", a, b))
    return d


def mutant(word, design):
    """The design with the equation of one bit replaced, as a mutation does it."""
    d = copy.deepcopy(design)
    fresh = 1 + max([n for n in d.sources()] + [n for _, _, ports in d.cells for n in ports[-1]])
    places = [("cell", c, p) for c, (_, _, ports) in enumerate(d.cells) for p in range(len(ports))]
    places += [("register", r, p) for r in range(len(d.registers)) for p in (1, 2)]
    kind, at, p = word.choice(places)
    bits = d.cells[at][2][p] if kind == "cell" else d.registers[at][p]
    i = word.randrange(len(bits))
    old, other = bits[i], bits[(i + 1) % len(bits)]
    mode = word.choice(["inv", "const0", "const1", "cnot0", "cnot1"] if len(bits) > 1 else ["inv", "const0", "const1"])
    new = {"const0": False, "const1": True}.get(mode, fresh)
    driven = kind == "cell" and p == len(d.cells[at][2]) - 1 or kind == "register" and p == 2
    swap = lambda port: [new if n == old and not isinstance(n, bool) else n for n in port]
    if driven:
        d.cells = [(k, s, [swap(b) for b in ports[:-1]] + ports[-1:]) for k, s, ports in d.cells]
        d.outputs = [(name, swap(b)) for name, b in d.outputs]
        d.registers = [(name, swap(b), q) for name, b, q in d.registers]
    elif kind == "cell":
        bits[i] = new
    else:
        name, b, q = d.registers[at]
        d.registers[at] = (name, b[:i] + [new] + b[i + 1 :], q)
    if mode == "inv":
        d.cells.append(("not", False, [[old], [fresh]]))
    if mode.startswith("cnot"):
        d.cells.append(("xnor" if mode == "cnot0" else "xor", False, [[old], [other], [fresh]]))
    return d


def choices(width):
    """A choice by the cell and by ands and ors."""
    first, second = Design(), Design()
    for d in (first, second):
        s, a, b = d.input("s", 1), d.input("a", width), d.input("b", width)
        if d is first:
            d.shown("y", d.cell("mux", s, a, b))
            continue
        off = d.cell("not", s) * width
        d.shown("y", d.cell("or", d.cell("and", off, a), d.cell("and", s * width, b)))
    return first, second


def totals(width, product=0, shared=False):
    """A sum by the cell and by a chain of its bits, beside a product of other bits or of the same and more."""
    first, second = Design(), Design()
    for d in (first, second):
        a, b = (d.input(name, product if shared else width) for name in "ab")
        if product:
            d.shown("product", d.cell("mul", *((a, b) if shared else (d.input("c", product), d.input("d", product)))))
        if d is first:
            d.shown("y", d.cell("add", a[:width], b[:width]))
            continue
        carry, y = [False], []
        for x, z in zip(a[:width], b[:width]):
            differ = d.cell("xor", [x], [z])
            y += d.cell("xor", differ, carry)
            carry = d.cell("mux", differ, [x], carry)
        d.shown("y", y)
    return first, second


def pairs(word):
    designs = {
        "counter of 8": counter(8), "counter of 16": counter(16), "unit of 4": unit(4), "unit of 8": unit(8), "machine of 6": machine(6),
        "machine of 20": machine(20), "sum of 8": sums(8), "sum of 12": sums(12), "4 words of 8": stored(4, 8), "16 words of 16": stored(16, 16),
        "orders of 6": orders(6), "orders of 16": orders(16), "product of 4": product(4), "product of 8": product(8),
    }
    for width in (2, 3, 4, 5, 6):
        yield f"two forms of a sum of {width}", *totals(width)
    for width in range(1, 11):
        yield f"two forms of a choice of {width}", *choices(width)
    for k in range(PAIRS - 15):
        name = list(designs)[k % len(designs)]
        yield f"{name}, {k}", designs[name], mutant(word, designs[name])


def clauses(original, other):
    free = len(original.sources())
    gates = Gates(free)
    last = [apart(gates, x, y) for x, y in zip(original.gates(gates), other.gates(gates))]
    made = [c for i, gate in enumerate(gates.made) for c in clauses_of(free + 1 + i, gate)]
    if True not in last:
        made.append([x for x in last if x is not False])
    return [f"p cnf {free + len(gates.made)} {len(made)}"] + [" ".join(map(str, c + [0])) for c in made]


def table(lines):
    """These rows as the table `pairs` of the program."""
    return "".join(f"{line}\n" for line in ["§ pairs", *lines])


def write(folder):
    read, tested = [], []
    for k, (name, original, other) in enumerate(pairs(random.Random("pairs to be tested"))):
        lines = [f"# {name}", *original.lines(), "original", *other.lines(), "mutant"]
        read += lines
        tested += lines + [f"detail {LIMIT} 1000"]
        (folder / f"{k}.cnf").write_text("\n".join(clauses(original, other)) + "\n")
    large = [*product(96).lines(), "original", *product(96, True).lines(), "mutant"]
    for limit in (1, 200):
        (folder / f"large.{limit}").write_text(table(large + [f"test {limit} 1000"]))
    for name, two in {"alone": totals(6), "beside": totals(6, 96), "shared": totals(6, 96, True)}.items():
        lines = [*two[0].lines(), "original", *two[1].lines(), "mutant", f"detail {LIMIT} 1000"]
        (folder / f"cone.{name}").write_text(table(lines))
    (folder / "read").write_text(table(read))
    (folder / "tested").write_text(table(tested))


def told(folder):
    names, counts, lemmas = [], collections.Counter(), collections.Counter()
    verdicts = []
    for line in (folder / "told").read_text().splitlines()[1:]:
        if line.startswith("# "):
            names.append(line)
        else:
            word = "no change" if line.startswith("no change") else "unknown" if line.startswith("unknown") else "change"
            found = re.search(r"after (\d+) lemmas", line)
            verdicts.append((word, int(found[1]) if found else 0))
    assert len(names) == len(verdicts) == PAIRS
    before = resource.getrusage(resource.RUSAGE_CHILDREN).ru_utime
    for k, (word, count) in enumerate(verdicts):
        has_model = subprocess.run(["minisat", "-verb=0", folder / f"{k}.cnf"], stdout=subprocess.DEVNULL, stderr=subprocess.DEVNULL).returncode == 10
        assert word == "unknown" or has_model == (word == "change"), names[k]
        counts[word] += 1
        lemmas[word] += count
    spent = resource.getrusage(resource.RUSAGE_CHILDREN).ru_utime - before
    for word, count in counts.items():
        print(f"{word}: {count} pairs, {lemmas[word]} lemmas")
    print(f"minisat: {round(1000 * spent)} milliseconds with its starts and reading")


if __name__ == "__main__":
    told(pathlib.Path(sys.argv[2])) if sys.argv[1] == "--told" else write(pathlib.Path(sys.argv[1]))
