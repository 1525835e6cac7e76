#!/usr/bin/env python3
"""Writes the cases of cells as gates: the table 'gates' of `netlist_cases`.

    tests/cell_gates.py [FOLDER]      the table 'gates' of crates/netlist_cases

A line is a kind, the sign, the width of Y, and for each input port its width and its number, as `add unsigned 8 8:255 8:1`. After a
`:` the bits are free, after a `=` they are constants, and after a `~` they are the bits of the port before, as far as it has any. The
answer is the number at Y, the number of gates, and the gates themselves where there are at most 40. The number is that of whole
numbers, not of gates; the gates are made here by what an operation is on all values of its inputs, and by the rows as they are
described, with a carry out of the last bit left out where there is none.
"""
import itertools
import random

from lib import tables

OPERATIONS = {
    "and": lambda a, b: a and b,
    "or": lambda a, b: a or b,
    "xor": lambda a, b: a != b,
}


def negation(x):
    return not x if isinstance(x, bool) else -x


def value(x, values):
    return x if isinstance(x, bool) else values[abs(x)] == (x > 0)


def same(a, b):
    return type(a) is type(b) and a == b


class Gates:
    """Gates over free bits, each once."""

    def __init__(self, free):
        self.free, self.made, self.places = free, [], {}

    def gate(self, *gate):
        if gate not in self.places:
            self.places[gate] = len(self.made)
            self.made.append(gate)
        return self.free + 1 + self.places[gate]

    def folded(self, kind, inputs):
        """The constant, or the input or its negation, that the operation is on all values."""
        variables = sorted({abs(x) for x in inputs if not isinstance(x, bool)})
        rows = [dict(zip(variables, bits)) for bits in itertools.product([False, True], repeat=len(variables))]
        column = [OPERATIONS[kind](*[value(x, row) for x in inputs]) for row in rows]
        for x in [False, True] + [y for x in variables for y in (x, -x)]:
            if [value(x, row) for row in rows] == column:
                return x
        return None

    def two(self, kind, a, b):
        found = self.folded(kind, (a, b))
        if found is not None:
            return found
        a, b = sorted((a, b), key=abs)
        if kind == "and":
            return self.gate("and", a, b)
        if kind == "or":
            return -self.gate("and", -a, -b)
        output = self.gate("xor", abs(a), abs(b))
        return -output if (a < 0) != (b < 0) else output

    def mux(self, s, a, b):
        """`b` where `s` is 1: a constant at `s`, equal inputs, and one constant input fold."""
        if isinstance(s, bool):
            return b if s else a
        if same(a, b):
            return a
        if a is False:
            return self.two("and", s, b)
        if a is True:
            return self.two("or", -s, b)
        if b is False:
            return self.two("and", -s, a)
        if b is True:
            return self.two("or", s, a)
        return self.gate("mux", s, a, b)

    def row(self, kind, a, b):
        return [self.two(kind, x, y) for x, y in zip(a, b)]

    def muxes(self, s, a, b):
        return [self.mux(s, x, y) for x, y in zip(a, b)]

    def chain(self, kind, bits):
        whole = bits[0]
        for bit in bits[1:]:
            whole = self.two(kind, whole, bit)
        return whole

    def add(self, a, b, carry):
        out = []
        for place, (x, y) in enumerate(zip(a, b)):
            apart = self.two("xor", x, y)
            out.append(self.two("xor", apart, carry))
            if place + 1 < len(a):
                both = self.two("and", x, y)
                carry = self.two("or", both, self.two("and", carry, apart))
        return out

    def sub(self, a, b):
        return self.add(a, [negation(x) for x in b], True)

    def mul(self, a, b):
        so_far = None
        for i in range(len(a)):
            shifted = ([False] * i + a)[: len(a)]
            row = [self.two("and", x, b[i]) for x in shifted]
            so_far = row if so_far is None else self.add(so_far, row, False)
        return so_far

    def less(self, signed, a, b):
        if signed:
            a, b = a[:-1] + [negation(a[-1])], b[:-1] + [negation(b[-1])]
        carry = True
        for x, y in zip(a, [negation(y) for y in b]):
            both = self.two("and", x, y)
            apart = self.two("xor", x, y)
            carry = self.two("or", both, self.two("and", carry, apart))
        return negation(carry)

    def equal(self, a, b):
        return self.chain("and", [negation(x) for x in self.row("xor", a, b)])

    def shift(self, up, a, b, fill):
        high = []
        for k, bit in enumerate(b):
            if 2**k >= len(a):
                high.append(bit)
                continue
            places = min(2**k, len(a))
            moved = ([fill] * places + a)[: len(a)] if up else a[places:] + [fill] * places
            a = self.muxes(bit, a, moved)
        if high:
            a = self.muxes(self.chain("or", high), a, [fill] * len(a))
        return a

    def cell(self, kind, signed, width, ports):
        a, b, d = (ports + [None, None])[:3]
        fit = lambda bits, w: (bits + [False] * w)[:w]
        match kind:
            case "not":
                return [negation(x) for x in a]
            case "neg":
                return self.sub([False] * len(a), a)
            case "and" | "or" | "xor":
                return self.row(kind, a, b)
            case "xnor":
                return [negation(x) for x in self.row("xor", a, b)]
            case "add":
                return self.add(a, b, False)
            case "sub":
                return self.sub(a, b)
            case "mul":
                return self.mul(a, b)
            case "lt":
                return [self.less(signed, a, b)]
            case "gt":
                return [self.less(signed, b, a)]
            case "le":
                return [negation(self.less(signed, b, a))]
            case "ge":
                return [negation(self.less(signed, a, b))]
            case "eq":
                return [self.equal(a, b)]
            case "ne":
                return [negation(self.equal(a, b))]
            case "rand" | "ror" | "rxor":
                return [self.chain(kind[1:], a)]
            case "rnand" | "rnor" | "rxnor":
                return [negation(self.chain({"rnand": "and", "rnor": "or", "rxnor": "xor"}[kind], a))]
            case "lnot":
                return [negation(self.chain("or", a))]
            case "land" | "lor":
                first = self.chain("or", a)
                return [self.two(kind[1:], first, self.chain("or", b))]
            case "shl":
                return self.shift(True, a, b, False)
            case "shr":
                return self.shift(False, a, b, False)
            case "sshr":
                return self.shift(False, a, b, a[-1])
            case "mux":
                return self.muxes(a[0], b, d)
            case "pick":
                return fit(self.shift(False, a, b, False), width)
            case "put":
                mask = self.shift(True, fit([True] * len(d), len(a)), b, False)
                kept = self.row("and", a, [negation(x) for x in mask])
                return self.row("or", kept, self.shift(True, fit(d, len(a)), b, False))


def number(kind, signed, width, words):
    """The number at Y, by whole numbers."""
    (wa, a), (wb, b), (wd, d) = (words + [(0, 0), (0, 0)])[:3]
    two = lambda w, x: x - (1 << w) if x >> (w - 1) else x
    x, y = (two(wa, a), two(wb, b)) if signed and wb else (a, b)
    ones = (1 << wa) - 1
    match kind:
        case "not":
            n = ~a
        case "neg":
            n = -a
        case "and":
            n = a & b
        case "or":
            n = a | b
        case "xor":
            n = a ^ b
        case "xnor":
            n = ~(a ^ b)
        case "add":
            n = a + b
        case "sub":
            n = a - b
        case "mul":
            n = a * b
        case "lt":
            n = x < y
        case "le":
            n = x <= y
        case "gt":
            n = x > y
        case "ge":
            n = x >= y
        case "eq":
            n = a == b
        case "ne":
            n = a != b
        case "shl":
            n = a << b if b < 1000 else 0
        case "shr" | "pick":
            n = a >> b if b < 1000 else 0
        case "sshr":
            n = two(wa, a) >> min(b, 1000)
        case "rand":
            n = a == ones
        case "ror":
            n = a != 0
        case "rxor":
            n = bin(a).count("1") % 2
        case "rnand":
            n = a != ones
        case "rnor" | "lnot":
            n = a == 0
        case "rxnor":
            n = 1 - bin(a).count("1") % 2
        case "land":
            n = a != 0 and b != 0
        case "lor":
            n = a != 0 or b != 0
        case "mux":
            n = d if a else b
        case "put":
            n = (a & ~(((1 << wd) - 1) << b)) | (d << b) if b < 1000 else a
    return int(n) % (1 << width)


def answer(kind, signed, width, ports):
    """What is printed for a line: ports are (width, mark, number)."""
    free = sum(w for w, mark, _ in ports if mark == ":")
    gates, rows, words, values, last = Gates(free), [], [], {}, []
    for w, mark, n in ports:
        bits = [bool(n >> i & 1) for i in range(w)]
        if mark == ":":
            lits = [len(values) + 1 + i for i in range(w)]
            values |= dict(zip(lits, bits))
        elif mark == "=":
            lits = bits
        else:
            lits = (last + [False] * w)[:w]
            n = sum(value(x, values) << i for i, x in enumerate(lits))
        last = lits
        rows.append(lits)
        words.append((w, n))
    y = gates.cell(kind, signed, width, rows)
    for i, (gate, *inputs) in enumerate(gates.made):
        bits = [value(x, values) for x in inputs]
        values[free + 1 + i] = (bits[2] if bits[0] else bits[1]) if gate == "mux" else OPERATIONS[gate](*bits)
    whole = number(kind, signed, width, words)
    assert len(y) == width and whole == sum(value(x, values) << i for i, x in enumerate(y)), (kind, signed, width, ports)
    shown = [" ".join(map(str, gate)) for gate in gates.made] if len(gates.made) <= 40 else []
    return [f"{whole} {len(gates.made)}"] + shown


PAIRS = ["and", "or", "xor", "xnor", "add", "sub", "mul", "lt", "le", "gt", "ge", "eq", "ne"]
ONES = ["not", "neg", "rand", "ror", "rxor", "rnand", "rnor", "rxnor", "lnot"]
BITS = ["lt", "le", "gt", "ge", "eq", "ne", "rand", "ror", "rxor", "rnand", "rnor", "rxnor", "lnot", "land", "lor"]


def cases(word):
    """Kind, sign, width of Y, ports."""
    def some(w):
        return word.choice([0, (1 << w) - 1, 1 << (w - 1), word.randrange(1 << w), word.randrange(1 << w)])

    def port(w, mark=":"):
        return (w, mark, some(w) if mark != "~" else 0)

    def of(kind, w):
        return 1 if kind in BITS else w

    for w in (1, 2, 3, 5, 8):
        for kind in ONES:
            for mark in ":" if w != 3 else ":=":
                yield kind, False, of(kind, w), [port(w, mark)]
        for kind in PAIRS:
            for signed in [False, True] if kind in ("lt", "le", "gt", "ge") else [False]:
                yield kind, signed, of(kind, w), [port(w), port(w)]
                yield kind, signed, of(kind, w), [port(w), port(w, "=")]
                yield kind, signed, of(kind, w), [port(w), port(w, "~")]
        for kind in ("land", "lor"):
            yield kind, False, 1, [port(w), port(3)]
            yield kind, False, 1, [port(w, "="), port(w)]
        for kind in ("shl", "shr", "sshr"):
            for wb in (1, 2, 3, 5):
                yield kind, False, w, [port(w), port(wb)]
            yield kind, False, w, [port(w), port(3, "=")]
            yield kind, False, w, [port(w), port(w, "~")]
        yield "mux", False, w, [port(1), port(w), port(w)]
        yield "mux", False, w, [port(1, "="), port(w), port(w)]
        yield "mux", False, w, [port(1), port(w, "="), port(w)]
        yield "mux", False, w, [port(1), port(w), port(w, "~")]
        for wy in (1, 3, 7):
            yield "pick", False, wy, [port(w), port(3)]
            yield "put", False, w, [port(w), port(3), port(wy)]
        yield "put", False, w, [port(w), port(2, "="), port(2)]
    for w in (64, 128):
        for kind in ("add", "sub", "neg", "lt", "eq", "rxor", "lor"):
            yield kind, kind == "lt", of(kind, w), [port(w)] if kind in ONES else [port(w), port(w)]
        for kind in ("shl", "sshr", "pick"):
            yield kind, False, w, [port(w), port(9)]
        yield "put", False, w, [port(w), port(8), port(16)]
    yield "mul", False, 32, [port(32), port(32)]
    yield "mul", False, 128, [port(128), port(128)]


def main():
    lines, answers = [], []
    for kind, signed, width, ports in cases(random.Random(21)):
        shown = " ".join(f"{w}{mark}{n}" for w, mark, n in ports)
        lines.append(f"{kind} {'signed' if signed else 'unsigned'} {width} {shown}")
        answers += answer(kind, signed, width, ports)
    tables.save("netlist_cases", lines, answers, "gates")
    print(f"{len(lines)} cells, {len(answers)} lines")


if __name__ == "__main__":
    main()
