#!/usr/bin/env python3
"""The table 'netlists that run' of crates/netlist_cases: netlists, and the cycles of their runs by the definition alone.

    tests/cycles.py [FOLDER]      the table 'netlists that run' of crates/netlist_cases

A cycle gives every net one value: inputs have theirs, Q's their registers', and Y's that of the table of cell kinds.
Here each net is looked up by what drives it, from the readers back, in no order of the cells.
"""

import random
import sys

from lib import tables

sys.setrecursionlimit(100000)


def signed(a, width):
    return a - (1 << width) if a >> (width - 1) else a


def value(kind, is_signed, w, ports):
    """The number at Y from the numbers and widths at the input ports."""
    (a, wa) = ports[0]
    (b, wb) = ports[1] if len(ports) > 1 else (0, 0)
    (d, wd) = ports[2] if len(ports) > 2 else (0, 0)
    sa, sb = (signed(a, wa), signed(b, wb)) if is_signed and wb else (a, b)
    number = {
        "not": lambda: ~a,
        "neg": lambda: -a,
        "and": lambda: a & b,
        "or": lambda: a | b,
        "xor": lambda: a ^ b,
        "xnor": lambda: ~(a ^ b),
        "add": lambda: a + b,
        "sub": lambda: a - b,
        "mul": lambda: a * b,
        "lt": lambda: sa < sb,
        "le": lambda: sa <= sb,
        "gt": lambda: sa > sb,
        "ge": lambda: sa >= sb,
        "eq": lambda: a == b,
        "ne": lambda: a != b,
        "shl": lambda: a << b if b < 256 else 0,
        "shr": lambda: a >> b,
        "sshr": lambda: signed(a, wa) >> b,
        "rand": lambda: a == (1 << wa) - 1,
        "ror": lambda: a != 0,
        "rxor": lambda: bin(a).count("1") % 2,
        "rnand": lambda: a != (1 << wa) - 1,
        "rnor": lambda: a == 0,
        "rxnor": lambda: (bin(a).count("1") + 1) % 2,
        "lnot": lambda: a == 0,
        "land": lambda: a != 0 and b != 0,
        "lor": lambda: a != 0 or b != 0,
        "mux": lambda: d if a else b,
        "pick": lambda: a >> b,
        "put": lambda: (a & ~(((1 << wd) - 1) << b)) | (d << b) if b < wa else a,
    }[kind]()
    return int(number) % (1 << w)


def text(bits):
    """Bits as the program reads them: runs of nets joined."""
    parts = []
    for bit in bits:
        if isinstance(bit, bool):
            parts.append("high" if bit else "low")
        elif parts and isinstance(parts[-1], list) and parts[-1][1] + 1 == bit:
            parts[-1][1] = bit
        else:
            parts.append([bit, bit])
    names = [p if isinstance(p, str) else str(p[0]) if p[0] == p[1] else f"{p[0]}..{p[1]}" for p in parts]
    return ",".join(names)


class Netlist:
    def __init__(self, title):
        self.lines, self.answers = [f"# {title}"], [f"# {title}"]
        self.inputs, self.outputs, self.registers, self.cells = [], [], [], []
        self.drivers, self.next = {}, 0

    def nets(self, width, kind, number):
        first, self.next = self.next, self.next + width
        bits = list(range(first, first + width))
        for i, net in enumerate(bits):
            self.drivers[net] = (kind, number, i)
        return bits

    def input(self, width):
        self.inputs.append(self.nets(width, "input", len(self.inputs)))
        return self.inputs[-1]

    def register(self, width, start):
        """Its Q. D is set later."""
        q = self.nets(width, "register", len(self.registers))
        self.registers.append([width, start, None, q])
        return q

    def cell(self, kind, ports, width, is_signed=False):
        y = self.nets(width, "cell", len(self.cells))
        self.cells.append((kind, is_signed, ports, y))
        return y

    def output(self, bits):
        self.outputs.append(bits)

    def build(self, order=None):
        """The lines of the netlist; cells may be listed in another order than they were made."""
        self.lines += [f"input {text(bits)}" for bits in self.inputs]
        self.lines += [f"register {w} {start} {text(d)} {text(q)}" for w, start, d, q in self.registers]
        for kind, is_signed, ports, y in order(self.cells) if order else self.cells:
            self.lines.append(("signed " if is_signed else "") + " ".join([kind] + [text(p) for p in ports + [y]]))
        self.lines += [f"output {text(bits)}" for bits in self.outputs]
        self.state = [start for _, start, _, _ in self.registers]
        self.lines.append("start")
        self.answers.append(" ".join(["registers"] + [str(v) for v in self.state]))

    def net(self, known, inputs, net):
        kind, number, i = self.drivers[net]
        if kind == "input":
            return inputs[number] >> i & 1
        if kind == "register":
            return self.state[number] >> i & 1
        if number not in known:
            name, is_signed, ports, y = self.cells[number]
            seen = [(self.number(known, inputs, bits), len(bits)) for bits in ports]
            known[number] = value(name, is_signed, len(y), seen)
        return known[number] >> i & 1

    def number(self, known, inputs, bits):
        return sum(int(bit if isinstance(bit, bool) else self.net(known, inputs, bit)) << i for i, bit in enumerate(bits))

    def cycle(self, inputs, apart=False):
        numbers = " ".join(str(v) for v in inputs)
        known = {}
        shown = " ".join(["outputs"] + [str(self.number(known, inputs, bits)) for bits in self.outputs])
        self.state = [self.number(known, inputs, d) for _, _, d, _ in self.registers]
        held = " ".join(["registers"] + [str(v) for v in self.state])
        self.lines += ["settle " + numbers, "clock"] if apart else ["step " + numbers]
        self.answers += [shown, shown, held] if apart else [shown, held]

    def end(self):
        self.lines.append("end")
        return self


def the_counter():
    n = Netlist("a counter with reset and enable")
    reset, enable = n.input(1), n.input(1)
    count = n.register(4, 5)
    more = n.cell("add", [count, [True, False, False, False]], 4)
    kept = n.cell("mux", [enable, count, more], 4)
    n.registers[0][2] = n.cell("mux", [reset, kept, [False] * 4], 4)
    n.output(count)
    n.output(more)
    n.build()
    for i, inputs in enumerate([(0, 1)] * 12 + [(0, 0), (1, 1), (0, 1), (0, 0), (0, 1)]):
        n.cycle(inputs, i % 3 == 2)
    return n.end()


def the_adder():
    n = Netlist("an adder of 128 bits, and its carry by 129 cells of one bit")
    a, b = n.input(128), n.input(128)
    n.output(n.cell("add", [a, b], 128))
    n.output(n.cell("sub", [a, b], 128))
    n.output(n.cell("mul", [a, b], 128))
    carry = [False]
    for i in range(128):
        both, one = n.cell("and", [[a[i]], [b[i]]], 1), n.cell("xor", [[a[i]], [b[i]]], 1)
        carry = n.cell("or", [both, n.cell("and", [one, carry], 1)], 1)
    n.output(carry)
    n.build()
    top = (1 << 128) - 1
    for inputs in [(1, 2), (top, 1), (top, top), (1 << 127, 1 << 127), (0, 0), (top // 3, top // 5)]:
        n.cycle(inputs)
    return n.end()


def the_shift_register():
    n = Netlist("registers that take each other's value at once")
    data = n.input(3)
    first, second, third = n.register(3, 1), n.register(3, 2), n.register(3, 4)
    n.registers[0][2], n.registers[1][2], n.registers[2][2] = data, first, second
    turned = n.register(6, 63)
    n.registers[3][2] = turned[3:] + third
    n.output(third)
    n.output(third[::-1] + first[:1])
    n.build()
    for i, inputs in enumerate([(7,), (0,), (5,), (2,), (1,), (6,)]):
        n.cycle(inputs, i % 2 == 1)
    return n.end()


def the_backward_list():
    n = Netlist("cells that are listed from the last to the first")
    value_of = n.input(8)
    for i in range(20):
        value_of = n.cell("add" if i % 3 else "xor", [value_of, value_of[4:] + value_of[:4]], 8)
    n.output(value_of)
    cells = n.cells
    n.build(lambda listed: listed[::-1])
    for inputs in [(0,), (1,), (200,), (255,)]:
        n.cycle(inputs)
    return n.end()


ONE = ["not", "neg"]
REDUCTIONS = ["rand", "ror", "rxor", "rnand", "rnor", "rxnor", "lnot"]
TWO = ["and", "or", "xor", "xnor", "add", "sub", "mul"]
RELATIONS = ["lt", "le", "gt", "ge", "eq", "ne"]


def each_kind(width):
    rng = random.Random(width)
    n = Netlist(f"each kind of cell, with {width} bits")
    a, b, s, by, d = n.input(width), n.input(width), n.input(1), n.input(min(width, 8)), n.input((width + 1) // 2)
    for kind in ONE:
        n.output(n.cell(kind, [a], width))
    for kind in REDUCTIONS:
        n.output(n.cell(kind, [a], 1))
    for kind in TWO:
        n.output(n.cell(kind, [a, b], width))
    for kind in RELATIONS:
        n.output(n.cell(kind, [a, b], 1))
        n.output(n.cell(kind, [a, b], 1, True))
    for kind in ["shl", "shr", "sshr"]:
        n.output(n.cell(kind, [a, by], width))
    n.output(n.cell("land", [a, d], 1))
    n.output(n.cell("lor", [d, b], 1))
    n.output(n.cell("mux", [s, a, b], width))
    n.output(n.cell("pick", [a, by], (width + 2) // 3))
    n.output(n.cell("put", [a, by, d], width))
    n.build()
    sizes = [width, width, 1, min(width, 8), (width + 1) // 2]
    n.cycle([0] * 5)
    n.cycle([(1 << w) - 1 for w in sizes])
    for _ in range(6):
        n.cycle([rng.getrandbits(w) for w in sizes])
    return n.end()


def mixed(seed, width):
    """Cells that read parts of several drivers and constants, and registers with enable."""
    rng = random.Random(seed)
    n = Netlist(f"parts of drivers, number {seed}")
    known = [n.input(width), n.input(rng.randint(1, 128))]
    registers = [n.register(rng.randint(1, 128), 1) for _ in range(3)]
    known += registers

    def some(width):
        bits = []
        while len(bits) < width:
            choice = rng.random()
            if choice < 0.15:
                bits += [rng.random() < 0.5] * rng.randint(1, 9)
            else:
                source = rng.choice(known)
                first = rng.randrange(len(source))
                bits += source[first : first + rng.randint(1, len(source))]
        return bits[:width]

    for _ in range(25):
        w = rng.choice([1, 2, 7, 8, 31, 32, 64, 127, 128])
        kind = rng.choice(TWO + ["mux", "pick", "eq", "rxor"])
        if kind == "mux":
            known.append(n.cell(kind, [some(1), some(w), some(w)], w))
        elif kind == "pick":
            known.append(n.cell(kind, [some(w), some(3)], rng.randint(1, w)))
        elif kind == "eq":
            known.append(n.cell(kind, [some(w), some(w)], 1))
        elif kind == "rxor":
            known.append(n.cell(kind, [some(w)], 1))
        else:
            known.append(n.cell(kind, [some(w), some(w)], w))
    for number, q in enumerate(registers):
        n.registers[number][2] = n.cell("mux", [some(1), q, some(len(q))], len(q))
    for _ in range(3):
        n.output(some(rng.randint(1, 128)))
    n.build()
    for _ in range(5):
        n.cycle([rng.getrandbits(len(bits)) for bits in n.inputs])
    return n.end()


def cases():
    yield the_counter()
    yield the_adder()
    yield the_shift_register()
    yield the_backward_list()
    for width in [1, 8, 33, 128]:
        yield each_kind(width)
    for seed, width in enumerate([1, 16, 64, 128]):
        yield mixed(seed, width)


def main():
    made = list(cases())
    tables.save("netlist_cases", [line for case in made for line in case.lines], [line for case in made for line in case.answers], "netlists that run")


if __name__ == "__main__":
    main()
