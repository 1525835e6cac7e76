#!/usr/bin/env python3
"""Writes the cases of pairs of netlists, their clauses and verdicts: the table `pairs` of crates/mutant_cases, and what is printed for it.

    tests/pairs.py [FOLDER]      the table `pairs` of crates/mutant_cases
    tests/pairs.py --minisat     also asks minisat, where it is installed, whether the clauses have a model

The netlists are evaluated by whole numbers, for all values of their inputs and registers where these have at most 10 bits; the gates
are made as `tests/cell_gates.py` makes them, and one of the last literals has to be true exactly where the numbers differ.
"""
import itertools
import pathlib
import random
import shutil
import subprocess
import sys
import tempfile

from cell_gates import OPERATIONS, Gates, negation, number, value

from lib import tables
MOST_FREE, MOST_GATES, SHOWN = 2048, 200_000, 400
RARE = "a word of 24 bits, one value of which alone makes a difference"
HIDDEN = "two words of 16 bits, two pairs of which alone make a difference"


class Netlist:
    """Bits are nets by number, or constants."""

    def __init__(self, inputs=(), outputs=(), registers=(), cells=()):
        self.inputs, self.outputs = list(inputs), list(outputs)
        self.registers, self.cells = list(registers), list(cells)

    def lines(self):
        def text(bits):
            return ",".join({False: "low", True: "high"}[b] if isinstance(b, bool) else str(b) for b in bits)

        for name, bits in self.inputs:
            yield f"input {name} {text(bits)}"
        for name, bits in self.outputs:
            yield f"output {name} {text(bits)}"
        for name, d, q in self.registers:
            yield f"register {name} {text(d)} {text(q)}"
        for kind, signed, ports in self.cells:
            yield ("signed " if signed else "") + kind + "".join(" " + text(bits) for bits in ports)

    def order(self):
        """At each place the least numbered cell that isn't listed, and whose read cells are."""
        driver = {n: c for c, cell in enumerate(self.cells) for n in cell[2][-1]}
        reads = [{driver[n] for bits in ports[:-1] for n in bits if not isinstance(n, bool) and n in driver} for _, _, ports in self.cells]
        listed = []
        while len(listed) < len(self.cells):
            listed.append(min(c for c in range(len(self.cells)) if c not in listed and reads[c] <= set(listed)))
        return listed

    def sources(self):
        """The bits of inputs and registers, in order."""
        return [n for _, bits in self.inputs for n in bits] + [n for _, _, q in self.registers for n in q]

    def step(self, bits):
        """What outputs show and registers take, for these values of the sources."""
        nets = dict(zip(self.sources(), bits))
        at = lambda port: (len(port), sum((b if isinstance(b, bool) else nets[b]) << i for i, b in enumerate(port)))
        for c in self.order():
            kind, signed, ports = self.cells[c]
            n = number(kind, signed, len(ports[-1]), [at(bits) for bits in ports[:-1]])
            nets |= {net: bool(n >> i & 1) for i, net in enumerate(ports[-1])}
        return [at(bits) for _, bits in self.outputs] + [at(d) for _, d, _ in self.registers]

    def gates(self, gates):
        """The literals that a step shows."""
        nets = {n: i + 1 for i, n in enumerate(self.sources())}
        at = lambda port: [b if isinstance(b, bool) else nets[b] for b in port]
        for c in self.order():
            kind, signed, ports = self.cells[c]
            nets |= dict(zip(ports[-1], gates.cell(kind, signed, len(ports[-1]), [at(bits) for bits in ports[:-1]])))
        return [x for _, bits in self.outputs for x in at(bits)] + [x for _, d, _ in self.registers for x in at(d)]


def verdicts(original, mutant, found):
    """Statements that test a pair, and what they print: there are too few free bits for a test to be given up."""
    yield "test 60000 7", "change" if found else "no change"
    if len(found) == 1:
        whole = lambda bits: sum(b << i for i, b in enumerate(bits))
        values = iter(found[0])
        numbers = lambda ports: "".join(f" {whole([next(values) for _ in bits])}" for bits in ports)
        inputs, registers = numbers([bits for _, bits in original.inputs]), numbers([q for _, _, q in original.registers])
        place = next(k for k, (x, y) in enumerate(zip(original.step(found[0]), mutant.step(found[0]))) if x != y)
        outputs = len(original.outputs)
        where = f"output {place}" if place < outputs else f"register {place - outputs}"
        yield "detail 60000 1000", f"{where} differs with inputs{inputs}, registers{registers}"


def first_apart(*pairs):
    for xs, ys in pairs:
        for i, x in enumerate(xs):
            if i >= len(ys) or ys[i] != x:
                return x[0]
    return None


def clauses_of(y, gate):
    match gate:
        case ("and", a, b):
            return [[-y, a], [-y, b], [y, -a, -b]]
        case ("xor", a, b):
            return [[-y, a, b], [-y, -a, -b], [y, -a, b], [y, a, -b]]
        case ("mux", s, a, b):
            return [[-s, -b, y], [-s, b, -y], [s, -a, y], [s, a, -y]]


def apart(gates, a, b):
    """The exclusive or of two literals, where constants fold as well."""
    if isinstance(a, bool) and isinstance(b, bool):
        return a != b
    if isinstance(a, bool):
        return negation(b) if a else b
    if isinstance(b, bool):
        return negation(a) if b else a
    return gates.two("xor", a, b)


def compare(original, mutant, free, gates, last):
    """The values of the sources for which a step differs; each has to be told by the gates."""
    found = []
    for bits in itertools.product([False, True], repeat=free):
        values = {i + 1: b for i, b in enumerate(bits)}
        for i, (gate, *inputs) in enumerate(gates.made):
            x = [value(x, values) for x in inputs]
            values[free + 1 + i] = (x[2] if x[0] else x[1]) if gate == "mux" else OPERATIONS[gate](*x)
        differ = original.step(bits) != mutant.step(bits)
        assert differ == any(value(x, values) for x in last), bits
        found += [bits] * differ
    return found


def answer(original, mutant):
    """What is printed of the clauses, and the values with which a step differs, where that was tried."""
    named = lambda ports: [(name, len(bits)) for name, bits in ports]
    held = lambda registers: [(name, len(q)) for name, _, q in registers]
    a, b = original, mutant
    name = first_apart((named(a.inputs), named(b.inputs)), (named(a.outputs), named(b.outputs)), (named(b.inputs), named(a.inputs)), (named(b.outputs), named(a.outputs)))
    if name:
        return [f"ports differ: {name}"], None
    name = first_apart((held(a.registers), held(b.registers)), (held(b.registers), held(a.registers)))
    if name:
        return [f"registers differ: {name}"], None
    free = len(a.sources())
    if free > MOST_FREE:
        return [f"too many free bits: {free}"], None
    gates = Gates(free)
    shown = a.gates(gates)
    others = b.gates(gates)
    if len(gates.made) > MOST_GATES:
        return ["too many gates"], None
    last = [apart(gates, x, y) for x, y in zip(shown, others)]
    found = compare(a, b, free, gates, last) if free <= 10 else None
    clauses = [c for i, gate in enumerate(gates.made) for c in clauses_of(free + 1 + i, gate)]
    if True not in last:
        clauses.append([x for x in last if x is not False])
    lines = [f"c {free} free bits", f"p cnf {free + len(gates.made)} {len(clauses)}"]
    if len(clauses) <= SHOWN:
        lines += [" ".join(map(str, c + [0])) for c in clauses]
    return lines, found


PAIR = ["and", "or", "xor", "xnor", "add", "sub", "mul"]
ORDER = ["lt", "le", "gt", "ge", "eq", "ne"]
ONE = ["rand", "ror", "rxor", "rnand", "rnor", "rxnor", "lnot"]


def drawn(word):
    """A small netlist: cells read what stands before them, and then their numbers are shuffled."""
    fresh = itertools.count()
    nets = lambda w: [next(fresh) for _ in range(w)]
    inputs = [(f"i{k}", nets(word.randint(1, 2))) for k in range(word.randint(1, 3))]
    qs = [nets(word.randint(1, 2)) for _ in range(word.randint(0, 2))]
    known = [n for _, bits in inputs for n in bits] + [n for q in qs for n in q] + [False, True]
    read = lambda w: [word.choice(known) for _ in range(w)]
    cells = []
    for _ in range(word.randint(1, 5)):
        w, kind = word.randint(1, 3), word.choice(["pair", "order", "one", "shift", "mux", "not", "pick", "put", "logic"])
        match kind:
            case "pair":
                ports, kind, out = [read(w), read(w)], word.choice(PAIR), w
            case "order":
                ports, kind, out = [read(w), read(w)], word.choice(ORDER), 1
            case "one":
                ports, kind, out = [read(w)], word.choice(ONE), 1
            case "shift":
                ports, kind, out = [read(w), read(word.randint(1, 2))], word.choice(["shl", "shr", "sshr"]), w
            case "mux":
                ports, out = [read(1), read(w), read(w)], w
            case "not":
                ports, kind, out = [read(w)], word.choice(["not", "neg"]), w
            case "pick":
                ports, out = [read(w), read(2)], word.randint(1, w)
            case "put":
                ports, out = [read(w), read(2), read(word.randint(1, w))], w
            case "logic":
                ports, kind, out = [read(w), read(2)], word.choice(["land", "lor"]), 1
        y = nets(out)
        known += y
        cells.append((kind, word.random() < 0.5 and kind in ORDER, ports + [y]))
    word.shuffle(cells)
    outputs = [(f"o{k}", read(word.randint(1, 3))) for k in range(word.randint(1, 2))]
    registers = [(f"r{k}", read(len(q)), q) for k, q in enumerate(qs)]
    return Netlist(inputs, outputs, registers, cells)


def changed(word, netlist):
    """The netlist with one bit of an output, a D or a cell's input changed, or with a cell of another kind."""
    copy = Netlist(netlist.inputs, netlist.outputs, netlist.registers, [(k, s, [list(b) for b in p]) for k, s, p in netlist.cells])
    fresh = 1 + max(n for n in copy.sources() + [n for _, _, p in copy.cells for n in p[-1]])
    where = word.choice(["cell", "kind", "output", "next"])
    if where == "kind":
        c = word.randrange(len(copy.cells))
        kind, signed, ports = copy.cells[c]
        for group in (PAIR, ORDER, ONE):
            if kind in group:
                copy.cells[c] = (word.choice(group), signed, ports)
        return copy
    if where == "cell":
        ports = copy.cells[word.randrange(len(copy.cells))][2]
        bits = ports[word.randrange(len(ports) - 1)]
    elif where == "output" or not copy.registers:
        copy.outputs = [(name, list(bits)) for name, bits in copy.outputs]
        bits = word.choice(copy.outputs)[1]
    else:
        copy.registers = [(name, list(d), q) for name, d, q in copy.registers]
        bits = word.choice(copy.registers)[1]
    i = word.randrange(len(bits))
    copy.cells.append(("not", False, [[bits[i]], [fresh]]))
    bits[i] = fresh
    return copy


def wide(first, count):
    return list(range(first, first + count))


def cases(word):
    a, b, y = ("a", [0]), ("b", [1]), 9
    xor = Netlist([a, b], [("y", [y])], [], [("xor", False, [[0], [1], [y]])])
    nand = Netlist([a, b], [("y", [y])], [], [("or", False, [[0], [1], [2]]), ("and", False, [[0], [1], [3]]), ("not", False, [[3], [4]]), ("and", False, [[2], [4], [y]])])
    yield "two forms of an exclusive or", xor, nand
    yield "an exclusive or and an or", xor, Netlist([a, b], [("y", [y])], [], [("or", False, [[0], [1], [y]])])
    yield "an input of another name", xor, Netlist([a, ("c", [1])], [("y", [y])], [], xor.cells)
    yield "inputs in another order", xor, Netlist([b, a], [("y", [y])], [], xor.cells)
    yield "an input less", xor, Netlist([a], [("y", [0])])
    yield "an input more", Netlist([a], [("y", [0])]), xor
    yield "an output of another width, and an input more", Netlist([a], [("y", [0])]), Netlist([a, b], [("y", [0, 1])])
    yield "an output more", Netlist([a], [("y", [0])]), Netlist([a], [("y", [0]), ("z", [0])])
    yield "one netlist", nand, nand
    yield "the same but for the numbers of its nets", nand, Netlist([("a", [7]), ("b", [5])], [("y", [0])], [], [("or", False, [[7], [5], [8]]), ("and", False, [[7], [5], [6]]), ("not", False, [[6], [1]]), ("and", False, [[8], [1], [0]])])
    yield "a negated input", Netlist([a], [("y", [0])]), Netlist([a], [("y", [1])], [], [("not", False, [[0], [1]])])
    yield "a constant output", Netlist([a], [("y", [True])]), Netlist([a], [("y", [0])])
    yield "two outputs with one difference", Netlist([a, b], [("y", [0]), ("z", [0])]), Netlist([a, b], [("y", [1]), ("z", [1])])
    yield "nothing is shown", Netlist([a]), Netlist([a])
    state = [("count", [4, 5], [2, 3])]
    adds = [("add", False, [[2, 3], [0, False], [4, 5]])]
    counter = Netlist([("enable", [0])], [("y", [3])], state, adds)
    yield "only the next value of a register differs", counter, Netlist([("enable", [0])], [("y", [3])], [("count", [4, 3], [2, 3])], adds)
    yield "registers of another name", counter, Netlist([("enable", [0])], [("y", [3])], [("state", [4, 5], [2, 3])], adds)
    yield "a register less", counter, Netlist([("enable", [0])], [("y", [0])])
    yield "a register more", Netlist([("enable", [0])], [("y", [0])]), counter
    one, two = ("first", [11], [10]), ("second", [10], [11])
    yield "registers in another order", Netlist([], [], [one, two]), Netlist([], [], [two, one])
    yield "registers that take another one's value", Netlist([], [], [one, two]), Netlist([], [], [("first", [10], [10]), two])
    ports = [(f"i{k}", wide(128 * k, 128)) for k in range(16)]
    yield "2,048 free bits", Netlist(ports, [("y", [2047])]), Netlist(ports, [("y", [0])])
    more = ports + [("last", [2048])]
    yield "2,049 free bits", Netlist(more, [("y", [2048])]), Netlist(more, [("y", [0])])
    rows = [("a", wide(0, 128)), ("b", wide(128, 128)), ("c", wide(256, 128))]
    product = lambda x, z, y: ("mul", False, [wide(x, 128), wide(z, 128), wide(y, 128)])
    squares = [product(0, 128, 1000), product(128, 256, 2000), product(0, 256, 3000)]
    shown = [("y", wide(1000, 128)), ("z", wide(2000, 128)), ("w", wide(3000, 128))]
    yield "two products of 128 bits", Netlist(rows, shown[:2], [], squares[:2]), Netlist(rows, shown[:2], [], squares[:2])
    yield "three products of 128 bits", Netlist(rows, shown[:2], [], squares[:2]), Netlist(rows, [shown[0], ("z", wide(3000, 128))], [], squares)
    code = [bool(0xB4D2A7 >> i & 1) for i in range(24)]
    yield RARE, Netlist([("a", wide(0, 24))], [("y", [24])], [], [("eq", False, [wide(0, 24), code, [24]])]), Netlist([("a", wide(0, 24))], [("y", [False])])
    first, second = 24162, 41375
    product, total, least = first * second % 2**16, (first + second) % 2**16, 2
    assert total < least
    inputs = [("a", wide(0, 16)), ("b", wide(16, 16)), ("c", [32])]
    whole = lambda n: [bool(n >> i & 1) for i in range(16)]
    meets = [("mul", False, [wide(0, 16), wide(16, 16), wide(40, 16)]), ("eq", False, [wide(40, 16), whole(product), [60]])]
    meets += [("add", False, [wide(0, 16), wide(16, 16), wide(70, 16)]), ("lt", False, [wide(70, 16), whole(least), [90]])]
    meets += [("and", False, [[60], [90], [91]]), ("xor", False, [[32], [91], [92]])]
    yield HIDDEN, Netlist(inputs, [("y", [92])], [], meets), Netlist(inputs, [("y", [32])])
    for number_of_case in range(70):
        netlist = drawn(word)
        yield f"drawn {number_of_case}", netlist, changed(word, netlist) if number_of_case % 10 else netlist


def ask(lines):
    """Whether minisat finds a model."""
    with tempfile.TemporaryDirectory() as folder:
        path = pathlib.Path(folder, "pair.cnf")
        path.write_text("\n".join(lines) + "\n")
        return subprocess.run(["minisat", "-verb=0", path], stdout=subprocess.DEVNULL).returncode == 10


def main():
    stdin, stdout, tried, differ = [], [], 0, 0
    for name, original, mutant in cases(random.Random("pairs of netlists")):
        lines, found = answer(original, mutant)
        stdin += [f"# {name}", *original.lines(), "original", *mutant.lines(), "mutant", "encode"]
        stdout += [f"# {name}", *lines]
        if name == RARE:
            # Too rare for simulation.
            stdin.append("detail 1000 10")
            stdout.append(f"output 0 differs with inputs {0xB4D2A7}, registers")
        if name == HIDDEN:
            # Too rare for simulation, and too deep for 2,000 lemmas.
            stdin.append("test 2000 1000")
            stdout.append("change")
        if found is None:
            continue
        tests = list(verdicts(original, mutant, found))
        if name == "one netlist":
            # The last clause is empty, and so is the first lemma.
            tests.append(("detail 1 1", "no change after 1 lemmas"))
        if name == "two forms of an exclusive or":
            # The empty lemma does not follow at once, and there are no more than 3^2 lemmas.
            tests += [("test 1 1", "unknown after 1 lemmas"), ("test 9 1", "no change")]
        stdin += [statement for statement, _ in tests]
        stdout += [line for _, line in tests]
        tried += 1
        differ += bool(found)
        if "--minisat" in sys.argv and shutil.which("minisat") and len(lines) > 2:
            assert ask(lines) == bool(found), name
    print(f"{tried} pairs were tried on all values, {differ} of them differ", file=sys.stderr)
    tables.save("mutant_cases", stdin, stdout, name="pairs")


if __name__ == "__main__":
    main()
