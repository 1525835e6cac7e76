#!/usr/bin/env python3
"""Writes the cases of gates: the table `gates` of crates/search_cases, and what is printed for it.

    tests/gates.py [FOLDER]      the table `gates` of crates/search_cases

A literal is a whole number, or True or False for a constant. An operation is looked up by what it is on all values of its
inputs, not by rules: it folds where it is a constant or a literal of its inputs; a mux that is an `and` or an `or` of two
literals is that. What a list of clauses says is tested on all values of its variables.
"""
import itertools
import random

from lib import tables


def negation(x):
    return not x if isinstance(x, bool) else -x


def shown(x):
    return ("T" if x else "F") if isinstance(x, bool) else str(x)


def value(x, values):
    return x if isinstance(x, bool) else values[abs(x)] == (x > 0)


OPERATIONS = {
    "and": lambda a, b: a and b,
    "or": lambda a, b: a or b,
    "xor": lambda a, b: a != b,
    "mux": lambda s, a, b: b if s else a,
}


class Gates:
    def __init__(self, free):
        self.free, self.made = free, []

    def gate(self, *gate):
        """The variable of a gate: of an equal one, or of a new one."""
        if gate not in self.made:
            self.made.append(gate)
        return self.free + 1 + self.made.index(gate)

    def folded(self, kind, inputs):
        """The constant, or the input or its negation, that the operation is on all values."""
        variables = sorted({abs(x) for x in inputs if not isinstance(x, bool)})
        rows = [dict(zip(variables, bits)) for bits in itertools.product([False, True], repeat=len(variables))]
        column = [OPERATIONS[kind](*[value(x, row) for x in inputs]) for row in rows]
        for x in [False, True] + [y for x in variables for y in (x, -x)]:
            if [value(x, row) for row in rows] == column:
                return x
        return None

    def operation(self, kind, inputs):
        if kind == "mux":
            return self.mux(*inputs)
        found = self.folded(kind, inputs)
        if found is not None:
            return found
        a, b = sorted(inputs, key=abs)
        if kind == "and":
            return self.gate("and", a, b)
        if kind == "or":
            return -self.gate("and", -a, -b)
        odd = (a < 0) != (b < 0)
        output = self.gate("xor", abs(a), abs(b))
        return -output if odd else output

    def mux(self, s, a, b):
        """A mux folds by its select, by equal inputs, and by a constant input alone."""
        if isinstance(s, bool):
            return b if s else a
        if a is b or (a == b and type(a) is type(b)):
            return a
        if a is False:
            return self.operation("and", [s, b])
        if a is True:
            return self.operation("or", [-s, b])
        if b is False:
            return self.operation("and", [-s, a])
        if b is True:
            return self.operation("or", [s, a])
        return self.gate("mux", s, a, b)

    def clauses(self, literals):
        """The clauses of the gates, and that one of the literals is true."""
        listed = []
        for number, gate in enumerate(self.made):
            y = self.free + 1 + number
            kind, inputs = gate[0], gate[1:]
            if kind == "and":
                a, b = inputs
                listed += [[-y, a], [-y, b], [y, -a, -b]]
            elif kind == "xor":
                a, b = inputs
                listed += [[-y, a, b], [-y, -a, -b], [y, -a, b], [y, a, -b]]
            else:
                s, a, b = inputs
                listed += [[-s, -b, y], [-s, b, -y], [s, -a, y], [s, a, -y]]
        if True not in [x for x in literals if isinstance(x, bool)]:
            listed.append([x for x in literals if not isinstance(x, bool)])
        self.test(listed, literals)
        return listed

    def test(self, clauses, literals):
        """The clauses have a model over these free bits just where one of the literals is true."""
        if self.free + len(self.made) > 12:
            return
        count = self.free + len(self.made)
        for bits in itertools.product([False, True], repeat=count):
            values = dict(enumerate(bits, 1))
            model = all(any(value(x, values) for x in clause) for clause in clauses)
            holds = all(
                values[self.free + 1 + number] == OPERATIONS[gate[0]](*[value(x, values) for x in gate[1:]])
                for number, gate in enumerate(self.made)
            )
            assert model == (holds and any(value(x, values) for x in literals))


class Page:
    def __init__(self):
        self.lines, self.answers = [], []

    def title(self, text):
        self.lines.append(f"# {text}")
        self.answers.append(f"# {text}")

    def free(self, count):
        self.gates = Gates(count)
        self.lines.append(f"free {count}")

    def operation(self, kind, *inputs):
        self.lines.append(" ".join([kind] + [shown(x) for x in inputs]))
        output = self.gates.operation(kind, list(inputs))
        self.answers.append(shown(output))
        return output

    def finish(self, literals):
        self.lines.append("gates")
        self.answers += [" ".join(map(str, gate)) for gate in self.gates.made]
        self.lines.append(" ".join(["miter"] + [shown(x) for x in literals]))
        variables = self.gates.free + len(self.gates.made)
        self.answers.append(f"{variables} variables, {self.gates.free} free")
        self.answers += [" ".join(["clause"] + [str(x) for x in clause]) for clause in self.gates.clauses(literals)]


def written():
    page, choose = Page(), random.Random(8)
    small = [False, True, 1, -1, 2, -2]
    for kind in ("and", "or", "xor"):
        page.title(f"{kind} of constants and of two bits")
        page.free(2)
        outputs = [page.operation(kind, a, b) for a in small for b in small]
        page.finish(outputs[:1] + outputs[-2:])
    page.title("mux of constants and of three bits")
    page.free(3)
    for s in (False, True, 1, -1):
        for a in (False, True, 1, 2, -2):
            for b in (False, True, -1, 2, 3):
                page.operation("mux", s, a, b)
    page.finish([3])
    page.title("One literal that is 1, and none at all")
    page.free(2)
    output = page.operation("and", 1, 2)
    page.finish([output, True])
    page.finish([False, output])
    page.finish([])
    page.title("Operations on what was made")
    for _ in range(25):
        page.free(choose.randint(1, 4))
        known = [False, True] + [x for n in range(1, page.gates.free + 1) for x in (n, -n)]
        for _ in range(choose.randint(1, 9)):
            kind = choose.choice(["and", "or", "xor", "mux"])
            inputs = [choose.choice(known) for _ in range(3 if kind == "mux" else 2)]
            output = page.operation(kind, *inputs)
            known += [output, negation(output)]
        page.finish([choose.choice(known) for _ in range(choose.randint(1, 3))])
    return "\n".join(page.lines) + "\n", "\n".join(page.answers) + "\n"


def main():
    lines, answers = written()
    tables.save("search_cases", lines, answers, name="gates")


if __name__ == "__main__":
    main()
