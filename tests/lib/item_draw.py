"""A generator of designs, as lists of modules."""

import random

from lib.item_exprs import Binary, Group, Name, Number, Parts, Select
from lib.item_trees import (
    AssignItem, Block, DataItem, ForItem, GenvarItem, IfItem, InstanceItem, Kind,
    Module, Pair, ParameterItem, PortItem, ProcessItem, Range, RegionItem,
)


class Draw:
    """A generator of designs. What is drawn is mostly right, so that faults stand beside what is built."""

    def __init__(self, seed):
        self.rng = random.Random(seed)
        self.known = []  # the constants of the scope

    def chance(self, p):
        return self.rng.random() < p

    def pick(self, list_):
        return self.rng.choice(list_)

    def constant(self, depth=1):
        """An expression that is mostly a constant."""
        draw = self.rng.random()
        if depth and draw < 0.35:
            left, right = (self.constant(0) for _ in range(2))
            if self.chance(0.2):
                left = Group(Binary(self.pick("+-"), left, self.constant(0)))
            return Binary(self.pick(["+", "-", "*", "<", "==", "/"]), left, right)
        if draw < 0.6:
            return Number(self.pick([0, 1, 1, 2, 3, 3, 4]))
        if self.known and self.chance(0.93):
            return Name(self.pick(self.known))
        return Name(self.pick(["N", "W", "g", "a", "zz"]))

    def range(self):
        if self.chance(0.5):
            return None
        return Range(self.constant(), Number(0) if self.chance(0.8) else self.constant(0))

    def value(self):
        """An expression of a connection or an assignment."""
        draw = self.rng.random()
        if draw < 0.5:
            return Name(self.pick(["a", "b", "c", "y"]))
        if draw < 0.65:
            return Select(self.pick(["a", "b", "y"]), self.constant(0))
        if draw < 0.8:
            return Parts([self.value() for _ in range(self.rng.randint(1, 2))])
        if draw < 0.9:
            return Group(self.value())
        return Binary("+", Name("a"), Number(1))

    def left(self):
        draw = self.rng.random()
        if draw < 0.6:
            return Name(self.pick(["b", "c", "y"]))
        if draw < 0.8:
            return Select(self.pick(["b", "y"]), self.constant(0))
        return Parts([self.left(), Name("c")])

    def data(self):
        word = self.pick(["wire", "wire", "reg", "integer"])
        names = self.rng.sample(["b", "c", "d", "e", "u", "x", "genblk1"], self.rng.randint(1, 2))
        kind = Kind(word, word != "integer" and self.chance(0.3), None if word == "integer" else self.range())
        return DataItem(kind, [(name, self.value() if self.chance(0.3) else None) for name in names])

    def connections(self, module):
        ports = module.port_names() if module else ["a", "y"]
        if self.chance(0.5):
            count = self.rng.randint(1, max(len(ports), 1)) + self.chance(0.12)
            values = [self.value() if self.chance(0.85) else None for _ in range(count)]
            return False, [value for value in values if value] if count == 1 else values
        names = [name for name in ports if self.chance(0.8)] or ["a"]
        self.rng.shuffle(names)
        if self.chance(0.12):
            names.append(self.pick(["a", "zz", names[0]]))
        return True, [Pair(name, self.value() if self.chance(0.85) else None) for name in names]

    def instances(self, below):
        module = self.pick(below) if below else None
        name = module.name if module and self.chance(0.95) else self.pick(["none", "m0", "m1", "m2"])
        by_name, values = self.chance(0.5), []
        if self.chance(0.6):
            if by_name:
                names = self.rng.sample(["N", "W"], self.rng.randint(1, 2)) + self.pick([[], [], [], ["N"], ["zz"]])
                values = [Pair(one, self.constant() if self.chance(0.9) else None) for one in names]
            else:
                values = [self.constant() for _ in range(self.rng.randint(1, 3))]
        names = self.rng.sample(["u", "v", "w"], self.rng.randint(1, 2))
        return InstanceItem(name, by_name, values, [(one,) + self.connections(module) for one in names])

    def block(self, below, depth):
        draw = self.rng.random()
        if draw < 0.1:
            return self.plain(below)
        label = self.pick(["x", "z", "k"]) if draw < 0.6 else None
        return Block(label, [self.inner(below, depth - 1) for _ in range(self.pick([0, 1, 1, 2]))])

    def arm(self, below, depth):
        draw = self.rng.random()
        if draw < 0.1:
            return None
        if draw < 0.3 and depth > 1:
            return self.condition(below, depth - 1)
        return self.block(below, depth)

    def condition(self, below, depth):
        first = self.arm(below, depth)
        if isinstance(first, IfItem):
            first = Block(None, [first])  # an `else` belongs to the nearest `if`
        has_second = self.chance(0.5)
        return IfItem(self.constant(), first, has_second, self.arm(below, depth) if has_second else None)

    def loop(self, below, depth):
        name = self.pick(["g", "g", "h"]) if self.chance(0.95) else self.pick(["a", "N", "zz"])
        step_name = name if self.chance(0.93) else self.pick(["h", "b", "N", "zz"])
        start = Number(self.rng.randint(0, 2)) if self.chance(0.7) else Binary("-", Number(0), Number(self.rng.randint(0, 2)))
        limit = self.pick([Number(2), Number(3), Name("N"), Name("W")]) if self.chance(0.95) else Name("a")
        if isinstance(limit, Name) or self.chance(0.5):
            limit = Binary("<", Name(name), Group(Binary("-", limit, Number(self.rng.randint(0, 1)))))
        else:
            limit = Binary("<", Name(name), limit)
        step = Binary("+", Name(name), Number(self.pick([1, 1, 2])) if self.chance(0.9) else Name("zz"))
        around = self.known
        self.known = around + [name]
        body = self.condition(below, depth - 1) if depth > 1 and self.chance(0.2) else self.block(below, depth)
        self.known = around
        return ForItem(name, start, limit, step_name, step, body)

    def plain(self, below):
        draw = self.rng.random()
        if draw < 0.25:
            return self.data()
        if draw < 0.65 and below:
            return self.instances(below)
        if draw < 0.8:
            return AssignItem(self.chance(0.1), [(self.left(), self.value()) for _ in range(self.rng.randint(1, 2))])
        if draw < 0.85:
            return ParameterItem("localparam", Kind("", False, self.range()), self.pick(["N", "L"]), self.constant())
        if draw < 0.9:
            return GenvarItem([self.pick(["g", "h", "x"])])
        return ProcessItem(self.pick(["always @* b = a", "initial b = 1"]))

    def inner(self, below, depth):
        draw = self.rng.random()
        if depth > 0 and draw < 0.25:
            return self.condition(below, depth)
        if depth > 0 and draw < 0.5:
            return self.loop(below, depth)
        return self.plain(below)

    def parameter(self, name):
        kind = Kind("integer") if self.chance(0.15) else Kind("", self.chance(0.2), self.range() if self.chance(0.3) else None)
        return ParameterItem("parameter", kind, name, self.constant() if self.chance(0.3) else Number(self.rng.randint(1, 4)))

    def module(self, name, below):
        head, items, self.known = [], [], []
        for one in ("N", "W"):
            if self.chance(0.85):
                head.append(self.parameter(one))
                self.known.append(one)
        if self.chance(0.6):
            directions = {"a": "input", "b": self.pick(["input", "output"]), "y": "output"}
            names = [one for one in "aby" if self.chance(0.8)] or ["a"]
            ports = [PortItem(directions[one], Kind(self.pick(["", "wire"]), self.chance(0.2), self.range()), [one]) for one in names]
        else:
            ports = ["a", "y"] + self.pick([[], [], ["b"], ["a"]])
            items.append(PortItem("input", Kind("", False, self.range()), ["a"]))
            items.append(PortItem("output", Kind("reg" if self.chance(0.3) else ""), ["y"]))
        if self.chance(0.8):
            items.append(GenvarItem(["g", "h"]))
        if not head and self.chance(0.5):
            items.append(self.parameter("N"))
        items += [self.inner(below, 2) for _ in range(self.rng.randint(1, 4))]
        if below and self.chance(0.8):
            items.append(self.instances(below))
        if self.chance(0.25):
            region = [self.inner(below, 2) for _ in range(self.rng.randint(0, 2))]
            items.append(RegionItem(region))
        return Module(name, head, ports, items)

    def design(self):
        modules = []
        for k in range(self.rng.randint(1, 3)):
            modules.append(self.module(f"m{k}", list(modules)))
        if self.chance(0.08):
            modules.append(self.module("m0", []))
        top = modules[-1].name
        self.rng.shuffle(modules)
        return modules, top
