#!/usr/bin/env python3
"""Makes the table `clocks` of crates/flat_cases: designs, their clocks, and what is refused in their items for the use of the clock.

    tests/clocks.py [FOLDER]      the table `clocks` of crates/flat_cases

The designs of clock_hand.py are worked out by hand. The others are drawn by a seeded generator as lists of modules, with few names, so
that names meet. What each gives is worked out from these lists: from an input of an instance one goes outward, connection by
connection, to where its value comes from.
"""

import random
import sys

sys.dont_write_bytecode = True

from lib.clock_hand import HAND
from lib import tables

CASES = 150


class Text:
    """The lines of a source; tells where each name is written."""

    def __init__(self):
        self.lines = [""]

    def put(self, text):
        self.lines[-1] += text

    def place(self):
        return (len(self.lines), len(self.lines[-1]) + 1)

    def end(self):
        self.lines.append("")


class Name:
    """A name where it is used, with its place."""

    def __init__(self, name):
        self.name, self.place = name, None

    def write(self, text):
        self.place = text.place()
        text.put(self.name)


class Tree:
    """Texts and trees in turn; which of the names in it are read, written or clock it."""

    def __init__(self, *parts, hides=None):
        self.parts, self.hides = parts, hides

    def write(self, text):
        for part in self.parts:
            if isinstance(part, str):
                text.put(part)
            else:
                part.write(text)

    def reads(self):
        found = []
        for part in self.parts:
            if isinstance(part, Name):
                found.append(part)
            elif isinstance(part, Tree):
                found += part.reads()
        if self.hides:
            found = [n for n in found if n.name != self.hides]
        return found


class Silent(Tree):
    """A name that is written, or stands in a list of events: it is not read."""

    def reads(self):
        return []


def number(draw):
    return Tree(draw.choice(["0", "1", "2'b10"]))


def expression(draw, names, depth):
    kind = draw.randrange(9) if depth else draw.randrange(2)
    inner = lambda: expression(draw, names, depth - 1)
    if kind == 0:
        return number(draw)
    if kind == 1:
        return Tree(Name(draw.choice(names)))
    if kind == 2:
        return Tree("(", inner(), ")")
    if kind == 3:
        return Tree(draw.choice("~!&-"), "(", inner(), ")")
    if kind == 4:
        return Tree("(", inner(), draw.choice([" + ", " & ", " == ", " << "]), inner(), ")")
    if kind == 5:
        return Tree("(", inner(), " ? ", inner(), " : ", inner(), ")")
    if kind == 6:
        return Tree("{", inner(), ", ", inner(), "}")
    if kind == 7:
        return Tree("{2{", inner(), "}}")
    return Tree(Name(draw.choice(names)), "[", inner(), "]")


def left_side(draw, names, depth=1):
    kind = draw.randrange(4)
    name = Silent(Name(draw.choice(names)))
    if kind == 0 and depth:
        return Tree("{", left_side(draw, names, 0), ", ", left_side(draw, names, 0), "}")
    if kind == 1:
        return Tree(name, "[", expression(draw, names, 1), "]")
    if kind == 2:
        return Tree(name, "[", expression(draw, names, 0), ":", expression(draw, names, 0), "]")
    return name


def statement(draw, names, depth):
    kind = draw.randrange(6) if depth else 5
    inner = lambda: statement(draw, names, depth - 1)
    value = lambda: expression(draw, names, 1)
    if kind == 0:
        return Tree("begin ", inner(), " ", inner(), " end")
    if kind == 1:
        return Tree("if (", value(), ") ", inner())
    if kind == 2:
        return Tree("if (", value(), ") ", inner(), " else ", inner())
    if kind == 3:
        return Tree("case (", value(), ") ", value(), ": ", inner(), " default: ", inner(), " endcase")
    if kind == 4:
        variable = draw.choice(names)
        turns = Tree(expression(draw, names, 1), "; ", Silent(Name(variable)), " = ", expression(draw, names, 1), ") ", inner(), hides=variable)
        return Tree("for (", Silent(Name(variable)), " = ", value(), "; ", turns)
    return Tree(left_side(draw, names), draw.choice([" = ", " <= "]), value(), ";")


class Wire:
    def __init__(self, name, width, value=None):
        self.name, self.width, self.value = name, width, value

    def write(self, text):
        text.put("  wire " + ("[1:0] " if self.width == 2 else "") + self.name)
        if self.value:
            text.put(" = ")
            self.value.write(text)
        text.put(";")
        text.end()

    def flatten(self, design, scope):
        if self.value:
            design.use(scope, self.value.reads())


class Assign:
    def __init__(self, left, value):
        self.left, self.value = left, value

    def write(self, text):
        Tree("  assign ", self.left, " = ", self.value, ";").write(text)
        text.end()

    def flatten(self, design, scope):
        design.use(scope, self.left.reads() + self.value.reads())


class Always:
    """A process, with the name that clocks it, or with none."""

    def __init__(self, clock, body):
        self.clock, self.body = clock, body

    def write(self, text):
        text.put("  always @")
        if self.clock:
            Tree("(posedge ", self.clock, ")").write(text)
        else:
            text.put("*")
        text.put(" ")
        self.body.write(text)
        text.end()

    def flatten(self, design, scope):
        design.use(scope, self.body.reads(), self.clock)


class Instance:
    """An instance, with what its ports are connected to by name."""

    def __init__(self, module, name, wires):
        self.module, self.name, self.wires = module, name, wires

    def write(self, text):
        text.put(f"  {self.module.name} {self.name}(")
        for k, (port, value) in enumerate(self.wires):
            text.put((", " if k else "") + f".{port.name}(")
            value.write(text)
            text.put(")")
        text.put(");")
        text.end()

    def flatten(self, design, scope):
        for port, value in self.wires:
            if port.is_input and design.passed(scope, port, value):
                design.use(scope, [])
            else:
                design.use(scope, value.reads())
        self.module.flatten(design, Scope(self.module, self, scope))


class Port:
    def __init__(self, name, width, is_input):
        self.name, self.width, self.is_input = name, width, is_input


class Module:
    """A module; some names may be parameters, which are no signals."""

    def __init__(self, name, ports, parameters, items):
        self.name, self.ports, self.parameters, self.items = name, ports, parameters, items

    def width(self, name):
        for port in self.ports:
            if port.name == name:
                return port.width
        for item in self.items:
            if isinstance(item, Wire) and item.name == name:
                return item.width
        return None

    def input(self, name):
        return next((p for p in self.ports if p.is_input and p.name == name), None)

    def write(self, text):
        ports = [("input " if p.is_input else "output ") + ("[1:0] " if p.width == 2 else "") + p.name for p in self.ports]
        text.put(f"module {self.name}({', '.join(ports)});")
        text.end()
        for name in self.parameters:
            text.put(f"  localparam {name} = 1;")
            text.end()
        for item in self.items:
            item.write(text)
        text.put("endmodule")
        text.end()

    def flatten(self, design, scope):
        for item in self.items:
            item.flatten(design, scope)


class Scope:
    def __init__(self, module, instance, around):
        self.module, self.instance, self.around = module, instance, around


class Design:
    """What is used in the items of a design, in order: where, the names that are read, and the name that clocks it."""

    def __init__(self, top):
        self.items = []
        self.top = top
        top.flatten(self, Scope(top, None, None))

    def use(self, scope, reads, clock=None):
        self.items.append((scope, reads, clock))

    def passed(self, scope, port, value):
        """The name that is passed on to a port of an instance."""
        if port.width != 1 or len(value.parts) != 1 or not isinstance(value.parts[0], Name):
            return None
        name = value.parts[0].name
        return name if scope.module.width(name) == 1 else None

    def source(self, scope, name):
        """Where a name has its value from: outward, as long as it is an input that gets another name alone."""
        if scope.module.width(name) is None:
            return None
        port = scope.module.input(name)
        if scope.around is not None and port is not None:
            for other, value in scope.instance.wires:
                if other is port:
                    outer = self.passed(scope.around, port, value)
                    if outer is not None:
                        return self.source(scope.around, outer)
        return (scope, name)

    def clock(self):
        for scope, _, clock in self.items:
            if clock:
                found = self.source(scope, clock.name)
                if found is None:
                    return None
                where, name = found
                is_input = where.module.input(name) is not None and where.module.width(name) == 1
                return found if where.around is None and is_input else None
        return None

    def told(self):
        clock = self.clock()
        lines = [f"clock {clock[1] if clock else 'none'}"]
        for scope, reads, name in self.items:
            found = []
            is_clock = lambda n: clock is not None and self.source(scope, n.name) == clock
            if name and not is_clock(name):
                found.append((name.place, "GatedClock"))
            found += [(n.place, "ClockAsData") for n in reads if is_clock(n)]
            if found:
                (line, column), what = min(found)
                lines.append(f"{what} {line}:{column}")
        return lines


def drawn_module(draw, number, below):
    names = ["c", "d", "e", "k", "w"]
    ports = [Port("c", 1, True)]
    ports.append(Port("d", draw.choice([1, 1, 2]), True))
    ports.append(Port("e", 1, draw.random() < 0.7))
    parameters = [n for n in ["k"] if draw.random() < 0.5]
    items = []
    module = Module(f"m{number}", ports, parameters, items)
    for name in ["k", "w"]:
        if name not in parameters:
            width = draw.choice([1, 1, 2])
            value = expression(draw, ["d", "e", "w"], 1) if draw.random() < 0.3 else None
            items.append(Wire(name, width, value))
    quiet = ["d", "e", "w", "w", "k", "k"] + (["c"] if draw.random() < 0.6 else [])
    for _ in range(draw.randrange(2, 5)):
        kind = draw.randrange(4)
        if kind == 0:
            items.append(Assign(left_side(draw, quiet), expression(draw, quiet, 2)))
        elif kind == 1:
            clock = Name("c" if draw.random() < 0.8 else draw.choice(names)) if draw.random() < 0.8 else None
            items.append(Always(clock, statement(draw, quiet, 2)))
        elif below:
            inner = draw.choice(below)
            wires = []
            for port in inner.ports:
                plain = Tree(Name("c" if port.name == "c" and draw.random() < 0.8 else draw.choice(quiet)))
                value = plain if draw.random() < 0.8 else expression(draw, quiet, 2)
                if not port.is_input:
                    value = left_side(draw, quiet)
                if draw.random() < 0.9:
                    wires.append((port, value))
            draw.shuffle(wires)
            items.append(Instance(inner, f"u{len(items)}", wires))
    return module


def drawn(seed):
    draw = random.Random(seed)
    modules = []
    for k in range(draw.randrange(1, 4)):
        modules.append(drawn_module(draw, k, modules))
    text = Text()
    for module in modules:
        module.write(text)
    top = modules[-1]
    return text.lines[:-1] + [f"clock {top.name}"], Design(top).told()


def hand():
    """The lines of the designs that are worked out by hand, and what is printed."""
    lines, wanted = [], []
    for line in HAND.strip().splitlines():
        if line.startswith("> "):
            wanted.append(line[2:])
        else:
            lines.append(line)
            if line.startswith("#"):
                wanted.append(line)
    return lines, wanted


def deep():
    """A chain of instances through which the clock is passed on, and a row of them."""
    depth = 100
    lines = ["module m0(input c, output y); reg q; always @(posedge c) q <= ~q; assign y = q; endmodule"]
    for k in range(1, depth):
        lines.append(f"module m{k}(input c, output y); m{k - 1} u(.c(c), .y(y)); endmodule")
    lines.append(f"clock m{depth - 1}")
    row = 1000
    lines += ["module leaf(input c, output y); assign y = c; endmodule", "module top(input c); reg q; always @(posedge c) q <= ~q;"]
    lines += [f"wire y{k}; leaf u{k}(c, y{k});" for k in range(row)] + ["endmodule", "clock top"]
    return lines, ["clock c", "clock c"] + ["ClockAsData 1:44"] * row


def main():
    lines, wanted = hand()
    more, told = deep()
    lines += more
    wanted += told
    for seed in range(CASES):
        source, told = drawn(seed)
        lines += [f"# drawn {seed}"] + source
        wanted += [f"# drawn {seed}"] + told
    tables.save("flat_cases", lines, wanted, "clocks")


main()
