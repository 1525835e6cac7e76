#!/usr/bin/env python3
"""The table 'assigns' of crates/elab_cases: assignments over declared signals, and what is built of them.

    tests/assigns.py [FOLDER]      the table 'assigns' of crates/elab_cases

The rows at the head are worked out by hand. The others are drawn by a seeded generator from few names, so that writers meet and
faults stand beside one another. What each gives is worked out here from the parts of which it is put together, by the rules of
IEEE 1364-2005, 4.2, 5.2, 5.4 and 6.1, and not from its text.
"""

import random

from lib import tables

CASES = 60
RANKS = ["Unknown", "NotConstant", "DivideByZero", "TooWide", "RangeForm"]

HAND = """\
# a whole name, and a name that is cut
wire a 4 0
wire b 2 0
wire y 4 0
wire z 2 0
assign y = a;
> 0 cells
show y
> y: 0 1 2 3
assign z = a;
> 0 cells
show z
> z: 0 1
# a second writer, at its name
assign {z, y} = 0;
> TwoWriters 9 signal 3
assign y[3] = b;
> TwoWriters 8 signal 2
end
# bits outside the range are dropped, and a value that is too short is filled with 0
wire a 4 0
wire y 4 4
assign y[6 +: 4] = {a[0], a[1]};
> 0 cells
show y
> y: free free 1 0
assign y[5:4] = 4'd9;
> 0 cells
show y
> y: high low 1 0
assign y[8] = a;
> 0 cells
end
# the last part has the lowest bits, and the carry is kept
wire a 4 0
wire c 1 0
wire y 4 0
assign {c, y} = a + a;
> 1 cells
show y
> y: 9 10 11 12
show c
> c: 13
end
# what cannot be written
input a 4 0
wire i 2 0
constant P 2
wire y 4 0
wire w 100 0
wire x 100 0
assign a = y;
> TwoWriters 8 signal 0
assign P = y;
> Unknown 8
assign P[0] = y;
> Unknown 8
assign y[i] = a;
> NotConstant 10
assign y[i +: 2] = a;
> NotConstant 10
assign y[1/0] = a;
> DivideByZero 11
assign y[1:2] = a;
> RangeForm 9
assign y[3:i] = a;
> NotConstant 12
assign y[0 +: 0] = a;
> TooWide 9
assign {w, x} = a;
> TooWide 8
assign q = a;
> Unknown 8
assign {y, y[P]} = w;
> TwoWriters 12 signal 2
assign {y[P], y[3], y[1:0]} = a;
> 0 cells
show y
> y: 0 1 3 2
# the earliest place counts
assign {a, y[i]} = q;
> TwoWriters 9 signal 0
assign {i[q], a} = q;
> Unknown 11
assign {w, x, P} = q;
> TooWide 8
assign i = q + 1/0;
> Unknown 12
assign i = 1/0;
> DivideByZero 13
end
# the same net twice in one left side
wire a 4 0
wire y 8 0
assign {y[7:4], y[4 +: 1]} = a;
> TwoWriters 17 signal 1
assign {y[7:4], y[8], y[3:0]} = a;
> 0 cells
show y
> y: 0 1 2 3 low low low low
end
"""


class Source:
    """A statement as it is written, which knows its next column."""

    def __init__(self):
        self.text = ""

    def put(self, part):
        """Writes a part, and gives its column."""
        column = len(self.text) + 1
        self.text += part
        return column


class Bench:
    """Declared names, and what each net is joined to."""

    def __init__(self):
        self.names, self.signals, self.inputs, self.nets, self.joined = {}, [], set(), 0, {}

    def wire(self, name, width, low, is_input):
        self.names[name] = ("signal", len(self.signals))
        if is_input:
            self.inputs.add(len(self.signals))
        self.signals.append((self.nets, width, low))
        self.nets += width

    def shape(self, name):
        """Width and lowest number of a name."""
        what = self.names.get(name)
        if what is None:
            return 1, 0
        return self.signals[what[1]][1:] if what[0] == "signal" else (32, 0)

    def bits(self, name):
        """The bits of a name, from the lowest on."""
        what = self.names.get(name, ("constant", 0))
        if what[0] == "signal":
            first, width, _ = self.signals[what[1]]
            return [str(first + k) for k in range(width)]
        return ["high" if what[1] >> k & 1 else "low" for k in range(32)]


def put_constant(rng, source, bench, is_read):
    """Writes an index or bound: its value, and why it is no constant. An index that is read is a number or unknown."""
    kind = rng.choices(["number", "constant", "signal", "unknown", "division"], [14, 3, 0, 1, 0] if is_read else [14, 3, 1, 1, 1])[0]
    if kind == "number":
        value = rng.choice([0, 0, 1, 1, 2, 3, 3, 4, 6, 9])
        source.put(str(value))
        return value, []
    if kind == "constant":
        source.put("P")
        return bench.names["P"][1], []
    if kind == "division":
        source.put("1")
        column = source.put("/")
        source.put("0")
        return 0, [(column, "DivideByZero")]
    name = "b" if kind == "signal" else "q"
    column = source.put(name)
    return 0, [(column, "NotConstant" if kind == "signal" else "Unknown")]


def put_part(rng, source, bench, names, is_read):
    """Writes a name with its select: its width, the numbers of its bits, and what is wrong with its form and its index."""
    name = rng.choice(names)
    column = source.put(name)
    form = [] if name in bench.names else [(column, "Unknown")]
    width, low = bench.shape(name)
    kind = rng.choice(["whole", "whole", "bit", "range", "indexed"])
    if kind == "whole":
        return {"name": name, "column": column, "size": width, "from": low, "form": form, "index": []}
    at = source.put("[")
    index = []
    first, faults = put_constant(rng, source, bench, is_read and kind != "range")
    size, start = 1, first
    if kind == "bit":
        index = faults
    elif kind == "range":
        source.put(":")
        start, more = put_constant(rng, source, bench, False)
        size = first - start + 1
        if faults + more:
            form = form + faults + more
        elif size < 1:
            form = form + [(at, "RangeForm")]
    else:
        index = faults
        source.put(" +: ")
        size, more = put_constant(rng, source, bench, False)
        if more:
            form = form + more
        elif size < 1:
            form = form + [(at, "TooWide")]
    source.put("]")
    # An index is looked at twice: in the form, where only an unknown name is wrong, and as a constant.
    form = form + [fault for fault in index if fault[1] == "Unknown"]
    return {"name": name, "column": column, "size": size, "from": start, "form": form, "index": index}


def put_left(rng, source, bench):
    """Writes a left side: its parts, its width and what is wrong in its form."""
    if rng.random() < 0.5:
        part = put_part(rng, source, bench, LEFT, False)
        return [part], part["size"], part["form"]
    at = source.put("{")
    parts, size, form = [], 0, []
    for k in range(rng.randint(1, 3)):
        source.put(", " if k else "")
        more, width, faults = put_left(rng, source, bench) if rng.random() < 0.15 else one(put_part(rng, source, bench, LEFT, False))
        parts, size, form = parts + more, size + width, form + faults
    source.put("}")
    if not form and size > 128:
        form = [(at, "TooWide")]
    return parts, size, form


def one(part):
    return [part], part["size"], part["form"]


def put_operand(rng, source, bench, names):
    """Writes an operand: its width, its bits, and what is wrong in it."""
    part = put_part(rng, source, bench, names, True)
    width, low = bench.shape(part["name"])
    bits = bench.bits(part["name"])
    faults = part["form"]
    if faults:
        return 1, [], faults
    places = [part["from"] + k - low for k in range(part["size"])]
    return part["size"], [bits[p] if 0 <= p < width else "low" for p in places], faults


def put_right(rng, source, bench):
    """Writes a right side: the widths and bits of its operands, its operator, and what is wrong in it."""
    kind = rng.choices(["name", "number", "+", "&", "~", "{", "division"], [6, 2, 3, 3, 2, 3, 1])[0]
    if kind == "number":
        value = rng.choice([0, 1, 5, 10])
        source.put(f"6'd{value}")
        return kind, 6, ["high" if value >> k & 1 else "low" for k in range(6)], []
    if kind == "division":
        source.put("7")
        column = source.put(" / ") + 1
        source.put("0")
        return kind, 32, ["low"] * 32, [(column, "DivideByZero")]
    if kind == "~":
        source.put("~")
        width, bits, faults = put_operand(rng, source, bench, SIGNALS)
        return kind, width, bits, faults
    if kind == "{":
        source.put("{")
        width, bits, faults = put_operand(rng, source, bench, RIGHT)
        source.put(", ")
        more = put_operand(rng, source, bench, RIGHT)
        source.put("}")
        return "name", width + more[0], more[1] + bits, faults + more[2]
    width, bits, faults = put_operand(rng, source, bench, RIGHT if kind == "name" else SIGNALS)
    if kind != "name":
        source.put(f" {kind} ")
        more = put_operand(rng, source, bench, SIGNALS)
        width, faults = max(width, more[0]), faults + more[2]
    return kind, width, bits, faults


LEFT = ["y", "y", "z", "z", "w", "x", "a", "P", "q"]
SIGNALS = ["a", "a", "a", "b", "b", "b", "y", "z", "q"]
RIGHT = SIGNALS + ["P"]


def first_wrong(parts, left_form, right_faults, is_division):
    faults = list(left_form)
    for part in parts:
        if part["name"] == "P":
            faults.append((part["column"], "Unknown"))
        faults += part["index"]
    if not is_division or not faults:
        faults += right_faults
    return min(faults, key=lambda fault: (fault[0], RANKS.index(fault[1]))) if faults else None


def places_of(bench, part):
    """The nets that a part writes, from the lowest on."""
    number = bench.names[part["name"]][1]
    first, width, low = bench.signals[number]
    places = [part["from"] + k - low for k in range(part["size"])]
    return number, [first + p if 0 <= p < width else None for p in places]


def second_writer(bench, parts):
    seen = set()
    for part in parts:
        if part["form"] or part["index"] or part["name"] not in bench.names or part["name"] == "P":
            continue
        number, nets = places_of(bench, part)
        for net in nets:
            if net is None:
                continue
            if number in bench.inputs or net in bench.joined or net in seen:
                return part["column"], number
            seen.add(net)
    return None


def answer(bench, parts, size, left_form, kind, width, bits, right_faults):
    """What is printed of the assignment, which is built where nothing is wrong."""
    wrong = first_wrong(parts, left_form, right_faults, kind == "division")
    second = second_writer(bench, parts)
    if second and (wrong is None or second[0] < wrong[0]):
        return f"TwoWriters {second[0]} signal {second[1]}"
    if wrong:
        return f"{wrong[1]} {wrong[0]}"
    total = max(width, size)
    cells = 0
    if kind in ["+", "&", "~"]:
        cells = 1
        bits = [str(bench.nets + k) for k in range(total)]
        bench.nets += total
    bits = (bits + ["low"] * total)[:total]
    nets = [net for part in reversed(parts) for net in places_of(bench, part)[1]]
    for net, bit in zip(nets, bits):
        if net is not None:
            bench.joined[net] = bit
    return f"{cells} cells"


def put_bench(rng, lines):
    bench = Bench()
    for name, is_input in [("a", True), ("b", False), ("y", False), ("z", False), ("w", False), ("x", False)]:
        width = rng.choice([100, 70]) if name in "wx" else rng.randint(1, 8)
        low = rng.choice([0, 0, 0, 1, 3])
        bench.wire(name, width, low, is_input)
        lines.append(("input" if is_input else "wire") + f" {name} {width} {low}")
    bench.names["P"] = ("constant", rng.randint(0, 4))
    lines.append(f"constant P {bench.names['P'][1]}")
    return bench


def put_case(rng, lines, wanted):
    bench = put_bench(rng, lines)
    for _ in range(4):
        source = Source()
        source.put("assign ")
        parts, size, left_form = put_left(rng, source, bench)
        source.put(" = ")
        kind, width, bits, faults = put_right(rng, source, bench)
        source.put(";")
        lines.append(source.text)
        wanted.append(answer(bench, parts, size, left_form, kind, width, bits, faults))
    for name in ["y", "z"]:
        lines.append(f"show {name}")
        first, width, _ = bench.signals[bench.names[name][1]]
        wanted.append(f"{name}: " + " ".join(bench.joined.get(first + k, "free") for k in range(width)))
    lines.append("end")


def main():
    lines, wanted = [], []
    for line in HAND.splitlines():
        if line.startswith("> "):
            wanted.append(line[2:])
        else:
            lines.append(line)
            if line.startswith("#"):
                wanted.append(line)
    rng = random.Random(6)
    for _ in range(CASES):
        put_case(rng, lines, wanted)
    tables.save("elab_cases", lines, wanted, "assigns")


if __name__ == "__main__":
    main()
