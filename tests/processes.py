#!/usr/bin/env python3
"""Makes the table 'processes' of crates/elab_cases: processes over declared signals, and the first refusal of each.

    tests/processes.py [FOLDER]      the table 'processes' of crates/elab_cases

The rows at the head are worked out by hand. The others are drawn by a seeded generator from few names, so that latches, second
writers and second kinds of assignments meet. What is refused is worked out here from the parts of which a process is put together,
by the rules of IEEE 1364-2005, 9.2 to 9.9: a latch by going along each path through the statements, one after the other. The last
rows are `initial` processes.
"""

import random

from lib import tables

CASES = 75
STARTS = 15
MOST_PATHS = 400
MOST_TURNS = 4096
KINDS = ["Unknown", "NotConstant", "DivideByZero", "TooWide", "RangeForm", "IndexedBase", "feature", "TwoWriters", "Latch", "LoopTurns"]

HAND = """\
# a latch, at the process, and none where a value stands before
reg a 1 0
reg b 1 0
reg y 1 0
always @* if (a) y = b;
> Latch 1 signal 2
always @* begin y = 0; if (a) y = b; end
> accepted
always @(posedge a) if (b) y <= b;
> accepted
end
# of several latches the one that is named first
reg a 1 0
reg y 2 0
reg z 2 0
always @* begin if (a) begin z = 1; y = 1; end else y = 0; end
> Latch 1 signal 2
always @* begin if (a) y = 1; if (a) z = 1; end
> Latch 1 signal 1
always @* begin if (a) begin end else z = 1; if (a) y = 1; end
> Latch 1 signal 2
end
# one bit is missing, or is read before
reg a 3 0
reg i 2 0
reg y 4 0
reg z 4 0
always @* begin y[3:1] = a; end
> Latch 1 signal 2
always @* begin y[3:1] = a; y[0] = a[0]; end
> accepted
always @* begin {y[3], y[0]} = 0; y[1 +: 2] = a; end
> accepted
always @* begin y[i] = 1; end
> Latch 1 signal 2
always @* begin y = 0; y[i] = 1; end
> accepted
always @* begin y = y + 1; end
> Latch 1 signal 2
always @* begin z = y; y = 0; end
> Latch 1 signal 2
always @* begin y = 0; z = y; y = z; end
> accepted
always @* begin y[0] = a[0]; y[1] = y[0]; y[3:2] = y[1:0]; end
> accepted
always @* begin y[0] = a[0]; y[1] = y[2]; y[3:2] = 0; end
> Latch 1 signal 2
always @* begin {z[1:0], y[z[0]]} = 0; z[3:2] = 0; y = 0; end
> Latch 1 signal 3
end
# each value of a case is named, or one is not
reg a 2 0
reg b 1 0
reg y 1 0
always @* case (a) 2'd0: y = 0; 2'd1: y = 1; 2'd2: y = b; 2'd3: y = 0; endcase
> accepted
always @* case (a) 2'd0: y = 0; 2'd1: y = 1; 2'd3: y = 0; endcase
> Latch 1 signal 2
always @* case (a) 2'd0: y = 0; default: y = 1; 2'd1: begin end endcase
> Latch 1 signal 2
always @* casez (a) 2'b1?: y = 0; 2'b0?: y = 1; endcase
> Latch 1 signal 2
always @* casez (a) 2'b1?: y = 0; 2'b??: y = 1; 2'b00: y = q; endcase
> accepted
always @* case (a) y: y = 0; default: y = 1; endcase
> Latch 1 signal 2
end
# a selector that exceeds its own width at the greater size of its case, and one that cannot
reg a 2 0
reg b 1 0
reg y 1 0
always @* case (~a) 0: y = 0; 1: y = 1; 2: y = b; 3: y = 0; endcase
> Latch 1 signal 2
always @* case (~a) 2'd0: y = 0; 2'd1: y = 1; 2'd2: y = b; 2'd3: y = 0; endcase
> accepted
always @* case (a + 2'd1) 0: y = 0; 1: y = 1; 2: y = b; 3: y = 0; endcase
> Latch 1 signal 2
always @* case (a + 2'd1) 2'd0: y = 0; 2'd1: y = 1; 2'd2: y = b; 2'd3: y = 0; endcase
> accepted
always @* case (a + 2'd1) 3'd0: y = 0; 3'd1: y = 1; 3'd2: y = b; 3'd3: y = 0; 3'd4: y = 1; 3'd5: y = 0; 3'd6: y = 1; 3'd7: y = 0; endcase
> accepted
always @* case ((a)) 0: y = 0; 1: y = 1; 2: y = b; 3: y = 0; endcase
> accepted
always @* case (a & {b, b}) 0: y = 0; 1: y = 1; 2: y = b; 3: y = 0; endcase
> accepted
always @* case (a ^ {2{b}}) 0: y = 0; 1: y = 1; 2: y = b; 3: y = 0; endcase
> accepted
always @* case (a | 2'd1) 0: y = 0; 1: y = 1; 2: y = b; 3: y = 0; endcase
> accepted
always @* case (a ~^ 2'd1) 0: y = 0; 1: y = 1; 2: y = b; 3: y = 0; endcase
> Latch 1 signal 2
always @* case (a & 3) 0: y = 0; 1: y = 1; 2: y = b; 3: y = 0; endcase
> Latch 1 signal 2
always @* case (b ? a : 2'd1) 0: y = 0; 1: y = 1; 2: y = b; 3: y = 0; endcase
> accepted
always @* case (~b ? a : 2'd1) 0: y = 0; 1: y = 1; 2: y = b; 3: y = 0; endcase
> accepted
always @* case (b ? a : ~a) 0: y = 0; 1: y = 1; 2: y = b; 3: y = 0; endcase
> Latch 1 signal 2
always @* case (a[b]) 0: y = 0; 1: y = 1; endcase
> accepted
always @* case (a == 2'd1) 0: y = 0; 1: y = 1; endcase
> accepted
always @* case (a && b) 0: y = 0; 1: y = 1; endcase
> accepted
always @* case (&a) 0: y = 0; 1: y = 1; endcase
> accepted
always @* case (!a) 0: y = 0; 1: y = 1; endcase
> accepted
always @* case (~b) 0: y = 0; 1: y = 1; endcase
> Latch 1 signal 2
always @* case ($unsigned(a)) 0: y = 0; 1: y = 1; 2: y = b; 3: y = 0; endcase
> Latch 1 signal 2
always @* case ($signed(a)) 0: y = 0; 1: y = 1; 2: y = b; 3: y = 0; endcase
> Latch 1 signal 2
always @* case ($signed(a)) 2'd0: y = 0; 2'd1: y = 1; 2'd2: y = b; 2'd3: y = 0; endcase
> accepted
end
# what a refused expression reads is not known, and a refused select assigns its whole name
reg a 2 1
reg i 1 0
reg y 2 0
reg z 2 1
reg w 8 0
always @* begin y = a[y]; end
> IndexedBase 22
always @* begin z[i] = 1; end
> IndexedBase 18
always @* begin if (i) y = a[y]; end
> Latch 1 signal 2
always @* begin y = z + 2'd1 / 2'd0; z = a; end
> DivideByZero 30
always @* begin if (z + 2'd1 / 2'd0) y = 0; else y = 1; z = a; end
> DivideByZero 30
always @* begin y[z + 2'd1 / 2'd0] = 0; z = a; end
> DivideByZero 28
always @* begin y = z + 4'd8 / (4'd8 + 4'd8); z = a; end
> DivideByZero 30
always @* begin w = z + 4'd8 / (4'd8 + 4'd8); z = a; end
> Latch 1 signal 3
always @* begin q = z + 2'd1 / 2'd0; z = a; end
> Latch 1 signal 3
end
# a loop assigns each bit, or one bit less
reg a 4 0
reg y 4 0
reg i 32 0
always @* for (i = 0; i < 4; i = i + 1) if (a[i]) y[i] = 1; else y[i] = 0;
> accepted
always @* for (i = 0; i < 3; i = i + 1) if (a[i]) y[i] = 1; else y[i] = 0;
> Latch 1 signal 1
always @* begin for (i = 0; i < 4; i = i + 1) y[i] = a[i]; if (a) i = 0; end
> Latch 1 signal 2
always @* begin for (i = 0; i < 0; i = i + 1) y <= q; end
> accepted
end
# what is refused for another reason, with a latch
reg a 2 0
reg b 1 0
reg y 2 0
reg i 32 0
always @* begin if (b) y = 0; i = q; end
> Latch 1 signal 2
always @* begin if (b) y = 0; y = q; end
> Unknown 35
always @* begin if (b) y = 0; q = 0; #1 y = 0; end
> Latch 1 signal 2
always @* begin if (b) y = 0; for (i = b; i < 2; i = i + 1) y = 1; end
> NotConstant 40
always @* begin if (b) y = 0; for (i = 0; a < 2; i = i + 1) y = 1; end
> NotConstant 43
always @* begin if (b) y = 0; for (i = 0; i < 2; y = y + 1) y = 1; end
> NotConstant 50
always @* begin if (b) y = 0; for (i = 0; i < 2; i = i - 0) y = 1; end
> LoopTurns 31
always @* begin if (b) y = 0; case (a) q: y = 0; endcase end
> Unknown 40
always @* begin if (b) y = 0; case (q) 1: y = 0; endcase end
> Unknown 37
always @* begin if (b) y = 0; case (a) 1: y = q; r: y = 0; endcase end
> Unknown 47
always @* begin if (b) y = 0; case (a) 1: y = 0; r: y = q; endcase end
> Unknown 50
always @* begin casez (b) 1'b?: y = q; default: y = s; r: y = 0; endcase end
> Unknown 37
always @* begin casez (b) 1'b?: y = 0; 1: y <= 0; r: y = 0; endcase end
> MixedAssign 43
always @* begin casez (b) 1'b?: y = 0; 1'b1: y = q; endcase end
> accepted
always @(q) begin if (b) y = 0; end
> Latch 1 signal 2
always @(b or q) y = q;
> Unknown 15
end
# kinds of assignments
reg a 2 0
reg c 1 0
reg y 2 0
reg z 2 0
always @(posedge c) begin y <= a; y[0] = 1; end
> MixedAssign 35
always @(posedge c) begin y[0] = 1; z <= a; {z, y} <= a; end
> MixedAssign 45
always @(posedge c) begin y <= a; z = a; y <= z; end
> accepted
always @* begin y = a; y <= a; end
> MixedAssign 24
always @* y <= a;
> NonblockingInComb 13
always @(posedge c) begin if (a) y = 1; y <= q; end
> MixedAssign 41
always @(posedge c) begin y <= q; y = 1; end
> Unknown 32
end
# second writers
reg a 2 0
reg c 1 0
written w 2 0
reg y 2 0
always @(posedge c) begin y <= a; w <= a; w <= y; end
> TwoWriters 35 signal 2
always @(posedge c) begin if (a) begin end else w[0] <= a; end
> TwoWriters 49 signal 2
always @* begin if (a) w = 0; end
> Latch 1 signal 2
always @* begin y = 0; w = q; end
> TwoWriters 24 signal 2
end
# lists of events
reg c 1 0
reg r 1 0
reg y 2 0
always @(posedge c or negedge r) if (r) y <= 0;
> accepted
always @(posedge c or negedge r) y <= 0;
> ClockList 8
always @(negedge c) y <= q;
> FallingClock 8
always @(c or posedge r) y <= 0;
> ClockList 8
always y = 0;
> ClockList 1
always #1 c = ~c;
> Delay 8
always #1 y = ~c;
> ClockList 1
always @(posedge q) y <= 0;
> Unknown 18
always @(c) begin y = 0; @(r) y = 1; end
> Delay 26
always @(c) begin y = 0; $display("x"); end
> SystemTask 26
always @(posedge c) for (r = 0; r < 1; r = r + 1) for (r = 0; r < 1; r = r + 1) y <= 0;
> Unknown 56
end
# start values: constants that are assigned to whole signals, in blocks
reg a 4 0
reg b 8 2
written w 2 0
constant P 5
initial a = 3;
> accepted
initial begin a = P + 1; begin : named b = -1; w = 0; end a = 2'b1x; end
> accepted
initial begin end
> accepted
initial b = 4'd8 / (4'd8 + 4'd8);
> accepted
initial a = 4'd8 / (4'd8 + 4'd8);
> DivideByZero 18
initial a = P[0:1];
> RangeForm 14
initial a = {P, P, P, P, P};
> TooWide 13
initial a = q;
> Unknown 13
initial q = 0;
> Unknown 9
initial q = b;
> Unknown 9
initial P = 0;
> Unknown 9
initial a = b;
> InitialForm 9
initial a = $random;
> InitialForm 9
initial a = q + b;
> InitialForm 9
initial begin a = q; b = a; end
> Unknown 19
initial begin b = a; a = q; end
> InitialForm 15
initial begin a = 1; a[0] = 1; end
> InitialForm 22
initial {a, b} = 0;
> InitialForm 9
initial a <= 0;
> InitialForm 9
initial ;
> InitialForm 9
initial begin a = 0; if (P) b = q; end
> InitialForm 22
initial case (q) 5: a = 0; endcase
> InitialForm 9
initial for (a = 0; a < 3; a = a + 1) b = 0;
> InitialForm 9
initial begin a = 0; #1 b = 0; end
> Delay 22
initial @(a) b = 0;
> Delay 9
initial begin a = 0; forever #5 a = ~a; end
> Delay 22
initial begin a = 0; $display("x"); end
> SystemTask 22
end
"""


class Source:
    """A process as it is written, which knows its next column."""

    def __init__(self):
        self.text = ""

    def put(self, part):
        """Writes a part, and gives its column."""
        column = len(self.text) + 1
        self.text += part
        return column


class Bench:
    """Declared names: signals by number, width and lowest number, and constants by value."""

    def __init__(self):
        self.names, self.signals, self.written = {}, [], set()

    def declare(self, name, width, low, is_written):
        if is_written:
            self.written.add(len(self.signals))
        self.names[name] = ("signal", len(self.signals))
        self.signals.append((width, low))


class Names:
    """What names are in a place: those of the bench, but for the variables of loops."""

    def __init__(self, bench, turns=()):
        self.bench, self.turns = bench, dict(turns)

    def of(self, name):
        if name in self.turns:
            return ("constant", self.turns[name])
        return self.bench.names.get(name)

    def shape(self, name):
        what = self.of(name)
        if what is None:
            return 1, 0
        return self.bench.signals[what[1]] if what[0] == "signal" else (32, 0)

    def with_turn(self, name, value):
        return Names(self.bench, {**self.turns, name: value})


# Expressions, as they were written.


class Number:
    def __init__(self, value, width=32, is_signed=True, ignored=0):
        self.value, self.width, self.is_signed, self.ignored = value, width, is_signed, ignored

    def look(self, names):
        return Seen(self.width, self.value, [], set())


class Seen:
    """An expression in a place: its width, its value where it is a constant, its faults, and the bits that it reads."""

    def __init__(self, width, value, faults, reads, signals=()):
        self.width, self.value, self.faults, self.reads, self.signals = width, value, faults, reads, list(signals)


def bits_of(names, name, places):
    """The bits of a signal at these numbers, but for those outside its range."""
    what = names.of(name)
    if what is None or what[0] != "signal":
        return set()
    width, low = names.bench.signals[what[1]]
    return {(what[1], p - low) for p in places if 0 <= p - low < width}


class Name:
    def __init__(self, name, column):
        self.name, self.column = name, column

    def look(self, names):
        what = names.of(self.name)
        if what is None:
            return Seen(1, None, [(self.column, "Unknown")], set())
        if what[0] == "constant":
            return Seen(32, what[1], [], set())
        width, low = names.bench.signals[what[1]]
        return Seen(width, None, [], bits_of(names, self.name, range(low, low + width)), [self.column])


class Select:
    """A select of a name: `bit`, `range` or `indexed`, with one or two expressions."""

    def __init__(self, name, column, at, kind, first, second=None):
        self.name, self.column, self.at, self.kind, self.first, self.second = name, column, at, kind, first, second

    def look(self, names):
        faults = [] if names.of(self.name) else [(self.column, "Unknown")]
        width, low = names.shape(self.name)
        first = self.first.look(names)
        if self.kind == "range":
            second = self.second.look(names)
            bounds = constant_faults(first) + constant_faults(second)
            if not bounds and first.value < second.value:
                bounds = [(self.at, "RangeForm")]
            size = 1 if bounds else first.value - second.value + 1
            reads = bits_of(names, self.name, range(second.value, second.value + size)) if not bounds else set()
            return Seen(size, None, faults + bounds, reads, [self.column])
        faults = faults + first.faults
        size = 1
        if self.kind == "indexed":
            second = self.second.look(names)
            count = constant_faults(second)
            if not count and second.value < 1:
                count = [(self.at, "TooWide")]
            faults = faults + count
            size = 1 if count else second.value
        if first.signals and low != 0:
            faults = faults + [(self.at, "IndexedBase")]
        if first.value is None:
            reads = first.reads | bits_of(names, self.name, range(low, low + width))
        else:
            reads = bits_of(names, self.name, range(first.value, first.value + size))
        return Seen(size, None, faults, reads, [self.column] + first.signals)


class Pair:
    def __init__(self, operator, column, left, right):
        self.operator, self.column, self.left, self.right = operator, column, left, right

    def look(self, names):
        left, right = self.left.look(names), self.right.look(names)
        value = None
        if left.value is not None and right.value is not None:
            value = {"+": left.value + right.value, "-": left.value - right.value, "<": int(left.value < right.value), "&": left.value & right.value}[self.operator]
        width = 1 if self.operator == "<" else max(left.width, right.width)
        return Seen(width, value, left.faults + right.faults, left.reads | right.reads, left.signals + right.signals)


def shown_reads(seen):
    return set() if seen.faults else seen.reads


def constant_faults(seen):
    """Why an expression is no constant."""
    return seen.faults + [(column, "NotConstant") for column in seen.signals]


# Left sides: lists of parts, each a name or a select.


def part_bits(names, part):
    """What a part assigns for sure: all of its name where its select is refused."""
    width, low = names.shape(part.name)
    whole = bits_of(names, part.name, range(low, low + width))
    if isinstance(part, Name):
        return whole
    if part.look(names).faults:
        return whole
    first = part.first.look(names)
    if part.kind == "range":
        return bits_of(names, part.name, range(part.second.look(names).value, first.value + 1))
    if first.value is None:
        return set()
    size = 1 if part.kind == "bit" else part.second.look(names).value
    return bits_of(names, part.name, range(first.value, first.value + size))


def index_reads(names, part):
    """What the index of a part reads."""
    if isinstance(part, Name) or part.kind == "range" or part.look(names).faults:
        return set()
    first = part.first.look(names)
    return first.reads if first.value is None else set()


# What a process does, with nothing left of loops and cases that are refused.


class Walk:
    """What is refused in statements, what they assign, and whether a loop or a case is refused."""

    def __init__(self, bench, is_combinational):
        self.bench, self.is_combinational = bench, is_combinational
        self.refused, self.assigned, self.is_stopped = [], [], False

    def refuse(self, faults):
        self.refused += faults

    def stop(self, faults):
        self.refused += faults
        self.is_stopped = True


class Assign:
    def __init__(self, first, parts, operator, is_blocking, right):
        self.first, self.parts, self.operator, self.is_blocking, self.right = first, parts, operator, is_blocking, right

    def walk(self, walk, names):
        right = self.right.look(names)
        walk.refuse(right.faults)
        steps = [("read", shown_reads(right))]
        for part in self.parts:
            if not isinstance(part, Name) or names.of(part.name) is None:
                walk.refuse(part.look(names).faults)
            what = names.of(part.name)
            if what and what[0] == "constant":
                walk.refuse([(part.column, "Unknown")])
            if what and what[0] == "signal":
                walk.assigned.append((what[1], part.column, self.first, self.is_blocking))
                if what[1] in walk.bench.written:
                    walk.refuse([(part.column, f"TwoWriters {part.column} signal {what[1]}")])
            steps.append(("read", index_reads(names, part)))
        if walk.is_combinational and not self.is_blocking:
            walk.refuse([(self.operator, "NonblockingInComb")])
        steps += [("write", part_bits(names, part)) for part in self.parts]
        return steps


class Block:
    def __init__(self, body):
        self.body = body

    def walk(self, walk, names):
        return [step for stmt in self.body for step in stmt.walk(walk, names)]


class If:
    def __init__(self, condition, yes, no):
        self.condition, self.yes, self.no = condition, yes, no

    def walk(self, walk, names):
        seen = self.condition.look(names)
        walk.refuse(seen.faults)
        ways = [self.yes.walk(walk, names), self.no.walk(walk, names) if self.no else []]
        return [("read", shown_reads(seen)), ("choose", ways)]


class Case:
    def __init__(self, kind, selector, items):
        self.kind, self.selector, self.items = kind, selector, items

    def ignored(self, label):
        return label.ignored if isinstance(label, Number) and self.kind != "case" else 0

    def arms(self, names):
        """The items that have arms, and what is done where none of them matches."""
        labels = [label for item in self.items for label in item[0]]
        seen = [self.selector.look(names)] + [label.look(names) for label in labels]
        width = max(one.width for one in seen)
        items = [item for item in self.items if item[0]]
        defaults = [item[1] for item in self.items if not item[0]]
        last = defaults[0] if defaults else None
        if not defaults and seen[0].width <= 8:
            values = {label.look(names).value for label in labels if self.ignored(label) == 0}
            if set(range(2 ** seen[0].width)) <= values:
                items, last = items[:-1], items[-1][1]
        arms = []
        for item in items:
            if any(self.ignored(label) == 2**width - 1 for label in item[0]):
                return arms, item[1]
            arms.append(item)
        return arms, last

    def walk(self, walk, names):
        looked = [self.selector.look(names)] + [label.look(names) for item in self.items for label in item[0]]
        faults = [fault for one in looked for fault in one.faults]
        if faults:
            walk.stop(faults)
            for _, body in self.items:
                body.walk(walk, names)
            return []
        arms, last = self.arms(names)
        read, ways = [("read", looked[0].reads)], []
        for labels, body in arms:
            read = read + [("read", label.look(names).reads) for label in labels]
            ways.append(read[1:] + body.walk(walk, names))
        ways.append(read[1:] + (last.walk(walk, names) if last else []))
        return [read[0], ("choose", ways)]


class For:
    def __init__(self, place, name, column, start, condition, step_name, step_column, step, body):
        self.place, self.name, self.column, self.start, self.condition = place, name, column, start, condition
        self.step_name, self.step_column, self.step, self.body = step_name, step_column, step, body

    def walk(self, walk, names):
        what = names.of(self.name)
        if what is None or what[0] == "constant":
            walk.stop([(self.column, "Unknown")])
            return []
        start = self.start.look(names)
        if constant_faults(start):
            walk.stop([min(constant_faults(start))])
            return []
        width = self.width(names)
        value, steps = start.value % 2**width, []
        for _ in range(MOST_TURNS):
            here = names.with_turn(self.name, value)
            test = self.condition.look(here)
            if constant_faults(test):
                walk.stop([min(constant_faults(test))])
                return steps
            if test.value == 0:
                return steps
            steps = steps + self.body.walk(walk, here)
            if self.step_name != self.name:
                other = here.of(self.step_name)
                walk.stop([(self.step_column, "NotConstant" if other and other[0] == "signal" else "Unknown")])
                return steps
            step = self.step.look(here)
            if constant_faults(step):
                walk.stop([min(constant_faults(step))])
                return steps
            if step.value % 2**width == value:
                walk.stop([(self.place, "LoopTurns")])
                return steps
            value = step.value % 2**width
        return steps

    def width(self, names):
        return names.shape(self.name)[0]


class Halt:
    """A construct that is not supported."""

    def __init__(self, column, feature):
        self.column, self.feature = column, feature

    def walk(self, walk, names):
        walk.refuse([(self.column, self.feature)])
        return []


def paths(steps):
    """Each way through steps, as a list of what is read and written."""
    ways = [[]]
    for kind, what in steps:
        if kind == "choose":
            inner = [path for way in what for path in paths(way)]
            ways = [way + path for way in ways for path in inner]
        else:
            ways = [way + [(kind, what)] for way in ways]
    return ways


def count_paths(steps):
    count = 1
    for kind, what in steps:
        if kind == "choose":
            count *= sum(count_paths(way) for way in what)
    return count


def loose_bits(steps):
    """The bits that some path leaves unassigned, by what it assigns, or reads before it assigns them."""
    left, early = [], set()
    for path in paths(steps):
        done = set()
        for kind, bits in path:
            if kind == "read":
                early |= bits - done
            else:
                done |= bits
        left.append(done)
    return set.intersection(*left), early


def latch(walk, steps):
    """The number of the variable that would be a latch, and is named first."""
    covered, early = loose_bits(steps)
    found = []
    for number, place, _, _ in walk.assigned:
        width = walk.bench.signals[number][0]
        if any((number, k) not in covered or (number, k) in early for k in range(width)):
            found.append((place, number))
    return min(found)[1] if found else None


def second_kinds(assigned):
    """The first tokens of assignments before which one of the other kind assigns the same variable."""
    return [first for number, _, first, kind in assigned if any(n == number and k != kind and f < first for n, _, f, k in assigned)]


def told(column, what):
    return what if what.startswith("TwoWriters") else f"{what} {column}"


def rank(fault):
    what = fault[1].split()[0]
    return (fault[0], KINDS.index(what) if what in KINDS else KINDS.index("feature"))


def answer(bench, is_combinational, events, body):
    walk = Walk(bench, is_combinational)
    names = Names(bench)
    steps = body.walk(walk, names)
    if count_paths(steps) > MOST_PATHS:
        return None
    walk.refuse([(column, "Unknown") for name, column in events if bench.names.get(name) is None])
    walk.refuse([(first, "MixedAssign") for first in second_kinds(walk.assigned)])
    if is_combinational and not walk.is_stopped:
        number = latch(walk, steps)
        if number is not None:
            return f"Latch 1 signal {number}"
    if walk.refused:
        first = min(walk.refused, key=rank)
        same = {fault[1] for fault in walk.refused if rank(fault)[0] == rank(first)[0]}
        if len(same) > 1 and all(KINDS.index(what) < KINDS.index("feature") for what in same if what in KINDS):
            return None
        return told(*first)
    return "accepted"


# What is drawn.


class Drawn:
    """A process that is drawn and written."""

    def __init__(self, rng, bench):
        self.rng, self.bench, self.source, self.depth = rng, bench, Source(), 0

    def name(self, names):
        name = self.rng.choice(names)
        return Name(name, self.source.put(name))

    def number(self, values):
        value = self.rng.choice(values)
        self.source.put(str(value))
        return Number(value)

    def index(self, loops):
        """An index: mostly a number or the variable of a loop."""
        kind = self.rng.choices(["number", "loop", "signal", "unknown"], [5, 8 if loops else 0, 2, 0.2])[0]
        if kind == "number":
            return self.number([0, 0, 1, 1, 2, 3, 4])
        return self.name(loops if kind == "loop" else ["b"] if kind == "signal" else ["q"])

    def select(self, name, column, loops):
        at = self.source.put("[")
        kind = self.rng.choice(["bit", "bit", "range", "indexed"])
        if kind == "bit":
            node = Select(name, column, at, kind, self.index(loops))
        elif kind == "range":
            first = self.number([1, 2, 2, 3, 3, 0])
            self.source.put(":")
            node = Select(name, column, at, kind, first, self.number([0, 0, 0, 1, 1, 2]))
        else:
            first = self.index(loops)
            self.source.put(" +: ")
            node = Select(name, column, at, kind, first, self.number([1, 2, 2, 3]))
        self.source.put("]")
        return node

    def operand(self, loops):
        name = self.rng.choices(["a", "b", "y", "z", "P", "q"] + loops, [8, 6, 3, 3, 1, 0.2] + [2] * len(loops))[0]
        column = self.source.put(name)
        if name in "abyz" and self.rng.random() < 0.4:
            return self.select(name, column, loops)
        return Name(name, column)

    def expression(self, loops):
        kind = self.rng.choices(["number", "operand", "pair"], [2, 4, 2])[0]
        if kind == "number":
            return self.number([0, 1, 2, 5])
        left = self.operand(loops)
        if kind == "operand":
            return left
        operator = self.rng.choice(["+", "&", "<"])
        self.source.put(" ")
        column = self.source.put(operator)
        self.source.put(" ")
        return Pair(operator, column, left, self.operand(loops))

    def part(self, loops):
        name = self.rng.choices(["y", "z", "w", "P", "q"] + loops, [10, 10, 0.4, 0.2, 0.3] + [0.2] * len(loops))[0]
        column = self.source.put(name)
        if name in "yz" and self.rng.random() < 0.45:
            return self.select(name, column, loops)
        return Name(name, column)

    def assignment(self, loops, kind):
        first = len(self.source.text) + 1
        if self.rng.random() < 0.15:
            self.source.put("{")
            parts = [self.part(loops)]
            for _ in range(self.rng.randint(0, 2)):
                self.source.put(", ")
                parts.append(self.part(loops))
            self.source.put("}")
        else:
            parts = [self.part(loops)]
        is_blocking = kind == "=" if self.rng.random() < 0.97 else kind != "="
        self.source.put(" ")
        operator = self.source.put("=" if is_blocking else "<=")
        self.source.put(" ")
        right = self.expression(loops)
        self.source.put(";")
        return Assign(first, parts, operator, is_blocking, right)

    def condition(self, loops):
        self.source.put("if (")
        condition = self.expression(loops)
        self.source.put(") ")
        return condition

    def case(self, loops, kind):
        word = self.rng.choice(["case", "case", "casez"])
        self.source.put(f"{word} (")
        selector = self.name(["b", "b", "b", "b", "b", "y", "q"] if self.rng.random() < 0.2 else ["b"])
        self.source.put(") ")
        labels = ["2'b00", "2'b01", "2'b10", "2'b11"]
        if word == "casez":
            labels += ["2'b1?", "2'b?0", "2'b??"]
        self.rng.shuffle(labels)
        items, count = [], self.rng.randint(1, len(labels))
        default = self.rng.randint(0, count) if self.rng.random() < 0.4 else None
        for k in range(count):
            if k == default:
                self.source.put("default: ")
                items.append(([], self.statement(loops, kind)))
                self.source.put(" ")
            chosen = [labels[k]]
            if self.rng.random() < 0.05:
                name = self.rng.choice(["a", "z", "q"])
                node = [Name(name, self.source.put(name))]
            else:
                self.source.put(chosen[0])
                digits = chosen[0][3:]
                node = [Number(int(digits.replace("?", "0"), 2), 2, False, int("".join("1" if d == "?" else "0" for d in digits), 2))]
            self.source.put(": ")
            items.append((node, self.statement(loops, kind)))
            self.source.put(" ")
        self.source.put("endcase")
        return Case(word, selector, items)

    def loop(self, loops, kind):
        place = self.source.put("for (")
        name = self.rng.choices(["i", "j", "q", "P"], [10, 10, 0.3, 0.3])[0]
        column = self.source.put(name)
        self.source.put(" = ")
        start = self.number([0, 0, 0, 1]) if self.rng.random() < 0.96 else self.name(["b", "q", "P"])
        self.source.put("; ")
        left = self.name([name] if self.rng.random() < 0.97 else ["b"])
        operator = self.source.put(" < ") + 1
        condition = Pair("<", operator, left, self.number([2, 3, 4, 4, 0]))
        self.source.put("; ")
        step_name = name if self.rng.random() < 0.96 else self.rng.choice(["y", "q", "P"])
        step_column = self.source.put(step_name)
        self.source.put(" = ")
        left = self.name([name] if self.rng.random() < 0.97 else ["b"])
        operator = self.source.put(" + ") + 1
        step = Pair("+", operator, left, self.number([1, 1, 1, 1, 1, 1, 2, 2, 0] if self.rng.random() < 0.3 else [1]))
        self.source.put(") ")
        inner = loops + [name] if name in "ij" and name not in loops else loops
        return For(place, name, column, start, condition, step_name, step_column, step, self.statement(inner, kind))

    def block(self, loops, kind):
        self.source.put("begin ")
        body = []
        for _ in range(self.rng.choice([0, 1, 2, 2, 3, 3])):
            body.append(self.statement(loops, kind))
            self.source.put(" ")
        self.source.put("end")
        return Block(body)

    def statement(self, loops, kind):
        self.depth += 1
        weights = [6, 3, 3, 2, 2, 0.1] if self.depth < 5 else [1, 0, 0, 0, 0, 0]
        what = self.rng.choices(["assign", "block", "if", "case", "for", "halt"], weights)[0]
        if what == "assign":
            node = self.assignment(loops, kind)
        elif what == "block":
            node = self.block(loops, kind)
        elif what == "if":
            condition = self.condition(loops)
            self.source.put("begin ")
            yes = self.statement(loops, kind)
            self.source.put(" end")
            no = None
            if self.rng.random() < 0.6:
                self.source.put(" else ")
                no = self.statement(loops, kind)
            node = If(condition, yes, no)
        elif what == "case":
            node = self.case(loops, kind)
        elif what == "for":
            node = self.loop(loops, kind)
        else:
            column, feature = self.rng.choice([("#1 ;", "Delay"), ("$finish;", "SystemTask"), ("while (a) ;", "Delay")])
            node = Halt(self.source.put(column), feature)
        self.depth -= 1
        return node

    def process(self):
        is_combinational = self.rng.random() < 0.75
        self.source.put("always ")
        at = self.source.put("@")
        events = []
        if is_combinational and self.rng.random() < 0.7:
            self.source.put("* ")
        else:
            self.source.put("(")
            if not is_combinational:
                self.source.put("posedge ")
            name = self.rng.choices(["c", "q"], [40, 1])[0]
            events.append((name, self.source.put(name)))
            self.source.put(") ")
        kind = "=" if is_combinational or self.rng.random() < 0.3 else "<="
        self.source.put("begin ")
        body = []
        if is_combinational and self.rng.random() < 0.6:
            for name in ["y", "z"]:
                if self.rng.random() < 0.7:
                    first = self.source.put(name)
                    operator = self.source.put(" = ") + 1
                    self.source.put("0; ")
                    body.append(Assign(first, [Name(name, first)], operator, True, Number(0)))
        for _ in range(self.rng.randint(1, 3)):
            body.append(self.statement([], kind))
            self.source.put(" ")
        self.source.put("end")
        return answer(self.bench, is_combinational, events, Block(body))


class Start:
    """An `initial` that is drawn and written: what is refused in it, by the forms of its statements."""

    def __init__(self, rng, bench):
        self.rng, self.bench, self.source, self.refused = rng, bench, Source(), []
        self.source.put("initial begin ")
        for _ in range(rng.randint(2, 5)):
            self.statement(1)
            self.source.put(" ")
        self.source.put("end")

    def value(self):
        """A value, and the columns of what it names that is not declared, or whether it reads a signal."""
        unknown, reads = [], False
        for k in range(self.rng.randint(1, 2)):
            self.source.put(" + " if k else "")
            name = self.rng.choices(["1", "7", "P", "a", "z", "q"], [6, 6, 6, 0.7, 0.5, 0.5])[0]
            column = self.source.put(name)
            if name == "q":
                unknown.append((column, "Unknown"))
            reads = reads or name in "az"
        return unknown, reads

    def assignment(self):
        name = self.rng.choices(["y", "z", "w", "i", "P", "q"], [6, 6, 2, 2, 0.4, 0.4])[0]
        first = self.source.put(name)
        select = self.rng.choices(["", "[0]", "[1:0]"], [14, 0.5, 0.3])[0]
        operator = self.rng.choices(["=", "<="], [14, 0.6])[0]
        self.source.put(f"{select} {operator} ")
        unknown, reads = self.value()
        self.source.put(";")
        if select or operator == "<=":
            self.refused.append((first, "InitialForm"))
        elif self.bench.names.get(name, ("none",))[0] != "signal":
            self.refused.append((first, "Unknown"))
        elif reads:
            self.refused.append((first, "InitialForm"))
        else:
            self.refused += unknown

    def statement(self, depth):
        what = self.rng.choices(["assign", "block", "other"], [5, 0 if depth > 3 else 4, 0.4])[0]
        if what == "assign":
            self.assignment()
        elif what == "block":
            self.source.put("begin ")
            for _ in range(self.rng.randint(0, 3)):
                self.statement(depth + 1)
                self.source.put(" ")
            self.source.put("end")
        else:
            text, feature = self.rng.choice([("#1 y = 0;", "Delay"), ("@(a) y = 0;", "Delay"), ("while (a) y = 0;", "Delay"), ("$finish;", "SystemTask"), (";", "InitialForm"), ("if (P) y = 0;", "InitialForm"), ("case (a) 0: y = q; endcase", "InitialForm"), ("for (i = 0; i < 1; i = i + 1) y = 0;", "InitialForm")])
            self.refused.append((self.source.put(text), feature))

    def answer(self):
        return told(*min(self.refused)) if self.refused else "accepted"


def put_bench(rng, lines):
    bench = Bench()
    for name, width, low, is_written in [("a", rng.randint(1, 4), 0, False), ("b", 2, 0, False), ("c", 1, 0, False), ("y", rng.randint(1, 4), rng.choice([0, 0, 0, 1]), False), ("z", rng.randint(1, 4), 0, False), ("w", 2, 0, True), ("i", 32, 0, False), ("j", 8, 0, False)]:
        bench.declare(name, width, low, is_written)
        lines.append(("written" if is_written else "reg") + f" {name} {width} {low}")
    bench.names["P"] = ("constant", rng.randint(0, 3))
    lines.append(f"constant P {bench.names['P'][1]}")
    return bench


def put_case(rng, lines, wanted):
    bench = put_bench(rng, lines)
    count = 0
    while count < 4:
        drawn = Drawn(rng, bench)
        said = drawn.process()
        if said is None or len(drawn.source.text) > 400:
            continue
        lines.append(drawn.source.text)
        wanted.append(said)
        count += 1
    lines.append("end")


def put_starts(rng, lines, wanted):
    bench = put_bench(rng, lines)
    for _ in range(4):
        start = Start(rng, bench)
        lines.append(start.source.text)
        wanted.append(start.answer())
    lines.append("end")


def main():
    lines, wanted = [], []
    for line in HAND.splitlines():
        if line.startswith("> "):
            wanted.append(line[2:])
        else:
            lines.append(line)
            if line.startswith("#"):
                wanted.append(line)
    rng = random.Random(15)
    for _ in range(CASES):
        put_case(rng, lines, wanted)
    for _ in range(STARTS):
        put_starts(rng, lines, wanted)
    tables.save("elab_cases", lines, wanted, "processes")


if __name__ == "__main__":
    main()
