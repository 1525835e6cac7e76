"""Small designs drawn where the standard's rules are easily missed: cases without a default, selects of constants whose range does not end
at 0, and signed indices.

A design is its lines and the names of the outputs that are selects alone: of these the bits outside a vector, which the standard leaves
unknown, are 0 here. What Icarus Verilog does not know elsewhere is no row. Of a combinational case it tells whether some path assigns
nothing: with the variable set to x in front of the case, and all values at the inputs, x is seen then.
"""

import itertools
import random

from lib.design_draw import Signal
from lib.design_runs import Unknown, outputs_of

# Selectors that are as wide as their operands at any greater size, by the form alone, with how many bits they have.
KEPT = [
    ("s", 2), ("(s)", 2), ("w", 3), ("w[2:1]", 2), ("w[1 +: 2]", 2), ("{b, s[0]}", 2), ("{2{b}}", 2), ("{b, s}", 3), ("s < t", 1), ("s == t", 1),
    ("^w", 1), ("!s", 1), ("s && b", 1), ("w || t", 1), ("s & t", 2), ("s | t", 2), ("(s ^ t)", 2), ("b ? s : t", 2), ("b ? w : s", 3),
    ("(s & t) | {b, b}", 2), ("w[0]", 1), ("s & 2'd3", 2),
]
# Selectors that may be other numbers at a greater size.
GROWING = [
    ("~s", 2), ("s + 2'd1", 2), ("s - t", 2), ("-s", 2), ("s << 1", 2), ("s ~^ t", 2), ("s & ~t", 2), ("b ? s : s + t", 2), ("i", 2), ("(i)", 2),
    ("$signed(s)", 2), ("i ^ $signed(t)", 2), ("w * w", 3), ("~(s ^ t)", 2), ("~b", 1), ("-i", 2), ("w + s", 3),
]
PORTS = [Signal("s", 2), Signal("t", 2), Signal("w", 3), Signal("b", 1), Signal("i", 2, 0, True)]


def head_of(ports, rest):
    return f"module top({', '.join([f'input {s.range()}{s.name}' for s in ports] + rest)});"


class Case:
    """A case without a default, of which the labels name each value of the selector, or all but one."""

    def __init__(self, rng, is_clocked):
        self.rng, self.is_clocked = rng, is_clocked
        self.selector, self.width = rng.choice(rng.choice([KEPT, GROWING]))
        self.is_kept = (self.selector, self.width) in KEPT
        self.is_whole = rng.random() < 0.85
        self.sizes = []

    def label(self, value):
        size = self.rng.choice([self.width, self.width, self.width + 1, self.width + 3, 32])
        if size == 32:
            text = f"{value}"
        elif self.rng.random() < 0.3:
            text = f"{size}'sd{value}"
        else:
            text = self.rng.choice([f"{size}'d{value}", f"{size}'b{value:b}", f"{size}'h{value:x}"])
        self.sizes.append(size)
        return text

    def items(self):
        values = list(range(1 << self.width))
        self.rng.shuffle(values)
        if not self.is_whole:
            values.pop()
        while values:
            count = self.rng.choice([1, 1, 1, 2])
            yield ", ".join(self.label(value) for value in values[:count])
            values = values[count:]

    def lines(self):
        sign = "<=" if self.is_clocked else "="
        body = [f"    {self.rng.choice(['case', 'case', 'casez', 'casex'])} ({self.selector})"]
        for number, labels in enumerate(self.items()):
            body.append(f"      {labels}: y {sign} {self.rng.choice([f'a + {number}', f'{number + 3}', f'a ^ {number}', '~a', 'a'])};")
        body.append("    endcase")
        ports = PORTS + [Signal("a", 3)]
        if not self.is_clocked:
            return [head_of(ports, ["output reg [3:0] y"]), "  always @*"] + body + ["endmodule"]
        start = f"  initial y = {self.rng.randrange(16)};"
        head = head_of([Signal("clk", 1)] + ports, ["output reg [3:0] y"])
        return [head, start, "  always @(posedge clk)"] + body + ["endmodule"]


def leaves_a_path(lines):
    """Whether some path of the one case of a design assigns nothing."""
    at = lines.index("  always @*")
    watched = lines[:at] + ["  always @* begin", "    y = 4'bx;"] + lines[at + 1 : -1] + ["  end", "endmodule"]
    ports = PORTS + [Signal("a", 3)]
    values = [list(row) + [0] for row in itertools.product(*[range(1 << s.width) for s in PORTS])]
    try:
        outputs_of(watched, ports, [Signal("y", 4)], values, False)
    except Unknown:
        return True
    return False


class Parameters:
    """A module with constants of any declared range, selects of which stand in constants, bounds, counts and cells."""

    def __init__(self, rng):
        self.rng, self.lines, self.outputs, self.selects = rng, [], [], []
        self.width, self.low = rng.randint(3, 12), rng.choice([0, 1, 2, 4, 4, 7, 20])
        self.high = self.low + self.width - 1

    def value(self, width):
        value = self.rng.getrandbits(width)
        return self.rng.choice([f"{width}'h{value:x}", f"{width}'d{value}", f"{value}", f"{width + 3}'b{value:b}", f"-{value % 9 + 1}"])

    def at(self):
        return self.rng.randint(self.low, self.high)

    def part(self):
        """A select that lies inside."""
        first, second = sorted([self.at(), self.at()])
        return self.rng.choice([f"P[{first}]", f"P[{second}:{first}]", f"P[{first} +: {second - first + 1}]"])

    def pair(self):
        """Two bits."""
        first = self.rng.randint(self.low, self.high - 1)
        return f"P[{first + 1}:{first}]"

    def outside(self):
        """A select that may lie outside in part."""
        first = max(0, self.at() - self.rng.randint(0, self.width))
        return self.rng.choice([f"P[{first}]", f"P[{first + self.rng.randint(1, 6)}:{first}]", f"P[{first} +: {self.rng.randint(1, 6)}]"])

    def out(self, width, text, is_select=False):
        name = f"y{len(self.outputs)}"
        self.outputs.append(Signal(name, width))
        self.selects += [name] if is_select else []
        self.lines.append(f"  assign {name} = {text};")

    def use(self):
        draw = self.rng.randrange(8)
        k = len(self.lines)
        if draw == 0:
            self.lines.append(f"  localparam [8:0] K{k} = {self.part()} + {self.pair()};")
            self.out(9, f"K{k}")
        elif draw == 1:
            self.out(9, f"{self.part()} {self.rng.choice(['+', '^', '-', '&'])} a")
        elif draw == 2:
            self.out(7, self.outside(), True)
        elif draw == 3:
            self.lines.append(f"  wire [{self.pair()}:0] w{k} = a;")
            self.out(5, f"w{k}")
        elif draw == 4:
            self.out(6, f"{{({self.pair()} + 1){{b}}}}")
        elif draw == 5:
            self.lines += [f"  wire g{k};", f"  generate if (P[{self.at()}]) assign g{k} = b; else assign g{k} = ~b; endgenerate"]
            self.out(1, f"g{k}")
        elif draw == 6:
            self.out(1, f"a[{self.pair()}]")
        else:
            self.out(4, f"a == {self.part()} ? {self.pair()} : {self.part()} >> 1")

    def design(self):
        ports = [Signal("a", 8), Signal("b", 1)]
        sign = self.rng.choice(["", "", "signed "])
        declared = f"parameter {sign}[{self.high}:{self.low}] P = {self.value(self.width)}"
        for _ in range(self.rng.randint(2, 4)):
            self.use()
        outs = [f"output {s.range()}{s.name}" for s in self.outputs]
        if self.rng.random() < 0.6:
            word = self.rng.choice(["parameter", "localparam"])
            return [head_of(ports, outs), f"  {declared.replace('parameter', word, 1)};"] + self.lines + ["endmodule"]
        inner = head_of(ports, outs).replace("top(", f"inner #({declared})(", 1)
        joins = ", ".join(f".{s.name}({s.name})" for s in ports + self.outputs)
        given = self.rng.choice([f" #(.P({self.value(self.width)}))", f" #({self.value(self.width)})", ""])
        return [head_of(ports, outs), f"  inner{given} u({joins});", "endmodule", inner] + self.lines + ["endmodule"]


class Indices:
    """Selects by signed indices, variable and constant, on both sides of assignments."""

    VARIABLE = [
        "i", "i", "j", "(i)", "-i", "+i", "~i", "i + j", "i - 1", "i + 3'sd1", "j - 4'sd2", "$signed(s)", "$signed({s[0], b, s[1]})", "i >>> 1",
        "j >>> 1", "b ? i : j", "i & j", "i ^ j", "{i}", "$unsigned(i)", "i + 3'd1", "s", "i * j", "s - 2'sd1", "$signed(s) + i", "{b, i}",
    ]

    def __init__(self, rng):
        self.rng, self.lines, self.outputs, self.selects = rng, [], [], []
        self.wide = rng.choice([3, 4, 5, 8, 8, 12, 16])

    def index(self):
        return self.rng.choice(self.VARIABLE)

    def below(self):
        """A constant that may be less than 0."""
        return self.rng.choice(["N", "N + 1", "N - 1", "-1", "-2", "N + M", "0", "M - 3", "-4'sd2"])

    def out(self, width, form="wire"):
        name = f"y{len(self.outputs)}"
        self.outputs.append(Signal(name, width))
        if form == "reg":
            self.lines.append(f"  reg [{width - 1}:0] r{name};")
            self.lines.append(f"  assign {name} = r{name};")
            return f"r{name}"
        self.selects.append(name)
        return name

    def use(self):
        draw = self.rng.randrange(9)
        if draw < 2:
            self.lines.append(f"  assign {self.out(1)} = a[{self.index()}];")
        elif draw == 2:
            self.lines.append(f"  assign {self.out(3)} = {{a[{self.index()}], c[{self.index()}], a[{self.below()}]}};")
        elif draw == 3:
            self.lines.append(f"  assign {self.out(4)} = a[{self.below()} +: {self.rng.randint(1, 4)}];")
        elif draw == 4:
            name = self.out(self.wide, "reg")
            self.lines.append(f"  always @* begin {name} = a; {name}[{self.index()}] = b; end")
        elif draw == 5:
            name = self.out(self.wide, "reg")
            self.lines += [f"  initial {name} = {self.rng.getrandbits(self.wide)};", f"  always @(posedge clk) {name}[{self.index()}] <= b ^ {name}[0];"]
        elif draw == 6:
            name = self.out(self.wide, "reg")
            self.lines.append(f"  always @* begin {name} = a; {name}[{self.below()} +: {self.rng.randint(1, 4)}] = {{c, c}}; end")
        elif draw == 7:
            name = self.out(6, "reg")
            first, last, step = self.rng.choice([(-3, 6, 1), (-2, 8, 2), (-4, 2, 1), (-1, 5, 3)])
            body = self.rng.choice([f"{name}[k] = c[1] ^ b", f"{name}[k + 1] = c[0]", f"{name}[k - 2] = b", f"{name}[k +: 2] = c", f"{name}[5 - k] = ~b"])
            self.lines.append(f"  always @* begin {name} = 0; for (k = {first}; k < {last}; k = k + {step}) {body}; end")
        else:
            name, other = self.out(self.wide, "reg"), self.out(3, "reg")
            self.lines.append(f"  always @* begin {name} = a; {other} = c; {{{name}[{self.index()}], {other}[{self.index()}]}} = {{b, c[2]}}; end")

    def design(self):
        ports = [Signal("a", self.wide), Signal("c", 3), Signal("b", 1), Signal("s", 2), Signal("i", 3, 0, True), Signal("j", 4, 0, True)]
        for _ in range(self.rng.randint(2, 4)):
            self.use()
        outs = [f"output {s.range()}{s.name}" for s in self.outputs]
        constants = ["  integer k;", f"  localparam signed [3:0] N = -{self.rng.randint(1, 3)};", f"  localparam M = {self.rng.randint(0, 2)};"]
        clocks = [Signal("clk", 1)] if any("posedge" in line for line in self.lines) else []
        return [head_of(clocks + ports, outs)] + constants + self.lines + ["endmodule"]


def cases(count):
    """Cases, each a name, its lines, the outputs that are selects, and what is refused or None."""
    for seed in range(count):
        rng = random.Random(690000 + seed)
        drawn = Case(rng, seed % 2 == 0)
        lines = drawn.lines()
        name = f"# a drawn case without a default {seed}"
        if drawn.is_clocked:
            yield name, lines, [], None
            continue
        is_open = leaves_a_path(lines)
        # the rule may only err towards a latch: this is its form, where the labels name all
        serves = drawn.is_whole and (drawn.is_kept or max([drawn.width, *drawn.sizes]) == drawn.width)
        assert not (is_open and serves), lines
        if is_open or serves:
            yield name, lines, [], "Latch 2:3 y" if is_open else None


def parameters(count):
    for seed in range(count):
        drawn = Parameters(random.Random(700000 + seed))
        lines = drawn.design()
        yield f"# a drawn parameter with a range {seed}", lines, drawn.selects, None


def indices(count):
    for seed in range(count):
        drawn = Indices(random.Random(710000 + seed))
        lines = drawn.design()
        yield f"# drawn signed indices {seed}", lines, drawn.selects, None
