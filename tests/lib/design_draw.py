"""A generator of designs whose outputs every simulator has to agree on.

What is drawn reads no value that is not known: registers have start values, combinational variables are assigned first, indices
that are read lie inside. A variable that a clocked process assigns with `=` is read in that process and at the outputs alone, since
its new value would race with other clocked processes.
"""

import random


class Signal:
    """A name that can be read: how many bits it has, and the number of its lowest bit."""

    def __init__(self, name, width, low=0, is_signed=False):
        self.name, self.width, self.low, self.is_signed = name, width, low, is_signed

    def range(self):
        sign = "signed " if self.is_signed else ""
        return sign + (f"[{self.low + self.width - 1}:{self.low}] " if self.width > 1 or self.low else "")


class Exprs:
    """Expressions over signals."""

    def __init__(self, rng, signals):
        self.rng, self.signals = rng, list(signals)

    def pick(self, choices):
        return self.rng.choice(choices)

    def number(self):
        width = self.rng.choice([1, 2, 3, 4, 5, 8, 12])
        value = self.rng.randrange(1 << width)
        return self.pick([
            f"{width}'d{value}", f"{width}'b{value:b}", f"{width}'h{value:x}", f"{width}'sd{value}", f"{width}'o{value:o}",
            str(value), f"'d{value}",
        ])

    def index(self, bits):
        """An index of so many bits."""
        wide = [s for s in self.signals if s.width >= bits and not s.is_signed]
        if not wide or self.rng.random() < 0.2:
            return str(self.rng.randrange(1 << bits))
        signal = self.pick(wide)
        if signal.width == bits:
            return signal.name
        low = signal.low + self.rng.randrange(signal.width - bits + 1)
        return f"{signal.name}[{low}]" if bits == 1 else f"{signal.name}[{low + bits - 1}:{low}]"

    def select(self, signal):
        """A part of a signal that lies inside."""
        low = signal.low + self.rng.randrange(signal.width)
        top = signal.low + signal.width - 1
        draw = self.rng.random()
        if draw < 0.3:
            return f"{signal.name}[{low}]"
        if draw < 0.6:
            return f"{signal.name}[{self.rng.randint(low, top)}:{low}]"
        if draw < 0.75:
            return f"{signal.name}[{low} +: {self.rng.randint(1, top - low + 1)}]"
        bits = signal.width.bit_length() - 1
        if signal.low or signal.width != 1 << bits:
            return f"{signal.name}[{low}]"
        return f"{signal.name}[{self.index(bits)}]"

    def leaf(self):
        if self.rng.random() < 0.25 or not self.signals:
            return self.number()
        signal = self.pick(self.signals)
        if signal.width > 1 and self.rng.random() < 0.35:
            return self.select(signal)
        return signal.name

    def binary(self, depth):
        operator = self.pick(["+", "-", "*", "&", "|", "^", "^~", "<", "<=", ">", ">=", "==", "!=", "===", "!==", "&&", "||"])
        return f"{self.operand(depth)} {operator} {self.operand(depth)}"

    def shift(self, depth):
        operator = self.pick(["<<", ">>", "<<<", ">>>"])
        amount = self.index(self.rng.randint(1, 3)) if self.rng.random() < 0.6 else self.rng.randrange(9)
        return f"{self.operand(depth)} {operator} {amount}"

    def unary(self, depth):
        operator = self.pick(["~", "-", "!", "&", "|", "^", "~&", "~|", "~^", "+"])
        return f"{operator}{self.operand(0) if self.rng.random() < 0.5 else '(' + self.expr(depth) + ')'}"

    def parts(self, depth):
        inner = ", ".join(self.sized(depth) for _ in range(self.rng.randint(1, 3)))
        if self.rng.random() < 0.3:
            return f"{{{self.rng.randint(1, 3)}{{{inner}}}}}"
        return f"{{{inner}}}"

    def sized(self, depth):
        """An expression whose width does not depend on what stands around it."""
        if self.rng.random() < 0.5 or depth <= 0:
            return self.pick([s.name for s in self.signals]) if self.signals else "4'd5"
        return f"{self.pick(['&', '|', '^'])}({self.expr(depth)})"

    def operand(self, depth):
        text = self.expr(depth)
        return f"({text})" if " " in text or text[0] in "~-!&|^+" else text

    def expr(self, depth):
        if depth <= 0:
            return self.leaf()
        draw = self.rng.random()
        if draw < 0.45:
            return self.binary(depth - 1)
        if draw < 0.57:
            return self.shift(depth - 1)
        if draw < 0.7:
            return self.unary(depth - 1)
        if draw < 0.8:
            return f"{self.operand(depth - 1)} ? {self.operand(depth - 1)} : {self.operand(depth - 1)}"
        if draw < 0.9:
            return self.parts(depth - 1)
        if draw < 0.96:
            return f"{self.pick(['$signed', '$unsigned'])}({self.expr(depth - 1)})"
        return self.leaf()


class Body:
    """The statements of a process. Each target is assigned with one operator."""

    def __init__(self, rng, signals, targets, operators):
        self.rng, self.targets, self.operators = rng, targets, operators
        self.exprs = Exprs(rng, signals)
        self.lines = []

    def put(self, depth, text):
        self.lines.append("  " * (depth + 2) + text)

    def left(self, targets):
        target = self.rng.choice(targets)
        draw = self.rng.random()
        if draw < 0.5 or target.width == 1:
            return target.name
        if draw < 0.6 and target.low == 0:
            return f"{target.name}[{self.exprs.index(self.rng.randint(1, 4))}]"
        if draw < 0.7 and target.low == 0:
            return f"{target.name}[{self.exprs.index(self.rng.randint(1, 3))} +: {self.rng.randint(1, target.width)}]"
        return self.exprs.select(target) if draw < 0.85 else target.name

    def assign(self, depth):
        target = self.rng.choice(self.targets)
        operator = self.operators[target.name]
        alike = [t for t in self.targets if self.operators[t.name] == operator]
        left = self.left(alike)
        if len(alike) > 1 and self.rng.random() < 0.15:
            first, second = self.rng.sample(alike, 2)
            left = f"{{{first.name}, {second.name}}}"
        self.put(depth, f"{left} {operator} {self.exprs.expr(2)};")

    def block(self, depth, room):
        label = f" : l{len(self.lines)}" if self.rng.random() < 0.1 else ""
        self.put(depth, f"begin{label}")
        for _ in range(self.rng.randint(1, 2)):
            self.statement(depth + 1, room - 1)
        self.put(depth, "end")

    def inner(self, depth, room):
        if self.rng.random() < 0.5 and room > 0:
            self.block(depth, room)
        else:
            self.assign(depth)

    def condition(self, depth, room):
        self.put(depth, f"if ({self.exprs.expr(2)})")
        self.inner(depth + 1, room - 1)
        if self.rng.random() < 0.6:
            self.put(depth, "else")
            self.inner(depth + 1, room - 1)

    def case(self, depth, room):
        word = self.rng.choice(["case", "casez", "casex"])
        wide = [s for s in self.exprs.signals if 2 <= s.width <= 5]
        selector = self.rng.choice(wide) if wide else None
        width = selector.width if selector else 3
        text = selector.name if selector else "3'd5"
        self.put(depth, f"{word} ({text})")
        values = self.rng.sample(range(1 << width), min(3, 1 << width))
        for value in values:
            labels = [self.label(word, width, value)]
            if self.rng.random() < 0.3:
                labels.append(self.label(word, width, self.rng.randrange(1 << width)))
            self.put(depth + 1, ", ".join(labels) + ":")
            self.inner(depth + 2, room - 1)
        if self.rng.random() < 0.7:
            self.put(depth + 1, "default:")
            self.inner(depth + 2, room - 1)
        self.put(depth, "endcase")

    def label(self, word, width, value):
        if word == "case" or self.rng.random() < 0.3:
            return f"{width}'d{value}"
        digits = [c if self.rng.random() < 0.6 else self.rng.choice("?z" if word == "casez" else "?zx") for c in f"{value:0{width}b}"]
        return f"{width}'b{''.join(digits)}"

    def loop(self, depth):
        wide = [t for t in self.targets if t.width > 1]
        if not wide:
            self.assign(depth)
            return
        target = self.rng.choice(wide)
        operator = self.operators[target.name]
        count, low = min(target.width, 8), target.low
        step = self.rng.choice([1, 1, 2])
        self.put(depth, f"for (i = 0; i < {count}; i = i + {step})")
        at = f"i + {low}" if low else "i"
        self.put(depth + 1, f"{target.name}[{at}] {operator} {self.exprs.expr(1)} {self.rng.choice(['^', '&', '+', '=='])} i;")

    def statement(self, depth, room):
        draw = self.rng.random()
        if room <= 0 or draw < 0.35:
            self.assign(depth)
        elif draw < 0.65:
            self.condition(depth, room)
        elif draw < 0.8:
            self.case(depth, room)
        elif draw < 0.92:
            self.loop(depth)
        else:
            self.block(depth, room)


class Draw:
    """Modules of a design, each with what it can be connected to."""

    def __init__(self, seed):
        self.rng = random.Random(seed)

    def signals(self, prefix, count, widths, may_shift=False):
        made = []
        for k in range(count):
            low = self.rng.choice([0, 0, 0, 2]) if may_shift else 0
            made.append(Signal(f"{prefix}{k}", self.rng.choice(widths), low, self.rng.random() < 0.2))
        return made

    def combinational(self, signals, inputs, targets):
        """A combinational process: each target is assigned first from what is known."""
        operators = {t.name: "=" for t in targets}
        body = Body(self.rng, signals, targets, operators)
        head = self.rng.choice(["always @*", "always @(*)"])
        body.put(-1, f"{head} begin")
        first = self.rng.choice(inputs).name
        for k, target in enumerate(targets):
            body.put(0, f"{target.name} = {first if k == 0 else body.exprs.expr(1)};")
            body.exprs.signals.append(target)
        for _ in range(self.rng.randint(2, 4)):
            body.statement(0, 3)
        body.put(-1, "end")
        return body.lines

    def clocked(self, signals, targets, operators):
        body = Body(self.rng, signals + targets, targets, operators)
        body.put(-1, "always @(posedge clk) begin")
        for _ in range(self.rng.randint(2, 4)):
            body.statement(0, 3)
        body.put(-1, "end")
        return body.lines

    def start(self, target):
        return self.rng.randrange(1 << target.width)

    def process_design(self):
        """One module: assigns, a combinational and a clocked process, each perhaps twice."""
        inputs = self.signals("a", self.rng.randint(2, 4), [1, 2, 3, 4, 5, 8, 9])
        known, lines, shown = list(inputs), [], []
        if all(s.is_signed for s in inputs):
            inputs[0].is_signed = False
        for k in range(self.rng.randint(1, 2)):
            targets = self.signals(f"c{k}", self.rng.randint(1, 3), [1, 2, 4, 5, 8], may_shift=True)
            lines += [f"  reg {t.range()}{t.name};" for t in targets]
            lines += self.combinational(known, inputs, targets)
            known += targets
            shown += targets
        registers = []
        kinds = {}
        for k in range(self.rng.randint(1, 2)):
            targets = self.signals(f"r{k}", self.rng.randint(1, 3), [1, 3, 4, 6, 8], may_shift=True)
            kinds[k] = (targets, {t.name: self.rng.choice(["<=", "<=", "="]) for t in targets})
        stable = [t for targets, operators in kinds.values() for t in targets if operators[t.name] == "<="]
        body = []
        for targets, operators in kinds.values():
            for t in targets:
                if self.rng.random() < 0.5:
                    lines.append(f"  reg {t.range()}{t.name} = {self.start(t)};")
                else:
                    lines.append(f"  reg {t.range()}{t.name};")
                    body.append(f"  initial {t.name} = {self.start(t)};")
            others = [t for t in stable if t not in targets]
            body += self.clocked(known + others, targets, operators)
            registers += targets
        shown += registers
        ports = [f"input {s.range()}{s.name}" for s in inputs]
        outputs = []
        for k, signal in enumerate(shown):
            out = Signal(f"y{k}", signal.width)
            outputs.append(out)
            body.append(f"  assign {out.name} = {signal.name};")
        mixed = Signal(f"y{len(outputs)}", 8)
        outputs.append(mixed)
        body.append(f"  assign {mixed.name} = {Exprs(self.rng, known + stable).expr(3)};")
        ports += [f"output {s.range()}{s.name}" for s in outputs]
        head = [f"module top(input clk, {', '.join(ports)});", "  integer i;"]
        return head + lines + body + ["endmodule"], inputs, outputs

    def leaf(self, name):
        """A module with a parameter W, an input a and an output y of W bits, and perhaps a register."""
        form = self.rng.randrange(6)
        ansi = self.rng.random() < 0.5
        head = ([f"module {name} #(parameter W = 4)(input clk, input [W - 1:0] a, input b, output [W - 1:0] y);"] if ansi else [
            f"module {name}(clk, a, b, y);", "  parameter W = 4;", "  input clk, b;", "  input [W - 1:0] a;",
            "  output [W - 1:0] y;",
        ])
        start = self.rng.randrange(16)
        bodies = [
            [f"  assign y = b ? a + {self.rng.randrange(9)} : ~a;"],
            [f"  reg [W - 1:0] s = {start % 4};", "  assign y = s ^ a;", "  always @(posedge clk)",
             "    if (b) s <= s + a;", f"    else s <= s - {self.rng.randint(1, 3)};"],
            ["  reg [W - 1:0] t;", "  integer i;", "  always @* begin", "    t = 0;",
             "    for (i = 0; i < W; i = i + 1) t[i] = a[W - 1 - i] ^ b;", "  end", "  assign y = t;"],
            ["  localparam HALF = W / 2;", "  wire [W - 1:0] m = {W{b}};", "  generate if (HALF > 1) begin : wide",
             "    assign y = (a << HALF) | m;", "  end else begin : narrow", "    assign y = a & m;", "  end endgenerate"],
            [f"  reg [W - 1:0] s;", f"  initial s = {start % 3};", "  always @(posedge clk) begin : step",
             "    if (a[0]) s <= {s, b};", "    else if (a[W - 1]) s <= a;", "  end", "  assign y = ~s;"],
            ["  wire [W:0] sum = a + {1'b0, a} + b;", "  assign y = sum[W:1];"],
        ]
        return head + bodies[form] + ["endmodule"]

    def instance(self, module, name, width, a, b, y):
        if self.rng.random() < 0.5:
            pairs = [".clk(clk)", f".a({a})", f".b({b})", f".y({y})"]
            self.rng.shuffle(pairs)
            ports = ", ".join(pairs)
        else:
            ports = f"clk, {a}, {b}, {y}"
        values = self.rng.choice([f" #(.W({width}))", f" #({width})"]) if width != 4 or self.rng.random() < 0.5 else ""
        return f"  {module}{values} {name}({ports});"

    def middle(self, name, leaves):
        """A module of instances of leaves, with the same ports."""
        first, second = self.rng.choice(leaves), self.rng.choice(leaves)
        head = [f"module {name} #(parameter W = 4, parameter N = {self.rng.randint(1, 3)})(input clk, input [W - 1:0] a, input b, output [W - 1:0] y);"]
        if self.rng.random() < 0.5:
            lines = ["  wire [W - 1:0] m;", self.instance(first, "u", "W", "a", "b", "m"),
                     self.instance(second, "v", "W", "m ^ a", "!b", "y")]
        else:
            lines = ["  genvar g;", "  wire [W * (N + 1) - 1:0] bus;", "  assign bus[W - 1:0] = a;", "  generate",
                     "  for (g = 0; g < N; g = g + 1) begin : stage",
                     f"    {first} #(.W(W)) u(.clk(clk), .a(bus[W * g +: W]), .b(b ^ g[0]), .y(bus[W * (g + 1) +: W]));",
                     "  end", "  endgenerate", "  assign y = bus[W * N +: W];"]
        return head + lines + ["endmodule"]

    def whole_design(self):
        """Leaves, modules of leaves, and a top with a process of its own."""
        leaves = [f"leaf{k}" for k in range(self.rng.randint(1, 3))]
        lines = []
        for name in leaves:
            lines += self.leaf(name)
        middles = [f"mid{k}" for k in range(self.rng.randint(0, 2))]
        for name in middles:
            lines += self.middle(name, leaves)
        inputs = self.signals("a", self.rng.randint(2, 4), [1, 2, 4, 5, 8])
        inputs[0].is_signed = False
        known, body, outputs = list(inputs), [], []
        for k in range(self.rng.randint(1, 3)):
            module = self.rng.choice(leaves + middles)
            width = self.rng.choice([2, 3, 4, 5, 8])
            wire = Signal(f"w{k}", width)
            exprs = Exprs(self.rng, known)
            body.append(f"  wire {wire.range()}{wire.name};")
            body.append(self.instance(module, f"u{k}", width, exprs.expr(2), exprs.expr(1), wire.name))
            known.append(wire)
        targets = self.signals("r", self.rng.randint(1, 2), [2, 4, 8])
        body += [f"  reg {t.range()}{t.name} = {self.start(t)};" for t in targets]
        body += self.clocked(known, targets, {t.name: "<=" for t in targets})
        known += targets
        for k, signal in enumerate(known[len(inputs):]):
            outputs.append(Signal(f"y{k}", signal.width))
            body.append(f"  assign y{k} = {signal.name};")
        outputs.append(Signal(f"y{len(outputs)}", 9))
        body.append(f"  assign {outputs[-1].name} = {Exprs(self.rng, known).expr(3)};")
        ports = [f"input {s.range()}{s.name}" for s in inputs] + [f"output {s.range()}{s.name}" for s in outputs]
        lines += [f"module top(input clk, {', '.join(ports)});", "  integer i;"] + body + ["endmodule"]
        return lines, inputs, outputs
