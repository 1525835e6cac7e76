"""Testbenches drawn where the standard's rules on signed indices and on parameters with a range are easily missed.

For the simulator the variables that are shown have two values, so a bit outside a vector is 0 as soon as it is assigned. No such bit is an
operand of more.
"""

import random
import re

DESIGN = [
    "module dut(input clk, input [7:0] d, output reg [7:0] q);",
    "  initial q = 0;",
    "  always @(posedge clk) q <= d;",
    "endmodule",
]
INDICES = [
    "i", "i", "j", "(i)", "-i", "~i", "i + j", "i - 1", "i + 3'sd1", "j - 4'sd2", "$signed(u)", "$signed({u[0], u[2:1]})", "i >>> 1", "u[0] ? i : j",
    "i & j", "i * j", "{i}", "$unsigned(i)", "i + 3'd1", "u", "N", "N + i", "M - j",
]


class Bench:
    """A process that goes through the values of `i`, selects by it and shows what it has."""

    def __init__(self, rng):
        self.rng = rng
        self.wide = rng.choice([3, 5, 8, 12])
        self.high = rng.choice([7, 9, 12, 20])
        self.low = self.high - rng.randint(3, 6)

    def index(self):
        return self.rng.choice(INDICES)

    def value(self):
        return self.rng.choice(["7", "a", "~a", "u", "{a, u}", "q", "i", "0"])

    def part(self):
        """A select of a parameter that lies inside."""
        first, second = sorted(self.rng.choices(range(self.low, self.high + 1), k=2))
        return self.rng.choice([f"P[{first}]", f"P[{second}:{first}]", f"P[{first} +: {second - first + 1}]"])

    def statement(self):
        draw = self.rng.randrange(9)
        count = self.rng.randint(1, 4)
        index = self.index()
        sign = self.rng.choice(["=", "=", "<="])
        if draw < 2:
            return f"z = a[{index}];"
        if draw == 2:
            return f"z = a[{index} +: {count}];"
        if draw == 3:
            return f"z = {{a[{index}], a[{self.index()}], q[{self.index()} +: 2]}};"
        if draw == 4:
            return f"w[{index}] {sign} {self.value()};"
        if draw == 5:
            return f"w[{index} +: {count}] {sign} {self.value()};"
        if draw == 6:
            return f"{{w[{index}], v[{self.index()} +: 2], v[{self.index()}]}} = {self.value()};"
        if draw == 7:
            return f"w = {self.part()} + {self.part()} + u;"
        return f"v[{self.part()}] = {self.part()};"

    def lines(self):
        rng = self.rng
        top = self.wide - 1
        head = [
            "module bench;",
            "  reg clk = 0;",
            f"  reg [{top}:0] a = {rng.getrandbits(self.wide)};",
            f"  reg [{top}:0] w = {rng.getrandbits(self.wide)};",
            "  reg signed [2:0] i = -4;",
            "  reg signed [3:0] j = 5;",
            "  reg [2:0] u = 1;",
            "  reg [3:0] z = 0, net = 0;",
            "  reg [9:0] v = 0;",
            "  wire [7:0] q;",
            "  wire [3:0] n;",
            f"  parameter [{self.high}:{self.low}] P = {rng.getrandbits(7)};",
            f"  localparam signed [3:0] N = -{rng.randint(1, 4)};",
            f"  localparam M = {rng.randint(0, 3)};",
            f"  assign n = a[{rng.choice(['i', 'j', 'i - j', 'N', 'N + 1', 'u'])} +: {rng.randint(1, 4)}];",
            "  dut u0(clk, a, q);",
            "  always #1 clk = ~clk;",
            "  initial begin",
            "    repeat (9) begin",
        ]
        body = [f"      {self.statement()}" for _ in range(rng.randint(2, 5))]
        tail = [
            "      @(negedge clk);",
            "      net = n;",
            '      $display("%b %b %b %b %b", z, w, v, net, q);',
            f"      i = i + 1; j = j - {rng.choice([1, 3])}; u = u + {rng.choice([1, 2, 3])}; a = {{a, a[{top}]}} ^ {rng.randint(0, 3)};",
            "    end",
            "    $finish;",
            "  end",
            "endmodule",
        ]
        return head + body + tail


def benches(count):
    """Each the text, and what the simulator is given in its place."""
    for seed in range(count):
        text = "\n".join(DESIGN + Bench(random.Random(711000 + seed)).lines()) + "\n"
        design, bench = text.split("module bench;")
        yield text, design + "module bench;" + re.sub(r"^  reg (\[\d+:0\] [wvz] )", r"  bit \1", bench, flags=re.MULTILINE)
