#!/usr/bin/env python3
"""Makes the testbenches that the program design_cases simulates: its input, and what Icarus Verilog prints for each.

    tests/benches.py [FOLDER]      the table 'benches' of crates/design_cases; needs iverilog and vvp

A case is a source with a design and a testbench, and a line `simulate BENCH TOP SEED CYCLES`. Its answer is the transcript, and whether
`$finish` was reached. The answers of the cases that are drawn here are Icarus Verilog's. Where the order of processes or of assignments
within one moment would show, the standard leaves it open, so the benches are free of races: the design's inputs change at falling edges
alone, by one process, and what a process reads of others was written at another edge or by nonblocking assignments.

Where the simulator and this program differ by their descriptions, the simulator gets another text: `$random` is a function that draws from
the generator XSH RR 64/32 of PCG, and the clock changes at each unit of time where `$time` is read, so that the time is the phase.
"""
import random
import re
import subprocess
import tempfile

from lib import bench_standard, saturating
from random_values import Words

from lib import tables
COUNT = 300

# benches that select by signed indices
STANDARD = 50


def lines(*texts):
    return "\n".join(texts) + "\n"


# Designs: the text, the inputs and the outputs, each (name, width, is_signed), and whether there is a clock.


def counter(rng):
    width = rng.randint(2, 12)
    step = rng.randint(1, 3)
    text = lines(
        f"module dut(input clk, input rst, input en, input [{width - 1}:0] load, output reg [{width - 1}:0] q, output top);",
        f"  assign top = &q;",
        f"  always @(posedge clk) if (rst) q <= load; else if (en) q <= q + {step};",
        "endmodule",
    )
    return text, [("rst", 1, 0), ("en", 1, 0), ("load", width, 0)], [("q", width, 0), ("top", 1, 0)], True


def shifter(rng):
    width = rng.randint(3, 20)
    tap = rng.randrange(width - 1)
    text = lines(
        f"module dut(clk, d, clear, q, parity);",
        f"  input clk, d, clear; output [{width - 1}:0] q; output parity;",
        f"  reg [{width - 1}:0] bits = {rng.randrange(1 << width)};",
        f"  assign q = bits; assign parity = ^bits;",
        f"  always @(posedge clk) bits <= clear ? {width}'d0 : {{bits[{width - 2}:0], d ^ bits[{tap}]}};",
        "endmodule",
    )
    return text, [("d", 1, 0), ("clear", 1, 0)], [("q", width, 0), ("parity", 1, 0)], True


def alu(rng):
    width = rng.randint(2, 16)
    text = lines(
        f"module dut(input signed [{width - 1}:0] a, input signed [{width - 1}:0] b, input [1:0] op, output reg signed [{width - 1}:0] y, output less);",
        "  assign less = a < b;",
        "  always @* case (op) 2'd0: y = a + b; 2'd1: y = a - b; 2'd2: y = a & b; default: y = a >>> 1; endcase",
        "endmodule",
    )
    return text, [("a", width, 1), ("b", width, 1), ("op", 2, 0)], [("y", width, 1), ("less", 1, 0)], False


def machine(rng):
    order = [0, 1, 2, 3]
    rng.shuffle(order)
    text = lines(
        "module dut(input clk, input go, input [3:0] k, output reg [1:0] state, output [7:0] sum);",
        "  reg [7:0] total = 8'd0;",
        "  assign sum = total + k;",
        "  always @(posedge clk) begin",
        "    case (state)",
        f"      2'd{order[0]}: if (go) state <= 2'd{order[1]};",
        f"      2'd{order[1]}: begin state <= 2'd{order[2]}; total <= total + {{4'd0, k}}; end",
        f"      2'd{order[2]}: state <= go ? 2'd{order[3]} : 2'd{order[1]};",
        f"      default: begin state <= 2'd{order[0]}; total <= total ^ 8'h{rng.randrange(256):02x}; end",
        "    endcase",
        "  end",
        "  initial state = 2'd0;",
        "endmodule",
    )
    return text, [("go", 1, 0), ("k", 4, 0)], [("state", 2, 0), ("sum", 8, 0)], True


DESIGNS = [counter, shifter, alu, machine]


class Bench:
    """A testbench: its variables are (name, width, is_signed, low); those of the process that is drawn stand in `own`."""

    def __init__(self, rng, inputs, outputs, clocked):
        self.rng, self.inputs, self.outputs, self.clocked = rng, inputs, outputs, clocked
        self.random = rng.random() < 0.5
        self.time = rng.random() < 0.4
        self.edge = None
        self.turns = 0

    def number(self, width=None):
        rng = self.rng
        width = width or rng.randint(1, 12)
        value = rng.randrange(1 << width)
        return rng.choice([f"{width}'d{value}", f"{width}'h{value:x}", f"{width}'b{value:b}", f"{width}'sd{value}", f"{rng.randint(0, 40)}"])

    def leaf(self):
        rng = self.rng
        kind = rng.random()
        if kind < 0.25:
            return self.number()
        name, width, _, low = rng.choice(self.readable)
        if kind < 0.45 and width > 2:
            lsb = rng.randrange(width)
            msb = rng.randrange(lsb, width)
            return f"{name}[{msb + low}:{lsb + low}]"
        if kind < 0.55 and width > 1:
            return f"{name}[{rng.randrange(width) + low}]"
        return name

    def expr(self, depth=2):
        rng = self.rng
        if depth == 0 or rng.random() < 0.25:
            return self.leaf()
        kind = rng.randrange(12)
        a, b = self.expr(depth - 1), self.expr(depth - 1)
        if kind < 4:
            return f"({a} {rng.choice('+ - * & | ^ ^~'.split())} {b})"
        if kind == 4:
            return f"({a} {rng.choice('< > <= >= == !='.split())} {b})"
        if kind == 5:
            return f"({rng.choice('~ - ! & | ^'.split())}{a})"
        if kind == 6:
            return f"({a} {rng.choice('<< >> >>> <<<'.split())} {rng.choice([str(rng.randint(0, 9)), self.leaf()])})"
        if kind == 7:
            return f"({a} ? {b} : {self.expr(depth - 1)})"
        if kind == 8:
            return "{" + f"{self.leaf_sized()}, {self.leaf_sized()}" + "}"
        if kind == 9:
            return "{" + f"{rng.randint(1, 3)}{{{self.leaf_sized()}}}" + "}"
        if kind == 10:
            return f"{rng.choice(['$signed', '$unsigned'])}({a})"
        return f"({a} {rng.choice(['&&', '||'])} {b})"

    def leaf_sized(self):
        rng = self.rng
        name, width, _, low = rng.choice(self.readable)
        if rng.random() < 0.5 and width > 1:
            return f"{name}[{rng.randrange(width) + low}]"
        if rng.random() < 0.3:
            size = rng.randint(1, 8)
            return f"{size}'d{rng.randrange(1 << size)}"
        return name

    def target(self):
        """A left side among the own variables."""
        rng = self.rng
        name, width, _, low = rng.choice(self.own)
        kind = rng.random()
        if kind < 0.6 or width < 3:
            return name
        if kind < 0.75:
            return f"{name}[{rng.randrange(width) + low}]"
        if kind < 0.9:
            lsb = rng.randrange(width)
            msb = rng.randrange(lsb, width)
            return f"{name}[{msb + low}:{lsb + low}]"
        other = rng.choice([x for x in self.own if x[0] != name] or [(name, width, 0, low)])
        return f"{{{name}, {other[0]}}}" if other[0] != name else name

    def shown(self):
        """A `$display` or a `$write`."""
        rng = self.rng
        pieces, arguments = [], []
        for _ in range(rng.randint(1, 3)):
            form = rng.choice(["%b", "%o", "%h", "%d", "%0d", "%0b", "%0h", "%x", "%%", "%s", "%t", "%0t"])
            pieces.append(rng.choice(["", "v=", " ", ", "]) + form)
            if form == "%s":
                arguments.append(rng.choice(['"on"', '"off"', '"a b"']))
            elif form in ("%t", "%0t"):
                arguments.append("$time" if self.time else self.leaf())
            elif form == "%d":
                # of a padded signed value the simulator counts the digits otherwise
                arguments.append(f"$unsigned({self.expr(1)})")
            elif form != "%%":
                arguments.append(self.expr(1))
        if self.time and rng.random() < 0.3:
            pieces.append(" @%0d")
            arguments.append("$time")
        if rng.random() < 0.1:
            values = [x if x[0] == '"' or x == "$time" else f"$unsigned({x})" for x in arguments]
            return f"$display({', '.join(values) or '5'});"
        text = "".join(pieces)
        name = "$display" if rng.random() < 0.85 else "$write"
        return f"{name}({', '.join([chr(34) + text + (chr(92) + 'n' if name == '$write' else '') + chr(34)] + arguments)});"

    def wait(self):
        return f"@({self.edge} clk)"

    def statement(self, depth, may_wait):
        rng = self.rng
        kind = rng.randrange(13)
        if depth == 0 or kind < 4:
            kind = rng.random()
            if kind < 0.45:
                if self.random and rng.random() < 0.35:
                    return f"{self.target()} = {rng.choice(['$random', '$random & 15', '{$random, $random}', '$random - 3'])};"
                return f"{self.target()} = {self.expr()};"
            if kind < 0.7:
                return self.shown()
            if kind < 0.85 and may_wait:
                return f"{self.wait()} {rng.choice([';', self.shown()])}"
            return f"{self.target()} <= {self.expr()};" if self.edge != "start" else self.shown()
        inner = lambda: self.statement(depth - 1, may_wait)
        if kind == 4:
            return f"if ({self.expr(1)}) {inner()}"
        if kind == 5:
            return f"if ({self.expr(1)}) begin {inner()} end else {inner()}"
        if kind == 6:
            word = rng.choice(["case", "casez"])
            items = []
            for _ in range(rng.randint(1, 3)):
                label = self.number(4) if word == "case" else "4'b" + "".join(rng.choice("01?") for _ in range(4))
                items.append(f"{label}: {inner()}")
            if rng.random() < 0.7:
                items.append(f"default: {inner()}")
            return f"{word} ({self.expr(1)}) {' '.join(items)} endcase"
        if kind == 7 and self.turns < 2:
            self.turns += 1
            text = f"for (i{self.turns} = 0; i{self.turns} < {rng.randint(1, 5)}; i{self.turns} = i{self.turns} + 1) begin {inner()} {inner()} end"
            self.turns -= 1
            return text
        if kind == 8:
            return f"repeat ({rng.choice([str(rng.randint(0, 4)), '(' + self.leaf() + ' & 3)'])}) begin {inner()} {inner()} end"
        if kind == 9 and self.turns < 2:
            self.turns += 1
            name = f"i{self.turns}"
            text = f"begin {name} = {rng.randint(1, 4)}; while ({name} > 0) begin {name} = {name} - 1; {inner()} end end"
            self.turns -= 1
            return text
        if kind == 10 and may_wait:
            return f"repeat ({rng.randint(1, 4)}) {self.wait()};"
        return f"begin {' '.join(inner() for _ in range(rng.randint(1, 3)))} end"

    def variables(self, count, prefix):
        rng = self.rng
        made = []
        for k in range(count):
            width = rng.choice([1, 2, 4, 7, 8, 16, 33])
            low = rng.choice([0, 0, 0, 2]) if width > 1 else 0
            made.append((f"{prefix}{k}", width, rng.random() < 0.4, low))
        return made

    def declared(self, x):
        name, width, is_signed, low = x
        bounds = f" [{width - 1 + low}:{low}]" if width > 1 else ""
        return f"  reg{' signed' if is_signed else ''}{bounds} {name} = {self.rng.randrange(1 << min(width, 10))};"

    def text(self):
        rng = self.rng
        stimulus, monitor = self.variables(3, "s"), self.variables(3, "m")
        nets = [(f"w{k}", rng.choice([1, 5, 8]), 0, 0) for k in range(2)]
        drive = [(name, width, is_signed, 0) for name, width, is_signed in self.inputs]
        read = [(name, width, is_signed, 0) for name, width, is_signed in self.outputs]
        # the simulator takes a first change from an unknown value to 0 for a falling edge
        out = ["module bench;", "  reg clk = 0;"]
        for x in stimulus + monitor:
            out.append(self.declared(x))
        for name, width, is_signed, _ in drive:
            out.append(f"  reg{' signed' if is_signed else ''}{f' [{width - 1}:0]' if width > 1 else ''} {name} = 0;")
        for name, width, is_signed, _ in read:
            out.append(f"  wire{' signed' if is_signed else ''}{f' [{width - 1}:0]' if width > 1 else ''} {name};")
        for name, width, _, _ in nets:
            out.append(f"  wire{f' [{width - 1}:0]' if width > 1 else ''} {name};")
        out.append("  integer i1, i2, j1, j2;")
        ports = (["clk"] if self.clocked else []) + [x[0] for x in self.inputs + self.outputs]
        joins = {p: p for p in ports}
        for name, width, _, _ in drive:
            if rng.random() < 0.3:
                joins[name] = f"({name} ^ {width}'d{rng.randrange(1 << width)})"
        if rng.random() < 0.5:
            out.append("  dut u(" + ", ".join(joins[p] for p in ports) + ");")
        else:
            order = ports[:]
            rng.shuffle(order)
            out.append("  dut u(" + ", ".join(f".{p}({joins[p]})" for p in order) + ");")
        self.readable = read
        for name, _, _, _ in nets:
            out.append(f"  assign {name} = {self.expr(2)};")
        out.append(rng.choice(["  initial begin clk = 0; forever #1 clk = ~clk; end", "  always #1 clk = !clk;"]))
        # what is seen at rising edges: nets and what the stimulus drives, all written at falling edges
        self.edge, self.own, self.readable = "posedge", monitor, monitor + read + drive + nets
        self.turns = 0
        body = " ".join(self.statement(2, False) for _ in range(rng.randint(1, 3)))
        body = re.sub(r"\bi([12])\b", r"j\1", body)
        out.append(f"  always @(posedge clk) begin {body} end")
        # the stimulus: at falling edges
        out.append("  initial begin")
        self.edge, self.own, self.readable = "start", stimulus + drive, stimulus
        for _ in range(rng.randint(0, 2)):
            out.append(f"    {self.statement(1, False)}")
        self.edge, self.own, self.readable = "negedge", stimulus + drive, stimulus + drive + read + nets
        out.append("    @(negedge clk);")
        for _ in range(rng.randint(3, 7)):
            out.append(f"    {self.statement(3, True)}")
            if rng.random() < 0.5:
                out.append("    @(negedge clk);")
        out.append("    @(negedge clk) $display(\"end\");")
        out.append("    $finish;")
        out.append("  end")
        out.append("endmodule")
        return lines(*out)


FUNCTION = """
  reg [63:0] pcg_state = 64'd{state}; reg [63:0] pcg_old; reg [31:0] pcg_mixed;
  function signed [31:0] pcg_word; input unused; begin
    pcg_old = pcg_state; pcg_state = pcg_old * 64'd6364136223846793005 + 64'd{increment};
    pcg_mixed = ((pcg_old >> 18) ^ pcg_old) >> 27;
    pcg_word = (pcg_mixed >> (pcg_old >> 59)) | (pcg_mixed << ((32 - (pcg_old >> 59)) & 31));
  end endfunction
"""


def simulated(text, seed, year=2005):
    """What Icarus Verilog prints, or None where it does not end, or some bit is unknown."""
    words = Words(seed)
    source = text.replace("$random", "pcg_word(1'b0)")
    source = source.replace("module bench;", "module bench;" + FUNCTION.format(state=words.state, increment=words.increment))
    with tempfile.TemporaryDirectory() as work:
        with open(f"{work}/m.v", "w") as out:
            out.write(source)
        made = subprocess.run(["iverilog", f"-g{year}", "-s", "bench", "-o", f"{work}/m.vvp", f"{work}/m.v"], capture_output=True, text=True)
        if made.returncode:
            raise SystemExit(made.stderr + source)
        try:
            shown = subprocess.run(["vvp", "-n", f"{work}/m.vvp"], capture_output=True, text=True, timeout=2)
        except subprocess.TimeoutExpired:
            return None
    out = re.sub(r"\S*m\.v:\d+: \$finish called at \d+ \(1s\)\n", "", shown.stdout)
    return out if len(out) < 3000 else None


def drawn(k):
    """The k-th case: its text, seed and answer."""
    for attempt in range(100):
        rng = random.Random(1000 * k + attempt)
        text, inputs, outputs, clocked = DESIGNS[k % len(DESIGNS)](rng)
        bench = Bench(rng, inputs, outputs, clocked)
        source = text + bench.text()
        seed = rng.randrange(1 << 64)
        answer = simulated(source, seed)
        if answer is None or re.search("[xXzZ]", answer):
            continue
        # nor may it show otherwise that the counter's start is unknown to the simulator
        begun = source.replace("  assign top = &q;", "  assign top = &q;\n  initial q = 0;")
        if begun == source or simulated(begun, seed) == answer:
            return source, seed, answer
    raise SystemExit(f"no case {k}")


GATE = "module g(input a, input b, output y); assign y = a & b; endmodule\n"


def gate_bench(*items):
    return GATE + lines("module t;", "  reg a = 0, b = 0, clk = 0; wire y, z;", *("  " + item for item in items), "endmodule")


def by_hand():
    """Cases whose answers were worked out by hand: what a limit of cycles leaves, and the places of refusals."""
    clock, gate = "always #1 clk = ~clk;", "g u(a, b, y);"
    place = lambda line, col: "Span { file: 0, line: %d, col: %d }" % (line, col)
    refused = lambda word, line, col: f"{word}({place(line, col)})\n"
    helper = lambda line, col: f"Unsupported({place(line, col)}, Helper)\n"
    return [
        ("a counter that saturates, with as many cycles as its bench takes", lines(*saturating.DESIGN, *saturating.BENCH), "sat_tb sat 1 261", "ALL GOOD\nfinished\n"),
        ("and with one fewer", lines(*saturating.DESIGN, *saturating.BENCH), "sat_tb sat 1 260", "not finished\n"),
        ("the 100,001st statement of a phase is one too many", gate_bench(clock, gate, 'initial begin $display("on"); forever a = ~a; end'), "t g 1 5", "on\nnot finished\n"),
        ("100,000 are not: a block, a repeat, its turns of two, its last test and the end", gate_bench(clock, gate, "initial begin repeat (49998) a = ~a; $finish; end"), "t g 1 5", "finished\n"),
        ("and one more is", gate_bench(clock, gate, "initial begin repeat (49998) a = ~a; ; $finish; end"), "t g 1 5", "not finished\n"),
        ("nothing holds the design", gate_bench(clock), "t g 1 5", "NoDesign\n"),
        ("nothing turns the clock", gate_bench(gate), "t g 1 5", "NoClock\n"),
        ("two generators", gate_bench(clock, gate, "always #2 b = !b;"), "t g 1 5", refused("TwoClocks", 6, 3)),
        ("a second instance", gate_bench(clock, gate, "g v(a, b, z);"), "t g 1 5", helper(6, 3)),
        ("assigns that loop", gate_bench(clock, gate, "assign z = ~z;"), "t g 1 5", helper(6, 10)),
        ("a loop through the design", gate_bench(clock, "wire x; g u(x, b, y);", "assign x = y;"), "t g 1 5", helper(5, 11)),
        ("a second writer", gate_bench(clock, gate, "assign y = a;"), "t g 1 5", helper(6, 10)),
        ("the clock is set by a nonblocking assignment in a block", gate_bench("always #1 clk = ~(clk);", gate, 'initial begin a = 1; begin clk <= 0; end @(posedge clk) $display("up"); @(negedge clk) $display("down"); $finish; end'), "t g 1 5", "up\ndown\nfinished\n"),
        ("and by its generator", gate_bench("initial begin clk <= 0; forever #1 clk = !((clk)); end", gate, 'initial begin @(posedge clk) a = 1; @(negedge clk) $display("%b", clk); $finish; end'), "t g 1 5", "0\nfinished\n"),
        ("a wait in an `always`", gate_bench(clock, gate, "always @(posedge clk) @(negedge clk) a = 1;"), "t g 1 5", f"Unsupported({place(6, 25)}, ClockList)\n"),
    ]


def main():
    cases, answers = [], []
    for what, source, line, answer in by_hand():
        cases.append(f"# {what}\n{source}simulate {line}\n")
        answers.append(f"# {what}\n{answer}")
    for k in range(COUNT):
        source, seed, answer = drawn(k)
        cases.append(f"{source}simulate bench dut {seed} 2000\n")
        answers.append(f"{answer}finished\n")
    for source, given in bench_standard.benches(STANDARD):
        answer = simulated(given, 1, 2012)
        if answer is not None and not re.search("[xz]", answer):
            cases.append(f"{source}simulate bench dut 1 2000\n")
            answers.append(f"{answer}finished\n")
    tables.save("design_cases", "".join(cases), "".join(answers), "benches")


if __name__ == "__main__":
    main()
