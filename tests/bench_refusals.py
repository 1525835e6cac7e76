"""The table 'refusals' of crates/design_cases: testbenches, each with the first reason why it is refused, written by hand from the
rules of docs/PROFILE.md and IEEE 1364-2005. A `@@` stands in front of the token at which the reason is told.

    tests/bench_refusals.py [FOLDER]      the table 'refusals' of crates/design_cases
"""

from lib import tables

# The designs by the name of their clock.
DESIGNS = {
    "clk": "module d(input clk, input a, output reg [1:0] q); always @(posedge clk) q <= {a, a}; endmodule",
    "-": "module d(input clk, input a, output [1:0] q); endmodule",
}
NAMES = "  reg c, x; reg [1:0] r; wire w; wire [1:0] y, v;"
INSTANCE = "  d u(.clk(c), .a(x), .q(y));"
GENERATOR = "  initial begin c = 0; forever #5 c = ~c; end"


def bench(*items, names=NAMES, head="module t;"):
    return [head, names, *["  " + item for item in items], "endmodule"]


def usual(*items, names=NAMES):
    """A bench with the usual instance and generator."""
    return bench(INSTANCE.strip(), GENERATOR.strip(), *items, names=names)


ROWS = [
    ("# clock generators", None, None),
    ("nothing", usual("initial begin x = 0; @(posedge c); x <= 1; $finish; end"), "clk"),
    ("nothing", bench(INSTANCE.strip(), "always #5 c = ~c;"), "clk"),
    ("nothing", bench(INSTANCE.strip(), "always #5 c = !c;"), "clk"),
    ("nothing", bench(INSTANCE.strip(), "initial begin : run c = 1'b0; forever #5 c = !c; end"), "clk"),
    ("nothing", bench(INSTANCE.strip(), "always #5 c = ~c;", "initial begin c = 0; x = 1; end"), "clk"),
    ("nothing", bench(INSTANCE.strip(), "initial c = 0;", "always #5 c = ~c;"), "clk"),
    ("Helper", bench(INSTANCE.strip(), "always #5 c = ~c;", "initial c = 0;", "initial begin @@c = 0; x = 1; end"), "clk"),
    ("nothing", bench(INSTANCE.strip(), "always #5 c = ~(c);", "initial begin x = 1; c = 0; end"), "clk"),
    ("nothing", bench(INSTANCE.strip(), "always #5 c = !((c));", "initial begin x = 1; begin c <= 0; end @(posedge c); end"), "clk"),
    ("nothing", bench(INSTANCE.strip(), "initial begin c <= 0; forever #5 c = ~(c); end"), "clk"),
    ("Helper", bench(INSTANCE.strip(), "always #5 c = ~c;", "initial begin x = 1; @(posedge c); @@c = 0; end"), "clk"),
    ("Helper", bench(INSTANCE.strip(), "always #5 c = ~c;", "initial begin c <= 0; x = 1; @@c <= 0; end"), "clk"),
    ("Helper", bench(INSTANCE.strip(), "always #5 c = ~c;", "initial if (x) @@c = 0;"), "clk"),
    ("ClockStart", bench(INSTANCE.strip(), "always #5 c = ~c;", "initial begin x = 0; @@c <= 1; end"), "clk"),
    ("ClockStart", bench(INSTANCE.strip(), "initial begin @@c <= 1; forever #5 c = ~c; end"), "clk"),
    ("ClockStart", bench(INSTANCE.strip(), "always #5 c = ~c;", "initial @@c = 1;"), "clk"),
    ("ClockStart", bench(INSTANCE.strip(), "initial begin @@c = 1; forever #5 c = ~c; end"), "clk"),
    ("ClockStart", bench(INSTANCE.strip(), "always #5 c = ~c;", names="  reg @@c = 1; reg x; wire [1:0] y;"), "clk"),
    ("nothing", bench(INSTANCE.strip(), "always #5 c = ~c;", "initial c = 0;", names="  reg c = 0; reg x; wire [1:0] y;"), "clk"),
    ("Helper", usual("initial @@c = 0;"), "clk"),
    ("TwoClocks", usual("@@always #3 c = ~c;"), "clk"),
    ("TwoClocks", usual("@@always #3 x = ~x;"), "clk"),
    ("TwoClocks", bench(INSTANCE.strip(), "always #3 c = ~c;", "@@initial begin x = 0; forever #5 x = ~x; end"), "clk"),
    ("Unknown", bench(INSTANCE.strip(), "always #@@h c = ~c;"), "clk"),
    ("nothing", bench("parameter H = 5;", INSTANCE.strip(), "always #H c = ~c;"), "clk"),
    ("Unknown", bench("d u(.clk(e), .a(x));", "always #5 @@e = ~e;"), "clk"),
    ("Delay", bench(INSTANCE.strip(), "initial begin c = x; forever @@#5 c = ~c; end"), "clk"),
    ("ClockList", bench(INSTANCE.strip(), "@@always #5 c = (~c);"), "clk"),
    ("nothing", bench(INSTANCE.strip()), "clk"),
    ("# the instance", None, None),
    ("Helper", usual("@@e h(.a(x));"), "clk"),
    ("Helper", usual("@@e v(.a(x));"), "clk"),
    ("Helper", bench("@@d #(.N(1)) u(.clk(c));", GENERATOR.strip()), "clk"),
    ("Helper", usual("@@d s(.clk(c));"), "clk"),
    ("Helper", bench("d u(.clk(c)), @@s(.clk(c));", GENERATOR.strip()), "clk"),
    ("Twice", bench("d @@r(.clk(c));", GENERATOR.strip()), "clk"),
    ("Twice", bench("d @@r(.clk(c), .z(x));", GENERATOR.strip()), "clk"),
    ("PortMismatch", bench("@@d r(.a(x));", GENERATOR.strip()), "clk"),
    ("Twice", bench("d u(.clk(c)), @@u(.clk(c));", GENERATOR.strip()), "clk"),
    ("Helper", bench("d u(.clk(c));", "@@d u(.clk(c));", GENERATOR.strip()), "clk"),
    ("nothing", bench("d u(c, x, y);", GENERATOR.strip()), "clk"),
    ("nothing", bench("d u(c);", GENERATOR.strip()), "clk"),
    ("nothing", bench("d u(.clk(c), .a(), .q());", GENERATOR.strip()), "clk"),
    ("nothing", bench("d u(.clk(c), .q({w, y[0]}));", GENERATOR.strip()), "clk"),
    ("PortMismatch", bench("d u(.clk(c), .@@z(x));", GENERATOR.strip()), "clk"),
    ("PortMismatch", bench("d u(.clk(c), .a(x), .@@a(x));", GENERATOR.strip()), "clk"),
    ("PortMismatch", bench("d @@u(c, x, y, x);", GENERATOR.strip()), "clk"),
    ("PortMismatch", bench("d u(.clk(c), .q(@@w + 1));", GENERATOR.strip()), "clk"),
    ("PortMismatch", bench("d u(.clk(c), .q(@@(y)));", GENERATOR.strip()), "clk"),
    ("PortMismatch", bench("d u(.clk(@@x));", GENERATOR.strip()), "clk"),
    ("PortMismatch", bench("d u(.clk(@@(c)));", GENERATOR.strip()), "clk"),
    ("PortMismatch", bench("@@d u(.a(x));", GENERATOR.strip()), "clk"),
    ("PortMismatch", bench("@@d u(.clk(), .a(x));", GENERATOR.strip()), "clk"),
    ("PortMismatch", bench("@@d u();", GENERATOR.strip()), "clk"),
    ("nothing", bench("d u(.clk(x), .a(x));", GENERATOR.strip()), "-"),
    ("Unknown", bench("d u(.clk(@@z));"), "clk"),
    ("Unknown", bench("d u(.clk(c), .a(@@z));", GENERATOR.strip()), "clk"),
    ("Unknown", bench("d u(.clk(c), .q(@@z));", GENERATOR.strip()), "clk"),
    ("SystemFunction", bench("d u(.clk(c), .a(@@$random));", GENERATOR.strip()), "clk"),
    ("# generate", None, None),
    ("Helper", usual("@@generate wire e; endgenerate"), "clk"),
    ("Helper", usual("genvar i;", "@@for (i = 0; i < 2; i = i + 1) begin : b wire e; end"), "clk"),
    ("Helper", usual("@@if (1) begin : b wire e; end"), "clk"),
    ("Helper", usual("@@if (1) begin : x wire e; end"), "clk"),
    ("Unknown", usual("assign w = @@z;", "generate wire e; endgenerate"), "clk"),
    ("# declarations and start values", None, None),
    ("Twice", usual("reg @@x;"), "clk"),
    ("RangeForm", usual("reg @@[0:1] s;"), "clk"),
    ("TooWide", usual("reg @@[128:0] s;"), "clk"),
    ("NotConstant", usual("reg s = @@x;"), "clk"),
    ("NotConstant", usual("reg s = @@$random;"), "clk"),
    ("DivideByZero", usual("reg s = 1 @@/ 0;"), "clk"),
    ("nothing", usual("reg [3:0] s = 4'd9;", "integer k = -1;"), "clk"),
    ("# assigns", None, None),
    ("Delay", usual("assign @@#1 w = x;"), "clk"),
    ("SystemFunction", usual("assign w = @@$random;"), "clk"),
    ("SystemFunction", usual("wire e = @@$random;"), "clk"),
    ("nothing", usual("assign w = $time;"), "clk"),
    ("Unknown", usual("assign v[@@z] = 1;"), "clk"),
    ("Unknown", usual("parameter P = 1;", "assign @@P = 0;"), "clk"),
    ("# second writers", None, None),
    ("Helper", usual("assign w = x;", "assign @@w = 0;"), "clk"),
    ("Helper", usual("assign w = x, @@w = 0;"), "clk"),
    ("nothing", usual("assign v[0] = x;", "assign v[1] = x;"), "clk"),
    ("Helper", usual("assign v[1:0] = 0;", "assign @@v[1] = x;"), "clk"),
    ("NotConstant", usual("assign v[@@x] = 1;", "assign v[0] = 1;"), "clk"),
    ("NotConstant", usual("assign v[@@x +: 1] = 1;"), "clk"),
    ("NotConstant", usual("assign v[0] = 1;", "assign v[@@x] = 1;"), "clk"),
    ("NotConstant", usual("assign v[0] = 1;", "assign v[@@x +: 1] = 1;"), "clk"),
    ("NotConstant", usual("assign v[0] = 1;", "assign v[@@$random] = 1;"), "clk"),
    ("NotConstant", usual("assign v[0] = 1;", "assign v[@@x:0] = 1;"), "clk"),
    ("NotConstant", usual("assign v[0] = 1;", "assign {w, v[@@x]} = 1;"), "clk"),
    ("Unknown", usual("assign v[0] = 1;", "assign v[@@z] = 1;"), "clk"),
    ("DivideByZero", usual("assign v[0] = 1;", "assign v[1 @@/ 0] = 1;"), "clk"),
    ("NotConstant", usual("initial r = 1;", "assign r[@@x] = 0;"), "clk"),
    ("NotConstant", bench("d u(.clk(c), .q({y[0], y[@@x]}));", GENERATOR.strip()), "clk"),
    ("Helper", usual("assign v[0] = 1;", "assign {@@v[0], v[x]} = 1;"), "clk"),
    ("NotConstant", bench("d u(.clk(c), .q({w, y[@@x]}));", GENERATOR.strip()), "clk"),
    ("Helper", usual("assign r[0] = 1;", "initial @@r[x] = 1;"), "clk"),
    ("nothing", usual("assign v[0 +: 1] = 1;", "assign v[1 +: 1] = 1;"), "clk"),
    ("nothing", usual("assign v[5] = 1;", "assign v = 1;"), "clk"),
    ("Helper", usual("assign {w, @@w} = 0;"), "clk"),
    ("Helper", usual("wire e = 1;", "assign @@e = 0;"), "clk"),
    ("Helper", usual("assign @@y = 0;"), "clk"),
    ("Helper", bench("assign y[1] = 0;", "d u(.clk(c), .q(@@y));", GENERATOR.strip()), "clk"),
    ("Helper", usual("assign r[0] = 0;", "initial @@r = 1;"), "clk"),
    ("nothing", usual("assign r[0] = 0;", "initial r[1] = 1;"), "clk"),
    ("Helper", usual("initial r = 1;", "assign @@r[1] = 0;"), "clk"),
    ("nothing", usual("initial r = 1;", "initial r = 0;"), "clk"),
    ("Helper", usual("assign @@c = 0;"), "clk"),
    ("Helper", bench("assign c = 0;", INSTANCE.strip(), "initial begin @@c = 0; forever #5 c = ~c; end"), "clk"),
    ("Helper", usual("assign w = 0;", "initial for (x = 0; x < 1; @@w = 1) ;"), "clk"),
    ("Helper", usual("assign w = 0;", "initial if (x) r = 1; else @@w = 1;"), "clk"),
    ("Helper", usual("assign w = 0;", "initial case (x) 0: r = 1; default: @@w <= 1; endcase"), "clk"),
    ("# the first of several", None, None),
    ("Unknown", usual("assign w = @@z;", "assign w = 0;"), "clk"),
    ("Helper", usual("assign w = 0;", "assign @@w = z;"), "clk"),
    ("Unknown", usual("assign {@@z, w} = 0;", "assign w = 0;"), "clk"),
    ("# ports of the module", None, None),
    ("nothing", bench(INSTANCE.strip(), GENERATOR.strip(), "assign w = i;", "assign o = i;", head="module t(input i, output o);"), "clk"),
    ("Unknown", bench(INSTANCE.strip(), GENERATOR.strip(), head="module t(@@i);"), "clk"),
]

ANSWERS = {
    "Unknown": "Unknown({})", "Twice": "Twice({})", "NotConstant": "NotConstant({})", "DivideByZero": "DivideByZero({})",
    "TooWide": "TooWide({})", "PortMismatch": "PortMismatch({})", "TwoClocks": "TwoClocks({})",
}


def answer(name, lines):
    if name == "nothing":
        return name
    number, line = next((n, l) for n, l in enumerate(lines, 1) if "@@" in l)
    place = f"Span {{ file: 0, line: {number}, col: {line.index('@@') + 1} }}"
    return ANSWERS.get(name, "Unsupported({}, " + name + ")").format(place)


def main():
    given, told = [], []
    for name, lines, clock in ROWS:
        if lines is None:
            given.append(name)
            told.append(name)
        else:
            given += ["\n".join(lines).replace("@@", ""), DESIGNS[clock], "look t d"]
            told.append(answer(name, lines))
    tables.save("design_cases", given, told, "refusals")


main()
