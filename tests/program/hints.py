"""What a terminal is told behind the line of each refusal: a table of small projects, each with one fault.

A row has the name of the fault, what is changed in the project below, and a part of its hint. The line of the file is the one that the line
of the outcome tells, with a caret below its place; where that tells none it is the header of the test, or there is no line.
"""

import os
import re
import subprocess
import tempfile

CONFIG = """[options]
size 4
tags A B
[script]
read_verilog d.v
prep -top d
[files]
d.v
[logic]
if result("t") == "PASS":
    tag("A")
else:
    tag("B")
[test t]
sim b b.v
pass OK
"""
DESIGN = """module d(input clk, input a, input [3:0] v, output reg q);
  // here
  always @(posedge clk) q <= a;
endmodule
module e(input a, output y);
  assign y = a;
endmodule
"""
BENCH = """module b;
  reg clk, a;
  reg [3:0] v;
  wire q;
  d u(.clk(clk), .a(a), .v(v), .q(q));
  initial begin clk = 0; forever #1 clk = ~clk; end
  // here
  initial begin
    a = 1;
    repeat (3) @(posedge clk);
    if (q) $display("OK");
    $finish;
  end
endmodule
"""
NESTED = "(" * 201
INPUTS = ", ".join(f"input [127:0] i{number}" for number in range(17))
REGISTERS = "\n".join(f"  reg [127:0] r{number}; always @(posedge clk) r{number} <= r{number} + 128'd1;" for number in range(33))
TURNS = "genvar i; generate for (i = 0; i < 5000; i = i + 1) begin : g wire w; end endgenerate"
PRODUCTS = "wire [127:0] x = {32{v}}; wire [127:0] y = x * x; wire [127:0] z = y * y;"
MACROS = "\n".join(["`define M0 a", *(f"`define M{number} `M{number - 1}" for number in range(1, 18))])

# Each in the design in place of its comment: the name of the fault, the item, and a part of the hint.
ITEMS = (
    ("BadCharacter", "wire w = é;", "no token begins with this character"),
    ("OpenComment", "/* never ended", "has no */"),
    ("OpenString", 'wire w = "open;', "does not end in its line"),
    ("BadNumber", "\twire w = 32'h 0;", "no blank within"),
    ("Unexpected", "wire w = ;", "look for a missing ;"),
    ("Unexpected", "reg r; always @(posedge clk) r <= #1 a;", "no delay stands behind"),
    ("Unexpected", 'wire w = "x";', "a string stands among the arguments"),
    ("Unexpected", "wire w = v[1 -: 1];", "[lo +: width]"),
    ("UnknownMacro", "wire w = `NONE;", "no `define of this name"),
    ("OpenCondition", "`ifdef X", "has no `endif"),
    ("TooDeep", f"wire w = {NESTED}a;", "at most 200 constructs"),
    ("Unsupported MacroDepth", f"{MACROS}\n  wire w = `M17;", "at most 16 deep"),
    ("Unsupported MacroForm", "`define F(x) x", "a macro has no arguments"),
    ("Unsupported Include", '`include "f.v"', "name the file in read_verilog"),
    ("Unsupported DirectiveName", "`celldefine", "leave the directive out"),
    ("Unsupported NetKind", "tri w;", "wire is the only kind"),
    ("Unsupported Inout", "inout p;", "make two of it"),
    ("Unsupported Function", "function f; input x; f = x; endfunction", "no functions here"),
    ("Unsupported Task", "task t; endtask", "no tasks here"),
    ("Unsupported Specify", "specify endspecify", "leave the block out"),
    ("Unsupported Defparam", "defparam u.P = 1;", "give the parameter at the instance"),
    ("Unsupported Primitive", "and g(w, a, a);", "write the gate as an assign"),
    ("Unsupported RealOrTime", "real r;", "whole numbers"),
    ("Unsupported GenerateCase", "case (1) 1: wire w; endcase", "as if and else"),
    ("Unsupported Memory", "reg m [0:3];", "no memories here"),
    ("Unsupported SystemVerilog", "logic l;", "this is SystemVerilog"),
    ("Twice", "wire w; wire w;", "is declared before"),
    ("Unknown", "\twire w = a\t& lost;", "nothing of this name"),
    ("Recursive", "d u(.clk(clk), .a(a), .v(v));", "an instance of itself"),
    ("PortMismatch", "e u(.none(a));", "lacks this port"),
    ("NotConstant", "wire [a:0] w;", "a constant stands here"),
    ("DivideByZero", "wire w = 1 / 0;", "by 0"),
    ("TooWide", "wire [200:0] w;", "at most 128 bits"),
    ("TwoWriters w", "wire w; assign w = a; assign w = ~a;", "let one of them write"),
    ("Latch l", "reg l; always @* if (a) l = 1;", "in each else and default"),
    ("Loop", "wire w; assign w = w & a;", "without a register"),
    ("Unsupported RangeForm", "wire [0:3] w;", "[hi:lo] with hi not below lo"),
    ("Unsupported DivideOrPower", "wire w = v / a;", "between constants alone"),
    ("Unsupported ClockList", "reg r; always r = a;", "an always has @*"),
    ("Unsupported FallingClock", "reg r; always @(negedge clk) r <= a;", "runs at a posedge"),
    ("Unsupported GatedClock", "wire g = ~a; reg r; always @(posedge g) r <= a;", "make an enable"),
    ("Unsupported ClockAsData", "wire w = clk;", "no expression reads it"),
    ("Unsupported MixedAssign", "reg r; always @(posedge clk) begin r = a; r <= a; end", "take one of them"),
    ("Unsupported NonblockingInComb", "reg r; always @* r <= a;", "assigns by ="),
    ("Unsupported IndexedBase", "wire [4:1] x = v; wire w = x[v];", "declare the vector as"),
    ("Unsupported Delay", "wire w; assign #1 w = a;", "no delays, no waits"),
    ("Unsupported SystemTask", 'always @(posedge clk) $display("x");', "put it into the bench"),
    ("Unsupported SystemFunction", "wire w = $random;", "are the system functions of a design"),
    ("Unsupported InitialForm", "reg r; initial if (1) r = 0;", "gives whole registers constants"),
    ("TooMany LoopTurns", TURNS, "at most 4,096 turns"),
    ("TooMany RegisterBits", REGISTERS, "at most 4,096 bits"),
)
# The same in the bench.
BENCH_ITEMS = (
    ("Twice", "reg a;", "is declared before"),
    ("TwoClocks", "initial begin clk = 0; forever #1 clk = ~clk; end", "one clock generator"),
    ("Unsupported ClockList", "initial @(posedge a);", "waits for one edge of its clock"),
    ("Unsupported Delay", "initial #10;", "wait for edges"),
    ("Unsupported SystemTask", "initial $stop;", "the tasks of a bench"),
    ("Unsupported SystemFunction", "initial a = $test$plusargs;", "the functions of a bench"),
    ("Unsupported Helper", "e u2(.a(a));", "one instance of the design"),
    ("Unsupported FormatText", 'initial $display("%q");', "formats are"),
)
# Others: the name, the file, what stands there, what stands there in its place, and a part of the hint.
CHANGES = (
    ("Unexpected", "d.v", "module d(", "(* top *) module d(", "attributes stand"),
    ("PortMismatch", "b.v", ".v(v)", ".none(v)", "does not fit the design's ports"),
    ("Unsupported ClockStart", "b.v", "clk = 0", "clk = 1", "begins with 0"),
    ("NoDesign", "b.v", "  d u(.clk(clk), .a(a), .v(v), .q(q));\n", "", "has no instance of the design's top"),
    ("NoClock", "b.v", "  initial begin clk = 0; forever #1 clk = ~clk; end\n", "", "its bench has no clock"),
    ("NoTop", "config.mcy", "-top d", "-top none", "no module in the files"),
    ("BadLine", "config.mcy", "size 4", "size", "not the form of the line"),
    ("BadLine", "config.mcy", "size 4", "require 90 C of A B", "names a tag or a file that there is not"),
    ("NoSites", "config.mcy", "size 4", "only d.v:2-2", "mcy init without them tells how many"),
    ("UnknownKey", "config.mcy", "size 4", "\tsizes 4", "no line of this section"),
    ("Repeated", "config.mcy", "size 4", "size 4\nsize 4", "may stand once"),
    ("OutOfRange", "config.mcy", "size 4", "size 0", "out of its range"),
    ("UnsupportedCommand", "config.mcy", "read_verilog d.v", "read -sv d.v", "a test has sim MODULE FILE"),
    ("Missing Script", "config.mcy", "[script]\nread_verilog d.v\nprep -top d\n", "", "a section [script]"),
    ("Missing Read", "config.mcy", "read_verilog d.v\n", "", "names the files of the design"),
    ("Missing Top", "config.mcy", "prep -top d\n", "", "names the top module"),
    ("Missing Logic", "config.mcy", CONFIG[CONFIG.index("[logic]") : CONFIG.index("[test t]")], "", "gives each mutation its tags"),
    ("Missing Kind 0", "config.mcy", "sim b b.v\npass OK\n", "", "no line sim MODULE"),
    ("Missing Pass 0", "config.mcy", "pass OK\n", "", "no line pass TEXT"),
    ("Indent", "config.mcy", '    tag("A")', '\ttag("A")', "indent by spaces"),
    ("Bad", "config.mcy", "else:", "else", "no statement of the scripts"),
    ("UnknownTest", "config.mcy", 'result("t")', 'result("none")', "no section [test NAME]"),
    ("UnknownTag", "config.mcy", 'tag("A")', 'tag("C")', "lacks this name"),
    ("Unassigned", "config.mcy", 'if result("t") == "PASS":', "if word:", "has no value"),
    ("NotUtf8", "d.v", "// here", "// \udcff", "belongs to no character: save"),
    ("NotUtf8 10", "config.mcy", "size 4", "\udcffsize 4", "so many bytes are UTF-8"),
)
EQ = "sim b b.v\npass OK\n", "eq\n"
LINE = re.compile(r"mcy: ([^:]+):(\d+)(?::(\d+))?: ")


def blank(text):
    return "".join("\t" if char == "\t" else " " for char in text)


def shown(line):
    """A line as a terminal is shown it."""
    return "".join(chr(byte) if byte == 9 or 32 <= byte < 127 else " " if byte < 32 else "?" for byte in line)


def excerpt(number, line, at):
    start = at - 30 if at > 60 else 0
    part = shown(line[start : start + 160])
    return f"\x1b[?7l{number:5} | {part}\n      | {blank(part[: at - start])}^\n\x1b[?7h"


def place(first, files):
    """What a terminal is shown of the place that the first line tells; for a test that of its header."""
    told = LINE.match(first)
    if told is None and not re.search(r"NoDesign|NoClock|Missing (Kind|Pass)", first):
        return ""
    name, number, col = told.groups() if told else ("config.mcy", CONFIG[: CONFIG.index("[test t]")].count("\n") + 1, None)
    lines = files[name].encode().split(b"\n")
    line = lines[int(number) - 1]
    at = int(col) - 1 if col else len(line) - len(line.lstrip(b" \t"))
    return excerpt(int(number), line, at)


def write(here, files):
    for name, text in files.items():
        with open(os.path.join(here, name), "w", encoding="utf-8", errors="surrogateescape", newline="") as out:
            out.write(text)


def check(program, on_terminal, name, files, hint, words=("init",)):
    """A refusal for this fault: its line, the line of the file, and the hint."""
    with tempfile.TemporaryDirectory() as here:
        write(here, files)
        piped = subprocess.run([program, *words], cwd=here, capture_output=True, timeout=60)
        first = piped.stderr.decode()
        assert first.endswith(f": {name}\n") and first.count("\n") == 1, (name, piped)
        seen = on_terminal(program, list(words), here)[2].decode().replace("\r\n", "\n")
    head = first + place(first, files)
    assert seen.startswith(head), (name, seen, head)
    told = seen.removeprefix(head)
    assert told.startswith("mcy: ") and hint in told and told.count("\n") == 1 and told.endswith("\n"), (name, told)


def cases():
    base = {"config.mcy": CONFIG, "d.v": DESIGN, "b.v": BENCH}
    for name, item, hint in ITEMS:
        yield name, {**base, "d.v": DESIGN.replace("// here", item)}, hint
    for name, item, hint in BENCH_ITEMS:
        yield name, {**base, "b.v": BENCH.replace("// here", item)}, hint
    for name, file, old, new, hint in CHANGES:
        assert old in base[file], (name, old)
        yield name, {**base, file: base[file].replace(old, new, 1)}, hint
    equal = {**base, "config.mcy": CONFIG.replace(*EQ)}
    yield "TooMany Gates", {**equal, "d.v": DESIGN.replace("// here", PRODUCTS)}, "at most 100,000 gates"
    yield "TooMany FreeBits", {**equal, "d.v": DESIGN.replace("input a", f"{INPUTS}, input a", 1)}, "at most 2,048 bits"


def check_table(program, on_terminal):
    count = 0
    for name, files, hint in cases():
        check(program, on_terminal, name, files, hint)
        count += 1
    return count


def told_hint(program, on_terminal, words, here, status, lines, hint):
    """Lines of a refusal on a terminal: those that stand elsewhere too, and a hint."""
    told = on_terminal(program, words, here)
    seen = told[2].decode().replace("\r\n", "\n")
    head = "".join(f"mcy: {line}\n" for line in lines)
    assert told[0] == status and seen.startswith(head), (words, told)
    rest = seen.removeprefix(head)
    assert rest.startswith("mcy: ") and hint in rest and rest.count("\n") == 1, (words, told)


def check_calls(program, on_terminal):
    """The refusals that are no fault of a text."""
    base = {"config.mcy": CONFIG, "d.v": DESIGN, "b.v": BENCH}
    with tempfile.TemporaryDirectory() as here:
        told_hint(program, on_terminal, ["status"], here, 6, ["config.mcy: missing"], "in the folder of config.mcy")
        write(here, base)
        told_hint(program, on_terminal, ["status"], here, 8, ["no campaign"], "run or init begins one")
        assert on_terminal(program, ["init"], here)[0] == 0
        told_hint(program, on_terminal, ["init"], here, 9, ["campaign already begun"], "run goes on with it")
        told_hint(program, on_terminal, ["run", "--mutations", "99"], here, 22, ["no mutation 99"], "list numbers the mutations")
        for place_in_book, (name, text) in enumerate(base.items(), 1):
            write(here, {name: text + "\n"})
            told_hint(program, on_terminal, ["run"], here, 10, [f"database: meta {place_in_book}"], f"mcy: {name} has changed")
            write(here, base)
        write(here, {"d.v": DESIGN + " " * 1_048_576})
        told_hint(program, on_terminal, ["run"], here, 7, ["d.v: too large"], "at most 1,048,576 bytes")
        os.remove(os.path.join(here, "d.v"))
        os.mkdir(os.path.join(here, "d.v"))
        told_hint(program, on_terminal, ["run"], here, 11, ["d.v: read fault"], "may not be read")
    with tempfile.TemporaryDirectory() as here:
        write(here, {**base, "config.mcy": CONFIG.replace("size 4", "size 4\nbaseline on").replace("pass OK", "pass NONE")})
        for word in ("init", "run", "baseline"):
            told_hint(program, on_terminal, [word], here, 20, ["baseline not passed"], "mcy baseline tells which")
    with tempfile.TemporaryDirectory() as here:
        write(here, {**base, "mcy.db": "no database\n" * 1000})
        lines = ["database fault", "mcy.db: another program's, or damaged"]
        told_hint(program, on_terminal, ["run"], here, 12, lines, "once the cause is gone")
    with tempfile.TemporaryDirectory() as here:
        usage = "usage: mcy init | run [-j N] [--stop-after N] [--retry N] | list | status | source"
        told_hint(program, on_terminal, ["none"], here, 2, [usage], "run begins the campaign")


def check_narrow(program, on_terminal):
    """A place behind more than 60 bytes is shown from 30 bytes in front of it, and no line goes on on another one."""
    files = {"config.mcy": CONFIG, "d.v": DESIGN.replace("// here", f"wire w = {'a & ' * 20}lost;"), "b.v": BENCH}
    check(program, on_terminal, "Unknown", files, "nothing of this name")


def check_all(program, on_terminal):
    count = check_table(program, on_terminal)
    check_narrow(program, on_terminal)
    check_calls(program, on_terminal)
    return count
