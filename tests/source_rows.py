#!/usr/bin/env python3
"""Designs that are taken, and faults of sources at their places: a part of the cases of crates/mcy_cases, worked out by hand.

    tests/source_rows.py [FOLDER]      a part of the table of crates/mcy_cases

A source has the mark `§` in front of the byte at which it is refused. The script takes the mark out and counts the line and the
column there. `~` stands for the end of a line. What is said of places, sites and words is said here by hand, once for each row.
"""


from lib import tables

FULL = ('[options]~size 10~modes inv~tags CHANGED NOCHANGE~[script]~read_verilog {names}~prep -top g~[files]~g.v~[logic]~'
        'if result("same") == "PASS":~    tag("NOCHANGE")~else:~    tag("CHANGED")~[test same]~eq~expect PASS FAIL~')
SHORT = '[script]~read_verilog {names}~prep -top g~[logic]~pass~'


def place(text):
    before = text[: text.index("§")].replace("~", "\n").encode()
    column = len(before) - before.rfind(b"\n")
    return "%d:%d" % (before.count(b"\n") + 1, column)


class Rows:
    def __init__(self):
        self.given, self.told = [], []

    def note(self, text):
        self.given.append(f"# {text}")
        self.told.append(f"# {text}")

    def begin(self, config, files):
        names = " ".join(files)
        self.given += ["new", f"hold config.mcy {config.format(names=names)}"]
        self.given += [f"hold {name} {text.replace('§', '')}" for name, text in files.items()]

    def call(self, words, told):
        self.given.append(f"call {words}")
        self.told += [f"> {words}", *told]

    def refused(self, line, files, status=5, config=SHORT):
        """A row that is refused with this line."""
        self.begin(config, files)
        self.given.append("fail-keeper 0 0")
        self.call("init", [f"status {status}", f"mcy: {line}", "0 items, 0 mutations"])

    def at(self, fault, text, **more):
        """A row whose one file is refused at the mark."""
        self.refused(f"g.v:{place(text)}: {fault}", {"g.v": text}, **more)

    def init(self, sites, mutations, files, config=SHORT):
        text = f"Sites: {sites}\nMutations: {mutations}\n"
        self.begin(config, files)
        self.call("init", ["status 0", *text.splitlines(), f"{len(text)} bytes",
                           f"{2 + len(files)} items, {mutations} mutations"])

    def run_all(self, files, lines, config=FULL):
        """A run of inverted sites, each of which has a place and whether it is seen, and its list."""
        self.begin(config, files)
        n, seen = len(lines), sum(1 for _, it in lines if it)
        status = (f"Mutations: {n}\nFinished: {n}\nTest same: PASS {n - seen} FAIL {seen} UNKNOWN 0\n"
                  f"Tag CHANGED: {seen}\nTag NOCHANGE: {n - seen}\nAsserts: 0\nUnexpected: 0\n")
        book = [f"{2 + len(files)} items, {n} mutations"]
        book += [f"{i} {i} 0 {int(it)} 1 {1 if it else 2} 20000" for i, (_, it) in enumerate(lines)]
        self.call("run", ["status 0", *status.splitlines(), f"{len(status)} bytes", *book])
        listed = "".join(f"{i}: inv {where} [same={'FAIL' if it else 'PASS'}] {'CHANGED' if it else 'NOCHANGE'}\n"
                         for i, (where, it) in enumerate(lines, 1))
        if listed:
            self.call("list", ["status 0", *listed.splitlines(), f"{len(listed)} bytes", *book])
        else:
            self.call("list", ["status 0", *book])


def module(body, head="input a, input b, output y"):
    return f"module g({head});~{body}~endmodule~"


r = Rows()
r.note("A design may be laid out in any way: line ends, blanks and comments make no cells.")
and_text = "module g(input a, input b, output y);~  assign y = a & b;~endmodule"
for text in [and_text, f"{and_text}~~", and_text.replace("~", "\r~"), "module g(input a,input b,output y);assign y=a&b;endmodule",
             f"// g~{and_text} /* g */~", "module g(a, b, y);~  input a, b;~  output y;~  wire y = a & b;~endmodule~",
             "module g(input \\a+b , input b, output y);~  assign y = \\a+b & b;~endmodule~"]:
    r.init(3, 3, {"g.v": text}, config=FULL)
r.note("A design may have no cells, and then a run has nothing to do.")
r.run_all({"g.v": "module g(input a, output y);~  assign y = a;~endmodule~"}, [])
r.run_all({"g.v": "module g(input a);~endmodule~"}, [])
r.run_all({"g.v": "module g();~endmodule~"}, [])
r.note("Operators are cells of their kind, in their order, and an output that nothing drives is 0.")
r.run_all({"g.v": module("  assign y = !a + b;", "input a, input b, output y, output z")},
          [(f"g cell lnot_0 {p} 0 g.v:2", True) for p in "AY"] + [(f"g cell add_1 {p} 0 g.v:2", True) for p in "ABY"])
r.note("A register in a module of its own: its D and Q are sites, and its next value is compared as outputs are.")
r.run_all(
    {"h.v": "module h(input c, input d, output reg q);~  always @(posedge c) q <= d ^ q;~endmodule~",
     "g.v": "module g(input clk, input a, output y);~  h u(.c(clk), .d(a), .q(y));~endmodule~"},
    [(f"g cell xor_0 {p} 0 h.v:2", True) for p in "ABY"] + [(f"g reg u.q {p} 0 h.v:1", True) for p in "DQ"])
r.run_all(
    {"g.v": "module g(input clk, input a, input b, output y);~  reg q;~  always @(posedge clk) q <= a & b;~  assign y = a;~endmodule~"},
    [(f"g cell and_0 {p} 0 g.v:3", True) for p in "ABY"] + [("g reg q D 0 g.v:2", True), ("g reg q Q 0 g.v:2", False)])
r.note("Parameters and blocks of generate, whose conditions are constants.")
for condition, kind in [("-1 > 0", "or"), ("-1 > 1'b0", "and"), ("3 ** 2 == 32'd9", "and"), ("8'd255 + 8'd1 == 0", "or")]:
    r.run_all({"g.v": module(f"  generate if ({condition}) assign y = a & b; else assign y = a | b; endgenerate")},
              [(f"g cell {kind}_0 {p} 0 g.v:2", True) for p in "ABY"])
r.run_all(
    {"h.v": "module h #(parameter KIND = 0) (input a, input b, output y);~  if (KIND == 0) assign y = a & b;~  else assign y = a ^ b;~endmodule~",
     "g.v": module("  h #(.KIND(1)) u(a, b, y);")},
    [(f"g cell xor_0 {p} 0 h.v:3", True) for p in "ABY"])
r.at("DivideByZero", module("  localparam N = 8'd7 §/ 8'd0;"))
r.at("NotConstant", module("  wire [§a:0] v;"))
r.note("A vector has at most 128 bits.")
r.init(0, 0, {"g.v": module("  wire [127:0] v;")})
r.at("TooWide", module("  wire §[128:0] v;"))
r.note("A value that some path does not assign is a latch.")
r.at("Latch y", module("  §always @* if (a) y = b;", "input a, input b, output reg y"))
r.run_all({"g.v": module("  always @* begin y = 0; if (a) y = b; end", "input a, input b, output reg y")},
          [(f"g cell mux_0 {p} 0 g.v:2", True) for p in "SABY"])
r.note("Faults of bytes and tokens come at their first byte.")
r.at("OpenComment", and_text + "~§/* x")
r.at("OpenComment", "~~~§/* x~")
r.at("OpenString", module("  assign y = §\"a & b;"))
r.at("BadNumber", module("  assign y = a & §4'q1;"))
r.at("BadNumber", module("  assign y = a & §129'd1;"))
r.at("BadNumber", module("  assign y = a & §4294967296;"))
r.at("BadCharacter", module("  assign y = a;", "input §ä, output y"))
r.at("BadCharacter", and_text + "~§\\ ")
r.note("So do those of directives.")
r.at("UnknownMacro", module("  assign y = a & §`B;"))
r.at("OpenCondition", "§`ifdef B~" + and_text + "~")
r.at("Unexpected", and_text + "~§`endif~")
r.at("Unsupported Include", "§`include \"h.v\"~" + and_text + "~")
r.at("Unsupported MacroForm", "§`define B(x) x~" + and_text + "~")
r.at("Unsupported DirectiveName", "§`resetall~" + and_text + "~")
r.note("And those of the grammar.")
r.at("Unexpected", "module g(input a, output y, §);~endmodule~")
r.at("Unexpected", "module g(input §, output y);~endmodule~")
r.at("Unexpected", "module g(input §input, output y);~endmodule~")
r.at("Unexpected", "module g(input §$a, output y);~endmodule~")
r.at("Unexpected", "module g(input §1a, output y);~endmodule~")
r.at("Unexpected", module("  wire §uwire = a & a;"))
r.at("Unexpected", module("  assign y = a & b") .replace("~endmodule", "~§endmodule"))
r.at("Unexpected", and_text.replace("endmodule", "§end"))
r.at("Unexpected", "module g();~§")
r.at("Unsupported Inout", "module g(§inout a, output y);~endmodule~")
r.at("Unsupported NetKind", module("  §tri u;"))
r.at("Unsupported Function", module("  §function f;"))
r.at("Unsupported Primitive", module("  §and (y, a, b);"))
r.at("Unsupported Memory", module("  reg §m [0:3];"))
r.at("Unsupported SystemVerilog", module("  §always_comb y = a;"))
r.at("TooDeep", module("  assign y = " + "(" * 200 + "§(a" + ")" * 201 + ";"))
r.note("And those of a design, where it is whole.")
r.refused("NoTop", {"g.v": ""})
r.refused("NoTop", {"g.v": "~"})
r.refused("NoTop", {"g.v": "module h(input a, output y);~  assign y = a & a;~endmodule~"})
r.at("Twice", "module g(input a, output y);~endmodule~module §g();~endmodule~")
r.at("Twice", "module g(input a, output y, input §a);~endmodule~")
r.at("Twice", module("  wire u = a & a;~  wire §u = a | a;"))
r.at("Unknown", module("  assign y = a & §c;"))
r.at("Unknown", module("  assign §u = a;"))
r.at("Unknown", module("  §h u(a, y);"))
r.at("Recursive", module("  §g u(a, b, y);"))
r.at("PortMismatch", module("  h u(.d(a), .§e(y));") + "module h(input d, output q);~endmodule~")
r.at("Unsupported RangeForm", module("  wire §[0:3] v;"))
r.at("Unsupported DivideOrPower", module("  assign y = a §/ b;"))
r.at("Unsupported FallingClock", module("  always §@(negedge a) y <= b;", "input a, input b, output reg y"))
r.at("Unsupported GatedClock", module("  wire c = a;~  always @(posedge §c) y <= b;", "input a, input b, output reg y"))
r.at("Unsupported Delay", module("  assign §#1 y = a;"))
r.at("Unsupported SystemTask", module("  initial §$display(\"x\");"))
r.at("TwoWriters y", module("  assign y = a;~  assign §y = b;"))
r.at("TwoWriters b", module("  assign y = a;~  assign §b = a;"))
r.at("Loop", module("  wire u, v;~  assign §u = v;~  assign v = u;"))
r.at("Loop", module("  assign y = a §& y;"))
r.note("A limit is told with its kind and no place.")
r.refused("TooMany LoopTurns", {"g.v": module("  genvar i;~  for (i = 0; i < 4097; i = i + 1) begin : k wire v; end")})
r.refused("TooMany RegisterBits", {"g.v": module("  genvar i;~  for (i = 0; i < 33; i = i + 1) begin : k reg [127:0] v; always @(posedge a) v <= 0; end")})
r.init(20, 20, {"g.v": module("  always @(posedge a) y <= y + 1'b1;", "input a, input [4:0] b, output reg [3:0] y")},
       config=SHORT.replace("[script]", "[options]~modes inv~[script]"))
H = "module h(input d, output q);~  assign q = d;~endmodule~"
G = "module g(input a, output y);~  h u(a, y);~endmodule~"
r.note("A fault is told in its own file. All files are UTF-8 before tokens are read, and these before any grammar.")
r.init(0, 0, {"h.v": H, "g.v": G})
bad = "module g(input a, output y);~  h u(a §y);~endmodule~"
r.refused(f"g.v:{place(bad)}: Unexpected", {"h.v": H, "g.v": bad})
bad = "module h(input d, output q);~  assign q = §e;~endmodule~"
r.refused(f"h.v:{place(bad)}: Unknown", {"h.v": bad, "g.v": G})
r.refused(f"g.v:{place('module g(input a, output y);~  h u(a, y§#);~endmodule~')}: Unexpected",
          {"h.v": H, "g.v": "module g(input a, output y);~  h u(a, y#);~endmodule~"})
bad = "module g(input a, output y);~  h u(a, y)§ä;~endmodule~"
r.refused(f"g.v:{place(bad)}: BadCharacter", {"h.v": "endmodule~", "g.v": bad})
bad = "§endmodule~"
r.refused(f"h.v:{place(bad)}: Unexpected", {"h.v": bad, "g.v": "endmodule~"})
bad = "module §g();~endmodule~"
r.refused(f"g.v:{place(bad)}: Twice", {"h.v": G, "g.v": bad})

if __name__ == "__main__":
    tables.save_part("mcy_cases", r.given, r.told)
