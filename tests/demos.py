#!/usr/bin/env python3
"""The cases of crates/demo_cases: the project that a seed and a number of cells make, and summaries.

    tests/demos.py [FOLDER]      the table of crates/demo_cases

The design has 2 + CELLS nets. Net I, from 2 on, is drawn by the next word w of the generator of the seed: it is net w mod I, operator
number (w / 2^32) mod 5 of + - & | ^, and net (w / 2^16) mod I.
"""

from lib import pcg, tables

BENCH = """module d_tb;
  reg clk;
  reg [2:0] a, b;
  wire [2:0] y;
  integer i, z;
  d dut(.clk(clk), .a(a), .b(b), .y(y));
  initial begin clk = 0; forever #5 clk = ~clk; end
  initial begin
    a = 0; b = 0; z = 0;
    for (i = 0; i < 32; i = i + 1) begin
      @(negedge clk);
      if (y != 0) z = z + 1;
      a = $random; b = i;
    end
    if (z > 0) $display("ALIVE"); else $display("DEAD");
    $finish;
  end
endmodule
"""

CONFIG = """[options]
size 100
seed %d
conflicts 20000
cycles 40
tags COVERED UNCOVERED NOCHANGE EQGAP GIVENUP
[script]
read_verilog d.v
prep -top d
[files]
d.v
[test test_sim]
sim d_tb d_tb.v
pass ALIVE
fail DEAD
[test test_eq]
eq
[logic]
tb_okay = (result("test_sim") == "PASS")
eq_word = result("test_eq")
eq_okay = (eq_word == "PASS")
if eq_word == "UNKNOWN":
    tag("GIVENUP")
elif tb_okay and not eq_okay:
    tag("UNCOVERED")
elif not tb_okay and not eq_okay:
    tag("COVERED")
elif tb_okay and eq_okay:
    tag("NOCHANGE")
else:
    tag("EQGAP")
"""


def design(seed, cells):
    nets = ["n0 = a ^ r", "n1 = b + r"]
    for net, word in enumerate(pcg.words(seed, cells), 2):
        nets.append(f"n{net} = n{word % net} {'+-&|^'[word // 2**32 % 5]} n{word // 2**16 % net}")
    return "".join(f"{line}\n" for line in [
        "module d(input clk, input [2:0] a, input [2:0] b, output [2:0] y);", "  reg [2:0] r;", *(f"  wire [2:0] {net};" for net in nets),
        f"  assign y = n{cells + 1};", f"  always @(posedge clk) r <= n{cells + 1};", "endmodule",
    ])


def main():
    given, told = [], ""
    for seed, cells in ((7, 1), (7, 20), (0, 2), (1, 3), (2**64 - 1, 400), (12345678901234567890, 64)):
        given.append(f"files {seed} {cells}")
        told += f"> config.mcy\n{CONFIG % seed}> d.v\n{design(seed, cells)}> d_tb.v\n{BENCH}"
    for seed, cells, sites, status in ((7, 1, 165, ["Mutations: 100", "Finished: 100"]), (2**64 - 1, 400, 18120, ["Mutations: 0"]), (0, 1, 0, [])):
        given.append(f"summary {seed} {cells} {sites} " + "".join(f"{line}~" for line in status))
        told += f"Demo: {seed} {cells}\nSites: {sites}\n" + "".join(f"{line}\n" for line in status)
    tables.save("demo_cases", given, told)


if __name__ == "__main__":
    main()
