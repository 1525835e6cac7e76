#!/usr/bin/env python3
"""Writes a Verilog source of at most so many bytes, within the profile of docs/PROFILE.md ("Verilog sources").

usage: bench/lib/source.py SIZE [dense] >FILE

With `dense` it is one concatenation of the same name over and over, where tokens are densest.

Some macros stand first, then a counter and a stage that has it as an instance, over and over, their names told apart by
a number. As many of them are written as there is room for.
"""

import sys

MACROS = """\
// Made by bench/lib/source.py.
`timescale 1ns / 1ps
`default_nettype none
`define WORD 32
`define TOP (`WORD - 1)
`define ZERO {`WORD{1'b0}}
`define WITH_PARITY

"""

# <N> stands for the number of the two modules, <V> for a number that differs among them.
MODULES = """\
// Counter <N>: up, down or loaded, with a limit.
module counter_<N> #(parameter WIDTH = 8, parameter [31:0] LIMIT = 32'd<V>) (
  input wire clk,
  input wire reset,
  input wire enable,
  input wire [1:0] mode,
  input wire [WIDTH-1:0] data,
  output reg [WIDTH-1:0] count,
  output wire at_limit
);
  localparam UP = 2'b00, DOWN = 2'b01, LOAD = 2'b10;
  (* keep *) reg was_loaded;
  wire [WIDTH-1:0] next = count + 1'b1;

  assign at_limit = (count == LIMIT[WIDTH-1:0]) && enable;

  always @(posedge clk) begin
    if (reset) begin
      count <= {WIDTH{1'b0}};
      was_loaded <= 1'b0;
    end else if (enable) begin
      case (mode)
        UP: count <= at_limit ? {WIDTH{1'b0}} : next;
        DOWN: count <= count - 1;
        LOAD: begin
          count <= data;
          was_loaded <= 1'b1;
        end
        default: count <= count;
      endcase
    end
  end
endmodule

/* Stage <N>: some arithmetic on two words, a counter,
   and the parity of each lane of what was picked. */
module stage_<N> (clk, reset, enable, a, b, sum, mixed, parity);
  parameter LANES = 4;
  input wire clk, reset, enable;
  input wire [`TOP:0] a, b;
  output wire [`WORD:0] sum;
  output reg [`TOP:0] mixed;
  output wire [LANES-1:0] parity;

  wire [7:0] count;
  wire at_limit;
  wire signed [15:0] low = a[15:0], high = b[31:16];
  wire [`TOP:0] difference, product;
  wire [`TOP:0] rotated = {a[`WORD-9:0], a[`TOP:`WORD-8]};
  wire [`TOP:0] picked = a < b ? a & ~b : (a | b) ^ {4{count}};
  reg [`TOP:0] state;
  reg [1:0] mode;

  assign sum = {1'b0, a} + {1'b0, b} + <V>;
  assign difference = a - b, product = low * high;

  counter_<N> #(.WIDTH(8), .LIMIT(<V>)) counter (
    .clk(clk),
    .reset(reset),
    .enable(enable && !sum[`WORD]),
    .mode(mode),
    .data(state[8 +: 8]),
    .count(count),
    .at_limit(at_limit)
  );

`ifdef WITH_PARITY
  genvar i;
  generate
    for (i = 0; i < LANES; i = i + 1) begin : lane
      wire [7:0] part = picked[8*i +: 8];
      assign parity[i] = ^part; // even parity
    end
  endgenerate
`else
  assign parity = {LANES{1'b1}};
`endif

  always @(posedge clk or posedge reset)
    if (reset) begin
      state <= `ZERO;
      mode <= 2'b00;
    end else if (at_limit) begin
      state <= rotated;
      mode <= mode + 2'd1;
    end else
      state <= state ^ (product >> 3) ^ 32'h0000_00ff;

  always @* begin
    mixed = state;
    case (state[3:0])
      4'h0, 4'h1: mixed = difference;
      4'h2: mixed = {difference[7:0], product[15:8], rotated[23:16], count};
      4'd3: if (low >= high || mode != 2'b10) mixed = sum[`WORD:1];
      4'b0100: mixed[15:0] = ~picked[31:16] | (low <<< 2);
      default: mixed = mixed + (state == `ZERO ? 32'd1 : 32'd<V>);
    endcase
  end
endmodule

"""


def source(size):
    """The source, as text."""
    parts = [MACROS]
    left = size - len(MACROS)
    number = 0
    while True:
        part = MODULES.replace("<N>", str(number)).replace("<V>", str(number * 37 % 251))
        if len(part) > left:
            break
        parts.append(part)
        left -= len(part)
        number += 1
    if left < 0 or number == 0:
        sys.exit("no module has so few bytes")
    return "".join(parts)


def dense(size):
    """One concatenation of a name, as text."""
    head, end = "module m;\nwire a;\nwire x = {a", "};\nendmodule\n"
    return head + ",a" * ((size - len(head) - len(end)) // 2) + end


def main():
    if len(sys.argv) not in (2, 3) or not sys.argv[1].isdecimal() or sys.argv[2:] not in ([], ["dense"]):
        sys.exit("usage: bench/lib/source.py SIZE [dense] >FILE")
    size = int(sys.argv[1])
    sys.stdout.write(dense(size) if sys.argv[2:] else source(size))


main()
