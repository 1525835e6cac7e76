"""Designs whose clocks, and what is refused for their use, are worked out by hand: a line that begins with `> ` is what is printed."""

HAND = r"""
# a counter: the clock is no data
module top(input clk, output q);
  reg q;
  always @(posedge clk) q <= ~q;
endmodule
clock top
> clock clk
# no clocked process, no clock
module top(input clk, output y);
  assign y = clk;
endmodule
clock top
> clock none
# a wire of the clock's value is read as data where it is made, and clocks nothing that is taken
module top(input clk, input d, output q);
  reg p, q;
  wire c = clk;
  always @(posedge clk) p <= d;
  always @(posedge c) q <= d;
endmodule
clock top
> clock clk
> ClockAsData 3:12
> GatedClock 5:20
# a design that such a wire alone clocks has no clock
module top(input clk, input d, output q);
  reg q;
  wire c = clk;
  always @(posedge c) q <= d;
endmodule
clock top
> clock none
> GatedClock 4:20
# an assign is no plain connection
module top(input clk, input d, output q);
  reg p, q;
  wire c;
  always @(posedge clk) p <= d;
  assign c = clk;
  always @(posedge c) q <= d;
endmodule
clock top
> clock clk
> ClockAsData 5:14
> GatedClock 6:20
# the clock is that of the first clocked process
module top(input a, input b, input d, output q);
  reg p, q;
  always @(posedge b) p <= d;
  always @(posedge a) q <= d;
endmodule
clock top
> clock b
> GatedClock 4:20
# an input of the top of two bits is no clock
module top(input [1:0] clk, input d, output q);
  reg q;
  always @(posedge clk) q <= d;
endmodule
clock top
> clock none
> GatedClock 3:20
# passed on by its name, by two names in one instance, and twice
module leaf(input c, input e, input d, output q);
  reg q;
  always @(posedge c) q <= d;
  always @(posedge e) q <= d;
endmodule
module mid(input k, input d, output q);
  leaf u(.c(k), .e(k), .d(d), .q(q));
endmodule
module top(input clk, input d, output q);
  mid u(clk, d, q);
endmodule
clock top
> clock clk
# in parentheses, by a select or with an operator it is not passed on
module leaf(input c, input d, output q);
  reg q;
  always @(posedge c) q <= d;
endmodule
module top(input clk, input d, output q);
  wire x, y, z, w;
  leaf a(clk, d, x);
  leaf b((clk), d, y);
  leaf e(clk[0], d, z);
  leaf f(~clk, d, w);
endmodule
clock top
> clock clk
> ClockAsData 8:11
> GatedClock 3:20
> ClockAsData 9:10
> GatedClock 3:20
> ClockAsData 10:11
> GatedClock 3:20
# an input of two bits gets no clock
module leaf(input [1:0] c, input d, output q);
  reg q;
  always @(posedge c) q <= d;
endmodule
module top(input clk, input d, output q, output p);
  reg p;
  always @(posedge clk) p <= d;
  leaf u(clk, d, q);
endmodule
clock top
> clock clk
> ClockAsData 8:10
> GatedClock 3:20
# an input that nothing is connected to
module leaf(input c, input d, output q);
  reg q;
  always @(posedge c) q <= d;
endmodule
module top(input clk, input d, output q);
  leaf u(.d(d), .q(q));
endmodule
clock top
> clock none
> GatedClock 3:20
# two bits of the same name inside are not the clock outside
module leaf(input [1:0] clk, output y);
  assign y = clk[0];
endmodule
module top(input clk, input [1:0] d, output y, output q);
  reg q;
  always @(posedge clk) q <= d;
  leaf u(d, y);
endmodule
clock top
> clock clk
# reads in indices, of left sides too, and in what outputs are connected to
module leaf(output y);
  assign y = 1;
endmodule
module top(input clk, input [3:0] d, output q);
  reg q;
  wire [3:0] a, b;
  always @(posedge clk) q <= d[clk];
  always @(posedge clk) a[clk] <= d;
  assign b[clk] = d;
  assign {b[0], b[clk +: 1]} = d;
  leaf u(a[clk]);
  leaf v(clk);
endmodule
clock top
> clock clk
> ClockAsData 7:32
> ClockAsData 8:27
> ClockAsData 9:12
> ClockAsData 10:19
> ClockAsData 11:12
# the first read by its place, and behind the clock's name
module top(input clk, input c, input d, output q);
  reg p, q;
  always @(posedge clk) if (d) p <= d & clk; else p <= clk;
  always @(posedge c) q <= clk;
  always @(posedge clk or posedge c) if (c) q <= 0; else q <= clk;
  always @(posedge c or posedge clk) if (clk) q <= 0; else q <= d;
endmodule
clock top
> clock clk
> ClockAsData 3:41
> GatedClock 4:20
> ClockAsData 5:63
> GatedClock 6:20
# names in lists of events are no reads
module top(input clk, input d, output q, output p);
  reg q, p;
  always @(posedge clk) q <= d;
  always @(clk or d) p = d;
endmodule
clock top
> clock clk
# in a loop its variable is a constant, but not in its start
module top(input clk, input d, output q);
  reg q, p;
  always @(posedge clk) for (clk = 0; clk < 1; clk = clk + 1) q <= clk;
  always @(posedge clk) for (p = 0; p < 1; p = p + 1) q <= clk;
  always @(posedge clk) begin for (clk = 0; clk < 1; clk = clk + 1) q <= clk; q <= clk; end
  always @(posedge clk) for (clk = clk; clk < 1; clk = clk + 1) q <= clk;
endmodule
clock top
> clock clk
> ClockAsData 4:60
> ClockAsData 5:84
> ClockAsData 6:36
# a parameter of the clock's name is not the clock
module leaf(input k, input d, output q, output y);
  localparam clk = 1;
  reg q;
  always @(posedge k) q <= clk;
  assign y = clk;
endmodule
module top(input clk, input d, output q, output y);
  leaf u(clk, d, q, y);
endmodule
clock top
> clock clk
# a name that is no signal clocks nothing
module top(input clk, input d, output q);
  localparam k = 1;
  reg q;
  always @(posedge k) q <= d;
  always @(posedge clk) q <= clk;
endmodule
clock top
> clock none
> GatedClock 4:20
> GatedClock 5:20
# an item before the first clocked process
module top(input clk, input d, output q, output y);
  reg q;
  assign y = d & clk;
  always @* q = clk;
  always @(posedge clk) q <= d;
endmodule
clock top
> clock clk
> ClockAsData 3:18
> ClockAsData 4:17
"""
