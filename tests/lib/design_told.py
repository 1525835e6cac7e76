"""Designs worked out by hand: their netlists, what is refused in them, and outputs that Icarus Verilog has otherwise or not at all.

A line that begins with `> ` is printed by the statement before it.
"""

NETLISTS = '''
# the operands' cells come first, from left to right
module top(input [3:0] a, input [3:0] b, output [3:0] y);
  assign y = (a + b) * (a - b);
endmodule
netlist top
> input a 4
> input b 4
> output y 4
> add_0 2:17
> sub_1 2:27
> mul_2 2:22
# condition, then-part, else-part, mux; a condition wider than one bit is reduced at its first token
module top(input [1:0] s, input a, input b, output y);
  assign y = s ? a & b : a | b;
endmodule
netlist top
> input s 2
> input a 1
> input b 1
> output y 1
> ror_0 2:14
> and_1 2:20
> or_2 2:28
> mux_3 2:16
# a constant condition wider than one bit is reduced all the same
module top(input a, input b, output y);
  assign y = 2'b10 ? a : b;
endmodule
netlist top
> input a 1
> input b 1
> output y 1
> ror_0 2:14
> mux_1 2:20
# one mux for each variable of an if, in the order in which this if assigns them
module top(input c, input [1:0] a, output reg [1:0] y, output reg z);
  always @* begin
    y = a;
    z = c;
    if (a == 2) begin
      z = ~c;
      y = a + 1;
    end else y = 0;
  end
endmodule
netlist top
> input c 1
> input a 2
> output y 2
> output z 1
> eq_0 5:11
> not_1 6:11
> add_2 7:13
> mux_3 5:5
> mux_4 5:5
# a case: an eq for each label, joined from the left; the muxes of its items from the inner one
module top(input [1:0] s, input a, input b, output reg y);
  always @*
    case (s)
      0, 1: y = a;
      2: y = b;
      default: y = a ^ b;
    endcase
endmodule
netlist top
> input s 2
> input a 1
> input b 1
> output y 1
> eq_0 4:7
> eq_1 4:10
> lor_2 4:10
> eq_3 5:7
> xor_4 6:22
> mux_5 5:7
> mux_6 4:7
# digits that do not matter: no cell where none is left, and what comes behind is not looked at
module top(input [2:0] s, input a, output reg y);
  always @*
    casez (s)
      3'b1?0: y = a;
      3'b???: y = !a;
      3'b000: z = nothing;
    endcase
endmodule
netlist top
> input s 3
> input a 1
> output y 1
> eq_0 4:7
> lnot_1 5:19
> mux_2 4:7
# a bit with an index is put and picked; the right side's cells come before those of the index
module top(input clk, input [2:0] i, input d, output y);
  reg [7:0] r = 165;
  always @(posedge clk) r[i ^ 1] <= d & r[0];
  assign y = r[i + 1];
endmodule
netlist top
> clock clk
> input i 3
> input d 1
> output y 1
> register r 8 165 2:13
> and_0 3:39
> xor_1 3:29
> put_2 3:26
> add_3 4:18
> pick_4 4:15
# an instance stands in the place of its module's items, behind its connections; registers go by their declaration
module sub #(parameter K = 1)(input c, input [1:0] a, output reg [1:0] q);
  always @(posedge c) q <= a + K;
endmodule
module top(input clk, input [1:0] a, output [1:0] x, output [1:0] y);
  reg [1:0] early, late = 2;
  sub #(3) u(clk, ~a, x);
  always @(posedge clk) late <= early ^ x;
  sub v(.q(y), .a(late & x), .c(clk));
  always @(posedge clk) early <= late;
endmodule
netlist top
> clock clk
> input a 2
> output x 2
> output y 2
> register early 2 0 5:13
> register late 2 2 5:20
> register u.q 2 0 1:72
> register v.q 2 0 1:72
> not_0 6:19
> add_1 2:30
> xor_2 7:39
> and_3 8:24
> add_4 2:30
# a loop stands for its turns; the names of its blocks
module top(input clk, input [1:0] d, output [1:0] q);
  genvar g;
  for (g = 0; g < 2; g = g + 1) begin : lane
    reg r = 1;
    always @(posedge clk) r <= d[g] ^ r;
    assign q[g] = !r;
  end
endmodule
netlist top
> clock clk
> input d 2
> output q 2
> register lane[0].r 1 1 4:9
> register lane[1].r 1 1 4:9
> xor_0 5:37
> lnot_1 6:19
> xor_2 5:37
> lnot_3 6:19
# constants are folded; signs, extensions and constant selects are wiring
module top(input [3:0] a, output [3:0] y, output [3:0] z, output signed [4:0] v, output [5:0] w);
  assign y = a + (3 * 4 - 2);
  assign z = 2 ** 3;
  assign v = $signed(a) >>> (1 + 1);
  assign w = {a[2:1], +a};
endmodule
netlist top
> input a 4
> output y 4
> output z 4
> output v 5
> output w 6
> add_0 2:16
> sshr_1 4:25
# a loop of statements is unrolled
module top(input clk, input [1:0] a, output reg [1:0] q);
  integer i;
  always @(posedge clk)
    for (i = 0; i < 2; i = i + 1)
      if (a[i]) q[i] <= ~q[i];
endmodule
netlist top
> clock clk
> input a 2
> output q 2
> register q 2 0 1:55
> not_0 5:25
> mux_1 5:7
> not_2 5:25
> mux_3 5:7
# blocks without a name have numbers
module top(input clk, output y);
  if (1) begin
    reg r;
    always @(posedge clk) r <= !r;
    assign y = r;
  end
  if (1) begin
    if (1) begin reg r = 1; always @(posedge clk) r <= ~r; end
  end
endmodule
netlist top
> clock clk
> output y 1
> register genblk1.r 1 0 3:9
> register genblk2.genblk1.r 1 1 8:22
> lnot_0 4:32
> not_1 8:56
# a reset in the list of events is read like an input
module sat(input clk, input rst_n, input en, output reg [7:0] q, output full);
  assign full = (q == 8'd255);
  always @(posedge clk or negedge rst_n)
    if (!rst_n) q <= 8'd0;
    else if (en && !full) q <= q + 8'd1;
endmodule
netlist sat
> clock clk
> input rst_n 1
> input en 1
> output q 8
> output full 1
> register q 8 0 1:63
> eq_0 2:20
> lnot_1 4:9
> lnot_2 5:20
> land_3 5:17
> add_4 5:34
> mux_5 5:10
> mux_6 4:5
'''

OUTPUTS = '''
# a signed index below 0 selects nothing
module top(input [3:0] a, input signed [1:0] i, output y);
  assign y = a[i];
endmodule
elaborate top
step 8 3
> outputs 0
step 7 3
> outputs 0
step 2 1
> outputs 1
step 13 1
> outputs 0
module top(input [127:0] a, input signed [7:0] i, output y);
  assign y = a[i];
endmodule
elaborate top
step 340282366920938463463374607431768211455 128
> outputs 0
step 340282366920938463463374607431768211455 255
> outputs 0
step 170141183460469231731687303715884105728 127
> outputs 1
# from a constant base below 0 on the bits that exist are read, and a signed base that is no constant is not supported
module top(input [7:0] a, output [3:0] y);
  assign y = a[-1 +: 4];
endmodule
elaborate top
step 5
> outputs 10
step 255
> outputs 14
module top(input [7:0] a, input signed [2:0] i, output [3:0] y);
  assign y = a[i +: 4];
endmodule
elaborate top
> Unsupported IndexedBase 2:15
# what lies outside reads 0, and a write there does nothing
module top(input clk, input [2:0] a, input [2:0] i, output y, output [4:0] z, output [2:0] v);
  reg [4:0] r = 31;
  assign y = a[i];
  assign z = r;
  assign v = a[i +: 3];
  always @(posedge clk) r[i +: 2] <= 0;
endmodule
elaborate top
step 7 5
> outputs 0 31 0
step 7 4
> outputs 0 31 0
step 7 1
> outputs 1 15 3
step 7 0
> outputs 1 9 7
# a select of a constant counts by its range, and a scalar has a bit 0
module top(input a, output y, output [1:0] z, output v);
  parameter [7:4] P = 4'b0110;
  assign y = P[5];
  assign z = P[6:5];
  assign v = a[0];
endmodule
elaborate top
step 1
> outputs 1 3 1
# an input that is not connected is 0
module sub(input [1:0] a, input b, output [1:0] y);
  assign y = a + b + 1;
endmodule
module top(input a, output [1:0] y, output [1:0] z);
  sub u(.a(), .b(a), .y(y));
  sub v(.a({a, a}), .y(z));
endmodule
elaborate top
step 1
> outputs 2 0
step 0
> outputs 1 1
# what nothing writes is 0, or its start value
module top(input a, output [3:0] y);
  wire w;
  reg [1:0] r = 2;
  assign y = {a, w, r};
endmodule
elaborate top
step 1
> outputs 10
# so is a bit of a name of which other bits are written
module top(input [1:0] a, output [3:0] y);
  reg [3:0] r = 4'b1010;
  assign r[1:0] = a;
  assign y = r;
endmodule
elaborate top
step 3
> outputs 11
step 0
> outputs 8
# a label in parentheses keeps its digits that do not matter
module top(input [1:0] s, output reg y);
  always @*
    casez (s)
      (2'b1?): y = 1;
      default: y = 0;
    endcase
endmodule
elaborate top
step 3
> outputs 1
step 2
> outputs 1
step 1
> outputs 0
# a label is extended with digits that count
module top(input [3:0] s, output reg y);
  always @*
    casez (s)
      2'b?1: y = 1;
      default: y = 0;
    endcase
endmodule
elaborate top
step 3
> outputs 1
step 1
> outputs 1
step 5
> outputs 0
# names may be used before they are declared
module top(input a, output y);
  assign y = later;
  wire later = a;
endmodule
elaborate top
step 1
> outputs 1
# a second kind of declaration of an output is none
module top(q, a);
  output q;
  input a;
  wire q;
  assign q = !a;
endmodule
elaborate top
step 1
> outputs 0
# the widest vector
module top(input [127:0] v, output y);
  assign y = v[127];
endmodule
elaborate top
step 170141183460469231731687303715884105728
> outputs 1
'''

REFUSALS = '''
# no module has the top's name
module m;
endmodule
elaborate top
> NoTop
# a module that is declared again
module top; endmodule
module m; endmodule
module m; endmodule
elaborate top
> Twice 3:8
# a name that is declared again
module top(input a, output y);
  wire a;
  wire b;
  reg b;
endmodule
elaborate top
> Twice 4:7
# a port whose second declaration has another range
module top(input [1:0] a, output y);
  wire [2:0] a;
endmodule
elaborate top
> Twice 2:14
# an input that the header lacks
module top(a);
  input a;
  input z;
endmodule
elaborate top
> Unknown 3:9
# a name that is not declared, in an expression and on the left
module top(input a, output y);
  assign y = a & b;
  assign z = a;
endmodule
elaborate top
> Unknown 2:18
# ranges see the declarations before them
module top(input a);
  wire [W:0] x;
  localparam W = 3;
endmodule
elaborate top
> Unknown 2:9
# a module that is not declared
module top(input a);
  sub u(a);
endmodule
elaborate top
> Unknown 2:3
# a module that contains itself
module top(input a);
  sub u(a);
endmodule
module sub(input a);
  top v(a);
endmodule
elaborate top
> Recursive 5:3
# ports that the module has not, ports named twice, and too many
module sub(input a); endmodule
module top(input a);
  sub u(.b(a));
endmodule
elaborate top
> PortMismatch 3:10
module sub(input a); endmodule
module top(input a);
  sub u(.a(a), .a(a));
endmodule
elaborate top
> PortMismatch 3:17
module sub(input a); endmodule
module top(input a);
  sub u(a, !a);
endmodule
elaborate top
> PortMismatch 3:7
# an output that is connected to no left side
module sub(output a); assign a = 1; endmodule
module top(input a);
  sub u(!a);
endmodule
elaborate top
> PortMismatch 3:9
# values for parameters that there are not, that were given, and too many
module sub #(parameter K = 1)(input a); endmodule
module top(input a);
  sub #(.L(2)) u(a);
endmodule
elaborate top
> Unknown 3:10
module sub #(parameter K = 1)(input a); endmodule
module top(input a);
  sub #(.K(2), .K(3)) u(a);
endmodule
elaborate top
> Twice 3:17
module sub #(parameter K = 1)(input a); endmodule
module top(input a);
  sub #(1, 2) u(a);
endmodule
elaborate top
> PortMismatch 3:12
# what is not constant
module top(input a, output y);
  wire [a:0] w;
endmodule
elaborate top
> NotConstant 2:9
module top(input a, output [1:0] y);
  assign y[a] = 1;
endmodule
elaborate top
> NotConstant 2:12
# a division by zero, where nothing else is refused
module top(input a, output [7:0] y);
  assign y = a + 8'd7 / 8'd0;
endmodule
elaborate top
> DivideByZero 2:23
module top(input a, output [7:0] y);
  assign y = 8'd7 / 8'd0 + b;
endmodule
elaborate top
> Unknown 2:28
# vectors of more than 128 bits
module top(input a);
  wire [128:0] v;
endmodule
elaborate top
> TooWide 2:8
module top(input [127:0] a, output y);
  assign y = &{a, a[0]};
endmodule
elaborate top
> TooWide 2:15
# ranges that go up, and one below 0
module top(input [3:0] a, output [1:0] y);
  assign y = a[1:2];
endmodule
elaborate top
> Unsupported RangeForm 2:15
module top(input [0:3] a);
endmodule
elaborate top
> Unsupported RangeForm 1:18
# operators of expressions that are not constant
module top(input [3:0] a, output [3:0] y);
  assign y = 4'd8 / a;
endmodule
elaborate top
> Unsupported DivideOrPower 2:19
# an index into a vector whose lowest bit is not number 0
module top(input [4:1] a, input [1:0] i, output y);
  assign y = a[i];
endmodule
elaborate top
> Unsupported IndexedBase 2:15
# a parameter with a range counts by it, and a variable index into it is none that is supported
module top(input [3:0] a, output [3:0] y, output z);
  parameter [11:4] P = 8'h5a;
  assign y = a ^ P[7:4];
  assign z = a[0] & P[5] | P[0];
endmodule
elaborate top
step 0
> outputs 10 0
step 15
> outputs 5 1
module top(input [1:0] i, output y);
  parameter [4:1] P = 5;
  assign y = P[i];
endmodule
elaborate top
> Unsupported IndexedBase 3:15
# a system function where a constant is wanted
module top(output y);
  parameter P = $stime;
  assign y = P;
endmodule
elaborate top
> Unsupported SystemFunction 2:17
# a bit with two writers, and a variable
module top(input a, output [1:0] y);
  assign y[1] = a;
  assign y = {a, a};
endmodule
elaborate top
> TwoWriters 3:10 y
module sub(input c, input a, output reg q);
  always @(posedge c) q <= a;
  always @(posedge c) q <= !a;
endmodule
module top(input clk, input a, output y);
  sub u(clk, a, y);
endmodule
elaborate top
> TwoWriters 3:23 u.q
# an input that is written
module top(input a, input b);
  assign a = b;
endmodule
elaborate top
> TwoWriters 2:10 a
# a signed base that is no constant
module top(input clk, input signed [2:0] i, input [1:0] b, output reg [7:0] y);
  always @(posedge clk) y[i +: 2] <= b;
endmodule
elaborate top
> Unsupported IndexedBase 2:26
# a selector that can be greater than its labels makes a latch
module top(input [1:0] s, input a, input b, output reg y);
  always @*
    case (~s)
      0: y = a;
      1: y = b;
      2: y = a;
      3: y = 1;
    endcase
endmodule
elaborate top
> Latch 2:3 y
# a path that assigns nothing
module top(input a, input b, output reg y);
  always @* if (a) y = b;
endmodule
elaborate top
> Latch 2:3 y
module top(input a, input b, output reg y);
  always @* begin y = 0; if (a) y = b; end
endmodule
netlist top
> input a 1
> input b 1
> output y 1
> mux_0 2:26
# a bit that is read before it is assigned
module sub(input a, output reg [1:0] y);
  always @* begin
    y[0] = a;
    y[1] = y[1] & a;
  end
endmodule
module top(input a, output [1:0] y);
  sub u(a, y);
endmodule
elaborate top
> Latch 2:3 u.y
# of two latches, the one whose variable is assigned first
module top(input a, output reg y, output reg z);
  always @* begin
    if (a) z = 1;
    if (!a) y = 1;
  end
endmodule
elaborate top
> Latch 2:3 z
# a latch comes before what is refused further down in its process, and behind a loop
module top(input a, output reg y, output reg z);
  always @* begin
    if (a) y = 1;
    z = b;
  end
endmodule
elaborate top
> Latch 2:3 y
# = and <= for one variable
module top(input clk, input a, output reg y);
  always @(posedge clk) begin
    y = a;
    y <= a;
  end
endmodule
elaborate top
> Unsupported MixedAssign 4:5
# <= in a combinational process
module top(input a, output reg y);
  always @* y <= a;
endmodule
elaborate top
> Unsupported NonblockingInComb 2:15
# clocks that are none
module top(input clk, input a, output reg y);
  wire c = !clk;
  always @(posedge c) y <= a;
endmodule
elaborate top
> Unsupported GatedClock 3:20
module top(input clk, input a, output reg y, output reg z);
  always @(posedge clk) y <= a;
  always @(posedge a) z <= y;
endmodule
elaborate top
> Unsupported GatedClock 3:20
module top(input clk, input a, output reg y);
  wire c = clk;
  always @(posedge c) y <= a;
endmodule
elaborate top
> Unsupported GatedClock 3:20
# the clock as data; a connection of its name alone passes it on, and is none
module top(input clk, input a, output reg y, output z);
  assign z = a & clk;
  always @(posedge clk) y <= a;
endmodule
elaborate top
> Unsupported ClockAsData 2:18
module sub(input c, input d, output reg q);
  always @(posedge c) q <= d;
endmodule
module top(input clk, output y);
  sub u(clk, clk, y);
endmodule
elaborate top
> Unsupported ClockAsData 2:28
# a falling clock, and lists with more edges than a clock and a reset
module top(input clk, input a, output reg y);
  always @(negedge clk) y <= a;
endmodule
elaborate top
> Unsupported FallingClock 2:10
module top(input clk, input a, input b, output reg y);
  always @(posedge clk or posedge a or posedge b) y <= a;
endmodule
elaborate top
> Unsupported ClockList 2:10
# a process without a list
module top(input a, output reg y);
  always y = a;
endmodule
elaborate top
> Unsupported ClockList 2:3
# a delay, and a system task
module top(input a, output reg y);
  always @* #1 y = a;
endmodule
elaborate top
> Unsupported Delay 2:13
module top(input a, output reg y);
  always @* begin y = a; $display("y"); end
endmodule
elaborate top
> Unsupported SystemTask 2:26
module top(input a, output [31:0] y);
  assign y = $time;
endmodule
elaborate top
> Unsupported SystemFunction 2:14
# an initial process that is more than start values
module top(input clk, input a, output reg y);
  initial if (a) y = 1;
  always @(posedge clk) y <= a;
endmodule
elaborate top
> Unsupported InitialForm 2:11
module top(input clk, input a, output reg [1:0] y);
  initial y[0] = 1;
  always @(posedge clk) y <= a;
endmodule
elaborate top
> Unsupported InitialForm 2:11
module top(input clk, input a, output reg y);
  initial y = a;
  always @(posedge clk) y <= a;
endmodule
elaborate top
> Unsupported InitialForm 2:11
# the variable of a loop
module top(input [3:0] a, output reg [3:0] y);
  integer i, j;
  always @* begin
    y = a;
    for (i = 0; i < 4; j = j + 1) y[i] = a[i];
  end
endmodule
elaborate top
> NotConstant 5:24
module top(input [3:0] a, output reg [3:0] y);
  integer i;
  always @* begin
    y = a;
    for (i = 0; i < 4; i = i + 1)
      for (i = 0; i < 4; i = i + 1) y[i] = a[i];
  end
endmodule
elaborate top
> Unknown 6:12
module top(input [3:0] a, output reg [3:0] y);
  integer i;
  always @* begin
    y = a;
    for (i = 0; i < 4; i = i + 1) i = 2;
  end
endmodule
elaborate top
> Unknown 5:35
# loops without turns and blocks that are not taken are not looked at
module top(input a, output y);
  genvar g;
  integer i;
  reg r;
  for (g = 0; g < 0; g = g + 1) begin : none
    assign nothing = 1;
  end
  if (0) begin
    sub u(a);
  end
  always @* begin
    r = a;
    for (i = 0; i < 0; i = i + 1) nothing = unknown;
  end
  assign y = r;
endmodule
elaborate top
step 1
> outputs 1
# loops with more turns than the limit
module top(input a);
  genvar g;
  for (g = 0; g < 4097; g = g + 1) begin : many
  end
endmodule
elaborate top
> TooMany LoopTurns
# a loop of a process with too many turns stands at its `for`
module top(input a, output reg y);
  integer i;
  always @* begin
    for (i = 0; i < 2; i = i - 0) y = a;
    y = nothing;
  end
endmodule
elaborate top
> TooMany LoopTurns
module top(input a, output reg y);
  integer i;
  always @* begin
    y = nothing;
    for (i = 0; i < 2; i = i - 0) y = a;
  end
endmodule
elaborate top
> Unknown 4:9
# the items of a case that is refused are looked at, those too that would be dropped
module top(input a, input b, output reg y);
  always @*
    casez (a)
      1'b?: y = b;
      1'b1: y <= b;
      nothing: y = a;
    endcase
endmodule
elaborate top
> Unsupported MixedAssign 5:13
module top(input a, input b, output reg y);
  always @*
    casez (a)
      1'b?: y = b;
      1'b1: y <= b;
    endcase
endmodule
elaborate top
step 0 1
> outputs 1
step 1 0
> outputs 0
# an instance's own faults come before those of its module
module sub(input a);
  assign a = nothing;
endmodule
module top(input a);
  sub u(unknown);
endmodule
elaborate top
> Unknown 5:9
# the name of an instance that stands already comes behind the values that the instance gives
module sub #(parameter A = 1)(input a);
endmodule
module top(input a);
  wire u;
  sub #(.B(2)) u(a);
endmodule
elaborate top
> Unknown 5:10
# and ahead of its connections
module sub(input a);
endmodule
module top(input a);
  wire u;
  sub u(.b(a));
endmodule
elaborate top
> Twice 5:7
# a label that stands already comes behind the condition before it
module top(input a);
  wire x;
  if (nothing) begin : x
    wire b;
  end
endmodule
elaborate top
> Unknown 3:7
# and ahead of what its block holds
module top(input a);
  wire x;
  if (1) begin : x
    assign b = nothing;
  end
endmodule
elaborate top
> Twice 3:18
# what a loop repeats without begin is a block of its own, and what is named in it is named there
module top(input a, output y);
  genvar g;
  wire x;
  assign x = a;
  assign y = x;
  for (g = 0; g < 2; g = g + 1) if (1) begin : x
    wire b;
  end
endmodule
elaborate top
step 1
> outputs 1
# the first item that is refused counts, whatever stands before it in the text
module sub(input a, output y);
  assign y = nothing;
endmodule
module top(input a, output y, output z);
  assign z = first;
  sub u(a, y);
endmodule
elaborate top
> Unknown 5:14
# nets that loop without a cell: the first left side on the loop
module top(input a, output y);
  wire p, q, r;
  assign y = a;
  assign q = p;
  assign p = r;
  assign r = q;
endmodule
elaborate top
> Loop 4:10
# the port of an instance is a left side where it is declared
module top(output y);
  wire w;
  sub u(.a(w), .y(w));
  assign y = w;
endmodule
module sub(input a, output y); assign y = a; endmodule
elaborate top
> Loop 6:18
# cells that loop: the least number
module top(input a, output y);
  wire p, q;
  assign y = !a;
  assign q = ~p;
  assign p = q & a;
endmodule
elaborate top
> Loop 4:14
# loops come last
module top(input a, output y);
  wire p;
  assign p = p;
  assign y = nothing;
endmodule
elaborate top
> Unknown 4:14
# bits of one vector that lead to one another are no loop
module top(input a, output [3:0] y);
  assign y[0] = a;
  assign y[3:1] = y[2:0];
endmodule
elaborate top
step 1
> outputs 15
# two registers of one name after flattening, where one has an escaped name: the later one in the order of declaration
module unit(input clk, input d, output reg q);
  always @(posedge clk) q <= d;
endmodule
module top(input clk, input d, output y, output z);
  unit u(.clk(clk), .d(d), .q(y));
  reg \\u.q ;
  always @(posedge clk) \\u.q <= ~d;
  assign z = \\u.q ;
endmodule
elaborate top
> Twice 6:7
# the escaped name may be declared first
module unit(input clk, input d, output reg q);
  always @(posedge clk) q <= d;
endmodule
module top(input clk, input d, output y, output z);
  reg \\u.q ;
  unit u(.clk(clk), .d(d), .q(y));
  always @(posedge clk) \\u.q <= ~d;
  assign z = \\u.q ;
endmodule
elaborate top
> Twice 1:44
# so it is with the block of a turn of a loop
module top(input clk, input d, output [2:0] y);
  reg a, \\n[1].q , b;
  genvar g;
  for (g = 0; g < 2; g = g + 1) begin : n
    reg q;
    always @(posedge clk) q <= d;
    assign y[g] = q;
  end
  always @(posedge clk) begin
    a <= d;
    \\n[1].q <= d;
    b <= d;
  end
  assign y[2] = a ^ b ^ \\n[1].q ;
endmodule
elaborate top
> Twice 5:9
# a wire may have the name of a register, and so may a variable that is none
module unit(input clk, input d, output reg q, output reg r);
  always @(posedge clk) begin
    q <= d;
    r <= ~d;
  end
endmodule
module top(input clk, input d, output [3:0] y);
  unit u(.clk(clk), .d(d), .q(y[0]), .r(y[1]));
  wire \\u.q = d;
  reg \\u.r ;
  always @* \\u.r = ~d;
  assign y[3:2] = {\\u.q , \\u.r };
endmodule
elaborate top
step 1
> outputs 8
step 0
> outputs 5
# a loop of nets comes before two registers of one name
module top(input clk, input d);
  genvar g;
  for (g = 0; g < 1; g = g + 1) begin : n
    reg q;
    always @(posedge clk) q <= d;
  end
  reg \\n[0].q ;
  always @(posedge clk) \\n[0].q <= d;
  wire a, b;
  assign a = b;
  assign b = a;
endmodule
elaborate top
> Loop 10:10
# so do too many bits
module top(input clk, input d);
  genvar g;
  for (g = 0; g < 33; g = g + 1) begin : n
    reg [127:0] q;
    always @(posedge clk) q <= {128{d}};
  end
  reg \\n[0].q ;
  always @(posedge clk) \\n[0].q <= d;
endmodule
elaborate top
> TooMany RegisterBits
# a loop through cells comes after them
module top(input clk, input d, output y);
  genvar g;
  for (g = 0; g < 1; g = g + 1) begin : n
    reg q;
    always @(posedge clk) q <= d;
  end
  reg \\n[0].q ;
  always @(posedge clk) \\n[0].q <= d;
  wire z = ~y;
  assign y = ~z;
endmodule
elaborate top
> Twice 7:7
# a system function where a constant is wanted, which a design has not: in a parameter, a bound, a count and a start value
module top(input a, output y);
  parameter P = 1 + $random;
endmodule
elaborate top
> Unsupported SystemFunction 2:21
module top(input a, output y);
  wire [$time:0] x;
endmodule
elaborate top
> Unsupported SystemFunction 2:9
module top(input a, output y);
  assign y = {$random{a}};
endmodule
elaborate top
> Unsupported SystemFunction 2:15
module top(input a, output y);
  reg x = $time;
endmodule
elaborate top
> Unsupported SystemFunction 2:11
# more net bits than the limit
module top(input a);
  genvar g;
  for (g = 0; g < 4096; g = g + 1) begin : many
    wire [127:0] p, q, r;
    assign p = {128{a}};
    assign q = ~p;
    assign r = ~q;
  end
endmodule
elaborate top
> TooMany NetBits
# as many scopes as the limit: instances, turns of loops, and a block that a condition chose
module leaf; endmodule
module half;
  genvar g;
  for (g = 0; g < 4095; g = g + 1) begin : many
    leaf a(), b(), c(), d(), e(), f(), h();
  end
endmodule
module top;
  half a(), b();
  genvar g;
  for (g = 0; g < 13; g = g + 1) begin : more
  end
  if (1) begin : last
  end
endmodule
elaborate top
# the block is one too many
module leaf; endmodule
module half;
  genvar g;
  for (g = 0; g < 4095; g = g + 1) begin : many
    leaf a(), b(), c(), d(), e(), f(), h();
  end
endmodule
module top;
  half a(), b();
  genvar g;
  for (g = 0; g < 14; g = g + 1) begin : more
  end
  if (1) begin : last
    assign nothing = 0;
  end
  assign behind = 0;
endmodule
elaborate top
> TooMany Scopes
# an instance is; what is refused before it counts
module leaf; endmodule
module half;
  genvar g;
  for (g = 0; g < 4095; g = g + 1) begin : many
    leaf a(), b(), c(), d(), e(), f(), h();
  end
endmodule
module top;
  wire before = nothing;
  half a(), b();
  half c();
endmodule
elaborate top
> Unknown 9:17
# the loops of all processes take one turn more than the limit: 1 and 1,000 with 999 in each; nothing else of that process is told
module top(input a, output reg y, output reg z);
  integer i, j;
  always @* begin
    z = a;
    for (i = 0; i < 1; i = i + 1) ;
  end
  always @* begin
    y = nothing;
    for (i = 0; i < 1000; i = i + 1) for (j = 0; j < 999; j = j + 1) ;
  end
  assign behind = 0;
endmodule
elaborate top
> TooMany LoopTurns
# what is refused before that process counts
module top(input a, output reg y, output z);
  integer i, j, k;
  assign z = nothing;
  always @* begin
    y = a;
    for (i = 0; i < 4096; i = i + 1) for (j = 0; j < 4096; j = j + 1) for (k = 0; k < 4096; k = k + 1) ;
  end
endmodule
elaborate top
> Unknown 3:14
'''


def told():
    """The lines of the designs, and what is printed."""
    lines, wanted = [], []
    for line in (NETLISTS + OUTPUTS + REFUSALS).strip().split("\n"):
        if line.startswith("> "):
            wanted.append(line[2:])
        elif line:
            lines.append(line)
            if line.startswith("#"):
                wanted.append(line)
    return lines, wanted
