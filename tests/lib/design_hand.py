"""Designs written by hand, one for each thing that a process or a hierarchy can be made of."""

PROCESSES = '''
# a counter that is cleared and held
module top(input clk, input clear, input hold, output [3:0] y);
  reg [3:0] count = 5;
  always @(posedge clk)
    if (clear) count <= 0;
    else if (!hold) count <= count + 1;
  assign y = count;
endmodule

# two registers change places, since both are assigned at the end
module top(input clk, input [3:0] a, input load, output [3:0] y, output [3:0] z);
  reg [3:0] p = 1, q = 2;
  always @(posedge clk) begin
    p <= q;
    q <= p;
    if (load) q <= a;
  end
  assign y = p;
  assign z = q;
endmodule

# a variable that is assigned with = is seen by later statements
module top(input clk, input [3:0] a, output [4:0] y);
  reg [4:0] t = 0, r = 0;
  always @(posedge clk) begin
    t = a + 1;
    r <= r ^ t;
    t = t << 1;
    if (t[4]) r <= t;
  end
  assign y = r;
endmodule

# = and <= mixed over variables, with a chain through three of them
module top(input clk, input [7:0] a, output [7:0] y, output [7:0] z);
  reg [7:0] first = 3, second = 7, third = 1;
  always @(posedge clk) begin
    first = a ^ third;
    second <= first + second;
    third <= second;
    first = first - 1;
    if (first[0]) third <= first;
  end
  assign y = second;
  assign z = third;
endmodule

# the first bit that is set, by casez
module top(input [4:0] a, output reg [2:0] y);
  always @*
    casez (a)
      5'b????1: y = 0;
      5'b???10: y = 1;
      5'b??100: y = 2;
      5'b?1000: y = 3;
      5'b10000: y = 4;
      default: y = 7;
    endcase
endmodule

# casex, with x, z and ? in the labels
module top(input [3:0] a, output reg [1:0] y);
  always @(a)
    casex (a)
      4'b1xx1: y = 1;
      4'bz0?0: y = 2;
      4'b01xx: y = 3;
      default: y = 0;
    endcase
endmodule

# several labels, and one that names what another did
module top(input [2:0] a, input [3:0] b, output reg [3:0] y);
  always @*
    case (a)
      0, 1: y = b;
      1, 2, 3: y = ~b;
      3'd5: y = b + 1;
      default: y = 4'b1010;
    endcase
endmodule

# labels that name every value need no default
module top(input [1:0] a, input [2:0] b, output reg [2:0] y);
  always @*
    case (a)
      2'd0: y = b;
      2'd1: y = b << 1;
      2'd2: y = b >> 1;
      2'd3: y = ~b;
    endcase
endmodule

# labels that are no constants
module top(input [2:0] a, input [2:0] b, input [2:0] c, output reg [1:0] y);
  always @*
    case (a)
      b: y = 1;
      c: y = 2;
      b ^ c: y = 3;
      default: y = 0;
    endcase
endmodule

# case of a constant: the first arm whose label is so
module top(input [3:0] a, output reg [2:0] y);
  always @*
    case (1'b1)
      a[3]: y = 4;
      a[2]: y = 3;
      a[1]: y = 2;
      a[0]: y = 1;
      default: y = 0;
    endcase
endmodule

# a label that is wider than the selector, and a signed one
module top(input signed [2:0] a, input [3:0] b, output reg [3:0] y);
  always @*
    case (a)
      4'sd6: y = 1;
      -3'sd2: y = 2;
      8'sd3: y = b;
      default: y = 4'd9;
    endcase
endmodule

# bits in the other order, by a loop
module top(input [7:0] a, output reg [7:0] y);
  integer i;
  always @*
    for (i = 0; i < 8; i = i + 1)
      y[i] = a[7 - i];
endmodule

# a loop that counts down, in steps of two
module top(input [7:0] a, output reg [7:0] y);
  integer i;
  always @* begin
    y = a;
    for (i = 7; i >= 1; i = i - 2)
      y[i] = a[i] ^ a[i - 1];
  end
endmodule

# how many bits are set, by loops within one another
module top(input [7:0] a, output reg [3:0] y);
  integer i, j;
  always @* begin
    y = 0;
    for (i = 0; i < 2; i = i + 1)
      for (j = 0; j < 4; j = j + 1)
        y = y + a[4 * i + j];
  end
endmodule

# a carry chain over a variable of the process
module top(input [3:0] a, input [3:0] b, input c, output reg [4:0] y);
  integer i;
  reg carry;
  always @* begin
    carry = c;
    for (i = 0; i < 4; i = i + 1) begin
      y[i] = a[i] ^ b[i] ^ carry;
      carry = (a[i] & b[i]) | (carry & (a[i] ^ b[i]));
    end
    y[4] = carry;
  end
endmodule

# each bit is assigned in a loop, on both sides of an if
module top(input [3:0] a, input [3:0] c, output reg [3:0] y);
  integer i;
  always @*
    for (i = 0; i < 4; i = i + 1)
      if (c[i]) y[i] = a[i];
      else y[i] = ~a[3 - i];
endmodule

# a sum and its carry on the left
module top(input [3:0] a, input [3:0] b, input c, output reg [3:0] y, output reg carry);
  always @* {carry, y} = a + b + c;
endmodule

# an index on the left is read before anything is written
module top(input clk, input [1:0] a, output [1:0] y, output [3:0] z);
  reg [1:0] k = 0;
  reg [3:0] r = 0;
  always @(posedge clk) {k, r[k]} = {a, ^a};
  assign y = k;
  assign z = r;
endmodule

# one name twice on the left: its left part stays
module top(input [3:0] a, input [3:0] b, output reg [3:0] y);
  always @* begin
    y = 0;
    {y[2:1], y[3:2]} = {a[1:0], b[1:0]};
  end
endmodule

# a bit with an index that may lie past the end
module top(input clk, input [3:0] k, input d, output [9:0] y);
  reg [9:0] r = 10'h155;
  always @(posedge clk) r[k] <= d;
  assign y = r;
endmodule

# a part with a base that may lie past the end
module top(input clk, input [3:0] k, input [3:0] d, output [9:0] y);
  reg [9:0] r = 10'h2aa;
  always @(posedge clk) r[k +: 4] <= d;
  assign y = r;
endmodule

# a part in a combinational process
module top(input [1:0] k, input [3:0] d, input [15:0] a, output reg [15:0] y);
  always @* begin
    y = a;
    y[{k, 2'b00} +: 4] = d;
  end
endmodule

# vectors whose lowest bit is not number 0
module top(input clk, input [7:4] a, output [5:2] y, output z);
  reg [5:2] r = 3;
  reg [10:7] t;
  always @* begin
    t[8:7] = a[5:4];
    t[10] = a[7];
    t[9] = a[4] & a[6];
  end
  always @(posedge clk) begin
    r[3:2] <= t[10:9];
    r[5] <= a[4];
    r[4] <= ^t;
  end
  assign y = r;
  assign z = t[7];
endmodule

# a machine of states, with a process for the next one
module top(input clk, input go, input stop, output reg [1:0] y);
  parameter IDLE = 0, RUN = 1, LAST = 2;
  reg [1:0] state = IDLE, next;
  always @(posedge clk) state <= next;
  always @(state or go or stop) begin
    next = state;
    y = 0;
    case (state)
      IDLE: if (go) next = RUN;
      RUN: begin
        y = 1;
        if (stop) next = LAST;
      end
      LAST: begin
        y = 2;
        next = go ? RUN : IDLE;
      end
    endcase
  end
endmodule

# a machine with one bit for each state
module top(input clk, input a, output [3:0] y);
  reg [3:0] s = 4'b0001;
  always @(posedge clk) begin
    s <= 0;
    case (1'b1)
      s[0]: s[a ? 1 : 0] <= 1;
      s[1]: if (a) s[2] <= 1'b1; else s[0] <= 1'b1;
      s[2]: s[3] <= 1;
      s[3]: s[~a] <= 1;
    endcase
  end
  assign y = s;
endmodule

# a counter that stops at both ends
module top(input clk, input up, input down, output [2:0] y);
  reg [2:0] c = 0;
  always @(posedge clk)
    case ({up, down})
      2'b10: if (c != 7) c <= c + 1;
      2'b01: if (c != 0) c <= c - 1;
      default: ;
    endcase
  assign y = c;
endmodule

# bits that are fed back
module top(input clk, input load, input [7:0] seed, output [7:0] y);
  reg [7:0] s = 8'hff;
  always @(posedge clk)
    s <= load ? seed : {s[6:0], s[7] ^ s[5] ^ s[4] ^ s[3]};
  assign y = s;
endmodule

# an integer as a register
module top(input clk, input signed [3:0] a, output signed [11:0] y, output z);
  integer total;
  initial total = -5;
  always @(posedge clk) total <= total + a;
  assign y = total;
  assign z = total < 0;
endmodule

# signs: shifts, comparisons and extension
module top(input signed [4:0] a, input signed [2:0] b, input [2:0] c, output reg signed [7:0] y, output reg [2:0] z);
  always @* begin
    y = a >>> c;
    if (a < b) y = b * a;
    z = {a > b, a > c, $unsigned(a) >= c};
  end
endmodule

# a shift by stages
module top(input [7:0] a, input [2:0] k, output reg [7:0] y);
  integer i;
  always @* begin
    y = a;
    for (i = 0; i < 3; i = i + 1)
      if (k[i]) y = y << (1 << i);
  end
endmodule

# lists of names, blocks with names, and empty statements
module top(input [3:0] a, input b, input [1:0] c, output reg [3:0] y, output reg z);
  always @(a, b or c) begin : outer
    if (b) ; else begin : inner
      ;
    end
    y = a;
    if (c == 2) begin end
    else y = ~a;
    z = b;
    if (a[0]) z = ^c;
  end
endmodule

# start values: the last one counts
module top(input clk, input [3:0] a, output [3:0] y, output [7:0] z);
  reg [3:0] r = 3;
  reg [7:0] s;
  initial begin
    s = 8'd7 + 1;
    begin r = 9; end
  end
  initial s = {4'ha, 4'h5};
  always @(posedge clk) begin
    r <= r ^ a;
    s <= s + r;
  end
  assign y = r;
  assign z = s;
endmodule

# a start value that is cut, and one with a sign
module top(input clk, input a, output [2:0] y, output [5:0] z);
  reg [2:0] r = 13;
  reg signed [5:0] s = -3'sd1;
  always @(posedge clk) if (a) begin r <= r - 1; s <= s >>> 1; end else s <= s - 5;
  assign y = r;
  assign z = s;
endmodule

# the registers of two processes read one another
module top(input clk, input [2:0] a, output [2:0] y, output [2:0] z);
  reg [2:0] p = 1, q = 6;
  always @(posedge clk) p <= q + a;
  always @(posedge clk) q <= p ^ a;
  assign y = p;
  assign z = q;
endmodule

# a variable of a combinational process feeds a clocked one, and is fed by it
module top(input clk, input [3:0] a, output [3:0] y);
  reg [3:0] next, now = 0;
  always @* begin
    next = now;
    if (a > now) next = now + 1;
    else if (a < now) next = now - 1;
  end
  always @(posedge clk) now <= next;
  assign y = now;
endmodule

# a bit that is assigned only on some paths keeps its value in a register
module top(input clk, input [1:0] a, input b, output [3:0] y);
  reg [3:0] r = 4'b0110;
  always @(posedge clk) begin
    if (a[0]) r[0] <= b;
    if (a[1]) r[3:2] <= {b, a[0]};
  end
  assign y = r;
endmodule

# a memory of four words as one vector
module top(input clk, input [1:0] w, input [1:0] r, input [3:0] d, input we, output [3:0] y);
  reg [15:0] words = 16'h8421;
  always @(posedge clk) if (we) words[{w, 2'b0} +: 4] <= d;
  assign y = words[{r, 2'b0} +: 4];
endmodule

# conditions wider than one bit
module top(input clk, input [3:0] a, input [3:0] b, output reg [3:0] y);
  reg [3:0] r = 0;
  always @(posedge clk) if (a & b) r <= r + (a ? b : 1);
  always @* begin
    y = r;
    if (a - b) y = a;
    if (!a) y = 4'd12;
  end
endmodule
'''

DESIGNS = '''
# values by place and by name, and ports in another order
module sub #(parameter W = 2, K = 1)(input [W - 1:0] a, output [W - 1:0] y);
  assign y = a + K;
endmodule
module top(input [4:0] a, output [4:0] x, output [4:0] y, output [1:0] z);
  sub #(5, 3) u(a, x);
  sub #(.K(7), .W(5)) v(.y(y), .a(a));
  sub w(a[1:0], z);
endmodule

# outputs of an instance to parts and concatenations
module sub(input [3:0] a, output [3:0] y, output c);
  assign {c, y} = a + 4'd9;
endmodule
module top(input [3:0] a, output [7:0] y, output z);
  wire [1:0] low;
  sub u(.a(a), .y({y[7:6], low}), .c(z));
  sub v(a ^ 4'd5, y[5:2], );
  assign y[1:0] = low;
endmodule

# connections that are narrower and wider than the ports
module sub(input [3:0] a, input signed [3:0] s, output [5:0] y, output signed [2:0] z);
  assign y = {a[1:0], s};
  assign z = s;
endmodule
module top(input [6:0] a, input [1:0] b, input signed [2:0] c, output [2:0] x, output [7:0] y, output [6:0] z, output [2:0] v);
  sub u(a, c, x, z);
  sub w(b, c - 1, y, v);
endmodule

# a loop of instances, and a condition in each turn
module cell_of #(parameter K = 0)(input a, input b, output y);
  generate
    if (K % 2 == 0) begin : even
      assign y = a & b;
    end else begin : odd
      wire n = ~a;
      assign y = n | b;
    end
  endgenerate
endmodule
module top(input [5:0] a, input b, output [5:0] y);
  genvar g;
  for (g = 0; g < 6; g = g + 1) begin : bits
    cell_of #(g) u(a[g], b ^ g[1], y[g]);
  end
endmodule

# values of parameters passed down, and added to
module leaf(input [7:0] a, output y);
  assign y = ^a;
endmodule
module tree #(parameter D = 2)(input [7:0] a, output y);
  wire p, q;
  leaf u(a << D, p);
  leaf v(a & {8{a[D]}}, q);
  assign y = p ^ q;
endmodule
module top(input [7:0] a, output [2:0] y);
  tree #(1) t0(a, y[0]);
  tree t1(a, y[1]);
  tree #(.D(2 + 3)) t2(.a(~a), .y(y[2]));
endmodule

# the clock goes down two levels by plain names
module bit_of(input clk, input d, output q);
  reg r = 0;
  always @(posedge clk) r <= d;
  assign q = r;
endmodule
module pair(input c, input d, output [1:0] q);
  wire m;
  bit_of u(.clk(c), .d(d), .q(m));
  bit_of v(.clk(c), .d(m), .q(q[1]));
  assign q[0] = m;
endmodule
module top(input clk, input d, output [3:0] q);
  pair u(clk, d, q[1:0]);
  pair v(clk, q[1], q[3:2]);
endmodule

# constants of constants, and ranges by them
module sub #(parameter W = 3, localparam_like = 2)(input [W * 2 - 1:0] a, output [W - 1:0] y);
  localparam TOP = W - 1, HALF = TOP / 2;
  wire [TOP:HALF] m = a[TOP:HALF];
  assign y = {m, {HALF{1'b1}}} + $clog2(W);
endmodule
module top(input [9:0] a, output [4:0] y, output [2:0] z);
  sub #(.W(5)) u(a, y);
  sub v(a[5:0], z);
endmodule

# initial values of wires are assigns, and a reg without a process is its start value
module top(input [3:0] a, output [3:0] y, output [3:0] z);
  wire [3:0] m = a ^ k;
  reg [3:0] k = 9;
  assign y = m;
  assign z = m & k;
endmodule

# a sum that no label names takes no item, and the register keeps its value
module top(input clk, input [1:0] s, input [3:0] a, output reg [3:0] y);
  initial y = 5;
  always @(posedge clk)
    case (s + 2'd1)
      0: y <= a;
      1: y <= a + 1;
      2: y <= ~a;
      3: y <= y + 1;
    endcase
endmodule

# a write at a signed index below 0 does nothing
module top(input clk, input signed [2:0] i, input b, output reg [3:0] y);
  initial y = 0;
  always @(posedge clk) y[i] <= b;
endmodule

# the same with an index of more than 9 bits, and with one of a single bit
module top(input clk, input signed [9:0] i, input signed j, input b, output reg [127:0] y, output reg [1:0] z);
  initial begin y = 0; z = 0; end
  always @(posedge clk) begin y[i] <= b; z[j] <= b; end
endmodule
'''
