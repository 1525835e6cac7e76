"""The designs of items.py that are worked out by hand. A line behind `> ` is printed."""

HAND = """\
# values by name, connections by name and by place
module sub #(parameter W = 2)(input [W - 1:0] a, output [W - 1:0] y, input z);
  assign y = a;
endmodule
module top(input p, output q);
  wire [3:0] w;
  sub #(.W(4)) u(.a({p, p}), .y(w));
  sub v(p, q);
endmodule
flatten top
> signal p[0+:1]i
> signal q[0+:1]o
> signal w[0+:4]t
> signal u.a[0+:4]i
> signal u.y[0+:4]o
> signal u.z[0+:1]i
> signal v.a[0+:2]i
> signal v.y[0+:2]o
> signal v.z[0+:1]i
> declares p
> declares q
> declares w
> enters u.a = @6:21
> leaves @6:33 = u.y
> open u.z
> declares u.a
> declares u.y
> declares u.z
> assigns u.@2:10 = u.@2:14
> enters v.a = @7:9
> leaves @7:12 = v.y
> open v.z
> declares v.a
> declares v.y
> declares v.z
> assigns v.@2:10 = v.@2:14
# no module at all, and none of the top's name
flatten top
> NoTop
module m;
endmodule
flatten top
> NoTop
# a module that is declared twice, ahead of all
module m; wire a; endmodule
module m; wire b; endmodule
flatten m
> signal a[0+:1]t
> refuses Twice 2:8
> declares a
# no such module
module top; none u(); endmodule
flatten top
> refuses Unknown 1:13
# modules that contain themselves
module top; mid u(); endmodule
module mid; top v(); endmodule
flatten top
> refuses Recursive 2:13
module top; top u(); endmodule
flatten top
> refuses Recursive 1:13
# what is not taken contains nothing
module sub #(parameter N = 0)(); if (N) sub #(N - 1) s(); endmodule
module top; sub u(); sub #(1) v(); endmodule
flatten top
> refuses Recursive 1:41
# values by place, and one too many
module sub #(parameter A = 1, B = 2)(); reg [A:0] r; reg [B:0] s; endmodule
module top; sub #(3, 4) u(); sub #(5) v(); sub #(1, 1, 7 + 1) w(); endmodule
flatten top
> signal u.r[0+:4]t
> signal u.s[0+:5]t
> signal v.r[0+:6]t
> signal v.s[0+:3]t
> signal w.r[0+:2]t
> signal w.s[0+:2]t
> declares u.r
> declares u.s
> declares v.r
> declares v.s
> refuses parameter TooMany 2:56
> declares w.r
> declares w.s
# a value given twice, one for no parameter, one that is no constant, and none: the first place counts
module sub #(parameter A = 1)(); reg [A:0] r; endmodule
module top;
sub #(.A(2), .A(3)) u();
sub #(.B(2), .A(3)) v();
sub #(.A(n), .B(1)) w();
sub #(.A()) x();
endmodule
flatten top
> signal u.r[0+:3]t
> signal v.r[0+:4]t
> signal w.r[0+:1]t
> signal x.r[0+:2]t
> refuses parameter Twice 3:15
> declares u.r
> refuses parameter Unknown 4:8
> declares v.r
> refuses parameter Unknown 5:10
> declares w.r
> declares x.r
# values are read outside
module sub #(parameter A = 1)(); wire [A:0] a; endmodule
module top #(parameter A = 4)(); wire s; sub #(A + 1) u(); sub #(s) v(); endmodule
flatten top
> signal s[0+:1]t
> signal u.a[0+:6]t
> signal v.a[0+:1]t
> declares s
> declares u.a
> refuses parameter NotConstant 2:66
> declares v.a
# local parameters are given no value
module sub(); localparam L = 1; parameter P = L + 1; wire [P:0] a; endmodule
module top; sub #(5) u(); sub #(.L(5)) v(); endmodule
flatten top
> signal u.a[0+:6]t
> signal v.a[0+:3]t
> declares u.a
> refuses parameter Unknown 2:34
> declares v.a
# values have the bits and the sign of their parameter
module sub #(parameter [1:0] A = 1, parameter signed [2:0] B = 1)();
wire [A + 4:0] a;
if (B < 0) wire n; else wire p;
endmodule
module top; sub #(7, 5) u(); sub #(.B(3)) v(); endmodule
flatten top
> signal u.a[0+:8]t
> signal u.genblk1.n[0+:1]t
> signal v.a[0+:6]t
> signal v.genblk1.p[0+:1]t
> declares u.a
> declares u.genblk1.n
> declares v.a
> declares v.genblk1.p
# ranges that values make
module sub #(parameter M = 3, L = 0)(input [M:L] a); endmodule
module top(input p);
sub #(5, 2) u(p);
sub #(2, 5) v(p);
sub #(128) w(p);
endmodule
flatten top
> signal p[0+:1]i
> signal u.a[2+:4]i
> signal v.a[0+:1]i
> signal w.a[0+:1]i
> declares p
> enters u.a = @3:15
> declares u.a
> enters v.a = @4:15
> refuses declaration RangeForm 1:44
> declares v.a
> enters w.a = @5:14
> refuses declaration TooWide 1:44
> declares w.a
# connections: open, too many, of no port, twice, and outputs to what is no left side
module sub(input a, input b, output y); endmodule
module top(input p, output q);
sub u(p, , q);
sub v(p, p, q, p);
sub w(.a(p), .c(q), .a(q));
sub x(.y(p + q), .b());
sub k(p, p, q, );
sub l();
sub m(.y((q)));
sub n(.y({q, p}));
endmodule
flatten top
> signal p[0+:1]i
> signal q[0+:1]o
> signal u.a[0+:1]i
> signal u.b[0+:1]i
> signal u.y[0+:1]o
> signal v.a[0+:1]i
> signal v.b[0+:1]i
> signal v.y[0+:1]o
> signal w.a[0+:1]i
> signal w.b[0+:1]i
> signal w.y[0+:1]o
> signal x.a[0+:1]i
> signal x.b[0+:1]i
> signal x.y[0+:1]o
> signal k.a[0+:1]i
> signal k.b[0+:1]i
> signal k.y[0+:1]o
> signal l.a[0+:1]i
> signal l.b[0+:1]i
> signal l.y[0+:1]o
> signal m.a[0+:1]i
> signal m.b[0+:1]i
> signal m.y[0+:1]o
> signal n.a[0+:1]i
> signal n.b[0+:1]i
> signal n.y[0+:1]o
> declares p
> declares q
> enters u.a = @3:7
> open u.b
> leaves @3:12 = u.y
> declares u.a
> declares u.b
> declares u.y
> enters v.a = @4:7
> enters v.b = @4:10
> leaves @4:13 = v.y
> refuses PortMismatch 4:5
> declares v.a
> declares v.b
> declares v.y
> enters w.a = @5:10
> refuses PortMismatch 5:15
> refuses PortMismatch 5:22
> open w.b
> declares w.a
> declares w.b
> declares w.y
> refuses PortMismatch 6:10
> open x.b
> open x.a
> declares x.a
> declares x.b
> declares x.y
> enters k.a = @7:7
> enters k.b = @7:10
> leaves @7:13 = k.y
> refuses PortMismatch 7:5
> declares k.a
> declares k.b
> declares k.y
> open l.a
> open l.b
> declares l.a
> declares l.b
> declares l.y
> refuses PortMismatch 9:10
> open m.a
> open m.b
> declares m.a
> declares m.b
> declares m.y
> leaves @10:10 = n.y
> open n.a
> open n.b
> declares n.a
> declares n.b
> declares n.y
# names in the head: one twice, one that no item declares as a port
module sub(a, b, c, a); input a; wire c; output b; endmodule
module top(); wire p; sub u(p, p, p, p); endmodule
flatten top
> signal p[0+:1]t
> signal u.a[0+:1]i
> signal u.c[0+:1]t
> signal u.b[0+:1]o
> declares p
> enters u.a = @2:29
> leaves @2:32 = u.b
> enters u.a = @2:38
> refuses declaration Unknown 1:18
> refuses declaration Twice 1:21
> declares u.a
> declares u.c
> declares u.b
# the faults of an instance come before those of its module
module sub #(parameter A = k)(a); endmodule
module top; sub #(.B(1)) u(1, 2); endmodule
flatten top
> refuses parameter Unknown 2:20
> refuses PortMismatch 2:26
> refuses declaration Unknown 1:31
> refuses declaration Unknown 1:28
# conditions
module top #(parameter N = 2)();
if (N == 2) wire a;
if (N) begin : x wire b; end else wire c;
if (N - 2) ; else wire d;
if (0) wire e;
if (N) ;
endmodule
flatten top
> signal genblk1.a[0+:1]t
> signal x.b[0+:1]t
> signal genblk3.d[0+:1]t
> declares genblk1.a
> declares x.b
> declares genblk3.d
# a condition that a condition chooses belongs to it, unless `begin` stands before it
module top;
if (1) if (1) begin wire a; end else wire b;
if (0) wire c; else if (1) wire d;
if (1) begin if (1) wire e; end
if (1) begin : n if (1) wire f; if (1) wire g; end
endmodule
flatten top
> signal genblk1.a[0+:1]t
> signal genblk2.d[0+:1]t
> signal genblk3.genblk1.e[0+:1]t
> signal n.genblk1.f[0+:1]t
> signal n.genblk2.g[0+:1]t
> declares genblk1.a
> declares genblk2.d
> declares genblk3.genblk1.e
> declares n.genblk1.f
> declares n.genblk2.g
# zeros, where the name of a block is taken
module top;
wire genblk1, genblk02;
if (1) wire a;
if (1) wire b;
wire genblk2;
endmodule
flatten top
> signal genblk1[0+:1]t
> signal genblk02[0+:1]t
> signal genblk2[0+:1]t
> signal genblk01.a[0+:1]t
> signal genblk002.b[0+:1]t
> declares genblk1
> declares genblk02
> declares genblk01.a
> declares genblk002.b
> declares genblk2
# labels
module top;
wire x;
if (1) begin : x wire a; end
if (0) begin : y wire b; end else begin : y wire c; end
if (1) begin : y wire d; end
endmodule
flatten top
> signal x[0+:1]t
> signal x.a[0+:1]t
> signal y.c[0+:1]t
> signal y.d[0+:1]t
> declares x
> refuses declaration Twice 3:16
> declares x.a
> declares y.c
> refuses declaration Twice 5:16
> declares y.d
# the name of an instance that stands already is told behind its module and its values, and ahead of its connections
module sub #(parameter A = 1)(input a); wire w; endmodule
module top;
wire u;
sub #(.B(2)) u(.b(u));
none v(), u();
sub u(), u();
endmodule
flatten top
> signal u[0+:1]t
> signal u.a[0+:1]i
> signal u.w[0+:1]t
> signal u.a[0+:1]i
> signal u.w[0+:1]t
> signal u.a[0+:1]i
> signal u.w[0+:1]t
> declares u
> refuses parameter Unknown 4:8
> refuses declaration Twice 4:14
> refuses PortMismatch 4:17
> open u.a
> declares u.a
> declares u.w
> refuses Unknown 5:1
> refuses Unknown 5:1
> refuses declaration Twice 6:5
> open u.a
> declares u.a
> declares u.w
> refuses declaration Twice 6:10
> open u.a
> declares u.a
> declares u.w
# a label that stands already is told behind the conditions before it, and ahead of those behind it and of what the block holds
module top;
wire x;
if (y) begin : x wire a; end
if (0) begin : x wire a; end else if (y) begin wire b; end
if (0) begin wire a; end else if (y) begin : x wire b; end
if (1) begin wire c; end else begin : x wire d; end
if (0) begin : x wire e; end
if (0) wire f; else if (1) ; else begin : x wire g; end
endmodule
flatten top
> signal x[0+:1]t
> signal genblk4.c[0+:1]t
> declares x
> refuses constant Unknown 3:5
> refuses declaration Twice 4:16
> refuses constant Unknown 4:39
> refuses constant Unknown 5:35
> refuses declaration Twice 6:39
> declares genblk4.c
> refuses declaration Twice 7:16
> refuses declaration Twice 8:43
# that of a loop is told behind the genvar, the start and the first condition, once, and where there is no turn; what a loop repeats
# without begin is a block without a label, and what is named in it is named there
module top;
genvar i;
wire x;
for (j = 0; j < 2; j = j + 1) begin : x wire a; end
for (i = y; i < 2; i = i + 1) begin : x wire a; end
for (i = 0; i < y; i = i + 1) begin : x wire a; end
for (i = 0; i < 2; i = i + 1) begin : x wire a; end
for (i = 0; i < 0; i = i + 1) begin : x wire a; end
for (i = 0; i < 1; i = i + 1) if (1) begin : x wire b; end
endmodule
flatten top
> signal x[0+:1]t
> signal x[0].a[0+:1]t
> signal x[1].a[0+:1]t
> signal genblk6[0].x.b[0+:1]t
> declares x
> refuses Unknown 4:6
> refuses constant Unknown 5:10
> refuses constant Unknown 6:17
> refuses declaration Twice 7:39
> declares x[0].a
> declares x[1].a
> refuses declaration Twice 8:39
> declares genblk6[0].x.b
# conditions that are no constants
module top #(parameter N = 0)(input a);
if (a) wire b;
if (n + a) wire b;
if (1 / N) wire b;
endmodule
flatten top
> signal a[0+:1]i
> declares a
> refuses constant NotConstant 2:5
> refuses constant Unknown 3:5
> refuses constant DivideByZero 4:7
# loops
module top;
genvar i;
for (i = 0; i < 2; i = i + 1) begin : l wire [i:0] w; assign w = i; end
for (i = 1; 0 < i; i = i - 1) wire v;
endmodule
flatten top
> signal l[0].w[0+:1]t
> signal l[1].w[0+:2]t
> signal genblk2[1].v[0+:1]t
> declares l[0].w
> assigns l[0].@3:62 = l[0].@3:66
> declares l[1].w
> assigns l[1].@3:62 = l[1].@3:66
> declares genblk2[1].v
# from below 0
module top;
genvar i;
for (i = 0 - 2; i < 1; i = i + 2) wire [i + 2:0] w;
endmodule
flatten top
> signal genblk1[-2].w[0+:1]t
> signal genblk1[0].w[0+:3]t
> declares genblk1[-2].w
> declares genblk1[0].w
# loops in loops
module top;
genvar i, j;
for (i = 0; i < 2; i = i + 1) begin : o
for (j = 0; j < i + 1; j = j + 1) begin : p
if (j < i) wire a; else wire b;
end
end
endmodule
flatten top
> signal o[0].p[0].genblk1.b[0+:1]t
> signal o[1].p[0].genblk1.a[0+:1]t
> signal o[1].p[1].genblk1.b[0+:1]t
> declares o[0].p[0].genblk1.b
> declares o[1].p[0].genblk1.a
> declares o[1].p[1].genblk1.b
# what a loop is refused for: its variable, start, condition, and step, behind its first turn
module top #(parameter N = 1)();
genvar i, j;
wire s;
for (s = 0; s < 2; s = s + 1) wire a;
for (N = 0; N < 2; N = N + 1) wire a;
for (k = 0; k < 2; k = k + 1) wire a;
for (i = s; i < 2; i = i + 1) wire a;
for (i = 0; i < s; i = i + 1) wire a;
for (i = 0; i < 2; i = i + s) wire b;
for (i = 0; i < 2; j = j + 1) wire c;
for (i = 0; i < 2; s = i + 1) wire d;
for (i = 0; i < 0; k = s) wire d;
for (i = 0; i < 2; i = j + 1) wire e;
endmodule
flatten top
> signal s[0+:1]t
> signal genblk6[0].b[0+:1]t
> signal genblk7[0].c[0+:1]t
> signal genblk8[0].d[0+:1]t
> signal genblk10[0].e[0+:1]t
> declares s
> refuses NotConstant 4:6
> refuses Unknown 5:6
> refuses Unknown 6:6
> refuses constant NotConstant 7:10
> refuses constant NotConstant 8:17
> declares genblk6[0].b
> refuses constant NotConstant 9:28
> declares genblk7[0].c
> refuses Unknown 10:20
> declares genblk8[0].d
> refuses NotConstant 11:20
> declares genblk10[0].e
> refuses constant Unknown 13:24
# in a turn the variable is a constant of the block
module top;
genvar i;
for (i = 0; i < 1; i = i + 1) begin
for (i = 0; i < 1; i = i + 1) wire a;
localparam i = 1;
end
endmodule
flatten top
> refuses Unknown 4:6
> refuses declaration Twice 5:12
# 4,096 turns, and one more
module top;
genvar i;
for (i = 0; i < 4096; i = i + 1) begin end
for (i = 0; i < 4097; i = i + 1) begin end
endmodule
flatten top
> refuses LoopTurns
# initial values, assignments, delays and processes
module top;
reg r = 1, s;
wire w = r, v;
assign #2 v = r, s = r;
assign v = r, {v, w} = s;
initial s = 1;
always @* s = r;
integer n = 3;
endmodule
flatten top
> signal r[0+:1]t
> signal s[0+:1]t
> signal w[0+:1]t
> signal v[0+:1]t
> signal n[0+:32]st
> declares r
> starts r = @2:9
> declares s
> declares w
> drives w = @3:10
> declares v
> refuses Delay 4:8
> assigns @5:8 = @5:12
> assigns @5:15 = @5:24
> runs @6:1
> runs @7:1
> declares n
> starts n = @8:13
# a region is part of its module, and each instance has its own signals
module sub(output y);
generate
reg y;
wire y, q;
if (1) wire a;
endgenerate
if (1) wire b;
endmodule
module top; sub u(), v(); wire u; endmodule
flatten top
> signal u.y[0+:1]ot
> signal u.q[0+:1]t
> signal u.genblk1.a[0+:1]t
> signal u.genblk2.b[0+:1]t
> signal v.y[0+:1]ot
> signal v.q[0+:1]t
> signal v.genblk1.a[0+:1]t
> signal v.genblk2.b[0+:1]t
> declares u.y
> refuses declaration Twice 4:6
> declares u.q
> declares u.genblk1.a
> declares u.genblk2.b
> declares v.y
> refuses declaration Twice 4:6
> declares v.q
> declares v.genblk1.a
> declares v.genblk2.b
> refuses declaration Twice 9:32
# instances in a loop
module sub(input a, output y); assign y = a; endmodule
module top(input a);
genvar i;
for (i = 0; i < 2; i = i + 1) begin : l
wire y;
sub u(a, y);
end
endmodule
flatten top
> signal a[0+:1]i
> signal l[0].y[0+:1]t
> signal l[0].u.a[0+:1]i
> signal l[0].u.y[0+:1]o
> signal l[1].y[0+:1]t
> signal l[1].u.a[0+:1]i
> signal l[1].u.y[0+:1]o
> declares a
> declares l[0].y
> enters l[0].u.a = l[0].@6:7
> leaves l[0].@6:10 = l[0].u.y
> declares l[0].u.a
> declares l[0].u.y
> assigns l[0].u.@1:39 = l[0].u.@1:43
> declares l[1].y
> enters l[1].u.a = l[1].@6:7
> leaves l[1].@6:10 = l[1].u.y
> declares l[1].u.a
> declares l[1].u.y
> assigns l[1].u.@1:39 = l[1].u.@1:43
# a module does not see the names around its instances
module sub(); for (i = 0; i < 1; i = i + 1) wire a; endmodule
module top; genvar i; sub u(); endmodule
flatten top
> refuses Unknown 1:20
# names of a block hide those around from where they are declared on
module top #(parameter N = 3)();
if (1) begin : x wire N; wire [N:0] a; end
if (1) begin : y wire [N:0] a; localparam N = 1; wire [N:0] b; end
endmodule
flatten top
> signal x.N[0+:1]t
> signal x.a[0+:1]t
> signal y.a[0+:4]t
> signal y.b[0+:2]t
> declares x.N
> refuses declaration NotConstant 2:32
> declares x.a
> declares y.a
> declares y.b
"""
