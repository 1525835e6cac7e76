#!/usr/bin/env python3
"""Makes the table 'checks' of crates/elab_cases: assigns and processes of testbenches, and what is wrong first in each.

    tests/checks.py [FOLDER]      the table 'checks' of crates/elab_cases

Writes stdin and stdout of the crate. The rows are written by hand from docs/PROFILE.md: `>` stands in front of the token at
which the fault is, and is taken out of the line.
"""


from lib import tables

ROWS = """
# names, and the parts of expressions
reg clk 1 0
reg a 8 0
reg b 8 0
reg v 8 2
reg w 128 0
constant K 3
constant Z 0
clock clk
initial a = b;	nothing
initial a = >c;	Unknown
initial >c = a;	Unknown
initial >K = a;	Unknown
initial {a[1:0], >K} = b;	Unknown
initial a = b[>b:0];	NotConstant
initial a = {>b{a}};	NotConstant
initial a = {>$random{a}};	NotConstant
initial a = >{0{a}};	TooWide
initial a = >{w, b};	TooWide
initial a = b>[0:7];	RangeForm
initial a = b>[200:0];	TooWide
initial a = b[7:4];	nothing
initial a = a >/ b;	DivideOrPower
initial a = a >% b;	DivideOrPower
initial a = a >** 2;	DivideOrPower
initial a = $random >% 3;	DivideOrPower
initial a = $time >/ 2;	DivideOrPower
initial a = 7 / K;	nothing
initial a = 7 >/ Z;	DivideByZero
initial a = a + 7 >% 0;	DivideByZero
initial a = v>[b];	IndexedBase
initial v>[b] = a;	IndexedBase
initial a = v[3];	nothing
initial a = v>[b +: 2];	IndexedBase
initial a = b[b];	nothing
initial a = $random;	nothing
initial a = >$random(3);	SystemFunction
initial a = $time;	nothing
initial a = >$stime;	SystemFunction
initial a = >$time(1);	SystemFunction
initial a = $clog2(K);	nothing
initial a = $signed(b);	nothing
# a fault that stands later in the line does not count
initial a = b >/ c;	DivideOrPower
initial a = >c / b;	Unknown
initial begin a = 7 >/ Z; a = c; end	DivideByZero
initial begin a = >c; b = d; end	Unknown
# where something else is wrong in an expression, a division of constants by 0 is none
initial a = 7 / Z + >c;	Unknown
initial if (7 >/ Z) a = 1;	DivideByZero
# statements
initial if (>c) a = 1; else b = 1;	Unknown
initial if (a) b = >c; else b = d;	Unknown
initial if (a) b = 1; else b = >c;	Unknown
initial case (>c) 1: a = 1; endcase	Unknown
initial case (a) 1, >c: a = 1; endcase	Unknown
initial case (a) 1: b = >c; default: b = d; endcase	Unknown
initial case (a) 7 >/ Z: a = 1; endcase	DivideByZero
initial casez (a) 8'b1???????: a = 1; endcase	nothing
initial for (>c = 0; a < 3; a = a + 1) b = 1;	Unknown
initial for (a = 0; a < >c; a = a + 1) b = 1;	Unknown
initial for (a = 0; a < 3; a = >c) b = 1;	Unknown
initial for (a = 0; a < 3; a = a + 1) b = >c;	Unknown
initial for (a[0] = 0; a < 3; {a, b} = a + 1) b = 1;	nothing
initial while (>c) a = 1;	Unknown
initial repeat (>c) a = 1;	Unknown
initial repeat (3) a = >c;	Unknown
initial forever a = >c;	Unknown
initial >#5 a = 1;	Delay
initial begin a = 1; >#5; end	Delay
initial ;	nothing
# system tasks and formats
initial $display("%d", a);	nothing
initial $display(a, b);	nothing
initial $write("%s", "text");	nothing
initial $display(>"%d");	FormatText
initial $display(>"%q", a);	FormatText
initial $display(>"%D", a);	FormatText
initial $display(>"%s", a);	FormatText
initial $display(>"%d", "text");	FormatText
initial $display(a, "%q");	nothing
initial $write("%h", >c);	Unknown
initial $display("%h", a >/ b);	DivideOrPower
initial >$monitor("%d", a);	SystemTask
initial >$stop;	SystemTask
initial $finish;	nothing
initial $finish(1);	nothing
initial $finish(>c);	Unknown
initial $dumpfile("a.vcd");	nothing
initial $dumpvars(0, c);	nothing
# waits
initial @(posedge clk) a = 1;	nothing
initial @(negedge clk);	nothing
initial >@(posedge a) b = 1;	ClockList
initial >@(clk) b = 1;	ClockList
initial >@(posedge clk or negedge clk) b = 1;	ClockList
initial >@* b = 1;	ClockList
initial begin a = 1; forever @(posedge clk) a = >c; end	Unknown
always @(posedge clk) a <= b;	nothing
always @(negedge clk) begin a = b; end	nothing
always >@(posedge clk or posedge a) b <= a;	ClockList
always >@* b = a;	ClockList
always >@(a or b) b = a;	ClockList
always >@(posedge a) b = a;	ClockList
always @(posedge clk) begin a = 1; >@(negedge clk) a = 0; end	ClockList
always @(posedge clk) >@(posedge clk) a = 0;	ClockList
always @(posedge clk) >#1 a = 0;	Delay
>always a = b;	ClockList
>always begin @(posedge clk) a = b; end	ClockList
>always #5 a = b;	ClockList
# the clock is written by its generator, and once at the start, before the first wait
initial begin a = 1; @(posedge clk) a = 0; >clk = 0; end	Helper
initial begin if (a) @(posedge clk); >clk <= 0; end	Helper
initial begin begin @(negedge clk); end >clk = 0; end	Helper
initial begin if (a) >clk = 0; end	Helper
initial @(posedge clk) >clk = 0;	Helper
initial {a, >clk} = 0;	Helper
initial for (>clk = 0; a < 2; a = a + 1) b = 1;	Helper
initial >clk[0] = 0;	Helper
always @(posedge clk) >clk = 0;	Helper
initial begin clk = 0; a = 1; end	nothing
initial >clk = 0;	Helper
initial begin >clk = 0; end	Helper
end
reg clk 1 0
constant Z 0
clock clk
initial begin >clk = 1; end	ClockStart
end
reg clk 1 0
constant Z 0
clock clk
initial clk = Z;	nothing
initial >clk <= 0;	Helper
end
reg clk 1 0
clock clk
initial clk <= 0;	nothing
initial begin >clk = 0; end	Helper
end
reg clk 1 0
reg a 1 0
clock clk
initial begin a = 1; if (a) a = 0; begin : start clk <= 0; a = 1; end @(posedge clk); >clk = 0; end	Helper
end
reg clk 1 0
reg a 1 0
clock clk
initial begin a = 1; begin begin clk = 0; end end @(posedge clk) a = 0; end	nothing
initial begin >clk = 0; end	Helper
end
reg clk 1 0
reg a 1 0
clock clk
initial begin a = 1; >clk <= 1; end	ClockStart
end
reg clk 1 0
reg a 1 0
clock clk
initial begin begin clk <= 0; end >clk <= 0; end	Helper
end
reg clk 1 0
reg a 1 0
clock clk
initial begin >clk = a; end	Helper
end
reg clk 1 0
reg a 1 0
clock clk
initial begin clk = 0; >clk = 0; end	Helper
end
# where no clock is generated
reg a 1 0
reg b 1 0
initial @(posedge a) b = 1;	nothing
initial >@(posedge a or b) b = 1;	ClockList
initial >@(posedge a or negedge b or posedge b) b = 1;	ClockList
always @* b = a;	nothing
always @(a or b) b = a;	nothing
always @(posedge a or negedge b) b = a;	nothing
always @(posedge >c) b = a;	Unknown
always @(posedge a) >@(posedge a) b = a;	ClockList
>always b = a;	ClockList
initial a = b;	nothing
end
# assigns, in which nothing is drawn
reg a 8 0
reg b 8 0
reg v 8 2
reg w 128 0
constant K 3
constant Z 0
assign a = b;	nothing
assign a = >c;	Unknown
assign >K = a;	Unknown
assign >c = a;	Unknown
assign a[>b] = b;	NotConstant
assign b[>a[2:0]] = 1;	NotConstant
assign a[>b +: 2] = 1;	NotConstant
assign a[K +: 2] = 1;	nothing
assign {a[K], b[>a]} = 1;	NotConstant
assign v[>b] = a;	NotConstant
assign a[7 >/ Z] = b;	DivideByZero
assign a[>b] = 7 / Z;	NotConstant
assign a = >$random;	SystemFunction
assign a = b + >$random;	SystemFunction
assign a[>$random] = b;	NotConstant
assign a = {2{>$random}};	SystemFunction
assign a = $time;	nothing
assign a = b >/ a;	DivideOrPower
assign a = 7 >/ Z;	DivideByZero
assign {a[3:0], a[7:4]} = b;	nothing
assign a = >{w, a};	TooWide
end
"""


def main():
    lines, answers = [], []
    for row in ROWS.strip().splitlines():
        if "\t" not in row:
            lines.append(row)
            if row.startswith("#"):
                answers.append(row)
            continue
        text, fault = row.split("\t")
        if fault == "nothing":
            lines.append(text)
            answers.append("nothing")
            continue
        # no line uses the operator itself
        at = text.index(">")
        lines.append(text[:at] + text[at + 1 :])
        answers.append(f"{fault} {at + 1}")
    tables.save("elab_cases", lines, answers, "checks")


if __name__ == "__main__":
    main()
