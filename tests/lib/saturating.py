"""The counter that stops at 255, of examples/saturating, and its bench, for the scripts that make cases of them: the lines of each."""

DESIGN = [
    "module sat(input clk, input rst_n, input en, output reg [7:0] q, output full);",
    "  assign full = (q == 8'd255);",
    "  always @(posedge clk or negedge rst_n)",
    "    if (!rst_n) q <= 8'd0;",
    "    else if (en && !full) q <= q + 8'd1;",
    "endmodule",
]
BENCH = [
    "`timescale 1ns/1ps",
    "module sat_tb;",
    "  reg clk, rst_n, en;",
    "  wire [7:0] q;",
    "  wire full;",
    "  integer i, bad;",
    "  sat dut(.clk(clk), .rst_n(rst_n), .en(en), .q(q), .full(full));",
    "  initial begin clk = 0; forever #5 clk = ~clk; end",
    "  initial begin",
    "    rst_n = 0; en = 0; bad = 0;",
    "    repeat (2) @(posedge clk);",
    "    rst_n <= 1; en <= 1;",
    "    for (i = 0; i < 260; i = i + 1) begin",
    "      @(negedge clk);",
    "      if (q !== ((i < 255) ? i : 255)) bad = bad + 1;",
    "    end",
    '    if (bad == 0) $display("ALL GOOD"); else $display("BAD %0d", bad);',
    "    $finish;",
    "  end",
    "endmodule",
]
