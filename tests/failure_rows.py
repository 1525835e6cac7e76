#!/usr/bin/env python3
"""Sources that are cut off, macros and benches without an end, and a row that comes too early: a part of the cases of crates/mcy_cases, by
the definitions alone.

    tests/failure_rows.py [FOLDER]      a part of the table of crates/mcy_cases

Each part of the and gate's source from its front but the whole one, with its last newline or without, is refused, and the keeper is not
called, whose first call fails. The empty one has no top. A word that stands in front of the module, and `end` among its items, are told
where they stand. Of all others something is missing at the end: what is left of a keyword is a name, with which a port or an instance
may begin.
"""

from equality_rows import tilde
from lib import saturating
from lib import tables
from limit_rows import bench
from retry_rows import AND, GATE
from simulation_rows import BENCH, CYCLES, Both, both_project

SOURCE = "".join(f"{line}\n" for line in AND)
# The words at which no source goes on.
MODULE, END = "module", "\nend"


def place(text):
    """The line and the column behind a text."""
    return f"{text.count(chr(10)) + 1}:{len(text) - text.rfind(chr(10))}"


def cut_fault(text):
    """What is told of the and gate's source where it ends here."""
    if text == "":
        return "NoTop"
    if MODULE.startswith(text) and text != MODULE:
        return "g.v:1:1: Unexpected"
    if text.endswith(END):
        return f"g.v:{place(text.removesuffix('end'))}: Unexpected"
    return f"g.v:{place(text)}: Unexpected"


def refused(source, fault):
    """A run over the and gate's project that is refused for its source."""
    given = [*GATE.new()[:2], f"hold g.v {source}", "fail-keeper 0 0", "call run"]
    return given, ["> run", "status 5", f"mcy: {fault}", "0 items, 0 mutations"]


def cut_cases():
    cuts = [SOURCE[:length] for length in range(len(SOURCE) - 1)]
    return [refused(text.replace("\n", "~"), cut_fault(text)) for text in cuts]


def macro_cases():
    module = [AND[0], "  assign y = a & `A;", AND[2]]
    one, two = ["`define A `A"], ["`define A `B", "`define B `A"]
    # There may be 16 uses within one another, so the 17th is told; of two macros in turn that is a use of the first.
    return [refused(tilde([*one, *module]), "g.v:1:11: Unsupported MacroDepth"), refused(tilde([*two, *module]), "g.v:2:11: Unsupported MacroDepth")]


def endless_cases():
    """Benches that loop for ever within a phase, the first one or a later one."""
    head = "module tb; reg clk = 0; always #5 clk = !clk; wire y; g dut(.clk(clk), .a(1'b1), .b(1'b1), .y(y)); integer i; initial begin i = 0;"
    loops = ['$display("PASS"); forever i = i + 1;', '@(negedge clk); $display("PASS"); while (i >= 0) i = 1 - i;']
    text = ["Mutations: 3", "Finished: 3", "Test bench: PASS 0 FAIL 0 HANG 3", "Tag CHANGED: 3", "Tag NOCHANGE: 0", "Asserts: 0", "Unexpected: 0"]
    told = ["> run", "status 0", *text, f"{sum(len(line) + 1 for line in text)} bytes", "4 items, 3 mutations", *[f"{n} {n} 0 2 1 1 0" for n in range(3)]]
    source = "hold g.v module g(input clk, input a, input b, output y); assign y = a & b; endmodule"
    return [([*bench(f"{head} {loop} $finish; end endmodule"), source, "call run"], told) for loop in loops]


def early_case():
    """The counter's book, whose first row is that of the second test: the script asks for the first one before."""
    items, *rows = Both(CYCLES).rows(40)
    early = rows[0].replace("0 0 0", "0 0 1", 1)
    given = ["new", both_project(CYCLES), f"hold sat.v {tilde(saturating.DESIGN)}", f"hold sat_tb.v {tilde(BENCH)}", "call init", *[f"row {row}" for row in (early, *rows[1:])], "call run"]
    text = ["Sites: 550", "Mutations: 20"]
    return given, ["> init", "status 0", *text, "25 bytes", items, "> run", "status 10", "mcy: database: row 0", "NotAsked", early, items, early, *rows[1:]]


PARTS = [
    ("# Each part of a source from its front is refused but the one that lacks its last newline alone.", cut_cases()),
    ("# A macro that uses itself has no end.", macro_cases()),
    ("# A bench that loops for ever within a phase hangs.", endless_cases()),
    ("# A row of a test that is asked later comes too early.", [early_case()]),
]


def main():
    halves = [[line for head, cases in PARTS for line in [head, *(row for both in cases for row in both[side])]] for side in (0, 1)]
    tables.save_part("mcy_cases", *halves)


if __name__ == "__main__":
    main()
