#!/usr/bin/env python3
"""What benches say of the design itself: a part of the cases of crates/mcy_cases, by the definitions alone.

    tests/baseline_rows.py [FOLDER]      a part of the table of crates/mcy_cases

`baseline` gives each bench the design in the mutants' place and tells its word, and the cycle in which it ends: 1 for what ends before
the first one. No book is looked at, and none is changed. Where a bench does not pass, the call says so with its status, behind the text. With a
line `baseline on` in [options] `init` and `run` say so behind the check of the book, and do nothing. With a line `cycles auto` the tests have ten
times the cycles that the longest bench takes with the design, from 1 to 1,000,000, and `init` and `run` ask that each passes under 100,000.
The bench of the saturating counter makes its last check behind the falling edge of cycle 261 (tests/simulation_rows.py). That one which
ends at the first difference does so in the cycle of the check: the count I is looked at in cycle I + 2.
"""

from equality_rows import tilde
from lib import saturating
from lib import tables
from retry_rows import GATE
from simulation_rows import BENCH, CYCLES, Both, both_project
from slot_rows import SHORT

LAST = 261
ON, AUTO = "baseline on", "cycles auto"
BAD = ["status 20", "mcy: baseline not passed"]
WRITE = ["status 13", "mcy: write fault"]
NO_BOOK = ["0 items, 0 mutations"]
BOTH = Both(CYCLES)
BEGUN = ["> init", "status 0", "Sites: 550", "Mutations: 20", "25 bytes", *BOTH.rows(0)]


def files(bench=BENCH, cycles=CYCLES, option=None):
    """The counter's project with a bench, and with a line more in [options] or another one for the cycles."""
    line = f"cycles {cycles}~"
    lines = {None: line, ON: f"{line}{ON}~", AUTO: f"{AUTO}~"}[option]
    return ["new", both_project(cycles).replace(line, lines), f"hold sat.v {tilde(saturating.DESIGN)}", f"hold sat_tb.v {tilde(bench)}"]


def other(bench, limit):
    """A bench that takes the counter for one that stops at this number."""
    return [line.replace("(i < 255) ? i : 255", f"(i < {limit}) ? i : {limit}") for line in bench]


def looping(front):
    """The bench with a loop that has no end, behind this front."""
    return [*BENCH[:8], f"  initial begin rst_n = 0; en = 0; i = 0; {front} forever i = i + 1; end", "endmodule"]


def written(lines):
    return [*lines, f"{sum(len(line) + 1 for line in lines)} bytes"] if lines else []


def line(word, cycle, test="test_sim"):
    return f"Test {test}: {word} after {cycle} cycles"


def called(text, head, book=NO_BOOK):
    return ["> baseline", *head, *written(text), *book]


def word_cases():
    """Benches with the words that they say and the cycles in which they end."""
    at_once = [*BENCH[:8], '  initial begin rst_n = 0; en = 0; $display("ALL GOOD"); $finish; end', "endmodule"]
    yield "# The bench of the counter passes with the design itself.", [*files(), "call baseline"], called([line("PASS", LAST)], ["status 0"])
    yield "# It passes in the last of its cycles, and hangs with one cycle less.", (
        [*files(cycles=LAST), "call baseline", *files(cycles=LAST - 1), "call baseline"]
    ), [*called([line("PASS", LAST)], ["status 0"]), *called([line("HANG", LAST - 1)], BAD)]
    yield "# What ends before the first cycle ends in it.", [*files(at_once), "call baseline"], called([line("PASS", 1)], ["status 0"])
    given, told = [], []
    for bench, cycle in ((other(BENCH, 254), LAST), (other(SHORT, 254), 257), (other(SHORT, 100), 103), (other(SHORT, 0), 3)):
        given += [*files(bench), "call baseline"]
        told += called([line("FAIL", cycle)], BAD)
    yield "# A bench that fails the design says so, and the call with it.", given, told
    given, told = [], []
    for front, cycle in (("", 1), ("repeat (3) @(negedge clk);", 3), ("repeat (3) @(posedge clk);", 3)):
        given += [*files(looping(front)), "call baseline"]
        told += called([line("HANG", cycle)], BAD)
    yield "# A bench that loops for ever within a phase hangs in its cycle.", given, told


def many_cases():
    """Two benches and an equality between them, and no bench at all."""
    head = ["[options]", "size 20", "tags COVERED", "[script]", "read_verilog sat.v", "prep -top sat", "[files]", "sat.v", "[logic]", 'tag("COVERED")']
    words = ["pass ALL GOOD", "fail BAD"]
    given, told = [], []
    for first, last, word in ((BENCH, other(SHORT, 254), "FAIL"), (other(SHORT, 254), BENCH, "PASS"), (BENCH, BENCH, "PASS")):
        tests = [["[test one]", "sim sat_tb one.v", *words], ["[test same]", "eq"], ["[test two]", "sim sat_tb two.v", *words]]
        lines = [*head, *(row for test in tests for row in test)]
        benches = [f"hold one.v {tilde(first)}", f"hold two.v {tilde(last)}"]
        given += ["new", f"hold config.mcy {tilde(lines)}", f"hold sat.v {tilde(saturating.DESIGN)}", *benches, "call baseline"]
        front = line("PASS", LAST, "one") if first is BENCH else line("FAIL", 257, "one")
        text = [front, line(word, LAST if last is BENCH else 257, "two")]
        told += called(text, ["status 0"] if first is last else BAD)
    yield "# Each bench has a line, in the order of the tests, and one that does not pass is enough.", given, told
    yield "# Where no test is a bench there is nothing to tell.", [*GATE.new(), "call baseline"], called([], ["status 0"])


def book_cases():
    text = [line("PASS", LAST)]
    failing = files(other(BENCH, 254))
    yield "# The book stays as it is, whatever it is, and is not even asked for.", (
        [*files(), "call run --stop-after 3", "call baseline", "fail-keeper 0 0", "call baseline", "row 3 1 1 0 0 0 0", "call baseline"]
    ), [
        *BOTH.run("run --stop-after 3", 3), *called(text, ["status 0"], BOTH.rows(3)), *called(text, ["status 0"], BOTH.rows(3)),
        *called(text, ["status 0"], [*BOTH.rows(3), "3 1 1 0 0 0 0"]),
    ]
    yield "# A campaign whose bench does not pass may be begun all the same.", [*failing, "call init", "call baseline"], (
        [*BEGUN, *called([line("FAIL", LAST)], BAD, BOTH.rows(0))]
    )
    yield "# A sink that fails has a first part of the text, whatever the benches say.", (
        [*files(), "fail-write 0 0", "call baseline", *files(), "fail-write 0 5", "call baseline", *failing, f"fail-write 0 {len(line('FAIL', LAST))}", "call baseline"]
    ), [
        *called([], WRITE), "> baseline", *WRITE, "Test ", "5 bytes", *NO_BOOK,
        "> baseline", *WRITE, line("FAIL", LAST), f"{len(line('FAIL', LAST))} bytes", *NO_BOOK,
    ]


def refused_cases():
    missing = [row for row in files() if not row.startswith("hold sat_tb.v")]
    yield "# Files are refused as before any other command.", (
        ["new", "call baseline", *missing, "call baseline", *files()[:2], "hold sat.v module sat(", files()[3], "call baseline", *files(), "fail-read 1", "call baseline"]
    ), [
        "> baseline", "status 6", "mcy: config.mcy: missing", *NO_BOOK, "> baseline", "status 6", "mcy: sat_tb.v: missing", *NO_BOOK,
        "> baseline", "status 5", "mcy: sat.v:1:12: Unexpected", *NO_BOOK, "> baseline", "status 11", "mcy: sat.v: read fault", *NO_BOOK,
    ]


def refusing(words, book=NO_BOOK):
    return [f"> {words}", *BAD, *book]


def on_cases():
    """`baseline on`."""
    failing = files(other(BENCH, 254), option=ON)
    none = ["status 8", "mcy: no campaign", *NO_BOOK]
    yield "# A project may ask that its benches pass with the design before anything is begun.", [*files(option=ON), "call init", "call run --stop-after 3", "call baseline", "call run"], (
        [*BEGUN, *BOTH.run("run --stop-after 3", 3), *called([line("PASS", LAST)], ["status 0"], BOTH.rows(3)), *BOTH.run("run", 40)]
    )
    yield "# Where one does not pass, nothing is begun.", [*failing, *[f"call {words}" for words in ("init", "run", "status", "list", "source", "baseline", "run --stop-after 1")]], [
        *refusing("init"), *refusing("run"), "> status", *none, "> list", *none, "> source", *none, *called([line("FAIL", LAST)], BAD), *refusing("run --stop-after 1"),
    ]
    fault = ["status 12", "mcy: database fault"]
    changed = ["status 10", "mcy: database: meta 3", "kept", "sat_tb.v", *BENCH, "derived", "sat_tb.v", *other(BENCH, 254), *BOTH.rows(0)]
    yield "# The book is looked at before.", (
        [*files(option=ON), "call init", "forget", *failing[1:], "call run", "call init", *failing, "fail-keeper 0 0", "call run"]
    ), [
        *BEGUN, "> run", *changed, "> init", "status 9", "mcy: campaign already begun", *BOTH.rows(0), "> run", *fault, *NO_BOOK,
    ]
    none = ["> run --mutations 21", "status 22", "mcy: no mutation 21", *NO_BOOK]
    yield "# So are the numbers of a run.", [*failing, "call run --mutations 21", "call run --mutations 20"], [*none, *refusing("run --mutations 20")]


def waiting(front, more):
    """A bench that is done at this falling edge where `y` is 1, and so many edges later where it is not."""
    return (
        "module tb; reg clk = 0; always #5 clk = !clk; wire y; g dut(.clk(clk), .a(1'b1), .b(1'b1), .y(y)); "
        f"initial begin repeat ({front}) @(negedge clk); if (y) begin $display(\"PASS\"); $finish; end repeat ({more}) @(negedge clk); $finish; end endmodule"
    )


def waiting_project(*benches):
    """The and gate with these benches, the first of which is asked, and the cycles by all."""
    lines = ["[options]", "size 3", AUTO, "modes inv", "tags CHANGED NOCHANGE", "[script]", "read_verilog g.v", "prep -top g", "[files]", "g.v", "[logic]", *SCRIPT]
    for number, _ in enumerate(benches):
        lines += [f"[test bench{number}]", f"sim tb tb{number}.v", "pass PASS"]
    design = "hold g.v module g(input clk, input a, input b, output y); assign y = a & b; endmodule"
    return ["new", f"hold config.mcy {tilde(lines)}", design, *[f"hold tb{number}.v {bench}" for number, bench in enumerate(benches)]]


SCRIPT = ['if result("bench0") == "PASS":', '    tag("NOCHANGE")', "else:", '    tag("CHANGED")']


def waiting_run(word, benches=1):
    """A run of it, in which each mutant has this word."""
    text = ["Mutations: 3", "Finished: 3", f"Test bench0: PASS 0 FAIL {3 * (word == 1)} HANG {3 * (word == 2)}", *["Test bench1: PASS 0 FAIL 0 HANG 0"] * (benches - 1),
            "Tag CHANGED: 3", "Tag NOCHANGE: 0", "Asserts: 0", "Unexpected: 0"]
    return ["> run", "status 0", *written(text), f"{3 + benches} items, 3 mutations", *[f"{n} {n} 0 {word} 1 1 0" for n in range(3)]]


def auto_cases():
    """`cycles auto`."""
    yield "# The cycles may be ten times those that the bench takes with the design.", [*files(option=AUTO), "call baseline", "call run"], [
        *called([line("PASS", LAST)], ["status 0"]), *BOTH.run("run", 40),
    ]
    given, told = [], []
    for front in (1, 3):
        for more, word in ((9 * front, 1), (9 * front + 1, 2)):
            given += [*waiting_project(waiting(front, more)), "call run"]
            told += waiting_run(word)
    yield "# What ends in the last of them has its word, and a cycle later it hangs.", given, told
    given, told = [], []
    for more, word in ((19, 1), (20, 2)):
        given += [*waiting_project(waiting(1, more), waiting(2, 1)), "call run"]
        told += waiting_run(word, 2)
    yield "# The longest bench counts.", given, told
    long = waiting(100000, 1), waiting(100001, 1)
    begun = ["> init", "status 0", "Sites: 3", "Mutations: 3", "22 bytes", "4 items, 3 mutations"]
    yield "# A bench may take 100,000 cycles with the design for that.", [*waiting_project(long[0]), "call init", *waiting_project(long[1]), "call init", "call run", "call baseline"], [
        *begun, *refusing("init"), *refusing("run"), *called([line("HANG", 100000, "bench0")], BAD),
    ]
    failing, none = files(other(BENCH, 254), option=AUTO), ["status 8", "mcy: no campaign", *NO_BOOK]
    yield "# Each has to pass.", [*failing, *[f"call {words}" for words in ("init", "run", "status", "list", "source")]], [
        *refusing("init"), *refusing("run"), "> status", *none, "> list", *none, "> source", *none,
    ]
    gate = [GATE.new()[0], GATE.new()[1].replace("size 10~", f"size 10~{AUTO}~"), GATE.new()[2]]
    yield "# Where no test is a bench there is none to ask.", [*gate, "call run"], GATE.called("run", GATE.status([1, 1, 1]), GATE.rows())


def main():
    given, told = [], []
    for head, lines, answers in [*word_cases(), *many_cases(), *book_cases(), *refused_cases(), *on_cases(), *auto_cases()]:
        given += [head, *lines]
        told += [head, *answers]
    tables.save_part("mcy_cases", given, told)


if __name__ == "__main__":
    main()
