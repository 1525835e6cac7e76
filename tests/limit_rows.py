#!/usr/bin/env python3
"""Campaigns at each limit: a part of the cases of crates/mcy_cases, by the definitions alone.

    tests/limit_rows.py [FOLDER]      a part of the table of crates/mcy_cases

Each design has as much of one thing as it may have, and is so made that all its mutants are told from it, or none: a chain of inverters or of
exclusive ors, in which a bit that is changed changes an output, or cells that no output reads. So the words are known without a search.
In a pattern of `spread` a unit stands between two `\\`, with `#` for its number, `?` for the number before and `%` for the end of a line.
"""

from lib import tables

AND = "module g(input a, input b, output y); assign y = a & b; endmodule"
NOT = "module g(input a, output y); assign y = ~a; endmodule"
LOGIC = ['if result("{}") == "PASS":', '    tag("NOCHANGE")', "else:", '    tag("CHANGED")']


def project(options, test, logic=None, mark="~"):
    """The lines of a project over g.v, with a mark for the end of each."""
    name = test[0].split()[1].rstrip("]")
    logic = logic or [line.format(name) for line in LOGIC]
    lines = ["[options]", *options, "[script]", "read_verilog g.v", "prep -top g", "[files]", "g.v", "[logic]", *logic, *test]
    return "".join(line + mark for line in lines)


def equality(size, options=("modes inv",)):
    return ["new", "hold config.mcy " + project([f"size {size}", "tags CHANGED NOCHANGE", *options], ["[test same]", "eq"])]


def bench(text, options=()):
    test = ["[test bench]", "sim tb tb.v", "pass PASS"]
    return ["new", "hold config.mcy " + project(["size 3", "tags CHANGED NOCHANGE", "modes inv", *options], test), f"hold tb.v {text}"]


def spread(count, pattern):
    return f"spread g.v {count} {pattern}"


def told(lines, book):
    return ["> run", "status 0", *lines, f"{sum(len(line) + 1 for line in lines)} bytes", *book]


def run(differ, test="same", last="UNKNOWN", items=3):
    """A run over mutations, of which these differ."""
    count, fails = len(differ), sum(differ)
    lines = [f"Mutations: {count}", f"Finished: {count}", f"Test {test}: PASS {count - fails} FAIL {fails} {last} 0"]
    lines += [f"Tag CHANGED: {fails}", f"Tag NOCHANGE: {count - fails}", "Asserts: 0", "Unexpected: 0"]
    bound = 20000 if last == "UNKNOWN" else 0
    rows = [f"{n} {n} 0 {int(fails)} 1 {1 if fails else 2} {bound}" for n, fails in enumerate(differ)]
    rows = rows if len(rows) <= 100 else [f"{len(rows)} rows"]
    return told(lines, [f"{items} items, {count} mutations", *rows])


ALL, NONE = run([True] * 3), run([False] * 3)


def bytes_case():
    head, tail, size = "module g(input a, input b, output y); assign y = a & b;", "endmodule", 1048576
    blanks = size - len(head) - len(tail)
    source = spread(blanks // 16, f"{head}{' ' * (blanks % 16)}\\{' ' * 16}\\{tail}")
    yield "# A campaign at each limit is carried through. A file may have 1,048,576 bytes,", [*equality(3), source], ALL


def files_case():
    lines = project(["size 3", "tags CHANGED NOCHANGE", "modes inv"], ["[test same]", "eq"], mark="%")
    lines = lines.replace("read_verilog g.v", "read_verilog g.v\\ m#.v\\").replace("%[files]%g.v", "%[files]%g.v\\%m#.v\\")
    given = ["new", f"spread config.mcy 63 {lines}", f"hold g.v {AND}", *[f"fill m{n}.v 10 1" for n in range(1, 64)]]
    yield "# a project 64 files,", given, run([True] * 3, items=66)


def tokens_case():
    """Macros of 100 symbols, and of ten uses of the one before; a use counts as one beside what it stands for."""
    lines = [f"`define m0 {';' * 100}"] + [f"`define m{n} {f'`m{n - 1} ' * 10}" for n in range(1, 5)]
    counts = [101]
    for _ in lines[1:]:
        counts.append(10 * counts[-1] + 1)
    source = "module g ( input a , input b , output y ) ; ( * {} * ) assign y = a & b ; endmodule"
    left, uses = 2000000 - len(source.format("").split()), ""
    for n, count in reversed(list(enumerate(counts))):
        uses += f"`m{n} " * (left // count)
        left %= count
    source = source.replace("( * ", "(* ").replace(" * )", " *)").format(uses + ";" * left)
    yield "# a design 2,000,000 tokens and uses of macros,", [*equality(3), "hold g.v " + "~".join([*lines, source])], ALL


def turns_cases():
    loop = "module g(input a, output reg y); integer i; always @* begin y = 0; for (i = 0; i < 4096; i = i + 1) y = y ^ a; end endmodule"
    yield "# a loop 4,096 turns in a process,", [*equality(3), f"hold g.v {loop}"], ALL
    head, tail = "module g(input a, input b, output y); genvar i; generate", "endgenerate assign y ="
    turn = "for (i = 0; i < 4096; i = i + 1) begin :"
    yield "# and as many of generate,", [*equality(3), f"hold g.v {head} {turn} t wire w; assign w = a & b; end {tail} a; endmodule"], NONE
    yield "# 65,536 scopes,", [*equality(3), spread(16, f"{head}\\ {turn} t# end\\ {tail} a & b; endmodule")], ALL


def sizes_cases():
    head, wide = "module g(input [127:0] a, output [127:0] y", "[127:0]"
    chain = f"wire {wide} w0 = a;\\ wire {wide} w# = ~w?;\\ assign y ="
    nots = spread(329, f"module g(input a, output y); wire w0 = a;\\ wire w# = {'~' * 199}w?;\\ assign y = {'~' * 64}w329; endmodule")
    yield "# a design 65,535 cells,", [*equality(3), nots], ALL
    yield "# 1,048,576 net bits,", [*equality(3), spread(4095, f"{head}\\, output {wide} y#\\); {chain} w4095; endmodule")], ALL
    yield "# 4,194,304 bits of signals,", [*equality(3), spread(32766, f"{head}); assign y = ~a;\\ wire {wide} w#;\\ endmodule")], ALL
    sites = spread(1562, f"{head}, output [63:0] z); assign z = ~a[63:0]; {chain} w1562; endmodule")
    yield "# 2,000,000 sites,", [*equality(3, ()), sites], ALL
    # The count is 1 and the weights of the cells: 781 times 128, and 31.
    gates = f"{head}, output [30:0] z); assign z = a[30:0] ^ a[62:32]; wire {wide} w0 = a;\\ wire {wide} w# = w? ^ a;\\ assign y = w781; endmodule"
    yield "# 100,000 gates,", [*equality(3), spread(781, gates)], ALL
    yield "# and 10,000 mutations, each with 100,000 lemmas at most.", (
        [*equality(10000, ["conflicts 100000"]), spread(8, f"{head}); {chain} w8; endmodule")]
    ), run([True] * 10000)


def clause_case():
    """Outputs that all differ, in few free bits: a mutant of the redundant `or` is the design, and each other one differs from it."""
    source = "module g(input [6:0] k, input a, input b, output [127:0] y); wire s = a & (a | b); assign y = (128'd1 << k) ^ {128{s}}; endmodule"
    yield "# A clause may have 128 literals.", [*equality(653), f"hold g.v {source}"], run([n != 1 for n in range(653)])


def bench_cases():
    head = "module tb; reg clk = 0; always #5 clk = !clk;"
    registers = spread(32, "module g(input clk, input [127:0] a, output [127:0] y); wire [127:0] r0 = a;\\ reg [127:0] r#; always @(posedge clk) r# <= r?;\\ assign y = r32; endmodule")
    waits = 'initial begin repeat (40) @(posedge clk); if (y == 5) $display("PASS"); $finish; end endmodule'
    given = [*bench(f"{head} wire [127:0] y; g dut(.clk(clk), .a(128'd5), .y(y)); {waits}"), registers]
    yield "# A design has 4,096 bits of registers,", given, run([True] * 3, "bench", "HANG", 4)
    counts = 'integer i; initial begin i = 0; repeat (49990) i = i + 1; $display("PASS"); $finish; end endmodule'
    given = [*bench(f"{head} wire y; g dut(.clk(clk), .a(1'b1), .b(1'b1), .y(y)); {counts}", ["cycles 1000000"])]
    given.append("hold g.v module g(input clk, input a, input b, output y); assign y = a & b; endmodule")
    yield "# and a phase of a bench 100,000 statements.", given, run([False] * 3, "bench", "HANG", 4)


def nesting_case():
    patterns = [
        (199, "module g(input a, output y); assign y = \\(\\ ~a \\)\\; endmodule"),
        (196, "module g(input a, output reg y); always @* begin \\begin \\y = ~a; \\end \\end endmodule"),
        (199, "module g(input a, output y); \\if (1) begin \\assign y = ~a; \\end \\endmodule"),
    ]
    given, answers = [], []
    for count, pattern in patterns:
        given += [*equality(3), spread(count, pattern), "call run"]
        answers += run([True] * 2)
    yield "# Expressions nest 200 deep, and so do statements and blocks.", given[:-1], answers


def script_cases():
    tests, tags = [f"t{n}" for n in range(16)], [f"T{n}" for n in range(32)]
    logic = [f'a{n} = result("{test}")' for n, test in enumerate(tests)] + ['tag("T31")']
    lines = ["Mutations: 1", "Finished: 1", *[f"Test {test}: PASS 0 FAIL 1 UNKNOWN 0" for test in tests]]
    lines += [f"Tag {tag}: {int(tag == 'T31')}" for tag in tags] + ["Asserts: 0", "Unexpected: 0"]
    rows = [f"{n} 0 {n} 1 0 0 20000" for n in range(15)] + [f"15 0 15 1 1 {1 << 31} 20000"]
    config = project(["size 1", "tags " + " ".join(tags), "modes inv"], [line for test in tests for line in (f"[test {test}]", "eq")], logic)
    yield "# A project has 16 tests and 32 tags.", ["new", f"hold config.mcy {config}", spread(0, NOT)], told(lines, ["3 items, 1 mutations", *rows])
    names = [f"n{n} = 1" for n in range(32)]
    bodies = [" " * n + "if n0:" for n in range(32)] + [" " * 32 + 'tag("CHANGED")']
    config = project(["size 1", "tags CHANGED NOCHANGE", "modes inv"], ["[test same]", "eq"], [*names, "\\ %\\" + bodies[0], *bodies[1:]], "%")
    lines = ["Mutations: 1", "Finished: 1", "Test same: PASS 0 FAIL 0 UNKNOWN 0", "Tag CHANGED: 1", "Tag NOCHANGE: 0", "Asserts: 0", "Unexpected: 0"]
    given = ["new", f"spread config.mcy {1000 - len(names) - len(bodies)} {config}", spread(0, NOT)]
    yield "# A script has 1,000 lines, 32 names and 32 bodies within one another.", given, told(lines, ["3 items, 1 mutations"])


def main():
    makers = (bytes_case, files_case, tokens_case, turns_cases, sizes_cases, clause_case, bench_cases, nesting_case, script_cases)
    given, answers = [], []
    for title, before, answer in (case for maker in makers for case in maker()):
        given += [title, *before, "call run"]
        answers += [title, *answer]
    tables.save_part("mcy_cases", given, answers)


if __name__ == "__main__":
    main()
