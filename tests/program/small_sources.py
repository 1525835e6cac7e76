#!/usr/bin/env python3
"""Runs the program on sources of some kilobytes that ask for very much: each call ends with its answer, soon and in little memory.

    tests/program/small_sources.py --program FILE [NAME..]

FILE is the built program; with names only the shapes of these names are tried. A call is `init` in an empty folder, with processor time,
address space and clock limited, so that a shape which asks for everything ends too. Its status, its two texts, its processor time
and its greatest resident memory have to be as the shape says. Ends with the line 'N passed, M failed'.
"""

import os
import re
import resource
import subprocess
import sys
import tempfile
from dataclasses import dataclass
from pathlib import Path

CONFIG = """[options]
size 4
[script]
read_verilog t.v
prep -top top
[files]
t.v
[test same]
eq
[logic]
if result("same") == "PASS":
    assert result("same") == "PASS"
"""
BEGUN = r"Sites: [0-9]+\nMutations: [0-9]+\n"
SECONDS, MEGABYTES, ADDRESS_SPACE = 10, 300, 2 << 30


@dataclass
class Shape:
    """A source with what the call prints on standard error (nothing where it begins a campaign), and within which limits."""

    name: str
    source: str
    error: str = ""
    seconds: float = SECONDS
    megabytes: int = MEGABYTES


def lines(*texts):
    return "\n".join(texts) + "\n"


def nested(depth, inmost, around):
    """A text with so many levels around it."""
    text = inmost
    for _ in range(depth):
        text = around(text)
    return text


def constants():
    """Constants within the bounds, widths and counts of others, as deep as nesting is read, in a constant and in a cell."""
    kinds = [
        ("bounds", 199, "1'b0", "0", lambda s: f"P[{s}:0]"),
        ("widths", 199, "1'b1", "1", lambda s: f"P[0+:{s}]"),
        ("counts", 199, "1'b1", "1", lambda s: "{" + s + "{1'b1}}"),
        ("counts in parentheses", 99, "1'b1", "1", lambda s: "{(" + s + "){1'b1}}"),
        ("counts in bounds", 66, "1'b1", "0", lambda s: "P[{P[" + s + ":0]{1'b0}}:0]"),
        ("sums in bounds", 99, "1'b0", "0", lambda s: f"P[{s}+0:0]"),
        ("sums in widths", 99, "1'b1", "1", lambda s: f"P[0+:{s}+0]"),
        ("choices in bounds", 99, "1'b0", "0", lambda s: f"P[1?{s}:0:0]"),
        ("signs in bounds", 99, "1'b0", "0", lambda s: f"P[$signed({s}):0]"),
        ("sums in counts", 66, "1'b1", "1", lambda s: "{(" + s + "+0){1'b1}}"),
    ]
    for name, depth, value, inmost, around in kinds:
        text = nested(depth, inmost, around)
        head = ["module top(input a, input b, output y, output z);", f"  parameter P = {value};", "  assign y = a & b;"]
        yield Shape(f"{name}, in a constant", lines(*head, f"  localparam L = {text};", "  assign z = L;", "endmodule"), seconds=1)
        yield Shape(f"{name}, in an assign", lines(*head, f"  assign z = {text};", "endmodule"), seconds=1)


def doubled(levels, head, inside, first, second):
    """Modules each of which holds two instances of the next, below a top of one gate."""
    text = [f"module top(input a, input b, output y);\n  assign y = a & b;\n  m1 {first}, {second};\nendmodule"]
    text += [f"module m{k}{head};\n  m{k + 1} {first}, {second};\nendmodule" for k in range(1, levels)]
    return lines(*text, f"module m{levels}{head};\n{inside}endmodule")


def scopes():
    """More instances, blocks and turns than a design may have, and just as many."""
    error = "mcy: TooMany Scopes\n"
    for levels in (16, 20, 40):
        yield Shape(f"instances of {levels} levels", doubled(levels, "", "", "u()", "v()"), error)
        yield Shape(f"connected instances of {levels} levels", doubled(levels, "(input a)", "", "u(a)", "v(a)"), error, megabytes=600)
    # 1 + 2 + 4 + .. + 2^15 of them
    yield Shape("65,535 instances", doubled(15, "", "", "u()", "v()"))
    gate = ["module top(input a, input b, output y);", "  assign y = a & b;"]
    # each sees the names of those around it
    for levels, megabytes in ((16, 300), (24, 350), (60, 650)):
        names = [f"g{k}" for k in range(levels)]
        text = "  generate " + "".join(f"for ({g} = 0; {g} < 2; {g} = {g} + 1) begin : b{g} " for g in names) + "end " * levels + "endgenerate"
        yield Shape(f"generate loops of two turns, {levels} of them", lines(*gate, f"  genvar {', '.join(names)};", text, "endmodule"), error, megabytes=megabytes)
    for turns in (256, 4096):
        loops = "".join(f"for ({g} = 0; {g} < {turns}; {g} = {g} + 1) begin : b{g} " for g in "gh")
        yield Shape(f"two generate loops of {turns} turns", lines(*gate, "  genvar g, h;", f"  generate {loops} end end endgenerate", "endmodule"), error)


def turns():
    """More turns of a process's loops than a design may have."""
    head = ["module top(input a, input b, output reg y);", "  integer i, j, k;", "  always @* begin", "    y = a & b;"]
    for names in ("ij", "ijk"):
        loops = " ".join(f"for ({i} = 0; {i} < 4096; {i} = {i} + 1)" for i in names)
        yield Shape(f"{len(names)} loops of a process within one another", lines(*head, f"    {loops} ;", "  end", "endmodule"), "mcy: TooMany LoopTurns\n")
    for count in (40, 1000):
        loops = ["    for (i = 0; i < 4096; i = i + 1) if (i == 4096) y = 0;"] * count
        yield Shape(f"{count} loops of a process in a row", lines(*head, *loops, "  end", "endmodule"), r"mcy: TooMany (Cells|LoopTurns)\n")


def answer(program, shape):
    """What is wrong with the call on this shape, or None; and what it took."""
    with tempfile.TemporaryDirectory() as folder:
        (Path(folder) / "config.mcy").write_text(CONFIG)
        (Path(folder) / "t.v").write_text(shape.source)

        def limited():
            resource.setrlimit(resource.RLIMIT_CPU, (int(shape.seconds) + 1, int(shape.seconds) + 2))
            resource.setrlimit(resource.RLIMIT_AS, (ADDRESS_SPACE, ADDRESS_SPACE))

        texts = Path(folder) / "out", Path(folder) / "err"
        with open(texts[0], "wb") as out, open(texts[1], "wb") as err:
            call = subprocess.Popen([program, "init"], cwd=folder, stdin=subprocess.DEVNULL, stdout=out, stderr=err, preexec_fn=limited)
            _, status, usage = os.wait4(call.pid, 0)
            call.returncode = os.waitstatus_to_exitcode(status)
        told, said = (path.read_text(errors="replace") for path in texts)
    seconds, megabytes = usage.ru_utime + usage.ru_stime, usage.ru_maxrss // 1024
    taken = f"{seconds:.2f} s, {megabytes} MB"
    wanted = (5, "", shape.error) if shape.error else (0, BEGUN, "")
    if call.returncode != wanted[0] or not re.fullmatch(wanted[1], told) or not re.fullmatch(wanted[2], said):
        return f"status {call.returncode} with {told!r} and {said!r}", taken
    if seconds > shape.seconds:
        return f"more than {shape.seconds} s", taken
    if megabytes > shape.megabytes:
        return f"more than {shape.megabytes} MB", taken
    return None, taken


def main():
    words = sys.argv[1:]
    if len(words) < 2 or words[0] != "--program":
        sys.exit(__doc__)
    program, names = str(Path(words[1]).resolve()), words[2:]
    passed = failed = 0
    for make in (constants, scopes, turns):
        for shape in make():
            if names and shape.name not in names:
                continue
            wrong, taken = answer(program, shape)
            if wrong is None:
                passed += 1
            else:
                failed += 1
                print(f"FAILED: {shape.name}, {len(shape.source)} bytes: {wrong} ({taken})")
    print(f"{passed} passed, {failed} failed")
    sys.exit(1 if failed else 0)


if __name__ == "__main__":
    main()
