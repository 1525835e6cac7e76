#!/usr/bin/env python3
"""What a terminal is told beside the lines of the outcomes: how far a campaign is, which retry asks again, and what to do next.

    python3 tests/program/progress.py PROGRAM

Runs a campaign with standard error as a terminal: lines come, ten times a second at most, each with numbers that fit
the campaign, and the last one is cleared; so with one test under way and with eight. Standard output is the same as where standard error
is a pipe, to which nothing is written.
What to do next is told behind the text of `run` and `status` on a terminal, and only there. Calls that are refused write the line of the
file and a hint there (hints.py).
Ends with the line 'progress: N lines', or tells what is wrong.
"""

import contextlib
import os
import pty
import re
import signal
import subprocess
import sys
import tempfile
import time

import hints

PROJECT = """[options]
size 10000
tags CHANGED NOCHANGE GIVENUP
[script]
read_verilog g.v
prep -top g
[files]
g.v
[logic]
word = result("same")
if word == "UNKNOWN":
    tag("GIVENUP")
elif word == "PASS":
    tag("NOCHANGE")
else:
    tag("CHANGED")
[test same]
eq
"""
WIDTH = 24
SOURCE = f"""module g(input [{WIDTH - 1}:0] a, input [{WIDTH - 1}:0] b, output [{WIDTH - 1}:0] y, output z);
  assign y = a + b;
  assign z = y == a;
endmodule
"""
# A line in the place of the one before, which the terminal does not go on on another; the cursor waits below it.
LINE = re.compile(rb"(\x1b\[A)?\r\x1b\[K\x1b\[\?7lmcy: (\d+) of (\d+) finished, (\d+) tests a second(?:, (\d+) s left)?\x1b\[\?7h\r\n")
CLEARED = b"\x1b[A\r\x1b[K"
UNKNOWN = re.compile(rb"(?:mcy: \d+ unfinished: mcy run goes on with them\r\n)?(?:mcy: \d+ UNKNOWN: run --retry \d+ asks again\r\n)?\Z")
NO_CAMPAIGN = "no campaign", "run or init begins one"
BEGUN = "campaign already begun", "run goes on with it"
CHANGED = "database: meta 2", "g.v has changed since the campaign began: undo that, or move mcy.db and mcy.db-wal away to begin anew"


def folder():
    here = tempfile.TemporaryDirectory()
    for name, text in (("config.mcy", PROJECT), ("g.v", SOURCE)):
        with open(os.path.join(here.name, name), "w") as out:
            out.write(text)
    return here


def on_terminal(program, words, here):
    """The status, the text, what came on the terminal, and how long it took."""
    ours, theirs = pty.openpty()
    began = time.monotonic()
    child = subprocess.Popen([program, *words], cwd=here, stdout=subprocess.PIPE, stderr=theirs, stdin=subprocess.DEVNULL)
    os.close(theirs)
    seen = b""
    while True:
        try:
            piece = os.read(ours, 65536)
        except OSError:
            break
        if not piece:
            break
        seen += piece
    text = child.stdout.read()
    status = child.wait(timeout=60)
    os.close(ours)
    return status, text, seen, time.monotonic() - began


def check_lines(seen, spent):
    assert seen.endswith(CLEARED), ("the line is not cleared", seen[-80:])
    lines = [*LINE.finditer(seen)]
    assert b"".join(line[0] for line in lines) + CLEARED == seen, ("a line is none", seen[:200])
    assert [bool(line[1]) for line in lines] == [False] + [True] * (len(lines) - 1), "a line is not in the place of the one before"
    counts = [int(line[2]) for line in lines]
    assert counts == sorted(counts) and len({line[3] for line in lines}) == 1, ("the numbers do not fit", counts)
    assert all(int(line[2]) < int(line[3]) for line in lines), "a line tells too many"
    assert all(line[5] is None or int(line[5]) > 0 for line in lines), "a line tells that nothing is left"
    assert len(lines) <= spent * 10 + 1, ("too many lines", len(lines), spent)
    return len(lines)


def check_cut_off(program, here):
    """A call that is cut off leaves its last line whole, and the cursor below it. One that ended before has cleared it."""
    ours, theirs = pty.openpty()
    child = subprocess.Popen([program, "run"], cwd=here, stdout=subprocess.DEVNULL, stderr=theirs, stdin=subprocess.DEVNULL)
    os.close(theirs)
    seen = b""
    while not LINE.search(seen):
        seen += os.read(ours, 65536)
    child.send_signal(signal.SIGINT)
    status = child.wait(timeout=60)
    with contextlib.suppress(OSError):
        while piece := os.read(ours, 65536):
            seen += piece
    os.close(ours)
    seen = seen.removesuffix(CLEARED) if status == 0 else seen
    assert b"".join(line[0] for line in LINE.finditer(seen)) == seen != b"", ("a line is not whole", seen[-80:])


def check_refusal(program, word, here, status, lines):
    """A refused call: both lines on a terminal, and the first of them elsewhere."""
    told = on_terminal(program, [word], here)
    assert told[:3] == (status, b"", "".join(f"mcy: {line}\r\n" for line in lines).encode()), told
    piped = subprocess.run([program, word], cwd=here, capture_output=True, timeout=60)
    assert (piped.returncode, piped.stdout, piped.stderr) == (status, b"", f"mcy: {lines[0]}\n".encode()), piped


def check_refusals(program, here):
    check_refusal(program, "status", here, 8, NO_CAMPAIGN)
    assert on_terminal(program, ["init"], here)[2] == b"", "a campaign that begins is told of"
    check_refusal(program, "init", here, 9, BEGUN)
    with open(os.path.join(here, "g.v"), "a") as source:
        source.write("// a line more\n")
    check_refusal(program, "run", here, 10, CHANGED)
    assert on_terminal(program, ["none"], here)[2].count(b"\n") == 2, "words that are none have no hint"


GIVEN_UP = "examples", "given_up"


def check_given_up(program):
    """A test that is UNKNOWN is told with the retry that asks it again, twice its limit; after one that settles it nothing is told."""
    example = os.path.join(os.path.dirname(os.path.abspath(__file__)), "..", "..", *GIVEN_UP)
    with tempfile.TemporaryDirectory() as here:
        for name in os.listdir(example):
            with open(os.path.join(example, name)) as source, open(os.path.join(here, name), "w") as copy:
                copy.write(source.read())
        asks = b"mcy: 1 UNKNOWN: run --retry 2 asks again\r\n"
        first = on_terminal(program, ["run"], here)
        assert first[0] == 0 and first[2].endswith(asks), first
        assert on_terminal(program, ["status"], here)[:3] == (0, first[1], asks), "a status tells of no UNKNOWN"
        assert on_terminal(program, ["list"], here)[2] == b"", "a list tells of UNKNOWN"
        piped = subprocess.run([program, "status"], cwd=here, capture_output=True, timeout=60)
        assert piped.stderr == b"", piped
        settled = on_terminal(program, ["run", "--retry", "9"], here)
        assert settled[0] == 0 and b"UNKNOWN" not in settled[2], settled
        assert on_terminal(program, ["status"], here)[2] == b"", "what is settled is told of"


# A bench that only looks whether q comes, and takes no notice of what comes later: a change that stops the clock's count is HANG.
COUNTED = """module c(input clk, input a, output reg q, output z);
  reg [1:0] n;
  always @(posedge clk) begin n <= n + 2'd1; q <= n == 2'd3; end
  assign z = a & q;
endmodule
"""
WAITING = """module w;
  reg clk, a;
  wire q, z;
  c u(.clk(clk), .a(a), .q(q), .z(z));
  initial begin clk = 0; forever #1 clk = ~clk; end
  initial begin
    a = 1;
    @(posedge clk);
    while (!q) @(posedge clk);
    $display("OK");
    $finish;
  end
endmodule
"""
COVERAGE = """[options]
size 1000
cycles 20
modes const0 const1
tags COVERED UNCOVERED
[script]
read_verilog c.v
prep -top c
[files]
c.v
[logic]
if result("bench") == "PASS":
    tag("UNCOVERED")
else:
    tag("COVERED")
[test bench]
sim w w.v
pass OK
"""


def next_lines(program, config, words):
    """The status of a campaign of this project, what a terminal is told behind it, and how many lines a list has with UNCOVERED."""
    with tempfile.TemporaryDirectory() as here:
        for name, text in (("config.mcy", config), ("c.v", COUNTED), ("w.v", WAITING)):
            with open(os.path.join(here, name), "w") as out:
                out.write(text)
        ran = on_terminal(program, words, here)
        told = on_terminal(program, ["status"], here)
        assert ran[0] in (0, 1) and ran[2].endswith(told[2]), ("run and status differ", ran, told)
        assert ran[1] == told[1], (ran, told)
        listed = subprocess.run([program, "list"], cwd=here, capture_output=True, timeout=60)
        piped = subprocess.run([program, "status"], cwd=here, capture_output=True, timeout=60)
        assert (piped.stdout, piped.stderr) == (told[1], b""), piped
        passes = b"the design itself does not pass" not in ran[2]
        return told[1].decode(), told[2].decode().replace("\r\n", "\n"), listed.stdout.decode(), passes


def numbers(text, pattern):
    return [int(number) for number in re.findall(pattern, text)]


def check_next(program):
    """Behind a status: mutations to look at, those that have no tag for HANG, a bench that passes none, and what is not finished."""
    text, told, listed, passes = next_lines(program, COVERAGE, ["run"])
    assert passes, "a bench that the design passes is told of"
    (gaps,) = numbers(text, r"Tag UNCOVERED: (\d+)")
    (hangs,) = numbers(text, r"HANG (\d+)")
    assert gaps > 0 and hangs > 0, text
    assert told == f"mcy: {gaps} UNCOVERED: mcy list | grep UNCOVERED\n", told
    assert sum("UNCOVERED" in line for line in listed.splitlines()) == gaps, listed
    # The same words where HANG is not expected.
    text, told, *_ = next_lines(program, COVERAGE + "expect PASS FAIL\n", ["run"])
    assert numbers(text, r"Unexpected: (\d+)") == [hangs], text
    lost = f"mcy: {hangs} HANG have no tag: write HANG into expect, or leave expect out\n"
    assert told == f"mcy: {gaps} UNCOVERED: mcy list | grep UNCOVERED\n{lost}", told
    # A bench whose text never comes.
    text, told, _, passes = next_lines(program, COVERAGE.replace("pass OK", "pass NONE"), ["run"])
    assert "PASS 0" in text and not passes, text
    assert told == "mcy: bench: PASS 0: mcy baseline tells whether the design itself passes it\n", told
    text, told, *_ = next_lines(program, COVERAGE.replace("pass OK", "pass NONE"), ["run", "--stop-after", "2"])
    (all_of_them,) = numbers(text, r"Mutations: (\d+)")
    assert told == f"mcy: {all_of_them - 2} unfinished: mcy run goes on with them\n", told


def main():
    program = os.path.realpath(sys.argv[1])
    with folder() as here:
        status, text, seen, spent = on_terminal(program, ["run"], here)
        assert status == 0 and text, (status, seen)
        count = check_lines(UNKNOWN.sub(b"", seen), spent)
        assert count > 0, "there is no line"
        again = on_terminal(program, ["run"], here)
        assert (*again[:2], UNKNOWN.sub(b"", again[2])) == (0, text, b""), ("a finished campaign is told of", again)
        assert on_terminal(program, ["list"], here)[2] == b"", "a list is told of"
    with folder() as here:
        slots = on_terminal(program, ["run", "-j8"], here)
        assert slots[:2] == (0, text), ("tests in slots have another text", slots)
        count += check_lines(UNKNOWN.sub(b"", slots[2]), slots[3])
    check_given_up(program)
    with folder() as here:
        check_cut_off(program, here)
    with folder() as here:
        stopped = on_terminal(program, ["run", "--stop-after", "3"], here)
        assert stopped[0] == 1 and UNKNOWN.sub(b"", stopped[2]).endswith(CLEARED), stopped
    with folder() as here:
        piped = subprocess.run([program, "run"], cwd=here, capture_output=True, timeout=60)
        assert (piped.returncode, piped.stdout, piped.stderr) == (0, text, b""), piped
    with folder() as here:
        check_refusals(program, here)
    check_next(program)
    count += hints.check_all(program, on_terminal)
    print(f"progress: {count} lines")


if __name__ == "__main__":
    main()
