"""The outputs of designs over some cycles, by Icarus Verilog.

Icarus Verilog fills a connected input that is wider than its expression with 0 behind some signed expressions, as `$signed(a && b)`.
By 12.3.9.2 a connection is an assignment, which extends a signed expression with its sign. So a drawn design that may have such a
connection is left out.
"""

import os
import re
import subprocess
import tempfile


class Unknown(Exception):
    """An output has a value that is not known, or the design is refused."""


def bench(inputs, outputs, cycles, has_clock, selects):
    """A test bench: in each cycle the inputs change, the outputs are printed, and the clock rises. Of selects an unknown bit is a 0."""
    lines = ["module bench;", "  reg clk;"]
    lines += [f"  reg [{s.width - 1}:0] {s.name};" for s in inputs]
    lines += [f"  wire [{s.width - 1}:0] {s.name};" for s in outputs]
    lines += [f"  bit [{s.width - 1}:0] known_{s.name};" for s in outputs if s.name in selects]
    names = (["clk"] if has_clock else []) + [s.name for s in inputs + outputs]
    lines.append(f"  top dut({', '.join(f'.{name}({name})' for name in names)});")
    lines += ["  initial begin", "    clk = 0;", "    #1;"]
    shown = ", ".join(f"known_{s.name}" if s.name in selects else s.name for s in outputs)
    known = [f"    known_{name} = {name};" for name in selects]
    formats = " ".join("%0d" for _ in outputs)
    for values in cycles:
        lines += [f"    {s.name} = {s.width}'d{value};" for s, value in zip(inputs, values)]
        lines += ["    #1;"] + known + [f'    $display("{formats}", {shown});', "    clk = 1;", "    #1 clk = 0;"]
    return lines + ["  end", "endmodule"]


def is_filled_against_its_sign(lines, warnings):
    """Whether a signed expression may be connected to a wider input: a line with a signed name, number or `$signed` is told to be filled."""
    text = "\n".join(lines)
    names = set(re.findall(r"signed (?:\[[^]]*\] )?(\w+)", text))
    for number in re.findall(r":(\d+): warning: Port .*\n.*: Padding \d+ high bits of the port", warnings):
        line = lines[int(number) - 1]
        if "$signed" in line or re.search(r"'s|(?<![\w'])\d", line) or names & set(re.findall(r"\w+", line)):
            return True
    return False


def outputs_of(lines, inputs, outputs, cycles, has_clock=True, is_drawn=True, selects=()):
    """What is printed of the outputs in each cycle."""
    with tempfile.TemporaryDirectory() as folder:
        source, program = os.path.join(folder, "t.v"), os.path.join(folder, "t")
        with open(source, "w", encoding="utf-8") as file:
            file.write("\n".join(lines + bench(inputs, outputs, cycles, has_clock, selects)) + "\n")
        made = subprocess.run(["iverilog", "-g2012" if selects else "-g2005", "-s", "bench", "-o", program, source], capture_output=True, text=True, check=False)
        if made.returncode or is_drawn and is_filled_against_its_sign(lines, made.stderr):
            raise Unknown(made.stderr)
        run = subprocess.run(["vvp", program], capture_output=True, text=True, check=True)
    rows = run.stdout.splitlines()
    if len(rows) != len(cycles) or any(not row.replace(" ", "").isdigit() for row in rows):
        raise Unknown(run.stdout)
    return rows
