#!/usr/bin/env python3
"""An example for `bench/examples.sh`: its campaign by the program, and the same done by hand for its first mutants.

    bench/lib/examples.py PROGRAM FOLDER TOP COUNT     FOLDER holds the project, with its bench at FOLDER/bench/TOP_tb.v, which passes where it
                                                   prints ALL GOOD. Prints milliseconds of processor time, of the user and the system

By hand each mutant is tested as a script would do it: yosys breaks the design and writes it as Verilog, iverilog compiles that with the
bench, vvp runs it, and, where the project has a test of equality and the bench noticed nothing, another yosys makes a miter with registers
cut and has its solver prove it.
"""
import pathlib
import resource
import subprocess
import sys

from mutants import MITER, yosys

LONGEST = 60


def spent():
    """Milliseconds of processor time of all processes that have ended."""
    usage = resource.getrusage(resource.RUSAGE_CHILDREN)
    return 1000 * (usage.ru_utime + usage.ru_stime)


def by_program(program, folder):
    """Milliseconds a mutation of a whole campaign."""
    before = spent()
    for word in ("init", "run"):
        subprocess.run([program, word], cwd=folder, stdout=subprocess.DEVNULL, check=True)
    told = spent() - before
    status = subprocess.run([program, "status"], cwd=folder, stdout=subprocess.PIPE, text=True, check=True).stdout
    size = next(int(line.split()[1]) for line in (folder / "config.mcy").read_text().splitlines() if line.startswith("size "))
    print(f"mcy: {told / size:.2f} milliseconds a mutation, of {size}")
    print("".join(f"  {line}\n" for line in status.splitlines()), end="")
    return told / size


def compiled(folder, top):
    subprocess.run(["iverilog", "-o", "mutant", "mutant.v", f"bench/{top}_tb.v"], cwd=folder, check=True)


def is_noticed(folder):
    """Whether the bench notices the mutant that was compiled."""
    try:
        text = subprocess.run(["vvp", "-n", "mutant"], cwd=folder, stdout=subprocess.PIPE, text=True, timeout=LONGEST).stdout
    except subprocess.TimeoutExpired:
        return True
    return "ALL GOOD" not in text


class Steps:
    """What the steps of the pipeline have taken."""

    def __init__(self):
        self.last, self.taken = spent(), {}

    def done(self, step):
        now = spent()
        self.taken[step] = self.taken.get(step, 0) + now - self.last
        self.last = now


def by_hand(folder, top, count):
    """Milliseconds a mutation of the pipeline, for the first mutants."""
    yosys(folder, f"read_verilog rtl/*.v; prep -top {top} -flatten; dffunmap; opt_clean; write_rtlil design.il; mutate -list {count} -o sites")
    yosys(folder, "read_rtlil design.il; write_verilog -noattr mutant.v; expose -evert-dff; rename -top gold; write_rtlil gold.il")
    compiled(folder, top)
    if is_noticed(folder):
        sys.exit("the bench does not pass on the design itself")
    compares = any(line.strip() == "eq" for line in (folder / "config.mcy").read_text().splitlines())
    sites = (folder / "sites").read_text().splitlines()
    steps, left, same = Steps(), 0, 0
    for site in sites:
        yosys(folder, f"read_rtlil design.il; {site}; write_verilog -noattr mutant.v; write_rtlil mutant.il")
        steps.done("break")
        compiled(folder, top)
        steps.done("compile")
        noticed = is_noticed(folder)
        steps.done("run")
        left += not noticed
        if compares and not noticed:
            same += yosys(folder, f"read_rtlil mutant.il; expose -evert-dff; rename -top gate; read_rtlil gold.il; {MITER}") == 0
            steps.done("compare")
    parts = ", ".join(f"{step} {time / len(sites):.1f}" for step, time in steps.taken.items())
    whole = sum(steps.taken.values()) / len(sites)
    print(f"by hand: {whole:.1f} milliseconds a mutation, of {len(sites)} ({parts})")
    print(f"  {len(sites) - left} noticed" + (f", {same} of the others the same" if compares else ""))
    return whole


if __name__ == "__main__":
    program, folder, top, count = sys.argv[1:]
    folder = pathlib.Path(folder)
    other = by_hand(folder, top, int(count))
    print(f"ratio {by_program(program, folder) / other:.4f}")
