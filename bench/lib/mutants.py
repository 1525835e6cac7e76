#!/usr/bin/env python3
"""A design and mutants of it for `bench/mutants.sh`, both made by yosys, and a pipeline of yosys that tests them.

    bench/lib/mutants.py FOLDER SOURCE TOP SIZE    writes FOLDER/read (a pair of netlists for each of SIZE mutants that yosys lists) and
                                               FOLDER/tested (the same with a test of each)
    bench/lib/mutants.py --yosys FOLDER COUNT      tests the first COUNT of them as it is done by hand: for each a process that breaks the
                                               design, and one that compares it with the design by a miter and a solver, with registers
                                               cut, so that one step is compared. Prints the verdicts and the processor time
    bench/lib/mutants.py --told FOLDER             counts what the program told in FOLDER/told, and compares it with yosys' verdicts
"""
import collections
import json
import pathlib
import re
import resource
import subprocess
import sys

sys.path.insert(0, str(pathlib.Path(__file__).resolve().parents[2] / "tests"))
from pairs import Netlist

LIMIT = 20_000
# Asks the solver whether `gold` and `gate` are the same.
MITER = "miter -equiv -make_assert -flatten gold gate miter; hierarchy -top miter; sat -verify -prove-asserts miter"
UNARY = {"$not": "not", "$neg": "neg"}
BINARY = {"$and": "and", "$or": "or", "$xor": "xor", "$xnor": "xnor", "$add": "add", "$sub": "sub", "$mul": "mul"}
RELATIONS = {"$lt": "lt", "$le": "le", "$gt": "gt", "$ge": "ge", "$eq": "eq", "$ne": "ne"}
REDUCTIONS = {"$reduce_and": "rand", "$reduce_or": "ror", "$reduce_bool": "ror", "$reduce_xor": "rxor", "$reduce_xnor": "rxnor", "$logic_not": "lnot"}
LOGICAL = {"$logic_and": "land", "$logic_or": "lor"}
SHIFTS = {"$shl": "shl", "$sshl": "shl", "$shr": "shr", "$sshr": "sshr"}


def yosys(folder, script):
    return subprocess.run(["yosys", "-q", "-p", script], cwd=folder, stdout=subprocess.DEVNULL, stderr=subprocess.DEVNULL).returncode


class Reader:
    """A netlist of the cells that yosys has written."""

    def __init__(self, module):
        self.netlist, self.module = Netlist(), module
        for name, port in module["ports"].items():
            bits = self.bits(port["bits"])
            if port["direction"] == "output":
                self.netlist.outputs.append((name, bits))
            elif name != "clk":
                self.netlist.inputs.append((name, bits))
        for name, cell in module["cells"].items():
            self.add(name, cell)

    def bits(self, bits):
        return [bit if isinstance(bit, int) else bit == "1" for bit in bits]

    def extended(self, cell, port, width):
        bits = self.bits(cell["connections"][port])
        signed = int(cell["parameters"][port + "_SIGNED"], 2)
        return (bits + (bits[-1:] if signed else [False]) * width)[:width]

    def cell(self, kind, *ports, signed=False):
        self.netlist.cells.append((kind, signed, [list(bits) for bits in ports]))

    def low(self, bits):
        """Bits that are 0."""
        if bits:
            self.cell("and", [False] * len(bits), [False] * len(bits), bits)

    def add(self, name, cell):
        kind, connected = cell["type"], {port: self.bits(bits) for port, bits in cell["connections"].items()}
        if kind == "$dff":
            self.netlist.registers.append((re.sub(r"\W", "_", name), connected["D"], connected["Q"]))
            return
        y, width = connected["Y"], len(connected["Y"])
        signed = all(int(cell["parameters"].get(port + "_SIGNED", "0"), 2) for port in "AB" if port in connected)
        if kind == "$pos":
            self.cell("or", self.extended(cell, "A", width), self.extended(cell, "A", width), y)
        elif kind in UNARY:
            self.cell(UNARY[kind], self.extended(cell, "A", width), y)
        elif kind in BINARY:
            self.cell(BINARY[kind], self.extended(cell, "A", width), self.extended(cell, "B", width), y)
        elif kind in RELATIONS:
            wide = max(len(connected["A"]), len(connected["B"]))
            self.cell(RELATIONS[kind], self.extended(cell, "A", wide), self.extended(cell, "B", wide), y[:1], signed=signed)
            self.low(y[1:])
        elif kind in REDUCTIONS:
            self.cell(REDUCTIONS[kind], connected["A"], y[:1])
            self.low(y[1:])
        elif kind in LOGICAL:
            self.cell(LOGICAL[kind], connected["A"], connected["B"], y[:1])
            self.low(y[1:])
        elif kind in SHIFTS and len(connected["A"]) <= width:
            signed = int(cell["parameters"]["A_SIGNED"], 2) == 1
            self.cell(SHIFTS[kind], self.extended(cell, "A", width), connected["B"], y, signed=signed and kind == "$sshr")
        elif kind == "$shr":
            self.cell("pick", connected["A"], connected["B"], y)
        elif kind == "$mux":
            self.cell("mux", connected["S"], connected["A"], connected["B"], y)
        else:
            sys.exit(f"no cell for {kind}")


def netlist(folder, name):
    return Reader(next(iter(json.loads((folder / name).read_text())["modules"].values()))).netlist


def table(lines):
    """These rows as the table `pairs` of the program."""
    return "".join(f"{line}\n" for line in ["§ pairs", *lines])


def write(folder, source, top, size):
    yosys(folder, f"read_verilog {source}; prep -top {top} -flatten; pmuxtree; dffunmap; opt_clean; write_rtlil design.il; write_json design.json; mutate -list {size} -o sites")
    yosys(folder, "read_rtlil design.il; expose -evert-dff; rename -top gold; write_rtlil gold.il")
    original = list(netlist(folder, "design.json").lines())
    read, tested = [], []
    for number, site in enumerate((folder / "sites").read_text().splitlines()):
        yosys(folder, f"read_rtlil design.il; {site}; write_json mutant.json")
        lines = [f"# {number}", *original, "original", *netlist(folder, "mutant.json").lines(), "mutant"]
        read += lines
        tested += lines + [f"detail {LIMIT} 1000"]
    (folder / "read").write_text(table(read))
    (folder / "tested").write_text(table(tested))


def by_yosys(folder, count):
    before, words = resource.getrusage(resource.RUSAGE_CHILDREN).ru_utime, []
    for site in (folder / "sites").read_text().splitlines()[:count]:
        yosys(folder, f"read_rtlil design.il; {site}; expose -evert-dff; rename -top gate; write_rtlil gate.il")
        same = yosys(folder, f"read_rtlil gold.il; read_rtlil gate.il; {MITER}") == 0
        words.append("no change" if same else "change")
    spent = resource.getrusage(resource.RUSAGE_CHILDREN).ru_utime - before
    (folder / "words").write_text("\n".join(words) + "\n")
    print(f"yosys: {dict(collections.Counter(words))}, {round(1000 * spent / len(words))} milliseconds a mutant")


def told(folder):
    words, lemmas = [], collections.Counter()
    for line in (folder / "told").read_text().splitlines()[1:]:
        if not line.startswith("# "):
            words.append("no change" if line.startswith("no change") else "unknown" if line.startswith("unknown") else "change")
            found = re.search(r"after (\d+) lemmas", line)
            lemmas[words[-1]] += int(found[1]) if found else 0
    print(", ".join(f"{word}: {count} with {lemmas[word]} lemmas" for word, count in collections.Counter(words).items()))
    other = folder / "words"
    if other.exists():
        apart = [k for k, (word, wanted) in enumerate(zip(words, other.read_text().splitlines())) if word not in ("unknown", wanted)]
        print(f"other verdicts than yosys': {apart}" if apart else "the verdicts are yosys'")


if __name__ == "__main__":
    if sys.argv[1] == "--yosys":
        by_yosys(pathlib.Path(sys.argv[2]), int(sys.argv[3]))
    elif sys.argv[1] == "--told":
        told(pathlib.Path(sys.argv[2]))
    else:
        write(pathlib.Path(sys.argv[1]), pathlib.Path(sys.argv[2]).resolve(), sys.argv[3], int(sys.argv[4]))
