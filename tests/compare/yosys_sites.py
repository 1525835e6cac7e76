#!/usr/bin/env python3
"""The sites and mutants of ten small designs against Yosys's `mutate`, in five modes.

usage: tests/compare/yosys_sites.py      needs yosys, iverilog and vvp; without them it says so and is skipped

The designs are those of the table `sites` of crates/mutant_cases of which the program prints the mutants in all modes, and the mutants are those of its
stdout, which the gate compares with what the program prints. For each design

- the bits and modes at which Yosys breaks it (`mutate -list 0`) are sites, and each site is one of them, with a control bit that
  Yosys draws too;
- each mutant shows what the one shows that Yosys makes (`mutate -mode .. -cell .. -port .. -portbit .. -ctrlbit ..`), which is
  run by Icarus Verilog.

What differs on purpose is told in docs/DECISIONS.md: a control bit that is drawn, and none that is a constant, sites of clocks and
resets, and the order.
"""

import pathlib
import random
import re
import shutil
import subprocess
import sys
import tempfile

TESTS = pathlib.Path(__file__).resolve().parents[1]
sys.path.insert(0, str(TESTS))

import sites
from lib import tables

ROOT = TESTS.parent / "crates" / "mutant_cases"
TYPES = {"not": "$not", "ror": "$reduce_or", "and": "$and", "add": "$add", "eq": "$eq", "lt": "$lt", "land": "$logic_and", "shl": "$shl", "mux": "$mux"}
# Seeds that lie near each other draw much the same control bits.
SEEDS = random.Random(1).sample(range(1, 2**31), 60)
CYCLES = 24


def designs():
    """Of each design its title, its statements, and its mutants: a site and the lines of a netlist."""
    inputs = re.split(r"^# ", tables.tables_of((ROOT / "stdin").read_text())["sites"], flags=re.M)[1:]
    outputs = re.split(r"^# ", tables.tables_of((ROOT / "stdout").read_text())["sites"], flags=re.M)[1:]
    for asked, told in zip(inputs, outputs, strict=True):
        title, *statements = asked.splitlines()
        if statements[-1] == f"mutants {sites.ALL}":
            mutants = re.split(r"^(?=(?:Inv|Const|Cnot))", told.split("\n", 2)[2], flags=re.M)
            yield title, statements[:-1], [mutant.splitlines() for mutant in mutants if mutant]


class Netlist:
    """The parts of a netlist: bits at inputs, outputs and registers, and cells with the bits at their ports, Y last."""

    def __init__(self, inputs, outputs, registers, cells):
        self.inputs, self.outputs, self.registers, self.cells = inputs, outputs, registers, cells

    @staticmethod
    def of_statements(lines):
        parts = {"input": [], "output": [], "register": []}
        cells = []
        for line in lines:
            verb, *ports = line.split()
            bits = [sites.nets_of(port) for port in ports[verb == "register" :]]
            if verb in ("input", "output"):
                parts[verb] += bits
            elif verb == "register":
                parts[verb].append(bits)
            else:
                cells.append((verb, bits))
        return Netlist(parts["input"], parts["output"], parts["register"], cells)

    def mutant(self, lines):
        outputs, registers, cells = [], [], []
        for line in lines:
            kind, *ports = line.split(" | ")
            bits = [[bit if bit in ("false", "true") else int(bit) for bit in port.split()] for port in ports]
            if kind == "Output":
                outputs += bits
            elif kind == "Register":
                registers.append(bits)
            else:
                cells.append((kind.lower(), bits))
        return Netlist(self.inputs, outputs, registers, cells)

    def shown(self, steps):
        """What the outputs show in each cycle, by the meaning of the cells; registers begin at 0."""
        held, shown = [[0] * len(q) for _, q in self.registers], []
        for step in steps:
            values = {"false": 0, "true": 1, **dict(zip([net for port in self.inputs for net in port], step))}
            for (_, q), word in zip(self.registers, held):
                values.update(zip(q, word))
            waiting = list(self.cells)
            while waiting:
                ready = [cell for cell in waiting if all(net in values for port in cell[1][:-1] for net in port)]
                assert ready, "a loop"
                for kind, ports in ready:
                    y = value(kind, [[values[net] for net in port] for port in ports[:-1]])
                    values.update((net, y >> place & 1) for place, net in enumerate(ports[-1]))
                waiting = [cell for cell in waiting if cell not in ready]
            held = [[values[net] for net in d] for d, _ in self.registers]
            shown.append("".join(str(values[net]) for port in self.outputs for net in port))
        return shown


def value(kind, ports):
    n = [sum(bit << place for place, bit in enumerate(port)) for port in ports]
    return {
        "not": lambda: ~n[0],
        "ror": lambda: n[0] != 0,
        "and": lambda: n[0] & n[1],
        "xor": lambda: n[0] ^ n[1],
        "xnor": lambda: ~(n[0] ^ n[1]),
        "add": lambda: n[0] + n[1],
        "eq": lambda: n[0] == n[1],
        "lt": lambda: n[0] < n[1],
        "land": lambda: n[0] != 0 and n[1] != 0,
        "shl": lambda: n[0] << n[1],
        "mux": lambda: n[2] if n[0] else n[1],
    }[kind]()


def rtlil(netlist):
    """The design in Yosys's own language. Each bit is a wire of its own. A register is set to 0 by a reset."""

    def joined(bits):
        return "{ " + " ".join({"false": "1'0", "true": "1'1"}.get(bit) or f"\\n{bit}" for bit in reversed(bits)) + " }"

    ins = [net for port in netlist.inputs for net in port]
    outs = [net for port in netlist.outputs for net in port]
    nets = {net for _, ports in netlist.cells for port in ports for net in port} | {net for ports in netlist.registers for port in ports for net in port}
    names = [r"\clk", r"\reset"] + [f"\\n{net}" for net in ins]
    lines = [r"module \top"] + [f"wire input {place} {name}" for place, name in enumerate(names, 1)]
    lines += [f"wire \\n{net}" for net in sorted(nets - {"false", "true"} - set(ins))]
    lines += [f"wire output {place} \\o{place}" for place in range(len(names) + 1, len(names) + 1 + len(outs))]
    for number, (kind, ports) in enumerate(netlist.cells):
        lines.append(f"cell {TYPES[kind]} \\{kind}_{number}")
        named = list(zip(sites.PORTS[kind], ports))
        if kind == "mux":
            lines.append(f"parameter \\WIDTH {len(ports[-1])}")
        else:
            lines += [f"parameter \\{name}_SIGNED 0" for name, _ in named[:-1]] + [f"parameter \\{name}_WIDTH {len(bits)}" for name, bits in named]
        lines += [f"connect \\{name} {joined(bits)}" for name, bits in named] + ["end"]
    for number, (d, q) in enumerate(netlist.registers):
        lines += [f"cell $sdff \\state_{number}", f"parameter \\WIDTH {len(q)}", r"parameter \CLK_POLARITY 1", r"parameter \SRST_POLARITY 1"]
        lines += [f"parameter \\SRST_VALUE {len(q)}'{'0' * len(q)}", r"connect \CLK \clk", r"connect \SRST \reset", f"connect \\D {joined(d)}", f"connect \\Q {joined(q)}", "end"]
    lines += [f"connect \\o{place} {joined([net])}" for place, net in enumerate(outs, len(names) + 1)]
    return "\n".join([*lines, "end", ""])


def place_of(site, netlist):
    """The site as Yosys names it: mode, cell, port, bit and, where the mode reads one, the control bit."""
    mode, place, port, bit = site.split()
    number = int(re.search(r"\d+", place).group())
    if place.startswith("Cell"):
        kind, ports = netlist.cells[number]
        cell, name = f"{kind}_{number}", sites.PORTS[kind][int(port)]
    else:
        ports, cell, name = netlist.registers[number], f"state_{number}", "DQ"[int(port)]
    control = (int(bit) + 1) % len(ports[int(port)]) if mode.startswith("Cnot") else None
    return mode.lower(), cell, name, int(bit), control


def has_constant_control(site, netlist):
    """The site's mode reads a control bit that is a constant: there Yosys has no site."""
    mode, place, port, bit = site.split()
    part = (netlist.cells if place.startswith("Cell") else netlist.registers)[int(re.search(r"\d+", place).group())]
    nets = (part[1] if place.startswith("Cell") else part)[int(port)]
    return mode.startswith("Cnot") and nets[(int(bit) + 1) % len(nets)] in ("false", "true")


def yosys(folder, script):
    (folder / "script.ys").write_text(script)
    subprocess.run(["yosys", "-q", "script.ys"], cwd=folder, check=True, stdout=subprocess.DEVNULL)


def command(mode, cell, port, bit, control):
    return f"mutate -mode {mode} -module top -cell {cell} -port {port} -portbit {bit}" + (f" -ctrlbit {control}" if control is not None else "")


def listed(folder):
    """The places that Yosys breaks, but those of clocks and resets, with all control bits that it draws."""
    found = set()
    for seed in SEEDS:
        for line in (folder / f"list{seed}").read_text().splitlines():
            word = dict(re.findall(r"-(\w+) (\S+)", line))
            if word["port"] not in ("CLK", "SRST"):
                found.add((word["mode"], word["cell"], word["port"], int(word["portbit"]), int(word["ctrlbit"]) if "ctrlbit" in word else None))
    return found


def bench(netlist, count, steps):
    """Runs all mutants side by side, and prints what each shows in each cycle: a line for each mutant."""
    ins = [net for port in netlist.inputs for net in port]
    outs = sum(map(len, netlist.outputs))
    first = 3 + len(ins)
    lines = ["module bench;", "reg clk = 0, reset = 1;", f"reg [{max(len(ins), 1) - 1}:0] i;"]
    for m in range(count):
        ports = [".clk(clk)", ".reset(reset)"] + [f".n{net}(i[{place}])" for place, net in enumerate(ins)] + [f".o{first + place}(o{m}[{place}])" for place in range(outs)]
        lines += [f"wire [{outs - 1}:0] o{m};", f"m{m} u{m}({', '.join(ports)});"]
    lines += ["initial begin", "i = 0; #1 clk = 1; #1 clk = 0; reset = 0;"]
    for step in steps:
        bits = "".join(map(str, reversed(step))) or "0"
        lines.append(f"i = {len(bits)}'b{bits}; #1")
        lines += [f'$display("%b", o{m});' for m in range(count)]
        lines.append("clk = 1; #1 clk = 0; #1;")
    return "\n".join([*lines, "end", "endmodule", ""])


def compare(title, statements, mutants, folder):
    netlist = Netlist.of_statements(statements)
    (folder / "top.il").write_text(rtlil(netlist))
    places = [place_of(lines[0], netlist) for lines in mutants]
    script = ["read_rtlil top.il", "design -save base"] + [f"mutate -list 0 -seed {seed} -o list{seed}" for seed in SEEDS]
    for m, place in enumerate(places):
        script += ["design -load base", command(*place), f"rename top m{m}", f"write_verilog -noattr m{m}.v"]
    yosys(folder, "\n".join(script) + "\n")

    found = listed(folder)
    other = {place[:4] for place in found} - {place[:4] for place in places}
    assert not other, f"{title}: more sites: {sorted(other)}"
    missing = {place for place, lines in zip(places, mutants) if not has_constant_control(lines[0], netlist)} - found
    assert not missing, f"{title}: sites that Yosys has not, or not with this control bit: {missing}"

    draw = random.Random(title)
    steps = [[draw.randrange(2) for port in netlist.inputs for _ in port] for _ in range(CYCLES)]
    (folder / "bench.v").write_text(bench(netlist, len(places), steps))
    sources = ["bench.v"] + [f"m{m}.v" for m in range(len(places))]
    subprocess.run(["iverilog", "-g2005", "-o", "bench", *sources], cwd=folder, check=True)
    lines = subprocess.run(["vvp", "-n", "bench"], cwd=folder, check=True, capture_output=True, text=True).stdout.split()
    for m, (site, *parts) in enumerate(mutants):
        theirs = [line[::-1] for line in lines[m :: len(places)]]
        assert theirs == netlist.mutant(parts).shown(steps), f"{title}: the mutant of {site}"
    print(f"{title}: {len(places)} sites")
    return len(places)


def main():
    missing = [tool for tool in ("yosys", "iverilog", "vvp") if not shutil.which(tool)]
    if missing:
        print(f"skipped: no {' and no '.join(missing)}")
        return
    total = 0
    for count, design in enumerate(designs(), 1):
        with tempfile.TemporaryDirectory() as folder:
            total += compare(*design, pathlib.Path(folder))
    assert count >= 10, "fewer than ten designs"
    print(f"{count} designs, {total} sites: as in Yosys")


if __name__ == "__main__":
    sys.exit(main())
