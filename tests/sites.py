#!/usr/bin/env python3
"""The table `sites` of crates/mutant_cases: netlists, their sites and what is selected of them, by the definitions alone.

    tests/sites.py [FOLDER]      the table `sites` of crates/mutant_cases

Sites stand by place (cells by number, then registers), port (of a register D, then Q), bit and mode. A
port of one bit has no site of a mode that reads a control bit; the control bit of bit i of a port of width
w is bit (i + 1) mod w. In a mutant the cell, at an input port, or the register, at D, reads the mutated bit;
at Y and Q all readers and outputs do. The mutated bit is a constant, or the Y of one more cell, the last:
`not` for inv, `xnor` for cnot0, `xor` for cnot1.

Site number i draws the i-th word of the generator. A plain pick takes the least by word and number, an even
one by rank, word and number, where a site's rank counts those of its file and line that are less by word
and number.
"""


from lib import pcg
from lib import tables

MODES = ["inv", "const0", "const1", "cnot0", "cnot1"]
ALL = " ".join(MODES)


def bits(first, width):
    return str(first) if width == 1 else f"{first}..{first + width - 1}"


def nets_of(text):
    """The bits at a port: `false` and `true` for the constants, and the numbers of the nets that a text names."""
    nets = []
    for word in text.split(","):
        first, _, last = word.partition("..")
        nets += {"low": ["false"], "high": ["true"]}.get(word) or range(int(first), int(last or first) + 1)
    return nets


PORTS = {"not": "AY", "ror": "AY", "and": "ABY", "add": "ABY", "eq": "ABY", "lt": "ABY", "land": "ABY", "shl": "ABY", "mux": "SABY"}


class Netlist:
    def __init__(self):
        self.lines, self.cells, self.registers, self.next = [], [], [], 0
        self.kinds, self.gates, self.flops, self.outputs = [], [], [], []
        self.place, self.cell_places, self.register_places = (0, 1), [], []

    def at(self, file, line):
        self.place = file, line
        self.lines.append(f"at {file} {line}")

    def nets(self, width):
        first, self.next = self.next, self.next + width
        return bits(first, width)

    def output(self, nets):
        self.lines.append(f"output {nets}")
        self.outputs.append(nets_of(nets))

    def input(self, width):
        nets = self.nets(width)
        self.lines.append(f"input {nets}")
        return nets

    def cell(self, kind, ports, width):
        """`ports` are pairs of nets and width."""
        y = self.nets(width)
        self.lines.append(f"{kind} {' '.join(nets for nets, _ in ports)} {y}")
        self.cells.append([w for _, w in ports] + [width])
        self.kinds.append(kind)
        self.cell_places.append(self.place)
        self.gates.append([nets_of(nets) for nets, _ in ports] + [nets_of(y)])
        return y

    def register(self, width, d=None):
        q = self.nets(width)
        self.lines.append(f"register {width} {d or q} {q}")
        self.registers.append([width, width])
        self.register_places.append(self.place)
        self.flops.append([nets_of(d or q), nets_of(q)])
        return q

    def places(self, modes):
        places = [("Cell", number, ports) for number, ports in enumerate(self.cells)]
        places += [("Register", number, ports) for number, ports in enumerate(self.registers)]
        return [
            (mode, place, number, port, bit, width)
            for place, number, ports in places
            for port, width in enumerate(ports)
            for bit in range(width)
            for mode in MODES
            if mode in modes.split() and (width > 1 or not mode.startswith("cnot"))
        ]

    def sites(self, modes):
        return [
            f"{mode.capitalize()} {place}({number}) {port} {bit}"
            for mode, place, number, port, bit, _ in self.places(modes)
        ]

    def text(self, mode, place, number, port, bit, width):
        if place == "Cell":
            name = f"cell {self.kinds[number]}_{number} {PORTS[self.kinds[number]][port]}"
        else:
            name = f"reg state {'DQ'[port]}"
        control = f" {(bit + 1) % width}" if mode.startswith("cnot") else ""
        return f"{mode} top {name} {bit}{control} top.v:1"

    def texts(self, modes):
        return [self.text(*site) for site in self.places(modes)]

    def mutant(self, mode, place, number, port, bit, width):
        """The lines of the outputs, the registers and the cells."""
        outputs = [list(nets) for nets in self.outputs]
        flops = [[list(d), list(q)] for d, q in self.flops]
        gates = [[list(nets) for nets in ports] for ports in self.gates]
        at = (gates if place == "Cell" else flops)[number][port]
        old, control = at[bit], at[(bit + 1) % width]
        new = {"const0": "false", "const1": "true"}.get(mode, self.next)
        if (place == "Cell" and port == len(gates[number]) - 1) or (place == "Register" and port == 1):
            readers = outputs + [d for d, _ in flops] + [nets for ports in gates for nets in ports[:-1]]
            for nets in readers:
                nets[:] = [new if net == old else net for net in nets]
        else:
            at[bit] = new
        lines = [("Output", [nets]) for nets in outputs] + [("Register", ports) for ports in flops]
        lines += [(kind.capitalize(), ports) for kind, ports in zip(self.kinds, gates)]
        lines += {"inv": [("Not", [[old], [new]])], "cnot0": [("Xnor", [[old], [control], [new]])], "cnot1": [("Xor", [[old], [control], [new]])]}.get(mode, [])
        return [f"{name}{''.join(' | ' + ' '.join(map(str, nets)) for nets in ports)}" for name, ports in lines]

    def mutants(self, modes):
        return [line for site, place in zip(self.sites(modes), self.places(modes)) for line in [site, *self.mutant(*place)]]


def selected(netlist, pick, size, seed):
    lines = [(netlist.cell_places if place == "Cell" else netlist.register_places)[number] for _, place, number, *_ in netlist.places(ALL)]
    words = pcg.words(seed, len(lines))
    order = sorted(range(len(lines)), key=lambda i: (words[i], i))
    rank, seen = [0] * len(lines), {}
    for i in order:
        if pick == "even":
            rank[i] = seen.get(lines[i], 0)
        seen[lines[i]] = seen.get(lines[i], 0) + 1
    return sorted(sorted(order, key=lambda i: rank[i])[:size])


def the_and_gate():
    n = Netlist()
    a, b = n.input(1), n.input(1)
    n.cell("and", [(a, 1), (b, 1)], 1)
    return n


def of_two_bits():
    n = Netlist()
    n.cell("not", [(n.input(2), 2)], 2)
    return n


def with_registers():
    n = Netlist()
    d = n.input(2)
    n.register(1)
    q = n.register(2, d)
    n.cell("ror", [(q, 2)], 1)
    return n


def the_adder(width):
    n = Netlist()
    a, b = n.input(width), n.input(width)
    n.cell("add", [(a, width), (b, width)], width)
    return n


def the_comparison():
    n = Netlist()
    a, b = n.input(8), n.input(8)
    n.cell("eq", [(a, 8), (b, 8)], 1)
    return n


def one_register():
    n = Netlist()
    n.register(8)
    return n


def a_counter():
    """A register of 2 bits that counts, and shows its bits and whether one of them is 1."""
    n = Netlist()
    step = n.input(2)
    q = n.nets(2)
    n.next -= 2
    n.register(2, bits(4, 2))
    n.cell("add", [(q, 2), (step, 2)], 2)
    n.cell("ror", [(q, 2)], 1)
    n.output(q)
    n.output(bits(6, 1))
    return n


def a_choice():
    n = Netlist()
    s, a, b = n.input(1), n.input(1), n.input(1)
    n.output(n.cell("mux", [(s, 1), (a, 1), (b, 1)], 1))
    return n


def seen(netlist, *outputs):
    """The netlist with these outputs."""
    for nets in outputs:
        netlist.output(nets)
    return netlist


def two_gates():
    """An and gate, and a not that reads it; both are seen."""
    n = the_and_gate()
    n.cell("not", [("2", 1)], 1)
    return seen(n, "2", "3")


def with_constants():
    """A sum with constants at its inputs, and a shift of it by two bits."""
    n = Netlist()
    a, b = n.input(2), n.input(1)
    total = n.cell("add", [(a, 2), (f"{b},high", 2)], 2)
    return seen(n, n.cell("shl", [(total, 2), ("low,1", 2)], 2))


def one_behind_another():
    """A register that reads another one, and the order of what they hold."""
    n = Netlist()
    first = n.register(2, n.input(2))
    second = n.register(2, first)
    return seen(n, second, n.cell("lt", [(first, 2), (second, 2)], 1))


def logical():
    """Whether two numbers are both other than 0, and whether they are equal."""
    n = Netlist()
    a, b = n.input(2), n.input(2)
    return seen(n, n.cell("land", [(a, 2), (b, 2)], 1), n.cell("eq", [(a, 2), (b, 2)], 1))


def on_lines(*lines):
    """For each file and line a register, of so many bits."""
    n = Netlist()
    for file, line, width in lines:
        n.at(file, line)
        n.register(width)
    return n


def a_line_in_two_parts():
    """Sites of one line that do not stand together: cells come before registers."""
    n = Netlist()
    n.at(0, 7)
    a, b = n.input(1), n.input(1)
    n.cell("and", [(a, 1), (b, 1)], 1)
    n.at(0, 8)
    n.cell("add", [(n.input(4), 4), (n.input(4), 4)], 4)
    n.at(0, 7)
    n.register(2)
    return n


UNEVEN = [(0, 1, 8), (0, 2, 1), (0, 3, 1), (1, 2, 2)]
SEEDS = [0, 1, 7, 2**64 - 1]

PICKS = [
    ("nine sites: all", the_and_gate(), "plain", 100, 1),
    ("nine sites: one", the_and_gate(), "plain", 1, 1),
    ("nine sites: none", the_and_gate(), "plain", 0, 1),
    ("as many as there are", the_and_gate(), "plain", 9, 3),
    ("all but one", the_and_gate(), "plain", 8, 3),
    ("one line alone: an even pick is a plain one", the_adder(3), "even", 5, 11),
    ("the same, plain", the_adder(3), "plain", 5, 11),
    ("one line has most sites: plain", on_lines(*UNEVEN), "plain", 12, 1),
    ("one line has most sites: even", on_lines(*UNEVEN), "even", 12, 1),
    ("fewer than there are lines", on_lines(*UNEVEN), "even", 3, 2),
    ("one of each line", on_lines(*UNEVEN), "even", 4, 2),
    ("more than the small lines have", on_lines(*UNEVEN), "even", 60, 2),
    ("all, evenly", on_lines(*UNEVEN), "even", 1000, 2),
    ("one line in two files is two lines", on_lines((0, 5, 1), (1, 5, 1)), "even", 2, 5),
    ("a line in two parts is one line", a_line_in_two_parts(), "even", 9, 4),
    ("nothing to pick", Netlist(), "even", 4, 4),
] + [(f"seed {seed}", the_adder(8), pick, 10, seed) for seed in SEEDS for pick in ("plain", "even")]

CASES = [
    ("nothing", Netlist(), "sites", ALL),
    ("the and gate, inverted", the_and_gate(), "sites", "inv"),
    ("all modes: a port of one bit has three", the_and_gate(), "sites", ALL),
    ("a port of two bits has ten", of_two_bits(), "sites", ALL),
    ("modes alone that need a control bit", with_registers(), "sites", "cnot1"),
    ("registers after cells, D before Q", with_registers(), "sites", "const0 inv"),
    ("no modes", the_and_gate(), "sites", "none"),
    ("an adder of 8 bits", the_adder(8), "count", ALL),
    ("an adder of 9 bits", the_adder(9), "count", ALL),
    ("a comparison", the_comparison(), "count", ALL),
    ("a register of 8 bits", one_register(), "count", ALL),
    ("the widest", the_adder(128), "count", ALL),
    ("texts of cells", a_choice(), "texts", ALL),
    ("texts of registers and of control bits", a_counter(), "texts", "inv cnot0"),
    ("mutants of a choice", a_choice(), "mutants", ALL),
    ("mutants of a counter", a_counter(), "mutants", ALL),
    ("mutants of a register of its own Q", with_registers(), "mutants", "inv cnot1"),
    ("mutants of an and gate", seen(the_and_gate(), "2"), "mutants", ALL),
    ("mutants of a not of two bits", seen(of_two_bits(), "2..3"), "mutants", ALL),
    ("mutants of an adder of two bits", seen(the_adder(2), "4..5"), "mutants", ALL),
    ("mutants of two gates, both of which are seen", two_gates(), "mutants", ALL),
    ("mutants of cells with constants", with_constants(), "mutants", ALL),
    ("mutants of a register of its own Q and of a reduction", seen(with_registers(), "2..4", "5"), "mutants", ALL),
    ("mutants of a register behind a register", one_behind_another(), "mutants", ALL),
    ("mutants of two logical values", logical(), "mutants", ALL),
]


def about_sites(title, netlist, verb, modes):
    """What is given about sites, and what is told."""
    given = [f"# {title}", *netlist.lines, f"{verb} {modes}"]
    tell = {"count": lambda modes: [], "sites": netlist.sites, "texts": netlist.texts, "mutants": netlist.mutants}[verb]
    return given, [f"# {title}", f"{len(netlist.sites(modes))} sites", *tell(modes)]


def about_pick(title, netlist, pick, size, seed):
    given = [f"# {title}", *netlist.lines, f"{pick} {size} {seed}"]
    return given, [f"# {title}", *map(str, selected(netlist, pick, size, seed))]


def about_words(seed):
    given = [f"# the first words of seed {seed}", f"words 20 {seed}"]
    return given, [f"# the first words of seed {seed}", *map(str, pcg.words(seed, 20))]


def main():
    made = [about_sites(*case) for case in CASES] + [about_pick(*case) for case in PICKS] + [about_words(seed) for seed in SEEDS]
    tables.save("mutant_cases", [line for given, _ in made for line in given], [line for _, told in made for line in told], name="sites")


if __name__ == "__main__":
    main()
