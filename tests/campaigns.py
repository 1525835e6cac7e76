#!/usr/bin/env python3
"""Projects of other modes, sizes, seeds and picks: a part of the cases of crates/mcy_cases, by the definitions alone.

    tests/campaigns.py [FOLDER]      a part of the table of crates/mcy_cases

Sites stand by cell, port, bit and mode; a port of one bit has none of a mode that reads a control bit. Site number i
draws the i-th word of the generator (tests/lib/pcg.py). A plain pick takes the least by word and number, an even one by rank,
word and number, where a site's rank counts those of its line that are less by word and number. The numbers that are taken
ascend. A mutant is run on all inputs: at an input port its cell alone reads the mutated bit, at Y all readers and the
outputs do.
"""

import itertools

from lib import pcg
from lib import tables

MODES = ["inv", "const0", "const1", "cnot0", "cnot1"]
GATES = {"&": ("and", lambda a, b: a & b), "|": ("or", lambda a, b: a | b), "^": ("xor", lambda a, b: a ^ b)}
MUTATED = {"inv": lambda bit: 1 - bit, "const0": lambda bit: 0, "const1": lambda bit: 1}
SCRIPT = ['if result("same") == "PASS":', '    tag("NOCHANGE")', "else:", '    tag("CHANGED")']

AND = (["a", "b"], [("assign", "y", "a", "&", "b")])
REDUNDANT = (["a", "b"], [("wire", "u", "a", "&", "b"), ("assign", "y", "a", "|", "u")])
PARITY = (["a", "b", "c"], [("wire", "u", "a", "^", "b"), ("wire", "v", "u", "|", "c"), ("assign", "y", "u", "&", "v")])


def source(design):
    inputs, lines = design
    ports = ", ".join([f"input {name}" for name in inputs] + ["output y"])
    return [f"module g({ports});"] + [f"  {kind} {name} = {a} {op} {b};" for kind, name, a, op, b in lines] + ["endmodule"]


def project(options):
    return (
        ["[options]", *options, "tags CHANGED NOCHANGE", "[script]", "read_verilog g.v", "prep -top g", "[files]", "g.v", "[logic]", *SCRIPT]
        + ["[test same]", "eq", "expect PASS FAIL"]
    )


def shown(design, values, site=None):
    """The output for these inputs, in the mutant of a site."""
    inputs, lines = design
    nets = dict(zip(inputs, values))
    for number, (_, name, a, op, b) in enumerate(lines):
        read = [nets[a], nets[b]]
        if site and site[1] == number and site[2] < 2:
            read[site[2]] = MUTATED[site[0]](read[site[2]])
        nets[name] = GATES[op][1](*read)
        if site and site[1] == number and site[2] == 2:
            nets[name] = MUTATED[site[0]](nets[name])
    return nets["y"]


def passes(design, site):
    return all(shown(design, values) == shown(design, values, site) for values in itertools.product([0, 1], repeat=len(design[0])))


class Campaign:
    def __init__(self, design, size=20, modes=MODES, seed=1, pick="plain"):
        self.design, self.size, self.seed, self.pick = design, size, seed, pick
        self.sites = [
            (mode, cell, port)
            for cell in range(len(design[1]))
            for port in range(3)
            for mode in MODES
            if mode in modes and not mode.startswith("cnot")
        ]
        self.mutations = [self.sites[i] for i in self.taken()]
        self.words = [0 if passes(design, site) else 1 for site in self.mutations]

    def taken(self):
        words = pcg.words(self.seed, len(self.sites))
        order = sorted(range(len(self.sites)), key=lambda i: (words[i], i))
        rank, seen = {}, {}
        for i in order:
            line = self.sites[i][1]
            rank[i] = seen.get(line, 0) if self.pick == "even" else 0
            seen[line] = seen.get(line, 0) + 1
        return sorted(sorted(order, key=lambda i: rank[i])[: self.size])

    def text(self, site):
        mode, cell, port = site
        return f"{mode} g cell {GATES[self.design[1][cell][3]][0]}_{cell} {'ABY'[port]} 0 g.v:{cell + 2}"

    def init(self):
        return [f"Sites: {len(self.sites)}", f"Mutations: {len(self.mutations)}"]

    def status(self):
        fails, count = sum(self.words), len(self.words)
        return [
            f"Mutations: {count}",
            f"Finished: {count}",
            f"Test same: PASS {count - fails} FAIL {fails} UNKNOWN 0",
            f"Tag CHANGED: {fails}",
            f"Tag NOCHANGE: {count - fails}",
            "Asserts: 0",
            "Unexpected: 0",
        ]

    def list(self):
        told = [("PASS", "NOCHANGE"), ("FAIL", "CHANGED")]
        return [f"{n}: {self.text(site)} [same={told[word][0]}] {told[word][1]}" for n, (site, word) in enumerate(zip(self.mutations, self.words), 1)]

    def rows(self):
        return [f"{n} {n} 0 {word} 1 {2 - word} 20000" for n, word in enumerate(self.words)]


def tilde(lines):
    return "".join(line + "~" for line in lines)


def answer(command, text, campaign, rows):
    written = [*text, f"{sum(len(line) + 1 for line in text)} bytes"] if text else []
    return [f"> {command}", "status 0", *written, f"3 items, {len(campaign.mutations)} mutations", *rows]


def case(design, options, **given):
    campaign = Campaign(design, **given)
    given_lines = ["new", f"hold config.mcy {tilde(project(options))}", f"hold g.v {tilde(source(design))}", "call init", "call run", "call list"]
    told = answer("init", campaign.init(), campaign, []) + answer("run", campaign.status(), campaign, campaign.rows()) + answer("list", campaign.list(), campaign, campaign.rows())
    return given_lines, told


LAST = 2**64 - 1

PARTS = [
    ("# Without modes all five are taken; none of those that read a control bit has a site at one bit.", [case(AND, [])]),
    ("# The modes that a project names, in any order; where none has a site, nothing is to be done.", [
        case(AND, ["modes const0"], modes=["const0"]),
        case(REDUNDANT, ["modes cnot1 const1 inv"], modes=["cnot1", "const1", "inv"]),
        case(AND, ["modes cnot0 cnot1"], modes=["cnot0", "cnot1"]),
    ]),
    ("# As many sites are taken as are asked for, by the words of the seed.", [
        case(AND, ["size 3", "modes inv"], size=3, modes=["inv"]),
        case(AND, ["size 2", "modes inv"], size=2, modes=["inv"]),
        case(PARITY, ["size 5"], size=5),
        case(PARITY, ["size 5", "seed 0"], size=5, seed=0),
        case(PARITY, ["size 1", f"seed {LAST}"], size=1, seed=LAST),
        case(PARITY, []),
    ]),
    ("# An even pick takes a site of each line before a second one of any.", [
        case(PARITY, ["size 3", "pick even"], size=3, pick="even"),
        case(PARITY, ["size 7", "pick even", "seed 7"], size=7, seed=7, pick="even"),
        case(PARITY, ["size 7", "pick plain", "seed 7"], size=7, seed=7),
        case(REDUNDANT, ["size 9", "pick even", "modes inv const1 const0"], size=9, modes=["inv", "const1", "const0"], pick="even"),
    ]),
]


def main():
    halves = [[line for head, cases in PARTS for line in [head, *(row for both in cases for row in both[side])]] for side in (0, 1)]
    tables.save_part("mcy_cases", *halves)


if __name__ == "__main__":
    main()
