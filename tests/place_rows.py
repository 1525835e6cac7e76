#!/usr/bin/env python3
"""Campaigns over a part of their design: a part of the cases of crates/mcy_cases, by the definitions alone.

    tests/place_rows.py [FOLDER]      a part of the table of crates/mcy_cases

`only FILE:FROM-TO ..` in [options] keeps the sites on these lines, and `skip INSTANCE ..` leaves out those within these instances, before
any is taken. Each site keeps its number and so its word of the generator, and `Sites:` counts all; an even pick ranks the sites that are
kept. An operator in a connection belongs to the module around. A block of a generate loop is an instance, and what begins with an
instance's name but for a `.` behind it is none of it. Where these options leave no site the project is refused. A design is a list of
gates and registers by hand, in the order of the source; a mutant is compared with it by the outputs and the next values of the registers,
for all inputs and all values of these.
"""

import functools
import itertools

from campaigns import GATES, MODES, MUTATED, tilde

from lib import pcg
from lib import tables

SCRIPT = ['if result("same") == "PASS":', '    tag("NOCHANGE")', "else:", '    tag("CHANGED")']
LEAF = ["module h(input a, input b, output y);", "  wire u = a & b;", "  assign y = u ^ a;", "endmodule"]


class Design:
    """Files, inputs, outputs and cells: an operator with its inputs and its output, or a register `q` with its data; where it stands, and in
    which instance. Registers stand behind the others."""

    def __init__(self, files, inputs, outputs, cells):
        self.files, self.inputs, self.outputs, self.cells = files, inputs, outputs, cells
        self.sites = [
            (mode, cell, port) for cell, (op, *_) in enumerate(cells) for port in ("DQ" if op == "q" else "ABY") for mode in MODES if not mode.startswith("cnot")
        ]

    def name(self, cell):
        op, nets, _, _ = self.cells[cell]
        return f"reg {nets[-1]}" if op == "q" else f"cell {GATES[op][0]}_{cell - sum(kind == 'q' for kind, *_ in self.cells[:cell])}"

    def registers(self):
        return [nets[-1] for op, nets, _, _ in self.cells if op == "q"]

    def shown(self, values, site=None):
        """The outputs and the registers' next values for these inputs and values of the registers."""
        nets = dict(zip([*self.inputs, *self.registers()], values))
        drivers = {nets_of[-1]: cell for cell, (_, nets_of, _, _) in enumerate(self.cells)}

        def seen(cell, port, value):
            return MUTATED[site[0]](value) if site and site[1:] == (cell, port) else value

        @functools.cache
        def value(net):
            if net in self.inputs:
                return nets[net]
            cell = drivers[net]
            op, read, _, _ = self.cells[cell]
            return seen(cell, "Q", nets[net]) if op == "q" else seen(cell, "Y", GATES[op][1](seen(cell, "A", value(read[0])), seen(cell, "B", value(read[1]))))

        return [value(net) for net in self.outputs] + [seen(cell, "D", value(read[0])) for cell, (op, read, _, _) in enumerate(self.cells) if op == "q"]

    def passes(self, site):
        every = itertools.product([0, 1], repeat=len(self.inputs) + len(self.registers()))
        return all(self.shown(values) == self.shown(values, site) for values in map(list, every))


class Campaign:
    """The campaign of a design over the places that are kept."""

    def __init__(self, design, only=(), skip=(), size=20, seed=1, pick="plain"):
        self.design, self.only, self.skip, self.size, self.seed, self.pick = design, only, skip, size, seed, pick
        self.mutations = [design.sites[i] for i in self.taken()]
        self.words = [0 if design.passes(site) else 1 for site in self.mutations]

    def keeps(self, site):
        _, _, (file, line), instance = self.design.cells[site[1]]
        here = [place for place in self.only if place[0] == file and place[1] <= line <= place[2]]
        return (not self.only or bool(here)) and not any(f"{instance}.".startswith(f"{word}.") for word in self.skip)

    def taken(self):
        words = pcg.words(self.seed, len(self.design.sites))
        kept = [i for i, site in enumerate(self.design.sites) if self.keeps(site)]
        order = sorted(kept, key=lambda i: (words[i], i))
        rank, seen = {}, {}
        for i in order:
            line = self.design.cells[self.design.sites[i][1]][2]
            rank[i] = seen.get(line, 0) if self.pick == "even" else 0
            seen[line] = seen.get(line, 0) + 1
        return sorted(sorted(order, key=lambda i: rank[i])[: self.size])

    def options(self):
        lines = [f"size {self.size}", f"seed {self.seed}", f"pick {self.pick}", "modes inv const0 const1"]
        lines += ["only " + " ".join(f"{file}:{first}-{last}" for file, first, last in self.only)] if self.only else []
        return lines + (["skip " + " ".join(self.skip)] if self.skip else [])

    def given(self):
        names = list(self.design.files)
        lines = ["[options]", *self.options(), "tags CHANGED NOCHANGE", "[script]", f"read_verilog {' '.join(names)}", "prep -top g", "[files]", *names, "[logic]", *SCRIPT, "[test same]", "eq", "expect PASS FAIL"]
        return ["new", f"hold config.mcy {tilde(lines)}", *[f"hold {name} {tilde(rows)}" for name, rows in self.design.files.items()]]

    def list(self):
        told = [("PASS", "NOCHANGE"), ("FAIL", "CHANGED")]
        for number, ((mode, cell, port), word) in enumerate(zip(self.mutations, self.words), 1):
            file, line = self.design.cells[cell][2]
            yield f"{number}: {mode} g {self.design.name(cell)} {port} 0 {file}:{line} [same={told[word][0]}] {told[word][1]}"

    def status(self):
        fails, count = sum(self.words), len(self.words)
        return [f"Mutations: {count}", f"Finished: {count}", f"Test same: PASS {count - fails} FAIL {fails} UNKNOWN 0", f"Tag CHANGED: {fails}", f"Tag NOCHANGE: {count - fails}", "Asserts: 0", "Unexpected: 0"]

    def case(self):
        rows = [f"{n} {n} 0 {word} 1 {2 - word} 20000" for n, word in enumerate(self.words)]
        book = [f"{2 + len(self.design.files)} items, {len(self.mutations)} mutations"]
        told = []
        for command, text, journal in (("init", [f"Sites: {len(self.design.sites)}", f"Mutations: {len(self.mutations)}"], []), ("run", self.status(), rows), ("list", list(self.list()), rows)):
            told += [f"> {command}", "status 0", *text, f"{sum(len(line) + 1 for line in text)} bytes", *book, *journal]
        return [*self.given(), "call init", "call run", "call list"], told

    def refused(self):
        assert not self.mutations
        return [*self.given(), "fail-keeper 0 0", "call init"], ["> init", "status 5", "mcy: NoSites", "0 items, 0 mutations"]


# Two instances of one module, whose source stands in a file of its own.
TWO = Design(
    {"g.v": ["module g(input a, input b, input c, output y, output z);", "  wire p = a | b;", "  h one(.a(p), .b(c), .y(y));", "  h two(.a(c), .b(b), .y(z));", "endmodule"], "h.v": LEAF},
    "abc", "yz",
    [
        ("|", ("a", "b", "p"), ("g.v", 2), ""), ("&", ("p", "c", "one.u"), ("h.v", 2), "one"), ("^", ("one.u", "p", "y"), ("h.v", 3), "one"),
        ("&", ("c", "b", "two.u"), ("h.v", 2), "two"), ("^", ("two.u", "c", "z"), ("h.v", 3), "two"),
    ],
)
# Instances within an instance, of which one has the other's name in front, and a register in each.
DEEP = Design(
    {
        "g.v": ["module g(input clk, input a, output y, output z);", "  m u(.clk(clk), .a(a), .y(y), .z(z));", "endmodule"],
        "m.v": ["module m(input clk, input a, output y, output z);", "  r core(.clk(clk), .a(a), .y(y));", "  r core2(.clk(clk), .a(y), .y(z));", "endmodule"],
        "r.v": ["module r(input clk, input a, output y);", "  reg q;", "  always @(posedge clk) q <= a & y;", "  assign y = q ^ a;", "endmodule"],
    },
    "a", "yz",
    [
        ("&", ("a", "y", "d"), ("r.v", 3), "u.core"), ("^", ("u.core.q", "a", "y"), ("r.v", 4), "u.core"),
        ("&", ("y", "z", "e"), ("r.v", 3), "u.core2"), ("^", ("u.core2.q", "y", "z"), ("r.v", 4), "u.core2"),
        ("q", ("d", "u.core.q"), ("r.v", 2), "u.core"), ("q", ("e", "u.core2.q"), ("r.v", 2), "u.core2"),
    ],
)
# The blocks of a generate loop.
LANES = Design(
    {
        "g.v": [
            "module g(input [1:0] a, input [1:0] b, output [1:0] y);", "  genvar i;", "  generate for (i = 0; i < 2; i = i + 1) begin : lane", "    wire w;", "    h u(.a(a[i]), .b(b[i]), .y(w));",
            "    assign y[i] = w | b[i];", "  end endgenerate", "endmodule",
        ],
        "h.v": LEAF,
    },
    ["a0", "a1", "b0", "b1"], ["y0", "y1"],
    [
        cell for i in (0, 1) for cell in (
            ("&", (f"a{i}", f"b{i}", f"u{i}"), ("h.v", 2), f"lane[{i}].u"), ("^", (f"u{i}", f"a{i}", f"w{i}"), ("h.v", 3), f"lane[{i}].u"), ("|", (f"w{i}", f"b{i}", f"y{i}"), ("g.v", 6), f"lane[{i}]"),
        )
    ],
)
# An operator in a connection, which stands in the module around and in front of what is within the instance.
JOINED = Design(
    {"g.v": ["module g(input a, input b, input c, output y, output z);", "  h left(.a(a), .b(b), .y(y));", "  h right(.a(a | c), .b(y), .y(z));", "endmodule"], "h.v": LEAF},
    "abc", "yz",
    [
        ("&", ("a", "b", "left.u"), ("h.v", 2), "left"), ("^", ("left.u", "a", "y"), ("h.v", 3), "left"), ("|", ("a", "c", "p"), ("g.v", 3), ""),
        ("&", ("p", "y", "right.u"), ("h.v", 2), "right"), ("^", ("right.u", "p", "z"), ("h.v", 3), "right"),
    ],
)
ALL = (("h.v", 1, 9), ("g.v", 1, 9))

PARTS = [
    ("# A campaign may be over some lines of its files, each site with its number and word in the whole list.", [
        Campaign(TWO, only, size=6).case() for only in ((), ALL, (("h.v", 2, 2),), (("g.v", 2, 2),), (("h.v", 3, 3), ("g.v", 1, 2)), (("h.v", 1, 3),))
    ]),
    ("# It may leave out instances with all that is within them.", [
        *[Campaign(TWO, (), skip, size=6).case() for skip in (("one",), ("two",), ("one", "two"), ("on", "one2", "ones", "h", "g"))],
        *[Campaign(JOINED, (), skip).case() for skip in (("right",), ("left", "right"))],
        *[Campaign(LANES, (), skip).case() for skip in (("lane[1]",), ("lane[0].u",), ("lane[0].u", "lane[1].u"), ("lane", "u"))],
        *[Campaign(DEEP, (), skip, size=40).case() for skip in (("u.core",), ("u.core2",), ("core", "u.co", "u.core.q", "core2"))],
    ]),
    ("# And both, and even picks rank what is kept.", [
        Campaign(TWO, (("h.v", 2, 2),), ("two",)).case(), Campaign(TWO, ALL, ("one",), size=7, pick="even").case(), Campaign(TWO, (("h.v", 1, 9),), size=5, seed=7, pick="even").case(),
        Campaign(LANES, (("h.v", 3, 3), ("g.v", 6, 6)), ("lane[0].u",), size=4, seed=3, pick="even").case(),
    ]),
    ("# Where they leave no site the project is refused, before the book is looked at.", [
        Campaign(TWO, (("g.v", 1, 1), ("h.v", 4, 9))).refused(), Campaign(TWO, (("h.v", 1, 9),), ("one", "two")).refused(), Campaign(LANES, (), ("lane[0]", "lane[1]")).refused(), Campaign(DEEP, (), ("u",)).refused(),
    ]),
]


def main():
    halves = [[line for head, cases in PARTS for line in [head, *(row for both in cases for row in both[side])]] for side in (0, 1)]
    tables.save_part("mcy_cases", *halves)


if __name__ == "__main__":
    main()
