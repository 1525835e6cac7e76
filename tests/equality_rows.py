#!/usr/bin/env python3
"""Campaigns of equality tests with more than a few free bits: a part of the cases of crates/mcy_cases, by the definitions alone.

    tests/equality_rows.py [FOLDER]      a part of the table of crates/mcy_cases

The cells of the saturating counter and their places are written down from its source by hand, and the sites by the rules of
docs/FORMATS.md. A mutant is compared with the design by the outputs and the next value of the register, for all inputs and values
of the register. Its test may have 60,000 lemmas, and 3 to the power of its 10 free bits is less, so that no test is given up.

Where a test may have one lemma alone, it is given up for a mutant that computes the same by other gates: there the empty lemma
does not follow at once.
"""

import itertools

from lib import pcg
from lib import saturating
from lib import tables

WORDS = ["PASS", "FAIL", "HANG", "UNKNOWN"]
MODES = ["inv", "const0", "const1", "cnot0", "cnot1"]
LOGIC = [
    'word = result("same")', 'if word == "UNKNOWN":', '    tag("GIVENUP")', 'elif word == "PASS":', '    tag("NOCHANGE")', "else:", '    tag("CHANGED")'
]
PARTS = [
    ("cell", "eq_0", 2, [("A", 8), ("B", 8), ("Y", 1)]),
    ("cell", "lnot_1", 4, [("A", 1), ("Y", 1)]),
    ("cell", "lnot_2", 5, [("A", 1), ("Y", 1)]),
    ("cell", "land_3", 5, [("A", 1), ("B", 1), ("Y", 1)]),
    ("cell", "add_4", 5, [("A", 8), ("B", 8), ("Y", 8)]),
    ("cell", "mux_5", 5, [("S", 1), ("A", 8), ("B", 8), ("Y", 8)]),
    ("cell", "mux_6", 4, [("S", 1), ("A", 8), ("B", 8), ("Y", 8)]),
    ("reg", "q", 1, [("D", 8), ("Q", 8)]),
]


def all_sites():
    """The sites by part, port, bit and mode, each with the bit that controls it."""
    for kind, name, line, ports in PARTS:
        for port, width in ports:
            for bit, mode in itertools.product(range(width), MODES):
                control = (bit + 1) % width if mode.startswith("cnot") else None
                if control is None or width > 1:
                    yield mode, kind, name, port, bit, control, line


def mutated(value, mode, bit, control):
    if mode == "inv":
        return value ^ 1 << bit
    if mode.startswith("const"):
        return value & ~(1 << bit) | int(mode[-1]) << bit
    return value ^ 1 << bit if value >> control & 1 == int(mode[-1]) else value


def step(reset, enable, register, site=None):
    """The outputs and the register's next value."""

    def seen(name, port, value):
        if site and site[2:4] == (name, port):
            return mutated(value, site[0], site[4], site[5])
        return value

    count = seen("q", "Q", register)
    full = seen("eq_0", "Y", int(seen("eq_0", "A", count) == seen("eq_0", "B", 255)))
    clear = seen("lnot_1", "Y", 1 - seen("lnot_1", "A", reset))
    room = seen("lnot_2", "Y", 1 - seen("lnot_2", "A", full))
    counts = seen("land_3", "Y", seen("land_3", "A", enable) & seen("land_3", "B", room))
    total = seen("add_4", "Y", (seen("add_4", "A", count) + seen("add_4", "B", 1)) % 256)
    on, off = seen("mux_5", "B", total), seen("mux_5", "A", count)
    held = seen("mux_5", "Y", on if seen("mux_5", "S", counts) else off)
    on, off = seen("mux_6", "B", 0), seen("mux_6", "A", held)
    following = seen("mux_6", "Y", on if seen("mux_6", "S", clear) else off)
    return count, full, seen("q", "D", following)


def tilde(lines):
    return "".join(line + "~" for line in lines)


def project(options, name, top):
    lines = ["[options]", *options, "tags CHANGED NOCHANGE GIVENUP", "[script]", f"read_verilog {name}", f"prep -top {top}", "[files]", name, "[logic]", *LOGIC, "[test same]", "eq"]
    return f"hold config.mcy {tilde(lines)}"


class Campaign:
    """Mutations with their texts, the codes of their words, and the limit that their rows have as bounds."""

    def __init__(self, sites, texts, words, conflicts=20000):
        self.sites, self.texts, self.words, self.conflicts = sites, texts, words, conflicts

    def counts(self, rows):
        return [sum(1 for word in self.words[:rows] if word == code) for code in (0, 1, 3)]

    def init(self):
        return [f"Sites: {self.sites}", f"Mutations: {len(self.texts)}"]

    def status(self, rows):
        same, differ, given_up = self.counts(rows)
        return [
            f"Mutations: {len(self.texts)}", f"Finished: {rows}", f"Test same: PASS {same} FAIL {differ} UNKNOWN {given_up}",
            f"Tag CHANGED: {differ}", f"Tag NOCHANGE: {same}", f"Tag GIVENUP: {given_up}", "Asserts: 0", "Unexpected: 0",
        ]

    def list(self):
        tags = {0: "NOCHANGE", 1: "CHANGED", 3: "GIVENUP"}
        return [f"{n}: {text} [same={WORDS[word]}] {tags[word]}" for n, (text, word) in enumerate(zip(self.texts, self.words), 1)]

    def book(self, rows):
        masks = {0: 2, 1: 1, 3: 4}
        return [f"3 items, {len(self.texts)} mutations"] + [f"{n} {n} 0 {word} 1 {masks[word]} {self.conflicts}" for n, word in enumerate(self.words[:rows])]

    def told(self, words, text, rows, head=("status 0",)):
        written = [*text, f"{sum(len(line) + 1 for line in text)} bytes"] if text else []
        return [f"> {words}", *head, *written, *self.book(rows)]

    def run(self, words, rows):
        left = len(self.texts) - rows
        head = ["status 1", f"{left} left"] if left else ["status 0"]
        return self.told(words, self.status(rows), rows, head)

    def failed(self, rows):
        return self.told("run", [], rows, ["status 12", "mcy: database fault"])


def counter():
    """The saturating counter, of whose sites 20 are taken by the words of the seed 7."""
    sites = list(all_sites())
    words = pcg.words(7, len(sites))
    taken = [sites[i] for i in sorted(sorted(range(len(sites)), key=lambda i: (words[i], i))[:20])]
    states = list(itertools.product(range(2), range(2), range(256)))
    plain = [step(*state) for state in states]
    codes = [0 if all(step(*state, site) == now for state, now in zip(states, plain)) else 1 for site in taken]
    texts = [f"{mode} sat {kind} {name} {port} {bit}" + ("" if control is None else f" {control}") + f" sat.v:{line}" for mode, kind, name, port, bit, control, line in taken]
    return Campaign(len(sites), texts, codes, 60000)


def redundant(given_up):
    """A redundant or: a bit that is constant 0 at the and gate, or at the or gate's second input, leaves the output as it is."""
    places = [("and_0", "A", 2), ("and_0", "B", 2), ("and_0", "Y", 2), ("or_1", "A", 3), ("or_1", "B", 3), ("or_1", "Y", 3)]
    same = 3 if given_up else 0
    return Campaign(6, [f"const0 g cell {name} {port} 0 g.v:{line}" for name, port, line in places], [same, same, same, 1, same, 1], 1 if given_up else 9)


def counter_cases():
    one = counter()
    new = ["new", project(["size 20", "seed 7", "conflicts 60000"], "sat.v", "sat"), f"hold sat.v {tilde(saturating.DESIGN)}"]
    yield "# A saturating counter with 10 free bits: of its 20 mutants none is given up.", [*new, "call init", "call run", "call list"], (
        one.told("init", one.init(), 0) + one.run("run", 20) + one.told("list", one.list(), 20)
    )
    stops, told = [], []
    for rows in (7, 14, 20, 20):
        stops.append("call run --stop-after 7")
        told += one.run("run --stop-after 7", rows)
    yield "# Its runs may stop: the text of the last one is the same.", new + stops, told
    yield "# A fault that left the row, and one that left nothing: the next run goes on behind what is there.", (
        [*new, "fail-keeper 5 1", "call run", "call run", *new, "fail-keeper 5 0", "call run", "call run"]
    ), one.failed(4) + one.run("run", 20) + one.failed(3) + one.run("run", 20)


def given_up_cases():
    source = ["module g(input a, input b, output y);", "  wire u = a & b;", "  assign y = a | u;", "endmodule"]
    given, told = [], []
    for conflicts in (1, 9):
        one = redundant(conflicts == 1)
        given += ["new", project(["size 20", "modes const0", f"conflicts {conflicts}"], "g.v", "g"), f"hold g.v {tilde(source)}", "call run", "call list"]
        told += one.run("run", 6) + one.told("list", one.list(), 6)
    yield "# A test that may have one lemma is given up, and with 9 lemmas, 3 to the power of its free bits, it is not.", given, told


def wide_campaign():
    return Campaign(3, [f"inv g cell and_0 {port} 0 g.v:2" for port in "ABY"], [1, 1, 1])


def refused(words, kind):
    return [f"> {words}", "status 5", f"mcy: TooMany {kind}", "0 items, 0 mutations"]


def limit_cases():
    """Designs at the limits: 2,048 inputs and one more; cells that weigh 100,000 gates with the 1 that is added, and one more."""
    inv = project(["size 10", "modes inv"], "g.v", "g")
    one = wide_campaign()
    given = ["new", inv, "wide g.v 2048 0", "call run", "new", inv, "wide g.v 2049 0", "fail-keeper 0 0", "call run"]
    yield "# An equality test takes 2,048 inputs and no more.", given, one.run("run", 3) + refused("run", "FreeBits")
    # A product of 128 bits weighs 98,304 gates, and each bit of an and one.
    given, told = [], []
    for bits in (31, 32):
        ands = [f"  assign y{n} = a & b;" for n in range(13)]
        outputs = "".join(f", output [127:0] y{n}" for n in range(13)) + f", output [{bits - 1}:0] z"
        source = [f"module g(input [127:0] a, input [127:0] b, output [127:0] p{outputs});", "  assign p = a * b;", *ands, f"  assign z = a[{bits - 1}:0] & b[{bits - 1}:0];", "endmodule"]
        given += ["new", inv, f"hold g.v {tilde(source)}", "call init"]
        if bits == 31:
            texts = Campaign(3 * (128 * 14 + bits), [None] * 10, [])
            told += texts.told("init", texts.init(), 0)
        else:
            told += refused("init", "Gates")
    yield "# Nor more than 100,000 gates, which are told first.", given, told
    free = "hold config.mcy [options]~modes inv~size 2~[script]~read_verilog g.v~prep -top g~[logic]~pass~"
    yield "# Where no test is an equality, there is no such limit.", ["new", free, "wide g.v 2049 0", "call run"], [
        "> run", "status 0", "Mutations: 2", "Finished: 2", "Asserts: 0", "Unexpected: 0", "50 bytes", "3 items, 2 mutations"
    ]


def main():
    given, told = [], []
    for head, lines, answers in [*counter_cases(), *given_up_cases(), *limit_cases()]:
        given += [head, *lines]
        told += [head, *answers]
    tables.save_part("mcy_cases", given, told)


if __name__ == "__main__":
    main()
