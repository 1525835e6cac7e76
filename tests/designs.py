#!/usr/bin/env python3
"""Makes the table 'designs' of crates/design_cases: designs, their netlists or what is refused in them, and their outputs.

    tests/designs.py [FOLDER]      the table 'designs' of crates/design_cases; needs iverilog and vvp

What design_told.py says is worked out by hand. The outputs of the other designs over 20 cycles are those of Icarus Verilog: the
designs of design_hand.py are written by hand, those of design_draw.py drawn by a seeded generator. So are those of design_standard.py,
of which a latch is told by it too, and which run over 12 cycles.
"""

import itertools
import random
import re
import sys

sys.dont_write_bytecode = True

from lib.design_draw import Draw, Signal
from lib.design_hand import DESIGNS, PROCESSES
from lib.design_runs import Unknown, outputs_of
from lib.design_told import told
from lib import design_standard, tables

CYCLES = 20
SHORT = 12

# drawn designs of one module, and of several
ONE_MODULE = 40
SEVERAL = 100

# drawn cases without a default, parameters with a range, and signed indices
STANDARD = [(design_standard.cases, 64), (design_standard.parameters, 45), (design_standard.indices, 45)]

# the most lines of a drawn design
LONGEST = 80


def ports_of(lines):
    """The inputs without the clock and the outputs in the head of the module top."""
    head = next(line for line in lines if line.startswith("module top("))
    ports = re.findall(r"(input|output) (?:reg )?(?:signed )?(?:\[(\d+):(\d+)\] )?(\w+)", head)
    signals = [(way, Signal(name, int(top) - int(low) + 1 if top else 1)) for way, top, low, name in ports]
    inputs = [s for way, s in signals if way == "input" and s.name != "clk"]
    return inputs, [s for way, s in signals if way == "output"], any(s.name == "clk" for _, s in signals)


def hand(text):
    """The designs of a text: the name and the lines of each."""
    for part in text.strip().split("\n\n"):
        lines = part.splitlines()
        yield lines[0], lines[1:]


def inputs_for(inputs, seed, count=CYCLES):
    """The inputs of each cycle. They are 0 or all ones now and then."""
    rng = random.Random(seed)

    def value(width):
        return rng.choice([0, (1 << width) - 1]) if rng.random() < 0.2 else rng.randrange(1 << width)

    return [[value(s.width) for s in inputs] for _ in range(count)]


def case(name, lines, seed, is_drawn=True):
    """The lines of a design and its cycles, and what is printed."""
    inputs, outputs, has_clock = ports_of(lines)
    cycles = inputs_for(inputs, seed)
    rows = outputs_of(lines, inputs, outputs, cycles, has_clock, is_drawn)
    given = [name] + lines + ["elaborate top"] + ["step " + " ".join(map(str, values)) for values in cycles]
    return given, [name] + [f"outputs {row}" for row in rows], rows


def standard():
    """Where the standard is easily missed: what is printed, or refused."""
    for seed, (name, lines, selects, refused) in enumerate(itertools.chain(*(make(count) for make, count in STANDARD))):
        if refused:
            yield [name] + lines + ["elaborate top"], [name, refused]
            continue
        inputs, outputs, has_clock = ports_of(lines)
        cycles = inputs_for(inputs, seed, SHORT)
        try:
            rows = outputs_of(lines, inputs, outputs, cycles, has_clock, True, selects)
        except Unknown:
            continue
        given = [name] + lines + ["elaborate top"] + ["step " + " ".join(map(str, values)) for values in cycles]
        yield given, [name] + [f"outputs {row}" for row in rows]


def is_lively(rows):
    """Whether most of the outputs change."""
    columns = list(zip(*[row.split() for row in rows]))
    return 3 * sum(len(set(column)) > 1 for column in columns) >= 2 * len(columns)


def drawn(word, make):
    """Drawn designs that have outputs in each cycle, most of which change."""
    for seed in itertools.count():
        lines, _, _ = make(Draw(seed))
        if len(lines) > LONGEST:
            continue
        try:
            given, wanted, rows = case(f"# {word} {seed}", lines, seed)
        except Unknown:
            continue
        if is_lively(rows):
            yield given, wanted


def main():
    lines, wanted = told()
    by_hand = [case(name, source, seed, False)[:2] for seed, (name, source) in enumerate(itertools.chain(hand(PROCESSES), hand(DESIGNS)))]
    one = itertools.islice(drawn("a drawn module", Draw.process_design), ONE_MODULE)
    several = itertools.islice(drawn("drawn modules", Draw.whole_design), SEVERAL)
    for given, shown in itertools.chain(by_hand, one, several, standard()):
        lines += given
        wanted += shown
    tables.save("design_cases", lines, wanted, "designs")


if __name__ == "__main__":
    main()
