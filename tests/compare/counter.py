#!/usr/bin/env python3
"""The campaign of examples/counter, worked out by the definitions alone.

    python3 tests/compare/counter.py status     examples/counter/status
    python3 tests/compare/counter.py list       what `mcy list` prints after the run

The cells and their places are written down from the sources by hand. A site is a bit of a port with a mode; its mutant is
compared with the design by the outputs and the next value of the register, for all inputs and values of the register.
"""

import itertools
import sys
from pathlib import Path

sys.path.insert(0, str(Path(__file__).resolve().parents[1]))

from lib import pcg

SIZE, SEED = 12, 3
MODES = ["inv", "const0", "const1", "cnot0", "cnot1"]
PARTS = [
    ("cell", "and_0", "rtl/top.v:3", [("A", 1), ("B", 1), ("Y", 1)]),
    ("cell", "add_1", "rtl/counter.v:7", [("A", 3), ("B", 3), ("Y", 3)]),
    ("cell", "mux_2", "rtl/counter.v:6", [("S", 1), ("A", 3), ("B", 3), ("Y", 3)]),
    ("cell", "mux_3", "rtl/counter.v:4", [("S", 1), ("A", 3), ("B", 3), ("Y", 3)]),
    ("cell", "eq_4", "rtl/top.v:5", [("A", 3), ("B", 3), ("Y", 1)]),
    ("reg", "digits.count", "rtl/counter.v:2", [("D", 3), ("Q", 3)]),
]


def all_sites():
    """The sites by part, port, bit and mode, each with the bit that controls it."""
    for kind, name, where, ports in PARTS:
        for port, width in ports:
            for bit, mode in itertools.product(range(width), MODES):
                control = (bit + 1) % width if mode.startswith("cnot") else None
                if control is None or width > 1:
                    yield mode, kind, name, port, bit, control, where


def mutated(value, mode, bit, control):
    if mode == "inv":
        return value ^ 1 << bit
    if mode.startswith("const"):
        return value & ~(1 << bit) | int(mode[-1]) << bit
    return value ^ 1 << bit if value >> control & 1 == int(mode[-1]) else value


def step(enable, register, site=None):
    """The outputs and the register's next value."""

    def seen(name, port, value):
        if site and site[2:4] == (name, port):
            return mutated(value, site[0], site[4], site[5])
        return value

    count = seen("digits.count", "Q", register)
    last = seen("eq_4", "Y", int(seen("eq_4", "A", count) == seen("eq_4", "B", 5)))
    wrap = seen("and_0", "Y", seen("and_0", "A", enable) & seen("and_0", "B", last))
    total = seen("add_1", "Y", (seen("add_1", "A", count) + seen("add_1", "B", 1)) % 8)
    on, off = seen("mux_2", "B", total), seen("mux_2", "A", count)
    held = seen("mux_2", "Y", on if seen("mux_2", "S", enable) else off)
    on, off = seen("mux_3", "B", 0), seen("mux_3", "A", held)
    following = seen("mux_3", "Y", on if seen("mux_3", "S", wrap) else off)
    return count, last, seen("digits.count", "D", following)


def main():
    sites = list(all_sites())
    words = pcg.words(SEED, len(sites))
    picked = sorted(sorted(range(len(sites)), key=lambda i: (words[i], i))[:SIZE])
    states = list(itertools.product(range(2), range(8)))
    passes = [all(step(*it) == step(*it, sites[i]) for it in states) for i in picked]
    if sys.argv[1:] == ["list"]:
        for number, (i, same) in enumerate(zip(picked, passes), 1):
            mode, kind, name, port, bit, control, where = sites[i]
            place = f"{mode} top {kind} {name} {port} {bit}" + ("" if control is None else f" {control}")
            print(f"{number}: {place} {where} " + ("[same=PASS] NOCHANGE" if same else "[same=FAIL] CHANGED"))
    elif sys.argv[1:] == ["status"]:
        same, seen = sum(passes), SIZE - sum(passes)
        print(f"Mutations: {SIZE}\nFinished: {SIZE}\nTest same: PASS {same} FAIL {seen} UNKNOWN 0")
        print(f"Tag CHANGED: {seen}\nTag NOCHANGE: {same}\nAsserts: 0\nUnexpected: 0\nSeen: {100 * seen / SIZE:.2f}%")
    else:
        sys.exit(__doc__)


if __name__ == "__main__":
    main()
