#!/usr/bin/env python3
"""Demos: a part of the cases of crates/mcy_cases, by the definitions alone.

    tests/demo_rows.py [FOLDER]      a part of the table of crates/mcy_cases

The cells of the design that the two numbers make are written down in the order of its nets, and the sites by the rules of docs/FORMATS.md.
A mutant is compared with the design for all inputs and values of the register, and is simulated for the 32 cycles of the testbench, whose
`$random` is a word of the seed. No pair is given up: 3 to the power of the 9 free bits is less than 20,000.
"""

import itertools

from lib import pcg
from lib import tables
from random_values import Words

MODES = ["inv", "const0", "const1", "cnot0", "cnot1"]
TAGS = ["COVERED", "UNCOVERED", "NOCHANGE", "EQGAP", "GIVENUP"]
OPERATORS = [
    lambda a, b: (a + b) % 8,
    lambda a, b: (a - b) % 8,
    lambda a, b: a & b,
    lambda a, b: a | b,
    lambda a, b: a ^ b,
]


def mutated(value, mode, bit):
    control = (bit + 1) % 3
    if mode == "inv":
        return value ^ 1 << bit
    if mode.startswith("const"):
        return value & ~(1 << bit) | int(mode[-1]) << bit
    return value ^ 1 << bit if value >> control & 1 == int(mode[-1]) else value


class Design:
    """The nets of the design: each has two operands, of the inputs `a`, `b`, the register `r` and the nets before it, and an operator."""

    def __init__(self, seed, cells):
        self.seed = seed
        self.nets = [("a", "r", OPERATORS[4]), ("b", "r", OPERATORS[0])]
        for net, word in enumerate(pcg.words(seed, cells), 2):
            self.nets.append((word % net, word // 2**16 % net, OPERATORS[word // 2**32 % 5]))
        places = [(net, port) for net in range(len(self.nets)) for port in "ABY"] + [("r", "D"), ("r", "Q")]
        self.sites = [(place, mode, bit) for place in places for bit, mode in itertools.product(range(3), MODES)]

    def step(self, a, b, r, site=None):
        """The output, and the register's next value."""

        def seen(part, port, value):
            return mutated(value, site[1], site[2]) if site and site[0] == (part, port) else value

        values = {"a": a, "b": b, "r": seen("r", "Q", r)}
        for net, (left, right, operator) in enumerate(self.nets):
            values[net] = seen(net, "Y", operator(seen(net, "A", values[left]), seen(net, "B", values[right])))
        last = values[len(self.nets) - 1]
        return last, seen("r", "D", last)

    def is_same(self, site):
        return all(self.step(*state) == self.step(*state, site) for state in itertools.product(range(8), repeat=3))

    def is_alive(self, site):
        """Whether the testbench sees an output other than 0. Before each look the clock rises once."""
        words = Words(self.seed)
        a = b = r = 0
        for cycle in range(32):
            r = self.step(a, b, r, site)[1]
            if self.step(a, b, r, site)[0] != 0:
                return True
            a, b = words.word() % 8, cycle % 8
        return False

    def taken(self):
        """The 100 sites with the least words, in their order."""
        words = pcg.words(self.seed, len(self.sites))
        least = sorted(range(len(self.sites)), key=lambda site: (words[site], site))[:100]
        return [self.sites[site] for site in sorted(least)]

    def summary(self, cells):
        words = [(self.is_alive(site), self.is_same(site)) for site in self.taken()]
        alive, same = sum(word[0] for word in words), sum(word[1] for word in words)
        tags = {(True, False): "UNCOVERED", (False, False): "COVERED", (True, True): "NOCHANGE", (False, True): "EQGAP"}
        given = [tags[word] for word in words]
        return [
            f"Demo: {self.seed} {cells}", f"Sites: {len(self.sites)}", "Mutations: 100", "Finished: 100",
            f"Test test_sim: PASS {alive} FAIL {100 - alive} HANG 0", f"Test test_eq: PASS {same} FAIL {100 - same} UNKNOWN 0",
            *[f"Tag {tag}: {given.count(tag)}" for tag in TAGS], "Asserts: 0", "Unexpected: 0",
        ]


def call(seed, cells):
    text = Design(seed, cells).summary(cells)
    return [f"> demo {seed} {cells}", "status 0", *text, f"{sum(len(line) + 1 for line in text)} bytes", "0 items, 0 mutations"]


def refused(words):
    return [f"> {words}", "status 2", "mcy: usage: mcy init | run [-j N] [--stop-after N] [--retry N] | list | status | source", "0 items, 0 mutations"]


def main():
    head = "# A demo runs the whole campaign of its project, without any file and without the keeper."
    given = [head, "new", "fail-keeper 0 0", "fail-read 0", "call demo 7 1", "new", "call demo 7 20", "call demo 7 20", "new", "call demo 7 0", "call demo 7 401"]
    told = [head, *call(7, 1), *call(7, 20), *call(7, 20), *refused("demo 7 0"), *refused("demo 7 401")]
    tables.save_part("mcy_cases", given, told)


if __name__ == "__main__":
    main()
