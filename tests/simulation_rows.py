#!/usr/bin/env python3
"""Campaigns with tests that are simulations: a part of the cases of crates/mcy_cases, by the definitions alone.

    tests/simulation_rows.py [FOLDER]      a part of the table of crates/mcy_cases

The bench of the saturating counter holds the reset for two edges of the clock and counts then: behind each of the 260 edges that follow
it compares `q` with what it should be, once the clock has fallen. Here this is worked out by hand from its source: the register takes its
next value at each rising edge, before what the bench assigns there without blocking. The design and its mutants are those of
tests/equality_rows.py. `§` stands in front of the byte at which a bench is refused.
"""


from equality_rows import Campaign, all_sites, counter, project, step, tilde
from lib import pcg
from lib import saturating
from lib import tables

# `~` stands for the end of a line in the cases
BENCH = [line.replace("~clk", "!clk") for line in saturating.BENCH]
LOGIC = [
    'tb_okay = (result("test_sim") == "PASS")', 'eq_word = result("test_eq")', 'eq_okay = (eq_word == "PASS")', 'if eq_word == "UNKNOWN":', '    tag("GIVENUP")',
    "elif tb_okay and not eq_okay:", '    tag("UNCOVERED")', "elif not tb_okay and not eq_okay:", '    tag("COVERED")', "elif tb_okay and eq_okay:", '    tag("NOCHANGE")',
    "else:", '    tag("EQGAP")',
]
TAGS = ["COVERED", "UNCOVERED", "NOCHANGE", "EQGAP", "GIVENUP"]
CYCLES = 300


def bench_word(site, cycles):
    """The word of the bench on a mutant: 0 PASS, 1 FAIL, 2 HANG. The last check is behind the 262nd cycle's rising edge."""
    register, reset, enable, bad = 0, 0, 0, 0
    for edge in range(1, 263):
        if edge > cycles:
            return 2
        register = step(reset, enable, register, site)[2]
        if edge == 2:
            reset, enable = 1, 1
        if edge >= 2 and edge - 2 < 260:
            wanted = min(edge - 2, 255)
            bad += step(reset, enable, register, site)[0] != wanted
        if edge - 2 == 259:
            break
    return 0 if bad == 0 else 1


def both_project(cycles):
    lines = ["[options]", "size 20", "seed 7", "conflicts 60000", f"cycles {cycles}", "tags " + " ".join(TAGS), "[script]", "read_verilog sat.v", "prep -top sat", "[files]", "sat.v", "[logic]", *LOGIC]
    lines += ["[test test_sim]", "sim sat_tb sat_tb.v", "pass ALL GOOD", "fail BAD", "[test test_eq]", "eq"]
    return f"hold config.mcy {tilde(lines)}"


class Both:
    """The counter's campaign with both tests: for each mutation the words of the bench and of the equality."""

    def __init__(self, cycles):
        sites = list(all_sites())
        words = pcg.words(7, len(sites))
        self.taken = [sites[i] for i in sorted(sorted(range(len(sites)), key=lambda i: (words[i], i))[:20])]
        self.equal = counter()
        self.bench = [bench_word(site, cycles) for site in self.taken]
        self.tags = []
        for bench, equal in zip(self.bench, self.equal.words):
            name = {(True, False): "UNCOVERED", (False, False): "COVERED", (True, True): "NOCHANGE"}.get((bench == 0, equal == 0), "EQGAP")
            self.tags.append(TAGS.index(name))

    def rows(self, count):
        rows = []
        for m, (bench, equal, tag) in enumerate(zip(self.bench, self.equal.words, self.tags)):
            rows += [f"{2 * m} {m} 0 {bench} 0 0 0", f"{2 * m + 1} {m} 1 {equal} 1 {1 << tag} 60000"]
        return ["3 items, 20 mutations".replace("3", "4", 1)] + rows[:count]

    def status(self, rows):
        bench, equal, done = self.bench[: (rows + 1) // 2], self.equal.words[: rows // 2], self.tags[: rows // 2]
        return [
            "Mutations: 20", f"Finished: {len(done)}",
            f"Test test_sim: PASS {bench.count(0)} FAIL {bench.count(1)} HANG {bench.count(2)}",
            f"Test test_eq: PASS {equal.count(0)} FAIL {equal.count(1)} UNKNOWN 0",
            *[f"Tag {name}: {done.count(number)}" for number, name in enumerate(TAGS)], "Asserts: 0", "Unexpected: 0",
        ]

    def run(self, words, rows):
        left = 20 - rows // 2
        head = ["status 1", f"{left} left"] if left else ["status 0"]
        text = self.status(rows)
        return [f"> {words}", *head, *text, f"{sum(len(line) + 1 for line in text)} bytes", *self.rows(rows)]


def refused_bench(fault, bench):
    """A bench that is refused at its mark, or without a place."""
    text = "".join(line + "\n" for line in bench)
    place = ""
    if "§" in text:
        before = text[: text.index("§")].encode()
        place = "sat_tb.v:%d:%d: " % (before.count(b"\n") + 1, len(before) - before.rfind(b"\n"))
    given = ["new", both_project(CYCLES), f"hold sat.v {tilde(saturating.DESIGN)}", f"hold sat_tb.v {tilde(bench).replace('§', '')}", "fail-keeper 0 0", "call run"]
    return given, ["> run", "status 5", f"mcy: {place}{fault}", "0 items, 0 mutations"]


def cases():
    one = Both(CYCLES)
    files = [f"hold sat.v {tilde(saturating.DESIGN)}", f"hold sat_tb.v {tilde(BENCH)}"]
    new = ["new", both_project(CYCLES), *files]
    init = ["Sites: 550", "Mutations: 20"]
    yield "# A saturating counter with its bench and an equality test: 40 tests.", [*new, "call init", "call run", "call run"], (
        ["> init", "status 0", *init, "25 bytes", *one.rows(0)] + one.run("run", 40) + one.run("run", 40)
    )
    yield "# It may stop between the two tests of a mutation.", [*new, "call run --stop-after 13", "call run --stop-after 40"], one.run("run --stop-after 13", 13) + one.run("run --stop-after 40", 40)
    fault = lambda rows: ["> run", "status 12", "mcy: database fault", *one.rows(rows)]
    yield "# A fault that left its row, and one that left nothing.", [*new, "fail-keeper 5 1", "call run", "call run", *new, "fail-keeper 5 0", "call run", "call run"], (
        fault(4) + one.run("run", 40) + fault(3) + one.run("run", 40)
    )
    hang = Both(260)
    yield "# With 260 cycles the bench never ends, whatever the design is.", ["new", both_project(260), *files, "call run"], hang.run("run", 40)
    given, told = [], []
    bench = list(BENCH)
    bench[6] = "  wire x;"
    more = refused_bench("NoDesign", bench)
    given, told = given + more[0], told + more[1]
    bench = list(BENCH)
    bench[14] = "      if (q !== ((i < 255) ? §j : 255)) bad = bad + 1;"
    more = refused_bench("Unknown", bench)
    given, told = given + more[0], told + more[1]
    bench = list(BENCH)
    bench[16] = '    if (bad == 0) $display("ALL GOOD"); else §$stop;'
    more = refused_bench("Unsupported SystemTask", bench)
    given, told = given + more[0], told + more[1]
    yield "# A bench is refused behind the design: it has no instance of it, or a fault at a place.", given, told


def main():
    given, told = [], []
    for head, lines, answers in cases():
        given += [head, *lines]
        told += [head, *answers]
    tables.save_part("mcy_cases", given, told)


if __name__ == "__main__":
    main()
