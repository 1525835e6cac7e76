#!/usr/bin/env python3
"""Books of both formats, and pairs that are asked again under greater limits: a part of the cases of crates/mcy_cases, by the
definitions alone.

    tests/retry_rows.py [FOLDER]      a part of the table of crates/mcy_cases

A book of the first format has the number 1 as item 0 and no bounds. What only reads takes it as it is, and a run moves it to the
second format before its work, in one call of the keeper behind the load. In the second format a row of an equality has the limit
under which its word was found: that of the project in a pair's first row, and that of the retry in a later one, which stands only
behind an UNKNOWN under a lower limit. The last word of a pair counts.

With one lemma, a bit that is constant 1 at the second input of the and gate of a redundant or is given up, since no propagation
refutes it alone; nine are as many as two free bits need. Every other mutant differs from the design on some input.
"""

from lib import tables

LOGIC = ['if result("same") == "PASS":', '    tag("NOCHANGE")', "else:", '    tag("CHANGED")']
AND = ["module g(input a, input b, output y);", "  assign y = a & b;", "endmodule"]
REDUNDANT = ["module g(input a, input b, output y);", "  wire u = a & b;", "  assign y = a | u;", "endmodule"]
WORDS = {0: "PASS", 1: "FAIL", 3: "UNKNOWN"}


def tilde(lines):
    return "".join(f"{line}~" for line in lines)


class Campaign:
    """A project with one equality: its mutations, and the word of each under the project's limit and without one."""

    def __init__(self, options, expect, design, texts, first, last, conflicts):
        self.config = ["[options]", "size 10", *options, "tags CHANGED NOCHANGE", "[script]", "read_verilog g.v", "prep -top g", "[files]",
                       "g.v", "[logic]", *LOGIC, "[test same]", "eq", *expect]
        self.design, self.texts, self.first, self.last, self.conflicts = design, texts, first, last, conflicts

    def new(self):
        return ["new", f"hold config.mcy {tilde(self.config)}", f"hold g.v {tilde(self.design)}"]

    def row(self, seq, mutation, word, bound):
        return f"{seq} {mutation} 0 {word} 1 {2 if word == 0 else 1} {bound}"

    def rows(self, count=None, bound=None):
        words = list(enumerate(self.first))[:count]
        return [self.row(n, n, word, self.conflicts if bound is None else bound) for n, word in words]

    def book(self, rows):
        return [f"3 items, {len(self.texts)} mutations", *rows]

    def status(self, words):
        same, differ, up = (sum(1 for word in words if word == code) for code in (0, 1, 3))
        return [f"Mutations: {len(self.texts)}", f"Finished: {len(words)}", f"Test same: PASS {same} FAIL {differ} UNKNOWN {up}",
                f"Tag CHANGED: {differ + up}", f"Tag NOCHANGE: {same}", "Asserts: 0", "Unexpected: 0"]

    def list(self, words):
        tags = {0: "NOCHANGE", 1: "CHANGED", 3: "CHANGED"}
        said = [f" [same={WORDS[word]}] {tags[word]}" for word in words] + [" [] !unfinished"] * (len(self.texts) - len(words))
        return [f"{n}: {text}{end}" for n, (text, end) in enumerate(zip(self.texts, said), 1)]

    def called(self, words, text, rows, head=("status 0",)):
        told = [*text, f"{sum(len(line) + 1 for line in text)} bytes"] if text else []
        return [f"> {words}", *head, *told, *self.book(rows)]

    def refused(self, words, place, fault, row, rows):
        return self.called(words, [], rows, ["status 10", f"mcy: database: row {place}", fault, row])


GATE = Campaign(["modes inv"], ["expect PASS FAIL"], AND, [f"inv g cell and_0 {port} 0 g.v:2" for port in "ABY"], [1, 1, 1], [1, 1, 1], 20000)
PLACES = [(cell, port, line) for cell, line in (("and_0", 2), ("or_1", 3)) for port in "ABY"]
OR = Campaign(["modes const1", "conflicts 1"], [], REDUNDANT, [f"const1 g cell {cell} {port} 0 g.v:{line}" for cell, port, line in PLACES],
              [1, 3, 1, 1, 1, 1], [1, 0, 1, 1, 1, 1], 1)


def source(campaign, counts):
    """The text of the sources, of whose lines these have mutations with these tags."""
    lines = ["File: g.v", "Columns: CHANGED NOCHANGE"]
    for number, line in enumerate(campaign.design, 1):
        columns = "".join(f" {count:>6}" for count in counts.get(number, (".", ".")))
        lines.append(f"{number:>5}{columns} | {line}")
    return lines


def format_cases():
    ran, bare, first = GATE.status([1, 1, 1]), GATE.rows(bound=0), GATE.rows()
    yield "# A book of the first format is told as it is, and a run moves it to the second, with no step.", (
        [*GATE.new(), "call run", "format 1", "call status", "call list", "call source", "call init", "call run", "call run --retry 9", "book"]
    ), [
        *GATE.called("run", ran, first), *GATE.called("status", ran, bare), *GATE.called("list", GATE.list([1, 1, 1]), bare),
        *GATE.called("source", source(GATE, {2: (3, 0)}), bare), *GATE.called("init", [], bare, ["status 9", "mcy: campaign already begun"]),
        *GATE.called("run", ran, first), *GATE.called("run --retry 9", ran, first),
        "2", *GATE.config, "", "g.v", *GATE.design, "", *GATE.texts,
    ]
    fault = ["status 12", "mcy: database fault"]
    yield "# An upgrade that fails leaves the old book or the new one, and the next run goes on.", (
        [*GATE.new(), "call run", "format 1", "fail-keeper 1 0", "call run", "call run", "format 1", "fail-keeper 1 1", "call run", "call run"]
    ), [
        *GATE.called("run", ran, first), *GATE.called("run", [], bare, fault), *GATE.called("run", ran, first),
        *GATE.called("run", [], first, fault), *GATE.called("run", ran, first),
    ]
    yield "# A book of the first format that is not finished is moved to the second before its first test.", (
        [*GATE.new(), "call run --stop-after 1", "format 1", "call run --stop-after 1", "call run"]
    ), [
        *GATE.called("run --stop-after 1", GATE.status([1]), GATE.rows(1), ["status 1", "2 left"]),
        *GATE.called("run --stop-after 1", GATE.status([1, 1]), GATE.rows(2), ["status 1", "1 left"]), *GATE.called("run", ran, first),
    ]
    bad, other = GATE.row(0, 0, 1, 7), GATE.row(0, 0, 1, 0)
    begun = GATE.called("init", ["Sites: 3", "Mutations: 3"], [])
    yield "# A row has the bound of its format and its test.", (
        [*GATE.new(), "call init", f"row {bad}", "call run", *GATE.new(), "call init", f"row {other}", "call list",
         *GATE.new(), "call init", "format 1", f"row {bad}", "call status"]
    ), [
        *begun, *GATE.refused("run", 0, "Bound(20000)", bad, [bad]), *begun, *GATE.refused("list", 0, "Bound(20000)", other, [other]),
        *begun, *GATE.refused("status", 0, "Bound(0)", bad, [bad]),
    ]
    # The items that differ end in no newline.
    third = ["> run", "status 10", "mcy: database: meta 0", "kept", "3derived", "23 items, 3 mutations"]
    yield "# There is no third format.", [*GATE.new(), "call init", "format 3", "call run"], [*begun, *third]


def read_cases():
    """Two tests of which the second is asked where the first was given up: with the first one known, the second is not read."""
    logic = ['if result("one") == "UNKNOWN":', '    if result("two") == "PASS":', '        tag("NOCHANGE")', "    else:", '        tag("CHANGED")', "else:", '    tag("NOCHANGE")']
    config = ["[options]", "size 1", "modes const1", "conflicts 1", "tags CHANGED NOCHANGE", "[script]", "read_verilog g.v", "prep -top g", "[files]", "g.v", "[logic]", *logic,
              "[test one]", "eq", "[test two]", "eq"]
    design = ["module g(input a, output y);", "  assign y = a & a;", "endmodule"]
    new = ["new", f"hold config.mcy {tilde(config)}", f"hold g.v {tilde(design)}", "call init"]
    begun = ["> init", "status 0", "Sites: 3", "Mutations: 1", "22 bytes", "3 items, 1 mutations"]
    early = "0 0 1 1 1 1 1"
    rows = ["0 0 0 3 0 0 1", "1 0 1 3 1 1 1", "2 0 0 0 1 2 9", "3 0 1 0 1 2 9"]

    def refused(place, row, rows):
        return [*begun, "> status", "status 10", f"mcy: database: row {place}", "NotAsked", row, "3 items, 1 mutations", *rows]

    status = ["Mutations: 1", "Finished: 1", "Test one: PASS 1 FAIL 0 UNKNOWN 0", "Test two: PASS 0 FAIL 0 UNKNOWN 0", "Tag CHANGED: 0", "Tag NOCHANGE: 1", "Asserts: 0", "Unexpected: 0"]
    yield "# A row is of a test that is read or needed.", [*new, f"row {early}", "call status"], refused(0, early, [early])
    yield "# A test is not read any more where another one's last word has changed what is asked.", (
        [*new, *[f"row {row}" for row in rows[:3]], "call status", f"row {rows[3]}", "call status"]
    ), [
        *begun, "> status", "status 0", *status, f"{sum(len(line) + 1 for line in status)} bytes", "3 items, 1 mutations", *rows[:3],
        *refused(3, rows[3], rows)[len(begun):],
    ]


def retry_cases():
    first, again = OR.status(OR.first), OR.status(OR.last)
    rows = OR.rows()
    more = [*rows, OR.row(6, 1, 0, 9)]
    yield "# A pair that was given up is asked again under a greater limit, once, and its last word counts.", (
        [*OR.new(), "call run", "call list", "call run --retry 1", "call run --retry 9", "call run --retry 9", "call run --retry=90", "call run", "call list", "call source"]
    ), [
        *OR.called("run", first, rows), *OR.called("list", OR.list(OR.first), rows), *OR.called("run --retry 1", first, rows),
        *OR.called("run --retry 9", again, more), *OR.called("run --retry 9", again, more), *OR.called("run --retry=90", again, more),
        *OR.called("run", again, more), *OR.called("list", OR.list(OR.last), more), *OR.called("source", source(OR, {2: (2, 1), 3: (3, 0)}), more),
    ]
    part = [OR.row(0, 0, 1, 1), OR.row(1, 1, 3, 1), OR.row(2, 1, 0, 9)]
    rest = [OR.row(n, n - 1, 1, 1) for n in (3, 4, 5, 6)]
    yield "# A run that may retry asks a pair again before it goes on to the next mutation.", (
        [*OR.new(), "call run --stop-after 3 --retry 9", "call list", "call run --retry=9 --stop-after=4"]
    ), [
        *OR.called("run --stop-after 3 --retry 9", OR.status([1, 0]), part, ["status 1", "4 left"]), *OR.called("list", OR.list([1, 0]), part),
        *OR.called("run --retry=9 --stop-after=4", again, [*part, *rest]),
    ]
    yield "# A retry that fails leaves its row or none, and the next one goes on.", (
        [*OR.new(), "call run", "fail-keeper 1 0", "call run --retry 9", "call run --retry 9", *OR.new(), "call run", "fail-keeper 1 1", "call run --retry 9", "call run --retry 9"]
    ), [
        *OR.called("run", first, rows), *OR.called("run --retry 9", [], rows, ["status 12", "mcy: database fault"]), *OR.called("run --retry 9", again, more),
        *OR.called("run", first, rows), *OR.called("run --retry 9", [], more, ["status 12", "mcy: database fault"]), *OR.called("run --retry 9", again, more),
    ]
    up = OR.row(0, 1, 3, 1)
    begun = OR.called("init", ["Sites: 6", "Mutations: 6"], [])
    given, told = [], []
    for bound, fault in ((1, "Twice"), (0, "Twice"), (101, "Bound(100000)"), (110000, "Bound(100000)")):
        row = OR.row(1, 1, 0, bound)
        given += [*OR.new(), "call init", f"row {up}", f"row {row}", "call list"]
        told += [*begun, *OR.refused("list", 1, fault, row, [up, row])]
    known, row = OR.row(0, 0, 1, 1), OR.row(1, 0, 1, 9)
    given += [*OR.new(), "call init", f"row {known}", f"row {row}", "call list"]
    told += [*begun, *OR.refused("list", 1, "Twice", row, [known, row])]
    row, bare = OR.row(1, 1, 0, 0), OR.row(0, 1, 3, 0)
    given += [*OR.new(), "call init", f"row {up}", f"row {row}", "format 1", "call list"]
    told += [*begun, *OR.refused("list", 1, "Twice", row, [bare, row])]
    yield "# A later row of a pair stands behind an UNKNOWN alone, in the second format, under a greater bound that is round.", given, told
    good = OR.row(1, 1, 0, 110)
    text = [f"{n}: {place} " + ("[same=PASS] NOCHANGE" if n == 2 else "[] !unfinished") for n, place in enumerate(OR.texts, 1)]
    yield "# Such a row is taken.", [*OR.new(), "call init", f"row {up}", f"row {good}", "call list"], [*begun, *OR.called("list", text, [up, good])]


def main():
    given, told = [], []
    for head, lines, answers in [*format_cases(), *retry_cases(), *read_cases()]:
        given += [head, *lines]
        told += [head, *answers]
    tables.save_part("mcy_cases", given, told)


if __name__ == "__main__":
    main()
