#!/usr/bin/env python3
"""Projects with tests, tag scripts and reports of their own: a part of the cases of crates/mcy_cases.

    tests/logics.py [FOLDER]      a part of the table of crates/mcy_cases

A script is run by Python itself: where it asks for a word that is not there yet, the test is run, and the script is run again from
its start. Words are those of tests/campaigns.py, by runs of the mutants on all inputs.
"""

import traceback

from campaigns import AND, REDUNDANT, Campaign, source, tilde

from lib import tables
WORDS = ["PASS", "FAIL", "HANG", "UNKNOWN"]
SAME = ['if result("same") == "PASS":', '    tag("NOCHANGE")', "else:", '    tag("CHANGED")']
COVERAGE = 'print("Coverage: %.2f%%" % (100.0*tags("COVERED")/(tags("COVERED")+tags("UNCOVERED"))))'


class Needs(Exception):
    pass


class Unexpected(Exception):
    pass


def line_of(error):
    return traceback.extract_tb(error.__traceback__)[-1].lineno


class Project:
    def __init__(self, logic, tests=(("same", "PASS FAIL"),), tags="CHANGED NOCHANGE", report=(), design=AND, modes="inv"):
        self.logic, self.tests, self.tags, self.report, self.design, self.modes = logic, tests, tags.split(), report, design, modes
        self.campaign = Campaign(design, size=10, modes=modes.split())
        self.rows = []

    def lines(self):
        tests = [line for name, expect in self.tests for line in [f"[test {name}]", "eq", *([f"expect {expect}"] if expect else [])]]
        tags = [f"tags {' '.join(self.tags)}"] if self.tags else []
        head = ["[options]", "size 10", f"modes {self.modes}", *tags, "[script]", "read_verilog g.v", "prep -top g", "[files]", "g.v"]
        return [*head, "[logic]", *self.logic, *tests, *(["[report]", *self.report] if self.report else [])]

    def program(self, section, lines):
        """The lines, numbered as in the file."""
        return "\n" * (self.lines().index(section) + 1) + "\n".join(lines)

    def stands(self, mutation):
        """What the script asks for on a mutation, or how it ended."""
        words = {self.tests[test][0]: WORDS[word] for m, test, word, _, _ in self.rows if m == mutation}
        tags = set()

        def result(name):
            if name not in words:
                raise Needs(name)
            expect = dict(self.tests)[name]
            if expect and words[name] not in expect.split():
                raise Unexpected
            return words[name]

        try:
            exec(compile(self.program("[logic]", self.logic), "logic", "exec"), {"result": result, "tag": tags.add})
        except Needs as needs:
            return "needs", [name for name, _ in self.tests].index(needs.args[0])
        except Unexpected:
            return "unexpected", None
        except AssertionError as error:
            return "assert", line_of(error)
        return "done", [tag for tag in self.tags if tag in tags]

    def run(self, stop=None):
        gained = 0
        for mutation, word in enumerate(self.campaign.words):
            while (asked := self.stands(mutation))[0] == "needs" and gained != stop:
                self.rows.append((mutation, asked[1], word, 0, 0))
                kind, what = self.stands(mutation)
                mark = {"needs": 0, "done": 1, "unexpected": 2}.get(kind, 16 + (what or 0) if kind == "assert" else 0)
                tags = sum(2 ** self.tags.index(tag) for tag in what) if kind == "done" else 0
                self.rows[-1] = (mutation, asked[1], word, mark, tags)
                gained += 1
        return sum(self.stands(mutation)[0] == "needs" for mutation in range(len(self.campaign.words)))

    def status(self):
        ends = [self.stands(mutation) for mutation in range(len(self.campaign.words))]
        counts = [sum(kind == "done" and tag in what for kind, what in ends) for tag in self.tags]
        told = [f"Mutations: {len(ends)}", f"Finished: {sum(kind != 'needs' for kind, _ in ends)}"]
        for test, (name, _) in enumerate(self.tests):
            passed, failed = (sum(row[1:3] == (test, word) for row in self.rows) for word in (0, 1))
            told.append(f"Test {name}: PASS {passed} FAIL {failed} UNKNOWN 0")
        told += [f"Tag {tag}: {count}" for tag, count in zip(self.tags, counts)]
        told += [f"Asserts: {sum(kind == 'assert' for kind, _ in ends)}", f"Unexpected: {sum(kind == 'unexpected' for kind, _ in ends)}"]
        return told + self.reported(dict(zip(self.tags, counts)))

    def reported(self, counts):
        told = []
        if self.report:
            try:
                exec(compile(self.program("[report]", self.report), "report", "exec"), {"tags": counts.get, "print": told.append})
            except ZeroDivisionError as error:
                told.append(f"report stopped at line {line_of(error)}: division by zero")
        return told

    def list(self):
        told = []
        for mutation, site in enumerate(self.campaign.mutations):
            answers = " ".join(f"{self.tests[test][0]}={WORDS[word]}" for m, test, word, _, _ in self.rows if m == mutation)
            kind, what = self.stands(mutation)
            ended = {"needs": " !unfinished", "unexpected": " !unexpected", "assert": f" !assert {what}"}
            end = "".join(f" {tag}" for tag in what) if kind == "done" else ended[kind]
            told.append(f"{mutation + 1}: {self.campaign.text(site)} [{answers}]{end}")
        return told

    def sources(self):
        told = ["File: g.v", "Columns:" + "".join(f" {tag}" for tag in self.tags)]
        ends = [(self.campaign.text(site), *self.stands(mutation)) for mutation, site in enumerate(self.campaign.mutations)]
        for number, line in enumerate(source(self.design), 1):
            here = [end for end in ends if end[0].endswith(f" g.v:{number}")]
            counts = [sum(kind == "done" and tag in what for _, kind, what in here) if here else "." for tag in self.tags]
            told.append(f"{number:>5}" + "".join(f" {count:>6}" for count in counts) + f" | {line}")
        return told

    def given(self):
        return ["new", f"hold config.mcy {tilde(self.lines())}", f"hold g.v {tilde(source(self.design))}"]


def told(project, command):
    """What a call prints."""
    words, status, left = command.split(), "status 0", []
    if words[0] == "run":
        count = project.run(int(words[2]) if len(words) > 1 else None)
        if count:
            status, left = "status 1", [f"{count} left"]
    text = {"list": project.list, "source": project.sources}.get(command, project.status)()
    rows = [" ".join(map(str, (seq, *row, 20000))) for seq, row in enumerate(project.rows)]
    written = [*text, f"{sum(len(line) + 1 for line in text)} bytes"]
    return [f"> {command}", status, *left, *written, f"3 items, {len(project.campaign.mutations)} mutations", *rows]


def taken(*commands, **given):
    project = Project(**given)
    return project.given() + [f"call {command}" for command in commands], [line for command in commands for line in told(project, command)]


def refused(fault, hold=True, **given):
    """A script that is refused before the keeper is asked, and before any source is read."""
    project = Project(**given)
    lines = project.given() if hold else project.given()[:2]
    return [*lines, "fail-keeper 0 0", "call run"], ["> run", *fault, "0 items, 0 mutations"]



def bad(line, name):
    return ["status 4", f"mcy: config.mcy:{line}: {name}"]


CHAIN = ['if result("first") == "FAIL" and result("second") == "FAIL":', '    tag("CHANGED")', "else:", '    tag("NOCHANGE")']
TWO = (("first", None), ("second", "PASS FAIL"), ("third", None))

PARTS = [
    ("# Words that are not expected end a script.", [taken("run", "list", logic=SAME, tests=(("same", "PASS"),)), taken("run", logic=SAME, tests=(("same", "FAIL UNKNOWN"),))]),
    ("# So does an assertion that fails, and its line is told.", [
        taken("run", "list", logic=['assert result("same") == "PASS"']),
        taken("run", "list", logic=['tag("CHANGED")', 'assert result("same") == "FAIL"', 'tag("NOCHANGE")']),
    ]),
    ("# Where no test is asked, none is run.", [taken("run", "list", logic=['tag("CHANGED")'])]),
    ("# Tests are asked as the script reads their words, and a run goes on between two of one mutation.", [
        taken("run --stop-after 1", "run --stop-after 2", "list", "run", "list", logic=CHAIN, tests=TWO),
        taken("run", "list", logic=CHAIN, tests=TWO, design=REDUNDANT),
        taken("run", logic=SAME, tests=(("other", None), ("same", "PASS FAIL"))),
    ]),
    ("# Tags are told in the order of the project, and scripts may have blank lines and comments.", [
        taken("run", "list", logic=SAME, tags="NOCHANGE CHANGED MORE"),
        taken("run", logic=["# same", *SAME, ""]),
    ]),
    ("# The status ends with the report on the counts of tags.", [
        taken("run", logic=['if result("same") == "PASS":', '    tag("COVERED")', "else:", '    tag("UNCOVERED")'], tags="COVERED UNCOVERED", report=[COVERAGE], design=REDUNDANT, modes="const0"),
        taken("run", logic=["pass"], tags="COVERED UNCOVERED", report=['print("done")', COVERAGE, 'print("not told")']),
    ]),
    ("# The sources are shown with the counts of each line's mutations, points where there are none.", [
        taken("run", "source", logic=SAME),
        taken("run --stop-after 4", "source", "run", "source", logic=CHAIN, tests=TWO, tags="NOCHANGE CHANGED MORE", design=REDUNDANT),
        taken("run", "source", logic=['assert result("same") == "PASS"'], tags="", design=REDUNDANT),
    ]),
    ("# Faults of the scripts come at their lines, the logic's first, before any source is read.", [
        refused(bad(11, "UnknownTest"), logic=SAME, tests=()),
        refused(bad(11, "UnknownTest"), logic=SAME, tests=(("other", None),)),
        refused(bad(11, "UnknownTag"), logic=SAME, tags=""),
        refused(bad(12, "UnknownTag"), hold=False, logic=SAME, tags="CHANGED"),
        refused(bad(12, "Indent"), logic=['tag("CHANGED")', '  tag("CHANGED")']),
        refused(bad(11, "Unassigned"), logic=["assert word"], report=["no report"]),
        refused(bad(11, "Bad"), logic=["import same"]),
        refused(bad(19, "Bad"), logic=SAME, report=["no report"]),
        refused(bad(20, "UnknownTag"), logic=SAME, report=["pass", 'print("%d" % tags("MORE"))']),
    ]),
]


def main():
    halves = [[line for head, cases in PARTS for line in [head, *(row for both in cases for row in both[side])]] for side in (0, 1)]
    tables.save_part("mcy_cases", *halves)


if __name__ == "__main__":
    main()
