#!/usr/bin/env python3
"""Calls that end with another status where a campaign misses what is asked of it: a part of the cases of crates/mcy_cases, by the
definitions alone.

    tests/requirement_rows.py [FOLDER]      a part of the table of crates/mcy_cases

`status --strict` asks that no assertion has failed and no word was unexpected. A line `require P T of T ..` in [options] asks of `run` and
`status` of a finished campaign that the first tag's mutations are P percent of those of the others together, at least. The text is the same and
is written first. The scripts are run by Python itself (tests/logics.py).
"""

from campaigns import REDUNDANT
from logics import SAME, Project as Plain, told
from retry_rows import GATE, Campaign as Equality

from lib import tables

MISSED = ["status 21", "mcy: requirement missed"]
WRITE = ["status 13", "mcy: write fault"]
ASSERT = ['assert result("same") == "PASS"']
ODD = (("same", "PASS"),)
CONFLICTS = 20000


class Project(Plain):
    """A project of tests/logics.py, with what it requires."""

    def __init__(self, require=None, **given):
        self.require = require
        super().__init__(**given)

    def lines(self):
        rows = super().lines()
        at = rows.index("[script]")
        return [*rows[:at], *([f"require {self.require}"] if self.require else []), *rows[at:]]

    def misses(self):
        """Whether the campaign is finished and misses what it requires."""
        text = self.status()
        if not self.require or count(text, "Finished") < count(text, "Mutations"):
            return False
        percent, first, _, *others = self.require.split()
        return 100 * count(text, f"Tag {first}") < int(percent) * sum(count(text, f"Tag {tag}") for tag in others)


def count(text, name):
    """What the status tells of this."""
    return int(next(line for line in text if line.startswith(f"{name}: ")).split()[-1])


def is_strict(text):
    return count(text, "Asserts") == 0 and count(text, "Unexpected") == 0


def judged(project, command):
    """A call, and what it prints: where the text misses what is asked, that stands behind the status of a campaign that goes well."""
    lines = told(project, command)
    is_judged = command.split()[0] in ("run", "status")
    if is_judged and (project.misses() or command == "status --strict" and not is_strict(project.status())):
        lines[1:2] = MISSED
    return lines


def calls(*commands, **given):
    project = Project(**given)
    return project.given() + [f"call {command}" for command in commands], [line for command in commands for line in judged(project, command)]


def cut(command, size, **given):
    """A run, and a call whose sink fails after so many bytes."""
    project = Project(**given)
    before = judged(project, "run")
    rows = told(project, "status")[-len(project.rows) - 1 :]
    seen = [*"".join(f"{line}\n" for line in project.status())[:size].splitlines(), f"{size} bytes"] if size else []
    return [*project.given(), "call run", f"fail-write 0 {size}", f"call {command}"], [*before, f"> {command}", *WRITE, *seen, *rows]


def unbegun():
    """A strict status of an empty book."""
    return [*Project(logic=ASSERT).given(), "call status --strict"], ["> status --strict", "status 8", "mcy: no campaign", "0 items, 0 mutations"]


def changed():
    """One of a book whose first row is another one than the campaign has: its word is no word of the test."""
    project = Project(logic=ASSERT)
    before = told(project, "run --stop-after 1")
    bad = f"1 1 0 2 0 0 {CONFLICTS}"
    return [*project.given(), "call run --stop-after 1", f"row {bad}", "call status --strict"], [
        *before, "> status --strict", "status 10", "mcy: database: row 1", "BadWord", bad, before[-2], before[-1], bad,
    ]


STRICT = [
    ("# A campaign without failed assertions and unexpected words meets a strict status.", [calls("run", "status --strict", "status", logic=SAME)]),
    ("# One with them misses it, with the same text, and the other calls do not ask for it.", [
        calls("run", "status --strict", "status", "list", "run", logic=ASSERT),
        calls("run", "status --strict", "status", logic=SAME, tests=ODD),
    ]),
    ("# It does so before it is finished.", [
        calls("run --stop-after 1", "status --strict", "status", logic=ASSERT), calls("run --stop-after 1", "status --strict", logic=SAME, tests=ODD),
        calls("run --stop-after 1", "status --strict", logic=SAME),
    ]),
    ("# A sink that fails is told in its place.", [cut("status --strict", size, logic=logic) for size in (0, 17) for logic in (ASSERT, SAME)]),
    ("# A book that is refused is told in its place.", [unbegun(), changed()]),
]

ALL, NONE = "100 CHANGED of CHANGED NOCHANGE", "1 NOCHANGE of CHANGED NOCHANGE"
EVERY = ("run", "status", "status --strict", "list", "source", "run")
THREE = {"logic": SAME, "tags": "NOCHANGE CHANGED MORE", "design": REDUNDANT, "modes": "const0 inv"}


def share(first, *others):
    """The greatest percent that the first tag of a campaign has of the others."""
    project = Plain(**THREE)
    project.run()
    text = project.status()
    return 100 * count(text, f"Tag {first}") // sum(count(text, f"Tag {tag}") for tag in others)


def bounds(first, *others):
    """A campaign that meets its requirement by the least, and one that misses it by the least."""
    percent = share(first, *others)
    assert 0 < percent < 100
    return [calls("run", "status", require=f"{more} {first} of {' '.join(others)}", **THREE) for more in (percent, percent + 1)]


def named():
    """Runs over mutations that they name, of a campaign that misses its requirement."""
    campaign = Equality(["modes inv", f"require {NONE}"], ["expect PASS FAIL"], GATE.design, GATE.texts, GATE.first, GATE.last, CONFLICTS)
    rows = [campaign.row(n, m, 1, CONFLICTS) for n, m in enumerate((1, 0, 2))]
    given, told = campaign.new(), []
    for numbers, count in ((2, 1), (2, 1), ("1,3", 3), (2, 3)):
        words = f"run --mutations {numbers}"
        given.append(f"call {words}")
        told += campaign.called(words, campaign.status([1] * count), rows[:count], MISSED if count == 3 else ["status 0"])
    return given, told


REQUIRED = [
    ("# A finished campaign that meets its requirement ends as one without it.", [calls(*EVERY, require=ALL, logic=SAME)]),
    ("# One that misses it says so in a run and a status, behind the same text.", [calls(*EVERY, require=NONE, logic=SAME)]),
    ("# A percent more is missed.", [*bounds("CHANGED", "CHANGED", "NOCHANGE"), *bounds("NOCHANGE", "MORE", "NOCHANGE", "CHANGED")]),
    ("# Where none of its tags is set it is met, and the first tag need not be among the others.", [
        calls("run", require=f"100 {require}", logic=SAME) for require in ("NOCHANGE of NOCHANGE", "CHANGED of NOCHANGE", "NOCHANGE of CHANGED", "CHANGED of CHANGED")
    ]),
    ("# It is asked of finished campaigns alone.", [
        calls("run --stop-after 2", "status", "status --strict", "run --stop-after 1", "status", require=NONE, logic=SAME), calls("run", "status", require=NONE, logic=['tag("CHANGED")']),
    ]),
    ("# So is it where a run is over mutations that it names.", [named()]),
    ("# A strict status asks for it too.", [
        calls("run", "status", "status --strict", require=ALL, logic=logic, tests=tests) for logic, tests in ((ASSERT, ODD), (SAME, ODD), (ASSERT, (("same", None),)))
    ]),
    ("# A sink that fails is told in place of a requirement that is missed.", [cut(command, size, require=NONE, logic=SAME) for command in ("run", "status") for size in (0, 17)]),
]


def main():
    halves = [[line for head, cases in [*STRICT, *REQUIRED] for line in [head, *(row for both in cases for row in both[side])]] for side in (0, 1)]
    tables.save_part("mcy_cases", *halves)


if __name__ == "__main__":
    main()
