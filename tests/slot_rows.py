#!/usr/bin/env python3
"""Runs whose tests take turns in slots: a part of the cases of crates/mcy_cases, by the definitions alone.

    tests/slot_rows.py [FOLDER]      a part of the table of crates/mcy_cases

The slots are looked at from the one behind that of the last event, round to that one itself, and the first one that gives an event has
it: a row where its job has a word, a turn where it has none yet, and, where the slot is free, the start of the least mutation that is in
no slot and wants a test. A turn simulates 256 cycles or adds 256 lemmas. The bench of the saturating counter takes 261 cycles, and so two
turns; that one which ends at the first difference takes one where that comes in the first 256 cycles. The tests of equality here have
fewer lemmas. A run that stops lets go of the tests that are under way.
"""

import functools

from equality_rows import step, tilde
from lib import saturating
from lib import tables
from retry_rows import GATE, OR
from simulation_rows import BENCH, CYCLES, TAGS, Both, both_project

A_TURN = 256
# The bench that tells its first difference, and ends.
LINE = BENCH.index("      if (q !== ((i < 255) ? i : 255)) bad = bad + 1;")
SHORT = [*BENCH[:LINE], "      if (q !== ((i < 255) ? i : 255)) begin", '        $display("BAD at %0d", i);', "        $finish;", "      end", *BENCH[LINE + 1 :]]
SLOTS = (1, 3, 64)


class Slots:
    """A campaign whose rows come as slots give them. A row is a mutation, a test, a word and a bound."""

    def __init__(self):
        self.rows = []

    def run(self, slots, stop=None):
        """The rows of a run with so many slots, which may stop after so many."""
        jobs, first, last = [None] * slots, 0, None if stop is None else len(self.rows) + stop
        while len(self.rows) != last and (slot := self.next(jobs, first)) is not None:
            if jobs[slot] is None:
                mutation = self.waiting(jobs)
                jobs[slot] = [mutation, *self.wants(mutation)]
                jobs[slot].append(self.turns(*jobs[slot][:2]))
            elif jobs[slot][3]:
                jobs[slot][3] -= 1
            else:
                mutation, test, bound, _ = jobs[slot]
                self.rows.append((mutation, test, self.word(mutation, test, bound), bound))
                jobs[slot] = None
            first = (slot + 1) % slots

    def next(self, jobs, first):
        """The slot that gives the next event, if one does."""
        for slot in [*range(first, len(jobs)), *range(first)]:
            if jobs[slot] is not None or self.waiting(jobs) is not None:
                return slot
        return None

    def waiting(self, jobs):
        """The least mutation that is in no slot and wants a test."""
        busy = {job[0] for job in jobs if job is not None}
        return next((m for m in range(self.count) if m not in busy and self.wants(m) is not None), None)

    def last(self, mutation, test):
        """The last word of a pair with its bound, if it has one."""
        return next(((word, bound) for m, t, word, bound in reversed(self.rows) if (m, t) == (mutation, test)), None)


BOTH = Both(CYCLES)


@functools.cache
def cycles(mutation, is_short):
    """How many cycles the bench takes: its first check is behind the second edge, and 259 follow."""
    register, reset, enable = 0, 0, 0
    for edge in range(1, 262):
        register = step(reset, enable, register, BOTH.taken[mutation])[2]
        if edge >= 2:
            reset, enable = 1, 1
            if is_short and step(reset, enable, register, BOTH.taken[mutation])[0] != min(edge - 2, 255):
                return edge
    return 261


class Counter(Slots):
    """The counter's campaign with its bench and its equality, whole or with the bench that ends early."""

    count = 20

    def __init__(self, is_short=False):
        super().__init__()
        self.is_short = is_short

    def wants(self, mutation):
        return next(((test, bound) for test, bound in ((0, 0), (1, 60000)) if self.last(mutation, test) is None), None)

    def word(self, mutation, test, bound):
        return (BOTH.bench, BOTH.equal.words)[test][mutation]

    def turns(self, mutation, test):
        return 1 if test == 1 else -(-cycles(mutation, self.is_short) // A_TURN)

    def new(self):
        return ["new", both_project(CYCLES), f"hold sat.v {tilde(saturating.DESIGN)}", f"hold sat_tb.v {tilde(SHORT if self.is_short else BENCH)}"]

    def left(self):
        return sum(self.wants(mutation) is not None for mutation in range(20))

    def book(self):
        done = [1 << tag for tag in BOTH.tags]
        ends = [f"{int(test == 1)} {done[mutation] if test == 1 else 0}" for mutation, test, _, _ in self.rows]
        return ["4 items, 20 mutations"] + [f"{n} {m} {test} {word} {end} {bound}" for n, ((m, test, word, bound), end) in enumerate(zip(self.rows, ends))]

    def text(self):
        bench, equal = ([word for _, t, word, _ in self.rows if t == test] for test in (0, 1))
        done = [BOTH.tags[mutation] for mutation in range(20) if self.wants(mutation) is None]
        return [
            "Mutations: 20", f"Finished: {len(done)}",
            f"Test test_sim: PASS {bench.count(0)} FAIL {bench.count(1)} HANG {bench.count(2)}",
            f"Test test_eq: PASS {equal.count(0)} FAIL {equal.count(1)} UNKNOWN 0",
            *[f"Tag {name}: {done.count(number)}" for number, name in enumerate(TAGS)], "Asserts: 0", "Unexpected: 0",
        ]


class Equality(Slots):
    """A campaign of tests/retry_rows.py, with the word of each mutation and that under a greater limit."""

    def __init__(self, campaign):
        super().__init__()
        self.campaign, self.count, self.retry = campaign, len(campaign.texts), 0

    def wants(self, mutation):
        last = self.last(mutation, 0)
        if last is None:
            return 0, self.campaign.conflicts
        return (0, self.retry) if last[0] == 3 and last[1] < self.retry else None

    def word(self, mutation, test, bound):
        return (self.campaign.first if bound == self.campaign.conflicts else self.campaign.last)[mutation]

    def turns(self, mutation, test):
        return 1

    def new(self):
        return self.campaign.new()

    def left(self):
        return sum(self.wants(mutation) is not None for mutation in range(self.count))

    def book(self):
        return self.campaign.book([self.campaign.row(n, m, word, bound) for n, (m, _, word, bound) in enumerate(self.rows)])

    def text(self):
        return self.campaign.status([last[0] for m in range(self.count) if (last := self.last(m, 0)) is not None])


def called(campaign, slots, stop=None, retry=None, words=None):
    """A run with these options: the call, and what it prints."""
    campaign.retry = retry or 0
    campaign.run(slots, stop)
    if words is None:
        words = f"run -j{slots}" + (f" --stop-after {stop}" if stop else "") + (f" --retry {retry}" if retry else "")
    left, text = campaign.left(), campaign.text()
    head = ["status 1", f"{left} left"] if left else ["status 0"]
    return [f"call {words}"], [f"> {words}", *head, *text, f"{sum(len(line) + 1 for line in text)} bytes", *campaign.book()]


def calls(campaign, *runs):
    """Runs of a new campaign, one after the other."""
    given, told = campaign.new(), []
    for run in runs:
        line, answer = called(campaign, *run)
        given, told = given + line, told + answer
    return given, told


def beside(made, driven, slots):
    """A run in so many slots beside the campaign that is driven in so many others by the events that come next."""
    one, other = made(), made()
    one.run(slots)
    other.run(driven)
    rows, others = len(one.rows), len(other.rows)
    alike = next((n for n, (row, another) in enumerate(zip(one.rows, other.rows)) if row != another), min(rows, others))
    words = f"events {driven} run -j{slots}"
    return [*one.new(), words], [f"> {words}: 0 Ok(())", f"{rows} rows, {others} by events, {alike} alike"]


def joined(cases):
    given, told = [], []
    for lines, answer in cases:
        given, told = given + lines, told + answer
    return given, told


def counter_cases():
    yield "# Tests take turns in 1, 3 and 64 slots, and the text is the same.", *joined(
        [calls(Counter(), (1,), (3,)), calls(Counter(), (3,), (64,)), calls(Counter(), (64,), (1, 1))]
    )
    yield "# A test that takes long does not hold up those in other slots.", *joined([calls(Counter(is_short=True), (slots,)) for slots in SLOTS])
    yield "# With one slot a run that stops after each row goes on with the next one.", *calls(Counter(), *[(1, 1)] * 40, (1,))
    yield "# Runs with other numbers of slots go on behind the rows that are there.", *calls(Counter(), *[(slots, 1) for _ in range(13) for slots in (3, 64, 1)], (64, 1), (3,))
    yield "# Those that stop let go of the tests under way.", *joined(
        [calls(Counter(), (3, 2), (64, 7), (2, 12), (1,)), calls(Counter(is_short=True), (64, 5), (3, 4), (5, 9), (64, 11), (1, 2), (3,))]
    )


def gate_cases():
    pairs = [(before, after) for before in SLOTS for after in SLOTS if before != after]
    yield "# So do those of the and gate, stopped after each of its rows.", *joined(
        [calls(Equality(GATE), (before, stop), (after,)) for before, after in pairs for stop in (1, 2)]
    )
    yield "# In slots a pair is asked again while later mutations are under way.", *joined(
        [calls(Equality(OR), (slots, None, 9), (64, None, 9)) for slots in (1, 2, 3, 64)] + [calls(Equality(OR), (3, 2), (2, 2, 9), (3,), (64, 1, 9), (1, None, 9))]
    )


def event_cases():
    short = functools.partial(Counter, is_short=True)
    yield "# A core that is driven by the events that come next leaves the rows of the call with as many slots.", *joined(
        [beside(Counter, slots, slots) for slots in SLOTS] + [beside(short, 3, 3)] + [beside(lambda: Equality(OR), slots, slots) for slots in (1, 3)]
    )
    yield "# And those with others differ.", *joined([beside(Counter, 3, 1), beside(Counter, 64, 3), beside(short, 3, 64)])


def main():
    given, told = [], []
    for head, lines, answers in [*counter_cases(), *gate_cases(), *event_cases()]:
        given += [head, *lines]
        told += [head, *answers]
    tables.save_part("mcy_cases", given, told)


if __name__ == "__main__":
    main()
