#!/usr/bin/env python3
"""The cases of crates/core_cases: the order in which campaigns add their rows, with so many tests under way at a time.

    tests/slots.py [FOLDER]      the table of crates/core_cases

The slots are looked at from the one behind that of the last event, round to that one itself. A slot whose test has its word adds the row; one
whose test has none lets it take a turn; a free one starts the next test of the least mutation that is not finished and in no slot. Test t of
mutation m takes TURNS - m - t turns without a word, where that is more than 0, and one that gives it.
"""

from lib import tables


class Campaign:
    def __init__(self, mutations, tests, slots, turns):
        self.done = [0] * mutations
        self.tests = tests
        self.turns = turns
        self.slots = [None] * slots
        self.first = 0
        self.rows = []
        self.started = 0

    def waiting(self):
        """The least mutation that is not finished and in no slot."""
        busy = {slot[0] for slot in self.slots if slot}
        return next((m for m, done in enumerate(self.done) if done < self.tests and m not in busy), None)

    def act(self, number):
        """What happens in a slot. Whether anything does."""
        slot = self.slots[number]
        if slot is None:
            mutation = self.waiting()
            if mutation is None:
                return False
            test = self.done[mutation]
            self.slots[number] = [mutation, test, max(self.turns - mutation - test, 0)]
            self.started += 1
        elif slot[2] < 0:
            self.rows.append(f"{slot[0]}.{slot[1]}")
            self.done[slot[0]] += 1
            self.slots[number] = None
        else:
            slot[2] -= 1
        return True

    def step(self):
        """The next event. Whether there is one."""
        count = len(self.slots)
        for number in [*range(self.first, count), *range(self.first)]:
            if self.act(number):
                self.first = (number + 1) % count
                return True
        return False


def run(mutations, tests, slots, turns, stop):
    campaign = Campaign(mutations, tests, slots, turns)
    while len(campaign.rows) != stop or not stop:
        if not campaign.step():
            break
    return campaign


# mutations, tests, slots, turns, and at how many rows the run ends
CASES = [
    (3, 2, 1, 0, 0), (3, 2, 3, 0, 0), (3, 2, 64, 0, 0), (3, 2, 2, 1, 0), (5, 1, 2, 3, 0), (5, 3, 3, 2, 0), (4, 2, 4, 5, 0),
    (7, 2, 3, 4, 0), (1, 16, 5, 2, 0), (0, 3, 4, 1, 0), (3, 2, 3, 0, 1), (3, 2, 3, 1, 3), (5, 3, 3, 2, 7), (5, 3, 64, 2, 14), (3, 2, 1, 0, 6), (3, 2, 2, 0, 9),
]


def main():
    given, told = [], []
    for case in CASES:
        campaign = run(*case)
        numbers = " ".join(map(str, case))
        given += [f"rows {numbers}", f"count {numbers}"]
        told += [" ".join([*campaign.rows, f"started {campaign.started}"]), f"{len(campaign.rows)} rows, started {campaign.started}"]
    tables.save("core_cases", given, told)


if __name__ == "__main__":
    main()
