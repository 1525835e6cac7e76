#!/usr/bin/env python3
"""Runs over mutations that they name: a part of the cases of crates/mcy_cases, by the definitions alone.

    tests/choice_rows.py [FOLDER]      a part of the table of crates/mcy_cases

`run --mutations 3,1` is over the mutations with these numbers in the list, from 1, in whatever order and however often they stand. It is
done where none of them wants a test, and its text is the status of all. A number that no mutation has is refused, the first in the order
of the words, behind the check of the book and before anything is written.
"""

from retry_rows import GATE, OR
from slot_rows import Counter, Equality, called, joined

from lib import tables


class Named:
    """A campaign whose next run may be over some mutations alone."""

    over = ()

    def wants(self, mutation):
        return None if self.over and mutation + 1 not in self.over else super().wants(mutation)

    def text(self):
        over, self.over = self.over, ()
        text = super().text()
        self.over = over
        return text


class Gate(Named, Equality):
    def __init__(self, campaign=GATE):
        super().__init__(campaign)


class Sat(Named, Counter):
    pass


def run(campaign, numbers=(), options="", gap=" ", slots=1, stop=None, retry=None):
    """A run over these mutations, all where there are none."""
    campaign.over = numbers
    words = " ".join(["run", *([f"--mutations{gap}{','.join(map(str, numbers))}"] if numbers else []), *([options] if options else [])])
    return called(campaign, slots, stop, retry, words)


def refused(campaign, words, number, book=None):
    """A run that names a mutation which is not there."""
    return [f"call {words}"], [f"> {words}", "status 22", f"mcy: no mutation {number}", *(["0 items, 0 mutations"] if book is None else book)]


def of(campaign, *calls):
    """A new campaign, and calls one after the other."""
    given, told = joined(call if isinstance(call, tuple) else call(campaign) for call in calls)
    return [*campaign.new(), *given], told


def later(*words, **options):
    return lambda campaign: run(campaign, *words, **options)


def parts():
    yield "# A run over one mutation is done with it, and the next one goes on with the others.", *joined(
        [of(Gate(), later((number,)), later((number,)), later(()), later((1, 2, 3))) for number in (1, 2, 3)]
    )
    yield "# The order of the numbers plays no part, nor does one that stands twice.", *joined(
        [of(Gate(), later(numbers, gap=gap), later(())) for numbers, gap in (((1, 3), " "), ((3, 1), "="), ((3, 1, 3, 3), " "), ((2, 2), "="), ((3, 2, 1), " "))]
    )
    yield "# Such a run may stop, ask tests again and have its tests in slots.", *joined([
        of(Gate(), later((2, 3), "--stop-after 1", stop=1), later((3, 2)), later((1,), "--stop-after 1", stop=1)),
        of(Gate(OR), later(()), later((1, 6), "--retry 9", retry=9), later((2,), "--retry 9", retry=9), later((), "--retry 9", retry=9)),
        of(Gate(OR), later((2, 5), "--retry 9", retry=9), later((1, 2, 3), "-j3", slots=3), later((), "-j 64", slots=64)),
        of(Sat(), later((20, 1, 7), "-j3", slots=3), later((7, 8), "-j64 --stop-after 1", slots=64, stop=1), later((8, 9)), later((), "-j3", slots=3)),
        of(Sat(is_short=True), later((12, 13, 14, 15), "-j2", slots=2), later((), "-j64", slots=64)),
    ])
    yield "# A number that no mutation has is refused, the first of the words, and nothing is begun.", *joined([
        ([*GATE.new(), *given], told) for given, told in (
            refused(GATE, "run --mutations 4", 4), refused(GATE, "run --mutations=1,4,5", 4), refused(GATE, "run -j3 --mutations 10000,2,4 --stop-after 1", 10000), refused(GATE, "run --mutations 4 --retry 9", 4),
        )
    ])


def book_cases():
    first, bare = GATE.rows(1), GATE.rows(1, bound=0)
    begun = GATE.called("run --stop-after 1", GATE.status([1]), first, ["status 1", "2 left"])
    start = [*GATE.new(), "call run --stop-after 1"]
    none = refused(GATE, "run --mutations 4,1", 4, GATE.book(first))
    yield "# So is it with a begun book, which stays as it is, of either format,", [*start, *none[0], "format 1", *none[0], "call run --mutations 3"], [
        *begun, *none[1], *refused(GATE, "run --mutations 4,1", 4, GATE.book(bare))[1],
        *GATE.called("run --mutations 3", GATE.status([1, 1]), [*first, GATE.row(1, 2, 1, 20000)], ["status 0"]),
    ]
    bad = GATE.row(1, 1, 2, 20000)
    yield "# and behind the check of the book.", [*start, f"row {bad}", "call run --mutations 4"], [
        *begun, *GATE.refused("run --mutations 4", 1, "BadWord", bad, [*first, bad]),
    ]
    fault, write = ["status 12", "mcy: database fault"], ["status 13", "mcy: write fault"]
    second = [GATE.row(0, 1, 1, 20000)]
    yield "# A keeper or a sink that fails is told in its place, and the next run goes on.", (
        [*GATE.new(), "fail-keeper 0 0", "call run --mutations 4", "fail-keeper 2 1", "call run --mutations 2", "call run --mutations 2", "fail-write 0 0", "call run --mutations 2"]
    ), [
        *GATE.called("run --mutations 4", [], [], fault)[:-1], "0 items, 0 mutations", *GATE.called("run --mutations 2", [], second, fault), *GATE.called("run --mutations 2", GATE.status([1]), second),
        *GATE.called("run --mutations 2", [], second, write),
    ]


def main():
    given, told = [], []
    for head, lines, answers in [*parts(), *book_cases()]:
        given += [head, *lines]
        told += [head, *answers]
    tables.save_part("mcy_cases", given, told)


if __name__ == "__main__":
    main()
