#!/usr/bin/env python3
"""Writes the cases of lemmas: the table `lemmas` of crates/search_cases, and what is printed for it.

    tests/lemmas.py [FOLDER]      the table `lemmas` of crates/search_cases

The answers come from the definition alone, over sets and dictionaries: a lemma names free variables, none twice; no earlier
lemma is a part of it; and with its literals false the hinted clauses are unit one after the other, up to the last, which is
false. LRAT: Cruz-Filipe, Heule, Hunt, Kaufmann, Schneider-Kamp: Efficient Certified RAT Verification, CADE 2017.
"""
import itertools
import random

from lib import tables


def judged(clauses, lemmas, free, lemma, hints):
    """Why a lemma is refused, or None."""
    known = set()
    for place, literal in enumerate(lemma):
        if literal == 0 or abs(literal) > free or {literal, -literal} & known:
            return f"BadLiteral({place})"
        known.add(-literal)
    for number, earlier in enumerate(lemmas, len(clauses) + 1):
        if set(earlier) <= set(lemma):
            return f"Contained({number})"
    everything = clauses + lemmas
    for place, hint in enumerate(hints):
        if not 1 <= hint <= len(everything):
            return f"BadHint({place})"
        left = [literal for literal in everything[hint - 1] if -literal not in known]
        if not left and place + 1 == len(hints):
            return None
        if len(left) != 1 or left[0] in known:
            return f"NotUnit({place})"
        known.add(left[0])
    return "NoConflict"


def hints_for(everything, lemma):
    """Hints by which a lemma follows, where unit propagation finds some."""
    known, hints = {-literal for literal in lemma}, []
    while True:
        for number, clause in enumerate(everything, 1):
            left = [literal for literal in clause if -literal not in known]
            if not left:
                return hints + [number]
            if len(left) == 1 and left[0] not in known:
                known.add(left[0])
                hints.append(number)
                break
        else:
            return None


class Log:
    """A log, with its statements and what they print."""

    def __init__(self, lines, answers, clauses, variables, free):
        self.lines, self.answers = lines, answers
        self.clauses, self.lemmas, self.free = clauses, [], free
        lines += [" ".join(["clause", *map(str, clause)]) for clause in clauses]
        lines.append(f"log {variables} {free}")

    def add(self, lemma, hints):
        self.lines.append(" ".join(["lemma", *map(str, lemma), "by", *map(str, hints)]))
        refused = judged(self.clauses, self.lemmas, self.free, lemma, hints)
        if refused is None:
            self.lemmas.append(lemma)
            number = len(self.clauses) + len(self.lemmas)
            self.answers.append(f"{number} refuted" if lemma == [] else str(number))
        else:
            self.answers.append(refused)

    def hints(self, lemma):
        return hints_for(self.clauses + self.lemmas, lemma)


def worked(log):
    """Two clauses, and a lemma that follows by both."""
    for lemma, hints in [([2], [1]), ([], [1]), ([2], [9]), ([3], []), ([1, -1], []), ([0], []), ([2], [1, 2, 1])]:
        log.add(lemma, hints)
    log.add([2], [1, 2])
    for lemma, hints in [([1, 2], [1]), ([2], []), ([-1], [3]), ([], [3, 3]), ([], [0])]:
        log.add(lemma, hints)


def refute(log, order):
    """Clauses that no assignment satisfies: lemmas over ever fewer of the variables, each from the two with one more."""
    for size in range(len(order) - 1, -1, -1):
        for signs in itertools.product((1, -1), repeat=size):
            lemma = [sign * variable for sign, variable in zip(signs, order)]
            hints = log.hints(lemma)
            if hints is not None:
                log.add(lemma, hints)


def pigeons(holes):
    """One pigeon more than holes: variable pigeon * holes + hole + 1 says that the pigeon is in the hole."""
    at = lambda pigeon, hole: pigeon * holes + hole + 1
    clauses = [[at(pigeon, hole) for hole in range(holes)] for pigeon in range(holes + 1)]
    for hole in range(holes):
        clauses += [[-at(p, hole), -at(q, hole)] for p, q in itertools.combinations(range(holes + 1), 2)]
    return clauses, holes * (holes + 1)


def stray(choose, log, variables):
    """A lemma with hints that may be wrong."""
    lemma = [choose.choice((1, -1)) * choose.randint(1, variables) for _ in range(choose.randint(0, 3))]
    hints = log.hints(lemma) or []
    if choose.random() < 0.5:
        place = choose.randint(0, len(hints))
        hints = hints[:place] + [choose.randint(0, len(log.clauses) + len(log.lemmas) + 1)] + hints[place + choose.randint(0, 1):]
    log.add(lemma, hints)


def cases():
    lines, answers = [], []

    def title(text):
        lines.append(f"# {text}")
        answers.append(f"# {text}")

    title("The refusals, each at its place.")
    worked(Log(lines, answers, [[1, 2], [-1, 2]], 2, 2))
    title("A clause with a literal twice is not unit by it.")
    log = Log(lines, answers, [[1, 1], [-1, 2]], 2, 2)
    for lemma, hints in [([2], [2, 1]), ([], [1]), ([1], [1])]:
        log.add(lemma, hints)
    title("No clauses, and the empty clause.")
    Log(lines, answers, [], 0, 0).add([], [])
    Log(lines, answers, [[]], 0, 0).add([], [1])
    title("Three pigeons and two holes, four pigeons and three holes.")
    for holes in (2, 3):
        clauses, variables = pigeons(holes)
        refute(Log(lines, answers, clauses, variables, variables), list(range(1, variables + 1))[: 6 if holes == 2 else 8])
    title("Formulas of three literals a clause, with lemmas that may be wrong.")
    choose = random.Random(1364)
    for _ in range(40):
        variables = choose.randint(2, 6)
        free = choose.randint(1, variables)
        clauses = [[choose.choice((1, -1)) * choose.randint(1, variables) for _ in range(choose.randint(1, 3))] for _ in range(choose.randint(2, 14))]
        log = Log(lines, answers, clauses, variables, free)
        for _ in range(10):
            stray(choose, log, variables)
    return "\n".join(lines) + "\n", "\n".join(answers) + "\n"


def main():
    tables.save("search_cases", *cases(), name="lemmas")


main()
