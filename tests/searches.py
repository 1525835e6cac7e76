#!/usr/bin/env python3
"""Writes the cases of searches: the table `searches` of crates/search_cases, and what is printed for it.

    tests/searches.py [FOLDER]      the table `searches` of crates/search_cases

This is the rule of the search, over lists: decide the first open free bit to 0, propagate by examining the new clauses in order
and then those in which the next literal of the trail is false, short ones first and then the long ones that are watched there, and learn the free bits at which the walk down the trail stops.
First it looks at the cone of the last clause alone; where no free bit of that is open, it begins anew with all clauses, and decides
the other free bits after these. What comes of it is tested by the definition besides: each lemma is over free bits, has no earlier
one as a part and follows by propagation, a model makes each clause true, and a refuted list of clauses has no model among all
values of the free bits.
"""
import itertools
import random

from lib import tables


def left(clause, known):
    """The literals of a clause that are not false."""
    return [literal for literal in clause if -literal not in known]


def propagated(clauses, known):
    """The values after propagation, and whether a clause is false then."""
    known, grown = set(known), True
    while grown:
        grown = False
        for clause in clauses:
            open_ = left(clause, known)
            if not open_:
                return known, True
            if len(open_) == 1 and open_[0] not in known:
                known.add(open_[0])
                grown = True
    return known, False


def is_legal(clauses, lemmas, free, lemma):
    variables = [abs(literal) for literal in lemma]
    return (
        len(set(variables)) == len(variables)
        and all(1 <= variable <= free for variable in variables)
        and not any(set(earlier) <= set(lemma) for earlier in lemmas)
        and propagated(clauses + lemmas, {-literal for literal in lemma})[1]
    )


def models(clauses, free):
    """The values that propagation gives from each setting of the free bits under which no clause is false."""
    for signs in itertools.product((-1, 1), repeat=free):
        known, conflict = propagated(clauses, {sign * (bit + 1) for bit, sign in enumerate(signs)})
        if not conflict:
            yield known


def cone(clauses, free):
    """The clauses of the last one's cone, and their variables. Each clause but the last is of the gate of its greatest variable, or
    over free bits alone, and then it is one of them."""
    inside, reached = [], set()
    for number, clause in enumerate(reversed(clauses)):
        gate = max(map(abs, clause), default=0)
        if number == 0 or gate <= free or gate in reached:
            inside.append(clause)
            reached |= set(map(abs, clause))
    return inside[::-1], reached


def walked(clauses, free, reached):
    """The free bits that are reached, in the order in which walks down from the literals of the last clause come to them: depth first,
    from a gate to the variables of its first three clauses, the last one first. Those that no walk comes to stand behind."""
    first = {}
    for place, clause in enumerate(clauses):
        first.setdefault(max(map(abs, clause), default=0), place)
    marked, bits = set(reached), []
    for literal in clauses[-1] if clauses else []:
        waiting = [abs(literal)]
        while waiting:
            variable = waiting.pop()
            if variable not in marked:
                continue
            marked.remove(variable)
            if variable > free:
                place = first.get(variable)
                if place is not None:
                    waiting += [abs(each) for clause in clauses[place : place + 3] for each in clause]
            elif variable > 0:
                bits.append(variable)
    return bits + [bit for bit in range(1, free + 1) if bit in marked]


class Search:
    """A search, which goes on from lemma to lemma."""

    def __init__(self, clauses, free, limit):
        self.clauses, self.lemmas, self.free, self.limit = clauses, [], free, limit
        self.used, reached = cone(clauses, free)
        self.bits, self.whole = walked(clauses, free, reached), False
        self.begin()

    def begin(self):
        """All variables are open, and no clause is taken in."""
        self.trail, self.starts = [], []
        self.taken, self.head, self.holders, self.watchers = 0, 0, {}, {}

    def widen(self):
        """Looks at all clauses and free bits from now on."""
        self.used, self.bits, self.whole = self.clauses, self.bits + list(range(1, self.free + 1)), True
        self.begin()

    def known(self):
        return {literal for literal, _ in self.trail}

    def examine(self, clause):
        """Whether the clause is false. Where it is unit, its literal is made true."""
        known = self.known()
        open_ = left(clause, known)
        if len(open_) == 1 and open_[0] not in known:
            self.trail.append((open_[0], clause))
        return not open_

    def propagate(self):
        """The clause that is false in the end, if there is one."""
        clauses = self.used + self.lemmas
        while self.taken < len(clauses):
            clause = clauses[self.taken]
            if self.examine(clause):
                return clause
            if self.is_watched(clause):
                watched = [clause, clause[:2]]
                for literal in clause[:2]:
                    self.watchers.setdefault(literal, []).append(watched)
            else:
                for literal in clause:
                    self.holders.setdefault(literal, []).append(clause)
            self.taken += 1
        while self.head < len(self.trail):
            false = -self.trail[self.head][0]
            for clause in self.holders.get(false, []):
                if self.examine(clause):
                    return clause
            conflict = self.visit_watched(false)
            if conflict is not None:
                return conflict
            self.head += 1
        return None

    def is_watched(self, clause):
        """Whether a new clause is watched at its first two literals, and not kept in the list of each of its literals: it is long, its
        first literal isn't false, and the second isn't, or became so on the last level while the first is true."""
        if len(clause) <= 3 or len(set(clause)) < len(clause):
            return False
        known, (first, second) = self.known(), clause[:2]
        last = {literal for literal, _ in self.trail[self.starts[-1] if self.starts else 0 :]}
        recent = first in known and (not self.starts or -second in last)
        return -first not in known and (-second not in known or recent)

    def visit_watched(self, false):
        """Looks at the clauses that are watched at a literal that has become false. Such a clause is watched at the last of its other
        literals that isn't false, and the last clause of the list comes into its place; where there is none, it is examined."""
        watchers, place = self.watchers.get(false, []), 0
        while place < len(watchers):
            clause, pair = watchers[place]
            known = self.known()
            other = pair[1] if pair[0] == false else pair[0]
            after = [literal for literal in left(clause, known) if literal != other]
            if other in known:
                place += 1
            elif after:
                pair[:] = [other, after[-1]]
                self.watchers.setdefault(after[-1], []).append(watchers[place])
                watchers[place] = watchers[-1]
                watchers.pop()
            elif self.examine(clause):
                return clause
            else:
                place += 1
        return None

    def conflict(self):
        """The clause that is false after decisions, or None at a model."""
        while True:
            found = self.propagate()
            if found is not None:
                return found
            known = self.known()
            open_ = [bit for bit in self.bits if not {bit, -bit} & known]
            if not open_ and self.whole:
                return None
            if not open_:
                self.widen()
                continue
            self.starts.append(len(self.trail))
            self.trail.append((-open_[0], None))

    def stops(self, needed, place):
        literal, reason = self.trail[place]
        if reason is None:
            return True
        if abs(literal) > self.free or not self.starts or place < self.starts[0]:
            return False
        last = self.starts[-1]
        return place < last or not any(abs(self.trail[before][0]) in needed for before in range(last, place))

    def learn(self, conflict):
        needed, lemma, back = {abs(literal) for literal in conflict}, [], 0
        for place in range(len(self.trail) - 1, -1, -1):
            literal, reason = self.trail[place]
            if abs(literal) not in needed:
                continue
            if self.stops(needed, place):
                if len(lemma) == 1:
                    back = sum(start <= place for start in self.starts)
                lemma.append(-literal)
            else:
                needed |= {abs(other) for other in reason}
        assert is_legal(self.clauses, self.lemmas, self.free, lemma), lemma
        self.lemmas.append(lemma)
        if back < len(self.starts):
            del self.trail[self.starts[back]:], self.starts[back:]
            self.head = min(self.head, len(self.trail))

    def step(self):
        conflict = self.conflict()
        if conflict is None:
            assert all(any(literal in self.known() for literal in clause) for clause in self.clauses)
            return "model"
        self.learn(conflict)
        if not self.lemmas[-1]:
            assert not any(True for _ in models(self.clauses, self.free))
            return "refuted"
        return "spent" if len(self.lemmas) == self.limit else None

    def turn(self, conflicts):
        for _ in range(conflicts):
            found = self.step()
            if found:
                return found
        return None


class Circuit:
    """Clauses of gates over free bits."""

    def __init__(self, free):
        self.free = self.variables = free
        self.clauses = []

    def gate(self, clauses):
        self.variables += 1
        y = self.variables
        self.clauses += [[y if literal == "y" else -y if literal == "-y" else literal for literal in clause] for clause in clauses]
        return y

    def conj(self, a, b):
        return self.gate([["-y", a], ["-y", b], ["y", -a, -b]])

    def disj(self, a, b):
        return -self.conj(-a, -b)

    def xor(self, a, b):
        return self.gate([["-y", a, b], ["-y", -a, -b], ["y", -a, b], ["y", a, -b]])

    def mux(self, s, a, b):
        return self.gate([[-s, -b, "y"], [-s, b, "-y"], [s, -a, "y"], [s, a, "-y"]])

    def differ(self, pairs):
        """The last clause: some pair differs."""
        self.clauses.append([self.xor(a, b) for a, b in pairs])
        return self


class Cases:
    def __init__(self):
        self.lines, self.answers = [], []

    def title(self, text):
        self.lines.append(f"# {text}")
        self.answers.append(f"# {text}")

    def asked(self, clauses, variables, free, limit, conflicts):
        self.lines += [" ".join(["clause", *map(str, clause)]) for clause in clauses]
        self.lines.append(f"search {variables} {free} {limit} {conflicts}")

    def search(self, clauses, variables, free, limit=1000, conflicts=1000):
        self.asked(clauses, variables, free, limit, conflicts)
        search = Search(clauses, free, limit)
        found = search.turn(conflicts)
        while found is None:
            self.answers.append("searching")
            found = search.turn(conflicts)
        if found == "model":
            known = search.known()
            found = " ".join(["model", *(str(v if v in known else -v) for v in range(1, variables + 1))])
        else:
            self.answers += [" ".join(["lemma", *map(str, lemma)]) for lemma in search.lemmas]
        self.answers.append(found)

    def circuit(self, circuit, limit=1000, conflicts=1000):
        self.search(circuit.clauses, circuit.variables, circuit.free, limit, conflicts)

    def refused(self, clauses, variables, free, reason):
        self.asked(clauses, variables, free, 9, 9)
        self.answers.append(reason)


def xor_forms():
    circuit = Circuit(2)
    return circuit.differ([(circuit.xor(1, 2), circuit.conj(circuit.disj(1, 2), -circuit.conj(1, 2)))])


def xor_and_or():
    circuit = Circuit(2)
    return circuit.differ([(circuit.xor(1, 2), circuit.disj(1, 2))])


def mux_forms():
    circuit = Circuit(3)
    return circuit.differ([(circuit.mux(1, 2, 3), circuit.disj(circuit.conj(1, 3), circuit.conj(-1, 2)))])


def parity_orders(bits):
    circuit = Circuit(bits)
    first, second = 1, bits
    for bit in range(2, bits + 1):
        first = circuit.xor(first, bit)
        second = circuit.xor(bits + 1 - bit, second)
    return circuit.differ([(first, second)])


def beside_sums(bits, wrong):
    """An exclusive or beside another function, and sums of the same free bits which no difference reads."""
    circuit = sums(bits)
    circuit.clauses.pop()
    first = circuit.xor(1, 2)
    return circuit.differ([(first, circuit.disj(1, 2) if wrong else circuit.conj(circuit.disj(1, 2), -circuit.conj(1, 2)))])


def sums(bits, wrong=False):
    """The sum of two words with carries as a mux and as a majority; or the second with one gate wrong."""
    circuit = Circuit(2 * bits)
    pairs, low, high = [], None, None
    for bit in range(1, bits + 1):
        a, b = bit, bits + bit
        half = circuit.xor(a, b)
        if low is None:
            pairs.append((half, circuit.conj(circuit.disj(a, b), -circuit.conj(a, b))))
            low, high = circuit.conj(a, b), circuit.conj(b, a)
        else:
            pairs.append((circuit.xor(half, low), circuit.xor(a, circuit.xor(b, high))))
            low = circuit.mux(half, a, low)
            pair = circuit.conj(a, b)
            high = circuit.disj(pair, circuit.conj(high, pair if wrong else circuit.disj(a, b)))
    return circuit.differ([*pairs, (low, high)])


def pigeons(holes):
    """One pigeon more than holes: variable pigeon * holes + hole + 1 says that the pigeon is in the hole."""
    at = lambda pigeon, hole: pigeon * holes + hole + 1
    clauses = [[at(pigeon, hole) for hole in range(holes)] for pigeon in range(holes + 1)]
    for hole in range(holes):
        clauses += [[-at(p, hole), -at(q, hole)] for p, q in itertools.combinations(range(holes + 1), 2)]
    return clauses, holes * (holes + 1)


def random_circuit(choose):
    """Two copies of random gates, of which the second may have one other gate."""
    circuit = Circuit(choose.randint(2, 5))
    recipe = [(choose.choice(("conj", "disj", "xor")), choose.randrange(99), choose.randrange(99), choose.random() < 0.5) for _ in range(choose.randint(2, 7))]
    changed = choose.randrange(len(recipe)) if choose.random() < 0.6 else None

    def copy(other):
        nets = list(range(1, circuit.free + 1))
        for number, (kind, a, b, negated) in enumerate(recipe):
            kind = ("disj" if kind == "xor" else "xor") if number == other else kind
            net = getattr(circuit, kind)(nets[a % len(nets)], nets[b % len(nets)])
            nets.append(-net if negated else net)
        return nets[-2:]

    return circuit.differ(list(zip(copy(None), copy(changed))))


def cases():
    made = Cases()
    made.title("Exclusive or in two forms: no difference.")
    made.circuit(xor_forms(), 9)
    made.circuit(xor_forms(), 9, 1)
    made.title("With fewer lemmas it is not known, with just so many it is.")
    for limit in range(1, 5):
        made.circuit(xor_forms(), limit)
    made.title("Exclusive or against or: both bits.")
    made.circuit(xor_and_or(), 9)
    made.circuit(xor_and_or(), 1)
    made.title("No clauses, the empty clause, no variables, and clauses over free bits.")
    made.search([], 3, 3)
    made.search([[]], 0, 0)
    made.search([[]], 2, 2, 1)
    made.search([], 0, 0)
    made.search([[1, 2], [-1, 2]], 2, 2)
    made.search([[1], [-1]], 1, 1, 1, 1)
    made.title("A literal that stands twice counts twice.")
    made.search([[1, 1], [-1, 2], [-2, -2]], 2, 2)
    made.title("Three pigeons and two holes, four pigeons and three holes.")
    for holes in (2, 3):
        clauses, variables = pigeons(holes)
        made.search(clauses, variables, variables)
    clauses, variables = pigeons(3)
    made.search(clauses, variables, variables, 5, 2)
    made.title("A choice in two forms, and parities in two orders.")
    made.circuit(mux_forms())
    for bits in (3, 4):
        made.circuit(parity_orders(bits), 1000, 3)
    made.title("Sums in two forms, and one with a wrong carry.")
    made.circuit(sums(1))
    made.circuit(sums(2))
    made.circuit(sums(3), 20, 7)
    made.circuit(sums(3, wrong=True))
    made.title("Gates that no difference reads.")
    made.circuit(beside_sums(2, False), 1000, 2)
    made.circuit(beside_sums(2, True))
    made.title("Clauses that make no miter.")
    made.refused([[1, -3]], 2, 2, "Literal(1)")
    made.refused([[1], [2, 0]], 2, 2, "Literal(2)")
    made.refused([[1]], 1, 2, "Size")
    made.refused([[1]], 2049, 2049, "Size")
    made.refused([[1, 2]], 2, 1, "Unsettled(2)")
    made.refused([[-3, 1], [-3, 2], [3, -1, -2], [4, -3]], 4, 2, "Unsettled(4)")
    made.refused([[-5, 1], [5, 1, 2, 3, 4], [5, -1, -2]], 5, 4, "Unsettled(5)")
    made.title("Clauses of three literals over free bits.")
    choose = random.Random(1364)
    for _ in range(16):
        variables = choose.randint(3, 7)
        clauses = [[choose.choice((1, -1)) * choose.randint(1, variables) for _ in range(3)] for _ in range(choose.randint(8, 40))]
        made.search(clauses, variables, variables, choose.choice((3, 1000)), choose.choice((1, 4, 1000)))
    made.title("Gates, and the same gates or others.")
    for _ in range(24):
        made.circuit(random_circuit(choose), choose.choice((2, 1000)), choose.choice((2, 1000)))
    return "\n".join(made.lines) + "\n", "\n".join(made.answers) + "\n"


def main():
    tables.save("search_cases", *cases(), name="searches")


main()
