#!/usr/bin/env python3
"""The table 'builders' of crates/elab_cases: builders, and what is made of them by the definition alone.

    tests/builders.py [FOLDER]      the table 'builders' of crates/elab_cases

A net that is joined leads where the bit leads that it is joined to. A net of an input or of a register stays, and any
other bit of a signal is that of the signal's start value. A net is on a loop where a walk along the joints comes back to it.
"""

import random

from lib import tables

WORKED = """\
# a wire, and a constant
signal a 1
signal y 1
signal z 1
join 1 0
join 2 high
ask 0
ask 1
ask 2
ask 9
input 0
output 1
output 2
finish
# a chain, joined from its end
signal a 2
signal b 2
signal c 2
signal d 2
join 6 4
join 7 5
join 4 2
join 5 3
join 2 0
join 3 1
input 0
output 3
output 2
finish
# bits that nothing writes have their start values', and joined ones do not
signal y 4
start 0 6
join 0 high
join 1 low
output 0
finish
# a start value is replaced, and another signal's stays
signal y 3
signal z 3
start 0 7
start 1 5
start 0 1
output 0
output 1
finish
# a register takes a joined net and keeps its Q and its start value
signal q 2
signal d 2
signal a 2
start 0 2
start 1 1
join 2 5
join 3 high
register 0 1
ask 0
ask 2
input 2
output 0
finish
# a register that a net is joined to
signal q 1
signal y 1
signal z 1
register 0 2
join 1 0
output 1
output 2
finish
# a cell reads what is joined, and its Y is no signal's
signal a 2
signal b 2
signal y 2
join 2 0
join 3 high
not 1
join 4 6
join 5 7
input 0
output 2
finish
# a net that is joined to itself
signal a 1
signal y 1
join 1 1
input 0
output 1
finish
# a loop of two, and a lesser net that leads to it
signal a 1
signal b 1
signal c 1
join 0 2
join 1 2
join 2 1
output 0
finish
# two loops, of which the later one has the lesser net
signal a 1
signal b 1
signal c 1
signal d 1
signal e 1
join 0 4
join 4 3
join 3 4
join 2 1
join 1 2
output 0
finish
# a loop that a way enters at its greatest net
signal a 8
join 0 7
join 7 3
join 3 5
join 5 7
join 1 0
output 0
finish
# no loop: two nets lead to one
signal a 3
join 0 2
join 1 2
join 2 high
output 0
finish
# a net that is joined twice goes by the first joint
signal a 3
join 0 1
join 0 low
join 1 high
ask 0
output 0
finish
# an input that is a bit of a register too
signal a 2
signal q 2
register 1 0
input 0
input 1
output 1
finish
# an input that is joined is read as what it is joined to
signal a 1
signal b 1
join 0 1
input 0
input 1
output 0
finish
# nothing
finish
"""


class Builder:
    """The parts that statements add."""

    def __init__(self):
        self.names, self.signals, self.starts = [], [], []
        self.nets = 0
        self.joints, self.registers, self.cells = [], [], []
        self.inputs, self.outputs = [], []

    def fresh(self, width):
        bits = list(range(self.nets, self.nets + width))
        self.nets += width
        return bits

    def joined(self, net):
        return next((bit for joined, bit in self.joints if joined == net), None)

    def stored(self, net):
        return any(net in q for _, _, _, q in self.registers)

    def next(self, net):
        """The bit that a net is in the netlist, or the net at which it goes on."""
        bit = self.joined(net)
        if bit is not None:
            return (isinstance(bit, int), bit)
        if self.stored(net) or any(net in bits for _, bits in self.inputs):
            return (False, net)
        for bits, start in zip(self.signals, self.starts):
            if net in bits:
                return (False, ["low", "high"][start >> bits.index(net) & 1])
        return (False, net)

    def is_on_loop(self, net):
        met, at = set(), net
        while at not in met:
            met.add(at)
            goes_on, at = self.next(at)
            if not goes_on:
                return False
        return at == net

    def end(self, bit):
        while isinstance(bit, int):
            goes_on, then = self.next(bit)
            if not goes_on:
                return then
            bit = then
        return bit


def show(bits):
    return ",".join(str(bit) for bit in bits)


def finish(builder):
    """The lines of the netlist."""
    loops = [net for net in range(builder.nets) if builder.is_on_loop(net)]
    if loops:
        return [f"loop {loops[0]}"]
    end = builder.end
    lines = [f"input {name} {show(bits)}" for name, bits in builder.inputs]
    lines += [f"output {name} {show(map(end, bits))}" for name, bits in builder.outputs]
    lines += [f"register {name} {start} {show(map(end, d))} {show(q)}" for name, start, d, q in builder.registers]
    lines += [f"not {show(map(end, a))} {show(y)}" for a, y in builder.cells]
    return lines + ["end"]


def bit_of(word):
    return word if word in ("low", "high") else int(word)


def carry_out(builder, line):
    """The builder after a statement, and the lines that are printed."""
    verb, *words = line.split(" ")
    if verb == "#":
        return builder, [line]
    if verb == "finish":
        return Builder(), finish(builder)
    lines = []
    if verb == "signal":
        builder.names.append(words[0])
        builder.signals.append(builder.fresh(int(words[1])))
        builder.starts.append(0)
    elif verb == "start":
        builder.starts[int(words[0])] = int(words[1])
    elif verb == "join":
        builder.joints.append((int(words[0]), bit_of(words[1])))
    elif verb == "register":
        q, d = int(words[0]), int(words[1])
        builder.registers.append((builder.names[q], builder.starts[q], builder.signals[d], builder.signals[q]))
    elif verb == "not":
        a = builder.signals[int(words[0])]
        builder.cells.append((a, builder.fresh(len(a))))
    elif verb == "ask":
        net = int(words[0])
        bit = builder.joined(net)
        told = f"joined to {bit}" if bit is not None else "stored" if builder.stored(net) else "free"
        lines = [f"{net} is {told}"]
    else:
        ports = builder.inputs if verb == "input" else builder.outputs
        ports.append((builder.names[int(words[0])], builder.signals[int(words[0])]))
    return builder, lines


def random_case(rng, number):
    """A builder of a few signals, where some have registers or are inputs, and others are joined, at times in a loop."""
    lines = [f"# random {number}"]
    signals, nets = [], 0
    for k in range(rng.randint(2, 6)):
        width = rng.randint(1, 4)
        signals.append(range(nets, nets + width))
        nets += width
        lines.append(f"signal s{k} {width}")
        if rng.random() < 0.5:
            lines.append(f"start {k} {rng.randrange(1 << width)}")
    kinds = [rng.choice(["input", "register", "wire", "wire", "wire"]) for _ in signals]
    body, cells = [], []
    for k, bits in enumerate(signals):
        if kinds[k] == "register":
            same = [d for d, other in enumerate(signals) if len(other) == len(bits)]
            body.append(f"register {k} {rng.choice(same)}")
        elif rng.random() < 0.3:
            cells.append(f"not {k}")
            nets += len(bits)
        if kinds[k] == "wire":
            loops = rng.random() < 0.3
            for net in bits:
                bit = rng.randrange(nets) if loops else rng.randrange(net) if net else "low"
                bit = rng.choice(["low", "high"]) if rng.random() < 0.2 else bit
                if rng.random() < 0.8:
                    body.append(f"join {net} {bit}")
    rng.shuffle(body)
    lines += cells + body
    lines += [f"ask {rng.randrange(nets)}" for _ in range(3)]
    lines += [f"input {k}" for k, kind in enumerate(kinds) if kind == "input"]
    lines += [f"output {k}" for k, kind in enumerate(kinds) if kind != "input"]
    return lines + ["finish"]


def long_chain(nets):
    """A chain over so many nets, each joined to the one before, and a loop over as many, each joined to the next."""
    for name, follow in (("chain", lambda net: max(net - 1, 0)), ("loop", lambda net: (net + 1) % nets)):
        yield f"# a {name} of {nets} nets"
        for k in range(nets // 128):
            yield f"signal s{k} 128"
        for net in range(nets):
            if name == "loop" or net:
                yield f"join {net} {follow(net)}"
        if name == "chain":
            yield "input 0"
        yield f"output {nets // 128 - 1}"
        yield "finish"


def statements():
    lines = WORKED.splitlines()
    rng = random.Random(20)
    for number in range(60):
        lines += random_case(rng, number)
    return lines


def main():
    lines = statements()
    builder, told = Builder(), []
    for line in lines:
        builder, texts = carry_out(builder, line)
        told += texts
    tables.save("elab_cases", lines, told, "builders")


main()
