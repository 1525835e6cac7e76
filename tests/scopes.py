#!/usr/bin/env python3
"""Makes the table `scopes` of crates/flat_cases: sources, and what their first module declares and lists.

    tests/scopes.py [FOLDER]      the table `scopes` of crates/flat_cases

The sources are drawn by a seeded generator from few names, so that names meet. What each gives is worked out here from the
list of declarations, by the rules of IEEE 1364-2005, 4, 12.2, 12.3 and 12.4, and not from the source's text.
"""

import random

from lib import tables

NAMES = ["a", "b", "c", "q"]
CASES = 120


class Source:
    """A source as it is written, which knows its next column."""

    def __init__(self):
        self.text = ""

    def put(self, part):
        """Writes a part, and gives its place."""
        place = f"1:{len(self.text) + 1}"
        self.text += part
        return place


class Scope:
    """What the items of a module declare and list."""

    def __init__(self, ports, given, outside):
        self.ports, self.given, self.outside = ports, given, outside
        self.own, self.signals, self.steps, self.constructs = {}, [], [], 0

    def new_name(self, name, place, what):
        if name in self.own:
            self.steps.append(f"Twice {place}")
            return False
        self.own[name] = what
        return True

    def inner_name(self, name, place):
        """A name of an instance or a block, and that it stands already."""
        if name in self.own:
            return f" Twice {place}"
        self.own[name] = ("hidden",)
        return ""

    def new_signal(self, name, kind, direction, has_type):
        width, low, is_signed = kind
        number = len(self.signals)
        self.own[name] = ("signal", number)
        self.signals.append({"name": name, "width": width, "low": low, "signed": is_signed, "direction": direction, "type": has_type})
        self.steps.append(f"declares {number}")

    def second(self, name, place, kind, direction, has_type):
        """A second declaration, as a port where there is a direction."""
        what = self.own[name]
        if what[0] == "signal":
            signal = self.signals[what[1]]
            same = (signal["width"], signal["low"]) == kind[:2]
            free = not signal["direction"] and not has_type if direction else signal["direction"] and not signal["type"]
            if same and free:
                signal["signed"] = signal["signed"] or kind[2]
                signal["direction"] = signal["direction"] or direction
                signal["type"] = signal["type"] if direction else True
                return
        self.steps.append(f"Twice {place}")

    def constant(self, value):
        """Width, sign and bits of a value, or why it has none."""
        return constant_in(self.own, value)


def constant_in(own, value):
    kind, content, place = value
    if kind == "number":
        return (32, True, content), None
    if content not in own or own[content][0] == "hidden":
        return None, f"Unknown {place}"
    if own[content][0] == "signal":
        return None, f"NotConstant {place}"
    return own[content][1], None


def integer(value):
    width, is_signed, bits = value
    return bits - (1 << width) if is_signed and bits >> (width - 1) else bits


def put_value(rng, source, names):
    if rng.random() < 0.6:
        number = rng.choice([0, 1, 2, 3, 5, 7, 12])
        return ("number", number, source.put(str(number)))
    name = rng.choice(names)
    return ("name", name, source.put(name))


def put_range(rng, source, names):
    """Writes a range, if one is drawn."""
    if rng.random() < 0.45:
        return None
    place = source.put("[")
    high = put_value(rng, source, names)
    source.put(":")
    low = ("number", 0, source.put("0")) if rng.random() < 0.7 else put_value(rng, source, names)
    source.put("] ")
    return place, high, low


def range_bits(scope, written):
    """Width and lowest number of a range, or why it is refused."""
    if written is None:
        return (1, 0), None
    place, high, low = written
    for bound in (high, low):
        if scope.constant(bound)[1]:
            return None, scope.constant(bound)[1]
    msb, lsb = (integer(scope.constant(bound)[0]) for bound in (high, low))
    if msb - lsb > 127:
        return None, f"TooWide {place}"
    if msb < lsb or lsb < 0:
        return None, f"RangeForm {place}"
    return (msb - lsb + 1, lsb), None


def vector(scope, is_signed, written):
    bits, fault = range_bits(scope, written)
    if fault:
        scope.steps.append(fault)
    return (bits or (1, 0)) + (is_signed,)


def put_signed(rng, source):
    is_signed = rng.random() < 0.25
    if is_signed:
        source.put("signed ")
    return is_signed


def put_type(rng, source, words):
    """Writes a type: whether it is a wire's, and what gives its bits in a scope."""
    word = rng.choice(words)
    source.put(word)
    if word == "integer ":
        return False, lambda scope: (32, 0, True)
    is_signed = put_signed(rng, source)
    written = put_range(rng, source, NAMES)
    return "reg" not in word, lambda scope: vector(scope, is_signed, written)


def put_names(rng, source, most):
    names = []
    for k in range(rng.randint(1, most)):
        source.put(", " if k else "")
        name = rng.choice(NAMES)
        names.append((name, source.put(name)))
    return names


def declare_ports(scope, names, kind, direction, is_wire):
    for name, place in names:
        if name not in scope.ports:
            scope.steps.append(f"Unknown {place}")
        elif name in scope.own:
            scope.second(name, place, kind, direction, not is_wire)
        else:
            scope.new_signal(name, kind, direction, not is_wire)


def port_item(rng, source):
    word = rng.choice(["input ", "output "])
    source.put(word)
    is_wire, bits = put_type(rng, source, ["", "wire "] + ["reg "] * (word == "output "))
    names = put_names(rng, source, 2)
    source.put("; ")
    return lambda scope: declare_ports(scope, names, bits(scope), word[0], is_wire)


def data_item(rng, source):
    is_wire, bits = put_type(rng, source, ["wire ", "reg ", "integer "])
    names = put_names(rng, source, 2)
    has_initial = rng.random() < 0.3
    source.put(" = 1; " if has_initial else "; ")

    def declare(scope):
        kind = bits(scope)
        for k, (name, place) in enumerate(names):
            if name in scope.own:
                scope.second(name, place, kind, None, True)
            else:
                scope.new_signal(name, kind, None, True)
            if has_initial and k == len(names) - 1:
                if is_wire:
                    scope.steps.append(f"drives {name}")
                elif scope.own[name][0] == "signal":
                    scope.steps.append(f"starts {scope.own[name][1]}")

    return declare


def put_parameter(rng, source, word):
    """Writes a parameter, and gives it with what it does to a scope."""
    source.put(word)
    is_integer = rng.random() < 0.15
    if is_integer:
        source.put("integer ")
    is_signed = not is_integer and put_signed(rng, source)
    written = None if is_integer else put_range(rng, source, NAMES)
    name = rng.choice(NAMES)
    place = source.put(name)
    source.put(" = ")
    value = put_value(rng, source, NAMES)

    def declare(scope):
        bits, fault = (32, 0), None
        if not is_integer:
            bits, fault = range_bits(scope, written)
        if fault:
            scope.steps.append(fault)
        sized = is_integer or (written is not None and not fault)
        is_given = word == "parameter " and name in scope.given
        found, fault = constant_in(scope.outside, scope.given[name]) if is_given else scope.constant(value)
        width, sign, content = found or (32, True, 0)
        if sized:
            constant = (bits[0], is_signed or is_integer, integer((width, sign, content)) % (1 << bits[0]))
        else:
            constant = (width, is_signed or sign, content)
        scope.new_name(name, place, ("constant", constant))
        if fault:
            scope.steps.append(("given " if is_given else "") + fault)

    return name, value, declare


def parameter_item(rng, source):
    declare = put_parameter(rng, source, rng.choice(["parameter ", "localparam "]))[2]
    source.put("; ")
    return declare


def genvar_item(rng, source):
    source.put("genvar ")
    names = put_names(rng, source, 2)
    source.put("; ")
    return lambda scope: [scope.new_name(name, place, ("hidden",)) for name, place in names]


def instance_item(rng, source):
    source.put("sub ")
    names = []
    for k in range(rng.randint(1, 2)):
        source.put(", " if k else "")
        name = rng.choice(NAMES)
        names.append((name, source.put(name)))
        source.put("()")
    source.put("; ")

    def declare(scope):
        for name, place in names:
            scope.steps.append(f"instance {name}" + scope.inner_name(name, place))

    return declare


def assign_item(rng, source):
    source.put(rng.choice(["assign a = 1; ", "always @* a = b; "]))
    return lambda scope: scope.steps.append("item")


def put_block(rng, source):
    """Writes a block, and gives its label, if it has one."""
    source.put("begin ")
    label = None
    if rng.random() < 0.8:
        source.put(": ")
        name = rng.choice(NAMES)
        label = (name, source.put(name))
        source.put(" ")
    source.put("wire w; end ")
    return [label] if label else []


def declare_construct(scope, labels):
    seen, taken = [], ""
    for name, place in labels:
        if name not in seen:
            twice = scope.inner_name(name, place)
            taken = taken or twice
        seen.append(name)
    scope.constructs += 1
    scope.steps.append(f"generates {scope.constructs}{taken}")


def condition_item(rng, source):
    source.put("if (1) ")
    labels = put_block(rng, source)
    while rng.random() < 0.4:
        source.put("else if (0) ")
        labels += put_block(rng, source)
    if rng.random() < 0.5:
        source.put("else ")
        labels += put_block(rng, source)
    return lambda scope: declare_construct(scope, labels)


def loop_item(rng, source):
    source.put("for (g = 0; g < 2; g = g + 1) begin : ")
    name = rng.choice(NAMES)
    labels = [(name, source.put(name))]
    source.put(" wire w; end ")
    return lambda scope: declare_construct(scope, labels)


def region_item(rng, source):
    source.put("generate ")
    kinds = [data_item, genvar_item, instance_item, assign_item, condition_item, loop_item]
    parts = [rng.choice(kinds)(rng, source) for _ in range(rng.randint(0, 3))]
    source.put("endgenerate ")
    return lambda scope: [part(scope) for part in parts]


ITEMS = [port_item, port_item, data_item, data_item, parameter_item, genvar_item, instance_item, assign_item, condition_item, loop_item, region_item]


def put_parameters(rng, source, most):
    parameters = []
    count = rng.randint(0, most)
    for k in range(count):
        source.put(", " if k else " #(")
        parameters.append(put_parameter(rng, source, "parameter "))
    if count:
        source.put(")")
    return parameters


def put_head(rng, source):
    """Writes the ports of a module, and gives their names, with what they do before and what is refused behind."""
    if rng.random() < 0.6:
        source.put("(")
        names = put_names(rng, source, 3)
        source.put(")")
        repeated = [f"Twice {place}" for k, (name, place) in enumerate(names) if name in [n for n, _ in names[:k]]]
        return [name for name, _ in names], lambda scope: scope.steps.extend(repeated), names
    source.put("(")
    ports, parts = [], []
    for k in range(rng.randint(1, 2)):
        source.put(", " if k else "")
        word = rng.choice(["input ", "output "])
        source.put(word)
        is_wire, bits = put_type(rng, source, ["", "wire "])
        name = rng.choice(NAMES)
        place = source.put(name)
        ports.append(name)
        parts.append(lambda scope, n=[(name, place)], b=bits, d=word[0], w=is_wire: declare_ports(scope, n, b(scope), d, w))
    source.put(")")
    return ports, lambda scope: [part(scope) for part in parts], []


# Sources and what is printed of them, worked out by hand: selects of parameters with ranges, and system functions.
BY_HAND = [
    (
        "module m #(parameter [11:4] p = 8'h5a, parameter [3:0] q = p[7:4], parameter [3:0] r = p[11:8], parameter a = p[5], parameter b = p[0], parameter [7:0] c = p[2 +: 8], parameter integer i = 6, parameter j = i[1])(input x); endmodule",
        " u.x[0+:1]i p=8'90 q=4'10 r=4'5 a=1'1 b=1'0 c=8'104 i=32's6 j=1'1; declares 0",
    ),
    (
        'module m #(parameter a = $foo(1), parameter [3:0] b = 1 + $other(1, 2), parameter c = $clog2($foo))(input x); endmodule',
        " u.x[0+:1]i a=32's0 b=4'0 c=32's0; SystemFunction 1:26; SystemFunction 1:59; SystemFunction 1:94; declares 0",
    ),
    (
        "module m #(parameter signed [7:0] w = 8'h96, parameter signed [2:0] n = -1, parameter [3:0] e = w[n +: 4], parameter f = w[n], parameter [3:0] g = w[6 +: 4], parameter h = w[n + 3'sd2])(input x); endmodule",
        " u.x[0+:1]i w=8's150 n=3's7 e=4'12 f=1'0 g=4'2 h=1'1; declares 0",
    ),
]


def shown(scope, parameters):
    """What is printed of a scope."""
    page = ""
    for s in scope.signals:
        page += f" u.{s['name']}[{s['low']}+:{s['width']}]" + "s" * s["signed"] + (s["direction"] or "") + "t" * s["type"]
    for name, _, _ in parameters:
        if scope.own.get(name, [""])[0] == "constant":
            width, sign, bits = scope.own[name][1]
            page += f" {name}={width}'" + "s" * sign + str(bits)
    return page + "".join(f"; {step}" for step in scope.steps)


def case(rng):
    """A source, and what is printed of its first module."""
    source = Source()
    source.put("module m")
    parameters = put_parameters(rng, source, 2)
    ports, before, left = put_head(rng, source)
    source.put("; ")
    items = [rng.choice(ITEMS)(rng, source) for _ in range(rng.randint(1, 5))]
    source.put("endmodule")
    given, outside = {}, {}
    if rng.random() < 0.5:
        source.put(" module v")
        other = put_parameters(rng, source, 3)
        source.put("; endmodule")
        around = Scope([], {}, {})
        for name, value, declare in other:
            given.setdefault(name, value)
            declare(around)
        outside = around.own
    scope = Scope(ports, given, outside)
    for _, _, declare in parameters:
        declare(scope)
    before(scope)
    for item in items:
        item(scope)
    missing = []
    for name, place in left:
        what = scope.own.get(name, [""])
        if what[0] != "signal" or not scope.signals[what[1]]["direction"]:
            missing.append(f"Unknown {place}")
    scope.steps = missing + scope.steps
    return source.text, shown(scope, parameters)


def main():
    rng = random.Random(16)
    cases = [case(rng) for _ in range(CASES)] + BY_HAND
    tables.save("flat_cases", "".join(f"{text}\n" for text, _ in cases), "".join(f"{text}\n{page}\n" for text, page in cases), "scopes")


main()
