"""Modules and their items: how they are written, and what they declare in a scope (IEEE 1364-2005, 4, 6, 12.1 to 12.4)."""

from lib.item_exprs import at, constant, integer, put_list


class Scope:
    def __init__(self, design, prefix, around, within, ports=(), given=None, outside=None):
        self.design, self.prefix, self.around, self.within = design, prefix, around, within
        self.ports, self.given, self.outside = ports, given or {}, outside
        self.own, self.steps, self.constructs, self.value_faults = {}, [], 0, []

    def visible(self, name):
        if name in self.own:
            return self.own[name]
        return self.around.visible(name) if self.around else None

    def refuse(self, kind, place):
        self.steps.append(("item", f"refuses declaration {kind} {at(place)}"))

    def plain_name(self, name, place, what):
        if name in self.own:
            self.refuse("Twice", place)
        else:
            self.own[name] = what

    def inner_name(self, name):
        """A name of an instance or a block, and whether it stands already."""
        is_twice = name in self.own
        self.own.setdefault(name, ("hidden", 1, False, "inside"))
        return is_twice

    def signal(self, name, kind, direction, has_type):
        width, low, signed = kind
        number = len(self.design.signals)
        self.own[name] = ("signal", width, signed, number)
        self.design.signals.append([self.prefix + name, low, width, signed, direction, has_type])
        self.steps.append(("item", f"declares {self.prefix}{name}"))

    def again(self, name, place, kind, direction, has_type):
        """A second declaration: one of both says that it is a port, and one has the type."""
        what = self.own[name]
        if what[0] == "signal":
            found = self.design.signals[what[3]]
            same = (found[2], found[1]) == kind[:2]
            if same and (not found[4] and not has_type if direction else found[4] and not found[5]):
                found[3] = found[3] or kind[2]
                found[4] = found[4] or direction
                found[5] = found[5] if direction else True
                self.own[name] = ("signal", what[1], found[3], what[3])
                return
        self.refuse("Twice", place)


class Range:
    def __init__(self, msb, lsb):
        self.msb, self.lsb = msb, lsb

    def write(self, text):
        self.at = text.put("[")
        self.msb.write(text)
        text.put(":")
        self.lsb.write(text)
        text.put("] ")

    def bits(self, scope):
        """Width and lowest number, or why there are none."""
        faults = [fault for fault in (constant(self.msb, scope)[1], constant(self.lsb, scope)[1]) if fault]
        if faults:
            return None, min(faults)
        msb, lsb = (integer(c[2], c[0]) if c[1] else c[2] for c in (constant(self.msb, scope)[0], constant(self.lsb, scope)[0]))
        if msb - lsb > 127:
            return None, (self.at, "TooWide")
        if msb < lsb or lsb < 0:
            return None, (self.at, "RangeForm")
        return (msb - lsb + 1, lsb), None


class Kind:
    """A type: a word before it, `signed`, a range."""

    def __init__(self, word, signed=False, written=None):
        self.word, self.signed, self.range = word, signed, written

    def write(self, text):
        text.put(self.word + " " if self.word else "")
        if self.word != "integer":
            text.put("signed " if self.signed else "")
            if self.range:
                self.range.write(text)

    def bits(self, scope):
        if self.word == "integer":
            return 32, 0, True
        bits, fault = self.range.bits(scope) if self.range else ((1, 0), None)
        if fault:
            scope.refuse(fault[1], fault[0])
        return (bits or (1, 0)) + (self.signed,)


class PortItem:
    def __init__(self, direction, kind, names):
        self.direction, self.kind, self.names = direction, kind, names

    def write(self, text):
        text.put(self.direction + " ")
        self.kind.write(text)
        self.places = []
        put_list(text, self.names, lambda name: self.places.append(text.put(name)))

    def declare(self, scope):
        kind = self.kind.bits(scope)
        has_type = self.kind.word in ("reg", "integer")
        for name, place in zip(self.names, self.places):
            if name not in scope.ports:
                scope.refuse("Unknown", place)
            elif name in scope.own:
                scope.again(name, place, kind, self.direction[0], has_type)
            else:
                scope.signal(name, kind, self.direction[0], has_type)


class DataItem:
    def __init__(self, kind, names):
        self.kind, self.names = kind, names

    def write(self, text):
        self.kind.write(text)
        self.places = []
        put_list(text, self.names, lambda pair: self.write_name(text, pair))

    def write_name(self, text, pair):
        self.places.append(text.put(pair[0]))
        if pair[1]:
            text.put(" = ")
            pair[1].write(text)

    def declare(self, scope):
        kind = self.kind.bits(scope)
        for (name, value), place in zip(self.names, self.places):
            if name in scope.own:
                scope.again(name, place, kind, None, True)
            else:
                scope.signal(name, kind, None, True)
            if value and self.kind.word == "wire":
                scope.steps.append(("item", f"drives {scope.prefix}{name} = {scope.prefix}@{at(value.at)}"))
            elif value and scope.own[name][0] == "signal":
                scope.steps.append(("item", f"starts {scope.design.signals[scope.own[name][3]][0]} = {scope.prefix}@{at(value.at)}"))


class ParameterItem:
    def __init__(self, word, kind, name, value):
        self.word, self.kind, self.name, self.value = word, kind, name, value

    def write(self, text):
        text.put(self.word + " ")
        self.kind.write(text)
        self.at = text.put(self.name)
        text.put(" = ")
        self.value.write(text)

    def declare(self, scope):
        bits = None
        if self.kind.word == "integer":
            bits = (32, 0)
        elif self.kind.range:
            bits, fault = self.kind.range.bits(scope)
            if fault:
                scope.refuse(fault[1], fault[0])
        is_given = self.word == "parameter" and self.name in scope.given
        value, place = (scope.given[self.name], scope.outside) if is_given else (self.value, scope)
        found, fault = constant(value, place, bits[0] if bits else 0)
        width, signed, content = found or (32, True, 0)
        says_signed = self.kind.signed or self.kind.word == "integer"
        if bits:
            what = ("constant", bits[0], says_signed, content % (1 << bits[0]))
        else:
            what = ("constant", width, says_signed or signed, content)
        scope.plain_name(self.name, self.at, what)
        if fault and is_given:
            scope.value_faults.append(fault)
        elif fault:
            scope.refuse(fault[1], fault[0])


class GenvarItem:
    def __init__(self, names):
        self.names = names

    def write(self, text):
        text.put("genvar ")
        self.places = []
        put_list(text, self.names, lambda name: self.places.append(text.put(name)))

    def declare(self, scope):
        for name, place in zip(self.names, self.places):
            scope.plain_name(name, place, ("hidden", 1, False, "genvar"))


class AssignItem:
    def __init__(self, delay, pairs):
        self.delay, self.pairs = delay, pairs

    def write(self, text):
        text.put("assign ")
        if self.delay:
            self.delay_at = text.put("#2 ")
        put_list(text, self.pairs, lambda pair: (pair[0].write(text), text.put(" = "), pair[1].write(text)))

    def declare(self, scope):
        if self.delay:
            scope.steps.append(("item", f"refuses Delay {at(self.delay_at)}"))
        else:
            for left, value in self.pairs:
                scope.steps.append(("item", f"assigns {scope.prefix}@{at(left.at)} = {scope.prefix}@{at(value.at)}"))


class ProcessItem:
    def __init__(self, words):
        self.words = words

    def write(self, text):
        self.at = text.put(self.words)

    def declare(self, scope):
        scope.steps.append(("item", f"runs {scope.prefix}@{at(self.at)}"))


class Pair:
    """A name and an expression, or none: a connection or a value of a parameter."""

    def __init__(self, name, value):
        self.name, self.value = name, value

    def write(self, text):
        text.put(".")
        self.at = text.put(self.name)
        text.put("(")
        if self.value:
            self.value.write(text)
        text.put(")")


class InstanceItem:
    """Instances of a module: its name, the values by name or by place, and each instance with its connections."""

    def __init__(self, module, by_name, values, instances):
        self.module, self.by_name, self.values, self.instances = module, by_name, values, instances

    def write(self, text):
        self.at = text.put(self.module)
        if self.values:
            text.put(" #(")
            put_list(text, self.values, lambda value: value.write(text))
            text.put(")")
        text.put(" ")
        self.places = []
        put_list(text, self.instances, lambda one: self.write_one(text, one))

    def write_one(self, text, one):
        self.places.append(text.put(one[0]))
        text.put("(")
        put_list(text, one[2], lambda value: value and value.write(text))
        text.put(")")

    def declare(self, scope):
        for one, place in zip(self.instances, self.places):
            scope.steps.append(("instance", self, one, place, scope.inner_name(one[0])))


class Block:
    """`begin .. end`, with a label or none."""

    def __init__(self, label, items):
        self.label, self.items = label, items

    def write(self, text, depth):
        text.put("begin")
        self.at = None
        if self.label:
            text.put(" : ")
            self.at = text.put(self.label)
        write_items(text, self.items, depth + 1)
        text.line(depth)
        text.put("end")


class IfItem:
    """A condition. `second` may be missing, and either may be `;`, which is None, a block, or an item."""

    def __init__(self, condition, first, has_second, second):
        self.condition, self.first, self.has_second, self.second = condition, first, has_second, second

    def write(self, text, depth):
        text.put("if (")
        self.condition.write(text)
        text.put(") ")
        write_arm(text, self.first, depth)
        if self.has_second:
            text.line(depth)
            text.put("else ")
            write_arm(text, self.second, depth)

    def labels(self):
        return arm_labels(self.first) + (arm_labels(self.second) if self.has_second else [])


class ForItem:
    def __init__(self, name, start, condition, step_name, step, body):
        self.name, self.start, self.condition = name, start, condition
        self.step_name, self.step, self.body = step_name, step, body

    def write(self, text, depth):
        text.put("for (")
        self.at = text.put(self.name)
        text.put(" = ")
        self.start.write(text)
        text.put("; ")
        self.condition.write(text)
        text.put("; ")
        self.step_at = text.put(self.step_name)
        text.put(" = ")
        self.step.write(text)
        text.put(") ")
        write_arm(text, self.body, depth)

    def labels(self):
        return arm_labels(self.body) if isinstance(self.body, Block) else []


class RegionItem:
    def __init__(self, items):
        self.items = items

    def write(self, text, depth):
        text.put("generate")
        write_items(text, self.items, depth + 1)
        text.line(depth)
        text.put("endgenerate")


CONSTRUCTS = (IfItem, ForItem)


def write_arm(text, arm, depth):
    if arm is None:
        text.put(";")
    elif isinstance(arm, (Block, RegionItem) + CONSTRUCTS):
        arm.write(text, depth)
    else:
        arm.write(text)
        text.put(";")


def write_items(text, items, depth):
    for item in items:
        text.line(depth)
        write_arm(text, item, depth)


def arm_labels(arm):
    if isinstance(arm, Block):
        return [(arm.label, arm.at)] if arm.label else []
    return arm.labels() if isinstance(arm, IfItem) else []


class Module:
    """`head` are parameters, `ports` names or declarations."""

    def __init__(self, name, head, ports, items):
        self.name, self.head, self.ports, self.items = name, head, ports, items

    def write(self, text):
        text.put("module ")
        self.at = text.put(self.name)
        if self.head:
            text.put(" #(")
            put_list(text, self.head, lambda one: one.write(text))
            text.put(")")
        text.put("(")
        self.places = []
        put_list(text, self.ports, lambda one: self.places.append(text.put(one)) if isinstance(one, str) else one.write(text))
        text.put(");")
        write_items(text, self.items, 1)
        text.line(0)
        text.put("endmodule")

    def port_names(self):
        return [name for one in self.ports for name in ([one] if isinstance(one, str) else one.names)]

    def parameter_names(self):
        flat = [x for item in self.items for x in (item.items if isinstance(item, RegionItem) else [item])]
        return [x.name for x in self.head + flat if isinstance(x, ParameterItem) and x.word == "parameter"]
