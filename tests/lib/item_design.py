"""A design, and what its modules are flattened to (IEEE 1364-2005, 12.1 to 12.4). A scope is declared as a whole, and then its items
stand for what they stand for, each at its place."""

from lib.item_exprs import at, constant, integer, is_left
from lib.item_trees import CONSTRUCTS, Block, ForItem, IfItem, RegionItem, Scope, arm_labels


class Design:
    def __init__(self, modules):
        self.modules, self.signals, self.items = modules, [], []

    def module(self, name):
        return next((m for m in self.modules if m.name == name), None)

    def list(self, item):
        self.items.append(item)

    # What a scope declares.

    def declare_items(self, scope, items):
        for item in items:
            if isinstance(item, RegionItem):
                self.declare_items(scope, item.items)
            elif isinstance(item, CONSTRUCTS):
                seen, taken = [], []
                for label, place in item.labels():
                    if label not in seen and scope.inner_name(label):
                        taken.append((label, place))
                    seen.append(label)
                scope.constructs += 1
                scope.steps.append(("generates", scope.constructs, item, taken[:1]))
            else:
                item.declare(scope)

    def declare_module(self, scope, module):
        for parameter in module.head:
            parameter.declare(scope)
        seen = []
        for one, place in zip(module.ports, module.places):
            if one in seen:
                scope.refuse("Twice", place)
            seen.append(one)
        for one in module.ports:
            if not isinstance(one, str):
                one.declare(scope)
        self.declare_items(scope, module.items)
        missing = [(one, place) for one, place in zip(module.ports, module.places) if not self.port(scope, one)]
        scope.steps = [("item", f"refuses declaration Unknown {at(place)}") for _, place in missing] + scope.steps

    def port(self, scope, name):
        what = scope.own.get(name, ("none",))
        signal = self.signals[what[3]] if what[0] == "signal" else None
        return signal if signal and signal[4] else None

    # What its steps stand for.

    def walk(self, scope):
        for step in scope.steps:
            if step[0] == "item":
                self.list(step[1])
            elif step[0] == "instance":
                self.instance(scope, *step[1:])
            else:
                self.construct(scope, *step[1:])

    def twice(self, place):
        self.list(f"refuses declaration Twice {at(place)}")

    def tell(self, taken):
        """A label that stands already, which is not told yet."""
        for _, place in taken:
            self.twice(place)

    def instance(self, scope, item, one, place, is_twice):
        module = self.module(item.module)
        if module is None:
            return self.list(f"refuses Unknown {at(item.at)}")
        if module in scope.within:
            return self.list(f"refuses Recursive {at(item.at)}")
        given, faults = self.values(module, item)
        inner = Scope(self, f"{scope.prefix}{one[0]}.", None, scope.within + [module], module.port_names(), given, scope)
        self.declare_module(inner, module)
        faults += inner.value_faults
        if faults:
            self.list(f"refuses parameter {min(faults)[1]} {at(min(faults)[0])}")
        if is_twice:
            self.twice(place)
        self.connect(scope, inner, module, one, place)
        self.walk(inner)

    def values(self, module, item):
        known, given, faults = module.parameter_names(), {}, []
        if not item.by_name:
            for k, value in enumerate(item.values):
                if k == len(known):
                    faults.append((value.at, "TooMany"))
                    break
                given[known[k]] = value
            return given, faults
        seen = []
        for pair in item.values:
            if pair.name not in known:
                faults.append((pair.at, "Unknown"))
            elif pair.name in seen:
                faults.append((pair.at, "Twice"))
            elif pair.value:
                given[pair.name] = pair.value
            seen.append(pair.name)
        return given, faults

    def connect(self, scope, inner, module, one, place):
        ports, seen = module.port_names(), []
        _, by_name, connections = one
        for k, connection in enumerate(connections):
            if by_name:
                name, value = connection.name, connection.value
                is_wrong, where = name not in ports or name in seen, connection.at
            else:
                is_wrong, value = k == len(ports), connection
                name, where = None if is_wrong else ports[k], place
            if is_wrong:
                self.list(f"refuses PortMismatch {at(where)}")
                if not by_name:
                    break
            else:
                self.join(scope, inner, name, value)
            seen.append(name)
        for name in ports:
            port = self.port(inner, name)
            if name not in seen and port and port[4] == "i":
                self.list(f"open {port[0]}")

    def join(self, scope, inner, name, value):
        port = self.port(inner, name)
        if port and port[4] == "i":
            self.list(f"enters {port[0]} = {scope.prefix}@{at(value.at)}" if value else f"open {port[0]}")
        elif port and value:
            self.list(f"leaves {scope.prefix}@{at(value.at)} = {port[0]}" if is_left(value) else f"refuses PortMismatch {at(value.at)}")

    def construct(self, scope, number, item, taken):
        if isinstance(item, ForItem):
            return self.loop(scope, number, item, taken)
        value, fault = constant(item.condition, scope)
        if fault:
            return self.list(f"refuses constant {fault[1]} {at(fault[0])}")
        arm = item.first if value[2] else item.second
        if not value[2] and [label for label in taken if label in arm_labels(item.first)]:
            self.tell(taken)
            taken = []
        if isinstance(arm, IfItem):
            return self.construct(scope, number, arm, taken)
        self.tell(taken)
        if arm is not None:
            self.block(scope, self.block_name(scope, number, arm), arm, {})

    def block_name(self, scope, number, arm):
        if isinstance(arm, Block) and arm.label:
            return arm.label
        zeros = 0
        while f"genblk{'0' * zeros}{number}" in scope.own:
            zeros += 1
        return f"genblk{'0' * zeros}{number}"

    def block(self, scope, name, arm, own):
        inner = Scope(self, f"{scope.prefix}{name}.", scope, scope.within)
        inner.own = own
        self.declare_items(inner, arm.items if isinstance(arm, Block) else [arm])
        self.walk(inner)

    def genvar(self, scope, name):
        what = scope.visible(name)
        return what[3] if what and what[0] == "hidden" else what[0] if what else None

    def loop(self, scope, number, item, taken):
        what = self.genvar(scope, item.name)
        if what != "genvar":
            return self.list(f"refuses {'NotConstant' if what == 'signal' else 'Unknown'} {at(item.at)}")
        value, fault = constant(item.start, scope, 32)
        if fault:
            return self.list(f"refuses constant {fault[1]} {at(fault[0])}")
        name, bits, count = self.block_name(scope, number, item.body), value[2] % (1 << 32), 0
        while True:
            own = {item.name: ("constant", 32, True, bits)}
            turn = Scope(self, "", scope, [])
            turn.own = own
            value, fault = constant(item.condition, turn)
            if fault:
                return self.list(f"refuses constant {fault[1]} {at(fault[0])}")
            if value[2] == 0:
                return self.tell(taken)
            if count == 4096:
                return self.list("refuses LoopTurns")
            self.tell(taken)
            taken = []
            self.block(scope, f"{name}[{integer(bits, 32)}]", item.body, dict(own))
            if item.step_name != item.name:
                what = self.genvar(scope, item.step_name)
                return self.list(f"refuses {'NotConstant' if what == 'signal' else 'Unknown'} {at(item.step_at)}")
            value, fault = constant(item.step, turn, 32)
            if fault:
                return self.list(f"refuses constant {fault[1]} {at(fault[0])}")
            bits, count = value[2] % (1 << 32), count + 1

    def flatten(self, top):
        """The lines that are printed."""
        module = self.module(top)
        if module is None:
            return ["NoTop"]
        for other in self.modules:
            if self.module(other.name) is not other:
                self.list(f"refuses Twice {at(other.at)}")
        scope = Scope(self, "", None, [module], module.port_names())
        self.declare_module(scope, module)
        self.walk(scope)
        lines = []
        for name, low, width, signed, direction, has_type in self.signals:
            lines.append(f"signal {name}[{low}+:{width}]" + "s" * signed + (direction or "") + "t" * has_type)
        return lines + self.items
