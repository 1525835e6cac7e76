"""Expressions of designs that are drawn: how they are written, and what they are in a scope (IEEE 1364-2005, 4 and 5)."""


class Text:
    """A source as it is written, which knows its next place."""

    def __init__(self):
        self.lines = [""]

    def put(self, part):
        """Writes a part, and gives its place."""
        place = (len(self.lines), len(self.lines[-1]) + 1)
        self.lines[-1] += part
        return place

    def line(self, depth):
        self.lines.append("  " * depth)


def at(place):
    return f"{place[0]}:{place[1]}"


def put_list(text, parts, write):
    for k, part in enumerate(parts):
        text.put(", " if k else "")
        write(part)


class Number:
    def __init__(self, value):
        self.value = value

    def write(self, text):
        self.at = text.put(str(self.value))

    def shape(self, scope):
        return 32, True

    def faults(self, scope):
        return []

    def evaluate(self, scope, width, signed, zeros):
        return self.value % (1 << width)


class Name:
    is_left = True

    def __init__(self, name):
        self.name = name

    def write(self, text):
        self.at = text.put(self.name)

    def shape(self, scope):
        what = scope.visible(self.name)
        return (what[1], what[2]) if what else (1, False)

    def faults(self, scope):
        what = scope.visible(self.name)
        if what is None or what[0] == "hidden":
            return [(self.at, "Unknown")]
        return [(self.at, "NotConstant")] if what[0] == "signal" else []

    def evaluate(self, scope, width, signed, zeros):
        _, own, own_signed, bits = scope.visible(self.name)
        return extended(bits, own, signed, width)


class Binary:
    def __init__(self, operator, left, right):
        self.operator, self.left, self.right = operator, left, right

    def write(self, text):
        self.left.write(text)
        self.at = self.left.at
        text.put(" ")
        self.operator_at = text.put(self.operator)
        text.put(" ")
        self.right.write(text)

    def pair(self, scope):
        (a, a_signed), (b, b_signed) = self.left.shape(scope), self.right.shape(scope)
        return max(a, b), a_signed and b_signed

    def shape(self, scope):
        return (1, False) if self.operator in ("<", "==") else self.pair(scope)

    def faults(self, scope):
        return self.left.faults(scope) + self.right.faults(scope)

    def evaluate(self, scope, width, signed, zeros):
        if self.operator in ("<", "=="):
            width, signed = self.pair(scope)
        a = self.left.evaluate(scope, width, signed, zeros)
        b = self.right.evaluate(scope, width, signed, zeros)
        if signed:
            a, b = integer(a, width), integer(b, width)
        if self.operator == "<":
            return int(a < b)
        if self.operator == "==":
            return int(a == b)
        if self.operator == "/":
            if b == 0:
                zeros.append((self.operator_at, "DivideByZero"))
                return 0
            quotient = abs(a) // abs(b)
            return (quotient if (a < 0) == (b < 0) else -quotient) % (1 << width)
        return {"+": a + b, "-": a - b, "*": a * b}[self.operator] % (1 << width)


class Group:
    """Parentheses."""

    def __init__(self, inner):
        self.inner = inner

    def write(self, text):
        self.at = text.put("(")
        self.inner.write(text)
        text.put(")")

    def shape(self, scope):
        return self.inner.shape(scope)

    def faults(self, scope):
        return self.inner.faults(scope)

    def evaluate(self, scope, width, signed, zeros):
        return self.inner.evaluate(scope, width, signed, zeros)


class Parts:
    """A concatenation. It stands for no constant here."""

    def __init__(self, parts):
        self.parts = parts
        self.is_left = all(is_left(part) for part in parts)

    def write(self, text):
        self.at = text.put("{")
        put_list(text, self.parts, lambda part: part.write(text))
        text.put("}")


class Select:
    """A bit of a name. It stands for no constant here."""

    is_left = True

    def __init__(self, name, index):
        self.name, self.index = name, index

    def write(self, text):
        self.at = text.put(self.name + "[")
        self.index.write(text)
        text.put("]")


def is_left(expr):
    return getattr(expr, "is_left", False)


def integer(bits, width):
    return bits - (1 << width) if bits >> (width - 1) else bits


def extended(bits, own, signed, width):
    """The bits of an operand at the width of its context, where it is signed as the context is."""
    return (integer(bits, own) if signed else bits) % (1 << width)


def constant(expr, scope, least=0):
    """Width, sign and bits of a constant that is assigned to at least so many bits, and its first fault by place."""
    faults = expr.faults(scope)
    if faults:
        return None, min(faults)
    width, signed = expr.shape(scope)
    width = max(width, least)
    zeros = []
    bits = expr.evaluate(scope, width, signed, zeros)
    return ((width, signed, bits), None) if not zeros else (None, min(zeros))
