#!/usr/bin/env python3
"""The table 'reports' of crates/script_cases: reports, and what each prints by Python's own fractions, or why it is refused.

    tests/reports.py [FOLDER]      the table 'reports' of crates/script_cases

A report stands on one line, with `^` between its lines. Those that are taken are random programs in the language and worked ones,
which Python's `ast` takes apart; their values are `fractions.Fraction`, and their texts are rounded by its `round`. Python binds `%`
closer than `+`, so an expression behind it stands between `{` and `}`, which Python is given as parentheses, and a report without.
Those that are refused are worked by the rules of docs/FORMATS.md and docs/DECISIONS.md.
"""

import ast
import random
import re
import sys
from fractions import Fraction

from lib import tables
sys.setrecursionlimit(20000)

TAGS = ["COVERED", "UNCOVERED"]
COUNTS = [(2, 1), (0, 0), (7, 4000000000)]
MOST = 10**12


class OutOfRange(Exception):
    pass


def in_range(value):
    if abs(value.numerator) > MOST or value.denominator > MOST:
        raise OutOfRange
    return value


OPERATORS = {
    ast.Add: lambda a, b: a + b,
    ast.Sub: lambda a, b: a - b,
    ast.Mult: lambda a, b: a * b,
    ast.Div: lambda a, b: a / b,
    ast.Eq: lambda a, b: Fraction(a == b),
    ast.NotEq: lambda a, b: Fraction(a != b),
    ast.Lt: lambda a, b: Fraction(a < b),
    ast.LtE: lambda a, b: Fraction(a <= b),
    ast.Gt: lambda a, b: Fraction(a > b),
    ast.GtE: lambda a, b: Fraction(a >= b),
}


def value(node, counts, source):
    """The value of an expression. A number is taken as it is written, since Python would round it."""
    if isinstance(node, ast.Constant):
        return in_range(Fraction(source[node.lineno - 1][node.col_offset : node.end_col_offset]))
    if isinstance(node, ast.Call):
        assert node.func.id == "tags"
        return Fraction(counts[TAGS.index(node.args[0].value)])
    if isinstance(node, ast.UnaryOp):
        assert isinstance(node.op, ast.Not)
        return Fraction(value(node.operand, counts, source) == 0)
    if isinstance(node, ast.BoolOp):
        deciding = isinstance(node.op, ast.Or)
        for operand in node.values:
            last = value(operand, counts, source)
            if (last != 0) == deciding:
                return last
        return last
    if isinstance(node, ast.Compare):
        left, operator, right = node.left, node.ops[0], node.comparators[0]
    else:
        left, operator, right = node.left, node.op, node.right
    a = value(left, counts, source)
    b = value(right, counts, source)
    return in_range(OPERATORS[type(operator)](a, b))


def two_places(number):
    hundredths = round(abs(number) * 100)
    sign = "-" if number < 0 and hundredths else ""
    return f"{sign}{hundredths // 100}.{hundredths % 100:02}"


def line(node, counts, source):
    """What a print prints."""
    argument = node.args[0]
    if isinstance(argument, ast.Constant):
        return argument.value
    right = argument.right
    values = [value(x, counts, source) for x in (right.elts if isinstance(right, ast.Tuple) else [right])]
    parts = re.split(r"(%%|%d|%\.2f)", argument.left.value)
    text = ""
    for part in parts:
        if part == "%%":
            text += "%"
        elif part == "%d":
            text += str(int(values.pop(0)))
        elif part == "%.2f":
            text += two_places(values.pop(0))
        else:
            assert "%" not in part
            text += part
    assert not values
    return text


def run(nodes, counts, source, out):
    """Adds what statements print, and tells the line that it stops at by an exception with the node."""
    for node in nodes:
        try:
            if isinstance(node, ast.Expr):
                out.append(line(node.value, counts, source))
                continue
            if isinstance(node, ast.Pass):
                continue
            body = node.body if value(node.test, counts, source) != 0 else node.orelse
        except OutOfRange:
            raise Stop(node.lineno, "value out of range") from None
        except ZeroDivisionError:
            raise Stop(node.lineno, "division by zero") from None
        run(body, counts, source, out)


class Stop(Exception):
    pass


def printed(text, counts):
    source = text.replace("{", "(").replace("}", ")").split("^")
    out = []
    try:
        run(ast.parse("\n".join(source)).body, counts, source, out)
    except Stop as stop:
        out.append(f"report stopped at line {stop.args[0]}: {stop.args[1]}")
    return "".join(text + "^" for text in out)


def told(text):
    return " | ".join(printed(text, counts) for counts in COUNTS)


def plain(text):
    """The report itself."""
    return text.replace("{", "").replace("}", "")


class Maker:
    """Random reports."""

    def __init__(self, rng):
        self.rng = rng

    def atom(self, depth):
        kind = self.rng.choice(["number", "number", "tag", "tag", "tag"] + ["group"] * (3 if depth else 0))
        if kind == "number":
            return self.rng.choice(
                ["0", "1", "2", "3", "7", "100", "0.5", "100.0", "0.125", "0.005", "1.000001", "999999.999999", "1000000", "123456789"]
            )
        if kind == "tag":
            return f'tags("{self.rng.choice(TAGS)}")'
        return f"({self.disjunction(depth - 1)})"

    def product(self, depth):
        text = self.atom(depth)
        for _ in range(self.rng.choice([0, 0, 1, 1, 2])):
            text += self.rng.choice([" * ", "*", " / ", "/"]) + self.atom(depth)
        return text

    def sum(self, depth):
        text = self.product(depth)
        for _ in range(self.rng.choice([0, 0, 1, 2, 3])):
            text += self.rng.choice([" + ", "+", " - ", "-"]) + self.product(depth)
        return text

    def operand(self, depth):
        if depth and self.rng.random() < 0.1:
            return "not " + self.operand(depth - 1)
        left = self.sum(depth)
        if self.rng.random() < 0.25:
            return f"{left} {self.rng.choice(['==', '!=', '<', '<=', '>', '>='])} {self.sum(depth)}"
        return left

    def conjunction(self, depth):
        return " and ".join(self.operand(depth) for _ in range(self.rng.choice([1, 1, 1, 2])))

    def disjunction(self, depth):
        return " or ".join(self.conjunction(depth) for _ in range(self.rng.choice([1, 1, 1, 2])))

    def text(self, values):
        pieces = [self.rng.choice(["%d", "%.2f", "%.2f"]) for _ in range(values)]
        pieces += [self.rng.choice([" ", "a", "%%", ": ", "x=", "#"]) for _ in range(self.rng.randint(0, 4))]
        self.rng.shuffle(pieces)
        return "".join(pieces)

    def print(self):
        count = self.rng.choice([0, 1, 1, 1, 2, 3])
        if count == 0:
            return f'print("{self.rng.choice(["", "Summary", "100%", "%d", "%%", "a # b"])}")'
        if count == 1:
            return f'print("{self.text(1)}" % {{{self.disjunction(self.rng.choice([0, 1, 1, 2]))}}})'
        return f"print('{self.text(count)}'%({', '.join(self.disjunction(1) for _ in range(count))}))"

    def block(self, indent, depth):
        lines = []
        front = " " * indent
        for _ in range(self.rng.randint(1, 4)):
            kind = self.rng.choice(["print", "print", "print", "pass"] + ["if"] * (2 if depth else 0))
            if kind == "print":
                lines.append(front + self.print())
            elif kind == "pass":
                lines.append(f"{front}pass")
            else:
                for head in ["if"] + ["elif"] * self.rng.choice([0, 0, 1, 2]):
                    lines.append(f"{front}{head} {self.disjunction(1)}:")
                    lines += self.block(indent + self.rng.choice([1, 2, 4]), depth - 1)
                if self.rng.random() < 0.6:
                    lines.append(f"{front}else:")
                    lines += self.block(indent + self.rng.choice([1, 2, 4]), depth - 1)
            if self.rng.random() < 0.15:
                lines.append(self.rng.choice(["", "   ", "# a comment", "      # another"]))
        return lines


COVERAGE = 'print("Coverage: %.2f%%" % (100.0*tags("COVERED")/(tags("COVERED")+tags("UNCOVERED"))))'

# Reports that are taken, and what Python says of them.
TAKEN = [
    "",
    "pass",
    COVERAGE,
    "# first^" + COVERAGE + '^print("never at 0")',
    'if tags("COVERED")+tags("UNCOVERED"):^    ' + COVERAGE + '^else:^    print("Nothing was covered.")',
    'print("%d" % tags("COVERED"))',
    'print("%d %d" % (tags("COVERED"), tags("UNCOVERED")))',
    'print("%d of %d are %.2f%%" % ((1), (2+3), 1/3))',
    'print("%d" % {(1+2)*(3+4)})',
    'print("%d" % {(1)+(2)})',
    'print("%d" % {1 + 2})',
    'print("%d" % {1 or 2})',
    'print("%d" % {not 0})',
    'print("%d" % {1 < 2})',
    'print("%.2f" % {10 - 4 - 3})',
    'print("%.2f" % {100 / 4 / 5})',
    'print("%.2f" % {100 / 4 * 5})',
    'print("%.2f" % {2 * 3 + 4 * 5})',
    'print("%.2f" % {0.005})^print("%.2f" % {0.015})^print("%.2f" % {0.025})^print("%.2f" % {0.125})^print("%.2f" % {0.375})',
    'print("%.2f" % {0 - 0.005})^print("%.2f" % {0 - 0.015})^print("%.2f" % {0 - 0.0149})^print("%.2f" % {0 - 1.5})',
    'print("%.2f" % {0.005001})^print("%.2f" % {0.004999})^print("%.2f" % {0.995})^print("%.2f" % {0.9949})',
    'print("%d" % {0 - 0.5})^print("%d" % {0 - 1.5})^print("%d" % {1.999999})^print("%d" % {0-7/2})',
    'print("%d" % {1 / 3 * 3 == 1})^print("%d" % {0.1 + 0.2 == 0.3})^print("%d" % {1/10 < 0.1})',
    'print("%d" % {0-1 < 0})^print("%d" % {0-1 < 0-2})^print("%d" % {0-2 <= 0-2})^print("%d" % {1/2 > 1/3})^print("%d" % {1 >= 2})',
    'print("%d" % {0 and 1/0})^print("%d" % {1 or 1/0})^print("%d" % {2 and 3})^print("%d" % {0 or 0.0})',
    'print("%d" % {1/0 and 0})',
    'print("%d" % {1000000000000})^print("%d" % {1000000000001})',
    'print("%d" % {1000000000000.0})^print("%d" % {1000000000000.5})',
    'print("%d" % {999999999999.5})',
    'print("%d" % {500000000000.5})^print("%d" % {500000000000 + 0.5})',
    'print("%d" % {99999999999999999999999999999999999999999})',
    'print("%d" % {0 or 1000000000001})^print("%d" % {1 or 1000000000001})',
    'print("%d" % {1000000 * 1000000})^print("%d" % {1000000 * 1000000 + 1})',
    'print("%d" % {0 - 1000000 * 1000000})^print("%d" % {0 - 1000000 * 1000000 - 1})',
    'print("%.2f" % {1 / 1000000 / 1000000})^print("%.2f" % {1 / 1000000 / 1000000 / 2})',
    'print("%.2f" % {1 / 1000000 / 1000000 / 2 * 0})',
    'print("%.2f" % {999999999999 / 1000000000000})^print("%.2f" % {1000000000000 / 999999999999})',
    'print("%.2f" % {999999999999 / 1000000000000 + 1 / 1000000000000})',
    'print("%.2f" % {1 / 1000000000000 - 1 / 999999999999})',
    'print("%.2f" % {999999999989 * 999999999989})',
    'print("a")^if 1/0:^  print("b")^print("c")',
    'print("a")^if 0:^  print("b")^elif 1000000*1000001:^  print("c")',
    'if 1:^  print("a")^  print("%d" % {1/0})^  print("b")^print("c")',
    'if 0:^  print("%d" % {1/0})^elif 1:^  print("a")^elif 1/0:^  print("b")',
    'print("%d then %d" % (1, 1/0))',
    'print("100%")^print("%d")^print("%%")^print("%x")',
    'print("%%%d%%" % {1})',
    "print('it\"s' )  # a comment",
    'print( "%d %d" % ( 1 , 2.5 * 2 ) )',
    'print("")',
    "if 0.000000:^  print('a')^else:^  print('b')",
    'print("%d" % {7.50 * 2})',
    'print("%.2f" % {tags("UNCOVERED") * 1000})',
]

# Reports that are worked by the rules.
WORKED = [
    ('print("%d" % 007)', "7^ | 7^ | 7^"),
    ('print("%d" % 007.5)', "7^ | 7^ | 7^"),
    # an indentation that fits no block
    (" pass", "Indent(1)"),
    ("\tpass", "Indent(1)"),
    ("pass^  pass", "Indent(2)"),
    ("if 1:^  pass^ pass", "Indent(3)"),
    ("if 1:^\tpass", "Indent(2)"),
    ("if 1:^    pass^  else:^    pass", "Indent(3)"),
    # no form of the language
    ("else:^  pass", "Bad(1)"),
    ("elif 1:^  pass", "Bad(1)"),
    ("if 1:^pass", "Bad(1)"),
    ("if 1:", "Bad(1)"),
    ("if 1:^  pass^else:^  pass^else:^  pass", "Bad(5)"),
    ("if 1:^  pass^pass^elif 1:^  pass", "Bad(4)"),
    ("if 1", "Bad(1)"),
    ("if 1: pass", "Bad(1)"),
    ("if :^  pass", "Bad(1)"),
    ("else 1:", "Bad(1)"),
    ("pass pass", "Bad(1)"),
    ("assert 1", "Bad(1)"),
    ("a = 1", "Bad(1)"),
    ('tag("COVERED")', "Bad(1)"),
    ("print", "Bad(1)"),
    ("print()", "Bad(1)"),
    ("print(1)", "Bad(1)"),
    ('print "a"', "Bad(1)"),
    ('print("a"', "Bad(1)"),
    ('print("a"))', "Bad(1)"),
    ('print("a" "b")', "Bad(1)"),
    ('print("a", "b")', "Bad(1)"),
    ('print("a\\n")', "Bad(1)"),
    ('print("a)', "Bad(1)"),
    ('print("a" % )', "Bad(1)"),
    ('print("a" % 1)', "Bad(1)"),
    ('print("%d" % (1, 2))', "Bad(1)"),
    ('print("%d %d" % 1)', "Bad(1)"),
    ('print("%d %d" % (1))', "Bad(1)"),
    ('print("%d" % (1,))', "Bad(1)"),
    ('print("%d %d" % (1, 2,))', "Bad(1)"),
    ('print("%d %d" % (1,, 2))', "Bad(1)"),
    ('print("%d %d" % 1, 2)', "Bad(1)"),
    ('print("%d %d" % (1), (2))', "Bad(1)"),
    ('print("%d %d" % (1, (2, 3)))', "Bad(1)"),
    ('print("%d" % ())', "Bad(1)"),
    ('print("%d" % 1) + 1', "Bad(1)"),
    ('print("%s" % 1)', "Bad(1)"),
    ('print("%f" % 1)', "Bad(1)"),
    ('print("%.3f" % 1)', "Bad(1)"),
    ('print("%.2d" % 1)', "Bad(1)"),
    ('print("%.2" % 1)', "Bad(1)"),
    ('print("%d%" % 1)', "Bad(1)"),
    ('print("%d% d" % (1, 2))', "Bad(1)"),
    ('print("%5d" % 1)', "Bad(1)"),
    ('print("%d" % -1)', "Bad(1)"),
    ('print("%d" % +1)', "Bad(1)"),
    ('print("%d" % 1 - -1)', "Bad(1)"),
    ('print("%d" % .5)', "Bad(1)"),
    ('print("%d" % 1.)', "Bad(1)"),
    ('print("%d" % 1 . 5)', "Bad(1)"),
    ('print("%d" % 1.5.2)', "Bad(1)"),
    ('print("%d" % 0.0000001)', "Bad(1)"),
    ('print("%d" % 1e3)', "Bad(1)"),
    ('print("%d" % 1 < 2 < 3)', "Bad(1)"),
    ('print("%d" % 1 < = 2)', "Bad(1)"),
    ('print("%d" % 1 => 2)', "Bad(1)"),
    ('print("%d" % 1 == not 1)', "Bad(1)"),
    ('print("%d" % 1 + not 1)', "Bad(1)"),
    ('print("%d" % 1 // 2)', "Bad(1)"),
    ('print("%d" % 2 ** 2)', "Bad(1)"),
    ('print("%d" % 5 % 2)', "Bad(1)"),
    ('print("%d" % 1 2)', "Bad(1)"),
    ('print("%d" % (1)(2))', "Bad(1)"),
    ('print("%d" % True)', "Bad(1)"),
    ('print("%d" % "1")', "Bad(1)"),
    ('print("%d" % a)', "Bad(1)"),
    ('print("%d" % tags)', "Bad(1)"),
    ('print("%d" % tags())', "Bad(1)"),
    ('print("%d" % tags(COVERED))', "Bad(1)"),
    ('print("%d" % result("COVERED"))', "Bad(1)"),
    ('print("%d" % tags("COVERED", "UNCOVERED"))', "Bad(1)"),
    ('if print("a"):^  pass', "Bad(1)"),
    ('pass^print("%d" % 1,)', "Bad(2)"),
    # tags
    ('print("%d" % tags("X"))', "UnknownTag(1)"),
    ('print("%d %d" % (1, 2 + tags("")))', "UnknownTag(1)"),
    ('if not tags("covered"):^  pass', "UnknownTag(1)"),
    ('if 1:^  pass^elif 0 and tags("X"):^  pass', "UnknownTag(3)"),
    # the first bad line, and of two faults of one line the first
    ('print("%d" % tags("X"))^print(', "UnknownTag(1)"),
    ('print(^print("%d" % tags("X"))', "Bad(1)"),
    ('if tags("X"):^pass', "Bad(1)"),
    (" print(", "Indent(1)"),
]

# Where a number ends, and what is no blank.
BLANKS = [('print("%d" % 1or 2)', "1^ | 1^ | 1^"), ('print("%d"\v% 1)', "Bad(1)")]


def edges():
    """Reports at the limits."""
    for depth, said in ((32, None), (33, "Bad(1)")):
        yield 'print("%d" % {' + "(" * depth + "1" + ")" * depth + "})", said
        yield 'print("%d" % {' + "not " * depth + "1})", said
    for depth, said in ((31, None), (32, "Bad(1)")):
        yield 'print("%d %d" % (1, ' + "(" * depth + "1" + ")" * depth + "))", said
    for depth, said in ((32, None), (33, "Bad(34)")):
        yield "^".join([" " * i + "if 1:" for i in range(depth)] + [" " * depth + "pass"]), said
    for inner, said in ((2, None), (3, "Bad(31)")):
        yield "^".join([" " * i + "if 1:" for i in range(30)] + [" " * 30 + "if " + "not " * inner + "1:"] + [" " * 31 + "pass"]), said
    for lines, said in ((1000, None), (1001, "Bad(1001)")):
        yield "^".join(["pass"] * lines), said
        yield "^".join(["pass"] + [""] * (lines - 2) + ["# end"]), said
        yield "^".join(["if 0:", "  pass"] + ["elif 0:", "  pass"] * (lines // 2 - 1) + ["pass"] * (lines % 2)), said
    yield 'print("%d" % {' + " + ".join(["1"] * 3000) + "})", None
    yield 'print("%d" % {' + " - ".join(["1"] * 3000) + "})", None
    yield 'print("%d" % {' + " * ".join(["1"] * 3000) + "})", None


def cases():
    rng = random.Random(20261128)
    maker = Maker(rng)
    made = []
    while len(made) < 220:
        lines = maker.block(0, 3)
        if len(lines) <= 10:
            made.append(("^".join(lines), None))
    for text, said in [(text, None) for text in TAKEN] + WORKED + list(edges()) + made + BLANKS:
        yield text, said


def main():
    made = list(cases())
    tables.save("script_cases", [plain(text) for text, _ in made], [told(text) if said is None else said for text, said in made], "reports")


main()
