#!/usr/bin/env python3
"""The table 'tag scripts' of crates/script_cases: tag scripts, and what each says and asks by Python itself, or why it is refused.

    tests/tag_scripts.py [FOLDER]      the table 'tag scripts' of crates/script_cases

A script stands on one line, with `^` between its lines. Scripts that are taken are random programs in the language and worked ones,
which Python's `ast` takes apart; Python runs each with some words of the tests, some of which are not there or not expected. Those
that are refused are worked by the rules of docs/FORMATS.md and docs/DECISIONS.md.
"""

import ast
import random
import re
import sys

from lib import tables

sys.setrecursionlimit(20000)

TESTS = ["t", "u"]
TAGS = ["X", "Y"]
WORDS = ["PASS", "FAIL", "HANG", "UNKNOWN"]


def expr(node, names):
    """An expression as the program prints it."""
    if isinstance(node, ast.Constant):
        if isinstance(node.value, str):
            return f" t:{node.value}"
        return f" {int(node.value)}"
    if isinstance(node, ast.Name):
        return f" n{names.index(node.id)}"
    if isinstance(node, ast.Call):
        assert node.func.id == "result"
        return f" w{TESTS.index(node.args[0].value)}"
    if isinstance(node, ast.UnaryOp):
        return f" (not{expr(node.operand, names)})"
    if isinstance(node, ast.Compare):
        sign = {ast.Eq: "==", ast.NotEq: "!="}[type(node.ops[0])]
        return f" ({sign}{expr(node.left, names)}{expr(node.comparators[0], names)})"
    sign = {ast.And: "and", ast.Or: "or"}[type(node.op)]
    return f" ({sign}{''.join(expr(x, names) for x in node.values)})"


def arms(node, names):
    """The arms of an `if`. What Python keeps for an `elif` is an `if` that stands where the first one does."""
    text = f" [{expr(node.test, names)} :{statements(node.body, names)}]"
    other = node.orelse
    if len(other) == 1 and isinstance(other[0], ast.If) and other[0].col_offset == node.col_offset:
        return text + arms(other[0], names)
    return text + f" [:{statements(other, names)}]"


def statements(nodes, names):
    text = ""
    for node in nodes:
        if isinstance(node, ast.Assign):
            text += f" (set n{names.index(node.targets[0].id)}{expr(node.value, names)})"
        elif isinstance(node, ast.Expr):
            text += f" (tag g{TAGS.index(node.value.args[0].value)})"
        elif isinstance(node, ast.Assert):
            text += f" (assert {node.lineno}{expr(node.test, names)})"
        elif isinstance(node, ast.If):
            text += " (if" + arms(node, names) + ")"
        else:
            assert isinstance(node, ast.Pass)
    return text


class Need(Exception):
    pass


class Unexpected(Exception):
    pass


def asked(code, words):
    """What a script asks or how it ends, where the tests have these words, and HANG is not expected of the first."""
    tags = 0

    def result(name):
        test = TESTS.index(name)
        if words[test] is None:
            raise Need(test)
        if (test, words[test]) == (0, 2):
            raise Unexpected(test)
        return WORDS[words[test]]

    def tag(name):
        nonlocal tags
        tags |= 1 << TAGS.index(name)

    try:
        exec(code, {"result": result, "tag": tag})
    except Need as need:
        return f"Need({need.args[0]})"
    except Unexpected as unexpected:
        return f"Unexpected({unexpected.args[0]})"
    except AssertionError as failed:
        return f"AssertFailed({failed.__traceback__.tb_next.tb_lineno})"
    return f"Done({tags})"


def parted(text):
    """The lines for Python, which reads `0or` as a number."""
    return text.replace("0or", "0 or").replace("^", "\n")


def asks(text):
    plain = re.sub(r"\b0+(?=\d)", "", text)
    code = compile(parted(plain), "script", "exec")
    return " ".join(asked(code, (t, u)) for t in (None, 0, 1, 2) for u in (None, 0, 1, 3))


def names_of(tree):
    """The names in the order in which the text has them."""
    found = sorted((node.lineno, node.col_offset, node.id) for node in ast.walk(tree) if isinstance(node, ast.Name))
    return list(dict.fromkeys(name for _, _, name in found if name not in ("result", "tag")))


def taken(text):
    tree = ast.parse(parted(text))
    return "script" + statements(tree.body, names_of(tree))


class Maker:
    """Random scripts."""

    def __init__(self, rng):
        self.rng = rng

    def atom(self, names, depth):
        kinds = ["number", "text", "word", "truth"] + ["name"] * (3 if names else 0) + ["group"] * (2 if depth else 0)
        kind = self.rng.choice(kinds)
        if kind == "number":
            return str(self.rng.choice([0, 1, 7, 2147483647]))
        if kind == "text":
            return self.rng.choice(['"PASS"', "'FAIL'", '""', "'a b'", '"#"', "'(or'"])
        if kind == "word":
            return f'result("{self.rng.choice(TESTS)}")'
        if kind == "truth":
            return self.rng.choice(["True", "False"])
        if kind == "name":
            return self.rng.choice(names)
        return f"({self.disjunction(names, depth - 1)})"

    def operand(self, names, depth):
        if depth and self.rng.random() < 0.2:
            return "not " + self.operand(names, depth - 1)
        left = self.atom(names, depth)
        if self.rng.random() < 0.4:
            return f"{left} {self.rng.choice(['==', '!='])} {self.atom(names, depth)}"
        return left

    def conjunction(self, names, depth):
        return " and ".join(self.operand(names, depth) for _ in range(self.rng.choice([1, 1, 2, 3])))

    def disjunction(self, names, depth):
        return " or ".join(self.conjunction(names, depth) for _ in range(self.rng.choice([1, 1, 1, 2, 3])))

    def block(self, indent, names, depth):
        """Lines of a block, and the names that are assigned behind it."""
        lines = []
        front = " " * indent
        for _ in range(self.rng.randint(1, 4)):
            kind = self.rng.choice(["assign", "tag", "assert", "pass"] + ["if"] * (3 if depth else 0))
            if kind == "assign":
                name = self.rng.choice(["a", "b", "c_1", "_", "Truth"])
                lines.append(f"{front}{name} = {self.disjunction(names, 2)}")
                names = sorted(set(names) | {name})
            elif kind == "tag":
                lines.append(f'{front}tag("{self.rng.choice(TAGS)}")')
            elif kind == "assert":
                lines.append(f"{front}assert {self.disjunction(names, 2)}")
            elif kind == "pass":
                lines.append(f"{front}pass")
            else:
                ends = []
                for head in ["if"] + ["elif"] * self.rng.choice([0, 0, 1, 2]):
                    lines.append(f"{front}{head} {self.disjunction(names, 2)}:")
                    body, end = self.block(indent + self.rng.choice([1, 2, 4]), names, depth - 1)
                    lines += body
                    ends.append(end)
                if self.rng.random() < 0.6:
                    lines.append(f"{front}else:")
                    body, end = self.block(indent + self.rng.choice([1, 2, 4]), names, depth - 1)
                    lines += body
                    ends.append(end)
                else:
                    ends.append(names)
                names = sorted(set.intersection(*map(set, ends)))
            if self.rng.random() < 0.15:
                lines.append(self.rng.choice(["", "   ", "# a comment", "      # another"]))
        return lines, names


# Scripts that are worked by the rules.
WORKED = [
    ("", "script"),
    ("pass", "script"),
    ('if result("t") == "PASS":^    tag("X")^else:^    tag("Y")', None),
    ("a = 1^b = 007^tag('X')  # a tag", "script (set n0 1) (set n1 7) (tag g0)"),
    # what is not asked, what a failed assertion leaves, and what differs
    ('tag("X")', None),
    ('tag("X")^assert 0^tag("Y")', None),
    ('tag("X")^assert result("t") == "PASS"', None),
    ('if 0 and result("t"):^  tag("X")^elif 1 or result("u"):^  tag("Y")', None),
    ('if "" or result("u") == "UNKNOWN" and not result("t"):^  tag("X")', None),
    ('if result("u") == "PASS":^  tag("X")^elif result("t") == "PASS":^  tag("Y")', None),
    ('assert 1 != "1" and "" != 0 and True == 1 and not "" == False', None),
    ('a = result("u") and "x" or 5^assert a == "x"^a = 0^assert not a', None),
    # an indentation that fits no block
    (" pass", "Indent(1)"),
    ("\tpass", "Indent(1)"),
    ("pass^  pass", "Indent(2)"),
    ("if 1:^  pass^ pass", "Indent(3)"),
    ("if 1:^  pass^   pass", "Indent(3)"),
    ("if 1:^\tpass", "Indent(2)"),
    ("if 1:^  if 1:^    pass^   pass", "Indent(4)"),
    ("if 1:^    pass^  else:^    pass", "Indent(3)"),
    ("  # a comment^pass", "script"),
    # no form of the language
    ("else:^  pass", "Bad(1)"),
    ("elif 1:^  pass", "Bad(1)"),
    ("if 1:^pass", "Bad(1)"),
    ("if 1:", "Bad(1)"),
    ("if 1:^# nothing", "Bad(1)"),
    ("if 1:^  pass^else:", "Bad(3)"),
    ("if 1:^  pass^elif 0:^pass", "Bad(3)"),
    ("if 1:^  pass^else:^  pass^else:^  pass", "Bad(5)"),
    ("if 1:^  pass^else:^  pass^elif 1:^  pass", "Bad(5)"),
    ("if 1:^  pass^pass^else:^  pass", "Bad(4)"),
    ("if 1", "Bad(1)"),
    ("if 1: pass", "Bad(1)"),
    ("if :^  pass", "Bad(1)"),
    ("if 1:^  pass^else 1:^  pass", "Bad(3)"),
    ("pass pass", "Bad(1)"),
    ("pass:", "Bad(1)"),
    ("assert", "Bad(1)"),
    ("a", "Bad(1)"),
    ("a =", "Bad(1)"),
    ("a == 1", "Bad(1)"),
    ("a = 1 == 1 == 1", "Bad(1)"),
    ("a = 1 != (1 == 1)", "script (set n0 (!= 1 (== 1 1)))"),
    ("a = 1 == not 1", "Bad(1)"),
    ("a = not 1 == 1", "script (set n0 (not (== 1 1)))"),
    ("a = 1 and", "Bad(1)"),
    ("a = or 1", "Bad(1)"),
    ("a = (1", "Bad(1)"),
    ("a = 1)", "Bad(1)"),
    ("a = )1(", "Bad(1)"),
    ("a = ()", "Bad(1)"),
    ("a = 1 1", "Bad(1)"),
    ("a = 1 + 1", "Bad(1)"),
    ("a = -1", "Bad(1)"),
    ("a = 1 < 2", "Bad(1)"),
    ("a = 2147483648", "Bad(1)"),
    ("a = 2147483647", "script (set n0 2147483647)"),
    ("a = 99999999999999999999999", "Bad(1)"),
    ('a = "x', "Bad(1)"),
    ('a = "x\\n"', "Bad(1)"),
    ("tag = 1", "Bad(1)"),
    ("result = 1", "Bad(1)"),
    ("a = tag", "Bad(1)"),
    ("if = 1", "Bad(1)"),
    ("True = 1", "Bad(1)"),
    ("1 = 1", "Bad(1)"),
    ('a = tag("X")', "Bad(1)"),
    ('result("t")', "Bad(1)"),
    ('tag("X") tag("Y")', "Bad(1)"),
    ("tag(X)", "Bad(1)"),
    ("tag()", "Bad(1)"),
    ('assert result("t" )', "script (assert 1 w0)"),
    ("assert result(t)", "Bad(1)"),
    ('print("x")', "Bad(1)"),
    ("while 1:^  pass", "Bad(1)"),
    # tests and tags
    ('tag("Z")', "UnknownTag(1)"),
    ('tag("")', "UnknownTag(1)"),
    ('pass^assert result("x")', "UnknownTest(2)"),
    ('if result("t") or not (result("X")):^  pass', "UnknownTest(1)"),
    ('assert a and result("x")', "UnknownTest(1)"),
    # names that are not assigned on some path
    ("assert a", "Unassigned(1)"),
    ("a = a", "Unassigned(1)"),
    ("if 1:^  a = 1^assert a", "Unassigned(3)"),
    ("if 1:^  a = 1^else:^  pass^assert a", "Unassigned(5)"),
    ("if 1:^  a = 1^elif 0:^  pass^else:^  a = 1^assert a", "Unassigned(7)"),
    ("if 1:^  a = 1^elif 0:^  a = 1^assert a", "Unassigned(5)"),
    ("if 1:^  a = 1^else:^  assert a", "Unassigned(4)"),
    ("if 1:^  a = 1^elif a:^  pass", "Unassigned(3)"),
    # the first bad line, and of two faults of one line the first
    ("assert a^a =", "Unassigned(1)"),
    ("a =^assert a", "Bad(1)"),
    (" a =", "Indent(1)"),
    ("if a:^pass", "Bad(1)"),
]


def edges():
    """Scripts at the limits."""
    for count, said in ((32, None), (33, "Bad(33)")):
        yield "^".join(f"a{i} = 0" for i in range(count)), said
    yield "^".join([f"a{i} = 0" for i in range(32)] + ["assert b"]), "Bad(33)"
    for depth, said in ((32, None), (33, "Bad(1)")):
        yield "a = " + "(" * depth + "1" + ")" * depth, said
        yield "a = " + "not " * depth + "1", said
        yield "a = " + "not (" * (depth // 2) + ("not " * (depth % 2)) + "1" + ")" * (depth // 2), said
    for depth, said in ((32, None), (33, "Bad(34)")):
        yield "^".join([" " * i + "if 1:" for i in range(depth)] + [" " * depth + "pass"]), said
    for inner, said in ((2, None), (3, "Bad(31)")):
        yield "^".join([" " * i + "if 1:" for i in range(30)] + [" " * 30 + "a = " + "not " * inner + "1"]), said
    for lines, said in ((1000, None), (1001, "Bad(1001)"), (1002, "Bad(1001)")):
        yield "^".join(["pass"] * lines), said
        yield "^".join(["pass"] + [""] * (lines - 2) + ["# end"]), said
        yield "^".join(["assert 1"] * lines), said
        yield "^".join(["if 1:", "  pass"] + ["elif 0:", "  pass"] * (lines // 2 - 1) + ["pass"] * (lines % 2)), said
    yield "^".join(["pass"] * 999 + ["if 1:", "  pass"]), "Bad(1001)"
    yield "^".join(["pass"] * 999 + ["if 1:"]), "Bad(1000)"
    yield "^".join(["pass"] * 500 + ["a ="] + ["pass"] * 600), "Bad(501)"
    yield "a = " + " and ".join(["1"] * 500), None
    yield "a = " + " or ".join(["0 == 1"] * 500), None


def cases():
    rng = random.Random(20261128)
    maker = Maker(rng)
    made = []
    while len(made) < 120:
        lines, _ = maker.block(0, [], 3)
        if len(lines) <= 40:
            made.append(("^".join(lines), None))
    # where a number ends, and what is no blank
    blanks = [('if 0or 1:^ tag("X")', None), ("pass\f", "Bad(1)")]
    for text, said in WORKED + list(edges()) + made + blanks:
        yield text, taken(text) if said is None else said


def main():
    given, told = [], []
    for text, said in cases():
        given.append(text)
        told.append(said)
        if said.startswith("script"):
            told.append(asks(text))
    tables.save("script_cases", given, told, "tag scripts")


main()
