#!/usr/bin/env python3
"""The table 'tag lines' of crates/script_cases: lines of tag scripts, and what each says by Python's own parser.

    tests/tag_lines.py [FOLDER]      the table 'tag lines' of crates/script_cases

Lines that are taken are random ones of the language, which Python's `ast` takes apart. The others are worked by the rules of
docs/DECISIONS.md. Four parentheses and `not`s may be open.
"""

import ast
import random

from lib import tables

TESTS = ["t", "u"]
TAGS = ["X", "Y"]


def place(word, words):
    return words.index(word) if word in words else len(words)


def expr(node, names):
    """An expression as the program prints it."""
    if isinstance(node, ast.Constant):
        return f" t:{node.value}" if isinstance(node.value, str) else f" {int(node.value)}"
    if isinstance(node, ast.Name):
        return f" n{names.index(node.id)}"
    if isinstance(node, ast.Call):
        return f" w{place(node.args[0].value, TESTS)}"
    if isinstance(node, ast.UnaryOp):
        return f" (not{expr(node.operand, names)})"
    if isinstance(node, ast.Compare):
        sign = {ast.Eq: "==", ast.NotEq: "!="}[type(node.ops[0])]
        return f" ({sign}{expr(node.left, names)}{expr(node.comparators[0], names)})"
    sign = {ast.And: "and", ast.Or: "or"}[type(node.op)]
    return f" ({sign}{''.join(expr(x, names) for x in node.values)})"


def told(line):
    """What Python's parser finds on the line."""
    text = line.lstrip(" ")
    head = text.split()[0].rstrip(":")
    if head in ("if", "elif", "else"):
        tree = ast.parse({"if": "", "elif": "if 1:\n pass\n", "else": "if 1:\n pass\n"}[head] + text + "\n pass")
    else:
        tree = ast.parse(text)
    node = tree.body[0]
    if head == "else":
        return "else"
    if head == "elif":
        node = node.orelse[0]
    found = sorted((n.lineno, n.col_offset, n.id) for n in ast.walk(tree) if isinstance(n, ast.Name))
    names = list(dict.fromkeys(name for _, _, name in found if name not in ("result", "tag")))
    if isinstance(node, ast.Assign):
        return f"(set n{names.index(node.targets[0].id)}{expr(node.value, names)})"
    if isinstance(node, ast.Expr):
        return f"(tag g{place(node.value.args[0].value, TAGS)})"
    if isinstance(node, ast.Assert):
        return f"(assert{expr(node.test, names)})"
    if isinstance(node, ast.If):
        return f"({head}{expr(node.test, names)})"
    return "pass"


NAMES = ["a", "b", "c_1", "_", "Truth"]


def atom(rng, depth):
    kind = rng.choice(["number", "text", "word", "truth", "name", "name"] + ["group"] * (2 if depth else 0))
    if kind == "number":
        return str(rng.choice([0, 1, 7, 2147483647]))
    if kind == "text":
        return rng.choice(['"PASS"', "'FAIL'", '""', "'a b'", '"#"', "'(or'"])
    if kind == "word":
        return f'result("{rng.choice(TESTS + ["x"])}")'
    if kind == "truth":
        return rng.choice(["True", "False"])
    if kind == "name":
        return rng.choice(NAMES)
    return f"({disjunction(rng, depth - 1)})"


def operand(rng, depth):
    if depth and rng.random() < 0.25:
        return "not " + operand(rng, depth - 1)
    left = atom(rng, depth)
    return f"{left} {rng.choice(['==', '!='])} {atom(rng, depth)}" if rng.random() < 0.4 else left


def conjunction(rng, depth):
    return " and ".join(operand(rng, depth) for _ in range(rng.choice([1, 1, 2, 3])))


def disjunction(rng, depth):
    return " or ".join(conjunction(rng, depth) for _ in range(rng.choice([1, 1, 1, 2, 3])))


def line(rng):
    kind = rng.choice(["set", "set", "tag", "assert", "if", "elif", "else", "pass"])
    text = {
        "set": lambda: f"{rng.choice(NAMES)} = {disjunction(rng, 4)}",
        "tag": lambda: f'tag("{rng.choice(TAGS + ["Z"])}")',
        "assert": lambda: f"assert {disjunction(rng, 4)}",
        "if": lambda: f"if {disjunction(rng, 4)}:",
        "elif": lambda: f"elif {disjunction(rng, 4)}:",
        "else": lambda: "else:",
        "pass": lambda: "pass",
    }[kind]()
    return rng.choice(["", "  ", "    "]) + text + rng.choice(["", "", "  # a comment", " "])


BAD = """else
elif:
if 1
if 1: pass
if :
else 1:
pass pass
pass:
assert
a
a =
a == 1
a = 1 == 1 == 1
a = 1 == not 1
a = 1 and
a = or 1
a = 1 or and 1
a = not
a = (1
a = 1)
a = )1(
a = ()
a = 1 1
a = 1 + 1
a = -1
a = 1 < 2
a = 2147483648
a = 99999999999999999999999
a = "x
tag = 1
result = 1
a = tag
a = result
if = 1
True = 1
1 = 1
a = tag("X")
result("t")
tag("X") tag("Y")
tag("X"):
tag(X)
tag()
tag("X"
assert result(t)
assert result("t"
assert result
print("x")
while 1:
a, b = 1
a = b = 1
a = ((((( 1 )))))
a = not not not not not 1""".split("\n")

MORE = [
    ("a = 1 != (1 == 1)", None),
    ("a = not 1 == 1", None),
    ("a = (1) == (1)", None),
    ("a = ((((1))))", None),
    ("a = not not not not 1", None),
    ("a = not (not (1))", None),
    ("a = 007", "(set n0 7)"),
    ("a = (not 1) == 1", None),
    ("", "nothing"),
    ("# a comment", "nothing"),
    ("a = " + " and ".join(["1"] * 300), None),
    ("a = " + " or ".join(["0 == a"] * 300), None),
]


def cases():
    rng = random.Random(20261128)
    lines = [line(rng) for _ in range(200)]
    for text, said in [(text, "bad") for text in BAD] + MORE + [(text, None) for text in lines]:
        yield text, told(text) if said is None else said


def main():
    made = list(cases())
    tables.save("script_cases", [text for text, _ in made], [said for _, said in made], "tag lines")


main()
