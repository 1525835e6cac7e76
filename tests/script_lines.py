#!/usr/bin/env python3
"""The table 'script lines' of crates/script_cases: lines of scripts, and what each says by Python's own tokenizer.

    tests/script_lines.py [FOLDER]      the table 'script lines' of crates/script_cases

Python reads more than the scripts have. So the lines have no numbers or texts that are written otherwise there: no digit or quote
follows a letter or digit but in a name or number, and no backslash or open text is left to it. These few are told by the rules of
docs/FORMATS.md.
"""

import io
import random
import tokenize

from lib import tables

KEYWORDS = {"and", "assert", "elif", "else", "False", "if", "not", "or", "pass", "True"}

PIECES = (
    ["a", "b_1", "_", "Truth", "iff", "result", "tag", "print", "elsewhere", "x9"]
    + sorted(KEYWORDS)
    + ["0", "12", "2147483648", "66.5", "100.0", "0.000001", '"PASS"', "'a b'", '"it\'s"', "'\"'", '""', "'#'"]
    + ["==", "!=", "<=", ">=", "=", "(", ")", ":", ",", "<", ">", "+", "-", "*", "/", "%", "[", "]", "{", "}", ";", "@", "~", "^", "&", "|"]
)

WORKED = [
    'tb_okay = (result("test_sim") == "PASS")',
    "    if tb_okay and not eq_okay:  # as it stands",
    "else:",
    '  tag("COVERED")\t',
    "a==b!=c",
    "a = = b",
    "===",
    "# a comment",
    "   # an indented one",
    "\t# behind a tab",
    "",
    "  \t ",
    "pass#",
    "if(a):",
    "print('%d'%a)",
]

# line, and what it says by the rules alone
BY_RULE = [
    ("\tpass", "tab: k:Pass"),
    ("  \tpass", "tab: k:Pass"),
    (" pass\t", "1: k:Pass"),
    ('x = "a', "0: bad"),
    ("x = 'a\"", "0: bad"),
    ('x = "a\\n"', "0: bad"),
    ('x = "\\""', "0: bad"),
    ("x = \\", "0: n:x = \\"),
    ("12ab", "0: d:12 n:ab"),
    ("007", "0: d:007"),
    ("1.5", "0: d:1.5"),
    ("1.", "0: d:1 ."),
    (".5", "0: . d:5"),
    ("1 . 5", "0: d:1 . d:5"),
    ("1. 5", "0: d:1 . d:5"),
    ("1.5.2", "0: d:1.5 . d:2"),
    ("1..2", "0: d:1 . . d:2"),
    ("1.5e3", "0: d:1.5 n:e3"),
    ("007.50", "0: d:007.50"),
    ("a < = b", "0: n:a < = n:b"),
    ("a <== b", "0: n:a <= = n:b"),
    ("a => b", "0: n:a = > n:b"),
    ("!a", "0: ! n:a"),
    ("a ! = b", "0: n:a ! = n:b"),
    ("$?`", "0: $ ? `"),
    ('a"b"', "0: n:a t:b"),
    ('"a""b"', "0: t:a t:b"),
    ("\\", "0: \\"),
    ("\t\"", "tab: bad"),
    ("1or 2", "0: d:1 k:Or d:2"),
    ("1or2 and3", "0: d:1 n:or2 n:and3"),
    ("0.5if", "0: d:0.5 k:If"),
    ("a\fb", "0: n:a \f n:b"),
    ("\vpass", "0: \v k:Pass"),
]


def told(line):
    """What Python's tokenizer finds on the line."""
    tokens = []
    for token in tokenize.generate_tokens(io.StringIO(line.strip(" \t") + "\n").readline):
        if token.type == tokenize.NAME:
            tokens.append(("k:" + token.string.capitalize()) if token.string in KEYWORDS else "n:" + token.string)
        elif token.type == tokenize.NUMBER:
            tokens.append("d:" + token.string)
        elif token.type == tokenize.STRING:
            tokens.append("t:" + token.string[1:-1])
        elif token.type in (tokenize.OP, tokenize.ERRORTOKEN):
            tokens += [token.string] if token.string in ("==", "!=", "<=", ">=") else list(token.string)
        elif token.type == tokenize.COMMENT:
            break
    if not tokens:
        return "nothing"
    front = line[: len(line) - len(line.lstrip(" \t"))]
    return " ".join(["tab:" if "\t" in front else f"{len(front)}:"] + tokens)


def random_line(rng):
    """Pieces with blanks between those that Python would read as one."""
    line = rng.choice(["", "", "  ", "    ", "\t", "   "])
    for _ in range(rng.randint(1, 9)):
        piece = rng.choice(PIECES)
        if line and not line[-1].isspace() and (line[-1] in "=!<>+-*/%^&|:@~'\"" or line[-1].isalnum() or line[-1] == "_"):
            line += rng.choice([" ", "  ", "\t"])
        line += piece
    return line + rng.choice(["", "", " ", "# a = 'b", "  #"])


def cases():
    rng = random.Random(20261128)
    lines = WORKED + [random_line(rng) for _ in range(400)]
    # a bracket that is left open would go on on the next line
    return [(line, told(line)) for line in lines if all(line.count(a) == line.count(b) for a, b in ("()", "[]", "{}"))] + BY_RULE


def main():
    made = list(cases())
    tables.save("script_cases", [text for text, _ in made], [said for _, said in made], "script lines")


main()
