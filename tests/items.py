#!/usr/bin/env python3
"""Makes the table `items` of crates/flat_cases: designs, and the signals and items that they are flattened to.

    tests/items.py [FOLDER]      the table `items` of crates/flat_cases

The designs of item_hand.py are worked out by hand. The others are drawn by a seeded generator as lists of modules, with few names,
so that names meet. What each gives is worked out in item_design.py from these lists, by the rules of IEEE 1364-2005, 4, 5 and 12.1
to 12.4, and not from the text.
"""

import itertools
import sys

sys.dont_write_bytecode = True

from lib.item_design import Design
from lib.item_draw import Draw
from lib.item_exprs import Text
from lib.item_hand import HAND
from lib import tables

CASES = 80

# the most lines that are printed of a drawn design
LONGEST = 90


def drawn(seed):
    """The lines of a design, and what is printed."""
    modules, top = Draw(seed).design()
    text = Text()
    for k, module in enumerate(modules):
        if k:
            text.line(0)
        module.write(text)
    return text.lines + [f"flatten {top}"], Design(modules).flatten(top)


def hand():
    """The lines of the designs that are worked out by hand, and what is printed."""
    lines, wanted = [], []
    for line in HAND.splitlines():
        if line.startswith("> "):
            wanted.append(line[2:])
        else:
            lines.append(line)
            if line.startswith("#"):
                wanted.append(line)
    return lines, wanted


def long():
    """Many instances in a row, and a deep chain of instances: for each instance an output is declared, an assignment listed."""
    count = 4000
    row = ["module leaf(output y);", "assign y = 1;", "endmodule", "module top;"]
    for k in range(0, count, 40):
        row.append("leaf " + ", ".join(f"u{k + j}()" for j in range(40)) + ";")
    row += ["endmodule", "count top"]
    row_wanted = [f"{count} signals, {2 * count} items"]
    depth = 100
    chain = ["module m0(input a);", "wire w = a;", "endmodule"]
    for k in range(1, depth + 1):
        chain += [f"module m{k}(input a);", f"m{k - 1} u(a);", "endmodule"]
    # the top has its port; each of the others has its port and the connection; the last one has its net and what drives it
    chain_wanted = [f"{depth + 2} signals, {1 + 2 * depth + 2} items"]
    return row + chain + [f"count m{depth}"], row_wanted + chain_wanted


def main():
    lines, wanted = hand()
    cases = (drawn(seed) for seed in itertools.count())
    short = (case for case in cases if len(case[1]) <= LONGEST)
    for part, part_wanted in [long()] + list(itertools.islice(short, CASES)):
        lines += part
        wanted += part_wanted
    tables.save("flat_cases", lines, wanted, "items")


if __name__ == "__main__":
    main()
