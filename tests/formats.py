#!/usr/bin/env python3
"""Makes the table of formats that the program value_cases prints: its input, and the answers of Icarus Verilog.

    tests/formats.py [FOLDER]      the table 'formats' of crates/value_cases; needs iverilog and vvp

A line of the input is the sign of a value, its width and its number, and a format text, as `signed 8:255 <%d>`. Each line is one
`$display` in Verilog, whose arguments are that value, once for each format, and its answer is what the simulator prints. The formats
that are not supported come last, with the answer `not supported`. Icarus gives a padded signed decimal the places of the value of greatest
size; here it has one place more than the greatest unsigned value, so the places of these are worked out by the script.
"""
import os
import random
import re
import subprocess
import tempfile

from lib import tables

WIDTHS = (1, 2, 3, 4, 5, 8, 9, 13, 16, 31, 32, 33, 63, 64, 65, 100, 127, 128)
FORMATS = ("%b", "%o", "%h", "%x", "%d", "%0b", "%0o", "%0h", "%0x", "%0d")
REFUSED = ("%", "%0", "%5d", "%D", "%B", "%v", "%m", "%0s", "%0c", "%0%", "%00d", "a%", "%d %0", "%f")


def values(word, width):
    top = 1 << (width - 1)
    some = {0, 1 % (2 * top), top - 1, top, 2 * top - 1, word.randrange(2 * top), word.randrange(2 * top) & 255}
    return sorted(some)


def cases():
    """Sign, width, value, text of a format."""
    word = random.Random(7)
    for width in WIDTHS:
        for value in values(word, width):
            for sign in ("unsigned", "signed"):
                for text in word.sample(FORMATS, 4):
                    yield sign, width, value, f"<{text}>"
    for value in (0, 9, 10, 12345678901234567890, (1 << 64) - 1):
        for text in ("<%t>", "<%0t>"):
            yield "unsigned", 64, value, text
    for value in (65, 97, 126, 35):
        yield "unsigned", 8, value, "<%c>"
        yield "unsigned", 16, value + 256 * 66, "<%c>"
    for text in ("100%%", "%d%%", "%%%h%%%b", "a%sb", "%s%d%s", "no format", "x=%0d y=%b", "%d%d"):
        for sign in ("unsigned", "signed"):
            yield sign, 8, 200, text


def answer(row, printed):
    """The answer of a row, where the simulator printed this."""
    sign, width, value, text = row
    if sign != "signed" or text != "<%d>":
        return printed
    number = value - (1 << width) if value >> (width - 1) else value
    assert printed.strip("<> ") == str(number), (row, printed)
    return f"<{number:>{len(str((1 << width) - 1)) + 1}}>"


def display(case):
    sign, width, value, text = case
    arguments = [('"word"' if kind == "s" else "a") for kind in re.findall(r"%0?(.)", text.replace("%%", ""))]
    kind = "signed " if sign == "signed" else ""
    return [f"  begin : t{id(case)} reg {kind}[{width - 1}:0] a; a = {width}'h{value:x}; " + f'$display({", ".join([chr(34) + text + chr(34)] + arguments)}); end']


def main():
    rows = list(cases())
    lines = ["module t;", "initial begin"]
    for number, row in enumerate(rows):
        lines += [line.replace(f"t{id(row)}", f"t{number}") for line in display(row)]
    lines += ["end", "endmodule", ""]
    with tempfile.TemporaryDirectory() as folder:
        source, program = os.path.join(folder, "t.v"), os.path.join(folder, "t")
        with open(source, "w") as out:
            out.write("\n".join(lines))
        subprocess.run(["iverilog", "-g2005", "-o", program, source], check=True)
        printed = subprocess.run([program], check=True, capture_output=True, text=True).stdout.split("\n")[:-1]
    assert len(printed) == len(rows), (len(printed), len(rows))
    given = [f"{sign} {width}:{value} {text}" for sign, width, value, text in rows] + [f"unsigned 8:1 {text}" for text in REFUSED]
    tables.save("value_cases", given, [*map(answer, rows, printed), *("not supported" for _ in REFUSED)], "formats")


if __name__ == "__main__":
    main()
