#!/usr/bin/env python3
"""The table `texts` of crates/search_cases: texts, and the site that each is or the first byte after which no site text goes on.

    tests/site_texts.py [FOLDER]      the table `texts` of crates/search_cases

A site text is told by a regular expression and by what its fields may be. That some site text begins with given bytes is told by one:
all ends of many site texts are tried behind them, also with bytes between that end a character of UTF-8.
"""

import re

from lib import tables

MODES = ["inv", "const0", "const1", "cnot0", "cnot1"]
PORTS = {"cell": "ABSDY", "reg": "DQ"}
FORM = re.compile(
    r"(inv|const0|const1|cnot0|cnot1) ([^ \t\n\r\f]+) (cell|reg) ([^ \t\n\r\f]+) ([ABSDYQ]) (0|[1-9][0-9]*)(?: (0|[1-9][0-9]*))? ([^ \t\n\r\f]+):([1-9][0-9]*)"
)


def site_of(text):
    """The fields of a site text."""
    try:
        form = FORM.fullmatch(text.decode("utf-8"))
    except UnicodeDecodeError:
        return None
    if not form:
        return None
    mode, top, place, name, port, bit, control, file, line = form.groups()
    fits = port in PORTS[place] and int(bit) < 128 and int(line) < 2**32 and (control is not None) == mode.startswith("cnot")
    if control is not None:
        fits = fits and int(control) < 128 and (int(control) == int(bit) + 1 or (int(bit) > 0 and int(control) == 0))
    return (mode, top, place, name, port, bit, control or "", file, line) if fits else None


def whole_texts():
    for mode in MODES:
        for place, ports in PORTS.items():
            for port in ports:
                for bit in range(128):
                    controls = [control for control in {bit + 1, 0 if bit else 1} if control < 128]
                    for control in [f" {control}" for control in controls] if mode.startswith("cnot") else [""]:
                        yield f"{mode} a {place} a {port} {bit}{control} a:1".encode()


ENDS = sorted({text[at:] for text in whole_texts() for at in range(len(text) + 1)}, key=len)
REST_OF_CHARACTER = [b"", b"\x80", b"\x80\x80", b"\x80\x80\x80", b"\xa0\x80", b"\x90\x80\x80"]


def goes_on(front):
    return any(site_of(front + rest + end) for rest in REST_OF_CHARACTER for end in ENDS)


def answer(text):
    site = site_of(text)
    if site:
        mode, *fields = site
        return "|".join([mode.capitalize(), *fields])
    at = 0
    while at < len(text) and goes_on(text[: at + 1]):
        at += 1
    return f"Bad({at})"


CASES = {
    "the and gate": ["inv g cell and_0 A 0 g.v:2", "inv g cell", "inv g cell and_0 Y 0 g.v:2", "const1 g cell and_0 B 0 rtl/g.v:4294967295"],
    "registers": ["const0 top reg state D 7 top.v:1", "inv top reg u1.state Q 0 a.v:10", "inv top reg state A 0 a.v:1", "inv top reg state Y 0 a.v:1"],
    "control bits": [
        "cnot0 g cell add_1 A 0 1 g.v:2",
        "cnot1 g cell add_1 A 7 0 g.v:2",
        "cnot1 g cell add_1 A 7 8 g.v:2",
        "cnot0 g cell add_1 A 0 0 g.v:2",
        "cnot0 g cell add_1 A 3 5 g.v:2",
        "cnot0 g cell add_1 A 12 14 g.v:2",
        "cnot0 g cell add_1 A 12 1 g.v:2",
        "cnot0 g cell add_1 A 127 0 g.v:2",
        "cnot0 g cell add_1 A 127 128 g.v:2",
        "cnot0 g cell add_1 A 126 127 g.v:2",
        "cnot0 g cell add_1 A 5 g.v:2",
        "inv g cell add_1 A 5 6 g.v:2",
        "inv g cell add_1 A 5 6:2",
    ],
    "texts that end too early": ["", "i", "inv", "inv ", "inv g", "inv g ", "inv g cell and_0 A", "inv g cell and_0 A 1", "inv g cell and_0 A 1 ", "inv g cell and_0 A 0 g.v", "inv g cell and_0 A 0 g.v:"],
    "modes and places": ["Inv g cell a A 0 g.v:2", "invert g cell a A 0 g.v:2", "const2 g cell a A 0 g.v:2", "cnot g cell a A 0 g.v:2", "con", "const", "inv g cells a A 0 g.v:2", "inv g ref a A 0 g.v:2", "inv g x"],
    "spaces": [" inv g cell a A 0 g.v:2", "inv  g cell a A 0 g.v:2", "inv g  cell a A 0 g.v:2", "inv g cell a A 0 g.v:2 ", "inv\\09g cell a A 0 g.v:2", "inv g\\0a cell a A 0 g.v:2", "inv g cell a\\0c A 0 g.v:2", "inv g cell a A 0 g.v:2\\0a", "inv g cell a A 0 g.v:2\\0d"],
    "ports and bits": ["inv g cell a C 0 g.v:2", "inv g cell a AB 0 g.v:2", "inv g cell a Q 0 g.v:2", "inv g cell a A 00 g.v:2", "inv g cell a A 01 g.v:2", "inv g cell a A 128 g.v:2", "inv g cell a A 130 g.v:2", "inv g cell a A 127 g.v:2", "inv g cell a A 1270 g.v:2", "inv g cell a A -1 g.v:2", "inv g cell a A x g.v:2"],
    "files and lines": ["inv g cell a A 0 :2", "inv g cell a A 0 ::2", "inv g cell a A 0 c:a.v:2", "inv g cell a A 0 a.v:0", "inv g cell a A 0 a.v:02", "inv g cell a A 0 a.v:4294967296", "inv g cell a A 0 a.v:2:", "inv g cell a A 0 a.v:+2", "inv g cell a A 0 a.v:2x", "inv g cell a A 0 7:7"],
    "UTF-8": [
        "inv \\c3\\a9 cell \\e2\\82\\ac A 0 \\f0\\9f\\92\\a1.v:2",
        "inv \\ff cell a A 0 a.v:2",
        "inv a\\c0\\80 cell a A 0 a.v:2",
        "inv a\\c1 cell a A 0 a.v:2",
        "inv a\\c2 cell a A 0 a.v:2",
        "inv a\\80 cell a A 0 a.v:2",
        "inv a\\e0\\80\\80 cell a A 0 a.v:2",
        "inv a\\e0\\a0 cell a A 0 a.v:2",
        "inv a\\ed\\9f\\bf cell a A 0 a.v:2",
        "inv a\\ed\\a0\\80 cell a A 0 a.v:2",
        "inv a\\f0\\8f\\80\\80 cell a A 0 a.v:2",
        "inv a\\f0\\90\\80 cell a A 0 a.v:2",
        "inv a\\f4\\8f\\bf\\bf cell a A 0 a.v:2",
        "inv a\\f4\\90\\80\\80 cell a A 0 a.v:2",
        "inv a\\f5 cell a A 0 a.v:2",
        "inv g cell a A 0 a.v\\e2\\82",
        "inv g cell a A 0 a.v\\e2\\82:2",
        "inv g cell a A 0 \\c2",
    ],
}


def unescaped(text):
    return re.sub(rb"\\(..)", lambda hit: bytes([int(hit[1], 16)]), text.encode())


def main():
    given, told = [], []
    for title, texts in CASES.items():
        given += [f"# {title}", *texts]
        told += [f"# {title}", *(answer(unescaped(text)) for text in texts)]
    tables.save("search_cases", given, told, name="texts")


if __name__ == "__main__":
    main()
