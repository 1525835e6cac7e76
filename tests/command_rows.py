#!/usr/bin/env python3
"""Words and the commands that they give: a part of the cases of crates/mcy_cases, by the definition alone.

    tests/command_rows.py [FOLDER]      a part of the table of crates/mcy_cases

The first word is the command. Behind `run` stand its options, in any order and each at most once, with a value in the word behind or
joined: `-j N`, `-jN` or `-j=N`, `--stop-after N` or `--stop-after=N`, `--retry N` or `--retry=N`, `--mutations N,N` or
`--mutations=N,N`. Behind `status` may stand `--strict`. Behind `demo` stand a seed and a number of cells. A number is one to ten decimal
digits; that of a retry is round, its digits behind the first two are 0. Any other words give no command. In a case `''` is the empty word.
"""

import re

from lib import tables

PLAIN = "Status { strict: false }"
ALONE = {"init": "Init", "list": "List", "status": PLAIN, "source": "Source", "baseline": "Baseline"}
FIELDS = {"-j": "jobs", "--stop-after": "stop_after", "--retry": "retry"}
NAMES = "--mutations"


class NoCommand(Exception):
    pass


def number(word, accepts):
    """The number that a word says, if it is one of these."""
    if not re.fullmatch("[0-9]{1,10}", word) or not accepts(int(word)):
        raise NoCommand
    return int(word)


def numbers(word):
    """The numbers of mutations that a word says, with a comma between two."""
    return [number(part, lambda n: 1 <= n <= 10000) for part in word.split(",")]


def is_round(limit):
    return 1 <= limit <= 100000 and re.fullmatch("[0-9]{1,2}0*", str(limit)) is not None


ACCEPTS = {"-j": lambda n: 1 <= n <= 64, "--stop-after": lambda n: 1 <= n <= 1000000, "--retry": is_round}


def option(words):
    """The option at the front of these words with its value, and the words behind."""
    word, *more = words
    if word in (*FIELDS, NAMES) and more:
        return word, more[0], more[1:]
    for name in ("--stop-after", "--retry", NAMES):
        if word.startswith(f"{name}="):
            return name, word[len(name) + 1 :], more
    if word.startswith("-j"):
        return "-j", word[2:].removeprefix("="), more
    raise NoCommand


def run(words):
    found = {}
    while words:
        name, value, words = option(words)
        if name in found:
            raise NoCommand
        found[name] = numbers(value) if name == NAMES else number(value, ACCEPTS[name])
    told = {name: f"Some({found[name]})" if name in found else "None" for name in FIELDS}
    command = f"Run {{ jobs: {found.get('-j', 1)}, stop_after: {told['--stop-after']}, retry: {told['--retry']} }}"
    return command, found.get(NAMES, [])


def demo(words):
    if len(words) != 2:
        raise NoCommand
    seed, cells = number(words[0], lambda _: True), number(words[1], lambda n: 1 <= n <= 400)
    return f"Demo {{ seed: {seed}, cells: {cells} }}"


def command(words):
    """The command that the words give, and the mutations that they name."""
    match words:
        case ["run", *more]:
            return run(more)
        case ["demo", *more]:
            return demo(more), []
        case ["status", "--strict"]:
            return "Status { strict: true }", []
        case [word] if word in ALONE:
            return ALONE[word], []
    raise NoCommand


def said(line):
    """What the words of a line give."""
    words = ["" if word == "''" else word for word in line.split()]
    try:
        told, mutations = command(words)
    except NoCommand:
        return "None"
    return f"Some({told})" + (f" of {mutations}" if mutations else "")


def both(name, words):
    """An option with each of these values, in the word behind and joined."""
    return [f"run {name}{gap}{word}" for word in words for gap in " ="]


FIRST = [
    *ALONE, "run", *both("--stop-after", ["1", "120", "007", "1000000", "0000000001"]), "", "''", "Run", "help", "-h", "--help", "--", "init x", "init --", "list x",
    "list --stop-after 1", "source x", "status x", "status --stop-after 1", "status --stop-after=1", "run run", "run --", "run -- --stop-after=1", "run --help",
    "--stop-after 1", "--stop-after=1 run", "run --stop-after", "run --stop-after=", "run --stop-after ''", "run --stop-after= 1", "run --stop-after =1",
    *both("--stop-after", ["0", "1000001", "4294967297", "+1", "-1", "1x", "00000000001"]), "run --stop-after 1 --stop-after 1",
]
SLOTS = [
    *[f"run -j{gap}{word}" for word in ("1", "3", "9", "10", "64", "03", "0000000064") for gap in ("", " ", "=")],
    "run -j 64 --stop-after=1", "run --stop-after 1 -j3", "run -j=3 --retry 9", "run --retry=9 -j 3 --stop-after 7", "run --stop-after=7 --retry 9 -j=64",
    *[f"run -j{gap}{word}" for word in ("0", "00", "65", "640", "4294967297", "00000000003", "+3", "-3", "3x", "x", "0x3", "3.0") for gap in ("", " ", "=")],
    "run -j", "run -j=", "run -j ''", "run -j= 3", "run -j =3", "run -j==3", "run -j 3 3", "run -j --stop-after 1", "run --stop-after -j 3", "run --stop-after 1 -j", "run -j -j 3",
    "run -j 1 -j 2", "run -j1 -j1", "run -j=1 --stop-after 1 -j1", "run -J 3", "run -J3", "run -jj3", "run -x3", "run -j3 x", "run --j 3", "run --j=3", "run --jobs 3", "run -3", "run j3", "run -", "run -j3 run", "run -j3 --", "run -j3 --help",
    "run -j3h", "-j3 run", "-j 3", "init -j 3", "list -j3", "status -j=3", "source -j 3",
]
RETRIES = [
    *both("--retry", ["1", "9", "99", "110", "0110", "990", "12000", "99000", "100000"]), "run --stop-after 1 --retry 9", "run --retry 9 --stop-after 1", "run --retry=9 --stop-after=1",
    "run --stop-after=1 --retry 9", *[f"run --retry {word}" for word in ("0", "101", "111", "1001", "12300", "100001", "110000", "1000000", "4294967306", "''", "+9", "-9", "9x", "00000000009")],
    "run --retry", "run --retry=", "run --retry 9 --retry 9", "run --retry 9 --retry=10", "run --stop-after 1 --stop-after 2 --retry 9", "--retry 9 run", "init --retry 9", "list --retry 9",
    "status --retry=9", "source --retry 9", "run --retry 9 9", "run --stop-after --retry 9",
]
DEMOS = [
    "demo 7 1", "demo 7 20", "demo 0 400", "demo 007 0000000001", "demo 9999999999 400", "demo 4294967296 9", "demo", "demo 7", "demo 7 0", "demo 7 401", "demo 7 4294967297", "demo 7 1 1",
    "demo 10000000000 1", "demo 00000000007 1", "demo 7 00000000001", "demo x 1", "demo 7 x", "demo -7 1", "demo +7 1", "demo 7 +1", "demo 7 -1", "demo '' 1", "demo 7 ''", "demo -- 7 1", "demo 7 1 --", "demo --help",
    "demo -h", "demo -j3 7 1", "demo 7 1 -j3", "demo --stop-after 1 7 1", "demo 7 --retry", "demo demo 1", "Demo 7 1", "7 1 demo", "run demo 7 1", "demo=7 1",
]

STRICT = [
    "baseline x", "baseline --", "baseline --strict", "baseline baseline", "baseline=", "Baseline", "--baseline", "baseline --help", "run baseline", "baseline run", "baseline -j3", "baselines", "base",
    "status --strict", "status --strict --strict", "status --strict=", "status --strict=1", "status --strict 1", "status -strict", "status --Strict", "status --stric", "status --stricter", "status strict",
    "status ''", "status --strict ''", "status --strict --", "status -- --strict", "status --strict --help", "status -h", "--strict status", "--strict", "init --strict", "run --strict", "list --strict",
    "source --strict", "demo --strict 7 1", "demo 7 1 --strict", "status --strict -j3", "status -j3 --strict", "status --stop-after 1 --strict",
]
CHOSEN = [
    *both(NAMES, ["1", "17,23", "23,17", "17,17", "10000", "0000000001,02", "1,2,3,4,5,6,7,8,9,10"]), "run -j3 --mutations 1,2", "run --mutations=1 --retry 9 --stop-after=7 -j=64",
    *both(NAMES, ["0", "10001", "1,0", "1,10001", ",", "1,", ",1", "1,,2", "1;2", "1-2", "+1", "-1", "1x", "x", "4294967297", "00000000001", "1,00000000001", "''"]),
    "run --mutations", "run --mutations=", "run --mutations 1 2", "run --mutations 1, 2", "run --mutations 1 ,2", "run --mutations 1 --mutations 2", "run --mutations 1 --mutations=1", "run --mutations --retry 9",
    "run --retry --mutations 9", "run --mutation 1", "run --mutation=1", "run -m 1", "run --Mutations 1", "run 1,2", "--mutations 1 run", "init --mutations 1", "list --mutations 1", "status --mutations=1",
    "source --mutations 1", "baseline --mutations 1", "demo 7 1 --mutations 1", "run -- --mutations 1", "run --mutations 1 --",
]

PARTS = [
    ("# Commands.", FIRST),
    ("# A run has from 1 to 64 slots, which stand at most once beside its other options.", SLOTS),
    ("# A retry takes a number from 1 to 100,000 whose digits behind the first two are 0, at most once.", RETRIES),
    ("# What benches say of the design is asked with no more words, and a strict status with one.", STRICT),
    ("# A run may be over mutations that it names, each from 1 to 10,000, once or more.", CHOSEN),
    ("# A made project has a seed and from 1 to 400 cells, and no options.", DEMOS),
]


def main():
    given, told = [], []
    for head, lines in PARTS:
        given += [head, *[f"command {line}".rstrip() for line in lines]]
        told += [head, *[f"{line}: {said(line)}" for line in lines]]
    tables.save_part("mcy_cases", given, told)


if __name__ == "__main__":
    main()
