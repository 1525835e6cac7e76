#!/usr/bin/env python3
"""Makes the tables of the programs of cases anew, and compares them with what stands in their crates.

usage: tests/tables.py [NAME..]      the makers tests/NAME.py, all where none is named; those of Icarus Verilog need iverilog and vvp

Each maker writes into a copy of crates' tables, so nothing here is changed. Tells each table that is another one, and ends with the line
'N passed, M failed'.
"""

import subprocess
import sys
import tempfile
from pathlib import Path

ROOT = Path(__file__).resolve().parent.parent
MAKERS = ROOT / "tests"
# Scripts there that make no table.
OTHERS = ("closure", "dear", "gate_minutes", "paths", "tables")


def tables(crates):
    """The tables below a folder of crates, by their paths in it."""
    return {path.relative_to(crates): path.read_bytes() for path in crates.glob("*/std*") if path.is_file()}


def copy_tables(crates):
    for path, text in tables(ROOT / "crates").items():
        (crates / path).parent.mkdir(exist_ok=True)
        (crates / path).write_bytes(text)


def others(maker):
    """The tables of a maker that are not what it makes, or its own name where it makes none."""
    with tempfile.TemporaryDirectory() as folder:
        crates = Path(folder)
        copy_tables(crates)
        told = subprocess.run([sys.executable, MAKERS / f"{maker}.py", crates], check=True, stdout=subprocess.PIPE, text=True).stdout
        made = [line for line in told.splitlines() if (crates / line).is_file()]
        stand = tables(ROOT / "crates")
        return [name for name in made if stand.get(Path(name)) != (crates / name).read_bytes()] if made else [maker]


def main():
    makers = sys.argv[1:] or sorted(path.stem for path in MAKERS.glob("*.py") if path.stem not in OTHERS)
    failed = 0
    for maker in makers:
        wrong = others(maker)
        failed += bool(wrong)
        for name in wrong:
            print(f"FAILED: crates/{name} is not what tests/{maker}.py makes", flush=True)
    print(f"{len(makers) - failed} passed, {failed} failed")
    sys.exit(1 if failed else 0)


if __name__ == "__main__":
    main()
