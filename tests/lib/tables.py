"""How every maker of a table is called.

    tests/NAME.py [FOLDER]      writes its tables below FOLDER, which is crates/ of the repository where it is left out

A table is two files of a program of cases: `stdin`, what is given, and `stdout`, what the program has to print. A program that takes
several has each behind a line '§ NAME'. A maker prints which files it wrote, by their paths below FOLDER. `tests/tables.py` calls the makers with
the crates of a copy.
"""

import sys
from pathlib import Path

ROOT = Path(__file__).resolve().parents[2]


def crates():
    """The folder below which tables are written."""
    words = [word for word in sys.argv[1:] if not word.startswith("-")]
    return Path(words[0]) if words else ROOT / "crates"


def text_of(rows):
    """Lines as one text; a text as it is."""
    return rows if isinstance(rows, str) else "".join(f"{row}\n" for row in rows)


def tables_of(text):
    """The tables of a text by name, in order."""
    pieces = ("\n" + text).split("\n§ ")
    named = [piece.split("\n", 1) for piece in pieces[1:]]
    last = len(named) - 1
    return {name: rows if at == last else rows + "\n" for at, (name, rows) in enumerate(named)}


def replaced(text, name, rows):
    """The text with these rows as the table of this name."""
    tables = tables_of(text)
    assert name in tables, f"there is no table {name}"
    tables[name] = rows
    return "".join(f"§ {name}\n{rows}" for name, rows in tables.items())


def save(crate, given, told, name=None):
    """Writes a table: what is given, and what the program has to print. With a name it is one of several."""
    for half, rows in (("stdin", given), ("stdout", told)):
        path = crates() / crate / half
        text = text_of(rows) if name is None else replaced(path.read_bytes().decode(), name, text_of(rows))
        path.write_bytes(text.encode())
        print(f"{crate}/{half}")


def save_part(crate, given, told):
    """A part of a table that has no name. Where the table does not hold it as it is, it is left beside the table, to be put in by hand."""
    for half, rows in (("stdin", given), ("stdout", told)):
        path = crates() / crate / half
        if text_of(rows) not in path.read_bytes().decode():
            path = path.parent / f"{half}.{Path(sys.argv[0]).stem}"
            path.write_text(text_of(rows))
        print(f"{crate}/{path.name}")
