#!/usr/bin/env python3
"""Keeps apart in specs/ what public clauses name, and what is for proofs alone: invariants of loops, statements of lemmas, steps.

    tests/marks.py            names the files in which they are not apart, and ends with status 1 where there is one
    tests/marks.py --write    puts them apart

What public clauses of any crate reach is as `tests/closure.py --unused` says it. What they do not reach stands at the end of its file, in the
order in which it stood, below the line `-- For proofs alone.`; where a whole file is for proofs alone, that line stands above all its
definitions. A paragraph, which ends at an empty line, stays whole: it is reached where one of its definitions is. A comment that stands
alone goes with what follows it up to the next one.
"""
import sys
from pathlib import Path

sys.path.insert(0, str(Path(__file__).resolve().parent))
from closure import ROOT, reached  # noqa: E402
from lib.naming import Naming  # noqa: E402
from lib.repository import Repository  # noqa: E402

MARK = "-- For proofs alone."
HEADS = (MARK, "-- The code's parts.")


def paragraphs(text):
    """The paragraphs of a file, each with the number of its first line. One that is indented goes on with the one before it."""
    found, start = [], None
    lines = text.rstrip("\n").split("\n")
    for number, line in enumerate(lines + [""], 1):
        if line.strip() and start is None:
            start = number
        elif not line.strip() and start is not None:
            block = lines[start - 1:number - 1]
            if found and block[0][0].isspace():
                found[-1] = (found[-1][0], lines[found[-1][0] - 1:number - 1])
            else:
                found.append((start, block))
            start = None
    return found


def is_comment(block):
    return all(line.startswith("--") for line in block)


def is_import(block):
    return any(line.startswith(("use ", "pub use ", "pub mod ")) for line in block)


class Apart:
    """The paragraphs of a file: `heads` with its imports, and then those that clauses reach and those for proofs alone."""

    def __init__(self, text, lines_reached):
        self.heads, self.trusted, self.proofs = [], [], []
        section = []
        for number, block in paragraphs(text):
            if is_import(block) or not (self.trusted or self.proofs or section) and is_comment(block) and number == 1:
                self.heads.append(block)
            elif is_comment(block):
                self.end(section)
                section = [] if "\n".join(block) in HEADS else [(None, block)]
            else:
                span = range(number, number + len(block))
                section.append((any(line in span for line in lines_reached), block))
        self.end(section)

    def end(self, section):
        """A section ends: its comment stands where the first of its paragraphs that clauses reach stands, else with the others."""
        comments = [block for is_reached, block in section if is_reached is None]
        trusted = [block for is_reached, block in section if is_reached]
        proofs = [block for is_reached, block in section if is_reached is False]
        if trusted or not proofs:
            self.trusted += comments + trusted
            self.proofs += proofs
        else:
            self.proofs += comments + proofs

    def text(self):
        mark = [[MARK]] if self.proofs else []
        blocks = self.heads + self.trusted + mark + self.proofs
        return "\n\n".join("\n".join(block) for block in blocks) + "\n"


def main():
    is_write = sys.argv[1:] == ["--write"]
    if sys.argv[1:] and not is_write:
        sys.exit(__doc__)
    repository = Repository(ROOT)
    items = reached(Naming(repository)).items
    wrong = []
    for crate in sorted(repository.crates):
        for file in repository.files(crate, "specs", ".antt"):
            definitions = repository.spec(file).definitions.values()
            if definitions:
                text = (ROOT / file).read_text()
                lines = {it.line for it in definitions if ("spec", file, it.name) in items}
                apart = Apart(text, lines).text()
                if apart != text:
                    wrong.append(file)
                    if is_write:
                        (ROOT / file).write_text(apart)
    for file in wrong:
        print(file)
    print(f"{len(wrong)} files {'were' if is_write else 'are not'} put apart")
    sys.exit(bool(wrong) and not is_write)


if __name__ == "__main__":
    main()
