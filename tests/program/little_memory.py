#!/usr/bin/env python3
"""Runs the program with less memory than it wants, from so little that it cannot begin to as much as it takes.

    python3 tests/program/little_memory.py --program FILE [STEP]

FILE is the built program. The limit of its address space grows by STEP kilobytes (16 where it is left out) from call to call. The memory
that the program asks the system for comes in pages, so that each step refuses another allocation. Each call is a `run` in a folder of its
own, whose campaign is empty, stopped midway, finished with a test that was given up, or of the first format. It ends with status 14 and the
line of Memory, with that of a database that the want of memory has shut, as it would with ample memory, or it does not begin. Then the rows
that were there are there still, and a call with ample memory ends with the text and the rows of a campaign that was not disturbed. Ends
with how often each answer came, and the line 'N passed, M failed'.
"""

import collections
import os
import resource
import shutil
import sqlite3
import subprocess
import sys
import tempfile
from pathlib import Path

ROOT = Path(__file__).resolve().parents[2]
ANSWERS = {14: "mcy: no memory\n", 12: "mcy: database fault\n"}
# The answers of the system where the program does not begin, since its own pages or the library's do not fit. Once it has begun under a lesser
# limit, neither may come any more.
NOT_BEGUN = 127, -11
# The first call of these many kilobytes: less than the program takes before it begins.
LEAST = 2048
# How many calls in a row end as with ample memory before the limit is said to be no limit any more.
ENOUGH = 8
ROWS = "SELECT mutation, test, word, mark, tags, bound FROM journal2 ORDER BY seq"
OLD_ROWS = "SELECT mutation, test, word, mark, tags, 20000 FROM journal ORDER BY seq"
# Small pieces, so that the limit is met at another allocation in each step.
PIECES = {"GLIBC_TUNABLES": "glibc.malloc.top_pad=0:glibc.malloc.mmap_threshold=4096"}


def call(program, words, here, kilobytes=None):
    """The status, the text and the lines of a call."""

    def limited():
        if kilobytes is not None:
            resource.setrlimit(resource.RLIMIT_AS, (kilobytes * 1024, kilobytes * 1024))

    ended = subprocess.run([program, *words], cwd=here, env={**os.environ, **PIECES}, capture_output=True, preexec_fn=limited, timeout=120)
    return ended.returncode, ended.stdout.decode(), ended.stderr.decode()


def rows(here):
    """The rows of a folder's database, from a copy."""
    with tempfile.TemporaryDirectory() as other:
        for path in Path(here).glob("mcy.db*"):
            shutil.copy(path, other)
        if not (Path(other) / "mcy.db").exists():
            return []
        database = sqlite3.connect(Path(other) / "mcy.db")
        tables = {name for (name,) in database.execute("SELECT name FROM sqlite_master WHERE type = 'table'")}
        found = [row for table, query in (("journal", OLD_ROWS), ("journal2", ROWS)) if table in tables for row in database.execute(query)]
        database.close()
        return found


class Campaign:
    """A folder as it is before a call, the words of that call, and how it ends with ample memory."""

    def __init__(self, program, example, words, before=(), size=None):
        self.room, self.program, self.words = tempfile.TemporaryDirectory(), program, words
        self.folder = Path(self.room.name) / "folder"
        shutil.copytree(ROOT / example, self.folder)
        if size is not None:
            config = self.folder / "config.mcy"
            config.write_text("".join(f"size {size}\n" if line.startswith("size ") else line for line in config.read_text().splitlines(True)))
        for earlier in before:
            call(program, earlier, self.folder)
        self.before = rows(self.folder)
        with self.copy() as here:
            self.ends = call(program, words, here)
            self.after = rows(here)
        assert self.ends[0] == 0, self.ends

    def copy(self):
        here = tempfile.TemporaryDirectory()
        shutil.copytree(self.folder, here.name, dirs_exist_ok=True)
        return here

    def fault(self, ended, here, has_begun):
        """What is wrong with an answer and what it left, if anything is."""
        status, text, lines = ended
        kept = rows(here)
        if status in ANSWERS and (text != "" or not lines.startswith(ANSWERS[status])):
            return f"status {status} with other lines: {lines!r}"
        if status not in (0, *ANSWERS) and (has_begun or status not in NOT_BEGUN):
            return f"status {status}: {lines!r}"
        if status == 0 and ended != self.ends:
            return "another text"
        if kept != self.after[: len(kept)] or kept[: len(self.before)] != self.before:
            return f"after status {status} the rows are others"
        again = call(self.program, self.words, here)
        # Slots are free again, so that the rows may come in another order.
        if again != self.ends or sorted(rows(here)) != sorted(self.after):
            return f"after status {status} the campaign does not go on: {again}"
        return None

    def tried(self, step):
        """The answer of each call, and what is wrong with it."""
        kilobytes, whole, has_begun = LEAST, 0, False
        while whole < ENOUGH:
            with self.copy() as here:
                ended = call(self.program, self.words, here, kilobytes)
                has_begun = has_begun or ended[0] not in NOT_BEGUN
                yield kilobytes, ended[0], self.fault(ended, here, has_begun)
            whole = whole + 1 if ended[0] == 0 else 0
            kilobytes += step


def campaigns(program):
    yield Campaign(program, "examples/counter", ["run"])
    yield Campaign(program, "examples/counter", ["run", "-j64"], [["run", "--stop-after", "2"]])
    yield Campaign(program, "examples/given_up", ["run", "--retry", "9"], [["run"]])
    yield Campaign(program, "tests/first_format", ["run", "-j3"])
    yield Campaign(program, "examples/arbiter", ["run", "-j4"], size=4)


def main():
    words = sys.argv[1:]
    assert words[:1] == ["--program"], __doc__
    program, step = os.path.realpath(words[1]), int(words[2]) if len(words) > 2 else 16
    passed, failed, answers = 0, 0, collections.Counter()
    for campaign in campaigns(program):
        for kilobytes, status, fault in campaign.tried(step):
            answers[status] += 1
            passed, failed = passed + (fault is None), failed + (fault is not None)
            if fault is not None:
                print(f"FAILED: {' '.join(campaign.words)} with {kilobytes} KB: {fault}", flush=True)
    print(", ".join(f"status {status}: {count}" for status, count in sorted(answers.items())))
    print(f"{passed} passed, {failed} failed")
    sys.exit(1 if failed else 0)


if __name__ == "__main__":
    main()
