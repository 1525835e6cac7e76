#!/usr/bin/env python3
"""Tries wrong bodies over proved libraries, for tests/edits.sh: each has to be refused in a function that it changes.

usage: edit_tries.py COPY TABLE JOBS CRATE..

COPY is a copy of the repository whose libraries `rt ci` has proved and built, each crate's edits in its must-fail/. Of a crate only the
functions are checked that an edit changes, and those that they call: of others a proof reads no more than the contract. Edits of different
functions are tried in one check; one that it does not refuse is tried alone, and then in the whole crate. Where an answer that is written for a
goal no longer fits, the prover has to find none either. Each row goes to TABLE as it comes, and what TABLE has of the same text is not tried
again. Ends with 1 where an edit is not refused.
"""

import concurrent.futures
import glob
import hashlib
import os
import re
import shutil
import subprocess
import sys
import tempfile
import threading
import time

import edit_files

KIT = os.path.dirname(os.path.dirname(os.path.realpath(shutil.which("rt"))))
PARTS = "src", "specs", "proofs"

# What a try comes to, in the order of what it shows: a goal of the function is shown false, or is open; its written proof no longer fits; the
# crate as a whole is not proved. Then what shows nothing.
SHOWN, OPEN, PROOF, CRATE = "shown false", "open goal", "its proof", "the crate"
NAMES, LIMIT, ANSWER, PASSED, BAD = "names alone", "a limit", "AN OLD ANSWER ALONE", "NOT REFUSED", "BAD EDIT"
REFUSED = SHOWN, OPEN, PROOF, CRATE
KINDS = *REFUSED, NAMES, LIMIT

IS_OPEN = re.compile(r"it is not proved that|`(search|grind)` (found no proof|gave up)")
IS_FALSE = "at which this goal is false"
OF_NAMES = re.compile(r"has no field|is not in scope|has no `|was not admitted|is no name")
# A line with a place, behind which the prover's further lines on it come.
TOLD = re.compile(r"^(?:note: |warning: )?(?:\./)?((?:src|specs|proofs)/[^:\s]+):(\d+):\d+: (.*)")


def read(file):
    with open(file, encoding="utf-8") as it:
        return it.read()


def write(file, text):
    with open(file, "w", encoding="utf-8") as it:
        it.write(text)


def sum_of(*parts):
    return hashlib.sha256(repr(parts).encode()).hexdigest()[:16]


def without_answers(text, names):
    """A file of answers without the declarations of these names."""
    parts = re.split(r"(?m)^(?=(?:pub )?\S+ : )", text)
    return "".join(it for it in parts if it.removeprefix("pub ").split(" ", 1)[0] not in names)


class Crate:
    """A crate of the copy."""

    def __init__(self, copy, name, below):
        self.copy, self.name, self.below = copy, name, below
        self.folder = f"{copy}/crates/{name}"

    def libraries(self):
        """The crates of the repository below this one."""
        found, left = {}, [self.name]
        while left:
            new = [it for it in self.below[left.pop()] if it in self.below and it not in found]
            found.update(dict.fromkeys(new))
            left += new
        return sorted(found)

    def texts(self):
        """All files of its sources, contracts and proofs, with what they say."""
        every = [it for part in PARTS for it in glob.glob(f"{self.folder}/{part}/**", recursive=True)]
        return [(it.removeprefix(self.copy), read(it)) for it in sorted(every) if os.path.isfile(it)]

    def words(self):
        root = "main" if os.path.exists(f"{self.folder}/src/main.rt") else "lib"
        words = ["--crate-name", self.name, f"src/{root}.rt", "-L", f"dependency={KIT}/rlibs"]
        for it in ["std", *self.below[self.name]]:
            where = f"{self.copy}/crates/{it}/out/rlib" if it in self.below else f"{KIT}/rlibs"
            words += ["--extern", f"{it}={where}/{it}.rlib"]
        for it in self.libraries():
            words += ["-L", f"dependency={self.copy}/crates/{it}/out/rlib"]
        words += ["--antt-project", f"{KIT}/rattle/logic/antt-project.json", "--logic-built", f"{KIT}/logic_built"]
        return [*words, "--links", f"{self.name}=", "--incremental", f"{self.copy}/kept/{self.name}", "--jobs", "1"]

    def check(self, edits, only, without=()):
        """Checks the crate with these edits and without these answers, each with its file; of it the functions that are named, or all where none
        is. Gives the exit status and what the prover tells."""
        os.makedirs(f"{self.copy}/kept/{self.name}", exist_ok=True)
        with tempfile.TemporaryDirectory(prefix="edit-", dir=self.copy) as room:
            for part in PARTS:
                if os.path.isdir(f"{self.folder}/{part}"):
                    shutil.copytree(f"{self.folder}/{part}", f"{room}/{part}")
            for path, text in edit_files.texts_with(self.folder, edits).items():
                write(f"{room}/{path}", text)
            for path in {it for it, _ in without}:
                write(f"{room}/{path}", without_answers(read(f"{room}/{path}"), {name for it, name in without if it == path}))
            words = [*self.words(), *[word for it in only for word in ("--only", it)]]
            how = {"cwd": room, "stdin": subprocess.DEVNULL, "stdout": subprocess.PIPE, "stderr": subprocess.STDOUT}
            ran = subprocess.run([f"{KIT}/bin/rattle", "check", *words], errors="replace", **how)
        return ran.returncode, ran.stdout.split("\n")


def told_of(function, texts, lines):
    """What the prover tells of a function's own goals and of its proof: whether it is of a goal, and the line with those behind it."""
    own, told = function.lines_in(texts[function.file]), []
    for line in lines:
        found = TOLD.match(line)
        if found and IS_OPEN.search(found[3]) and found[1] == function.file and int(found[2]) in own:
            told.append((True, line))
        elif found and function.has_proof_in(found[1]) and "error" in found[3]:
            told.append((False, line))
        elif told and not found and not re.match(r"(fn|struct|enum|note:|help:) ?", line):
            told[-1] = (told[-1][0], f"{told[-1][1]}\n{line}")
    return told


def told_at_all(lines):
    """What the prover tells of any goal and proof."""
    return [(bool(IS_OPEN.search(it)), it) for it in lines if TOLD.match(it) and (IS_OPEN.search(it) or ": error" in it)]


def kind_of(told):
    """What lines of goals and proofs show, and the first of those that show the most."""
    kinds = (
        (SHOWN, lambda is_goal, it: is_goal and IS_FALSE in it),
        (OPEN, lambda is_goal, it: is_goal),
        (PROOF, lambda is_goal, it: not OF_NAMES.search(it.split("\n")[0])),
        (NAMES, lambda is_goal, it: True),
    )
    for kind, test in kinds:
        for is_goal, it in told:
            if test(is_goal, it):
                return kind, it.split("\n")[0]
    return None


def verdict_of(function, texts, lines, is_alone):
    """What a check came to for a function that an edit changes, and the line that says so; or nothing where it says nothing of it."""
    status = next((it for it in lines if function.is_told(it)), "")
    if not status or re.search(r": (proved|no holes)$", status):
        return None
    told = told_of(function, texts, lines)
    if is_alone and not told:
        # (of a cycle of functions, say: nothing but this edit makes the crate another)
        told = told_at_all(lines)
    return kind_of(told) or ((LIMIT, status) if "could not tell" in status else None)


def verdict(crate, edit, edits, status, lines):
    """What a check of the functions that these edits change came to for one of them, or nothing where it says nothing of it."""
    if status not in (1, 3):
        return None
    texts = edit_files.texts_with(crate.folder, edits)
    found = [verdict_of(it, texts, lines, len(edits) == 1) for it in edit.functions if it]
    return min((it for it in found if it), key=lambda it: KINDS.index(it[0]), default=None)


def try_whole(crate, edit):
    """Tries an edit in the whole crate."""
    status, lines = crate.check([edit], [])
    if status == 0:
        return PASSED, "the crate is still proved"
    found = kind_of(told_at_all(lines)) if status == 1 and any(it.startswith("logic=not-proved") for it in lines) else None
    if found:
        return found if found[0] == NAMES else (CRATE, found[1])
    return (LIMIT if status == 3 else BAD), next((it for it in lines if "error" in it), f"status {status}")


def old_answers(edit, lines):
    """The answers in the proofs of what an edit changes that the prover refuses, or does not check for others that it refuses, with their files."""
    found = set()
    for line in lines:
        told = TOLD.match(line)
        if told and told[1].endswith("/Answers.antt") and any(it and it.has_proof_in(told[1]) for it in edit.functions):
            refused = re.match(r"error: `([^`]+)`: ", told[3])
            waiting = re.search(r"were not checked: (.*)", told[3])
            names = [refused[1]] if refused else re.sub(r" \([^)]*\)", "", waiting[1]).split(", ") if waiting else []
            found |= {(told[1], name) for name in names}
    return found


def try_without(crate, edit, lines):
    """Tries an edit once more without the answers that no longer fit: what the goals come to then."""
    without = old_answers(edit, lines)
    if not without:
        return None
    status, lines = crate.check([edit], paths_of([edit]), without)
    return (ANSWER, "proved without its answers") if status == 0 else verdict(crate, edit, [edit], status, lines)


def paths_of(edits):
    return sorted({it.path for edit in edits for it in edit.functions if it})


def tries(crate, edits):
    """Tries the edits of a round, and gives each with its seconds and with what it came to."""
    began = time.monotonic()
    is_of_bodies = not any(None in it.functions for it in edits)
    ran = crate.check(edits, paths_of(edits)) if is_of_bodies else (2, [])
    each = (time.monotonic() - began) / len(edits)
    for edit in edits:
        began, own = time.monotonic(), ran
        found = verdict(crate, edit, edits, *own)
        if (not found or found[0] == LIMIT) and len(edits) > 1:
            own = crate.check([edit], paths_of([edit]))
            found = verdict(crate, edit, [edit], *own)
        if not found:
            found = try_whole(crate, edit)
        elif found[0] in (PROOF, NAMES):
            found = try_without(crate, edit, own[1]) or found
        yield edit, each + time.monotonic() - began, found


class Table:
    """The rows of earlier runs and of this one."""

    def __init__(self, file):
        self.file, self.lock, self.rows = file, threading.Lock(), {}
        if os.path.exists(file):
            for line in read(file).splitlines():
                crate, name, kind, _, sum, _ = line.split("\t")
                self.rows[crate, name, sum] = kind

    def add(self, crate, name, sum, seconds, kind, told):
        with self.lock:
            self.rows[crate, name, sum] = kind
            with open(self.file, "a", encoding="utf-8") as it:
                print(crate, name, kind, f"{seconds:.0f}", sum, told.replace("\t", " ")[:300], sep="\t", file=it)
            print(f"{crate}/{name}: {kind}, {seconds:.0f} s: {told[:200]}", flush=True)


def try_crate(crate, below, table):
    """Tries the edits of a crate that the table does not have, and returns what all came to."""
    stands_on = sum_of(read(f"{KIT}/KIT-ID"), [it.texts() for it in (crate, *below)])
    sums, left = {}, []
    for file in sorted(glob.glob(f"{crate.folder}/must-fail/*.edit")):
        name = os.path.basename(file).removesuffix(".edit")
        sums[name] = sum_of(stands_on, read(file))
        if (crate.name, name, sums[name]) in table.rows:
            continue
        try:
            left.append(edit_files.read_edit(crate.folder, file))
        except edit_files.Unfit as why:
            table.add(crate.name, name, sums[name], 0, BAD, str(why))
    for edits in edit_files.rounds_of(left):
        for edit, seconds, found in tries(crate, edits):
            table.add(crate.name, edit.name, sums[edit.name], seconds, *found)
    shutil.rmtree(f"{crate.copy}/kept/{crate.name}", ignore_errors=True)
    return [table.rows[crate.name, name, sum] for name, sum in sums.items()]


def main(copy, file, jobs, *names):
    lines = [line.split("#")[0].partition(":") for line in read(f"{copy}/crates.txt").splitlines()]
    below = {name.strip(): rest.split() for name, _, rest in lines if name.strip()}
    table, crates = Table(file), {it: Crate(copy, it, below) for it in below}
    call = lambda it: try_crate(it, [crates[other] for other in it.libraries()], table)
    with concurrent.futures.ThreadPoolExecutor(int(jobs)) as pool:
        came_to = [it for found in pool.map(call, [crates[it] for it in names]) for it in found]
    refused = sum(it in REFUSED for it in came_to)
    print(f"{refused} of {len(came_to)} edits refused: {', '.join(f'{came_to.count(it)} {it}' for it in sorted(set(came_to)))}")
    return refused != len(came_to)


if __name__ == "__main__":
    sys.exit(main(*sys.argv[1:]))
