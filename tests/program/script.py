#!/usr/bin/env python3
"""What the script `mcy` does before it runs the program: when it builds one, when it takes one that is there, and what it leaves behind.

usage: tests/program/script.py

Each case is a repository of three crates with the script, and a made-up `rt` that makes programs that are none, so nothing is proved. Tells what
is wrong, and ends with the line 'N passed, M failed'.
"""

import os
import shutil
import signal
import subprocess
import sys
import tempfile
import time
from pathlib import Path

from progress import on_terminal

ROOT = Path(__file__).resolve().parents[2]

# What stands in for `rt`: it notes the call with what the copy has, and does what KIT_DOES says.
KIT = r"""#!/bin/sh
echo "$*: $(cat crates.txt | tr '\n' ' ')$(find crates -type f | sort | tr '\n' ' ')" >>"$NOTES/calls"
echo $$ >"$NOTES/kit"
does() {
    mkdir -p crates/mcy/out
    printf '#!/bin/sh\n%s\n' "$1" >crates/mcy/out/mcy
    chmod 755 crates/mcy/out/mcy
}
case $KIT_DOES in
    nothing) echo "rt: nothing is proved"; exit 1 ;;
    half) does 'exit 3' ;;
    unproved) does "$PROGRAM"; exit 1 ;;
    endless) does "$PROGRAM"; exec sleep 600 ;;
    program) does "$PROGRAM" ;;
    slow)
        echo "== low" && echo "rt: low: its tests are proved" && sleep 2 && echo "rt: low proved"
        sleep 2 && echo "rt: mcy is kept: an earlier run proved the same"
        sleep 3
        does "$PROGRAM"
        ;;
esac
"""
# A program that tells who made it, its folder and its words.
PROGRAM = '[ $# = 0 ] && exit 2\necho "{name}: $PWD: $*"\nexit 9'


class Repository:
    """Crates with the script `mcy`, which is called by a link in another folder, with words of which one has a blank."""

    def __init__(self, room):
        self.room = room
        self.top = room / "a folder"
        self.link = room / "links" / "a link"
        self.notes = room / "notes"
        self.copies = room / "copies"
        for folder in (self.link.parent, self.notes, self.copies, room / "bin", self.top / "build"):
            folder.mkdir(parents=True)
        for crate in ("low", "mcy", "above"):
            self.write(f"crates/{crate}/src/{crate}.rt", "")
        self.write("crates/low/must-fail/wrong.edit", "")
        self.write("crates/low/edits/wrong.edit", "")
        self.write("crates/low/out/made", "")
        self.write("crates.txt", "# Lowest first.\nlow:\nmcy: low\nabove: low mcy\n")
        self.write("HANDLES", "")
        shutil.copy(ROOT / "mcy", self.top)
        shutil.copy(ROOT / "build" / "copy.sh", self.top / "build")
        self.link.symlink_to(self.top / "mcy")
        kit = room / "bin" / "rt"
        kit.write_text(KIT)
        kit.chmod(0o755)

    def write(self, name, text):
        file = self.top / name
        file.parent.mkdir(parents=True, exist_ok=True)
        file.write_text(text)
        return file

    def around(self, does):
        """The environment of a call in which the kit does this."""
        path = f"{self.room / 'bin'}:{os.environ['PATH']}"
        program = PROGRAM.format(name="built")
        return {**os.environ, "PATH": path, "TMPDIR": str(self.copies), "NOTES": str(self.notes), "KIT_DOES": does, "PROGRAM": program}

    def begin(self, does):
        call = [self.link, "status", "two words"]
        return subprocess.Popen(call, cwd=self.link.parent, env=self.around(does), stdout=subprocess.PIPE, stderr=subprocess.PIPE, text=True, start_new_session=True)

    def call(self, does):
        """The status and the text of a call in which the kit does this, and its lines."""
        call = self.begin(does)
        text, lines = call.communicate(timeout=60)
        assert not [*self.copies.iterdir()], "a copy is left behind"
        return call.returncode, text, lines

    def calls(self):
        """What the kit was called with."""
        calls = self.notes / "calls"
        return calls.read_text().splitlines() if calls.exists() else []

    def answer(self, name):
        """The answer of the program that was made so."""
        return 9, f"{name}: {self.link.parent}: status two words\n"

    def changes(self):
        """Has a source that is newer than all else."""
        time.sleep(0.02)
        (self.top / "crates/low/src/low.rt").touch()

    def passes(self, program):
        """Has a gate that has passed and has left this program."""
        time.sleep(0.02)
        self.write("out/gate", "")
        self.write("crates/mcy/out/mcy", f"#!/bin/sh\n{program}\n").chmod(0o755)


def answers(it, does, name, calls):
    """A call is answered by the program that was made so, after so many calls of the kit in all."""
    told = it.call(does)
    assert told[:2] == it.answer(name), told
    assert len(it.calls()) == calls, it.calls()


def fails(it, does, calls):
    """A call ends with status 70 and with the kit's lines."""
    status, text, lines = it.call(does)
    assert (status, text) == (70, ""), (status, text, lines)
    assert lines.splitlines()[-1] == "mcy: the program was not built", lines
    assert len(it.calls()) == calls, it.calls()
    return lines


def a_missing_program_is_built(it):
    answers(it, "program", "built", 1)
    call = it.calls()[0]
    assert call == "ci: low: mcy: low crates/low/src/low.rt crates/mcy/src/mcy.rt ", call


def a_current_program_is_run(it):
    answers(it, "program", "built", 1)
    answers(it, "nothing", "built", 1)


def a_program_older_than_a_source_is_built(it):
    answers(it, "program", "built", 1)
    it.changes()
    answers(it, "program", "built", 2)


def a_source_that_changes_meanwhile_counts(it):
    call = it.begin("slow")
    while not it.calls():
        time.sleep(0.02)
    it.changes()
    assert (call.communicate(timeout=60)[0], call.returncode) == it.answer("built")[::-1], call.returncode
    answers(it, "program", "built", 2)


def a_failed_build_leaves_the_program(it):
    assert "rt: nothing is proved" in fails(it, "nothing", 1)
    answers(it, "program", "built", 2)
    was = (it.top / "out/mcy").read_bytes()
    it.changes()
    for count, does in enumerate(("nothing", "half", "unproved")):
        fails(it, does, 3 + count)
        assert (it.top / "out/mcy").read_bytes() == was, does
    answers(it, "program", "built", 6)


def the_gates_program_is_taken(it):
    it.passes(PROGRAM.format(name="gate"))
    answers(it, "nothing", "gate", 0)
    answers(it, "nothing", "gate", 0)
    it.changes()
    answers(it, "program", "built", 1)
    it.changes()
    it.passes(PROGRAM.format(name="gate"))
    answers(it, "nothing", "gate", 1)


def a_gates_program_that_is_none_is_not_taken(it):
    it.passes("exit 3")
    answers(it, "program", "built", 1)


def a_program_of_no_passed_gate_is_not_taken(it):
    it.passes(PROGRAM.format(name="gate"))
    (it.top / "out/gate").unlink()
    answers(it, "program", "built", 1)


def an_interrupted_build_leaves_nothing(it):
    answers(it, "program", "built", 1)
    was = (it.top / "out/mcy").read_bytes()
    for count, (sent, status) in enumerate(((signal.SIGTERM, 143), (signal.SIGINT, 130), (signal.SIGHUP, 129))):
        it.changes()
        call = it.begin("endless")
        while len(it.calls()) < 2 + count:
            time.sleep(0.02)
        time.sleep(0.1)
        # As a terminal sends them, to all that the call has begun.
        os.killpg(call.pid, sent)
        text, lines = call.communicate(timeout=60)
        assert (call.returncode, text) == (status, ""), (call.returncode, text, lines)
        assert not [*it.copies.iterdir()], "a copy is left behind"
        assert not Path(f"/proc/{(it.notes / 'kit').read_text().strip()}").exists(), "the kit goes on"
        assert (it.top / "out/mcy").read_bytes() == was, "the program is another one"
    answers(it, "program", "built", 5)


def the_script_alone_is_ended(it):
    call = it.begin("endless")
    while not it.calls():
        time.sleep(0.02)
    call.terminate()
    call.communicate(timeout=60)
    assert call.returncode == 143 and not [*it.copies.iterdir()], call.returncode


def two_calls_build_once(it):
    one = it.begin("slow")
    while not it.calls():
        time.sleep(0.02)
    other = it.begin("slow")
    for call, lines in ((one, ("proving",)), (other, ("waiting",))):
        text, told = call.communicate(timeout=60)
        assert (call.returncode, text) == it.answer("built"), (call.returncode, text)
        assert tuple(line.split()[1] for line in told.splitlines()) == lines, told
    assert len(it.calls()) == 1, it.calls()


def a_limit_on_files_ends_nothing(it):
    it.passes('[ $# = 0 ] && exit 2; ulimit -f 1; head -c 4096 /dev/zero >"$NOTES/large"; exit $?')
    told = it.call("nothing")
    assert told[0] == 1 and (it.notes / "large").stat().st_size < 4096, told


def a_terminal_is_told_how_far_it_is(it):
    os.environ.update(it.around("slow"))
    status, text, seen, _ = on_terminal(it.link, ["status", "two words"], it.link.parent)
    assert (status, text.decode()) == it.answer("built"), (status, text)
    first, *counts, last = seen.decode().split("\r")
    assert first.startswith("mcy: proving and building"), first
    counts = [count for count in counts if count != "\n"]
    wanted = [f"mcy: {number} of 2 crates are proved\x1b[K" for number in range(3)]
    # (a busy machine may pass over one before the last)
    assert {*counts} <= {*wanted} and counts == sorted(counts) and counts[-1] == wanted[-1] != counts[0], seen
    assert last == "\x1b[K", ("the line is not cleared", seen)


CASES = (
    a_missing_program_is_built,
    a_current_program_is_run,
    a_program_older_than_a_source_is_built,
    a_source_that_changes_meanwhile_counts,
    a_failed_build_leaves_the_program,
    the_gates_program_is_taken,
    a_gates_program_that_is_none_is_not_taken,
    a_program_of_no_passed_gate_is_not_taken,
    an_interrupted_build_leaves_nothing,
    the_script_alone_is_ended,
    two_calls_build_once,
    a_limit_on_files_ends_nothing,
    a_terminal_is_told_how_far_it_is,
)


def main():
    # What a background job ignores, the calls of the cases would ignore too.
    for sent in (signal.SIGINT, signal.SIGHUP):
        signal.signal(sent, signal.SIG_DFL)
    failed = 0
    for case in CASES:
        with tempfile.TemporaryDirectory() as room:
            try:
                case(Repository(Path(room)))
            except (AssertionError, subprocess.TimeoutExpired) as wrong:
                failed += 1
                print(f"FAILED: {case.__name__.replace('_', ' ')}: {wrong}", flush=True)
    print(f"{len(CASES) - failed} passed, {failed} failed")
    sys.exit(1 if failed else 0)


if __name__ == "__main__":
    main()
