#!/usr/bin/env python3
"""Runs the program on random files and on random edits of valid projects: each call ends with an answer of the table.

    python3 tests/program/hostile.py --program FILE [COUNT [SEED]]

FILE is the built program, COUNT how many calls are made (10,000 where it is left out), and SEED begins the random numbers; it is
printed, so that a run can be made again. Each call is `init`, or one of ten times `run`, in an empty folder with a `config.mcy` and
sources, some of which may be missing; a `run` that simulates stops after one test. An answer is an exit status of the table in
README.md, with just the lines on standard output and standard error that docs/FORMATS.md has for it. A signal, another status,
another line, or a call that takes more than a minute is a fault of the program. Ends with how often each status came, and the
line 'N passed, M failed'.
"""

import collections
import random
import re
import shutil
import subprocess
import sys
import tempfile
from pathlib import Path

ROOT = Path(__file__).resolve().parents[2]
EXAMPLES = sorted(path for path in (ROOT / "examples").iterdir() if (path / "config.mcy").is_file())
# Small ones, which are taken more often than the others.
SMALL = [path for path in EXAMPLES if path.name in ("counter", "and_gate", "parity", "redundant_or")]

PLACE = r"[^ \t\n]+:[1-9][0-9]*:[1-9][0-9]*: "
NAMES = (
    "BadCharacter|OpenComment|OpenString|BadNumber|Unexpected|UnknownMacro|OpenCondition|TooDeep|Twice|Unknown|Recursive|"
    "PortMismatch|NotConstant|DivideByZero|TooWide|Loop|TwoClocks"
)
KINDS = "Tokens|LoopTurns|Cells|NetBits|RegisterBits|Sites|Gates|FreeBits|Scopes"
LINES = {
    0: r"",
    1: r"",
    3: r"mcy: config\.mcy(:[1-9][0-9]*: (BadLine|UnknownKey|Repeated|OutOfRange|UnsupportedCommand)"
    r"|: NotUtf8 [0-9]+|: Missing (Script|Read|Top|Logic|Kind [0-9]+|Pass [0-9]+))\n",
    4: r"mcy: config\.mcy:[1-9][0-9]*: (Indent|Bad|UnknownTest|UnknownTag|Unassigned)\n",
    5: rf"mcy: ({PLACE}({NAMES}|Unsupported [A-Za-z]+|(TwoWriters|Latch) [^ \t\n]+)|[^ \t\n]+: NotUtf8|NoTop|NoDesign|NoClock|TooMany ({KINDS}))\n",
    6: r"mcy: [^ \t\n]+: missing\n",
    7: r"mcy: [^ \t\n]+: too large\n",
    11: r"mcy: [^ \t\n]+: read fault\n",
}
WRITES = {
    "init": re.compile(rb"Sites: [0-9]+\nMutations: [0-9]+\n"),
    "run": re.compile(
        rb"Mutations: [0-9]+\nFinished: [0-9]+\n(Test \w+: PASS [0-9]+ FAIL [0-9]+ (UNKNOWN|HANG) [0-9]+\n)*(Tag \w+: [0-9]+\n)*"
        rb"Asserts: [0-9]+\nUnexpected: [0-9]+\n(.|\n)*"
    ),
}

# What stands in edits beside random bytes: words and signs of projects and of Verilog.
PIECES = [
    piece.encode()
    for piece in (
        "[options] [script] [files] [logic] [report] [test same] [test other] size seed modes inv const0 const1 cnot0 cnot1 tags "
        "pick even plain conflicts cycles read_verilog prep hierarchy -top -flatten -sv eq sim pass fail expect PASS FAIL UNKNOWN "
        "HANG maxbatchsize run 0 1 16 65 10000 10001 18446744073709551616 # module endmodule input output wire reg assign always "
        "initial begin end if else case endcase for generate parameter ( ) [ ] { } ; , . = <= == & | ^ ~ + - * / ? : @ # ` `define "
        "`ifdef `endif `include /* */ // \" ' 8'hff 4'bx a b y g clk posedge (* *) \\esc"
    ).split(" ")
] + [b"\n", b"\r\n", b"\t", b" ", b"", b"\x00", b"\xff", b"\xc3\xa9"]


def random_bytes(rng):
    """Bytes of which none, some or all are those of texts."""
    size = rng.choice([0, 1, 10, 100, 1000])
    letters = rng.choice([bytes(range(256)), bytes(range(32, 127)) + b"\n\n\n"])
    return bytes(rng.choice(letters) for _ in range(rng.randrange(size + 1)))


def edited(rng, data):
    """The same with one to three edits."""
    for _ in range(rng.randint(1, 3)):
        start = rng.randrange(len(data) + 1)
        end = min(len(data), start + rng.choice([0, 1, 1, 2, 8, 40]))
        kind = rng.randrange(6)
        if kind == 0:
            piece = b""
        elif kind == 1:
            piece = bytes([rng.choice([rng.randrange(256), rng.randrange(32, 127), rng.randrange(32, 127)])])
        elif kind == 2:
            piece = data[start:end] * 2
        elif kind == 3:
            other = rng.randrange(len(data) + 1)
            piece = data[other : other + rng.randrange(1, 60)]
        else:
            piece = rng.choice(PIECES)
        data = data[:start] + piece + data[end:]
    return data


def project_files(rng):
    """The files of a project: random bytes, or an example with edits in one or more files."""
    example = rng.choice(SMALL if rng.randrange(4) else EXAMPLES)
    files = {
        path.relative_to(example).as_posix(): path.read_bytes()
        for path in sorted(example.rglob("*"))
        if path.is_file() and path.suffix in (".mcy", ".v")
    }
    if rng.randrange(10) == 0:
        files["config.mcy"] = random_bytes(rng)
        return files
    sources = sorted(name for name in files if name != "config.mcy")
    some = rng.choice([["config.mcy"], [rng.choice(sources)], [rng.choice(sources)], sources, ["config.mcy", *sources]])
    for name in some:
        choice = rng.randrange(20)
        if choice == 0:
            files[name] = random_bytes(rng)
        elif choice == 1:
            del files[name]
        else:
            files[name] = edited(rng, files[name])
    return files


def words_of(word, files):
    """The words of a call. A run that simulates stops after one test, which may take up to a million cycles."""
    return [word, "--stop-after", "1"] if word == "run" and b"sim" in files.get("config.mcy", b"") else [word]


def answer(program, word, folder, files):
    """The status of a call on these files, and why it is a fault of the program, or None."""
    for name, data in files.items():
        path = folder / name
        path.parent.mkdir(parents=True, exist_ok=True)
        path.write_bytes(data)
    try:
        call = subprocess.run([program, *words_of(word, files)], cwd=folder, capture_output=True, timeout=60, stdin=subprocess.DEVNULL)
    except subprocess.TimeoutExpired:
        return None, "it takes more than a minute"
    status = call.returncode
    if status not in LINES:
        return status, f"status {status} with the line {call.stderr!r}"
    if not re.fullmatch(LINES[status].encode(), call.stderr):
        return status, f"status {status} with the line {call.stderr!r}"
    if status <= 1 and not WRITES[word].fullmatch(call.stdout):
        return status, f"the text {call.stdout!r}"
    if status > 1 and call.stdout:
        return status, f"status {status} with the text {call.stdout!r}"
    return status, None


def main():
    words = sys.argv[1:]
    if len(words) < 2 or words[0] != "--program":
        sys.exit(__doc__)
    program = str(Path(words[1]).resolve())
    count = int(words[2]) if len(words) > 2 else 10_000
    seed = int(words[3]) if len(words) > 3 else random.SystemRandom().randrange(10**9)
    print(f"seed {seed}")
    rng = random.Random(seed)
    passed = failed = 0
    statuses = collections.Counter()
    for number in range(count):
        files = project_files(rng)
        word = "run" if rng.randrange(10) == 0 else "init"
        folder = Path(tempfile.mkdtemp())
        try:
            status, wrong = answer(program, word, folder, files)
        finally:
            shutil.rmtree(folder)
        statuses[status] += 1
        if wrong is None:
            passed += 1
        else:
            failed += 1
            print(f"FAILED: call {number} of '{word}': {wrong}: {files!r}")
    print(", ".join(f"status {status}: {n}" for status, n in sorted(statuses.items(), key=str)))
    print(f"{passed} passed, {failed} failed")
    sys.exit(1 if failed else 0)


if __name__ == "__main__":
    main()
