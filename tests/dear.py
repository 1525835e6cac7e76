#!/usr/bin/env python3
"""Names what is dear in the proof of a crate, from nothing: its functions by processor seconds, and of what kind these are.

usage: tests/dear.py CRATE                       by `rt check CRATE --jobs 1`
       tests/dear.py CRATE KEPT WORD..           by the check WORD.., which keeps what it checks in the folder KEPT

A check saves each module as it ends with it: of a function F its steps (F.Lts), its goals, its answers, its proof and more. While it
runs, this script notes the seconds that its processes and their children have used, and afterwards it reads off them what
each module took, by the time at which it was saved. So other work beside it counts little.

`Lts` grows with the steps of a function times its local variables: cut a long function in two, and hand a comparison of texts
to a function of its own. `Proof` is what the tactics take at goals without an answer, and `Answers` what they take in answers.
"""

import os
import re
import shutil
import subprocess
import sys
import threading
import time
from bisect import bisect
from collections import Counter
from pathlib import Path

ROOT = Path(__file__).resolve().parent.parent
TICKS = os.sysconf("SC_CLK_TCK")
SHOWN = 25


def used(session, crate):
    """The processor seconds of the processes of this session that check the crate, and of their children that have ended."""
    ticks = 0
    for folder in Path("/proc").glob("[0-9]*"):
        try:
            words = (folder / "cmdline").read_bytes().split(b"\0")
            fields = (folder / "stat").read_text().rsplit(")", 1)[1].split()
        except OSError:
            continue
        if int(fields[3]) == session and crate.encode() in words:
            ticks += sum(int(it) for it in fields[11:15])
    return ticks / TICKS


def watched(crate, words):
    """Runs the check. Answers its functions, and at which times how many seconds were used."""
    run = subprocess.Popen(
        words, cwd=ROOT, stdout=subprocess.PIPE, stderr=subprocess.STDOUT, text=True, start_new_session=True
    )
    times = [(time.time(), 0.0)]

    def watch():
        while run.poll() is None:
            times.append((time.time(), max(times[-1][1], used(run.pid, crate))))
            time.sleep(0.2)

    watcher = threading.Thread(target=watch)
    watcher.start()
    functions = set()
    for line in run.stdout:
        print(line, end="", file=sys.stderr)
        found = re.match(rf"checked {crate}::(.*), \d+ of \d+$", line)
        if found:
            functions.add(found[1].replace("::", "."))
    watcher.join()
    if run.wait() != 0:
        sys.exit(f"the check ends with status {run.returncode}")
    return functions, times


def seconds_at(times, moment):
    """The seconds that were used by this moment, between the two times around it."""
    i = bisect(times, (moment,))
    if i == 0 or i == len(times):
        return times[min(i, len(times) - 1)][1]
    (t, a), (u, b) = times[i - 1], times[i]
    return a + (b - a) * (moment - t) / (u - t)


def modules(kept, crate, times):
    """Each module of the crate with the seconds that it took."""
    files = sorted((it.stat().st_mtime_ns / 1e9, it.name) for it in kept.rglob("Rattle-*.oantt"))
    before = None
    for moment, name in files:
        now = seconds_at(times, moment)
        if before is None:
            print(f"{now:8.1f}  up to the first module")
            before = now
        yield re.sub(rf"^Rattle-{crate}-?|\.oantt$", "", name), now - before
        before = now


def owner(module, functions):
    """The function whose module it is, if it is one's, and its part there."""
    path = module.removeprefix("proofs.").split(".")
    for i in range(len(path) - 1, 0, -1):
        if ".".join(path[:i]) in functions:
            return ".".join(path[:i]), path[i]
    return None


def main():
    if len(sys.argv) < 2 or len(sys.argv) == 3:
        sys.exit(__doc__)
    crate = sys.argv[1]
    kept, words = ROOT / "crates" / crate / "out" / "incremental", ["rt", "check", crate, "--jobs", "1"]
    if len(sys.argv) > 3:
        kept, words = Path(sys.argv[2]), sys.argv[3:]
    shutil.rmtree(kept, ignore_errors=True)
    functions, times = watched(crate, words)
    by_function, by_part, others = Counter(), Counter(), Counter()
    for module, seconds in modules(kept, crate, times):
        found = owner(module, functions)
        if found is None:
            others[module] += seconds
        else:
            by_function[found[0]] += seconds
            by_part[found] += seconds
    kinds = Counter()
    for (_, part), seconds in by_part.items():
        kinds[part] += seconds
    for name, seconds in by_function.most_common(SHOWN):
        most = max((it for it in by_part if it[0] == name), key=lambda it: by_part[it])
        print(f"{seconds:8.1f}  {name} ({most[1]} {by_part[most]:.1f})")
    print("by part: " + ", ".join(f"{part} {seconds:.1f}" for part, seconds in kinds.most_common(8)))
    print("no function's: " + ", ".join(f"{module} {seconds:.1f}" for module, seconds in others.most_common(5)))
    total, number = times[-1][1], len(functions)
    print(f"{total:8.1f}  in all, {sum(by_function.values()):.1f} of them for {number} functions, {total / max(number, 1):.1f} each")


if __name__ == "__main__":
    main()
