#!/usr/bin/env python3
"""What a running `rt ci` costs: processor minutes and memory by crate.

usage: tests/gate_minutes.py PID OUT     PID: the process `rt ci`

Looks at it and at all that it has begun once a second until it ends, and rewrites OUT each minute: a line of docs/PERFORMANCE.md for each
crate, with the minutes of its proof, of its tests and of its edits with the checks that these begin with, and with the most memory that it
held at once; and what all took together. What ends within a second is not seen, but counts in the last sum, which is the system's own.

For one crate: rt ci --anew CRATE >log 2>&1 & tests/gate_minutes.py $! OUT
"""

import collections
import os
import re
import sys
import time

TICKS = os.sysconf("SC_CLK_TCK")
PAGE = os.sysconf("SC_PAGE_SIZE")
KINDS = "proof", "tests", "edits"
GIGABYTE = 10**9
# Where less is held, what processes share does not matter.
SMALL = 100 * 10**6

Process = collections.namedtuple("Process", "has_ended parent began seconds seconds_below memory")


def read_process(pid):
    """What the system says of a process, or None where it has ended."""
    try:
        with open(f"/proc/{pid}/stat") as it:
            stat = it.read()
    except OSError:
        return None
    field = stat[stat.rindex(")") + 2 :].split()
    seconds, below = (sum(map(int, field[at : at + 2])) / TICKS for at in (11, 13))
    return Process(field[0] == "Z", int(field[1]), int(field[19]), seconds, below, int(field[21]) * PAGE)


def own_memory(pid, process):
    """The memory that a process holds, of what it shares with others its part."""
    if process.memory > SMALL:
        try:
            with open(f"/proc/{pid}/smaps_rollup") as it:
                return 1024 * int(re.search(r"^Pss: +(\d+)", it.read(), re.M)[1])
        except (OSError, TypeError):
            pass
    return process.memory


def begun_by(root):
    """The processes that this one has begun, and theirs, by their numbers, with itself."""
    every = {int(pid): read_process(pid) for pid in os.listdir("/proc") if pid.isdigit()}
    below = collections.defaultdict(list)
    for pid, process in every.items():
        if process:
            below[process.parent].append(pid)
    found, left = {}, [root]
    while left:
        pid = left.pop()
        if every.get(pid):
            found[pid] = every[pid]
            left += below[pid]
    return found


def label(pid):
    """The crate and the kind of the work that a process does, from its words and its folder."""
    try:
        with open(f"/proc/{pid}/cmdline") as it:
            words = it.read().split("\0")
        folder = os.readlink(f"/proc/{pid}/cwd")
    except OSError:
        return None
    if "--crate-name" not in words:
        return None
    crate = words[words.index("--crate-name") + 1]
    return crate, "edits" if "/rt-edit-" in folder else "tests" if "--test" in words else "proof"


class Minutes:
    """What was seen of a run: `spent` has the last processor seconds of each process with its crate and kind, `most` the most memory of each crate."""

    def __init__(self, root):
        self.root = root
        self.began = time.time()
        self.spent = {}
        self.most = collections.Counter()
        self.most_of_all = 0
        self.told = 0

    def look(self):
        """Takes one sample, and returns whether the run goes on."""
        found = begun_by(self.root)
        if self.root not in found:
            return False
        held, labels = collections.Counter(), {}
        # (each after the one that began it, whose work it shares)
        for pid, process in found.items():
            key = pid, process.began
            known = label(pid) or self.spent.get(key, (None, 0))[0] or labels.get(process.parent)
            labels[pid], self.spent[key] = known, (known, process.seconds)
            held[known and known[0]] += own_memory(pid, process)
        self.most |= held
        self.most_of_all = max(self.most_of_all, sum(held.values()))
        self.told = found[self.root].seconds + found[self.root].seconds_below
        return not found[self.root].has_ended

    def lines(self):
        sums = collections.defaultdict(collections.Counter)
        for known, seconds in self.spent.values():
            crate, kind = known or (None, "other")
            sums[crate][kind] += seconds / 60
        yield "| crate | proof | tests | edits | memory |"
        yield "|---|---|---|---|---|"
        for crate, kinds in sorted(sums.items(), key=lambda it: -it[1].total()):
            if crate:
                cells = [f"{kinds[kind]:.1f}" if kinds[kind] else "none" for kind in KINDS]
                yield f"| `{crate}` | {' | '.join(cells)} | {self.most[crate] / GIGABYTE:.1f} |"
        whole = [sum(kinds[kind] for kinds in sums.values()) for kind in (*KINDS, "other")]
        parts = ", ".join(f"{kind} {minutes:.1f}" for kind, minutes in zip((*KINDS, "other"), whole))
        yield f"All: {sum(whole):.1f} processor minutes ({parts}) in {(time.time() - self.began) / 60:.1f} minutes, with {self.most_of_all / GIGABYTE:.1f} GB at most."
        yield f"By the system's count of what has ended: {self.told / 60:.1f} processor minutes."

    def write(self, out):
        with open(f"{out}.new", "w") as it:
            it.writelines(f"{line}\n" for line in self.lines())
        os.replace(f"{out}.new", out)


def main():
    minutes, out = Minutes(int(sys.argv[1])), sys.argv[2]
    count = 0
    while minutes.look():
        count += 1
        if count % 60 == 1:
            minutes.write(out)
        time.sleep(1)
    minutes.write(out)


if __name__ == "__main__":
    main()
