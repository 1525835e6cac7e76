#!/bin/bash
# Events of campaigns whose tests cost nothing, over a book in memory. Prints the nanoseconds an event, of which each test has three: its start,
# its turn and the commit of its row. With 10,000 mutations, with one test and 16 tests on each, and with 1 slot and 64.
#
# usage: bench/core.sh [PROGRAM]      the program core_cases, which is proved and built where it is left out
set -euo pipefail
root=$(cd "$(dirname "$0")/.." && pwd)
room=$(mktemp -d "$root/out-bench.XXXXXX")
trap 'rm -rf "$room"' EXIT
. "$root/bench/lib/build.sh"
given_or_built core_cases "${@:1:1}"

# The least processor time of three runs with so many mutations, tests and slots, without that of a run that starts no test, an event.
python3 - "$room/program" <<'PYTHON'
import resource, subprocess, sys

def seconds(line):
    before = resource.getrusage(resource.RUSAGE_CHILDREN)
    told = subprocess.run([sys.argv[1]], input=line, capture_output=True, text=True, check=True).stdout
    after = resource.getrusage(resource.RUSAGE_CHILDREN)
    return after.ru_utime - before.ru_utime + after.ru_stime - before.ru_stime, told

def least(line):
    return min(seconds(line)[0] for _ in range(3))

for mutations, tests, slots in ((10000, 1, 1), (10000, 1, 64), (10000, 16, 1), (10000, 16, 64)):
    whole = least(f"count {mutations} {tests} {slots} 0 0\n")
    made = least(f"count {mutations} {tests} {slots} 0 1\n")
    events = 3 * mutations * tests
    print(f"{mutations} mutations, {tests} tests, {slots} slots: {round(1e9 * (whole - made) / events)} nanoseconds an event, {events} events")
PYTHON
echo "$(nproc) processors"
