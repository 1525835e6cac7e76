#!/bin/bash
# Equivalence tests of mutants of larger designs, made by bench/lib/design.py and broken by yosys. Prints for each design how many mutants come
# to each verdict and with how many lemmas, and the milliseconds of processor time a mutant (that of the program with the tests, less
# that of reading the pairs alone); beside it the processor time of yosys, which breaks a mutant in one process and compares it with the design
# in another, by a miter and a solver, for the first COUNT of the same mutants. The verdicts are compared. yosys has to be installed.
#
# usage: bench/mutants.sh [SIZE [COUNT [PROGRAM]]]      200 mutants, 20 of them by yosys, and the program mutant_cases, which is proved and
#                                                       built, where they are left out
set -euo pipefail
root=$(cd "$(dirname "$0")/.." && pwd)
size=${1:-200}
count=${2:-20}
room=$(mktemp -d "$root/out-bench.XXXXXX")
trap 'rm -rf "$room"' EXIT

# The program is the one that runs the cases of pairs: a table behind the line `§ pairs`, which it prints.
. "$root/bench/lib/build.sh"
given_or_built mutant_cases "${@:3:1}"

# The processor time of the program in milliseconds: `spent INPUT`.
spent() {
    python3 - "$1" "$room/program" <<'PYTHON'
import resource, subprocess, sys
subprocess.run(sys.argv[2:], stdin=open(sys.argv[1]), stdout=subprocess.DEVNULL)
print(round(1000 * resource.getrusage(resource.RUSAGE_CHILDREN).ru_utime))
PYTHON
}
for bytes in 2500 6000 24000; do
    mkdir "$room/$bytes"
    python3 "$root/bench/lib/design.py" "$bytes" >"$room/$bytes/design.v"
    python3 "$root/bench/lib/mutants.py" "$room/$bytes" "$room/$bytes/design.v" top "$size"
    "$room/program" <"$room/$bytes/tested" >"$room/$bytes/told"
    time=$(($(spent "$room/$bytes/tested") - $(spent "$room/$bytes/read")))
    echo "a design of $bytes bytes: $time milliseconds for $(wc -l <"$room/$bytes/sites") mutants"
    python3 "$root/bench/lib/mutants.py" --yosys "$room/$bytes" "$count"
    python3 "$root/bench/lib/mutants.py" --told "$room/$bytes"
done
echo "$(nproc) processors"
