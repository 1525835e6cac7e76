#!/bin/bash
# Equivalence tests of 220 pairs of netlists: small designs with mutants of them, and two forms of a sum. Prints how many pairs come to
# each verdict and with how many lemmas, the processor time of the tests on this machine (that of the program with the tests, less that of
# reading the pairs alone), and minisat's on the same clauses, one process a pair. The verdicts are compared with minisat's. Then the
# time of a lemma of a product of 96 bits beside the one with its operands exchanged, and that of two forms of a sum of 6 bits alone,
# beside such a product of other inputs, and beside one of the same inputs.
#
# usage: bench/equiv.sh
set -euo pipefail
root=$(cd "$(dirname "$0")/.." && pwd)
room=$(mktemp -d "$root/out-bench.XXXXXX")
trap 'rm -rf "$room"' EXIT

# The program is the one that runs the cases of pairs: a table behind the line `§ pairs`, which it prints.
. "$root/bench/lib/build.sh"
build_program mutant_cases
python3 "$root/bench/lib/equiv.py" "$room"

# The least processor time of three runs, in milliseconds: `least INPUT`.
least() {
    for _ in 1 2 3; do
        python3 - "$1" "$room/program" <<'PYTHON'
import resource, subprocess, sys
subprocess.run(sys.argv[2:], stdin=open(sys.argv[1]), stdout=subprocess.DEVNULL)
print(round(1000 * resource.getrusage(resource.RUSAGE_CHILDREN).ru_utime))
PYTHON
    done | sort -n | head -n 1
}
"$room/program" <"$room/tested" >"$room/told"
echo "$(($(least "$room/tested") - $(least "$room/read"))) milliseconds for all tests"
one=$(least "$room/large.1")
echo "a product of 96 bits: $one milliseconds with one lemma, $((1000 * ($(least "$room/large.200") - one) / 199)) microseconds a lemma more"
for name in alone beside shared; do
    echo "a sum of 6 bits, $name: $("$room/program" <"$room/cone.$name" | tail -n +2), $(least "$room/cone.$name") milliseconds"
done
if command -v minisat >/dev/null; then
    python3 "$root/bench/lib/equiv.py" --told "$room"
fi
echo "$(nproc) processors"
