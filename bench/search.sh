#!/bin/bash
# The search for a refutation: random clauses of three literals over BITS free bits, five for each bit, so that no model
# exists and the search has to learn some thousands of lemmas, each through the checker. Prints the lemmas, the processor
# time of the search on this machine (that of the program with the search, less that of reading the clauses alone), and the
# microseconds a lemma; then the same beside ten thousand, twenty thousand and forty thousand clauses of ten literals over
# other bits, which no decision of the search touches. Propagation costs by the places of the literals that are assigned, so
# these may not slow it down. Where minisat is installed, its processor time on the same clauses is told.
#
# usage: bench/search.sh [BITS]      160 where it is left out
set -euo pipefail
root=$(cd "$(dirname "$0")/.." && pwd)
bits=${1:-160}
room=$(mktemp -d "$root/out-bench.XXXXXX")
trap 'rm -rf "$room"' EXIT

# The program is the one that runs the cases of the search: a table behind the line `§ searches`, which it prints.
. "$root/bench/lib/build.sh"
build_program search_cases
program="$room/program"

# The clauses by a fixed seed: `written BITS OTHERS`.
written() {
    python3 - "$1" "$2" <<'PYTHON'
import random, sys
bits, others = map(int, sys.argv[1:])
choose = random.Random(1364)
print("§ searches")
def clause(size, first, last):
    return [bit if choose.random() < 0.5 else -bit for bit in choose.sample(range(first, last + 1), size)]
for _ in range(5 * bits):
    print("clause", *clause(3, 1, bits))
for _ in range(others):
    print("clause", *clause(10, bits + 1, 2048))
PYTHON
}
# The least processor time of three runs, in milliseconds: `least INPUT COMMAND..`.
least() {
    for _ in 1 2 3; do
        python3 - "$@" <<'PYTHON'
import resource, subprocess, sys
subprocess.run(sys.argv[2:], stdin=open(sys.argv[1]), stdout=subprocess.DEVNULL)
print(round(1000 * resource.getrusage(resource.RUSAGE_CHILDREN).ru_utime))
PYTHON
    done | sort -n | head -n 1
}
for others in 0 10000 20000 40000; do
    written "$bits" "$others" >"$room/read"
    { cat "$room/read" && echo "search 2048 2048 100000 100000"; } >"$room/searched"
    "$program" <"$room/searched" >"$room/told"
    lemmas=$(grep -c '^lemma' "$room/told" || true)
    time=$(($(least "$room/searched" "$program") - $(least "$room/read" "$program")))
    echo "$others other clauses: $lemmas lemmas, $(tail -n 1 "$room/told"), $time milliseconds, $((1000 * time / lemmas)) microseconds a lemma"
    if command -v minisat >/dev/null; then
        { echo "p cnf 2048 $(grep -c ^clause "$room/read")" && sed -n '/^clause /{s/^clause //; s/$/ 0/p}' "$room/read"; } >"$room/clauses.cnf"
        echo "    minisat: $(least /dev/null minisat -verb=0 "$room/clauses.cnf" 2>/dev/null) milliseconds with reading"
    fi
done
echo "$(nproc) processors"
