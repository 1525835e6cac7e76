#!/bin/bash
# The check of a book against its campaign, beside the stock SQLite library, which opens a database with as many rows and reads
# them, in one run on this machine. Prints the times and their ratio, and the times at half and a quarter of the rows; then those of
# a book with all 370 rows that a pair may have which was given up under one lemma first, in as many pairs, and in one pair. Needs gcc
# and the library's header (Debian: gcc, libsqlite3-dev).
#
# usage: bench/book.sh [MUTATIONS [TESTS]]      10,000 mutations and 16 tests where they are left out, so 160,000 rows
set -eu
root=$(cd "$(dirname "$0")/.." && pwd)
mutations=${1:-10000}
tests=${2:-16}
room=$(mktemp -d "$root/out-bench.XXXXXX")
trap 'rm -rf "$room"' EXIT

# The program stands here as text, since the gate proves what stands in crates/ alone. It is proved and built in a copy.
. "$root/bench/lib/build.sh"
build_beside book "bench_book: mcy_base mcy_keeper tag_script report_script result_book"
gcc -O2 -o "$room/stock" "$root/bench/programs/stock/rows.c" -lsqlite3

# The least time of three checks of a book with so many mutations, tests, and rows of each pair.
check() {
    for _ in 1 2 3; do
        "$room/program" "$1" "$2" "$3" | sed 's/check \([0-9]*\).*/\1/'
    done | sort -n | head -n 1
}

# The time of a load of so many rows by the stock library, which appends them before, each durably: minutes.
load() {
    "$room/stock" "$room/rows.db" "$1" | sed 's/.*load \([0-9]*\).*/\1/'
}
for part in 4 2 1; do
    count=$((mutations / part))
    rows=$((count * tests))
    ours=$(check "$count" "$tests" 1)
    echo "check of $rows rows: $ours microseconds"
done
stock=$(load "$rows")
echo "stock open and load of $rows rows: $stock microseconds, ratio $(echo "scale=2; $ours / $stock" | bc)"
pairs=$((rows / 370))
echo "check of $((pairs * 370)) rows, 370 of each pair: $(check "$pairs" 1 370) microseconds"
echo "check of 370 rows of one pair: $(check 1 1 370) microseconds"
echo "$(nproc) processors"
