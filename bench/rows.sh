#!/bin/bash
# Rows of the journal against the stock SQLite library, in one run on this machine: durable appends, and the open and load
# of a book. Prints the times and their ratios. Needs gcc and the library's header (Debian: gcc, libsqlite3-dev).
#
# usage: bench/rows.sh [APPENDS [LOADED]]      5,000 appends and 20,000 loaded rows where they are left out
set -eu
root=$(cd "$(dirname "$0")/.." && pwd)
appends=${1:-5000}
loaded=${2:-20000}
room=$(mktemp -d "$root/out-bench.XXXXXX")
trap 'rm -rf "$room"' EXIT

# The program stands here as text, since the gate proves what stands in crates/ alone. It is proved and built in a copy.
. "$root/bench/lib/build.sh"
build_beside rows "bench_rows: mcy_base mcy_keeper keeper_sqlite sqlite"
gcc -O2 -o "$room/stock" "$root/bench/programs/stock/rows.c" -lsqlite3

# The least time of three runs of a program, with so many rows: `least WORD PROGRAM ROWS`.
least() {
    for _ in 1 2 3; do
        rm -f "$room"/rows.db*
        "$2" "$room/rows.db" "$3" | sed "s/.*$1 \([0-9]*\).*/\1/"
    done | sort -n | head -n 1
}
ours=$(least append "$room/program" "$appends")
stock=$(least append "$room/stock" "$appends")
echo "$appends durable appends: $ours microseconds, stock $stock, ratio $(echo "scale=2; $ours / $stock" | bc)"
ours=$(least load "$room/program" "$loaded")
stock=$(least load "$room/stock" "$loaded")
echo "open and load of $loaded rows: $ours microseconds, stock $stock, ratio $(echo "scale=2; $ours / $stock" | bc)"
echo "$(nproc) processors"
