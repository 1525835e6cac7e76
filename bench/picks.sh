#!/bin/bash
# The selection of sites, `select`, of 250,000 to 2,000,000 sites on lines of 240 sites each, by a plain and by an even pick.
# Prints the least time of three picks each, on this machine.
#
# usage: bench/picks.sh [SIZE]      10000 mutations where it is left out
set -euo pipefail
root=$(cd "$(dirname "$0")/.." && pwd)
size=${1:-10000}
room=$(mktemp -d "$root/out-bench.XXXXXX")
trap 'rm -rf "$room"' EXIT

# The program stands here as text, since the gate proves what stands in crates/ alone. It is proved and built in a copy.
. "$root/bench/lib/build.sh"
build_beside picks "bench_picks: anyhow mcy_base netlist_core mutation_sites mutation_select"

for cells in 1041 2083 4166 8333; do
    "$room/program" $cells "$size" 3
done
echo "$(nproc) processors"
