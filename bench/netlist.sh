#!/bin/bash
# The check of a netlist, `Netlist::check`, on several shapes of as many cells and net bits as a netlist may have, and of
# half as many. Prints the least time of three checks each, on this machine. A shape that grows with more than its size
# is tried with few cells.
#
# usage: bench/netlist.sh [CELLS]      65535 where it is left out: adders of 16 bits, 1,048,576 net bits in all
set -euo pipefail
root=$(cd "$(dirname "$0")/.." && pwd)
cells=${1:-65535}
room=$(mktemp -d "$root/out-bench.XXXXXX")
trap 'rm -rf "$room"' EXIT

# The program stands here as text, since the gate proves what stands in crates/ alone. It is proved and built in a copy.
. "$root/bench/lib/build.sh"
build_beside netlist "bench_netlist: anyhow mcy_base netlist_core"

for shape in chain back fan-out mixed; do
    "$room/program" $shape $((cells / 2)) 3
    "$room/program" $shape "$cells" 3
done
for shape in wide loop; do
    "$room/program" $shape $((cells / 64)) 3
    "$room/program" $shape $((cells / 32)) 3
done
echo "$(nproc) processors"
