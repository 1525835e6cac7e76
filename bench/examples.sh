#!/bin/bash
# Whole campaigns of the three larger examples: `mcy init` and `mcy run` with the tests that each project has, simulations of its bench and, in one,
# tests of equality. Beside it the same done by hand for the first COUNT mutants that yosys lists, in processes of yosys, iverilog and vvp. Prints
# milliseconds of processor time a mutation, those of each step done by hand, what was noticed, and the ratio. yosys and iverilog have to
# be installed.
#
# usage: bench/examples.sh [PROGRAM [COUNT]]      the program mcy, which is proved and built where it is left out, and 20 mutants
set -euo pipefail
root=$(cd "$(dirname "$0")/.." && pwd)
room=$(mktemp -d "$root/out-bench.XXXXXX")
trap 'rm -rf "$room"' EXIT
. "$root/bench/lib/build.sh"
given_or_built mcy "${@:1:1}"
for name in serial arbiter processor; do
    cp -r "$root/examples/$name" "$room/$name"
    echo "$name:"
    python3 "$root/bench/lib/examples.py" "$room/program" "$room/$name" "$name" "${2:-20}"
done
echo "$(nproc) processors"
