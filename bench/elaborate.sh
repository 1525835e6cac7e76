#!/bin/bash
# The way from the bytes of a design to its checked netlist, on designs of 64, 256, 512 and 1,024 KiB, of stages and of small modules,
# and on a machine of 500 states with outputs of 16 bits, beside Yosys (`read_verilog ..; prep -top top`) on the same texts, in one run
# on this machine. Prints the times of both steps, the ratio to Yosys, how the time for a byte grows with the size, and the most memory.
# Our times are the least of three; Yosys runs once, and the time for an empty module is taken off, which is its start. Needs python3
# and awk; without yosys its part is left out.
#
# usage: bench/elaborate.sh [BYTES..]      65536 262144 524288 1048576 where they are left out; growth is told from the first
set -euo pipefail
export LC_ALL=C
root=$(cd "$(dirname "$0")/.." && pwd)
[ $# -gt 0 ] || set -- 65536 262144 524288 1048576
room=$(mktemp -d "$root/out-bench.XXXXXX")
trap 'rm -rf "$room"' EXIT

# The program stands here as text, since the gate proves what stands in crates/ alone. It is proved and built in a copy.
. "$root/bench/lib/build.sh"
build_beside elaborate "bench_elaborate: anyhow mcy_base vlog_token vlog_syntax vlog_expand vlog_parse netlist_core elab_hier"

# The number behind a word in what our program printed: `ours WORD`.
ours() {
    sed "s/.*$1 \([0-9]*\) microseconds.*/\1/" "$room/ours"
}

# The microseconds that Yosys takes over a file: `yosys_time FILE`.
yosys_time() {
    start=${EPOCHREALTIME/./}
    yosys -q -p "read_verilog $1; prep -top top" >"$room/log" 2>&1
    echo $((${EPOCHREALTIME/./} - start))
}

# A quotient to three digits: `over A B`.
over() {
    awk -v a="$1" -v b="$2" 'BEGIN { if (b > 0) printf "%.3f", a / b; else printf "-" }'
}

# Our times over a design, the ratio to Yosys and the memory: `beside NAME`.
beside() {
    "$room/program" "$room/source.v" 3 >"$room/ours"
    bytes=$(wc -c <"$room/source.v")
    trees=$(ours trees)
    netlist=$(ours netlist)
    echo "$1: $bytes bytes,$(sed 's/.*, of//' "$room/ours")"
    echo "  trees $trees microseconds, netlist $netlist microseconds"
    if command -v /usr/bin/time >/dev/null; then
        /usr/bin/time -f '  %M KiB at most' "$room/program" "$room/source.v" 1 2>&1 >/dev/null
    fi
    if command -v yosys >/dev/null; then
        time=$(($(yosys_time "$room/source.v") - $(cat "$room/start")))
        echo "  yosys $time microseconds: we take $(over $((trees + netlist)) "$time") of its time"
    fi
}

if command -v yosys >/dev/null; then
    echo 'module top; endmodule' >"$room/empty.v"
    yosys_time "$room/empty.v" >"$room/start"
fi

# Designs of all sizes, and how the time for a byte grows: `grow NAME WORD SIZE..`, where WORD is what design.py is told before a size.
grow() {
    name=$1 word=$2 first=
    shift 2
    for size; do
        python3 "$root/bench/lib/design.py" $word "$size" >"$room/source.v"
        beside "$name"
        [ -n "$first" ] || first=$bytes first_trees=$trees first_netlist=$netlist
        echo "  time for a byte, beside that at $first bytes: trees $(over $((trees * first)) $((first_trees * bytes))), netlist $(over $((netlist * first)) $((first_netlist * bytes)))"
    done
}

grow "stages" "" "$@"
grow "small modules" parts "$@"
python3 "$root/bench/lib/design.py" states 500 >"$room/source.v"
beside "500 states"
echo "$(nproc) processors"
