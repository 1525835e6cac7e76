#!/bin/bash
# Simulations of benches, `transcript`, in cycles a second of processor time on this machine: the benches of the examples, which run here for many cycles
# more. The time is that of the further cycles of a longer run, so reading and elaborating are no part of it. Where Icarus Verilog is
# installed, the speed of vvp on the same texts stands beside it; it is told where the transcripts differ.
#
# usage: bench/sim.sh [TIMES]      how many times as long as in the examples the longer run is, 40 where it is left out
set -euo pipefail
export LC_ALL=C
root=$(cd "$(dirname "$0")/.." && pwd)
times=${1:-40}
room=$(mktemp -d "$root/out-bench.XXXXXX")
trap 'rm -rf "$room"' EXIT

. "$root/bench/lib/build.sh"
build_program design_cases
program=$room/program

# The sources of an example, with so many times as many turns of its bench: `texts NAME CONSTANT TURNS TIMES`.
texts() {
    cat "$root/examples/$1"/rtl/*.v
    sed -e "s/$2 = $3;/$2 = $(($3 * $4));/" -e 's/\$finish;/begin $display("time %0d", $time); $finish; end/' "$root/examples/$1/bench/$1_tb.v"
}

# Milliseconds of processor time that a command takes: `milliseconds FILE COMMAND..`, what it prints goes to the file.
milliseconds() {
    local out=$1 TIMEFORMAT=%U
    shift
    { time "$@" >"$out"; } 2>"$room/time"
    awk '{ printf "%d", $1 * 1000 }' "$room/time"
}

simulate() {
    "$program" <"$1"
}

# Cycles a second: `speed NAME FEW MANY CYCLES`, from the milliseconds of a short and a long run, and the further cycles.
speed() {
    awk -v name="$1" -v few="$2" -v many="$3" -v cycles="$4" 'BEGIN { printf "  %-12s %10.0f cycles a second\n", name, cycles * 1e3 / (many - few) }'
}

# The cycles up to `$finish`: here the time is the number of a phase, of which a cycle has two: `cycles_of FILE`.
cycles_of() {
    echo $(($(sed -n 's/^time //p' "$1") / 2))
}

# An example: `example NAME CONSTANT TURNS`.
example() {
    local name=$1 run
    for run in few many; do
        texts "$name" "$2" "$3" "$([ $run = few ] && echo 1 || echo "$times")" >"$room/$run.v"
        { grep -v '^`timescale' "$room/$run.v"; echo "simulate ${name}_tb $name 1 4000000000"; } >"$room/$run.rows"
    done
    local few many
    few=$(milliseconds "$room/few.told" simulate "$room/few.rows")
    many=$(milliseconds "$room/many.told" simulate "$room/many.rows")
    local further few_there many_there
    further=$(($(cycles_of "$room/many.told") - $(cycles_of "$room/few.told")))
    echo "$name, $further cycles more:"
    speed transcript "$few" "$many" "$further"
    if command -v iverilog >/dev/null; then
        for run in few many; do
            iverilog -g2005 -s "${name}_tb" -o "$room/$run.vvp" "$room/$run.v"
        done
        few_there=$(milliseconds "$room/few.there" vvp "$room/few.vvp")
        many_there=$(milliseconds "$room/many.there" vvp "$room/many.vvp")
        speed vvp "$few_there" "$many_there" "$further"
        diff <(grep -v '^time\|^finished' "$room/many.told") <(grep -v '^time' "$room/many.there") >/dev/null || echo "  other transcripts"
    fi
}

example serial FRAMES 26
example arbiter CYCLES 1000
example processor TURNS 600
echo "$(nproc) processors"
