#!/bin/bash
# The simulator of netlists, `Sim::step`, in nanoseconds a cell and cycle on this machine: netlists of random adders,
# subtracters, ands, ors and xors, each of which reads two earlier ones, of several widths and of twice and twenty times
# as many cells. The time is that of the further cycles of a longer run, so making the netlist is no part of it; reading
# the inputs of a cycle and printing its outputs is. Where Icarus Verilog is installed its time stands beside it.
# In the last netlist ten blocks have an input each, one of which changes in a cycle.
#
# usage: bench/cycles.sh [CELLS]      1000 where it is left out
set -euo pipefail
root=$(cd "$(dirname "$0")/.." && pwd)
cells=${1:-1000}
room=$(mktemp -d "$root/out-bench.XXXXXX")
trap 'rm -rf "$room"' EXIT

. "$root/bench/lib/build.sh"
build_program netlist_cases
program=$room/program

# make FORM WIDTH CELLS CYCLES: the same netlist and inputs as statements of `netlist_cases`, or as Verilog.
make() {
    python3 - "$@" <<'PROGRAM'
import random, sys
form, width, cells, cycles = sys.argv[1], *map(int, sys.argv[2:])
rng = random.Random(width)
kinds = {"add": "+", "sub": "-", "and": "&", "or": "|", "xor": "^"}
# driver 0 is the input, 1 the register, and 2 + i cell i
rows = [(rng.choice(sorted(kinds)), rng.randrange(2 + i), rng.randrange(2 + i)) for i in range(cells)]
values = (rng.getrandbits(width) for _ in range(cycles))
def nets(driver):
    first = driver * width
    return str(first) if width == 1 else f"{first}..{first + width - 1}"
if form == "statements":
    print(f"input {nets(0)}\nregister {width} 1 {nets(1 + cells)} {nets(1)}\noutput {nets(1 + cells)}")
    for i, (kind, a, b) in enumerate(rows):
        print(kind, nets(a), nets(b), nets(2 + i))
    print("start")
    for value in values:
        print("step", value)
else:
    print(f"module top; reg clk = 0; reg [{width - 1}:0] n0 = 0, n1 = 1; integer i;")
    for i, (kind, a, b) in enumerate(rows):
        print(f"wire [{width - 1}:0] n{2 + i} = n{a} {kinds[kind]} n{b};")
    print(f"always @(posedge clk) n1 <= n{1 + cells};")
    print(f"initial begin for (i = 0; i < {cycles}; i = i + 1) begin n0 = {{$random, $random, $random, $random}}; #1 clk = 1; #1 clk = 0; end $finish; end endmodule")
PROGRAM
}

# blocks WIDTH CELLS CYCLES: ten blocks of cells with an input each, one of which changes in a cycle, as statements of `netlist_cases`.
blocks() {
    python3 - "$@" <<'PROGRAM'
import random, sys
width, cells, cycles = map(int, sys.argv[1:])
rng = random.Random(width)
kinds = ("add", "sub", "and", "or", "xor")
each = cells // 10
# drivers 0 to 9 are the inputs, and 10 + i is cell i
def nets(driver):
    first = driver * width
    return f"{first}..{first + width - 1}"
for block in range(10):
    print("input", nets(block))
rows = []
for block in range(10):
    first = 10 + block * each
    for i in range(each):
        earlier = [block, *range(first, first + i)]
        rows.append((rng.choice(kinds), rng.choice(earlier), rng.choice(earlier), first + i))
    print("output", nets(first + each - 1))
for kind, a, b, y in rows:
    print(kind, nets(a), nets(b), nets(y))
print("start")
values = [0] * 10
for cycle in range(cycles):
    values[cycle % 10] = rng.getrandbits(width)
    print("step", *values)
PROGRAM
}

# seconds COMMAND..: how long it takes
seconds() {
    local start
    start=$(date +%s%N)
    "$@" >/dev/null
    echo $(($(date +%s%N) - start))
}

# row NAME SHORT LONG CELLS FURTHER: nanoseconds a cell and cycle
row() {
    awk -v name="$1" -v a="$2" -v b="$3" -v n="$4" -v m="$5" 'BEGIN { printf "  %-10s %10.1f ns\n", name, (b - a) / (n * m) }'
}

measure() {
    local width=$1 count=$2 few=$3 many=$4
    echo "$count cells of $width bits, a cell and cycle:"
    make statements "$width" "$count" "$few" >"$room/few"
    make statements "$width" "$count" "$many" >"$room/many"
    row Sim "$(seconds sh -c "$program <$room/few")" "$(seconds sh -c "$program <$room/many")" "$count" $((many - few))
    if command -v iverilog >/dev/null && [ "$count" -le 2000 ]; then
        make verilog "$width" "$count" 10 >"$room/few.v"
        make verilog "$width" "$count" 60 >"$room/many.v"
        iverilog -o "$room/few.vvp" "$room/few.v"
        iverilog -o "$room/many.vvp" "$room/many.v"
        row vvp "$(seconds vvp "$room/few.vvp")" "$(seconds vvp "$room/many.vvp")" "$count" 50
    fi
}

for width in 1 8 32 128; do
    measure "$width" "$cells" 100 10100
done
measure 8 $((cells * 2)) 100 5100
measure 8 $((cells * 20)) 100 600
echo "$cells cells of 8 bits in ten blocks, of which the input of one changes, a cell and cycle:"
blocks 8 "$cells" 100 >"$room/few"
blocks 8 "$cells" 10100 >"$room/many"
row Sim "$(seconds sh -c "$program <$room/few")" "$(seconds sh -c "$program <$room/many")" "$cells" 10000
echo "$(nproc) processors"
