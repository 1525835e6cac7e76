#!/bin/bash
# Runs the benches of the larger examples with Icarus Verilog, twice each, and has Yosys check their designs. A bench has to end
# by itself within the cycles of its project, and to print what is expected here, whatever $random draws. Ends with the line
# 'N passed, M failed'.
#
# usage: tests/compare/benches.sh      what is not installed of iverilog, vvp and yosys is said, and its part is left out
set -u
root=$(cd "$(dirname "$0")/../.." && pwd) || exit 1
room=$(mktemp -d) || exit 1
trap 'rm -rf "$room"' EXIT
passed=0
failed=0

# One case: the status of the command before, and its name.
case_is() {
    if [ "$1" = 0 ]; then
        passed=$((passed + 1))
    else
        failed=$((failed + 1))
        echo "FAILED: $2"
    fi
}

# Whether there are these tools; what is skipped without them is said: `has_tools WHAT TOOL..`.
has_tools() {
    what=$1
    shift
    for tool; do
        command -v "$tool" >/dev/null && continue
        echo "skipped: there is no $tool, so $what"
        return 1
    done
}

# The bench of an example prints this: `prints NAME TEXT`. A cycle of the benches takes 10 units of time.
prints() {
    folder=$root/examples/$1
    cycles=$(sed -n 's/^cycles //p' "$folder/config.mcy")
    echo "module stop; initial #$((10 * cycles)) begin \$display(\"too long\"); \$finish; end endmodule" >"$room/stop.v"
    iverilog -g2005 -s "$1_tb" -s stop -o "$room/bench" "$folder"/bench/*.v "$folder"/rtl/*.v "$room/stop.v" 2>"$room/lines"
    case_is $? "the bench of $1 is compiled: $(cat "$room/lines")"
    for run in first second; do
        text=$(vvp -n "$room/bench" </dev/null)
        [ "$text" = "$2" ]
        case_is $? "the $run run of the bench of $1 prints: $text"
    done
}

if has_tools "the benches are not run" iverilog vvp; then
    prints serial '26 frames, 5 of them spoilt: ALL GOOD'
    prints arbiter '1000 cycles, in the first 100 all were served: ALL GOOD'
    prints processor 'program: 4 put out in 49 cycles
600 random instructions: ALL GOOD'
fi
if has_tools "the designs are not checked" yosys; then
    for name in serial arbiter processor; do
        yosys -q -p "read_verilog $root/examples/$name/rtl/*.v; hierarchy -check -top $name; proc; check -assert" >"$room/lines" 2>&1
        case_is $? "Yosys takes $name: $(cat "$room/lines")"
    done
fi
echo "$passed passed, $failed failed"
[ "$failed" = 0 ]
