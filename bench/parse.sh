#!/bin/bash
# The reading of Verilog by `tokens`, `expand` and `parse` on sources of 64, 256, 512 and 1,024 KiB, beside Icarus Verilog
# (`iverilog -t null`) and Yosys (`read_verilog`) on the same texts, in one run on this machine. Prints megabytes a second,
# their ratios, and how the time for a byte grows with the size. Each time is the least of three. From those of the two
# tools the time for an empty module is taken off, which is their start; they do more than parse, since the one elaborates
# the design and the other makes its own netlist. Needs python3 and awk. A tool that is missing is left out (Debian:
# iverilog, yosys).
# Then the same of one concatenation of many names, `{a,a,..}`, where tokens are densest; a tool that takes more than a minute
# over it is told so.
#
# usage: bench/parse.sh [BYTES..]      65536 262144 524288 1048576 where they are left out; growth is told from the first
set -euo pipefail
export LC_ALL=C
root=$(cd "$(dirname "$0")/.." && pwd)
[ $# -gt 0 ] || set -- 65536 262144 524288 1048576
room=$(mktemp -d "$root/out-bench.XXXXXX")
trap 'rm -rf "$room"' EXIT

# The program stands here as text, since the gate proves what stands in crates/ alone. It is proved and built in a copy.
. "$root/bench/lib/build.sh"
build_beside parse "bench_parse: anyhow mcy_base vlog_token vlog_expand vlog_parse"

# The number behind a word in what our program printed: `ours WORD`.
ours() {
    sed "s/.*$1 \([0-9]*\) microseconds.*/\1/" "$room/ours"
}

# Runs a tool over a file, and prints the microseconds that it took: `once TOOL FILE`.
once() {
    start=${EPOCHREALTIME/./}
    case $1 in
        iverilog) set -- "$1" iverilog -t null -o "$room/none" "$2" ;;
        yosys) set -- "$1" yosys -q -p "read_verilog $2" ;;
    esac
    if ! timeout 60 "${@:2}" >"$room/log" 2>&1; then
        tail -n 5 "$room/log" >&2
        echo "$1 refused the source" >&2
        return 1
    fi
    echo $((${EPOCHREALTIME/./} - start))
}

# The least time of three runs of a tool over a file: `least TOOL FILE`.
least() {
    for _ in 1 2 3; do
        once "$1" "$2" || return 1
    done | sort -n | sed -n 1p
}

# A quotient to two digits, and a - where its divisor is not above 0: `over A B`.
over() {
    awk -v a="$1" -v b="$2" 'BEGIN { if (b > 0) printf "%.2f", a / b; else printf "-" }'
}

echo 'module m; endmodule' >"$room/empty.v"
tools=
for tool in iverilog yosys; do
    if command -v $tool >/dev/null; then
        tools="$tools $tool"
        least $tool "$room/empty.v" >"$room/$tool.start"
        echo "$tool: $(cat "$room/$tool.start") microseconds for an empty module"
    else
        echo "$tool is not installed: left out"
    fi
done

first=
for size in "$@"; do
    python3 "$root/bench/lib/source.py" "$size" >"$room/source.v"
    "$room/program" "$room/source.v" 3 >"$room/ours"
    bytes=$(wc -c <"$room/source.v")
    tokens=$(ours tokens)
    expand=$(ours expand)
    parse=$(ours parse)
    all=$((tokens + expand + parse))
    [ -n "$first" ] || first=$bytes first_tokens=$tokens first_expand=$expand first_parse=$parse
    echo "$bytes bytes,$(sed 's/.*, of//' "$room/ours")"
    echo "  MB a second: tokens $(over "$bytes" "$tokens"), expand $(over "$bytes" "$expand"), parse $(over "$bytes" "$parse"), all three $(over "$bytes" "$all")"
    for tool in $tools; do
        least "$tool" "$room/source.v" >"$room/$tool.time"
        time=$(($(cat "$room/$tool.time") - $(cat "$room/$tool.start")))
        echo "  $tool: $(over "$bytes" "$time") MB a second, all three take $(over "$all" "$time") of its time"
    done
    echo "  time for a byte, beside that at $first bytes: tokens $(over $((tokens * first)) $((first_tokens * bytes))), expand $(over $((expand * first)) $((first_expand * bytes))), parse $(over $((parse * first)) $((first_parse * bytes)))"
done
for size in 65536 1048576; do
    python3 "$root/bench/lib/source.py" "$size" dense >"$room/source.v"
    "$room/program" "$room/source.v" 3 >"$room/ours"
    bytes=$(wc -c <"$room/source.v")
    parse=$(ours parse)
    echo "$bytes bytes of {a,a,..}: tokens $(ours tokens), expand $(ours expand), parse $parse microseconds, $(over "$bytes" "$parse") MB a second"
    for tool in $tools; do
        if once "$tool" "$room/source.v" >"$room/$tool.time" 2>/dev/null; then
            time=$(($(cat "$room/$tool.time") - $(cat "$room/$tool.start")))
            echo "  $tool: $time microseconds, parse takes $(over "$parse" "$time") of them"
        else
            echo "  $tool: more than a minute, or refused"
        fi
    done
done
echo "$(nproc) processors"
