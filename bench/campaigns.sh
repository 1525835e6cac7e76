#!/bin/bash
# Whole campaigns of an equivalence test over designs made by bench/lib/design.py: `mcy init` and `mcy run` with 200 mutations each. Prints what
# `mcy status` says and the processor time of both in milliseconds.
#
# usage: bench/campaigns.sh [PROGRAM]      the program mcy, which is proved and built where it is left out
set -euo pipefail
root=$(cd "$(dirname "$0")/.." && pwd)
room=$(mktemp -d "$root/out-bench.XXXXXX")
trap 'rm -rf "$room"' EXIT
. "$root/bench/lib/build.sh"
given_or_built mcy "${@:1:1}"
for bytes in 2500 6000 24000; do
    mkdir "$room/$bytes"
    cd "$room/$bytes"
    python3 "$root/bench/lib/design.py" "$bytes" >design.v
    cat >config.mcy <<'CONFIG'
[options]
size 200
seed 7
tags CHANGED NOCHANGE UNSURE
[files]
design.v
[script]
read_verilog design.v
prep -top top
[test same]
eq
[logic]
if result("same") == "PASS":
    tag("NOCHANGE")
elif result("same") == "FAIL":
    tag("CHANGED")
else:
    tag("UNSURE")
CONFIG
    echo "a design of $bytes bytes:"
    python3 - "$room/program" <<'PYTHON'
import resource, subprocess, sys
for word in ("init", "run"):
    subprocess.run([sys.argv[1], word], stdout=subprocess.DEVNULL, check=True)
print(f"{round(1000 * resource.getrusage(resource.RUSAGE_CHILDREN).ru_utime)} milliseconds")
PYTHON
    "$room/program" status
done
echo "$(nproc) processors"
