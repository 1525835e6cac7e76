#!/bin/bash
# Tests in slots: `mcy run` of the three larger examples with 1, 8 and 64 slots, each in a folder of its own. Prints the processor time in
# milliseconds and the most memory in MB, which with 64 slots is that of 64 mutants with their simulations or searches.
#
# usage: bench/slots.sh [PROGRAM]      the program mcy, which is proved and built where it is left out
set -euo pipefail
root=$(cd "$(dirname "$0")/.." && pwd)
room=$(mktemp -d "$root/out-bench.XXXXXX")
trap 'rm -rf "$room"' EXIT
. "$root/bench/lib/build.sh"
given_or_built mcy "${@:1:1}"
for name in serial arbiter processor; do
    for slots in 1 8 64; do
        rm -rf "$room/here" && cp -r "$root/examples/$name" "$room/here"
        cd "$room/here"
        python3 - "$room/program" "$name" "$slots" <<'PYTHON'
import resource, subprocess, sys
program, name, slots = sys.argv[1:]
text = subprocess.run([program, "run", f"-j{slots}"], stdout=subprocess.PIPE, check=True).stdout
used = resource.getrusage(resource.RUSAGE_CHILDREN)
same = "the example's text" if text == open("status", "rb").read() else "another text"
print(f"{name} with {slots} slots: {round(1000 * (used.ru_utime + used.ru_stime))} milliseconds, {used.ru_maxrss / 1024:.1f} MB, {same}")
PYTHON
    done
done
echo "$(nproc) processors"
