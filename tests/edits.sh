#!/bin/bash
# Tries wrong bodies of some crates: their edits in edits/, which the gate leaves out, beside those in must-fail/. Each has to be refused.
#
# usage: tests/edits.sh [--look] [--anew] [-jN] [CRATE..]    all crates that have edits where none is named
#
# It goes in a copy of these crates and those below them, which is removed again. `rt ci` proves and builds their libraries there: what was
# proved before counts, and what is proved here counts for the gate. Then tests/lib/edit_tries.py checks the functions that each edit changes, N
# crates at a time. Prints what each came to and keeps it in out/edits.tsv, so that a later run tries only what is new: crate, edit, what it
# came to, seconds, a sum of all that this stands on, and what the prover said. With --anew all are tried. Ends with 1 where an edit is not refused.
# With --look nothing is proved: it tells each edit that cannot be applied to the sources as they stand.
set -euo pipefail
root=$(cd "$(dirname "$0")/.." && pwd)
. "$root/build/copy.sh"
table=$root/out/edits.tsv
look=
jobs=1
while :; do
    case ${1:-} in
        --look) look=1 ;;
        --anew) rm -f "$table" ;;
        -j[1-9]*) jobs=${1#-j} ;;
        *) break ;;
    esac
    shift
done
if [ $# = 0 ]; then
    set -- $(cd "$root/crates" && find . -mindepth 3 -maxdepth 3 -name '*.edit' | cut -d/ -f2 | sort -u)
fi
for crate; do
    [ -d "$root/crates/$crate" ] || { echo "there is no crate $crate" >&2; exit 2; }
done
room=$(mktemp -d)
trap 'rm -rf "$room"' EXIT
copy_crates "$room/all" "$@"

# `lay_edits`: gives each crate of the copy its edits, all in one folder.
lay_edits() {
    for crate; do
        mkdir "$room/all/crates/$crate/must-fail"
        find "$root/crates/$crate" -path '*/out' -prune -o -name '*.edit' -exec cp -t "$room/all/crates/$crate/must-fail" {} +
    done
}

# What rt says of edits that cannot be applied, when it lays out a crate.
if [ -n "$look" ]; then
    lay_edits "$@"
    for crate; do
        (cd "$room/all/crates/$crate" && rt fmt) 2>&1 | sed -n "s|^rt: note: must-fail/|$crate/|p"
    done | tee "$room/told"
    echo "$(find "$room/all/crates" -name '*.edit' | wc -l) edits, $(wc -l <"$room/told") of which cannot be applied"
    [ ! -s "$room/told" ]
    exit
fi
(cd "$room/all" && rt ci)
lay_edits "$@"
mkdir -p "$root/out"
lowest=$(crates_below "$@" | grep -Fx "$(printf '%s\n' "$@")")
python3 "$root/tests/lib/edit_tries.py" "$room/all" "$table" "$jobs" $lowest
