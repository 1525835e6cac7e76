# Sourced by the script mcy, the benchmarks and tests/edits.sh, with the top of the repository in $root: copies of some crates, in which rt
# works apart from the repository. They have to lie outside it, since the gate refuses a second crates.txt below its own.

# `crates_below CRATE..`: these crates and those of the repository below them, one a line.
crates_below() {
    awk -v wanted="$*" '
        function take(name, names, count, number) {
            if (name in taken || !(name in below)) return
            taken[name]
            count = split(below[name], names, " ")
            for (number = 1; number <= count; number++) take(names[number])
            print name
        }
        { sub(/#.*/, "") }
        /:/ { sub(/:/, " : "); below[$1] = substr($0, index($0, ":") + 1) }
        END {
            count = split(wanted, names, " ")
            for (number = 1; number <= count; number++) take(names[number])
        }' "$root/crates.txt"
}

# `copy_crates FOLDER CRATE..`: a repository in FOLDER with these crates and those below them, without edits and without what was made in
# them. What the gate proved of them counts there, and what is proved there counts for the gate.
copy_crates() {
    copy=$1
    shift
    mkdir -p "$copy/crates" "$copy/.git"
    cp "$root/HANDLES" "$copy/"
    below=$(crates_below "$@")
    for crate in $below; do
        grep "^$crate[ :]" "$root/crates.txt"
    done >"$copy/crates.txt"
    tar -C "$root/crates" -c --anchored --no-wildcards-match-slash --exclude='*/out' --exclude='*/must-fail' --exclude='*/edits' $below |
        tar -C "$copy/crates" -x
}
