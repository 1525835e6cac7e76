# Sourced by the benchmarks. A program is proved and built in a copy of the crates that it stands on, and left as $room/program. That goes by
# the gate, without must-fail edits, so what the gate has passed on this machine is kept.
. "$root/build/copy.sh"

# `build_beside NAME LINE`: the program whose sources stand as text in bench/programs/NAME, with LINE for its crates.txt.
build_beside() {
    name=${2%%:*}
    begin_copy ${2#*:}
    mkdir -p "$all/crates/$name/specs"
    echo "$2" >>"$all/crates.txt"
    (cd "$root/bench/programs/$1" && find . -name '*.txt') | while read -r file; do
        mkdir -p "$(dirname "$all/crates/$name/$file")"
        cp "$root/bench/programs/$1/$file" "$all/crates/$name/${file%.txt}"
    done
    [ -f "$all/crates/$name/specs/Lib.antt" ] || : >"$all/crates/$name/specs/Lib.antt"
    # Without arguments the program says how it is used.
    echo 1 >"$all/crates/$name/status"
    build "$name"
}

# `given_or_built NAME [PROGRAM]`: a copy of the program that was given, or where none was that of the repository.
given_or_built() {
    if [ $# = 1 ]; then
        build_program "$1"
    else
        cp "$2" "$room/program"
    fi
}

# `build_program NAME`: a program of the repository.
build_program() {
    begin_copy "$1"
    build "$1"
}

begin_copy() {
    all=$(mktemp -d)
    trap 'rm -rf "$room" "$all"' EXIT
    copy_crates "$all" "$@"
}

build() {
    (cd "$all" && rt ci) >"$room/log" 2>&1 || true
    if [ ! -x "$all/crates/$1/out/$1" ]; then
        tail -n 40 "$room/log" >&2
        echo "the program was not built" >&2
        exit 1
    fi
    cp "$all/crates/$1/out/$1" "$room/program"
    rm -rf "$all"
}
