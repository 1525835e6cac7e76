#!/bin/bash
# Drives the built program on real files: each exit status with its lines and the files that it touches, campaigns that are
# stopped and killed at random moments and go on until they are finished, and databases that are none. Then the script
# `mcy` with a made-up kit. Ends with the line 'N passed, M failed'.
#
# usage: tests/real.sh [--program FILE] [CAMPAIGNS [SEED]]
#
# FILE is the program, which is taken as it is; without it the script `mcy` builds one. CAMPAIGNS is how many campaigns are
# killed and gone on with, 200 where it is left out. SEED begins the random moments; it is printed, so that a run can be
# made again, though not its moments on the machine.
set -u
root=$(cd "$(dirname "$0")/.." && pwd) || exit 1
program=
if [ "${1:-}" = --program ]; then
    program=$(realpath "${2:?}") || exit 1
    shift 2
fi
campaigns=${1:-200}
seed=${2:-$RANDOM}
RANDOM=$seed
room=$(mktemp -d) || exit 1
trap 'rm -rf "$room"' EXIT
chmod 755 "$room"
passed=0
failed=0

# One case: whether it is as it should be, the status of the command before, and its name. The status stands first, since
# a name may run commands of its own.
case_is() {
    if [ "$1" = 0 ]; then
        passed=$((passed + 1))
    else
        failed=$((failed + 1))
        echo "FAILED: $2"
    fi
}

# Whether there is this tool; what is skipped without it is said.
has_tool() {
    command -v "$1" >/dev/null && return 0
    echo "skipped: there is no $1, so $2"
    return 1
}
has_shell=0
has_tool sqlite3 "no database is looked at with the stock shell" && has_shell=1
# Root may read and write every file, so where this is root the calls below are made as nobody.
as_user=()
may_be_refused=1
if [ "$(id -u)" = 0 ]; then
    if has_tool setpriv "no file is one that may not be read or written"; then
        as_user=(setpriv --reuid 65534 --regid 65534 --clear-groups)
    else
        may_be_refused=0
    fi
fi

if [ -z "$program" ]; then
    (cd "$room" && "$root/mcy" >/dev/null 2>"$room/build")
    if [ $? != 2 ]; then
        cat "$room/build" >&2
        exit 1
    fi
    program=$root/out/mcy
fi
# Nobody may not come to where it stands.
cp "$program" "$room/mcy" && chmod 755 "$room/mcy" || exit 1
mcy=$room/mcy

# A new folder with a campaign of nine mutations over eight inputs, and no database.
new_folder() {
    rm -rf "$room/here"
    mkdir "$room/here" && cd "$room/here" || exit 1
    chmod 777 .
    cp "$root/examples/and_gate/config.mcy" .
    cat >g.v <<'SOURCE'
module g(input a, input b, input c, input d, input e, input f, input h, input k, output y);
  wire u = a & b;
  wire w = u | c;
  assign y = w ^ d;
endmodule
SOURCE
}

# The files of the folder, each with the sum of its bytes or its kind.
listing() {
    find . -mindepth 1 \( -type f -exec sha256sum {} + -o -printf '%y %p\n' \) | sort -k 2
}

# A call with these words ends with this status and these lines on standard error, and writes this text.
ends() {
    status=$1 text=$2 lines=$3
    shift 3
    "${as_user[@]}" timeout 60 "$mcy" "$@" >"$room/text" 2>"$room/lines" </dev/null
    [ $? = "$status" ] && [ "$(cat "$room/text")" = "$text" ] && [ "$(cat "$room/lines")" = "$lines" ]
    case_is $? "status $status of 'mcy $*', not: $(cat "$room/lines")"
}

# A call with these words is refused with this status and these lines. It writes no text, and makes and changes no file but
# these. Each opening of a database begins its log anew, so its bytes change.
refuses() {
    status=$1 lines=$2 made=$3
    shift 3
    listing >"$room/before"
    ends "$status" "" "$lines" "$@"
    listing >"$room/after"
    touched=$(diff "$room/before" "$room/after" | sed -n 's/^[<>].* //p' | sort -u | tr '\n' ' ')
    [ "$touched" = "$made" ]
    case_is $? "status $status of 'mcy $*' touches '$made', and not: $touched"
}

usage='mcy: usage: mcy init | run [-j N] [--stop-after N] [--retry N] | list | status | source'
finished='Mutations: 9
Finished: 9
Test same: PASS 0 FAIL 9 UNKNOWN 0
Tag CHANGED: 9
Tag NOCHANGE: 0
Asserts: 0
Unexpected: 0'
listed='1: inv g cell and_0 A 0 g.v:2 [same=FAIL] CHANGED
2: inv g cell and_0 B 0 g.v:2 [same=FAIL] CHANGED
3: inv g cell and_0 Y 0 g.v:2 [same=FAIL] CHANGED
4: inv g cell or_1 A 0 g.v:3 [same=FAIL] CHANGED
5: inv g cell or_1 B 0 g.v:3 [same=FAIL] CHANGED
6: inv g cell or_1 Y 0 g.v:3 [same=FAIL] CHANGED
7: inv g cell xor_2 A 0 g.v:4 [same=FAIL] CHANGED
8: inv g cell xor_2 B 0 g.v:4 [same=FAIL] CHANGED
9: inv g cell xor_2 Y 0 g.v:4 [same=FAIL] CHANGED'
shown='File: g.v
Columns: CHANGED NOCHANGE
    1      .      . | module g(input a, input b, input c, input d, input e, input f, input h, input k, output y);
    2      3      0 |   wire u = a & b;
    3      3      0 |   wire w = u | c;
    4      3      0 |   assign y = w ^ d;
    5      .      . | endmodule'
begun='Mutations: 9
Finished: 1
Test same: PASS 0 FAIL 1 UNKNOWN 0
Tag CHANGED: 1
Tag NOCHANGE: 0
Asserts: 0
Unexpected: 0'

# A demo is shown in an empty folder, twice with one text, and leaves it empty.
demonstrated='Demo: 7 20
Sites: 1020
Mutations: 100
Finished: 100
Test test_sim: PASS 100 FAIL 0 HANG 0
Test test_eq: PASS 68 FAIL 32 UNKNOWN 0
Tag COVERED: 0
Tag UNCOVERED: 32
Tag NOCHANGE: 68
Tag EQGAP: 0
Tag GIVENUP: 0
Asserts: 0
Unexpected: 0'
mkdir "$room/here" && cd "$room/here" && chmod 777 . || exit 1
ends 0 "$demonstrated" "" demo 7 20
ends 0 "$demonstrated" "" demo 7 20
refuses 2 "$usage" "" demo 7 0
refuses 2 "$usage" "" demo 7 401
[ -z "$(ls -A)" ]
case_is $? "a demo leaves no file: $(ls -A | tr '\n' ' ')"

# Each status that the program has, as README.md lists them, in their order.
new_folder
ends 0 "$(printf 'Sites: 9\nMutations: 9')" "" init
[ "$(ls | tr '\n' ' ')" = "config.mcy g.v mcy.db mcy.db-wal " ]
case_is $? "the database is mcy.db, and its log mcy.db-wal: $(ls | tr '\n' ' ')"
ends 1 "$begun" "" run --stop-after 1
ends 0 "1: inv g cell and_0 A 0 g.v:2 [same=FAIL] CHANGED
$(sed '1d; s/same=FAIL//; s/CHANGED/!unfinished/' <<<"$listed")" "" list
ends 0 "$finished" "" run
ends 0 "$finished" "" status
ends 0 "$listed" "" list
ends 0 "$shown" "" source
refuses 9 "mcy: campaign already begun" "./mcy.db-wal " init
new_folder
refuses 2 "$usage" ""
refuses 2 "$usage" "" source g.v
refuses 2 "$usage" "" run --stop-after 0
refuses 2 "$usage" "" run -j0
refuses 2 "$usage" "" run -j 1 -j 2
refuses 2 "$usage" "" $'st\xe9tus'
{
    echo "module g(output y$(printf ', input [127:0] a%s' $(seq 17)));"
    echo '  assign y = a1[0] & a17[127];'
    echo 'endmodule'
} >g.v
refuses 5 "mcy: TooMany FreeBits" "" run
rm g.v
refuses 6 "mcy: g.v: missing" "" run
rm config.mcy
refuses 6 "mcy: config.mcy: missing" "" status
head -c 1048577 /dev/zero >config.mcy
refuses 7 "mcy: config.mcy: too large" "" run
head -c 1048576 /dev/zero >config.mcy
refuses 3 "mcy: config.mcy:1: BadLine" "" run
: >config.mcy
refuses 3 "mcy: config.mcy: Missing Script" "" run
rm config.mcy && mkdir config.mcy
refuses 11 "mcy: config.mcy: read fault" "" init
rmdir config.mcy && ln -s /dev/zero config.mcy
refuses 11 "mcy: config.mcy: read fault" "" run
if has_tool mkfifo "no file is a FIFO"; then
    rm config.mcy && mkfifo config.mcy && chmod 666 config.mcy
    refuses 11 "mcy: config.mcy: read fault" "" run
fi
new_folder
if [ "$may_be_refused" = 1 ]; then
    chmod 200 g.v
    refuses 11 "mcy: g.v: read fault" "" run
fi
new_folder
refuses 8 "mcy: no campaign" "./mcy.db ./mcy.db-wal " status
refuses 8 "mcy: no campaign" "./mcy.db-wal " status
refuses 8 "mcy: no campaign" "./mcy.db-wal " list
refuses 8 "mcy: no campaign" "./mcy.db-wal " source
ends 0 "$finished" "" run
cp g.v was.v
echo "// a line more" >>g.v
refuses 10 "mcy: database: meta 2" "./mcy.db-wal " run
echo "endmodule" >>g.v
refuses 5 "mcy: g.v:7:1: Unexpected" "" run
cp was.v g.v
"${as_user[@]}" "$mcy" status >/dev/full 2>"$room/lines"
[ $? = 13 ] && [ "$(cat "$room/lines")" = "mcy: write fault" ]
case_is $? "status 13 where standard output is full: $(cat "$room/lines")"
ends 0 "$finished" "" status

# A strict status has the same text, and another status where an assertion has failed.
ends 0 "$finished" "" status --strict
new_folder
sed -i 's/^\[logic\]/&\nassert result("same") == "PASS"/' config.mcy
missed=$(sed 's/^Tag CHANGED: 9/Tag CHANGED: 0/; s/^Asserts: 0/Asserts: 9/' <<<"$finished")
ends 0 "$missed" "" run
ends 21 "$missed" "mcy: requirement missed" status --strict
ends 0 "$missed" "" status
refuses 2 "$usage" "" status --strict --strict
new_folder
ends 0 "$finished" "" run

# A run over mutations that it names: a number that none has is refused before anything is begun, and behind the check of the book.
new_folder
refuses 22 "mcy: no mutation 10" "./mcy.db ./mcy.db-wal " run --mutations 3,10,11
refuses 8 "mcy: no campaign" "./mcy.db-wal " status
ends 0 "$begun" "" run --mutations 9
refuses 22 "mcy: no mutation 10" "./mcy.db-wal " run --mutations=10
ends 0 "$begun" "" run --mutations 9,9
ends 0 "$finished" "" run -j3
refuses 2 "$usage" "" run --mutations 0
refuses 2 "$usage" "" run --mutations 1,

# What a project requires is asked once its campaign is finished, and told behind the same text.
new_folder
sed -i 's/^\[script\]/require 1 NOCHANGE of CHANGED NOCHANGE\n&/' config.mcy
ends 1 "$begun" "" run --stop-after 1
ends 0 "$begun" "" status
ends 21 "$finished" "mcy: requirement missed" run
ends 21 "$finished" "mcy: requirement missed" status
ends 0 "$listed" "" list

# A campaign over one line, and one over none that has a site, of which no database is opened.
new_folder
sed -i 's/^\[script\]/only g.v:3-3\n&/' config.mcy
ends 0 "$(printf 'Sites: 9\nMutations: 3')" "" init
ends 0 "$(sed -n 's/ \[.*/ [] !unfinished/; 4,6{s/^[0-9]*//; p}' <<<"$listed" | sed '=' | sed 'N; s/\n//')" "" list
sed -i 's/^only .*/only g.v:5-5/' config.mcy
refuses 5 "mcy: NoSites" "" run
new_folder
ends 0 "$finished" "" run

# The rows of the database, by the stock shell, as `seq mutation test word mark tags` in the order of seq. Those of a database of
# the first format are in `journal`.
rows() {
    sqlite3 -separator ' ' mcy.db "SELECT seq, mutation, test, word, mark, tags FROM ${1:-journal2} ORDER BY seq"
}

if [ "$has_shell" = 1 ]; then
    wanted=$(rows)
    [ "$(echo "$wanted" | wc -l)" = 9 ]
    case_is $? "a run has nine rows"
    [ "$(sqlite3 mcy.db 'PRAGMA integrity_check')" = ok ]
    case_is $? "the stock shell finds the database sound"
    [ "$(sqlite3 mcy.db '.tables' | tr -s ' \n' ' ')" = "journal journal2 meta mutations " ]
    case_is $? "the database has four tables"
    [ "$(sqlite3 mcy.db 'SELECT body FROM meta WHERE item = 0')" = 2 ]
    case_is $? "item 0 of meta is the format's number"
fi

# One call, killed after a random time, of up to 25 milliseconds where nothing else is said, unless it ends before. It has let go of its
# files when this returns.
kills=0
most=250
killed_call() {
    "$mcy" "$@" >/dev/null 2>&1 &
    pid=$!
    sleep "$(printf '0.%04d' $((RANDOM % most)))"
    kill -KILL "$pid"
    wait "$pid"
    [ $? = 137 ] && kills=$((kills + 1))
} 2>/dev/null

texts=0
books=0
for _ in $(seq "$campaigns"); do
    new_folder
    for _ in 1 2 3 4 5 6; do
        slots=-j$((RANDOM % 64 + 1))
        case $((RANDOM % 4)) in
            0) killed_call run "$slots" ;;
            1) killed_call run --stop-after $((RANDOM % 3 + 1)) "$slots" ;;
            2) killed_call init ;;
            3) killed_call status ;;
        esac
    done
    slots=-j$((RANDOM % 64 + 1))
    text=$("$mcy" run "$slots" 2>"$room/lines")
    [ "$text" = "$finished" ] && texts=$((texts + 1))
    if [ "$has_shell" = 1 ]; then
        [ "$(sqlite3 mcy.db 'PRAGMA integrity_check')" = ok ] && [ "$(rows)" = "$wanted" ] && books=$((books + 1))
    fi
done
[ "$campaigns" = 0 ] || echo "$campaigns campaigns with $kills kills, begun with the number $seed"
[ "$texts" = "$campaigns" ]
case_is $? "each killed campaign ends with the undisturbed text ($texts of $campaigns)"
if [ "$has_shell" = 1 ]; then
    [ "$books" = "$campaigns" ]
    case_is $? "each killed campaign has the undisturbed rows in a sound database ($books of $campaigns)"
fi

# The user's own project, with comments, blank lines, and a file of another name in a folder of its own.
rm -rf "$room/here" && cp -r "$root/examples/parity" "$room/here" && cd "$room/here" && chmod -R go+rX . && chmod 777 . || exit 1
ends 0 'Mutations: 6
Finished: 6
Test same: PASS 0 FAIL 6 UNKNOWN 0
Tag CHANGED: 6
Tag NOCHANGE: 0
Asserts: 0
Unexpected: 0' "" run
ends 0 "$(for n in 0 1; do
    for port in A B Y; do
        echo "inv g cell xor_$n $port 0 rtl/parity.v:$((n + 2)) [same=FAIL] CHANGED"
    done
done | sed '=' | sed 'N; s/\n/: /')" "" list
cp config.mcy was && sed 's/^modes inv$/modes inv const0/' was >config.mcy
refuses 10 "mcy: database: meta 1" "./mcy.db-wal " run
sed 's/^eq$/run true/' was >config.mcy
refuses 3 "mcy: config.mcy:$(grep -n '^eq$' was | cut -d: -f1): UnsupportedCommand" "" run
sed 's/tag("NOCHANGE")/tag("OTHER")/' was >config.mcy
refuses 4 "mcy: config.mcy:$(grep -n 'tag("NOCHANGE")' was | cut -d: -f1): UnknownTag" "" run
{
    cat was
    echo '# more'
} >config.mcy
refuses 10 "mcy: database: meta 1" "./mcy.db-wal " run
{
    echo '# more'
    cat was
} >config.mcy
refuses 10 "mcy: database: meta 1" "./mcy.db-wal " run
cp was config.mcy && mv rtl/parity.v rtl/other.v
refuses 6 "mcy: rtl/parity.v: missing" "" status
sed 's/^rtl.*/rtl\/other.v/; s/^read_verilog.*/read_verilog other.v/' was >config.mcy
refuses 10 "mcy: database: meta 1" "./mcy.db-wal " status

# Two modules in two files with a register, and a fault of the second file.
rm -rf "$room/here" && cp -r "$root/examples/counter" "$room/here" && cd "$room/here" && chmod -R go+rX . && chmod 777 . || exit 1
ends 0 "$(cat status)" "" run
ends 0 "$(cat status)" "" status
sed 's/& last/\& lost/' "$root/examples/counter/rtl/top.v" >rtl/top.v
refuses 5 "mcy: rtl/top.v:3:24: Unknown" "" run

# A counter with ten free bits, no test of which is given up; and a design whose tests have one lemma each, so that those of mutants
# that change nothing are.
rm -rf "$room/here" && cp -r "$root/examples/saturating" "$room/here" && cd "$room/here" && chmod -R go+rX . && chmod 777 . || exit 1
ends 0 "$(cat status)" "" run
sed 's/^conflicts .*/conflicts 1\nmodes const0/' "$root/examples/saturating/config.mcy" >config.mcy
refuses 10 "mcy: database: meta 1" "./mcy.db-wal " run
rm mcy.db* && printf 'module sat(input a, input b, output y);\n  wire u = a & b;\n  assign y = a | u;\nendmodule\n' >sat.v
ends 0 'Mutations: 6
Finished: 6
Test same: PASS 0 FAIL 2 UNKNOWN 4
Tag CHANGED: 2
Tag NOCHANGE: 0
Tag GIVENUP: 4
Asserts: 0
Unexpected: 0' "" run

# A test that was given up is asked again under a greater limit, once, and then stands.
rm -rf "$room/here" && cp -r "$root/examples/given_up" "$room/here" && cd "$room/here" && chmod -R go+rX . && chmod 777 . || exit 1
given='Mutations: 6
Finished: 6
Test same: PASS 0 FAIL 5 UNKNOWN 1
Tag CHANGED: 5
Tag NOCHANGE: 0
Tag GIVENUP: 1
Asserts: 0
Unexpected: 0'
settled='Mutations: 6
Finished: 6
Test same: PASS 1 FAIL 5 UNKNOWN 0
Tag CHANGED: 5
Tag NOCHANGE: 1
Tag GIVENUP: 0
Asserts: 0
Unexpected: 0'
ends 0 "$given" "" run
ends 0 "$settled" "" run --retry 9
ends 0 "$settled" "" run --retry=9
ends 0 "$settled" "" status

# The same over its database as the first format has it, in three tables and without bounds: a run moves the rows and gives them the
# project's limit, and retries that are killed end with the undisturbed rows.
if [ "$has_shell" = 1 ]; then
    bounds() {
        sqlite3 -separator ' ' mcy.db "SELECT mutation, test, word, bound FROM journal2 ORDER BY seq"
    }
    here_again() {
        rm -rf "$room/here" && cp -r "$root/examples/given_up" "$room/here" && cd "$room/here" && cp "$room/kept.db" mcy.db &&
            chmod -R go+rX . && chmod 777 . && chmod 666 mcy.db
    }
    settled_bounds=$(bounds)
    given_bounds=$(head -n 6 <<<"$settled_bounds")
    old_rows=$(rows | head -n 6)
    sqlite3 mcy.db "BEGIN;
        INSERT INTO journal SELECT seq, mutation, test, word, mark, tags FROM journal2 WHERE seq < 6;
        DROP TABLE journal2;
        UPDATE meta SET body = x'31' WHERE item = 0;
        COMMIT;
        PRAGMA wal_checkpoint(TRUNCATE)" >/dev/null
    cp mcy.db "$room/kept.db"
    here_again
    ends 0 "$given" "" status
    [ "$(rows journal)" = "$old_rows" ] && chmod 666 mcy.db*
    case_is $? "a status leaves the rows of a database of the first format"
    ends 0 "$given" "" run
    [ "$(rows)" = "$old_rows" ] && [ "$(bounds)" = "$given_bounds" ] && [ -z "$(rows journal)" ] && [ "$(sqlite3 mcy.db 'SELECT body FROM meta WHERE item = 0')" = 2 ]
    case_is $? "a run moves the rows to the second format, and takes none away"
    kills=0
    asked=0
    times=$((campaigns < 50 ? campaigns : 50))
    for _ in $(seq "$times"); do
        here_again
        killed_call run --retry 9 "-j$((RANDOM % 64 + 1))"
        killed_call run --retry 9
        [ "$("$mcy" run --retry 9 2>"$room/lines")" = "$settled" ] && [ "$(sqlite3 mcy.db 'PRAGMA integrity_check')" = ok ] && [ "$(bounds)" = "$settled_bounds" ] && asked=$((asked + 1))
    done
    [ "$asked" = "$times" ]
    case_is $? "each of $times retries that were killed $kills times ends with the undisturbed rows ($asked)"
fi

# The campaign of nine mutations as a program wrote it that knew the first format alone: three of its rows, in three tables. `list`,
# `status` and `source` read it as it is; `run` moves it to the second format and goes on. A call that is killed leaves the rows in one
# of the two tables, all of them, under the number of that table's format.
old_folder() {
    rm -rf "$room/here" && cp -r "$root/tests/first_format" "$room/here" && cd "$room/here" && chmod -R go+rX . && chmod 777 . && chmod 666 mcy.db*
}
if [ "$has_shell" = 1 ]; then
    old_folder
    older=$(rows journal)
    [ "$(echo "$older" | wc -l)" = 3 ] && [ "$(sqlite3 mcy.db 'SELECT body FROM meta WHERE item = 0')" = 1 ]
    case_is $? "the older database has three rows of the first format"
    [ "$(sqlite3 mcy.db '.tables' | tr -s ' \n' ' ')" = "journal meta mutations " ]
    case_is $? "the older database has three tables"
    chmod 666 mcy.db*
    for command in list status source; do
        "${as_user[@]}" "$mcy" "$command" >"$room/text" 2>"$room/lines"
        [ -s "$room/text" ] && [ ! -s "$room/lines" ]
        case_is $? "'mcy $command' over the older database: $(cat "$room/lines")"
    done
    [ "$(rows journal)" = "$older" ] && [ "$(rows)" = "" ]
    case_is $? "they leave its rows where they are"
    chmod 666 mcy.db*
    ends 0 "$finished" "" run
    [ "$(rows | head -n 3)" = "$older" ] && [ "$(rows)" = "$wanted" ] && [ "$(rows journal)" = "" ]
    case_is $? "a run moves the rows of the older database, and goes on behind them"
    [ "$(sqlite3 mcy.db 'SELECT DISTINCT bound FROM journal2')" = 20000 ]
    case_is $? "the rows that were moved have the limit of the project"
    whole=0
    kills=0
    times=$((campaigns < 50 ? campaigns : 50))
    for _ in $(seq "$times"); do
        old_folder
        killed_call run "-j$((RANDOM % 64 + 1))"
        case $(sqlite3 mcy.db 'SELECT body FROM meta WHERE item = 0') in
            1) kept=$(rows journal) && { [ "$(sqlite3 mcy.db '.tables' | grep -c journal2)" = 0 ] || [ -z "$(rows)" ]; } ;;
            2) kept=$(rows | head -n 3) && [ "$(rows journal)" = "" ] ;;
            *) kept=none ;;
        esac && [ "$kept" = "$older" ] && chmod 666 mcy.db* && [ "$("$mcy" run 2>"$room/lines")" = "$finished" ] && [ "$(rows)" = "$wanted" ] && whole=$((whole + 1))
    done
    [ "$whole" = "$times" ]
    case_is $? "each of $times upgrades, $kills of them killed, leaves the rows whole ($whole)"
fi

# Three mutations of twelve sites in two modes, picked from each line first.
rm -rf "$room/here" && cp -r "$root/examples/parity" "$room/here" && cd "$room/here" && chmod -R go+rX . && chmod 777 . || exit 1
sed 's/^modes inv$/modes inv const0/; s/^tags /size 3\npick even\n&/' "$root/examples/parity/config.mcy" >config.mcy
ends 0 "$(printf 'Sites: 12\nMutations: 3')" "" init
ends 0 '1: const0 g cell xor_0 A 0 rtl/parity.v:2 [] !unfinished
2: inv g cell xor_0 B 0 rtl/parity.v:2 [] !unfinished
3: inv g cell xor_1 Y 0 rtl/parity.v:3 [] !unfinished' "" list

# A folder with the database of a finished campaign, to which others may write.
finished_folder() {
    new_folder
    "$mcy" run >/dev/null
    chmod 666 mcy.db*
}

# Projects with a test by a bench: each test ends with a word, and the campaign is finished.
for name in serial arbiter processor; do
    rm -rf "$room/here" && cp -r "$root/examples/$name" "$room/here" && cd "$room/here" && chmod -R go+rX . && chmod 777 . || exit 1
    sed 's/^size .*/size 4/' "$root/examples/$name/config.mcy" >config.mcy
    "${as_user[@]}" timeout 60 "$mcy" run >"$room/text" 2>"$room/lines" </dev/null && [ "$(sed -n 2p "$room/text")" = "Finished: 4" ]
    case_is $? "the campaign of $name is finished: $(cat "$room/lines")"
done

# The three logics to start from: each campaign has the status that stands beside it, and all have the same tags.
tags=
for name in simulation_first equality_first both; do
    rm -rf "$room/here" && cp -r "$root/examples/logics" "$room/here" && cd "$room/here/$name" && chmod -R go+rX "$room/here" && chmod 777 . || exit 1
    "${as_user[@]}" timeout 60 "$mcy" run >"$room/text" 2>"$room/lines" </dev/null && cmp -s "$room/text" "$root/examples/logics/$name/status"
    case_is $? "the campaign of logics/$name has its status: $(cat "$room/text" "$room/lines")"
    tags="$tags $(grep '^Tag ' "$room/text" | tr '\n' ' ')"
done
[ "$(xargs -n 12 <<<"$tags" | sort -u | wc -l)" = 1 ]
case_is $? "three logics have the same tags:$tags"

# What a bench says of the design itself, by a call that opens no database.
slots_folder() {
    rm -rf "$room/here" && cp -r "$root/examples/arbiter" "$room/here" && cd "$room/here" && chmod -R go+rX . && chmod 777 . || exit 1
    sed 's/^size .*/size 60/' "$root/examples/arbiter/config.mcy" >config.mcy
}
slots_folder
listing >"$room/before"
ends 0 "Test bench: PASS after 1006 cycles" "" baseline
listing | cmp -s "$room/before"
case_is $? "a baseline touches no file"
sed -i 's/^cycles .*/cycles 1005/' config.mcy
ends 20 "Test bench: HANG after 1005 cycles" "mcy: baseline not passed" baseline
[ ! -e mcy.db ]
case_is $? "nor does one that is not passed"
sed -i 's/^cycles .*/&\nbaseline on/' config.mcy
refuses 20 "mcy: baseline not passed" "./mcy.db ./mcy.db-wal " init
refuses 20 "mcy: baseline not passed" "./mcy.db-wal " run
refuses 8 "mcy: no campaign" "./mcy.db-wal " status
sed -i 's/^cycles .*/cycles auto/' config.mcy
"${as_user[@]}" timeout 60 "$mcy" run >"$room/text" 2>"$room/lines" </dev/null && [ "$(sed -n 2p "$room/text")" = "Finished: 60" ]
case_is $? "a campaign whose bench has the cycles by that of the design is finished: $(cat "$room/lines")"

# A campaign whose tests take turns, a bench and then an equality for what that does not notice. It has one text and one word for each test,
# whatever the numbers of slots are, also where its calls are over mutations that they name, stopped and killed; the order of its rows goes by
# the slots and the mutations.
slots_folder
one_text=$("$mcy" run)
[ "$(sed -n 2p <<<"$one_text")" = "Finished: 60" ]
case_is $? "a campaign of 60 mutations is finished: $one_text"
for slots in -j3 -j64; do
    slots_folder
    ends 0 "$one_text" "" run "$slots"
    ends 0 "$one_text" "" run -j 1 --stop-after 1
done
if [ "$has_shell" = 1 ]; then
    row_words() {
        sqlite3 -separator ' ' mcy.db "SELECT mutation, test, word, mark, tags, bound FROM journal2 ORDER BY mutation, test"
    }
    slots_folder
    "$mcy" run >/dev/null 2>"$room/lines"
    one_words=$(row_words)
    row_count=$(wc -l <<<"$one_words")
    kept=0
    kills=0
    most=1000
    times=$((campaigns < 20 ? campaigns : 20))
    for _ in $(seq "$times"); do
        slots_folder
        for _ in 1 2 3 4; do
            case $((RANDOM % 3)) in
                0) killed_call run "-j$((RANDOM % 64 + 1))" ;;
                1) killed_call run -j "$((RANDOM % 4 + 1))" --stop-after $((RANDOM % 20 + 1)) ;;
                2) killed_call run "-j$((RANDOM % 8 + 1))" --mutations "$((RANDOM % 60 + 1)),$((RANDOM % 60 + 1)),$((RANDOM % 60 + 1))" ;;
            esac
        done
        slots=$((RANDOM % 64 + 1))
        [ "$("$mcy" run -j=$slots 2>"$room/lines")" = "$one_text" ] && [ "$(row_words)" = "$one_words" ] && [ "$(sqlite3 mcy.db 'PRAGMA integrity_check')" = ok ] &&
            [ "$(sqlite3 mcy.db 'SELECT count(*), max(seq) + 1 FROM journal2')" = "$row_count|$row_count" ] && kept=$((kept + 1))
    done
    most=250
    [ "$kept" = "$times" ]
    case_is $? "each of $times campaigns in slots that were killed $kills times ends with one text and the same words ($kept)"
fi

# Databases that are none, and one whose tables have no CHECK, which is taken.
tables='CREATE TABLE meta(item INTEGER PRIMARY KEY, body BLOB NOT NULL) STRICT;
CREATE TABLE mutations(number INTEGER PRIMARY KEY, place BLOB NOT NULL) STRICT;
CREATE TABLE journal(seq INTEGER PRIMARY KEY, mutation INTEGER NOT NULL, test INTEGER NOT NULL,
    word INTEGER NOT NULL, mark INTEGER NOT NULL, tags INTEGER NOT NULL, UNIQUE(mutation, test)) STRICT'
fault='mcy: database fault'
no_book="$fault
mcy: mcy.db: another program's, or damaged"
no_access="$fault
mcy: mcy.db: cannot be read or written"
locked="$fault
mcy: mcy.db: locked"
new_folder && mkdir mcy.db
refuses 12 "$no_access" "" run
new_folder && printf 'This is a text and no database, and it is longer than a page would be.\n' >mcy.db && chmod 666 mcy.db
refuses 12 "$no_book" "./mcy.db-wal " run
if [ "$may_be_refused" = 1 ]; then
    finished_folder && chmod 444 mcy.db*
    refuses 12 "$no_access" "" run
fi
new_folder && printf x >mcy.db && chmod 666 mcy.db
refuses 12 "$no_book" "" run
finished_folder && head -c 5000 mcy.db >short && mv short mcy.db && rm -f mcy.db-wal && chmod 666 mcy.db
refuses 12 "$no_book" "./mcy.db-wal " run
if [ "$has_shell" = 1 ]; then
    new_folder && sqlite3 mcy.db 'CREATE TABLE note(id INTEGER PRIMARY KEY, text TEXT)' && chmod 666 mcy.db
    refuses 12 "$no_book" "./mcy.db-wal " run
    finished_folder && sqlite3 mcy.db "DELETE FROM meta WHERE item = 1" && chmod 666 mcy.db*
    refuses 12 "$no_book" "./mcy.db-wal " run
    # A number that is no u32, and a row in the journal that is not the one of the book's format.
    new_folder && sqlite3 mcy.db "$tables; INSERT INTO meta VALUES (0, x'31'); INSERT INTO journal VALUES (0, 0, 0, 4294967296, 0, 0)" && chmod 666 mcy.db
    refuses 12 "$no_book" "./mcy.db ./mcy.db-wal " run
    new_folder && sqlite3 mcy.db "$tables; INSERT INTO journal VALUES (0, 0, 0, 1, 0, 0)" && chmod 666 mcy.db
    refuses 12 "$no_book" "./mcy.db ./mcy.db-wal " run
    for change in 'CREATE VIEW found AS SELECT word FROM journal' 'DROP TABLE journal' 'ALTER TABLE meta ADD COLUMN more BLOB' \
        'CREATE INDEX words ON journal(word)'; do
        new_folder && sqlite3 mcy.db "$tables; $change" && chmod 666 mcy.db
        refuses 12 "$no_book" "./mcy.db-wal " run
    done
    new_folder && sqlite3 mcy.db "$tables" && chmod 666 mcy.db
    ends 0 "$finished" "" run
    finished_folder && sqlite3 mcy.db "UPDATE journal2 SET word = 9 WHERE seq = 0" && chmod 666 mcy.db*
    refuses 10 "mcy: database: row 0" "./mcy.db-wal " run
    finished_folder && sqlite3 mcy.db "UPDATE mutations SET place = x'00' WHERE number = 8" && chmod 666 mcy.db*
    refuses 10 "mcy: database: mutation 8" "./mcy.db-wal " run
    finished_folder && sqlite3 mcy.db "DELETE FROM meta" && chmod 666 mcy.db*
    refuses 10 "mcy: database: stray rows" "./mcy.db-wal " run
    finished_folder
    coproc SHELL_OF { sqlite3 mcy.db; }
    echo 'SELECT count(*) FROM journal;' >&"${SHELL_OF[1]}"
    read -r _ <&"${SHELL_OF[0]}"
    chmod 666 mcy.db*
    refuses 12 "$locked" "" run
    echo '.quit' >&"${SHELL_OF[1]}"
    wait "$SHELL_OF_PID"
fi
for left in '' '\0'; do
    new_folder && printf "$left" >mcy.db && chmod 666 mcy.db
    ends 0 "$finished" "" run
done

# Files that may not grow, as on a full disk: each call tells so, and with room again the campaign goes on.
for kilobytes in 8 40 260; do
    new_folder
    for call in first second; do
        (trap '' XFSZ && ulimit -f "$kilobytes" && exec "$mcy" run >"$room/text" 2>"$room/lines")
        [ $? = 12 ] && [ "$(cat "$room/lines")" = "$no_access" ]
        case_is $? "the $call call with $kilobytes KB of room: $(cat "$room/lines")"
    done
    chmod 666 mcy.db*
    ends 0 "$finished" "" run
done

# Calls that are given little memory, from so little that the program cannot begin to as much as it wants. Some end with
# status 14, and none with that of another refusal but a database that the want of memory has shut. What they leave goes on.
if has_tool prlimit "no call finds no memory"; then
    new_folder
    wanting=0
    others=
    for kilobytes in $(seq 2000 100 8000); do
        text=$(prlimit --as=$((kilobytes * 1024)) "$mcy" run --stop-after 1 2>"$room/lines")
        status=$?
        case $status in
            14) [ "$text" = "" ] && [ "$(cat "$room/lines")" = "mcy: no memory" ] && wanting=$((wanting + 1)) ;;
            [2-9] | 1[013]) others="$others $status" ;;
        esac
    done
    [ "$wanting" -gt 0 ] && [ "$others" = "" ]
    case_is $? "status 14 where there is no memory ($wanting calls), and not:$others"
    [ "$("$mcy" run 2>"$room/lines")" = "$finished" ]
    case_is $? "a campaign that found no memory goes on: $(cat "$room/lines")"
fi

# What a terminal is told: how far a campaign is, and what to do next.
if has_tool python3 "no terminal is told how far a campaign is"; then
    python3 "$root/tests/program/progress.py" "$mcy" >"$room/lines" 2>&1
    case_is $? "a terminal is told how far a campaign is and what to do next, and nothing else: $(tail -n 1 "$room/lines")"
fi

# Random files, and random edits of the examples.
if has_tool python3 "no random files are tried"; then
    python3 "$root/tests/program/hostile.py" --program "$mcy" 500 "$seed" >"$room/lines"
    case_is $? "random files have answers of the table: $(cat "$room/lines")"
fi

# Small sources that ask for very much.
if has_tool python3 "no small sources that ask for very much are tried"; then
    python3 "$root/tests/program/small_sources.py" --program "$mcy" >"$room/lines"
    case_is $? "small sources that ask for very much have their answers soon and in little memory: $(cat "$room/lines")"
fi

# The script, with a kit that makes programs that are none.
if has_tool python3 "the script mcy is not tried"; then
    python3 "$root/tests/program/script.py" >"$room/lines" 2>&1
    case_is $? "the script mcy builds a program where it has to, and takes no other: $(cat "$room/lines")"
fi

echo "$passed passed, $failed failed"
[ "$failed" = 0 ]
