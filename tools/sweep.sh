#!/usr/bin/env bash
# Refuses growths of memory, each in turn: in the tests `tests_refused*` of all crates, and in the program on
# some command lines. It builds and proves nothing: it runs what `rt ci` left in crates/NAME/out. It needs a C
# compiler. Its last line is `N passed, M failed`.
#
# tools/sweep.txt has a line for each test, its crate, its name and the least number of refusals that is
# expected of it, and one for each command line, `program`, that number and the words; `program:FAULT` stands in
# place of `program` if the program ends with that fault, `program:refused` if it refuses the words, `program:found` if it
# is a check that finds an error. A test passes if it ends well. A command line passes if each run prints the usual bytes on both streams and ends with the usual
# status, or prints nothing, says `nonograde: NoMemory` (of a survey or a check also `nonograde: Thread`) and ends with status 1.
# Both fail if fewer growths were refused than expected: then the tool wasn't loaded, or the call is another one.
#
# Last, a survey takes more memory with more lanes, and with greater rings, than with the usual number, and less with
# less.
# shellcheck source-path=SCRIPTDIR source=common.sh
. "$(dirname "$0")/common.sh"
cd "$tools/.." || exit
top=$PWD
open_room

# Sweeps a test.
sweep_test() {
    local crate=$1 name=$2 least=$3 tests=$top/crates/$1/out/$1_tests said status swept
    said=$(cd "$room" && timeout 60 env LD_PRELOAD="$room/sweep.so" "$tests" "$name" 2>&1)
    status=$?
    swept=$(sed -n 's/^swept \([0-9]*\)$/\1/p' <<<"$said" | tail -n 1)
    echo "$crate $name: ${swept:-0} refused"
    if [ $status != 0 ]; then
        count "$crate $name" "status $status: $(grep -v '^swept' <<<"$said" | tail -n 3)"
    elif [ "${swept:-0}" -lt "$least" ]; then
        count "$crate $name" "${swept:-0} refused, and not $least"
    else
        count "$crate $name" ""
    fi
}

# Makes the files that a command line may name beside puzzles/: a puzzle that has no text in `.nin`, and texts that
# are too long.
make_files() {
    local name
    ln -s "$top/puzzles" "$room/puzzles"
    printf '1 2\n1\n#\n1\n2\n' >"$room/flat.mk"
    for name in long.non long.mk long.nin long; do
        head -c 1048577 /dev/zero | tr '\0' '\n' >"$room/$name"
    done
}

# Runs the program with further variables on its words. Its status is that of the program.
run() {
    (cd "$room" && timeout 60 env "$@" <"$top/puzzles/collection.txt" >printed 2>said 9>told)
}

# What is wrong with how a command line ends with ample memory: how it is to end, and its status.
wrong_usual() {
    case "$1" in
        program) [ "$2" = 0 ] && [ ! -s "$room/said" ] ;;
        *:found) [ "$2" = 1 ] && [ ! -s "$room/said" ] && [ -s "$room/printed" ] ;;
        *:refused) [ "$2" = 2 ] && [ ! -s "$room/printed" ] && [ -s "$room/said" ] ;;
        *) [ "$2" = 1 ] && [ ! -s "$room/printed" ] && [ "$(<"$room/said")" = "nonograde: ${1#*:}" ] ;;
    esac || echo "status $2 with ample memory, and it said $(<"$room/said")"
}

# What is wrong with a run of a command line: its status, and the usual one; nothing if all is well.
wrong_with() {
    local said
    said=$(<"$room/said")
    if [ "$1" = "$2" ] && cmp -s "$room/said" "$room/usual_said"; then
        cmp -s "$room/printed" "$room/usual" || echo "it printed something else"
        return
    fi
    [ "$1" = 1 ] || echo "status $1"
    [ ! -s "$room/printed" ] || echo "it printed something and ended with status $1"
    case "$command $said" in
        *' nonograde: NoMemory' | 'survey nonograde: Thread' | 'check nonograde: Thread') ;;
        *) echo "it said $said" ;;
    esac
}

# Sweeps a command line of the program: how it is to end, the least number of refusals, and the words.
sweep_program() {
    local least=$2 command=$3 growth=0 wrong status usual
    run "$program" "${@:3}"
    usual=$?
    wrong=$(wrong_usual "$1" $usual)
    shift 2
    if [ -n "$wrong" ]; then
        count "$*" "$wrong"
        return
    fi
    mv "$room/printed" "$room/usual"
    mv "$room/said" "$room/usual_said"
    while :; do
        growth=$((growth + 1))
        run SWEEP_GROWTH=$growth LD_PRELOAD="$room/sweep.so" "$program" "$@"
        status=$?
        wrong=$(wrong_with $status $usual)
        if [ -n "$wrong" ]; then
            count "$*" "with growth $growth refused: $wrong"
            return
        fi
        [ -s "$room/told" ] || break
    done
    growth=$((growth - 1))
    echo "nonograde $*: $growth refused"
    if [ $growth -lt "$least" ]; then
        count "$*" "$growth refused, and not $least"
    elif [ $status != $usual ]; then
        count "$*" "status $status with nothing refused"
    else
        count "$*" ""
    fi
}

# How many bytes a survey requests with these options.
bytes_with() {
    run SWEEP_BYTES=1 LD_PRELOAD="$room/sweep.so" "$program" survey "$@" puzzles/switch.mk || echo "status $?"
    cat "$room/told"
}

# Counts whether a survey requests more bytes with each greater number of an option, whose usual number is in the
# middle.
compare_bytes() {
    local option=$1 least=$2 below=$3 above=$4 most=$5 given
    given=$(bytes_with "$option=$least" && bytes_with "$option=$below" && bytes_with && bytes_with "$option=$above" &&
        bytes_with "$option=$most")
    count "bytes by $option" "$([ "$(sort -nu <<<"$given" | grep -c '[0-9]')" = 5 ] && sort -nc <<<"$given" 2>&1 || echo "$given")"
}

cc -O2 -shared -fPIC tools/sweep.c -o "$room/sweep.so" -ldl || {
    echo "0 passed, 1 failed"
    exit 1
}
make_files
while read -r crate name rest; do
    case "$crate" in
        '' | '#') ;;
        program | program:*)
            # shellcheck disable=SC2086 # The words of the command line.
            sweep_program "$crate" "$name" $rest
            ;;
        *) sweep_test "$crate" "$name" "$rest" ;;
    esac
done <tools/sweep.txt
compare_bytes --lanes 1 3 5 16
compare_bytes --ring 1 7 9 64

# No test of refused growths is left out.
for tests in crates/*/out/*_tests; do
    crate=$(basename "$tests" _tests)
    for name in $("$tests" --list | sed -n 's/^\(tests_refused[a-z_]*::.*\): test$/\1/p'); do
        grep -q "^$crate $name " tools/sweep.txt || count "$crate $name" "tools/sweep.txt doesn't name it"
    done
done
finish
