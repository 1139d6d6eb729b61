# shellcheck shell=bash disable=SC2034
# What the scripts of this folder share; each sources it first. A script has its usage, its options and its
# statuses in the comment at its top, which `--help` prints.
set -u
export LC_ALL=C
tools=$(cd "$(dirname "${BASH_SOURCE[0]}")" && pwd)
bin=${tools%/*}/bin
program=${NONOGRADE:-$tools/../crates/nonograde/out/nonograde}
[[ $program != */* ]] || program=$(realpath -ms "$program")
passed=0 failed=0

# Prints the comment at the script's top.
print_head() {
    sed -n '1d; /^#/!q; s/^# \{0,1\}//p' "$0"
}

# Refuses the command line.
refuse() {
    echo "${0##*/}: $*" >&2
    exit 2
}

# Ends with a fault, by its word.
stop() {
    echo "nonograde: $1" >&2
    exit 1
}

# Makes a room, a folder that goes when the script ends.
open_room() {
    room=$(mktemp -d) || stop Write
    trap 'rm -rf "$room"' EXIT
}

# Prints how many checks run side by side: one a processor, as far as each has 4 GB of the free memory. Most hold 1 to 3 GB,
# the largest 3.9. By itself `rt` reserves up to 8 GB for a check of the larger crates, and leaves processors idle.
lanes() {
    local lanes memory
    lanes=$(nproc)
    memory=$(awk '/^MemAvailable:/ { print int($2 / 4000000) }' /proc/meminfo)
    [ "$memory" -lt "$lanes" ] && lanes=$memory
    echo $((lanes < 1 ? 1 : lanes))
}

# Counts a result of a test, and tells it if it is bad: its name, and what is wrong with it.
count() {
    if [ -z "$2" ]; then
        passed=$((passed + 1))
    else
        failed=$((failed + 1))
        echo "FAILED $1: $2"
    fi
}

# Runs a script of bin/, and counts whether it ends with a status and prints the bytes of `expected`: a name for
# this, the status, the script (`pack` is nonograde-pack) and its words.
check() {
    local name=$1 status=$2 wrong='' ended
    "$bin/nonograde-$3" "${@:4}" >printed 2>said
    ended=$?
    [ $ended = "$status" ] || wrong="status $ended and not $status, $(tail -n 3 said)"
    cmp -s printed expected || wrong+=" it printed something else: $(diff -a expected printed | head -n 3)"
    count "$name" "$wrong"
}

# Counts whether a script of bin/ ends quietly if only its first line is read, also if the signal of that is
# ignored: a name for this, the first line, the script and its words.
check_quiet() {
    local name=$1 line=$2 signal
    for signal in URG PIPE; do
        (
            trap '' $signal
            "$bin/nonograde-$3" "${@:4}" 2>said
            echo $? >ended
        ) | head -n 1 >printed
        count "$name, $signal ignored" "$(grep -vx 141 ended; cat said; grep -vxF -- "$line" printed)"
    done
}

# Counts whether the script just run says these lines, and no others, in its own name or as a fault.
check_said() {
    local said
    said=$(grep -aE '^nonograde(-[a-z]+)?: ' said)
    count "what is said of $1" "$([ "$said" = "$2" ] || echo "it said $said")"
}

# Ends a test with its counts.
finish() {
    echo "$passed passed, $failed failed"
    [ $failed = 0 ] && [ $passed -gt 0 ]
    exit
}
