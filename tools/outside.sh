#!/usr/bin/env bash
# Runs the program where the outside fails it: outputs that are closed, full or no longer read, inputs that
# can't be read or come slowly, files of many kinds, and limits on threads and on memory. It builds and proves
# nothing of the program: it runs what `rt ci` left in crates/nonograde/out, or the program that its one
# argument names. It counts the threads that surveys start, too. It needs a C compiler. Its last line is
# `N passed, M failed`.
#
# A case says what is outside, what the program is to say on standard error, what it is to print on standard
# output, and its words.
#   - It says `-`, nothing, and ends with status 0; or a fault's word, as `nonograde: WORD`, and ends with
#     status 1; or `refused`, some text on the words, and ends with status 2; or `unsaid`, nothing, since
#     standard error takes nothing, and ends with status 1; or a text `told_..`, the last line of the progress,
#     and ends with status 0; or `WORD:told_..`, that line and then the fault's word, and ends with status 1.
#   - It prints `-`, nothing; or one of the texts that make_texts makes; or `TEXT:K`, its first K bytes.
# A case fails too if the program ends by a signal or runs for ten seconds.
# shellcheck disable=SC2016,SC2046,SC2086 # A shell within expands its words; `words` and `lines` are some.
# shellcheck disable=SC2317 # `try` calls what runs.
# shellcheck source-path=SCRIPTDIR source=common.sh
. "$(dirname "$0")/common.sh"
[ $# = 0 ] || program=$(realpath "$1")
top=$(realpath "$tools/..")
open_room

# Prints a line a number of times: COUNT LINE.
lines() {
    local place
    for ((place = 0; place < $1; place++)); do
        echo "$2"
    done
}

# Prints a text a number of times with no line feeds: COUNT TEXT.
repeated() {
    lines "$1" "$2" | tr -d '\n'
}

# A puzzle in the written form of `.non`: its width, its height, the clue of each row, and the clue of each
# column.
non_text() {
    printf 'width %s\nheight %s\n\nrows\n' "$1" "$2"
    lines "$2" "$3"
    printf '\ncolumns\n'
    lines "$1" "$4"
}

# The last line of a survey of COUNT entries, all of them solved by line logic.
totals() {
    echo "entries $1 refused 0 none 0 one $1 several 0 unsettled 0 line $1 trials 0 search 0"
}

# The entry of the heart under this name.
heart_line() {
    echo "1 7x6 one line 42 42 0 meets $1"
}

# The survey of the heart, COUNT times.
hearts() {
    lines "$1" "$(heart_line heart.non)" | awk '{ $1 = NR; print }'
    totals "$1"
}

# A library under which writes to standard error are slow, and the first FAILING of them fail.
make_writes() {
    cc -O2 -shared -fPIC -x c -o writes.so - <<'END'
#define _GNU_SOURCE
#include <errno.h>
#include <stdlib.h>
#include <sys/syscall.h>
#include <unistd.h>

ssize_t write(int to, const void *bytes, size_t count) {
    static int calls;
    if (to == 2) {
        usleep(50000);
        if (calls++ < atoi(getenv("FAILING"))) return errno = EIO, -1;
    }
    return syscall(SYS_write, to, bytes, count);
}
END
}

# A library under which reads of failing.non fail once READABLE bytes of it were read.
make_reads() {
    cc -O2 -shared -fPIC -x c -o reads.so - <<'END'
#define _GNU_SOURCE
#include <errno.h>
#include <stdio.h>
#include <stdlib.h>
#include <string.h>
#include <sys/syscall.h>
#include <unistd.h>

ssize_t read(int from, void *bytes, size_t count) {
    static size_t given;
    char link[40], path[4096] = "";
    snprintf(link, sizeof link, "/proc/self/fd/%d", from);
    if (readlink(link, path, sizeof path - 1) < 0 || !strstr(path, "/failing.non")) return syscall(SYS_read, from, bytes, count);
    size_t left = strtoul(getenv("READABLE"), NULL, 10) - given;
    if (left == 0) return errno = EIO, -1;
    ssize_t taken = syscall(SYS_read, from, bytes, count < left ? count : left);
    given += taken > 0 ? taken : 0;
    return taken;
}
END
}

# A library that writes a line to file descriptor 9 for each thread that is to start.
make_starts() {
    cc -O2 -shared -fPIC -x c -o starts.so - -ldl <<'END'
#define _GNU_SOURCE
#include <dlfcn.h>
#include <pthread.h>
#include <unistd.h>

int pthread_create(pthread_t *thread, const pthread_attr_t *how, void *(*start)(void *), void *given) {
    int (*real)(pthread_t *, const pthread_attr_t *, void *(*)(void *), void *) = dlsym(RTLD_NEXT, "pthread_create");
    (void)!write(9, "start\n", 6);
    return real(thread, how, start, given);
}
END
}

# A library that writes `wake` to file descriptor 9 each time that a worker wakes the collector, which then has 5 ms to do
# its work and to park again; and `park` each time that the collector falls asleep. The first TOKENS times it is woken at
# once, although no worker has anything for it.
make_wakes() {
    cc -O2 -shared -fPIC -x c -o wakes.so - -ldl <<'END'
#define _GNU_SOURCE
#include <dlfcn.h>
#include <linux/futex.h>
#include <stdarg.h>
#include <stdlib.h>
#include <sys/syscall.h>
#include <unistd.h>

// The states of a parker: one that is woken, and one whose owner is about to sleep.
enum { NOTIFIED = 1, PARKED = 2 };

long syscall(long number, ...) {
    long (*real)(long, ...) = dlsym(RTLD_NEXT, "syscall");
    va_list given;
    va_start(given, number);
    long place = va_arg(given, long), how = va_arg(given, long), value = va_arg(given, long);
    long time = va_arg(given, long), other = va_arg(given, long), mask = va_arg(given, long);
    va_end(given);
    int call = number == SYS_futex ? how & FUTEX_CMD_MASK : -1;
    if (call == FUTEX_WAIT && value == PARKED && gettid() == getpid()) {
        static int parked;
        (void)!write(9, "park\n", 5);
        if (getenv("TOKENS") && ++parked <= atoi(getenv("TOKENS"))) {
            __atomic_store_n((long *)place, NOTIFIED, __ATOMIC_SEQ_CST);
            return 0;
        }
    }
    long done = real(number, place, how, value, time, other, mask);
    if (call == FUTEX_WAKE && gettid() != getpid()) {
        (void)!write(9, "wake\n", 5);
        usleep(5000);
    }
    return done;
}
END
}

# A library under which opening failing.non fails with the error ERROR.
make_opens() {
    cc -O2 -shared -fPIC -x c -o opens.so - <<'END'
#define _GNU_SOURCE
#include <errno.h>
#include <linux/fcntl.h>
#include <stdlib.h>
#include <string.h>
#include <sys/syscall.h>
#include <unistd.h>

int open64(const char *path, int how, int mode) {
    if (strstr(path, "failing.non")) return errno = atoi(getenv("ERROR")), -1;
    return syscall(SYS_openat, AT_FDCWD, path, how, mode);
}

int open(const char *path, int how, int mode) {
    return open64(path, how, mode);
}
END
}

# Makes the files that the program is to read.
make_files() {
    local ones
    cp "$top/crates/nonograde/stdin" collection
    cp "$top/puzzles/heart.non" heart.non
    cp heart.non secret.non
    chmod 000 secret.non
    cp heart.non "$two_lines"
    head -n 4 heart.non >cut.non
    printf '1 2\n1\n#\n1\n2\n' >flat.mk
    printf 'x\n' >stray
    ones=$(repeated 127 1,)1
    non_text 256 256 "$ones" "$ones" >ones.non
    non_text 256 256 256 256 >full.non
    { echo 128 128 && lines 256 1; } >singles.nin
    cp ones.non failing.non
    mkdir folder.non
    mkfifo fifo.non pipe
    ln -s /dev/zero zeros.non
    ln -s /dev/zero zeros
}

# Makes the texts that the program is to print.
make_texts() {
    local number picture row
    cp "$top/crates/nonograde/stdout" survey
    picture=$(printf '%s\n' .##.##. '#######' '#######' .#####. ..###.. ...#...)
    printf '%s\n' 'one 42' "$picture" >closed_heart
    printf '%s\n' '6 7' '2 2' 7 7 5 3 1 '#' 2 4 5 5 5 4 2 >heart_in_mk
    printf '%s\n' "$(heart_line heart.non)" "$picture" '' >solved_heart
    printf '%s\n' "$(heart_line fifo.non)" "$picture" '' >solved_fifo
    printf '%s\n' "$(heart_line "$far")" "$picture" '' >solved_far
    printf '%s\n' "$(heart_line 'two?lines.non')" "$picture" '' >solved_two_lines
    for number in 1 2 10 63 64 96 256 300; do
        hearts $number >surveyed_$number
    done
    printf '\r1 of %d entries graded, %d refused\n' "$(awk '/^entries/ { print $2 }' survey)" \
        "$(awk '/^entries/ { print $4 }' survey)" >told_input
    for number in 1 10 300; do
        printf '\r%d of %d files graded, 0 refused\n' $number $number >told_$number
    done
    printf '\r1 of 2 files graded, 1 refused\n' >told_half
    printf '%s\n' "$(heart_line heart.non)" '2 refused UnknownFormat zeros' \
        'entries 2 refused 1 none 0 one 1 several 0 unsettled 0 line 1 trials 0 search 0' >surveyed_half
    cat told_300 surveyed_300 >told_then_surveyed
    printf '%s\n' "$(heart_line "$far")" "$(totals 1)" >surveyed_far
    printf '%s\n' "$(heart_line 'two?lines.non')" "$(totals 1)" >surveyed_two_lines
    printf '%s\n' '1 refused TooLong zeros.non' '2 refused UnknownFormat zeros' \
        'entries 2 refused 2 none 0 one 0 several 0 unsettled 0 line 0 trials 0 search 0' >surveyed_zeros
    cp ones.non written_ones
    row=$(repeated 256 '#')
    picture=$(lines 256 "$row")
    printf '%s\n' 'one 65536' "$picture" >closed_full
    printf '%s\n' '1 256x256 one line 65536 65536 0 absent full.non' "$picture" '' >solved_full
    for number in 1 2 3; do
        printf '%s\n' "$number 256x256 one line 65536 65536 0 absent full.non" "$picture" ''
    done >shown_full
    totals 3 >>shown_full
    printf '%s\n' '1 128x128 several search 0 0 128 absent singles.nin' \
        'entries 1 refused 0 none 0 one 0 several 1 unsettled 0 line 0 trials 0 search 1' >surveyed_singles
}

# The program, for ten seconds at most. (The signal of a closed pipe is as a shell usually leaves it, whatever
# called this script.)
bounded() {
    timeout --kill-after=1 10 env --default-signal=PIPE "${limits[@]}" "$room/nonograde" "$@"
}

# The program with its standard error in `said`.
run() {
    bounded "$@" 2>said
}

# What is outside. Each of these runs the program on its words and gives its status.

ordinary() {
    run "$@" <collection >printed
}

output_closed() {
    run "$@" <collection >&-
}

output_full() {
    run "$@" <collection >/dev/full
}

# Nobody reads the output, from the start.
output_left() (
    # shellcheck disable=SC2094
    exec 7<>pipe >pipe 7>&-
    run "$@" <collection
)

# The output is read for COUNT bytes, and then it is left.
output_left_after() {
    local count=$1
    shift
    run "$@" <collection | head -c "$count" >printed
    return "${PIPESTATUS[0]}"
}

errors_closed() {
    bounded "$@" <collection >printed 2>&-
}

errors_full() {
    bounded "$@" <collection >printed 2>/dev/full
}

input_closed() {
    run "$@" <&- >printed
}

input_from() {
    local file=$1
    shift
    run "$@" <"$file" >printed
}

# Writes to standard error are slow, and the first COUNT of them fail.
errors_slow() {
    local limits=(env LD_PRELOAD=./writes.so FAILING="$1")
    shift
    ordinary "$@"
}

# The first COUNT bytes of failing.non are read, and then it can't be read.
file_failing() {
    local limits=(env LD_PRELOAD=./reads.so READABLE="$1")
    shift
    ordinary "$@"
}

# failing.non can't be opened, for the reason of the number ERROR.
opening_fails() {
    local limits=(env LD_PRELOAD=./opens.so ERROR="$1")
    shift
    ordinary "$@"
}

# The input comes in small pieces, with a pause after each.
input_slow() {
    for _ in {1..20}; do
        dd bs=9 count=1 status=none
        sleep 0.02
    done <collection | run "$@" >printed
}

# Standard error is a full pipe that nobody reads. The program has two seconds.
errors_stuck() {
    local status limits=(timeout 2)
    mkfifo stuck
    exec 8<>stuck
    dd if=/dev/zero of=stuck oflag=nonblock bs=65536 count=2 status=none 2>dd_said
    bounded "$@" <collection >printed 2>&8 8>&-
    status=$?
    exec 8>&-
    rm stuck
    return $status
}

# Standard error is where the output goes. Of the line that is written over itself the last is kept.
errors_in_output() {
    bounded "$@" <collection 2>&1 | sed 's/.*\r/\r/' >printed
    return "${PIPESTATUS[0]}"
}

# A file's bytes are written to fifo.non by a writer that comes after a while, and goes.
fifo_from() {
    local status
    timeout 10 bash -c 'sleep 0.2; cat "$0" >fifo.non' "$1" &
    shift
    ordinary "$@"
    status=$?
    wait
    return $status
}

# The user is another than root.
by_another() {
    local limits=("${another[@]}")
    ordinary "$@"
}

# A user who has no other process may have COUNT threads, the first one of the program among them. A thread that was
# joined may count for a moment more, so the program has to be refused one in each of five runs.
threads() {
    local limits=("${another[@]}" bash -c 'ulimit -u "$0" && exec "$@"' "$1") status
    for _ in 1 2 3 4 5; do
        ordinary "${@:2}"
        status=$?
        grep -qx 'nonograde: Thread' said || break
    done
    return $status
}

# The program has to start COUNT threads.
starts() {
    local limits=(env LD_PRELOAD=./starts.so) status
    ordinary "${@:2}" 9>started
    status=$?
    [ "$(wc -l <started)" = "$1" ] || echo "(it started $(wc -l <started) threads)" >>said
    return $status
}

# Workers have to wake the collector at least COUNT times, in one of five runs: if other work delays its thread, it
# may not have parked again when it would be woken.
wakes() {
    local limits=(env LD_PRELOAD=./wakes.so) status
    for _ in 1 2 3 4 5; do
        : >said
        ordinary "${@:2}" 9>woken
        status=$?
        [ "$(grep -c wake woken)" -lt "$1" ] || return $status
    done
    echo "(they woke it $(grep -c wake woken) times)" >>said
    return $status
}

# A collector that is woken COUNT times for nothing has to park again.
parks() {
    local limits=(env LD_PRELOAD=./wakes.so TOKENS="$1") status
    ordinary "${@:2}" 9>woken
    status=$?
    [ "$(grep -c park woken)" -gt 1 ] || echo "(it parked $(grep -c park woken) times)" >>said
    return $status
}

# The program may have SIZE KiB of addresses.
memory() {
    local limits=(sh -c 'ulimit -v "$0" && exec "$@"' "$1")
    shift
    ordinary "$@"
}

# What is wrong with how the program ended: the status that is wanted, and its own.
wrong_status() {
    if [ "$2" = 124 ]; then
        echo "it ran for ten seconds; "
    elif [ "$2" -gt 128 ]; then
        echo "signal $(($2 - 128)); "
    elif [ "$2" != "$1" ]; then
        echo "status $2; "
    fi
}

# What is wrong with what the program printed: the text that is wanted.
wrong_print() {
    local text count
    IFS=: read -r text count <<<"$1"
    [ "$text" != - ] || text=/dev/null
    head -c "${count:-1000000}" "$text" | cmp -s - printed || echo "it printed $(wc -c <printed) bytes, and not $1; "
}

# What the program said, of the line that is written over itself the last.
last_told() {
    sed 's/.*\r/\r/' said
}

# What is wrong with what the program said: what is wanted.
wrong_word() {
    case "$1" in
        - | unsaid) [ ! -s said ] ;;
        refused) [ -s said ] ;;
        told_*) last_told | cmp -s "$1" ;;
        *:told_*) last_told | cmp -s <(cat "${1#*:}"; echo "nonograde: ${1%:*}") ;;
        *) cmp -s - said <<<"nonograde: $1" ;;
    esac || echo "it said $(head -c 100 said); "
}

# The status with which the program says this.
status_of() {
    case "$1" in
        - | told_*) echo 0 ;;
        refused) echo 2 ;;
        *) echo 1 ;;
    esac
}

# What is wrong with the last run: what it was to say, what it was to print, and its status.
wrong_with() {
    echo "$(wrong_status "$(status_of "$1")" "$3")$(wrong_word "$1")$(wrong_print "$2")"
}

# Runs a case, and counts it.
try() {
    local outside=$1 says=$2 prints=$3 words status
    shift 3
    words="${*//$'\n'/?}"
    : >printed
    : >said
    ${outside/:/ } "$@"
    status=$?
    count "$outside ${words:0:60}" "$(wrong_with "$says" "$prints" $status)"
}

# The word that the last run may say in little room, by its command.
word_in_little_room() {
    if [ "$1" = survey ] && cmp -s - said <<<'nonograde: Thread'; then
        echo Thread
    else
        echo NoMemory
    fi
}

# Runs the program in ever more room up to MOST KiB, and counts it as one case: each run prints this text, or
# says that memory, or of a survey a thread, was refused, and prints nothing. In the least room the loader
# can't load the program, which then has not run.
try_little_room() {
    local most=$1 prints=$2 size status=0 refused=0 wrong=
    shift 2
    for ((size = least; size < most; size += size / 40)); do
        memory $size "$@"
        status=$?
        [ $status != 127 ] || continue
        if [ $status = 0 ]; then
            wrong=$(wrong_with - "$prints" 0)
        else
            refused=$((refused + 1))
            wrong=$(wrong_with "$(word_in_little_room "$1")" - $status)
        fi
        [ -z "$wrong" ] || break
    done
    echo "nonograde $*: too little room in $refused runs"
    [ -n "$wrong" ] || [ $refused -gt 0 ] || wrong="none was too little"
    [ -n "$wrong" ] || [ $status = 0 ] || wrong="$most KiB are too little"
    count "little room $*" "${wrong:+$size KiB: $wrong}"
}

# How a command is run by a user who isn't root, and how the program is limited. Root takes a number that no
# system gives to a user, and that no other run of this script takes at the same time.
another=()
[ "$(id -u)" != 0 ] || another=(setpriv --reuid=$((60600 + $$ % 500)) --regid=61000 --clear-groups)
limits=()
chmod 755 "$room"
cd "$room" || exit 1
cp "$program" nonograde
chmod 755 nonograde
least=$(($(stat -c %s nonograde) / 1024 + 2000))
far=$(repeated 1994 ./).//heart.non
long=$(repeated 4000 n)
two_lines=$'two\nlines.non'
make_writes
make_reads
make_starts
make_wakes
make_opens
make_files
make_texts

# Nothing fails but what is asked for.
try ordinary - survey survey
try ordinary - surveyed_1 survey heart.non
try ordinary - closed_heart lines heart.non
try ordinary - solved_heart solve heart.non
try ordinary - heart_in_mk convert --to mk heart.non
try input_from:stray Stray:1 - survey
try ordinary NoSection - lines cut.non
try ordinary NoSection - solve cut.non
try ordinary Ambiguous - convert --to nin flat.mk
try ordinary refused - lines
try ordinary refused - lines $'\xff.non'

# The streams of the program.
for words in survey 'survey heart.non' 'lines heart.non' 'solve heart.non' 'convert --to mk heart.non' --help; do
    try output_closed Write - $words
    try output_full Write - $words
    try output_left Write - $words
done
for count in 1 39 4096 100000; do
    try output_left_after:$count Write shown_full:$count survey --show full.non full.non full.non
done
for count in 1 39; do
    try output_left_after:$count Write closed_full:$count lines full.non
    try output_left_after:$count Write solved_full:$count solve full.non
done
for count in 1 39 4096 50000; do
    try output_left_after:$count Write written_ones:$count convert --to non ones.non
done
try input_closed Read - survey
try input_closed - closed_heart lines heart.non
try input_from:folder.non Read - survey
try input_from:/dev/zero TooLong - survey
try input_slow - survey survey
for outside in errors_closed errors_full; do
    try $outside unsaid - lines nowhere.non
    try $outside - closed_heart lines heart.non
done

# A survey's progress. Its line is ended before the survey is printed, and can't hold that up.
try ordinary told_input survey survey --progress
try ordinary told_1 surveyed_1 survey --progress heart.non
try ordinary told_1 surveyed_1 survey --progress --guesses 0 heart.non
try ordinary told_half surveyed_half survey --progress heart.non zeros
try ordinary - surveyed_zeros survey --progress zeros.non zeros
try errors_in_output - told_then_surveyed survey --progress $(lines 300 heart.non)
try output_full Write:told_input - survey --progress
try errors_slow:0 told_10 surveyed_10 survey --progress $(lines 10 heart.non)
try errors_slow:0 told_300 surveyed_300 survey --progress $(lines 300 heart.non)
try errors_slow:1000 - surveyed_300 survey --progress $(lines 300 heart.non)
try errors_stuck - surveyed_10 survey --progress $(lines 10 heart.non)

# Files. One that can't be read is told before anything is printed.
for words in survey 'survey heart.non' lines solve 'convert --to mk'; do
    for file in folder.non nowhere.non "$long"; do
        try ordinary Read - $words "$file"
    done
done
for words in 'survey heart.non' lines solve 'convert --to mk'; do
    for count in 0 5 9000; do
        try file_failing:$count Read - $words failing.non
    done
    # ENOMEM, EACCES, EIO and EMFILE.
    try opening_fails:12 NoMemory - $words failing.non
    for error in 13 5 24; do
        try opening_fails:$error Read - $words failing.non
    done
done
for words in lines solve 'convert --to mk'; do
    try ordinary TooLong - $words zeros.non
    try ordinary UnknownFormat - $words zeros
done
try ordinary - surveyed_zeros survey zeros.non zeros
for count in 256 300; do
    try ordinary - surveyed_$count survey $(lines $count heart.non)
done
try ordinary - surveyed_far survey "$far"
try ordinary - closed_heart lines "$far"
try ordinary - solved_far solve "$far"
try ordinary - heart_in_mk convert --to mk "$far"
try ordinary - surveyed_two_lines survey "$two_lines"
try ordinary - closed_heart lines "$two_lines"
try ordinary - solved_two_lines solve "$two_lines"
try ordinary - heart_in_mk convert --to mk "$two_lines"
try fifo_from:heart.non - solved_fifo solve fifo.non
try fifo_from:cut.non NoSection - lines fifo.non
try fifo_from:/dev/null NoSize - convert --to mk fifo.non

# What root is never refused. Other users than root have other processes, so that for them only the first
# thread is surely refused.
if "${another[@]}" true; then
    for words in survey 'survey heart.non' lines solve 'convert --to mk'; do
        try by_another Read - $words secret.non
    done
    try threads:1 Thread - survey
    try threads:1 - closed_heart lines heart.non
else
    echo "left out: an unreadable file and refused threads, since root can't become another user here"
    another=()
fi
if [ ${#another[@]} -gt 0 ]; then
    for most in 2 3 4; do
        try threads:$most Thread - survey --lanes 4
    done
    try threads:5 - survey survey --lanes 4
    try threads:4 Thread - survey
    try threads:5 - survey survey
    try threads:16 Thread - survey --lanes 16
    try threads:17 - survey survey --lanes 16
    try threads:2 - survey survey --lanes 1
    try threads:2 Thread - survey --lanes 4 $(lines 300 heart.non)
    # The thread that reports the progress is given up for a worker's.
    try threads:4 Thread - survey --progress
    try threads:5 - survey survey --progress
    try threads:6 told_input survey survey --progress
    try threads:17 - survey survey --progress --lanes 16
    try threads:5 - surveyed_300 survey --progress $(lines 300 heart.non)
    try threads:5 - surveyed_300 survey --lanes 4 $(lines 300 heart.non)
else
    echo "left out: threads of which only some are refused"
fi

# The threads that a survey starts. It grades in one for each lane. It reads in one for each lane, or in fewer, so that
# each has at least 32 entries, and with a single one in no thread of its own; and it prints in as many.
try starts:4 - surveyed_63 survey --lanes 4 $(lines 63 heart.non)
try starts:6 - surveyed_64 survey --lanes 2 $(lines 64 heart.non)
try starts:9 - surveyed_96 survey --lanes 3 $(lines 96 heart.non)
try starts:12 - surveyed_300 survey --lanes 4 $(lines 300 heart.non)
try starts:34 - surveyed_300 survey --lanes 16 $(lines 300 heart.non)

# A worker wakes the collector whenever half of its ring is full of answers, here 75 times; 38 times if it waited for a
# full ring.
try wakes:60 - surveyed_300 survey --lanes 1 $(lines 300 heart.non)

# While its worker solves a puzzle for 50 ms, the collector has nothing to do.
try parks:20 - surveyed_singles survey --lanes 1 singles.nin

# Little room for addresses.
try_little_room 10000 closed_full lines full.non
try_little_room 10000 solved_full solve full.non
try_little_room 10000 written_ones convert --to non ones.non
try_little_room 100000 survey survey
try_little_room 100000 shown_full survey --show full.non full.non full.non

finish
