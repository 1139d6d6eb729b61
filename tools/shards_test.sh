#!/usr/bin/env bash
# Tests nonograde-shards and nonograde-slurm on this machine, with the program that `rt ci` left in
# crates/nonograde/out, or the one that NONOGRADE names. It needs GNU parallel. Its last line is `N passed, M
# failed`.
. "$(dirname "$0")/common.sh"
unset PARALLEL
puzzles=$tools/../puzzles/collection.txt
open_room
cd "$room" || exit
mkdir temporary
export TMPDIR=$room/temporary

# Tests that the script does with a collection what one survey does.
check_survey() {
    local name=$1 status
    shift
    "$program" survey --show <"$name" >expected 2>fault
    status=$?
    check "$name" $status shards --entries 2 --show "$name" "$@"
    [ $status = 0 ] || check_said "$name" "$(<fault)"
}

# Prints the collection of some entries of all kinds, a number of times over, with their numbers before their
# names.
repeat_entries() {
    yes entries | head -n "$1" | xargs cat | awk -v before="$2" '
        sub(/^@ /, "") { $0 = "@ " ++before "_" $0 }
        { print }
    '
}

# Prints entry lines with the totals that they make.
with_totals() {
    awk '
        { print; counts[$2]++; counts[$3]++; counts[$4]++ }
        END {
            printf "entries %d refused %d none %d ", NR, counts["refused"], counts["none"]
            printf "one %d several %d unsettled %d ", counts["one"], counts["several"], counts["unsettled"]
            printf "line %d trials %d search %d\n", counts["line"], counts["trials"], counts["search"]
        }
    '
}

# Prints the entry lines of direct surveys of these collections, numbered on.
survey_parts() {
    local part
    for part; do
        "$program" survey "${settings[@]}" <"$part" | grep -v '^entries '
    done | cut -d ' ' -f 2- | awk '{ print NR, $0 }'
}

# Makes a program that surveys as ours does, but is killed while it prints the lines of the shard with entry
# 12345, as long as there is the file `mortal`. It notes each of its shards.
make_killed() {
    cat >killed <<END
#!/usr/bin/env bash
shard=\$(mktemp -p '$room')
cat >"\$shard"
[ ! -s "\$shard" ] || echo shard >>'$room/surveyed'
if [ -e '$room/mortal' ] && grep -q '^@ 12345_' "\$shard"; then
    $1
    '$program' "\$@" <"\$shard" | sed -n 1,3p
    kill -KILL \$\$
fi
exec '$program' "\$@" <"\$shard"
END
    chmod +x killed
    touch mortal
}

# A collection of 25,000 entries, against direct surveys of its parts.
settings=(--guesses 2 --pick most)
{
    cat "$puzzles"
    printf '@ %s\n' heart.txt bare.non wide.mk crossed.nin long.nin
    printf '@ %s\n1 257\n1\n#\n1\n' side.mk limit.MK
    printf '@ windows.nin\r\n\r\n1 2\r\n1\r\n0\r\n1\r\n'
} >entries
for part in 1 2 3; do
    repeat_entries $((part < 3 ? 400 : 200)) $(((part - 1) * 10000)) >part$part
done
cat part1 part2 part3 >big
survey_parts part1 part2 part3 >lines
with_totals <lines >expected
cp expected whole
count 'a collection of 25,000 entries' "$([ "$(tail -n 1 whole | cut -d ' ' -f 1-2)" = 'entries 25000' ] || tail -n 1 whole)"
check 'the survey of 25,000 entries' 0 shards "${settings[@]}" big --jobs 4
check_said 'the survey of 25,000 entries' ''

# One shard fails. Its lines alone are missing.
make_killed ''
export NONOGRADE=$room/killed
sed '12001,12500d' lines | with_totals >expected
check 'a killed shard' 3 shards --dir kept --entries 500 "${settings[@]}" big --jobs 4 --joblog log
sed -i 's/missing: .*Killed .*/missing: killed/' said
check_said 'a killed shard' 'nonograde-shards: shard 25: entries 12001 to 12500 are missing: killed'

# A resumed run surveys that shard alone.
rm mortal surveyed
cp whole expected
check 'a resumed run' 0 shards --dir kept --entries 500 "${settings[@]}" big --jobs 4 --joblog log --resume-failed
count 'the shards of a resumed run' "$(wc -l <surveyed | grep -vx 1)"

# A shard that fails once is surveyed again.
sed -n '12001,13000p' lines | awk '{ $1 = NR; print }' | with_totals >expected
awk '/^@ /{ entry++ } entry > 2000 && entry <= 3000' part2 >middle
make_killed "rm '$room/mortal'"
check 'a shard that is tried again' 0 shards --entries 100 "${settings[@]}" middle --jobs 4 --retries 2
export NONOGRADE=$program

# Runs of failed shards are told with the last line that they wrote.
cat >failing <<END
#!/usr/bin/env bash
IFS= read -r marker || exec '$program' "\$@"
case "\$marker" in
    '@ 12'[0125]* | '@ 129'*) printf 'first\n%s fails\a\r\n \r\n' "\${marker:2:5}" >&2 ;;
    *) { echo "\$marker"; cat; } | '$program' "\$@" ;;
esac
END
chmod +x failing
{
    sed -n '12301,12500p;12601,12900p' lines | awk '{ $1 -= 12000; print }'
} | with_totals >expected
NONOGRADE=$room/failing check 'runs of failed shards' 3 shards --entries 100 "${settings[@]}" middle --jobs 4
check_said 'runs of failed shards' 'nonograde-shards: shards 1 to 3: entries 1 to 300 are missing: 12201 fails
nonograde-shards: shard 6: entries 501 to 600 are missing: 12501 fails
nonograde-shards: shard 10: entries 901 to 1000 are missing: 12901 fails'

# A cluster, by a stand-in for sbatch that runs a copy of its script for each task. A task that fails is
# submitted again.
mkdir stand_in
cat >stand_in/sbatch <<'END'
#!/usr/bin/env bash
while [[ $1 == --* ]]; do
    [[ $1 != --array=* ]] || array=${1#*=}
    shift
done
cp "$1" spooled
spooled=$PWD/spooled
echo 'Submitted batch job 1'
cd / || exit
for task in $(seq "${array%-*}" "${array#*-}"); do
    SLURM_ARRAY_TASK_ID=$task SLURM_CPUS_PER_TASK=4 bash "$spooled" "${@:2}"
done
END
chmod +x stand_in/sbatch
PATH=$room/stand_in:$PATH
export NONOGRADE=./killed
make_killed 'echo here it is killed >&2'
echo 4 >expected
check 'the number of shards' 0 shards --cut --dir cluster --entries 300 "${settings[@]}" middle
sed '12301,12600d;12001,13000!d' lines | awk '{ $1 -= 12000; print }' | with_totals >expected
check 'a cluster with a task that fails' 3 slurm cluster
check_said 'a cluster with a task that fails' 'nonograde-shards: shard 2: entries 301 to 600 are missing: here it is killed'
rm mortal
sed -n '12001,13000p' lines | awk '{ $1 = NR; print }' | with_totals >expected
check 'a task that is submitted again' 0 slurm cluster --array=2-2
count 'what sbatch prints' "$(grep -qx 'Submitted batch job 1' said || cat said)"
export NONOGRADE=$program

# Cutting and joining take work that grows with the number of entries, whatever awk there is: four times the
# entries take less than eight times the processor time.
work() {
    local TIMEFORMAT='%U %S'
    { time "$bin/nonograde-shards" "$@" >printed 2>said; } 2>&1 | awk '{ print int(1000 * ($1 + $2)) }'
}
seq 1000 | sed 's/$/ refused UnknownFormat x/' | with_totals >thousand
for awk in mawk gawk; do
    command -v $awk >/dev/null || continue
    mkdir $awk
    ln -s "$(command -v $awk)" $awk/awk
    for entries in 50000 200000; do
        yes '@ x' | head -n $entries >many
        cut+=("$(PATH=$room/$awk:$PATH work --cut --dir $awk/$entries --entries 1000 many)")
        seq $((entries / 1000)) | xargs -I{} ln thousand $awk/$entries/{}.lines
        join+=("$(PATH=$room/$awk:$PATH work --join --dir $awk/$entries)")
        seq $entries | sed 's/$/ refused UnknownFormat x/' | with_totals >expected
        count "$entries entries by $awk" "$(cmp printed expected 2>&1)"
    done
    echo "$awk: ${cut[*]} ms of cutting, ${join[*]} ms of joining"
    count "the work by $awk" "$([ "${cut[1]}" -lt $((8 * cut[0])) ] && [ "${join[1]}" -lt $((8 * join[0])) ] || echo grows)"
    PATH=$room/$awk:$PATH "$bin/nonograde-shards" --join --dir $awk/50000 >/dev/full 2>said
    check_said "a full device by $awk" 'nonograde: Write'
    PATH=$room/$awk:$PATH check_quiet "a reader that ends by $awk" '1 refused UnknownFormat x' shards --join --dir $awk/50000
    unset cut join
done

# Collections that one survey reads, and those that it refuses.
check_survey "$puzzles"
printf '' >empty
printf '\n \t\r\n\r\n' >blank
printf '\r\n \n@ a.nin\r\n1 1\n1\n1\n@x\n@\r\r\n @ y\n@\tb\001.mk \r\r\n\n@ c.non\n\0\n@\0\n@ d\200.nin\n@ e.nin\n1 1\n1\n1' >odd
printf '@ a.mk\n@ b.nin\r' >unended
printf '@ a.non\ntext\n@ \t\r\n@\n' >nameless
printf '@ a.non\n@ b.non\n@' >lone
printf ' \ntext\n@\n' >text_above
printf ' @ a.non\n@ b.non\n' >indented
for name in empty blank odd unended nameless lone text_above indented; do
    check_survey $name
done

# Entries as long as they may be, one that is too long by a byte, and one that is longer than a collection may
# be.
spaces() {
    head -c "$1" /dev/zero | tr '\0' ' '
}
filled() {
    printf '@ %s.nin\n1 1\n1\n1\n' "$1"
    spaces $(($2 - 8))
}
{
    for entry in {1..17}; do
        filled "$entry" 1048575
        echo
    done
    filled 18 17000000
    printf '\n@ 19.nin\n1 1\n1\n1\n'
    filled 20 1048576
    printf '\n'
    filled 21 1048576
} >long
for entry in {1..21}; do
    case $entry in
        18 | 20) echo "$entry refused TooLong $entry.nin" ;;
        *) echo "$entry 1x1 one line 1 1 0 absent $entry.nin" ;;
    esac
done | with_totals >expected
check 'long entries' 0 shards long
count 'the shards of long entries' "$("$bin/nonograde-shards" --cut --dir long_shards long | grep -vx 4)"

# What is refused: a name for it, what is said, and the words.
refused() {
    check "$1" 2 shards "${@:3}"
    check_said "$1" "nonograde-shards: $2"
}
: >expected
check 'a collection that is not there' 1 shards nowhere
check_said 'a collection that is not there' 'nonograde: Read'
check 'no collection' 2 shards
check 'an option that is not known' 2 shards --shards 4 big
check 'a setting that is refused' 2 shards --guesses many big
check 'shards without entries' 2 shards --entries 0 big
refused 'a folder that is not empty' ". isn't empty" --dir . big
for words in 'part1 500' 'big 499' 'big 500 --show' 'big 500 --lanes 2'; do
    read -ra words <<<"$words"
    refused "the folder of another run than ${words[*]}" 'kept has a run with another collection or other options' \
        --dir kept --entries "${words[1]}" "${words[@]:2}" "${settings[@]}" "${words[0]}"
done
refused 'the folder of other settings' 'kept has a run with another collection or other options' \
    --dir kept --entries 500 big
for word in --resume --resume-failed --retry-failed; do
    refused "$word without a folder" 'to resume, a --dir is needed' big --joblog log $word
done
check 'to join what was not cut' 1 shards --join --dir nowhere
check_said 'to join what was not cut' 'nonograde: Read'
check 'a folder as collection' 1 shards kept
check_said 'a folder as collection' 'nonograde: Read'
refused 'to join a FILE' '--join takes no FILE' --join --dir kept big
for word in --entries=9 --lanes=9 --ring=9 --guesses=9 --pick=most; do
    refused "to join with $word" '--join takes no option but --dir' --join --dir kept "${word%=*}" "${word#*=}"
    refused "$word with a sign" "unknown option $word" "$word" big
    refused "${word%=*} without a value" "${word%=*} needs a value" "${word%=*}"
done
refused 'to join with --show' '--join takes no option but --dir' --join --show --dir kept
refused 'to join without a folder' '--join needs a --dir' --join
refused 'to cut without a folder' '--cut needs a --dir' --cut big
refused 'to cut and join' "--join and --cut don't go together" --cut --join --dir kept
refused 'to cut with lanes' '--cut takes no --lanes' --cut --dir unmade --lanes 2 big
refused 'to cut with options of parallel' '--cut takes no word after FILE' --cut --dir unmade big --jobs 4
check 'to cut with a setting that is refused' 2 shards --cut --dir unmade --guesses many big
count 'a folder of what is refused' "$(compgen -G unmade)"
check 'a cluster without a folder' 2 slurm
check_said 'a cluster without a folder' 'nonograde-slurm: a DIR is needed'
check 'a cluster with an option first' 2 slurm --array=1-2 cluster
check_said 'a cluster with an option first' 'nonograde-slurm: unknown option --array=1-2'
check 'a cluster whose folder was not cut' 1 slurm nowhere
check_said 'a cluster whose folder was not cut' 'nonograde: Read'
for word in help cut join dir entries lanes ring guesses pick show; do
    refused "--$word after FILE" "--$word goes before FILE" big --jobs 4 --$word
    refused "--$word=9 after FILE" "--$word=9 goes before FILE" big --$word=9 --jobs 4
done
for word in ::: ::::+ --results=x --results --transferfile --tf --arg-file; do
    refused "$word after FILE" "$word can't be given: this script sets parallel's input and output" big --jobs 4 $word 1
done
check 'a word that is no option' 2 shards big --progress part1
check 'an option that parallel does not know' 2 shards big --nowhere

# The words that reach each survey, and totals that don't hold.
cat >stand_in/recorder <<END
#!/usr/bin/env bash
echo "\$*" >>'$room/recorded'
sed -n \$= >'$room/read'
[ "\$(<'$room/read')" = '' ] || printf "\$TOTALS\n"
END
chmod +x stand_in/recorder
yes '@ x' | head -n 3 >three
export TOTALS='1 refused UnknownFormat x\n2 refused UnknownFormat x\n3 refused UnknownFormat x\nentries 3 refused 3 none 0 one 0 several 0 unsettled 0 line 0 trials 0 search 0'
# shellcheck disable=SC2059
printf "$TOTALS\n" >expected
NONOGRADE=stand_in/recorder check 'a relative program' 0 shards three --workdir /
NONOGRADE=recorder check 'a program of the PATH' 0 shards --lanes 3 --ring 9 --guesses 5 --pick most --show three
count 'the words of each survey' "$(uniq recorded | diff - <(printf 'survey --lanes %s\n' 1 '3 --ring 9 --guesses 5 --pick most --show'))"
NONOGRADE=$room/stand_in/recorder check 'a relative folder' 0 shards --dir relative three --workdir /
echo 'entries 0 refused 0 none 0 one 0 several 0 unsettled 0 line 0 trials 0 search 0' >expected
for totals in 'entries 2 refused 2 none 0 one 0 several 0 unsettled 0 line 0 trials 0 search 0' \
    'entries 2 refused 3 none 0 one 0 several 0 unsettled 0 line 0 trials 0 search 0' \
    'entries 3 refused 2 none 0 one 0 several 0 unsettled 0 line 0 trials 1 search 0' \
    'entries 3 refused 2 none 0 one 0 several 0 unsettled 1 line 0 trials 0 search 0' \
    'entries 3 refused 3 none 0 one 0 several 0 unsettled 0 line 0 trials 0' \
    'entries 3 refused 3 none 0 one 0 several 0 unsettled 0 line 0 trials 0 search 0 x'; do
    NONOGRADE=recorder TOTALS=$totals check "the totals $totals" 3 shards three
    check_said "the totals $totals" 'nonograde-shards: shard 1: entries 1 to 3 are missing'
done

# Where the scripts find the program and each other: beside themselves, also by a link; in a checkout; in the
# PATH. `NONOGRADE` goes first.
mkdir -p installed/bin linked checkout/{bin,crates/nonograde/out}
cp "$bin"/nonograde-* installed/bin
cp "$bin"/nonograde-* checkout/bin
ln -s "$room"/installed/bin/nonograde-* linked
cp stand_in/recorder checkout/crates/nonograde/out/nonograde
# shellcheck disable=SC2059
printf "$TOTALS\n" >expected
"$bin/nonograde-shards" --cut --dir three_cut three >three_shards
bin_before=$bin path_before=$PATH
unset NONOGRADE
bin=$room/checkout/bin check 'the program of a checkout' 0 shards three
: >expected
bin=$room/installed/bin check 'no program' 2 shards three
check_said 'no program' 'nonograde-shards: there is no nonograde: build it, or set NONOGRADE to its path'
bin=$room/installed/bin check 'no program for a cluster' 2 slurm three_cut
check_said 'no program for a cluster' 'nonograde-slurm: there is no nonograde: build it, or set NONOGRADE to its path'
bin=$room/installed/bin NONOGRADE=./nowhere check 'a program that is not there' 2 shards three
check_said 'a program that is not there' "nonograde-shards: there is no $room/nowhere: build it, or set NONOGRADE to its path"
# shellcheck disable=SC2059
printf "$TOTALS\n" >expected
cp stand_in/recorder stand_in/nonograde
bin=$room/installed/bin check 'the program of the PATH' 0 shards three
printf '#!/bin/sh\nexit 9\n' >stand_in/nonograde
cp stand_in/recorder installed/bin/nonograde
bin=$room/linked check 'the program beside a script, by a link' 0 shards three
bin=$room/linked check 'the program and the shards beside a script, by a link' 0 slurm three_cut
: >expected
bin=$room/linked NONOGRADE=$room/stand_in/nonograde check 'NONOGRADE goes first' 9 shards three
bin=$bin_before PATH=$path_before
export NONOGRADE=$program

for script in shards slurm pack pick; do
    sed -n '2,/^$/p' "$bin/nonograde-$script" | sed -n '/^#/s/^# *//p' >expected
    "$bin/nonograde-$script" --help >help 2>said
    count "the status of the help of nonograde-$script" "$(grep -vx 0 <<<$?; cat said)"
    sed 's/^ *//' help >printed
    count "the help of nonograde-$script" "$(cmp printed expected 2>&1; grep -q ^Status printed || echo 'it has no statuses')"
done

count 'temporary folders' "$(ls temporary)"
finish
