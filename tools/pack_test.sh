#!/usr/bin/env bash
# Tests nonograde-pack and nonograde-pick, with the program that `rt ci` left in crates/nonograde/out, or the one
# that NONOGRADE names. Its last line is `N passed, M failed`.
. "$(dirname "$0")/common.sh"
open_room
cd "$room" || exit

# Makes puzzles with odd names, with one that can't stand in a collection for each reason.
make_odd_files() {
    local name
    mkdir -p "odd/ it's a \"folder\"" odd/empty.non odd/@
    for name in -x.nin --into.nin $'Latin\xe9.NIN' ' .Mk' '@ a.non' $'\t\\n$(x)*.nin' "it's a \"folder\"/a b.nin" \
        " it's a \"folder\"/4711.nin" 'None of them.txt' no_ending; do
        mkdir -p "odd/$(dirname -- "$name")"
        printf '1 1\n1\n1\n' >"odd/$name"
    done
    printf '1 1\r\n\0\n1' >odd/@/unended.mk
    : >odd/nothing.non
    ln -s nothing.non odd/link.non
    printf '1 1\n@\r\n' >odd/marker.nin
    printf '@\tx' >odd/other_marker.mk
    printf '1 1' >$'odd/two\nlines.mk'
    ln -s nowhere odd/broken.nin
    mkfifo odd/pipe.mk
    printf '%1048576s' '' >odd/long.mk
    printf '%1048575s' '' >odd/longest.mk
}

# What the collection of the odd files is to be, by the paths of its files in order.
print_entries() {
    local path
    for path; do
        printf '@ %s\n' "$path"
        cat -- "$path"
        [ "$(tail -c 1 -- "$path" | wc -l)" = 1 ] || [ ! -s "$path" ] || echo
    done
}

# Counts whether one survey of what was printed has so many entries.
check_entries() {
    count "the entries of $1" "$("$program" survey <printed | tail -n 1 | grep -v "^entries $2 ")"
}

# A collection with lines that end in CR LF, and some without; entries whose names look like ranges and options.
make_mixed() {
    printf ' \r\n@ a.nin \t\r\n1 1\r\n1\r\n@\t5-1\n2\n@ x-\r\n3\r\n@ 1-2\n@ @ q.MK\r\n5\r\n@ 12\n6\n@ --\n7'
}

# Counts whether the script picks from the mixed collection: a name for this, the status, what is printed and
# what is said, with the escapes of printf, and the words.
check_mixed() {
    # shellcheck disable=SC2059
    printf "$3" >expected
    check "$1" "$2" pick --from mixed "${@:5}"
    check_said "$1" "${4:+nonograde-pick: ${4//$'\n'/$'\n'nonograde-pick: }}"
}

make_odd_files
make_mixed >mixed
mkdir -p a/b
printf '1 1\n1\n#\n1' >a/1.mk
printf 'width 1\n' | tee a/b/2.NON >a/3.txt
printf '1 1\n1\n1\n' >$'\t.mk'
: >closed.mk
chmod 000 closed.mk
as_user=(env)
[ $EUID != 0 ] || as_user=(setpriv --bounding-set '-dac_override,-dac_read_search')
printf '%s\n' $'odd/\t\\n$(x)*.nin' "odd/ it's a \"folder\"/4711.nin" 'odd/ .Mk' odd/{--into,-x}.nin odd/@/unended.mk \
    'odd/@ a.non' $'odd/Latin\xe9.NIN' "odd/it's a \"folder\"/a b.nin" odd/{link,nothing}.non odd/longest.mk | sort >names
mapfile -t odd <names
cp -- odd/-x.nin odd/--into.nin 'odd/ .Mk' .
mapfile -t hundred < <(seq 900 999)
mapfile -t numbers < <(seq 7 7 100000)
mkdir -p many/900
seq 1000 | split -l 1 -a 3 -d --additional-suffix=.nin - many/900/
for folder in "${hundred[@]:1}"; do
    cp -rl many/900 "many/$folder"
done
for awk in mawk gawk; do
    command -v $awk >/dev/null || continue
    mkdir $awk
    ln -s "$(command -v $awk)" $awk/awk
    PATH=$room/$awk:$PATH

    # Odd names: their folder, its files, and the names of these on standard input. Then back.
    print_entries "${odd[@]}" >expected
    check "a folder with odd names by $awk" 3 pack odd
    check_said "a folder with odd names by $awk" 'nonograde-pack: odd/broken.nin is left out: it is no file
nonograde-pack: odd/long.mk is left out: it has more than 1048576 bytes
nonograde-pack: odd/marker.nin is left out: its line 2 would be a marker line
nonograde-pack: odd/other_marker.mk is left out: its line 1 would be a marker line
nonograde-pack: odd/pipe.mk is left out: it is no file
nonograde-pack: odd/two?lines.mk is left out: its path has a line feed'
    check "files with odd names by $awk" 0 pack -- "${odd[@]}" "${odd[0]}"
    check "odd names by $awk" 0 pack <names
    check_entries "odd names by $awk" ${#odd[@]}
    cp printed collection
    check "to pick odd names by $awk" 0 pick "${odd[@]}" <collection
    for place in "${!odd[@]}"; do
        print_entries "${odd[place]}" >expected
        check "to pick ${odd[place]} by $awk" 0 pick "${odd[place]}" <collection
        "$bin/nonograde-pick" --into "picked by $awk/$place" $((place + 1)) <collection
        tail -n +2 expected | cmp - "picked by $awk/$place/$((place + 1)).${odd[place]##*.}" >different 2>&1
        count "to pick entry $((place + 1)) by $awk" "$(<different)"
    done
    print_entries --into.nin -x.nin | cat <(print_entries ' .Mk' | sed '1s/@ /@ .\//') - >expected
    check "names like options by $awk" 0 pack -- -x.nin --into.nin ' .Mk'
    check "to pick names like options by $awk" 0 pick -- 003 --into.nin './ .Mk' <expected

    # Many files.
    for folder in "${hundred[@]}"; do
        seq -f "@ many/$folder/%03.0f.nin" 0 999 | awk '{ print; print NR }'
    done >expected
    check "100,000 files by $awk" 0 pack many
    mv printed collection
    sed -n '9421,9422p;199999,$p' collection >expected
    check "to pick of 100,000 by $awk" 0 pick many/904/710.nin 100000 <collection
    awk '/^@/ { next } ++entry % 7 == 0' collection >expected
    "$bin/nonograde-pick" --into $awk/back "${numbers[@]}" <collection
    printf "$awk/back/%s.nin\n" "${numbers[@]}" | xargs cat >printed
    count "to pick each seventh of 100,000 by $awk" "$(cmp printed expected 2>&1)"
    check_quiet "to pack for a reader that ends by $awk" '@ many/900/000.nin' pack many/90?
    check_quiet "to pick for a reader that ends by $awk" '@ many/900/001.nin' pick --from collection 2-
    for script in 'pack many/900' 'pick --from collection 1-'; do
        : >expected
        # shellcheck disable=SC2086
        "$bin/nonograde-"$script >/dev/full 2>said
        count "status of $script on a full device by $awk" "$(grep -vx 1 <<<$?)"
        check_said "$script on a full device by $awk" 'nonograde: Write'
    done
    seq 2 2 100000 | sed 's/.*/&-&/' | head -n 20000 >ranges
    mapfile -t ranges <ranges
    sed -n '3,4p;7,8p;79999,80000p' collection >expected
    "$bin/nonograde-pick" --from collection "${ranges[@]}" | sed -n '1,4p;39999,40000p' >printed
    count "20,000 ranges of 100,000 by $awk" "$(cmp printed expected 2>&1)"

    # What is left out or not found.
    : >expected
    check "a folder that is not there by $awk" 3 pack nowhere
    count "what is said of a folder that is not there by $awk" "$(grep -q nowhere said || cat said)"
    check "a file that is not there on standard input by $awk" 3 pack <<<nowhere.mk
    printf '@ ./\t.mk\n1 1\n1\n1\n' >expected
    check "a path with a leading tab, and none by $awk" 3 pack nowhere.mk $'\t.mk'
    cp printed tabbed
    check "to pick a path with a leading tab by $awk" 0 pick --from tabbed $'./\t.mk'
    printf '@ %s/a/1.mk\n1 1\n1\n#\n1\n@ %s/a/b/2.NON\nwidth 1\n' "$room" "$room" >expected
    check "an absolute path of a folder by $awk" 0 pack "$room/a"
    check "absolute paths of files by $awk" 0 pack "$room/a/b/2.NON" "$room/a/1.mk"
    check "a file without an ending by $awk" 3 pack odd/no_ending a/3.txt "$room/a"
    check_said "a file without an ending by $awk" 'nonograde-pack: a/3.txt is left out: its ending is of no format
nonograde-pack: odd/no_ending is left out: its ending is of no format'
    : >expected
    "${as_user[@]}" "$bin/nonograde-pack" closed.mk >printed 2>said
    count "status of a file that can not be read by $awk" "$(grep -vx 3 <<<$?)"
    check_said "a file that can not be read by $awk" "nonograde-pack: closed.mk is left out: it can't be read"

    # Numbers, ranges and names.
    check_mixed "to pick 1 by $awk" 0 '@ a.nin \t\r\n1 1\r\n1\r\n' '' 1
    check_mixed "to pick a.nin 001 1-1 by $awk" 0 '@ a.nin \t\r\n1 1\r\n1\r\n' '' a.nin 001 1-1
    check_mixed "to pick x- 4 by $awk" 0 '@ x-\r\n3\r\n@ 1-2\n' '' x- 4
    check_mixed "to pick 02-3 by $awk" 0 '@\t5-1\n2\n@ x-\r\n3\r\n' '' 02-3
    check_mixed "to pick 5- 6-6 6- by $awk" 0 '@ @ q.MK\r\n5\r\n@ 12\n6\n@ --\n7\n' '' 5- 6-6 6-
    check_mixed "to pick 5-1 by $awk" 0 '@\t5-1\n2\n' '' 5-1
    check_mixed "to pick 1 5-1 x- 7- by $awk" 0 '@ a.nin \t\r\n1 1\r\n1\r\n@\t5-1\n2\n@ x-\r\n3\r\n@ --\n7\n' '' 1 5-1 x- 7-
    check_mixed "to pick 1-3 2-2 2-4 by $awk" 0 '@ a.nin \t\r\n1 1\r\n1\r\n@\t5-1\n2\n@ x-\r\n3\r\n@ 1-2\n' '' 1-3 2-2 2-4
    check_mixed "a range in a range by $awk" 0 '@ a.nin \t\r\n1 1\r\n1\r\n@\t5-1\n2\n@ x-\r\n3\r\n' '' 1-3 2-2
    check_mixed "a name like a range by $awk" 0 '@ 1-2\n' '' '@ 1-2'
    check_mixed "names like a number and a marker by $awk" 0 '@ @ q.MK\r\n5\r\n@ 12\n6\n' '' $'@\t12' '@ q.MK'
    check_mixed "the marker of a name like a marker by $awk" 0 '@ @ q.MK\r\n5\r\n' '' '@ @ q.MK'
    check_mixed "a name like an option by $awk" 0 '@ --\n7\n' '' -- --
    check_mixed "entries that are not there by $awk" 3 '@ --\n7\n' 'there is no entry 0
there is no entry 8
there is no entry 12
there is no entry nowhere
there is no entry 3-x
there is no entry @ 5-2
there is no entry 8
there are no entries 8 to 9
there are no entries 10 to 11
there are no entries from 8 on' 0 8 12 nowhere 3-x '@ 5-2' 7-8 7-9 10-11 8-
    for word in 5-2 0-3 y- 0- 0-0 3-2; do
        check_mixed "the range $word by $awk" 2 '' "$word is neither a range of numbers from 1 nor an entry's name" 1 5-1 $word 7
    done
    check_mixed "the range -3 by $awk" 2 '' "-3 is neither a range of numbers from 1 nor an entry's name" -- -3

    # Into a folder.
    mkdir "$awk/empty"
    for folder in "$awk/empty" "$room/$awk/new/absolute"; do
        check_mixed "a refused range into $folder by $awk" 2 '' "y- is neither a range of numbers from 1 nor an entry's name" \
            --into "$folder" 1 y-
        check_mixed "to pick into $folder by $awk" 0 '' '' --into "$folder" 5-1 1 4-5
        count "the files of $folder" "$(cd "$folder" && diff <(printf '%s\n' 1.nin 2 4 5.MK) <(ls) &&
            cat 1.nin 2 4 5.MK | cmp - <(printf '1 1\r\n1\r\n2\n5\r\n') 2>&1)"
        check_mixed "to pick into $folder, which is not empty by $awk" 2 '' "$folder isn't empty" --into "$folder" 3
        count "the folder $folder, which is not empty" "$(cd "$folder" && compgen -G '3*')"
    done

    # Lines that belong to no entry.
    : >expected
    for text in '\n1\n@ a\n' ' @ a\n@ b\n'; do
        # shellcheck disable=SC2059
        printf "$text" >stray
        check "a stray line by $awk" 1 pick --from stray 1
        check_said "a stray line by $awk" "nonograde: Stray:$([ "$text" = ' @ a\n@ b\n' ] && echo 1 || echo 2)"
    done
done

# What is refused.
: >expected
check 'to pack with an unknown option' 2 pack --into x
check_said 'to pack with an unknown option' 'nonograde-pack: unknown option --into'
check 'to pick nothing' 2 pick
check_said 'to pick nothing' 'nonograde-pick: a number or a name is needed'
check 'to pick with an unknown option' 2 pick -5 <mixed
check_said 'to pick with an unknown option' 'nonograde-pick: unknown option -5'
check 'to pick from nothing' 2 pick --from
check_said 'to pick from nothing' 'nonograde-pick: --from needs a FILE'
check 'to pick into nothing' 2 pick --into
check_said 'to pick into nothing' 'nonograde-pick: --into needs a DIR'
for file in nowhere odd ''; do
    check "to pick from '$file'" 1 pick --into unmade --from "$file" 1
    check_said "to pick from '$file'" 'nonograde: Read'
    count "a folder for '$file'" "$(compgen -G unmade)"
done
check 'to pick into a file' 1 pick --from mixed --into mixed 1
check_said 'to pick into a file' 'nonograde: Write'
finish
