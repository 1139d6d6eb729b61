#!/usr/bin/env bash
# Tests that the pages say what is so, with the program that `rt ci` left in crates/nonograde/out, or the one
# that NONOGRADE names: it installs it, types the commands of README.md and of the installed man pages, follows
# the links of all pages, asks it for the examples of docs/formats.md and for each word of a fault, and compares
# man pages and completions with its help, and their numbers with what it does. It needs mandoc, man-db, fish,
# zsh and make. Its last line is `N passed, M failed`.
. "$(dirname "$0")/common.sh"
program=$(realpath "$program")
[ -x "$program" ] || refuse "there is no $program"
unset NONOGRADE MANPATH MAKEFLAGS MAKELEVEL MFLAGS
open_room
mkdir -p "$room/home" "$room/clone/crates/nonograde/out"
cd "$tools/.." && cp -r Makefile ./*.md bin docs man completions puzzles tests benches tools "$room/clone" || exit
cp "$program" "$room/clone/crates/nonograde/out/nonograde"
words=$(find crates -path '*/src/*.rt' ! -path '*/nonograde_c/*' -exec grep -hoE 'FaultWord::(alone|at_line)\("[A-Za-z]+"' {} + |
    cut -d '"' -f 2 | sort -u)
tick=$'\x60'
cd "$room/clone" || exit
export HOME=$room/home PATH=$room/home/.local/bin:$PATH

# Counts whether a text is the expected one: a name for it, what is expected, the text.
same() {
    count "$1" "$([ "$2" = "$3" ] || diff <(echo "$2") <(echo "$3"))"
}

# The man page that is installed, of section 1 or the one that is named.
manual() {
    MANWIDTH=100 MANPAGER=cat man -M "$HOME/.local/share/man" "${1:-1}" nonograde 2>&1 | col -bx
}

# Types the commands of a page, and compares what each prints with the lines below it. They are indented lines
# that begin with `$ `. One of which the page says in a comment how long it takes is left out. The arguments are the
# page's name, and how many commands are typed at least, usually 4.
type_commands() {
    local page=$1 line indent='' command='' wanted='' typed=0
    while IFS= read -r line; do
        if [[ $line =~ ^(\ +)\$\ (.*)$ ]]; then
            type_command
            indent=${BASH_REMATCH[1]} command=${BASH_REMATCH[2]} wanted=''
        elif [ -z "$line" ] || [[ $line == "$indent"* ]]; then
            wanted+=${line#"$indent"}$'\n'
        else
            type_command
            command=''
        fi
    done < <(cat && echo end)
    count "the commands of $page" "$([ "$typed" -ge "${2-4}" ] || echo "$typed are typed")"
}

# Types the command that type_commands has read.
type_command() {
    [ -n "$command" ] && [[ $command != *' # '* ]] || return
    typed=$((typed + 1))
    same "$page: $command" "$(printf %s "$wanted")" "$(bash -c "$command" 2>&1)"
}

# The rows of the table below a heading in docs/formats.md: the examples, and the last cell.
rows_below() {
    sed -n "/^| $1 |/,/^\$/{/^| .*\`/p}" docs/formats.md | sed -E 's/^\| (.*) \| (.*) \|$/\1\t\2/'
}

# The texts between backticks, a line each. A blank line is said in words.
quoted() {
    sed -E "s/(a|the) blank line/$tick $tick/g" | grep -o "${tick}[^${tick}]*$tick" | tr -d "$tick"
}

# The rows' clues of the puzzle on standard input, as `.mk` has them between commas, or the word of its fault.
clues_of() {
    cat >asked.mk
    if nonograde convert --to mk asked.mk >printed 2>said; then
        sed '1d; /^#/,$d' printed | paste -sd ,
    else
        sed 's/^nonograde: //; s/:.*//' said
    fi
}

# What the program is to say of an example, by its table and the last cell of its row.
wanted_of() {
    local clues
    case $1:$2 in
        line:none) echo BadNumber ;;
        line:'the empty clue') echo 0 ;;
        line:*) echo "$2" ;;
        section:*)
            clues=$(quoted <<<"${2%%:*}" | sed 's/^ $/0/' | paste -sd ,)
            echo "${clues:-BadCount}"
            ;;
        'size line:two') echo BadCount ;;
        'size line:'*) quoted <<<"$2" ;;
        marker:none*) echo 'nonograde: Stray:6' ;;
        marker:no*) echo '1 refused BadCount b.mk' ;;
        marker:*) echo "2 refused NoSize $(quoted <<<"$2")" ;;
    esac
}

# What the program says of an example of a table.
said_of() {
    case $1 in
        line) printf '1 1\n%s\n#\n0\n' "$2" | clues_of ;;
        section) printf '3 1\n%s\n#\n0\n' "${2// \/ /$'\n'}" | clues_of ;;
        'size line') printf '%s\n#\n' "$2" | clues_of ;;
        marker) printf '@ b.mk\n1 1\n1\n#\n1\n%s\n' "$2" | nonograde survey 2>&1 | grep -v '^1 1x1\|^entries' ;;
    esac
}

# Asks for the examples of a table of docs/formats.md: what they are, and the table's head.
ask_for_examples() {
    local examples answer example asked=0
    while IFS=$'\t' read -r examples answer; do
        while IFS= read -r example; do
            same "the $1 '$example'" "$(wanted_of "$1" "$answer")" "$(said_of "$1" "$example")"
            asked=$((asked + 1))
        done < <(quoted <<<"$examples")
    done < <(rows_below "$2")
    count "the table $2" "$([ $asked -gt 3 ] || echo "it has $asked examples")"
}

# Compares the longer examples of docs/formats.md with a puzzle, and with what the program prints,
# and each puzzle with what is written of it.
compare_examples() {
    local puzzle
    for puzzle in puzzles/*.{non,mk,nin}; do
        same "$puzzle as it is written" "$(cat "$puzzle")" "$(nonograde convert --to "${puzzle##*.}" "$puzzle")"
    done
    same 'the .non of formats.md' "$(cat puzzles/demo.non)" \
        "$(sed -n '/^    # a comment/,/^    goal/p' docs/formats.md | sed '1d; s/^    //')"
    same 'the collection of formats.md' "$(sed -n 's/^    \([12] 1x1\|entries 2\)/\1/p' docs/formats.md)" \
        "$(sed -n '/^    @ small/,/^$/s/^    //p' docs/formats.md | nonograde survey)"
}

# Gets a fault from the program, by a cause that the man page names.
provoke() {
    case $1 in
        TooLong) head -c 1048577 /dev/zero >fault.mk ;;
        NoSize) iconv -f UTF-8 -t UTF-16 puzzles/demo.non >fault.non ;;
        BadSize) printf '\xef\xbb\xbf1 1\n1\n#\n1\n' >fault.mk ;;
        NoSection) cp puzzles/demo.nin fault.mk ;;
        BadLine) sed '1s/^/\xef\xbb\xbf/' puzzles/demo.non >fault.non ;;
        Twice) cat puzzles/demo.non puzzles/demo.non >fault.non ;;
        BadCount) sed '2d' puzzles/demo.nin >fault.nin ;;
        BadNumber) sed '6s/$/ a/' puzzles/demo.nin >fault.nin ;;
        BadGoal) sed 's/^goal "0/goal "/' puzzles/demo.non >fault.non ;;
        UnknownFormat) cp puzzles/collection.txt fault.txt ;;
        Ambiguous) printf '1 2\n1\n#\n1\n2\n' >fault.mk ;;
        Read) mkdir fault.mk ;;
    esac
    case $1 in
        Ambiguous) nonograde convert --to nin fault.mk ;;
        Stray) nonograde survey <puzzles/demo.nin ;;
        TooMany) yes '@ a.mk' | head -n 10001 | nonograde survey ;;
        Write) nonograde survey <puzzles/collection.txt >/dev/full ;;
        Thread) (ulimit -s 1000000 -v 900000 && nonograde survey <puzzles/collection.txt) ;;
        NoMemory) yes '@ a.mk' | head -n 2000000 | (ulimit -v 12000 && nonograde survey) ;;
        *) nonograde solve fault.* ;;
    esac 2>&1
    rm -rf fault.*
}

# Gets each word of the man page's table of faults.
get_faults() {
    local word
    same 'the words of the man page' "$words" "$(sed -n '/^.Sh FAULTS/,/^.Sh EXIT/s/^.It Li \([A-Za-z]*\).*/\1/p' man/nonograde.1 | sort)"
    same 'the words of formats.md' "$words" \
        "$(rows_below "Words | Of" | cut -f 1 | grep -oE '[A-Z][a-zA-Z]+' | sort -u)"
    same 'a byte order mark is taken away' "$(cat puzzles/demo.non)" \
        "$(sed '1s/^/\xef\xbb\xbf/' puzzles/demo.non | bash -c "$(manual | grep -o "sed '[^']*'")")"
    same 'UTF-16 is mended' "$(cat puzzles/demo.non)" \
        "$(iconv -f UTF-8 -t UTF-16 puzzles/demo.non | bash -c "$(manual | grep -o 'iconv [-A-Z0-9a-z ]*')")"
    for word in $words; do
        count "the fault $word" "$(provoke "$word" | sed -E 's/:[0-9]+$//' | grep -vx "nonograde: $word")"
    done
}

# The long options of a command by its help, a line each: the name, and what is said of it.
options_of() {
    nonograde "$@" --help | sed -nE 's/^ +(-[a-zA-Z], )?(--[a-z]+)( <[A-Z]+>)? +(.*)/\2 \4/p'
}

# The commands by the program's help, a line each: the name, and what is said of it.
commands() {
    nonograde --help | sed -n '/^Commands:/,/^$/s/^  \([a-z]*\)  *\(.*\)/\1 \2/p'
}

# What bash completes: a command line that ends in the word to be completed.
bash_completes() {
    # shellcheck disable=SC2016
    bash --norc -c '. "$0" && COMP_WORDS=("$@") COMP_CWORD=$(($# - 1)) typed=${*: -1} && _nonograde "$1" "${typed#=}" "${*: -2:1}" &&
        printf "%s\n" "${COMPREPLY[@]}"' "$HOME/.local/share/bash-completion/completions/nonograde" nonograde "$@" | sort
}

# What zsh is told for a command: the specifications that its completions hand over.
zsh_is_told() {
    # shellcheck disable=SC2016
    zsh -fc '
        _arguments() { print -rl -- "$@" }
        _describe() { print -rl -- ${(P)2} }
        words=(nonograde "${@[2,-1]}") CURRENT=$#
        . $1' - "$HOME/.local/share/zsh/site-functions/_nonograde" "$@"
}

# Compares what man page and completions say of a command's option with its help: the command, the option, and
# what the help says of it.
compare_option() {
    local command=$1 option=$2 said=$3 range least most usual value values entry told status
    values=$(sed -nE 's/.*\[possible values: (.*)\]/\1/p' <<<"$said" | tr -d ,)
    usual=$(sed -nE 's/.*\[default: ([a-z0-9]+)\].*/usually \1/p' <<<"$said")
    range=$(grep -oE '[0-9]+ to [0-9]+' <<<"$said")
    entry=$(manual | sed -nE "/^ +(-., )?$option( |\$)/,/^\$/p" | tr -s '\n ' ' ')
    for value in $option $values "$usual" "$range"; do
        count "$command $option in the man page" "$(grep -qw -- "$value" <<<"$entry" || echo "no $value in $entry")"
    done
    told=$(zsh_is_told "$command" '' | grep -E -- "${option}=?\[")
    same "$command $option in zsh" "${said%% \[*}]$values" "$(sed 's/^[^[]*\[//; s/].*:(\(.*\))$/]\1/; s/].*:$/]/' <<<"$told")"
    same "$command $option in fish" "$option ${said%% \[*}" "$(fish_completes "$command -" | grep -F -- "$option ")"
    [ -z "$values" ] || compare_values "$command" "$option" "$(tr ' ' '\n' <<<"$values" | sort)"
    [ -n "$range" ] || return
    least=${range% to *} most=${range#* to }
    for value in "$least" "$most" $((least - 1)) $((most + 1)); do
        nonograde survey "$option=$value" </dev/null >printed 2>said
        status=$?
        same "status of $option=$value" $((value >= least && value <= most ? 0 : 2)) $status
    done
    [[ $command:$option != s*:--guesses ]] || count "what $command's help says of unsettled puzzles" \
        "$(nonograde "$command" --help | grep -q "^If unsettled, try --guesses $most .* --pick" || echo 'it says nothing')"
}

# Compares what is completed of an option's values, in a word of their own and behind `=`, with those of the
# help: the command, the option, the values.
compare_values() {
    local command=$1 option=$2 values=$3 first=${3:0:1}
    same "$command $option in bash" "$values" "$(bash_completes "$command" "$option" '')"
    same "$command $option= in bash" "$values" "$(bash_completes "$command" "$option" =)"
    same "$command $option=$first in bash" "$(grep "^$first" <<<"$values")" "$(bash_completes "$command" "$option" = "$first")"
    same "$command $option=$first in bash without = in COMP_WORDBREAKS" "$(grep "^$first" <<<"$values" | sed "s/^/$option=/")" \
        "$(bash_completes "$command" "$option=$first")"
    same "$command $option in fish, its values" "$values" "$(fish_completes "$command $option " | cut -d ' ' -f 1 | sort)"
    same "$command $option= in fish" "$option=${values//$'\n'/$'\n'$option=}" \
        "$(fish_completes "$command $option=" | cut -d ' ' -f 1 | sort)"
}

# Compares the man page and completions with the program's help.
compare_with_help() {
    local command about options option said
    same 'commands in bash' "$( (commands && options_of) | cut -d ' ' -f 1 | sort)" "$(bash_completes '')"
    same 'commands in zsh' "$(commands | sed 's/ /:/')" "$(zsh_is_told '')"
    same 'commands in fish' "$(commands | sort)" "$(fish_completes '' | sort)"
    same 'options without command in fish' "$(options_of | sort)" "$(fish_completes - | grep -- -- | sort)"
    same 'options without command in zsh' "$(options_of | sed 's/ \(.*\)/[\1]/')" "$(zsh_is_told - | grep -o -- '--.*')"
    while read -r command about; do
        [ "$command" != help ] || continue
        options=$(options_of "$command" | cut -d ' ' -f 1 | sort)
        same "$command in the man page's synopsis" "$(grep -vx -- --help <<<"$options")" \
            "$(manual | sed -n '/^SYNOPSIS/,/^DESCR/p' | tr -s ' \n' ' ' | grep -oP "nonograde $command\K.*?(?=nonograde|DESCR)" | grep -oE -- '--[a-z]+' | sort)"
        count "$command's words in the man page" "$(manual | grep -qE "^ +$command +$about" || echo "not $about")"
        bash -c "$(nonograde "$command" --help | sed -n 's/^Example: //p')" >printed 2>said
        same "the example in $command's help" '0 more' "$? $([ -s printed ] && echo more)"
        same "options of $command in bash" "$options" "$(bash_completes "$command" -)"
        same "options of $command in zsh" "$options" "$(zsh_is_told "$command" '' | grep -oE -- '--[a-z]+' | sort)"
        same "options of $command in fish" "$options" "$(fish_completes "$command -" | grep -oE -- '^--[a-z]+' | sort)"
        while read -r option said; do
            compare_option "$command" "$option" "$said"
        done < <(options_of "$command")
    done < <(commands)
    options=$({ options_of && commands | grep -v '^help ' | while read -r command _; do options_of "$command"; done; } | cut -d ' ' -f 1)
    same 'options that are named and not there' '' \
        "$({ manual && manual 5 && cat README.md; } | grep -oE -- '--[a-z]+' | grep -vxF -- "$options")"
}

# What fish completes, a line each: the word and its description. Its words are the line after `nonograde`.
fish_completes() {
    env XDG_DATA_HOME="$HOME/.local/share" HOME="$room/fish" fish -c "complete -C'nonograde $1'" 2>&1 | tr '\t' ' '
}

# What is typed at a terminal with zsh, up to its end: a line with tabs. The folder is in the search path as
# README.md says.
typed_in_zsh() {
    mkdir -p zsh
    grep -oP "$tick\Kfpath[^$tick]*" README.md >zsh/.zshrc
    cat >>zsh/.zshrc <<'END'
autoload -Uz compinit
compinit -D -u
PS1='ready> '
nonograde() { print -r typed $* end }
END
    # shellcheck disable=SC2016
    timeout 10 zsh -fc '
        zmodload zsh/zpty
        zpty shell env TERM=dumb ZDOTDIR=zsh zsh -i
        zpty -r shell text "*ready> *"
        zpty -w -n shell "$1"$'\''\n'\''
        zpty -r shell text "*typed*end*"
        print -r -- "${${text##*typed }%% end*}"' - "$1"
}

# Follows each link of the pages, and each path of a page or a script that they name.
follow_links() {
    local page target
    for page in *.md docs/*.md; do
        while IFS= read -r target; do
            count "$target in $page" "$([ -e "$(dirname "$page")/${target%%#*}" ] || [ -e "$target" ] || [ -e "tools/$target" ] ||
                echo "it isn't there")"
        done < <(grep -oP "\]\(\K[^)]+|$tick\K[\w./-]+\.(md|sh|py)(?=$tick)" "$page" | sort -u)
    done
}

# Compares which files are completed: all three endings, also in upper case, folders, and another FILE.
complete_files() {
    local files
    mkdir -p files/folder
    touch files/{a.non,b.mk,c.nin,D.NON,e.txt}
    files=$(printf 'files/%s\n' D.NON a.non b.mk c.nin folder)
    for words in survey check solve convert lines; do
        same "$words FILE in bash" "$files" "$(bash_completes "$words" files/)"
        same "$words FILE in fish" "$files" "$(fish_completes "$words files/" | sed 's/ .*//; s/\/$//' | sort)"
        same "$words FILE in zsh" "$words files/D.NON" "$(typed_in_zsh $'nonograde '"$words"$' files/D\t')"
    done
    same 'another FILE in bash' "$files" "$(bash_completes survey files/a.non files/)"
    same 'another FILE in fish' "$files" "$(fish_completes 'survey files/a.non files/' | sed 's/ .*//; s/\/$//' | sort)"
    same 'another FILE in zsh' 'survey files/a.non files/b.mk' "$(typed_in_zsh $'nonograde survey files/a.non files/b\t')"
    same 'a folder in zsh' 'lines puzzles/knot.mk' "$(typed_in_zsh $'nonograde lines puz\tkn\t')"
    same 'a line in zsh' 'survey --pick=most puzzles/heart.non' \
        "$(typed_in_zsh $'nonograde surv\t--pi\tmo\tpuzzles/he\t')"
    same 'a value behind = in zsh' 'convert --to=nin puzzles/heart.non' \
        "$(typed_in_zsh $'nonograde convert --to=ni\tpuzzles/he\t')"
    rm -r files
}

# A page as one line.
flat() {
    case $1 in
        1 | 5) manual "$1" ;;
        *) cat "$1" ;;
    esac | tr -s ' \n' ' '
}

# The statuses of the man page, with what they mean.
statuses() {
    manual | sed -nE '/^EXIT STATUS/,/^EXAMPLES/s/^ +([0-9]+) +(.*)/\1 \2/p'
}

# Compares the status that has this meaning in the man page with the one that a command ends with.
compare_status() {
    local meaning=$1
    shift
    "$@" <puzzles/collection.txt >printed 2>said
    same "the status of ${*:2}, by the man page" $? "$(statuses | sed -n "s/ $meaning.*//p")"
}

# Compares the statuses of the man page with the program and its help.
compare_statuses() {
    local command
    compare_status 'Everything is printed' nonograde survey
    compare_status 'Everything is printed' nonograde survey puzzles/collection.txt
    compare_status 'Everything is printed' nonograde --help
    compare_status 'A fault' nonograde survey nowhere.non
    compare_status 'A fault' nonograde solve puzzles/collection.txt
    compare_status 'The command line is refused' nonograde
    compare_status 'The command line is refused' nonograde survey --nothing
    for command in survey solve convert lines; do
        count "the statuses of $command's help" "$(nonograde "$command" --help |
            grep -qE '^Exit status: 0 if the .* printed, 1 at a fault, 2 if the command line is refused\.$' || echo 'they are others')"
    done
}

# The number in a page after some words, which are a regular expression.
number_after() {
    flat "$1" | grep -oP "$2 \K[0-9,]*[0-9]" | tr -d , | head -n 1
}

# A text of N bytes that begins with another.
text_of() {
    printf '%s\n' "$2" && head -c $(($1 - ${#2} - 1)) /dev/zero
}

# The fault of a text that has N of what is limited.
fault_at() {
    case $1 in
        side) echo "$2 1" >asked.mk ;;
        numbers) printf '1 1\n%s\n#\n0\n' "$(yes 1 | head -n "$2" | paste -sd ' ')" >asked.mk ;;
        number) printf '1 1\n%s\n#\n0\n' "$2" >asked.mk ;;
        text) printf 'title "%s"\nwidth 1\nheight 1\nrows\n0\ncolumns\n0\n' "$(text_of "$2" a | tr -c a a)" >asked.non ;;
        puzzle) text_of "$2" '1 1' >asked.mk ;;
        collection) text_of "$2" '@ a.txt' | nonograde survey ;;
        puzzles) yes '@ a.txt' | head -n "$2" | nonograde survey ;;
    esac 2>&1 | grep -o '^nonograde: .*'
    ! compgen -G 'asked.*' >/dev/null || nonograde survey asked.* | grep -o '^1 refused [A-Za-z]*'
    rm -f asked.*
}

# Compares a limit that the pages have with the program: what is limited, the word of the fault beyond it, a
# page, and the words before the number.
compare_limit() {
    local limit
    limit=$(number_after "$3" "$4")
    count "the limit of $1 in $3" "$([ -n "$limit" ] || echo "there is no number after '$4'")"
    [ -n "$limit" ] || return
    count "$1: $limit as in $3" "$(fault_at "$1" "$limit" | grep -w "$2")"
    count "$1: more than the $limit of $3" "$(fault_at "$1" $((limit + 1)) | grep -qw "$2" || echo "it isn't $2")"
}

# Compares what a command prints with what it prints on the stack of the man page, whose KiB stand after the words that are
# given.
compare_stack() {
    local kib command=$2
    kib=$(number_after 1 "$1")
    # shellcheck disable=SC2086
    same "$command with a stack of ${kib:-no} KiB" "$(nonograde $command <puzzles/collection.txt 2>&1)" \
        "$(ulimit -s "$kib" && env -i "$(command -v nonograde)" $command <puzzles/collection.txt 2>&1)"
}

# Compares all limits of man pages and docs/formats.md with the program, and the stack of the man page.
compare_limits() {
    local page=docs/formats.md command
    compare_limit side BadSize 1 'Width and height 1 to'
    compare_limit side BadSize 1 "A size isn't a number from 1 to"
    compare_limit side BadSize 5 'a width and a height, each from 1 to'
    compare_limit side BadSize $page 'a width and a height, each from 1 to'
    compare_limit numbers BadNumber 1 'Numbers in a clue'
    compare_limit numbers BadNumber 1 'or it has more than'
    compare_limit numbers BadNumber 5 'a list of at most'
    compare_limit numbers BadNumber $page 'a list of at most'
    compare_limit number BadNumber 1 "something in it isn't a number from 1 to"
    compare_limit number BadNumber 5 'numbers, each from 1 to'
    compare_limit number BadNumber $page 'numbers, each from 1 to'
    compare_limit text BadLine 1 'or its text has more than'
    compare_limit text BadLine 5 'A text of at most'
    compare_limit text BadLine $page 'a text of at most'
    compare_limit puzzle TooLong 1 'A puzzle'
    compare_limit puzzle TooLong 1 'The puzzle has more than'
    compare_limit puzzle TooLong 5 'text has at most'
    compare_limit puzzle TooLong $page 'the text has more than'
    compare_limit collection TooLong 1 'A collection'
    compare_limit collection TooLong 1 'or the collection more than'
    compare_limit collection TooLong 5 'A collection has at most'
    compare_limit collection TooLong $page 'TooLong. \| a collection \| it has more than'
    compare_limit puzzles TooMany 1 'Puzzles in a survey'
    compare_limit puzzles TooMany 1 'There are more than'
    compare_limit puzzles TooMany 5 'bytes and'
    compare_limit puzzles TooMany $page 'TooMany. \| a collection \| it has more than'
    for command in 'survey --show' 'survey puzzles/cat.mk' 'solve puzzles/carpet.nin' 'lines puzzles/cat.mk' \
        'convert --to mk puzzles/demo.non' 'solve --help' 'survey --lanes 0' 'survey --format html'; do
        compare_stack 'The main thread needs a stack of' "$command"
    done
    compare_stack 'for csv of' 'survey --format csv'
}

# A field of a puzzle's line, by its name among the columns of the man page.
field() {
    local place
    place=$(tr ' ' '\n' <<<"$columns" | grep -nx "$1" | cut -d : -f 1)
    cut -d ' ' -f "${place:-100}" <<<"$2"
}

# Compares the columns of the man page with the program, its help and the other pages.
compare_columns() {
    local columns line command column
    columns=$(manual | sed -n 's/^ *\(N WxH.*\)/\1/p')
    same "the columns of survey's help" "$columns" \
        "$(nonograde survey --help | sed -n 's/^Each line is \(.*\), or N refused WORD NAME\.$/\1/p')"
    same "the columns of solve's help" "${columns/#N/1}" \
        "$(nonograde solve --help | sed -n 's/^The line is \(.*\)\.$/\1/p')"
    same 'the columns of README.md' "$columns" "$(grep -oP "A line has $tick\K[^$tick]*" README.md)"
    same 'the columns of formats.md' "$columns" "$(grep -oP "entry's line is $tick\KN WxH [^$tick]*" docs/formats.md)"
    same "the columns' meanings in the man page" "${columns% NAME}" \
        "$(manual | sed -nE '/^PRINTED LINES/,/ WORD  /s/^     ([A-Z][A-Zx, ]*)  +[^ ].*/\1/p' | grep -v WORD | paste -sd ' ' | tr -s ' ,' ' ' | sed 's/ $//')"
    for column in 'LINE, TRIALS' GUESSES; do
        count "$column in the man page" "$(flat 1 | grep -qiF "$(rows_below 'Field | Meaning' | cat - <(sed -n 's/^| \(.*\) | \(.*\) |$/\1\t\2/p' docs/formats.md) |
            sed -n "s/^$column\t\([^,;]*\(, and [^;,]*\)\{0,1\}\).*/$column \1/p" | head -n 1)" || echo 'it has another meaning in formats.md')"
    done
    line=$(nonograde solve --guesses 2 puzzles/carpet.nin | head -n 1)
    same 'the column N' 1 "$(field N "$line")"
    same 'the column WxH' "$(head -n 1 puzzles/knot.mk | sed 's/\(.*\) \(.*\)/\2x\1/')" "$(field WxH "$(nonograde solve puzzles/knot.mk | head -n 1)")"
    same 'the column VERDICT' unsettled "$(field VERDICT "$line")"
    same 'the column GRADE' search "$(field GRADE "$line")"
    same 'the column LINE' "$(nonograde lines puzzles/carpet.nin | sed -n 's/^open //p')" "$(field LINE "$line")"
    same 'the column TRIALS' 8 "$(field TRIALS "$(nonograde solve puzzles/knot.mk | head -n 1)")"
    same 'the column GUESSES' 2 "$(field GUESSES "$line")"
    same 'the column GOAL' meets "$(field GOAL "$(nonograde solve puzzles/heart.non | head -n 1)")"
    same 'the column NAME' puzzles/carpet.nin "$(field NAME "$line")"
}

# Checks that man pages refer to nothing that isn't installed.
find_what_is_named() {
    local section named
    for section in 1 5; do
        while IFS= read -r named; do
            count "$named, named by nonograde($section)" "$(compgen -G "$HOME/.local/$named" >/dev/null ||
                compgen -G "$HOME/.local/share/doc/nonograde/$named" >/dev/null || echo "it isn't installed")"
        done < <(manual $section | grep -oE '\b(bin|docs|include|man|puzzles|share|tests|tools)/[][A-Za-z0-9_.*?/-]*[A-Za-z0-9_*?]' | sort -u)
        while IFS= read -r named; do
            count "$named, named by nonograde($section)" "$([ -x "$HOME/.local/bin/$named" ] || echo "it isn't installed")"
        done < <(manual $section | grep -oE '\bnonograde-[a-z]+' | sort -u)
        same "the pages that nonograde($section) refers to" '' "$(flat $section | sed 's/-- *//' |
            grep -oE '\b[a-z]+\([0-9]\)' | sort -u | grep -v '^nonograde([15])$')"
    done
}

# Runs the man page's awk filters on a survey with refused puzzles of odd names.
filter_odd_names() {
    local odd filter
    odd=$(printf '@ %s\n' 'several x.txt' 'a several 2x2 search' '1x1 several' | nonograde survey)
    while IFS= read -r filter; do
        same "no refused line and no totals pass awk '$filter'" '' "$(awk "$filter" <<<"$odd")"
    done < <(manual | grep -oP "awk '\K[^']*")
    count "the man page's filters" "$(manual | grep -qE "^ +\\$ .*(grep|cut) " && echo 'one takes a word of a name')"
}

make -s install PREFIX="$HOME/.local"
type_commands 'the README' <README.md
type_commands formats.md 1 <docs/formats.md
for page in man/nonograde.[15]; do
    count "$page" "$(mandoc -T lint "$page" 2>&1 | grep -v 'referenced manual not found: Xr nonograde [15]')"
done
cp -r "$HOME/.local/share/doc/nonograde" "$room/copy" && cd "$room/copy" || exit
type_commands 'nonograde(1)' < <(manual)
type_commands 'nonograde(5)' < <(manual 5)
cd "$room/clone" || exit
follow_links
find_what_is_named
filter_odd_names
ask_for_examples line 'Line | Clue'
ask_for_examples section 'Section | Clue lines'
ask_for_examples 'size line' 'Size line | Sizes'
ask_for_examples marker 'Line | Name'
compare_examples
get_faults
compare_with_help
compare_statuses
compare_limits
compare_columns
complete_files
finish
