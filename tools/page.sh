#!/usr/bin/env bash
# Prints what stands before the data in the page of a survey, page/page.html, or what stands after it.
#
#     tools/page.sh head       prints the page up to the line <script type="application/json" id="survey">
#     tools/page.sh tail       prints the page from the line </script> below the data on
#     tools/page.sh --rust     prints both as constants in Rust
#     tools/page.sh --check    compares the constants with those of crates/survey_page/src/page.rt
#
# Between head and tail the page has a sample, so that it can be opened as it is. Status 0: done, or equal. 1: not equal,
# or the page can't be split or written in Rust. 2: the command line is refused.
. "$(dirname "$0")/common.sh"
page=$tools/../page/page.html
constants=$tools/../crates/survey_page/src/page.rt
first='<script type="application/json" id="survey">'

# Ends with a sentence about what is wrong.
fail() {
    echo "page.sh: $1" >&2
    exit 1
}

# Prints the part of the page that is named.
part() {
    case $1 in
        head) sed "\\|^$first\$|q" "$page" ;;
        tail) sed "1,\\|^$first\$|d" "$page" | sed -n '\|^</script>$|,$p' ;;
    esac
}

# Checks that the page has each mark where it is looked for, and that raw byte strings of Rust can hold it.
check_page() {
    [ "$(grep -cF 'id="survey"' "$page")" = 1 ] || fail 'not just one line has id="survey"'
    [ "$(part head | tail -n 1)" = "$first" ] || fail "there is no line $first"
    [ "$(part tail | wc -l)" -gt 1 ] || fail 'below the data there is no line </script>'
    ! { part head && part tail; } | grep -nF '"##' || fail 'a line has "##'
    ! { part head && part tail; } | grep -n '[^ -~]' || fail 'a line has a byte that is no printable ASCII'
}

# Prints a part as a constant: its name, and the part.
constant() {
    printf 'pub const %s: &[u8] = br##"' "$1"
    part "$2"
    printf '"##;\n'
}

# Compares a constant with the file that should have it.
compare() {
    [[ $(<"$constants") == *"$(constant "$1" "$2")"* ]] || fail "$1 in ${constants#"$tools/../"} isn't what --rust prints"
}

check_page
case "$#:${1-}" in
    1:head | 1:tail) part "$1" ;;
    1:--rust) constant PAGE_HEAD head && echo && constant PAGE_TAIL tail ;;
    1:--check) compare PAGE_HEAD head && compare PAGE_TAIL tail ;;
    1:--help) print_head ;;
    *) refuse 'head, tail, --rust or --check is wanted' ;;
esac
