#!/usr/bin/env bash
# Makes the library for other programs, and tests it.
#
# Usage: library.sh [--made] [FOLDER]
#
# Makes libnonograde.a, libnonograde.so.0 with the link libnonograde.so, nonograde.h and the Python package in FOLDER,
# out/library if none is named; with --made, of the archive that is in crates/nonograde_c/out. Then calls them as
# programs in C and in Python do, and compares what they give with what the program prints. Its last line is
# `N passed, M failed`.
# shellcheck source-path=SCRIPTDIR source=common.sh
. "$(dirname "$0")/common.sh"
[ "${1-}" = --help ] && { print_head; exit; }
made=no
[ "${1-}" = --made ] && { made=yes; shift; }
[ $# -le 1 ] || refuse 'it takes one FOLDER at most'
top=$(realpath "$tools/..")
folder=$(realpath -m "${1-$top/out/library}")
mkdir -p "$folder" || stop Write
kit=$(dirname "$(rt doc)")
open_room
cd "$room" || stop Write

# Makes the two libraries. The calls to malloc are the kit's own small file of C. The shared one has no symbols but its
# exports, and so no path of this machine.
[ $made = yes ] || (cd "$top/crates/nonograde_c" && rt lib --jobs "$(nproc)") >made 2>&1 || { tail -n 5 made; stop Library; }
cp "$kit/c/liblibc_c.a" libnonograde.a
mkdir objects && (cd objects && ar x "$top/crates/nonograde_c/out/libnonograde_c.a")
ar qs libnonograde.a objects/* || stop Library
cc -shared -s -o libnonograde.so.0 -Wl,-soname,libnonograde.so.0 -Wl,--version-script="$top/include/nonograde.map" \
    -Wl,--whole-archive libnonograde.a -Wl,--no-whole-archive || stop Library

# Puts them into the folder. The Python package finds the library beside itself.
put_into_folder() {
    rm -rf "$folder/nonograde" && mkdir "$folder/nonograde" &&
        cp libnonograde.a libnonograde.so.0 "$top/include/nonograde.h" "$folder" &&
        cp "$top/python/nonograde/__init__.py" "$top/python/nonograde/py.typed" "$folder/nonograde" &&
        ln -sf libnonograde.so.0 "$folder/libnonograde.so" &&
        ln -s ../libnonograde.so.0 "$folder/nonograde/libnonograde.so"
}
put_into_folder || stop Write

# Counts what a program's last line counts.
add() {
    local name=$1 counts
    shift
    "$@" >told 2>&1
    counts=$(tail -n 1 told)
    if [[ $counts =~ ^([0-9]+)\ passed,\ ([0-9]+)\ failed$ ]]; then
        passed=$((passed + BASH_REMATCH[1]))
        failed=$((failed + BASH_REMATCH[2]))
        grep '^FAILED' told
    else
        count "$name" "$(tail -n 5 told)"
    fi
}

# Builds the program in C with further words, and runs it.
call_from_c() {
    cc -std=c11 -Wall -Wextra -Werror -O1 "$@" -Wl,--wrap=malloc,--wrap=realloc -I "$folder" -o calls \
        "$top/tests/c/calls.c" "$folder/libnonograde.a" -lpthread && ./calls
}

# Compares what the shared library exports and is called with what its header declares.
check_exports() {
    local declared exported
    declared=$(grep -oE '\<nonograde_[a-z_]+\(' "$folder/nonograde.h" | tr -d '(' | sort -u)
    exported=$(nm -D --defined-only "$folder/libnonograde.so.0" | awk '{ print $3 }' | sort)
    count 'the exports of the shared library' "$(diff <(echo "$declared") <(echo "$exported"))"
    count 'the SONAME' "$(objdump -p "$folder/libnonograde.so.0" | grep -q '^ *SONAME *libnonograde.so.0$' || echo 'it is another')"
    count 'the link' "$([ "$(readlink "$folder/libnonograde.so")" = libnonograde.so.0 ] || echo 'it leads elsewhere')"
}

# Checks the types of the Python package, of the page's examples, and that wrong uses are refused: mypy complains of a
# comment that ignores nothing.
check_types() {
    local check=(mypy --strict --cache-dir "$room/types")
    mkdir page
    awk '/^```python$/ { number++; on = 1; next } /^```$/ { on = 0 } on { print >("page/example" number ".py") }' "$top/docs/library.md"
    cat >page/wrong.py <<'END'
import nonograde
nonograde.solve(5, "nin")  # type: ignore[arg-type]
nonograde.solve("", "nin", guesses=1.5)  # type: ignore[arg-type]
nonograde.solve_clues([1], [[1]])  # type: ignore[list-item]
nonograde.extend("", "nin", 5)  # type: ignore[arg-type]
number: int = nonograde.solve("", "nin").rows  # type: ignore[assignment]
verdict: int = nonograde.extend("", "nin", "").verdict  # type: ignore[assignment]
word: int = nonograde.lines("", "nin").word  # type: ignore[assignment]
text: str = nonograde.convert(b"", "nin", "mk")  # type: ignore[assignment]
END
    count 'the types of the Python package' "$("${check[@]}" "$folder/nonograde" 2>&1 | grep -v '^Success')"
    count 'the types of its uses' "$(MYPYPATH=$folder "${check[@]}" page/*.py 2>&1 | grep -v '^Success')"
}

check_exports
add 'calls from C' call_from_c
if echo 'int main(void) { return 0; }' | cc -x c -fsanitize=address -o sanitized - 2>/dev/null; then
    add 'calls from C, sanitized' call_from_c -fsanitize=address
fi
check_types
NONOGRADE_LIBRARY='' PYTHONPATH=$folder add 'Python' python3 "$top/tests/library.py" "$program" "$top"
echo "$passed passed, $failed failed"
[ "$failed" = 0 ]
