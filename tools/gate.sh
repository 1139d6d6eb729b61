#!/usr/bin/env bash
# Passes all tests: `rt ci` (every proof from nothing, the wrong bodies of must-fail/, the tests in Rattle and the
# stored run) and, beside it, the checks that need no program: ShellCheck over the scripts, what public contracts rest
# on, and the page of a survey. Then come the scripts and the tests in Python over the program and the libraries that
# `rt ci` left; those that measure no time run side by side. It installs the Debian packages that it needs and doesn't
# find, and ends at the first step that fails. It prints the time that it took, and its last line is `N passed, M failed`
# over all steps.
# shellcheck disable=SC2317 # `step` and `begin` call functions by their names.
. "$(dirname "$0")/common.sh"
cd "$tools/.." || exit
PATH=$PATH:/usr/sbin
open_room
log=$room/log

# Prints what all steps took and counted, and ends.
end_gate() {
    local taken
    wait
    times >"$room/times"
    taken=$(awk -F '[ms ]' '{ all += 60 * ($1 + $4) + $2 + $5 } END { printf "%.0f s", all }' "$room/times")
    echo "gate: $((SECONDS / 60)) min $((SECONDS % 60)) s with RT_JOBS=$RT_JOBS on $(nproc) processors, $taken of processor time"
    [ ! -s "$room/costs" ] || echo "gate: for these crates the prover took most: $(paste -sd , "$room/costs")"
    echo "$passed passed, $failed failed"
    exit "$1"
}

# Tests that there is a C compiler with the headers of the C library.
compiles() {
    echo '#include <stdio.h>' | cc -x c -c -o /dev/null -
}

# Prints the packages of which something is missing.
lacking() {
    compiles || echo gcc libc6-dev
    hash c++ pkg-config mypy || echo g++ pkgconf mypy
    parallel --version | grep -q '^GNU parallel' || echo parallel
    hash sshd ssh rsync gawk shellcheck || echo openssh-server openssh-client rsync gawk shellcheck
    hash make mandoc man zsh fish lintian valgrind || echo make mandoc man-db zsh fish lintian valgrind
    hash python3 rustc sqlite3 || echo python3 rustc sqlite3
    hash chromium chromedriver pdftotext tidy || echo chromium chromium-driver poppler-utils tidy
    /usr/bin/python3 -c 'import PIL, selenium' || echo python3-pil python3-selenium
    /usr/bin/python3 -c 'import ensurepip' || echo python3-venv
} 2>/dev/null

# Installs the packages of which something is missing.
install_packages() {
    local packages
    read -r -d '' -a packages < <(lacking)
    [ ${#packages[@]} -gt 0 ] || return 0
    echo "gate: installing ${packages[*]}"
    export DEBIAN_FRONTEND=noninteractive
    apt-get -q update >"$room/installed" 2>&1 &&
        apt-get -q install -y --no-install-recommends "${packages[@]}" >>"$room/installed" 2>&1
    hash -r
    [ -z "$(lacking)" ] || { tail -n 5 "$room/installed"; echo "gate: they can't be installed"; return 1; }
}

# Checks what needs no program: that ShellCheck finds nothing in any script, that no public contract rests on a
# definition that only private calls need, that the page on proofs says how many there are for the headline, and that the
# page of a survey is that of page/. Makes what the program is compared with, too.
check_texts() {
    local scripts=(.ci/run bin/* tools/*.sh) said
    install_packages || return
    shellcheck "${scripts[@]}" || return
    said=$(tools/promises.py) || { tail -n 5 <<<"$said"; return 1; }
    said=$(tools/promises.py headline | tail -n 1)
    grep -qF "$said" docs/proofs.md || { echo "docs/proofs.md doesn't say $said"; return 1; }
    tools/page.sh --check || return
    benches/run.py make || return
    echo "$((${#scripts[@]} + 3)) passed, 0 failed"
}

# Proves everything, and checks at which goals the named wrong bodies were refused.
prove() {
    tools/costs.py "$room/costs" rt ci 2>&1 | tee "$room/proved"
    [ "${PIPESTATUS[0]}" = 0 ] || return
    tools/edits.py --named <"$room/proved" >"$room/edits" || { cat "$room/edits"; return 1; }
    sed '$d' "$room/edits"
    tail -n 1 "$room/proved"
}

# Makes the library for other programs over the crates that `rt ci` has just proved, and tests it. `rt lib` would prove
# all of them again, so it is used only in checkouts in which `rt check` keeps libraries of its own.
make_library() {
    if compgen -G 'crates/*/out/rlib/stamp' >/dev/null; then
        tools/library.sh
        return
    fi
    python3 - "$(dirname "$(rt doc)")/bin" >"$room/made" 2>&1 <<'END' || { tail -n 5 "$room/made"; return 1; }
import os
import sys

sys.path.insert(0, sys.argv[1])
import rtlib

[crate] = [it for it in rtlib.crates_below(os.getcwd()) if it.is_static]
os.chdir(crate.folder)
sys.exit(crate.build_static(["--jobs", str(os.cpu_count())]))
END
    tools/library.sh --made
}

# Adds what the last line of a step counts. A step that fails ends the gate.
step() {
    local status counts
    "$@" 2>&1 | tee "$log"
    status=${PIPESTATUS[0]}
    counts=$(tail -n 1 "$log")
    if [[ $counts =~ ^([0-9]+)\ passed,\ ([0-9]+)\ failed$ ]]; then
        passed=$((passed + BASH_REMATCH[1]))
        failed=$((failed + BASH_REMATCH[2]))
    elif [ "$status" = 0 ]; then
        echo "gate: $* ended without its counts"
        status=1
    fi
    [ "$status" = 0 ] && return
    [ $failed -gt 0 ] || failed=1
    echo "gate: $* failed"
    end_gate 1
}

# Prints what a step that ran beside others printed, and returns its status.
ended() {
    cat "$room/${1##*/}"
    return "$(<"$room/${1##*/}.status")"
}

# Starts a step with its words beside others. If it fails, the prover is stopped.
begin() {
    {
        "$@" >"$room/${1##*/}" 2>&1
        echo $? >"$room/${1##*/}.status"
        [ "$(<"$room/${1##*/}.status")" = 0 ] || { tail -n 5 "$room/${1##*/}"; touch "$room/costs.stop"; }
    } &
}

# Waits for steps that were begun, and takes each.
take() {
    local name
    wait
    for name; do
        step ended "$name"
    done
}

RT_JOBS=${RT_JOBS:-$(lanes)}
export RT_JOBS
begin check_texts
step prove
take check_texts
begin make_library
step tools/outside.sh
take make_library
others=(tools/sweep.sh tools/shards_test.sh tools/machines_test.sh tools/pack_test.sh tools/pages_test.sh tools/install_test.sh)
for script in "${others[@]}"; do
    begin "$script"
done
compared=(--program crates/nonograde/out/nonograde --library out/library)
for test in tests/{texts,solving,program,survey}_test.py; do
    begin "$test" "${compared[@]}"
done
for test in tests/{traps,findings,page}_test.py; do
    begin "$test" --program crates/nonograde/out/nonograde
done
begin benches/run.py test
take "${others[@]}" tests/{texts,solving,program,survey,traps,findings,page}_test.py benches/run.py
end_gate 0
