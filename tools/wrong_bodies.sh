#!/usr/bin/env bash
# Has the prover try the wrong bodies that the gate leaves out, those in crates/CRATE/wrong-bodies/.
#
# Usage: tools/wrong_bodies.sh [CRATE..]
#
# Works on a copy of the repository without the crates of tests, in which they replace those of must-fail/: of the crates
# that are named, or of all. What was proved or tried on this machine over the same files isn't done again. Prints at
# which goal each is refused, and how long it took. Its last line is `N passed, M failed`.
. "$(dirname "$0")/common.sh"
[ "${1-}" = --help ] && { print_head; exit; }
cd "$tools/.." || exit
bodies=(crates/*/wrong-bodies)
[ $# = 0 ] || bodies=("${@/%//wrong-bodies}") bodies=("${bodies[@]/#/crates/}")
for folder in "${bodies[@]}"; do
    [ -d "$folder" ] || refuse "there is no $folder"
done
open_room
tar -c --no-wildcards-match-slash --exclude='crates/*/out' --exclude='crates/*/must-fail' --exclude='crates/*/wrong-bodies' --exclude='crates/*_tests' crates HANDLES |
    tar -x -C "$room" || stop Write
grep -v '^[a-z_]*_tests:' crates.txt >"$room/crates.txt" || stop Write
for folder in "${bodies[@]}"; do
    cp -r "$folder" "$room/${folder%/*}/must-fail" || stop Write
done
cd "$room" || exit
RT_JOBS=${RT_JOBS:-$(lanes)} rt ci "$@" >tried 2>&1
proved=$?
if [ $# != 0 ] && [ $proved = 2 ]; then
    # This kit's `rt ci` takes no names. `rt must-fail` does, and builds on what `rt check` has proved.
    (cd "$tools/.." && tar -c crates/*/out/rlib 2>"$room/said") | tar -x
    rt must-fail "$@" >tried 2>&1
    proved=$?
fi
"$tools/edits.py" <tried >said
tried=$?
[ $proved = 0 ] || [ $tried != 0 ] || { tail -n 20 tried; stop Proof; }
sed '$d' said
echo "wrong bodies: $((SECONDS / 60)) min $((SECONDS % 60)) s on $(nproc) processors"
tail -n 1 said
exit $tried
