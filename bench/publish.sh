#!/usr/bin/env bash
# What a publish and a look cost in the map cell, in instructions of a call with all that it calls (callgrind, which
# counts the same on a busy machine). Needs valgrind, a package of Debian.
#
#   bench/publish.sh            65,536 groups
#   bench/publish.sh 4096       another number of groups
#
# First `glb serve` with a feed of six commits, each of 1, 64 or 4,096 changed demands, in a world in which nothing is
# refused, so that as many rows differ as demands: of each call of the cell and of the rows (`publish`, `between`,
# `absorb`), of the repair, and of what writes the map's text. Then the test in map_cell_tests of a publisher of ten
# thousand deltas of one row beside a viewer that looks all the time, at two groups: of a look and of a publish.
#
# Programs that are built already are named by GLB and, for those of map_cell_tests, by CELL_TESTS.
source "$(dirname "$0")/set-up.sh"

groups=${1:-65536}
cell='^(map_cell|left_right|logbook|published_map|mapper)::'

python3 "$here/generate.py" "$groups" 2048 1 1000 "$work/topology" >"$work/log"
for changes in 1 64 4096; do
    if [ "$changes" -gt "$groups" ]; then continue; fi
    python3 "$here/feed.py" "$work/topology" "$changes" 6 >"$work/feed"
    profile "$glb" serve "$work/topology" --listen 127.0.0.1:0 --workers 1 <"$work/feed"
    [ "$(grep -c '^published ' "$work/out")" = 6 ]
    printf '%d groups, %d changed demands a commit, 6 commits:\n' "$groups" "$changes"
    python3 "$here/calls.py" "$work/profile" "$cell" '^(map_repair|map_text)::' | head -30
done

if [ -z "${CELL_TESTS:-}" ]; then
    (cd "$top/crates/map_cell_tests" && rt test) >>"$work/log" 2>&1
    CELL_TESTS=$top/crates/map_cell_tests/out/map_cell_tests_tests
fi
profile "$CELL_TESTS" tests::looks_beside_publishes
printf 'two groups, 10,000 commits of one row beside a viewer:\n'
python3 "$here/calls.py" "$work/profile" "$cell" | head -30
