#!/usr/bin/env bash
# Time and memory of `glb repair` beside `glb map` of the changed topology, on generated topologies: lists of
# sixteen places, 2,048 pools, eight levels. What the roots hold of the demand: half (overloaded), 95 % (near
# balance) or 105 %. Batches of 1, 4, 64 and 4,096 changes. Each repaired map is checked over the changed
# topology, and the lines in which it differs from the old map are counted. `repair` reads the topology and a map,
# and checks the map; so the row has `glb check` of the old map too, and the repair alone is about the difference.
#
#   bench/repair.sh            both sizes
#   bench/repair.sh 1024       one number of groups
source "$(dirname "$0")/set-up.sh"

# seconds and memory of the least of three runs
least() { python3 "$here/measure.py" 3 0 "$@"; }

# groups, per cent of the demand that the roots hold
measure() {
    local pools count lines checking repairing mapping
    pools=$(python3 -c "print(round($2 / 0.95 ** 7))")
    python3 "$here/generate.py" "$1" 2048 8 "$pools" "$work/topology" >/dev/null
    "$glb" map "$work/topology" >"$work/map"
    checking=$(least "$glb" check "$work/topology" "$work/map")
    printf '%6d groups, %3d %% at the roots: check of the map %s\n' "$1" "$2" "$checking"
    for count in 1 4 64 4096; do
        if [ "$count" -gt "$1" ]; then continue; fi
        python3 "$here/changes.py" "$work/topology" "$count" "$work/changes" "$work/changed"
        "$glb" repair "$work/topology" "$work/map" "$work/changes" >"$work/repaired"
        [ "$("$glb" check "$work/changed" "$work/repaired")" = good ]
        lines=$(diff "$work/map" "$work/repaired" | grep -c '^[<>]' || true)
        repairing=$(least "$glb" repair "$work/topology" "$work/map" "$work/changes")
        mapping=$(least "$glb" map "$work/changed")
        printf '    %4d changes: repair %s; map %s; %d lines differ\n' "$count" "$repairing" "$mapping" "$lines"
    done
}

for groups in ${1:-16384 65536}; do
    for percent in 50 95 105; do
        measure "$groups" "$percent"
    done
done
