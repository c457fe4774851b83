#!/usr/bin/env bash
# Time and memory of `glb map` on generated topologies, and of `glb check` on what it wrote beside it. Both
# read the topology; `check` also reads the map, and `map` makes and writes it. So mapping itself, with
# writing, is about the one less the other.
# Lists of sixteen places, 2,048 pools, and one, three or eight levels, each of which holds 95 % of the one
# below it. What the roots hold of the demand: half, 95 %, 105 % or twice as much. Needs python3, which
# writes the topologies.
#
#   bench/map.sh            all sizes
#   bench/map.sh 1024       one number of groups
source "$(dirname "$0")/set-up.sh"

# groups, levels, per cent of the demand that the roots hold
measure() {
    local pools mapping checking
    pools=$(python3 -c "print(round($3 / 0.95 ** ($2 - 1)))")
    python3 "$here/generate.py" "$1" 2048 "$2" "$pools" "$work/topology" >/dev/null
    "$glb" map "$work/topology" >"$work/map"
    printf '%6d groups, %d levels, %3d %% at the roots: topology %3d MB, map %3d MB; ' \
        "$1" "$2" "$3" "$(megabytes "$work/topology")" "$(megabytes "$work/map")"
    mapping=$(python3 "$here/measure.py" 3 0 "$glb" map "$work/topology")
    checking=$(python3 "$here/measure.py" 3 0 "$glb" check "$work/topology" "$work/map")
    printf 'map %s; check %s\n' "$mapping" "$checking"
}

for groups in ${1:-1024 16384 65536}; do
    for levels in 1 3 8; do
        for percent in 50 95 105 200; do
            measure "$groups" "$levels" "$percent"
        done
    done
done
