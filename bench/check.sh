#!/usr/bin/env bash
# Time and memory of the bare reading of a topology's TOML, of glb's reading of it,
# and of the whole of `glb check`, on topologies of up to 65,536 groups with lists of
# sixteen and a good map of each.
# Takes some minutes: bench/generate.py computes the maps. Needs python3.
#
#   bench/check.sh            all sizes
#   bench/check.sh 1024       one number of groups
source "$(dirname "$0")/set-up.sh"

source "$here/bare.sh"

touch "$work/nothing"

# groups, pools, levels, per cent of the demand that the pools hold
measure() {
    python3 "$here/generate.py" "$1" "$2" "$3" "$4" "$work/topology" "$work/map" >"$work/proposals"
    printf '%6d groups, %4d pools, %d levels, %3d %%: topology %3d MB, map %3d MB; ' \
        "$1" "$2" "$3" "$4" "$(megabytes "$work/topology")" "$(megabytes "$work/map")"
    local by_bare reading checking
    by_bare=$(python3 "$here/measure.py" 3 0 "$bare" "$work/topology")
    # a map of no octets is refused, once the topology is read
    reading=$(python3 "$here/measure.py" 3 2 "$glb" check "$work/topology" "$work/nothing")
    checking=$(python3 "$here/measure.py" 3 0 "$glb" check "$work/topology" "$work/map")
    printf 'bare TOML %s; reading %s; check %s\n' "$by_bare" "$reading" "$checking"
}

for groups in ${1:-1024 8192 65536}; do
    measure "$groups" 4096 1 150
    measure "$groups" 4096 1 80
    measure "$groups" 2048 8 150
    measure "$groups" 2048 8 80
done
# as many groups, nodes and prefixes as a topology may have
[ -n "${1:-}" ] || measure 65536 8192 1 150
