#!/usr/bin/env bash
# glb's reading of a topology beside the kit's bare TOML reader: instructions of both programs (callgrind) and seconds
# of processor, the least of five runs in turns, with the ratios. Needs valgrind.
#
#   bench/reading.sh            65,536 groups of sixteen places
#   bench/reading.sh 4096       another number of groups
#
# The bare reader is that of check.sh. glb reads a map of no octets, which it refuses once the topology is read.
source "$(dirname "$0")/set-up.sh"
source "$here/bare.sh"

# of a program that ends with this status
instructions() {
    local wanted=$1 status=0
    rm -f "$work/profile"
    profile "${@:2}" || status=$?
    [ "$status" = "$wanted" ]
    awk '/^(summary|totals):/ { print $2; exit }' "$work/profile"
}

touch "$work/nothing"
for pools in 4096 8192; do
    python3 "$here/generate.py" "${1:-65536}" "$pools" 1 150 "$work/topology" >/dev/null
    bare_count=$(instructions 0 "$bare" "$work/topology")
    glb_count=$(instructions 2 "$glb" check "$work/topology" "$work/nothing")
    printf '%d groups, %d pools: bare %d, glb %d instructions: ratio %s\n' "${1:-65536}" "$pools" \
        "$bare_count" "$glb_count" "$(python3 -c "print(round($glb_count / $bare_count, 2))")"
    for turn in 1 2 3 4 5; do
        by_bare=$(python3 "$here/measure.py" 1 0 "$bare" "$work/topology")
        by_glb=$(python3 "$here/measure.py" 1 2 "$glb" check "$work/topology" "$work/nothing")
        printf '    bare %s; glb %s\n' "$by_bare" "$by_glb"
    done
done
