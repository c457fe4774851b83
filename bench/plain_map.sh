#!/usr/bin/env bash
# Mapping beside a plain Rust program of the same algorithm (plain_map.rs: flat arrays, std's heaps): instructions of
# both, and their ratio, in one run; the two maps are compared byte for byte. Lists of sixteen places, 2,048 pools,
# paths of five and of eight nodes, of which the roots hold half of the demand, 95 % or 105 %. Needs rustc and valgrind.
#
#   bench/plain_map.sh            65,536 groups
#   bench/plain_map.sh 4096       another number of groups
#
# Of glb counted: all of `run`, and of `finish`, which makes the names; of the plain program: `map` and `names`.
source "$(dirname "$0")/set-up.sh"
rustc -O --edition 2021 -C target-cpu=x86-64-v2 -o "$work/plain" "$here/plain_map.rs"

# all instructions of the calls of a function in the profile
of() { python3 "$here/calls.py" "$work/profile" "$1" | awk '{ sum += $1 * $3 } END { print sum + 0 }'; }

for levels in 5 8; do
    for percent in 50 95 105; do
        pools=$(python3 -c "print(round($percent / 0.95 ** ($levels - 1)))")
        python3 "$here/generate.py" "${1:-65536}" 2048 "$levels" "$pools" "$work/topology" >/dev/null
        profile "$work/plain" "$work/topology" "$work/map"
        plain_map=$(of '^plain_map::map$')
        plain_names=$(of '^plain_map::names$')
        plain=$((plain_map + plain_names))
        seconds=$("$work/plain" "$work/topology" 2>&1)
        profile "$glb" map "$work/topology"
        cmp "$work/map" "$work/out"
        run=$(of '^deferred_accept::running::run')
        finish=$(of '^deferred_accept::finishing::finish')
        printf '%d groups, paths of %d, %3d %% at the roots: plain %d (%s s), glb run %d, finish %d: ratio %s\n' \
            "${1:-65536}" "$levels" "$percent" "$plain" "$seconds" "$run" "$finish" \
            "$(python3 -c "print(round(($run + $finish) / $plain, 2))")"
    done
done
