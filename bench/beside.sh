#!/usr/bin/env bash
# Two builds of the program side by side in one run, in instructions (callgrind): mapping, and replies with and without
# client subnets. Their maps have to be the same but for the first line. Needs valgrind.
#
#   GLB=NEW GLB_OTHER=OLD bench/beside.sh [GROUPS]       4,096 groups if not said
#
# Lists of sixteen places, 2,048 pools, no limits and no classes. Of mapping counted: all of `run`, and of `finish`, which
# makes the names. Behind it, in the new build alone, a reply where each group has a class for the service beside one
# where none has.
source "$(dirname "$0")/set-up.sh"
other=${GLB_OTHER:?the other program}

# all instructions of the calls of a function in the profile, and how many there were
of() { python3 "$here/calls.py" "$work/profile" "$1" | awk '{ sum += $1 * $3 } END { print sum + 0 }'; }
calls() { python3 "$here/calls.py" "$work/profile" "$1" | awk '{ sum += $1 } END { print sum + 0 }'; }
ratio() { python3 -c "print(round($2 / $1, 3))"; }

# instructions of mapping by a program, whose map is $work/FILE
mapping() {
    local run finish
    profile "$1" map "$work/topology"
    tail -n +2 "$work/out" >"$work/$2"
    run=$(of '^deferred_accept::running::run')
    finish=$(of '^deferred_accept::finishing::finish')
    echo $((run + finish))
}

for levels in 5 8; do
    for percent in 50 95 105; do
        pools=$(python3 -c "print(round($percent / 0.95 ** ($levels - 1)))")
        python3 "$here/generate.py" "${1:-4096}" 2048 "$levels" "$pools" "$work/topology" >/dev/null
        old=$(mapping "$other" old)
        new=$(mapping "$glb" new)
        cmp "$work/old" "$work/new"
        by=$(ratio "$old" "$new")
        printf 'map, %d groups, paths of %d, %3d %% at the roots: %d and %d, ratio %s\n' "${1:-4096}" "$levels" "$percent" "$old" "$new" "$by"
    done
done

# instructions of a reply by a program, over a thousand questions of the feed
reply() {
    local sum count
    profile "$1" serve "$work/topology" --listen 127.0.0.1:0 <"$work/feed"
    sum=$(of '^answer_core::replying::reply')
    count=$(calls '^answer_core::replying::reply')
    echo $((sum / count))
}

for subnets in 0 1; do
    python3 "$here/generate.py" 500 2048 1 1000 "$work/topology" >/dev/null
    python3 "$here/asks.py" "$work/topology" 1000 "$subnets" >"$work/feed"
    old=$(reply "$other")
    new=$(reply "$glb")
    by=$(ratio "$old" "$new")
    printf 'reply, 2,000 prefixes, client subnets %d: %d and %d, ratio %s\n' "$subnets" "$old" "$new" "$by"
    python3 "$here/generate.py" --classes 1000 500 2048 1 1000 "$work/topology" >/dev/null
    new=$(reply "$glb")
    printf '    where each group has a class for the service: %d\n' "$new"
done
