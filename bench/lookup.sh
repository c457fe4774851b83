#!/usr/bin/env bash
# The lookup and the reply: instructions (callgrind) of the building of a lookup and of a reply with and without a client
# subnet, among about 2,000 and 262,144 prefixes, and user time of a question of the feed. Needs valgrind.
#
#   bench/lookup.sh
#
# A reply is what `ask` makes in `glb serve`: the reply's own calls are counted apart from the line of the feed and the
# text. The user time is of whole lines: that of a feed of 400,000 less that of one of 200,000, by 200,000.
source "$(dirname "$0")/set-up.sh"

user() {
    python3 - "$glb" "$work" "$1" <<'PROGRAM'
import os, subprocess, sys
glb, work, feed = sys.argv[1:]
before = os.times().children_user
with open(feed) as lines, open(os.devnull, "w") as nothing:
    subprocess.run([glb, "serve", work + "/topology", "--listen", "127.0.0.1:0"], stdin=lines, stdout=nothing, stderr=nothing, check=True)
print(os.times().children_user - before)
PROGRAM
}

for groups in 500 65536; do
    python3 "$here/generate.py" "$groups" 2048 1 1000 "$work/topology" >/dev/null
    for subnets in 0 1; do
        python3 "$here/asks.py" "$work/topology" 1000 "$subnets" >"$work/feed"
        profile "$glb" serve "$work/topology" --listen 127.0.0.1:0 <"$work/feed"
        printf '%d groups of four prefixes, client subnets %d:\n' "$groups" "$subnets"
        python3 "$here/calls.py" "$work/profile" '^prefix_lookup::' '^answer_core::' | head -12
        for count in 200000 400000; do python3 "$here/asks.py" "$work/topology" "$count" "$subnets" >"$work/feed$count"; done
        less=$(user "$work/feed200000")
        more=$(user "$work/feed400000")
        printf '    user time of a line: %s µs\n' "$(python3 -c "print(round(($more - $less) * 5, 2))")"
    done
done
