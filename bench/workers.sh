#!/usr/bin/env bash
# Queries a second, and processor time a query, of `glb serve` with one, two and three workers, beside another build of it
# (GLB_OTHER, if given), gdnsd and Knot, each pinned to as many processors as it has workers. Needs four processors, and
#
#     apt-get update
#     apt-get install gcc libc6-dev gdnsd knot knot-module-geoip
#
#     bench/workers.sh [GROUPS [SECONDS [ROUNDS]]]       1,024 groups, 10 seconds a row and three rounds if they are not given
#     QUERIES=plain bench/workers.sh                      queries without client subnets
. "$(dirname "$0")/set-up.sh"
"${CC:-cc}" -O2 -Wall -Wextra -pthread -o "$work/flood" "$here/flood.c"
GLB=$glb python3 "$here/workers.py" "$work" "$@"
