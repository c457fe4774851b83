#!/usr/bin/env bash
# Queries a second, and processor time a query, of `glb serve` beside gdnsd and Knot over one world; the time from the
# start to the first answer; syscalls; and what is lost while maps are published. Needs
#
#     apt-get update
#     apt-get install dnsperf gdnsd knot knot-module-geoip strace
#
#     bench/serve.sh [GROUPS [SECONDS]]       1,024 groups and 10 seconds a row if they are not given
. "$(dirname "$0")/set-up.sh"
GLB=$glb python3 "$here/serve.py" "$work" "$@"
