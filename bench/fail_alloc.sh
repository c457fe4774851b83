#!/bin/sh
# Refuses each allocation of the built program in turn, alone and with all behind it, and looks at how it ends: fail_alloc.py
# says which ends are allowed. GLB names the program. Words are handed on: commands, --state FILE, --alone.
#
#   bench/fail_alloc.sh                              all commands
#   bench/fail_alloc.sh serve --state /tmp/stands    serve alone; begun again, it goes on where it stood
set -eu
here=$(cd "$(dirname "$0")" && pwd)
work=$(mktemp -d)
trap 'rm -rf "$work"' EXIT
"${CC:-cc}" -O2 -Wall -Wextra -shared -fPIC -o "$work/fail_alloc.so" "$here/fail_alloc.c"
python3 "$here/fail_alloc.py" "$work/fail_alloc.so" "$@"
