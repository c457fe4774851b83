# What the scripts beside this one begin with: `here` is their folder, `top` the repository, `work` a folder
# that goes when they end, and `glb` the program: that of GLB, where it is given, and else proved and built here.
set -euo pipefail
# a command that fails within x=$(..) ends the script, too; within the words of another command its failure is lost
shopt -s inherit_errexit
here=$(cd "$(dirname "${BASH_SOURCE[0]}")" && pwd)
top=$(dirname "$here")
work=$(mktemp -d)
trap 'rm -rf "$work"' EXIT

glb=${GLB:-}
if [ -z "$glb" ]; then
    (cd "$top/crates/glb_program" && rt run -- check "$top/examples/flat.toml" "$top/examples/flat.map") >"$work/log" 2>&1
    glb=$top/crates/glb_program/out/glb_program
fi

# runs a program under callgrind: its profile is $work/profile, its output $work/out
profile() { valgrind --tool=callgrind --callgrind-out-file="$work/profile" "$@" >"$work/out" 2>>"$work/log"; }

# the size of a file in MB
megabytes() { echo $(($(stat -c %s "$1") >> 20)); }
