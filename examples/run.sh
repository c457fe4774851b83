#!/usr/bin/env bash
# Runs the real program on the example files, and compares what it writes and its status. GLB names the program, as a
# whole path; it is proved and built first where GLB is not set. It ends within some two minutes, whatever the program does.
set -uo pipefail
here=$(cd "$(dirname "$0")" && pwd)
cd "$here"
glb=${GLB:-}
if [ -n "$glb" ] && [ "${glb#/}" = "$glb" ]; then echo "GLB=$glb is no whole path" && exit 1; fi
if [ -n "$glb" ] && ! { [ -f "$glb" ] && [ -x "$glb" ]; }; then echo "GLB=$glb: there is no such program" && exit 1; fi
if [ -z "$glb" ]; then
    if ! said=$(cd ../crates/glb_program && rt run -- check ../../examples/flat.toml ../../examples/flat.map 2>&1); then
        echo "$said"
        exit 1
    fi
    glb=$here/../crates/glb_program/out/glb_program
fi
# no command of the program takes as long
program=$glb
glb() { timeout -k 5 60 "$program" "$@"; }
passed=0
failed=0

# expect STATUS TEXT WORD..: what `glb WORD..` is to answer
expect() {
    local status=$1 text=$2 written answered
    shift 2
    written=$(glb "$@")
    answered=$?
    if [ "$answered" = "$status" ] && [ "$written" = "$text" ]; then
        passed=$((passed + 1))
    else
        failed=$((failed + 1))
        echo "glb $*: status $answered, '$written'; wanted $status, '$text'"
    fi
}

usage='usage: glb check, answer, map, repair, serve or large'
expect 0 'good' check flat.toml flat.map
expect 0 'good' check tree.toml tree.map
expect 0 "$(cat tree.map)" map tree.toml
expect 0 $'place 0 10\nplace 1 5\nunplaced 1' places tree.toml
expect 1 "$usage" places
expect 3 '' places nowhere.toml
# limits: at most five units of g1 at A. In the first version of a map's text, as in flat.map, they have no line
expect 0 "$(cat limits.map)" map limits.toml
expect 0 'good' check limits.toml limits.map
expect 7 'over limit g1 A 6' check limits.toml limits-bad.map
changed=$(mktemp)
sed 's/map 2/map 1/' limits.map >"$changed"
expect 2 'refused map bad line at line 6' check limits.toml "$changed"
sed 's/\[5, 10\]/[5]/' limits.toml >"$changed"
expect 2 'refused topology 15 list shape at group 0 limits' map "$changed"
# a class of g2 for www: its clients go to B, those of g1 to A; a second one of the service in other letters is refused
www=123401000001000000000000037777770363646e076578616d706c650000010001
records=123485000001000100000000037777770363646e076578616d706c650000010001c00c00010001000000140004
expect 0 "$(cat classes.map)" map classes.toml
expect 0 "answer ${records}c0000202" answer classes.toml classes.map 198.51.100.7 $www
expect 0 "answer ${records}c0000201" answer classes.toml classes.map 203.0.113.9 $www
{ cat classes.toml && sed -n '/^\[\[class/,$p' classes.toml | sed 's/g2www/other/; s/"www"/"WWW"/'; } >"$changed"
expect 2 'refused topology 6 duplicate name at class 1 service' map "$changed"
rm "$changed"
asked=0
while read -r sender octets reply; do
    asked=$((asked + 1))
    expect 0 "answer $reply" answer tree.toml tree.map "$sender" "$octets"
done < <(grep -v '^#' queries.txt)
# a list that was emptied would ask nothing
if [ "$asked" -ge 18 ]; then passed=$((passed + 1)); else failed=$((failed + 1)) && echo "queries.txt has $asked queries; wanted at least 18"; fi
expect 0 "$(cat tree-repaired.map)" repair tree.toml tree.map tree.changes
expect 0 "$(cat tree.map)" repair tree.toml tree.map /dev/null
expect 1 "$usage" repair tree.toml tree.map
expect 2 'refused changes unknown word at line 1' repair tree.toml tree.map tree.map
expect 2 'refused map unknown name at line 2' repair tree.toml flat.map tree.changes
expect 3 '' repair tree.toml tree.map nowhere.changes
expect 7 'blocking g2 B' repair tree.toml tree-bad.map tree.changes
query=1234
expect 7 'blocking g2 B' answer tree.toml tree-bad.map 198.51.100.7 $query
expect 1 "$usage" answer tree.toml tree.map 198.51.100 $query
expect 1 "$usage" answer tree.toml tree.map 198.51.100.7 123
expect 1 "$usage"
expect 1 "$usage" check flat.toml
expect 1 "$usage" check --quick flat.map
expect 1 "$usage" guess flat.toml flat.map
expect 1 "$usage" map
expect 1 "$usage" map flat.toml flat.map
expect 1 "$usage" check $'\xff' flat.map
expect 1 "$usage" large 0
expect 1 "$usage" large 16385
expect 1 "$usage" large 064
expect 1 "$usage" serve tree.toml --listen x
expect 1 "$usage" serve tree.toml --listen 127.0.0.1:0 --workers 17
expect 2 'refused topology 2 missing key at zone ttl' check refused.toml flat.map
expect 2 'refused topology 1 not toml' check flat.map flat.map
expect 2 'refused topology 2 missing key at zone ttl' map refused.toml
expect 2 'refused map bad line at line 1' check flat.toml flat.toml
expect 2 'refused map unknown name at line 2' check tree.toml flat.map
expect 3 '' check nowhere.toml flat.map
expect 3 '' check flat.toml nowhere.map
expect 3 '' map nowhere.toml
expect 7 'blocking gamma zurich' check flat.toml flat-bad.map
expect 7 'blocking g2 B' check tree.toml tree-bad.map
# a large world: each line of its summary
expect 0 "$(cat large-64.txt)" large 64
# a server whose feed changes a demand, asks, and stops; its maps are on standard error
maps=$(mktemp)
said=$(printf 'demand g2 4\ncommit\nshow\nstop\n' | glb serve tree.toml --listen 127.0.0.1:0 --workers 2 2>"$maps")
if [ $? = 0 ] && [ "$said" = $'published 1\nshow 1 placed 12 unplaced 0 full 1' ] && [ "$(head -7 "$maps")" = "$(cat tree.map)" ]; then passed=$((passed + 1)); else failed=$((failed + 1)) && echo "serve: '$said'"; fi
rm "$maps"

# fed STATUS TEXT INPUT WORD..: what a server with these words is to say over that standard input
fed() {
    local status=$1 text=$2 input=$3 written answered
    shift 3
    written=$(printf "$input" | glb serve tree.toml --listen 127.0.0.1:0 "$@" 2>/dev/null)
    answered=$?
    if [ "$answered" = "$status" ] && [ "$written" = "$text" ]; then
        passed=$((passed + 1))
    else
        failed=$((failed + 1))
        echo "glb serve .. $*: status $answered, '$written'; wanted $status, '$text'"
    fi
}

# further feeds: one alone is feed 2; a folder opens, and cannot be read
folder=$(mktemp -d)
printf 'demand g2 4\ncommit\nshow\n' >"$folder/demand"
fed 0 $'2 published 1\n2 show 1 placed 12 unplaced 0 full 1' '' --feed2 "$folder/demand"
fed 0 $'2 published 1\n2 show 1 placed 12 unplaced 0 full 1' '' --feed4 "$folder/demand"
fed 0 $'1 refused 1 unknown word\n1 refused commit lines 1' 'guess\ncommit\nstop\ncommit\n' --feed3 /dev/null --workers 2
fed 3 '' 'commit\n' --feed2 "$folder/nowhere"
fed 3 '1 published 1' 'demand g1 7\ncommit\n' --feed3 "$folder"
fed 1 "$usage" '' --feed2 "$folder/demand" --feed2 "$folder/demand"
fed 1 "$usage" '' --feed5 "$folder/demand"
# two feeds in one order or the other
said=$(printf 'demand g1 7\ncommit\n' | glb serve tree.toml --listen 127.0.0.1:0 --feed2 "$folder/demand" 2>/dev/null | grep published)
if [ "$said" = $'1 published 1\n2 published 2' ] || [ "$said" = $'2 published 1\n1 published 2' ]; then passed=$((passed + 1)); else failed=$((failed + 1)) && echo "two feeds: '$said'"; fi
# a pipe: nobody writes when it is opened, writers come and go, and `stop` ends it
mkfifo "$folder/pipe"
glb serve tree.toml --listen 127.0.0.1:0 --feed2 "$folder/pipe" </dev/null >"$folder/said" 2>/dev/null &
timeout 20 bash -c 'printf "demand g1 7\ncommit\n" >"$0"' "$folder/pipe"
sleep 0.2
timeout 20 bash -c 'printf "show\nstop\n" >"$0"' "$folder/pipe"
wait $!
if [ $? = 0 ] && [ "$(cat "$folder/said")" = $'2 published 1\n2 show 1 placed 15 unplaced 0 full 2' ]; then passed=$((passed + 1)); else failed=$((failed + 1)) && echo "a pipe: '$(cat "$folder/said")'"; fi
rm -r "$folder"
# a full device in the place of the output
glb check flat.toml flat.map >/dev/full
if [ $? = 4 ]; then passed=$((passed + 1)); else failed=$((failed + 1)) && echo 'a full device: wanted 4'; fi
# a standard stream that is closed: the socket would have its descriptor
glb serve tree.toml --listen 127.0.0.1:0 <&- >/dev/null 2>/dev/null
if [ $? = 5 ]; then passed=$((passed + 1)); else failed=$((failed + 1)) && echo 'no standard input: wanted 5'; fi
glb serve tree.toml --listen 127.0.0.1:0 </dev/null >&- 2>/dev/null
if [ $? = 5 ]; then passed=$((passed + 1)); else failed=$((failed + 1)) && echo 'no standard output: wanted 5'; fi
glb serve tree.toml --listen 127.0.0.1:0 </dev/null >/dev/null 2>&-
if [ $? = 5 ]; then passed=$((passed + 1)); else failed=$((failed + 1)) && echo 'no standard error: wanted 5'; fi
# with sockets of its own, and with some that it is handed in
if said=$(timeout -k 5 300 python3 handed_in.py "$program" 2>&1); then passed=$((passed + 1)); else failed=$((failed + 1)) && echo "$said"; fi
# what is written of a map is good for the same topology
map=$(mktemp)
for topology in flat.toml tree.toml; do
    glb map "$topology" >"$map"
    expect 0 good check "$topology" "$map"
done
rm "$map"
# and so would a file of examples that is not there any more
wanted=84
if [ "$((passed + failed))" -lt "$wanted" ]; then echo "only $((passed + failed)) comparisons were made; wanted $wanted" && failed=$((failed + 1)); fi
echo "$passed passed, $failed failed"
[ "$failed" = 0 ]
