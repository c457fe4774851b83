#!/usr/bin/env bash
# Compares the tools with the program, which GLB names as a whole path: the map that a server has after a log is good for the
# numbers that glb-numbers writes, and glb-why says of it what the program does. It looks into the packages that deb.sh makes,
# too. What needs no program is tried by tests/run.py.
set -uo pipefail
cd "$(dirname "$0")/.."
work=$(mktemp -d)
trap 'rm -rf "$work"' EXIT
passed=0
failed=0

# expect STATUS TEXT COMMAND..: what the command is to write, and its status
expect() {
    local status=$1 text=$2 written answered
    shift 2
    written=$("$@" 2>"$work/said")
    answered=$?
    if [ "$answered" = "$status" ] && [ "$written" = "$text" ]; then
        passed=$((passed + 1))
    else
        failed=$((failed + 1))
        echo "$*: status $answered, '$written' ($(cat "$work/said")); wanted $status, '$text'"
    fi
}

# the topology of the tests: tables in one line and in several, a limit, a class, remarks, and quoted keys
(cd tools/tests && PYTHONPATH=.. python3 -Bc 'import samples; print(samples.SMALL, end="")') >"$work/small.toml"

# beside the program
if [ -n "${GLB:-}" ]; then
    printf 'demand g2 4\ncommit\ndemand g1 x\ncommit\ncapacity A 9\ncapacity B 3\ncommit\nshow\ndemand g1 1\n' >"$work/log"
    "$GLB" serve examples/tree.toml --listen 127.0.0.1:0 <"$work/log" >"$work/out" 2>"$work/maps"
    tac "$work/maps" | sed '/^glb map/q' | tac >"$work/now.map"
    tools/glb-numbers examples/tree.toml "$work/log" >"$work/now.toml" 2>/dev/null
    expect 0 good "$GLB" check "$work/now.toml" "$work/now.map"
    expect 0 "$(grep -c '^published' "$work/out")" bash -c "tools/glb-numbers --json examples/tree.toml $work/log | python3 -c 'import json, sys; print(json.load(sys.stdin)[\"published\"])'"
    expect 0 "$(tail -n 1 "$work/out")" bash -c "tools/glb-why --json $work/now.toml $work/now.map | python3 -c 'import json, sys; sums = json.load(sys.stdin)[\"sums\"]; print(\"show 2 placed\", sums[\"placed\"], \"unplaced\", sums[\"nowhere\"], \"full\", sums[\"full_nodes\"])'"
    "$GLB" map "$work/small.toml" >"$work/made.map"
    expect 0 'glb map 2' head -1 "$work/made.map"
    expect 0 good "$GLB" check "$work/small.toml" "$work/made.map"
    # a program beside the servers
    expect 0 '1 passed, 0 failed' python3 -B tools/tests/run.py loads.Real
else
    skipped=", without the program"
fi
# a package, where Debian's tools are
if [ -n "${GLB:-}" ] && command -v dpkg-deb >/dev/null && command -v strip >/dev/null; then
    DEBEMAIL=ops@cdn.example tools/deb.sh 1.0 "$work" >/dev/null
    for package in glb_1.0_amd64 glb-tools_1.0_amd64; do
        expect 0 "${package%%_*} 1.0 Whoever built it <ops@cdn.example>" dpkg-deb -W --showformat='${Package} ${Version} ${Maintainer}' "$work/$package.deb"
        dpkg-deb -x "$work/$package.deb" "$work/${package%%_*}"
    done
    units() { find "$@" -name '*.service' -o -name '*.timer' | sed 's,.*/,,' | sort; }
    expect 0 "$(units examples)" units "$work/glb" "$work/glb-tools"
    expect 0 "$(cat examples/tree.map)" "$work/glb/usr/bin/glb" map examples/tree.toml
    expect 1 '' grep -rl /usr/local "$work"/glb*/usr/lib/systemd "$work"/glb*/etc
    # what a server needs runs without the other package, and without what that one needs
    for command in $(find "$work/glb/usr/bin" -type l); do expect 0 "$(basename "$command") 1.0" python3 -BSE "$command" --version; done
    # each command of a package has a manual page, and one of this repository a completion
    for package in glb glb-tools; do
        for command in $(ls "$work/$package/usr/bin"); do
            expect 0 '' test -s "$work/$package/usr/share/man/man1/$command.1.gz"
            if [ -e "tools/completions/$command" ]; then expect 0 '' cmp "tools/completions/$command" "$work/$package/usr/share/bash-completion/completions/$command"; fi
        done
    done
    # documents of the package link to one another, and but for that to the figures of the repository alone
    expect 0 'bench/README.md' bash -c "cd $work/glb/usr/share/doc/glb && grep -roE '\]\([^)#]+' --include='*.md' . | grep -v '(https\?:' | while IFS=: read -r file link; do target=\${link#*(} && [ -e \"\${file%/*}/\$target\" ] || echo \"\$target\" | sed 's,^\(\.\./\)*,,'; done | sort -u"
    # what a purge does, with commands that only say what they are asked: the user goes, and what it had
    mkdir "$work/said_by"
    for command in rm rmdir deluser systemctl; do printf '#!/bin/sh\necho "%s $*" >>"$0.asked"\n' "$command" >"$work/said_by/$command" && chmod 755 "$work/said_by/$command"; done
    dpkg-deb -e "$work/glb_1.0_amd64.deb" "$work/control"
    PATH=$work/said_by:$PATH "$work/control/postrm" purge
    expect 0 'deluser --system --quiet glb' cat "$work/said_by/deluser.asked"
    expect 0 '1' grep -c '^rm -rf /etc/glb /var/lib/glb$' "$work/said_by/rm.asked"
    rm -f "$work/said_by"/*.asked
    PATH=$work/said_by:$PATH "$work/control/postrm" remove
    expect 1 '' grep -l 'deluser\|/etc/glb' -r "$work/said_by" --include='*.asked'
    # no file is in both, and none of the tools in neither
    files() { (cd "$1" && find usr/bin usr/share/glb ! -type d | sort); }
    expect 0 '' comm -12 <(files "$work/glb") <(files "$work/glb-tools")
    expect 0 "$(cd tools && find glb-* *.py glb_tools -type f -name 'glb-*' -o -type f -name '*.py' | sort)" bash -c "cd $work && find glb/usr/share/glb glb-tools/usr/share/glb -type f | sed 's,.*/share/glb/,,' | sort"
else
    skipped="${skipped:-}, without the package"
fi
echo "$passed passed, $failed failed${skipped:-}"
[ "$failed" = 0 ]
