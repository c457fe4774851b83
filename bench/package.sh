#!/usr/bin/env bash
# Installs the packages of tools/deb.sh in a Debian 12 of their own (no systemd runs there), upgrades them from another pair,
# removes and purges them, and looks at what is there and what is left. It needs root, debootstrap and, the first time, the network:
#
#     GLB=/usr/local/bin/glb bench/package.sh [FOLDER [OLD]]     FOLDER keeps that Debian for the next run; OLD is a glb_*.deb of
#                                                                before, to upgrade from
set -uo pipefail
top=$(cd "$(dirname "$0")/.." && pwd)
work=$(mktemp -d)
base=${1:-$work/base}
old=${2:-}
trap 'rm -rf "$work"' EXIT
passed=0
failed=0
ok() { if "${@:2}" >"$work/said" 2>&1; then passed=$((passed + 1)); else failed=$((failed + 1)) && echo "not so: $1: $(tail -n 3 "$work/said")"; fi; }
inside() { chroot "$work/box" env -i PATH=/usr/sbin:/usr/bin:/sbin:/bin LANG=C.UTF-8 DEBIAN_FRONTEND=noninteractive "$@"; }
# all files with their kinds and rights, and the users; but what apt, dpkg and Python write of themselves
listed() {
    (cd "$work/box" && find . -xdev ! -path './var/lib/dpkg/*' ! -path './var/log/*' ! -path './var/cache/*' ! -path './packages/*' ! -path ./run/adduser ! -name '__pycache__' ! -name '*.pyc' ! -name '*-' -printf '%p %y %m\n' | sort)
    cut -d: -f1 "$work/box/etc/passwd" "$work/box/etc/group" | sort
}
same() { diff <(echo "$1") <(echo "$2"); }

if [ ! -d "$base/usr" ]; then
    debootstrap --variant=minbase --include=python3,adduser bookworm "$base" >"$work/log" || exit 1
fi
cp -a "$base" "$work/box"
mkdir "$work/box/packages"
for version in 1.1 1.2; do DEBEMAIL=ops@cdn.example "$top/tools/deb.sh" "$version" "$work/box/packages" >/dev/null || exit 1; done
cp "$top/examples/tree.toml" "$top/examples/tree.map" "$work/box/packages"
mkdir -p "$work/box/var/lib/prometheus/node-exporter"
before=$(listed)
if [ -n "$old" ]; then
    cp "$old" "$work/box/packages/old.deb"
    ok 'the old one is installed' inside dpkg -i /packages/old.deb
fi

ok 'glb is installed, with what it needs alone' inside dpkg -i /packages/glb_1.1_amd64.deb
# a folder of the old one is its units' matter (StateDirectory=)
[ -n "$old" ] || ok 'its folder belongs to glb' inside sh -c 'test "$(stat -c %U:%G:%a /var/lib/glb)" = glb:glb:755'
ok 'its program maps' inside sh -c 'glb map /packages/tree.toml | cmp - /packages/tree.map'
for name in append follow fleet log roll; do ok "glb-$name runs as glb" inside su -s /bin/sh glb -c "glb-$name --version | grep -q '^glb-$name 1.1$'"; done
ok 'what it was built from' inside sh -c 'grep -q "^program $(sha256sum </usr/bin/glb | cut -d" " -f1)" /usr/share/doc/glb/build'
# of what glb-tools needs nothing is here
ok 'glb-tools is unpacked' inside dpkg -i --force-depends /packages/glb-tools_1.1_amd64.deb
ok 'glb-why runs' inside glb-why /packages/tree.toml /packages/tree.map
ok 'and by its old name' inside /usr/lib/glb/why.py /packages/tree.toml /packages/tree.map
ok 'glb-exporter says what it needs' inside sh -c 'glb-exporter --fleet 2>&1 | grep -q python3-prometheus-client'
ok 'both are upgraded' inside dpkg -i --force-depends /packages/glb_1.2_amd64.deb /packages/glb-tools_1.2_amd64.deb
ok 'glb-why is the new one' inside sh -c 'glb-why --version | grep -q " 1.2$"'

# what servers leave, and units that were enabled
touch "$work/box/var/lib/glb/changes.log" "$work/box/etc/glb/topology.toml"
touch "$work/box/var/lib/prometheus/node-exporter/"{glb.prom,glb-v4.prom,other.prom}
mkdir -p "$work/box/etc/systemd/system/glb.service.wants" "$work/box/etc/systemd/system/multi-user.target.wants"
ln -s /usr/lib/systemd/system/glb-feed.service "$work/box/etc/systemd/system/glb.service.wants/glb-feed.service"
ln -s /usr/lib/systemd/system/glb-metrics.service "$work/box/etc/systemd/system/multi-user.target.wants/glb-metrics.service"
ok 'glb-tools is removed' inside dpkg --remove glb-tools
ok 'no metrics are left' sh -c "! ls $work/box/var/lib/prometheus/node-exporter | grep glb"
ok 'other metrics are' test -e "$work/box/var/lib/prometheus/node-exporter/other.prom"
ok 'glb is removed' inside dpkg --remove glb
ok 'its settings and its log are left' test -e "$work/box/etc/glb/topology.toml" -a -e "$work/box/var/lib/glb/changes.log" -a -e "$work/box/etc/default/glb"
ok 'both are purged' inside dpkg --purge glb glb-tools
rm "$work/box/var/lib/prometheus/node-exporter/other.prom"
rmdir "$work/box/etc/systemd/system/multi-user.target.wants" 2>/dev/null
ok 'nothing is left' same "$before" "$(listed)"
echo "$passed passed, $failed failed"
[ "$failed" = 0 ]
