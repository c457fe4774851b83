#!/usr/bin/env bash
# Runs the commands of docs/OPERATING.md as they stand, under systemd in a container of Debian 12, and looks at what came of
# each (operating.py). It needs root, the network for the container's packages, and some minutes:
#
#     apt-get install systemd-container debootstrap
#     GLB=/usr/local/bin/glb bench/operating.sh [FOLDER]       FOLDER keeps the container's first state for the next run
#
# GLB names the built program, as a whole path.
set -euo pipefail
top=$(cd "$(dirname "$0")/.." && pwd)
glb=${GLB:-$top/crates/glb_program/out/glb_program}
work=$(mktemp -d)
base=${1:-$work/base}
box=$work/box
leader() { pgrep -P "$(cat "$work/nspawn")" | head -n 1; }
inside() { nsenter -t "$(leader)" -m -u -i -n -p env -i PATH=/usr/local/sbin:/usr/local/bin:/usr/sbin:/usr/bin:/sbin:/bin HOME=/root LANG=C.UTF-8 "$@"; }
clean() {
    if [ -e "$work/nspawn" ]; then
        inside systemctl poweroff 2>/dev/null || true
        sleep 3
        kill -9 "$(leader)" 2>/dev/null || true
    fi
    if [ ! -d "$base/root" ]; then tail -n 20 "$work/log" >&2 || true; fi
    rm -rf "$work"
}
trap clean EXIT

if [ ! -d "$base/root" ]; then
    # whoever is cut off here leaves nothing that the next run takes for a whole one; packages know no folder of this machine's
    new=$base.new
    unset TMPDIR
    rm -rf "$new"
    debootstrap --variant=minbase --include=systemd,systemd-sysv,dbus,iproute2,bind9-dnsutils,python3,adduser,procps,nftables bookworm "$new" >"$work/log"
    # no service starts while it is installed
    printf '#!/bin/sh\nexit 101\n' >"$new/usr/sbin/policy-rc.d"
    chmod 755 "$new/usr/sbin/policy-rc.d"
    cp /etc/resolv.conf "$new/etc/resolv.conf"
    chroot "$new" env DEBIAN_FRONTEND=noninteractive apt-get install -y --no-install-recommends binutils curl prometheus-node-exporter python3-prometheus-client python3-requests python3-dnspython python3-flask python3-jinja2 python3-numpy python3-waitress etcd-server etcd-client strace >>"$work/log" 2>&1
    chroot "$new" systemctl disable etcd prometheus-node-exporter >>"$work/log" 2>&1
    # for what measures; its services are started by the document alone
    chroot "$new" env DEBIAN_FRONTEND=noninteractive apt-get install -y --no-install-recommends python3-yaml prometheus prometheus-blackbox-exporter nginx mtail >>"$work/log" 2>&1
    chroot "$new" systemctl disable prometheus prometheus-blackbox-exporter nginx mtail >>"$work/log" 2>&1
    rm "$new/usr/sbin/policy-rc.d"
    printf '127.0.0.1 localhost\n::1 localhost\n' >"$new/etc/hosts"
    mv "$new" "$base"
fi
cp -a "$base" "$box"
mkdir -p "$box/root/repository/crates/glb_program/out"
cp -a "$top"/*.md "$top"/{bench,docs,examples,tools} "$box/root/repository/"
install -m 755 "$glb" "$box/root/repository/crates/glb_program/out/glb_program"
systemd-nspawn -D "$box" --boot --register=no --keep-unit --private-network --console=pipe >"$work/console" 2>&1 </dev/null &
echo $! >"$work/nspawn"
for _ in $(seq 60); do
    sleep 0.5
    case $(inside systemctl is-system-running 2>/dev/null) in running | degraded) break ;; esac
done
# the addresses that the document has, and those of three members of etcd, of which one is there
for address in 192.0.2.53/32 192.0.2.1/32 192.0.2.2/32 192.0.2.3/32; do inside ip addr add "$address" dev lo; done
inside ip addr add 2001:db8::53/128 dev lo nodad
inside bash -c 'cd /root/repository && exec python3 bench/operating.py'
