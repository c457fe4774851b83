#!/usr/bin/env bash
# Three servers on three hosts of their own (network namespaces) that follow one log of batches in etcd, and what may
# happen to them. It compares what came, and ends by itself within some minutes.
#
#     apt-get install etcd-server etcd-client iproute2 dnsutils
#     sudo GLB=/usr/local/bin/glb examples/fleet.sh               the parts of the list `usual` below
#     sudo GLB=/usr/local/bin/glb examples/fleet.sh behind base   some parts alone, those of `others` among them
#
# GLB names the program, as a whole path, and GLB_OTHER another build of it, for the part `build`; the parts `memory`
# and `clock` want a C compiler, `bird` the package bird2. Nothing is left behind but what it prints.
set -uo pipefail
usual="writers answers server follower member drip expected cut_off roll skip adopt restore hand dropped cut_log hang hung sums"
others="behind full build memory clock bird"
for part in "$@"; do case " $usual $others " in *" $part "*) ;; *) echo "no such part: $part" && exit 1 ;; esac; done
if ip netns list | grep -q glbfleet; then echo 'another run is there, or was cut off: ip netns del glbfleet0, ..1, ..2, ..3' && exit 1; fi
here=$(cd "$(dirname "$0")/.." && pwd)
glb=${GLB:-$here/crates/glb_program/out/glb_program}
work=$(mktemp -d)
hosts="1 2 3"
net=10.77.7
passed=0
failed=0
appends=0

# a command on a host; and in the place of the shell that runs it, so that its number is the command's own
on() { local host=$1; shift; ip netns exec "glbfleet$host" "$@"; }
be_on() { local host=$1; shift; exec ip netns exec "glbfleet$host" "$@"; }
ok() { if "${@:2}"; then passed=$((passed + 1)); else failed=$((failed + 1)) && echo "not so: $1"; fi; }
now() { date +%s%N; }
# how many milliseconds since a time of `now`
since() { echo $((($(now) - $1) / 1000000)); }

clean() {
    touch "$work/over"
    for host in $hosts; do ip netns pids "glbfleet$host" 2>/dev/null | xargs -r kill -9 2>/dev/null; done
    wait 2>/dev/null
    for host in 0 $hosts; do ip netns del "glbfleet$host" 2>/dev/null; done
    rm -rf "$work"
}
trap 'clean 2>/dev/null' EXIT

# The hosts, on one bridge.
ip netns add glbfleet0
ip -n glbfleet0 link add bridge type bridge
ip -n glbfleet0 link set bridge up
for host in $hosts; do
    ip netns add "glbfleet$host"
    ip link add "port$host" netns glbfleet0 type veth peer name eth0 netns "glbfleet$host"
    ip -n glbfleet0 link set "port$host" master bridge up
    ip -n "glbfleet$host" addr add "$net.$host/24" dev eth0
    ip -n "glbfleet$host" link set eth0 up
    ip -n "glbfleet$host" link set lo up
done

# A member of etcd on each; each program of a host asks its own member first. Of a quota of 0 octets etcd makes its own, 2 GiB.
quota=0
members=m1=http://$net.1:2380,m2=http://$net.2:2380,m3=http://$net.3:2380
start_member() {
    be_on "$1" etcd --name "m$1" --data-dir "$work/etcd$1" --listen-peer-urls "http://$net.$1:2380" --initial-advertise-peer-urls "http://$net.$1:2380" \
        --listen-client-urls "http://$net.$1:2379" --advertise-client-urls "http://$net.$1:2379" --initial-cluster "$members" --quota-backend-bytes "$quota" >>"$work/etcd$1.log" 2>&1 &
    echo $! >"$work/etcd$1.pid"
    # its end by a signal is no news
    disown $!
}
etcd_of() { local order; case $1 in 1) order="1 2 3" ;; 2) order="2 3 1" ;; 3) order="3 1 2" ;; esac; for host in $order; do printf 'http://%s.%s:2379,' "$net" "$host"; done | sed 's/,$//'; }
tool() { local host=$1; shift; on "$host" env GLB_ETCD="$(etcd_of "$host")" "$here/tools/$@"; }
# the host whose member leads the others
leader() {
    for host in $hosts; do
        on "$host" env ETCDCTL_API=3 etcdctl --endpoints "http://$net.$host:2379" endpoint status -w fields >"$work/status"
        [ "$(sed -n 's/^"MemberID" : //p' "$work/status")" = "$(sed -n 's/^"Leader" : //p' "$work/status")" ] && echo "$host" && return
    done
}

# A server and its follower on each, begun again where they end, as systemd does (examples/glb-fleet@.service). A file
# `held` beside them keeps them from it. Each host has a topology of its own, which is the same.
# What stands in the environment of the next server there, and of its next follower (in a file, as the loop below is another shell).
preload_of() { echo "${@:2}" >"$work/preload$1"; }
program_of() { if [ -e "$work/other$1" ]; then echo "$GLB_OTHER"; else echo "$glb"; fi; }
serve() {
    local host=$1 place=$work/host$1
    while [ ! -e "$work/over" ]; do
        if [ -e "$work/held$host" ]; then sleep 0.1 && continue; fi
        (follow_on "$host" --prepare) || { sleep 0.3 && continue; }
        be_on "$host" env $(cat "$work/preload$host" 2>/dev/null) "$(program_of "$host")" serve "$place/topology.toml" --listen "$net.$host:53" --workers 2 0<>"$place/feed" 1<>"$place/said" 2<>"$place/maps" &
        echo $! >"$place/server"
        local server=$!
        while kill -0 "$server" 2>/dev/null && [ ! -e "$work/over" ]; do
            follow_on "$host" &
            echo $! >"$place/follower"
            wait -n "$server" $! 2>/dev/null
            # whatever ends the follower, queries are kept out
            eval "$(hook "$host" out)"
            sleep 0.2
            if ! kill -0 "$server" 2>/dev/null; then kill "$(cat "$place/follower")" 2>/dev/null; fi
        done
    done
}
# What lets queries in to a host and keeps them out, as a command: a note, and a route where BIRD runs there.
hook() {
    local verb=enable
    [ "$2" = out ] && verb=disable
    [ -e "$work/bird$1.ctl" ] && printf 'birdc -s %s %s anycast4 >/dev/null && ' "$work/bird$1.ctl" "$verb"
    echo "echo $2 >>$work/queries$1"
}
# The follower of a host, with hooks that note whether queries are let in.
follow_on() {
    local host=$1; shift
    be_on "$host" env GLB_ETCD="$(etcd_of "$host")" $(cat "$work/clock$host" 2>/dev/null) "$here/tools/glb-follow" --name "host$host" --run "$work/host$host" --bases "$work/bases$host" --program "$(program_of "$host")" \
        --ready "$(hook "$host" in)" --unready "$(hook "$host" out)" "$@" >>"$work/follow$host.log" 2>&1
}
lets_in() { [ "$(tail -n 1 "$work/queries$1")" = in ]; }

# One append by the host, whose number is said.
append() { local host=$1; shift; appends=$((appends + 1)); printf 'demand g2 %s\n' "$((appends % 9 + 1))" | tool "$host" glb-append "$@"; }
# Appends a batch, and waits until each server is there, and nothing else is told of than batches that were dropped.
agreed() {
    append 1 >/dev/null
    all_there "${1:-300}"
}
all_there() {
    for _ in $(seq "${1:-300}"); do
        tool 1 glb-fleet >"$work/fleet" 2>/dev/null
        [ "$(grep -c ': there' "$work/fleet")" = 3 ] && ! grep '^!' "$work/fleet" | grep -qv 'was dropped whole\|a member of etcd' && return 0
        sleep 0.1
    done
    cat "$work/fleet"
    return 1
}
# A roll from host 1, what it says into a file.
rolled() { tool 1 glb-roll --program "$glb" "$@" >"$work/roll" 2>&1; }
status_of() { tool 1 glb-fleet >"$work/fleet"; echo $?; }
# The last number of the log, and one server's line.
last() { tool 1 glb-log --last 1 | cut -d' ' -f1; }
line_of() { tool 1 glb-fleet | grep "^host$1: "; }
until_line() { for _ in $(seq 200); do line_of "$1" >"$work/line"; grep -q "$2" "$work/line" && return 0; sleep 0.1; done; cat "$work/line"; return 1; }
# One server's answer to its own host: an address of one of the two pools.
answered() { on "$1" dig +short +tries=2 +time=1 "@$net.$1" www.cdn.example A | grep -qx '192.0.2.[12]'; }
# How many octets wait in a server's feed.
waits() { python3 -c 'import array, fcntl, os, sys, termios; n = array.array("i", [0]); fcntl.ioctl(os.open(sys.argv[1], os.O_RDWR), termios.FIONREAD, n); print(n[0])' "$work/host$1/feed"; }
pid() { cat "$work/host$1/$2"; }
writer() { for i in $(seq "$2" "$3"); do printf 'demand g1 %s\ncapacity A %s\n' "$i" "$((i + 1))" | tool "$1" glb-append >>"$work/written" || echo lost >>"$work/lost"; done; }
# Writers on hosts 1, 2, 3, .. at once, so many appends each: each has its number, and no number is left out.
write() {
    local first writers=()
    first=$(last)
    rm -f "$work/written" "$work/lost"
    for ((i = 0; i < $1; i++)); do
        writer $((i % 3 + 1)) 1 "$2" &
        writers+=($!)
    done
    "${@:3}"
    wait "${writers[@]}"
    ok 'no append is lost' [ ! -e "$work/lost" ]
    ok 'each has a number of its own' [ "$(sort -n "$work/written" | uniq | wc -l)" = $(($1 * $2)) ]
    ok 'and no number is left out' [ "$(last)" = $((first + $1 * $2)) ]
}

# The parts.

# Two writers at once, and from an append until each server says that it has published it.
writers() {
    local begun
    begun=$(now)
    write 2 30 true
    echo "60 appends by two writers, each a process of its own: $(since "$begun") ms"
    ok 'all agree' agreed
    for _ in 1 2 3; do
        begun=$(now)
        ok 'one more' agreed
        echo "from before an append until all three were seen to have published it: $(since "$begun") ms"
    done
    # the same without the starts of Python: by one process
    on 1 python3 - "$here" "$(etcd_of 1)" <<'PYTHON'
import sys, time, uuid

sys.path.append(sys.argv[1] + "/tools")
from glb_tools.etcd import Etcd
from glb_tools.log import Log, Signed

log = Log(Etcd(sys.argv[2].split(",")), "glb")


def append(i):
    return log.append(uuid.uuid4().hex, Signed("fleet.sh"), f"demand g1 {i % 9 + 1}\n", lambda names: None)


def wait_until_published(number):
    while min(state["entry"] for state in log.look().states.values()) < number:
        time.sleep(0.001)


begun = time.monotonic()
number = [append(i) for i in range(100)][-1]
print(f"100 appends by one process: {time.monotonic() - begun:.2f} s")
wait_until_published(number)
print(f"until all three had published them: {time.monotonic() - begun:.2f} s")
appended, published = [], []
for i in range(30):
    begun = time.monotonic()
    number = append(i)
    appended.append(time.monotonic() - begun)
    wait_until_published(number)
    published.append(time.monotonic() - begun)
    time.sleep(0.05)
for name, times in (("its number", sorted(appended)), ("all three had published it", sorted(published))):
    print(f"30 single appends, from the call until {name}: {times[0] * 1000:.1f} to {times[-1] * 1000:.1f} ms, half of them below {times[15] * 1000:.1f}")
PYTHON
    ok 'all agree on these' agreed
}

answers() { for host in $hosts; do ok "host$host answers" answered "$host"; done; }

# A server is killed: it begins anew, and reads the log from its start.
server() {
    local old
    old=$(pid 2 server)
    kill -9 "$old"
    ok 'all agree again' agreed
    ok 'the server is another one' [ "$(pid 2 server)" != "$old" ]
    ok 'and answers' answered 2
    ok 'queries were kept out until it was there' [ "$(uniq "$work/queries2" | tail -n 2 | tr '\n' ' ')" = 'out in ' ]
}

# A follower is killed between its write and the server's answer: the batch is worked once.
follower() {
    local serial
    agreed >/dev/null
    serial=$(line_of 3 | sed 's/.*serial \([0-9]*\),.*/\1/')
    kill -STOP "$(pid 3 server)"
    append 1 >/dev/null
    for _ in $(seq 100); do [ "$(waits 3)" -gt 0 ] && break; sleep 0.1; done
    ok 'the batch waits in the feed' [ "$(waits 3)" -gt 0 ]
    kill -9 "$(pid 3 follower)"
    kill -CONT "$(pid 3 server)"
    ok 'host3 answers without a follower' answered 3
    ok 'all agree with the next follower' agreed
    ok 'two batches, each worked once' [ "$(line_of 3 | sed 's/.*serial \([0-9]*\),.*/\1/')" = $((serial + 2)) ]
}

# The leading member of etcd is killed in the middle of a hundred appends by four writers.
member_dies() { sleep 1; led=$(leader); kill -9 "$(cat "$work/etcd$led.pid")" && killed=1; }
member() {
    local begun killed=0
    begun=$(now)
    write 4 25 member_dies
    ok 'a leading member was killed' [ "$killed" = 1 ]
    echo "100 appends by four writers, the leading member killed amid them: $(since "$begun") ms"
    ok 'all agree with two members' agreed
    start_member "$led"
    ok 'all agree with the member back' agreed
}

# A member whose answers drip octet by octet is passed over by each command; the real ones stand behind it.
drip() {
    local begun drips
    be_on 1 python3 - <<'PYTHON' &
import socket, threading, time


def drip(sock):
    try:
        sock.recv(65536)
        for octet in b"HTTP/1.1 200 OK\r\nContent-Length: 400\r\n\r\n" + b" " * 400:
            sock.sendall(bytes([octet]))
            time.sleep(1)
    except OSError:
        pass


listener = socket.create_server(("127.0.0.1", 2378))
while True:
    threading.Thread(target=drip, args=(listener.accept()[0],), daemon=True).start()
PYTHON
    drips=$!
    disown "$drips"
    for _ in $(seq 100); do on 1 python3 -c 'import socket; socket.create_connection(("127.0.0.1", 2378))' 2>/dev/null && break; sleep 0.1; done
    begun=$(now)
    on 1 env GLB_ETCD="http://127.0.0.1:2378,$(etcd_of 1)" "$here/tools/glb-fleet" >"$work/fleet"
    ok 'glb-fleet says which member does not answer' [ $? = 7 ]
    ok 'and why' grep -q '2378, a member of etcd, does not answer: start it again (timed out)' "$work/fleet"
    ok 'and does not wait for its end' [ "$(since "$begun")" -lt 60000 ]
    begun=$(now)
    ok 'a batch is appended' [ "$(echo 'demand g1 4' | on 1 env GLB_ETCD="http://127.0.0.1:2378,$(etcd_of 1)" "$here/tools/glb-append")" = "$(last)" ]
    echo "an append past a member that drips: $(since "$begun") ms"
    kill "$drips"
    ok 'all agree' agreed
}

# Servers that there should be: one that never began, and one that etcd has no word of any more.
expected() {
    all_there >/dev/null
    tool 1 glb-fleet --expect host1,host2,host3 >"$work/fleet"
    ok 'all of them are there' [ $? = 0 ]
    tool 1 glb-fleet --expect host1,host4 >"$work/fleet"
    ok 'one that never began is gone' [ $? = 5 ]
    ok 'and named' grep -q '^! host4 is expected, and nothing was ever heard of it' "$work/fleet"
    mkdir "$work/host4"
    on 1 env GLB_ETCD="$(etcd_of 1)" "$here/tools/glb-follow" --name host4 --run "$work/host4" --bases "$work/bases1" --program "$glb" --prepare
    ok 'it is missed from its first start on' [ "$(status_of)" = 1 ]
    ok 'and so it is said' grep -q '^! host4 starts: it begins for the first time' "$work/fleet"
    tool 1 glb-fleet --forget host4
    ok 'until it is taken off the list' all_there
}

# A host is cut off, with a writer on both sides.
cut_off() {
    local before
    agreed >/dev/null
    before=$(last)
    ip -n glbfleet0 link set port3 down
    append 3 --seconds 2 --id cut-off >"$work/cut" 2>&1
    ok 'the side without a majority says so' [ $? = 3 ]
    sed 's/^/host3: /' "$work/cut"
    ok 'the other side appends' append 1 >/dev/null
    ok 'host3 answers on its side' answered 3
    ok 'host3 is silent or gone' until_line 3 'silent\|gone'
    sed 's/^/while it is cut off: /' "$work/line"
    ok 'and gone when its lease has run out' until_line 3 'gone'
    ip -n glbfleet0 link set port3 up
    ok 'all agree when it is back' agreed
    append 3 --id cut-off >"$work/cut"
    append 3 --id cut-off >>"$work/cut"
    ok 'asked again, it has one number' [ "$(uniq "$work/cut" | wc -l)" = 1 ]
    ok 'and there is no other entry' [ "$(last)" = $((before + 3)) ]
    ok 'all agree' agreed
}

# Another topology: each server has its file before any goes over, and they go over one at a time, while a writer appends.
roll() {
    local writing
    sed 's/^ttl = .*/ttl = 30/' "$here/examples/tree.toml" >"$work/next.toml"
    for i in $(seq 40); do append 2 >>"$work/rolled"; sleep 0.1; done &
    writing=$!
    ok 'a roll comes to its end' rolled "$work/next.toml" --why 'another TTL'
    cat "$work/roll"
    wait "$writing"
    ok 'no append waited for it, or was lost' [ "$(sort -n "$work/rolled" | uniq | wc -l)" = 40 ]
    ok 'all agree behind it' agreed
    ok 'clients get the new one' bash -c "ip netns exec glbfleet3 dig +noall +answer @$net.3 www.cdn.example A | grep -q '\b30\b'"
    for host in $hosts; do ok "host$host went over once" [ "$(grep -c 'goes over to base' "$work/follow$host.log")" = 1 ]; done
    ok 'and back' rolled --back --why 'as before'
    ok 'all agree behind that, too' agreed
    ok 'clients get the old one' bash -c "ip netns exec glbfleet3 dig +noall +answer @$net.3 www.cdn.example A | grep -q '\b20\b'"
    echo 'nonsense = 1' >>"$work/next.toml"
    rolled "$work/next.toml"
    ok 'a topology that is none is refused' [ $? = 1 ]
    cat "$work/roll"
}

# A base is made while a follower is away, and batches come then: none is skipped.
skip() {
    all_there >/dev/null
    kill -STOP "$(pid 3 follower)"
    echo 'capacity A 0' | tool 1 glb-append --wait 0 >/dev/null
    rolled "$here/examples/tree.toml" --seconds 2
    ok 'nothing is rolled while a follower hangs' [ $? = 1 ]
    kill -9 "$(pid 3 follower)"
    ok 'and then it is' rolled "$here/examples/tree.toml"
    ok 'all agree' agreed
    for host in $hosts; do ok "host$host answers with what is left" [ "$(on "$host" dig +short "@$net.$host" www.cdn.example A)" = 192.0.2.2 ]; done
    echo 'capacity A 10' | tool 1 glb-append >/dev/null
    ok 'all agree again' agreed
}

# A server that ends amid a roll begins from the base that it had, and goes over in its turn; nobody takes it for another.
adopt() {
    touch "$work/held3"
    kill -9 "$(pid 3 server)" "$(pid 3 follower)"
    echo 'capacity A 0' | tool 1 glb-append >/dev/null
    rolled "$here/examples/tree.toml" --seconds 2
    ok 'nothing is rolled while a server is away' [ $? = 1 ]
    grep host3 "$work/roll"
    ok 'and glb-fleet says so' [ "$(status_of)" = 5 ]
    rm "$work/held3"
    ok 'it goes on when it is back' rolled "$here/examples/tree.toml"
    ok 'all agree' agreed
    for host in $hosts; do ok "host$host answers with what is left" [ "$(on "$host" dig +short "@$net.$host" www.cdn.example A)" = 192.0.2.2 ]; done
    echo 'capacity A 10' | tool 1 glb-append >/dev/null
    ok 'all agree again' agreed
}

# etcd is restored from its own snapshot: numbers are given twice, and no server is taken for being where it is not.
restore() {
    local host before
    agreed >/dev/null
    on 1 env ETCDCTL_API=3 etcdctl --endpoints "http://$net.1:2379" snapshot save "$work/snapshot" >/dev/null 2>&1
    before=$(last)
    append 1 >/dev/null
    ok 'all agree before it' agreed
    for host in $hosts; do kill -9 "$(cat "$work/etcd$host.pid")"; rm -rf "$work/etcd$host"; done
    for host in $hosts; do
        on "$host" env ETCDCTL_API=3 etcdctl snapshot restore "$work/snapshot" --name "m$host" --data-dir "$work/etcd$host" --initial-cluster "$members" --initial-advertise-peer-urls "http://$net.$host:2380" >/dev/null 2>&1
    done
    for host in $hosts; do start_member "$host"; done
    for _ in $(seq 100); do tool 1 glb-log >/dev/null 2>&1 && break; sleep 0.1; done
    ok 'the log is the one before' [ "$(last)" = "$before" ]
    ok 'nobody says that all is well' [ "$(status_of)" != 0 ]
    for number in 1 2 3; do echo 'capacity A 0' | tool 1 glb-append --wait 0 >/dev/null; done
    ok 'all agree behind it' agreed
    for host in $hosts; do ok "host$host began anew" grep -q 'begins anew' "$work/follow$host.log"; done
    for host in $hosts; do ok "host$host answers with what is left" [ "$(on "$host" dig +short "@$net.$host" www.cdn.example A)" = 192.0.2.2 ]; done
    echo 'capacity A 10' | tool 1 glb-append >/dev/null
    ok 'all agree again' agreed
}

# A key that is put by hand is handed to no server.
hand() {
    local number server
    server=$(pid 2 server)
    number=$(($(last) + 1))
    on 1 env ETCDCTL_API=3 etcdctl --endpoints "http://$net.1:2379" put "glb/log/$(printf %016d "$number")" $'stop\n' >/dev/null
    ok 'all agree behind it' agreed
    ok 'no server ended' [ "$(pid 2 server)" = "$server" ]
    ok 'and it is told' grep -q "entry $number was dropped whole .* put by hand" "$work/fleet"
    grep '^!' "$work/fleet"
}

# A batch that servers drop is told to its sender, and by glb-fleet; most are refused before.
dropped() {
    echo 'capacity Q 0' | tool 1 glb-append >"$work/said" 2>&1
    ok 'a name that is none is refused' [ $? = 1 ]
    cat "$work/said"
    on 1 python3 - "$here" "$(etcd_of 1)" >"$work/number" <<'PYTHON'
import sys

sys.path.append(sys.argv[1] + "/tools")
from glb_tools.etcd import Etcd
from glb_tools.log import Log, Signed

log = Log(Etcd(sys.argv[2].split(",")), "glb")
print(log.append("unchecked", Signed("fleet.sh"), "capacity Q 0\n", lambda names: None))
PYTHON
    ok 'one that was not checked is dropped by all' agreed
    echo 'demand g1 3' | tool 1 glb-append --id unchecked >"$work/said" 2>&1
    ok 'and its sender is told' [ $? = 2 ]
    cat "$work/said"
    ok 'glb-fleet ends with 1' [ "$(status_of)" = 1 ]
    ok 'and names it' grep -q "entry $(cat "$work/number") was dropped whole" "$work/fleet"
}

# The log is not cut where a server needs it; one that comes back from before a cut begins from the newest base.
cut_log() {
    ok 'what stands before the newest base is cut away' tool 1 glb-append --cut
    touch "$work/held3"
    kill -9 "$(pid 3 server)" "$(pid 3 follower)"
    for _ in $(seq 50); do status_of >/dev/null; grep -q 'host3: \(gone\|ended\)' "$work/fleet" && break; sleep 0.5; done
    tool 1 glb-fleet --forget host3
    ok 'without host3 the others go over' rolled "$here/examples/tree.toml"
    ok 'and the log is cut' tool 1 glb-append --cut
    rm "$work/held3"
    ok 'all agree with host3 back' agreed
    grep 'begins anew' "$work/follow3.log" | tail -n 1
}

# A member that hangs costs three seconds at most.
hang() {
    local begun
    agreed >/dev/null
    kill -STOP "$(cat "$work/etcd1.pid")"
    begun=$(now)
    for _ in 1 2 3 4 5; do append 2 >/dev/null && break; done
    tool 1 glb-fleet >"$work/fleet"
    echo "an append and glb-fleet beside a member that hangs: $(since "$begun") ms"
    ok 'and blames no follower' [ "$(grep -c '^!' "$work/fleet")" = 1 ]
    ok 'glb-fleet names the member' grep -q "^! http://$net.1:2379.* does not answer" "$work/fleet"
    kill -CONT "$(cat "$work/etcd1.pid")"
    ok 'all agree' agreed
}

# A follower that hangs and a server that hangs are told apart.
hung() {
    agreed >/dev/null
    kill -STOP "$(pid 2 follower)"
    ok 'a follower that hangs is told of at once' [ "$(status_of)" = 5 ]
    grep '^!.*host2' "$work/fleet"
    kill -CONT "$(pid 2 follower)"
    ok 'all agree' agreed
    kill -STOP "$(pid 2 server)"
    for _ in $(seq 30); do [ "$(status_of)" = 6 ] && break; sleep 1; done
    ok 'a server that hangs is told of' grep -q 'host2 has not answered its follower' "$work/fleet"
    grep '^!.*host2' "$work/fleet"
    kill -CONT "$(pid 2 server)"
    ok 'all agree again' agreed
}

# Ten thousand batches at once, which are written a hundred at a time: each server is as far behind.
behind() {
    local begun first
    agreed >/dev/null
    first=$(last)
    on 1 python3 - "$here" "$(etcd_of 1)" "$first" <<'PYTHON'
import sys

sys.path.append(sys.argv[1] + "/tools")
from glb_tools.etcd import Etcd, put
from glb_tools.log import BATCH, Log, Signed, checksum_of, entry_octets

log = Log(Etcd(sys.argv[2].split(",")), "glb")
first, before = int(sys.argv[3]) + 1, log.look().entries[-1].checksum
for page in range(first, first + 10000, 100):
    puts = []
    for number in range(page, page + 100):
        lines = f"demand g1 {number % 9 + 1}\ncapacity A {number % 11}\n"
        octets = entry_octets(BATCH, before, Signed("fleet.sh"), {"lines": lines})
        before = checksum_of(octets)
        puts.append(put(log.key(number), octets))
    assert log.etcd.txn(puts).held
PYTHON
    begun=$(now)
    sleep 1
    tool 1 glb-fleet
    ok 'host1 answers meanwhile' answered 1
    ok 'all agree' agreed 1200
    echo "ten thousand batches: $(since "$begun") ms"
    # a server that reads all of them again
    begun=$(now)
    kill -9 "$(pid 2 server)"
    ok 'all agree with one that began anew' agreed 1200
    echo "and again, by a server that began anew: $(since "$begun") ms"
}

# etcd is full, as its quota is small here and somebody fills it: it takes no batch until its history is given up.
with_quota() {
    quota=$1
    for host in $hosts; do
        kill "$(cat "$work/etcd$host.pid")"
        while kill -0 "$(cat "$work/etcd$host.pid")" 2>/dev/null; do sleep 0.1; done
        start_member "$host"
        for _ in $(seq 200); do etcdctl_of "$host" endpoint health >/dev/null 2>&1 && break; sleep 0.1; done
    done
}
etcdctl_of() { local host=$1; shift; on "$host" env ETCDCTL_API=3 etcdctl --endpoints "http://$net.$host:2379" "$@"; }
full() {
    local filled=0 number
    ok 'all agree before etcd is full' agreed
    with_quota $((8 << 20))
    ok 'all agree with a small quota' agreed
    head -c 1000000 /dev/zero | tr '\0' x >"$work/filling"
    for _ in $(seq 20); do etcdctl_of 1 put filling <"$work/filling" >/dev/null 2>&1 || { filled=1 && break; }; done
    ok 'etcd is full' [ "$filled" = 1 ]
    number=$(last)
    append 1 >"$work/full" 2>&1
    ok 'an append says so' [ $? = 4 ]
    sed 's/^/glb-append: /' "$work/full"
    ok 'and so does glb-fleet' [ "$(status_of)" = 4 ]
    ok 'nothing was appended' [ "$(last)" = "$number" ]
    answers
    ok 'glb-log gives up history' tool 1 glb-log --compact
    ok 'the next batch is appended' [ "$(append 1)" = $((number + 1)) ]
    ok 'all agree behind it' agreed
    with_quota 0
    ok 'all agree with the usual quota' agreed
}

# A server of another build: where its maps' texts are others, that is seen, and each server goes on.
build() {
    if [ -z "${GLB_OTHER:-}" ]; then echo 'build: GLB_OTHER is not set' && return; fi
    agreed >/dev/null
    touch "$work/other3"
    kill -9 "$(pid 3 server)"
    append 1 >/dev/null
    ok 'it comes to the last entry' until_line 3 ': there'
    echo "another build on host3: status $(status_of)"
    cat "$work/fleet"
    ok 'it answers' answered 3
    rm "$work/other3"
    kill -9 "$(pid 3 server)"
    ok 'all agree when it is gone' agreed
}

# One server has no memory for a batch: bench/fail_alloc.c refuses what its commit asks for.
memory() {
    local old
    "${CC:-cc}" -O2 -shared -fPIC -o "$work/fail_alloc.so" "$here/bench/fail_alloc.c" || { echo 'memory: there is no C compiler' && return; }
    preload_of 3 "LD_PRELOAD=$work/fail_alloc.so" "FAIL_COUNT=1000000" "FAIL_TOLD=$work/asked" "FAIL_FROM=$work/from"
    kill -9 "$(pid 3 server)"
    ok 'all agree, one with a shim' agreed
    old=$(pid 3 server)
    : >"$work/follow3.log"
    python3 -c 'import struct, sys; number = struct.unpack("Q", open(sys.argv[1], "rb").read())[0] + 1; open(sys.argv[2], "r+b").write(struct.pack("Q", number))' "$work/asked" "$work/from"
    ok 'all agree when it is back' agreed
    ok 'its follower said why' grep -q 'for want of memory' "$work/follow3.log"
    cat "$work/follow3.log"
    ok 'the server is another one' [ "$(pid 3 server)" != "$old" ]
    preload_of 3
    kill -9 "$(pid 3 server)"
    ok 'all agree, and none with a shim' agreed
}

# The clock of one host jumps by an hour, there and back: that of its follower. (A member of etcd makes no call that could be
# turned aside, and the machine's own clock is everybody's.)
clock() {
    "${CC:-cc}" -O2 -shared -fPIC -o "$work/shift_clock.so" "$here/bench/shift_clock.c" || { echo 'clock: there is no C compiler' && return; }
    echo '+0' >"$work/time"
    echo "LD_PRELOAD=$work/shift_clock.so SHIFT_CLOCK=$work/time" >"$work/clock3"
    kill -9 "$(pid 3 follower)"
    ok 'all agree by another clock' agreed
    for jump in +3600 -3600 +0; do
        echo "$jump" >"$work/time.new" && mv "$work/time.new" "$work/time"
        ok "all agree with the clock at $jump" agreed
        line_of 3
        sleep 17
        ok 'and the server is still there' until_line 3 ': there'
    done
    rm "$work/clock3"
    kill -9 "$(pid 3 follower)"
    ok 'all agree by the old clock' agreed
}

# BIRD on host 3 announces the address of its server to one on host 1, by the hooks of the follower.
bird() {
    if ! which bird >/dev/null; then echo 'bird: the package bird2 is not installed' && return; fi
    all_there >/dev/null
    printf 'router id %s.1;\nprotocol device { }\nprotocol kernel { ipv4 { export all; }; }\nprotocol bgp downstream { local %s.1 as 64513; neighbor %s.3 as 64512; hold time 9; ipv4 { import all; export none; }; }\n' "$net" "$net" "$net" >"$work/bird1.conf"
    on 1 bird -c "$work/bird1.conf" -s "$work/upstream.ctl" -P "$work/bird1.pid"
    on 3 bird -c "$here/examples/glb-bird.conf" -s "$work/bird3.ctl" -P "$work/bird3.pid"
    (be_on 1 stdbuf -oL ip monitor route >"$work/routes" 2>/dev/null) &
    sleep 6
    ok 'nothing is announced of itself' [ -z "$(announced)" ]
    kill -9 "$(pid 3 follower)"
    ok 'the server is there, and announced' until_announced
    on 1 ip route | grep 192.0.2.53
    for what in follower server; do
        : >"$work/routes"
        kill -9 "$(pid 3 "$what")"
        ok "a $what that is killed is withdrawn" until_withdrawn
        ok 'and announced again' until_announced
    done
    kill -9 "$(cat "$work/bird3.pid")"
    ok 'and so it is where BIRD is killed' until_withdrawn
    ok 'which its follower sees' until_line 3 'birdc'
    sed 's/.*; //' "$work/line"
    on 3 bird -c "$here/examples/glb-bird.conf" -s "$work/bird3.ctl" -P "$work/bird3.pid"
    ok 'with BIRD back it is announced' until_announced
    kill "$(cat "$work/bird3.pid")" "$(cat "$work/bird1.pid")"
    rm -f "$work/bird3.ctl"
    kill -9 "$(pid 3 follower)"
    ok 'all agree without BIRD' agreed
}
announced() { on 1 ip route show 192.0.2.53; }
until_announced() { for _ in $(seq 200); do [ -n "$(announced)" ] && return 0; sleep 0.1; done; return 1; }
until_withdrawn() { for _ in $(seq 200); do grep -q 'Deleted 192.0.2.53' "$work/routes" && return 0; sleep 0.1; done; return 1; }

# What the servers said of each entry, as glb-fleet showed it all the time: the checksums at each number.
sums() {
    touch "$work/enough"
    python3 - "$work/seen" <<'PYTHON' >"$work/sums"
import json, sys
by_number = {}
for line in open(sys.argv[1]):
    for server in json.loads(line)["servers"]:
        for spot, checksum in server.get("maps", {}).items():
            by_number.setdefault((server["base"], spot), {}).setdefault(server["name"], set()).add(checksum)
of_three = [n for n, servers in by_number.items() if len(servers) == 3]
differ = [n for n, servers in by_number.items() if len(set().union(*servers.values())) > 1]
print(len(of_three), len(differ))
PYTHON
    read -r of_three differ <"$work/sums"
    echo "at $of_three entries checksums of all three were seen; they differ at $differ"
    ok 'checksums of all three were seen at fifty entries' [ "$of_three" -ge 50 ]
    ok 'and are equal at each' [ "$differ" = 0 ]
}

for host in $hosts; do start_member "$host"; done
for _ in $(seq 100); do tool 1 glb-log >/dev/null 2>&1 && break; sleep 0.1; done
ok 'the log begins with a base' tool 1 glb-roll "$here/examples/tree.toml" --program "$glb"
for host in $hosts; do serve "$host" 2>/dev/null & done
while [ ! -e "$work/over" ] && [ ! -e "$work/enough" ]; do tool 1 glb-fleet --wait 0 --json 2>/dev/null | python3 -c 'import json, sys; print(json.dumps(json.load(sys.stdin)))' >>"$work/seen" 2>/dev/null; sleep 0.5; done &
ok 'three servers begin' agreed
for part in ${@:-$usual}; do
    "$part"
done
tool 1 glb-fleet
echo "$passed passed, $failed failed"
[ "$failed" = 0 ]
