#!/usr/bin/env bash
# glb-watch and glb-drain with all that stands around them: Debian's prometheus, blackbox exporter and mtail, three sites of
# nginx, etcd, and two servers with their followers. Sites are killed, flap and are drained, programs are killed and hang; it
# compares what comes, and ends by itself within a quarter of an hour.
#
#     apt-get install prometheus prometheus-blackbox-exporter nginx mtail etcd-server bind9-dnsutils curl python3-requests
#     GLB=/usr/local/bin/glb examples/watch.sh              all parts
#     GLB=/usr/local/bin/glb examples/watch.sh down flap    some of them
#
# GLB names the program, as a whole path. All ports are free ones of the loopback, and nothing is left but what it prints.
set -uo pipefail
parts="down demand flap silent drain drained_down timed leads killed"
for part in "$@"; do case " $parts " in *" $part "*) ;; *) echo "no such part: $part" && exit 1 ;; esac; done
here=$(cd "$(dirname "$0")/.." && pwd)
glb=${GLB:-$here/crates/glb_program/out/glb_program}
python=/usr/bin/python3
work=$(mktemp -d)
passed=0
failed=0

ok() { if "${@:2}"; then passed=$((passed + 1)); else failed=$((failed + 1)) && echo "not so: $1"; fi; }
now() { date +%s%3N; }
since() { echo $(($(now) - $1)); }
# starts a program, whose number stands in the file of its name; what it says too
run() { local name=$1; shift; "$@" >>"$work/$name.log" 2>&1 & echo $! >"$work/$name.pid"; disown $!; }
pid() { cat "$work/$1.pid"; }
end() { kill -"${2:-9}" "$(pid "$1")" 2>/dev/null; }
clean() {
    touch "$work/over"
    for file in "$work"/*.pid; do kill -CONT "$(cat "$file")" 2>/dev/null; kill -9 "$(cat "$file")" 2>/dev/null; done
    wait 2>/dev/null
    rm -rf "$work"
}
trap 'clean 2>/dev/null' EXIT

mapfile -t ports < <($python -c '
import socket
held = [socket.socket() for _ in range(14)]
for each in held: each.bind(("127.0.0.1", 0))
for each in held: print(each.getsockname()[1])')
etcd_port=${ports[0]} peer_port=${ports[1]} prom_port=${ports[2]} box_port=${ports[3]} mtail_port=${ports[4]}
site_ports=("" "${ports[5]}" "${ports[6]}" "${ports[7]}")
dns_ports=("" "${ports[8]}" "${ports[9]}")
watch_ports=("" "${ports[10]}" "${ports[11]}")
export GLB_ETCD=http://127.0.0.1:$etcd_port GLB_AUTHOR=watch.sh
tool() { $python -B "$here/tools/$@"; }
drain() { timeout 400 $python -B "$here/tools/glb-drain" --glb "$glb" "$@"; }
# one that is to be killed: its number is that of the command
drains() { exec $python -B "$here/tools/glb-drain" --glb "$glb" "$@"; }

# The topology: three sites of 1,000 units, twelve groups of 100, four of which have each site first.
$python - >"$work/topology.toml" <<'PYTHON'
print("""[zone]
apex = "cdn.example"
mname = "ns1.ops.example"
rname = "admin.ops.example"
serial = 1
refresh = 3600
retry = 600
expire = 86400
minimum = 60
ttl = 20
ns = ["ns1.ops.example"]
services = ["www"]
[[node]]
name = "world"
capacity = 100000""")
for site in (1, 2, 3):
    print(f'[[node]]\nname = "s{site}"\nparent = "world"\ncapacity = 1000')
    print(f'[[node]]\nname = "p{site}"\nparent = "s{site}"\ncapacity = 1000\npool = true\na = ["192.0.2.{site}"]')
for at in range(12):
    pools = [(at + step) % 3 + 1 for step in range(3)]
    prefixes = [f"198.18.{at}.0/24"] + (["0.0.0.0/0", "::/0"] if at == 0 else [])
    print(f'[[group]]\nname = "g{at}"\ndemand = 100\npools = {[f"p{pool}" for pool in pools]}'.replace("'", '"'))
    print(f'scores = {[1 + at, 20 + at, 40 + at]}\nprefixes = {prefixes}'.replace("'", '"'))
for at in range(3):
    print(f'[[group]]\nname = "v{at}"\ndemand = 10\npools = ["p1", "p2", "p3"]\nscores = [90, 90, 90]\nprefixes = []')
PYTHON

# The sites: nginx at a port each, which notes for each request the group of its client, by its address.
site() {
    local number=$1
    mkdir -p "$work/site$number"
    printf '127.0.3.1 g0;\n127.0.3.2 g1;\n' >"$work/glb-groups"
    cat >"$work/site$number/nginx.conf" <<CONF
daemon off; master_process off; pid $work/site$number/nginx.pid; error_log $work/site$number/error.log;
events {}
http {
$(sed -e "s,/etc/nginx/glb-groups,$work/glb-groups," -e "s,/var/log/nginx/glb-demand.log,$work/glb-demand.log," -e 's/geo \$remote_addr \$glb_group {/&\n    default -;/' "$here/examples/glb-demand.conf")
server { listen 127.0.0.1:${site_ports[$number]}; location / { return 200 "$(printf 'x%.0s' $(seq 1000))"; } }
}
CONF
    run "site$number" nginx -c "$work/site$number/nginx.conf" -p "$work/site$number" -e "$work/site$number/error.log"
}

# The ready files, at other addresses.
$python - "$here/examples/prometheus.yml" "$box_port" "$mtail_port" "${site_ports[@]:1}" >"$work/prometheus.yml" <<'PYTHON'
import sys, yaml
path, box, mtail, *sites = sys.argv[1:]
made = yaml.safe_load(open(path))
made["global"] |= {"scrape_interval": "2s", "scrape_timeout": "2s"}
made["rule_files"] = []
jobs = {job["job_name"]: job for job in made["scrape_configs"]}
for name, target in (("glb-http", "http://127.0.0.1:{}/"), ("glb-tcp", "127.0.0.1:{}")):
    jobs[name]["static_configs"] = [{"targets": [target.format(port)], "labels": {"pool": f"p{n}", "host": f"h{n}"}} for n, port in enumerate(sites, 1)]
    jobs[name]["relabel_configs"][2]["replacement"] = f"127.0.0.1:{box}"
jobs["glb-icmp"]["static_configs"] = [{"targets": [f"127.0.0.{n}"], "labels": {"pool": f"p{n}", "host": f"h{n}"}} for n in (1, 2, 3)]
jobs["glb-icmp"]["relabel_configs"] = jobs["glb-tcp"]["relabel_configs"]
jobs["glb-demand"]["static_configs"] = [{"targets": [f"127.0.0.1:{mtail}"]}]
made["scrape_configs"] = [jobs[name] for name in ("glb-http", "glb-tcp", "glb-icmp", "glb-demand")]
print(yaml.safe_dump(made))
PYTHON
prometheus() {
    run prometheus /usr/bin/prometheus --config.file="$work/prometheus.yml" --storage.tsdb.path="$work/tsdb" --web.listen-address="127.0.0.1:$prom_port" --log.level=warn
}

# The rules: capacities of pools by their probes; demands of g0 and g1 by the logs of the sites, and of v0 to v2 by a sine.
settings() {
    cat >"$work/watch$1.toml" <<TOML
prometheus = "http://127.0.0.1:$prom_port"
timeout = $3
every = $2
lead = $4
metrics = "127.0.0.1:${watch_ports[$1]}"
[calm]
hold = 0
flap = 20
flap_most = 300
flap_forget = 600
[brake]
demand_sum = 100000
demand_name = 100000
[[capacity]]
query = 'avg by (pool) (min by (pool, host) (probe_success{job=~"glb-(http|tcp|icmp)"}))'
label = "pool"
names = ["p1", "p2", "p3"]
factor = 1000
down_after = 2
up_after = 2
up_step = 50
[[demand]]
query = 'sum by (group) (rate(glb_sent_bytes_total{group!="-"}[10s])) / 100'
label = "group"
names = ["g0", "g1"]
smoothing = 1
missing = "keep"
TOML
    if [ -n "${5:-}" ]; then
        printf '[[demand]]\nquery = '"'%s'"'\nlabel = "group"\nnames = ["v*"]\nsmoothing = 1\ndead_band = 0\n' \
            'label_replace(20 + 9 * sin(vector(5 * time())), "group", "v0", "", "") or label_replace(20 + 9 * sin(vector(7 * time())), "group", "v1", "", "") or label_replace(20 + 9 * cos(vector(9 * time())), "group", "v2", "", "")' >>"$work/watch$1.toml"
    fi
}
watch() { run "watch$1" $python -B "$here/tools/glb-watch" "$work/watch$1.toml"; }
both() { for number in 1 2; do settings "$number" "$@"; watch "$number"; done; }
end_both() { end watch1 TERM; end watch2 TERM; sleep 0.5; end watch1; end watch2; }

# A server and its follower, begun again where they end.
serve() {
    local host=$1 place=$work/host$1
    follow() { $python -B "$here/tools/glb-follow" --name "host$host" --run "$place" --bases "$work/bases$host" --program "$glb" --ready true --unready true "$@" >>"$work/follow$host.log" 2>&1; }
    while [ ! -e "$work/over" ]; do
        follow --prepare || { sleep 0.3 && continue; }
        "$glb" serve "$place/topology.toml" --listen "127.0.0.1:${dns_ports[$host]}" --workers 1 0<>"$place/feed" 1<>"$place/said" 2<>"$place/maps" &
        echo $! >"$work/server$host.pid"
        follow &
        echo $! >"$work/follower$host.pid"
        wait -n
        kill -9 "$(pid "server$host")" "$(pid "follower$host")" 2>/dev/null
        wait
    done
}

# What is seen.
last() { tool glb-log --last 1 2>/dev/null | cut -d' ' -f1; }
# the capacities of a pool, in the order of the log, and the one that it has
capacities() { tool glb-log --all --json 2>/dev/null | $python -c '
import json, sys
words = [line.split() for entry in json.load(sys.stdin) for line in entry.get("changes", [])]
print(*[1000, *(each[2] for each in words if each[:2] == ["capacity", sys.argv[1]])], sep="\n")' "$1"; }
capacity() { capacities "$1" | tail -n 1; }
until_capacity() { local end=$(($(now) + $3 * 1000)); while [ "$(capacity "$1")" != "$2" ]; do [ "$(now)" -gt "$end" ] && return 1; sleep 0.3; done; }
# the address that a client of a group is answered by a server
answer() { dig +short +tries=1 +time=1 "@127.0.0.1" -p "${dns_ports[$1]}" www.cdn.example A +subnet="198.18.$2.1/32"; }
# both servers answer clients of the first group with that address, or with any but that
answers() { [ "$(answer 1 0)" = "$1" ] && [ "$(answer 2 0)" = "$1" ]; }
leaves() { local one two; one=$(answer 1 0) two=$(answer 2 0); [ -n "$one" ] && [ -n "$two" ] && [ "$one" != "$1" ] && [ "$two" != "$1" ]; }
within() { local end=$(($(now) + $1 * 1000)); shift; while ! "$@"; do [ "$(now)" -gt "$end" ] && return 1; sleep 0.1; done; }
there() { [ "$(tool glb-fleet 2>/dev/null | grep -c ': there')" = 2 ]; }
says() { grep -q "$2" "$work/$1.log"; }
metric() { curl -s "http://127.0.0.1:${watch_ports[$1]}/metrics" | sed -n "s/^$2 //p"; }

# The parts. Each leaves all sites in service.

# A site is killed, and its clients are sent elsewhere within fifteen seconds; it comes back, and so do they.
down() {
    local begun
    ok 'clients of the first group are at the first site' within 30 answers 192.0.2.1
    begun=$(now)
    end site1
    ok 'they are sent elsewhere within 15 s' within 15 leaves 192.0.2.1
    echo "down: $(since "$begun") ms from the end of a site until both servers sent its clients elsewhere"
    begun=$(now)
    site 1
    ok 'and they come back' within 60 answers 192.0.2.1
    echo "down: $(since "$begun") ms from its start until they were back"
    ok 'filled by steps' within 20 eval '[ "$(capacities p1 | tail -n 3 | tr "\n" " ")" = "0 500 1000 " ]'
}

# Requests at a site become demands, by the lines of nginx, mtail and Prometheus.
demand() {
    local end=$(($(now) + 90000)) found=0
    while [ "$(now)" -lt "$end" ] && [ "$found" = 0 ]; do
        for _ in $(seq 20); do curl -s -o /dev/null --interface 127.0.3.2 "http://127.0.0.1:${site_ports[2]}/"; done
        sleep 0.3
        if tool glb-log --name g1 --last 1 --json | grep -q 'demand g1 [1-9][1-9][0-9]'; then found=1; fi
    done
    ok 'requests of clients of a group are its demand' [ "$found" = 1 ]
    echo "demand: $(tool glb-log --name g1 --last 1 | tail -n 1 | cut -c 1-160)"
}

# A site flaps: the second time it stays out for 20 s, the third time for 40.
flap() {
    local seconds
    for _ in 1 2 3; do
        end site2
        ok 'it goes' until_capacity p2 0 30
        site 2
        ok 'and comes back' until_capacity p2 1000 120
    done
    seconds=$(tool glb-log --name p2 --all --json | $python -c '
import json, sys
out, found = None, []
for entry in json.load(sys.stdin):
    for line in entry.get("changes", []):
        if line.startswith("capacity p2 "):
            if line.endswith(" 0"): out = entry["time"]
            elif out is not None: found.append(entry["time"] - out); out = None
print(*found[-3:])')
    echo "flap: it was out for $seconds s"
    read -r _ second third <<<"$seconds"
    ok 'out for 20 s at least the second time' [ "${second:-0}" -ge 19 ]
    ok 'and for 40 s the third time' [ "${third:-0}" -ge 39 ]
}

# Prometheus is killed, and then hangs: nothing changes, though a site has gone.
silent() {
    local before
    end prometheus
    sleep 1
    end site3
    before=$(last)
    sleep 25
    ok 'nothing changes without Prometheus' [ "$(last)" = "$before" ]
    ok 'and it is said' says "watch$leader" 'Prometheus cannot be asked'
    ok 'and counted' [ "$(metric "$leader" glb_watch_up)" = 0.0 ]
    prometheus
    ok 'once it is there the site goes' until_capacity p3 0 60
    site 3
    ok 'and comes back' until_capacity p3 1000 120
    kill -STOP "$(pid prometheus)"
    before=$(last)
    end site3
    sleep 20
    ok 'nothing changes where it hangs' [ "$(last)" = "$before" ]
    site 3
    sleep 1
    kill -CONT "$(pid prometheus)"
    ok 'it is all well again' within 30 eval '[ "$(metric "$leader" glb_watch_up)" = 1.0 ]'
}

# The entries of a drain from a number on: the largest move of one of its steps, how many there were, and whether glb-watch
# raised the site meanwhile.
steps() {
    local number moved most=0 count=0
    for number in $(tool glb-log --from "$1" --text "drain $2" --json | $python -c 'import json, sys; print(*[entry["number"] for entry in json.load(sys.stdin)])'); do
        for at in $((number - 1)) "$number"; do tool glb-log --at "$at" --to "$work/at-$at" --program "$glb" >/dev/null 2>&1; done
        moved=$(tool glb-moves --json "$work/at-$((number - 1)).map" "$work/at-$number.map" | $python -c 'import json, sys; found = json.load(sys.stdin); print(found["moved"] + found["gained"] + found["lost"])')
        count=$((count + 1))
        [ "$moved" -gt "$most" ] && most=$moved
    done
    echo "$count $most"
}
raised() { tool glb-log --from "$1" --author glb-watch --json | $python -c '
import json, sys
lines = [line.split() for entry in json.load(sys.stdin) for line in entry.get("changes", [])]
print(sum(each[:2] == ["capacity", sys.argv[1]] and int(each[2]) > 0 for each in lines))' "$2"; }

# A drain over a minute, in steps that move at most 30 units each; glb-watch does not fill the pool again.
drain_() {
    local first count most
    first=$(($(last) + 1))
    ok 'the drain ends well' drain p1 --over 60s --every 5s --step 30 --why works >"$work/drain" 2>&1
    grep steps "$work/drain"
    ok 'the pool is out' [ "$(capacity p1)" = 0 ]
    ok 'its clients are elsewhere' within 5 leaves 192.0.2.1
    read -r count most <<<"$(steps "$first" p1)"
    echo "drain: $count steps, the largest of which moved $most units"
    ok 'no step moved more than 30' [ "$most" -le 30 ]
    ok 'as many as were said ahead' grep -q "^$count steps" "$work/drain"
    sleep 12
    ok 'glb-watch does not fill it' [ "$(capacity p1)$(raised "$first" p1)" = 00 ]
    ok 'it is listed' [ "$(drain --list --json | $python -c 'import json, sys; print([[each["node"], each["state"]] for each in json.load(sys.stdin)["drains"]])')" = "[['p1', 'out']]" ]
    first=$(($(last) + 1))
    ok 'and back' drain p1 --back --over 30s --every 5s --step 30 >"$work/drain" 2>&1
    read -r count most <<<"$(steps "$first" 'p1 back')"
    ok 'no step back moved more than 30' [ "$most" -le 30 ]
    ok 'it has what it had' [ "$(capacity p1)" = 1000 ]
    ok 'its clients are back' within 5 answers 192.0.2.1
    end site1
    ok 'it is measured again: it goes where it is down' until_capacity p1 0 30
    site 1
    ok 'and comes back' until_capacity p1 1000 120
}

# A pool goes down amid its drain: it is 0 at once, stays out when it is well again, and comes back only with --back.
drained_down() {
    local first
    first=$(($(last) + 1))
    drain p2 --over 60s --every 5s --why works >"$work/drain" 2>&1 &
    local runs=$!
    sleep 12
    ok 'the drain is on its way' eval '[ "$(capacity p2)" -gt 0 ] && [ "$(capacity p2)" -lt 1000 ]'
    end site2
    ok 'down amid its drain it is 0 within 15 s' until_capacity p2 0 15
    ok 'by glb-watch' eval '[ "$(tool glb-log --from "$first" --author glb-watch --name p2 --json | grep -c "capacity p2 0")" -ge 1 ]'
    wait "$runs"
    ok 'the drain ends well' [ "$?" = 0 ]
    site 2
    sleep 35
    ok 'well again it stays out' [ "$(capacity p2)$(raised "$first" p2)" = 00 ]
    drain p2 --back --over 40s --every 5s >"$work/drain" 2>&1 &
    runs=$!
    sleep 13
    end site2
    ok 'down on its way back it is 0' until_capacity p2 0 20
    sleep 6
    ok 'the drain waits' grep -q 'is down, or fills' "$work/drain"
    site 2
    wait "$runs"
    ok 'once it is well it goes on, and ends' [ "$?" = 0 ]
    ok 'it has what it had' [ "$(capacity p2)" = 1000 ]
}

# A drain of half a minute, which ends by itself; its command is killed, begun again, and killed, and a timer's command ends it.
timed() {
    drains p3 --over 10s --every 2s --for 25s --why works >"$work/drain" 2>&1 &
    local runs=$!
    sleep 4
    kill -9 "$runs" 2>/dev/null
    wait "$runs" 2>/dev/null
    ok 'killed amid, it stands where it was' eval '[ "$(capacity p3)" -gt 0 ] && [ "$(capacity p3)" -lt 1000 ]'
    ok 'the same command goes on, waits, and goes back' drain p3 --over 10s --every 2s --for 25s --why works >"$work/drain" 2>&1
    ok 'by its time' grep -q 'the time of p3 is over' "$work/drain"
    ok 'it has what it had' [ "$(capacity p3)$(drain --list)" = 1000 ]
    drains p3 --over 4s --every 2s --for 8s --why works >"$work/drain" 2>&1 &
    runs=$!
    ok 'out once more' until_capacity p3 0 30
    kill -9 "$runs" 2>/dev/null
    wait "$runs" 2>/dev/null
    ok 'and listed with its time' eval 'drain --list | grep -q "p3  is out, .* until 20"'
    local end=$(($(now) + 90000))
    while [ "$(capacity p3)" != 1000 ] && [ "$(now)" -lt "$end" ]; do drain --due >>"$work/due" 2>&1; sleep 1; done
    ok 'a timer puts it back' [ "$(capacity p3)$(drain --list)" = 1000 ]
}

# The one that leads is killed, and the other one leads.
leads() {
    local other=$((3 - leader))
    ok 'the other one waits' says "watch$other" 'another glb-watch leads: this one waits'
    end "watch$leader"
    end site3
    ok 'the other one leads, and takes a site out' until_capacity p3 0 45
    ok 'by its own word' says "watch$other" 'capacity p3 0 (down)'
    site 3
    watch "$leader"
    ok 'and puts it back' until_capacity p3 1000 60
    leader=$other
}

# Both are killed with -9 at random moments while all numbers change: each batch is worked once, and none sets a number again
# that is there.
killed() {
    local first
    end_both
    first=$(($(last) + 1))
    for _ in $(seq 24); do
        both 0.3 0.3 2 sine
        sleep "$(shuf -n 1 -i 20-45 | sed 's/.$/.&/')"
        end watch1
        end watch2
    done
    both 0.3 0.3 2 sine
    sleep 6
    end_both
    ok 'both servers are there' within 20 there
    tool glb-log --all --json >"$work/entries"
    tool glb-fleet --json >"$work/fleet" 2>/dev/null
    $python - "$work/entries" "$work/fleet" "$first" <<'PYTHON' >"$work/sums"
import json, sys
entries, fleet, first = json.load(open(sys.argv[1])), json.load(open(sys.argv[2])), int(sys.argv[3])
batches = [entry for entry in entries if entry["kind"] == "batch"]
numbers, twice, own = {}, 0, 0
for entry in batches:
    for line in entry["changes"]:
        word, name, number = line.split()
        if entry["number"] >= first and entry["author"] == "glb-watch":
            twice += numbers.get((word, name)) == number
        numbers[word, name] = number
    own += entry["number"] >= first and entry["author"] == "glb-watch"
numbered = [entry["number"] for entry in entries] == list(range(1, len(entries) + 1))
serials = [server["serial"] for server in fleet["servers"]]
maps = {tuple(sorted(server["maps"].items())[-1]) for server in fleet["servers"]}
print(own, twice, int(numbered), int(set(serials) == {len(batches)} and len(serials) == 2), len(maps), len(fleet.get("dropped", [])))
PYTHON
    read -r own twice numbered serials maps dropped <"$work/sums"
    echo "killed: $own batches of glb-watch, which was killed 24 times; $twice lines set a number that was there"
    ok 'there were enough' [ "$own" -ge 24 ]
    ok 'none sets a number again' [ "$twice" = 0 ]
    ok 'no number is left out' [ "$numbered" = 1 ]
    ok 'each server published each batch of the log once' [ "$serials" = 1 ]
    ok 'and has the same map' [ "$maps" = 1 ]
    ok 'none was dropped' [ "$dropped" = 0 ]
    both 5 4 15
}

run etcd etcd --name watch --data-dir "$work/etcd" --listen-client-urls "http://127.0.0.1:$etcd_port" --advertise-client-urls "http://127.0.0.1:$etcd_port" --listen-peer-urls "http://127.0.0.1:$peer_port" --initial-advertise-peer-urls "http://127.0.0.1:$peer_port" --initial-cluster "watch=http://127.0.0.1:$peer_port"
touch "$work/glb-demand.log"
for number in 1 2 3; do site "$number"; done
run blackbox prometheus-blackbox-exporter --config.file="$here/examples/blackbox.yml" --web.listen-address="127.0.0.1:$box_port" --log.level=error
run mtail mtail --progs "$here/examples/glb-demand.mtail" --logs "$work/glb-demand.log" --address 127.0.0.1 --port "$mtail_port" --poll_interval 250ms
prometheus
within 20 tool glb-log >/dev/null 2>&1
ok 'the log begins with a base' tool glb-roll "$work/topology.toml" --program "$glb" --why start >/dev/null 2>&1
for host in 1 2; do serve "$host" 2>/dev/null & echo $! >"$work/serve$host.pid"; done
ok 'two servers begin' within 60 there
both 5 4 15
within 20 eval 'says watch1 "this one waits" || says watch2 "this one waits"'
leader=1
says watch1 'this one waits' && leader=2
ok 'all probes are there' within 60 eval '[ "$(curl -s "http://127.0.0.1:$prom_port/api/v1/query" --data-urlencode "query=count(probe_success == 1)" | grep -c "\"9\"")" = 1 ]'
begun=$(now)
for part in ${@:-$parts}; do
    if [ "$part" = drain ]; then drain_; else "$part"; fi
done
echo "$(($(since "$begun") / 1000)) s"
echo "$passed passed, $failed failed"
[ "$failed" = 0 ]
