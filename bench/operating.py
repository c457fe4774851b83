#!/usr/bin/env python3
"""Runs each block of commands of docs/OPERATING.md and of the pages that its last table links, in one shell, and looks at
what came of it: the pages first, in the order of that table, then docs/OPERATING.md itself.

It changes the machine that it runs on: operating.sh runs it in a container. A block that has no entry below is an error, and
so is a command that fails in one, and a command in the text that is not there any more. The last line counts, and the status
is 0 where all is as it should be.
"""

import re
import subprocess
import sys
import tempfile
from pathlib import Path

TOP = Path(__file__).resolve().parent.parent
FIRST_PAGE = (TOP / "docs/OPERATING.md").read_text()
PAGES = re.findall(r"\((operating/[a-z-]+\.md)\) \|$", FIRST_PAGE.split("## By task")[1], re.M)
DOCUMENT = "\n".join([*((TOP / "docs" / page).read_text() for page in PAGES), FIRST_PAGE])
ANSWER = "dig +short +tries=1 +time=1 @{} www.cdn.example A"
ADDRESS = r"192\.0\.2\.[12]"
FOUR = "systemctl is-active glb@v4 glb@v6 glb-feed@v4 glb-feed@v6"


class Block:
    """What is done ahead of a block, and what is looked at behind it: commands, and what each has to write. With `seconds` it
    does not end by itself; `finds` of its commands end with a status that tells what they found."""

    def __init__(self, *checks, before="", seconds=None, last=False, finds=0):
        self.checks, self.before, self.seconds, self.last, self.finds = checks, before, seconds, last, finds


# by how a block begins
BLOCKS = {
    "install -m 755 crates": Block(("glb map examples/tree.toml | head -n 1", "glb map 2")),
    "install -D -m 755 -t /usr/local/lib/glb": Block(
        ("/usr/local/lib/glb/glb-moves examples/tree.map examples/tree.map", "0 groups, .*"),
        ("/usr/local/lib/glb/moves.py examples/tree.map examples/tree.map", "0 groups, .*"),
    ),
    # the group is not there, so the file goes again
    "mkdir -p /etc/systemd/system/glb-follow@.service.d": Block(
        ("systemctl daemon-reload; systemctl show --value -p SupplementaryGroups glb-follow@v4", "bird"),
        ("rm -r /etc/systemd/system/glb-follow@.service.d; systemctl daemon-reload; systemctl show --value -p SupplementaryGroups glb-follow@v4", ""),
    ),
    "DEBFULLNAME": Block(
        ("dpkg -s glb", "(?s).*Status: install ok installed.*"),
        ("cp examples/tree.toml /etc/glb/topology.toml; systemctl start glb@v4; sleep 2; " + ANSWER.format("127.0.0.1"), ADDRESS),
        (ANSWER.format("127.0.0.1").replace("+short", "+short +tcp"), ADDRESS),
        ("journalctl -t glb@v4 -n 1 -o cat; echo show >/run/glb-v4/feed; sleep 1; journalctl -t glb@v4 -n 1 -o cat", "(?s).*show 0 placed 15 unplaced 1 full 2"),
        ("grep -c '^commit ' /usr/share/doc/glb/build; sha256sum /usr/bin/glb | cut -d' ' -f1 | grep -cf - /usr/share/doc/glb/build", "1\n[12]"),
        ("dpkg -i --force-depends glb-tools_1.1_amd64.deb >/dev/null 2>&1; systemctl enable --now glb 2>/dev/null; systemctl stop glb@v4; systemctl restart glb; systemctl enable --now glb-metrics 2>/dev/null; sleep 3; ls /var/lib/prometheus/node-exporter/glb.prom", ".*glb.prom"),
        ("systemctl stop glb; sleep 1; ls /var/lib/prometheus/node-exporter/ | grep -c '^glb'; systemctl is-active glb-metrics", "0\ninactive"),
        ("systemctl start glb; sleep 3; systemctl is-active glb-metrics; ls /var/lib/prometheus/node-exporter/glb.prom", "active\n.*glb.prom"),
        ("kill -9 $(systemctl show --value -p MainPID glb); sleep 0.5; systemctl is-active glb-metrics; ls /var/lib/prometheus/node-exporter/glb.prom; systemctl start glb@v4", "active\n.*glb.prom"),
        ("dpkg -r glb-tools >/dev/null 2>&1; ls /var/lib/prometheus/node-exporter/ | grep -c '^glb'", "0"),
        ("apt-get remove -y glb >/dev/null; ls /etc/glb; systemctl is-active glb@v4", "(?s)topology.toml\nv4.conf\ninactive"),
        ("apt-get purge -y glb >/dev/null 2>&1; dpkg --purge glb-tools >/dev/null 2>&1; ls -d /etc/glb /etc/default/glb* /var/lib/glb /usr/lib/glb /usr/share/glb /etc/systemd/system/*/*glb* 2>/dev/null; sleep 2; systemctl list-units --all --no-legend 'glb*'; id glb 2>&1", "id: .glb.: no such user"),
        before="systemctl disable --now glb-fleet@v4 glb@v6; rm -rf /etc/glb /etc/default/glb* /var/lib/glb /etc/systemd/system/*glb* /etc/systemd/system/*/*glb*; systemctl daemon-reload; userdel glb",
        last=True,
    ),
    "mkdir -p /run/glb\nmkfifo -m 600 /run/glb/feed\n": Block(("ls /run/glb 2>&1", ".*No such file.*")),
    "mkdir -p /run/glb\nmkfifo -m 600 /run/glb/feed /run/glb/demand": Block(("ls /run/glb 2>&1", ".*No such file.*")),
    "useradd --system": Block(("sleep 1; systemctl is-active glb; " + ANSWER.format("192.0.2.53"), f"active\n{ADDRESS}"), before="cp examples/tree.toml topology.toml"),
    "echo show >/run/glb/feed": Block(("journalctl -u glb -n 1 -o cat", "show 0 placed 15 unplaced 1 full 2")),
    "mkdir -p /var/lib/glb": Block(
        ("sleep 2; systemctl is-active glb glb-feed", "active\nactive"),
        ("printf 'demand g1 9\\ncommit\\nstop\\ndemand g2 6\\ncommit\\n' >>/var/lib/glb/changes.log; sleep 2; journalctl -u glb -n 2 -o cat; systemctl is-active glb", "published 1\npublished 2\nactive"),
        ("kill -9 $(systemctl show --value -p MainPID glb); sleep 4; systemctl is-active glb glb-feed; journalctl -u glb -n 2 -o cat", "active\nactive\npublished 1\npublished 2"),
    ),
    "install -m 644 examples/glb.socket": Block(
        ("sleep 2; systemctl is-active glb.socket glb; ss -lunH 'sport = :53' | wc -l; " + ANSWER.format("192.0.2.53"), f"active\nactive\n4\n{ADDRESS}"),
        # one question that waits in the socket until systemd has begun the server again, a second later
        ("systemctl kill -s KILL glb; sleep 0.2; " + ANSWER.format("192.0.2.53").replace("+time=1", "+time=9"), ADDRESS),
        ("systemctl disable --now glb.socket 2>/dev/null; systemctl restart glb; sleep 2; systemctl is-active glb.socket glb; " + ANSWER.format("192.0.2.53"), f"inactive\nactive\n{ADDRESS}"),
    ),
    "systemctl disable --now glb": Block(("sleep 2; " + FOUR, "active\n" * 3 + "active"), (ANSWER.format("192.0.2.53"), ADDRESS), (ANSWER.format("2001:db8::53"), ADDRESS)),
    "flock /var/lib/glb/lock sh -c 'printf \"capacity A 0": Block(
        ("sleep 2; journalctl -u glb@v4 -n 1 -o cat; flock /var/lib/glb/lock sh -c 'printf \"capacity A 9\\ncommit\\n\" >>/var/lib/glb/changes.log'; systemctl stop glb@v4; systemctl start glb-fleet@v4; sleep 4", r"published \d+"),
        before="systemctl stop glb-fleet@v4; systemctl start glb@v4 glb-feed@v4; sleep 2",
    ),
    "flock": Block(("sleep 1; journalctl -u glb@v4 -n 1 -o cat; journalctl -u glb@v6 -n 1 -o cat", "published 3\npublished 3")),
    "nft add table": Block(("nft list ruleset | grep -c 'limit rate over 200/second burst 400 packets'; nft delete table inet glb", "2")),
    "strace -f": Block(("strace -f -e trace=bind glb serve /etc/glb/topology.toml --listen 192.0.2.99:53 </dev/null 2>&1 >/dev/null | grep -c EADDRNOTAVAIL", "1")),
    "grep -avE": Block(("head -n 1 now.map; cat said", "glb map 2\npublished 1\npublished 2\npublished 3")),
    "tools/glb-numbers": Block(("glb check now.toml now.map", "good"), ("grep -c 'capacity = 9$' now.toml", "1")),
    "{ cat log": Block(("glb check <(sed 's/capacity = 9$/capacity = 0/' now.toml) then.map", "good"), ("tools/glb-moves now.map then.map | tail -n 1", r"\d+ groups, \d+ units moved, .*")),
    "printf 'capacity A 0\\n' | glb-append": Block(("sleep 2; glb-fleet | head -n 1; glb-log | grep -c 'A is down'; printf 'capacity A 9\\n' | glb-append", r"the log ends at entry \d+, .*\n1\n\d+")),
    "printf 'capacity A 0": Block(
        ("printf 'capacity A 0\\n' | tools/glb-plan --of now.toml now.map - --json | python3 -c 'import json, sys; print(type(json.load(sys.stdin)).__name__)'", "dict"),
        before="sed 's/^ttl = .*/ttl = 30/' now.toml >new.toml",
        # five units without a place
        finds=2,
    ),
    "tools/glb-drain A": Block(("grep '^capacity *A' log | tail -n 1; cat log.drains", "capacity  ?A 9\n?")),
    "install -m 644 examples/glb-drain.service": Block(
        ("systemctl start glb-drain; systemctl show --value -p Result glb-drain; systemctl is-active glb-drain.timer", "success\nactive"),
        ("systemctl disable --now glb-drain.timer 2>/dev/null; systemctl is-active glb-drain.timer", "inactive"),
    ),
    "apt-get install --no-install-recommends python3-prometheus-client": Block(
        ("grep -c '^glb_placed_units 15' /var/lib/prometheus/node-exporter/glb.prom", "1"),
        ("systemctl disable --now glb glb-show.timer 2>/dev/null; sleep 1; ls /var/lib/prometheus/node-exporter/glb.prom 2>/dev/null; systemctl is-active glb-metrics", "inactive"),
        ("systemctl disable glb-metrics 2>/dev/null; systemctl enable --now glb@v4 2>/dev/null; sleep 2; " + FOUR, "active\n" * 3 + "active"),
        before="systemctl disable --now glb@v4; systemctl enable --now glb; systemctl start prometheus-node-exporter",
    ),
    "install -m 644 examples/glb-metrics@.service": Block(
        ("grep -c '^glb_placed_units{server=\"v6\"} 15' /var/lib/prometheus/node-exporter/glb-v6.prom", "1"),
        ("python3 -c 'import urllib.request; print(urllib.request.urlopen(\"http://127.0.0.1:9100/metrics\").read().decode().count(\"\\nglb_shown_timestamp_seconds{\"))'", "2"),
    ),
    # no etcd is there yet
    "install -m 644 examples/glb-exporter.service": Block(
        ("curl -s http://127.0.0.1:9853/metrics | grep '^glb_log_up'; journalctl -t glb-exporter -n 1 -o cat", "glb_log_up 0.0\nglb-exporter: etcd: .*"),
        ("systemctl disable --now glb-exporter 2>/dev/null; systemctl is-active glb-exporter", "inactive"),
    ),
    "apt-get install --no-install-recommends python3-dnspython": Block(
        ("sleep 3; curl -s http://127.0.0.1:9855/state | grep -c '\"mirror\": true'", "1"),
        ("curl -s http://127.0.0.1:9855/ | grep -c 'of 15\\|of 16'; curl -s 'http://127.0.0.1:9855/why?q=g2' | grep -c 'Group g2'", "[1-9]\\d*\n1"),
        ("curl -s http://127.0.0.1:9855/ | grep -A 9 '<th scope=.row.>the server' | grep -c 'class=.tag good.>there'", "1"),
        ("curl -s -o /dev/null -w '%{http_code}' -H 'Host: evil.example' http://127.0.0.1:9855/", "421"),
        ("journalctl -t glb-page -o cat | grep -c '^glb-page: '", "0"),
    ),
    "install -m 640 -o root -g glb /dev/null /etc/glb/page-token": Block(
        ("curl -s -o /dev/null -w '%{http_code}' http://192.0.2.53:9855/", "401"),
        ("curl -s -u look:$(cat /etc/glb/page-token) http://192.0.2.53:9855/state | grep -c '\"mirror\": true'", "1"),
        ("systemctl disable --now glb-page 2>/dev/null; systemctl is-active glb-page; pgrep -u glb -f 'glb-shadow\\.' | wc -l", "inactive\n0"),
    ),
    # no Prometheus is there; the log and its servers are put back as they were behind the last of these
    "apt-get install --no-install-recommends python3-requests": Block(
        ("tools/glb-watch /etc/glb/watch.toml --once --dry-run | grep -c '^fault: .* Connection refused'", "2"),
        before="systemctl stop glb-feed@v4 glb-feed@v6 glb@v4 glb@v6; cp -a /var/lib/glb/changes.log /root/changes.kept",
    ),
    "install -m 644 examples/glb-watch.service": Block(
        ("sleep 3; systemctl is-active glb-watch; journalctl -t glb-watch -o cat | grep -c 'Connection refused'", "active\n2"),
        ("curl -s http://127.0.0.1:9854/metrics | grep '^glb_watch_up'; tools/glb-watch /etc/glb/watch.toml --once 2>&1", "glb_watch_up 0.0\nglb-watch: .* another glb-watch runs over it"),
    ),
    "tools/glb-watch /etc/glb/watch.toml --hand-back": Block(
        ("tail -n 1 /var/lib/glb/changes.log", "commit"),
        ("systemctl disable --now glb-watch 2>/dev/null; cp -a /root/changes.kept /var/lib/glb/changes.log; systemctl start glb@v4 glb@v6; sleep 3; " + FOUR, "active\n" * 3 + "active"),
        before="printf 'capacity A 10\\ndemand g1 8\\ncommit\\n' >>/var/lib/glb/changes.log",
    ),
    # all of it takes a quarter of an hour; one part alone shows that the command runs
    "apt-get install prometheus prometheus-blackbox-exporter nginx": Block(
        ("GLB=/usr/local/bin/glb examples/watch.sh down | tail -n 1", r"\d+ passed, 0 failed"),
        seconds=2,
    ),
    "apt-get install prometheus prometheus-blackbox-exporter\n": Block(
        ("sleep 5; curl -s 'http://127.0.0.1:9115/probe?module=glb_tcp&target=127.0.0.1:9115' | grep '^probe_success'", "probe_success 1"),
        ("curl -s 'http://127.0.0.1:9090/api/v1/targets' | grep -o 'job=\"[a-z-]*\"' | sort -u | wc -l; systemctl stop prometheus prometheus-blackbox-exporter", r"\d+"),
    ),
    "apt-get install nginx mtail": Block(
        ("curl -s -o /dev/null http://127.0.0.1/; sleep 1; tail -n 1 /var/log/nginx/glb-demand.log; systemctl stop nginx", r"g\d \d+"),
    ),
    "tail -n +1 -f": Block(("journalctl -u glb -n 3 -o cat; systemctl disable --now glb 2>/dev/null; systemctl start glb@v4; sleep 1; systemctl is-active glb@v4", "published 1\npublished 2\npublished 3\nactive"), before="systemctl stop glb@v4; systemctl disable glb-feed; sed -i '/^stop$/d' /var/lib/glb/changes.log; systemctl start glb; sleep 1", seconds=3),
    # its feed has ended already, so it opens both, and ends
    "glb serve /etc/glb/topology.toml --listen 192.0.2.53:53 --tcp": Block(
        ("glb serve /etc/glb/topology.toml --listen 192.0.2.53:53 --tcp 192.0.2.53:53 --workers 4 </dev/null 2>/dev/null; echo $?", "0"),
        ("systemctl start glb-fleet@v4; sleep 1; systemctl is-active glb-fleet@v4", "active"),
        before="systemctl stop glb-fleet@v4",
        seconds=5,
    ),
    "glb-launch -- glb serve": Block(
        ("glb-launch -- glb serve /etc/glb/topology.toml --listen 192.0.2.53:53 --tcp 192.0.2.53:53 --workers 4 </dev/null 2>/dev/null; echo $?", "0"),
        before="systemctl stop glb-fleet@v4",
        seconds=5,
    ),
    "install -D -m 644 examples/glb-launch.conf": Block(
        ("systemctl is-active glb; tr '\\0' ' ' </proc/$(systemctl show --value -p MainPID glb)/cmdline | grep -c 'glb-launch --stay'; " + ANSWER.format("192.0.2.53"), f"active\n1\n{ADDRESS}"),
        (ANSWER.format("192.0.2.53").replace("+short", "+short +tcp"), ADDRESS),
        ("systemctl stop glb; systemctl show --value -p Result glb; rm -r /etc/systemd/system/glb.service.d; systemctl daemon-reload", "success"),
    ),
    "nft add rule inet glb input udp dport 53 udp length": Block(
        ("nft list table inet glb | grep -c drop", "2"),
        before="nft add table inet glb; nft add chain inet glb input '{ type filter hook input priority 0; }'",
    ),
    "nft add chain inet glb counts": Block(("nft list table inet glb | grep -c counter; nft delete table inet glb; systemctl start glb-fleet@v4", "8")),
    "apt-get install etcd": Block(
        ("tr '\\0' ' ' </proc/$(systemctl show --value -p MainPID glb-follow@v4)/cmdline", ".*glb-follow --name .*"),
        ("sleep 3; glb-fleet", r"(?s)the log ends at entry 2, .*\n\S*-v4: there, entry 2 .*"),
        (ANSWER.format("192.0.2.53"), ADDRESS),
        ("nft list set inet glb_ready ready | grep -c 192.0.2.53", "1"),
        ("kill -9 $(systemctl show --value -p MainPID glb-fleet@v4); printf 'demand g1 7\\n' | glb-append; sleep 6; glb-fleet", r"(?s)3\n.*-v4: there, entry 3 .*"),
        ("kill -9 $(systemctl show --value -p MainPID glb-follow@v4); printf 'demand g1 8\\n' | glb-append; sleep 6; glb-fleet", r"(?s)4\n.*-v4: there, entry 4 .*"),
        ("systemctl stop glb-fleet@v4; sleep 1; nft list set inet glb_ready ready | grep -c 192.0.2.53; glb-fleet | grep -c 'v4: ended'; systemctl start glb-fleet@v4; sleep 4; nft list set inet glb_ready ready | grep -c 192.0.2.53", "0\n1\n1"),
        before="printf 'ETCD_LISTEN_CLIENT_URLS=http://192.0.2.1:2379\\nETCD_ADVERTISE_CLIENT_URLS=http://192.0.2.1:2379\\n' >/etc/default/etcd; systemctl start etcd; cp examples/tree.toml topology.toml",
    ),
    "glb-roll new.toml": Block(
        ("glb-fleet", r"(?s)the log ends at entry 6, .*\n\S*-v4: there, entry 6 .*"),
        before="sed 's/^ttl = .*/ttl = 30/' topology.toml >new.toml",
    ),
    "glb-append --cut": Block(("printf 'demand g1 5\\n' | glb-append; sleep 2; glb-fleet", r"(?s)7\n.*-v4: there, entry 7 .*")),
}
# blocks that documents.py runs, or that show a form
OTHERS = ("$ ", "glb serve TOPOLOGY", "ETCD_NAME=", "export ETCDCTL_API=3")
# commands of the text and its tables, behind which block they are run, and what they have to write
INLINE = [
    ("useradd --system", "systemctl start glb && sleep 2 && systemctl is-active glb && dig +tries=1 +time=1 @192.0.2.53 www.cdn.example A", "(?s)active.*status: NOERROR.*"),
    ("useradd --system", "nstat -az UdpRcvbufErrors Udp6RcvbufErrors", "(?s).*UdpRcvbufErrors .*"),
    ("useradd --system", "ss -lunm 'sport = :53'", r"(?s).*skmem:\(r0,rb\d+,t0,tb\d+,.*"),
    ("useradd --system", "systemctl show --value -p NRestarts glb", "0"),
    ("useradd --system", "nstat -az UdpInDatagrams UdpOutDatagrams", "(?s).*UdpInDatagrams .*"),
    ("useradd --system", "ss -lunp 'sport = :53'", '(?s).*"glb".*'),
    ("mkdir -p /var/lib/glb", "systemctl is-active glb glb-feed", "active\nactive"),
]


class Shell:
    """One shell for all, that says which of its commands fail."""

    def __init__(self):
        self.process = subprocess.Popen(["bash"], stdin=subprocess.PIPE, stdout=subprocess.PIPE, stderr=subprocess.STDOUT, cwd=TOP)
        self.folder = tempfile.mkdtemp()
        self.count = 0

    def run(self, text, seconds=None):
        self.count += 1
        file = Path(self.folder) / str(self.count)
        file.write_text(text + "\n")
        if seconds:
            line = f"timeout {seconds} bash {file} </dev/null\n"
        else:
            line = f"trap 'echo failed: $BASH_COMMAND' ERR; . {file} </dev/null; trap - ERR\n"
        self.process.stdin.write(f"{line}echo; echo end-of-{self.count}\n".encode())
        self.process.stdin.flush()
        said = b""
        while not said.endswith(f"\nend-of-{self.count}\n".encode()):
            octets = self.process.stdout.readline()
            if not octets:
                sys.exit(f"the shell ended: {said.decode()}")
            said += octets
        return said.decode().rsplit("\n", 2)[0].strip("\n")


def blocks():
    found = []
    for piece in re.findall(r"(?:^    .+\n)+", DOCUMENT, re.M):
        found.append("\n".join(line[4:] for line in piece.splitlines()))
    return [text for text in found if not text.startswith(OTHERS)]


class Tally:
    passed = failed = 0

    def take(self, is_so, text):
        if is_so:
            self.passed += 1
        else:
            self.failed += 1
            print(f"not so: {text}", flush=True)


def main():
    shell, tally, waiting = Shell(), Tally(), []
    def run(text, entry):
        if entry.before:
            shell.run(entry.before)
        said = shell.run(text, entry.seconds)
        print(f"$ {text}\n{said}", flush=True)
        tally.take(said.count("failed: ") == entry.finds, f"a command of the block fails: {text}")
        checks = [(command, wanted) for start, command, wanted in INLINE if text.startswith(start)]
        for command, _ in checks:
            tally.take(command in DOCUMENT, f"the document does not say {command}")
        for command, wanted in [*entry.checks, *checks]:
            said = "\n".join(line for line in shell.run(command).splitlines() if not line.startswith("failed: "))
            tally.take(re.fullmatch(wanted, said), f"{command}\n    writes {said!r}\n    wanted {wanted!r}")

    for text in blocks():
        entry = next((BLOCKS[start] for start in BLOCKS if text.startswith(start)), None)
        if entry is None:
            tally.take(False, f"a block that is not known here: {text}")
        elif entry.last:
            waiting.append((text, entry))
        else:
            run(text, entry)
    for text, entry in waiting:
        run(text, entry)
    print(f"{tally.passed} passed, {tally.failed} failed")
    sys.exit(1 if tally.failed else 0)


if __name__ == "__main__":
    main()
