#!/usr/bin/env python3
"""Messages a second over TCP, and processor time a message and a conversation, of `glb serve`, Knot and NSD in one run.

    apt-get update
    apt-get install dnsperf knot nsd
    bench/conversations_beside.py [SECONDS]      five seconds a row if it is not given

Each server answers one address of www.cdn.example by one worker. dnsperf asks on twenty connections that stay open; then
five thousand conversations of one question each are held one after another by one client, whose own time bounds how
many there are a second: the processor time of the server is what compares. GLB names the program, the built one if it is
not set.
"""

import os
import re
import socket
import struct
import subprocess
import sys
import tempfile
import time
from pathlib import Path

TOP = Path(__file__).resolve().parent.parent
GLB = os.environ.get("GLB", str(TOP / "crates/glb_program/out/glb_program"))
SECONDS = int(sys.argv[1]) if len(sys.argv) > 1 else 5
CONVERSATIONS = 5_000
TICK = os.sysconf("SC_CLK_TCK")
QUERY = struct.pack(">HHHHHH", 0x1234, 0x0100, 1, 0, 0, 0) + b"\3www\3cdn\7example\0" + struct.pack(">HH", 1, 1)
ZONE = "$ORIGIN cdn.example.\n@ 60 IN SOA ns1.cdn.example. admin.cdn.example. 1 3600 600 86400 60\n@ 60 IN NS ns1\nns1 60 IN A 192.0.2.1\nwww 20 IN A 192.0.2.1\n"
KNOT = "server:\n  listen: 127.0.0.1@{port}\n  rundir: {work}\n  udp-workers: 1\n  tcp-workers: 1\n  background-workers: 1\ndatabase:\n  storage: {work}\nzone:\n  - domain: cdn.example\n    file: {work}/zone\n"
NSD = 'server:\n  ip-address: 127.0.0.1@{port}\n  server-count: 1\n  username: ""\n  zonesdir: "{work}"\n  xfrdfile: "{work}/xfrd.state"\n  zonelistfile: "{work}/zone.list"\n  pidfile: ""\n  tcp-count: 200\n  rrl-ratelimit: 0\nremote-control:\n  control-enable: no\nzone:\n  name: cdn.example\n  zonefile: "zone"\n'


def free_port():
    with socket.socket() as probe:
        probe.bind(("127.0.0.1", 0))
        return probe.getsockname()[1]


def commands(work, name, port):
    """How a server is started at that port."""
    if name == "glb":
        listen = f"127.0.0.1:{port}"
        return [GLB, "serve", str(TOP / "examples/tree.toml"), "--listen", listen, "--workers", "1", "--tcp", listen]
    (work / "zone").write_text(ZONE)
    (work / name).write_text((KNOT if name == "knotd" else NSD).format(work=work, port=port))
    return [name, "-c", str(work / name)] if name == "knotd" else [name, "-d", "-c", str(work / name)]


def group_of(pid):
    """A process and all that it began."""
    found = [pid]
    for at in found:
        found += [int(child) for child in subprocess.run(["ps", "-o", "pid=", "--ppid", str(at)], capture_output=True, text=True).stdout.split()]
    return found


def seconds_of(pid):
    total = 0
    for one in group_of(pid):
        fields = Path(f"/proc/{one}/stat").read_text().rpartition(")")[2].split()
        total += int(fields[11]) + int(fields[12])
    return total / TICK


def converse(port):
    with socket.create_connection(("127.0.0.1", port), 5) as client:
        client.sendall(struct.pack(">H", len(QUERY)) + QUERY)
        with client.makefile("rb") as stream:
            return stream.read(struct.unpack(">H", stream.read(2))[0])


def measure(name, port, pid, work):
    (work / "queries").write_text("www.cdn.example A\n")
    used = seconds_of(pid)
    told = subprocess.run(["dnsperf", "-m", "tcp", "-s", "127.0.0.1", "-p", str(port), "-d", str(work / "queries"), "-c", "20", "-q", "200", "-l", str(SECONDS)], capture_output=True, text=True).stdout
    sent, done = (int(re.search(rf"Queries {what}: +(\d+)", told).group(1)) for what in ("sent", "completed"))
    used = seconds_of(pid) - used
    began, start, right = seconds_of(pid), time.monotonic(), 0
    for _ in range(CONVERSATIONS):
        right += converse(port)[3] & 15 == 0
    took, spent = time.monotonic() - start, seconds_of(pid) - began
    print(f"| {name} | {done / SECONDS:,.0f} | {sent - done} | {1e6 * used / done:.2f} us | {CONVERSATIONS / took:,.0f} | {1e6 * spent / CONVERSATIONS:.1f} us | {right} of {CONVERSATIONS} |", flush=True)


def main():
    print("| Server | Messages a second, on 20 connections | Lost | Processor a message | Conversations a second | Processor a conversation | Answered |\n|---|---|---|---|---|---|---|")
    for name in ["glb", "knotd", "nsd"]:
        with tempfile.TemporaryDirectory() as folder:
            work, port = Path(folder), free_port()
            with subprocess.Popen(commands(work, name, port), stdin=subprocess.PIPE, stdout=subprocess.DEVNULL, stderr=subprocess.DEVNULL) as server:
                start = time.monotonic()
                while True:
                    try:
                        converse(port)
                        break
                    except OSError:
                        if server.poll() is not None or time.monotonic() - start > 20:
                            sys.exit(f"no answer from {' '.join(server.args)}")
                        time.sleep(0.1)
                measure(name, port, server.pid, work)
                server.stdin.close()
                server.terminate()


main()
