#!/usr/bin/env python3
"""What serve.sh runs: loads `glb serve`, gdnsd and Knot with dnsperf over one world, one after another.

    serve.py WORK [GROUPS [SECONDS]]        with the program in GLB

The world is that of large_world.py with sixteen times its capacities, so that each group is placed. gdnsd and Knot get, for each group's prefix, the pool that holds most of the group
in glb's map, so that all three look a client up among the same prefixes and answer one address. Queries come from
127.0.0.1; those with client subnets name a network of 24 bits of each group in turn.
"""

import os
import re
import shutil
import socket
import struct
import subprocess
import sys
import threading
import time
from pathlib import Path

HERE = Path(__file__).resolve().parent
GLB = os.environ["GLB"]
WORK = Path(sys.argv[1])
GROUPS = int(sys.argv[2]) if len(sys.argv) > 2 else 1024
SECONDS = int(sys.argv[3]) if len(sys.argv) > 3 else 10
NAME = b"\3www\3cdn\7example\0"
TICK = os.sysconf("SC_CLK_TCK")


def query(number=None):
    """A query, with the client subnet of that group where there is one."""
    options = b""
    if number is not None:
        options = struct.pack(">HHHBBBBB", 8, 7, 1, 24, 0, 100, 64 + number // 256, number % 256)
    opt = b"\0" + struct.pack(">HHIH", 41, 1232, 0, len(options)) + options
    return struct.pack(">HHHHHH", 1, 0x0100, 1, 0, 0, 1) + NAME + struct.pack(">HH", 1, 1) + opt


def write_queries():
    """dnsperf's input, as messages with their lengths ahead: without and with client subnets."""
    with (WORK / "plain").open("wb") as file:
        octets = query()
        file.write((struct.pack(">H", len(octets)) + octets) * GROUPS)
    with (WORK / "subnets").open("wb") as file:
        for number in range(GROUPS):
            octets = query(number)
            file.write(struct.pack(">H", len(octets)) + octets)


def first_answer(port):
    """Waits until the port answers, twenty seconds at most."""
    end = time.monotonic() + 20
    while time.monotonic() < end:
        with socket.socket(socket.AF_INET, socket.SOCK_DGRAM) as client:
            client.settimeout(0.02)
            try:
                client.connect(("127.0.0.1", port))
                client.send(query())
                # before the server is bound, the system may give a client that very port, which then hears itself
                if client.recv(4096)[2] & 0x80:
                    return
            except OSError:
                time.sleep(0.001)
    raise SystemExit(f"nobody answers at port {port}")


def free_port():
    with socket.socket(socket.AF_INET, socket.SOCK_DGRAM) as probe:
        probe.bind(("127.0.0.1", 0))
        return probe.getsockname()[1]


def family_of(pid):
    """A process and all below it."""
    found = [pid]
    for path in Path("/proc").glob("[0-9]*/stat"):
        try:
            fields = path.read_text().rsplit(")", 1)[1].split()
        except OSError:
            continue
        if int(fields[1]) == pid:
            found += family_of(int(path.parent.name))
    return found


def processor(pid):
    """Seconds of user and system time of a process and those below it."""
    user = system = 0
    for each in family_of(pid):
        fields = Path(f"/proc/{each}/stat").read_text().rsplit(")", 1)[1].split()
        user, system = user + int(fields[11]), system + int(fields[12])
    return user / TICK, system / TICK


class Server:
    """A server that answers on a port, and how long it took to its first answer."""

    def __init__(self, name, words, port):
        self.name, self.port = name, port
        start = time.monotonic()
        self.process = subprocess.Popen(words, stdin=subprocess.PIPE, stdout=subprocess.PIPE, stderr=subprocess.DEVNULL)
        self.lines = 0
        threading.Thread(target=self.drain, daemon=True).start()
        first_answer(port)
        self.start = time.monotonic() - start

    def drain(self):
        for _ in self.process.stdout:
            self.lines += 1

    def __enter__(self):
        return self

    def __exit__(self, *_):
        if self.name.startswith("glb"):
            self.process.stdin.write(b"stop\n")
            self.process.stdin.close()
        else:
            self.process.terminate()
        self.process.wait(30)


def load(server, queries, seconds=SECONDS, rate=None):
    """Queries a second, the share that was lost, microseconds of user and system time a query, and how many were answered."""
    before = processor(server.process.pid)
    words = ["dnsperf", "-s", "127.0.0.1", "-p", str(server.port), "-B", "-d", str(WORK / queries), "-l", str(seconds), "-T", "2", "-c", "8", "-q", "200", "-t", "1"]
    text = subprocess.run(words + (["-Q", str(rate)] if rate else []), capture_output=True, text=True).stdout
    after = processor(server.process.pid)
    sent = int(re.search(r"Queries sent:\s+(\d+)", text).group(1))
    done = int(re.search(r"Queries completed:\s+(\d+)", text).group(1))
    elapsed = float(re.search(r"Run time \(s\):\s+([\d.]+)", text).group(1))
    if not re.search(rf"NOERROR {done}\b", text):
        print(f"not all replies of {server.name} are answers:", re.findall(r"Response codes:.*", text))
    user, system = ((b - a) * 1e6 / max(done, 1) for a, b in zip(before, after))
    return done / elapsed, 1 - done / sent, user, system, done


def row(server, queries):
    rate, lost, user, system, _ = load(server, queries)
    print(f"| {server.name} | {queries} | {rate:,.0f} | {100 * lost:.2f} % | {user:.2f} | {system:.2f} | {user + system:.2f} |", flush=True)
    return rate


def syscalls(server):
    """Syscalls a query while queries wait, by strace."""
    if shutil.which("strace") is None:
        return
    pids = [word for pid in family_of(server.process.pid) for word in ("-p", str(pid))]
    trace = subprocess.Popen(["strace", "-f", "-c", "-U", "name,calls", *pids, "-o", str(WORK / "strace")], stderr=subprocess.DEVNULL)
    time.sleep(0.5)
    done = load(server, "subnets", 3)[4]
    trace.terminate()
    trace.wait()
    counts = [(name, int(count)) for name, count in re.findall(r"^(\w+)\s+(\d+)$", (WORK / "strace").read_text(), re.M) if name != "total"]
    each = ", ".join(f"{name} {count / done:.3f}" for name, count in counts if count * 1000 >= done)
    print(f"syscalls of {server.name}: {sum(count for _, count in counts) / done:.3f} a query, over {done:,} queries ({each})")


def glb(workers, program=GLB):
    port = free_port()
    words = [program, "serve", str(WORK / "topology"), "--listen", f"127.0.0.1:{port}", "--workers", str(workers)]
    return Server(f"glb, {workers}", words, port)


def read_world():
    """Of each group its prefix, and the address of the pool that holds most of it."""
    text = (WORK / "topology").read_text()
    address = dict(re.findall(r'name = "(r\d+-\d)".*?a = \["([\d.]+)"\]', text, re.S))
    most = {}
    for line in (WORK / "map").read_text().splitlines():
        words = line.split()
        if words[0] == "place" and int(words[3]) > most.get(words[1], (0, ""))[0]:
            most[words[1]] = (int(words[3]), words[2])
    nowhere = next(iter(address.values()))
    default, nets = nowhere, []
    for number in range(GROUPS):
        units, pool = most.get(f"g{number}", (0, ""))
        if number == 0:
            default = address.get(pool, nowhere)
        else:
            nets.append((f"100.{64 + number // 256}.{number % 256}.0/24", address.get(pool, nowhere)))
    return default, nets


ZONE = """@ SOA ns1.ops.example. admin.ops.example. 1 3600 600 86400 60
@ NS ns1.ops.example.
@ NS ns2.ops.example.
"""


def gdnsd(threads, default, nets):
    """gdnsd, with a datacenter for each pool's address."""
    top, port = WORK / f"gdnsd{threads}", free_port()
    for folder in ("zones", "run", "state"):
        (top / folder).mkdir(parents=True, exist_ok=True)
    places = {default: "d0"}
    for _, address in nets:
        places.setdefault(address, f"d{len(places)}")
    lines = "\n".join(f"      {net} => [ {places[address]} ]" for net, address in nets)
    # a network of every client, behind which the more specific ones come first
    (top / "config").write_text(
        f"options => {{ listen => [ 127.0.0.1:{port} ], udp_threads => {threads}, tcp_threads => 1,\n"
        f"  run_dir => {top}/run, state_dir => {top}/state, zones_default_ttl => 20 }}\n"
        f"plugins => {{ geoip => {{\n"
        f"  maps => {{ m => {{ datacenters => [ {', '.join(places.values())} ],\n    nets => {{\n{lines}\n    }} }} }}\n"
        f"  resources => {{ www => {{ map => m, dcmap => {{ {', '.join(f'{d} => {a}' for a, d in places.items())} }} }} }}\n}} }}\n"
    )
    (top / "zones/cdn.example").write_text(ZONE + "www 20 DYNA geoip!www\n")
    return Server(f"gdnsd, {threads}", ["gdnsd", "-c", str(top), "start"], port)


def knot(threads, default, nets):
    """Knot, with its geoip module by networks."""
    top, port = WORK / f"knot{threads}", free_port()
    (top / "run").mkdir(parents=True, exist_ok=True)
    (top / "geo").write_text("www.cdn.example:\n" + "".join(f"  - net: {net}\n    A: {address}\n" for net, address in [("0.0.0.0/0", default), *nets]))
    (top / "cdn.example").write_text("$TTL 20\n" + ZONE + f"www A {default}\n")
    (top / "config").write_text(
        f"server:\n  listen: 127.0.0.1@{port}\n  udp-workers: {threads}\n  tcp-workers: 1\n  background-workers: 1\n"
        f"  rundir: {top}/run\n  edns-client-subnet: on\n"
        f"database:\n  storage: {top}\n"
        f"mod-geoip:\n  - id: geo\n    config-file: {top}/geo\n    ttl: 20\n    mode: subnet\n"
        f"zone:\n  - domain: cdn.example\n    file: {top}/cdn.example\n    module: mod-geoip/geo\n"
    )
    return Server(f"knot, {threads}", ["knotd", "-c", str(top / "config")], port)


def publish(server, ends):
    """A change and a commit every 10 ms."""
    number = 0
    while not ends.is_set():
        number += 1
        server.process.stdin.write(f"capacity r0-0 {160 + number % 2}\ncommit\n".encode())
        server.process.stdin.flush()
        time.sleep(0.01)


def while_published(server, rate):
    """What is lost at half the full rate, without and with a map every 10 ms."""
    lost = [load(server, "subnets", rate=rate // 2)[1]]
    ends, lines = threading.Event(), server.lines
    writer = threading.Thread(target=publish, args=(server, ends))
    writer.start()
    lost.append(load(server, "subnets", rate=rate // 2)[1])
    ends.set()
    writer.join()
    print(f"{server.name} at {rate // 2:,} queries a second: {100 * lost[0]:.3f} % lost, {100 * lost[1]:.3f} % while {server.lines - lines} maps were published")


def make_world():
    """Writes topology, map and queries. Answers what read_world does."""
    text = subprocess.run([sys.executable, str(HERE / "large_world.py"), str(GROUPS)], capture_output=True, text=True, check=True).stdout
    (WORK / "topology").write_text(re.sub(r"capacity = (\d+)", lambda found: f"capacity = {16 * int(found.group(1))}", text))
    with (WORK / "map").open("w") as file:
        subprocess.run([GLB, "map", str(WORK / "topology")], stdout=file, check=True)
    write_queries()
    return read_world()


def main():
    default, nets = make_world()
    print(f"{GROUPS} groups, {SECONDS} s a row, load {os.getloadavg()[0]:.1f} at the start")
    print("| Server, threads | Queries | a second | lost | user, µs | system, µs | both, µs |\n|---|---|---|---|---|---|---|")
    starts, counted = [], []
    for workers in (1, 2, 3):
        makers = [lambda: glb(workers)]
        makers += [lambda: gdnsd(workers, default, nets)] if shutil.which("gdnsd") else []
        makers += [lambda: knot(workers, default, nets)] if shutil.which("knotd") else []
        for make in makers:
            with make() as server:
                starts.append(f"{server.name}: {server.start:.2f} s")
                row(server, "plain")
                rate = row(server, "subnets")
                if workers == 1:
                    counted.append(server.name)
                    syscalls(server)
                if server.name.startswith("glb"):
                    while_published(server, int(rate))
    print("from start to first answer: " + "; ".join(starts))


if __name__ == "__main__":
    main()
