#!/usr/bin/env python3
"""How long a server takes to its first answer, and a commit to its line, in a world of `generate.py`.

    generate.py 65536 2048 8 95 TOPOLOGY
    start.py TOPOLOGY [RUNS]

Each run starts `glb serve` with two workers on a port of 127.0.0.1, asks until an answer comes, and then commits
batches of 1, 1, 64 and 4,096 changed demands, drawn from 1 to twice what they were. It prints seconds of the clock
and of the processor, and the memory that the process holds and held at most. GLB names the program.
"""

import os
import random
import re
import socket
import subprocess
import sys
import time
from pathlib import Path

TOP = Path(__file__).resolve().parent.parent
GLB = os.environ.get("GLB", str(TOP / "crates/glb_program/out/glb_program"))
QUERY = bytes.fromhex("123401000001000000000000") + b"\x03www\x03cdn\x07example\x00\x00\x01\x00\x01"
GROUP = re.compile(r'^\[\[group\]\]\nname = "([^"]+)"\ndemand = (\d+)', re.MULTILINE)
TICKS = os.sysconf("SC_CLK_TCK")
BATCHES = (1, 1, 64, 4096)


def processor(pid):
    fields = Path(f"/proc/{pid}/stat").read_text().rsplit(")", 1)[1].split()
    return (int(fields[11]) + int(fields[12])) / TICKS


def megabytes(pid, word):
    status = Path(f"/proc/{pid}/status").read_text()
    return int(re.search(rf"{word}:\s+(\d+)", status)[1]) // 1024


def free_port():
    with socket.socket(socket.AF_INET, socket.SOCK_DGRAM) as held:
        held.bind(("127.0.0.1", 0))
        return held.getsockname()[1]


def wait_for_answer(port):
    with socket.socket(socket.AF_INET, socket.SOCK_DGRAM) as client:
        client.connect(("127.0.0.1", port))
        client.settimeout(0.005)
        while True:
            try:
                client.send(QUERY)
                client.recv(4096)
                return
            except OSError:
                time.sleep(0.002)


def run(topology, groups, seed):
    port = free_port()
    words = [GLB, "serve", topology, "--listen", f"127.0.0.1:{port}", "--workers", "2"]
    begun = time.monotonic()
    server = subprocess.Popen(words, stdin=subprocess.PIPE, stdout=subprocess.PIPE, stderr=subprocess.DEVNULL)
    wait_for_answer(port)
    clock = time.monotonic() - begun
    print(f"first answer {clock:.2f} s, {processor(server.pid):.2f} s of processor, {megabytes(server.pid, 'VmRSS')} MB")
    draw = random.Random(seed)
    for size in BATCHES:
        if size > len(groups):
            continue
        batch = draw.sample(groups, size)
        lines = "".join(f"demand {name} {draw.randint(1, 2 * int(demand))}\n" for name, demand in batch)
        before, begun = processor(server.pid), time.monotonic()
        server.stdin.write(f"{lines}commit\n".encode())
        server.stdin.flush()
        said = server.stdout.readline().decode().strip()
        clock = time.monotonic() - begun
        print(f"{size} changes: {said}, {clock:.2f} s, {processor(server.pid) - before:.2f} s of processor")
    server.stdin.write(b"show\n")
    server.stdin.flush()
    print(server.stdout.readline().decode().strip())
    print(f"{megabytes(server.pid, 'VmRSS')} MB, at most {megabytes(server.pid, 'VmHWM')} MB")
    server.stdin.close()
    print(f"status {server.wait()}")


def main():
    topology, runs = sys.argv[1], int(sys.argv[2]) if len(sys.argv) > 2 else 3
    groups = GROUP.findall(Path(topology).read_text())
    for seed in range(runs):
        run(topology, groups, seed)


if __name__ == "__main__":
    main()
