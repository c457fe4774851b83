#!/usr/bin/env python3
"""What a server does at tight limits of the system: of stacks, of memory (addresses) and of descriptors.

    small_limits.py

Each row starts `glb serve examples/tree.toml` with four workers and TCP under one limit, asks it by UDP and by TCP, sends it a
commit and lets it end. It prints what was answered and the status. Allowed are answers both ways with status 0, or no start with
status 5 (descriptors, or memory of TCP) or 8 (threads, stacks, memory). Anything else, as a signal, a server that hangs or one
that answers nothing and says 0, is named, and the script's own status is then 1. GLB names the program.
"""

import os
import resource
import socket
import subprocess
import sys
import time
from pathlib import Path

from start import GLB, QUERY

TOP = Path(__file__).resolve().parent.parent
WORKERS = 4
LIMITS = (
    ("stack, KiB", resource.RLIMIT_STACK, 1 << 10, (16, 24, 32, 48, 64, 128, 8192), (8,)),
    ("addresses, MiB", resource.RLIMIT_AS, 1 << 20, (6, 10, 14, 18, 22, 26, 30, 40, 60, 100, 200), (5, 8)),
    ("descriptors", resource.RLIMIT_NOFILE, 1, (5, 6, 7, 8, 9, 10, 12, 14, 16, 20, 32, 64), (5,)),
)


def free_port():
    """A port that is free for UDP and for TCP."""
    while True:
        with socket.socket(socket.AF_INET, socket.SOCK_DGRAM) as held:
            held.bind(("127.0.0.1", 0))
            with socket.socket(socket.AF_INET, socket.SOCK_STREAM) as listener:
                try:
                    listener.bind(held.getsockname())
                    return held.getsockname()[1]
                except OSError:
                    continue


def answers(port):
    """How an answer came: by UDP, by TCP."""
    came = []
    for kind in (socket.SOCK_DGRAM, socket.SOCK_STREAM):
        with socket.socket(socket.AF_INET, kind) as asker:
            asker.settimeout(2)
            query = QUERY if kind == socket.SOCK_DGRAM else len(QUERY).to_bytes(2, "big") + QUERY
            try:
                asker.connect(("127.0.0.1", port))
                asker.send(query)
                came.append(len(asker.recv(4096)) > 12)
            except OSError:
                came.append(False)
    return came


def row(which, octets):
    """The answers of a server under a limit, and its status; None where it had to be killed."""
    port = free_port()
    place = f"127.0.0.1:{port}"
    words = [GLB, "serve", str(TOP / "examples/tree.toml"), "--listen", place, "--workers", str(WORKERS), "--tcp", place]
    pipe = subprocess.PIPE
    limit = lambda: resource.setrlimit(which, (octets, octets))  # noqa: E731
    server = subprocess.Popen(words, stdin=pipe, stdout=pipe, stderr=subprocess.DEVNULL, preexec_fn=limit)
    until = time.time() + 10
    came = answers(port)
    while not all(came) and server.poll() is None and time.time() < until:
        time.sleep(0.1)
        came = answers(port)
    try:
        server.communicate(b"demand g1 12\ncommit\nstop\n", timeout=20)
    except subprocess.TimeoutExpired:
        server.kill()
        server.wait()
        return came, None
    return came, server.returncode


def main():
    wrong = 0
    for name, which, unit, sizes, refusals in LIMITS:
        for size in sizes:
            came, status = row(which, size * unit)
            well = (status == 0 and all(came)) or (status in refusals and not any(came))
            wrong += not well
            words = ", ".join(f"{way} {'answers' if did else 'nothing'}" for way, did in zip(("UDP", "TCP"), came))
            print(f"{name} {size:5}: {words}, status {status}{'' if well else '  WRONG'}", flush=True)
    print(f"{wrong} wrong")
    sys.exit(1 if wrong else 0)


if __name__ == "__main__":
    os.chdir(TOP)
    main()
