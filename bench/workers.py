#!/usr/bin/env python3
"""What workers.sh runs: `glb serve` with one, two and three workers, beside another build of it, gdnsd and Knot, in turns.

    workers.py WORK [GROUPS [SECONDS [ROUNDS]]]      with the program in GLB, another one in GLB_OTHER, flood in WORK

Queries are those with client subnets, or the plain ones where QUERIES is `plain`.

The server has as many processors as workers, and the client (flood.c) all others; so with three workers on four
processors it is the client that bounds the queries a second, and the processor time of a query is what compares. 256
queries are on their way.
"""

import os
import shutil
import statistics
import subprocess
import sys

import serve

ROUNDS = int(sys.argv[4]) if len(sys.argv) > 4 else 3
QUERIES = "plain" if os.environ.get("QUERIES") == "plain" else "subnets"
PROCESSORS = os.cpu_count()


def ask(server, workers):
    """Queries a second, microseconds of user and system time a query, the share given up, and how busy the server was."""
    first = min(workers, PROCESSORS - 1)
    for pid in serve.family_of(server.process.pid):
        subprocess.run(["taskset", "-a", "-cp", f"0-{first - 1}", str(pid)], capture_output=True)
    threads = 2 if PROCESSORS - first > 1 else 1
    words = [
        str(serve.WORK / "flood"),
        str(server.port),
        str(serve.SECONDS),
        str(threads),
        str(32 // threads),
        "8",
        str(serve.WORK / QUERIES),
    ]
    before = serve.processor(server.process.pid)
    told = subprocess.run(
        ["taskset", "-c", f"{first}-{PROCESSORS - 1}", *words],
        capture_output=True,
        text=True,
        check=True,
    ).stdout.split()
    after = serve.processor(server.process.pid)
    sent, got, lost, seconds = int(told[0]), int(told[1]), int(told[2]), float(told[3])
    user, system = ((b - a) * 1e6 / max(got, 1) for a, b in zip(before, after))
    return (
        got / seconds,
        user,
        system,
        100 * lost / max(sent, 1),
        (sum(after) - sum(before)) / seconds,
    )


def main():
    default, nets = serve.make_world()
    other = os.environ.get("GLB_OTHER")
    makers = [("glb", lambda n: serve.glb(n))]
    makers += [("the other", lambda n: serve.glb(n, other))] if other else []
    makers += [("gdnsd", lambda n: serve.gdnsd(n, default, nets))] if shutil.which("gdnsd") else []
    makers += [("knot", lambda n: serve.knot(n, default, nets))] if shutil.which("knotd") else []
    rows = {}
    for _ in range(ROUNDS):
        for workers in (1, 2, 3):
            for name, make in makers:
                with make(workers) as server:
                    rows.setdefault((workers, name), []).append(ask(server, workers))
    print(
        f"{serve.GROUPS} groups, {QUERIES} queries, medians of {ROUNDS} rows of {serve.SECONDS} s, load {os.getloadavg()[0]:.1f} at the end"
    )
    print(
        "| Workers | Server | a second | user, µs | system, µs | both, µs | lost | processors busy |\n|---|---|---|---|---|---|---|---|"
    )
    for (workers, name), found in sorted(rows.items()):
        rate, user, system, lost, busy = (statistics.median(column) for column in zip(*found))
        both = statistics.median(row[1] + row[2] for row in found)
        print(
            f"| {workers} | {name} | {rate:,.0f} | {user:.2f} | {system:.2f} | {both:.2f} | {lost:.2f} % | {busy:.2f} |"
        )


main()
