#!/usr/bin/env python3
"""Instructions of a query in the process of the server itself: builds of `glb serve` beside gdnsd and Knot over one world.

    own_work.py WORK GROUPS GLB..        the programs by their whole paths; the first one makes the map of the world

The world and the queries are those of serve.py. Each server runs under callgrind, which counts what the process does in
user mode, its C library included, and says the same on a busy machine. It gets 1,984 queries and then 3,968, one behind the
other or 32 at once, and the difference counts, so a start and an end do not. One outstanding query takes gdnsd and Knot a
whole call that reads and sends many; with 32 they share it. Needs valgrind, and gdnsd and Knot if they are to be there.
"""

import os
import re
import shutil
import socket
import subprocess
import sys
import time

PROGRAMS = sys.argv[3:]
os.environ["GLB"] = PROGRAMS[0]
del sys.argv[3:]

import serve  # noqa: E402

FEWER, MORE = 32 * 62, 32 * 124
popen = subprocess.Popen


def messages(kind):
    """The queries of a file of serve.py."""
    octets, found = (serve.WORK / kind).read_bytes(), []
    while octets:
        size = int.from_bytes(octets[:2], "big")
        found.append(octets[2 : 2 + size])
        octets = octets[2 + size :]
    return found


def begin(make, profile):
    """A server under callgrind, which nobody has waited for."""

    def counted(words, **more):
        return popen(
            ["valgrind", "--tool=callgrind", f"--callgrind-out-file={profile}", *words], **more
        )

    waits = serve.first_answer
    serve.subprocess.Popen, serve.first_answer = counted, lambda port: None
    try:
        return make()
    finally:
        serve.subprocess.Popen, serve.first_answer = popen, waits


def wait_until_it_answers(client, query):
    """Waits five minutes at most, and then until nothing comes any more."""
    client.settimeout(0.3)
    end, answered = time.monotonic() + 300, False
    while not answered:
        if time.monotonic() > end:
            raise SystemExit("a server did not answer")
        try:
            client.send(query)
            client.recv(2000)
            answered = True
        except OSError:
            time.sleep(0.1)
    try:
        while True:
            client.recv(2000)
    except OSError:
        pass


def counted(make, queries, count, at_once):
    """Instructions of a server that gets so many queries."""
    profile = serve.WORK / "own_work"
    with begin(make, profile) as server:
        with socket.socket(socket.AF_INET, socket.SOCK_DGRAM) as client:
            client.connect(("127.0.0.1", server.port))
            wait_until_it_answers(client, queries[0])
            client.settimeout(60)
            for first in range(0, count, at_once):
                for number in range(at_once):
                    client.send(queries[(first + number) % len(queries)])
                for _ in range(at_once):
                    client.recv(2000)
    return int(
        re.findall(r"^(?:totals|summary): (\d+)", profile.read_text(errors="replace"), re.M)[-1]
    )


def main():
    default, nets = serve.make_world()
    makers = [(program, lambda program=program: serve.glb(1, program)) for program in PROGRAMS]
    makers += [("gdnsd", lambda: serve.gdnsd(1, default, nets))] if shutil.which("gdnsd") else []
    makers += [("Knot", lambda: serve.knot(1, default, nets))] if shutil.which("knotd") else []
    print(
        "| | plain | subnets | plain, 32 at once | subnets, 32 at once |\n|---|---|---|---|---|",
        flush=True,
    )
    for name, make in makers:
        row = []
        for at_once in (1, 32):
            for kind in ("plain", "subnets"):
                queries = messages(kind)
                more = counted(make, queries, MORE, at_once) - counted(
                    make, queries, FEWER, at_once
                )
                row.append(f"{more / (MORE - FEWER):,.0f}")
        print("| " + " | ".join([name, *row]) + " |", flush=True)


main()
