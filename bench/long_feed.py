#!/usr/bin/env python3
"""What a server's memory does over thousands of commits, in a world of `generate.py`; and whether another program, if GLB_OTHER
names one, publishes the same maps.

    generate.py 1024 256 4 95 TOPOLOGY
    long_feed.py TOPOLOGY [COMMITS [CHANGES]]

It starts `glb serve` with one worker on a port of 127.0.0.1 and commits COMMITS batches (8,000 where it is not said)
of CHANGES changed demands (1), drawn from 1 to twice what they are in the file, which frees units again and again.
After each eighth of them it prints how many there were, the memory that the process holds, and the seconds of the
clock that they took. The other program gets the same lines, and has to say the same and to put the same octets on its maps.
GLB names the program.
"""

import os
import random
import subprocess
import sys
import threading
import time
from pathlib import Path

from start import GLB, GROUP, free_port, megabytes

OTHER = os.environ.get("GLB_OTHER")
PIECE = 1 << 16


def serve(program, topology, maps):
    words = [program, "serve", topology, "--listen", f"127.0.0.1:{free_port()}", "--workers", "1"]
    return subprocess.Popen(words, stdin=subprocess.PIPE, stdout=subprocess.PIPE, stderr=maps)


class Comparison:
    """The maps of both servers, read to their ends as they come; `differ` is where they differ first, if they do."""

    def __init__(self, servers):
        self.octets, self.differ = 0, None
        self.behind = [bytearray() for _ in servers]
        self.lock = threading.Lock()
        self.readers = [threading.Thread(target=self.read, args=pair, daemon=True) for pair in zip(servers, self.behind)]
        for reader in self.readers:
            reader.start()

    def read(self, server, behind):
        while piece := server.stderr.read1(PIECE):
            with self.lock:
                behind += piece
                both = min(map(len, self.behind))
                one, other = (bytes(octets[:both]) for octets in self.behind)
                if one != other and self.differ is None:
                    self.differ = self.octets
                self.octets += both
                for octets in self.behind:
                    del octets[:both]

    def end(self):
        for reader in self.readers:
            reader.join()
        if any(self.behind) and self.differ is None:
            self.differ = self.octets
        print(f"maps: {self.octets} octets of each compared")


def main():
    topology = sys.argv[1]
    commits = int(sys.argv[2]) if len(sys.argv) > 2 else 8000
    changes = int(sys.argv[3]) if len(sys.argv) > 3 else 1
    groups = GROUP.findall(Path(topology).read_text())
    where = subprocess.PIPE if OTHER else subprocess.DEVNULL
    servers = [serve(program, topology, where) for program in (GLB, OTHER) if program]
    maps = Comparison(servers) if OTHER else None
    draw = random.Random(1)
    begun = time.monotonic()
    for number in range(commits + 1):
        if number % max(1, commits // 8) == 0:
            print(f"{number} commits: {megabytes(servers[0].pid, 'VmRSS')} MB, {time.monotonic() - begun:.1f} s", flush=True)
            begun = time.monotonic()
        batch = draw.sample(groups, changes)
        lines = "".join(f"demand {name} {draw.randint(1, 2 * int(demand))}\n" for name, demand in batch)
        for server in servers:
            server.stdin.write(f"{lines}commit\n".encode())
            server.stdin.flush()
        for server in servers:
            said = server.stdout.readline()
            if said != f"published {number + 1}\n".encode():
                sys.exit(f"at commit {number + 1}: {said!r}")
        if maps and maps.differ is not None:
            sys.exit(f"at commit {number + 1} or before: the maps differ behind octet {maps.differ}")
    peak = megabytes(servers[0].pid, "VmHWM")
    for server in servers:
        server.stdin.close()
    if maps:
        maps.end()
    print(f"at most {peak} MB, status {[server.wait() for server in servers]}")
    if maps and maps.differ is not None:
        sys.exit(f"the maps differ behind octet {maps.differ}")


if __name__ == "__main__":
    main()
