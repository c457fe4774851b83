#!/usr/bin/env python3
"""A server with several feeds, against a second reading, and what it takes while nobody writes.

    feeds.py [LINES]         all, with LINES lines in each feed (10,000)
    feeds.py idle            the rest alone

Standard input, a file and two named pipes speak to one server at the same time: changes, commits, questions and lines with
each fault. second.py says what has to come in the order in which the feeds were worked, each map is found good, and the lines
of feeds that change nothing have to be those of each by itself. Then one feed fails, one stops, an output fails in the
middle, and there are too few threads (as root). `idle` prints the processor's share of a server with four feeds to which nobody
writes, its threads, and how long a commit's answer takes. GLB names the program. The status is 0 where all is so.
"""

import os
import random
import resource
import shutil
import subprocess
import sys
import tempfile
import threading
import time
from pathlib import Path

import second
from start import GLB, QUERY, TOP, processor

TOPOLOGY = TOP / "examples/tree.toml"
READ = second.Topology(TOPOLOGY.read_bytes())
ASKS = [f"ask 198.51.100.7 {QUERY.hex()}", f"ask 203.0.113.9 {QUERY.hex()}", "ask 192.0.2.1 00"]
FAULTS = ["guess", "", "commit now", "ask 1.2.3 00", "ask 1.2.3.4 0", "demand g1 x", "demand g1 0", "demand g9 1", "capacity g1 1", "demand g1 4294967296", "capacity A 281474976710657", "ask", "demand g1 1\x7f", "x" * 8301]
# somebody else, with no process
NOBODY = 65534
COMMIT = ["demand g1 7", "commit"]


def lines_for(draw, count, is_quiet):
    """So many lines of a feed, with some faults; a quiet one changes nothing."""
    lines = []
    while len(lines) < count:
        kind = draw.randrange(10)
        if kind < 5 and not is_quiet:
            name, most = draw.choice([("demand g1", 12), ("demand g2", 12), ("capacity A", 14), ("capacity B", 14), ("capacity R", 20)])
            lines.append(f"{name} {draw.randint(1, most)}")
        elif kind < 7:
            lines.append("commit")
        elif kind < 8:
            lines.append(draw.choice(ASKS))
        elif kind < 9:
            lines.append("show")
        elif draw.random() < 0.3:
            lines.append(draw.choice(FAULTS))
    return lines


def octets_of(lines):
    return "".join(f"{line}\n" for line in lines).encode()


def write(path, octets, draw):
    """Writes octets in pieces of many sizes, with a writer anew now and then where it is a pipe."""
    at = 0
    while at < len(octets):
        with open(path, "wb", buffering=0) as stream:
            for _ in range(20):
                size = draw.choice([1, 7, 100, 4000, 60000])
                # all of it, also where the pipe takes a part at a time
                rest = memoryview(octets[at : at + size])
                while rest:
                    rest = rest[stream.write(rest) :]
                at += size


def serve(work, feeds, names, output=subprocess.PIPE, wait=60):
    """Status, output and maps of a server over standard input and further feeds: octets of a pipe, lists of a file, or names."""
    words = [GLB, "serve", str(TOPOLOGY), "--listen", "127.0.0.1:0", "--workers", "2"]
    writers = []
    for place, (name, feed) in enumerate(zip(names, feeds[1:])):
        path = Path(work) / f"feed{place}"
        if isinstance(feed, str):
            path = Path(feed)
        elif isinstance(feed, list):
            path.write_bytes(octets_of(feed))
        else:
            os.mkfifo(path)
            writers.append(threading.Thread(target=write, args=(path, feed, random.Random(place)), daemon=True))
        words += [name, str(path)]
    with open(Path(work) / "maps", "wb") as maps:
        server = subprocess.Popen(words, stdin=subprocess.PIPE, stdout=output, stderr=maps)
        for writer in writers:
            writer.start()
        try:
            said, _ = server.communicate(feeds[0], timeout=wait)
        except subprocess.TimeoutExpired:
            server.kill()
            server.communicate()
            return None, "", []
    for writer in writers:
        writer.join(5)
    texts = (Path(work) / "maps").read_bytes()
    maps = [second.Map(READ, text + b"end\n") for text in texts.split(b"end\n")[:-1]]
    return server.returncode, (said or b"").decode(), maps


class Tally:
    passed = failed = 0

    def take(self, what, is_so, told=""):
        if is_so:
            self.passed += 1
        else:
            self.failed += 1
            print(f"{what}: {str(told)[:300]}")


def own(said, number):
    """The lines of one feed, without its number."""
    return "".join(line.partition(" ")[2] for line in said.splitlines(keepends=True) if line.startswith(f"{number} "))


def together(tally, count):
    """All feeds at the same time, over worlds of changes and without any."""
    for seed in range(3):
        draw = random.Random(seed)
        feeds = [lines_for(draw, count, False) for _ in range(4)]
        octets = [octets_of(feed) for feed in feeds]
        with tempfile.TemporaryDirectory() as work:
            given = [octets[0], feeds[1], octets[2] + b"stop\n", octets[3] + b"stop\nshow\n"]
            status, said, maps = serve(work, given, ["--feed2", "--feed3", "--feed4"], wait=600)
        text, is_good = second.merged_text(READ, octets, maps, said)
        tally.take("status", status == 0, status)
        tally.take("the lines", said == text, next(((a, b) for a, b in zip(said.splitlines(), text.splitlines()) if a != b), "too many or too few"))
        tally.take("the maps", is_good, len(maps))
        turns = sum(a[:1] != b[:1] for a, b in zip(said.splitlines(), said.splitlines()[1:]))
        print(f"{count} lines in each of four feeds: {len(said.splitlines())} lines, {len(maps)} maps, {turns} times another feed's")
    draw = random.Random(9)
    feeds = [lines_for(draw, count, True) for _ in range(4)]
    with tempfile.TemporaryDirectory() as work:
        given = [octets_of(feeds[0]), feeds[1], octets_of(feeds[2]) + b"stop\n", octets_of(feeds[3]) + b"stop\n"]
        status, said, maps = serve(work, given, ["--feed2", "--feed3", "--feed4"], wait=600)
    for number, feed in enumerate(feeds, 1):
        tally.take(f"feed {number} by itself", own(said, number) == second.control_text(READ, octets_of(feed), maps)[0], status)


def rows(tally):
    """One feed fails, one stops, one is not there, an output fails."""
    with tempfile.TemporaryDirectory() as work:
        # a folder opens, and fails at its first read: the others are worked to their ends
        status, said, maps = serve(work, [octets_of(COMMIT), work], ["--feed4"])
        tally.take("a feed that fails", (status, said, len(maps)) == (3, "1 published 1\n", 2), (status, said))
    with tempfile.TemporaryDirectory() as work:
        status, said, _ = serve(work, [octets_of(COMMIT), f"{work}/nowhere"], ["--feed3"])
        tally.take("a feed that is not there", (status, said) == (3, ""), (status, said))
    with tempfile.TemporaryDirectory() as work:
        status, said, _ = serve(work, [b"stop\nshow\n", [*COMMIT, "show"]], ["--feed2"])
        tally.take("one stops", (status, said) == (0, "2 published 1\n2 show 1 placed 15 unplaced 0 full 2\n"), (status, said))
    with tempfile.TemporaryDirectory() as work:
        # what a mistyped line spoils is the batch of its own feed
        status, said, _ = serve(work, [b"guess\ncommit\n", COMMIT], ["--feed2"])
        wanted = ["1 refused 1 unknown word", "1 refused commit lines 1", "2 published 1"]
        tally.take("a spoiled batch", (status, sorted(said.splitlines())) == (0, wanted), (status, said))
    with tempfile.TemporaryDirectory() as work, open("/dev/full", "wb") as full:
        status, _, _ = serve(work, [octets_of(lines_for(random.Random(1), 300, False)), lines_for(random.Random(2), 300, False)], ["--feed2"], full)
        tally.take("an output that is full", status == 4, status)
    with tempfile.TemporaryDirectory() as work:
        reading, writing = os.pipe()
        reader = subprocess.Popen(["head", "-n", "200"], stdin=reading, stdout=subprocess.DEVNULL)
        os.close(reading)
        feed = octets_of(lines_for(random.Random(3), 20000, True))
        status, _, _ = serve(work, [feed, feed + b"stop\n"], ["--feed2"], writing)
        os.close(writing)
        reader.wait()
        tally.take("an output whose reader goes", status == 4, status)


def idle(tally):
    """Four feeds to which nobody writes."""
    with tempfile.TemporaryDirectory() as work:
        pipes = [f"{work}/{number}" for number in range(2, 5)]
        words = [GLB, "serve", str(TOPOLOGY), "--listen", "127.0.0.1:0", "--workers", "2"]
        for number, path in enumerate(pipes, 2):
            os.mkfifo(path)
            words += [f"--feed{number}", path]
        server = subprocess.Popen(words, stdin=subprocess.PIPE, stdout=subprocess.PIPE, stderr=subprocess.DEVNULL)
        time.sleep(1)
        before, begun = processor(server.pid), time.monotonic()
        time.sleep(10)
        share = (processor(server.pid) - before) / (time.monotonic() - begun)
        threads = len(os.listdir(f"/proc/{server.pid}/task"))
        times = []
        for number in range(200):
            path = pipes[number % 3]
            begun = time.monotonic()
            with open(path, "wb", buffering=0) as stream:
                stream.write(f"demand g1 {number % 7 + 1}\ncommit\n".encode())
            said = server.stdout.readline().decode()
            times.append(time.monotonic() - begun)
            tally.take("a commit", said == f"{number % 3 + 2} published {number + 1}\n", said)
            time.sleep(0.01)
        for path in pipes:
            with open(path, "wb", buffering=0) as stream:
                stream.write(b"stop\n")
        server.communicate(b"stop\n", timeout=10)
        times.sort()
        print(f"idle: {share:.2%} of a processor, {threads} threads; a commit's answer within {times[len(times) // 2] * 1000:.1f} ms, {times[-1] * 1000:.1f} at most")
        tally.take("status", server.returncode == 0, server.returncode)
        tally.take("the processor", share < 0.01, share)
        tally.take("threads", threads == 2 + 4 + 1, threads)


def threads(tally):
    """A limit on threads: a server that can't have its own ends at once, and one that can works its feeds."""
    if os.getuid() != 0:
        print("threads: wants root, to be somebody else")
        return
    with tempfile.TemporaryDirectory() as work:
        os.chmod(work, 0o755)
        shutil.copy(GLB, f"{work}/glb")
        shutil.copy(TOPOLOGY, f"{work}/topology")
        Path(f"{work}/feed").write_bytes(octets_of(COMMIT))
        words = [f"{work}/glb", "serve", f"{work}/topology", "--listen", "127.0.0.1:0", "--workers", "2", "--feed2", f"{work}/feed"]

        def status_at(limit):
            def limited():
                os.setgid(NOBODY)
                os.setuid(NOBODY)
                resource.setrlimit(resource.RLIMIT_NPROC, (limit, limit))

            done = subprocess.run(words, stdin=subprocess.DEVNULL, capture_output=True, timeout=60, preexec_fn=limited)
            return done.returncode, done.stdout

        ends = [status_at(limit) for limit in range(1, 12)]
    short = ends.count((8, b""))
    whole = ends.count((0, b"2 published 1\n"))
    print(f"threads: up to {short} none are had, from {short + 1} on they are")
    tally.take("a limit on threads", 0 < short < len(ends) and ends == [(8, b"")] * short + [(0, b"2 published 1\n")] * whole, ends)


def main():
    tally, words = Tally(), sys.argv[1:]
    if words != ["idle"]:
        rows(tally)
        together(tally, int(words[0]) if words else 10_000)
        threads(tally)
    idle(tally)
    print(f"{tally.passed} passed, {tally.failed} failed")
    return tally.failed


if __name__ == "__main__":
    sys.exit(main() != 0)
