#!/usr/bin/env python3
"""Refuses each allocation of the program in turn, alone and with all behind it, and looks at how it ends. fail_alloc.sh builds the shim and runs this.

    fail_alloc.py SHIM [COMMAND ..] [--processes N] [--state FILE] [--alone]

The commands are check, map, answer, repair, large, serve and feeds, which is serve over two feeds, all of them if none is
given. Allowed ends:

    the first five  status 8 with nothing written, or status 0 with all that is due
    serve           status 8 (or 9) with no line of control text, no map's text but the first, and no reply to a client
                    that asks without rest; or status 0 with replies, where each commit either published its map, or was
                    answered `refused commit memory` and left nothing behind; or status 0 without replies, which is
                    what a join does where the system makes no thread: its two sides come one behind the other, the
                    feed first
    feeds           status 8 (or 9) with no map's text but the first, and no line; or status 0 with a line of each feed,
                    `published` or `refused commit memory`, and the texts of the maps that these make; or status 8
                    with such lines, but for a feed that there was no memory to read, or with no line and the first
                    map's text, where the thread of a feeder is refused behind the try of all threads

It says at which number it stands, and with --state it goes on there after a break. The last line counts.
"""

import argparse
import concurrent.futures
import json
import os
import socket
import subprocess
import sys
import tempfile
import time
from pathlib import Path

TOP = Path(__file__).resolve().parent.parent
GLB = os.environ.get("GLB", str(TOP / "crates/glb_program/out/glb_program"))
FILES = TOP / "examples"
PATIENCE = 8
QUERY = bytes.fromhex("123401000001000000000000037777770363646e076578616d706c650000010001")
FIRST = b"glb map 2\nplace g1 A 8\nplace g2 A 2\nplace g2 B 5\nfull g2 A A\nfull g2 B R\nend\n"
GOOD = {
    "check": b"good\n",
    "map": FIRST,
    "places": b"place 0 10\nplace 1 5\nunplaced 1\n",
    "answer": b"answer 123485000001000100000000037777770363646e076578616d706c650000010001c00c00010001000000140004c0000201\n",
    "repair": b"glb map 2\nplace g1 A 6\nplace g2 A 3\nplace g2 B 5\nfull g2 A A\nend\n",
    "large": None,
}
WORDS = {
    "check": ["check", "tree.toml", "tree.map"],
    "map": ["map", "tree.toml"],
    "places": ["places", "tree.toml"],
    "answer": ["answer", "tree.toml", "tree.map", "198.51.100.7", QUERY.hex()],
    "repair": ["repair", "tree.toml", "tree.map", "tree.changes"],
    "large": ["large", "4"],
}
# g2 asks for 4, and then g1 for 7: which of the two maps are published, and the numbers of each
FEED = b"demand g2 4\ncommit\ndemand g1 7\ncommit\nshow\nstop\n"
SECOND = b"glb map 2\nplace g1 A 8\nplace g2 A 2\nplace g2 B 2\nfull g2 A A\nend\n"
THIRD = b"glb map 2\nplace g1 A 7\nplace g2 A 3\nplace g2 B 1\nfull g2 A A\nend\n"
OTHER = b"glb map 2\nplace g1 A 7\nplace g2 A 3\nplace g2 B 5\nfull g2 A A\nend\n"
REFUSED = b"refused commit memory\n"
SESSIONS = [
    (b"published 1\npublished 2\nshow 2 placed 11 unplaced 0 full 1\n", FIRST + SECOND + THIRD),
    (REFUSED + b"published 1\nshow 1 placed 15 unplaced 0 full 2\n", FIRST + OTHER),
    (b"published 1\n" + REFUSED + b"show 1 placed 12 unplaced 0 full 1\n", FIRST + SECOND),
    (REFUSED + REFUSED + b"show 0 placed 15 unplaced 1 full 2\n", FIRST),
]


def environment(shim, number, count, told):
    return {"LD_PRELOAD": shim, "FAIL_FIRST": str(number), "FAIL_COUNT": str(count), "FAIL_TOLD": told}


def run_command(shim, command, number, count, told=""):
    done = subprocess.run([GLB, *WORDS[command]], cwd=FILES, env=environment(shim, number, count, told), capture_output=True, stdin=subprocess.DEVNULL, timeout=120)
    return done.returncode, done.stdout, done.stderr


# below the ports that the system gives to clients, so that no client of another run is in the way
FIRST_PORT = 20_000


def ask_until_reply(process, port):
    """Asks without rest until there is a reply, the program has ended, or its lanes should long have answered."""
    replied = False
    end = time.monotonic() + PATIENCE
    while not replied and process.poll() is None and time.monotonic() < end:
        with socket.socket(socket.AF_INET, socket.SOCK_DGRAM) as client:
            client.settimeout(0.01)
            try:
                client.connect(("127.0.0.1", port))
                client.send(QUERY)
                replied = client.recv(4096)[2] >= 0x80
            except OSError:
                time.sleep(0.001)
    return replied


def run_serve(shim, number, count, told=""):
    """Status, control text, texts of maps, and whether a client had a reply. The feed comes behind the first reply, or where there is none."""
    port = FIRST_PORT + number
    words = [GLB, "serve", "tree.toml", "--listen", f"127.0.0.1:{port}", "--workers", "2"]
    process = subprocess.Popen(words, cwd=FILES, env=environment(shim, number, count, told), stdin=subprocess.PIPE, stdout=subprocess.PIPE, stderr=subprocess.PIPE)
    replied = ask_until_reply(process, port)
    try:
        out, maps = process.communicate(FEED if process.poll() is None else None, timeout=60)
    except subprocess.TimeoutExpired:
        process.kill()
        return "hangs", b"", b"", replied
    return process.returncode, out, maps, replied


# the batch of each of two feeds, and the map behind those that were published
FEEDS = [b"demand g2 4\ncommit\n", b"demand g1 7\ncommit\n"]
BEHIND = {(1,): SECOND, (2,): OTHER, (1, 2): THIRD, (2, 1): THIRD}


def run_feeds(shim, number, count, told=""):
    """Status, control text and texts of maps."""
    with tempfile.NamedTemporaryFile() as second:
        second.write(FEEDS[1])
        second.flush()
        words = [GLB, "serve", "tree.toml", "--listen", f"127.0.0.1:{FIRST_PORT + number}", "--feed2", second.name]
        try:
            done = subprocess.run(words, cwd=FILES, env=environment(shim, number, count, told), input=FEEDS[0], capture_output=True, timeout=60)
        except subprocess.TimeoutExpired:
            return "hangs", b"", b""
        return done.returncode, done.stdout, done.stderr


def judge_feeds(shim, number, count):
    status, out, maps = run_feeds(shim, number, count)
    if status in (8, 9) and out == b"" and maps in (b"", FIRST):
        return str(status) + (" with the first map" if maps else ""), None
    said, published, due = [], [], FIRST
    for line in out.splitlines():
        feed, text = int(line[:1]), line[2:]
        said.append(feed)
        if text == b"published %d" % (len(published) + 1):
            published.append(feed)
            due += BEHIND[tuple(published)]
        elif text + b"\n" != REFUSED:
            said.append(0)
    fits = maps == due and len(set(said)) == len(said) and set(said) <= {1, 2}
    if fits and (status, len(said)) in ((0, 2), (8, 1)):
        return f"{status}, {len(said)} lines, {len(published)} published", None
    return "wrong", ("feeds", number, count, status, out, maps)


def judge_command(shim, command, number, count):
    """What end it was, or what is wrong with it."""
    status, out, err = run_command(shim, command, number, count)
    if (status, out, err) == (8, b"", b""):
        return "8", None
    if (status, err) == (0, b"") and out == GOOD[command]:
        return "0", None
    return "wrong", (command, number, count, status, out, err)


def judge_serve(shim, number, count):
    status, out, maps, replied = run_serve(shim, number, count)
    if status in (8, 9) and out == b"" and maps in (b"", FIRST) and not replied:
        return str(status) + (" with the first map" if maps else ""), None
    if status == 0 and replied and (out, maps) in SESSIONS:
        return ["0", "0, first commit refused", "0, second commit refused", "0, both commits refused"][SESSIONS.index((out, maps))], None
    if status == 0 and (out, maps) in SESSIONS:
        return "0, no thread for the lanes, which came behind the feed", None
    return "wrong", ("serve", number, count, status, out, maps, replied)


def judge(job):
    shim, command, number, count = job
    if command == "serve":
        return judge_serve(shim, number, count)
    return judge_feeds(shim, number, count) if command == "feeds" else judge_command(shim, command, number, count)


def count_allocations(shim, command):
    """How many it asks for where none is refused."""
    with tempfile.TemporaryDirectory() as folder:
        told = str(Path(folder) / "told")
        if command == "serve":
            status, out, maps, replied = run_serve(shim, 0, 0, told)
            good = status == 0 and replied and (out, maps) == SESSIONS[0]
        elif command == "feeds":
            status, out, _ = run_feeds(shim, 0, 0, told)
            good = status == 0 and out.count(b" published ") == 2
        else:
            status, out, _ = run_command(shim, command, 0, 0, told)
            GOOD[command] = GOOD[command] or out
            good = status == 0 and out == GOOD[command]
        if not good:
            sys.exit(f"{command}: status {status}, {out!r}")
        return int.from_bytes(Path(told).read_bytes(), sys.byteorder)


def sweep(shim, command, count, options, state, pool):
    """Each number in turn. The ends by how many there were, and what is wrong."""
    # threads ask in an order of their own, so a few numbers past the last one too
    last = count_allocations(shim, command) + (8 if command in ("serve", "feeds") else 1)
    key = f"{command} {'alone' if count == 1 else 'and all behind'}"
    kept = state.setdefault(key, {"next": 1, "ends": {}, "wrong": []})
    while kept["next"] <= last:
        chunk = range(kept["next"], min(kept["next"] + 16 * options.processes, last + 1))
        for end, wrong in pool.map(judge, [(shim, command, number, count) for number in chunk]):
            kept["ends"][end] = kept["ends"].get(end, 0) + 1
            if wrong:
                kept["wrong"].append(repr(wrong)[:900])
        kept["next"] = chunk.stop
        print(f"{key}: stands at {kept['next']} of {last}", file=sys.stderr, flush=True)
        if options.state:
            Path(options.state).write_text(json.dumps(state))
    print(f"{key}: {last} refused in turn; ends: " + ", ".join(f"{count} times {end}" for end, count in sorted(kept["ends"].items())), *kept["wrong"][:20], sep="\n  ", flush=True)
    return len(kept["wrong"])


def main():
    parser = argparse.ArgumentParser(description=__doc__, formatter_class=argparse.RawDescriptionHelpFormatter)
    parser.add_argument("shim")
    parser.add_argument("commands", nargs="*")
    parser.add_argument("--processes", type=int, default=os.cpu_count())
    parser.add_argument("--state")
    parser.add_argument("--alone", action="store_true", help="not with all behind it")
    options = parser.parse_args()
    state = json.loads(Path(options.state).read_text()) if options.state and Path(options.state).exists() else {}
    wrong = 0
    with concurrent.futures.ThreadPoolExecutor(options.processes) as pool:
        for command in options.commands or [*WORDS, "serve", "feeds"]:
            for count in [1] if options.alone else [1, 2**62]:
                wrong += sweep(options.shim, command, count, options, state, pool)
    print(f"{wrong} ends that are not allowed")
    raise SystemExit(1 if wrong else 0)


main()
