"""glb-log: lists the entries of a log, and writes topology and map as of any of them."""

import argparse
import json
import subprocess
import sys
import tempfile
import time
from collections.abc import Iterator
from pathlib import Path
from typing import IO, Any

from glb_tools.etcd import ETCD_STATUSES, add_etcd_options, etcd_of
from glb_tools.history import base_of, feed, topology_at, topology_of
from glb_tools.log import BASE, BATCH, NONE, Base, Entry, Log, plain
from glb_tools.options import DONE, Fault, Progress, parser, run, write_file
from glb_tools.server import END

# how many changes of a batch are shown, and how many octets are read at once
SHOWN, PIECE = 3, 1 << 20
KINDS = (BATCH, BASE, NONE)


def is_asked(entry: Entry, options: argparse.Namespace) -> bool:
    words = {word for line in entry.lines.splitlines() for word in line.split()[1:2]}
    return (
        (not options.kind or entry.kind == options.kind)
        and (not options.author or options.author in entry.author)
        and (not options.name or options.name in words)
        and (not options.text or options.text in entry.why)
    )


def as_json(entry: Entry) -> dict[str, Any]:
    found: dict[str, Any] = {"number": entry.number, "kind": entry.kind, "checksum": entry.checksum}
    if entry.kind == NONE:
        return found | {"octets": entry.octets.decode("latin-1")}
    found |= {"time": entry.time, "author": entry.author, "why": entry.why}
    if entry.base:
        return found | {"base": entry.base.checksum, "upto": entry.base.upto}
    return found | {"changes": entry.lines.splitlines()}


def line_of(entry: Entry) -> str:
    if entry.kind == NONE:
        return (
            f"{entry.number}  no entry, put by hand: {plain(entry.octets[:60].decode('latin-1'))}"
        )
    if entry.base:
        what = f"base {entry.base.checksum[:12]}, with the numbers up to entry {entry.base.upto}"
    else:
        changes = entry.lines.splitlines()
        more = f" and {len(changes) - SHOWN} more" if len(changes) > SHOWN else ""
        what = ", ".join(changes[:SHOWN]) + more
    moment = time.strftime("%Y-%m-%d %H:%M:%S", time.gmtime(min(max(entry.time, 0), 1 << 36)))
    why = f"  # {plain(entry.why)}" if entry.why else ""
    return f"{entry.number}  {moment}Z  {plain(entry.author)}  {what}{why}"


def listed(log: Log, options: argparse.Namespace) -> Iterator[Entry]:
    look = log.look()
    first = options.first or (1 if options.all else max(look.last - options.last + 1, 1))
    for entry in log.entries(max(first, look.first), look.last) if look.last else ():
        if is_asked(entry, options):
            yield entry


# As of an entry.


def last_map(texts: IO[bytes]) -> bytes:
    """The last whole map of a server's texts."""
    last, rest = b"", b""
    while piece := texts.read(PIECE):
        *whole, rest = (rest + piece).split(END)
        last = whole[-1] + END if whole else last
    return last


def map_at(log: Log, number: int, program: str, base: Base | None = None) -> bytes:
    """The map of the servers of a base at an entry (of the newest one there): the program works the log once more, and
    answers nobody."""
    look = log.look()
    base = base or base_of(log, look, number)
    with tempfile.TemporaryDirectory() as folder:
        topology, batches = Path(folder, "base.toml"), Path(folder, "feed")
        topology.write_bytes(topology_of(log, base))
        batches.write_text("".join(feed(log, look, base, number)))
        words = [program, "serve", str(topology), "--listen", "127.0.0.1:0"]
        with open(batches, "rb") as file, subprocess.Popen(
            words, stdin=file, stdout=subprocess.DEVNULL, stderr=subprocess.PIPE
        ) as server:
            assert server.stderr
            found = last_map(server.stderr)
    if server.returncode or not found.startswith(b"glb map "):
        raise Fault(
            f"{program} ended with {server.returncode} over {base} and the entries behind it"
        )
    return found


def write_at(log: Log, number: int, options: argparse.Namespace) -> None:
    look = log.look()
    if not look.first <= number <= look.last:
        raise Fault(f"the log has the entries {look.first} to {look.last}")
    stem = options.to or f"at-{number}"
    with Progress(f"works the log up to entry {number}"):
        topology, found = topology_at(log, look, number), map_at(log, number, options.program)
    write_file(f"{stem}.toml", topology)
    write_file(f"{stem}.map", found)
    print(f"{stem}.toml and {stem}.map are of entry {number}")


ABOUT = """Lists the entries of the log: who appended what, when, and why; and writes topology and map as of any entry.

    glb-log                  the last 20 entries
    glb-log --compact        gives up etcd's history of its keys, and gives back the room
    glb-log --at N           writes at-N.toml and at-N.map, which glb check, glb-why and glb-moves read"""


def main() -> int:
    words = parser("glb-log", ABOUT, ETCD_STATUSES, json=True)
    add_etcd_options(words)
    words.add_argument(
        "--last", type=int, default=20, metavar="N", help="the last so many entries (20)"
    )
    words.add_argument(
        "--from",
        dest="first",
        type=int,
        default=0,
        metavar="N",
        help="all entries from that one on",
    )
    words.add_argument("--all", action="store_true", help="all entries")
    words.add_argument("--author", metavar="TEXT", help="those whose author has that text")
    words.add_argument("--name", metavar="NAME", help="those that change that group, class or node")
    words.add_argument("--text", metavar="TEXT", help="those whose reason has that text")
    words.add_argument(
        "--kind", choices=KINDS, help="those of a kind; `none` is what was put by hand"
    )
    words.add_argument(
        "--at", type=int, metavar="N", help="writes topology and map as of that entry"
    )
    words.add_argument("--to", metavar="STEM", help="writes them to STEM.toml and STEM.map")
    words.add_argument(
        "--compact", action="store_true", help="makes room in an etcd that is full or nearly so"
    )
    words.add_argument("--program", default="glb", help="the servers' program, for the map (glb)")
    options = words.parse_args()
    log = Log(etcd_of(options), options.prefix)
    if options.compact:
        with Progress("makes room in etcd"):
            revision, silent = log.etcd.make_room()
        print(f"etcd has no history before revision {revision}")
        for member in silent:
            print(f"{member} did not answer: its room is not given back", file=sys.stderr)
    elif options.at is not None:
        write_at(log, options.at, options)
    elif options.json:
        json.dump([as_json(entry) for entry in listed(log, options)], sys.stdout, indent=2)
        print()
    else:
        for entry in listed(log, options):
            print(line_of(entry))
    return DONE


if __name__ == "__main__":
    run(main)
