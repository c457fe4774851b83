"""glb-follow: follows the log of batches for one server, and tells how far that server is (the module `follower`)."""

import argparse
import os
import re
import secrets
import signal
import socket
import sys
import time
from pathlib import Path
from typing import NoReturn

from glb_tools.etcd import ETCD_STATUSES, Unreachable, add_etcd_options, delete, etcd_of
from glb_tools.follower import Follower, Over
from glb_tools.hooks import Canary, Hooks, say
from glb_tools.log import ALIVE, ANEW, Log, place_of
from glb_tools.options import Fault, check_word, parser, run, words_of
from glb_tools.place import BASES, Bases, Identity, Place
from glb_tools.server import Lost, Server

# how long nobody looks where something is waited for, in seconds
SOON = 1.0


def prepare(name: str, log: Log, place: Place, bases: Bases) -> None:
    """Makes what a server begins with: a copy of its base, its pipes, and its identity. Before that nobody says of it any
    more what was true of the server before it, and it is on the list of those that there should be.
    """
    is_reached = silence(name, log)
    checksum = bases.chosen()
    if is_reached:
        register(name, log, checksum or "")
    octets = bases.topology(checksum) if checksum else None
    if octets is None:
        newest = log.newest_base()
        checksum = newest.checksum
        octets = bases.topology(checksum) or log.topology(checksum)
        if octets is None:
            raise Fault(f"{newest} is not in {bases.folder}, and not in etcd")
        bases.put(checksum, octets)
        bases.choose(checksum)
    assert checksum
    entry, chain = place_of(octets)
    run = secrets.token_hex(8)
    place.prepare(octets, Identity(checksum, bases.program_checksum(), run, entry, chain))


def silence(name: str, log: Log, seconds: float = ALIVE) -> bool:
    """Takes away what was told of the server, and says whether; where etcd cannot be reached, it is gone after that time by
    itself."""
    end = time.monotonic() + seconds
    while True:
        try:
            log.etcd.txn([delete(log.at("at", name))])
            return True
        except Unreachable as why:
            if time.monotonic() >= end:
                return False
            say(str(why))
            time.sleep(SOON)


def register(name: str, log: Log, base: str) -> None:
    """Puts the server on the list. Where etcd takes nothing now, it begins nevertheless, and its follower does so later."""
    try:
        log.register(name, base)
    except Fault as why:
        say(str(why))


def follow(follower: Follower) -> NoReturn:
    """Follows for ever. Where etcd, what stands in it or the disk does not let it, it waits, and its server answers on."""
    said = ""
    follower.begin()
    while True:
        try:
            more, said = follower.step(), ""
            if not more:
                wait(follower)
        except Lost:
            raise
        except (Fault, OSError) as fault:
            why = str(fault) if isinstance(fault, Fault) else words_of(fault)
            if why != said and not (said and isinstance(fault, Unreachable)):
                say(f"waits: {why}")
            said = why
            follower.hold_up(why)
            time.sleep(SOON)


def wait(follower: Follower) -> None:
    """Waits until there is a next entry, or for a while, and sees whether the server still answers."""
    seconds = SOON if follower.waits else ALIVE / 3
    follower.log.etcd.wait(*follower.log.news(), follower.revision, seconds)
    follower.see()
    follower.idle(silent=False)


def words_beside(options: argparse.Namespace) -> list[str]:
    """How a server is run beside: by glb_tools.beside."""
    code = f"import sys; sys.argv[0] = 'glb-beside'; sys.path.append({str(Path(__file__).parent.parent)!r})"
    code += "; from glb_tools.options import start; start('beside')"
    words = [sys.executable, "-c", code, "--name", options.name, "--prefix", options.prefix]
    words += ["--run", str(options.run / "beside"), "--bases", str(options.bases)]
    words += ["--program", str(options.program), "--etcd", options.etcd]
    for name in ("cacert", "cert", "key", "user", "password"):
        if value := getattr(options, name):
            words += [f"--{name}", value]
    return words


ABOUT = """Follows the log of batches for one server, and tells how far that server is.

The server runs in the folder --run, which --prepare makes ahead of its start: a copy of its topology, and pipes that
are its standard input, output and error (examples/glb-fleet@.service). The server holds them open itself, so it goes on
answering where this command ends. Each batch goes into the feed, and the next one only when the server has answered.
A server that has to begin anew is stopped, and this command ends with it, with 0."""


def main() -> int:
    words = parser("glb-follow", ABOUT, ETCD_STATUSES)
    add_etcd_options(words)
    words.add_argument(
        "--name", default=socket.gethostname(), help="the server's name in the fleet (the host's)"
    )
    words.add_argument(
        "--run", required=True, type=Path, metavar="FOLDER", help="where the server runs"
    )
    words.add_argument(
        "--bases",
        default=BASES,
        type=Path,
        metavar="FOLDER",
        help=f"topologies by checksum ({BASES})",
    )
    words.add_argument(
        "--program", default="/usr/bin/glb", type=Path, help="the server's program (/usr/bin/glb)"
    )
    words.add_argument(
        "--prepare", action="store_true", help="makes what the server begins with, and ends"
    )
    words.add_argument(
        "--ended", action="store_true", help="keeps queries out behind a command that ended anyhow"
    )
    words.add_argument(
        "--ready",
        default=os.environ.get("GLB_READY"),
        metavar="COMMAND",
        help="lets queries in: run where the server is there (GLB_READY)",
    )
    words.add_argument(
        "--unready",
        default=os.environ.get("GLB_UNREADY"),
        metavar="COMMAND",
        help="keeps queries out: run before the server begins, and where it or this command ends (GLB_UNREADY)",
    )
    options = words.parse_args()
    check_word(options.name, "--name", "/")
    log = Log(etcd_of(options), options.prefix)
    place, hooks = Place(options.run), Hooks(options.ready, options.unready)
    bases = Bases(options.bases, options.name, options.program)
    if options.prepare:
        if failed := hooks.run(hooks.unready):
            raise Fault(failed)
        prepare(options.name, log, place, bases)
        return 0
    if options.ended:
        failed = hooks.run(hooks.unready)
        silence(options.name, log, SOON)
        if failed:
            raise Fault(failed)
        return 0
    follower = Follower(options.name, log, Server(options.run), place, bases, hooks)
    # of the server's unit, which has the same file of settings
    workers = os.environ.get("WORKERS", "")
    follower.workers = int(workers) if re.fullmatch(r"[0-9]{1,2}", workers) else None
    follower.canary = Canary(words_beside(options))
    signal.signal(signal.SIGTERM, lambda *_: sys.exit(0))
    why = "it was ended"
    try:
        follow(follower)
    except Over as end:
        why = f"{ANEW}: {end}"
        return 0
    except Fault as fault:
        why = str(fault)
        raise
    finally:
        follower.end(why)


if __name__ == "__main__":
    run(main)
