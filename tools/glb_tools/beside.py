"""A server that answers nobody, beside that of a follower: it shows what a base would do before any server goes over to it.

`glb-roll TOPOLOGY --canary NAME` asks for it, and the follower of that name runs it in a process of its own, from the base
that is not in the log yet and all entries behind its numbers. It tells PREFIX/beside/NAME how far it is.
"""

import os
import signal
import subprocess
import sys
from collections.abc import Iterator
from contextlib import contextmanager
from pathlib import Path
from typing import Any

from glb_tools.etcd import add_etcd_options, etcd_of
from glb_tools.follow import follow
from glb_tools.follower import Follower
from glb_tools.hooks import Hooks
from glb_tools.log import Entry, Log, Look, place_of
from glb_tools.options import Fault, parser, run
from glb_tools.place import Bases, Identity, Place
from glb_tools.server import Lost, Server


class Beside(Follower):
    """A follower that begins nothing anew: it ends where it cannot go on, and with the follower that runs it."""

    parent = os.getppid()

    def hold_up(self, why: str) -> None:
        if os.getppid() != self.parent:
            raise Lost("its follower has ended")
        super().hold_up(why)

    def breaks(self, look: Look) -> str | None:
        identity = self.identity
        if os.getppid() != self.parent:
            return "its follower has ended"
        if look.canary.get("base") != identity.base or look.canary.get("server") != self.name:
            return "nobody asks for it any more"
        if identity.entry and not self.is_in(look):
            return "the log is another one"
        return None

    def begin_anew(self, look: Look, why: str, base: Any, patiently: bool = False) -> None:
        raise Lost(why)

    def drop(self, entry: Entry, why: str) -> None:
        """Servers themselves tell what was dropped."""

    def register(self) -> None:
        """It is no server of the list."""

    def record(self, look: Look, **more: Any) -> None:
        """Nor is its base kept there."""

    def keep_turn(self, look: Look) -> None:
        """The turn is that of the server itself."""

    def settle(self, look: Look) -> None:
        self.is_ready = True
        self.tell()

    def end(self, why: str) -> None:
        if self.lease is not None:
            self.log.etcd.end_lease(self.lease)


@contextmanager
def server_in(place: Place, program: Path) -> Iterator[Server]:
    """Runs a server in a folder, at a port of the loopback that nobody knows."""
    words = [str(program), "serve", str(place.folder / "topology.toml"), "--listen", "127.0.0.1:0"]
    pipes = [open(place.folder / name, "r+b", buffering=0) for name in ("feed", "said", "maps")]
    with subprocess.Popen(words, stdin=pipes[0], stdout=pipes[1], stderr=pipes[2]) as process:
        try:
            yield Server(place.folder)
        finally:
            process.kill()


def main() -> int:
    words = parser("glb-beside", "Runs a server beside that of a follower, which asks for it.")
    add_etcd_options(words)
    words.add_argument("--name", required=True)
    words.add_argument("--run", required=True, type=Path)
    words.add_argument("--bases", required=True, type=Path)
    words.add_argument("--program", required=True, type=Path)
    words.add_argument("--base", required=True)
    options = words.parse_args()
    log = Log(etcd_of(options), options.prefix)
    log.states = "beside"
    bases, place = Bases(options.bases, options.name, options.program), Place(options.run)
    octets = bases.topology(options.base)
    if octets is None:
        raise Fault(f"base {options.base[:12]} is not in {options.bases}")
    entry, chain = place_of(octets)
    program = bases.program_checksum()
    place.prepare(octets, Identity(options.base, program, "beside", entry, chain))
    signal.signal(signal.SIGTERM, lambda *_: sys.exit(0))
    with server_in(place, options.program) as server:
        follower = Beside(options.name, log, server, place, bases, Hooks())
        try:
            follow(follower)
        finally:
            follower.end("")


if __name__ == "__main__":
    run(main)
