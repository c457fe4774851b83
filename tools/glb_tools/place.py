"""What a follower keeps on its host: the folder of the server that runs, and the topologies of bases."""

import json
import os
import subprocess
from dataclasses import asdict, dataclass, field
from pathlib import Path

from glb_tools.log import checksum_of, told_in
from glb_tools.options import write_file
from glb_tools.server import PIPES

# where bases are kept if nothing else is said
BASES = "/var/lib/glb/bases"


@dataclass(frozen=True)
class Identity:
    """What a server is: its base and its program, the last entry that it worked with its checksum, and what it showed then;
    the entry that it was handed next."""

    base: str
    program: str
    # made anew at each start
    run: str
    entry: int
    chain: str
    serial: int = 0
    map: str | None = None
    next_entry: int | None = None
    next_chain: str | None = None
    # where its last entry was put by hand: the checksums of those before it, from the last one on that was not, since that
    # one alone says what stands before it
    row: list[str] = field(default_factory=list)
    # the last batches that it dropped whole, by their numbers, with the reasons
    dropped: dict[str, str] = field(default_factory=dict)


class Place:
    """The folder of a server that runs, which goes with it: its topology, its pipes, and its identity."""

    def __init__(self, folder: Path) -> None:
        self.folder, self.file = folder, folder / "identity"

    def identity(self) -> Identity | None:
        try:
            return Identity(**told_in(self.file.read_bytes()))
        except (OSError, TypeError):
            return None

    def begun_from(self) -> str:
        """The checksum of the copy that the server began from, as it is now."""
        try:
            return checksum_of((self.folder / "topology.toml").read_bytes())
        except OSError:
            return ""

    def keep(self, identity: Identity) -> None:
        write_file(self.file, json.dumps(asdict(identity)).encode())

    def prepare(self, topology: bytes, identity: Identity) -> None:
        """Makes what a server begins with."""
        self.folder.mkdir(exist_ok=True)
        self.file.unlink(missing_ok=True)
        for name in PIPES:
            (self.folder / name).unlink(missing_ok=True)
            os.mkfifo(self.folder / name, 0o600)
        write_file(self.folder / "topology.toml", topology)
        self.keep(identity)


class Bases:
    """A folder of topologies by their checksums, and which one of them a server begins from."""

    def __init__(self, folder: Path, name: str, program: Path) -> None:
        self.folder, self.file, self.program = folder, folder / f"{name}.base", program
        self.answers: dict[str, str] = {}

    def path(self, checksum: str) -> Path:
        return self.folder / f"{checksum}.toml"

    def topology(self, checksum: str) -> bytes | None:
        try:
            octets = self.path(checksum).read_bytes()
        except OSError:
            return None
        return octets if checksum_of(octets) == checksum else None

    def put(self, checksum: str, octets: bytes) -> None:
        self.folder.mkdir(parents=True, exist_ok=True)
        write_file(self.path(checksum), octets)

    def chosen(self) -> str | None:
        try:
            return self.file.read_text().strip() or None
        except (OSError, ValueError):
            return None

    def choose(self, checksum: str) -> None:
        write_file(self.file, f"{checksum}\n".encode())

    def prune(self, kept: set[str]) -> None:
        """Takes away the topologies that no base of the log has and no server of this host begins from."""
        for file in self.folder.glob("*.base"):
            kept = kept | {file.read_text(errors="replace").strip()}
        for file in self.folder.glob("*.toml"):
            if file.stem not in kept:
                file.unlink(missing_ok=True)

    def refused(self, checksum: str) -> str | None:
        """Why the program refuses a topology; nothing where it takes it."""
        if checksum not in self.answers:
            words = [str(self.program), "map", str(self.path(checksum))]
            with subprocess.Popen(
                words, stdout=subprocess.PIPE, stderr=subprocess.DEVNULL
            ) as asked:
                assert asked.stdout
                # the first line says it, and nobody needs the map
                line = asked.stdout.readline().decode("latin-1").strip()
                asked.kill()
            self.answers[checksum] = "" if line.startswith("glb map ") else line or "no answer"
        return self.answers[checksum] or None

    def program_checksum(self) -> str:
        return checksum_of(self.program.read_bytes())
