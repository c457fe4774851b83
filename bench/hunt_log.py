"""The log of a fleet, read by code of its own for bench/fleet_hunt.py: keys of etcd, entries, and what comes of them.

Nothing here is the tools': what they put is compared with it.
"""

import base64
import hashlib
import json
import subprocess
import tempfile
import tomllib
import zlib
from pathlib import Path


def is_number(name):
    return len(name) == 16 and name.isdigit() and name.isascii()


def digest(octets):
    return hashlib.sha256(octets).hexdigest()


class Keys:
    """All keys of a fleet at one moment."""

    def __init__(self, etcd):
        ask = {
            "key": base64.b64encode(b"glb/").decode(),
            "range_end": base64.b64encode(b"glb0").decode(),
        }
        found = etcd.call("/v3/kv/range", ask)
        self.revision = int(found["header"]["revision"])
        self.octets = {}
        for kv in found.get("kvs", []):
            key = base64.b64decode(kv["key"]).decode("latin-1")
            self.octets[key] = base64.b64decode(kv.get("value", ""))

    def entries(self):
        found = {}
        for key, octets in self.octets.items():
            name = key.removeprefix("glb/log/")
            # entries are numbered from 1: what stands at 0 was put by hand, and is none
            if name != key and is_number(name) and int(name):
                found[int(name)] = octets
        return found

    def file(self, checksum):
        count = self.octets.get(f"glb/file/{checksum}")
        if count is None:
            return None
        pieces = [self.octets.get(f"glb/file/{checksum}/{at:04d}") for at in range(int(count))]
        if None in pieces:
            return None
        octets = zlib.decompress(b"".join(pieces))
        return octets if digest(octets) == checksum else None


def is_change(line):
    words = [word for word in line.split(" ") if word]
    return (
        all(" " <= letter <= "~" for letter in line)
        and len(words) == 3
        and words[0] in ("demand", "capacity")
        and words[2].isascii()
        and words[2].isdigit()
        and len(words[2]) < 20
    )


def content_of(octets, before):
    """What an entry says: ("batch", its lines), ("base", its checksum); None for what is none."""
    try:
        told = json.loads(octets)
        for key in ("author", "why", "time", "before"):
            told[key]
        int(told["time"])
        if before is not None and str(told["before"]) != before:
            return None
        if told["kind"] == "base":
            int(told["upto"]), told["chain"]
            return "base", str(told["base"])
        if told["kind"] == "batch":
            lines = str(told["lines"])
            each = lines.split("\n")
            if each.pop() == "" and len(each) <= 4096 and all(map(is_change, each)):
                return "batch", lines
    except (ValueError, KeyError, TypeError, RecursionError, OverflowError):
        pass
    return None


class Log:
    """The log as it stands, and what comes of it for a server of a base."""

    def __init__(self, keys, memory):
        self.keys, self.memory = keys, memory
        self.entries = keys.entries()
        self.numbers = sorted(self.entries)
        self.bases = json.loads(keys.octets.get("glb/bases", b"[]"))
        for _, checksum, _, _ in self.bases:
            if checksum not in memory and (octets := keys.file(checksum)):
                memory[checksum] = octets

    @property
    def last(self):
        return self.numbers[-1] if self.numbers else 0

    def checksum(self, number):
        return digest(self.entries[number])

    def content(self, number):
        before = "" if number == 1 else None
        if number - 1 in self.entries:
            before = self.checksum(number - 1)
        return content_of(self.entries[number], before)

    def newest_at(self, number):
        found = [base[1] for base in self.bases if base[0] <= number]
        return found[-1] if found else None

    def topology(self, checksum):
        return tomllib.loads(self.memory[checksum].decode())

    def names(self, checksum):
        told = self.topology(checksum)
        units = {each["name"] for kind in ("group", "class") for each in told.get(kind, [])}
        return {"demand": units, "capacity": {node["name"] for node in told["node"]}}

    def handed(self, base, number):
        """The lines of an entry that a server of a base is handed."""
        found = self.content(number)
        if not found or found[0] != "batch":
            return ""
        newest = self.newest_at(number)
        if newest in (None, base):
            return found[1]
        own, other, kept = self.names(base), self.names(newest), []
        for line in found[1].splitlines(keepends=True):
            word, name = line.split()[:2]
            if name in own[word] or name not in other[word]:
                kept.append(line)
        return "".join(kept)

    def upto(self, checksum):
        return next(base[2] for base in self.bases if base[1] == checksum)

    def is_whole(self, base, number):
        return all(each in self.entries for each in range(self.upto(base) + 1, number + 1))


def replayed(glb, log, base, last):
    """By entry, the index and the text of the map that a server of a base has behind it."""
    batches = [(number, log.handed(base, number)) for number in range(log.upto(base) + 1, last + 1)]
    feed = "".join(f"{lines}commit\n" for _, lines in batches if lines)
    with tempfile.TemporaryDirectory() as folder:
        topology = Path(folder, "base.toml")
        topology.write_bytes(log.memory[base])
        done = subprocess.run(
            [str(glb), "serve", str(topology), "--listen", "127.0.0.1:0"],
            input=feed.encode(),
            capture_output=True,
            timeout=60,
            check=False,
        )
    texts = [text + b"\nend\n" for text in done.stderr.split(b"\nend\n")[:-1]]
    outcomes = [line for line in done.stdout.decode().splitlines() if not is_detail(line)]
    if done.returncode or not texts:
        raise RuntimeError(f"the replay ended with {done.returncode}: {done.stderr[:200]!r}")
    at, found = 0, {log.upto(base): (0, texts[0])}
    for number, lines in batches:
        if lines and outcomes.pop(0).startswith("published"):
            at += 1
        found[number] = at, texts[at]
    return found


def is_detail(line):
    return line.startswith("refused ") and not line.startswith("refused commit")
