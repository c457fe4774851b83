"""A dump of a routing table: a prefix and its origin in each line, as `198.51.100.0/24 64500`."""

import re
from pathlib import Path

from glb_tools.options import Fault
from glb_tools.planning.readers.found import Found
from glb_tools.planning.table import shown
from glb_tools.topology import Wrong, prefix_in

ORIGIN = re.compile(r"(?:AS)?([0-9]{1,10})", re.IGNORECASE)


def read_routes(paths: list[Path]) -> Found:
    """A group for each origin. Of several origins of one prefix the first line counts."""
    found = Found()
    several = sets = 0
    for path in paths:
        for number, octets in enumerate(path.read_bytes().split(b"\n"), 1):
            words = octets.decode("latin-1").split("#")[0].split()
            if not words:
                continue
            where = f"{path}, line {number}"
            if len(words) != 2:
                raise Fault(f"{where}: {len(words)} words: a prefix and its origin are wanted")
            try:
                prefix = prefix_in(words[0], 0)
            except Wrong:
                raise Fault(f"{where}: {shown(words[0])} is no prefix") from None
            origin = ORIGIN.fullmatch(words[1])
            if origin is None and not words[1].startswith("{"):
                raise Fault(f"{where}: {shown(words[1])} is no number of an autonomous system")
            if origin is None:
                sets += 1
            elif found.prefixes.setdefault(prefix, f"as{origin[1]}") != f"as{origin[1]}":
                several += 1
    if several:
        found.lose(f"{several:,} further origins of prefixes that have several")
    if sets:
        found.lose(f"{sets:,} prefixes whose origin is a set")
    return found
