"""Writes a topology with the numbers that logs of changes leave, as a server that has read all of them holds them.

    glb-numbers TOPOLOGY LOG.. > NEW
    glb-numbers --json TOPOLOGY LOG..     the numbers alone, and what came of the batches

The logs are read one behind the other, as one feed. A batch counts where no line since the commit before it is
refused; what stands behind the last commit, or behind `stop`, does not count. A batch that one server dropped for
want of memory counts here. Only the digits of `demand` and `capacity` change: comments and order stay as they are.
What was dropped is said on standard error. Check what it writes: `glb map NEW | head -n 1`.
"""

import json
import sys
from pathlib import Path
from typing import Any

from glb_tools.options import Progress, parser
from glb_tools.text import Replay
from glb_tools.topology import Topology, read_topology, written

# how many refused lines of a batch are said
MOST_REFUSED = 4


def report(topology: Topology, replay: Replay) -> dict[str, Any]:
    names = {
        "demand": [unit.name for unit in topology.units],
        "capacity": [node.name for node in topology.nodes],
    }
    numbers: dict[str, dict[str, int]] = {word: {} for word in names}
    for (word, number), value in replay.numbers.items():
        numbers[word][names[word][number]] = value
    dropped = [
        {"commit": line, "refused": [{"line": at, "why": why} for at, why in refused]}
        for line, refused in replay.dropped
    ]
    return {
        **numbers,
        "published": replay.published,
        "dropped": dropped,
        "open": len(replay.batch),
        "stopped": replay.is_stopped,
    }


def first_of(refused: list[tuple[int, str]]) -> str:
    return ", ".join(f"{at} {why}" for at, why in refused[:MOST_REFUSED])


def warn(replay: Replay) -> None:
    for line, refused in replay.dropped:
        print(
            f"the batch that ends in line {line} was dropped: refused {first_of(refused)}",
            file=sys.stderr,
        )
    if replay.batch or replay.refused:
        said = f"changes {len(replay.batch)}"
        if replay.refused:
            said += f", refused {first_of(replay.refused)}"
        print(f"what stands behind the last commit does not count: {said}", file=sys.stderr)
    if replay.is_stopped:
        print(
            f"line {replay.line} is `stop`: a server that reads this log ends there",
            file=sys.stderr,
        )


def main() -> None:
    words = parser("glb-numbers", __doc__ or "", json=True)
    words.add_argument("topology", metavar="TOPOLOGY")
    words.add_argument("log", metavar="LOG", nargs="+")
    options = words.parse_args()
    with Progress("reads topology and logs"):
        topology = read_topology(options.topology)
        replay = Replay(topology)
        replay.take(b"".join(Path(log).read_bytes() for log in options.log))
        text = "" if options.json else written(topology, replay.numbers)
    if options.json:
        print(json.dumps(report(topology, replay), indent=2))
        return
    warn(replay)
    sys.stdout.write(text)
