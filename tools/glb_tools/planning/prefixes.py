"""Fewer prefixes that say the same: each address keeps its group."""

import ipaddress

from glb_tools.planning.world import Prefix

BITS = {4: 32, 6: 128}


def aggregated(prefixes: dict[Prefix, int]) -> dict[Prefix, int]:
    """A smaller set of prefixes, in order, by which each address has the group that it had before.

    Two halves of one group become the whole, and what lies in a larger one of its own group is left out.
    """
    found: dict[Prefix, int] = {}
    for family in (4, 6):
        levels: list[dict[int, int]] = [{} for _ in range(BITS[family] + 1)]
        for (kind, start, length), group in prefixes.items():
            if kind == family:
                levels[length][start] = group
        join_halves(levels, BITS[family])
        leave_out(levels, BITS[family])
        for length, level in enumerate(levels):
            found.update(((family, start, length), group) for start, group in level.items())
    return {prefix: found[prefix] for prefix in sorted(found)}


def join_halves(levels: list[dict[int, int]], bits: int) -> None:
    """Whatever a whole said before is not heard where both of its halves are there."""
    for length in range(bits, 0, -1):
        level, half = levels[length], 1 << bits - length
        for start in [start for start in level if not start & half]:
            group, other = level[start], level.get(start | half)
            if group == other:
                del level[start], level[start | half]
                levels[length - 1][start] = group


def leave_out(levels: list[dict[int, int]], bits: int) -> None:
    """Leaves out each prefix of which the next larger one that holds it has the same group."""
    used: list[int] = []
    for length, level in enumerate(levels):
        for start, group in list(level.items()):
            for above in reversed(used):
                around = levels[above].get(start >> bits - above << bits - above)
                if around is not None:
                    break
            else:
                continue
            if around == group:
                del level[start]
        if level:
            used.append(length)


def text_of(prefix: Prefix) -> str:
    family, start, length = prefix
    kind = ipaddress.IPv4Address if family == 4 else ipaddress.IPv6Address
    return f"{kind(start)}/{length}"
