"""Whose number stands for a name, where several would have it: the one that is set by hand, the one that is down, the drain,
or what is measured, in this order."""

import json
from collections.abc import Container
from enum import Enum

from glb_tools.etcd import Full, Message, Unreachable, put
from glb_tools.log import BATCH, PIECE, Log, Look
from glb_tools.options import Fault, said

# who appends what is measured, and how the reason of an entry begins that hands its names back, whoever appends it
AUTHOR, HANDED_BACK = "glb-watch", "handed back"
# who set numbers by hand, by word and name
Hands = dict[tuple[str, str], str]


class Holder(Enum):
    HAND = "by hand"
    DOWN = "down"
    DRAIN = "drained"
    MEASURED = "measured"


def holder(is_by_hand: bool, is_down: bool, is_drained: bool) -> Holder:
    """Who holds a name. By hand, its number stays. Down, it is 0. Drained, it is the drain's number. Else the measured one."""
    if is_by_hand:
        return Holder.HAND
    if is_down:
        return Holder.DOWN
    return Holder.DRAIN if is_drained else Holder.MEASURED


def is_by_hand(number: int, author: str, drained: Container[int] = ()) -> bool:
    """Whether a number was set by hand: by somebody else than glb-watch ("" is nobody), and not by the drain of that node that
    is on, whose last two numbers are `drained`."""
    return author not in ("", AUTHOR) and number not in drained


def hands_kept(log: Log) -> Hands:
    """Who set which numbers by hand, as it is kept beside a fleet's log: a cut takes their entries away."""
    item = log.etcd.get(log.at("hand"))
    try:
        told = json.loads(item.octets) if item else []
        return {(str(word), str(name)): str(who) for word, name, who in told}
    except (ValueError, TypeError, RecursionError):
        return {}


def hands_put(log: Log, hands: Hands) -> list[Message]:
    """What keeps it; nothing where there are too many for one value of etcd."""
    octets = json.dumps([[*name, who] for name, who in sorted(hands.items())])
    return [put(log.at("hand"), octets)] if len(octets) <= PIECE else []


def keep_hands(log: Log, look: Look, upto: int) -> None:
    """Keeps who set which numbers by hand up to an entry, ahead of a cut up to it: glb-watch may not have led since. An etcd that
    is full, and a log with a gap, are cut all the same."""
    kept = hands_kept(log)
    hands = dict(kept)
    try:
        for entry in log.entries(look.begins, upto):
            author = author_of(entry.author, entry.why)
            for line in entry.lines.splitlines() if entry.kind == BATCH else ():
                word, name = line.split()[:2]
                if author == AUTHOR:
                    hands.pop((word, name), None)
                else:
                    hands[word, name] = author
        if hands != kept and (parts := hands_put(log, hands)):
            log.etcd.txn(parts)
    except Unreachable:
        raise
    except Full:
        said("etcd is full: who set numbers by hand is not kept (glb-watch)", 0)
    except Fault:
        pass


def author_of(author: str, why: str) -> str:
    """Who counts as the author of an entry."""
    return AUTHOR if why.startswith(HANDED_BACK) else author
