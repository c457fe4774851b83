"""The text of a topology. What `glb` would refuse for its size is refused here, before anything is written."""

from collections.abc import Iterator

from glb_tools.options import Fault
from glb_tools.planning.choices import Choices
from glb_tools.planning.lists import Lists
from glb_tools.planning.prefixes import text_of
from glb_tools.planning.world import Node, Numbers, World
from glb_tools.text import MOST_UNITS

LONGEST = 64 * 1024 * 1024
REMARK = "# made by glb-topology\n"
# characters that a text in quotes has to escape (TOML's basic strings)
ESCAPED = {'"': '\\"', "\\": "\\\\", "\n": "\\n", "\t": "\\t", "\r": "\\r"}


def quoted(text: str) -> str:
    plain = "".join(
        ESCAPED.get(c, c if c >= " " and c != "\x7f" else f"\\u{ord(c):04x}") for c in text
    )
    return f'"{plain}"'


def listed(items: list[str]) -> str:
    return "[" + ", ".join(items) + "]"


def value(item: object) -> str:
    if isinstance(item, list):
        return listed([quoted(text) for text in item])
    return quoted(item) if isinstance(item, str) else str(item)


def node_text(node: Node) -> str:
    lines = ["[[node]]", f"name = {quoted(node.name)}"]
    if node.parent:
        lines.append(f"parent = {quoted(node.parent)}")
    lines.append(f"capacity = {node.capacity}")
    if node.is_pool:
        lines.append("pool = true")
        for key, addresses in (("a", node.a), ("aaaa", node.aaaa)):
            if addresses:
                lines.append(f"{key} = {value(addresses)}")
    return "\n".join(lines) + "\n\n"


class Writer:
    """What of a world is written whatever the lists: the size of the parts is checked once."""

    def __init__(
        self, choices: Choices, world: World, prefixes: dict[tuple[int, int, int], int]
    ) -> None:
        if len(prefixes) > choices.lists.prefixes:
            raise Fault(
                f"there are {len(prefixes):,} prefixes when those that say the same are joined; {choices.lists.prefixes:,} are allowed"
            )
        self.world = world
        self.head = "[zone]\n" + "".join(
            f"{key} = {value(item)}\n" for key, item in choices.zone.items()
        )
        self.pools = [quoted(node.name) for node in world.nodes]
        self.prefixes: list[list[str]] = [[] for _ in world.units]
        for prefix, group in prefixes.items():
            self.prefixes[group].append(quoted(text_of(prefix)))

    def octets(self, lists: Lists, demand: Numbers, limit: Numbers | None) -> bytes:
        """The document; `limit` has the limit of each offer where there are any."""
        text = "".join(self.pieces(lists, demand, limit)).encode()
        if len(text) > LONGEST:
            raise Fault(
                f"the topology has {len(text):,} octets; `glb` takes {LONGEST:,}: give shorter names, or shorter lists"
            )
        return text

    def pieces(self, lists: Lists, demand: Numbers, limit: Numbers | None) -> Iterator[str]:
        yield REMARK + self.head + "\n"
        yield from (node_text(node) for node in self.world.nodes)
        world = self.world
        offer, unit = lists.offer, world.offer_unit[lists.offer]
        ends = [0] * (len(world.units) + 1)
        for number in unit.tolist():
            ends[number + 1] += 1
        pool, score = world.offer_pool[offer].tolist(), lists.score.tolist()
        limits = [] if limit is None else limit[offer].tolist()
        start = 0
        for number, name in enumerate(world.units):
            end = start + ends[number + 1]
            yield self.unit_text(number, name, int(demand[number]))
            yield f"pools = {listed([self.pools[at] for at in pool[start:end]])}\n"
            yield f"scores = {score[start:end]}\n"
            if limits and min(limits[start:end]) < MOST_UNITS:
                yield f"limits = {limits[start:end]}\n"
            if world.owner[number] < 0:
                yield f"prefixes = {listed(self.prefixes[number])}\n"
            yield "\n"
            start = end

    def unit_text(self, number: int, name: str, demand: int) -> str:
        owner = int(self.world.owner[number])
        head = f"[[group]]\nname = {quoted(name)}\n"
        if owner >= 0:
            head = f"[[class]]\nname = {quoted(name)}\ngroup = {quoted(self.world.units[owner])}\n"
            head += f"service = {quoted(self.world.services[number])}\n"
        return head + f"demand = {demand}\n"
