"""Draws a topology and a map of it, as SVG.

    picture.py TOPOLOGY MAP [--trees N] [--nodes N] [--groups N] > PICTURE.svg

Each tree has a row for each node: a frame as wide as its capacity, filled as far as it is loaded, the load and the
capacity in numbers, and what a full node refuses, that is the groups which would rather use the pool in brackets. Beside
a pool stand the groups that have as much there as their limits let them. Below stand the groups with units that are
placed nowhere. Traffic classes are groups here. A frame that is drawn shorter than its capacity has two strokes across its
end. A world of more than forty nodes begins with a row for each tree, and only trees with full nodes follow, each with its
fullest nodes: N trees (12 if it is not given), N nodes of each (16), N groups (16). In a world of at most eight groups
each has a colour of its own. glb-page draws by the same code.

It reads the texts that `glb` reads and writes, and takes a map as it is: `glb check` says whether it is good.
"""

import sys
from collections import Counter, defaultdict
from collections.abc import Iterator

from glb_tools.drawing import (
    LEFT,
    MOST_COLOURS,
    Canvas,
    Columns,
    Row,
    chosen,
    count,
    draw_rows,
    fitted,
    limit_of,
    named,
    number_words,
    place,
    rect,
    short,
    width_of,
)
from glb_tools.map import Map, read_map
from glb_tools.options import Fault, Progress, parser
from glb_tools.topology import Topology, read_topology

# up to how many nodes a world is drawn whole
FEW = 40
# how wide the words beside a node are at most
NOTE = 250.0


class World:
    """A topology with what a map places: loads by node and group, refusals by node, what each group is left with."""

    def __init__(self, topology: Topology, found: Map) -> None:
        nodes, units = topology.nodes, topology.units
        self.capacities = {node.name: node.capacity for node in nodes}
        self.demands = {unit.name: unit.demand for unit in units}
        self.children: defaultdict[str | None, list[str]] = defaultdict(list)
        for node in nodes:
            parent = None if node.parent is None else nodes[node.parent].name
            self.children[parent].append(node.name)
        self.loads: dict[str, Counter[str]] = {node.name: Counter() for node in nodes}
        self.left = dict(self.demands)
        for (number, at), amount in found.amounts.items():
            unit = units[number]
            self.left[unit.name] -= amount
            for above in topology.path(unit.pools[at]):
                self.loads[nodes[above].name][unit.name] += amount
        # the groups that a full node refuses, and those that have their limit at a pool, each with the pool
        self.refused: defaultdict[str, list[tuple[str, str]]] = defaultdict(list)
        self.limited: defaultdict[str, list[tuple[str, str]]] = defaultdict(list)
        for name in found.names:
            group, pool = units[name.unit].name, nodes[units[name.unit].pools[name.place]].name
            if name.node is None:
                self.limited[pool].append((group, pool))
            else:
                self.refused[nodes[name.node].name].append((group, pool))

    def row(self, name: str, depth: int) -> Row:
        row = Row(name, depth, self.loads[name].total(), self.capacities[name])
        words = []
        if self.refused[name]:
            words.append(f"refuses {named(self.refused[name], name, NOTE)}")
        if self.limited[name]:
            words.append(f"limit of {named(self.limited[name], name, NOTE)}")
        row.note = "; ".join(words)
        if len(self.demands) <= MOST_COLOURS:
            row.parts = [
                (number, self.loads[name][group]) for number, group in enumerate(self.demands)
            ]
        return row

    def below(self, name: str, depth: int = 0) -> Iterator[tuple[str, int]]:
        """A node and all below it, with their depths, in the order of the file."""
        yield name, depth
        for child in self.children[name]:
            yield from self.below(child, depth + 1)

    def tree(self, root: str) -> list[Row]:
        return [self.row(name, depth) for name, depth in self.below(root)]

    def rank(self, root: str) -> tuple[float, int]:
        """The fullest trees first; of equal ones that which refuses more."""
        refused = sum(len(self.refused[name]) for name, _ in self.below(root))
        return -self.row(root, 0).fullness, -refused


def draw_head(canvas: Canvas, world: World, title: str) -> None:
    rows = [world.row(name, 0) for name in world.capacities]
    placed = sum(world.demands.values()) - sum(world.left.values())
    unplaced = sum(world.left.values())
    canvas.text(LEFT, title, "ink bold", 18)
    canvas.down(1.2)
    canvas.text(
        LEFT,
        f"{count(len(world.demands), 'group')}, {count(len(rows), 'node')} in {count(len(world.children[None]), 'tree')}; "
        f"{placed:,} of {count(placed + unplaced, 'unit')} placed, {unplaced:,} unplaced; "
        f"{count(sum(row.is_full for row in rows), 'full node')}",
        "grey",
    )
    canvas.down(0.9)
    hatched = "bold is full" if len(world.demands) <= MOST_COLOURS else "hatched is full"
    canvas.text(
        LEFT,
        f"What is {hatched}. A full node refuses the groups beside it, which would rather have more there, or at the pool in"
        " brackets.",
        "grey",
    )
    canvas.down(1.4)


def draw_legend(canvas: Canvas, world: World) -> None:
    if len(world.demands) > MOST_COLOURS:
        return
    x: float = LEFT
    for number, (group, demand) in enumerate(world.demands.items()):
        words = fitted(f"{group}, demand {short(demand)}", 200)
        if x + width_of(words) + 34 > canvas.width - LEFT:
            canvas.down()
            x = LEFT
        canvas.add(rect(x, canvas.y + 5, 12, 12, f"g{number}"))
        canvas.text(x + 18, words, "grey")
        x += width_of(words) + 34
    canvas.down(1.3)


def heading(canvas: Canvas, words: str) -> None:
    canvas.down(0.3)
    canvas.text(LEFT, words, "ink bold", 14)
    canvas.down(1.1)


def more(canvas: Canvas, words: str) -> None:
    canvas.text(LEFT + 16, words, "grey")
    canvas.down()


def draw_trees(canvas: Canvas, world: World, most: int, nodes: int) -> None:
    """All trees, or of a large world a row for each, and then those with full nodes."""
    roots = sorted(world.children[None], key=world.rank)
    if len(world.capacities) > FEW:
        heading(canvas, "Trees, the fullest first")
        rows = [world.row(root, 0) for root in roots[:most]]
        draw_rows(canvas, rows, limit_of(rows), Columns.of(rows, canvas.width))
        if len(roots) > most:
            more(canvas, f"and {count(len(roots) - most, 'more tree')}")
    trees = [world.tree(root) for root in roots[:most]]
    if len(world.capacities) > FEW:
        trees = [tree for tree in trees if len(tree) > 1 and any(row.is_full for row in tree)]
    kept = [chosen(tree, nodes) for tree in trees]
    columns = Columns.of([row for rows in kept for row in rows], canvas.width)
    for tree, rows in zip(trees, kept):
        full = sum(row.is_full for row in tree)
        heading(canvas, f"{fitted(tree[0].name, 300)}: {count(len(tree), 'node')}, {full:,} full")
        draw_rows(canvas, rows, limit_of(rows), columns)
        if len(rows) < len(tree):
            more(canvas, f"and {count(len(tree) - len(rows), 'more node')}")
    if len(roots) > most and len(world.capacities) <= FEW:
        more(canvas, f"and {count(len(roots) - most, 'more tree')}")


def draw_unplaced(canvas: Canvas, world: World, most: int) -> None:
    left = sorted(
        ((units, name) for name, units in world.left.items() if units > 0),
        key=lambda row: -row[0],
    )
    canvas.down(0.4)
    heading(canvas, "Unplaced units by group")
    if not left:
        more(canvas, "none")
        return
    rows = [Row(name, 0, units, world.demands[name]) for units, name in left[:most]]
    columns = Columns.of(rows, canvas.width)
    scale = columns.bar_width / max(row.capacity for row in rows)
    for row in rows:
        placed = (row.capacity - row.load) * scale
        canvas.text(LEFT, fitted(row.name, columns.bars - LEFT - 8))
        canvas.add(rect(columns.bars, canvas.y + 5, placed, 12, "free"))
        nowhere = place(columns.bars + placed, canvas.y + 5, row.load * scale, 12)
        canvas.add(f'<rect {nowhere} fill="url(#dots)"/>')
        canvas.add(rect(columns.bars, canvas.y + 5, row.capacity * scale, 12, "frame"))
        canvas.text(columns.numbers, number_words(row).rsplit(",", 1)[0], anchor="end")
        canvas.down()
    if len(left) > most:
        rest = left[most:]
        units = count(sum(units for units, _ in rest), "unit")
        more(canvas, f"and {units} of {count(len(rest), 'other group')}")


def draw(world: World, title: str, trees: int, nodes: int, groups: int) -> str:
    canvas = Canvas()
    draw_head(canvas, world, title)
    draw_legend(canvas, world)
    draw_trees(canvas, world, trees, nodes)
    draw_unplaced(canvas, world, groups)
    return canvas.whole()


def main() -> None:
    words = parser("picture.py", __doc__ or "")
    words.add_argument("topology", metavar="TOPOLOGY")
    words.add_argument("map", metavar="MAP")
    words.add_argument("--trees", metavar="N", type=int, default=12)
    words.add_argument("--nodes", metavar="N", type=int, default=16)
    words.add_argument("--groups", metavar="N", type=int, default=16)
    asked = words.parse_args()
    if min(asked.trees, asked.nodes, asked.groups) < 1:
        words.error("--trees, --nodes and --groups are at least 1")
    with Progress("draws"):
        topology = read_topology(asked.topology)
        world = World(topology, read_map(topology, asked.map))
        over = [name for name, units in world.left.items() if units < 0]
        if over:
            raise Fault(
                f"{asked.map} places more of {over[0]} than its demand: it is no map of this topology"
            )
        title = f"A map of {topology.apex}"
        text = draw(world, title, asked.trees, asked.nodes, asked.groups)
    sys.stdout.write(text + "\n")
