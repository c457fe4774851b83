"""Compact tables, maps as arrays, and what moves between two of them."""

import ipaddress
import random
import unittest
import unittest.mock

import page_world
from page_world import served_of

import numpy as np

from glb_tools.moves import placed_of, report
from glb_tools.options import Fault
from glb_tools.page import maps, tables
from glb_tools.page.maps import (
    NONE,
    chained,
    keys_of,
    moves_of,
    placed_in,
    refusals_in,
    rows_between,
    turned,
    worst,
)
from glb_tools.page.tables import read_tables
from glb_tools.topology import Topology, written
from samples import SMALL, SMALL_MAP

assert page_world
OTHER_MAP = "glb map 2\nplace g1 B 8\nplace g2 A 8\nend\n"
NETWORK = """\
[zone]
apex = "cdn.example"
services = ["www", "Video"]
[[node]]
name = "P"
capacity = 9
pool = true
[[group]]
name = "all"
demand = 1
pools = ["P"]
scores = [1]
prefixes = ["0.0.0.0/0", "::/0"]
[[group]]
name = "wide"
demand = 1
pools = ["P"]
scores = [1]
prefixes = ["198.51.0.0/16", "2001:db8::/32", "2001:db8:0:0:1::/80"]
[[group]]
name = "near"
demand = 1
pools = ["P"]
scores = [1]
prefixes = ["198.51.100.0/24", "198.51.101.0/24", "255.255.255.255/32"]
"""


class Reading(unittest.TestCase):
    def setUp(self):
        self.tables = read_tables(SMALL.encode())

    def test_small(self):
        found = self.tables
        self.assertEqual(found.node_names, ["R", "A", "B"])
        self.assertEqual(found.unit_names, ["g1", "g2", "g2www"])
        self.assertEqual(found.capacities.tolist(), [15, 10, 10])
        self.assertEqual(found.demands.tolist(), [8, 8, 3])
        self.assertEqual(found.pools[:, :3].tolist(), [[1, 2, NONE], [1, 2, NONE], [2, NONE, NONE]])
        self.assertEqual(found.limits[0][:2].tolist(), [5, 10])
        self.assertEqual((found.kind(1), found.kind(2)), ("group", "class"))
        self.assertEqual((found.service_of(2), found.service_of(0)), ("www", None))
        self.assertEqual((found.class_of(1, 0), found.class_of(0, 0)), (2, None))
        self.assertEqual(found.path(2), [2, 0])
        self.assertEqual((found.site(1), found.site(0)), (0, 0))

    def test_trees(self):
        text = SMALL.replace(
            '{name = "R", capacity = 15}',
            '{name = "L", capacity = 1, pool = true}, {name = "R", capacity = 15}',
        ).replace('{name = "B",', '{name = "S", capacity = 4}, {name = "B",')
        found = read_tables(text.encode())
        names = found.node_names
        self.assertEqual([names[n] for n in found.order[0]], ["L", "R", "A", "B", "S"])
        self.assertEqual([names[n] for n in found.below(names.index("R"))], ["R", "A", "B"])
        self.assertEqual([names[n] for n in found.below(names.index("S"))], ["S"])
        under = found.under(names.index("R"))
        self.assertEqual([n for n, is_under in zip(names, under) if is_under], ["R", "A", "B"])
        self.assertEqual(found.depth(names.index("B")), 1)

    def test_last_resort(self):
        """As the reader of glb-why has it: below what has no end, or is out, and below nothing else."""
        most = 2**48
        nodes = "".join(
            f'[[node]]\nname = "{name}"\ncapacity = {capacity}\n{more}'
            for name, capacity, more in (
                ("a", most, "pool = true\n"),
                ("b", most, ""),
                ("c", most, 'parent = "b"\npool = true\n'),
                ("d", 0, ""),
                ("e", most, 'parent = "d"\npool = true\n'),
                ("f", 9, ""),
                ("g", most, 'parent = "f"\npool = true\n'),
                ("h", 9, "pool = true\n"),
            )
        )
        group = '[[group]]\nname = "x"\ndemand = 1\npools = ["a"]\nscores = [1]\nprefixes = []\n'
        text = f'[zone]\napex = "x"\nservices = []\n{nodes}{group}'
        found = read_tables(text.encode())
        self.assertEqual([found.node_names[n] for n in found.last_resort()], ["a", "c", "e"])
        self.assertEqual(found.last_resort(), Topology(text.encode()).last_resort())

    def test_groups_of_addresses(self):
        found = read_tables(NETWORK.encode())
        for text, group, prefix in (
            ("198.51.100.7", "near", "198.51.100.0/24"),
            ("198.51.99.255", "wide", "198.51.0.0/16"),
            ("198.52.0.0", "all", "0.0.0.0/0"),
            ("255.255.255.255", "near", "255.255.255.255/32"),
            ("255.255.255.254", "all", "0.0.0.0/0"),
            ("2001:db8::5", "wide", "2001:db8::/32"),
            ("2001:db8:0:0:1::9", "wide", "2001:db8:0:0:1::/80"),
            ("2001:db9::", "all", "::/0"),
        ):
            with self.subTest(text):
                address = ipaddress.ip_address(text)
                number, network = found.group_of(address)
                self.assertEqual((found.unit_names[number], str(network)), (group, prefix))
                # the reader of glb-why says the same
                again = Topology(NETWORK.encode()).group_of(address)
                self.assertEqual((number, network), again)

    def test_prefixes_inside(self):
        found = read_tables(NETWORK.encode())
        count, listed = found.inside(ipaddress.ip_network("198.51.0.0/16"), 8)
        self.assertEqual(count, 2)
        self.assertEqual(
            [(str(each), found.unit_names[group]) for each, group in listed],
            [("198.51.100.0/24", "near"), ("198.51.101.0/24", "near")],
        )
        self.assertEqual(found.inside(ipaddress.ip_network("198.51.0.0/16"), 1)[0], 2)
        self.assertEqual(len(found.inside(ipaddress.ip_network("198.51.0.0/16"), 1)[1]), 1)
        self.assertEqual(found.inside(ipaddress.ip_network("198.51.100.0/24"), 8), (0, []))
        # at the end of all addresses, and with dictionaries
        self.assertEqual(found.inside(ipaddress.ip_network("255.0.0.0/8"), 8)[0], 1)
        count, listed = found.inside(ipaddress.ip_network("::/0"), 8)
        self.assertEqual((count, len(listed)), (2, 2))

    def test_prefixes_of_a_group(self):
        found = read_tables(NETWORK.encode())
        count, listed = found.prefixes_of(1, 8)
        self.assertEqual(count, 3)
        self.assertEqual(
            {str(each) for each in listed},
            {"198.51.0.0/16", "2001:db8::/32", "2001:db8:0:0:1::/80"},
        )
        self.assertEqual((found.prefixes_of(1, 2)[0], len(found.prefixes_of(1, 2)[1])), (3, 2))

    def test_text_with_other_numbers(self):
        numbers = {("capacity", 2): 77, ("demand", 1): 12345, ("demand", 2): 4}
        due = written(Topology(SMALL.encode()), numbers).encode()
        self.assertEqual(self.tables.written(numbers), due)
        self.assertEqual(self.tables.written({}), SMALL.encode())
        plain = NETWORK.encode()
        due = written(Topology(plain), {("demand", 2): 6}).encode()
        self.assertEqual(read_tables(plain).written({("demand", 2): 6}), due)

    def test_in_a_process_of_its_own(self):
        large = "# " + "x" * tables.LARGE + "\n" + SMALL
        found = read_tables(large.encode())
        self.assertEqual(found.unit_at, self.tables.unit_at)
        self.assertEqual(found.pools.tolist(), self.tables.pools.tolist())
        self.assertEqual(found.written({}), large.encode())
        with self.assertRaisesRegex(Fault, "the topology is no topology"):
            read_tables(large.replace("demand = 3", "demand = 0").encode())


class Maps(unittest.TestCase):
    def setUp(self):
        self.tables = read_tables(SMALL.encode())

    def test_small(self):
        placed = placed_in(self.tables, SMALL_MAP.encode())
        self.assertEqual(placed.offers.tolist(), [0, 1, 16, 32])
        self.assertEqual(placed.amounts.tolist(), [5, 3, 4, 3])
        refusals = refusals_in(self.tables, SMALL_MAP.encode())
        self.assertEqual(refusals.of(0).tolist(), [17])
        self.assertEqual(refusals.of(NONE).tolist(), [0])
        self.assertEqual(refusals.of(1).tolist(), [])
        self.assertEqual(refusals.of_unit(1), {1: 0})
        self.assertEqual(refusals.of_unit(0), {0: NONE})
        self.assertEqual(refusals.counts(3).tolist(), [1, 0, 0])

    def test_sums(self):
        served = served_of(numbers=[("demand", "g2", 9)])
        sums = served.sums
        self.assertEqual(sums.loads.tolist(), [15, 9, 6])
        self.assertEqual(sums.placed.tolist(), [8, 4, 3])
        self.assertEqual(sums.nowhere.tolist(), [0, 5, 0])
        self.assertEqual((sums.demand, sums.placed_units, sums.unplaced), (20, 15, 5))
        self.assertEqual(sums.is_full.tolist(), [True, False, False])

    def test_pieces(self):
        """A text is taken apart the same, however it is cut."""
        whole = refusals_in(self.tables, SMALL_MAP.encode())
        for piece in (20, 25, 33, 40):
            with self.subTest(piece), unittest.mock.patch.object(maps, "PIECE", piece):
                found = refusals_in(self.tables, SMALL_MAP.encode())
                self.assertEqual(found.offers.tolist(), whole.offers.tolist())
                placed = placed_in(self.tables, SMALL_MAP.encode())
                self.assertEqual(placed.amounts.tolist(), [5, 3, 4, 3])

    def test_empty(self):
        placed = placed_in(self.tables, b"glb map 2\nend\n")
        self.assertEqual(len(placed.offers), 0)
        self.assertEqual(len(refusals_in(self.tables, b"glb map 2\nend\n").offers), 0)
        found = moves_of(rows_between(*[each for each in self.sides("", "") for each in each]))
        self.assertEqual((found.moved, found.flows), (0, []))

    def test_no_map(self):
        for text in (b"", b"glb map 3\nend\n", b"glb map 2\nplace g1 A 1\n", b"glb map 2\nend"):
            with self.subTest(text), self.assertRaises(Fault):
                placed_in(self.tables, text)
        for line in ("place g9 A 1", "place g2www A 1", "place g1 A x", "place g1 R 1"):
            with self.subTest(line), self.assertRaisesRegex(Fault, "none of its topology"):
                placed_in(self.tables, f"glb map 2\n{line}\nend\n".encode())

    def test_worst(self):
        served = served_of()
        # by score, of equal ones the later unit: g2 at A (3), g1 at B (2), g2www at B (1), g1 at A (1)
        due = [(16, 4), (1, 3), (32, 3), (0, 5)]
        self.assertEqual(worst(served.tables, served.placed, 0, 9), due)
        self.assertEqual(worst(served.tables, served.placed, 0, 2), due[:2])
        self.assertEqual(worst(served.tables, served.placed, 2, 9), [(1, 3), (32, 3)])

    def test_worst_of_equal_scores(self):
        """Of equal scores the later unit is the worse one, whatever its pool."""
        tables = read_tables(drawn_world(2, [('"p1"', "1"), ('"p0"', "1")]).encode())
        placed = placed_in(tables, b"glb map 2\nplace g0 p1 3\nplace g1 p0 4\nend\n")
        root = (
            drawn_world(2, [('"p1"', "1"), ('"p0"', "1")])
            .replace(
                '[[node]]\nname = "p0"\n',
                '[[node]]\nname = "r"\ncapacity = 9\n[[node]]\nname = "p0"\nparent = "r"\n',
            )
            .replace('name = "p1"\n', 'name = "p1"\nparent = "r"\n')
        )
        tables = read_tables(root.encode())
        self.assertEqual(worst(tables, placed, 0, 9), [(16, 4), (0, 3)])

    def sides(self, old, new):
        for text in (old, new):
            placed = placed_in(self.tables, f"glb map 2\n{text}end\n".encode())
            yield keys_of(self.tables, placed.offers), placed

    def test_moves(self):
        old, new = (placed_in(self.tables, each.encode()) for each in (SMALL_MAP, OTHER_MAP))
        rows = rows_between(
            keys_of(self.tables, old.offers), old, keys_of(self.tables, new.offers), new
        )
        found = moves_of(rows)
        # g1: 5 from A to B; g2: 4 from nowhere to A; g2www: 3 from B to nowhere
        self.assertEqual((found.moved, found.gained, found.lost, found.groups), (5, 4, 3, 3))
        self.assertEqual(found.flows, [(1, 2, 5, 1), (NONE, 1, 4, 1), (2, NONE, 3, 1)])
        listed = zip(found.units, found.sources, found.targets, found.amounts)
        self.assertEqual(list(listed), [(0, 1, 2, 5), (1, NONE, 1, 4), (2, 2, NONE, 3)])
        back = moves_of(turned(rows))
        self.assertEqual((back.moved, back.gained, back.lost), (5, 3, 4))
        self.assertEqual(back.flows, [(2, 1, 5, 1), (1, NONE, 4, 1), (NONE, 2, 3, 1)])


def drawn_world(pools, units):
    nodes = "".join(f'[[node]]\nname = "p{n}"\ncapacity = 9\npool = true\n' for n in range(pools))
    groups = "".join(
        f'[[group]]\nname = "g{n}"\ndemand = 99\npools = [{listed}]\nscores = [{scores}]\nprefixes = []\n'
        for n, (listed, scores) in enumerate(units)
    )
    return f'[zone]\napex = "x"\nservices = []\n{nodes}{groups}'


class Drawn(unittest.TestCase):
    """Drawn maps: what moves is what glb-moves says, which was written by other hands."""

    def setUp(self):
        draw = random.Random(7)
        self.lists = [draw.sample(range(7), draw.randint(1, 7)) for _ in range(9)]
        units = [
            (", ".join(f'"p{pool}"' for pool in listed), ", ".join("1" for _ in listed))
            for listed in self.lists
        ]
        self.tables = read_tables(drawn_world(7, units).encode())
        self.texts = [self.text(draw) for _ in range(60)]
        self.maps = [placed_in(self.tables, text.encode()) for text in self.texts]

    def text(self, draw):
        lines = [
            f"place g{unit} p{pool} {draw.randint(1, 9)}\n"
            for unit, listed in enumerate(self.lists)
            for pool in listed
            if draw.random() < 0.4
        ]
        return f"glb map 2\n{''.join(lines)}end\n"

    def rows(self, a, b):
        old, new = self.maps[a], self.maps[b]
        return rows_between(
            keys_of(self.tables, old.offers), old, keys_of(self.tables, new.offers), new
        )

    def same(self, rows, a, b):
        due = report(*(placed_of(self.texts[n].encode()) for n in (a, b)))
        found = moves_of(rows)
        name = lambda node: None if node == NONE else self.tables.node_names[node]  # noqa: E731
        flows = {(name(x), name(y)): (units, count) for x, y, units, count in found.flows}
        self.assertEqual(
            flows,
            {(each["from"], each["to"]): (each["units"], each["groups"]) for each in due["flows"]},
        )
        moves = sorted(
            (self.tables.unit_names[unit], str(name(x)), str(name(y)), int(units))
            for unit, x, y, units in zip(found.units, found.sources, found.targets, found.amounts)
        )
        self.assertEqual(
            moves,
            sorted(
                (group["name"], str(move["from"]), str(move["to"]), move["units"])
                for group in due["groups"]
                for move in group["moves"]
            ),
        )
        self.assertEqual(
            (found.moved, found.gained, found.lost, found.groups),
            (due["moved"], due["gained"], due["lost"], len(due["groups"])),
        )

    def test_pairs(self):
        for at in range(len(self.maps) - 1):
            with self.subTest(at):
                self.same(self.rows(at, at + 1), at, at + 1)

    def test_chains(self):
        """Steps one behind the other come to what the first and the last map differ by, forth and back."""
        for first, last in ((0, 2), (3, 9), (10, 40), (41, 59)):
            with self.subTest(first=first, last=last):
                found = chained([self.rows(at, at + 1) for at in range(first, last)])
                self.same(found, first, last)
                self.same(turned(found), last, first)

    def test_there_and_back(self):
        found = chained([self.rows(0, 1), self.rows(1, 0)])
        self.assertEqual(len(found), 0)
        self.assertEqual(len(chained([])), 0)
        self.assertEqual(moves_of(chained([])).flows, [])

    def test_large_amounts(self):
        """Sums of units past 2^32 are exact."""
        most = 2**32 - 1
        lines = "".join(
            f"place g{unit} p{listed[0]} {most}\n" for unit, listed in enumerate(self.lists)
        )
        placed = placed_in(self.tables, f"glb map 2\n{lines}end\n".encode())
        empty = placed_in(self.tables, b"glb map 2\nend\n")
        keys = keys_of(self.tables, placed.offers)
        found = moves_of(rows_between(keys, placed, np.zeros(0, np.uint64), empty))
        self.assertEqual(found.lost, 9 * most)


if __name__ == "__main__":
    unittest.main()
