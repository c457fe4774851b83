"""Numbers that a log leaves, the feed that makes a map once more, and how entries are shown."""

import argparse
import io
import unittest

from fleet_world import OPS, World
from glb_tools.history import feed, topology_at, with_numbers
from glb_tools.log import BATCH, Base, Entry, Names, checksum_of, entry_octets, place_of, read_entry
from glb_tools.log_command import as_json, is_asked, last_map, line_of
from glb_tools.options import Fault
from glb_tools.topology import Topology
from samples import EXAMPLES

TREE = (EXAMPLES / "tree.toml").read_bytes()


def names_in(topology):
    found = Topology(topology)
    return Names(list(found.unit_at), list(found.node_at))


class Real(World):
    """A log whose bases are real topologies."""

    def roll(self, names, back=0):
        self.put_real(TREE)

    def put_real(self, topology):
        checksum = checksum_of(topology)
        self.log.put_file("names", checksum, names_in(topology).octets())
        self.log.put_file("file", checksum, topology)
        return self.log.append_base(self.ident(), OPS, topology)


class Numbers(unittest.TestCase):
    def setUp(self):
        self.world = Real(0)
        self.log = self.world.log
        self.world.append("demand g1 7\ncapacity A 0\n")
        self.world.append("demand nobody 7\n")
        self.world.append("capacity A 4\n")

    def numbers(self, topology):
        found = Topology(topology)
        nodes = {node.name: node.capacity for node in found.nodes}
        return nodes | {unit.name: unit.demand for unit in found.units}

    def test_of_each_entry(self):
        look, file = self.log.look(), self.numbers(TREE)
        for number, due in ((1, {}), (2, {"g1": 7, "A": 0}), (4, {"g1": 7, "A": 4})):
            found = topology_at(self.log, look, number)
            self.assertEqual(self.numbers(found), file | due)
            self.assertEqual(place_of(found), (number, self.log.entry(number).checksum))

    def test_what_was_put_by_hand_is_no_place(self):
        due = (4, self.log.entry(4).checksum)
        self.world.raw()
        self.world.forge()
        self.assertEqual(self.log.look().last, 6)
        self.assertEqual(place_of(with_numbers(self.log, TREE, "tree.toml")), due)
        for number in (5, 6):
            self.assertEqual(place_of(topology_at(self.log, self.log.look(), number)), due)

    def test_of_another_topology(self):
        other = TREE.replace(b'name = "g2"', b'name = "g3"')
        found = self.numbers(with_numbers(self.log, other, "other.toml"))
        self.assertEqual((found["g1"], found["A"]), (7, 4))
        self.assertEqual(found["g3"], self.numbers(TREE)["g2"])

    def test_a_base_goes_on_where_it_was_written(self):
        base = with_numbers(self.log, TREE, "tree.toml")
        self.assertEqual(with_numbers(self.log, base, "base.toml"), base)
        self.world.append("demand g1 8\n")
        self.assertEqual(self.world.put_real(base), 6)
        look = self.log.look()
        fed = list(feed(self.log, look, look.newest, 6))
        self.assertEqual(fed, ["demand g1 8\ncommit\n"])
        self.assertEqual(self.numbers(topology_at(self.log, look, 6))["g1"], 8)

    def test_entries_that_are_cut_away(self):
        self.world.put_real(with_numbers(self.log, TREE, "tree.toml"))
        self.log.cut(self.log.look(), self.log.newest_base())
        with self.assertRaises(Fault):
            topology_at(self.log, self.log.look(), 2)


class Shown(unittest.TestCase):
    def entry(self, **more):
        return read_entry(7, entry_octets(BATCH, "", OPS, {"lines": "demand A 1\n"} | more))

    def test_a_line(self):
        lines = "".join(f"demand g{number} 1\n" for number in range(5))
        line = line_of(self.entry(lines=lines))
        self.assertEqual(
            line, "7  1970-01-01 00:00:01Z  ops  demand g0 1, demand g1 1, demand g2 1 and 2 more"
        )
        self.assertNotIn("\x1b", line_of(self.entry(why="\x1b[2J", author="\x1b]0;x")))
        self.assertIn("by hand: st?op", line_of(Entry(8, b"st\x1bop", "none")))
        base = Base(7, "b" * 64, 3, "c" * 64)
        self.assertIn(
            "base bbbbbbbbbbbb, with the numbers up to entry 3",
            line_of(Entry(7, b"", "base", base=base)),
        )

    def test_json(self):
        self.assertEqual(as_json(self.entry())["changes"], ["demand A 1"])
        self.assertEqual(as_json(Entry(8, b"\xff", "none"))["octets"], "\xff")

    def test_filters(self):
        asked = {"kind": None, "author": None, "name": None, "text": None}
        for words, due in (
            ({}, True),
            ({"name": "A"}, True),
            ({"name": "demand"}, False),
            ({"author": "op"}, True),
            ({"text": "x"}, False),
            ({"kind": "base"}, False),
        ):
            self.assertEqual(
                is_asked(self.entry(), argparse.Namespace(**asked | words)), due, words
            )


class Maps(unittest.TestCase):
    def test_the_last_whole_one(self):
        first, last = b"glb map 2\nplace a A 1\nend\n", b"glb map 2\nplace a A 2\nend\n"
        for octets in (last, first + last, first + last + b"glb map 2\npla"):
            self.assertEqual(last_map(io.BytesIO(octets)), last)
        self.assertEqual(last_map(io.BytesIO(b"glb map 2\nend\n")), b"glb map 2\nend\n")
        self.assertEqual(last_map(io.BytesIO(b"")), b"")


if __name__ == "__main__":
    unittest.main()
