"""The reader of maps, and their sums."""

import unittest

from glb_tools.map import Sums, map_lines, map_of
from glb_tools.options import Fault
from glb_tools.topology import Topology
from samples import SMALL, SMALL_MAP

TOPOLOGY = Topology(SMALL.encode())


class Readers(unittest.TestCase):
    def test_small(self):
        found = map_of(TOPOLOGY, SMALL_MAP.encode())
        self.assertEqual(found.amounts, {(0, 0): 5, (0, 1): 3, (1, 0): 4, (2, 0): 3})
        self.assertEqual(
            [(n.unit, n.place, n.node) for n in found.names], [(0, 0, None), (1, 1, 0)]
        )

    def test_no_whole_map(self):
        for text in (
            "",
            "end\n",
            "glb map 3\nend\n",
            "glb map 2\n",
            "glb map 2\nend",
            "glb map 2\nend\n\n",
            SMALL_MAP[:-2],
        ):
            with self.subTest(text), self.assertRaisesRegex(Fault, "^x.map is no whole map"):
                map_lines(text.encode(), "x.map")

    def test_wrong_lines(self):
        for line in (
            "",
            "place",
            "place g1",
            "place g1 A",
            "place g1 A 0",
            "place g1 A 01",
            "place g1 A -1",
            "place g1 A 4294967296",
            "place g1 A 99999999999999999999",
            "place g1 A 1 1",
            "place g1 R 1",
            "place g1 C 1",
            "place g3 A 1",
            "place g2www A 1",
            "place g1 A 5\nplace g1 A 1",
            "full g1 A",
            "full g1 A C",
            "limit g1",
            "limit g1 A A",
            "Place g1 A 1",
            "place  g1 A 1",
            "\xff g1 A 1",
        ):
            with self.subTest(line), self.assertRaisesRegex(Fault, "^x.map, `"):
                map_of(TOPOLOGY, f"glb map 2\n{line}\nend\n".encode("latin-1"), "x.map")

    def test_a_long_line_is_cut(self):
        with self.assertRaises(Fault) as found:
            map_of(TOPOLOGY, b"glb map 2\n" + b"x" * 10000 + b"\nend\n")
        self.assertLess(len(str(found.exception)), 200)


class SumsOf(unittest.TestCase):
    def setUp(self):
        self.sums = Sums(TOPOLOGY, map_of(TOPOLOGY, SMALL_MAP.encode()))

    def test_loads(self):
        self.assertEqual(self.sums.load, [15, 9, 6])
        self.assertEqual(self.sums.placed, [8, 4, 3])
        self.assertEqual(self.sums.full(), [0])

    def test_worst(self):
        """By score, then by the unit's place in the file, then by the pool's."""
        every = [((1, 0, 1), 5), ((1, 2, 2), 3), ((2, 0, 2), 3), ((3, 1, 1), 4)]
        self.assertEqual(self.sums.worst([0], 9), {0: every})
        self.assertEqual(self.sums.worst([0, 1], 2), {0: every[2:], 1: [every[0], every[3]]})
        self.assertEqual(self.sums.worst([], 2), {})


if __name__ == "__main__":
    unittest.main()
