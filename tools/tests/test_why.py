"""glb-why."""

import unittest

from glb_tools.why import main
from samples import EXAMPLES, SMALL, SMALL_MAP, Case

TREE = str(EXAMPLES / "tree.toml"), str(EXAMPLES / "tree.map")
GROUP = """\
group g1: asks for 8, placed 8, nowhere 0
  0 A (score 1, at most 5): 5; no more: its limit
  1 B (score 2, at most 10): 3
"""


class Why(Case):
    def files(self):
        return self.small(), self.file("small.map", SMALL_MAP)

    def test_world(self):
        self.assertEqual(
            self.good(main, *self.files()),
            "group g2: 4 of 8 nowhere\n"
            "R is full, 15 of 15; last in it: g1 at A 5 (score 1), g2www at B 3 (score 1), g1 at B 3 (score 2),"
            " g2 at A 4 (score 3); offers that it refuses: 1\n"
            "g1 has its limit at A, 5\n"
            "in all 4 of 19 units nowhere; groups and classes: 1, answered SERVFAIL: 0\n"
            "nodes full: 1, offers that they refuse: 1\n"
            "limits reached: 1 (A 1)\n",
        )

    def test_tree(self):
        self.assertEqual(
            self.good(main, *TREE),
            "group g2: 1 of 8 nowhere\n"
            "R is full, 15 of 15; last in it: g1 at A 8 (score 1), g2 at A 2 (score 3), g2 at B 5 (score 4); offers that it refuses: 1\n"
            "A is full, 10 of 10; last in it: g1 at A 8 (score 1), g2 at A 2 (score 3); offers that it refuses: 1\n"
            "in all 1 of 16 units nowhere; groups and classes: 1, answered SERVFAIL: 0\n"
            "nodes full: 2, offers that they refuse: 2\n",
        )

    def test_by_size(self):
        """The largest first, whatever the order of the file; and the sums, counted by hand."""
        text = (
            SMALL.replace("limits = [5, 10]", "limits = [2, 3]")
            .replace(
                '{name = "R", capacity = 15}',
                '{name = "R", capacity = 15}, {name = "L", capacity = 281474976710656, pool = true}',
            )
            .replace('pools = ["B"]\nscores = [1]', 'pools = ["B", "L"]\nscores = [1, 4294967295]')
        )
        found = "glb map 2\nplace g1 A 2\nplace g1 B 3\nplace g2www L 3\nlimit g1 A\nlimit g1 B\nfull g2www B B\nend\n"
        report = self.table(main, self.file("x.toml", text), self.file("x.map", found))
        self.assertEqual(
            [(unit["name"], unit["nowhere"]) for unit in report["nowhere"]], [("g2", 8), ("g1", 3)]
        )
        self.assertEqual(
            [(one["pool"], one["limit"]) for one in report["limits"]], [("B", 3), ("A", 2)]
        )
        self.assertEqual(
            report["sums"],
            {
                "demand": 19,
                "placed": 8,
                "nowhere": 11,
                "units_nowhere": 2,
                "servfail": 1,
                "full_nodes": 0,
                "refused_offers": 0,
                "limits": {"A": 1, "B": 1},
                "last_resort": {"L": 3},
            },
        )

    def test_unit(self):
        self.assertEqual(self.good(main, *self.files(), "g1"), GROUP)
        self.assertEqual(
            self.good(main, *self.files(), "2001:db8::1", "www"), "2001:db8::1 is in ::/0\n" + GROUP
        )
        self.assertEqual(
            self.good(main, *self.files(), "198.51.100.7", "WWW"),
            "198.51.100.7 is in 198.51.100.0/24\nclass g2www: asks for 3, placed 3, nowhere 0\n  0 B (score 1): 3\n",
        )
        self.assertIn(
            "1 B (score 4): 0; no more: R is full, 15 of 15; last in it: ",
            self.good(main, *self.files(), "g2"),
        )

    def test_nowhere_at_all(self):
        path = self.file("empty.map", "glb map 2\nend\n")
        self.assertTrue(
            self.good(main, self.small(), path, "g1").endswith(
                "  its clients are answered SERVFAIL\n"
            )
        )

    def test_node(self):
        self.assertEqual(
            self.good(main, *self.files(), "--node", "R"),
            "node R: 15 of 15\n  g1 at A: 5\n  g2 at A: 4\n  g1 at B: 3\n  g2www at B: 3\n  refuses g2 at B\n",
        )
        self.assertEqual(
            self.good(main, *self.files(), "--node", "B"),
            "node B: 6 of 10\n  g1 at B: 3\n  g2www at B: 3\n",
        )

    def test_json_of_an_address(self):
        report = self.table(main, *self.files(), "198.51.100.7")
        self.assertEqual(
            (report["address"], report["prefix"], report["name"]),
            ("198.51.100.7", "198.51.100.0/24", "g2"),
        )

    def test_refused(self):
        small, found = self.files()
        for words in (
            [*TREE, "nobody"],
            [*TREE, "1.2.3.4.5"],
            [*TREE, "g1", "mail"],
            [*TREE, "--node", "g1"],
            [TREE[0], EXAMPLES / "flat.map"],
            [TREE[0], TREE[0]],
            [TREE[1], TREE[1]],
            [self.file("text.toml", SMALL.replace("capacity = 15", 'capacity = "600000"')), found],
            [self.folder / "nowhere", found],
            [small, self.folder],
        ):
            with self.subTest(words):
                self.refused(main, *words)
        for words in (
            [small],
            [small, found, "g1", "www", "more"],
            [small, found, "g1", "--node", "R"],
            [small, found, "--nod", "R"],
        ):
            with self.subTest(words):
                self.refused(main, *words, status=64)


if __name__ == "__main__":
    unittest.main()
