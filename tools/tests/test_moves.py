"""glb-moves."""

import unittest

from glb_tools.moves import main
from samples import EXAMPLES, Case

OLD = "glb map 1\nplace a P 5\nplace b P 2\nplace b Q 3\nend\n"
NEW = "glb map 2\nplace a Q 4\nplace b P 4\nplace b Q 3\nplace c Q 1\nfull b P P\nend\n"


class Moves(Case):
    def files(self):
        return self.file("old.map", OLD), self.file("new.map", NEW)

    def test_some_move_some_had_no_place_some_have_none(self):
        self.assertEqual(
            self.good(main, *self.files()),
            "a: 4 from P to Q\n"
            "a: 1 from P to nowhere\n"
            "b: 2 from nowhere to P\n"
            "c: 1 from nowhere to Q\n"
            "in all 4 from P to Q (groups: 1)\n"
            "in all 2 from nowhere to P (groups: 1)\n"
            "in all 1 from nowhere to Q (groups: 1)\n"
            "in all 1 from P to nowhere (groups: 1)\n"
            "3 groups, 4 units moved, 3 placed that were nowhere, 1 nowhere that were placed\n",
        )

    def test_flows_are_sums_of_groups(self):
        old = "glb map 2\nplace a P 5\nplace b P 7\nplace b Q 1\nplace c Q 9\nend\n"
        new = "glb map 2\nplace a Q 5\nplace b P 1\nplace b Q 7\nplace c P 9\nend\n"
        report = self.table(main, self.file("old", old), self.file("new", new))
        self.assertEqual(
            report["flows"],
            [
                {"from": "P", "to": "Q", "units": 11, "groups": 2},
                {"from": "Q", "to": "P", "units": 9, "groups": 1},
            ],
        )
        self.assertEqual((report["moved"], report["gained"], report["lost"]), (20, 0, 0))
        self.assertEqual(
            sum(move["units"] for group in report["groups"] for move in group["moves"]), 20
        )

    def test_nothing(self):
        tree = EXAMPLES / "tree.map"
        self.assertEqual(
            self.good(main, tree, tree),
            "0 groups, 0 units moved, 0 placed that were nowhere, 0 nowhere that were placed\n",
        )

    def test_json(self):
        report = self.table(main, EXAMPLES / "tree.map", EXAMPLES / "tree-repaired.map")
        self.assertEqual(len(report["groups"]), 2)

    def test_refused(self):
        old, new = self.files()
        for words in (
            [old, EXAMPLES / "tree.toml"],
            [old, self.file("x", "glb map 2\nplace a P\nend\n")],
            [old, self.file("y", "glb map 2\nplace a P x\nend\n")],
            [old, self.file("z", NEW[:-2])],
            [self.folder, new],
            [self.folder / "nowhere", new],
        ):
            with self.subTest(words):
                self.refused(main, *words)
        self.refused(main, old, status=64)


if __name__ == "__main__":
    unittest.main()
