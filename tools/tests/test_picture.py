"""picture.py."""

import unittest
from xml.etree import ElementTree

from glb_tools.picture import main
from samples import EXAMPLES, SMALL, SMALL_MAP, TOP, Case

TREE = str(EXAMPLES / "tree.toml"), str(EXAMPLES / "tree.map")


class Pictures(Case):
    def test_example(self):
        self.assertEqual(self.good(main, *TREE), (TOP / "docs" / "example.svg").read_text())

    def test_each_name_stands_there(self):
        drawn = self.good(main, self.small(), self.file("small.map", SMALL_MAP))
        words = [text.text for text in ElementTree.fromstring(drawn).iter() if text.text]
        for due in (
            "R",
            "A",
            "B",
            "9 of 10, 90 %",
            "6 of 10, 60 %",
            "15 of 15, 100 %",
            "limit of g1",
            "refuses g2 (B)",
            "4 of 8",
        ):
            with self.subTest(due):
                self.assertIn(due, words)

    def test_no_more_than_asked_for(self):
        drawn = self.good(main, *TREE, "--nodes", "1", "--groups", "1", "--trees", "1")
        self.assertIn("more nodes", drawn)

    def test_refused(self):
        small, found = self.small(), self.file("small.map", SMALL_MAP)
        for words in (
            [self.folder / "nowhere", found],
            [small, self.folder / "nowhere"],
            [found, found],
            [small, small],
            [TREE[0], EXAMPLES / "flat.map"],
            [small, self.file("short.map", SMALL_MAP[:-5])],
            [small, self.file("much.map", "glb map 2\nplace g1 A 9\nend\n")],
            [self.file("x.toml", SMALL.replace("capacity = 15", 'capacity = "15"')), found],
            [self.file("y.toml", b"\xff"), found],
            [small, self.file("z.map", b"glb map 2\nplace \xff A 1\nend\n")],
        ):
            with self.subTest(words):
                self.refused(main, *words)
        for words in ([], [small], [small, found, "--trees", "0"], [small, found, "--nodes", "x"]):
            with self.subTest(words):
                self.refused(main, *words, status=64)


if __name__ == "__main__":
    unittest.main()
