"""glb-plan: what a batch or a topology would do, worked by hand over the example, with a program that is played."""

import json
import sys
import unittest
from pathlib import Path

from glb_tools.plan import Served, by_site, compared, main
from samples import EXAMPLES, Case

TREE, MAP = (EXAMPLES / "tree.toml").read_bytes(), (EXAMPLES / "tree.map").read_bytes()
REPAIRED = (EXAMPLES / "tree-repaired.map").read_bytes()
# of the example's repair: g1 asks for 6 and A holds 9
CHANGED = TREE.replace(b"demand = 8", b"demand = 6", 1).replace(
    b"capacity = 10", b"capacity = 9", 1
)
# two sites and a pool of last resort
SITES = """
node = [
  {name = "east", capacity = 20},
  {name = "west", capacity = 20},
  {name = "e1", parent = "east", capacity = 10, pool = true},
  {name = "e2", parent = "east", capacity = 10, pool = true},
  {name = "w1", parent = "west", capacity = 10, pool = true},
  {name = "last", capacity = 281474976710656, pool = true},
]
[zone]
apex = "cdn.example"
mname = "ns1.ops.example"
rname = "admin.ops.example"
serial = 1
refresh = 3600
retry = 600
expire = 86400
minimum = 60
ttl = 20
ns = ["ns1.ops.example"]
services = ["www"]
[[group]]
name = "g"
demand = 12
pools = ["e1", "e2", "w1", "last"]
scores = [10, 20, 30, 4294967295]
prefixes = ["0.0.0.0/0", "::/0"]
"""
BOTH_EAST = "glb map 2\nplace g e1 10\nplace g e2 2\nfull g e1 e1\nend\n"
LAST = "glb map 2\nplace g w1 10\nplace g last 2\nfull g e1 e1\nfull g e2 e2\nfull g w1 w1\nend\n"
EAST_OUT = SITES.replace('parent = "east", capacity = 10', 'parent = "east", capacity = 0')
# a program that is played: it says what it was asked, and answers what lies beside it
PLAYED = """#!{python}
import pathlib, sys
beside = pathlib.Path(sys.argv[0]).parent
with open(beside / "asked", "a") as asked:
    asked.write(sys.argv[1] + "\\n" + "\\n".join(pathlib.Path(file).read_text() for file in sys.argv[4:]))
sys.stdout.write((beside / "answer").read_text())
sys.exit(int((beside / "status").read_text()))
"""


class Compared(unittest.TestCase):
    def test_a_batch_over_the_example(self):
        found = compared(Served(TREE, MAP), Served(CHANGED, REPAIRED))
        # g1 has 8 and then 6 of A; g2 has 2 of A and 5 of B, and then 3 and 5
        self.assertEqual(
            [found[word] for word in ("moved", "gained", "lost", "groups")], [0, 1, 2, 2]
        )
        self.assertEqual(found["demand"], {"before": 16, "after": 14})
        self.assertEqual(found["unplaced"], {"before": 1, "after": 0})
        self.assertEqual(found["limits"], {"before": 0, "after": 0})
        nodes = {node["name"]: (node["before"], node["after"]) for node in found["nodes"]}
        self.assertEqual(
            nodes,
            {
                "R": (
                    {"load": 15, "capacity": 15, "full": True},
                    {"load": 14, "capacity": 15, "full": False},
                ),
                "A": (
                    {"load": 10, "capacity": 10, "full": True},
                    {"load": 9, "capacity": 9, "full": True},
                ),
            },
        )

    def test_nothing_changes(self):
        found = compared(Served(TREE, MAP), Served(TREE, MAP))
        self.assertEqual((found["moved"], found["sites"], found["nodes"]), (0, [], []))
        self.assertEqual(found["mean_score"]["before"], found["mean_score"]["after"])

    def test_a_site_goes_out_and_the_last_resort_takes_what_is_over(self):
        found = compared(
            Served(SITES.encode(), BOTH_EAST.encode()), Served(EAST_OUT.encode(), LAST.encode())
        )
        self.assertEqual(
            found["sites"],
            [
                {"from": "east", "to": "west", "units": 10},
                {"from": "east", "to": "last", "units": 2},
            ],
        )
        self.assertEqual(found["last_resort"], {"before": 0, "after": 2})
        # the score of the last resort says nothing of how far it is: (10 * 10 + 2 * 20) / 12, and 30
        self.assertEqual(found["mean_score"], {"before": 140 / 12, "after": 30})

    def test_within_a_site(self):
        moved = BOTH_EAST.replace("e1 10", "e1 4").replace("e2 2", "e2 8")
        found = compared(
            Served(SITES.encode(), BOTH_EAST.encode()), Served(SITES.encode(), moved.encode())
        )
        self.assertEqual(found["sites"], [{"from": "east", "to": "east", "units": 6}])

    def test_names_come_and_go(self):
        renamed = SITES.replace('"w1"', '"w2"').encode()
        there = BOTH_EAST.replace("e2 2", "w2 2").encode()
        found = compared(Served(SITES.encode(), BOTH_EAST.encode()), Served(renamed, there))
        nodes = {node["name"]: (node["before"], node["after"]) for node in found["nodes"]}
        self.assertEqual(nodes["w1"], ({"load": 0, "capacity": 10, "full": False}, None))
        self.assertEqual(nodes["w2"], (None, {"load": 2, "capacity": 10, "full": False}))

    def test_flows_between_sites_are_sums(self):
        class Side:
            def site(self, pool):
                return pool[0]

        flows = [
            {"from": "a1", "to": "b1", "units": 1},
            {"from": "a2", "to": "b2", "units": 2},
            {"from": None, "to": "b1", "units": 9},
        ]
        self.assertEqual(
            by_site(flows, Side(), Side()),
            [{"from": None, "to": "b", "units": 9}, {"from": "a", "to": "b", "units": 3}],
        )


class Plan(Case):
    def setUp(self):
        super().setUp()
        self.glb = self.file("glb", PLAYED.format(python=sys.executable))
        Path(self.glb).chmod(0o755)
        self.tree = ["--glb", self.glb, "--of", self.file("t", TREE), self.file("m", MAP)]
        self.answers(REPAIRED.decode())

    def answers(self, text, status=0):
        self.file("answer", text)
        self.file("status", str(status))

    def test_a_batch(self):
        lines = self.file("lines", "demand g1 6\ncapacity A 9\n")
        self.assertEqual(
            self.good(main, *self.tree, lines),
            "0 of 14 units would move (0.0 %), 1 would get a place, 2 would lose theirs, of 2 groups and classes\n"
            "placed nowhere: 1 to 0\n"
            "mean score: 2.27 to 2.50\n"
            "  2 from R to nowhere\n"
            "  1 from nowhere to R\n"
            "  R: 15 to 14 of 15, no longer full\n"
            "  A: 10 to 9 of 9 (was 10)\n",
        )
        self.assertEqual((self.folder / "asked").read_text(), "repair\ndemand g1 6\ncapacity A 9\n")

    def test_json_has_the_same(self):
        lines = self.file("lines", "demand g1 6\ncapacity A 9\n")
        status, out, _ = self.run_main(main, "--json", *self.tree, lines)
        self.assertEqual((status, json.loads(out)["lost"]), (0, 2))

    def test_what_has_no_place_is_a_status(self):
        words = ["--glb", self.glb, "--of", self.file("s", SITES), self.file("b", BOTH_EAST)]
        self.answers(LAST)
        lines = self.file("lines", "capacity e1 0\ncapacity e2 0\n")
        status, out, said = self.run_main(main, *words, lines)
        self.assertEqual((status, said), (3, ""))
        self.assertIn("at a pool of last resort: 0 to 2\n", out)
        self.assertIn("  e1: 10 to 0 of 0 (was 10), out\n", out)

    def test_too_many_moves_are_a_status(self):
        moved = BOTH_EAST.replace("e1 10", "e1 4").replace("e2 2", "e2 8")
        words = ["--glb", self.glb, "--of", self.file("s", SITES), self.file("b", BOTH_EAST)]
        self.answers(moved)
        lines = self.file("lines", "capacity e1 4\n")
        self.assertEqual(self.run_main(main, *words, "--most", "6", lines)[0], 0)
        self.assertEqual(self.run_main(main, *words, "--most", "5", lines)[0], 4)

    def test_a_line_at_fault_is_told_and_nothing_is_asked(self):
        for lines, why in (
            ("capacity A 1\ncapacity nowhere 1\n", "line 2: unknown name"),
            ("demand g1 0\n", "line 1: out of range"),
            ("capacity A 1\ncommit\n", "line 2: unknown word"),
            ("", "there is no change"),
        ):
            with self.subTest(lines):
                said = self.refused(main, *self.tree, self.file("lines", lines), status=2)
                self.assertEqual(said, f"glb-try: {why}\n")
        self.assertFalse((self.folder / "asked").exists())

    def test_what_the_program_refuses(self):
        self.answers("refused topology 2 missing key at zone ttl\n", 2)
        said = self.refused(main, *self.tree, "--topology", self.file("new", TREE), status=2)
        self.assertEqual(said, "glb-try: refused topology 2 missing key at zone ttl\n")

    def test_a_program_that_fails_or_is_not_there(self):
        lines = self.file("lines", "capacity A 1\n")
        self.answers("", 8)
        self.assertIn("repair ended with 8", self.refused(main, *self.tree, lines))
        Path(self.glb).unlink()
        self.assertIn("No such file", self.refused(main, *self.tree, lines))

    def test_words(self):
        lines = self.file("lines", "capacity A 1\n")
        self.refused(main, *self.tree, status=64)
        self.refused(main, *self.tree, lines, "--topology", lines, status=64)
        self.refused(main, *self.tree, "--of-log", lines, lines, lines, status=64)


if __name__ == "__main__":
    unittest.main()
