"""The last maps: any two are compared by the steps between them, also over another topology."""

import unittest
from unittest import mock

import page_world

from glb_tools.options import Fault
from glb_tools.page import steps
from glb_tools.page.maps import NONE, placed_in, sums_of
from glb_tools.page.steps import Step, Steps
from glb_tools.page.tables import read_tables
from samples import SMALL

assert page_world
# the same world, in which B was renamed to C and stands first, and g2 is gone
OTHER = """\
[zone]
apex = "cdn.example"
services = ["www"]
[[node]]
name = "Q"
capacity = 30
[[node]]
name = "C"
parent = "Q"
capacity = 10
pool = true
[[node]]
name = "A"
parent = "Q"
capacity = 10
pool = true
[[group]]
name = "g0"
demand = 2
pools = ["C"]
scores = [1]
prefixes = ["0.0.0.0/0", "::/0"]
[[group]]
name = "g1"
demand = 8
pools = ["C", "A"]
scores = [1, 2]
prefixes = []
"""


class Kept(unittest.TestCase):
    def setUp(self):
        self.steps = Steps()
        self.number = 0
        self.begin(SMALL)

    def begin(self, text):
        self.tables = read_tables(text.encode())
        self.steps.begin(self.tables)

    def add(self, *lines, capacities=None):
        text = "glb map 2\n" + "".join(f"place {line}\n" for line in lines) + "end\n"
        placed = placed_in(self.tables, text.encode())
        held = self.tables.capacities if capacities is None else capacities
        sums = sums_of(self.tables, placed, held, self.tables.demands)
        self.number += 1
        step = Step(self.number, f"m{self.number}")
        self.steps.add(step, placed, sums)
        return step

    def flows(self, moves):
        name = lambda node: None if node == NONE else self.steps.names.nodes[node]  # noqa: E731
        return {(name(a), name(b)): units for a, b, units, _ in moves.flows}

    def test_first(self):
        first = self.add("g1 A 5", "g1 B 3")
        self.assertIsNone(first.rows)
        self.assertEqual((first.demand, first.placed, first.unplaced, first.full), (19, 8, 11, 0))
        self.assertEqual(first.loads.tolist(), [8, 5, 3])

    def test_each_and_all(self):
        first = self.add("g1 A 8", "g2 A 2")
        second = self.add("g1 A 8", "g2 B 2")
        third = self.add("g1 B 6", "g2 B 4")
        self.assertEqual((second.moved, second.gained, second.lost, second.groups), (2, 0, 0, 1))
        self.assertEqual((third.moved, third.gained, third.lost, third.groups), (6, 2, 2, 2))
        # g1: 6 of 8 from A to B and 2 to nowhere; g2: 2 from A to B and 2 from nowhere to B
        due = {("A", "B"): 8, ("A", None): 2, (None, "B"): 2}
        self.assertEqual(self.flows(self.steps.between(first, third)), due)
        self.assertEqual(
            self.flows(self.steps.between(third, first)),
            {("B", "A"): 8, (None, "A"): 2, ("B", None): 2},
        )
        self.assertEqual(self.steps.between(second, second).flows, [])

    def test_dropped(self):
        first = self.add("g1 A 8")
        self.number += 1
        dropped = Step(self.number, "m2", dropped="refused commit lines 1")
        self.steps.add(dropped)
        third = self.add("g1 B 8")
        self.assertEqual(third.moved, 8)
        self.assertEqual(self.flows(self.steps.between(first, third)), {("A", "B"): 8})
        self.assertFalse(dropped.has_map)
        self.assertEqual([step.number for step in self.steps.listed()], [3, 2, 1])

    def test_another_topology(self):
        first = self.add("g1 A 5", "g1 B 3", "g2 A 4")
        second = self.add("g1 A 5", "g1 B 3", "g2 B 4")
        self.begin(OTHER)
        third = self.add("g0 C 2", "g1 C 6", "g1 A 2")
        # g1: 5 at A and 3 at B become 2 at A and 6 at C; g2 is gone; g0 is new
        due = {("A", "C"): 3, ("B", "C"): 3, ("B", None): 4, (None, "C"): 2}
        self.assertEqual(self.flows(self.steps.between(second, third)), due)
        self.assertEqual((third.moved, third.gained, third.lost), (6, 2, 4))
        due = {("A", "C"): 3, ("B", "C"): 3, ("A", None): 4, (None, "C"): 2}
        self.assertEqual(self.flows(self.steps.between(first, third)), due)
        # what came before is still said, by its names
        self.assertEqual(self.flows(second), {("A", "B"): 4})
        self.assertEqual(self.flows(self.steps.between(second, first)), {("B", "A"): 4})
        names = self.steps.names
        self.assertEqual(names.nodes, ["Q", "C", "A", "R", "B"])
        self.assertEqual(names.parents, [-1, 0, 0, -1, 3])
        self.assertEqual(names.units, ["g0", "g1", "g2", "g2www"])
        loads = dict(zip(names.nodes, first.loads.tolist()))
        self.assertEqual(loads, {"Q": 0, "C": 0, "A": 9, "R": 12, "B": 3})
        self.assertEqual(dict(zip(names.nodes, third.loads.tolist()))["Q"], 10)

    def test_lists_in_another_order(self):
        """What is lost goes in the order of the list of before, and what is gained in that of behind."""
        pools = "".join(f'[[node]]\nname = "{n}"\ncapacity = 9\npool = true\n' for n in "XYZW")
        group = '[[group]]\nname = "g"\ndemand = 9\npools = [%s]\nscores = [1, 1, 1, 1]\nprefixes = []\n'
        head = '[zone]\napex = "x"\nservices = []\n'
        self.begin(head + pools + group % '"X", "Y", "Z", "W"')
        first = self.add("g X 2", "g Y 3")
        self.begin(head + pools + group % '"Z", "W", "Y", "X"')
        self.add("g Z 1", "g Y 2", "g X 1")
        last = self.add("g Z 2", "g W 3")
        due = {("X", "Z"): 2, ("Y", "W"): 3}
        self.assertEqual(self.flows(self.steps.between(first, last)), due)

    def test_there_and_back(self):
        first = self.add("g1 A 5", "g1 B 3", "g2 A 4")
        self.begin(OTHER)
        self.add("g1 C 8")
        self.begin(SMALL)
        last = self.add("g1 A 5", "g1 B 3", "g2 A 4")
        self.assertEqual(self.steps.between(first, last).flows, [])
        self.assertEqual(last.moved, 8)
        self.assertEqual((last.gained, last.lost), (4, 0))

    def test_two_topologies_at_once(self):
        """A topology that came and went without a map changes nothing."""
        first = self.add("g1 A 5")
        self.begin(OTHER)
        self.begin(SMALL)
        last = self.add("g1 B 5")
        self.assertEqual(self.flows(self.steps.between(first, last)), {("A", "B"): 5})

    def test_most(self):
        with mock.patch.object(steps, "MOST_STEPS", 3):
            listed = [self.add("g1 A 5") for _ in range(5)]
        self.assertEqual([step.number for step in self.steps.listed()], [5, 4, 3])
        self.assertIsNone(self.steps.step(1))
        self.assertEqual(self.steps.step(4), listed[3])

    def test_moves_that_are_not_kept(self):
        with mock.patch.object(steps, "MOST_ROWS", 3):
            first, second, third, fourth = (
                self.add(line) for line in ("g1 A 5", "g1 B 5", "g1 A 5", "g1 B 5")
            )
        # each moves two offers: those of the last one alone have room
        self.assertIsNone(second.rows)
        self.assertIsNone(third.rows)
        self.assertEqual(third.moved, 5)
        self.assertEqual(self.steps.between(third, fourth).moved, 5)
        with self.assertRaisesRegex(Fault, "not kept any more"):
            self.steps.between(first, fourth)

    def test_names_without_end(self):
        self.add("g1 A 5")
        with mock.patch.object(Steps, "is_too_long", return_value=True):
            self.begin(OTHER)
        self.assertEqual(self.steps.listed(), [])
        self.assertEqual(self.steps.names.nodes, ["Q", "C", "A"])
        self.assertIsNone(self.add("g1 C 5").rows)

    def test_known(self):
        self.add("g1 A 5")
        self.add("g1 B 5")
        self.assertTrue(self.steps.is_known(1, "m1"))
        self.assertTrue(self.steps.is_known(2, "m2"))
        self.assertFalse(self.steps.is_known(3, "m3"))
        # the log has another one there: it, and what stood behind it, is gone
        self.assertFalse(self.steps.is_known(1, "other"))
        self.assertEqual(self.steps.listed(), [])


if __name__ == "__main__":
    unittest.main()
