"""The reader of topologies."""

import ipaddress
import unittest

from glb_tools.options import Fault
from glb_tools.topology import Topology, written
from samples import EXAMPLES, SMALL

# each with what it takes the place of, and what is said then
WRONG = [
    ('zone = {apex = "cdn.example", ', "zone = {", "zone has no `apex`"),
    ("capacity = 15", 'capacity = "15"', "`capacity` of node 0 is of a wrong kind"),
    ("capacity = 15", "capacity = 15.0", "`capacity` of node 0 is of a wrong kind"),
    ("capacity = 15", "capacity = true", "`capacity` of node 0 is of a wrong kind"),
    ("capacity = 15", "capacity = -1", "`capacity` of node 0 is out of range"),
    ("capacity = 15", "capacity = 281474976710657", "`capacity` of node 0 is out of range"),
    (", capacity = 15", "", "node 0 has no `capacity`"),
    ('name = "A"', 'name = "R"', "the name of node 1 stands twice"),
    ('name = "A", parent = "R"', 'name = "A", parent = "B"', "`parent` of node 1"),
    (
        'name = "B", "capacity" = 1_0, parent = "R"',
        'name = "B", capacity = 1, parent = "A"',
        "`parent` of node 2",
    ),
    ('a = ["192.0.2.1"]', "a = [1]", "an item in `a` of node 1 is of a wrong kind"),
    ("demand = 8", "demand = 0", "`demand` of group 0 is out of range"),
    ("demand = 8", "demand = 4294967296", "`demand` of group 0 is out of range"),
    ("demand = 8", 'demand = "8"', "`demand` of group 0 is of a wrong kind"),
    (
        'pools = ["A", "B"]\nscores = [1, 2]',
        'pools = ["A", "R"]\nscores = [1, 2]',
        "`pools` of group 0 is no pool",
    ),
    (
        'pools = ["A", "B"]\nscores = [1, 2]',
        'pools = ["A", "C"]\nscores = [1, 2]',
        "`pools` of group 0 is no pool",
    ),
    (
        'pools = ["A", "B"]\nscores = [1, 2]',
        'pools = ["A", "A"]\nscores = [1, 2]',
        "group 0 has a pool twice",
    ),
    (
        'pools = ["A", "B"]\nscores = [1, 2]',
        'pools = ["A", 2]\nscores = [1, 2]',
        "`pools` of group 0 is of a wrong kind",
    ),
    ("scores = [1, 2]", "scores = [1]", "group 0 has not as many"),
    ("scores = [1, 2]", "scores = [1, -2]", "`scores` of group 0 is out of range"),
    ("scores = [1, 2]", "scores = [1, 2.0]", "`scores` of group 0 is of a wrong kind"),
    ("limits = [5, 10]", "limits = [5, 0]", "`limits` of group 0 is out of range"),
    ("limits = [5, 10]", "limits = 5", "`limits` of group 0 is of a wrong kind"),
    ("name = 'g2'", "name = 'g1'", "the name of group 1 stands twice"),
    ("name = 'g2'", "name = 2", "`name` of group 1 is of a wrong kind"),
    ('name = "g2www"', 'name = "g2"', "the name of class 0 stands twice"),
    ('group = "g2"', 'group = "g3"', "`group` of class 0 is no group"),
    ('service = "www"', 'service = "api"', "`service` of class 0 is no service"),
    ('"198.51.100.0/24"', '"198.51.100.1/24"', "is no prefix"),
    ('"198.51.100.0/24"', '"198.51.100.0/33"', "is no prefix"),
    ('"198.51.100.0/24"', '"198.51.100.0/024"', "is no prefix"),
    ('"198.51.100.0/24"', '"198.51.100.0"', "is no prefix"),
    ('"198.51.100.0/24"', '"198.051.100.0/24"', "is no prefix"),
    ('"198.51.100.0/24"', '"::ffff:198.51.100.0/120"', "is no prefix"),
    ('"198.51.100.0/24"', '"0.0.0.0/0"', "stands twice"),
    ('["198.51.100.0/24"]', '"198.51.100.0/24"', "`prefixes` of group 1 is of a wrong kind"),
]


class Readers(unittest.TestCase):
    def test_small(self):
        topology = Topology(SMALL.encode())
        self.assertEqual([node.name for node in topology.nodes], ["R", "A", "B"])
        self.assertEqual([node.capacity for node in topology.nodes], [15, 10, 10])
        self.assertEqual([node.parent for node in topology.nodes], [None, 0, 0])
        self.assertEqual(
            [(unit.name, unit.demand) for unit in topology.units],
            [("g1", 8), ("g2", 8), ("g2www", 3)],
        )
        self.assertEqual([unit.kind for unit in topology.units], ["group", "group", "class"])
        self.assertEqual(topology.units[0].limits, [5, 10])
        self.assertEqual(topology.units[1].limits, [4294967295] * 2)
        self.assertEqual(topology.class_of, {(1, "www"): 2})
        self.assertEqual(list(topology.path(1)), [1, 0])
        self.assertEqual((topology.groups, topology.apex), (2, "cdn.example"))

    def test_group_of(self):
        topology = Topology(SMALL.encode())
        for text, group, prefix in (
            ("198.51.100.7", 1, "198.51.100.0/24"),
            ("198.51.101.7", 0, "0.0.0.0/0"),
            ("2001:db8::1", 0, "::/0"),
        ):
            found = topology.group_of(ipaddress.ip_address(text))
            self.assertEqual(found, (group, ipaddress.ip_network(prefix)))

    def test_no_group(self):
        topology = Topology(SMALL.replace('"0.0.0.0/0", ', "").encode())
        with self.assertRaisesRegex(Fault, "no group has 192.0.2.1"):
            topology.group_of(ipaddress.ip_address("192.0.2.1"))

    def test_last_resort(self):
        text = SMALL.replace(
            '{name = "R", capacity = 15}',
            '{name = "R", capacity = 15}, {name = "L", capacity = 281474976710656, pool = true}',
        )
        topology = Topology(text.encode())
        self.assertEqual(topology.last_resort(), [1])
        self.assertEqual(Topology(SMALL.encode()).last_resort(), [])

    def test_wrong(self):
        for old, new, why in WRONG:
            with self.subTest(new):
                self.assertIn(old, SMALL)
                with self.assertRaises(Fault) as found:
                    Topology(SMALL.replace(old, new, 1).encode(), "x.toml")
                self.assertRegex(str(found.exception), "^x.toml is no topology: ")
                self.assertIn(why, str(found.exception))

    def test_wrong_tables(self):
        for text, why in (
            ("", "the top has no `zone`"),
            ("zone = 1", "`zone` of the top is of a wrong kind"),
            ('[zone]\napex = "a"\nservices = []\n[node]\n', "`node` of the top is of a wrong kind"),
            ('node = [1]\n[zone]\napex = "a"\nservices = []\n', "node 0 is no table"),
        ):
            with self.subTest(text), self.assertRaisesRegex(Fault, why):
                Topology(text.encode())

    def test_examples(self):
        """What the examples hold is read, but the one that `glb` refuses is not this reader's to judge. One is no topology."""
        for path in set(EXAMPLES.glob("*.toml")) - {EXAMPLES / "watch.toml"}:
            with self.subTest(path.name):
                self.assertTrue(Topology(path.read_bytes(), path).units)

    def test_written(self):
        topology = Topology(SMALL.encode())
        wrote = written(
            topology,
            {("demand", 1): 5, ("demand", 2): 6, ("capacity", 2): 0, ("demand", 0): 4294967295},
        )
        due = SMALL.replace("0x8", "5").replace("\ndemand = 3", "\ndemand = 6").replace("1_0", "0")
        self.assertEqual(wrote, due.replace("\ndemand = 8", "\ndemand = 4294967295"))
        self.assertEqual(written(topology, {}), SMALL)


if __name__ == "__main__":
    unittest.main()
