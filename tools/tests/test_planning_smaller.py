"""Fewer prefixes that say the same, and fewer groups: no address changes its group, and no unit is lost."""

import ipaddress
import random
import unittest

try:
    import numpy as np
except ImportError:
    raise unittest.SkipTest("python3-numpy is not installed") from None

from glb_tools.options import Fault
from glb_tools.planning.choices import read_choices
from glb_tools.planning.merge import merged
from glb_tools.planning.prefixes import aggregated, text_of
from glb_tools.planning.world import read_world
from planning_files import Folder


def group_of(prefixes, family, address):
    """The group of the longest prefix, by trying each."""
    bits = 32 if family == 4 else 128
    best = None
    for (kind, start, length), group in prefixes.items():
        if kind == family and address >> bits - length == start >> bits - length:
            if best is None or length > best[0]:
                best = length, group
    return None if best is None else best[1]


def drawn(draw, count, groups, family=4, first=24):
    """Prefixes within the last octet of a family, so that each address can be tried."""
    bits = 32 if family == 4 else 128
    found = {(family, 0, 0): 0}
    for _ in range(count):
        length = draw.randint(first, 32) + bits - 32
        start = draw.randrange(256) >> bits - length << bits - length
        found[family, start, length] = draw.randrange(groups)
    return found


class Prefixes(unittest.TestCase):
    def test_no_address_changes_its_group(self):
        draw = random.Random(1)
        for number in range(150):
            family = 4 if number % 3 else 6
            prefixes = drawn(draw, draw.randint(1, 60), draw.randint(1, 3), family)
            smaller = aggregated(prefixes)
            with self.subTest(number=number):
                self.assertLessEqual(len(smaller), len(prefixes))
                for address in range(258):
                    self.assertEqual(
                        group_of(smaller, family, address),
                        group_of(prefixes, family, address),
                        address,
                    )

    def test_where_no_prefix_is_none_comes(self):
        prefixes = {(4, 0, 25): 1, (4, 128, 25): 1, (4, 512, 24): 1}
        smaller = aggregated(prefixes)
        self.assertEqual(smaller, {(4, 0, 24): 1, (4, 512, 24): 1})

    def test_halves_become_the_whole_at_all_levels(self):
        prefixes = {(4, 0, 0): 0} | {(4, start, 32): 1 for start in range(256)}
        self.assertEqual(aggregated(prefixes), {(4, 0, 0): 0, (4, 0, 24): 1})

    def test_a_whole_that_both_halves_hide(self):
        prefixes = {(4, 0, 0): 0, (4, 0, 24): 2, (4, 0, 25): 1, (4, 128, 25): 1}
        self.assertEqual(aggregated(prefixes), {(4, 0, 0): 0, (4, 0, 24): 1})

    def test_a_hole_in_a_hole_stays(self):
        prefixes = {(4, 0, 0): 0, (4, 0, 24): 1, (4, 0, 26): 0, (4, 0, 28): 1}
        self.assertEqual(aggregated(prefixes), prefixes)

    def test_families_are_apart(self):
        prefixes = {(4, 0, 0): 0, (6, 0, 0): 1, (6, 0, 24): 0}
        self.assertEqual(aggregated(prefixes), prefixes)

    def test_texts(self):
        for text in ("0.0.0.0/0", "198.51.100.0/24", "::/0", "2001:db8::/32"):
            net = ipaddress.ip_network(text)
            prefix = net.version, int(net.network_address), net.prefixlen
            self.assertEqual(text_of(prefix), text)


ROWS = """group,pool,milliseconds
a,fra,10
a,ams,20
b,fra,12
b,ams,21
c,ams,10
c,fra,19
d,nyc,30
rest,nyc,31
"""


class Groups(unittest.TestCase):
    def world(self, demand=None, rtt=ROWS, classes=""):
        folder = Folder(self)
        names = "abcd"
        rows = "".join(f"10.{at}.0.0/16,{name}\n" for at, name in enumerate(names))
        folder.put("prefixes.csv", "prefix,group\n" + rows + "0.0.0.0/0,rest\n::/0,rest\n")
        units = demand or {"a": 10, "b": 30, "c": 5, "d": 7, "rest": 1}
        text = "".join(f"{name},{count},\n" for name, count in units.items())
        folder.put("demand.csv", "group,units,service\n" + text + classes)
        folder.put("rtt.csv", rtt)
        return read_world(read_choices(folder.path / "plan.toml"))

    def merged(self, world, most):
        return merged(world, most)

    def test_lists_that_agree_come_first(self):
        # a and b rank fra, ams; d and the rest rank nyc: three are left, whatever the demands
        found = self.merged(self.world(), 4)
        self.assertEqual(found.world.units, ["b", "c", "d"])
        self.assertEqual(found.into, [0, 0, 1, 2, 2])
        self.assertEqual(found.world.demand.tolist(), [40, 5, 8])

    def test_round_trips_are_the_mean_over_units(self):
        found = self.merged(self.world(), 4).world
        costs = {
            (found.units[unit], found.nodes[pool].name): cost
            for unit, pool, cost in zip(found.offer_unit, found.offer_pool, found.offer_cost)
        }
        self.assertEqual(costs["b", "fra"], round((10 * 10 + 30 * 12) / 40 * 1000))
        self.assertEqual(costs["b", "ams"], round((10 * 20 + 30 * 21) / 40 * 1000))
        self.assertEqual(costs["d", "nyc"], round((7 * 30 + 1 * 31) / 8 * 1000))

    def test_what_it_costs_is_told(self):
        # a is 1.5 and 0.75 off, b 0.5 and 0.25; d 1/8, and the rest 7/8
        off = 10 * (1.5 + 0.75) / 2 + 30 * (0.5 + 0.25) / 2 + 7 / 8 + 7 / 8
        self.assertAlmostEqual(self.merged(self.world(), 4).milliseconds, off / 53, 6)

    def test_then_those_that_are_nearest(self):
        found = self.merged(self.world(), 2)
        self.assertEqual(found.world.units, ["b", "d"])
        self.assertEqual(found.into, [0, 0, 0, 1, 1])

    def test_what_has_no_pool_in_common_stays_apart(self):
        with self.assertRaises(Fault) as caught:
            self.merged(self.world(), 1)
        self.assertIn("2 groups and classes are left, and 1 are allowed", str(caught.exception))

    def test_prefixes_follow_their_groups(self):
        world = self.world()
        found = self.merged(world, 2)
        for prefix, group in world.prefixes.items():
            self.assertEqual(found.world.prefixes[prefix], found.into[group])

    def test_no_unit_is_lost_and_no_pool_comes_to_it(self):
        draw = random.Random(3)
        pools = ["fra", "ams", "nyc"]
        for number in range(30):
            rows = "".join(
                f"{name},{pool},{draw.randint(1, 90)}\n"
                for name in ("a", "b", "c", "d", "rest")
                for pool in draw.sample(pools, draw.randint(1, 3))
            )
            world = self.world(rtt="group,pool,milliseconds\n" + rows)
            try:
                found = self.merged(world, 3)
            except Fault:
                continue
            with self.subTest(number=number):
                self.assertEqual(found.world.demand.sum(), world.demand.sum())
                before = [set(world.offer_pool[world.offer_unit == unit]) for unit in range(5)]
                for unit, group in enumerate(found.into):
                    after = set(found.world.offer_pool[found.world.offer_unit == group])
                    self.assertTrue(after and after <= before[unit])

    def test_classes_are_merged_with_their_groups_and_with_no_others(self):
        classes = "a,4,video\nb,6,video\nc,5,www\n"
        found = self.merged(self.world(classes=classes), 5).world
        self.assertEqual(found.units, ["b", "c", "d", "b.video", "c.www"])
        self.assertEqual(found.demand.tolist(), [40, 5, 8, 10, 5])
        self.assertEqual(found.owner.tolist(), [-1, -1, -1, 0, 1])
        mine = found.offer_cost[found.offer_unit == 3].tolist()
        self.assertEqual(mine, [(4 * 10000 + 6 * 12000) // 10, (4 * 20000 + 6 * 21000) // 10])
        self.assertTrue((np.diff(found.offer_unit) >= 0).all())


if __name__ == "__main__":
    unittest.main()
