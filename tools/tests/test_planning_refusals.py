"""Each fault of a table or of the choices has its own text, with the place; nothing is written then."""

import unittest

try:
    import numpy  # noqa: F401
except ImportError:
    raise unittest.SkipTest("python3-numpy is not installed") from None

from glb_tools.planning.command import main
from planning_files import Folder

# file, what is replaced, by what, and what is said
CASES = {
    "a loop of parents": (
        "nodes.csv",
        "eu,,100\nus,,60",
        "eu,us,100\nus,eu,60",
        "nodes.csv, line 2, column parent: a loop of parents: eu under us under eu",
    ),
    "a node under itself": (
        "nodes.csv",
        "us,,60",
        "us,us,60",
        "nodes.csv, line 3, column parent: a loop of parents: us under us",
    ),
    "a parent that is not there": (
        "pools.csv",
        "ams,eu",
        "ams,EU",
        "pools.csv, line 3, column parent: there is no node `EU` (is `eu` meant?)",
    ),
    "a pool as a parent": (
        "nodes.csv",
        "us,,60",
        "us,fra,60",
        "nodes.csv, line 3, column parent: `fra` is a pool: nothing stands under it",
    ),
    "a pool that is a node": (
        "pools.csv",
        "ams,eu",
        "us,eu",
        "pools.csv, line 3, column pool: `us` stands already in nodes.csv, line 3",
    ),
    "a pool twice": (
        "pools.csv",
        "ams,eu",
        "fra,eu",
        "pools.csv, line 3, column pool: `fra` stands already in pools.csv, line 2",
    ),
    "a capacity with a sign": (
        "pools.csv",
        "ams,eu,60",
        "ams,eu,-60",
        "pools.csv, line 3, column capacity: `-60` is no whole number: write digits alone",
    ),
    "a capacity past 2^48": (
        "pools.csv",
        "ams,eu,60",
        "ams,eu,281474976710657",
        "pools.csv, line 3, column capacity: 281474976710657 is not from 0 to 281,474,976,710,656",
    ),
    "no address": (
        "pools.csv",
        "192.0.2.2",
        "192.0.2.2;192.0.2.9",
        "pools.csv, line 3, column addresses: `192.0.2.2;192.0.2.9` is no address; blanks stand between two of them",
    ),
    "an address twice": (
        "pools.csv",
        "192.0.2.1 2001:db8::1",
        "2001:db8::1 2001:db8:0::1",
        "pools.csv, line 2, column addresses: 2001:db8:0::1 stands twice",
    ),
    "too many addresses": (
        "pools.csv",
        "192.0.2.2",
        " ".join(f"192.0.2.{n}" for n in range(41)),
        "pools.csv, line 3, column addresses: more than 40 addresses of IPv4",
    ),
    "a name with a blank": (
        "pools.csv",
        "ams,eu",
        "a ms,eu",
        "pools.csv, line 3, column pool: `a ms` is no name: 1 to 32 letters, digits, `-`, `_` or `.`",
    ),
    "no name": ("nodes.csv", "us,,60", ",,60", "nodes.csv, line 3, column node: there is no name"),
    "a name of 33 letters": (
        "prefixes.csv",
        "192.0.2.0/24,rest",
        "192.0.2.0/24," + "x" * 33,
        f"prefixes.csv, line 5, column group: `{'x' * 33}` is no name: 1 to 32 letters, digits, `-`, `_` or `.`",
    ),
    "a prefix of two groups": (
        "prefixes.csv",
        "192.0.2.0/24,rest",
        "198.51.100.0/24,rest",
        "prefixes.csv, line 5, column group: 198.51.100.0/24 is `de`'s already, in line 2",
    ),
    "a prefix with bits beyond its length": (
        "prefixes.csv",
        "198.51.100.0/24",
        "198.51.100.7/24",
        "prefixes.csv, line 2, column prefix: `198.51.100.7/24` is no prefix: is 198.51.100.0/24 meant?",
    ),
    "no prefix": (
        "prefixes.csv",
        "198.51.100.0/24",
        "198.51.100/x",
        "prefixes.csv, line 2, column prefix: `198.51.100/x` is no prefix",
    ),
    "demand of an unknown group": (
        "demand.csv",
        "nl,30",
        "NL,30",
        "demand.csv, line 3, column group: no row of prefixes.csv has the group `NL` (is `nl` meant?)",
    ),
    "demand of an unknown service": (
        "demand.csv",
        "20,video",
        "20,audio",
        "demand.csv, line 5, column service: `audio` is no service of the zone",
    ),
    "two demands": (
        "demand.csv",
        "nl,30,",
        "de,30,",
        "demand.csv, line 3, column units: de has 60 units already, in line 2",
    ),
    "a demand that is no number": (
        "demand.csv",
        "nl,30",
        "nl,3O",
        "demand.csv, line 3, column units: `3O` is no number: write digits, and a point if need be",
    ),
    "a demand past 2^32": (
        "demand.csv",
        "nl,30",
        "nl,4294967296",
        "demand.csv, line 3, column units: 4294967296 is more than 4,294,967,295",
    ),
    "round trips of an unknown group": (
        "rtt.csv",
        "nl,ams,4",
        "be,ams,4",
        "rtt.csv, line 5, column group: no row of prefixes.csv has the group `be`",
    ),
    "round trips to an unknown pool": (
        "rtt.csv",
        "nl,ams,4",
        "nl,Ams,4",
        "rtt.csv, line 5, column pool: there is no pool `Ams` (is `ams` meant?)",
    ),
    "round trips to a node": (
        "rtt.csv",
        "nl,ams,4",
        "nl,eu,4",
        "rtt.csv, line 5, column pool: `eu` is a node, and no pool",
    ),
    "two round trips": (
        "rtt.csv",
        "nl,fra,10",
        "nl,ams,10",
        "rtt.csv, line 6, column milliseconds: nl to ams is 4 in an earlier line",
    ),
    "a round trip that is no number": (
        "rtt.csv",
        "nl,ams,4",
        "nl,ams,4e1",
        "rtt.csv, line 5, column milliseconds: `4e1` is no number: write digits, and a point if need be",
    ),
    "a round trip of minutes": (
        "rtt.csv",
        "nl,ams,4",
        "nl,ams,60001",
        "rtt.csv, line 5, column milliseconds: 60001 is more than 60,000",
    ),
    "a group without any pool": (
        "rtt.csv",
        "rest,nyc,50\nrest,fra,60\n",
        "",
        "prefixes.csv, line 5, column group: no row of rtt.csv offers `rest` a pool that can serve it",
    ),
    "a missing column": (
        "rtt.csv",
        "group,pool,milliseconds",
        "group,pool",
        "rtt.csv, line 1: the column `milliseconds` is missing; the first line names the columns",
    ),
    "an unknown column": (
        "rtt.csv",
        "group,pool,milliseconds",
        "group,pool,ms",
        "rtt.csv, line 1, column 3: there is no column `ms`; the columns are group, pool, milliseconds",
    ),
    "a column twice": (
        "rtt.csv",
        "group,pool,milliseconds",
        "group,pool,pool",
        "rtt.csv, line 1, column 3: `pool` stands twice",
    ),
    "too few cells": (
        "rtt.csv",
        "nl,ams,4",
        "nl,ams",
        "rtt.csv, line 5, column 3: the row has 2 cells, and the header 3",
    ),
    "too many cells": (
        "rtt.csv",
        "nl,ams,4",
        "nl,ams,4,5",
        "rtt.csv, line 5, column 4: the row has 4 cells, and the header 3",
    ),
    "a quote that is not closed": (
        "rtt.csv",
        "rest,fra,60\n",
        'rest,fra,"60\n',
        "rtt.csv, line 9: unexpected end of data",
    ),
    "no TOML": (
        "plan.toml",
        "length = 3",
        "length == 3",
        "plan.toml: no TOML: Invalid value (at line 15, column 9)",
    ),
    "an unknown table": (
        "plan.toml",
        "[lists]",
        "[list]",
        "plan.toml: there is no table `list`; the tables are zone, tables, lists",
    ),
    "a value in place of a table": (
        "plan.toml",
        "[zone]",
        "lists = 3\n[zone]",
        None,
    ),
    "a key of the zone that is missing": (
        "plan.toml",
        "ttl = 20\n",
        "",
        "plan.toml, [zone]: the key `ttl` is missing",
    ),
    "a key of the zone of another kind": (
        "plan.toml",
        "ttl = 20\n",
        'ttl = "20"\n',
        "plan.toml, [zone], ttl: this is to be a whole number",
    ),
    "a key that the zone does not have": (
        "plan.toml",
        "ttl = 20\n",
        "TTL = 20\n",
        "plan.toml, [zone]: there is no key `TTL` (is `ttl` meant?); the keys are apex, mname, rname,"
        " serial, refresh, retry, expire, minimum, ttl, ns, services",
    ),
    "a choice that is not there": (
        "plan.toml",
        "unplaced = 400",
        "unplacd = 400",
        "plan.toml, [lists]: there is no key `unplacd`; the keys are length, unplaced, head_room, most_at_one_pool,"
        " price_weight, last_resort, rest, groups, prefixes",
    ),
    "a choice of another kind": (
        "plan.toml",
        "length = 3",
        "length = true",
        "plan.toml, [lists], length: this is to be a whole number",
    ),
    "a list of 17": (
        "plan.toml",
        "length = 3",
        "length = 17",
        "plan.toml, [lists], length: 17 is not from 1 to 16",
    ),
    "a choice that is no number": (
        "plan.toml",
        "unplaced = 400",
        "unplaced = nan",
        "plan.toml, [lists], unplaced: nan is not from 1 to 60,000",
    ),
    "a rest that is no group": (
        "plan.toml",
        'rest = "rest"',
        'rest = "Rest"',
        "plan.toml, [lists], rest: no row of prefixes.csv has the group `Rest` (is `rest` meant?)",
    ),
    "no rest": (
        "plan.toml",
        'rest = "rest"\n',
        "",
        "prefixes.csv: no row has 0.0.0.0/0, so some clients have no group: add one, or name the group of"
        " the rest in plan.toml, [lists], rest",
    ),
    "a last resort that is no pool": (
        "plan.toml",
        'rest = "rest"',
        'rest = "rest"\nlast_resort = "eu"',
        "plan.toml, [lists], last_resort: `eu` is no pool",
    ),
    "fewer prefixes than there are": (
        "plan.toml",
        'rest = "rest"',
        'rest = "rest"\nprefixes = 4',
        "there are 5 prefixes when those that say the same are joined; 4 are allowed",
    ),
    "fewer groups than can be": (
        "plan.toml",
        'rest = "rest"',
        'rest = "rest"\ngroups = 2',
        "3 groups and classes are left, and 2 are allowed: what is left has no pools in common",
    ),
    "a table that is not there": (
        "plan.toml",
        "[lists]",
        '[tables]\nrtt = "none.csv"\n[lists]',
        "none.csv: No such file or directory",
    ),
    "a table that glb-topology does not have": (
        "plan.toml",
        "[lists]",
        '[tables]\nrtts = "none.csv"\n[lists]',
        "plan.toml, [tables]: there is no key `rtts`; the keys are pools, nodes, prefixes, demand, rtt",
    ),
}


class Refusals(unittest.TestCase):
    def refused(self, folder, expected):
        out = folder.path / "out.toml"
        out.write_text("as it was")
        status, said_out, said = folder.run(
            main, str(folder.path / "plan.toml"), "--out", str(out), "--no-map"
        )
        self.assertEqual(status, 1, said)
        self.assertEqual(said, f"glb-topology: {expected}\n")
        self.assertEqual(said_out, "")
        self.assertEqual(out.read_text(), "as it was")
        beside = {path.name for path in folder.path.iterdir()}
        self.assertFalse([name for name in beside if name.endswith(".new")])

    def test_each_fault_has_its_text(self):
        for name, (file, old, new, expected) in CASES.items():
            with self.subTest(name):
                folder = Folder(self)
                folder.swap(file, old, new)
                if expected is None:
                    folder.swap(file, '[lists]\nlength = 3\nunplaced = 400\nrest = "rest"\n', "")
                    expected = "plan.toml: `lists` is no table: write [lists]"
                self.refused(folder, expected)

    def test_the_texts_differ(self):
        texts = [expected for _, _, _, expected in CASES.values() if expected]
        self.assertEqual(len(texts), len(set(texts)))

    def test_octets_that_are_no_text(self):
        for name in ("plan.toml", "rtt.csv"):
            with self.subTest(name):
                folder = Folder(self)
                folder.put(name, (folder.path / name).read_bytes() + b"\xff")
                line = (folder.path / name).read_bytes().count(b"\n") + 1
                self.refused(folder, f"{name}, line {line}: an octet that is no UTF-8")

    def test_a_tree_of_nine_levels(self):
        levels = "".join(f"n{k},{f'n{k - 1}' if k else ''},100\n" for k in range(8))
        folder = Folder(self)
        folder.put("nodes.csv", "node,parent,capacity\neu,,100\nus,,60\n" + levels)
        folder.swap("pools.csv", "ams,eu", "ams,n7")
        self.refused(
            folder,
            "pools.csv, line 3, column parent: `ams` stands under 8 others or more; 7 are allowed",
        )

    def test_too_many_nodes(self):
        folder = Folder(self)
        more = "".join(f"x{k},,1\n" for k in range(8188))
        folder.put("nodes.csv", "node,parent,capacity\neu,,100\nus,,60\n" + more)
        self.refused(folder, "there are 8,193 pools and nodes; `glb` takes 8,192")

    def test_no_pool_at_all(self):
        folder = Folder(self)
        folder.put("pools.csv", "pool,parent,capacity,addresses\n")
        self.refused(folder, "pools.csv: there is no pool")

    def test_groups_with_a_last_resort_alone_in_common(self):
        folder = Folder(self)
        folder.swap("plan.toml", 'rest = "rest"', 'rest = "rest"\nlast_resort = "last"\ngroups = 3')
        pools = (folder.path / "pools.csv").read_text()
        folder.put("pools.csv", pools + "last,,max,192.0.2.9\n")
        folder.swap("rtt.csv", "nl,fra,10\nnl,nyc,85.5\n", "")
        self.refused(
            folder,
            "4 groups and classes are left, and 3 are allowed: what is left has no pools in common",
        )

    def test_a_group_with_a_last_resort_alone(self):
        folder = Folder(self)
        folder.swap("plan.toml", 'rest = "rest"', 'rest = "rest"\nlast_resort = "fra"')
        folder.swap("rtt.csv", "rest,nyc,50\n", "")
        self.refused(
            folder,
            "prefixes.csv, line 5, column group: no row of rtt.csv offers `rest` a pool that can serve it",
        )

    def test_a_service_that_no_pool_of_a_class_has(self):
        folder = Folder(self)
        folder.put(
            "pools.csv",
            "pool,parent,capacity,addresses,services\nfra,eu,50,192.0.2.1,www\nams,eu,60,192.0.2.2,www\nnyc,us,60,192.0.2.3,www video\n",
        )
        folder.swap("rtt.csv", "de,nyc,90\n", "")
        self.refused(
            folder,
            "prefixes.csv, line 2, column group: no row of rtt.csv offers `de`, which asks for video, a pool that can serve it",
        )

    def test_a_class_whose_name_is_too_long(self):
        folder = Folder(self)
        long = "d" * 27
        for name in ("prefixes.csv", "demand.csv", "rtt.csv"):
            text = (folder.path / name).read_text()
            folder.put(name, text.replace(",de\n", f",{long}\n").replace("\nde,", f"\n{long},"))
        self.refused(
            folder,
            f"demand.csv: the class of a group and a service is called `{long}.video`, which is longer than 32 letters: give the group a shorter name",
        )

    def test_a_class_that_is_called_as_a_group(self):
        folder = Folder(self)
        for name in ("prefixes.csv", "rtt.csv"):
            folder.put(name, (folder.path / name).read_text().replace("nl", "de.video"))
        folder.swap("demand.csv", "nl,30", "de.video,30")
        self.refused(
            folder,
            "demand.csv: the class of a group and a service is called `de.video`, and there is a group of that name",
        )

    def test_a_text_that_is_too_long(self):
        from glb_tools.planning import writer

        before, writer.LONGEST = writer.LONGEST, 1000
        self.addCleanup(setattr, writer, "LONGEST", before)
        folder = Folder(self)
        status, out, said = folder.run(main, str(folder.path / "plan.toml"), "--no-map")
        self.assertEqual((status, out), (1, ""))
        self.assertRegex(
            said,
            r"^glb-topology: the topology has 1,\d{3} octets; `glb` takes 1,000: give shorter names, or shorter lists\n$",
        )

    def test_no_program(self):
        folder = Folder(self)
        words = (
            str(folder.path / "plan.toml"),
            "--glb",
            "/nowhere/glb",
            "--out",
            str(folder.path / "o"),
        )
        status, out, said = folder.run(main, *words)
        self.assertEqual((status, out), (1, ""))
        self.assertEqual(
            said,
            "glb-topology: there is no program /nowhere/glb: name it with --glb, or leave the map out with --no-map\n",
        )
        self.assertFalse((folder.path / "o").exists())

    def test_a_program_that_refuses(self):
        folder = Folder(self)
        program = folder.path / "refuses"
        program.write_text("#!/bin/sh\necho refused topology 5 bad name at zone apex\nexit 2\n")
        program.chmod(0o755)
        words = (
            str(folder.path / "plan.toml"),
            "--glb",
            str(program),
            "--out",
            str(folder.path / "o"),
        )
        status, out, said = folder.run(main, *words)
        self.assertEqual((status, out), (1, ""))
        self.assertEqual(
            said,
            "glb-topology: refuses map does not take the topology (status 2): refused topology 5 bad name at zone apex\n",
        )
        self.assertFalse((folder.path / "o").exists())


if __name__ == "__main__":
    unittest.main()
