"""glb-topology from its tables to a topology that `glb` takes."""

import csv
import json
import os
import random
import shutil
import stat
import subprocess
import sys
import tomllib
import unittest
from pathlib import Path

try:
    import numpy  # noqa: F401
except ImportError:
    raise unittest.SkipTest("python3-numpy is not installed") from None

from glb_tools.map import map_lines
from glb_tools.planning.command import main
from glb_tools.topology import Topology
from planning_files import FILES, Folder

GLB = shutil.which(os.environ.get("GLB", "glb"))
COMMAND = Path(__file__).resolve().parent.parent / "glb-topology"
# stands in for `glb`: it takes any topology, and places nobody
NOBODY = "#!/bin/sh\nprintf 'glb map 2\\nend\\n'\n"


class Command(unittest.TestCase):
    def folder(self, **changed):
        folder = Folder(self, **changed)
        folder.put("nobody", NOBODY)
        (folder.path / "nobody").chmod(0o755)
        return folder

    def run_in(self, folder, *words, glb="nobody"):
        program = (
            [] if glb is None else ["--glb", str(folder.path / glb) if glb == "nobody" else glb]
        )
        return folder.run(main, str(folder.path / "plan.toml"), *program, *words)

    def made(self, folder, *words):
        status, out, said = self.run_in(folder, "--out", str(folder.path / "t.toml"), *words)
        self.assertEqual((status, said), (0, ""))
        return tomllib.loads((folder.path / "t.toml").read_text()), out


class Topologies(Command):
    def test_what_is_in_it(self):
        topology, out = self.made(self.folder())
        choices = tomllib.loads(FILES["plan.toml"])
        self.assertEqual(topology["zone"], choices["zone"])
        self.assertEqual(
            topology["node"],
            [
                {"name": "eu", "capacity": 100},
                {"name": "us", "capacity": 60},
                {
                    "name": "fra",
                    "parent": "eu",
                    "capacity": 50,
                    "pool": True,
                    "a": ["192.0.2.1"],
                    "aaaa": ["2001:db8::1"],
                },
                {"name": "ams", "parent": "eu", "capacity": 60, "pool": True, "a": ["192.0.2.2"]},
                {"name": "nyc", "parent": "us", "capacity": 60, "pool": True, "a": ["192.0.2.3"]},
            ],
        )
        groups = {group["name"]: group for group in topology["group"]}
        self.assertEqual(list(groups), ["de", "nl", "rest"])
        self.assertEqual([groups[name]["demand"] for name in groups], [60, 30, 5])
        self.assertEqual(groups["de"]["prefixes"], ["198.51.100.0/24"])
        self.assertEqual(groups["nl"]["prefixes"], ["203.0.113.0/24", "2001:db8:1::/48"])
        # 192.0.2.0/24 is the rest's, and so is all that no row has
        self.assertEqual(groups["rest"]["prefixes"], ["0.0.0.0/0", "::/0"])
        (video,) = topology["class"]
        self.assertEqual((video["name"], video["group"]), ("de.video", "de"))
        self.assertEqual((video["service"], video["demand"]), ("video", 20))
        self.assertEqual(set(video["pools"]), {"fra", "ams", "nyc"})
        self.assertNotIn("limits", video)
        self.assertIn("6 prefixes became 5 that say the same\n", out)

    def test_parents_come_first_whatever_the_tables_order(self):
        folder = self.folder(nodes_csv="node,parent,capacity\nmetro,eu,90\nus,,60\neu,,100\n")
        folder.swap("pools.csv", "fra,eu", "fra,metro")
        topology, _ = self.made(folder)
        names = [node["name"] for node in topology["node"]]
        for node in topology["node"]:
            if "parent" in node:
                self.assertLess(names.index(node["parent"]), names.index(node["name"]))

    def test_limits(self):
        folder = self.folder()
        folder.swap(
            "plan.toml", "length = 3", 'length = 3\nmost_at_one_pool = 0.5\nlast_resort = "last"'
        )
        folder.put("pools.csv", FILES["pools.csv"] + "last,,max,192.0.2.9\n")
        topology, _ = self.made(folder)
        for unit in topology["group"] + topology["class"]:
            half = -(-unit["demand"] // 2)
            expected = [2**32 - 1 if pool == "last" else half for pool in unit["pools"]]
            self.assertEqual(unit["limits"], expected)
        last = [node for node in topology["node"] if node["name"] == "last"]
        self.assertEqual(last[0]["capacity"], 2**48)

    def test_a_last_resort_ends_each_list(self):
        folder = self.folder()
        folder.swap("plan.toml", "length = 3", 'length = 4\nlast_resort = "last"')
        folder.put("pools.csv", FILES["pools.csv"] + "last,,max,192.0.2.9\n")
        topology, _ = self.made(folder)
        for unit in topology["group"] + topology["class"]:
            self.assertEqual(unit["pools"][-1], "last")

    def test_pools_of_a_service(self):
        folder = self.folder(
            pools_csv="pool,parent,capacity,addresses,services\nfra,eu,50,192.0.2.1,www\n"
            "ams,eu,60,192.0.2.2,\nnyc,us,60,192.0.2.3,www VIDEO\n"
        )
        topology, _ = self.made(folder)
        offered = {
            unit["name"]: set(unit["pools"]) for key in ("group", "class") for unit in topology[key]
        }
        self.assertEqual(offered["de.video"], {"ams", "nyc"})
        # the class takes video away from its group; others ask for all services
        self.assertEqual(offered["de"], {"fra", "ams", "nyc"})
        self.assertEqual(offered["nl"], {"ams", "nyc"})

    def test_lengths(self):
        folder = self.folder()
        folder.swap("plan.toml", "length = 3", "length = 1")
        topology, _ = self.made(folder)
        self.assertTrue(all(len(unit["pools"]) == 1 for unit in topology["group"]))

    def test_by_round_trip(self):
        topology, _ = self.made(self.folder(), "--by-round-trip")
        groups = {group["name"]: group for group in topology["group"]}
        self.assertEqual(groups["nl"]["pools"], ["ams", "fra", "nyc"])
        self.assertEqual(groups["nl"]["scores"], [4000, 10000, 85500])

    def test_groups_that_become_one_are_told(self):
        folder = self.folder()
        folder.swap("plan.toml", "length = 3", "length = 3\ngroups = 3")
        topology, out = self.made(folder, "--members", str(folder.path / "members.csv"))
        self.assertEqual([group["name"] for group in topology["group"]], ["de", "nl"])
        with open(folder.path / "members.csv", newline="") as file:
            rows = [(row["group"], row["member"]) for row in csv.DictReader(file)]
        self.assertEqual(rows, [("de", "de"), ("nl", "nl"), ("nl", "rest")])
        self.assertIn("4 groups and classes became 3: round trips are ", out)
        nl = topology["group"][1]
        self.assertEqual(nl["prefixes"], ["0.0.0.0/0", "::/0"])

    def test_no_demand(self):
        folder = self.folder()
        folder.swap("demand.csv", "rest,5,\n", "")
        topology, out = self.made(folder)
        self.assertEqual(topology["group"][2]["demand"], 1)
        self.assertTrue(out.startswith("no demand for rest: 1 unit each\n"))

    def test_texts_that_have_to_be_escaped(self):
        folder = self.folder()
        folder.swap("plan.toml", '"cdn.example"', '"a\\"b\\\\c\\u0007\\n.example"')
        topology, _ = self.made(folder)
        self.assertEqual(topology["zone"]["apex"], 'a"b\\c\x07\n.example')

    def test_the_reader_of_the_tools_takes_it(self):
        folder = self.folder()
        self.made(folder)
        topology = Topology((folder.path / "t.toml").read_bytes())
        self.assertEqual(len(topology.units), 4)


class Sayings(Command):
    def test_a_map_of_nobody(self):
        _, out = self.made(self.folder())
        self.assertIn("100.00% unplaced", out)

    def test_json(self):
        status, out, _ = self.run_in(self.folder(), "--json")
        report = json.loads(out)
        self.assertEqual(
            (status, report["groups"], report["classes"], report["demand"]), (0, 3, 1, 115)
        )
        # each placed at its nearest pool: 60 + 20 of de want fra, which holds 50, and 30 of nl want ams
        self.assertEqual(report["optimum"]["unplaced"], 0)
        # 50 at fra, 30 + 20 of de's units and nl's at ams hold 60: eu holds 100, so 10 go to nyc, with the rest
        self.assertAlmostEqual(
            report["bound"] * 115, 50 * 9 + 20 * 12 + 30 * 4 + 10 * (90 - 0) + 5 * 50
        )
        self.assertEqual(report["map"]["unplaced"], 1)

    def test_what_would_move_from_what_is_served(self):
        folder = self.folder()
        self.made(folder)
        folder.put("served.map", "glb map 2\nplace de fra 30\nend\n")
        words = ["--served", str(folder.path / "t.toml"), str(folder.path / "served.map")]
        status, out, _ = self.run_in(folder, *words, "--json")
        found = json.loads(out)["change"]
        # the stand-in places nobody, so the thirty units lose their place, of 115 that are asked for
        self.assertEqual((status, found["lost"], found["moved"], found["gained"]), (0, 30, 0, 0))
        self.assertEqual(found["unplaced"], {"before": 85, "after": 115})
        self.assertEqual(found["sites"], [{"from": "eu", "to": None, "units": 30}])
        status, out, _ = self.run_in(folder, *words)
        self.assertEqual(status, 0)
        self.assertIn("beside what is served:\n0 of 115 units would move", out)
        status, out, said = self.run_in(folder, *words, "--no-map")
        self.assertEqual((status, out), (64, ""))
        self.assertIn("--no-map is not taken with it", said)
        words[-1] = str(folder.path / "gone.map")
        status, out, said = self.run_in(folder, *words)
        self.assertEqual((status, out), (1, ""))
        self.assertIn("gone.map", said)

    def test_explain(self):
        status, out, _ = self.run_in(self.folder(), "--explain", "nl", "--json", glb=None)
        found = json.loads(out)
        self.assertEqual((status, found["name"], found["demand"]), (0, "nl", 30))
        # a unit more of eu would bring one of de's from nyc to ams: 90 - 12; one more of fra, from ams to fra: 12 - 9
        whole = {place["pool"]: place["whole"] for place in found["places"]}
        self.assertEqual(whole, {"ams": 4 + 78, "nyc": 85.5, "fra": 10 + 78 + 3})
        self.assertEqual(list(whole), ["ams", "nyc", "fra"])
        for place in found["places"]:
            whole = place["round_trip"] + sum(node["milliseconds"] for node in place["path"])
            self.assertAlmostEqual(place["whole"], whole)
        status, out, _ = self.run_in(self.folder(), "--explain", "nl", glb=None)
        self.assertEqual(status, 0)
        self.assertIn("nl: 30 units\n", out)

    def test_explain_whom_nobody_knows(self):
        status, out, said = self.run_in(self.folder(), "--explain", "be", glb=None)
        self.assertEqual(
            (status, out, said), (1, "", "glb-topology: there is no group or class be\n")
        )

    def test_words(self):
        folder = self.folder()
        for words, status in (
            (["--moved", "100"], 64),
            (["--seconds", "0"], 64),
            (["--import", "bind"], 64),
            (["--nothing"], 64),
        ):
            self.assertEqual(self.run_in(folder, *words)[0], status, words)

    def test_help_lists_statuses(self):
        status, out, _ = self.run_in(self.folder(), "--help")
        self.assertEqual(status, 0)
        self.assertIn("exit status:", out)


class Ends(Command):
    def run_alone(self, folder, *words, **more):
        return subprocess.run(
            [sys.executable, COMMAND, folder.path / "plan.toml", "--no-map", *words],
            capture_output=True,
            text=True,
            **more,
        )

    def test_a_folder_that_is_not_there(self):
        folder = self.folder()
        ended = self.run_alone(folder, "--out", str(folder.path / "none" / "t.toml"))
        self.assertEqual((ended.returncode, ended.stdout), (1, ""))
        self.assertIn("none", ended.stderr)

    def test_a_full_disk(self):
        if not Path("/dev/full").exists():
            self.skipTest("there is no /dev/full")
        with open("/dev/full", "w") as full:
            ended = subprocess.run(
                [sys.executable, COMMAND, self.folder().path / "plan.toml", "--no-map"],
                stdout=full,
                stderr=subprocess.PIPE,
                text=True,
            )
        self.assertEqual(ended.returncode, 1)
        self.assertEqual(ended.stderr, "glb-topology: No space left on device\n")

    def test_a_file_limit_leaves_the_old_file(self):
        import resource

        folder = self.folder()
        out = folder.path / "t.toml"
        out.write_text("as it was")

        def limited():
            import signal

            signal.signal(signal.SIGXFSZ, signal.SIG_IGN)
            resource.setrlimit(resource.RLIMIT_FSIZE, (100, 100))

        ended = self.run_alone(folder, "--out", str(out), preexec_fn=limited)
        self.assertEqual(ended.returncode, 1, ended.stderr)
        self.assertEqual(out.read_text(), "as it was")
        self.assertEqual([path.name for path in folder.path.glob(".t.toml*")], [])

    def test_mode_of_the_file(self):
        folder = self.folder()
        self.made(folder)
        self.assertEqual(stat.S_IMODE((folder.path / "t.toml").stat().st_mode), 0o644)


@unittest.skipIf(
    GLB is None, "GLB does not name the built program, and there is no `glb` in the path"
)
class WithTheProgram(Command):
    def test_it_takes_the_topology(self):
        folder = self.folder()
        status, out, said = self.run_in(folder, "--out", str(folder.path / "t.toml"), glb=GLB)
        self.assertEqual((status, said), (0, ""))
        self.assertIn("0.00% unplaced, 0.0% above the bound (", out)
        ended = subprocess.run([GLB, "map", folder.path / "t.toml"], capture_output=True)
        placed = {}
        for words in map_lines(ended.stdout):
            if words[0] == "place":
                placed[words[2]] = placed.get(words[2], 0) + int(words[3])
        # eu holds 100 of 110 that would rather be there
        self.assertEqual(sum(placed.values()), 115)
        self.assertEqual(placed["fra"] + placed["ams"], 100)

    def drawn(self, draw, choices):
        """A network with three levels, classes, and nodes that hold nothing."""
        folder = self.folder()
        folder.swap("plan.toml", "length = 3", f"length = 16\n{choices}")
        names = [f"p{at}" for at in range(9)]
        nodes = [
            "w,,700",
            *(f"r{at},w,{draw.choice([0, 250, 300])}" for at in range(3)),
            "alone,,90",
        ]
        folder.put("nodes.csv", "node,parent,capacity\n" + "\n".join(nodes) + "\n")
        rows = [
            f"{name},{draw.choice(['r0', 'r1', 'r2', 'w', 'alone', ''])},{draw.choice([0, 40, 90, 120])},192.0.2.{at}"
            for at, name in enumerate(names)
        ]
        rows.append("last,,max,192.0.2.99")
        folder.put("pools.csv", "pool,parent,capacity,addresses\n" + "\n".join(rows) + "\n")
        groups = ["rest", *(f"g{at}" for at in range(25))]
        prefixes = "".join(f"10.{at}.0.0/16,{name}\n" for at, name in enumerate(groups))
        folder.put("prefixes.csv", "prefix,group\n" + prefixes)
        demands = "".join(f"{name},{draw.randint(1, 60)},\n" for name in groups)
        demands += "".join(
            f"{name},{draw.randint(1, 60)},video\n" for name in draw.sample(groups, 8)
        )
        folder.put("demand.csv", "group,units,service\n" + demands)
        trips = "".join(
            f"{name},{pool},{draw.uniform(1, 150):.3f}\n"
            for name in groups
            for pool in draw.sample(names, draw.randint(1, 9))
        )
        folder.put("rtt.csv", "group,pool,milliseconds\n" + trips)
        return folder

    def test_drawn_networks_are_mapped_to_their_optimum(self):
        draw = random.Random(4)
        for number in range(12):
            choices = draw.choice(["", 'last_resort = "last"'])
            folder = self.drawn(draw, choices)
            with self.subTest(number=number):
                status, out, said = self.run_in(folder, "--json", "--moved", "0", glb=GLB)
                self.assertEqual((status, said), (0, ""))
                report = json.loads(out)
                self.assertAlmostEqual(report["optimum"]["cost"], report["bound"], 9)
                self.assertAlmostEqual(report["map"]["cost"], report["bound"], 9)

    def test_drawn_networks_with_limits_are_near(self):
        draw = random.Random(5)
        for number in range(6):
            folder = self.drawn(draw, 'most_at_one_pool = 0.4\nlast_resort = "last"')
            with self.subTest(number=number):
                status, out, said = self.run_in(folder, "--json", "--moved", "0", glb=GLB)
                self.assertEqual((status, said), (0, ""))
                report = json.loads(out)
                self.assertAlmostEqual(report["optimum"]["cost"], report["bound"], 9)
                self.assertLess(report["map"]["above"], 0.02)

    def test_the_zone_is_judged_by_it(self):
        folder = self.folder()
        folder.swap("plan.toml", '"cdn.example"', '"cdn..example"')
        out = folder.path / "t.toml"
        status, said_out, said = self.run_in(folder, "--out", str(out), glb=GLB)
        self.assertEqual((status, said_out), (1, ""))
        self.assertIn("refused topology 5 bad name at zone apex", said)
        self.assertFalse(out.exists())

    def test_imported_tables_are_taken(self):
        folder = self.folder()
        folder.put("rib.txt", "10.0.0.0/8 64500\n10.1.0.0/16 64501\n")
        into = folder.path / "tables"
        status, _, _ = folder.run(
            main, "--import", "routes", str(folder.path / "rib.txt"), "--into", str(into)
        )
        self.assertEqual(status, 0)
        (into / "pools.csv").write_text("pool,parent,capacity,addresses\nA,,10,192.0.2.1\n")
        (into / "rtt.csv").write_text("group,pool,milliseconds\nas64500,A,5\nas64501,A,6\n")
        status, out, said = folder.run(main, str(into / "plan.toml"), "--glb", GLB)
        self.assertEqual((status, said), (0, ""))


if __name__ == "__main__":
    unittest.main()
