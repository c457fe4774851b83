"""The views: each number of hand-made worlds, by thinking."""

import os
import subprocess
import unittest
from unittest import mock

import page_world
from page_world import REPLY, served_of

from glb_tools.drains import Drain
from glb_tools.options import Fault
from glb_tools.page import dns, dry_run
from glb_tools.page.dry_run import Crowded, DryRuns
from glb_tools.page.maps import placed_in, refusals_in, sums_of
from glb_tools.page.mirror import Setter
from glb_tools.page.sources import Server, Sight
from glb_tools.page.steps import Step, Steps
from glb_tools.page.views import changes
from glb_tools.page.views.common import ago, moment, named_offers, sheet_of
from glb_tools.page.views.now import now_shown, whole_tree
from glb_tools.page.views.over_time import merged, over_time_shown
from glb_tools.page.views.why import why_shown
from glb_tools.plan import Served as Planned
from glb_tools.plan import compared as planned
from samples import SMALL, SMALL_MAP, Case

assert page_world
ASKED = {"page": 1, "groups": 1, "node": "", "by": "order"}
# a tree with room, a full one, a pool that is out, and one of last resort
FOREST = """\
[zone]
apex = "cdn.example"
services = ["www", "Video"]
[[node]]
name = "east"
capacity = 100
[[node]]
name = "e1"
parent = "east"
capacity = 60
pool = true
[[node]]
name = "e2"
parent = "east"
capacity = 60
pool = true
[[node]]
name = "west"
capacity = 20
[[node]]
name = "w1"
parent = "west"
capacity = 30
pool = true
[[node]]
name = "last"
capacity = 281474976710656
pool = true
[[group]]
name = "near"
demand = 50
pools = ["w1", "e1", "last"]
scores = [1, 5, 4294967295]
prefixes = ["0.0.0.0/0", "::/0", "198.51.100.0/24"]
[[group]]
name = "far"
demand = 9
pools = ["w1", "e2"]
scores = [7, 8]
prefixes = ["203.0.113.0/25"]
[[class]]
name = "near.video"
group = "near"
service = "video"
demand = 4
pools = ["e2"]
scores = [2]
"""
FOREST_MAP = """\
glb map 2
place near w1 20
place near e1 25
place near last 5
place near.video e2 3
full near w1 west
full far w1 west
full far e2 e2
end
"""


def forest(**more):
    return served_of(FOREST, FOREST_MAP, [("capacity", "e2", 0)], **more)


class Words(unittest.TestCase):
    def test_sheets(self):
        items, sheet = sheet_of(list("abcdefg"), 2, 3)
        self.assertEqual((items, sheet.first, sheet.last, sheet.of), (["d", "e", "f"], 4, 6, 3))
        self.assertEqual(sheet_of(list("abcdefg"), 99, 3)[0], ["g"])
        self.assertEqual(sheet_of(list("abcdefg"), 0, 3)[0], ["a", "b", "c"])
        self.assertEqual((sheet_of([], 1, 3)[1].of, sheet_of([], 1, 3)[1].total), (1, 0))

    def test_times(self):
        self.assertEqual(moment(86400 + 3661), "1970-01-02 01:01:01")
        for seconds in (0, -5, 1 << 40):
            self.assertEqual(moment(seconds), "")
        for seconds, words in (
            (-3, "0 s"),
            (59.9, "59 s"),
            (60, "1 min"),
            (3599, "59 min 59 s"),
            (3600, "1 h"),
            (90000, "1 d 1 h"),
        ):
            self.assertEqual(ago(seconds), words)


class Now(unittest.TestCase):
    def shown(self, served, sight=None, setters=None, fault="", **asked):
        sight = Sight(990.0) if sight is None else sight
        return now_shown(served, sight, Steps(), setters or {}, fault, ASKED | asked, 1000.0)

    def test_small(self):
        found = self.shown(served_of())
        tiles = {tile["title"]: tile for tile in found["tiles"]}
        self.assertEqual(
            {title: (tile["value"], tile["is_bad"]) for title, tile in tiles.items()},
            {
                "placed nowhere": (4, True),
                "full nodes": (1, False),
                "placed": (15, False),
                "limits reached": (1, False),
            },
        )
        self.assertEqual((tiles["placed"]["of"], tiles["full nodes"]["of"]), (19, 3))
        self.assertIn("of 1 groups", tiles["placed nowhere"]["words"])
        (tree,) = found["trees"]
        self.assertEqual((tree["name"], tree["nodes"], tree["full"]), ("R", 3, 1))
        rows = [(row["name"], row["depth"], row["words"], row["share"]) for row in tree["rows"]]
        self.assertEqual(
            rows,
            [
                ("R", 0, "15 of 15", "100 %"),
                ("A", 1, "9 of 10", "90 %"),
                ("B", 1, "6 of 10", "60 %"),
            ],
        )
        self.assertEqual([row["note"] for row in tree["rows"]], ["refuses g2 (B)", "", ""])
        self.assertEqual([row["is_full"] for row in tree["rows"]], [True, False, False])
        self.assertEqual(found["full"], {"names": ["R"], "left": 0})
        (row,) = found["nowhere"]["rows"]
        self.assertEqual((row["name"], row["nowhere"], row["demand"]), ("g2", 4, 8))
        self.assertFalse(row["is_servfail"])
        (limit,) = found["limits"]["rows"]
        self.assertEqual((limit["pool"], limit["count"], limit["groups"]), ("A", 1, ["g1"]))
        self.assertEqual(found["out"], {"rows": [], "left": 0})
        (alarm,) = found["alarms"]
        self.assertEqual(alarm["kind"], "nowhere")
        self.assertIn("4 units of 1 groups", alarm["words"])
        self.assertNotIn("SERVFAIL", alarm["words"])

    def test_forest(self):
        found = self.shown(forest())
        # the fullest first, and what never fills last
        self.assertEqual([tree["name"] for tree in found["trees"]], ["west", "east", "last"])
        west, east, last = found["trees"]
        self.assertEqual((west["full"], east["full"], last["full"]), (1, 1, 0))
        self.assertEqual(west["rows"][0]["note"], "refuses near (w1), far (w1)")
        out = east["rows"][2]
        self.assertEqual((out["name"], out["is_out"], out["is_full"]), ("e2", True, False))
        self.assertEqual((out["share"], last["rows"][0]["words"]), ("over", "5 of no end"))
        self.assertEqual(found["full"]["names"], ["west"])
        words = " ".join(alarm["words"] for alarm in found["alarms"])
        # far lacks 9, near.video 1: of far nothing is placed
        self.assertIn("10 units of 2 groups and classes are placed nowhere", words)
        self.assertIn("1 of these have no place at all", words)
        self.assertIn("5 units stand at a pool of last resort", words)
        self.assertEqual(
            [(row["name"], row["nowhere"], row["is_servfail"]) for row in found["nowhere"]["rows"]],
            [("far", 9, True), ("near.video", 1, False)],
        )
        (row,) = found["out"]["rows"]
        self.assertEqual((row["name"], row["capacity"], row["before"]), ("e2", 0, 60))
        self.assertFalse(row["is_measured"])

    def test_last_resort_comes_last(self):
        """Also behind a tree with nothing in it."""
        text = "glb map 2\nplace near w1 20\nplace near last 5\nend\n"
        found = self.shown(served_of(FOREST, text))
        self.assertEqual([tree["name"] for tree in found["trees"]], ["west", "east", "last"])

    def test_out(self):
        by = {"e2": Setter("glb-watch", "up", 5, 900)}
        (row,) = self.shown(forest(), setters=by)["out"]["rows"]
        self.assertTrue(row["is_measured"])
        self.assertEqual((row["number"], row["when"]), (5, "1970-01-01 00:15:00"))
        drain = Drain("e2", 60, 5, 400, "ann", "power <b>", False, 60, 10, "r", 7, 0, 940)
        found = self.shown(forest(), Sight(990.0, drains=[drain]), by)
        self.assertEqual(found["out"]["rows"], [])
        (shown,) = found["drains"]
        self.assertEqual((shown["node"], shown["state"], shown["capacity"]), ("e2", "is out", 0))
        self.assertEqual((shown["since"], shown["last"]), ("10 min", "1 min"))

    def test_pages(self):
        with mock.patch("glb_tools.page.views.now.TREES", 2):
            found = self.shown(forest(), page=2)
        self.assertEqual([tree["name"] for tree in found["trees"]], ["last"])
        with mock.patch("glb_tools.page.views.now.GROUPS", 1):
            found = self.shown(forest(), groups=2)["nowhere"]
        self.assertEqual([row["name"] for row in found["rows"]], ["near.video"])
        with mock.patch("glb_tools.page.views.now.NODES", 2):
            east = self.shown(forest())["trees"][1]
        # e2 is out, so it counts as full
        self.assertEqual([row["name"] for row in east["rows"]], ["east", "e2"])
        self.assertEqual((east["left"], east["nodes"]), (1, 3))

    def test_one_tree(self):
        served = forest()
        east = served.tables.node_at["east"]
        found = whole_tree(served, east, 1, "order")
        self.assertEqual([row["name"] for row in found["rows"]], ["east", "e1", "e2"])
        found = whole_tree(served, east, 1, "full")
        self.assertEqual([row["name"] for row in found["rows"]], ["e2", "e1", "east"])
        found = whole_tree(served, served.tables.node_at["e1"], 1, "order")
        self.assertEqual((found["path"], found["rows"][0]["depth"]), (["east"], 0))

    def test_servers(self):
        servers = [
            Server("well", entry=7, serial=3, checksum="c" * 16, time=995.0),
            Server("late", "behind", behind=3, entry=4),
            Server("lost", "gone", "it says nothing", True),
            Server("other", entry=7, checksum="d" * 16),
            Server("early", entry=6, checksum="e" * 16),
        ]
        found = self.shown(served_of(), Sight(990.0, servers))
        shown = {row["name"]: row for row in found["servers"]}
        self.assertEqual([row["name"] for row in found["servers"]][:3], ["lost", "other", "late"])
        self.assertEqual((shown["well"]["is_bad"], shown["well"]["age"]), (False, "5 s"))
        self.assertEqual((shown["other"]["state"], shown["other"]["is_bad"]), ("differs", True))
        self.assertEqual(shown["well"]["mirror"], "the mirror's map")
        self.assertEqual(shown["other"]["mirror"], "not the mirror's map")
        self.assertEqual(shown["early"]["mirror"], "")
        # at another entry maps cannot be compared
        self.assertFalse(shown["early"]["is_bad"])
        # a map that differs comes ahead of units without a place
        self.assertEqual([alarm["kind"] for alarm in found["alarms"]], ["differ", "nowhere"])
        self.assertIn("the map of other is not the mirror's", found["alarms"][0]["words"])

    def test_nothing_is_known(self):
        found = self.shown(None, Sight(940.0, fault="etcd: nobody answers"), fault="it begins")
        words = [alarm["words"] for alarm in found["alarms"]]
        self.assertEqual(words[0], "the mirror does not run: it begins")
        self.assertIn("seen last 1 min ago", words[1])
        self.assertNotIn("trees", found)

    def test_many_refusals(self):
        served = forest()
        words = named_offers(served, [0] * 40, served.tables.node_at["w1"], 60.0)
        self.assertRegex(words, r"^near(, near)* and \d+ more$")
        named = words.split(" and ")[0].count("near")
        self.assertEqual(int(words.split(" and ")[1].split()[0]), 40 - named)


class Why(unittest.TestCase):
    def test_group(self):
        found = why_shown(served_of(), "g2", "", 1)
        unit = found["unit"]
        self.assertEqual(
            (unit["kind"], unit["demand"], unit["placed"], unit["nowhere"]), ("group", 8, 4, 4)
        )
        first, second = unit["offers"]
        self.assertEqual((first["pool"], first["units"], first["share"]), ("A", 4, "50 %"))
        self.assertIsNone(first["refused"])
        self.assertEqual((second["units"], second["score"], second["limit"]), (0, 4, None))
        refused = second["refused"]
        self.assertEqual((refused["name"], refused["words"]), ("R", "15 of 15"))
        kept = [(each["unit"], each["pool"], each["units"]) for each in refused["worst"]]
        self.assertEqual(kept, [("g2", "A", 4), ("g1", "B", 3), ("g2www", "B", 3), ("g1", "A", 5)])
        self.assertEqual([node["name"] for node in second["path"]], ["B", "R"])
        self.assertEqual((unit["classes"], unit["prefixes"]), (["g2www"], ["198.51.100.0/24"]))
        self.assertEqual(str(found["client"]), "198.51.100.0")

    def test_limit(self):
        first, _ = why_shown(served_of(), "g1", "", 1)["unit"]["offers"]
        self.assertEqual((first["limit"], first["refused"]), (5, {"is_limit": True}))

    def test_address_and_service(self):
        served = served_of()
        found = why_shown(served, "198.51.100.77", "", 1)
        self.assertEqual((found["unit"]["name"], found["prefix"]), ("g2", "198.51.100.0/24"))
        found = why_shown(served, "198.51.100.77", "WWW", 1)
        self.assertEqual((found["unit"]["name"], found["unit"]["group"]), ("g2www", "g2"))
        found = why_shown(served, "2001:db8::1", "www", 1)
        # g1 has no class for it
        self.assertEqual((found["unit"]["name"], found["prefix"]), ("g1", "::/0"))
        self.assertIn("no service", why_shown(served, "g1", "ftp", 1)["nothing"])

    def test_prefix(self):
        served = served_of()
        found = why_shown(served, "198.51.0.0/16", "", 1)
        self.assertEqual((found["unit"]["name"], found["network"]["decides"]), ("g1", "0.0.0.0/0"))
        self.assertEqual(found["network"]["inside"], [("198.51.100.0/24", "g2")])
        found = why_shown(served, "198.51.100.9/25", "", 1)
        self.assertEqual(
            (found["unit"]["name"], found["network"]["asked"]), ("g2", "198.51.100.0/25")
        )
        self.assertEqual(found["network"]["inside"], [])

    def test_node(self):
        node = why_shown(served_of(), "R", "", 1)["node"]
        self.assertEqual((node["is_pool"], node["row"]["words"]), (False, "15 of 15"))
        held = [(each["unit"], each["pool"], each["units"]) for each in node["holds"]]
        self.assertEqual(held, [("g1", "A", 5), ("g2", "A", 4), ("g1", "B", 3), ("g2www", "B", 3)])
        self.assertEqual([(each["unit"], each["pool"]) for each in node["refuses"]], [("g2", "B")])
        self.assertEqual([each["name"] for each in node["below"]], ["A", "B"])
        pool = why_shown(served_of(), "B", "", 1)["node"]
        self.assertEqual([each["name"] for each in pool["above"]], ["R"])
        self.assertEqual((pool["refuses"], pool["is_pool"]), ([], True))

    def test_service(self):
        found = why_shown(forest(), "video.cdn.example.", "", 1)["whole_service"]
        self.assertEqual((found["classes"], found["demand"], found["nowhere"]), (1, 4, 1))
        self.assertEqual(found["domain"], "Video.cdn.example")
        self.assertEqual(why_shown(forest(), "WWW", "", 1)["whole_service"]["classes"], 0)

    def test_one_name_for_two(self):
        text = FOREST.replace('name = "far"', 'name = "east"')
        found = why_shown(served_of(text, FOREST_MAP.replace(" far ", " east ")), "east", "", 1)
        self.assertEqual((found["unit"]["name"], found["node"]["name"]), ("east", "east"))

    def test_parts_of_names(self):
        found = why_shown(forest(), "EA", "", 1)
        self.assertEqual((found["units"], found["nodes"]), (["near", "near.video"], ["east"]))
        found = why_shown(forest(), "none of these", "", 1)
        self.assertIn("no group", found["nothing"])
        self.assertNotIn("unit", found)

    def test_nothing_placed(self):
        unit = why_shown(forest(), "203.0.113.5", "", 1)["unit"]
        self.assertEqual((unit["name"], unit["is_servfail"], unit["nowhere"]), ("far", True, 9))

    def test_whose_address(self):
        """The address that stands for a group is one of its own, not of a longer prefix inside."""
        text = FOREST.replace('"203.0.113.0/25"', '"203.0.113.0/25", "198.51.100.0/25"').replace(
            '"0.0.0.0/0", "::/0", "198.51.100.0/24"', '"0.0.0.0/0", "::/0", "198.51.100.0/24"'
        )
        found = why_shown(served_of(text, FOREST_MAP), "near", "", 1)
        self.assertEqual(str(found["client"]), "0.0.0.0")


class Answers(unittest.TestCase):
    def test_reply(self):
        asked = []

        def ask(address, query):
            asked.append((address, query.hex()))
            return 4, bytes.fromhex(REPLY)

        found = dns.answers(ask, "198.51.100.7", "www", "cdn.example")
        first, second = found["replies"]
        self.assertEqual((first["type"], first["serial"], first["code"]), ("A", 4, "NOERROR"))
        self.assertEqual(
            [each["text"] for each in first["records"]], ["www.cdn.example. 20 IN A 192.0.2.1"]
        )
        # the query of docs/FORMATS.md, "ADDR and HEX", for A and for AAAA
        query = "123401000001000000000000037777770363646e076578616d706c6500%s0001"
        self.assertEqual(
            asked, [("198.51.100.7", query % "0001"), ("198.51.100.7", query % "001c")]
        )
        self.assertEqual(second["type"], "AAAA")

    def test_nonsense(self):
        self.assertEqual(dns.reply_shown(None)["code"], "nothing is sent back")
        self.assertIn("cannot be read", dns.reply_shown(b"x")["code"])
        self.assertEqual(
            dns.reply_shown(bytes.fromhex("123481020000000000000000"))["code"], "SERVFAIL"
        )

    def test_fault(self):
        def ask(address, query):
            raise Fault("it works a batch")

        self.assertEqual(dns.answers(ask, "::1", "www", "x")["fault"], "it works a batch")


class Changed(unittest.TestCase):
    def setUp(self):
        self.steps = Steps()
        served = served_of(FOREST, FOREST_MAP)
        self.tables = served.tables
        self.steps.begin(self.tables)
        self.first = self.add(1, FOREST_MAP, [])
        moved = FOREST_MAP.replace("place near e1 25\n", "place near e1 15\n").replace(
            "place near.video e2 3", "place far e2 6\nplace near.video e2 3"
        )
        self.second = self.add(2, moved, [("e1", 15)])

    def add(self, number, text, numbers):
        capacities = self.tables.capacities.copy()
        for name, value in numbers:
            capacities[self.tables.node_at[name]] = value
        placed = placed_in(self.tables, text.encode())
        step = Step(number, f"m{number}", author="ann", lines=["a", "b", "c", "d"], line_count=9)
        self.steps.add(step, placed, sums_of(self.tables, placed, capacities, self.tables.demands))
        return step

    def test_list(self):
        found = changes.steps_shown(self.steps, 1, 0.0)
        newest, first = found["steps"]
        self.assertEqual(
            (newest["number"], newest["is_newest"], first["is_newest"]), (2, True, False)
        )
        self.assertEqual((newest["lost"], newest["gained"], newest["moved"]), (10, 6, 0))
        self.assertEqual((newest["lines"], newest["line_count"]), (["a", "b", "c"], 9))
        self.assertEqual(found["maps"], [2, 1])

    def test_side_by_side(self):
        found = changes.compared(self.steps, self.first, self.second, "pool", 0.0)
        sums = {row["title"]: (row["before"], row["after"], row["change"]) for row in found["sums"]}
        self.assertEqual(sums["placed"], (53, 49, -4))
        self.assertEqual(sums["placed nowhere"], (10, 14, 4))
        self.assertEqual(sums["full nodes"], (1, 2, 1))
        flows = [(each["from"], each["to"], each["units"]) for each in found["flows"]]
        self.assertEqual(flows, [("e1", "", 10), ("", "e2", 6)])
        rows = {row["name"]: row for row in found["nodes"]["rows"]}
        # e1 has another capacity, and it is full now
        e1 = rows["e1"]
        self.assertEqual((e1["capacity_before"], e1["capacity_after"], e1["fills"]), (60, 15, True))
        self.assertEqual(
            (rows["e2"]["before"], rows["e2"]["after"], rows["e2"]["fills"]), (3, 9, False)
        )
        self.assertEqual(rows["east"]["after"], 24)
        self.assertNotIn("w1", rows)
        self.assertEqual(found["moves"]["rows"][0]["unit"], "near")
        self.assertIn("<svg", found["drawing"])
        back = changes.compared(self.steps, self.second, self.first, "pool", 0.0)
        self.assertTrue({row["name"]: row for row in back["nodes"]["rows"]}["e1"]["has_room"])

    def test_by_site_and_tree(self):
        found = changes.compared(self.steps, self.first, self.second, "site", 0.0)
        flows = [(each["from"], each["to"], each["units"]) for each in found["flows"]]
        self.assertEqual(flows, [("east", "", 10), ("", "east", 6)])
        self.assertEqual(changes.above(self.steps, self.tables.node_at["last"], "site"), 5)
        self.assertEqual(changes.above(self.steps, self.tables.node_at["e2"], "tree"), 0)

    def test_goes_out(self):
        third = self.add(3, FOREST_MAP, [("e1", 0)])
        rows = changes.nodes_shown(self.steps, self.second, third)["rows"]
        self.assertTrue({row["name"]: row for row in rows}["e1"]["goes_out"])
        rows = changes.nodes_shown(self.steps, third, self.second)["rows"]
        self.assertTrue({row["name"]: row for row in rows}["e1"]["comes_back"])

    def test_another_capacity_alone(self):
        third = self.add(3, FOREST_MAP, [("e1", 50)])
        fourth = self.add(4, FOREST_MAP, [("e1", 51)])
        (row,) = changes.nodes_shown(self.steps, third, fourth)["rows"]
        self.assertEqual((row["name"], row["before"], row["after"]), ("e1", 25, 25))
        self.assertEqual((row["capacity_before"], row["capacity_after"]), (50, 51))

    def test_before(self):
        self.assertEqual(changes.before(self.steps, self.second), self.first)
        self.assertIsNone(changes.before(self.steps, self.first))


class WhatIf(Case):
    AFTER = "glb map 2\nplace g1 A 5\nplace g1 B 3\nplace g2 A 5\nlimit g1 A\nfull g2 A A\nfull g2 B R\nfull g2www B R\nend\n"

    def work(self, lines, served=None):
        """What comes of a dry run, and what the program was handed."""
        handed = []

        def asked(glb, command, *octets, patience=None):
            handed.append((command, *octets))
            return self.AFTER.encode()

        served = served or served_of()
        with mock.patch.object(dry_run, "asked", asked):
            runs = DryRuns("glb")
            job = runs.job(served, lines)
            runs.work(runs.waiting.popleft())
        return job, handed

    def test_small(self):
        job, handed = self.work("capacity B 3\ndemand g2 9\n")
        found = job.found
        self.assertEqual(
            (job.state, found["moved"], found["gained"], found["lost"]), ("done", 0, 1, 3)
        )
        pairs = {row["title"]: (row["before"], row["after"]) for row in found["pairs"]}
        self.assertEqual(pairs["demand"], (19, 20))
        self.assertEqual(pairs["placed nowhere"], (4, 7))
        # R has room again: 13 of 15; B and A are full
        self.assertEqual(pairs["full nodes"], (1, 2))
        self.assertTrue(found["is_worse"])
        self.assertEqual(found["worse_by"], 3)
        rows = {row["name"]: row for row in found["nodes"]["rows"]}
        self.assertEqual(
            (rows["B"]["fills"], rows["A"]["fills"], rows["R"]["has_room"]), (True,) * 3
        )
        command, topology, text, batch = handed[0]
        self.assertEqual((command, topology, text), ("repair", SMALL.encode(), SMALL_MAP.encode()))
        self.assertEqual(batch, b"capacity B 3\ndemand g2 9\n")

    def test_as_glb_plan(self):
        """The same as glb-plan says of the same two maps."""
        job, _ = self.work("capacity B 3\n")
        after = SMALL.replace('"capacity" = 1_0', '"capacity" = 3')
        due = planned(
            Planned(SMALL.encode(), SMALL_MAP.encode()),
            Planned(after.encode(), self.AFTER.encode()),
        )
        found = job.found
        pairs = {row["title"]: (row["before"], row["after"]) for row in found["pairs"]}
        for key, title in (
            ("demand", "demand"),
            ("unplaced", "placed nowhere"),
            ("last_resort", "at a pool of last resort"),
            ("limits", "limits reached"),
            ("mean_score", "mean score"),
        ):
            self.assertEqual(pairs[title], (due[key]["before"], due[key]["after"]), title)
        for key in ("moved", "gained", "lost", "groups"):
            self.assertEqual(found[key], due[key])
        flows = {
            (each["from"] or None, each["to"] or None): each["units"] for each in found["flows"]
        }
        self.assertEqual(
            flows, {(each["from"], each["to"]): each["units"] for each in due["sites"]}
        )

    def test_numbers_that_are_served(self):
        """The topology that is handed on has the numbers of now."""
        served = served_of(numbers=[("capacity", "A", 9), ("demand", "g2www", 4)])
        _, handed = self.work("demand g1 2\n", served)
        topology = handed[0][1].decode()
        self.assertIn('name = "A", parent = "R", capacity = 9,', topology)
        self.assertIn('service = "www"\ndemand = 4\n', topology)

    def test_refused(self):
        runs = DryRuns("glb")
        for lines, why in (
            ("capacity Z 1\n", "line 1: unknown name"),
            ("demand g1 0\n", "line 1: out of range"),
            ("demand g1 1\ncommit\n", "line 2: unknown word"),
            ("demand g1 \n", "line 1: wrong count"),
            ("capacity B ü\n", "line 1: bad byte"),
        ):
            with self.subTest(lines), self.assertRaisesRegex(Fault, f"^{why}$"):
                runs.job(served_of(), lines)
        self.assertEqual(len(runs.waiting), 0)

    def test_the_program_fails(self):
        runs = DryRuns(self.file("none", ""))
        job = runs.job(served_of(), "capacity B 3\n")
        runs.work(runs.waiting.popleft())
        self.assertEqual(job.state, "failed")
        self.assertIn("Permission denied", job.why)
        slow = self.file("slow", "#!/bin/sh\nexec sleep 9\n")
        os.chmod(slow, 0o700)
        runs = DryRuns(slow)
        job = runs.job(served_of(), "capacity B 3\n")
        with mock.patch.object(dry_run, "PATIENCE", 0.1):
            runs.work(runs.waiting.popleft())
        self.assertIn("took longer than 0.1 s", job.why)

    def test_bounded(self):
        runs = DryRuns("glb")
        served = served_of()
        job = runs.job(served, "capacity B 1\n")
        self.assertIs(runs.job(served, "capacity B 1\n"), job)
        # over another map it is another one
        self.assertIsNot(runs.job(served_of(entry=8), "capacity B 1\n"), job)
        for units in (2, 3):
            runs.job(served, f"capacity B {units}\n")
        self.assertRaises(Crowded, runs.job, served, "capacity B 4\n")
        # what has an outcome goes, the oldest first
        for each in runs.jobs.values():
            each.state = "done"
        runs.waiting.clear()
        for units in range(20, 50):
            runs.job(served, f"capacity B {units}\n").state = "done"
            runs.waiting.clear()
        self.assertEqual(len(runs.jobs), dry_run.KEPT)

    @unittest.skipUnless(os.environ.get("GLB"), "GLB does not name the program")
    def test_real(self):
        glb = os.environ["GLB"]
        made = subprocess.run([glb, "map", self.small()], capture_output=True).stdout.decode()
        runs = DryRuns(glb)
        job = runs.job(served_of(SMALL, made), "capacity R 20\n")
        runs.work(runs.waiting.popleft())
        self.assertEqual(job.state, "done", job.why)
        # of 19 units R had room for 15; A and B have room for all
        self.assertEqual((job.found["gained"], job.found["lost"]), (4, 0))


class OverTime(unittest.TestCase):
    def test_sources(self):
        own = {"placed": {"": [(100.0, 5.0)]}, "drops": {"h1": [(100.0, 0.5), (160.0, 2.0)]}}
        told = {"placed": {"": [(40.0, 7.0), (100.0, 9.0)]}, "drops": {"h1": []}}
        found = over_time_shown(lambda name: own.get(name, {}), told, 200.0)["charts"]
        charts = {chart["title"]: chart for chart in found}
        self.assertEqual(charts["Placed"]["source"], "Prometheus")
        self.assertEqual(charts["Placed"]["legend"][0]["last"], "9")
        lost = charts["Datagrams lost"]
        self.assertEqual((lost["source"], lost["legend"][0]["last"]), ("this page", "2"))
        self.assertEqual(charts["Moved"]["drawing"], "")
        self.assertEqual([bool(chart["drawing"]) for chart in found], [True, True] + [False] * 6)

    def test_many_servers(self):
        series = {f"h{n}": [(0.0, float(n)), (60.0, float(10 * n))] for n in range(9)}
        found = merged(series, True)
        self.assertEqual(list(found)[:5], ["h4", "h5", "h6", "h7", "h8"])
        self.assertEqual(found["4 others, in all"], [(0.0, 6.0), (60.0, 60.0)])
        self.assertEqual(merged(series, False)["4 others, the largest"][1], (60.0, 30.0))


class Refused(unittest.TestCase):
    def test_offers(self):
        served = served_of()
        refusals = refusals_in(served.tables, SMALL_MAP.encode())
        self.assertEqual(refusals.nodes.tolist(), [0, 0xFFFF])


if __name__ == "__main__":
    unittest.main()
