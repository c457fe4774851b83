"""glb-watch: rules and their refusals, what looks come to, logs with several writers, and a faked Prometheus."""

import contextlib
import dataclasses
import importlib.util
import io
import json
import re
import socket
import subprocess
import sys
import threading
import time
import types
import unittest
from contextlib import contextmanager
from http.server import BaseHTTPRequestHandler, ThreadingHTTPServer
from pathlib import Path
from unittest import mock
from urllib.parse import parse_qs

from fleet_world import Client, Outside, Table
from samples import EXAMPLES, SMALL, TOOLS, TOP, Case

from glb_tools import append, watch, watch_logs
from glb_tools.drains import Drain
from glb_tools.etcd import Full, delete, encoded, put
from glb_tools.file_log import locked
from glb_tools.log import Log, Names, Signed, checksum_of
from glb_tools.options import Fault
from glb_tools.text import Replay
from glb_tools.topology import Topology
from glb_tools.watch_engine import Answer, Engine, Verdict, answer_of, batch_of
from glb_tools.precedence import AUTHOR
from glb_tools.watch_logs import FileLog, FleetLog, Waits
from glb_tools.watch_rules import Rule, names_of, settings_of

HEAD = 'prometheus = "http://127.0.0.1:1"\n'
DEMANDS = '[[demand]]\nquery = "d"\nlabel = "group"\nnames = ["*"]\n'
POOLS = '[[capacity]]\nquery = "c"\nlabel = "pool"\nnames = ["A", "B"]\n'
NO_BRAKE = "tree = 100\ndemand_sum = 1e6\ndemand_name = 1e6"
GROUP = '[[group]]\nname = "{}"\ndemand = 100\npools = ["{}"]\nscores = [1]\nprefixes = []\n'
ZONE = '[zone]\napex = "cdn.example"\nservices = ["www"]\n'


def node(name, capacity, parent=None):
    text = f'[[node]]\nname = "{name}"\ncapacity = {capacity}\n'
    return text + (f'parent = "{parent}"\npool = true\n' if parent else "")


def trees(*sizes, groups=0):
    """A topology of trees r0, r1 .. with so many pools of 100 each, r0p0, r0p1 .."""
    text = ZONE
    for tree, size in enumerate(sizes):
        text += node(f"r{tree}", 10**6)
        text += "".join(node(f"r{tree}p{pool}", 100, f"r{tree}") for pool in range(size))
    text += "".join(GROUP.format(f"g{number}", "r0p0") for number in range(max(groups, 1)))
    return Topology(text.encode())


def settings(text, top=HEAD):
    return settings_of((top + text).encode(), "watch.toml")


def rules(*words, calm="", brake="", **more):
    """Settings for all pools, or for all groups, with these keys of their rule."""
    keys = "".join(f"{key} = {json.dumps(value)}\n" for key, value in more.items())
    return settings(
        f"[calm]\n{calm or 'hold = 0'}\n[brake]\n{brake or NO_BRAKE}\n"
        + f'[[{words[0]}]]\nquery = "q"\nlabel = "l"\nnames = ["{words[1]}"]\n{keys}'
    )


class Looks:
    """An engine with its own clock, over numbers that take whatever it writes."""

    def __init__(self, made, topology):
        self.settings, self.now = made, 1000.0
        self.engine = Engine(made, topology)
        self.served = {("demand", unit.name): unit.demand for unit in topology.units}
        self.served |= {("capacity", each.name): each.capacity for each in topology.nodes}
        self.by_hand, self.drains = {}, {}

    def look(self, values=None, wrong=None, fault="", seconds=10, takes=True):
        """The changes, by name; `found` has all."""
        self.now += seconds
        answer = Answer(dict(values or {}), dict(wrong or {}), fault)
        answers = {rule.place: answer for rule in self.settings.rules}
        self.found = self.engine.look(self.served, self.by_hand, self.drains, answers, self.now)
        if takes:
            self.engine.took(self.found.batch, self.now)
            self.served |= {(each.word, each.name): each.new for each in self.found.batch}
        return {each.name: each.new for each in self.found.batch}

    def why(self, name):
        return next(each.why for each in self.found.left if each.name == name)


class Settings(Case):
    def refuses(self, words, text, top=HEAD):
        with self.assertRaisesRegex(Fault, words):
            names_of(settings(text, top).rules, Topology(SMALL.encode()))

    def test_two_rules_for_one_name(self):
        other = DEMANDS.replace('"*"', '"g2", "g2w*"').replace("query", 'name = "x"\nquery')
        self.refuses(
            r"^demand rule 1 and demand rule 2 \(`x`\) both speak of demand g2$", DEMANDS + other
        )

    def test_names(self):
        topology = Topology(SMALL.encode())
        found = names_of(settings(DEMANDS + POOLS).rules, topology)
        self.assertEqual(
            list(found),
            [("demand", name) for name in ("g1", "g2", "g2www")]
            + [("capacity", name) for name in "AB"],
        )
        self.refuses("rule 1: the topology has no name `A`", DEMANDS.replace("*", "A"))
        self.refuses("rule 1: the topology has no name `C\\*`", POOLS.replace('"A"', '"C*"'))

    def test_keys(self):
        for words, text in (
            ("watch.toml has no rule", ""),
            ("demand rule 1 has no `query`", '[[demand]]\nlabel = "x"\nnames = ["g1"]\n'),
            ("a key `down_after`, which nothing reads", DEMANDS + "down_after = 1\n"),
            ("`calm` of watch.toml has a key `x`", "calm = {x = 1}\n" + DEMANDS),
            ("`dead_band` of demand rule 1 is not from 0 to 100", DEMANDS + "dead_band = 101\n"),
            ("`dead_band` of demand rule 1 is no number", DEMANDS + "dead_band = true\n"),
            ("`dead_band` .* is not from", DEMANDS + "dead_band = nan\n"),
            ("`down_after` of capacity rule 1 is no whole", POOLS + "down_after = 1.5\n"),
            ("`names` of demand rule 1 is no list of texts", DEMANDS.replace('"*"', "1")),
            ("`missing` of demand rule 1 is none of", DEMANDS + 'missing = "down"\n'),
            ("`ceiling` .* is not from 7", POOLS + "floor = 7\nceiling = 6\n"),
            ("`timeout` of watch.toml is not from", "timeout = 11\n" + DEMANDS),
            ("`log` and `topology` of watch.toml go together", 'log = "x"\n' + DEMANDS),
            ("demand rule 1 is no table", "demand = [1]\n"),
            ("^watch.toml: ", "x"),
        ):
            with self.subTest(text):
                self.refuses(words, text)
        self.refuses("neither http:// nor", DEMANDS, 'prometheus = "ftp://x"\n')

    def test_how_long_one_leads(self):
        for text, due in (
            ("", 30),
            ("every = 2\n", 15),
            ("every = 0.3\nlead = 2\n", 2),
            ("lead = 60\n", 60),
        ):
            self.assertEqual(settings(DEMANDS, HEAD + text).lead, due, text)
        for text in ("lead = 1\nevery = 0.1\n", "lead = 19\n", "lead = 2.5\nevery = 1\n"):
            self.refuses("`lead` of watch.toml is", text + DEMANDS)

    def test_the_example(self):
        made = settings_of((EXAMPLES / "watch.toml").read_bytes(), "watch.toml")
        topology = Topology((EXAMPLES / "tree.toml").read_bytes())
        self.assertEqual(len(names_of(made.rules, topology)), 4)


class Answers(unittest.TestCase):
    rule = settings(DEMANDS + "factor = 2").rules[0]

    def answer(self, told):
        octets = told if isinstance(told, bytes) else json.dumps(told).encode()
        return answer_of(self.rule, {"g1", "g2"}, octets)

    def vector(self, *series, **more):
        result = [{"metric": {"group": name}, "value": [0, text]} for name, text in series]
        data = {"resultType": "vector", "result": result}
        return self.answer({"status": "success", "data": data, **more})

    def test_values(self):
        found = self.vector(("g1", "1.5e2"), ("strange", "x"), ("g2", "0"))
        self.assertEqual((found.values, found.wrong, found.fault), ({"g1": 150, "g2": 0}, {}, ""))

    def test_one_that_is_wrong_is_that_names_alone(self):
        for text in ("NaN", "+Inf", "-Inf", "-1", "-1e-9", "", "x", "1_0", " 1", "1e999", 5, None):
            with self.subTest(text):
                found = self.vector(("g1", text), ("g2", "7"))
                self.assertEqual((found.values, list(found.wrong)), ({"g2": 7}, ["g1"]))
        # the factor counts: 2 * 2^31 is one too many
        self.assertEqual(list(self.vector(("g1", "2147483648")).wrong), ["g1"])
        self.assertEqual(list(self.vector(("g1", "2147483647")).wrong), [])

    def test_a_label_twice(self):
        for texts in (("1", "1"), ("1", "NaN"), ("NaN", "1"), ("1", "1", "1")):
            found = self.vector(*(("g1", text) for text in texts), ("g2", "7"))
            self.assertEqual((found.values, list(found.wrong)), ({"g2": 7}, ["g1"]), texts)

    def test_what_is_no_answer(self):
        good = {"resultType": "vector", "result": []}
        for told in (
            b"",
            b"<html>",
            b"\xff",
            b"[" * 100_000,
            [],
            None,
            {},
            {"status": "error", "error": "parse error"},
            {"status": "success"},
            {"status": "success", "data": {"resultType": "matrix", "result": []}},
            {"status": "success", "data": good, "warnings": ["a store is gone"]},
            {"status": "success", "data": {**good, "result": [{"metric": {}, "value": [0, "1"]}]}},
            {"status": "success", "data": {**good, "result": [{"metric": {"group": "g1"}}]}},
            {"status": "success", "data": {**good, "result": [{"metric": {"group": []}}]}},
        ):
            with self.subTest(str(told)[:60]):
                found = self.answer(told)
                self.assertTrue(found.fault)
                self.assertEqual((found.values, found.wrong), ({}, {}))


class Demands(unittest.TestCase):
    def test_begins_from_what_is_served(self):
        looks = Looks(rules("demand", "g0", smoothing=0.5, factor=2, dead_band=0), trees(1))
        # 100 are served, and 200 are measured
        self.assertEqual(looks.look({"g0": 100}), {"g0": 150})
        self.assertEqual(looks.look({"g0": 100}), {"g0": 175})

    def test_dead_band_and_the_least(self):
        looks = Looks(rules("demand", "g0", smoothing=1, dead_band=10), trees(1))
        self.assertEqual(looks.look({"g0": 110}), {})
        self.assertEqual(looks.why("g0"), "within the dead band of 10 %")
        self.assertEqual(looks.look({"g0": 111}), {"g0": 111})
        self.assertEqual(looks.look({"g0": 0}), {"g0": 1})

    def test_held_behind_a_change(self):
        made = rules("demand", "g0", smoothing=1, dead_band=0, calm="hold = 30")
        looks = Looks(made, trees(1))
        self.assertEqual(looks.look({"g0": 120}), {"g0": 120})
        self.assertEqual([looks.look({"g0": 140}) for _ in range(3)], [{}, {}, {"g0": 140}])

    def test_a_series_that_is_missing(self):
        for missing, then in (("keep", {}), (7, {"g0": 7})):
            made = rules("demand", "g0", missing=missing, missing_after=20)
            looks = Looks(made, trees(1))
            self.assertEqual([looks.look() for _ in range(2)], [{}, {}])
            self.assertEqual(looks.look(), then)

    def test_a_series_that_comes_back_begins_anew(self):
        looks = Looks(rules("demand", "g0", missing=7, missing_after=20), trees(1))
        for _ in range(3):
            self.assertEqual([looks.look(), looks.look(), looks.look({"g0": 100})], [{}] * 3)

    def test_time_without_an_answer_does_not_count(self):
        looks = Looks(rules("demand", "g0", missing=7, missing_after=20), trees(1))
        looks.look()
        self.assertEqual(looks.look(fault="gone", seconds=10**6), {})
        self.assertEqual(looks.look(wrong={"g0": "NaN"}, seconds=10**6), {})
        self.assertEqual([looks.look() for _ in range(3)], [{}, {}, {"g0": 7}])


class Capacities(unittest.TestCase):
    def looks(self, *sizes, calm="", brake="", **more):
        usual = {"down_after": 2, "up_after": 3, "up_step": 50}
        made = rules(
            "capacity", "r*p*", calm=calm, brake=brake or "tree = 100\nall = 100", **usual, **more
        )
        return Looks(made, trees(*(sizes or (1,))))

    def test_down_and_up(self):
        looks = self.looks(calm="hold = 1000")
        up, down = {"r0p0": 100}, {"r0p0": 0}
        self.assertEqual(looks.look(down), {})
        self.assertEqual(looks.why("r0p0"), "looks down, 1 of 2 looks")
        # in a row
        self.assertEqual([looks.look(up), looks.look(down)], [{}, {}])
        self.assertEqual(looks.look(down), {"r0p0": 0})
        self.assertEqual([looks.look(up), looks.look(up), looks.look(down)], [{}, {}, {}])
        self.assertEqual([looks.look(up), looks.look(up)], [{}, {}])
        # it fills by steps, though a change holds
        self.assertEqual([looks.look(up) for _ in range(3)], [{"r0p0": 50}, {"r0p0": 100}, {}])

    def test_a_restart_begins_from_what_is_served(self):
        looks = self.looks()
        looks.served["capacity", "r0p0"] = 0
        self.assertEqual([looks.look({"r0p0": 80}) for _ in range(2)], [{}, {}])
        self.assertEqual(looks.look({"r0p0": 80}), {"r0p0": 40})
        other = self.looks()
        other.served["capacity", "r0p0"] = 40
        self.assertEqual(other.look({"r0p0": 80}), {"r0p0": 80})

    def test_floor_and_ceiling(self):
        looks = self.looks(floor=20, ceiling=200)
        self.assertEqual(looks.look({"r0p0": 5}), {"r0p0": 20})
        for _ in range(9):
            looks.look({"r0p0": 10**6})
        self.assertEqual(looks.served["capacity", "r0p0"], 200)
        looks.look({"r0p0": 0})
        self.assertEqual(looks.look({"r0p0": 0}), {"r0p0": 0})

    def test_a_falling_capacity_is_not_held(self):
        looks = self.looks(calm="hold = 1000")
        self.assertEqual(looks.look({"r0p0": 80}), {"r0p0": 80})
        self.assertEqual(looks.look({"r0p0": 60}), {"r0p0": 60})
        self.assertEqual(looks.look({"r0p0": 90}), {})
        self.assertRegex(looks.why("r0p0"), "^held behind its last change for 990 s")

    def out(self, looks):
        """Goes down, and says how many looks that are good it takes until it comes back."""
        while looks.served["capacity", "r0p0"]:
            looks.look({"r0p0": 0}, seconds=1)
        for count in range(1, 2000):
            if looks.look({"r0p0": 100}, seconds=1):
                return count
        self.fail()

    def test_flaps_are_damped_twice_as_long_each_time(self):
        looks = self.looks(calm="hold = 0\nflap = 20\nflap_most = 100\nflap_forget = 300")
        self.assertEqual([self.out(looks) for _ in range(5)], [3, 20, 40, 80, 100])
        for _ in range(301):
            looks.look({"r0p0": 100}, seconds=1)
        self.assertEqual(self.out(looks), 3)

    def test_missing_is_down(self):
        looks = self.looks(missing="down", missing_after=20)
        self.assertEqual([looks.look(), looks.look(), looks.look()], [{}, {}, {"r0p0": 0}])
        self.assertEqual([looks.look({"r0p0": 100}) for _ in range(2)], [{}, {}])
        self.assertEqual(looks.look({"r0p0": 100}), {"r0p0": 50})

    def test_nothing_wrong_changes_anything(self):
        looks = self.looks()
        for _ in range(5):
            self.assertEqual(looks.look(fault="gone"), {})
            self.assertEqual(looks.look(wrong={"r0p0": "NaN"}), {})
        self.assertEqual(len(looks.found.faults), 1)

    def test_the_brake_of_a_tree(self):
        looks = self.looks(4, 100, brake="tree = 40\nall = 100")
        values = {name: 100 for _, name in looks.engine.rules}
        looks.look(values | {"r0p0": 0})
        self.assertEqual(looks.look(values | {"r0p0": 0}), {"r0p0": 0})
        # half of the tree: the second one stays, and the first one stays out
        bad = values | {"r0p0": 0, "r0p1": 0}
        self.assertEqual([looks.look(bad) for _ in range(5)], [{}] * 5)
        self.assertEqual(len(looks.found.brakes), 1)
        self.assertRegex(looks.why("r0p1"), "^the brake: 50 % of the tree r0 look down")
        # another tree is not braked
        looks.look(bad | {"r1p0": 0})
        self.assertEqual(looks.look(bad | {"r1p0": 0}), {"r1p0": 0})
        # the measuring is mended: nothing has gone, and one that came back counts no flap
        for _ in range(3):
            looks.look(values)
        self.assertEqual(looks.found.brakes, [])
        self.assertEqual(looks.served["capacity", "r0p1"], 100)

    def test_the_brake_of_all(self):
        looks = self.looks(2, 2, 2, 2, brake="tree = 100\nall = 25")
        values = {name: 100 for _, name in looks.engine.rules}
        bad = values | {"r0p0": 0, "r1p0": 0, "r2p0": 0}
        self.assertEqual([looks.look(bad) for _ in range(4)], [{}] * 4)
        # what falls by more than half is as good as out
        tiny = {name: 1 for name in values}
        self.assertEqual(looks.look(tiny), {})
        self.assertTrue(looks.found.brakes)
        # and two of eight may go
        looks = self.looks(2, 2, 2, 2, brake="tree = 100\nall = 25")
        bad = values | {"r0p0": 0, "r1p0": 0}
        looks.look(bad)
        self.assertEqual(looks.look(bad), {"r0p0": 0, "r1p0": 0})

    def test_the_brake_sees_what_falls_in_steps(self):
        looks = self.looks(4, brake="tree = 40\nall = 100")
        values = {name: 100 for _, name in looks.engine.rules}
        for value in (60, 51, 40, 30, 20, 10, 1):
            looks.look({name: value for name in values})
        self.assertEqual(set(looks.served[each] for each in looks.engine.rules), {51})
        # one alone may
        looks = self.looks(4, brake="tree = 40\nall = 100")
        for value in (60, 40, 20):
            self.assertEqual(looks.look(values | {"r0p0": value}), {"r0p0": value})

    def test_what_counts_for_the_brake(self):
        # those that look down do already, ahead of their time
        looks = self.looks(4, brake="tree = 40\nall = 100")
        values = {name: 100 for _, name in looks.engine.rules}
        looks.look(values | {"r0p0": 0})
        self.assertEqual(looks.look(values | {"r0p0": 0, "r0p1": 0}), {})
        self.assertTrue(looks.found.brakes)
        # those that were set by hand do not: two of ten may go, and of the other five they may not
        bad = values | {"r0p0": 0, "r0p1": 0}
        for by_hand, then in ((0, {"r0p0": 0, "r0p1": 0}), (5, {})):
            looks = self.looks(10, brake="tree = 30\nall = 100")
            for number in range(by_hand):
                looks.by_hand["capacity", f"r0p{9 - number}"] = "ops"
            looks.look(bad)
            self.assertEqual(looks.look(bad), then)

    def test_a_pool_of_last_resort_does_not_count(self):
        topology = (
            ZONE + node("r0", 10**6) + "".join(node(f"r0p{n}", 100, "r0") for n in range(2))
        )
        topology += f'[[node]]\nname = "last"\ncapacity = {2**48}\npool = true\n'
        made = self.looks(1, brake="tree = 100\nall = 40").settings
        looks = Looks(made, Topology((topology + GROUP.format("g0", "r0p0")).encode()))
        bad = {"r0p0": 0, "r0p1": 0}
        self.assertEqual([looks.look(bad) for _ in range(3)], [{}, {}, {}])
        self.assertTrue(looks.found.brakes)

    def test_one_pool_alone_may_go(self):
        looks = self.looks(1, 1, brake="tree = 10\nall = 10")
        looks.look({"r0p0": 0, "r1p0": 100})
        self.assertEqual(looks.look({"r0p0": 0, "r1p0": 100}), {"r0p0": 0})

    def test_by_hand(self):
        looks = self.looks()
        looks.by_hand["capacity", "r0p0"] = "ops"
        self.assertEqual([looks.look({"r0p0": 0}) for _ in range(4)], [{}] * 4)
        self.assertEqual(looks.why("r0p0"), "set by ops, until it is handed back")

    def test_handed_back_it_begins_from_what_is_served(self):
        looks = Looks(rules("demand", "g0", smoothing=0.5, dead_band=0), trees(1))
        looks.look({"g0": 10**6})
        looks.by_hand["demand", "g0"] = "ops"
        looks.served["demand", "g0"] = 100
        looks.look({"g0": 10**6})
        looks.by_hand.clear()
        self.assertEqual(looks.look({"g0": 200}), {"g0": 150})

    def test_a_region_that_went_by_hand_is_no_matter_of_measuring(self):
        made = settings(
            "[calm]\nhold = 0\n[brake]\ntree = 40\nall = 40\n"
            + POOLS.replace('"A", "B"', '"r*"').replace("label", "down_after = 1\nlabel")
        )
        looks = Looks(made, trees(2, 8))
        looks.served["capacity", "r0"] = 0
        looks.by_hand["capacity", "r0"] = "ops"
        values = {name: 100 for _, name in looks.engine.rules} | {"r1": 10**6}
        self.assertEqual(looks.look(values | {"r1p0": 0}), {"r1p0": 0})
        self.assertEqual(looks.found.brakes, [])

    def test_a_batch_that_was_not_appended_is_asked_for_again(self):
        looks = self.looks(calm="hold = 1000\nflap = 1000")
        looks.look({"r0p0": 0})
        for _ in range(3):
            self.assertEqual(looks.look({"r0p0": 0}, takes=False), {"r0p0": 0})
        # it never went, so it comes at once
        self.assertEqual(looks.look({"r0p0": 90}), {"r0p0": 90})

    def test_states_outlive_another_topology(self):
        looks = self.looks(2)
        looks.look({"r0p0": 0, "r0p1": 0})
        looks.engine = Engine(looks.settings, trees(3), looks.engine)
        looks.served["capacity", "r0p2"] = 100
        found = looks.look({"r0p0": 0, "r0p1": 100, "r0p2": 0})
        self.assertEqual(found, {"r0p0": 0})


class Jumps(unittest.TestCase):
    """Demands that jump from look to look: the sum of a rule, or one name."""

    def looks(
        self, groups=4, brake="demand_sum = 100\ndemand_name = 300\ndemand_after = 30", **more
    ):
        more = {"smoothing": 1, "dead_band": 0, **more}
        looks = Looks(rules("demand", "g*", brake=brake, **more), trees(1, groups=groups))
        self.usual = {f"g{number}": 100 for number in range(groups)}
        return looks

    def test_the_sum_of_a_rule(self):
        # 400 units: up to twice and down to a half is none
        for value, due in ((200, True), (201, False), (50, True), (49, False), (0, False)):
            with self.subTest(value):
                looks = self.looks()
                looks.look(self.usual)
                found = looks.look({name: value for name in self.usual})
                self.assertEqual(bool(found), due)
                self.assertEqual(len(looks.found.jumps), 0 if due else 1)
                self.assertEqual(
                    {looks.served["demand", name] for name in self.usual}, {value if due else 100}
                )

    def test_what_is_said(self):
        looks = self.looks()
        looks.look(self.usual)
        for factor in (3, 4):
            looks.look({name: 100 * factor for name in self.usual})
            # the words of the first look, so that they are said once
            words = "demand rule 1: the sum of its demands jumped from 400 to 1,200"
            self.assertEqual((looks.found.jumps, looks.why("g2")), ([words], words))

    def test_a_name(self):
        # up to four times, and down to a quarter, is none; the others go on
        for value, due in ((400, True), (401, False), (25, True), (24, False)):
            with self.subTest(value):
                looks = self.looks(groups=8)
                looks.look(self.usual)
                found = looks.look({**self.usual, "g3": value, "g1": 110})
                self.assertEqual(found, {"g1": 110, **({"g3": value} if due else {})})
                if not due:
                    words = f"demand rule 1: g3 jumped from 100 to {value}"
                    self.assertEqual((looks.found.jumps, looks.why("g3")), ([words], words))

    def test_not_all_names_are_said(self):
        looks = self.looks(groups=100)
        looks.look(self.usual)
        looks.look({**self.usual, **{f"g{at}": 1000 for at in range(7)}})
        self.assertEqual(len(looks.found.jumps), 7)
        self.assertEqual(looks.found.jumps[-1], "demand rule 1: more than 6 names jumped")

    def test_a_small_name_is_no_matter(self):
        # by one percent of 3,902 units, 39 are no matter, and 40 are
        for value, due in ((41, {"g1": 41}), (42, {})):
            looks = self.looks(groups=40)
            looks.served["demand", "g1"] = 2
            usual = {**self.usual, "g1": 2}
            self.assertEqual(looks.look(usual), {})
            self.assertEqual(looks.look({**usual, "g1": value}), due)

    def test_back_again_it_is_over_and_counts_anew(self):
        looks = self.looks()
        looks.look(self.usual)
        high = {name: 300 for name in self.usual}
        self.assertEqual([looks.look(high), looks.look(high), looks.look(self.usual)], [{}] * 3)
        self.assertEqual(looks.found.jumps, [])
        # thirty seconds anew: three looks wait, the fourth is believed
        self.assertEqual([bool(looks.look(high)) for _ in range(4)], [False, False, False, True])
        self.assertEqual(looks.served["demand", "g1"], 300)
        self.assertEqual(looks.look(high), {})

    def test_time_without_an_answer_passes(self):
        looks = self.looks()
        looks.look(self.usual)
        high = {name: 300 for name in self.usual}
        self.assertEqual([looks.look(high), looks.look(fault="gone")], [{}, {}])
        self.assertEqual([bool(looks.look(high)) for _ in range(2)], [False, True])

    def test_a_start_compares_with_what_is_served(self):
        looks = self.looks()
        self.assertEqual(looks.look({name: 201 for name in self.usual}), {})
        self.assertEqual(len(looks.found.jumps), 1)

    def test_names_that_are_missing_or_by_hand_do_not_count(self):
        looks = self.looks()
        looks.look(self.usual)
        looks.by_hand["demand", "g0"] = "ops"
        looks.served["demand", "g0"] = 10**6
        self.assertEqual(looks.look({"g0": 1, "g1": 190}), {"g1": 190})
        self.assertEqual(looks.found.jumps, [])

    def test_capacities_are_no_matter_of_it(self):
        made = rules("capacity", "r0p0", brake="demand_sum = 1\ndemand_name = 1", up_step=100)
        looks = Looks(made, trees(1))
        self.assertEqual(looks.look({"r0p0": 900}), {"r0p0": 900})

    def test_it_goes_on_behind_another_topology(self):
        looks = self.looks()
        looks.look(self.usual)
        high = {name: 300 for name in self.usual}
        looks.look(high)
        looks.engine = Engine(looks.settings, trees(2, groups=4), looks.engine)
        self.assertEqual([bool(looks.look(high)) for _ in range(3)], [False, False, True])

    def test_how_old_inputs_are(self):
        looks = self.looks()
        looks.look(self.usual)
        self.assertEqual(looks.found.oldest, 0)
        looks.look({**self.usual, "g2": 100}, wrong={"g1": "NaN"})
        looks.look({name: 100 for name in ("g0", "g1", "g3")})
        looks.look({name: 100 for name in ("g0", "g1", "g3")})
        self.assertEqual(looks.found.oldest, 20)
        looks.look(fault="gone")
        self.assertEqual(looks.found.oldest, 30)


class Drained(unittest.TestCase):
    """Nodes that glb-drain holds: its record, and who set the number that is served."""

    def looks(self, was, to, *sizes, served=None, **more):
        usual = {
            "down_after": 2,
            "up_after": 3,
            "up_step": 50,
            "brake": "tree = 100\nall = 100",
            **more,
        }
        looks = Looks(rules("capacity", "r*", **usual), trees(*(sizes or (1,))))
        looks.drains["r0p0"] = self.drain("r0p0", was, to)
        looks.served["capacity", "r0p0"] = to if served is None else served
        self.values = {name: 10**6 if "p" not in name else 100 for _, name in looks.engine.rules}
        return looks

    def drain(self, node, was, to):
        return Drain(node, 100, 10, 0, "ops", "works", False, 60, 10, "x", was, to)

    def test_it_is_not_raised(self):
        for was, to, served in ((40, 40, 40), (60, 40, 60), (60, 40, 40), (0, 0, 0)):
            looks = self.looks(was, to, served=served)
            self.assertEqual([looks.look(self.values) for _ in range(6)], [{}] * 6)
            self.assertEqual(looks.why("r0p0"), "drained by ops, from 100")

    def test_nor_lowered_by_a_number(self):
        looks = self.looks(40, 40)
        self.assertEqual([looks.look(self.values | {"r0p0": 10}) for _ in range(3)], [{}] * 3)

    def test_down_it_is_0_and_comes_back_to_the_drains_number_by_steps(self):
        looks = self.looks(40, 40)
        down = self.values | {"r0p0": 0}
        self.assertEqual([looks.look(down) for _ in range(3)], [{}, {"r0p0": 0}, {}])
        up = [looks.look(self.values) for _ in range(6)]
        self.assertEqual(up, [{}, {}, {"r0p0": 20}, {"r0p0": 40}, {}, {}])

    def test_the_drain_goes_on_while_it_is_down(self):
        looks = self.looks(40, 40)
        down = self.values | {"r0p0": 0}
        looks.look(down), looks.look(down)
        looks.drains["r0p0"] = self.drain("r0p0", 0, 0)
        self.assertEqual([looks.look(self.values) for _ in range(6)], [{}] * 6)
        # ended, and handed back, it is measured again
        del looks.drains["r0p0"]
        looks.served["capacity", "r0p0"] = 80
        self.assertEqual(looks.look(self.values), {"r0p0": 100})

    def test_begun_anew_while_it_is_down(self):
        """A start finds 0, and a drain whose number is another."""
        looks = self.looks(40, 40, served=0)
        up = [looks.look(self.values) for _ in range(5)]
        self.assertEqual(up, [{}, {}, {"r0p0": 20}, {"r0p0": 40}, {}])

    def test_missing(self):
        for missing, due in (("keep", {}), (70, {}), ("down", {"r0p0": 0})):
            looks = self.looks(40, 40, missing=missing, missing_after=20)
            rest = {name: value for name, value in self.values.items() if name != "r0p0"}
            found = [looks.look(rest) for _ in range(3)]
            self.assertEqual(found[2], due, missing)

    def test_by_hand_is_above_it(self):
        looks = self.looks(40, 40, served=33)
        looks.by_hand["capacity", "r0p0"] = "ops"
        down = self.values | {"r0p0": 0}
        self.assertEqual([looks.look(down) for _ in range(3)], [{}] * 3)
        # handed back amid the drain, the drain's number stands
        looks.by_hand.clear()
        self.assertEqual(looks.look(self.values), {"r0p0": 40})
        looks.served["capacity", "r0p0"] = 60
        self.assertEqual(looks.look(self.values), {"r0p0": 40})

    def test_what_is_out_of_service_does_not_count_for_the_brake(self):
        # a region that is drained, whose machines are switched off: its pools look down
        for to, due in ((0, {"r1p0": 0}), (10, {})):
            looks = self.looks(to, to, 4, 6, brake="tree = 100\nall = 25")
            looks.drains = {"r0": self.drain("r0", to, to)}
            looks.served["capacity", "r0p0"] = 100
            looks.served["capacity", "r0"] = to
            down = self.values | {f"r0p{number}": 0 for number in range(4)} | {"r1p0": 0}
            looks.look(down)
            found = looks.look(down)
            self.assertEqual(found.get("r1p0"), due.get("r1p0"), to)
            self.assertEqual(bool(looks.found.brakes), not due)

    def test_by_hand_at_0_does_not_count_for_the_brake(self):
        looks = self.looks(0, 0, 4, 6, brake="tree = 100\nall = 25")
        looks.drains, looks.served["capacity", "r0p0"] = {}, 100
        looks.by_hand["capacity", "r0"] = "ops"
        looks.served["capacity", "r0"] = 0
        down = self.values | {f"r0p{number}": 0 for number in range(4)} | {"r1p0": 0}
        looks.look(down)
        self.assertEqual(looks.look(down)["r1p0"], 0)

    def test_drained_and_found_down_counts_for_the_brake(self):
        for to, due in ((40, {}), (0, {"r0p2": 0})):
            looks = self.looks(to, to, 4, served=0, brake="tree = 60\nall = 100")
            looks.drains["r0p1"] = self.drain("r0p1", to, to)
            looks.served["capacity", "r0p1"] = 0
            down = self.values | {"r0p0": 0, "r0p1": 0, "r0p2": 0}
            looks.look(down)
            self.assertEqual(looks.look(down), due, to)

    def test_the_brake_holds_a_drained_one_too(self):
        looks = self.looks(60, 60, 4, brake="tree = 40\nall = 100")
        self.values["r0"] = 10**6
        looks.look(self.values)
        down = self.values | {f"r0p{number}": 0 for number in range(4)}
        self.assertEqual([looks.look(down) for _ in range(3)], [{}] * 3)


class OtherTopologies(Case):
    """A topology comes that has other names, while it runs: rules are checked by it again."""

    def served(self, text):
        numbers = Topology(text.encode())
        found = types.SimpleNamespace(topology=numbers, by_hand={}, drains={}, faults=[])
        found.numbers = {("demand", unit.name): unit.demand for unit in numbers.units}
        found.numbers |= {("capacity", each.name): each.capacity for each in numbers.nodes}
        return found

    def watch(self, text):
        self.values = {"A": 5.0, "B": 5.0, "C": 5.0, "g1": 9.0}
        answers = lambda rules: {place: Answer(dict(self.values)) for place in rules}  # noqa: E731
        log = types.SimpleNamespace(read=lambda: self.now)
        return watch.Watch(settings(text), log, answers)

    def test_names_that_went_hold_up_no_others(self):
        self.now = self.served(SMALL)
        found = self.watch(POOLS)
        found.begin(True)
        self.assertEqual({each.name for each in found.look().batch}, {"A", "B"})
        self.now = self.served(SMALL.replace('"B"', '"C"'))
        look = found.look()
        self.assertEqual([each.name for each in look.batch], ["A"])
        self.assertEqual(look.faults, ["capacity rule 1: the topology has no name `B`"])
        # and where it begins so, it is refused
        with self.assertRaisesRegex(Fault, "has no name `B`"):
            found.begin(True)

    def test_a_name_that_two_rules_speak_of_now_has_none(self):
        self.now = self.served(SMALL.replace("C", "D"))
        two = POOLS.replace('"A", "B"', '"A*"') + POOLS.replace('"A", "B"', '"*B"')
        found = self.watch(two)
        found.begin(True)
        self.now = self.served(SMALL.replace('"B"', '"AB"'))
        look = found.look()
        self.assertEqual([each.name for each in look.batch], ["A"])
        words = ["capacity rule 1 and capacity rule 2 both speak of capacity AB"]
        self.assertEqual(look.faults, words)

    def test_clocks_that_jump(self):
        """A look asks no other clock than the one that never jumps."""
        self.now = self.served(SMALL)
        found = self.watch(POOLS)
        with mock.patch.object(watch, "time", types.SimpleNamespace(monotonic=lambda: 7.0)):
            found.look()
        self.assertEqual({state.heard for state in found.engine.states.values()}, {7.0})

    def test_one_batch_an_interval(self):
        """Looks that took too long are not made up for."""
        self.now = self.served(SMALL)
        found = self.watch(POOLS)
        clock, begun, appended, took = [100.0], [], [], iter([0, 4, 25, 1, 0, 0])

        def ask(rules):
            begun.append(clock[0])
            clock[0] += next(took)
            return {place: Answer({"A": 5.0 + len(begun) % 2, "B": 9.0}) for place in rules}

        def sleep(seconds):
            clock[0] += seconds
            if len(begun) == 6:
                raise KeyboardInterrupt

        found.ask, found.begin = ask, lambda is_dry: None
        found.log.append = lambda lines, why: appended.append(clock[0]) or True
        now = types.SimpleNamespace(monotonic=lambda: clock[0], sleep=sleep)
        with (
            mock.patch.object(watch, "time", now),
            contextlib.redirect_stdout(io.StringIO()),
            self.assertRaises(KeyboardInterrupt),
        ):
            watch.run(found, found.settings, None)
        self.assertEqual(begun, [100, 110, 120, 145, 155, 165])
        self.assertEqual(len(appended), 6)

    def test_one_that_leads_again_begins_from_what_is_served(self):
        self.now = self.served(SMALL)
        found = self.watch(POOLS)
        reads = iter([None, None, Waits("another leads"), None, None])

        def read():
            fault = next(reads)
            if fault:
                raise fault
            return self.now

        found.log.read = read
        found.log.append = lambda lines, why: False
        found.ask = lambda rules: {place: Answer({"A": 0.0, "B": 9.0}) for place in rules}
        engines, metrics = [], mock.Mock()
        found.begin = lambda is_dry: None

        def sleep(seconds):
            engines.append(found.engine)
            if len(engines) == 3:
                raise KeyboardInterrupt

        with (
            mock.patch.object(
                watch, "time", types.SimpleNamespace(monotonic=lambda: 7.0, sleep=sleep)
            ),
            contextlib.redirect_stderr(io.StringIO()),
            contextlib.redirect_stdout(io.StringIO()),
            self.assertRaises(KeyboardInterrupt),
        ):
            watch.run(found, found.settings, metrics)
        self.assertIsNone(engines[1])
        self.assertEqual(engines[2].states["capacity", "A"].bad, 1)
        self.assertEqual((metrics.waits.call_count, metrics.failed.call_count), (1, 0))


class Batches(unittest.TestCase):
    def test_the_largest(self):
        topology = trees(3, groups=5000)
        made = settings(
            "[brake]\ntree = 100\nall = 100\n"
            + DEMANDS.replace("label", "smoothing = 1\nlabel")
            + POOLS.replace('"A", "B"', '"r0p*"').replace("label", "down_after = 1\nlabel")
        )
        looks = Looks(made, topology)
        looks.served["capacity", "r0p2"] = 10
        values = {f"g{number}": 200 for number in range(5000)}
        values |= {"r0p0": 0, "r0p1": 50, "r0p2": 100}
        found = looks.look(values)
        self.assertEqual(len(found), 4096)
        # falling capacities, then the others, then demands
        self.assertEqual(
            [each.line for each in looks.found.batch][:3],
            ["capacity r0p0 0", "capacity r0p1 50", "capacity r0p2 35"],
        )
        self.assertEqual(looks.why("g4999"), "the batch is full: it waits for the next one")
        # the rest comes with the next look
        self.assertEqual(len([name for name in looks.look(values) if name[0] == "g"]), 5000 - 4093)

    def test_octets(self):
        """A batch of a fleet's log has at most a mebioctet, whatever its names are."""
        found = [Verdict("demand", "g" * 8000 + str(at), 1, 2, 2, "") for at in range(200)]
        batch, left = batch_of(found)
        self.assertEqual((len(batch), len(left)), (130, 70))
        self.assertLessEqual(sum(len(each.line) + 1 for each in batch), 1 << 20)


class Files(Case):
    def setUp(self):
        super().setUp()
        self.log, self.topology = self.file("log", ""), self.small()

    def opened(self, **more):
        found = FileLog(
            self.log, self.topology, **{"is_alone": True, "is_read_only": False, **more}
        )
        self.addCleanup(lambda: found.file and found.file.close())
        return found

    def by_hand(self, text):
        with open(self.log, "ab") as file:
            file.write(text.encode())

    def replayed(self):
        """What a server makes of the file."""
        replay = Replay(Topology(SMALL.encode()))
        replay.take(Path(self.log).read_bytes())
        return replay

    def test_a_batch(self):
        log = self.opened()
        self.assertEqual(log.read().numbers["capacity", "A"], 10)
        self.assertTrue(log.append(["capacity A 0", "demand g1 9"], "why"))
        self.assertEqual(Path(self.log).read_text(), "capacity  A 0\ndemand  g1 9\ncommit\n")
        self.assertEqual((self.replayed().published, self.replayed().dropped), (1, []))
        served = log.read()
        self.assertEqual((served.numbers["capacity", "A"], served.numbers["demand", "g1"]), (0, 9))
        self.assertEqual(served.by_hand, {})
        # as a run that begins anew reads it
        log.file.close()
        self.assertEqual(self.opened().read().numbers, served.numbers)

    def test_torn_at_each_octet(self):
        log = self.opened()
        log.read()
        log.append(["capacity A 3"], "")
        before = Path(self.log).read_bytes()
        log.read()
        log.append(["capacity A 77", "demand g1 123"], "")
        whole = Path(self.log).read_bytes()
        log.file.close()
        for size in range(len(before), len(whole)):
            Path(self.log).write_bytes(whole[:size])
            log = self.opened()
            served = log.read()
            self.assertEqual(served.numbers["capacity", "A"], 3, whole[:size])
            self.assertTrue(log.append(["capacity A 8"], ""))
            replay = self.replayed()
            self.assertEqual((replay.published, replay.batch), (2, []), whole[:size])
            self.assertEqual(sorted(replay.numbers.items()), [(("capacity", 1), 8)])
            log.file.close()

    def test_somebody_within_a_batch(self):
        log = self.opened()
        for text in ("capacity A 1", "\n", "demand g1 2\n"):
            self.by_hand(text)
            log.read()
            size = Path(self.log).stat().st_size
            with self.assertRaisesRegex(Fault, "somebody else began"):
                log.append(["capacity B 1"], "")
            self.assertEqual(Path(self.log).stat().st_size, size)
        self.by_hand("commit\n")
        self.assertEqual(log.read().by_hand, {("capacity", "A"): "hand", ("demand", "g1"): "hand"})
        self.assertTrue(log.append(["capacity B 1"], ""))

    def test_what_came_meanwhile(self):
        log = self.opened()
        log.read()
        self.by_hand("capacity A 1\ncommit\n")
        self.assertFalse(log.append(["capacity A 5"], ""))
        self.assertEqual(log.read().numbers["capacity", "A"], 1)

    def test_a_line_stop_and_questions(self):
        """As the feed unit hands the log on: without `stop`."""
        self.by_hand("stop\ncapacity A 1\nshow\nask 192.0.2.1 00\ncommit\n stop \n")
        log = self.opened()
        self.assertEqual(log.read().numbers["capacity", "A"], 1)
        self.assertTrue(log.append(["capacity A 2"], ""))
        self.assertEqual(log.read().numbers["capacity", "A"], 2)

    def test_a_name_that_no_line_can_have(self):
        log = self.opened()
        log.read()
        for line in ("capacity A b 1", "capacity \u00e4 1", "capacity C 1", "demand g1 0"):
            with self.assertRaises(Fault):
                log.append([line], "")
        self.assertEqual(Path(self.log).read_text(), "")

    def test_a_batch_that_is_dropped_holds_nothing(self):
        self.by_hand("capacity A 1\ncapacity C 1\ncommit\n")
        served = self.opened().read()
        self.assertEqual((served.by_hand, served.numbers["capacity", "A"]), ({}, 10))

    def test_one_runs(self):
        log = self.opened()
        log.read()
        with self.assertRaisesRegex(Fault, "another glb-watch runs"):
            self.opened().read()
        # one that looks alone may
        self.opened(is_alone=False, is_read_only=True).read()

    def test_another_topology_or_log(self):
        log = self.opened()
        log.read()
        log.append(["capacity A 5"], "")
        log.read()
        self.file("small.toml", SMALL.replace("capacity = 15", "capacity = 16"))
        self.assertEqual(log.read().numbers["capacity", "R"], 16)
        self.assertEqual(log.read().numbers["capacity", "A"], 5)
        # one that was cut back in its place
        self.file("log", "")
        self.assertEqual(log.read().numbers["capacity", "A"], 10)
        Path(self.log).unlink()
        with self.assertRaises(FileNotFoundError):
            log.read()
        self.file("log", "")
        self.assertEqual(log.read().numbers["capacity", "A"], 10)

    def drained(self, *records):
        """What glb-drain keeps beside the file."""
        Path(f"{self.log}.drains").write_text("".join(f"{each}\n" for each in records))

    def record(self, was, to, node="A"):
        return Drain(node, 10, 5, 0, "ops", "works", False, 60, 10, "x", was, to).octets()

    def test_a_drains_own_steps_are_not_by_hand(self):
        log = self.opened()
        self.by_hand("capacity A 6\ncapacity B 3\ncommit\n")
        for was, to, due in (
            (10, 6, True),
            (6, 6, True),
            (6, 4, True),
            (10, 4, False),
            (4, 4, False),
        ):
            self.drained(self.record(was, to))
            served = log.read()
            by_hand = {("capacity", "B"): "hand"} | ({} if due else {("capacity", "A"): "hand"})
            self.assertEqual(served.by_hand, by_hand, (was, to))
            self.assertEqual(served.drains["A"].to, to)
        # it ends: by hand, where its last step handed nothing back
        Path(f"{self.log}.drains").unlink()
        self.assertEqual(len(log.read().by_hand), 2)
        self.by_hand("capacity  A 10\ncommit\n")
        self.assertEqual(log.read().by_hand, {("capacity", "B"): "hand"})

    def test_a_record_that_cannot_be_read(self):
        log = self.opened()
        self.by_hand("capacity A 6\ncommit\n")
        self.drained("{", self.record(6, 6), '{"node": 1}', "\0")
        served = log.read()
        self.assertEqual((served.by_hand, list(served.drains), len(served.faults)), ({}, ["A"], 3))
        self.assertRegex(served.faults[0], "log.drains cannot be read")

    def test_the_lock_of_writers(self):
        log = self.opened()
        log.read()
        with locked(self.log, 1), mock.patch.object(watch_logs, "LOCKED", 0.1):
            with self.assertRaisesRegex(Fault, "somebody else has the lock"):
                log.append(["capacity A 1"], "")
        self.assertEqual(Path(self.log).read_text(), "")
        self.assertTrue(log.append(["capacity A 1"], ""))

    def test_a_batch_that_is_being_written_is_not_torn(self):
        """Whoever writes has the lock; a part of its batch is closed only where nobody has."""
        log = self.opened()
        log.read()
        with locked(self.log, 1), mock.patch.object(watch_logs, "LOCKED", 0.1):
            self.by_hand("capacity  A 7\n")
            with self.assertRaisesRegex(Fault, "somebody else has the lock"):
                log.read()
            self.by_hand("commit\n")
        self.assertEqual(log.read().numbers["capacity", "A"], 7)
        self.assertNotIn("torn", Path(self.log).read_text())

    def test_a_full_disk(self):
        log = FileLog("/dev/full", self.topology, is_alone=True, is_read_only=False)
        self.addCleanup(lambda: log.file.close())
        log.begin()
        with self.assertRaises(OSError):
            log.write(b"capacity  A 1\ncommit\n")


class Fleets(Case):
    def setUp(self):
        super().setUp()
        self.world = types.SimpleNamespace(table=Table(), note_who_is_in=lambda: None)
        self.outside = Outside(self.world)
        self.log = Log(Client(self.world, self.outside), "glb")
        self.base(SMALL)

    def base(self, text, upto=0):
        octets = text.encode()
        if upto:
            entry = self.log.entry(upto)
            octets = (
                f"# the numbers up to entry {upto} of the log, {entry.checksum}\n".encode() + octets
            )
        topology = Topology(octets)
        names = Names(list(topology.unit_at), list(topology.node_at))
        checksum = checksum_of(octets)
        self.log.put_file("file", checksum, octets)
        self.log.put_file("names", checksum, names.octets())
        self.assertIsNotNone(self.log.append_base(f"base{upto}", Signed("ops"), octets))

    def by(self, author, lines):
        self.log.append(f"{author}{lines}", Signed(author), lines, lambda names: None)

    def test_appends_with_its_name(self):
        log = FleetLog(self.log)
        self.assertEqual(log.read().numbers["capacity", "A"], 10)
        self.assertTrue(log.append(["capacity A 0"], "down"))
        entry = self.log.entry(2)
        self.assertEqual((entry.author, entry.why, entry.lines), (AUTHOR, "down", "capacity A 0\n"))
        self.assertEqual(log.read().numbers["capacity", "A"], 0)
        self.assertEqual(FleetLog(self.log).read().numbers["capacity", "A"], 0)

    def test_by_hand_and_meanwhile(self):
        log = FleetLog(self.log)
        log.read()
        self.by("ops", "capacity A 3\n")
        self.assertFalse(log.append(["capacity A 0"], "down"))
        self.assertEqual(log.read().by_hand, {("capacity", "A"): "ops"})
        self.assertTrue(log.append(["capacity A 3"], "handed back"))
        self.assertEqual(log.read().by_hand, {})

    def test_who_set_a_number_outlives_a_base(self):
        self.by("ops", "capacity A 3\n")
        log = FleetLog(self.log)
        log.read()
        self.base(
            SMALL.replace('"A", parent = "R", capacity = 10', '"A", parent = "R", capacity = 3'), 2
        )
        for each in (log, FleetLog(self.log)):
            served = each.read()
            self.assertEqual(served.numbers["capacity", "A"], 3)
            self.assertEqual(served.by_hand, {("capacity", "A"): "ops"})

    def test_a_log_whose_entries_were_deleted_by_hand(self):
        log = FleetLog(self.log)
        log.read()
        self.world.table.txn([delete(self.log.key(1))], [])
        for each in (log, FleetLog(self.log, 15)):
            with self.assertRaisesRegex(Fault, "the log is empty"):
                each.read()

    def test_an_answer_that_was_lost(self):
        """Whatever call is lost on the way: the batch is there once, or a next look asks for it again."""
        for fault in ("lost before", "lost after"):
            for at in range(1, 9):
                log = FleetLog(self.log)
                log.read()
                last = self.log.look().last
                self.outside.plan(at, fault)
                try:
                    log.append([f"capacity A {at}"], "")
                except Fault:
                    pass
                self.outside.plan()
                if log.read().numbers["capacity", "A"] != at:
                    self.assertEqual(self.log.look().last, last)
                    self.assertTrue(log.append([f"capacity A {at}"], ""))
                self.assertEqual(self.log.look().last, last + 1)

    def test_one_leads(self):
        first, second = FleetLog(self.log, 15), FleetLog(self.log, 15)
        first.read()
        with self.assertRaises(Waits):
            second.read()
        self.world.table.tick(10)
        first.read()
        self.world.table.tick(10)
        with self.assertRaises(Waits):
            second.read()
        # it is not heard of, and what it still would append is not put
        self.world.table.tick(15)
        second.read()
        self.assertFalse(first.append(["capacity A 1"], ""))
        with self.assertRaises(Waits):
            first.read()
        self.assertTrue(second.append(["capacity A 2"], ""))
        second.end()
        self.assertEqual(first.read().numbers["capacity", "A"], 2)
        self.assertTrue(first.append(["capacity A 3"], ""))

    def test_handed_back_by_whoever_says_so(self):
        self.log.append("a", Signed("glb-drain", "a drain"), "capacity A 3\n", lambda names: None)
        log = FleetLog(self.log)
        self.assertEqual(log.read().by_hand, {("capacity", "A"): "glb-drain"})
        why = "handed back: the drain is over"
        self.log.append("b", Signed("glb-drain", why), "capacity A 10\n", lambda names: None)
        self.assertEqual(log.read().by_hand, {})

    def test_a_log_that_was_restored(self):
        """Its numbers are given a second time, to other entries."""
        log = FleetLog(self.log, 15)
        log.read()
        before = self.world.table.copy()
        self.by("ops", "capacity A 3\n")
        self.assertEqual(log.read().numbers["capacity", "A"], 3)
        self.world.table = before
        self.by("others", "capacity B 4\n")
        served = log.read()
        numbers = [served.numbers["capacity", name] for name in "AB"]
        self.assertEqual(numbers, [10, 4])
        self.assertEqual(served.by_hand, {("capacity", "B"): "others"})
        kept = json.loads(self.log.etcd.get("glb/hand").octets)
        self.assertEqual(kept, [["capacity", "B", "others"]])

    def test_by_hand_outlives_a_cut(self):
        self.by("ops", "capacity A 3\n")
        self.by("ops", "capacity B 4\ndemand g1 7\n")
        first = FleetLog(self.log, 15)
        first.read()
        self.assertTrue(first.append(["demand g1 7"], "handed back"))
        first.read()
        first.end()
        self.base(SMALL, 4)
        self.log.cut(self.log.look(), self.log.newest_base())
        self.assertEqual(self.log.look().first, 4)
        due = {("capacity", "A"): "ops", ("capacity", "B"): "ops"}
        for lead in (0, 15):
            log = FleetLog(self.log, lead)
            self.assertEqual(log.read().by_hand, due)
            log.end()
        # handed back behind the cut, and kept so
        log = FleetLog(self.log, 15)
        log.read()
        self.assertTrue(log.append(["capacity A 3"], "handed back"))
        log.read()
        log.end()
        self.assertEqual(FleetLog(self.log).read().by_hand, {("capacity", "B"): "ops"})

    def test_by_hand_outlives_a_cut_while_no_glb_watch_leads(self):
        first = FleetLog(self.log, 15)
        self.by("ops", "capacity B 4\n")
        first.read()
        first.end()
        self.by("ops", "capacity A 3\ndemand g1 7\n")
        self.log.append("back", Signed("x", "handed back"), "demand g1 7\n", lambda names: None)
        self.log.append("back B", Signed(AUTHOR), "capacity B 10\n", lambda names: None)
        self.by("others", "capacity B 9\n")
        self.base(SMALL, self.log.look().last)
        self.by("ops", "demand g2 3\n")
        due = {("capacity", "A"): "ops", ("capacity", "B"): "others", ("demand", "g2"): "ops"}
        for _ in range(2):
            self.assertEqual(append.cut(self.log), 6)
            self.assertEqual(FleetLog(self.log).read().by_hand, due)
        # it is told where it cannot be kept, and cut all the same
        self.base(SMALL, self.log.look().last)
        txn = self.log.etcd.txn

        def full(parts, conditions=None):
            if any(part.get("request_put", {}).get("key") == encoded("glb/hand") for part in parts):
                raise Full("no space")
            return txn(parts, conditions)

        said = io.StringIO()
        with mock.patch.object(self.log.etcd, "txn", full), contextlib.redirect_stderr(said):
            self.assertEqual(append.cut(self.log), self.log.newest_base().upto)
        self.assertIn("etcd is full", said.getvalue())

    def test_what_is_kept_of_hands_is_nonsense_or_of_names_that_went(self):
        for text in ("{", "[1]", "[[1, 2]]", '[["capacity", "Z", "ops"]]', "\0"):
            self.world.table.txn([put("glb/hand", text)], [])
            self.assertEqual(FleetLog(self.log).read().by_hand, {}, text)

    def test_one_that_leads_no_more_keeps_nothing(self):
        first = FleetLog(self.log, 15)
        first.read()
        first.leads_since += 1
        self.by("ops", "capacity A 3\n")
        first.read()
        self.assertEqual(json.loads(self.log.etcd.get("glb/hand").octets), [])

    def test_drains_beside_the_log(self):
        log = FleetLog(self.log)
        self.by("ops", "capacity A 3\n")
        drain = Drain("A", 10, 5, 0, "ops", "works", False, 60, 10, "x", 3, 3)
        self.world.table.txn([put("glb/drain/A", drain.octets()), put("glb/drain/B", "{")], [])
        served = log.read()
        self.assertEqual((served.by_hand, served.drains), ({}, {"A": drain}))
        self.assertEqual(len(served.faults), 1)
        self.by("ops", "capacity A 4\n")
        self.assertEqual(log.read().by_hand, {("capacity", "A"): "ops"})
        self.assertTrue(log.append(["capacity A 4"], "handed back"))
        self.assertEqual(log.read().by_hand, {})

    def test_a_step_that_comes_while_drains_are_read(self):
        """The log and the drains are those of one moment."""
        log, steps = FleetLog(Log(self.log.etcd, "glb")), iter((7, 5, 3))
        log.read()
        look = log.log.look

        def looks():
            to = next(steps, None)
            if to is not None:
                # behind the drains were read, and ahead of the log
                drain = Drain("A", 10, 5, 0, "ops", "works", False, 60, 10, "x", to, to)
                self.world.table.txn([put("glb/drain/A", drain.octets())], [])
                self.by("ops", f"capacity A {to}\n")
            return look()

        with mock.patch.object(log.log, "look", looks):
            served = log.read()
        self.assertEqual(
            (served.numbers["capacity", "A"], served.drains["A"].to, served.by_hand), (3, 3, {})
        )

    def test_a_name_that_the_newest_base_lacks(self):
        log = FleetLog(self.log)
        log.read()
        with self.assertRaisesRegex(Fault, "unknown name"):
            log.append(["capacity C 1"], "")


class Fake(BaseHTTPRequestHandler):
    def do_POST(self):
        body = self.rfile.read(int(self.headers["Content-Length"]))
        query = parse_qs(body.decode())["query"][0]
        told = self.server.answers[query]
        if callable(told):
            return told(self)
        self.answer(told)

    def answer(self, told):
        octets = told if isinstance(told, bytes) else json.dumps(told).encode()
        self.send_response(200)
        self.send_header("Content-Length", str(len(octets)))
        self.end_headers()
        self.wfile.write(octets)

    def log_message(self, *_):
        pass


def vector(label, values):
    result = [{"metric": {label: name}, "value": [0, str(value)]} for name, value in values.items()]
    return {"status": "success", "data": {"resultType": "vector", "result": result}}


@contextmanager
def faked(**answers):
    with ThreadingHTTPServer(("127.0.0.1", 0), Fake) as server:
        server.daemon_threads = True
        server.answers = answers
        thread = threading.Thread(target=server.serve_forever, args=(0.02,))
        thread.start()
        try:
            yield server
        finally:
            server.shutdown()
            thread.join()


@unittest.skipUnless(importlib.util.find_spec("requests"), "python3-requests is not installed")
class Command(Case):
    def setUp(self):
        super().setUp()
        from glb_tools.watch import main

        self.main = main
        self.log = self.file("log", "")

    def settings(self, server, more="timeout = 5\n", rules=DEMANDS + POOLS):
        top = f'prometheus = "http://127.0.0.1:{server.server_port}"\n{more}'
        top += f'log = "{self.log}"\ntopology = "{self.small()}"\n'
        rules = rules.replace("names =", "smoothing = 1\nnames =", 1)
        return self.file("watch.toml", top + rules)

    def test_a_dry_run(self):
        demands, pools = {"g1": 20, "g2": 8, "g2www": "NaN"}, {"A": 0, "B": 6}
        with faked(d=vector("group", demands), c=vector("pool", pools)) as server:
            path = self.settings(server)
            found = self.good(self.main, path, "--once", "--dry-run")
            self.assertEqual(
                found.splitlines(),
                [
                    "capacity B 10 -> 6: measured",
                    "demand g1 8 -> 20: measured",
                    "demand g2 stays 8: within the dead band of 5 %",
                    "demand g2www stays 3: the value NaN is no number",
                    "capacity A stays 10: looks down, 1 of 3 looks",
                    "fault: demand rule 1: g2www: the value NaN is no number: such numbers stay",
                ],
            )
            table = self.table(self.main, path, "--once", "--dry-run")
            self.assertEqual(
                table["batch"][0],
                {
                    "word": "capacity",
                    "name": "B",
                    "from": 10,
                    "to": 6,
                    "value": 6.0,
                    "why": "measured",
                },
            )
            self.assertEqual((len(table["left"]), len(table["faults"])), (3, 1))
            self.assertEqual(Path(self.log).read_text(), "")
            self.good(self.main, path, "--once")
            self.assertEqual(Path(self.log).read_text(), "capacity  B 6\ndemand  g1 20\ncommit\n")
            # once more changes nothing
            self.assertNotIn("->", self.good(self.main, path, "--once"))
            self.assertEqual(Path(self.log).read_text().count("commit"), 1)

    def test_faults_of_prometheus_change_nothing(self):
        def silent(handler):
            time.sleep(0.5)

        def drips(handler):
            handler.wfile.write(b"HTTP/1.0 200 OK\r\n\r\n")
            for _ in range(40):
                handler.wfile.write(b" ")
                time.sleep(0.02)

        def status(handler):
            handler.send_error(503)

        def cut(handler):
            handler.wfile.write(b"HTTP/1.0 200 OK\r\nContent-Length: 99\r\n\r\n{")

        for fault in (silent, drips, status, cut, b"{", {"status": "error", "error": "x"}):
            # the other rule is not held up
            with faked(d=fault, c=vector("pool", {"A": 10, "B": 5})) as server:
                path = self.settings(server, "timeout = 0.3\n")
                began = time.monotonic()
                found = self.table(self.main, path, "--once", "--dry-run")
                self.assertLess(time.monotonic() - began, 2)
                self.assertEqual([each["name"] for each in found["batch"]], ["B"], fault)
                self.assertEqual(len(found["faults"]), 1)
        # nobody is there any more
        found = self.table(self.main, path, "--once", "--dry-run")
        self.assertEqual((found["batch"], len(found["faults"])), ([], 2))

    def test_a_peer_that_drips_is_left_soon(self):
        from glb_tools.watch_prometheus import Prometheus

        over = threading.Event()

        def drips(handler):
            handler.wfile.write(b"HTTP/1.0 200 OK\r\n\r\n")
            # one octet now and then, for longer than anybody waits
            for _ in range(200):
                try:
                    handler.wfile.write(b" " * 600)
                except OSError:
                    break
                if over.wait(0.05):
                    break

        with faked(d=drips) as server:
            asked = Prometheus(f"http://127.0.0.1:{server.server_port}", 0.3)
            (rule,) = settings(DEMANDS).rules
            rule = dataclasses.replace(rule, query="d")
            found = asked.ask({rule.place: (rule, {"g1"})})
            self.assertTrue(found[rule.place].fault)
            asked.open[rule.place].join(2)
            self.assertFalse(asked.open[rule.place].is_alive())
            over.set()

    def test_a_peer_that_hangs_up_is_told_as_such(self):
        from glb_tools.watch_prometheus import Prometheus

        def hangs_up(handler):
            handler.connection.shutdown(socket.SHUT_RDWR)

        with faked(d=hangs_up) as server:
            asked = Prometheus(f"http://127.0.0.1:{server.server_port}", 2)
            (rule,) = settings(DEMANDS).rules
            rule = dataclasses.replace(rule, query="d")
            fault = asked.ask({rule.place: (rule, {"g1"})})[rule.place].fault
            # urllib3 tries an argument first that Python 3 does not have: that is no reason
            self.assertNotIn("argument", fault)
            self.assertIn("closed connection", fault)

    def test_refused_at_the_start(self):
        with faked() as server:
            said = self.refused(self.main, self.settings(server, rules=DEMANDS + DEMANDS), "--once")
            self.assertIn("both speak of demand g1", said)
            said = self.refused(self.main, self.settings(server), "--dry-run", status=64)
            self.assertIn("--once", said)
            path = self.settings(server)
            Path(self.log).unlink()
            self.assertIn("No such file", self.refused(self.main, path, "--once"))

    def test_what_came_while_prometheus_was_asked_counts(self):
        def answers(handler):
            Path(self.log).write_text("capacity A 4\ncommit\n")
            handler.server.answers["d"] = vector("group", {})
            handler.answer(vector("pool", {"A": 9, "B": 10}))

        with faked(d=vector("group", {}), c=answers) as server:
            found = self.good(self.main, self.settings(server), "--once", "--dry-run")
            self.assertIn("capacity A stays 4: set by hand, until it is handed back\n", found)

    def test_hand_back(self):
        Path(self.log).write_text("capacity A 4\ndemand g1 5\ncommit\n")
        good = vector("pool", {"A": 10, "B": 10})
        with faked(d=vector("group", {"g1": 5, "g2": 8, "g2www": 3}), c=good) as server:
            path = self.settings(server)
            found = self.good(self.main, path, "--once", "--dry-run")
            self.assertIn("capacity A stays 4: set by hand, until it is handed back\n", found)
            self.assertIn("no name `C`", self.refused(self.main, path, "--hand-back", "C"))
            self.assertIn("none of", self.refused(self.main, path, "--hand-back", "B"))
            found = self.good(self.main, path, "--hand-back", "A")
            self.assertEqual(found, "capacity A is handed back\n")
            found = self.good(self.main, path, "--once", "--dry-run")
            self.assertIn("capacity A 4 -> 7: fills by 25 %\n", found)
            self.assertIn("demand g1 stays 5: set by hand", found)
            # and by the settings
            path = self.settings(server, 'hand_back = ["g*"]\n')
            self.assertNotIn("set by", self.good(self.main, path, "--once"))

    def test_runs_until_it_is_ended(self):
        answers = {"d": vector("group", {"g1": 20, "g2": 8, "g2www": 3}), "c": b"nonsense"}
        with faked(**answers) as server:
            path = self.settings(server, "timeout = 0.2\nevery = 0.2\n")
            words = [sys.executable, "-B", str(TOOLS / "glb-watch"), path]
            pipes = {"stdout": subprocess.PIPE, "stderr": subprocess.PIPE}
            with subprocess.Popen(words, **pipes) as process:
                try:
                    self.wait_for(lambda: "commit" in Path(self.log).read_text())
                    found = self.refused(self.main, path, "--once")
                    self.assertIn("another glb-watch runs over it", found)
                    time.sleep(0.5)
                    process.terminate()
                    out, said = process.communicate(timeout=10)
                finally:
                    process.kill()
        self.assertEqual(process.returncode, 0)
        self.assertEqual(out.decode().count("demand g1 20 (measured)"), 1)
        # said once, however often it is looked
        self.assertRegex(said.decode(), r"^glb-watch: capacity rule 1: .* stay\n$")
        self.assertEqual(Path(self.log).read_text(), "demand  g1 20\ncommit\n")

    def wait_for(self, is_so):
        for _ in range(500):
            if is_so():
                return
            time.sleep(0.02)
        self.fail("it did not come to it")


@unittest.skipUnless(
    importlib.util.find_spec("prometheus_client"), "python3-prometheus-client is not installed"
)
class OwnMetrics(unittest.TestCase):
    def test_documents_have_them(self):
        from prometheus_client import generate_latest

        from glb_tools.watch_metrics import Metrics

        made = Metrics("127.0.0.1:0")
        looks = Looks(rules("demand", "g0", smoothing=1), trees(1))
        looks.look({"g0": 200})
        served = types.SimpleNamespace(by_hand={("capacity", "r0p0"): "ops"}, drains={})
        made.take(looks.found, served, True)
        made.failed()
        text = generate_latest(made.registry).decode()
        for line in ("by_hand 1.0", "batches_total 1.0", "failed_looks_total 1.0", "up 0.0"):
            self.assertIn(f"\nglb_watch_{line}\n", text)
        self.assertIn('\nglb_watch_changes_total{word="demand"} 1.0\n', text)
        names = set(re.findall(r"(?m)^(glb_watch_\w+)", text))
        table = (
            (TOP / "docs" / "operating" / "prometheus.md")
            .read_text()
            .partition("| Metric of `glb-watch` |")[2]
        )
        told = set(re.findall(r"`(glb_watch_\w+)`", table.partition("\n\n")[0]))
        self.assertEqual({name for name in names if not name.endswith("_created")}, told)


if __name__ == "__main__":
    unittest.main()
