"""glb-exporter: what it serves of one server, of a fleet, and of loads."""

import contextlib
import importlib.util
import os
import re
import shutil
import socket
import subprocess
import sys
import time
import unittest
import urllib.request
from types import SimpleNamespace
from unittest import mock

from samples import EXAMPLES, SMALL, TOOLS, TOP, Case, command

if importlib.util.find_spec("prometheus_client") is None:
    raise unittest.SkipTest("python3-prometheus-client is not installed")

from prometheus_client import CollectorRegistry, generate_latest
from prometheus_client.parser import text_string_to_metric_families

from fleet_world import World
from glb_tools import exporter
from glb_tools.etcd import Etcd
from glb_tools.fleet import GONE, Report
from glb_tools.loads import Loads
from glb_tools.log import Log, Names, Signed, checksum_of
from glb_tools.options import Fault

SAID = (
    "published 1\nshow 1 placed 12 unplaced 3 full 2\nrefused 3 bad number\nrefused commit lines 1\nanswer 1 -\n"
    "refused commit memory\nrefused 9 bad hex\n9 published 4\nshow 1\n"
)
COUNTS = {
    ("glb_refused_batches_total", "lines"): 0,
    ("glb_refused_batches_total", "memory"): 0,
    ("glb_refused_lines_total",): 0,
}


def values(text):
    """By name and labels, in the order of the text, the values of a text for Prometheus."""
    found = {}
    for family in text_string_to_metric_families(text):
        for sample in family.samples:
            found[(sample.name, *sample.labels.values())] = sample.value
    return found


def served(collector):
    registry = CollectorRegistry(auto_describe=False)
    registry.register(collector)
    return values(generate_latest(registry).decode())


class OneServer(unittest.TestCase):
    def said(self, text, server=""):
        said = exporter.Said(server)
        for line in text.splitlines():
            said.take(line, 1000)
        return served(said)

    def test_lines(self):
        self.assertEqual(
            self.said(SAID, "east"),
            {
                ("glb_serial", "east"): 1,
                ("glb_last_publish_timestamp_seconds", "east"): 1000,
                ("glb_placed_units", "east"): 12,
                ("glb_unplaced_units", "east"): 3,
                ("glb_full_nodes", "east"): 2,
                ("glb_shown_timestamp_seconds", "east"): 1000,
                ("glb_refused_batches_total", "east", "lines"): 1,
                ("glb_refused_batches_total", "east", "memory"): 1,
                ("glb_refused_lines_total", "east"): 2,
            },
        )

    def test_several_feeds(self):
        found = self.said(
            "2 published 1\n1 show 1 placed 12 unplaced 3 full 2\n3 refused 3 bad number\n"
        )
        self.assertEqual(
            (found["glb_serial",], found["glb_placed_units",], found["glb_refused_lines_total",]),
            (1, 12, 1),
        )

    def test_nothing_was_said(self):
        self.assertEqual(self.said(""), COUNTS)
        self.assertEqual(
            self.said("published\npublished x\nshow 1 placed 2\nrefused\n5 published 1\n"), COUNTS
        )


class Loaded(unittest.TestCase):
    def test_loads(self):
        loads = Loads({"R": (15, 15), "A": (9, 10)}, {"L": 4}, 30, 19, 2, 7, 0.1, 1000)
        found = served(exporter.Loaded(SimpleNamespace(loads=loads, is_up=True)))
        self.assertEqual(
            found,
            {
                ("glb_map_up",): 1,
                ("glb_node_load_units", "R"): 15,
                ("glb_node_load_units", "A"): 9,
                ("glb_node_capacity_units", "R"): 15,
                ("glb_node_capacity_units", "A"): 10,
                ("glb_last_resort_units", "L"): 4,
                ("glb_map_entry",): 7,
                ("glb_map_timestamp_seconds",): 1000,
                ("glb_map_demand_units",): 30,
                ("glb_map_placed_units",): 19,
                ("glb_map_unplaced_units",): 11,
                ("glb_map_unserved_groups",): 2,
            },
        )

    def test_none(self):
        self.assertEqual(
            served(exporter.Loaded(SimpleNamespace(loads=None, is_up=False))), {("glb_map_up",): 0}
        )


def report():
    """Three servers: one that is there, one of another map and base that is behind, and one that is gone."""
    there = {
        "name": "host1",
        "state": "there",
        "entry": 9,
        "behind": 0,
        "base": "b" * 16,
        "program": "p" * 16,
        "version": "2",
        "serial": 4,
        "placed": 12,
        "unplaced": 0,
        "time": 1000,
    }
    behind = {
        **there,
        "name": "host2",
        "state": "behind",
        "entry": 7,
        "behind": 2,
        "base": "a" * 16,
        "unplaced": 3,
    }
    gone = {"name": "host3", "state": "gone", "why": "it says nothing"}
    found = Report(9, "b" * 64, 5, [there, behind, gone])
    found.differ = {7: {"x": ["host1", "host4"], "y": ["host2"]}}
    found.dropped = {8: {"server": "host1", "why": "refused 1 unknown name"}}
    found.roll = {"author": "ops"}
    found.members = {"http://m1": {"dbSize": "4096", "dbSizeInUse": "2048"}, "http://m2": None}
    found.advise(2, "they differ")
    return found


class Fleets(unittest.TestCase):
    def fleet(self, found):
        fleet = exporter.Fleet(None, 5)
        fleet.report, fleet.looked, fleet.quotas = found, 1000, {"http://m1": 8192.0}
        return served(fleet)

    def test_report(self):
        found = self.fleet(report())
        for key, value in {
            ("glb_log_up",): 1,
            ("glb_looked_timestamp_seconds",): 1000,
            ("glb_fleet_status",): 2,
            ("glb_servers",): 3,
            ("glb_log_entry",): 9,
            ("glb_log_base_entry",): 5,
            ("glb_log_dropped_entries",): 1,
            ("glb_differing_entries",): 1,
            ("glb_rolling",): 1,
            ("glb_server_up", "host1"): 1,
            ("glb_server_up", "host3"): 0,
            ("glb_server_state", "host1", "there"): 1,
            ("glb_server_state", "host1", "behind"): 0,
            ("glb_server_state", "host2", "behind"): 1,
            ("glb_server_state", "host3", "gone"): 1,
            ("glb_server_info", "b" * 16, "p" * 16, "host1", "2"): 1,
            ("glb_server_at_newest_base", "host1"): 1,
            ("glb_server_at_newest_base", "host2"): 0,
            ("glb_server_differs", "host1"): 0,
            ("glb_server_differs", "host2"): 1,
            ("glb_server_entry", "host2"): 7,
            ("glb_server_behind_entries", "host1"): 0,
            ("glb_server_behind_entries", "host2"): 2,
            ("glb_serial", "host1"): 4,
            ("glb_placed_units", "host1"): 12,
            ("glb_unplaced_units", "host2"): 3,
            ("glb_server_told_timestamp_seconds", "host2"): 1000,
            ("glb_etcd_member_up", "http://m1"): 1,
            ("glb_etcd_member_up", "http://m2"): 0,
            ("glb_etcd_database_bytes", "http://m1"): 4096,
            ("glb_etcd_database_used_bytes", "http://m1"): 2048,
            ("glb_etcd_quota_bytes", "http://m1"): 8192,
            ("glb_etcd_full",): 0,
        }.items():
            with self.subTest(key):
                self.assertEqual(found[key], value)
        self.assertNotIn(("glb_server_entry", "host3"), found)
        self.assertNotIn(("glb_etcd_database_bytes", "http://m2"), found)

    def test_what_cannot_be_seen_is_not_served(self):
        self.assertEqual(
            self.fleet(None), {("glb_log_up",): 0, ("glb_looked_timestamp_seconds",): 1000}
        )

    def test_one_that_is_expected(self):
        """It has a series, so that the alert of one that is gone tells of it, though etcd has no word of it."""
        world = World(1)
        world.settle()
        world.log.expected, world.log.etcd.members = frozenset(["h0", "h7"]), []
        fleet = exporter.Fleet(world.log, 5)
        with mock.patch.object(Etcd, "alarms", lambda self: []):
            fleet.look()
        found = served(fleet)
        self.assertEqual((found["glb_server_up", "h0"], found["glb_server_up", "h7"]), (1, 0))
        self.assertEqual(found["glb_server_state", "h7", "gone"], 1)
        self.assertEqual((found["glb_servers",], found["glb_fleet_status",]), (2, GONE))

    def test_outvoted(self):
        found = Report()
        for sides, due in (
            ({"x": ["a", "b"], "y": ["c"]}, {"c"}),
            ({"x": ["a"], "y": ["c"]}, {"a", "c"}),
            ({"x": ["a", "b"], "y": ["c", "d"], "z": ["e"]}, {"a", "b", "c", "d", "e"}),
        ):
            found.differ = {1: sides}
            self.assertEqual(exporter.outvoted_in(found), due)

    def test_whatever_fails(self):
        """A look that fails is told, and nothing of the one before is served."""
        fleet = exporter.Fleet(None, 5)
        fleet.report = report()
        self.addCleanup(setattr, sys, "stderr", sys.stderr)
        sys.stderr = open(os.devnull, "w")
        self.addCleanup(sys.stderr.close)
        fleet.look()
        self.assertIsNone(fleet.report)

    def test_a_fault_is_told_once(self):
        world = World(1)
        world.settle()
        world.log.etcd.members = []
        fleet = exporter.Fleet(world.log, 5)
        with (
            mock.patch.object(exporter, "tell") as told,
            mock.patch.object(Etcd, "alarms", lambda self: []),
        ):
            for why in ("a", "a", None, "a", "b"):
                failing = mock.patch.object(exporter, "report", side_effect=Fault(why))
                with failing if why else contextlib.nullcontext():
                    fleet.look()
        self.assertEqual([str(call.args[0]) for call in told.call_args_list], ["a", "a", "b"])


class Commands(Case):
    def test_refused_words(self):
        for words in (
            [],
            ["--said", "-", "--fleet"],
            ["--said", "-", "--glb", "/bin/true"],
            ["--said", "-", "--log", "x"],
            ["--fleet", "--every", "0"],
            ["--fleet", "--every", "x"],
            ["--fleet", "--user", "root"],
            ["--fleet", "--cert", "x.pem"],
            ["--said", "-", "--listen", "nowhere"],
            ["--said", "-", "--listen", "127.0.0.1:0"],
        ):
            with self.subTest(words):
                self.refused(exporter.main, *words, status=64)

    def test_no_port(self):
        with socket.socket() as taken:
            taken.bind(("127.0.0.1", 0))
            taken.listen()
            address = f"127.0.0.1:{taken.getsockname()[1]}"
            said = self.refused(exporter.main, "--said", "-", "--listen", address)
        self.assertIn("Address already in use", said)

    def test_text_file(self):
        path = self.folder / "glb.prom"
        for name, words in (
            ("metrics.py", [path, "east"]),
            ("glb-exporter", ["--said", "-", "--text-file", path, "--server", "east"]),
        ):
            with self.subTest(name):
                found = command(name, *words, input=SAID.encode())
                self.assertEqual((found.returncode, found.stderr), (0, b""))
                self.assertEqual(values(path.read_text())["glb_placed_units", "east"], 12)
                self.assertEqual([file.name for file in self.folder.iterdir()], ["glb.prom"])
                self.assertEqual(path.stat().st_mode & 0o777, 0o644)
                path.unlink()

    def test_no_folder(self):
        found = command("metrics.py", self.folder / "nowhere" / "glb.prom", input=b"")
        self.assertEqual((found.returncode, found.stderr.count(b"\n")), (1, 1), found.stderr)

    def test_help_writes_no_file(self):
        found = command("metrics.py", "--help", cwd=self.folder)
        self.assertEqual(found.returncode, 0)
        self.assertEqual(list(self.folder.iterdir()), [])

    def test_answers(self):
        with socket.socket() as free:
            free.bind(("127.0.0.1", 0))
            port = free.getsockname()[1]
        running = subprocess.Popen(
            [
                sys.executable,
                "-B",
                str(TOOLS / "glb-exporter"),
                "--said",
                "-",
                "--listen",
                f"127.0.0.1:{port}",
            ],
            stdin=subprocess.PIPE,
        )
        self.addCleanup(running.kill)
        running.stdin.write(SAID.encode())
        running.stdin.flush()
        for _ in range(200):
            time.sleep(0.05)
            try:
                with urllib.request.urlopen(
                    f"http://127.0.0.1:{port}/metrics", timeout=5
                ) as answer:
                    found = values(answer.read().decode())
            except OSError:
                continue
            if ("glb_serial",) in found:
                break
        self.assertEqual(found["glb_unplaced_units",], 3)
        running.stdin.close()
        self.assertEqual(running.wait(30), 0)


def collectors():
    """One of each kind, with all that it may serve."""
    said = exporter.Said("east")
    for line in SAID.splitlines():
        said.take(line, 1000)
    loads = Loads({"R": (15, 15)}, {"L": 4}, 30, 19, 2, 7, 0.1, 1000)
    fleet = exporter.Fleet(None, 5)
    fleet.report = report()
    return said, exporter.Loaded(SimpleNamespace(loads=loads, is_up=True)), fleet


class Named(unittest.TestCase):
    @unittest.skipUnless(shutil.which("promtool"), "promtool is not installed (Debian: prometheus)")
    def test_as_prometheus_would_have_them(self):
        for collector in collectors():
            registry = CollectorRegistry(auto_describe=False)
            registry.register(collector)
            words = ["promtool", "check", "metrics"]
            found = subprocess.run(words, input=generate_latest(registry), capture_output=True)
            self.assertEqual((found.returncode, found.stdout, found.stderr), (0, b"", b""))

    def test_documents_and_alerts_have_them(self):
        names = {sample[0] for collector in collectors() for sample in served(collector)}
        table = (
            (TOP / "docs" / "operating" / "metrics.md").read_text().partition("| Metric | Is |")[2]
        )
        rows = re.match(r"\n(?:\|.*\n)+", table)[0].splitlines()
        told = {name for row in rows for name in re.findall(r"`(glb_\w+)`", row)}
        self.assertEqual(told, names)
        rules = (EXAMPLES / "glb-alerts.yml").read_text()
        used = set(re.findall(r"\bglb_\w+", " ".join(re.findall(r"expr: (.*)", rules))))
        self.assertLessEqual(used, names)
        self.assertGreater(len(used), 15)


def free_ports(count):
    with contextlib.ExitStack() as open_ones:
        sockets = [open_ones.enter_context(socket.socket()) for _ in range(count)]
        for each in sockets:
            each.bind(("127.0.0.1", 0))
        return [each.getsockname()[1] for each in sockets]


@unittest.skipUnless(shutil.which("etcd"), "etcd is not installed (Debian: etcd-server)")
class WithEtcd(Case):
    """The exporter over a log in a real etcd, of which one member is not there."""

    def setUp(self):
        super().setUp()
        client, peer, self.port = free_ports(3)
        self.member, other = f"http://127.0.0.1:{client}", f"http://127.0.0.1:{peer}"
        words = [
            "--name",
            "m1",
            "--data-dir",
            str(self.folder / "etcd"),
            "--quota-backend-bytes",
            "123456789",
        ]
        words += ["--listen-client-urls", self.member, "--advertise-client-urls", self.member]
        words += [
            "--listen-peer-urls",
            other,
            "--initial-advertise-peer-urls",
            other,
            "--initial-cluster",
            f"m1={other}",
        ]
        self.etcd = subprocess.Popen(
            ["etcd", *words], stderr=subprocess.DEVNULL, stdout=subprocess.DEVNULL
        )
        self.addCleanup(self.etcd.wait)
        self.addCleanup(self.etcd.kill)
        self.log = Log(Etcd([self.member]), "glb")

    def until(self, call, holds):
        """What a call gives, once it is as it should be."""
        for _ in range(200):
            with contextlib.suppress(OSError, Fault):
                if holds(found := call()):
                    return found
            time.sleep(0.05)
        raise AssertionError(f"it did not come: {found}")

    def metrics(self):
        with urllib.request.urlopen(f"http://127.0.0.1:{self.port}/metrics", timeout=5) as answer:
            return values(answer.read().decode())

    def test_a_fleet(self):
        self.until(lambda: self.log.etcd.answers(self.member), bool)
        topology = SMALL.encode()
        self.log.put_file("file", checksum_of(topology), topology)
        names = Names(["g1", "g2", "g2www"], ["R", "A", "B"])
        self.log.put_file("names", checksum_of(topology), names.octets())
        self.assertEqual(self.log.append_base("a", Signed("me"), topology), 1)
        self.assertEqual(self.log.append("b", Signed("me"), "demand g1 5\n", lambda _: None), 2)
        self.log.put_server("host1", {})
        self.log.put_server("host2", {})
        state = {
            "base": checksum_of(topology)[:16],
            "entry": 1,
            "serial": 0,
            "placed": 15,
            "unplaced": 4,
            "ready": True,
        }
        self.log.tell("host1", state, 0)
        # nobody listens at the discard port
        etcd = f"{self.member},http://127.0.0.1:9"
        words = ["--fleet", "--etcd", etcd, "--every", "0.1", "--listen", f"127.0.0.1:{self.port}"]
        running = subprocess.Popen(
            [sys.executable, "-B", str(TOOLS / "glb-exporter"), *words], stderr=subprocess.DEVNULL
        )
        self.addCleanup(running.wait)
        self.addCleanup(running.kill)
        found = self.until(self.metrics, lambda found: found["glb_log_up",])
        for key, value in {
            ("glb_log_entry",): 2,
            ("glb_log_base_entry",): 1,
            ("glb_servers",): 2,
            ("glb_server_up", "host1"): 1,
            ("glb_server_up", "host2"): 0,
            ("glb_server_behind_entries", "host1"): 1,
            ("glb_server_at_newest_base", "host1"): 1,
            ("glb_unplaced_units", "host1"): 4,
            ("glb_etcd_member_up", self.member): 1,
            ("glb_etcd_member_up", "http://127.0.0.1:9"): 0,
            ("glb_etcd_quota_bytes", self.member): 123456789,
            ("glb_etcd_full",): 0,
        }.items():
            with self.subTest(key):
                self.assertEqual(found[key], value)
        self.assertGreater(found["glb_etcd_database_bytes", self.member], 0)
        self.etcd.kill()
        gone = self.until(self.metrics, lambda found: not found["glb_log_up",])
        self.assertEqual(set(gone), {("glb_log_up",), ("glb_looked_timestamp_seconds",)})


if __name__ == "__main__":
    unittest.main()
