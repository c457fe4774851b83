"""What holds up a follower, and what ends it; those who ask at once; and what somebody put into etcd by hand."""

import errno
import io
import itertools
import json
import time
import unittest
from contextlib import redirect_stderr
from unittest import mock

from fleet_world import Host, World, topology_of
from glb_tools import fleet, follow, log
from glb_tools.beside import Beside
from glb_tools.etcd import Etcd, Full, Item, Unreachable
from glb_tools.fleet import FULL, GONE, NOT_THERE, asked_of_all, seen
from glb_tools.log import checksum_of
from glb_tools.options import Fault
from glb_tools.server import Lost

NO_ROOM = OSError(errno.ENOSPC, "No space left on device", "/run/glb-v4/identity")


class Steps:
    """A follower whose steps come to what is listed."""

    def __init__(self, *steps):
        self.steps, self.held_up = list(steps), []

    def begin(self):
        pass

    def step(self):
        step = self.steps.pop(0)
        if isinstance(step, Exception):
            raise step
        return step

    def hold_up(self, why):
        self.held_up.append(why)


class Loop(unittest.TestCase):
    def follow(self, *steps):
        """What is said of these steps, and what the follower was held up by; a server that is lost ends it."""
        self.follower, out = Steps(*steps, Lost("lost")), io.StringIO()
        with mock.patch.object(follow, "time"), redirect_stderr(out), self.assertRaises(Lost):
            follow.follow(self.follower)
        return out.getvalue().splitlines()

    def test_what_etcd_or_a_disk_refuses_ends_nobody(self):
        for fault, words in (
            (Unreachable("no member"), "etcd: no member"),
            (Full("no space"), "etcd is full, and nothing was put: no space"),
            (Fault("glb/log/x was put by hand"), "glb/log/x was put by hand"),
            (Fault("permission denied"), "permission denied"),
            (NO_ROOM, "/run/glb-v4/identity: No space left on device"),
        ):
            with self.subTest(words):
                self.assertEqual(self.follow(fault, True, True), [f"waits: {words}"])
                self.assertEqual(self.follower.held_up, [words])

    def test_it_is_said_once(self):
        said = self.follow(Unreachable("a"), Unreachable("b"), True, Unreachable("c"), Fault("d"))
        self.assertEqual(said, ["waits: etcd: a", "waits: etcd: c", "waits: d"])


class Held(unittest.TestCase):
    """Servers answer on, whatever stands in etcd; and nobody says that all is well."""

    def setUp(self):
        self.world = World(2)
        self.world.settle()

    @property
    def items(self):
        return self.world.table.items

    def put(self, key, octets, revision=None):
        self.world.table.revision += 1
        self.items[key] = Item(key, octets, revision or self.world.table.revision, 0)

    def run_all(self, times=6):
        for _ in range(times):
            for host in self.world.hosts:
                host.run()

    def status(self):
        """What glb-fleet says: whenever it waits, all hosts go on."""
        self.world.log.etcd.members = []
        with mock.patch.object(Etcd, "alarms", lambda self: []), mock.patch.object(
            fleet, "time"
        ) as clock:
            clock.monotonic, clock.time = time.monotonic, time.time
            clock.sleep = lambda seconds: self.run_all(1)
            return seen(self.world.log, 0.2)

    def test_odd_keys_keep_no_query_out(self):
        bases = self.items["glb/bases"].octets
        for key, octets, way_out in (
            ("glb/log/x", b"", None),
            ("glb/log/5", b"", None),
            ("glb/bases", b"x", bases),
        ):
            with self.subTest(key):
                self.put(key, octets)
                self.run_all()
                self.assertTrue(all(host.is_in for host in self.world.hosts))
                self.assertTrue(all(host.follower.waits for host in self.world.hosts))
                with self.assertRaises(Fault):
                    self.status()
                if way_out:
                    self.put(key, way_out)
                else:
                    del self.items[key]
                self.run_all()
                self.assertEqual(self.world.check_end(self.status()), None)

    def test_nothing_is_appended_behind_a_gap(self):
        last = self.world.log.look().last
        for number in (last + 2, 10**15, 10**16 - 1):
            with self.subTest(number):
                self.put(f"glb/log/{number:016d}", b"x")
                with self.assertRaisesRegex(Fault, f"{number:016d} is: delete that one"):
                    self.world.append("demand A 1\n")
                self.run_all()
                self.assertEqual(self.status().status, NOT_THERE)
                del self.items[f"glb/log/{number:016d}"]
        self.put(f"glb/log/{10**15 - 1:016d}", b"x")
        self.put(f"glb/log/{10**15:016d}", b"x")
        with self.assertRaisesRegex(Fault, "by hand"):
            self.world.append("demand A 1\n")

    def test_entries_that_were_changed(self):
        for _ in range(3):
            self.world.append("demand A 1\n")
        self.run_all()
        key, found = "glb/log/0000000000000003", self.status()
        self.assertEqual((found.status, found.last), (0, 5))
        kept = self.items[key]
        for name, octets in (("another text", b"x"), ("the same once more", kept.octets)):
            with self.subTest(name):
                self.put(key, octets)
                self.assertIn("entry 3 was changed by hand", self.status().advice[0][1])
                self.items[key] = kept
        del self.items[key]
        self.assertIn("entry 3 is not there, and glb/log/0000000000000004 is", self.advice())
        self.items[key] = kept
        odd = "glb/log/0000000000000003x"
        self.put(odd, b"")
        self.assertIn(f"{odd} was put by hand: delete it", self.advice())

    def advice(self):
        return " ".join(words for _, words in self.status().advice)

    def test_a_roll_mends_what_was_changed_before_it(self):
        for _ in range(2):
            self.world.append("demand A 1\n")
        self.run_all()
        self.put("glb/log/0000000000000003", b"x")
        self.assertEqual(self.status().status, NOT_THERE)
        self.world.roll(["A", "B"], back=3)
        found = self.world.settle()
        self.assertEqual([words for _, words in found.advice if "dropped" not in words], [])
        self.assertNotIn("changed by hand", self.advice())
        self.put("glb/log/0000000000000003", b"y")
        self.assertIn("entry 3 was changed by hand", self.advice())

    def test_etcd_that_is_full_is_told_without_its_alarm(self):
        def refused(*words):
            raise Full("no space")

        self.world.log.ask = refused
        self.assertEqual(self.status_of_full(), FULL)

    def status_of_full(self):
        self.world.log.etcd.members = []
        with mock.patch.object(Etcd, "alarms", lambda self: []):
            return seen(self.world.log, 0).status

    def test_a_base_whose_last_entry_was_changed(self):
        self.world.append("demand A 1\n")
        self.world.roll(["A"])
        self.world.settle()
        base, one = self.world.log.look().newest, self.world.hosts[0]
        key = self.world.log.key(base.upto)
        for octets in (b"x", None):
            with self.subTest(octets):
                self.put(key, octets or b"")
                if octets is None:
                    del self.items[key]
                one.server_ends()
                self.run_all()
                machine = one.machine
                self.run_all()
                self.assertIs(one.machine, machine, "it begins again and again")
                self.assertIn(f"entry {base.upto}, up to which", self.advice())
        self.put(key, b"x")
        # a roll waits until each server has the file
        topology = topology_of(["A"], base.number, self.world.log.entry(base.number).checksum)
        checksum = checksum_of(topology)
        self.world.log.put_file("file", checksum, topology)
        self.put("glb/roll", json.dumps({"base": checksum}).encode())
        self.run_all()
        self.assertTrue(all(host.follower.has == checksum[:16] for host in self.world.hosts))
        del self.items["glb/roll"]
        self.world.put_base(topology)
        left = [words for _, words in self.world.settle().advice if "dropped" not in words]
        self.assertEqual(left, [])

    def test_whatever_kept_queries_out_meanwhile(self):
        host = self.world.hosts[0]
        # a filter that was loaded anew, a router that began anew
        host.is_in = False
        self.world.tick()
        self.run_all(2)
        self.assertTrue(host.is_in)
        with mock.patch.object(host.follower.hooks, "run", lambda command: "`in` ended with 1"):
            self.world.tick()
            self.assertIn("h0 waits: `in` ended with 1", self.advice())
            self.assertFalse(host.follower.is_ready)
        self.run_all()
        self.assertEqual(self.status().status, 0)

    def test_two_servers_of_one_name(self):
        one, other = self.world.hosts[0], Host(self.world, self.world.hosts[0].name)
        self.world.hosts.append(other)
        self.run_all(8)
        self.assertEqual(self.status().status, NOT_THERE)
        self.assertIn("another follower tells of a server of the name h0", self.advice())
        self.assertTrue(one.is_in)
        other.server_ends()
        self.world.hosts.pop()
        self.world.tick()
        self.run_all()
        self.assertEqual(self.status().status, 0)


class Canary(unittest.TestCase):
    def test_it_ends_with_the_follower_that_runs_it(self):
        beside = object.__new__(Beside)
        with mock.patch.object(Beside, "parent", -1):
            with self.assertRaisesRegex(Lost, "its follower has ended"):
                beside.hold_up("etcd: no member")


class Asked(unittest.TestCase):
    """Several who ask whether all answer."""

    def setUp(self):
        self.world = World(2)
        self.world.settle()

    def amid(self, do):
        """A log whose every look has others do something first."""
        made = log.Log(self.world.log.etcd, "glb")
        look = made.look

        def looked(*words):
            do()
            return look(*words)

        made.look = looked
        return made

    def others(self):
        self.world.ask()
        for host in self.world.hosts:
            host.run()

    def test_they_do_not_hinder_each_other(self):
        asked, look = asked_of_all(self.amid(self.others), 1)
        states = [fleet.judged(name, look, asked)["state"] for name in look.states]
        self.assertEqual(states, ["there", "there"])

    def test_a_member_that_is_silent_is_nobodys_fault(self):
        """The first look takes as long as followers have to answer: they have that long behind it."""
        looks = itertools.count()

        def slow():
            if next(looks):
                for host in self.world.hosts:
                    host.run()
            else:
                time.sleep(0.4)

        asked, look = asked_of_all(self.amid(slow), 0.3)
        states = [fleet.judged(name, look, asked)["state"] for name in look.states]
        self.assertEqual(states, ["there", "there"])

    def test_what_was_heard_before_does_not_count(self):
        self.others()
        asked, look = asked_of_all(self.amid(lambda: None), 0)
        states = [fleet.judged(name, look, asked)["state"] for name in look.states]
        self.assertEqual(states, ["silent", "silent"])
        self.assertEqual(fleet.report(self.world.log, look, asked).status, GONE)

    def test_what_a_restored_etcd_says_does_not_count(self):
        self.world.save()
        for _ in range(9):
            self.world.ask()
        snapshot = self.world.snapshot.revision
        looks = iter(range(9))

        def restored():
            # the second look finds an etcd that was restored and has come further than before
            if next(looks) == 1:
                self.world.table = self.world.snapshot.copy()
                self.world.table.revision = snapshot + 100

        asked, look = asked_of_all(self.amid(restored), 0.2)
        self.assertNotIn(look.states["h0"].get("heard"), asked)

    def test_a_roll_goes_on_beside_them(self):
        self.world.roll(["A", "B"])
        for _ in range(40):
            for host in self.world.hosts:
                self.world.ask()
                host.run()
            self.world.tick(0.5)
        self.others()
        self.world.check_end(self.world.check())


if __name__ == "__main__":
    unittest.main()
