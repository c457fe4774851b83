"""What glb-fleet makes of what servers tell, and of what somebody put in the place of it."""

import contextlib
import io
import os
import unittest
from unittest import mock

from fleet_world import OPS, Host, World
from glb_tools import fleet
from glb_tools.etcd import PATIENCE, Full, Item, Unreachable, add_etcd_options
from glb_tools.fleet import DIFFER, GONE, HANGS, MEMBER, NOT_THERE, Report, report, say
from glb_tools.follower import Follower
from glb_tools.log import ALIVE, TURN, Log
from glb_tools.options import WRONG_WORDS, Fault, parser
from glb_tools.roll import Roll
from samples import TOP


class Told(unittest.TestCase):
    def setUp(self):
        self.world = World(2)
        self.world.settle()

    def put(self, key, octets):
        self.world.table.items[key] = Item(key, octets, 1, 0)

    def shown(self, asked=""):
        log = self.world.log
        found, out = report(log, log.look(), frozenset({asked} - {""})), io.StringIO()
        with contextlib.redirect_stdout(out):
            say(found)
        return found, out.getvalue()

    def test_all_is_well(self):
        found, text = self.shown(self.world.asked)
        self.assertEqual((found.status, text.count(": there")), (0, 2))

    def test_one_that_did_not_hear(self):
        found, text = self.shown("another word")
        self.assertEqual((found.status, text.count(": silent")), (GONE, 2))

    def test_one_that_is_gone(self):
        del self.world.table.items["glb/at/h1"]
        found, text = self.shown()
        self.assertEqual(found.status, GONE)
        self.assertIn("h1: gone", text)
        self.put("glb/server/h1", b'{"ended": "it was ended"}')
        self.assertIn("h1: ended: it was ended", self.shown()[1])
        self.put("glb/server/h1", b'{"ended": "begins anew: why"}')
        self.assertEqual(self.shown()[0].status, NOT_THERE)

    def test_a_log_that_was_taken_away(self):
        """All entries are deleted by hand, and no follower has seen it yet."""
        for key in [*self.world.table.items]:
            if key.startswith("glb/log/"):
                del self.world.table.items[key]
        found, text = self.shown(self.world.asked)
        self.assertEqual((found.status, text.count("none of this log")), (NOT_THERE, 4))

    def test_what_is_no_state(self):
        for octets in (
            b"",
            b"\xff",
            b"[]",
            b"7",
            b"{}",
            b'{"entry": "x", "maps": [1], "chain": {}}',
        ):
            with self.subTest(octets):
                self.put("glb/at/x", octets)
                self.assertNotEqual(self.shown()[0].status, 0)
                self.put("glb/server/x", octets)
                self.assertNotEqual(self.shown()[0].status, 0)
                self.put("glb/turn", octets)
                self.put("glb/roll", octets)
                self.put("glb/dropped/0000000000000002", octets)
                self.assertNotEqual(self.shown()[0].status, 0)

    def test_nothing_for_the_terminal(self):
        self.put("glb/at/x", b'{"entry": 1, "waits": "\\u001b[2J"}')
        self.assertNotIn("\x1b", self.shown()[1])

    def test_the_worst_counts(self):
        for found, due in (
            ([MEMBER], MEMBER),
            ([MEMBER, NOT_THERE], NOT_THERE),
            ([NOT_THERE, GONE], GONE),
            ([GONE, HANGS], HANGS),
            ([HANGS, DIFFER], DIFFER),
        ):
            self.assertEqual(Report(advice=[(status, "") for status in found]).status, due)
        self.assertEqual(set(fleet.ORDER), set(fleet.STATUSES) - {0})


class Listed(unittest.TestCase):
    """Servers that there should be, and that nothing was told of yet."""

    def setUp(self):
        self.world = World(2)

    def look(self):
        found = self.world.report()
        return found.status, {server["name"]: server["state"] for server in found.servers}

    def test_one_that_begins_is_missed_from_the_start(self):
        self.world.settle()
        late = Host(self.world, "h2")
        late.run()
        self.assertEqual(self.look(), (NOT_THERE, {"h0": "there", "h1": "there", "h2": "starts"}))
        words = "h2 starts: it begins for the first time"
        self.assertIn((NOT_THERE, words), self.world.report().advice)
        # and so it is where its follower dies ahead of its first word
        late.server_ends()
        self.world.tick()
        self.assertEqual(self.look()[0], NOT_THERE)
        self.world.hosts.append(late)
        self.world.check_end(self.world.settle())

    def test_what_is_known_of_it_stays(self):
        self.world.settle()
        before = self.world.table.items["glb/server/h1"]
        self.world.hosts[1].server_ends()
        self.world.hosts[1].run()
        self.assertEqual(self.world.table.items["glb/server/h1"], before)

    def test_one_that_etcd_cannot_list_begins_nevertheless(self):
        for fault in (Full("no space"), Fault("permission denied"), Unreachable("lost")):
            with self.subTest(fault), mock.patch.object(Log, "register", side_effect=fault):
                host = Host(self.world, "h2")
                self.assertTrue(host.run())
                self.assertTrue(host.machine)

    def test_one_that_cannot_go_on_is_listed_anew(self):
        """etcd was restored and has no word of it, and its follower waits for its turn for ever."""
        self.world.settle()
        for host in self.world.hosts:
            host.follower.broken = "of a test"
        taken = mock.patch.object(Follower, "begin_anew", lambda *words: None)
        del self.world.table.items["glb/server/h1"]
        with taken:
            self.world.hosts[1].run()
        self.assertIn("h1", self.world.listed())

    def test_one_that_is_expected(self):
        self.world.settle()
        log = self.world.log
        self.assertEqual(self.look()[0], 0)
        log.expected = frozenset(["h1"])
        self.assertEqual(self.look()[0], 0)
        log.expected = frozenset(["h1", "h7"])
        self.assertEqual(self.look(), (GONE, {"h0": "there", "h1": "there", "h7": "gone"}))
        words = "h7 is expected, and nothing was ever heard of it: start glb-fleet@ on its host"
        self.assertIn((GONE, words), self.world.report().advice)
        late = Host(self.world, "h7")
        late.run()
        self.assertEqual(self.look()[0], NOT_THERE)

    def test_one_that_was_forgotten_and_is_expected(self):
        self.world.settle()
        self.world.log.expected = frozenset(["h0", "h1"])
        self.world.hosts[1].outside.cut_off = True
        self.world.tick()
        self.world.forget_gone()
        self.assertEqual(self.look(), (GONE, {"h0": "there", "h1": "gone"}))

    def test_names_of_a_command(self):
        def of(*words):
            made = parser("glb-fleet", "Lists.")
            add_etcd_options(made)
            fleet.add_expected(made)
            return fleet.log_of(made.parse_args(words)).expected

        with mock.patch.dict("os.environ", {"GLB_EXPECT": "a, b,"}):
            self.assertEqual(of(), {"a", "b"})
            self.assertEqual(of("--expect", "c"), {"c"})
            self.assertEqual(of("--expect", ""), set())
        with mock.patch.dict("os.environ"):
            os.environ.pop("GLB_EXPECT", None)
            self.assertEqual(of(), set())
        with self.assertRaises(Fault) as wrong:
            of("--expect", "a/b")
        self.assertEqual(wrong.exception.status, WRONG_WORDS)

    def test_the_first_base_waits_for_nobody_who_cannot_begin_without_it(self):
        """A host whose units were started ahead of the first roll, or whose log was destroyed."""
        rolling = Roll(self.world.log, OPS, "c" * 64)
        self.world.log.register("h9", "")
        with contextlib.redirect_stdout(io.StringIO()) as said:
            with self.assertRaisesRegex(Fault, "not all servers have the base"):
                rolling.spread(0)
            for key in [*self.world.table.items]:
                if key.startswith(("glb/log/", "glb/bases")):
                    del self.world.table.items[key]
            rolling.spread(0)
        self.assertIn("h9: begins from the base when it starts", said.getvalue())


class Lifetimes(unittest.TestCase):
    def test_a_word_outlives_what_keeps_it(self):
        """What a follower tells lives for as long as docs/operating/fleet.md says, and past two members that hang."""
        text = (TOP / "docs" / "operating" / "fleet.md").read_text()
        self.assertIn(f"after {ALIVE} seconds as gone", text)
        self.assertGreater(ALIVE, 2 * PATIENCE)
        self.assertGreater(TURN, ALIVE)


if __name__ == "__main__":
    unittest.main()
