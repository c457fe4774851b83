"""Entries and their chain, bases and their files, and how they are appended and cut."""

import json
import os
import unittest

from fleet_world import OPS, World, names_of, topology_of
from glb_tools import log
from glb_tools.append import AnyNames, batch_of, check, cut
from glb_tools.log import (
    BATCH,
    NONE,
    Names,
    checksum_of,
    entry_octets,
    left_in,
    names_in,
    place_of,
    read_entry,
    with_place,
)
from glb_tools.options import Fault


class Entries(unittest.TestCase):
    def test_what_is_none(self):
        good = json.loads(entry_octets(BATCH, "", OPS, {"lines": "demand A 1\n"}))
        self.assertEqual(read_entry(1, json.dumps(good).encode()).kind, BATCH)
        for octets in (b"", b"stop\n", b"\xff", b"[]", b"null", b"{" * 5000, b'{"kind":"batch"}'):
            self.assertEqual(read_entry(1, octets).kind, NONE, octets[:20])
        for key, value in (
            ("kind", "other"),
            ("lines", "stop\n"),
            ("lines", "demand A 1\ncommit\n"),
            ("lines", "demand A 1"),
            ("lines", ""),
            ("lines", "demand A 1\n" * 4097),
            ("lines", 7),
            ("time", "now"),
            ("time", float("inf")),
        ):
            with self.subTest(f"{key} {str(value)[:20]}"):
                self.assertEqual(read_entry(1, json.dumps(good | {key: value}).encode()).kind, NONE)

    def test_places(self):
        chain = "a" * 64
        marked = with_place(b"zone = 1\n", 12, chain)
        self.assertEqual(place_of(marked), (12, chain))
        self.assertEqual(with_place(marked, 13, chain), with_place(b"zone = 1\n", 13, chain))
        self.assertEqual(with_place(marked, 0, ""), b"zone = 1\n")
        self.assertEqual(place_of(b"# the numbers up to entry 5 of the log\nzone = 1\n"), (5, ""))
        self.assertEqual(place_of(b"zone = 1\n# the numbers up to entry 5 of the log\n"), (0, ""))

    def test_lines_left_in(self):
        own, newest = Names(["A", "C"], ["N"]), Names(["A", "B"], ["N", "M"])
        lines = "demand A 1\ndemand B 2\ndemand C 3\ndemand X 4\ncapacity N 5\ncapacity M 6\n"
        left = "demand A 1\ndemand C 3\ndemand X 4\ncapacity N 5\n"
        self.assertEqual(left_in(lines, own, newest), left)
        self.assertEqual(names_in(own.octets()).unit_at, own.unit_at)


class Appends(unittest.TestCase):
    def setUp(self):
        self.world = World(0)
        self.log = self.world.log

    def test_each_says_the_checksum_of_the_one_before(self):
        for _ in range(3):
            self.world.append("demand A 1\n")
        entries = list(self.log.entries(1, 4))
        self.assertEqual([entry.kind for entry in entries], ["base"] + [BATCH] * 3)
        for before, entry in zip(entries, entries[1:]):
            self.assertEqual(entry.before, before.checksum)

    def test_one_that_came_between(self):
        seen = self.log.look()
        self.world.append("demand A 1\n")
        self.assertFalse(self.log.put_entry(seen, BATCH, OPS, {"lines": "demand A 2\n"}, "late"))
        self.assertEqual(self.log.look().last, 2)

    def test_once_by_one_id(self):
        numbers = [self.log.append("same", OPS, "demand A 1\n", lambda names: None) for _ in "ab"]
        self.assertEqual((numbers, self.log.look().last), ([2, 2], 2))

    def test_names_are_those_of_the_newest_base(self):
        def append():
            self.log.append("id", OPS, "demand B 1\n", lambda names: check([b"demand B 1"], names))

        with self.assertRaisesRegex(Fault, "line 1: unknown name"):
            append()
        self.world.roll(["A", "B"])
        append()

    def test_a_copy_by_hand_is_no_entry(self):
        self.world.append("demand A 1\n")
        self.world.forge()
        self.world.append("demand A 2\n")
        kinds = [entry.kind for entry in self.log.entries(1, 4)]
        self.assertEqual(kinds, ["base", BATCH, NONE, BATCH])
        kinds = [entry.kind for entry in self.log.look(2).entries]
        self.assertEqual(kinds, [BATCH, NONE, BATCH])

    def test_a_log_of_an_older_release_is_refused_by_name(self):
        table = self.world.table
        for key in [key for key in table.items if key != "glb/at"]:
            del table.items[key]
        self.world.raw(b"demand A 1\n")
        with self.assertRaisesRegex(Fault, "older release"):
            self.world.append("demand A 1\n")
        self.assertIsNone(self.log.append_base("id", OPS, topology_of(["A"])))
        octets = with_place(topology_of(["A"]), 1, checksum_of(b"demand A 1\n"))
        self.assertEqual(self.log.append_base("id2", OPS, octets), 2)

    def test_a_base_of_another_log_is_none(self):
        self.world.append("demand A 1\n")
        octets = topology_of(["A"], 2, "f" * 64)
        self.assertIsNone(self.log.append_base("id", OPS, octets))

    def test_a_key_with_another_name_is_told(self):
        self.world.table.items["glb/log/x"] = self.world.table.items["glb/bases"]
        item = self.world.table.items["glb/bases"]
        self.world.table.items["glb/log/x"] = type(item)("glb/log/x", b"", 1, 0)
        with self.assertRaisesRegex(Fault, "by hand"):
            self.log.look()

    def test_the_log_is_cut_where_no_server_needs_it(self):
        for _ in range(3):
            self.world.append("demand A 1\n")
        self.world.roll(["A"])
        old, new = self.log.look().bases
        self.log.put_server("h", {"base": old.checksum})
        with self.assertRaisesRegex(Fault, "h is not at base 5"):
            cut(self.log)
        self.log.put_server("h", {"base": new.checksum})
        self.assertEqual(cut(self.log), 4)
        look = self.log.look(4)
        self.assertEqual((look.first, look.last, len(look.entries)), (4, 5, 2))
        self.assertIsNotNone(self.log.topology(new.checksum))


class Files(unittest.TestCase):
    def test_in_pieces(self):
        kept = World(0).log
        for octets in (b"", b"x", os.urandom(2 * log.PIECE + 1)):
            kept.put_file("file", checksum_of(octets), octets)
            self.assertEqual(kept.topology(checksum_of(octets)), octets)
        self.assertIsNone(kept.topology("0" * 64))

    def test_one_with_a_piece_that_is_another(self):
        world, octets = World(0), os.urandom(log.PIECE)
        checksum = checksum_of(octets)
        world.log.put_file("file", checksum, octets)
        item = world.table.items[f"glb/file/{checksum}/0000"]
        for broken in (b"nonsense", item.octets[:-3]):
            world.table.items[item.key] = type(item)(item.key, broken, 1, 0)
            self.assertIsNone(world.log.topology(checksum))
        del world.table.items[item.key]
        self.assertIsNone(world.log.topology(checksum))

    def test_pieces_are_below_a_request_of_etcd(self):
        self.assertLess(log.PIECE, 1 << 20)


class Batches(unittest.TestCase):
    def test_lines_at_fault(self):
        for octets, words in (
            (b"", "no change"),
            (b"demand A 1\nstop\n", "line 2: unknown word"),
            (b"demand A\n", "line 1: wrong count"),
            (b"\xff\n", "line 1: bad byte"),
            (b"demand A 0\n", "line 1: out of range"),
            (b"demand A 1\n" * 4097, "line 4097: batch full"),
        ):
            with self.subTest(octets[:20]), self.assertRaisesRegex(Fault, words):
                batch_of(octets)
        self.assertEqual(batch_of(b"demand  A 1"), "demand  A 1\n")
        check([b"capacity X 0"], AnyNames())
        self.assertEqual(names_of(topology_of(["A", "B"])), ["A", "B"])


if __name__ == "__main__":
    unittest.main()
