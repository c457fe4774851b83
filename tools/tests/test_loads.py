"""Loads of the newest map, by a program that works the log beside the servers."""

import os
import stat
import threading
import time
import unittest
from pathlib import Path
from types import SimpleNamespace
from unittest import mock

from glb_tools import loads
from glb_tools.etcd import Unreachable
from glb_tools.loads import Shadow, FileWorker, FleetWorker, World, split_at_commits
from glb_tools.options import Fault
from glb_tools.topology import Topology
from samples import SMALL, SMALL_MAP, Case

# plays `glb serve`: its map gives g1 at A as many units as its demand
PLAYED = """#!/usr/bin/env python3
import sys, time
assert sys.argv[1] == "serve" and sys.argv[3:] == ["--listen", "127.0.0.1:0"]
open(sys.argv[2]).read()
demand, serial, batch = 8, 0, []
def put():
    sys.stderr.write(f"glb map 2\\nplace g1 A {demand}\\nfull g2 B R\\nend\\n")
    sys.stderr.flush()
put()
for line in sys.stdin:
    words = line.split()
    if words[0] == "commit":
        if any(each[0] == "bad" for each in batch):
            print("refused 1 unknown word\\nrefused commit lines 1", flush=True)
        elif any(each[0] == "memory" for each in batch):
            print("refused commit memory", flush=True)
        elif any(each[0] == "end" for each in batch):
            sys.exit(5)
        elif any(each[0] == "hang" for each in batch):
            time.sleep(60)
        else:
            for each in batch:
                demand = int(each[2]) if each[1] == "g1" else demand
            if batch:
                serial += 1
                put()
            print("published", serial, flush=True)
        batch = []
    else:
        batch.append(words)
"""


class Sums(unittest.TestCase):
    def setUp(self):
        self.world = World(Topology(SMALL.encode()))

    def test_small(self):
        found = self.world.loads(SMALL_MAP.encode(), 7)
        self.assertEqual(found.nodes, {"R": (15, 15), "A": (9, 10), "B": (6, 10)})
        self.assertEqual((found.demand, found.placed, found.unserved, found.entry), (19, 15, 0, 7))
        self.assertEqual(found.last_resort, {})

    def test_nothing_is_placed(self):
        found = self.world.loads(b"glb map 2\nend\n")
        self.assertEqual((found.demand, found.placed, found.unserved), (19, 0, 3))
        self.assertEqual(found.nodes["R"], (0, 15))

    def test_numbers(self):
        self.world.work("demand g1 5\ncapacity A 0\n")
        self.world.work("demand g1 1\ncapacity Z 0\n")
        self.world.work("")
        found = self.world.loads(SMALL_MAP.encode())
        self.assertEqual((found.demand, found.nodes["A"]), (16, (9, 0)))

    def test_last_resort(self):
        node = '{name = "R", capacity = 15}, {name = "L", capacity = 281474976710656, pool = true}'
        text = SMALL.replace('{name = "R", capacity = 15}', node)
        world = World(Topology(text.encode()))
        self.assertEqual(world.loads(b"glb map 2\nend\n").last_resort, {"L": 0})

    def test_batches(self):
        self.assertEqual(
            split_at_commits(b"a 1\n commit \nb 2\nstop\ncommit\nc"), [b"a 1\n", b"b 2\n", b"c"]
        )
        self.assertEqual(split_at_commits(b"commits\ncommit"), [b"commits\ncommit"])
        self.assertEqual(split_at_commits(b""), [b""])


class Played(Case):
    def setUp(self):
        super().setUp()
        self.program = self.file("glb", PLAYED)
        os.chmod(self.program, stat.S_IRWXU)

    def shadow(self):
        found = Shadow(self.program, SMALL.encode())
        self.addCleanup(found.end)
        return found

    def start(self, worker):
        # by what it says why it begins anew
        told = mock.patch.object(loads, "tell").start()
        self.addCleanup(mock.patch.stopall)
        self.told = lambda: [str(call.args[0]) for call in told.call_args_list]
        thread = threading.Thread(target=worker.run)
        thread.start()
        self.addCleanup(thread.join)
        self.addCleanup(worker.over.set)


class Shadows(Played):
    def test_batches(self):
        shadow = self.shadow()
        self.assertEqual(shadow.loads(0).placed, 8)
        shadow.work("demand g1 5\n")
        self.assertEqual((shadow.loads(1).placed, shadow.loads(1).demand), (5, 16))
        shadow.work("bad line\n")
        shadow.work("")
        self.assertEqual((shadow.loads(3).placed, shadow.loads(3).demand), (5, 16))

    def test_many(self):
        """The text that is summed up is that of the batch, however fast they come."""
        shadow = self.shadow()
        for units in range(1, 200):
            shadow.work(f"demand g1 {units}\n")
            self.assertEqual(shadow.loads(units).placed, units)

    def test_ends(self):
        for line, why in (("end 1 2\n", "it has ended"), ("memory 1 2\n", "no memory")):
            with self.subTest(line), self.assertRaisesRegex(Fault, why):
                self.shadow().work(line)

    def test_hangs(self):
        shadow = self.shadow()
        with mock.patch.object(loads, "PATIENCE", 0.2), self.assertRaisesRegex(Fault, "has ended"):
            shadow.work("hang 1 2\n")

    def test_nothing_is_left(self):
        shadow = self.shadow()
        self.assertFalse(Path(shadow.folder).exists())
        process = shadow.process
        shadow.end()
        self.assertIsNotNone(process.returncode)

    def test_no_program(self):
        with mock.patch.object(loads.tempfile, "tempdir", str(self.folder)):
            for program, said in (
                ("/nowhere/glb", "/nowhere/glb: No such file or directory"),
                (
                    "no-glb",
                    "no-glb: No such file or directory in the PATH: --glb names the program",
                ),
                (str(self.folder), f"{self.folder}: Permission denied"),
            ):
                with self.assertRaises(Fault) as found:
                    Shadow(program, SMALL.encode())
                self.assertEqual(str(found.exception), said)
            self.assertRaisesRegex(Fault, "no map 0 came", Shadow, "/bin/false", SMALL.encode())
        self.assertEqual([path.name for path in self.folder.iterdir()], ["glb"])

    def test_a_program_that_hangs(self):
        program = self.file("hangs", "#!/bin/sh\nexec sleep 60\n")
        os.chmod(program, stat.S_IRWXU)
        with mock.patch.object(loads, "PATIENCE", 0.1), self.assertRaises(Fault):
            Shadow(program, SMALL.encode())


def until(holds):
    for _ in range(1000):
        if holds():
            return
        time.sleep(0.01)
    raise AssertionError("it did not come")


@mock.patch.object(loads, "AGAIN", 0.05)
class Files(Played):
    def test_a_log(self):
        topology, log = self.small(), Path(self.file("log", "demand g1 5\ncommit\ndemand g1 4\n"))
        worker = FileWorker(self.program, 0.02, topology, str(log))
        self.start(worker)
        until(lambda: worker.loads and worker.loads.placed == 5)
        self.assertTrue(worker.is_up)
        with open(log, "a") as file:
            file.write("commit\n")
        until(lambda: worker.loads and worker.loads.placed == 4)
        # one that was put in its place is worked from its start
        log.unlink()
        log.write_text("demand g1 7\ncommit\n")
        until(lambda: worker.loads and worker.loads.placed == 7)
        # and one that was made shorter, too
        log.write_text("")
        until(lambda: worker.loads and worker.loads.placed == 8)
        # another topology
        Path(topology).write_text(SMALL.replace("capacity = 15", "capacity = 16"))
        until(lambda: worker.loads and worker.loads.nodes["R"][1] == 16)
        log.unlink()
        until(lambda: not worker.is_up and worker.loads is None)
        self.assertEqual(sum("worked anew" in why for why in self.told()), 3)
        self.assertIn("No such file", self.told()[-1])


class Entries:
    """Plays the log of a fleet."""

    def __init__(self, topology, *batches):
        self.base = SimpleNamespace(number=1, checksum="b" * 64, upto=0, chain="")
        self.text, self.is_away, self.is_endless = topology, False, False
        self.batches = list(batches)

    def newest_base(self):
        return self.base

    def topology(self, checksum):
        return self.text if checksum == self.base.checksum else None

    def look(self, number):
        if self.is_away:
            raise Unreachable("nobody answers")
        if self.is_endless:
            self.batches.append(f"demand g1 {len(self.batches)}\n")
        every = [
            SimpleNamespace(
                number=n,
                kind="batch",
                lines=lines,
                checksum=f"sum {n} {lines}",
            )
            for n, lines in enumerate(self.batches, 1)
        ]
        return SimpleNamespace(
            newest=self.base,
            last=len(every),
            entries=every[number - 1 :],
            base_at=lambda _: self.base,
        )


@mock.patch.object(loads, "AGAIN", 0.05)
@mock.patch.object(loads, "SELDOM", 0.05)
class Fleets(Played):
    def test_a_log(self):
        log = Entries(SMALL.encode(), "", "demand g1 5\n", "demand g1 3\n")
        worker = FleetWorker(self.program, 0.02, log)
        self.start(worker)
        until(lambda: worker.loads and worker.loads.placed == 3)
        self.assertEqual(worker.loads.entry, 3)
        log.batches.append("demand g1 6\n")
        until(lambda: worker.loads and worker.loads.placed == 6)
        # etcd is away for a while: nothing is begun anew
        log.is_away = True
        until(lambda: not worker.is_up)
        log.text, log.is_away = None, False
        until(lambda: worker.is_up and worker.loads.placed == 6)
        log.text = SMALL.encode()
        # another log, whose entries have the same numbers
        log.batches[1:] = ["demand g1 2\n", "demand g1 1\n"]
        until(lambda: worker.loads and worker.loads.placed == 1)
        # another base
        log.base = SimpleNamespace(number=3, checksum="c" * 64, upto=2, chain="sum 2 demand g1 2\n")
        until(lambda: worker.loads and worker.loads.placed == 1 and worker.loads.entry == 3)
        log.text = None
        log.base = SimpleNamespace(number=4, checksum="d" * 64, upto=2, chain="x")
        until(lambda: not worker.is_up and worker.loads is None)
        self.assertIn("nobody answers", self.told()[0])
        self.assertTrue(any("entry 4 of the log is not the one" in why for why in self.told()))
        self.assertIn("is not in etcd", self.told()[-1])

    def test_a_log_without_an_end(self):
        """It is summed up now and then, and at its end."""
        log = Entries(SMALL.encode(), "", "demand g1 5\n")
        log.is_endless = True
        worker = FleetWorker(self.program, 0.02, log)
        self.start(worker)
        until(lambda: worker.loads and worker.loads.entry > 40)
        log.is_endless = False
        until(lambda: worker.loads.entry == len(log.batches))
        self.assertEqual(worker.loads.placed, len(log.batches) - 1)
        self.assertEqual(self.told(), [])


@unittest.skipUnless(os.environ.get("GLB"), "GLB does not name the program")
class Real(Case):
    def test_small(self):
        shadow = Shadow(os.environ["GLB"], SMALL.encode())
        self.addCleanup(shadow.end)
        self.assertEqual((shadow.loads(0).demand, shadow.loads(0).placed), (19, 15))
        shadow.work("capacity R 9\n")
        self.assertEqual((shadow.loads(1).nodes["R"], shadow.loads(1).placed), ((9, 9), 9))
        shadow.work("capacity Z 9\n")
        shadow.work("ask 192.0.2.1 00\nshow\ndemand g2 1\n")
        self.assertEqual(shadow.loads(3).demand, 12)


if __name__ == "__main__":
    unittest.main()
