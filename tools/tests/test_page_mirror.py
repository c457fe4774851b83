"""The mirror, over a program that plays `glb serve`, and where the page knows of servers from."""

import os
import socket
import threading
import time
import unittest
from pathlib import Path
from types import SimpleNamespace
from unittest import mock

import page_world
from page_world import REPLY, program
from test_loads import Entries, until

from glb_tools import etcd, loads
from glb_tools.drains import Drain
from glb_tools.etcd import Etcd
from glb_tools.fleet import Report
from glb_tools.log import BASE, BATCH, NONE
from glb_tools.log import Log as FleetLog
from glb_tools.options import Fault
from glb_tools.page import counters, mirror, sources
from glb_tools.page.mirror import Busy, FileMirror, FleetMirror
from glb_tools.page.sources import FileSource, FleetSource, Local, Said, server_of
from samples import SMALL, Case

assert page_world


class Played(Case):
    def setUp(self):
        super().setUp()
        self.program = program(self)
        for name, value in (("AGAIN", 0.05), ("SELDOM", 0.02)):
            patch = mock.patch.object(loads, name, value)
            patch.start()
            self.addCleanup(patch.stop)
        told = mock.patch.object(loads, "tell").start()
        self.addCleanup(mock.patch.stopall)
        self.told = lambda: [str(call.args[0]) for call in told.call_args_list]

    def start(self, worker):
        thread = threading.Thread(target=worker.run)
        thread.start()
        self.addCleanup(thread.join)
        self.addCleanup(worker.over.set)
        return worker


class Files(Played):
    def setUp(self):
        super().setUp()
        self.topology = self.small()
        self.log = Path(self.file("log", "demand g1 5\ncommit\ndemand  g1 4\ncommit\n"))

    def mirror(self):
        return self.start(FileMirror(self.program, 0.02, self.topology, str(self.log)))

    def append(self, text):
        with open(self.log, "a") as file:
            file.write(text)

    def test_steps(self):
        found = self.mirror()
        until(lambda: found.served and found.served.entry == 2)
        served = found.served
        self.assertEqual((served.serial, served.sums.placed_units), (2, 4))
        self.assertEqual(served.sums.demands.tolist(), [4, 8, 3])
        self.assertEqual(served.refusals.of(0).tolist(), [17])
        newest, second, first = found.steps.listed()
        self.assertEqual((first.kind, first.number, first.rows), ("start", 0, None))
        self.assertEqual((second.number, second.author, second.lost), (1, "by hand", 3))
        self.assertEqual((newest.number, newest.author, newest.lost), (2, "glb-watch", 1))
        self.assertEqual(newest.lines, ["demand  g1 4"])
        self.append("capacity B 3\nbad 1 2\ncommit\ncapacity A 0\ndemand g1 6\ncommit\n")
        until(lambda: found.served.entry == 4)
        newest, dropped = found.steps.listed()[:2]
        self.assertEqual((dropped.number, dropped.dropped), (3, "refused commit lines 1"))
        self.assertEqual((newest.serial, newest.gained, newest.line_count), (3, 2, 2))
        self.assertEqual(found.served.sums.capacities.tolist(), [15, 0, 10])
        self.assertEqual(found.setters["A"].author, "by hand")
        self.assertEqual(found.setters["A"].number, 4)
        self.assertNotIn("B", found.setters)
        # an empty batch publishes nothing
        self.append("commit\ndemand g1 7\ncommit\n")
        until(lambda: found.served.entry == 6)
        self.assertEqual([step.number for step in found.steps.listed()[:2]], [6, 4])

    def test_the_log_goes(self):
        found = self.mirror()
        until(lambda: found.served and found.served.entry == 2)
        listed = found.steps.listed()
        self.log.unlink()
        until(lambda: not found.is_up)
        self.assertIn("No such file", found.fault)
        # what was seen last stays, and is said to be old
        self.assertEqual(found.served.entry, 2)
        self.assertRaises(Busy, found.ask, "192.0.2.1", b"")
        self.log.write_text("demand g1 5\ncommit\ndemand  g1 4\ncommit\ndemand g1 3\ncommit\n")
        until(lambda: found.is_up and found.served.entry == 3)
        # the steps that are the same are not told twice
        now = found.steps.listed()
        self.assertEqual([step.number for step in now], [3, 2, 1, 0])
        self.assertEqual([step.seen for step in now[1:]], [step.seen for step in listed])
        self.assertEqual(now[0].lost, 1)

    def test_another_log(self):
        found = self.mirror()
        until(lambda: found.served and found.served.entry == 2)
        self.log.unlink()
        self.log.write_text("demand g1 5\ncommit\ndemand g1 2\ncommit\n")
        until(lambda: found.is_up and found.served.sums.placed_units == 2)
        self.assertEqual([step.number for step in found.steps.listed()], [2, 1, 0])
        self.assertEqual(found.steps.listed()[0].lines, ["demand g1 2"])

    def test_another_topology(self):
        found = self.mirror()
        until(lambda: found.served and found.served.entry == 2)
        Path(self.topology).write_text(SMALL.replace("capacity = 15", "capacity = 16"))
        until(lambda: found.is_up and found.served.sums.capacities[0] == 16)
        until(lambda: found.served.entry == 2)
        newest = found.steps.listed()[0]
        self.assertEqual((newest.number, newest.placed), (2, 4))

    def test_it_dies(self):
        found = self.mirror()
        until(lambda: found.is_up)
        before = [step.number for step in found.steps.listed()]
        first = found.reflection
        first.process.kill()
        # it is seen though no batch comes
        until(lambda: found.reflection is not first and found.is_up)
        self.assertIn("the mirror has ended (status -9)", self.told()[0])
        self.append("demand g1 3\ncommit\n")
        until(lambda: found.served.entry == 3)
        self.assertEqual([step.number for step in found.steps.listed()], [3, *before])
        self.assertIsNotNone(first.process.returncode)

    def test_it_never_begins(self):
        self.program = self.file("none", "#!/bin/sh\nexit 3\n")
        os.chmod(self.program, 0o700)
        found = self.mirror()
        until(lambda: found.fault)
        self.assertIn("no map 0 came", found.fault)
        self.assertIsNone(found.served)

    def test_a_long_log(self):
        """Of a log that is long the last maps alone are taken apart."""
        with mock.patch.object(mirror, "MOST_STEPS", 5):
            self.log.write_text("".join(f"demand g1 {n}\ncommit\n" for n in range(1, 31)))
            found = self.mirror()
            until(lambda: found.served and found.served.entry == 30)
        listed = [step.number for step in found.steps.listed()]
        self.assertEqual(listed, [30, 29, 28, 27, 26, 0])
        self.assertEqual([step.gained for step in found.steps.listed()[:4]], [1, 1, 1, 1])

    def test_asked(self):
        found = self.mirror()
        until(lambda: found.is_up)
        self.assertEqual(found.ask("192.0.2.1", b"\x12\x34"), (2, bytes.fromhex(REPLY)))
        self.assertEqual(found.ask("192.0.2.98", b""), (2, None))
        with mock.patch.object(mirror, "SILENT", 0.1), self.assertRaises(Fault):
            found.ask("192.0.2.99", b"")
        # it was ended, and begins anew
        until(lambda: found.fault)
        until(lambda: found.is_up)
        self.assertEqual(found.ask("192.0.2.1", b"")[0], 2)

    def test_busy(self):
        found = self.mirror()
        until(lambda: found.is_up)
        with found.reflection.lock, mock.patch.object(mirror, "BUSY", 0.01):
            self.assertRaises(Busy, found.ask, "192.0.2.1", b"")


class Log(Entries):
    """A fleet's log whose entries have authors; the first one is the base."""

    reason = "a <b> reason"

    def look(self, number):
        found = super().look(number)
        for entry in found.entries:
            entry.kind = BASE if entry.number == self.base.number else BATCH
            if entry.lines == "nothing":
                entry.kind, entry.lines = NONE, ""
            entry.author, entry.why, entry.time = "ann", self.reason, 1000 + entry.number
        return found


class Fleets(Played):
    def test_a_log(self):
        log = Log(SMALL.encode(), "", "demand g1 5\n", "nothing", "capacity B 0\ndemand g1 3\n")
        found = self.start(FleetMirror(self.program, 0.02, log))
        until(lambda: found.served and found.served.entry == 4)
        fourth, third, second, first = found.steps.listed()
        self.assertEqual((first.number, first.kind), (1, "base"))
        self.assertEqual((second.author, second.why, second.sent), ("ann", "a <b> reason", 1002))
        self.assertEqual((second.lost, fourth.lost), (3, 2))
        self.assertEqual((third.kind, third.has_map), ("nothing", False))
        self.assertEqual((found.setters["B"].sent, found.setters["B"].author), (1004, "ann"))
        # what is handed back is measured again, whoever hands it back
        log.reason = "handed back: it is mended"
        log.batches.append("capacity B 10\n")
        until(lambda: found.served.entry == 5)
        self.assertEqual(found.setters["B"].author, "glb-watch")
        self.assertEqual(found.steps.listed()[0].author, "ann")
        # etcd is away: what was seen stays
        log.is_away = True
        until(lambda: not found.is_up)
        self.assertIn("nobody answers", found.fault)
        self.assertEqual(found.served.entry, 5)
        log.is_away = False
        until(lambda: found.is_up)

    def test_another_base(self):
        log = Log(SMALL.encode(), "", "demand g1 5\n", "demand g1 3\n")
        found = self.start(FleetMirror(self.program, 0.02, log))
        until(lambda: found.served and found.served.entry == 3)
        log.batches.append("")
        log.base = SimpleNamespace(number=4, checksum="c" * 64, upto=2, chain="sum 2 demand g1 5\n")
        log.batches.append("demand g1 2\n")
        until(lambda: found.served and found.served.entry == 5)
        # entry 3 was worked once more behind the new base, and is told once
        self.assertEqual([step.number for step in found.steps.listed()], [5, 4, 3, 2, 1])
        self.assertEqual([step.kind for step in found.steps.listed()][1], "base")
        self.assertEqual(found.steps.listed()[0].lost, 1)


class Sources(Case):
    def test_etcd_hangs(self):
        """A member that takes connections and says nothing: the source says so, and keeps when it saw something last."""
        silent = socket.create_server(("127.0.0.1", 0))
        self.addCleanup(silent.close)
        members = Etcd([f"http://127.0.0.1:{silent.getsockname()[1]}"])
        found = FleetSource(0.01, FleetLog(members, "glb"), [])
        found.sight.time = 77.0
        with mock.patch.object(etcd, "PATIENCE", 0.05), mock.patch.object(sources, "tell"):
            thread = threading.Thread(target=found.run)
            thread.start()
            until(lambda: "etcd" in found.sight.fault)
            found.over.set()
            thread.join()
        self.assertEqual((found.sight.time, found.sight.servers), (77.0, []))

    def test_it_puts_nothing(self):
        """No call of a source or a mirror changes anything in etcd."""
        calls = []

        class Members(Etcd):
            def reach(self, path, message, use):
                calls.append((path, message))
                raise Fault("looked at")

        found = FleetSource(0.01, FleetLog(Members(["http://127.0.0.1:1"]), "glb"), [])
        self.assertRaises(Fault, found.look)
        self.assertTrue(calls)
        for path, message in calls:
            self.assertEqual(path, "/v3/kv/txn")
            self.assertEqual(message["compare"], [])
            self.assertEqual(
                {key for part in message["success"] for key in part}, {"request_range"}
            )

    def test_states(self):
        told = {
            "name": "h1",
            "state": "there",
            "entry": 9,
            "chain": "ab" * 32,
            "behind": 0,
            "serial": 4,
            "placed": 12,
            "unplaced": "many",
            "time": 500,
            "workers": 3,
            "maps": {"9.ababab": "f" * 64, "8.ababab": "e" * 64},
        }
        found = server_of(told, {"h2"})
        self.assertEqual((found.entry, found.serial, found.workers, found.time), (9, 4, 3, 500.0))
        self.assertEqual((found.checksum, found.placed, found.unplaced), ("f" * 16, 12, None))
        self.assertEqual((found.is_bad, found.differs), (False, False))
        self.assertTrue(server_of(told, {"h1"}).is_bad)
        gone = server_of({"name": "h3", "state": "gone", "why": "it says nothing"}, set())
        self.assertEqual((gone.is_bad, gone.words, gone.entry), (True, "it says nothing", None))
        hangs = server_of(told | {"state": "hangs", "hangs": 12}, set())
        self.assertIn("12 s", hangs.words)
        self.assertFalse(server_of(told | {"state": "behind", "behind": 2}, set()).is_bad)

    def test_outvoted(self):
        def sides(*names):
            return Report(differ={5: {str(n): list(each) for n, each in enumerate(names)}})

        self.assertEqual(sources.outvoted_in(sides("ab", "c")), {"c"})
        self.assertEqual(sources.outvoted_in(sides("ab", "cd")), {"a", "b", "c", "d"})
        self.assertEqual(sources.outvoted_in(Report()), set())

    def test_sockets(self):
        """A server of two workers on this host, whose port the kernel shows."""
        first = socket.socket(socket.AF_INET, socket.SOCK_DGRAM)
        first.setsockopt(socket.SOL_SOCKET, socket.SO_REUSEPORT, 1)
        first.bind(("127.0.0.7", 0))
        port = first.getsockname()[1]
        second = socket.socket(socket.AF_INET, socket.SOCK_DGRAM)
        second.setsockopt(socket.SOL_SOCKET, socket.SO_REUSEPORT, 1)
        second.bind(("127.0.0.7", port))
        self.addCleanup(first.close)
        found = counters.sockets_at("127.0.0.7", port)
        self.assertEqual((found.workers, found.drops), (2, 0))
        second.close()
        self.assertEqual(counters.sockets_at("127.0.0.7", port).workers, 1)
        self.assertEqual(counters.sockets_at("127.0.0.8", port).workers, 0)
        self.assertIsNone(counters.sockets_at("127.0.0.7", port, (self.folder / "none",)))

    def test_lists_of_the_kernel(self):
        six = self.file(
            "udp6",
            "  sl  local_address remote_address st tx_queue ..\n"
            "  12: 000080FE00000000FFADDE0201000000:0035 00000000000000000000000000000000:0000 07"
            " 00000000:00000000 00:00000000 00000000     0        0 31113 2 0000000000000000 41\n"
            "  13: B80D0120000000000000000053000000:0035 00000000000000000000000000000000:0000 07"
            " 00000000:00000000 00:00000000 00000000     0        0 31113 2 0000000000000000 7\n"
            "nonsense\n",
        )
        # 2001:db8::53, each word of four octets turned round
        found = counters.sockets_at("2001:db8::53", 53, (Path(six),))
        self.assertEqual((found.workers, found.drops), (1, 7))

    def test_counts_of_nftables(self):
        rule = '{"rule": {"comment": "%s", "expr": [{"match": {}}, {"counter": {"packets": %d}}]}}'
        said = '{"nftables": [{"metainfo": {}}, %s, %s, %s]}' % (
            rule % ("queries by UDP", 12),
            rule % ("queries by TCP", 5),
            rule % ("replies of code 0", 99),
        )
        self.assertEqual(counters.queries_in(said), 17)
        for nonsense in ("", "[]", '{"nftables": 3}', '{"nftables": [{"rule": 4}]}', "[" * 9999):
            self.assertIsNone(counters.queries_in(nonsense))

    def test_a_unit(self):
        for said, due in (("123\n", 123), ("[not set]\n", None), ("18446744073709551615", None)):
            with mock.patch.object(counters, "said_by", return_value=said):
                self.assertEqual(counters.unit_packets("glb"), due)
        self.assertIsNone(counters.said_by(["/nowhere/at/all"]))
        with mock.patch.object(counters, "PATIENCE", 0.05):
            self.assertIsNone(counters.said_by(["sleep", "9"]))

    def test_one_server(self):
        said = Said(self.file("said", "published 1\n3 published 4\nnoise\n"))
        over = threading.Event()
        thread = threading.Thread(target=said.run, args=(over,))
        thread.start()
        self.addCleanup(thread.join)
        self.addCleanup(over.set)
        until(lambda: said.serial == 4)
        found = FileSource(
            1, str(self.folder / "log"), Local("s", "127.0.0.7", 1), said, lambda: 6
        ).look()
        server = found.servers[0]
        self.assertEqual((server.serial, server.behind, server.workers), (4, 2, 0))
        self.assertEqual((server.state, server.is_bad), ("silent", True))
        self.assertEqual(found.advice[0][0], "silent")
        with open(said.path, "a") as file:
            file.write("show 5 placed 10 unplaced 2 full 1\nrefused commit memory\n")
        until(lambda: said.serial == 5)
        self.assertEqual((said.placed, said.unplaced), (10, 2))
        until(lambda: said.dropped == 1)
        # a file that was put in its place
        other = self.file("other", "published 9\n")
        os.replace(other, said.path)
        with mock.patch.object(
            threading.Event, "wait", lambda self, seconds=None: time.sleep(0.01)
        ):
            until(lambda: said.serial == 9)

    def test_drains(self):
        kept = Drain("A", 9, 1, 5, "ann", "", False, 60, 10, "r", 9, 8).octets()
        self.file("log.drains", f"no json\n{kept}\n")
        found = FileSource(1, str(self.folder / "log"), Local("s"), None, lambda: None).look()
        self.assertIn("cannot be read", found.advice[0][1])
        self.assertEqual([each.node for each in found.drains], ["A"])
        self.assertEqual(found.servers[0].state, "not looked at")


if __name__ == "__main__":
    unittest.main()
