"""The pipes of a server, played by a thread that reads a feed as docs/FORMATS.md has it."""

import hashlib
import os
import tempfile
import threading
import unittest
from pathlib import Path

from glb_tools.options import Fault
from glb_tools.server import PIPES, Server, Texts

MAP = b"glb map 2\nplace g A %d\nend\n"


def digest(octets):
    return hashlib.sha256(octets).hexdigest()


class Played(threading.Thread):
    """Reads a feed, and answers each line; names that begin with X are unknown."""

    def __init__(self, folder):
        super().__init__(daemon=True)
        self.feed, self.said, self.maps = (os.open(folder / name, os.O_RDWR) for name in PIPES)
        self.serial, self.line, self.refused, self.changes = 0, 0, 0, 0
        self.is_held = threading.Event()
        self.is_held.set()

    def say(self, text):
        os.write(self.said, text.encode())

    def run(self):
        rest = b""
        while True:
            self.is_held.wait()
            *lines, rest = (rest + os.read(self.feed, 65536)).split(b"\n")
            for line in lines:
                self.line += 1
                if line == b"stop":
                    return
                self.answer(line.decode().split())

    def answer(self, words):
        match words:
            case ["demand", name, _] if not name.startswith("X"):
                self.changes += 1
            case ["commit"]:
                self.commit()
            case ["show"]:
                self.say(f"show {self.serial} placed 1 unplaced 2 full 3\n")
            case ["ask", _, octets]:
                self.say(f"answer {self.serial} {octets}\n")
            case _:
                self.refused += 1
                self.say(f"refused {self.line} unknown name\n")

    def commit(self):
        if self.refused:
            self.say(f"refused commit lines {self.refused}\n")
        else:
            self.serial += self.changes > 0
            os.write(self.maps, MAP % self.serial)
            self.say(f"published {self.serial}\n")
        self.refused = self.changes = 0


class Pipes(unittest.TestCase):
    def setUp(self):
        folder = tempfile.TemporaryDirectory()
        self.addCleanup(folder.cleanup)
        self.folder = Path(folder.name)
        for name in PIPES:
            os.mkfifo(self.folder / name)
        self.played = Played(self.folder)
        self.played.start()
        self.server = Server(self.folder)
        self.addCleanup(self.server.stop)

    def idle(self):
        pass

    def test_a_batch(self):
        self.assertEqual(self.server.find(self.idle).shown.serial, 0)
        worked = self.server.work("demand g 1\n", self.idle)
        self.assertEqual((worked.shown.serial, worked.map), (1, digest(MAP % 1)))
        self.assertEqual((worked.shown.placed, worked.shown.unplaced), (1, 2))
        self.assertIsNone(worked.dropped)

    def test_a_batch_that_is_dropped(self):
        for _ in range(2):
            self.server.find(self.idle)
            self.server.show(self.idle)
            self.server.work("demand g 1\n", self.idle)
            worked = self.server.work("demand g 1\ndemand X 1\n", self.idle)
            self.assertEqual(worked.dropped, "line 2: unknown name")
        self.assertEqual((worked.shown.serial, worked.map), (2, None))

    def test_more_is_refused_than_a_pipe_holds(self):
        lines = "".join(f"demand X{number} 1\n" for number in range(4096))
        worked = self.server.work(lines, self.idle)
        self.assertEqual(worked.dropped, "line 1: unknown name")
        self.assertEqual(self.server.work("demand g 1\n", self.idle).shown.serial, 1)

    def test_what_a_follower_before_left_is_not_taken_for_an_answer(self):
        for left in (
            b"demand X 1\ncommit\nshow\n",
            b"demand g 1\ncommit\nshow\ndemand g",
            b"demand g 1\n",
        ):
            with self.subTest(left):
                serial = self.played.serial
                os.write(self.server.feed, left)
                found = self.server.find(self.idle)
                self.assertEqual(found.shown.serial, serial + (b"g 1\ncommit" in left))
                worked = self.server.work("demand g 2\n", self.idle)
                self.assertEqual(worked.shown.serial, found.shown.serial + 1)
                self.assertEqual(worked.map, digest(MAP % worked.shown.serial))

    def test_somebody_else_writes(self):
        self.server.find(self.idle)
        os.write(self.played.said, b"published 9\n")
        with self.assertRaisesRegex(Fault, "who else"):
            self.server.show(self.idle)

    def test_one_follower_alone(self):
        with self.assertRaisesRegex(Fault, "another follower"):
            Server(self.folder)

    def test_a_server_that_is_silent(self):
        self.server.find(self.idle)
        self.played.is_held.clear()
        waited = []

        def idle():
            waited.append(1)
            self.played.is_held.set()

        # the thread may read once more before it looks
        self.server.show(idle)
        self.server.show(idle)
        self.assertTrue(waited)


class Maps(unittest.TestCase):
    def test_in_pieces_of_each_size(self):
        octets = (MAP % 1) + b"glb map 2\nend\n" + (MAP % 2)
        due = [digest(MAP % 1), digest(b"glb map 2\nend\n"), digest(MAP % 2)]
        for size in range(1, len(octets) + 1):
            texts = Texts()
            for at in range(0, len(octets), size):
                texts.take(octets[at : at + size])
            self.assertEqual((texts.whole, texts.version), (due, "2"), size)

    def test_one_whose_beginning_was_missed(self):
        texts = Texts()
        texts.take((MAP % 1)[4:] + MAP % 2)
        self.assertEqual(texts.whole, [digest(MAP % 2)])


if __name__ == "__main__":
    unittest.main()
