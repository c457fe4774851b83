"""Lines of feeds, and what a server takes of them."""

import types
import unittest

from glb_tools.text import Refused, Replay, lines_of, words_of

NAMES = types.SimpleNamespace(unit_at={"g1": 0, "g2": 1}, node_at={"A": 0, "B": 1})


class Lines(unittest.TestCase):
    def test_lines(self):
        self.assertEqual(lines_of(b"a\n\nb"), [b"a", b"", b"b"])
        self.assertEqual(lines_of(b"a\n"), [b"a"])
        self.assertEqual(lines_of(b""), [])

    def test_refused(self):
        for line, why in (
            (b"demand g1 x", "bad number"),
            (b"demand g1 +1", "bad number"),
            (b"demand g1 12345678901234567890", "bad number"),
            (b"demand g1", "wrong count"),
            (b"commit 1", "wrong count"),
            (b"add g1 1", "unknown word"),
            (b"Demand g1 1", "unknown word"),
            (b"", "unknown word"),
            (b"  ", "unknown word"),
            (b"capacity \xff 1", "bad byte"),
            (b"demand\tg1 1", "bad byte"),
            (b"demand g1 1\r", "bad byte"),
            (b"commit" + b" " * 8295, "too long"),
            (b"ask 1.2.3 00", "bad address"),
            (b"ask fe80::1%1 00", "bad address"),
            (b"ask ::ffff:1.2.3.4 00", "bad address"),
            (b"ask 1.2.3.4 abc", "bad hex"),
            (b"ask 1.2.3.4 0g", "bad hex"),
        ):
            with self.subTest(line[:40]), self.assertRaisesRegex(Refused, f"^{why}$"):
                words_of(line)

    def test_taken(self):
        self.assertEqual(words_of(b" demand  g1 007 "), ["demand", "g1", "007"])
        self.assertEqual(words_of(b"commit" + b" " * 8294), ["commit"])
        self.assertEqual(words_of(b"ask 2001:db8::1 " + b"0F"), ["ask", "2001:db8::1", "0F"])


class Replays(unittest.TestCase):
    def replay(self, text):
        replay = Replay(NAMES)
        replay.take(text.encode())
        return replay

    def test_a_batch_counts_with_its_commit(self):
        replay = self.replay("demand g1 6\ncapacity B 9\ndemand g1 7\ncommit\ndemand g2 1\n")
        self.assertEqual(replay.numbers, {("demand", 0): 7, ("capacity", 1): 9})
        self.assertEqual((replay.published, len(replay.batch), replay.dropped), (1, 1, []))

    def test_a_refused_line_drops_its_batch(self):
        replay = self.replay("demand g1 6\ndemand g9 1\ncommit\ndemand g1 5\ncommit\n")
        self.assertEqual(replay.numbers, {("demand", 0): 5})
        self.assertEqual(replay.dropped, [(3, [(2, "unknown name")])])
        self.assertEqual(replay.published, 1)

    def test_ranges(self):
        replay = self.replay(
            "demand g1 0\ndemand g1 4294967296\ncapacity A 281474976710657\ncapacity g1 1\ncommit\n"
            "demand g1 4294967295\ndemand g2 1\ncapacity A 281474976710656\ncapacity B 0\ncommit\n"
        )
        whys = [why for _, why in replay.dropped[0][1]]
        self.assertEqual(whys, ["out of range"] * 3 + ["unknown name"])
        self.assertEqual(sorted(replay.numbers.values()), [0, 1, 4294967295, 281474976710656])

    def test_the_largest_batch(self):
        replay = self.replay(
            "demand g1 1\n" * 4096 + "commit\n" + "demand g1 2\n" * 4097 + "commit"
        )
        self.assertEqual(replay.dropped, [(8195, [(8194, "batch full")])])
        self.assertEqual(replay.numbers, {("demand", 0): 1})

    def test_nothing_counts_behind_stop(self):
        replay = self.replay("demand g1 4\ncommit\nstop\ndemand g1 9\ncommit")
        self.assertEqual(
            (replay.numbers, replay.is_stopped, replay.line), ({("demand", 0): 4}, True, 3)
        )

    def test_an_empty_batch_publishes_nothing(self):
        self.assertEqual(self.replay("commit\nshow\ncommit\n").published, 0)


if __name__ == "__main__":
    unittest.main()
