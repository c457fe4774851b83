"""What takes long shows on a terminal, and nowhere else."""

import contextlib
import io
import os
import pty
import time
import unittest
from unittest import mock

from glb_tools import options
from glb_tools.options import Progress


@mock.patch.object(options, "SILENT", 0.1)
class Shows(unittest.TestCase):
    def shown(self, seconds, total=0):
        """What a terminal gets of something that takes so long."""
        ours, theirs = pty.openpty()
        with os.fdopen(theirs, "w") as terminal, contextlib.redirect_stderr(terminal):
            with Progress("reads", total) as progress:
                progress.step(3)
                time.sleep(seconds)
        octets = b""
        with contextlib.suppress(OSError):
            # it ends by a fault, since the other end is closed
            while piece := os.read(ours, 1000):
                octets += piece
        os.close(ours)
        return octets.decode()

    def test_long(self):
        self.assertEqual(self.shown(0.3), "\rreads: 0 s \r\x1b[K")
        self.assertEqual(self.shown(0.3, 6), "\rreads: 0 s, 50 % \r\x1b[K")

    def test_short(self):
        self.assertEqual(self.shown(0), "")

    def test_no_terminal(self):
        said = io.StringIO()
        with contextlib.redirect_stderr(said), Progress("reads"):
            time.sleep(0.3)
        self.assertEqual(said.getvalue(), "")

    def test_a_fault_ends_it(self):
        with self.assertRaises(KeyError), Progress("reads") as progress:
            raise KeyError
        self.assertTrue(progress.over.is_set())


if __name__ == "__main__":
    unittest.main()
