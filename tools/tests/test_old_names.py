"""What had another name before stays under it until the next release of the package."""

import subprocess
import sys
import unittest

from samples import SMALL, SMALL_MAP, TOOLS, Case, command

# a script of somebody's own, by the names of before
SCRIPT = """
import sys
sys.path.insert(0, sys.argv[1])
from batches import Log
from places import Places, place_of, written
from texts import Fault, Refused, Replay, Sums, Topology, lines_of, read_line, read_map, read_topology, told
topology = read_topology(sys.argv[2])
assert Sums(topology, read_map(topology, sys.argv[3])).load == [15, 9, 6]
replay = Replay(topology)
replay.take(b"capacity B 7\\ndemand g2www 9\\ncommit\\n")
assert place_of(topology, "demand", 2) == ("class", 0, "demand")
told(lambda: sys.stdout.write(written(open(sys.argv[2]).read(), topology, replay.numbers)) and None)
"""


class Names(Case):
    def test_modules(self):
        files = self.small(), self.file("small.map", SMALL_MAP)
        words = [sys.executable, "-B", "-c", SCRIPT, str(TOOLS), *files]
        found = subprocess.run(words, capture_output=True, text=True, timeout=60)
        due = SMALL.replace("1_0", "7").replace("\ndemand = 3", "\ndemand = 9")
        self.assertEqual((found.returncode, found.stdout, found.stderr), (0, due, ""))

    def test_commands(self):
        files = self.small(), self.file("small.map", SMALL_MAP)
        for old, new, words in (
            ("why.py", "glb-why", [*files, "g1"]),
            ("moves.py", "glb-moves", [files[1], files[1]]),
            ("numbers.py", "glb-numbers", [files[0], "/dev/null"]),
        ):
            with self.subTest(old):
                found = command(old, *words)
                self.assertEqual((found.returncode, found.stderr), (0, b""))
                self.assertTrue(found.stdout)
                self.assertEqual(found.stdout, command(new, *words).stdout)


if __name__ == "__main__":
    unittest.main()
