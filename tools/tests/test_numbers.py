"""glb-numbers."""

import subprocess
import sys
import unittest

from glb_tools.numbers import main
from samples import EXAMPLES, SMALL, TOOLS, Case, command

LOG = "demand g1 6\ncapacity A 9\ncommit\ndemand g9 1\ncapacity B 1\ncommit\ndemand g2www 0004\ncapacity B 12\ncommit\ndemand g2 1\n"
DUE = (
    SMALL.replace('parent = "R", capacity = 10', 'parent = "R", capacity = 9')
    .replace('"capacity" = 1_0', '"capacity" = 12')
    .replace("\ndemand = 8", "\ndemand = 6")
    .replace("\ndemand = 3", "\ndemand = 4")
)


class Numbers(Case):
    def test_numbers_and_what_was_dropped(self):
        status, out, said = self.run_main(main, self.small(), self.file("log", LOG))
        self.assertEqual((status, out), (0, DUE))
        self.assertEqual(
            said,
            "the batch that ends in line 6 was dropped: refused 4 unknown name\n"
            "what stands behind the last commit does not count: changes 1\n",
        )

    def test_refused_behind_the_last_commit(self):
        log = self.file("log", "demand g1 6\ncommit\ndemand g1 x\n\n")
        _, _, said = self.run_main(main, self.small(), log)
        self.assertEqual(
            said,
            "what stands behind the last commit does not count: changes 0, refused 3 bad number, 4 unknown word\n",
        )

    def test_no_change(self):
        self.assertEqual(self.good(main, self.small(), "/dev/null"), SMALL)

    def test_nothing_behind_stop(self):
        log = self.file("log", "demand g1 4\ncommit\nstop\ndemand g1 9\ncommit")
        status, out, said = self.run_main(main, self.small(), log)
        self.assertEqual((status, out), (0, SMALL.replace("\ndemand = 8", "\ndemand = 4")))
        self.assertEqual(said, "line 3 is `stop`: a server that reads this log ends there\n")

    def test_two_logs_are_one_feed(self):
        """The second one's commit takes the change of the first."""
        logs = self.file("first", "demand g1 7\n"), self.file("second", "commit")
        self.assertEqual(
            self.good(main, self.small(), *logs), SMALL.replace("\ndemand = 8", "\ndemand = 7")
        )

    def test_json(self):
        self.assertEqual(
            self.table(main, self.small(), self.file("log", LOG)),
            {
                "demand": {"g1": 6, "g2www": 4},
                "capacity": {"A": 9, "B": 12},
                "published": 2,
                "dropped": [{"commit": 6, "refused": [{"line": 4, "why": "unknown name"}]}],
                "open": 1,
                "stopped": False,
            },
        )

    def test_mark(self):
        text = (EXAMPLES / "tree.toml").read_bytes()
        path = self.file("mark.toml", b"\xef\xbb\xbf" + text)
        self.assertEqual(self.good(main, path, "/dev/null"), text.decode())

    def test_refused(self):
        for words in (
            [self.file("small.map", "glb map 2\nend\n"), "/dev/null"],
            [self.folder / "nowhere", "/dev/null"],
            [self.folder, "/dev/null"],
            [self.small(), self.folder / "nowhere"],
            [self.small(), "/dev/null", self.folder],
        ):
            with self.subTest(words):
                self.refused(main, *words)
        self.refused(main, status=64)
        self.refused(main, self.small(), status=64)

    def test_old_name(self):
        found = command("numbers.py", self.small(), self.file("log", LOG))
        self.assertEqual((found.returncode, found.stdout.decode()), (0, DUE))

    def test_old_name_hides_nothing(self):
        """The standard library has a module of the old name, which others of it read."""
        script = (
            "import sys; sys.path.insert(0, sys.argv[1]); import decimal, numbers; numbers.Number"
        )
        subprocess.run([sys.executable, "-B", "-c", script, str(TOOLS)], check=True, timeout=60)


if __name__ == "__main__":
    unittest.main()
