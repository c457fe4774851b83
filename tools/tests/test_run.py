"""The runner of the tests counts each once, and none as passed that was left out."""

import contextlib
import io
import shutil
import subprocess
import sys
import unittest

import run
from samples import TOOLS, Case


class Tried(unittest.TestCase):
    """Played tests, of which nobody but this module's own tests runs any."""

    def good(self):
        pass

    def fails(self):
        self.fail()

    def breaks(self):
        raise KeyError

    def left_out(self):
        self.skipTest("why")

    def fails_twice(self):
        for part in range(3):
            with self.subTest(part):
                self.assertEqual(part, 1)

    def left_out_in_part(self):
        with self.subTest():
            self.skipTest("why")

    @unittest.expectedFailure
    def known(self):
        self.fail()

    @unittest.expectedFailure
    def known_and_well(self):
        pass


class Broken(Tried):
    @classmethod
    def setUpClass(cls):
        raise OSError


class LeftOut(Tried):
    @classmethod
    def setUpClass(cls):
        raise unittest.SkipTest("why")


class Counts(unittest.TestCase):
    def counts(self, *tests):
        said = io.StringIO()
        with contextlib.redirect_stderr(said):
            counts = run.counted(unittest.TestSuite(tests), io.StringIO())
        self.assertEqual(said.getvalue().count("left out: "), counts["skipped"])
        return counts["passed"], counts["failed"], counts["skipped"]

    def test_each(self):
        for name, due in (
            ("good", (1, 0, 0)),
            ("fails", (0, 1, 0)),
            ("breaks", (0, 1, 0)),
            ("left_out", (0, 0, 1)),
            ("fails_twice", (0, 1, 0)),
            # what was tried of it alone makes no test that passed
            ("left_out_in_part", (0, 0, 1)),
            ("known", (0, 0, 1)),
            ("known_and_well", (0, 1, 0)),
        ):
            with self.subTest(name):
                self.assertEqual(self.counts(Tried(name)), due)

    def test_whole_classes(self):
        self.assertEqual(self.counts(Broken("good"), Tried("good")), (1, 1, 0))
        self.assertEqual(self.counts(LeftOut("good"), Tried("good")), (1, 0, 1))
        self.assertEqual(self.counts(), (0, 0, 0))


class Ends(Case):
    def ended(self, *names):
        words = [sys.executable, "-B", str(TOOLS / "tests" / "run.py"), *names]
        found = subprocess.run(words, capture_output=True, timeout=60)
        return found.returncode, found.stdout.decode().rpartition("\n")[0].rpartition("\n")[2]

    def test_a_module_that_dies_fails(self):
        """In a folder of its own, with modules of each kind."""
        shutil.copy(run.__file__, self.folder / "run.py")
        for name, text in (
            ("good", "import unittest\nclass A(unittest.TestCase):\n    def test_a(self): pass\n"),
            ("dies", "import os\nos._exit(0)\n"),
            ("wrong", "x x\n"),
            ("left", "import unittest\nraise unittest.SkipTest('why')\n"),
            ("empty", ""),
        ):
            self.file(f"test_{name}.py", text)
        words = [sys.executable, "-B", str(self.folder / "run.py")]
        found = subprocess.run(words, capture_output=True, timeout=60, text=True)
        self.assertEqual(
            (found.returncode, found.stdout), (1, "1 passed, 2 failed, 1 skipped\n"), found.stderr
        )
        (self.folder / "test_dies.py").unlink()
        (self.folder / "test_wrong.py").unlink()
        found = subprocess.run(words, capture_output=True, timeout=60, text=True)
        self.assertEqual(
            (found.returncode, found.stdout), (0, "1 passed, 0 failed, 1 skipped\n"), found.stderr
        )

    def test_statuses(self):
        self.assertEqual(self.ended("run.Tried.good"), (0, "1 passed, 0 failed"))
        self.assertEqual(self.ended("run.Tried.good", "run.Tried.fails"), (1, "1 passed, 1 failed"))
        self.assertEqual(self.ended("run.Tried.left_out"), (1, "0 passed, 0 failed, 1 skipped"))
        self.assertEqual(self.ended("run.Tried.good", "no_such_module"), (64, ""))


if __name__ == "__main__":
    unittest.main()
