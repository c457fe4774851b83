"""The planted bugs of bench/planted fit the text, and bench/planted.py says which do not."""

import os
import subprocess
import sys
import tempfile
import unittest
from pathlib import Path
from unittest import mock

from samples import TOP

BENCH = TOP / "bench"
sys.path.append(str(BENCH))
import planted  # noqa: E402

TEXT = """fn low(count: u64) -> u64 {
    if count < 3 { 1 } else { 2 }
}

fn high(count: u64) -> u64 {
    low(count) + 1
}
"""


# a prover that refuses 2 in the place of 3, cannot read two, and has nothing against the rest
PROVER = """#!/usr/bin/env python3
text = open("src/lib.rt").read()
if "< two" in text:
    print("error: src/lib.rt:2:16: no such name")
else:
    print("fn all::low:", "no proof: clause small" if "< 2" in text else "no holes")
    print("fn all::high:", "no proof: it calls low, which is not proved" if "< 2" in text else "no holes")
"""


class Planted(unittest.TestCase):
    def setUp(self):
        folder = tempfile.TemporaryDirectory()
        self.addCleanup(folder.cleanup)
        self.folder = Path(folder.name)
        (self.folder / "src").mkdir()
        (self.folder / "src/lib.rt").write_text(TEXT)

    def misfits(self, *bugs):
        named = [(name, "says what is not so", [("src/lib.rt", *edit)]) for name, *edit in bugs]
        return planted.misfits(self.folder, named)

    def test_all_fit(self):
        for file in sorted(planted.PLANTED.glob("*.edits")):
            with self.subTest(crate=file.stem):
                folder = TOP / "crates" / file.stem
                self.assertEqual(planted.misfits(folder, planted.bugs_of(file.stem)), [])

    def test_fitting(self):
        self.assertEqual(self.misfits(("two", "< 3", "< 2"), ("four", "< 3", "< 4")), [])

    def test_not_there(self):
        [(name, reason)] = self.misfits(("two", "< 5", "< 2"))
        self.assertEqual((name, reason), ("two", "stands 0 times in src/lib.rt: < 5"))

    def test_twice_there(self):
        [(name, reason)] = self.misfits(("two", "count: u64", "count: u32"))
        self.assertEqual((name, reason), ("two", "stands 2 times in src/lib.rt: count: u64"))

    def test_no_change(self):
        self.assertEqual(len(self.misfits(("two", "< 3", "< 3"))), 1)

    def test_no_file(self):
        bugs = [("two", "says what is not so", [("src/more.rt", "< 3", "< 2")])]
        self.assertEqual(planted.misfits(self.folder, bugs), [("two", "src/more.rt is not there")])

    def test_same_name(self):
        found = self.misfits(("two", "< 3", "< 2"), ("two", "+ 1", "+ 2"))
        self.assertEqual(found, [("two", "has the name or the edits of another one")])

    def test_same_edits(self):
        found = self.misfits(("two", "< 3", "< 2"), ("other", " < 3", " < 2"))
        self.assertEqual(found, [("other", "has the name or the edits of another one")])

    def test_nothing_said(self):
        self.assertEqual(len(planted.misfits(self.folder, [("two", "", [])])), 1)

    def test_one_in_each_function(self):
        bugs = {
            "two": [("src/lib.rt", "< 3", "< 2")],
            "swapped": [("src/lib.rt", "{ 1 } else { 2 }", "{ 2 } else { 1 }")],
            "added": [("src/lib.rt", "+ 1", "+ 2")],
        }
        found = planted.plant(self.folder, bugs)
        self.assertEqual(
            found,
            {"two": [("src/lib.rt", "low")], "swapped": None, "added": [("src/lib.rt", "high")]},
        )
        text = (self.folder / "src/lib.rt").read_text()
        self.assertEqual(text, TEXT.replace("< 3", "< 2").replace("+ 1", "+ 2"))

    def test_not_compiled(self):
        bugs = {
            "two": [("src/lib.rt", "< 3", "< two")],
            "added": [("src/lib.rt", "+ 1", "+ 2")],
        }
        planted.plant(self.folder, bugs)
        for said, found in (
            ("error: src/lib.rt:2:16: no such name", {"two"}),
            ("error: src/lib.rt:6:5: no such name", {"added"}),
            ("error: src/lib.rt:1:1: no such name", set()),
            ("error: src/lib.rt:99:1: no such name", set()),
            ("error: src/more.rt:2:1: no such name", set()),
            ("killed", set()),
        ):
            with self.subTest(said=said):
                self.assertEqual(planted.blamed(said, self.folder, bugs), found)

    def test_each_has_its_outcome(self):
        prover = self.folder / "rt"
        prover.write_text(PROVER)
        prover.chmod(0o755)
        bugs = [
            ("refused", "it is wrong", [("src/lib.rt", "< 3", "< 2")]),
            ("unread", "it is no text", [("src/lib.rt", "if count < 3", "if count < two")]),
            ("swapped", "it is free", [("src/lib.rt", "{ 1 } else { 2 }", "{ 2 } else { 1 }")]),
            ("added", "it is free", [("src/lib.rt", "+ 1", "+ 2")]),
        ]
        path = f"{self.folder}{os.pathsep}{os.environ['PATH']}"
        with mock.patch.object(planted, "bugs_of", lambda crate: bugs):
            with mock.patch.dict(os.environ, {"PATH": path}):
                outcomes = planted.judge(self.folder, "all")
        due = ["refused", "does not compile", "let through", "let through"]
        self.assertEqual(outcomes, dict(zip(["refused", "unread", "swapped", "added"], due)))
        self.assertEqual((self.folder / "src/lib.rt").read_text(), TEXT)

    def test_command(self):
        for words, status in (
            (["--fit", "map_text"], 0),
            (["--fit", "no_such"], 2),
            (["--fit"], 2),
        ):
            with self.subTest(words=words):
                came = subprocess.run(
                    [sys.executable, "-B", BENCH / "planted.py", *words],
                    capture_output=True,
                    text=True,
                    timeout=60,
                )
                self.assertEqual(came.returncode, status, came.stderr)
                self.assertEqual(came.stdout, "")
                self.assertNotIn("Traceback", came.stderr)


if __name__ == "__main__":
    unittest.main()
