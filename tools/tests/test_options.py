"""Commands end with a listed status and one line, and files are written whole."""

import contextlib
import io
import sys
import tempfile
import unittest
import unittest.mock
from pathlib import Path

from glb_tools import VERSION
from glb_tools.options import (
    WRONG_WORDS,
    Fault,
    check_word,
    parser,
    start,
    told,
    write_file,
    written_whole,
)


def ended(main):
    """The status of a command, and what it says on standard error."""
    said = io.StringIO()
    with contextlib.redirect_stderr(said), contextlib.redirect_stdout(io.StringIO()):
        status = told(main)
    return status, said.getvalue()


def raises(fault):
    def main():
        raise fault

    return main


class Statuses(unittest.TestCase):
    def setUp(self):
        self.argv, sys.argv = sys.argv, ["/usr/bin/glb-try"]
        self.addCleanup(setattr, sys, "argv", self.argv)

    def test_a_fault_is_one_line(self):
        self.assertEqual(ended(raises(Fault("a\nb"))), (1, "glb-try: a b\n"))
        self.assertEqual(ended(raises(Fault("c", 7))), (7, "glb-try: c\n"))

    def test_a_file_is_named(self):
        status, said = ended(lambda: Path("/nowhere/at/all").read_bytes() and 0)
        self.assertEqual(
            (status, said), (1, "glb-try: /nowhere/at/all: No such file or directory\n")
        )

    def test_ends_from_outside(self):
        self.assertEqual(ended(raises(BrokenPipeError())), (141, ""))
        self.assertEqual(ended(raises(KeyboardInterrupt())), (130, ""))
        self.assertEqual(ended(raises(MemoryError()))[0], 1)

    def test_a_fault_of_the_command_itself(self):
        status, said = ended(raises(KeyError("x")))
        self.assertEqual((status, said), (70, "glb-try: a fault of this command: KeyError: 'x'\n"))

    def test_statuses_of_main(self):
        self.assertEqual(ended(lambda: None), (0, ""))
        self.assertEqual(ended(lambda: 2), (2, ""))
        self.assertEqual(ended(raises(SystemExit(3))), (3, ""))
        self.assertEqual(ended(raises(SystemExit("words"))), (1, "words\n"))


class Words(unittest.TestCase):
    def test_wrong_words(self):
        words = parser("glb-try", "Tries.")
        for wrong in (["--nothing"], ["more"], ["--vers"]):
            with self.subTest(wrong):
                status, said = ended(lambda: words.parse_args(wrong) and 0)
                self.assertEqual((status, said.count("\n")), (64, 1))

    def test_help_lists_each_status(self):
        text = parser("glb-try", "Tries.", {2: "two"}).format_help()
        for status in (0, 1, 2, 64, 70, 130, 141):
            self.assertRegex(text, rf"(?m)^  {status} ")

    def test_help_and_version_without_a_package(self):
        missing = ModuleNotFoundError(name="numpy.linalg")
        for words, status, text in (
            (["--help"], 0, "glb-moves OLD NEW"),
            (["--version"], 0, f"glb-try {VERSION}"),
            (["x"], 1, ""),
        ):
            out, said = io.StringIO(), io.StringIO()
            with (
                unittest.mock.patch.object(sys, "argv", ["/usr/bin/glb-try", *words]),
                # which would close this process's own outputs
                unittest.mock.patch("glb_tools.options.run", lambda main: sys.exit(told(main))),
                unittest.mock.patch("importlib.import_module", side_effect=missing),
                contextlib.redirect_stdout(out),
                contextlib.redirect_stderr(said),
                self.assertRaises(SystemExit) as ends,
            ):
                start("moves")
            self.assertEqual(ends.exception.code, status, words)
            self.assertIn(text, out.getvalue())
            self.assertEqual(
                "python3-numpy is not installed" in said.getvalue(), words != ["--version"]
            )

    def test_version(self):
        out = io.StringIO()
        with contextlib.redirect_stdout(out), self.assertRaises(SystemExit) as end:
            parser("glb-try", "Tries.").parse_args(["--version"])
        self.assertEqual((end.exception.code, out.getvalue()), (0, f"glb-try {VERSION}\n"))


class Files(unittest.TestCase):
    def setUp(self):
        self.folder = tempfile.TemporaryDirectory()
        self.addCleanup(self.folder.cleanup)
        self.path = Path(self.folder.name, "file")

    def names(self):
        return sorted(path.name for path in Path(self.folder.name).iterdir())

    def test_whole(self):
        write_file(self.path, b"one")
        write_file(self.path, b"two", 0o600)
        self.assertEqual(self.path.read_bytes(), b"two")
        self.assertEqual(self.path.stat().st_mode & 0o777, 0o600)
        self.assertEqual(self.names(), ["file"])

    def test_or_not_at_all(self):
        write_file(self.path, b"one")
        with self.assertRaises(KeyboardInterrupt), written_whole(self.path) as beside:
            beside.write_bytes(b"tw")
            raise KeyboardInterrupt
        self.assertEqual((self.path.read_bytes(), self.names()), (b"one", ["file"]))


class Words(unittest.TestCase):
    def test_what_a_key_can_have(self):
        for word in ("a", "host1-v4", "ü", "a b"):
            check_word(word, "--name", "/")
        check_word("glb/one", "--prefix")
        for word in ("", "a/b", "/", "\udcff", "x\udc80y"):
            with self.subTest(word), self.assertRaisesRegex(
                Fault, "^--name is a word of UTF-8 without `/`$"
            ) as found:
                check_word(word, "--name", "/")
            self.assertEqual(found.exception.status, WRONG_WORDS)


if __name__ == "__main__":
    unittest.main()
