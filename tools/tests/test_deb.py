"""tools/deb.sh: what it says where it cannot make packages. What is in them is looked at by test.sh and bench/package.sh."""

import os
import subprocess
import tempfile
import unittest
from pathlib import Path

from samples import TOOLS, Case

DEB = TOOLS / "deb.sh"
# what it runs before it looks for what it needs
ALWAYS = ("bash", "cat", "dirname")


class Deb(Case):
    def setUp(self) -> None:
        work = tempfile.TemporaryDirectory()
        self.addCleanup(work.cleanup)
        self.folder = Path(work.name)
        self.path = self.folder / "bin"
        self.path.mkdir()
        for name in ALWAYS:
            self.put(name)

    def put(self, name: str) -> None:
        """A command in the path, which nobody runs but those of ALWAYS."""
        there = [Path(folder) / name for folder in ("/usr/bin", "/bin")]
        found = [path for path in there if path.exists()]
        (self.path / name).symlink_to(found[0] if found and name in ALWAYS else "/bin/true")

    def run_deb(self, *words: str, glb: str | None = None) -> subprocess.CompletedProcess[str]:
        environment = {"PATH": str(self.path), "GLB": glb or os.devnull}
        return subprocess.run(
            ["bash", str(DEB), *words],
            cwd=self.folder,
            env=environment,
            capture_output=True,
            text=True,
            timeout=20,
        )

    def ends(self, status: int, said: str, *words: str, glb: str | None = None) -> None:
        with self.subTest(words):
            ended = self.run_deb(*words, glb=glb)
            self.assertEqual(
                (ended.returncode, ended.stdout, ended.stderr),
                (status, "", f"tools/deb.sh: {said}\n"),
            )

    def test_help_lists_the_statuses(self) -> None:
        ended = self.run_deb("--help")
        self.assertEqual((ended.returncode, ended.stderr), (0, ""))
        self.assertIn("exit status:\n  0     done\n  1 ", ended.stdout)

    def test_words(self) -> None:
        said = (
            "VERSION [FOLDER] are wanted, and a version begins with a digit, as 1.0"
            " (see tools/deb.sh --help)"
        )
        for words in ((), ("",), ("--version",), ("v1",), ("1 0",), ("1.0", ".", "x")):
            self.ends(64, said, *words)

    def test_what_is_not_installed_is_named_by_its_package(self) -> None:
        self.put("dpkg-deb")
        self.put("gzip")
        needed = "it needs what is not installed here: apt-get install"
        self.ends(1, f"{needed} python3 binutils", "1.0")
        self.put("python3")
        self.ends(1, f"{needed} binutils", "1.0-1")

    def test_what_is_not_there(self) -> None:
        for name in ("dpkg-deb", "gzip", "python3", "strip"):
            self.put(name)
        program = self.folder / "glb"
        self.ends(
            1,
            f"there is no program at {program}: build it as README.md says, or name it by GLB",
            "1.0",
            glb=str(program),
        )
        program.touch()
        self.ends(
            1,
            "no package can be written into the folder nowhere: make it, or name another one",
            "1.0",
            "nowhere",
            glb=str(program),
        )


if __name__ == "__main__":
    unittest.main()
