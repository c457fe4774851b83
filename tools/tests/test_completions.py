"""The completions for bash: they agree with what each command says by --help, and bash takes them."""

import re
import subprocess
import sys
import unittest
from pathlib import Path

from samples import TOOLS, Case, command
from test_commands import is_there

COMPLETIONS = TOOLS / "completions"
sys.path.append(str(COMPLETIONS))
import make  # noqa: E402

THERE = [name for name in sorted(make.commands()) if is_there(name)]


def completed(command_name: str, *words: str, folder: Path = TOOLS) -> list[str]:
    """What bash offers behind these words, the last of which is being typed."""
    function = "_" + command_name.replace("-", "_")
    typed = [command_name, *words]
    script = (
        f'. "{COMPLETIONS / command_name}" && COMP_WORDS=({" ".join(repr(word) for word in typed)})'
        f' COMP_CWORD={len(words)} && {function} {command_name} "{typed[-1]}" "{typed[-2]}"'
        ' && printf "%s\\n" "${COMPREPLY[@]}"'
    )
    found = subprocess.run(
        ["bash", "-c", script], cwd=folder, capture_output=True, text=True, timeout=20
    )
    if found.returncode or found.stderr:
        raise AssertionError(found.stderr)
    return sorted(found.stdout.split())


class Completions(Case):
    def test_each_command_has_one(self):
        self.assertGreater(len(make.commands()), 10)
        for name in ["glb", "glb-ready", *make.commands()]:
            with self.subTest(name):
                self.assertTrue((COMPLETIONS / name).exists(), "tools/completions/make.py makes it")

    def test_they_are_those_of_the_script(self):
        made, missing = make.texts()
        self.assertGreaterEqual(len(made), len(THERE))
        for name, text in made.items():
            with self.subTest(name):
                self.assertEqual((COMPLETIONS / name).read_text(), text, "run make.py")
        kept = {path.name for path in COMPLETIONS.glob("glb*")}
        self.assertEqual(kept, made.keys() | missing.keys())

    def test_they_offer_what_help_lists(self):
        for name in THERE:
            with self.subTest(name):
                said = command(name, "--help").stdout.decode().partition("\nexit status:")[0]
                listed = re.findall(r"^  (?:-\w, )?(--[a-z0-9-]+)", said, re.M)
                self.assertIn("--version", listed)
                self.assertEqual(completed(name, "--"), sorted(listed))

    def test_values(self):
        self.assertEqual(completed("glb-log", "--kind", "b"), ["base", "batch"])
        self.assertEqual(completed("glb-append", "--nu"), ["--numbers"])
        self.assertEqual(completed("glb-append", "--why", ""), [])
        self.assertEqual(completed("glb-append", "--numbers", "glb-ap"), ["glb-append"])
        self.assertEqual(completed("glb-why", "glb-ap"), ["glb-append"])
        self.assertEqual(completed("glb-ready", "o"), ["out"])

    def test_of_the_program(self):
        usage = ["answer", "check", "large", "map", "places", "repair", "serve"]
        self.assertEqual(completed("glb", ""), usage)
        self.assertEqual(completed("glb", "serve", "glb-ap"), ["glb-append"])
        wanted = ["--feed2", "--feed3", "--feed4", "--listen", "--tcp", "--workers"]
        self.assertEqual(completed("glb", "serve", "--"), wanted)

    def test_names_with_blanks(self):
        (self.folder / "my log").write_text("")
        found = completed("glb-why", "my", folder=self.folder)
        self.assertEqual(found, ["log", "my"])


if __name__ == "__main__":
    unittest.main()
