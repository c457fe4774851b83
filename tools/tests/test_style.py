"""The tools are laid out by black and typed by mypy, where these are installed."""

import shutil
import subprocess
import unittest

from samples import TOOLS, TOP

SETTINGS = str(TOOLS / "pyproject.toml")


class Style(unittest.TestCase):
    def passes(self, *words):
        if not shutil.which(words[0]):
            self.skipTest(f"{words[0]} is not installed (Debian: {words[0]})")
        found = subprocess.run(words, cwd=TOP, capture_output=True, timeout=300)
        self.assertEqual(found.returncode, 0, (found.stdout + found.stderr).decode())

    def test_layout(self):
        commands = [str(path) for path in TOOLS.glob("glb-*")]
        self.passes("black", "--check", "--quiet", "--config", SETTINGS, str(TOOLS), *commands)

    def test_types(self):
        self.passes(
            "mypy", "--config-file", SETTINGS, "--cache-dir", "/dev/null", "tools/glb_tools"
        )


if __name__ == "__main__":
    unittest.main()
