"""What the tests read, and how they run the commands."""

import contextlib
import io
import json
import os
import subprocess
import sys
import tempfile
import unittest
from pathlib import Path
from unittest import mock

from glb_tools.options import told

TOOLS = Path(__file__).resolve().parent.parent
TOP = TOOLS.parent
EXAMPLES = TOP / "examples"

# Tables in one line and in several, a limit, a class, remarks, and quoted keys.
SMALL = """\
# capacity = 1, demand = 2: a remark
zone = {apex = "cdn.example", mname = "ns1.ops.example", rname = "admin.ops.example", serial = 1, refresh = 3600, retry = 600, expire = 86400, minimum = 60, ttl = 20, ns = ["ns1.ops.example"], services = ["www"]}
node = [
  {name = "R", capacity = 15}, # the region
  {name = "A", parent = "R", capacity = 10, pool = true, a = ["192.0.2.1"]},
  {name = "B", "capacity" = 1_0, parent = "R", pool = true, a = [
    "192.0.2.2", # one address
  ]},
]
[[group]]
name = "g1" # demand = 3
demand = 8
pools = ["A", "B"]
scores = [1, 2]
limits = [5, 10]
prefixes = ["0.0.0.0/0", "::/0"]
[[group]]
name = 'g2'
demand = 0x8
pools = ["A", "B"]
scores = [3, 4]
prefixes = ["198.51.100.0/24"]
[[class]]
name = "g2www"
group = "g2"
service = "www"
demand = 3
pools = ["B"]
scores = [1]
"""
SMALL_MAP = """\
glb map 2
place g1 A 5
place g1 B 3
place g2 A 4
place g2www B 3
limit g1 A
full g2 B R
end
"""


class Case(unittest.TestCase):
    """A test with a folder of its own, that runs a command in this process."""

    maxDiff = None

    def setUp(self):
        folder = tempfile.TemporaryDirectory()
        self.addCleanup(folder.cleanup)
        self.folder = Path(folder.name)

    def file(self, name, text):
        """A file of the folder, as a text."""
        path = self.folder / name
        path.write_bytes(text if isinstance(text, bytes) else text.encode())
        return str(path)

    def small(self):
        return self.file("small.toml", SMALL)

    def run_main(self, main, *words):
        """Status, output, and what is said on standard error."""
        out, said = io.StringIO(), io.StringIO()
        argv = ["glb-try", *map(str, words)]
        with mock.patch.object(sys, "argv", argv):
            with contextlib.redirect_stdout(out), contextlib.redirect_stderr(said):
                status = told(main)
        return status, out.getvalue(), said.getvalue()

    def good(self, main, *words):
        """The output of a command that ends well."""
        status, out, said = self.run_main(main, *words)
        self.assertEqual((status, said), (0, ""))
        return out

    def table(self, main, *words):
        return json.loads(self.good(main, "--json", *words))

    def refused(self, main, *words, status=1):
        """What is said of a command that ends with that status and writes nothing: one line."""
        ended, out, said = self.run_main(main, *words)
        self.assertEqual((ended, out, said.count("\n")), (status, "", 1), said)
        return said


def command(name, *words, **more):
    """Runs a command as an operator does."""
    more.setdefault("stdout", subprocess.PIPE)
    env = {**os.environ, "PYTHONDONTWRITEBYTECODE": "1"}
    # as a shell has it, and not as whoever runs the tests
    env.pop("PYTHONUNBUFFERED", None)
    return subprocess.run(
        [sys.executable, str(TOOLS / name), *map(str, words)],
        stderr=subprocess.PIPE,
        env=env,
        timeout=60,
        **more,
    )
