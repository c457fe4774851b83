"""Each command, as an operator starts it: its help, and how it ends where something is in its way."""

import importlib.util
import os
import re
import signal
import subprocess
import sys
import time
import unittest
from concurrent.futures import ThreadPoolExecutor
from pathlib import Path

from forked import forked
from samples import EXAMPLES, SMALL, SMALL_MAP, TOOLS, Case, command

# the commands of this package: those that run a module of it
COMMANDS = sorted(
    path.name
    for path in TOOLS.iterdir()
    if path.is_file() and re.search(r"^ *(?:start|run)\(", path.read_text(errors="replace"), re.M)
)
# words with which a command writes more than a pipe holds unread, or anything at all
WRITERS = {
    "glb-why": ("TOPOLOGY", "MAP"),
    "glb-moves": ("MAP", "OTHER"),
    "glb-numbers": ("TOPOLOGY", "/dev/null"),
    "why.py": ("TOPOLOGY", "MAP"),
    "moves.py": ("MAP", "OTHER"),
    "numbers.py": ("TOPOLOGY", "/dev/null"),
    "picture.py": ("TOPOLOGY", "MAP"),
}
# the modules that a command needs beside Python's own
NEEDS = {
    "glb-exporter": ["prometheus_client"],
    "glb-page": ["waitress", "flask", "dns"],
    "glb-topology": ["numpy"],
    "glb-watch": ["requests"],
    "metrics.py": ["prometheus_client"],
}


def is_there(name):
    """Whether what a command needs is installed."""
    return all(importlib.util.find_spec(module) for module in NEEDS.get(name, []))


THERE = [name for name in COMMANDS if is_there(name)]


def at_once(run, names):
    """What becomes of each command, by name; four run at a time."""
    with ThreadPoolExecutor(4) as pool:
        return zip(names, pool.map(run, names))


# what each command is started with, and where its output goes
CASES = {
    "help": (["--help"], None),
    "version": (["--version"], None),
    "wrong words": (["--no-such-word"], None),
    "help to a full disk": (["--help"], "/dev/full"),
    "version to a full disk": (["--version"], "/dev/full"),
}


class Commands(Case):
    @classmethod
    def setUpClass(cls):
        run = lambda name: list(forked(TOOLS / name, list(CASES.values())))  # noqa: E731
        cls.ended = {name: dict(zip(CASES, found)) for name, found in at_once(run, THERE)}

    def test_none_is_left_out(self):
        for name in COMMANDS:
            with self.subTest(name):
                if not is_there(name):
                    self.skipTest(
                        f"{name} needs {', '.join(NEEDS[name])}: none of its cases is tried"
                    )

    def setUp(self):
        super().setUp()
        self.files = {
            "TOPOLOGY": self.file("small.toml", SMALL),
            "MAP": self.file("small.map", SMALL_MAP),
            "OTHER": str(EXAMPLES / "tree.map"),
        }

    def words(self, name):
        return [self.files.get(word, word) for word in WRITERS[name]]

    def one_line(self, found, name, status):
        said = found.stderr.decode()
        self.assertEqual(found.returncode, status, said)
        self.assertEqual(said.count("\n"), 1, said)
        self.assertTrue(said.startswith(f"{name}: ") or said.startswith("glb-"), said)

    def test_there_are_commands(self):
        self.assertLessEqual(set(WRITERS), set(COMMANDS))

    def test_help(self):
        for name, ended in self.ended.items():
            found = ended["help"]
            with self.subTest(name):
                self.assertEqual((found.returncode, found.stderr), (0, b""))
                for status in (0, 1, 64, 130):
                    self.assertRegex(found.stdout.decode(), rf"(?m)^  {status} ")

    def test_version(self):
        for name, found in self.ended.items():
            with self.subTest(name):
                self.assertRegex(found["version"].stdout.decode(), r"^[a-z.-]+ \d+\.\d+\n$")
                self.assertEqual(found["version"].returncode, 0)

    def test_wrong_words(self):
        for name, found in self.ended.items():
            with self.subTest(name):
                self.one_line(found["wrong words"], name, 64)

    def test_full_disk(self):
        for name, found in self.ended.items():
            for case in ("help to a full disk", "version to a full disk"):
                with self.subTest(f"{name}: {case}"):
                    self.one_line(found[case], name, 1)
        with open("/dev/full", "wb") as full:
            run = lambda name: command(name, *self.words(name), stdout=full)  # noqa: E731
            for name, found in at_once(run, WRITERS):
                with self.subTest(name):
                    self.one_line(found, name, 1)

    def test_closed_pipe(self):
        def run(name):
            ours, theirs = os.pipe()
            os.close(ours)
            with os.fdopen(theirs, "wb") as pipe:
                return command(name, *self.words(name), stdout=pipe)

        for name, found in at_once(run, WRITERS):
            with self.subTest(name):
                self.assertEqual((found.returncode, found.stderr), (141, b""))

    def test_closed_output(self):
        def run(name):
            words = [sys.executable, "-B", str(TOOLS / name), *self.words(name)]
            closed = ["sh", "-c", 'exec >&-; exec "$@"', "sh", *words]
            return subprocess.run(closed, stderr=subprocess.PIPE, timeout=60)

        for name, found in at_once(run, WRITERS):
            with self.subTest(name):
                self.one_line(found, name, 1)

    def test_unreadable(self):
        paths = "/", "/nowhere/at/all", "/proc/self/mem"

        def run(name):
            words = self.words(name)
            each = [[path if Path(word).is_file() else word for word in words] for path in paths]
            return list(forked(TOOLS / name, [(words, None) for words in each]))

        for name, ended in at_once(run, WRITERS):
            for path, found in zip(paths, ended):
                with self.subTest(f"{name} {path}"):
                    self.one_line(found, name, 1)

    def test_interrupted(self):
        for name in WRITERS:
            with self.subTest(name):
                pipe = self.folder / f"{name}.pipe"
                os.mkfifo(pipe)
                words = self.words(name)
                words[0] = str(pipe)
                running = subprocess.Popen(
                    [sys.executable, "-B", str(TOOLS / name), *words], stderr=subprocess.PIPE
                )
                self.addCleanup(running.kill)
                wait_until_it_reads(running.pid)
                running.send_signal(signal.SIGINT)
                said = running.communicate(timeout=30)[1]
                self.assertEqual((running.returncode, said), (130, b""))


def wait_until_it_reads(process):
    """Until a process sleeps in the open of its pipe."""
    for _ in range(1000):
        time.sleep(0.01)
        if Path(f"/proc/{process}/wchan").read_text() in ("wait_for_partner", "fifo_open", "0"):
            state = Path(f"/proc/{process}/stat").read_text().rpartition(")")[2].split()[0]
            used = Path(f"/proc/{process}/stat").read_text().rpartition(")")[2].split()[11]
            if state == "S" and int(used) > 2:
                return
    raise TimeoutError


if __name__ == "__main__":
    unittest.main()
