"""The units: what they start, and that systemd takes them."""

import re
import shutil
import subprocess
import tempfile
import tomllib
import unittest
from pathlib import Path

from glb_tools import drains, place
from samples import EXAMPLES, TOOLS, Case

SERVICES = sorted(EXAMPLES.glob("*.service"))
SERVERS = [path for path in SERVICES if "glb serve" in path.read_text().partition("ExecStart=")[2]]


def value(path, key):
    found = re.findall(rf"(?m)^{key}=(.*)$", path.read_text())
    return found[0] if found else None


def started(path, **settings):
    """The words with which a unit starts the program, by systemd's and the shell's rules."""
    line = value(path, "ExecStart")
    script = re.fullmatch(r"/bin/sh -c '(.*)'", line)[1]
    assert not re.search(r"(?<!\$)\$\{", script), "a ${ that systemd would replace"
    script = script.replace("$$", "$").replace("exec /usr/local/bin/glb", "printf '%s\\n'")
    script = re.sub(r" [0-2]<>\S+", "", script)
    out = subprocess.run(["/bin/sh", "-c", script], env=settings, capture_output=True, check=True)
    return out.stdout.decode().splitlines()


def commands(path):
    return "\n".join(re.findall(r"(?m)^Exec\w+=(.*)$", path.read_text()))


def written(path):
    """The folders that a unit's commands write into, by the settings that are shipped."""
    said, found = commands(path), set()
    if "/glb-drain " in said:
        *_, log = value(EXAMPLES / "glb-drain.default", "OPTIONS").strip('"').split()
        found.add(Path(log).parent)
    if "/glb-watch " in said:
        found.add(Path(tomllib.loads((EXAMPLES / "watch.toml").read_text())["log"]).parent)
    if "/glb-follow " in said:
        found.add(Path(place.BASES).parent)
        found |= {Path(run) for run in re.findall(r"--run (\S+)", said)}
    found |= {Path(file).parent for file in re.findall(r"--text-file (\S+?)[ ']", said + " ")}
    found |= {Path(file).parent for file in re.findall(r"mkfifo -m \d+ (\S+)", said)}
    return found


def made(path):
    """The folders that systemd makes for a unit, and gives to its user."""
    folders = {"/var/lib": value(path, "StateDirectory"), "/run": value(path, "RuntimeDirectory")}
    return {Path(top, name) for top, name in folders.items() if name}


class Units(unittest.TestCase):
    def test_each_may_write_where_it_writes(self):
        for path in SERVICES:
            with self.subTest(path.name):
                own, other = made(path), value(path, "ReadWritePaths")
                server = value(path, "BindsTo")
                if other and value(path, "User") and server:
                    # the server's folder, which is the same user's and is there as long as this unit runs
                    there = EXAMPLES / server.replace("%i", "")
                    self.assertEqual(value(there, "User"), value(path, "User"))
                    self.assertIn(Path(other), made(there))
                elif other:
                    # a folder that nobody gives to a user is root's
                    self.assertEqual(value(path, "User"), None, other)
                may = own | ({Path(other)} if other else set())
                self.assertLessEqual(written(path), may)

    def test_the_log_is_its_writers(self):
        """Whatever makes the folder of the log gives it to the user of the units that write there."""
        line = re.findall(r"install -d .*/var/lib/glb$", (TOOLS / "deb.sh").read_text(), re.M)
        self.assertEqual(line, ["install -d -m 755 -o glb -g glb /var/lib/glb"])
        count = 0
        for page in sorted((TOOLS.parent / "docs").rglob("*.md")):
            for block in re.findall(r"(?m)(?:^    .*\n)+", page.read_text()):
                if "touch /var/lib/glb/changes.log" in block:
                    count += 1
                    with self.subTest(page.name):
                        self.assertRegex(block, r"chown (-R )?glb:glb /var/lib/glb")
        self.assertEqual(count, 2)

    def test_which_start_of_the_machine_it_is(self):
        """glb-drain tells one start from another by a file that is hidden where only processes are shown."""
        self.assertFalse(drains.BOOT.is_relative_to("/proc/self"))
        for path in SERVICES:
            if "/glb-drain " in commands(path):
                self.assertEqual(value(path, "ProcSubset"), None)

    def test_each_has_a_name_in_the_journal(self):
        for path in SERVICES:
            with self.subTest(path.name):
                name = path.name.removesuffix(".service")
                self.assertEqual(
                    value(path, "SyslogIdentifier"), name + ("%i" if name.endswith("@") else "")
                )

    def test_servers(self):
        self.assertEqual(
            [path.name for path in SERVERS], ["glb-fleet@.service", "glb.service", "glb@.service"]
        )
        for path in SERVERS:
            for settings, rest in (
                (
                    {"LISTEN": "[::1]:53", "WORKERS": "4"},
                    ["[::1]:53", "--workers", "4", "--tcp", "[::1]:53"],
                ),
                ({"LISTEN": "[::1]:53", "WORKERS": "4", "TCP": ""}, ["[::1]:53", "--workers", "4"]),
                (
                    {"LISTEN": "a:1", "WORKERS": "4", "TCP": "b:2"},
                    ["a:1", "--workers", "4", "--tcp", "b:2"],
                ),
                ({"LISTEN": "a b", "WORKERS": "$x"}, ["a b", "--workers", "$x", "--tcp", "a b"]),
            ):
                with self.subTest(path.name, **settings):
                    # the second word is the topology
                    serve, _, *words = started(path, **settings)
                    self.assertEqual([serve, *words], ["serve", "--listen", *rest])

    def test_feeds_leave_out_stop(self):
        """The log reaches the pipe line by line, without its lines `stop`, whatever octets it has."""
        feeds = sorted(EXAMPLES.glob("glb-feed*.service"))
        self.assertEqual(len(feeds), 2)
        log = b"demand g1 9\ncommit\nstop\n  stop \n\xff\xfe stop\nstopped\nshow\n"
        for path in feeds:
            with self.subTest(path.name), tempfile.TemporaryDirectory() as folder:
                Path(folder, "log").write_bytes(log)
                script = re.fullmatch(r"/bin/sh -c '(.*)'", value(path, "ExecStart"))[1]
                script = script.replace(" -f ", " ").replace("/var/lib/glb/changes.log", "log")
                script, count = re.subn(r">/run/glb\S*/feed$", ">feed", script)
                self.assertEqual(count, 1, script)
                subprocess.run(["/bin/sh", "-c", script], cwd=folder, check=True, timeout=20)
                fed = Path(folder, "feed").read_bytes()
                self.assertEqual(fed, b"demand g1 9\ncommit\n\xff\xfe stop\nstopped\nshow\n")

    def test_what_is_started_is_there(self):
        """Each program that a unit starts is of Debian's essential packages, of Python, or of this repository."""
        known = {"/bin/sh", "/bin/rm", "/usr/bin/mkfifo", "/usr/bin/python3"}
        for path in SERVICES:
            for line in re.findall(r"(?m)^Exec\w+=[-+!@]*(\S+)", path.read_text()):
                with self.subTest(path.name, line=line):
                    self.assertTrue(line in known or line.startswith("/usr/local/"), line)

    def test_settings_are_there(self):
        """Whatever file a unit reads its settings from is one that is shipped, or one for each address."""
        for path in SERVICES:
            with self.subTest(path.name):
                file = value(path, "EnvironmentFile")
                if file and file != "/etc/glb/%i.conf":
                    self.assertTrue((EXAMPLES / f"{Path(file).name}.default").is_file(), file)

    def test_metrics_go_with_their_server(self):
        for path in EXAMPLES.glob("glb-metrics*.service"):
            with self.subTest(path.name):
                written = re.search(r"--text-file (\S+?)[ ']", path.read_text())[1]
                self.assertEqual(value(path, "ExecStopPost"), f"/bin/rm -f {written}")
                self.assertEqual(value(path, "PartOf"), value(path, "After"))
                self.assertIn(value(path, "PartOf"), value(path, "WantedBy"))


@unittest.skipUnless(
    shutil.which("systemd-analyze"), "systemd-analyze is not installed (Debian: systemd)"
)
class Verified(Case):
    def test_systemd_takes_them(self):
        for path in EXAMPLES.iterdir():
            if path.suffix in (".service", ".timer", ".socket"):
                text = re.sub(
                    r"/usr/local/(bin|lib/glb)/[a-z-]+(?= \$OPTIONS|$)",
                    "/bin/true",
                    path.read_text(),
                    flags=re.M,
                )
                (self.folder / path.name).write_text(text)
        names = [path.name.replace("@.", "@v4.") for path in self.folder.iterdir()]
        for path in list(self.folder.glob("*@.*")):
            (self.folder / path.name.replace("@.", "@v4.")).symlink_to(path)
        words = [
            "systemd-analyze",
            "verify",
            "--man=no",
            *(str(self.folder / name) for name in sorted(names)),
        ]
        found = subprocess.run(words, capture_output=True, timeout=120)
        lines = [
            line
            for line in found.stderr.decode().splitlines()
            if str(self.folder) in line or "glb" in line
        ]
        self.assertEqual(lines, [])

    def test_nothing_but_what_it_needs(self):
        """What `systemd-analyze security` finds open, in tenths of its points: at most 2.0 of 10."""
        for path in SERVICES:
            with self.subTest(path.name):
                words = [
                    "systemd-analyze",
                    "security",
                    "--offline=true",
                    "--threshold=20",
                    str(path),
                ]
                found = subprocess.run(words, capture_output=True, timeout=120)
                self.assertEqual(found.returncode, 0, found.stdout[-200:])


class Launcher(unittest.TestCase):
    def test_it_begins_what_the_unit_begins(self):
        """The settings for glb-launch name the server's own words, whatever else stands around them."""
        conf, unit = EXAMPLES / "glb-launch.conf", EXAMPLES / "glb.service"
        words = re.search(r"exec (/usr/local/bin/glb .*)'", value(unit, "ExecStart"))[1]
        line = re.findall(r"(?m)^ExecStart=(.*)$", conf.read_text())[-1]
        self.assertTrue(line.endswith(f" -- {words}'"), line)


if __name__ == "__main__":
    unittest.main()
