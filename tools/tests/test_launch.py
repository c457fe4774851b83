"""The launcher: what its sockets let through, how they are handed in, readiness, and the end."""

import os
import signal
import socket
import subprocess
import sys
import tempfile
import time
import unittest
from pathlib import Path

from glb_tools.launch import address_in, shield, words_of
from glb_tools.options import Fault

LAUNCH = Path(__file__).resolve().parents[1] / "glb-launch"
# a server's part, played: it says how it was handed its sockets, echoes datagrams, and ends at `stop`
PLAYED = """
import os, select, socket, sys
at = dict(zip(sys.argv[3::2], sys.argv[4::2]))
if os.environ.get("LISTEN_PID") != str(os.getpid()):
    sys.exit(7)
made = [socket.socket(fileno=3 + n) for n in range(int(os.environ["LISTEN_FDS"]))]
for each in made:
    name = each.getsockname()
    print(each.type == socket.SOCK_DGRAM, name[0], name[1], os.get_blocking(each.fileno()), flush=True)
print("NOTIFY_SOCKET" in os.environ, flush=True)
feed = os.open(os.environ["FEED"], os.O_RDWR) if "FEED" in os.environ else None
while True:
    for one in select.select([each for each in made if each.type == socket.SOCK_DGRAM] + ([feed] if feed else []), [], [])[0]:
        if one == feed:
            if b"\\nstop\\n" in b"\\n" + os.read(feed, 100):
                sys.exit(5)
        else:
            octets, peer = one.recvfrom(512)
            one.sendto(octets, peer)
"""


def free_port() -> int:
    with socket.socket(socket.AF_INET, socket.SOCK_DGRAM) as made:
        made.bind(("127.0.0.1", 0))
        return int(made.getsockname()[1])


class Filter(unittest.TestCase):
    def passes(self, family, host, octets):
        with socket.socket(family, socket.SOCK_DGRAM) as taker:
            taker.bind((host, 0))
            shield(taker)
            taker.settimeout(0.3)
            with socket.socket(family, socket.SOCK_DGRAM) as sender:
                sender.sendto(octets, taker.getsockname())
                try:
                    return taker.recv(2000) == octets
                except TimeoutError:
                    return False

    def test_what_is_dropped(self):
        reply = bytes([0, 0, 0x80, 0]) + bytes(8)
        for family, host in ((socket.AF_INET, "127.0.0.1"), (socket.AF_INET6, "::1")):
            with self.subTest(host):
                for octets in (b"", bytes(11), reply, reply + bytes(100)):
                    self.assertFalse(self.passes(family, host, octets), octets)

    def test_what_passes(self):
        question = bytes([0, 0, 0x01, 0]) + bytes(8)
        for family, host in ((socket.AF_INET, "127.0.0.1"), (socket.AF_INET6, "::1")):
            with self.subTest(host):
                for octets in (bytes(12), question, question + bytes(600), b"\xff\xff\x7f\xff" * 3):
                    self.assertTrue(self.passes(family, host, octets), octets)

    def test_the_interface_decides_on_the_size(self):
        for family, host, level, option in (
            (socket.AF_INET, "127.0.0.1", socket.IPPROTO_IP, 10),
            (socket.AF_INET6, "::1", socket.IPPROTO_IPV6, 23),
        ):
            with socket.socket(family, socket.SOCK_DGRAM) as made:
                made.bind((host, 0))
                shield(made)
                self.assertEqual(made.getsockopt(level, option), 5)


class Words(unittest.TestCase):
    def test_addresses(self):
        self.assertEqual(address_in("192.0.2.53:53", "--listen"), ("192.0.2.53", 53))
        self.assertEqual(address_in("[2001:db8::53]:65535", "--listen"), ("2001:db8::53", 65535))

    def test_what_is_no_address(self):
        for text in (
            "",
            ":53",
            "192.0.2.53",
            "192.0.2.53:",
            "192.0.2.53:0",
            "192.0.2.53:65536",
            "192.0.2.256:53",
            "2001:db8::53:53",
            "[192.0.2.53]:53",
            "name:53",
            "192.0.2.53:-1",
        ):
            with self.subTest(text), self.assertRaises(Fault):
                address_in(text, "--listen")

    def test_words_of_a_server(self):
        found = words_of(
            ["glb", "serve", "T", "--listen=127.0.0.1:53", "--workers", "4", "--feed2", "x"]
        )
        self.assertEqual((found.listen, found.workers, found.tcp), (("127.0.0.1", 53), 4, None))
        found = words_of(["glb", "serve", "T", "--listen", "[::1]:53", "--tcp", "[::1]:54"])
        self.assertEqual((found.listen, found.workers, found.tcp), (("::1", 53), 1, ("::1", 54)))

    def test_what_a_server_is_not_started_with(self):
        for words in (
            ["glb"],
            ["glb", "map", "T"],
            ["glb", "serve", "T"],
            ["glb", "serve", "T", "--listen"],
            ["glb", "serve", "T", "--listen", "x"],
            ["glb", "serve", "T", "--listen", "127.0.0.1:53", "--workers", "17"],
            ["glb", "serve", "T", "--listen", "127.0.0.1:53", "--workers", "0"],
            ["glb", "serve", "T", "--listen", "127.0.0.1:53", "--tcp", "x"],
        ):
            with self.subTest(words), self.assertRaises(Fault):
                words_of(words)


class Runs(unittest.TestCase):
    def setUp(self):
        self.folder = tempfile.TemporaryDirectory()
        self.addCleanup(self.folder.cleanup)
        self.at = Path(self.folder.name)
        self.played = self.at / "played"
        self.played.write_text(f"#!{sys.executable}\n{PLAYED}")
        self.played.chmod(0o755)
        self.port = free_port()

    def launch(self, *options, words=(), env=None):
        process = subprocess.Popen(
            [
                sys.executable,
                LAUNCH,
                *options,
                "--",
                self.played,
                "serve",
                "T",
                "--listen",
                f"127.0.0.1:{self.port}",
                *words,
            ],
            stdout=subprocess.PIPE,
            stderr=subprocess.PIPE,
            text=True,
            env={**os.environ, **(env or {})},
        )
        self.addCleanup(process.communicate)
        self.addCleanup(process.kill)
        return process

    def test_it_becomes_the_server(self):
        process = self.launch(words=("--workers", "2", "--tcp", f"127.0.0.1:{self.port}"))
        due = [f"True 127.0.0.1 {self.port} True\n"] * 2 + [f"False 127.0.0.1 {self.port} True\n"]
        self.assertEqual([process.stdout.readline() for _ in range(3)], due)
        process.terminate()
        self.assertEqual(process.wait(), -signal.SIGTERM)

    def test_sockets_of_systemd_are_shielded_and_handed_on(self):
        with socket.socket(socket.AF_INET, socket.SOCK_DGRAM) as made:
            made.bind(("127.0.0.1", self.port))
            hands = (
                f"import os, sys\nos.dup2({made.fileno()}, 3)\n"
                "os.environ.update(LISTEN_PID=str(os.getpid()), LISTEN_FDS='1')\nos.execv(sys.executable, [sys.executable, *sys.argv[1:]])"
            )
            process = subprocess.Popen(
                [
                    sys.executable,
                    "-c",
                    hands,
                    LAUNCH,
                    "--",
                    self.played,
                    "serve",
                    "T",
                    "--listen",
                    "192.0.2.1:53",
                ],
                stdout=subprocess.PIPE,
                text=True,
                pass_fds=[made.fileno()],
            )
        self.addCleanup(process.communicate)
        self.addCleanup(process.kill)
        self.assertEqual(process.stdout.readline(), f"True 127.0.0.1 {self.port} True\n")
        with socket.socket(socket.AF_INET, socket.SOCK_DGRAM) as client:
            client.settimeout(0.3)
            client.connect(("127.0.0.1", self.port))
            client.send(bytes(11))
            client.send(bytes(12))
            self.assertEqual(client.recv(100), bytes(12))

    def test_an_address_that_somebody_has(self):
        with socket.socket(socket.AF_INET, socket.SOCK_DGRAM) as other:
            other.bind(("127.0.0.1", self.port))
            said = self.launch().communicate()[1]
        self.assertEqual(said, f"glb-launch: 127.0.0.1 port {self.port}: Address already in use\n")

    def test_a_program_that_is_not_there(self):
        self.played.unlink()
        for stay in ((), ("--stay",)):
            process = self.launch(*stay)
            said = process.communicate()[1]
            self.assertEqual(
                (said, process.returncode),
                (f"glb-launch: {self.played}: No such file or directory\n", 1),
            )

    def test_words_that_are_wrong(self):
        for words in (
            ["--stay"],
            ["x", "--"],
            ["--feed", "x", "--", "glb"],
            ["--"],
            ["--buffer", "0", "--", "glb"],
        ):
            with self.subTest(words):
                done = subprocess.run(
                    [sys.executable, LAUNCH, *words], capture_output=True, text=True
                )
                self.assertEqual(
                    (done.returncode, done.stdout, done.stderr.count("\n")), (64, "", 1)
                )

    def test_ready_watched_and_ended_by_the_feed(self):
        name, feed = str(self.at / "notify"), str(self.at / "feed")
        os.mkfifo(feed)
        with socket.socket(socket.AF_UNIX, socket.SOCK_DGRAM) as told:
            told.bind(name)
            told.settimeout(10)
            process = self.launch(
                "--stay",
                "--feed",
                feed,
                words=("--workers", "3"),
                env={"NOTIFY_SOCKET": name, "WATCHDOG_USEC": "400000", "FEED": feed},
            )
            self.assertEqual(told.recv(100), b"READY=1")
            self.assertEqual(told.recv(100), b"WATCHDOG=1")
            self.assertEqual([process.stdout.readline() for _ in range(4)][3], "False\n")
            process.terminate()
            while (word := told.recv(100)) == b"WATCHDOG=1":
                pass
            self.assertEqual(word, b"STOPPING=1")
            self.assertEqual(process.wait(10), 5)

    def test_a_server_that_hangs_is_not_called_alive(self):
        name = str(self.at / "notify")
        with socket.socket(socket.AF_UNIX, socket.SOCK_DGRAM) as told:
            told.bind(name)
            told.settimeout(10)
            process = self.launch("--stay", env={"NOTIFY_SOCKET": name, "WATCHDOG_USEC": "400000"})
            self.assertEqual(told.recv(100), b"READY=1")
            child = int(Path(f"/proc/{process.pid}/task/{process.pid}/children").read_text())
            os.kill(child, signal.SIGSTOP)
            time.sleep(0.3)
            told.settimeout(0.1)
            while True:
                try:
                    told.recv(100)
                except TimeoutError:
                    break
            told.settimeout(2.5)
            with self.assertRaises(TimeoutError):
                told.recv(100)
            os.kill(child, signal.SIGKILL)
            self.assertEqual(process.wait(10), -signal.SIGKILL)

    def test_a_server_that_does_not_end_in_time(self):
        feed = str(self.at / "feed")
        os.mkfifo(feed)
        keeps = os.open(feed, os.O_RDWR)
        self.addCleanup(os.close, keeps)
        process = self.launch("--stay", "--feed", feed, "--grace", "0.2")
        process.stdout.readline()
        process.terminate()
        self.assertEqual(process.wait(10), -signal.SIGTERM)
        self.assertEqual(os.read(keeps, 100), b"stop\n")

    def test_without_a_feed_the_signal_is_handed_on(self):
        process = self.launch("--stay", "--feed", str(self.at / "nowhere"))
        process.stdout.readline()
        process.send_signal(signal.SIGINT)
        self.assertEqual(process.wait(10), -signal.SIGINT)


if __name__ == "__main__":
    unittest.main()
