"""Calls to members of etcd that hang, refuse, say nonsense, or are full."""

import argparse
import contextlib
import itertools
import json
import re
import shutil
import socket
import ssl
import subprocess
import tempfile
import threading
import time
import unittest
from http.server import BaseHTTPRequestHandler, ThreadingHTTPServer
from pathlib import Path
from unittest import mock

from glb_tools import bounded, etcd, fleet
from glb_tools.etcd import Etcd, Full, NoLease, Unreachable, etcd_of, one
from glb_tools.options import WRONG_WORDS, Fault

EMPTY = {"header": {"revision": "7"}, "succeeded": True, "responses": [{"response_range": {}}]}


@contextlib.contextmanager
def member(status=200, told=None, octets=None, context=None):
    """A member that answers each call alike; the list of calls comes with its address. With a context it speaks https."""
    calls = []

    class Answers(BaseHTTPRequestHandler):
        def do_POST(self):
            calls.append((self.path, self.headers.get("Authorization")))
            self.rfile.read(int(self.headers["Content-Length"]))
            answer = told(self.path) if callable(told) else told
            code, body = answer if isinstance(answer, tuple) else (status, answer)
            body = octets if octets is not None else json.dumps(body).encode()
            self.send_response(code)
            self.send_header("Content-Length", str(len(body)))
            self.end_headers()
            self.wfile.write(body)

        def log_message(self, *words):
            pass

    server = ThreadingHTTPServer(("127.0.0.1", 0), Answers)
    server.handle_error = lambda *words: None
    if context:
        server.socket = context.wrap_socket(server.socket, server_side=True)
    threading.Thread(target=server.serve_forever, args=(0.02,), daemon=True).start()
    try:
        yield f"http{'s' if context else ''}://127.0.0.1:{server.server_port}", calls
    finally:
        server.shutdown()
        server.server_close()


@contextlib.contextmanager
def silent():
    """A member that takes connections and says nothing."""
    with socket.create_server(("127.0.0.1", 0)) as listener:
        yield f"http://127.0.0.1:{listener.getsockname()[1]}"


@contextlib.contextmanager
def dripping(octets, whole=0, every=0.05, reads=True):
    """A member that says the first octets of an answer at once, and of the others one after a while."""
    over = threading.Event()

    def drip(sock):
        with sock, contextlib.suppress(OSError):
            if reads:
                sock.recv(1 << 16)
            sock.sendall(octets[:whole])
            for octet in octets[whole:]:
                if over.wait(every):
                    return
                sock.sendall(bytes([octet]))
            over.wait(10)

    def take():
        with contextlib.suppress(OSError):
            while True:
                threading.Thread(target=drip, args=(listener.accept()[0],), daemon=True).start()

    with socket.create_server(("127.0.0.1", 0)) as listener:
        threading.Thread(target=take, daemon=True).start()
        try:
            yield f"http://127.0.0.1:{listener.getsockname()[1]}"
        finally:
            over.set()
            listener.shutdown(socket.SHUT_RDWR)


def refused(code, words):
    return {"error": words, "code": code, "message": words}


class Members(unittest.TestCase):
    def test_one_that_hangs_is_passed_over(self):
        with silent() as hangs, member(told=EMPTY) as (answers, _):
            # one that answers has time enough on a busy machine
            bounds = iter([0.3, 9, 0.3])
            with mock.patch.object(etcd, "Bound", lambda seconds: bounded.Bound(next(bounds))):
                found = Etcd([hangs, answers])
                began = time.monotonic()
                self.assertEqual(found.txn([one("a")]).revision, 7)
                self.assertLess(time.monotonic() - began, 9)
                self.assertEqual(found.members[0], answers)
                self.assertIsNone(found.answers(hangs))

    def test_patience_is_three_seconds(self):
        self.assertLessEqual(etcd.PATIENCE, 3)

    def test_a_leader_is_being_elected(self):
        with member(503, refused(14, "etcdserver: no leader")) as (first, _):
            with member(told=EMPTY) as (second, _):
                self.assertTrue(Etcd([first, second]).txn([one("a")]).held)
            with self.assertRaises(Unreachable):
                Etcd([first]).txn([one("a")])

    def test_full_is_no_fault_of_the_batch(self):
        words = "etcdserver: mvcc: database space exceeded"
        with member(429, refused(8, words)) as (address, _):
            with self.assertRaises(Full) as found:
                Etcd([address]).txn([one("a")])
        self.assertEqual(found.exception.status, 4)

    def test_other_answers(self):
        cases = [
            (404, refused(5, "etcdserver: requested lease not found"), NoLease),
            (403, refused(7, "etcdserver: permission denied"), Fault),
            (429, refused(8, "etcdserver: too many requests"), Unreachable),
            (500, "nonsense", Unreachable),
            (200, {"nonsense": 1}, Unreachable),
        ]
        for status, told, fault in cases:
            with self.subTest(told), member(status, told) as (address, _):
                with self.assertRaises(fault):
                    Etcd([address]).txn([one("a")])
        for octets in (b"", b"<html>", b"\xff", b"[1]"):
            with self.subTest(octets), member(octets=octets) as (address, _):
                with self.assertRaises(Unreachable):
                    Etcd([address]).txn([one("a")])

    def test_a_token_that_ran_out_is_asked_for_anew(self):
        tokens = iter(["old", "new"])

        def told(path):
            if path.endswith("authenticate"):
                return {"token": next(tokens)}
            return EMPTY if calls[-1][1] == "new" else (401, refused(16, "invalid auth token"))

        with member(told=told) as (address, calls):
            found = Etcd([address, address])
            found.login = {"name": "ops", "password": "secret"}
            self.assertTrue(found.txn([one("a")]).held)
        self.assertEqual([token for _, token in calls], [None, "old", None, "new"])

    def test_a_proxy_is_not_asked(self):
        with member(told=EMPTY) as (address, _), mock.patch.dict(
            "os.environ", {"http_proxy": "http://127.0.0.1:1"}
        ):
            self.assertTrue(Etcd([address]).txn([one("a")]).held)


def answer_of(body, status=b"200 OK", length=None):
    head = b"HTTP/1.1 %s\r\nContent-Length: %d\r\n\r\n" % (status, length or len(body))
    return head, body


# far below what a whole drip takes, and far above what a busy machine adds
LONG = 12


class Dripping(unittest.TestCase):
    """Members whose answers come octet by octet: the time of a whole call is bounded."""

    def setUp(self):
        # each octet comes far sooner than that, and all of them far later
        self.bounds = itertools.repeat(0.4)
        self.enterContext(mock.patch.object(etcd, "Bound", self.bound))
        self.began = time.monotonic()

    def bound(self, seconds):
        """In the place of three seconds."""
        self.assertEqual(seconds, 3)
        return bounded.Bound(next(self.bounds))

    def took(self):
        return time.monotonic() - self.began

    def passed_over(self, address):
        # one that answers has time enough on a busy machine
        self.bounds = iter([0.4, 9])
        with member(told=EMPTY) as (answers, _):
            found = Etcd([address, answers])
            self.assertEqual(found.txn([one("a")]).revision, 7)
            self.assertEqual(found.silent, {address: "timed out"})
            self.assertEqual(found.members, [answers, address])
        self.assertGreater(self.took(), 0.3)
        self.assertLess(self.took(), LONG)

    def test_the_head(self):
        with dripping(b"HTTP/1.1 200 OK\r\n" + b"X-More: and more\r\n" * 90) as address:
            self.passed_over(address)

    def test_the_answer(self):
        head, body = answer_of(json.dumps(EMPTY).encode().ljust(400))
        with dripping(head + body, len(head)) as address:
            self.passed_over(address)

    def test_a_refusal(self):
        head, body = answer_of(b" " * 400, b"503 Not now")
        self.bounds = iter([0.4, 9])
        with dripping(head + body, len(head)) as address:
            with member(told=EMPTY) as (answers, _):
                self.assertTrue(Etcd([address, answers]).txn([one("a")]).held)
        self.assertLess(self.took(), LONG)

    def test_a_handshake(self):
        # the head of a record of TLS, and then its octets
        with dripping(b"\x16\x03\x03\x3f\xff\x02\x00\x3f\xfb" + bytes(400)) as address:
            with self.assertRaisesRegex(Unreachable, "timed out"):
                Etcd([address.replace("http:", "https:")]).txn([one("a")])
        self.assertLess(self.took(), LONG)

    def test_one_that_takes_no_octets(self):
        with dripping(bytes(400), reads=False) as address:
            with self.assertRaisesRegex(Unreachable, "timed out"):
                Etcd([address]).txn([etcd.put("a", bytes(12 << 20))])
        self.assertLess(self.took(), 5 * LONG)

    def test_a_password(self):
        head, body = answer_of(b" " * 400)
        with dripping(head + body, len(head)) as address:
            found = Etcd([address])
            found.login = {"name": "ops", "password": "secret"}
            with self.assertRaises(Unreachable):
                found.txn([one("a")])
            self.assertIsNone(found.answers(address))
        self.assertLess(self.took(), LONG)

    def test_news(self):
        """A watch whose news drip is one without news, for as long as it is waited for."""
        head, body = answer_of(b'{"result":{"created":true}}\n' + b" " * 400)
        with dripping(head + body, len(head) + body.index(b"\n") + 1) as address:
            Etcd([address]).wait("a", "b", 1, 0.6)
        self.assertGreater(self.took(), 0.5)
        self.assertLess(self.took(), LONG)

    def test_what_looks_at_each_member(self):
        head, body = answer_of(b" " * 400)
        with dripping(head + body, len(head)) as address:
            self.assertIsNone(Etcd([address]).answers(address))
            self.assertLess(self.took(), LONG)
            self.began = time.monotonic()
            with mock.patch.object(etcd, "DEFRAGMENT", 3), mock.patch.multiple(
                Etcd,
                txn=lambda *words: etcd.Answer(True, [], 7),
                call=lambda *words: {},
            ):
                self.assertEqual(Etcd([address]).make_room(), (7, [address]))
        self.assertLess(self.took(), LONG)

    def test_a_name_that_nobody_looks_up(self):
        over = threading.Event()
        self.addCleanup(over.set)

        def look_up(host, port, **more):
            if more.get("flags"):
                raise socket.gaierror("no number")
            over.wait(10)

        with mock.patch.object(socket, "getaddrinfo", look_up):
            with self.assertRaisesRegex(Unreachable, "not looked up in time"):
                Etcd(["http://etcd.example:2379"]).txn([one("a")])
        self.assertLess(self.took(), LONG)

    def test_a_host_whose_first_address_hangs(self):
        """Each of its addresses has a share of the time."""
        self.bounds = iter([2])
        with member(told=EMPTY) as (address, _):
            port = int(address.rsplit(":", 1)[1])
            found = [
                (socket.AF_INET, socket.SOCK_STREAM, 6, "", (host, port))
                for host in ("127.0.0.2", "127.0.0.1")
            ]
            connect = socket.socket.connect

            def connected(sock, at):
                if at[0] == "127.0.0.2":
                    time.sleep(sock.gettimeout())
                    raise TimeoutError("timed out")
                connect(sock, at)

            with mock.patch.object(socket, "getaddrinfo", lambda *words, **more: found):
                with mock.patch.object(socket.socket, "connect", connected):
                    self.assertTrue(Etcd([f"http://etcd.example:{port}"]).txn([one("a")]).held)

    def test_a_large_answer_has_longer(self):
        """A page of entries over a slow way is no drip."""
        body = json.dumps(EMPTY).encode().ljust(1 << 20)
        with member(octets=body) as (address, _), mock.patch.object(bounded, "RATE", 1 << 14):
            read = bounded.Reader.readinto

            def slow(reader, buffer):
                time.sleep(0.005)
                return read(reader, memoryview(buffer)[:4096])

            with mock.patch.object(bounded.Reader, "readinto", slow):
                self.assertTrue(Etcd([address]).txn([one("a")]).held)
        self.assertGreater(self.took(), 1)

    def test_an_answer_without_end(self):
        self.bounds = iter([9])
        with member(octets=bytes(1 << 20)) as (address, _):
            with mock.patch.object(bounded, "MOST", 1 << 18):
                with self.assertRaisesRegex(Unreachable, "does not end"):
                    Etcd([address]).txn([one("a")])


class Outside(unittest.TestCase):
    def test_all_that_speak_to_etcd_do_so_bounded(self):
        """No other module than these opens connections to members."""
        opens = re.compile(
            r"urllib\.request|http\.client import HTTPS?Connection|create_connection"
        )
        found = {
            path.name
            for path in Path(etcd.__file__).parent.rglob("*.py")
            if opens.search(path.read_text())
        }
        self.assertEqual(found, {"bounded.py"})


class Certificates(unittest.TestCase):
    """Members that speak https, by certificates that openssl makes."""

    @classmethod
    def setUpClass(cls):
        if not shutil.which("openssl"):
            raise unittest.SkipTest("openssl is not installed (Debian: openssl)")
        folder = tempfile.TemporaryDirectory()
        cls.addClassCleanup(folder.cleanup)
        cls.folder = Path(folder.name)
        for name in ("good", "other"):
            words = ["req", "-x509", *cls.new(name), "-subj", f"/CN={name}", "-days", "9"]
            cls.openssl(*words, "-out", cls.at(f"{name}.pem"))
        cls.sign("member", "good", "IP:127.0.0.1")
        cls.sign("elsewhere", "good", "DNS:etcd.example")
        cls.sign("expired", "good", "IP:127.0.0.1", days="-1")
        cls.sign("client", "good", "DNS:client")
        cls.sign("stranger", "other", "DNS:client")

    @classmethod
    def openssl(cls, *words):
        subprocess.run(["openssl", *words], check=True, capture_output=True, timeout=20)

    @classmethod
    def at(cls, name):
        return str(cls.folder / name)

    @classmethod
    def new(cls, name):
        key = ["-newkey", "ec", "-pkeyopt", "ec_paramgen_curve:P-256", "-nodes"]
        return [*key, "-keyout", cls.at(f"{name}.key")]

    @classmethod
    def sign(cls, name, signer, names, days="9"):
        (cls.folder / f"{name}.ext").write_text(f"subjectAltName={names}\n")
        cls.openssl("req", *cls.new(name), "-subj", "/O=fleet", "-out", cls.at(f"{name}.csr"))
        words = ["-CA", cls.at(f"{signer}.pem"), "-CAkey", cls.at(f"{signer}.key"), "-days", days]
        words += ["-CAcreateserial", "-extfile", cls.at(f"{name}.ext")]
        cls.openssl(
            "x509", "-req", "-in", cls.at(f"{name}.csr"), *words, "-out", cls.at(f"{name}.pem")
        )

    def served(self, name, clients=None):
        context = ssl.SSLContext(ssl.PROTOCOL_TLS_SERVER)
        context.load_cert_chain(self.at(f"{name}.pem"), self.at(f"{name}.key"))
        if clients:
            context.verify_mode = ssl.CERT_REQUIRED
            context.load_verify_locations(self.at(f"{clients}.pem"))
        return member(told=EMPTY, context=context)

    def asked(self, address, *words):
        parser = argparse.ArgumentParser()
        etcd.add_etcd_options(parser)
        found = etcd_of(parser.parse_args(["--etcd", address, *words]))
        return found.txn([one("a")]).revision

    def of(self, name):
        return ["--cert", self.at(f"{name}.pem"), "--key", self.at(f"{name}.key")]

    def test_what_is_taken(self):
        signed = ["--cacert", self.at("good.pem")]
        with self.served("member") as (address, _):
            self.assertEqual(self.asked(address, *signed), 7)
        with self.served("member", "good") as (address, _):
            self.assertEqual(self.asked(address, *signed, *self.of("client")), 7)
        with self.served("expired") as (expired, _), self.served("member") as (address, _):
            self.assertEqual(self.asked(f"{expired},{address}", *signed), 7)

    def test_what_is_not_taken(self):
        for name, clients, more, words in (
            ("member", None, ["--cacert", self.at("other.pem")], "unable to get local issuer"),
            ("member", None, [], "unable to get local issuer|self-signed"),
            ("elsewhere", None, ["--cacert", self.at("good.pem")], "not valid for '127.0.0.1'"),
            ("expired", None, ["--cacert", self.at("good.pem")], "has expired"),
            ("member", "good", ["--cacert", self.at("good.pem")], "certificate"),
            ("member", "good", ["--cacert", self.at("good.pem"), *self.of("stranger")], ""),
        ):
            patient = mock.patch.object(etcd, "PATIENCE", 60)
            with self.subTest(words), patient, self.served(name, clients) as (address, _):
                began = time.monotonic()
                with self.assertRaisesRegex(Unreachable, f"^etcd: {address}: .*({words})"):
                    self.asked(address, *more)
                self.assertLess(time.monotonic() - began, 50)

    def test_one_side_without_tls(self):
        signed = ["--cacert", self.at("good.pem")]
        with member(told=EMPTY) as (address, _):
            with self.assertRaisesRegex(Unreachable, "does it speak https"):
                self.asked(address.replace("http:", "https:"), *signed)
        with self.served("member") as (address, _), self.assertRaises(Unreachable):
            self.asked(address.replace("https:", "http:"))
        with silent() as hangs, mock.patch.object(etcd, "PATIENCE", 0.3):
            with self.assertRaisesRegex(Unreachable, "timed out"):
                self.asked(hangs.replace("http:", "https:"), *signed)

    def test_files_that_do_not_go_together(self):
        client, other = self.of("client"), self.of("stranger")
        with self.assertRaisesRegex(Fault, "client.pem, .*stranger.key: .*mismatch"):
            self.asked("https://127.0.0.1:1", *client[:2], *other[2:])
        with self.assertRaisesRegex(Fault, "client.key: "):
            self.asked("https://127.0.0.1:1", "--cacert", self.at("client.key"))

    def test_glb_fleet_says_why_a_member_is_left_out(self):
        with self.served("expired") as (address, _):
            parser = argparse.ArgumentParser()
            etcd.add_etcd_options(parser)
            words = ["--etcd", address, "--cacert", self.at("good.pem")]
            found, told = fleet.Report(), etcd_of(parser.parse_args(words))
            with mock.patch.object(Etcd, "alarms", lambda self: []):
                fleet.look_at_members(told, found)
        self.assertIn("its certificate is not taken: certificate has expired", found.advice[0][1])


class Options(unittest.TestCase):
    def of(self, *words):
        parser = argparse.ArgumentParser()
        etcd.add_etcd_options(parser)
        return etcd_of(parser.parse_args(words))

    def test_wrong_words(self):
        for words in (
            ["--user", "root"],
            ["--password", "file"],
            ["--cert", "file"],
            ["--etcd", "127.0.0.1:2379"],
            ["--etcd", ","],
            ["--prefix", ""],
            ["--etcd", "https://a", "--key", "file"],
        ):
            with self.subTest(words), self.assertRaises(Fault) as found:
                self.of(*words)
            self.assertEqual(found.exception.status, WRONG_WORDS)

    def test_a_certificate_that_is_not_there_is_named(self):
        with self.assertRaisesRegex(Fault, "/nowhere.pem"):
            self.of("--etcd", "https://a", "--cert", "/nowhere.pem")


if __name__ == "__main__":
    unittest.main()
