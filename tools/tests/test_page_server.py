"""The web server: who may ask what, and that whatever comes from outside stays text."""

import base64
import os
import re
import shutil
import signal
import socket
import subprocess
import sys
import time
import unittest
from html.parser import HTMLParser
from types import SimpleNamespace
from unittest import mock

import page_world
from page_world import REPLY, program, served_of
from test_page_views import FOREST, FOREST_MAP

from glb_tools.drains import Drain
from glb_tools.options import Fault
from glb_tools.page import command, guard, server
from glb_tools.page.dry_run import DryRuns
from glb_tools.page.guard import Access, hosts_of
from glb_tools.page.maps import placed_in, sums_of
from glb_tools.page.mirror import Setter
from glb_tools.page.rings import Rings
from glb_tools.page.server import Page, app_of
from glb_tools.page.sources import Server, Sight
from glb_tools.page.steps import Step, Steps
from samples import EXAMPLES, TOOLS, Case

assert page_world
HOSTILE = "<script>alert(1)</script>\"'&amp;"
VIEWS = ("/", "/why", "/changes", "/what-if", "/time")


class Inert(HTMLParser):
    """Of a document, whatever could run, load from elsewhere, or style by itself."""

    def __init__(self, text):
        super().__init__()
        self.found, self.tags, self.ids, self.labels = [], [], [], []
        self.feed(text)

    def handle_starttag(self, tag, attributes):
        self.tags.append(tag)
        for name, value in attributes:
            if name.startswith("on") or name in ("style", "srcdoc"):
                self.found.append(f"{tag} {name}")
            if name in ("href", "src", "action") and not re.match(r"[/#](?!/)", value or ""):
                self.found.append(f"{tag} {name}={value}")
            if name == "id":
                self.ids.append(value)
            if name == "for":
                self.labels.append(value)
        if (
            tag in ("script", "link")
            and dict(attributes).get("src" if tag == "script" else "href") is None
        ):
            self.found.append(f"{tag} inline")
        if tag in ("iframe", "object", "embed", "base", "style"):
            self.found.append(tag)


class Served(unittest.TestCase):
    """A page over a hand-made world, in which all that may hold anything is hostile."""

    def setUp(self):
        served = served_of(FOREST, FOREST_MAP, [("capacity", "e2", 0)], time=990.0)
        steps = Steps()
        steps.begin(served.tables)
        for number, text in ((1, FOREST_MAP), (2, FOREST_MAP.replace("near e1 25", "near e1 20"))):
            placed = placed_in(served.tables, text.encode())
            sums = sums_of(served.tables, placed, served.capacities, served.demands)
            step = Step(number, f"m{number}", sent=900 + number, author=HOSTILE, why=HOSTILE)
            step.lines, step.line_count = [HOSTILE], 1
            steps.add(step, placed, sums)
        steps.add(Step(3, "m3", author=HOSTILE, why=HOSTILE, dropped=HOSTILE))
        drain = Drain("e1", 60, 5, 400, HOSTILE, HOSTILE, False, 60, 10, "r", 50, 40, 940)
        sight = Sight(995.0, [Server(HOSTILE, "gone", HOSTILE, True, checksum="<b>")])
        # what stands in etcd may name any node
        other = Drain(HOSTILE, 60, 5, 400, "", "", False, 60, 10, "r", 50, 40, 940)
        sight.advice = [("silent", HOSTILE), ("note", HOSTILE)]
        sight.drains = [drain, other]
        self.asked = []

        def ask(address, query):
            self.asked.append(address)
            return 3, bytes.fromhex(REPLY)

        self.mirror = SimpleNamespace(
            served=served,
            steps=steps,
            setters={"e2": Setter(HOSTILE, HOSTILE, 1, 0)},
            is_up=True,
            fault="",
            at=0,
            of=0,
            ask=ask,
        )
        source = SimpleNamespace(kind="fleet", sight=sight)
        self.rings = Rings()
        self.rings.put("queries", HOSTILE, 5.0, 990.0)
        self.page = Page(
            HOSTILE,
            source,
            self.mirror,
            self.rings,
            DryRuns("/nowhere/glb"),
            Access(hosts_of("127.0.0.1", 9855, [])),
            clock=lambda: 1000.0,
        )
        self.client = app_of(self.page).test_client()

    def get(self, path, status=200, method="GET", **headers):
        headers.setdefault("Host", "127.0.0.1:9855")
        found = self.client.open(
            path, method=method, headers={key.replace("_", "-"): v for key, v in headers.items()}
        )
        self.assertEqual(found.status_code, status, found.get_data(as_text=True)[:600])
        for name, value in guard.HEADERS.items():
            self.assertEqual(found.headers[name], value)
        self.assertNotIn("Traceback", found.get_data(as_text=True))
        return found.get_data(as_text=True)


class Escaped(Served):
    PATHS = (
        *VIEWS,
        "/?node=east&by=full",
        "/why?q=198.51.100.7",
        "/why?q=near&service=video",
        "/why?q=west",
        "/why?q=Video",
        "/why?q=" + HOSTILE.replace("&", "%26").replace('"', "%22").replace("+", "%2B"),
        "/changes?at=2",
        "/changes?at=1",
        "/changes?at=3",
        "/changes?from=2&to=1&by=site",
        "/what-if?lines=%3Cb%3E",
        "/what-if?name=%3Cb%3E&number=%3Cb%3E&word=demand",
    )

    def test_nothing_runs(self):
        for path in self.PATHS:
            with self.subTest(path):
                text = self.get(path)
                found = Inert(text)
                self.assertEqual(found.found, [])
                self.assertEqual(found.tags.count("script"), 1)
                self.assertNotIn("alert(1)</script>", text)
                self.assertNotIn("<b>", text)

    def test_it_is_said(self):
        """What is hostile stands there, as text: it is not lost either."""
        due = "&lt;script&gt;alert(1)&lt;/script&gt;&#34;&#39;&amp;amp;"
        for path in ("/", "/changes", "/changes?at=2", "/changes?at=3", "/time"):
            with self.subTest(path):
                self.assertIn(due, self.get(path))

    def test_letters_that_turn_the_text(self):
        """What would turn the text round, or is seen by nobody, is shown as a question mark."""
        step = self.mirror.steps.listed()[0]
        step.author, step.why = "a\u202eb", "c\u200bd\x1b[31m\x00"
        self.page.source.sight.servers[0].name = "h\u2066i"
        for path in ("/", "/changes"):
            text = self.get(path)
            self.assertNotRegex(text, "[\u202e\u200b\u2066\x1b\x00]")
            self.assertIn("a?b", text)
        self.assertIn("h?i", self.get("/"))

    def test_ids_and_labels(self):
        for path in self.PATHS:
            with self.subTest(path):
                found = Inert(self.get(path))
                ids = [each for each in found.ids if each not in ("hatch", "dots")]
                self.assertEqual(len(ids), len(set(ids)))
                self.assertLessEqual(set(found.labels), set(ids))

    def test_links(self):
        """Each link of each view leads to a view."""
        seen = set()
        for path in self.PATHS:
            for link in re.findall(r'href="([^"]*)"', self.get(path)):
                seen.add(link.replace("&amp;", "&"))
        self.assertGreater(len(seen), 25)
        for link in sorted(seen):
            if not link.startswith("#"):
                with self.subTest(link):
                    self.client.open(link, headers={"Host": "127.0.0.1:9855"})
                    found = self.client.get(link, headers={"Host": "127.0.0.1:9855"})
                    self.assertEqual(found.status_code, 200, link)
                    found.close()


class Guarded(Served):
    def test_methods(self):
        for method in ("POST", "PUT", "DELETE", "PATCH", "OPTIONS", "TRACE", "CONNECT", "X"):
            for path in ("/", "/what-if?lines=capacity+e1+0", "/static/page.css", "/none"):
                with self.subTest(f"{method} {path}"):
                    self.get(path, 405, method)
        self.assertEqual(self.get("/", method="HEAD"), "")

    def test_hosts(self):
        for host in ("127.0.0.1:9855", "localhost:9855", "[::1]:9855", "LOCALHOST:9855"):
            self.get("/", Host=host)
        for host in (
            "evil.example",
            "127.0.0.1",
            "127.0.0.1:80",
            "127.0.0.1:9855.evil.example",
            "evil.example:9855",
            "127.0.0.1:9855@evil.example",
            "127.0.0.1:9855,evil.example",
            "",
            " ",
        ):
            for path in ("/", "/state", "/static/page.js", "/none"):
                with self.subTest(f"{host} {path}"):
                    self.get(path, 421, Host=host)

    def test_names_of_hosts(self):
        found = hosts_of("192.0.2.1", 80, ["Glb.ops.example"])
        self.assertIn("glb.ops.example", found)
        self.assertIn("glb.ops.example:80", found)
        self.assertIn("192.0.2.1:80", found)
        self.assertNotIn("127.0.0.1:80", found)
        self.assertIn("[::1]:80", hosts_of("::1", 80, []))

    def test_paths(self):
        for path in (
            "/none",
            "/../../etc/passwd",
            "/%2e%2e/%2e%2e/etc/passwd",
            "/static/../command.py",
            "/static/..%2f..%2fserver.py",
            "/static/%2e%2e/server.py",
            "/static//etc/passwd",
            "/static/",
            "/static/page.py",
            "/static/none.css",
            "/templates/now.html",
            "/why/",
            "/%00",
            "/a\u00e9",
            "/" + "a" * 150,
        ):
            with self.subTest(path):
                found = self.client.get(path, headers={"Host": "127.0.0.1:9855"})
                self.assertIn(found.status_code, (400, 404), path)
        self.get("/" + "a" * 300, 414)
        self.get("/why?q=" + "a" * 9000, 414)

    def test_queries(self):
        for path in (
            "/?nothing=1",
            "/?page=1&page=2",
            "/?page=-1",
            "/?page=x",
            "/?page=" + "9" * 20,
            "/?page=%31%00",
            "/?by=sideways",
            "/why?q=" + "a" * 301,
            "/why?q=%ff",
            "/why?q=%00",
            "/why?q=a%0ab",
            "/why?q=%1b%5b31m",
            "/why?q=%e2%80%ae",
            "/changes?at=1&from=1&to=x",
            "/changes?by=site&by=site",
            "/what-if?lines=" + "a" * 4001,
            "/what-if?lines=%07",
            "/what-if?name=a%0Ab",
            "/time?x=1",
            "/state?x=1",
            "/?" + "&".join(f"a{n}=1" for n in range(20)),
        ):
            with self.subTest(path):
                self.get(path, 400)
        for path in (
            "/changes?at=9",
            "/changes?from=1&to=99",
            "/changes?from=1&to=3",
            "/?node=none",
        ):
            with self.subTest(path):
                self.get(path, 404)
        # what is empty is not given
        self.get("/?page=&groups=")
        self.get("/why?q=&service=")
        self.get("/?page=999999999999999")

    def test_bodies(self):
        for more in ({"data": b"x"}, {"headers": {"Transfer-Encoding": "chunked"}}):
            headers = {"Host": "127.0.0.1:9855", **more.pop("headers", {})}
            found = self.client.get("/", headers=headers, **more)
            self.assertEqual(found.status_code, 413)

    def test_other_sites(self):
        self.get("/what-if?lines=capacity+e1+0", 403, Sec_Fetch_Site="cross-site")
        self.assertEqual(len(self.page.dry_runs.waiting), 0)
        self.get("/what-if?lines=capacity+e1+0", Sec_Fetch_Site="same-origin")
        self.get("/what-if?lines=capacity+e1+1", Sec_Fetch_Site="none")
        self.assertEqual(len(self.page.dry_runs.waiting), 2)
        # a link from elsewhere leads to the other views
        self.get("/", Sec_Fetch_Site="cross-site")

    def test_a_fault_of_its_own(self):
        with mock.patch.object(server, "now_shown", side_effect=RuntimeError(HOSTILE)):
            with mock.patch.object(server, "tell") as told:
                text = self.get("/", 500)
        self.assertNotIn("alert", text)
        self.assertEqual(told.call_count, 1)


class Tokens(Served):
    TOKEN = "a token of many letters"

    def setUp(self):
        super().setUp()
        self.let(Access(self.page.access.hosts, self.TOKEN))

    def let(self, access):
        self.page.access = access

    def basic(self, password, user="anybody"):
        return "Basic " + base64.b64encode(f"{user}:{password}".encode()).decode()

    def test_token(self):
        for given in (
            {},
            {"Authorization": "Bearer "},
            {"Authorization": "Bearer x"},
            {"Authorization": self.TOKEN},
            {"Authorization": self.basic("x")},
            {"Authorization": self.basic("")},
            {"Authorization": self.basic("x", self.TOKEN)},
            {"Authorization": "Basic !!!"},
            {"Authorization": "Digest username=x"},
            {"Authorization": f"Bearer {self.TOKEN} "[:-2]},
        ):
            for path in ("/", "/state", "/static/page.css", "/none", "/what-if?lines=a"):
                with self.subTest(f"{given} {path}"):
                    self.get(path, 401, **given)
        found = self.client.get("/", headers={"Host": "127.0.0.1:9855"})
        self.assertIn("Basic realm", found.headers["WWW-Authenticate"])
        self.get("/", Authorization=f"Bearer {self.TOKEN}")
        self.get("/", Authorization=self.basic(self.TOKEN))
        self.assertEqual(self.asked, [])

    def test_user_of_a_proxy(self):
        self.let(Access(self.page.access.hosts, "", "X-Remote-User"))
        self.get("/", 403)
        self.get("/", 403, X_Remote_User="")
        self.get("/", 403, X_Remote_User="u" * 201)
        self.get("/", X_Remote_User="ann")


class Read(Served):
    def test_reply(self):
        text = self.get("/why?q=198.51.100.7")
        self.assertIn("www.cdn.example. 20 IN A 192.0.2.1", text)
        self.assertEqual(self.asked, ["198.51.100.7"] * 2)
        # of one map it is asked once
        self.get("/why?q=198.51.100.7")
        self.assertEqual(len(self.asked), 2)

    def test_replies_are_bounded(self):
        for number in range(200):
            self.get(f"/why?q=198.51.100.{number}")
        self.assertLessEqual(len(self.page.answers), 64)

    def test_no_mirror(self):
        self.mirror.served, self.mirror.is_up, self.mirror.fault = None, False, "it ended <b>"
        for path in (*VIEWS, "/why?q=near", "/what-if?lines=capacity+e1+0", "/?node=east"):
            with self.subTest(path):
                self.get(path)
        self.assertIn("it ended &lt;b&gt;", self.get("/"))
        self.assertIn('"mirror": false', self.get("/state"))

    def test_mirror_that_was(self):
        """What was served last is shown, and said to be old."""
        self.mirror.is_up, self.mirror.fault = False, "it ended"
        text = self.get("/")
        self.assertIn("the mirror does not run: it ended", text)
        self.assertIn("west", text)

    def test_news(self):
        before = self.page.mark()
        self.assertEqual(self.page.mark(), before)
        self.page.source.sight.servers[0].state = "there"
        self.assertNotEqual(self.page.mark(), before)

    def test_works(self):
        text = self.get("/what-if?lines=capacity+e1+0")
        self.assertIn("data-works", text)
        self.assertIn('http-equiv="refresh"', text)
        self.page.dry_runs.work(self.page.dry_runs.waiting.popleft())
        self.assertIn("/nowhere/glb: No such file", self.get("/what-if?lines=capacity+e1+0"))

    def test_one_more(self):
        text = self.get("/what-if?lines=capacity+e1+0&word=demand&name=near&number=7")
        self.assertIn("capacity e1 0\ndemand near 7</textarea>", text)
        self.assertIn("unknown name", self.get("/what-if?word=demand&name=e1&number=7"))

    def test_crowded(self):
        for number in range(4):
            self.get(f"/what-if?lines=capacity+e1+{number}")
        self.get("/what-if?lines=capacity+e1+9", 429)

    def test_without_script(self):
        self.assertIn('<noscript><meta http-equiv="refresh" content="30">', self.get("/"))
        self.assertNotIn("http-equiv", self.get("/why?q=near"))


class Options(Case):
    def refuses(self, *words, status=64):
        return self.refused(command.main, *words, status=status)

    def test_words(self):
        for words in (
            ["--listen", "x"],
            ["--listen", "127.0.0.1:0"],
            ["--listen", "127.0.0.1:99999"],
            ["--every", "0"],
            ["--said", "-"],
            ["--queries", "x"],
            ["--prometheus", "ftp://x"],
            ["--of-log", "one"],
            ["--server", "a=b"],
            ["--open", "word"],
        ):
            with self.subTest(words):
                with mock.patch.object(command, "begin"):
                    self.refuses(*words)

    def test_others_reach_it(self):
        said = self.refuses("--listen", "192.0.2.1:80")
        self.assertIn("--token or --user-header", said)
        self.refuses("--listen", "0.0.0.0:80")
        self.refuses("--listen", "[::]:80")
        short = self.file("token", "short\n")
        self.refuses("--listen", "192.0.2.1:80", "--token", short, status=1)
        self.refuses("--token", str(self.folder / "none"), status=1)
        self.refuses("--token", self.file("empty", ""), status=1)

    def test_locals(self):
        options = SimpleNamespace(server=["a=192.0.2.1:53", "[::1]:53"], unit=["a=glb@v4", "b=x"])
        found = {each.name: each for each in command.locals_of(options, "")}
        self.assertEqual(
            (found["a"].address, found["a"].port, found["a"].unit), ("192.0.2.1", 53, "glb@v4")
        )
        self.assertEqual((found["[::1]:53"].address, found["b"].unit), ("::1", "x"))
        options = SimpleNamespace(server=["192.0.2.1:53"], unit=["glb"])
        (only,) = command.locals_of(options, "the server")
        self.assertEqual((only.name, only.port, only.unit), ("the server", 53, "glb"))

    def test_samples(self):
        rings, served = Rings(), served_of()
        mirror = SimpleNamespace(served=served, is_up=True, moved=40)
        server = Server("h1", behind=2, drops=10)
        source = SimpleNamespace(sight=Sight(1.0, [server]))
        sampler = command.Sampler(rings, source, mirror, [])
        sampler.take(600.0)
        mirror.moved, server.drops = 47, 70
        sampler.take(630.0)
        self.assertEqual(rings.chart("unplaced", 630.0), {"": [(600.0, 4.0)]})
        self.assertEqual(rings.chart("full", 630.0), {"": [(600.0, 1.0)]})
        # what the log's replay moved is not counted
        self.assertEqual(rings.chart("moved", 630.0), {"": [(600.0, 7.0)]})
        self.assertEqual(rings.chart("drops", 630.0), {"h1": [(600.0, 2.0)]})
        mirror.moved = 48
        sampler.take(661.0)
        self.assertEqual(rings.chart("moved", 661.0)[""][-1], (660.0, 0.0))
        self.assertEqual(rings.chart("behind", 661.0)["h1"][-1], (660.0, 2.0))


class Proxy(Case):
    @unittest.skipUnless(
        shutil.which("nginx") and shutil.which("openssl"), "nginx or openssl is not installed"
    )
    def test_nginx_takes_it(self):
        key, crt = self.folder / "key", self.folder / "crt"
        words = ["openssl", "req", "-x509", "-newkey", "ec", "-pkeyopt", "ec_paramgen_curve:P-256"]
        words += ["-nodes", "-subj", "/CN=x", "-keyout", str(key), "-out", str(crt)]
        subprocess.run(words, check=True, capture_output=True, timeout=60)
        text = (EXAMPLES / "glb-page.nginx").read_text()
        text = text.replace("/etc/glb/page.crt", str(crt)).replace("/etc/glb/page.key", str(key))
        conf = self.file(
            "nginx.conf",
            f"pid {self.folder}/pid; events {{}} http {{ access_log off; {self.places()}\n{text} }}",
        )
        found = subprocess.run(
            ["nginx", "-t", "-q", "-e", f"{self.folder}/errors", "-c", conf],
            capture_output=True,
            timeout=60,
        )
        self.assertEqual(found.returncode, 0, found.stderr.decode())

    def places(self):
        kinds = ("client_body", "proxy", "fastcgi", "uwsgi", "scgi")
        return " ".join(f"{kind}_temp_path {self.folder}/{kind};" for kind in kinds)


def free_port():
    with socket.create_server(("127.0.0.1", 0)) as found:
        return found.getsockname()[1]


class Running(Case):
    """The command, as an operator starts it, over a program that plays `glb serve`."""

    def setUp(self):
        super().setUp()
        self.port = free_port()
        log = self.file("log", "demand g1 5\ncommit\n")
        words = [sys.executable, "-B", str(TOOLS / "glb-page"), "--of-log", self.small(), log]
        words += ["--glb", program(self), "--listen", f"127.0.0.1:{self.port}", "--every", "0.1"]
        self.running = subprocess.Popen(words, stderr=subprocess.PIPE)
        self.addCleanup(self.running.stderr.close)
        self.addCleanup(self.running.wait)
        self.addCleanup(self.running.kill)
        for _ in range(400):
            if b'"mirror": true' in self.raw(self.head("/state")):
                return
            self.assertIsNone(self.running.poll())
            time.sleep(0.05)
        self.fail("it did not begin")

    def head(self, path, more="", method="GET", version="1.1"):
        host = f"Host: 127.0.0.1:{self.port}\r\n" if version == "1.1" else ""
        return f"{method} {path} HTTP/{version}\r\n{host}{more}Connection: close\r\n\r\n".encode(
            "latin-1"
        )

    def raw(self, octets, wait=1):
        """All that comes for these octets."""
        found = b""
        try:
            with socket.create_connection(("127.0.0.1", self.port), timeout=wait) as peer:
                peer.sendall(octets)
                while piece := peer.recv(65536):
                    found += piece
        except (TimeoutError, ConnectionError):
            pass
        return found

    def status(self, octets):
        found = re.match(rb"HTTP/1\.[01] (\d{3}) ", self.raw(octets))
        return int(found[1]) if found else 0

    def test_whatever_comes(self):
        for octets, due in (
            (self.head("/"), {200}),
            (self.head("/", version="1.0"), {421}),
            (self.head("/", method="POST"), {405}),
            (self.head("/", "Content-Length: 5\r\n"), {413, 0}),
            (self.head("/", "Content-Length: 99999999\r\n"), {413}),
            (self.head("/", "Content-Length: -5\r\n"), {400}),
            (
                self.head("/", "Content-Length: 5\r\nTransfer-Encoding: chunked\r\n")
                + b"0\r\n\r\n",
                # it is read as chunks, of which there are none
                {200, 400, 413},
            ),
            (self.head("/", "X: " + "a" * 20000 + "\r\n"), {431, 400}),
            (self.head("/?" + "a" * 20000), {431, 414, 400}),
            (self.head("/\xff\xfe"), {400, 404}),
            (self.head("/%c0%ae%c0%ae/x"), {400, 404}),
            (self.head("http://evil.example/"), {200, 400, 404, 421}),
            (self.head("//evil.example/%2e%2e"), {400, 404}),
            # slashes at its beginning are one for the web server
            (self.head("//why"), {200}),
            (b"GET / HTTP/1.1\r\nHost: a\r\nHost: b\r\n\r\n", {400, 421}),
            (b"GET /\r\n\r\n", {400, 421}),
            (b"\x16\x03\x01\x02\x00\x01\x00\x01\xfc\x03\x03" + b"\0" * 600, {400, 0}),
            (b"nonsense\r\n\r\n", {400, 405}),
            (b"GET / HTTP/1.1\r\nHost: x\nX: y\r\n\r\n", {400, 421}),
        ):
            with self.subTest(octets[:60]):
                self.assertIn(self.status(octets), due)
        found = self.raw(self.head("/"))
        self.assertNotIn(b"\r\nServer:", found)
        self.assertIn(b"Content-Security-Policy: default-src 'none'", found)
        self.running.send_signal(signal.SIGTERM)
        said = self.running.stderr.read()
        self.assertEqual(said, b"")

    def test_many_that_say_nothing(self):
        """Connections that say nothing hold up nobody."""
        idle = [socket.create_connection(("127.0.0.1", self.port)) for _ in range(40)]
        for each in idle:
            self.addCleanup(each.close)
            each.sendall(b"GET / HT")
        began = time.monotonic()
        self.assertEqual(self.status(self.head("/")), 200)
        self.assertLess(time.monotonic() - began, 2)

    def test_news_and_an_end(self):
        with open(self.folder / "log", "a") as file:
            file.write("demand g1 3\ncommit\n")
        for _ in range(100):
            if b"batch 2" in self.raw(self.head("/")):
                break
            time.sleep(0.05)
        self.assertIn(b"batch 2", self.raw(self.head("/")))
        self.running.send_signal(signal.SIGINT)
        self.assertEqual(self.running.wait(10), 130)
        # its mirror has gone with it
        time.sleep(0.2)
        left = subprocess.run(["pgrep", "-f", str(self.folder / "glb")], capture_output=True).stdout
        self.assertEqual(left, b"")

    def test_a_port_that_is_taken(self):
        words = ["--of-log", self.small(), str(self.folder / "log"), "--glb", "/bin/false"]
        with mock.patch.object(command, "begin"):
            said = self.refused(command.main, *words, "--listen", f"127.0.0.1:{self.port}")
        self.assertIn("Address already in use", said)


assert Fault and os

if __name__ == "__main__":
    unittest.main()
