"""Values of the last day: the page's own rings, and charts from Prometheus."""

import json
import math
import threading
import unittest
from http.server import BaseHTTPRequestHandler, ThreadingHTTPServer
from unittest import mock
from urllib.parse import parse_qs

import page_world
from test_loads import until

from glb_tools.options import Fault
from glb_tools.page import prometheus, rings
from glb_tools.page.prometheus import Prometheus, series_in
from glb_tools.page.rings import MINUTES, Rings

assert page_world
START = 28_000_000 * 60.0


class Kept(unittest.TestCase):
    def setUp(self):
        self.rings = Rings()

    def test_one_a_minute(self):
        for seconds, value in ((0, 1.0), (30, 2.0), (60, 3.0), (180, 4.0)):
            self.rings.put("placed", "", value, START + seconds)
        due = [(START, 2.0), (START + 60, 3.0), (START + 180, 4.0)]
        self.assertEqual(self.rings.chart("placed", START + 190), {"": due})
        self.assertEqual(self.rings.chart("moved", START), {})

    def test_a_day(self):
        for minute in range(3 * MINUTES):
            self.rings.put("placed", "", float(minute), START + 60 * minute)
        found = self.rings.chart("placed", START + 60 * (3 * MINUTES - 1))[""]
        self.assertEqual(len(found), MINUTES)
        self.assertEqual(found[0], (START + 60 * 2 * MINUTES, 2.0 * MINUTES))
        self.assertEqual(found[-1][1], 3.0 * MINUTES - 1)

    def test_a_gap(self):
        """What is older than a day goes, though nothing came meanwhile; and so does what nobody puts any more."""
        self.rings.put("behind", "h1", 1.0, START)
        self.rings.put("behind", "h2", 1.0, START + 60 * 1000)
        later = START + 60 * (MINUTES + 5)
        self.assertEqual(self.rings.chart("behind", later)["h1"], [])
        self.rings.put("behind", "h2", 2.0, later)
        found = self.rings.chart("behind", later)
        self.assertEqual(set(found), {"h2"})
        self.assertEqual([value for _, value in found["h2"]], [1.0, 2.0])

    def test_clocks(self):
        """A clock that goes back overwrites nothing of another day, and one that jumps far forth empties all."""
        self.rings.put("placed", "", 1.0, START)
        self.rings.put("placed", "", 9.0, START - 60 * (MINUTES + 1))
        self.assertEqual(self.rings.chart("placed", START)[""], [(START, 1.0)])
        self.rings.put("placed", "", 2.0, START - 60)
        self.assertEqual(len(self.rings.chart("placed", START)[""]), 2)
        self.rings.put("placed", "", 5.0, START + 1e12)
        self.assertEqual([v for _, v in self.rings.chart("placed", START + 1e12)[""]], [5.0])

    def test_counters(self):
        for seconds, total in ((0, 100), (10, 150), (70, 750), (130, 20), (190, 620)):
            self.rings.count("queries", "h1", total, START + seconds)
        # 5 and 10 a second; where it begins anew there is none
        due = [(START, 5.0), (START + 60, 10.0), (START + 180, 10.0)]
        self.assertEqual(self.rings.chart("queries", START + 200)["h1"], due)

    def test_series_are_bounded(self):
        with mock.patch.object(rings, "MOST_SERIES", 3):
            for number in range(9):
                self.rings.put("behind", f"h{number}", 1.0, START)
        self.assertEqual(len(self.rings.chart("behind", START)), 3)


def answer_of(*series):
    result = [{"metric": metric, "values": values} for metric, values in series]
    return json.dumps({"status": "success", "data": {"result": result}}).encode()


class Answers(unittest.TestCase):
    def test_series(self):
        found = series_in(
            answer_of(
                ({"server": "h1"}, [[10, "1.5"], [20, "NaN"], [30, "+Inf"], [40, "2"]]),
                ({}, [[10, "7"]]),
            ),
            "server",
        )
        self.assertEqual(found, {"h1": [(10.0, 1.5), (40.0, 2.0)], "": [(10.0, 7.0)]})

    def test_nonsense(self):
        for octets in (
            b"",
            b"[]",
            b'{"status": "success"}',
            b'{"status": "success", "data": {"result": [{"metric": {}, "values": [["a", "b"]]}]}}',
            b'{"status": "success", "data": {"result": 5}}',
        ):
            with self.subTest(octets), self.assertRaises(Exception):
                series_in(octets, "")
        with self.assertRaisesRegex(Fault, "it says out of bounds"):
            series_in(b'{"status": "error", "error": "out of bounds"}', "")


class Asked(unittest.TestCase):
    """A peer that plays Prometheus."""

    def setUp(self):
        case = self
        self.asked, self.reply = [], answer_of(({}, [[10, "5"]]))
        self.status = 200

        class Plays(BaseHTTPRequestHandler):
            def do_POST(self):
                length = int(self.headers["Content-Length"])
                case.asked.append((self.path, parse_qs(self.rfile.read(length).decode())))
                self.send_response(case.status)
                self.send_header("Content-Length", str(len(case.reply)))
                self.end_headers()
                self.wfile.write(case.reply)

            def log_message(self, *words):
                pass

        self.peer = ThreadingHTTPServer(("127.0.0.1", 0), Plays)
        threading.Thread(target=self.peer.serve_forever, daemon=True).start()
        self.addCleanup(self.peer.server_close)
        self.addCleanup(self.peer.shutdown)
        patch = mock.patch.object(prometheus, "tell")
        self.told = patch.start()
        self.addCleanup(patch.stop)

    def client(self, queries=""):
        found = Prometheus(f"http://127.0.0.1:{self.peer.server_port}/", queries)
        self.addCleanup(found.over.set)
        return found

    def test_charts(self):
        found = self.client("sum by (server) (rate(x[5m]))").all_charts(100_000.0)
        self.assertEqual(found["placed"], {"": [(10.0, 5.0)]})
        self.assertEqual(set(found), {*prometheus.EXPRESSIONS, "queries"})
        path, words = self.asked[0]
        self.assertEqual(path, "/api/v1/query_range")
        self.assertEqual((words["start"], words["end"]), (["13600"], ["100000"]))
        self.assertIn(
            ["sum by (server) (rate(x[5m]))"], [words["query"] for _, words in self.asked]
        )

    def test_faults(self):
        client = self.client()
        for status, reply, why in (
            (500, b"oops", "status 500"),
            (200, b"x" * 4000, "Expecting value"),
            (400, b'{"status": "error", "error": "bad expression"}', "bad expression"),
        ):
            self.status, self.reply = status, reply
            with self.subTest(status), self.assertRaisesRegex(Exception, why):
                client.all_charts(100_000.0)
        with mock.patch.object(prometheus, "LARGEST", 3), self.assertRaisesRegex(
            Fault, "too large"
        ):
            client.all_charts(100_000.0)

    def test_it_goes_and_comes(self):
        client = self.client()
        with mock.patch.object(prometheus, "EVERY", 0.02):
            client.start()
            until(lambda: client.charts)
            self.assertEqual(client.fault, "")
            self.status, self.reply = 503, b"away"
            until(lambda: client.fault)
            # what is old is not shown as if it were new
            until(lambda: client.charts == {})
            self.status, self.reply = 200, answer_of(({}, [[10, "6"]]))
            until(lambda: client.charts)
            client.over.set()
            client.join()

    def test_nobody(self):
        client = Prometheus("http://127.0.0.1:1")
        with self.assertRaises(Exception) as raised:
            client.all_charts(1e9)
        self.assertIn("refused", prometheus.words_of(raised.exception))


assert math

if __name__ == "__main__":
    unittest.main()
