"""Tables of what other programs have: read here, and where the program is installed compared with what it answers."""

import contextlib
import csv
import ipaddress
import shutil
import socket
import subprocess
import tempfile
import time
import unittest
from pathlib import Path

try:
    import numpy  # noqa: F401
except ImportError:
    raise unittest.SkipTest("python3-numpy is not installed") from None

from glb_tools.planning.command import main
from mmdb_files import city, write_mmdb
from planning_files import Folder


def needs(*modules):
    missing = []
    for module in modules:
        try:
            __import__(module)
        except ImportError:
            missing.append(module)
    return unittest.skipIf(missing, f"Python's {', '.join(missing)} is not installed")


def installed(*programs):
    missing = [program for program in programs if not shutil.which(program)]
    return unittest.skipIf(missing, f"{', '.join(missing)} is not installed")


# Debian has the module of Knot in a package of its own
with_geoip = unittest.skipUnless(
    any(Path("/usr/lib").glob("*/knot/modules*/geoip.so")), "knot-module-geoip is not installed"
)
PLACES = {
    "10.0.0.0/8": city("EU", "DE", ("BE",), "Berlin", (52.5, 13.4)),
    "11.1.0.0/16": city("EU", "FR", ("IDF", "75"), "Paris", (48.9, 2.3)),
    "11.2.0.0/16": city("EU", "FR", ("ARA",), "Lyon", (45.8, 4.8)),
    "12.0.0.0/9": city("NA", "US", ("TX",), "Dallas", (32.8, -96.8)),
    "12.128.0.0/9": city("NA", "MX", (), "", (19.4, -99.1)),
    "2001:db8::/32": city("OC", "NZ", ("SI", "OTA"), "Dunedin", (-45.9, 170.5)),
    "2a00::/12": city("EU", "CH", (), "", (47, 8)),
}
ADDRESSES = """10.0.0.1 10.1.0.1 10.1.2.3 10.2.2.3 11.1.0.1 11.2.0.1 11.3.0.1 12.0.0.1 12.200.0.1 192.0.2.1 1.1.1.1
2a00::1 2001:db8::1 2001:db8:1::1 2001:db9::1""".split()
GDNSD = """
plugins => { geoip => {
  maps => {
    prod => {
      geoip2_db => City.mmdb,
      datacenters => [us, de, sg], # all
      map => {
        EU => { default => [de, us, sg], FR => { Paris => [sg, de] }, CH => [de] }
        NA => { US => { Dallas => [us] } }
        OC => { NZ => { OTA => "sg" } }
      }
      nets => { 10.1.0.0/16 => [ sg, us ], 10.1.2.0/24 => de; a remark
        2001:DB8:1::/48 => us, ::C000:0200/120 => s\\g }
    }
    auto => {
      geoip2_db => City.mmdb, datacenters => [us, de, sg], auto_dc_limit => 2
      auto_dc_coords => { us => [38.9, -77], de => [50.1, 8.7], sg => [1.3, 103.9] }
    }
    mixed => {
      geoip2_db => City.mmdb, datacenters => [us, de, sg], auto_dc_limit => 0
      auto_dc_coords => { de => [50.1, 8.7], sg => [1.3, 103.9] }
      map => { EU => { default => auto, DE => { Berlin => us }, FR => { "75" => [de, us] } }, OC => [us], NA => { default => [sg, us] } }
      nets => { 12.128.0.0/10 => sg }
    }
    nets => { datacenters => [us, de], nets => nets.txt }
  }
  resources => {
    www => { map => prod, service_types => up,
      dcmap => { us => 192.0.2.1, de => { a => 192.0.2.2, b => 192.0.2.3 }, sg => [192.0.2.4, 2001:db8::4] } }
    www2 => { map => auto, service_types => up,
      dcmap => { us => 192.0.2.1, de => 192.0.2.2, sg => last.example. } }
    www3 => { map => nets, service_types => up, dcmap => { us => 192.0.2.1, de => 192.0.2.2 } }
  }
}}
"""
NETS = "10.0.0.0/8 => [de, us]\n10.64.0.0/10 => us # some\n2001:db8::/32 = de,\n"
KNOT = """cdn.example.:
  - net: 10.0.0.0/8
    A: [ 192.0.2.1, 192.0.2.11 ]
    AAAA: 2001:db8::1
    TXT: "x"
  - net: 10.1.0.0/16
    A: 192.0.2.2
  - net: 2001:db8::/32
    A: 192.0.2.2
"""
KNOT_PLACES = """cdn.example.:
  - geo: "DE;*"
    A: 192.0.2.1
  - geo: "FR;Paris"
    A: 192.0.2.2
  - geo: "*;*"
    A: 192.0.2.3
"""
POWERDNS = """mapping_lookup_formats: ['%cc-%re', '%cc']
custom_mapping:
  de: eu
  us-tx: na
  ch: nowhere
domains:
- domain: cdn.example
  ttl: 30
  records:
    cdn.example:
      - soa: ns1.cdn.example. hm.cdn.example. 1 7200 3600 86400 60
      - ns: ns1.cdn.example.
    eu.dc.cdn.example:
      - a: 192.0.2.1
      - aaaa: 2001:db8::1
    na.dc.cdn.example:
      - a: {content: 192.0.2.2, weight: 50}
    no.dc.cdn.example:
      - a: 192.0.2.4
    unknown.dc.cdn.example:
      - a: 192.0.2.3
  services:
    www.cdn.example:
      default: [ '%cn.dc.cdn.example', 'unknown.dc.cdn.example' ]
      10.1.0.0/16: 'na.dc.cdn.example'
      10.1.2.0/24: [ 'no.dc.cdn.example', 'eu.dc.cdn.example' ]
      2001:db8::/32: 'eu.dc.cdn.example'
    map.cdn.example: [ '%mp.dc.cdn.example', 'unknown.dc.cdn.example' ]
"""


class Import(unittest.TestCase):
    """A reader on files in a folder."""

    def setUp(self):
        made = tempfile.TemporaryDirectory()
        self.addCleanup(made.cleanup)
        self.path = Path(made.name)

    def put(self, name, text):
        path = self.path / name
        path.parent.mkdir(parents=True, exist_ok=True)
        path.write_text(text)
        return path

    def database(self, name="City.mmdb"):
        path = self.path / name
        path.parent.mkdir(parents=True, exist_ok=True)
        write_mmdb(path, PLACES)
        return path

    def run_import(self, kind, *words, into="tables"):
        status, out, said = Folder.run(
            self, main, "--import", kind, *map(str, words), "--into", str(self.path / into)
        )
        return status, out.replace(f"{self.path}/", ""), said

    def imported(self, kind, *words, into="tables"):
        status, out, said = self.run_import(kind, *words, into=into)
        self.assertEqual((status, said), (0, ""))
        return out

    def refused(self, kind, *words):
        status, out, said = self.run_import(kind, *words)
        self.assertEqual((status, out), (1, ""))
        self.assertFalse((self.path / "tables").exists())
        return said.removeprefix("glb-topology: ").rstrip("\n")

    def rows(self, name, into="tables"):
        with open(self.path / into / name, newline="") as file:
            return list(csv.DictReader(file))

    def orders(self, into="tables"):
        """Of each group its pools, the nearest first."""
        found = {}
        for row in sorted(self.rows("rtt.csv", into), key=lambda row: float(row["milliseconds"])):
            found.setdefault(row["group"], []).append(row["pool"])
        return found

    def order_of(self, address, into="tables"):
        """The pools of an address, by the longest prefix."""
        addr, best = ipaddress.ip_address(address), None
        for row in self.rows("prefixes.csv", into):
            net = ipaddress.ip_network(row["prefix"])
            if addr.version == net.version and addr in net:
                if best is None or net.prefixlen > best[0]:
                    best = net.prefixlen, row["group"]
        return None if best is None else self.orders(into)[best[1]]

    def addresses(self, into="tables"):
        return {row["pool"]: row["addresses"].split() for row in self.rows("pools.csv", into)}


def free_port():
    with socket.socket(socket.AF_INET, socket.SOCK_DGRAM) as probe:
        probe.bind(("127.0.0.1", 0))
        return probe.getsockname()[1]


@contextlib.contextmanager
def server(case, words, port, name):
    """A server until it answers for a name, and its end."""
    said = case.path / "said"
    with open(said, "wb") as file:
        running = subprocess.Popen(words, stdout=file, stderr=subprocess.STDOUT, cwd=case.path)
    try:
        for _ in range(100):
            if asked(port, name, "SOA") or running.poll() is not None:
                break
            time.sleep(0.1)
        else:
            case.fail(f"it does not answer: {said.read_text()}")
        case.assertIsNone(running.poll(), said.read_text())
        yield
    finally:
        running.terminate()
        running.wait(10)


def asked(port, name, kind, client=None):
    """What a server says to a client, by its subnet."""
    words = ["dig", "+short", "+tries=1", "+time=1", "@127.0.0.1", "-p", str(port), name, kind]
    if client is not None:
        words.append(f"+subnet={client}/{32 if '.' in client else 128}")
    ended = subprocess.run(words, capture_output=True, text=True)
    return sorted(ended.stdout.split("\n")[:-1]) if ended.returncode == 0 else []


class Gdnsd(Import):
    def setUp(self):
        super().setUp()
        self.put("gdnsd/config", GDNSD)
        self.put("gdnsd/geoip/nets.txt", NETS)
        self.database("gdnsd/geoip/City.mmdb")

    def test_nets_of_a_file(self):
        out = self.imported("gdnsd", self.path / "gdnsd", "--name", "nets")
        self.assertEqual(self.order_of("10.1.1.1"), ["de", "us"])
        self.assertEqual(self.order_of("10.65.1.1"), ["us"])
        self.assertEqual(self.order_of("2001:db8::1"), ["de"])
        self.assertEqual(self.order_of("192.0.2.1"), ["us", "de"])
        self.assertEqual(self.addresses(), {"us": ["192.0.2.1"], "de": ["192.0.2.2"]})
        self.assertIn("not carried over: health checks, weights", out)
        self.assertIn("not carried over: capacities: each pool has `max`", out)

    @needs("maxminddb")
    def test_map_by_place_and_nets(self):
        self.imported("gdnsd", self.path / "gdnsd/config", "--name", "prod")
        expected = {
            "10.0.0.1": ["de", "us", "sg"],
            "10.1.0.1": ["sg", "us"],
            "10.1.2.3": ["de"],
            "11.1.0.1": ["sg", "de"],
            "11.2.0.1": ["de", "us", "sg"],
            "12.0.0.1": ["us"],
            "12.200.0.1": ["us", "de", "sg"],
            "192.0.2.1": ["sg"],
            "2001:db8::1": ["sg"],
            "2001:db8:1::1": ["us"],
            "2a00::1": ["de"],
        }
        for address, order in expected.items():
            self.assertEqual(self.order_of(address), order, address)
        self.assertEqual(self.addresses()["sg"], ["192.0.2.4", "2001:db8::4"])

    @needs("maxminddb")
    @installed("gdnsd_geoip_test")
    def test_as_gdnsd_maps(self):
        for name in ("prod", "auto", "mixed", "nets"):
            self.imported("gdnsd", self.path / "gdnsd", "--name", name, into=name)
            for address in ADDRESSES:
                words = ["gdnsd_geoip_test", "-c", str(self.path / "gdnsd"), name, address]
                ended = subprocess.run(words, capture_output=True, text=True)
                self.assertEqual(ended.returncode, 0, ended.stderr)
                order = ended.stdout.strip().split("\n")[-1].split("=> ")[-1].split(", ")
                self.assertEqual(self.order_of(address, name), order, (name, address))

    @needs("maxminddb")
    def test_networks_that_are_sent_nowhere_are_told(self):
        text = GDNSD.replace("NA => { default => [sg, us] }", "NA => []")
        self.put("gdnsd/config", text.replace("12.128.0.0/10 => sg", "12.128.0.0/10 => []"))
        out = self.imported("gdnsd", self.path / "gdnsd", "--name", "mixed")
        self.assertIn("not carried over: networks that are sent nowhere (an empty array)", out)
        self.assertEqual(self.order_of("12.128.0.1"), ["us", "de", "sg"])

    def test_without_its_database_the_map_is_lost(self):
        (self.path / "gdnsd/geoip/City.mmdb").unlink()
        out = self.imported("gdnsd", self.path / "gdnsd", "--name", "prod")
        self.assertIn("not carried over: the map by place: its database is not here", out)
        self.assertEqual(self.order_of("10.1.0.1"), ["sg", "us"])

    def test_which_map(self):
        said = self.refused("gdnsd", self.path / "gdnsd")
        self.assertEqual(
            said, "gdnsd/config: name one of the maps with --name: prod, auto, mixed, nets"
        )

    def test_faults_have_their_lines(self):
        cases = {
            "a => {": "line 1: the file ends inside of a hash",
            "\na => [b": "line 2: the file ends inside of an array",
            'a => "b': "line 1: a quote that is not closed",
            "a b": "line 1: `=>` is wanted behind `a`",
            "a => b\na => c": "line 2: the key `a` stands twice",
            "a => \\3x": "line 1: an escape that is no number from 000 to 255",
            "a => $include{none*}": "line 1: no file is called none*",
            "plugins => { geoip => x }": "there is no hash `geoip` where the plugin geoip has one",
            "plugins => { geoip => { maps => { m => { nets => {} } } } }": "the map m has no array `datacenters`",
            "plugins => { geoip => { maps => { m => { datacenters => [a], nets => { 10/8 => a } } } } }": "`10/8` in `nets` is no network",
            "plugins => { geoip => { maps => { m => { datacenters => [a], nets => { 10.0.0.0/8 => b } } } } }": "the map m has no data center `b` in `datacenters`",
        }
        for text, expected in cases.items():
            with self.subTest(text):
                path = self.put("gdnsd/config", text)
                said = self.refused("gdnsd", path)
                self.assertIn(said.removeprefix("gdnsd/config"), (f", {expected}", f": {expected}"))

    def test_values_of_another_kind(self):
        for text in ("nets => [a]", "map => [a]", "auto_dc_limit => x", "auto_dc_coords => a"):
            with self.subTest(text):
                maps = "plugins => { geoip => { maps => { m => { datacenters => [a], %s } } } }"
                path = self.put("gdnsd/config", maps % text)
                self.assertIn("gdnsd/config: ", self.refused("gdnsd", path))

    def test_files_that_include_themselves(self):
        path = self.put("gdnsd/config", "a => $include{config}")
        self.assertIn("nested too deep", self.refused("gdnsd", path))


@needs("yaml")
class Knot(Import):
    def test_networks(self):
        out = self.imported("knot", self.put("geo.conf", KNOT))
        self.assertEqual(self.order_of("10.2.0.1"), ["192.0.2.1"])
        self.assertEqual(self.order_of("10.1.0.1"), ["192.0.2.2"])
        self.assertIsNone(self.order_of("11.0.0.1"))
        pools = self.addresses()
        self.assertEqual(pools["192.0.2.1"], ["192.0.2.1", "192.0.2.11", "2001:db8::1"])
        self.assertIn("not carried over: records of type TXT", out)
        self.assertIn('rest = "list-1"', (self.path / "tables/plan.toml").read_text())

    @needs("maxminddb")
    def test_places(self):
        path = self.put("geo.conf", KNOT_PLACES)
        self.imported("knot", path, "--mmdb", self.database())
        self.assertEqual(self.order_of("10.2.0.1"), ["192.0.2.1"])
        self.assertEqual(self.order_of("11.1.0.1"), ["192.0.2.2"])
        self.assertEqual(self.order_of("11.2.0.1"), ["192.0.2.3"])

    def test_places_without_a_database(self):
        said = self.refused("knot", self.put("geo.conf", KNOT_PLACES))
        self.assertEqual(said, "there are no prefixes in what was read")

    def test_faults(self):
        path = self.put("geo.conf", "a: [b\nc: d")
        self.assertIn(f"{path.name}, line ", self.refused("knot", path))
        path = self.put("geo.conf", "cdn.example.:\n  - net: 10/8\n    A: 192.0.2.1\n")
        self.assertEqual(
            self.refused("knot", path), f"{path.name}: cdn.example.: `10/8` is no network"
        )
        path = self.put("geo.conf", "cdn.example.:\n  - net: 10.0.0.0/8\n    A: 192.0.2\n")
        self.assertEqual(
            self.refused("knot", path), f"{path.name}: cdn.example.: `192.0.2` is no address"
        )
        path = self.put("geo.conf", "a: []\nb: []\n")
        self.assertEqual(
            self.refused("knot", path), f"{path.name}: choose a name with --name: a, b"
        )

    def served(self, geo, mode, kind, clients):
        port = free_port()
        self.put("geo.conf", geo)
        self.put("cdn.example.zone", "@ SOA ns1 hm 1 7200 3600 86400 60\n@ NS ns1.example.net.\n")
        self.put(
            "knot.conf",
            f"server:\n  listen: 127.0.0.1@{port}\n  rundir: {self.path}\n  edns-client-subnet: on\n"
            f"database:\n  storage: {self.path}\nlog:\n  - target: stdout\n    any: info\n"
            f"mod-geoip:\n  - id: m\n    config-file: {self.path}/geo.conf\n    ttl: 20\n{mode}"
            f"zone:\n  - domain: cdn.example\n    file: {self.path}/cdn.example.zone\n    module: mod-geoip/m\n",
        )
        pools = self.addresses()
        with server(self, ["knotd", "-c", str(self.path / "knot.conf")], port, "cdn.example"):
            for client in clients:
                order = self.order_of(client)
                expected = [] if order is None else [x for x in pools[order[0]] if "." in x]
                self.assertEqual(asked(port, "cdn.example", kind, client), sorted(expected), client)

    @with_geoip
    @installed("knotd", "dig")
    def test_as_knot_answers_by_network(self):
        self.imported("knot", self.put("geo.conf", KNOT))
        clients = ["10.0.0.1", "10.1.0.1", "10.200.0.1", "2001:db8::9", "11.0.0.1"]
        self.served(KNOT, "    mode: subnet\n", "A", clients)

    @needs("maxminddb")
    @with_geoip
    @installed("knotd", "dig")
    def test_as_knot_answers_by_place(self):
        database = self.database()
        self.imported("knot", self.put("geo.conf", KNOT_PLACES), "--mmdb", database)
        mode = f"    mode: geodb\n    geodb-file: {database}\n    geodb-key: [ country/iso_code, city/names/en ]\n"
        clients = ["10.0.0.1", "11.1.0.1", "11.2.0.1", "12.0.0.1", "2a00::1"]
        self.served(KNOT_PLACES, mode, "A", clients)


@needs("yaml")
class PowerDns(Import):
    def test_networks(self):
        out = self.imported(
            "powerdns", self.put("zones.yaml", POWERDNS), "--name", "www.cdn.example"
        )
        self.assertEqual(self.order_of("10.1.0.1"), ["na.dc"])
        self.assertEqual(self.order_of("10.1.2.1"), ["no.dc", "eu.dc"])
        self.assertEqual(self.order_of("2001:db8::1"), ["eu.dc"])
        self.assertEqual(self.order_of("192.0.2.1"), ["unknown.dc"])
        self.assertIn("not carried over: names by place: name the database with --mmdb", out)
        self.assertIn("not carried over: weights of records", out)
        self.assertEqual(self.addresses()["eu.dc"], ["192.0.2.1", "2001:db8::1"])

    @needs("maxminddb")
    def test_places(self):
        path, database = self.put("zones.yaml", POWERDNS), self.database()
        self.imported("powerdns", path, "--mmdb", database, "--name", "www.cdn.example")
        self.assertEqual(self.order_of("10.2.0.1"), ["eu.dc", "unknown.dc"])
        self.assertEqual(self.order_of("12.0.0.1"), ["na.dc", "unknown.dc"])
        self.assertEqual(self.order_of("10.1.2.1"), ["no.dc", "eu.dc"])
        self.assertEqual(self.order_of("2001:db8::1"), ["eu.dc"])

    def test_faults(self):
        path = self.put("zones.yaml", "zones: []\n")
        self.assertEqual(
            self.refused("powerdns", path),
            f"{path.name}: no zones file of the backend geoip: there is no list `domains`",
        )
        path = self.put("zones.yaml", POWERDNS.replace("10.1.0.0/16", "10.1"))
        said = self.refused("powerdns", path, "--name", "www.cdn.example")
        self.assertEqual(said, f"{path.name}: `10.1` is no network")
        said = self.refused("powerdns", path)
        choices = "www.cdn.example, map.cdn.example"
        self.assertEqual(said, f"{path.name}: choose a service with --name: {choices}")

    @needs("maxminddb")
    @installed("pdns_server", "dig")
    def test_as_powerdns_answers(self):
        database, port = self.database(), free_port()
        path = self.put("zones.yaml", POWERDNS)
        services = ("www.cdn.example", "map.cdn.example")
        for service in services:
            self.imported("powerdns", path, "--mmdb", database, "--name", service, into=service)
        self.put(
            "pdns.conf",
            f"launch=geoip\ngeoip-zones-file={self.path}/zones.yaml\ngeoip-database-files=mmdb:{database}\n"
            f"edns-subnet-processing=yes\nlocal-address=127.0.0.1\nlocal-port={port}\nsocket-dir={self.path}\n"
            "daemon=no\nguardian=no\ndisable-syslog=yes\ncache-ttl=0\nquery-cache-ttl=0\nnegquery-cache-ttl=0\nzone-cache-refresh-interval=0\n",
        )
        words = ["pdns_server", f"--config-dir={self.path}"]
        with server(self, words, port, "cdn.example"):
            for service in services:
                pools = self.addresses(service)
                for client in ADDRESSES:
                    order = self.order_of(client, service)
                    expected = [x for x in pools[order[0]] if "." in x]
                    self.assertEqual(asked(port, service, "A", client), expected, client)


LOCATIONS = """geoname_id,locale_code,continent_code,continent_name,country_iso_code,country_name,subdivision_1_iso_code,subdivision_1_name,subdivision_2_iso_code,subdivision_2_name,city_name,metro_code,time_zone,is_in_european_union
1,en,EU,Europe,DE,Germany,BE,Berlin,,,Berlin,,Europe/Berlin,1
2,en,NA,"North America",US,"United States",TX,Texas,,,"Dallas, TX",623,America/Chicago,0
"""
BLOCKS = """network,geoname_id,registered_country_geoname_id,represented_country_geoname_id,is_anonymous_proxy,is_satellite_provider,postal_code,latitude,longitude,accuracy_radius
10.0.0.0/8,1,1,,0,0,10115,52.5,13.4,20
12.0.0.0/9,2,2,,0,0,,32.8,-96.8,20
12.128.0.0/9,,2,,0,0,,33.8,-95.8,20
13.0.0.0/9,9,9,,0,0,,,,
2001:db8::/32,1,1,,0,0,,50.5,11.4,20
"""
POOLS = "pool,parent,capacity,addresses,lat,lon\nfra,,100,192.0.2.1,50.1,8.7\niad,,100,192.0.2.2,38.9,-77.5\n"


class Places(Import):
    def test_csv(self):
        files = self.put("blocks.csv", BLOCKS), self.put("locations.csv", LOCATIONS)
        pools = self.put("pools.csv", POOLS)
        out = self.imported("geolite", *files, "--pools", pools)
        self.assertEqual(
            {(row["prefix"], row["group"]) for row in self.rows("prefixes.csv")},
            {("10.0.0.0/8", "EU-DE"), ("12.0.0.0/8", "NA-US"), ("2001:db8::/32", "EU-DE")},
        )
        self.assertEqual(self.order_of("10.0.0.1"), ["fra", "iad"])
        self.assertEqual(self.order_of("12.200.0.1"), ["iad", "fra"])
        self.assertIn("not carried over: 1 numbers of locations", out)
        self.assertIn("not carried over: round trips: those in rtt.csv are made of distance", out)
        self.assertFalse((self.path / "tables/pools.csv").exists())

    def test_way_over_the_globe(self):
        from glb_tools.planning.readers.found import kilometres

        # Frankfurt to Washington Dulles is some 6,550 km, half the equator 20,015 km
        self.assertAlmostEqual(kilometres((50.03, 8.56), (38.95, -77.45)), 6550, delta=25)
        self.assertAlmostEqual(kilometres((0, 0), (0, 180)), 20015, delta=5)

    def test_by_city(self):
        files = self.put("blocks.csv", BLOCKS), self.put("locations.csv", LOCATIONS)
        self.imported("geolite", *files, "--by", "city")
        groups = {row["group"] for row in self.rows("prefixes.csv")}
        self.assertEqual(groups, {"EU-DE-BE-Berlin", "NA-US-TX-Dallas-TX"})
        self.assertFalse((self.path / "tables/rtt.csv").exists())

    def test_cities_whose_names_are_the_same_for_glb(self):
        rows = LOCATIONS + "".join(
            f"{at},en,EU,Europe,DE,Germany,BE,Berlin,,,{name},,,1\n"
            for at, name in ((3, "Berlin Ost"), (4, "Berlin/Ost"))
        )
        blocks = BLOCKS + "14.0.0.0/8,3,,,0,0,,,,\n15.0.0.0/8,4,,,0,0,,,,\n"
        files = self.put("blocks.csv", blocks), self.put("locations.csv", rows)
        self.imported("geolite", *files, "--by", "city")
        groups = {row["prefix"]: row["group"] for row in self.rows("prefixes.csv")}
        self.assertEqual(groups["14.0.0.0/8"], "EU-DE-BE-Berlin-Ost")
        self.assertEqual(groups["15.0.0.0/8"], "EU-DE-BE-Berlin-Ost-2")

    def test_faults(self):
        blocks, locations = self.put("blocks.csv", BLOCKS), self.put("locations.csv", LOCATIONS)
        self.assertEqual(
            self.refused("geolite", blocks), "locations are missing: give the files of both"
        )
        self.assertEqual(
            self.refused("geolite", locations), "blocks are missing: give the files of both"
        )
        other = self.put("other.csv", "a,b\n")
        self.assertEqual(
            self.refused("geolite", other),
            f"{other.name}: neither blocks nor locations of GeoLite2: `a,b`",
        )
        bad = self.put("bad.csv", BLOCKS.replace("10.0.0.0/8", "10.0.0.1/8"))
        self.assertEqual(
            self.refused("geolite", bad, locations),
            f"{bad.name}, line 2: `10.0.0.1/8` is no prefix",
        )

    @needs("maxminddb")
    def test_mmdb(self):
        pools = self.put("pools.csv", POOLS)
        self.imported("mmdb", self.database(), "--by", "continent", "--pools", pools)
        self.assertEqual(self.order_of("10.0.0.1"), ["fra", "iad"])
        self.assertEqual(self.order_of("12.0.0.1"), ["iad", "fra"])
        self.assertEqual({row["group"] for row in self.rows("prefixes.csv")}, {"EU", "NA", "OC"})

    @needs("maxminddb")
    def test_no_mmdb(self):
        bad = self.put("bad.mmdb", "no database")
        self.assertIn(f"{bad.name}: ", self.refused("mmdb", bad))


class Routes(Import):
    def test_lines(self):
        lines = "# dump\n10.0.0.0/8 64500\n10.1.0.0/16\tAS64501\n10.1.0.0/16 64502\n2001:db8::/32 64500 # six\n\n11.0.0.0/8 {64503,64504}\n"
        out = self.imported("routes", self.put("rib.txt", lines))
        self.assertEqual(
            [(row["prefix"], row["group"]) for row in self.rows("prefixes.csv")],
            [("10.0.0.0/8", "as64500"), ("10.1.0.0/16", "as64501"), ("2001:db8::/32", "as64500")],
        )
        self.assertIn("not carried over: 1 further origins of prefixes that have several", out)
        self.assertIn("not carried over: 1 prefixes whose origin is a set", out)

    def test_faults(self):
        for line, why in (
            ("10.0.0.0/8", "line 1: 1 words: a prefix and its origin are wanted"),
            ("10.0.0.1/8 1", "line 1: `10.0.0.1/8` is no prefix"),
            ("10.0.0.0/8 x", "line 1: `x` is no number of an autonomous system"),
        ):
            path = self.put("rib.txt", line)
            self.assertEqual(self.refused("routes", path), f"{path.name}, {why}")

    def test_nothing_is_overwritten(self):
        path = self.put("rib.txt", "10.0.0.0/8 64500\n")
        self.imported("routes", path)
        before = (self.path / "tables/prefixes.csv").read_text()
        status, _, said = self.run_import("routes", path)
        self.assertEqual(status, 1)
        self.assertIn("prefixes.csv is there already: take another folder", said)
        self.assertEqual((self.path / "tables/prefixes.csv").read_text(), before)

    def test_words(self):
        path = self.put("rib.txt", "10.0.0.0/8 64500\n")
        status, _, said = Folder.run(self, main, "--import", "routes", str(path))
        self.assertEqual(status, 1)
        self.assertIn("Name a folder with --into", said)


if __name__ == "__main__":
    unittest.main()
