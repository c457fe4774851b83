"""glb-page: serves a page of what is served, by one fleet or one server; it only reads.

    glb-page                                   the fleet of the log in etcd
    glb-page --of-log TOPOLOGY LOG             one server, of this host: what it began from, and the log that it is fed

A `glb serve` of the page's own, the mirror, works the log beside the servers: no server is asked for anything, nothing is
put into etcd or a log, and no request changes anything. It answers at http://127.0.0.1:9855/ unless told otherwise. Where
others reach the address it wants --token, or --user-header of a reverse proxy that asks who it is. It runs until it is
ended. docs/operating/page.md has the rest.
"""

import argparse
import ipaddress
import logging
import threading
import time
from collections.abc import Callable
from functools import partial
from pathlib import Path
from typing import NoReturn

import waitress

from glb_tools.etcd import add_etcd_options, etcd_of
from glb_tools.fleet import add_expected, log_of
from glb_tools.log import Log
from glb_tools.options import WRONG_WORDS, Fault, parser
from glb_tools.page.counters import endpoint, rule_packets, unit_packets
from glb_tools.page.dry_run import DryRuns
from glb_tools.page.guard import Access, hosts_of
from glb_tools.page.mirror import FileMirror, FleetMirror, Mirror
from glb_tools.page.prometheus import Prometheus
from glb_tools.page.rings import APART, Rings
from glb_tools.page.server import Page, app_of
from glb_tools.page.sources import FileSource, FleetSource, Local, Said, Source

# how often values for the charts are taken, in seconds
SAMPLE = 10.0
# threads that answer, connections at once, and how long one may be idle, in seconds
THREADS, CONNECTIONS, IDLE = 8, 64, 20
LARGEST_HEADERS, LARGEST_BODY = 16384, 1024


def options_of() -> argparse.Namespace:
    words = parser("glb-page", __doc__ or "")
    words.add_argument(
        "--of-log", nargs=2, metavar=("TOPOLOGY", "LOG"), help="one server, by its files"
    )
    words.add_argument(
        "--listen", metavar="ADDR:PORT", default="127.0.0.1:9855", help="where it answers"
    )
    words.add_argument(
        "--host",
        metavar="NAME",
        action="append",
        default=[],
        help="a further name by which browsers may ask; may be repeated",
    )
    words.add_argument(
        "--token", metavar="FILE", help="its first line is the password of whoever looks"
    )
    words.add_argument(
        "--user-header", metavar="NAME", help="a header by which a reverse proxy says who asks"
    )
    words.add_argument(
        "--open", action="store_true", help="at an address that others reach: whoever asks may look"
    )
    words.add_argument("--glb", metavar="PROGRAM", default="glb", help="the mirror's program (glb)")
    words.add_argument(
        "--server",
        metavar="[NAME=]ADDR:PORT",
        action="append",
        default=[],
        help="where a server of this host listens: its sockets are counted; may be repeated",
    )
    words.add_argument(
        "--unit",
        metavar="[NAME=]UNIT",
        action="append",
        default=[],
        help="a server's unit, with IPAccounting=yes: its packets are counted; may be repeated",
    )
    words.add_argument("--said", metavar="FILE", help="a server's output; - is standard input")
    words.add_argument(
        "--prometheus", metavar="URL", help="where charts come from, as http://127.0.0.1:9090"
    )
    words.add_argument(
        "--queries",
        metavar="PROMQL",
        help="with --prometheus: queries a second, by the label `server`",
    )
    words.add_argument(
        "--every", metavar="SECONDS", type=float, default=2, help="how often it looks (2)"
    )
    add_etcd_options(words)
    add_expected(words)
    options = words.parse_args()
    if not 0.1 <= options.every <= 3600:
        words.error("--every is 0.1 to 3600")
    if options.said and not options.of_log:
        words.error("--said goes with --of-log")
    if options.queries and not options.prometheus:
        words.error("--queries goes with --prometheus")
    if options.prometheus and not options.prometheus.startswith(("http://", "https://")):
        words.error(f"--prometheus {options.prometheus}: it begins with http:// or https://")
    return options


def access_of(options: argparse.Namespace) -> tuple[Access, str, int]:
    """Who may ask, and where."""
    address, port = endpoint(options.listen)
    token = ""
    if options.token:
        lines = Path(options.token).read_text(errors="replace").splitlines()
        token = lines[0].strip() if lines else ""
        if len(token) < 16:
            raise Fault(f"{options.token}: its first line is a token of at least 16 letters")
    is_seen = not ipaddress.ip_address(address).is_loopback
    if is_seen and not (token or options.user_header or options.open):
        raise Fault(
            f"--listen {options.listen}: others reach this address: give --token or --user-header,"
            " or --open where whoever asks may look",
            WRONG_WORDS,
        )
    hosts = hosts_of(address, port, options.host)
    return Access(hosts, token, options.user_header or ""), address, port


def locals_of(options: argparse.Namespace, name: str) -> list[Local]:
    """The servers of this host that were named."""
    found: dict[str, Local] = {}
    for text in options.server:
        own, _, where = text.rpartition("=")
        address, port = endpoint(where)
        local = found.setdefault(own or name or where, Local(own or name or where))
        local.address, local.port = address, port
    for text in options.unit:
        own, _, unit = text.rpartition("=")
        local = found.setdefault(own or name or unit, Local(own or name or unit))
        local.unit = unit
    return list(found.values())


class Sampler:
    """Puts the values of charts into the rings, again and again."""

    def __init__(self, rings: Rings, source: Source, mirror: Mirror, locals: list[Local]) -> None:
        self.rings, self.source, self.mirror, self.locals = rings, source, mirror, locals
        # what was moved when the minute began
        self.minute, self.moved = 0, 0

    def run(self) -> None:
        while True:
            self.take(time.time())
            time.sleep(SAMPLE)

    def take(self, now: float) -> None:
        served, rings = self.mirror.served, self.rings
        if served is not None and self.mirror.is_up:
            sums = served.sums
            values = {
                "placed": sums.placed_units,
                "unplaced": sums.unplaced,
                "full": int(sums.is_full.sum()),
            }
            if sums.last_resort:
                values["last_resort"] = sum(sums.last_resort.values())
            for chart, value in values.items():
                rings.put(chart, "", value, now)
            if int(now // APART) != self.minute:
                self.minute, self.moved = int(now // APART), self.mirror.moved
            rings.put("moved", "", self.mirror.moved - self.moved, now)
        for server in self.source.sight.servers:
            if server.behind is not None:
                rings.put("behind", server.name, server.behind, now)
            if server.drops is not None:
                rings.count("drops", server.name, server.drops, now)
        self.count_queries(now)

    def count_queries(self, now: float) -> None:
        is_counted = False
        for local in self.locals:
            packets = unit_packets(local.unit) if local.unit else None
            if packets is not None:
                self.rings.count("queries", local.name, packets, now)
                is_counted = True
        if not is_counted and self.locals and (packets := rule_packets()) is not None:
            self.rings.count("queries", "this host", packets, now)


def begin(run: Callable[[], None]) -> None:
    threading.Thread(target=run, daemon=True).start()


def page_of(options: argparse.Namespace, access: Access) -> Page:
    """The page, and its threads, which run."""
    source: Source
    mirror: Mirror
    if options.of_log:
        topology, log = options.of_log
        mirror = FileMirror(options.glb, options.every, topology, log)
        locals = locals_of(options, "the server" if len(options.server) < 2 else "")
        said = Said(options.said) if options.said else None
        source = FileSource(
            options.every, log, (locals or [Local("the server")])[0], said, lambda: mirror.serial
        )
        if said is not None:
            begin(partial(said.run, source.over))
        title = str(log)
    else:
        mirror = FleetMirror(options.glb, options.every, Log(etcd_of(options), options.prefix))
        locals = locals_of(options, "")
        source = FleetSource(options.every, log_of(options), locals)
        title = f"fleet {options.prefix}"
    rings, dry_runs = Rings(), DryRuns(options.glb)
    page = Page(title, source, mirror, rings, dry_runs, access)
    if options.prometheus:
        page.prometheus = Prometheus(options.prometheus, options.queries or "")
        page.prometheus.start()
    for run in (source.run, mirror.run, dry_runs.run, Sampler(rings, source, mirror, locals).run):
        begin(run)
    return page


def main() -> NoReturn:
    options = options_of()
    access, address, port = access_of(options)
    # a line of its own says what is wrong; tracebacks of the web server do not
    logging.getLogger("waitress").setLevel(logging.CRITICAL)
    page = page_of(options, access)
    try:
        server = waitress.create_server(
            app_of(page),
            host=address,
            port=port,
            threads=THREADS,
            connection_limit=CONNECTIONS,
            channel_timeout=IDLE,
            cleanup_interval=5,
            max_request_header_size=LARGEST_HEADERS,
            max_request_body_size=LARGEST_BODY,
            ident=None,
        )
    except OSError as why:
        raise Fault(f"{options.listen}: {why.strerror or why}") from None
    server.run()
    # it comes back where it is interrupted alone
    raise KeyboardInterrupt
