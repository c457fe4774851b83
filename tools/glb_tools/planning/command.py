"""Makes a topology of what is measured, with lists and scores whose maps are near the optimum.

    glb-topology CHOICES --out TOPOLOGY             makes the topology, and says how far its map is from the optimum
    glb-topology CHOICES --explain GROUP            the list of a group or class: round trips, prices, scores
    glb-topology --import KIND FILE.. --into FOLDER tables of what another program has

CHOICES is a file of TOML; the tables (CSV) stand beside it: pools, nodes, prefixes, demand, rtt. docs/TOPOLOGY.md says
what is in each, and what the choices are. Nothing is written where anything is at fault.
"""

import argparse
import csv
import io
import json
from dataclasses import asdict, replace
from pathlib import Path
from typing import Any

import numpy as np

from glb_tools import plan as dry_run
from glb_tools.options import Fault, Parser, Progress, parser, read_file, write_file
from glb_tools.planning import judge
from glb_tools.planning.explain import explain
from glb_tools.planning.imports import KINDS, import_files
from glb_tools.planning.plan import Made, plan_of
from glb_tools.planning.prices import MOST_SECONDS, solved
from glb_tools.planning.readers.geo import BY
from glb_tools.planning.world import PER_MS
from glb_tools.planning.writer import Writer
from glb_tools.shared_addresses import remarks, warn
from glb_tools.topology import Topology

# the demand that is drawn to try a plan against is the same in each run
SEED = 20151
# how many pairs of sites, and of nodes, are shown of what would move
PAIRS = 10


def options_of() -> Parser:
    words = parser("glb-topology", __doc__ or "", json=True)
    words.add_argument(
        "files", nargs="+", metavar="FILE", help="CHOICES, or with --import what is read"
    )
    words.add_argument("--out", type=Path, metavar="TOPOLOGY", help="where the topology is put")
    words.add_argument("--explain", metavar="GROUP", help="the list of this group or class")
    words.add_argument("--glb", metavar="PROGRAM", help="the program (GLB, or `glb` in the path)")
    words.add_argument(
        "--no-map", action="store_true", help="do not try the topology with `glb map`"
    )
    words.add_argument(
        "--served",
        nargs=2,
        metavar=("TOPOLOGY", "MAP"),
        help="also say what would move from what is served, as glb-plan does",
    )
    words.add_argument(
        "--by-round-trip",
        action="store_true",
        help="lists and scores by round trip, without prices",
    )
    words.add_argument(
        "--moved",
        type=percent,
        default=30,
        metavar="N",
        help="also try the plan with each demand moved by up to N %% (30; 0 leaves it out)",
    )
    words.add_argument(
        "--seconds",
        type=positive,
        default=MOST_SECONDS,
        metavar="N",
        help="how long an optimum may take (600)",
    )
    words.add_argument(
        "--import",
        dest="kind",
        choices=KINDS,
        help="read FILE.. of this kind, and write tables (gdnsd: its configuration; knot: the file of its module"
        " geoip; powerdns: the zones file of its backend geoip; geolite: blocks and locations, CSV; mmdb: a"
        " database; routes: lines of a prefix and its origin)",
    )
    words.add_argument("--into", type=Path, metavar="FOLDER", help="where the tables are put")
    words.add_argument("--name", help="which map, name or service of the file is read")
    words.add_argument("--mmdb", type=Path, metavar="FILE", help="the database that tells places")
    words.add_argument(
        "--by", choices=BY, default="country", help="what a group is, of a database (country)"
    )
    words.add_argument(
        "--pools",
        type=Path,
        metavar="FILE",
        help="a table of pools with lat and lon, for round trips by distance",
    )
    words.add_argument(
        "--members", type=Path, metavar="FILE", help="write which group is part of which (CSV)"
    )
    return words


def percent(text: str) -> int:
    if not text.isdigit() or int(text) > 99:
        raise argparse.ArgumentTypeError(f"`{text}` is not from 0 to 99")
    return int(text)


def positive(text: str) -> float:
    try:
        number = float(text)
    except ValueError:
        number = 0.0
    if not 0 < number < 1e6:
        raise argparse.ArgumentTypeError(f"`{text}` is no number of seconds")
    return number


def main() -> int | None:
    options = options_of().parse_args()
    if options.kind:
        return import_files(options)
    if len(options.files) != 1:
        raise Fault("one file of choices is wanted")
    if options.served and options.no_map:
        raise Fault("--served tries the topology, so --no-map is not taken with it", 64)
    glb = None if options.no_map or options.explain else judge.program(options.glb)
    made = plan_of(Path(options.files[0]), options.seconds, options.by_round_trip)
    if options.explain:
        return explain(made, options.explain, options.json)
    return write(made, glb, options)


def write(made: Made, glb: str | None, options: argparse.Namespace) -> int:
    """Tries the topology, puts it where it is to be, and says how good it is."""
    writer = Writer(made.choices, made.world, made.prefixes)
    octets = writer.octets(made.lists, made.world.demand, made.limits)
    report = report_of(made)
    topology = Topology(octets)
    warn(topology)
    report["warnings"] = remarks(topology)
    if glb is not None:
        try_map(made, glb, octets, report)
        if options.served:
            report["change"] = change(glb, options.served, octets)
        if options.moved:
            try_moved(made, glb, writer, options, report)
    if options.members is not None:
        write_file(options.members, members_text(made).encode())
    if options.out is not None:
        write_file(options.out, octets)
        report["written"] = {"file": str(options.out), "octets": len(octets)}
    say(report, options.json)
    return 0


# What is said.


def report_of(made: Made) -> dict[str, Any]:
    world, best = made.world, made.best
    pools = [node.is_pool for node in world.nodes]
    total = int(made.problem.demand.sum())
    return {
        "groups": world.groups,
        "classes": len(world.units) - world.groups,
        "prefixes": len(made.prefixes),
        "pools": sum(pools),
        "nodes": len(world.nodes),
        "offers": len(world.offer_unit),
        "demand": total,
        "notes": made.notes,
        "method": best.method,
        "bound": best.bound / total / PER_MS,
        "optimum": asdict(
            judge.judged(made.problem, best.flow, best.bound, best.seconds, made.last)
        ),
        "prices": dearest(made),
    }


def dearest(made: Made) -> list[dict[str, Any]]:
    """The nodes with the highest prices."""
    price = made.best.price
    order = np.argsort(-price, kind="stable")[:5].tolist()
    return [
        {"node": made.world.nodes[at].name, "milliseconds": int(price[at]) / PER_MS}
        for at in order
        if price[at] > 0
    ]


def try_map(made: Made, glb: str, octets: bytes, report: dict[str, Any]) -> None:
    with Progress("glb map"):
        text, seconds = judge.mapped(glb, octets)
    flow = judge.flow_of(made.world, text)
    report["map"] = asdict(judge.judged(made.problem, flow, made.best.bound, seconds, made.last))


def change(glb: str, served: list[str], octets: bytes) -> dict[str, Any]:
    """What would move from a topology and its map, which are served, to another topology."""
    before = dry_run.Served(*(read_file(name) for name in served))
    with Progress("what would move"):
        return dry_run.compared(before, dry_run.with_topology(glb, octets))


def try_moved(
    made: Made, glb: str, writer: Writer, options: argparse.Namespace, report: dict[str, Any]
) -> None:
    """The same lists with other demands, beside the optimum of these."""
    demand = judge.moved(made.world.demand, options.moved / 100, SEED)
    problem = replace(made.problem, demand=demand)
    with Progress("tries moved demands"):
        best = solved(problem, options.seconds)
        text, seconds = judge.mapped(glb, writer.octets(made.lists, demand, made.limits))
    found = judge.judged(problem, judge.flow_of(made.world, text), best.bound, seconds, made.last)
    report["moved"] = {"percent": options.moved, **asdict(found)}


def say(report: dict[str, Any], as_json: bool) -> None:
    if as_json:
        print(json.dumps(report, indent=2))
        return
    for note in report["notes"]:
        print(note)
    print(
        f"{report['groups']:,} groups, {report['classes']:,} classes, {report['prefixes']:,} prefixes,"
        f" {report['pools']:,} pools in {report['nodes']:,} nodes, {report['offers']:,} offers,"
        f" {report['demand']:,} units"
    )
    optimum = judge.Judged(**report["optimum"])
    bound = f"no map is below {report['bound']:.2f} ms a unit, by {report['method']}"
    print(judge.sentence("optimum", optimum, [bound]))
    if report["prices"]:
        dear = ", ".join(f"{at['node']} {at['milliseconds']:.2f}" for at in report["prices"])
        print(f"highest prices, ms a unit: {dear}")
    if "map" in report:
        print(line("map of glb", report["map"], "above the bound"))
    if "moved" in report:
        keys = dict(report["moved"])
        name = f"demand moved by up to {keys.pop('percent')} %"
        print(line(name, keys, "above the bound of that demand"))
    if "change" in report:
        print("beside what is served:")
        dry_run.say(report["change"], PAIRS)
    if "written" in report:
        print(f"{report['written']['file']}: {report['written']['octets']:,} octets")


def line(name: str, keys: dict[str, Any], beside: str) -> str:
    found = judge.Judged(**keys)
    return judge.sentence(name, found, [f"{max(0.0, found.above):.1%} {beside}"])


def members_text(made: Made) -> str:
    text = io.StringIO()
    rows = csv.writer(text, lineterminator="\n")
    rows.writerow(["group", "member"])
    pairs = [(made.world.units[group], made.names[at]) for at, group in enumerate(made.into)]
    rows.writerows(pairs)
    return text.getvalue()
