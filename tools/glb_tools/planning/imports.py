"""Tables of what another program has."""

import argparse
import json
from pathlib import Path

from glb_tools.options import Fault, Progress
from glb_tools.planning.readers.found import Found, places_of, put
from glb_tools.planning.readers.gdnsd import read_gdnsd
from glb_tools.planning.readers.geo import read_geolite, read_mmdb
from glb_tools.planning.readers.knot import read_knot
from glb_tools.planning.readers.powerdns import read_powerdns
from glb_tools.planning.readers.routes import read_routes

KINDS = ("gdnsd", "knot", "powerdns", "geolite", "mmdb", "routes")


def import_files(options: argparse.Namespace) -> int:
    if options.into is None:
        raise Fault("where are the tables to be put? Name a folder with --into")
    paths = [Path(file) for file in options.files]
    if len(paths) > 1 and options.kind not in ("geolite", "routes"):
        raise Fault(f"{options.kind} is one file")
    places = {} if options.pools is None else places_of(options.pools)
    with Progress(f"reads {options.kind}"):
        found = found_in(paths, options)
        if places:
            found.pool_places, found.pools = places, {name: [] for name in places}
        written = put(found, options.into, bool(places))
    report = {"written": written, "prefixes": len(found.prefixes), "not_carried_over": found.lost}
    report["groups"] = len(set(found.prefixes.values()))
    if options.json:
        print(json.dumps(report, indent=2))
        return 0
    print(f"{report['prefixes']:,} prefixes of {report['groups']:,} groups: {', '.join(written)}")
    for lost in found.lost:
        print(f"not carried over: {lost}")
    return 0


def found_in(paths: list[Path], options: argparse.Namespace) -> Found:
    try:
        if options.kind == "geolite":
            return read_geolite(paths, options.by)
        if options.kind == "mmdb":
            return read_mmdb(paths[0], options.by)
        if options.kind == "routes":
            return read_routes(paths)
        reader = {"gdnsd": read_gdnsd, "knot": read_knot, "powerdns": read_powerdns}[options.kind]
        return reader(paths[0], options.name, options.mmdb)
    except (AttributeError, KeyError, IndexError, TypeError, ValueError) as why:
        # a value of another kind than the program's own reader takes
        raise Fault(f"{paths[0]}: not laid out as {options.kind} has it: {why}") from None
