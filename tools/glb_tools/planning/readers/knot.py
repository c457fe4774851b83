"""The configuration file of Knot's module geoip: addresses by network or by place."""

import ipaddress
from pathlib import Path
from typing import Any

from glb_tools.options import Fault
from glb_tools.planning.readers.found import Found, Names, plain_name
from glb_tools.planning.readers.geo import networks
from glb_tools.planning.readers.yaml_files import read_yaml
from glb_tools.planning.table import shown
from glb_tools.topology import Wrong, prefix_in


def read_knot(path: Path, name: str | None, database: Path | None) -> Found:
    """One name of the file. Each set of addresses is a pool, and each network's list has that pool alone."""
    top = read_yaml(path)
    if not isinstance(top, dict) or not all(isinstance(entries, list) for entries in top.values()):
        raise Fault(
            f"{path}: no file of the module geoip: names with lists of `net`, `geo` or `weight`"
        )
    if name is None and len(top) == 1:
        name = str(next(iter(top)))
    if name is None or name not in top:
        raise Fault(f"{path}: choose a name with --name: {', '.join(map(str, top))}")
    found = Found()
    names = Names(found)
    places: list[tuple[list[str], str]] = []
    pools: dict[tuple[str, ...], str] = {}
    for entry in top[name]:
        if not isinstance(entry, dict):
            raise Fault(f"{path}: {name}: an entry that is no table")
        addresses = addresses_of(path, name, entry, found)
        if not addresses:
            continue
        pool = pools.setdefault(addresses, plain_name(addresses[0]))
        found.pools[pool] = list(addresses)
        if "net" in entry:
            try:
                net = ipaddress.ip_network(str(entry["net"]), strict=False)
                prefix = prefix_in(str(net), 0)
            except (ValueError, Wrong):
                raise Fault(f"{path}: {name}: {shown(str(entry['net']))} is no network") from None
            found.prefixes[prefix] = names.group((pool,))
        elif "geo" in entry:
            places.append(([code.strip() for code in str(entry["geo"]).split(";")], pool))
        else:
            found.lose("entries by weight: a weight is no place of a client")
    add_places(places, names, database, found)
    found.lose("other pools of each client: a list has one pool, since the file ranks none")
    return found


def addresses_of(path: Path, name: str, entry: dict[str, Any], found: Found) -> tuple[str, ...]:
    addresses = []
    for key, value in entry.items():
        if key in ("A", "AAAA"):
            for text in value if isinstance(value, list) else [value]:
                try:
                    addresses.append(str(ipaddress.ip_address(str(text))))
                except ValueError:
                    raise Fault(f"{path}: {name}: {shown(str(text))} is no address") from None
        elif key not in ("net", "geo", "weight"):
            found.lose(f"records of type {key}")
    return tuple(addresses)


def add_places(
    places: list[tuple[list[str], str]], names: Names, database: Path | None, found: Found
) -> None:
    """Of the entries by place those that the database can tell: the most exact one of each network."""
    if not places:
        return
    if database is None:
        found.lose(f"{len(places)} entries by place: name the database with --mmdb")
        return
    by_place = {tuple(codes): pool for codes, pool in places}
    for prefix, site in networks(database):
        codes = [site.country, site.city]
        for keys in ((codes[0], codes[1]), (codes[0], "*"), (codes[0],), ("*", "*"), ("*",)):
            if keys in by_place:
                found.prefixes.setdefault(prefix, names.group((by_place[keys],)))
                break
    found.lose("keys of places other than country/iso_code and city/names/en")
