"""gdnsd's plugin geoip: nets, maps by place, and the addresses of its data centers (gdnsd-plugin-geoip(8))."""

import ipaddress
from dataclasses import dataclass
from pathlib import Path
from typing import Any

from glb_tools.options import Fault
from glb_tools.planning.readers.found import (
    Found,
    Names,
    Place,
    hidden_out,
    kilometres,
    plain_name,
)
from glb_tools.planning.readers.geo import Site, networks
from glb_tools.planning.readers.vscf import read_vscf
from glb_tools.planning.table import shown
from glb_tools.planning.world import Prefix
from glb_tools.topology import Wrong, prefix_in

KNOWN = {
    "geoip2_db",
    "datacenters",
    "nets",
    "map",
    "auto_dc_coords",
    "auto_dc_limit",
    "ignore_ecs",
}
AUTO_LIMIT = 3


@dataclass
class GeoMap:
    """A map of the plugin."""

    path: Path
    name: str
    datacenters: tuple[str, ...]
    nets: dict[Prefix, tuple[str, ...]]
    places: dict[str, Any]
    coordinates: dict[str, Place]
    limit: int
    database: Path | None

    @property
    def default(self) -> tuple[str, ...]:
        """Of clients of which nothing is known."""
        top = self.places.get("default")
        return self.datacenters if top is None or top == "auto" else self.order(top)

    def order(self, value: Any) -> tuple[str, ...]:
        names = (value,) if isinstance(value, str) else tuple(value)
        for name in names:
            if name not in self.datacenters:
                raise Fault(
                    f"{self.path}: the map {self.name} has no data center {shown(str(name))} in `datacenters`"
                )
        return tuple(dict.fromkeys(names))

    def of_site(self, site: Site) -> tuple[str, ...]:
        """Down from the continent; below the country, levels that the map does not name are passed over."""
        here, answer = self.places, self.places.get("default", "auto" if self.coordinates else None)
        for number, code in enumerate(site.codes):
            value = here.get(code)
            if isinstance(value, dict):
                here, answer = value, value.get("default", answer)
            elif value is not None:
                answer = value
                break
            elif number < 2:
                break
        if answer is None:
            return self.datacenters
        return self.nearest(site) if answer == "auto" else self.order(answer)

    def nearest(self, site: Site) -> tuple[str, ...]:
        if site.place is None:
            return self.datacenters
        far = {name: kilometres(site.place, at) for name, at in self.coordinates.items()}
        names = sorted(far, key=far.__getitem__)
        return tuple(names[: self.limit or len(names)])


def read_gdnsd(path: Path, name: str | None, database: Path | None) -> Found:
    """One map of a configuration; `path` is its file `config` or the folder with it."""
    path = path / "config" if path.is_dir() else path
    plugin = part(path, part(path, read_vscf(path), "plugins"), "geoip")
    maps = part(path, plugin, "maps")
    if name is None and len(maps) == 1:
        name = next(iter(maps))
    if name not in maps:
        raise Fault(f"{path}: name one of the maps with --name: {', '.join(maps)}")
    found = Found()
    geo = read_map(path, name, maps[name], database, found)
    names = Names(found)
    add_places(geo, names, found)
    found.prefixes = hidden_out(found.prefixes, geo.nets)
    for prefix, order in geo.nets.items():
        add(found, names, prefix, order)
    for prefix in ((4, 0, 0), (6, 0, 0)):
        if prefix not in found.prefixes:
            add(found, names, prefix, geo.default)
    found.pools = {plain_name(center): [] for center in geo.datacenters}
    add_addresses(path, plugin, name, found)
    found.lose("health checks, weights, and what other plugins answer")
    return found


def part(path: Path, keys: Any, key: str) -> dict[str, Any]:
    value = keys.get(key) if isinstance(keys, dict) else None
    if not isinstance(value, dict):
        raise Fault(f"{path}: there is no hash `{key}` where the plugin geoip has one")
    return value


def add(found: Found, names: Names, prefix: Prefix, order: tuple[str, ...]) -> None:
    if order:
        found.prefixes[prefix] = names.group(tuple(plain_name(center) for center in order))
    else:
        found.lose(
            "networks that are sent nowhere (an empty array): they go where the network around them goes"
        )


def read_map(path: Path, name: str, keys: Any, database: Path | None, found: Found) -> GeoMap:
    if not isinstance(keys, dict) or not isinstance(keys.get("datacenters"), list):
        raise Fault(f"{path}: the map {name} has no array `datacenters`")
    for key in keys:
        if key not in KNOWN:
            found.lose(f"the key `{key}` of the map {name}")
    if keys.get("ignore_ecs") == "true":
        found.lose("ignore_ecs: `glb` uses the client subnet of each query")
    base = path.parent / "geoip"
    nets = keys.get("nets", {})
    if isinstance(nets, str):
        nets = read_vscf(base / nets)
    if database is None and "geoip2_db" in keys:
        database = base / str(keys["geoip2_db"])
    geo = GeoMap(
        path,
        name,
        tuple(str(center) for center in keys["datacenters"]),
        {},
        keys.get("map", {}),
        coordinates_in(path, keys.get("auto_dc_coords", {})),
        int(keys.get("auto_dc_limit", AUTO_LIMIT)),
        database,
    )
    for text, value in nets.items():
        geo.nets[prefix_of(path, text)] = geo.order(value)
    return geo


def coordinates_in(path: Path, keys: dict[str, Any]) -> dict[str, Place]:
    try:
        return {name: (float(pair[0]), float(pair[1])) for name, pair in keys.items()}
    except (ValueError, IndexError, TypeError, AttributeError):
        raise Fault(f"{path}: auto_dc_coords is no hash of arrays [latitude, longitude]") from None


def prefix_of(path: Path, text: str) -> Prefix:
    """A network; those of IPv4 may be written as the last 32 bits of IPv6."""
    try:
        net = ipaddress.ip_network(text, strict=False)
        family, start, length = prefix_in(str(net), 0)
    except (ValueError, Wrong):
        raise Fault(f"{path}: {shown(text)} in `nets` is no network") from None
    return (
        (4, start, length - 96)
        if family == 6 and start >> 32 == 0 and length >= 96
        else (family, start, length)
    )


def add_places(geo: GeoMap, names: Names, found: Found) -> None:
    """What the map and the coordinates say, where there is the database that they need; `nets` go ahead of it."""
    if not geo.places and not geo.coordinates:
        return
    if geo.database is None or not geo.database.exists():
        at = geo.database or "no geoip2_db"
        found.lose(f"the map by place: its database is not here ({at}): name one with --mmdb")
        return
    for prefix, site in networks(geo.database):
        add(found, names, prefix, geo.of_site(site))


def add_addresses(path: Path, plugin: dict[str, Any], name: str, found: Found) -> None:
    """The addresses of the first resource of the map."""
    resources = plugin.get("resources", {})
    mine = [
        key
        for key, value in resources.items()
        if isinstance(value, dict) and value.get("map") == name
    ]
    if not mine:
        found.lose(f"addresses: no resource has the map {name}")
        return
    if len(mine) > 1:
        found.lose(f"the resources {', '.join(mine[1:])}: addresses are those of {mine[0]}")
    for center, value in part(path, resources[mine[0]], "dcmap").items():
        pool = plain_name(center)
        if pool in found.pools:
            found.pools[pool] = addresses_in(value, center, found)


def addresses_in(value: Any, center: str, found: Found) -> list[str]:
    items = (
        value.values() if isinstance(value, dict) else value if isinstance(value, list) else [value]
    )
    addresses = []
    for item in items:
        text = item[0] if isinstance(item, list) and item else item
        try:
            addresses.append(str(ipaddress.ip_address(str(text))))
        except ValueError:
            found.lose(f"{center}: {shown(str(text))} is no address")
    return addresses
