"""Where networks are: GeoLite2 as CSV, and databases of MaxMind's format (MMDB)."""

import csv
import io
import ipaddress
from collections.abc import Iterator
from dataclasses import dataclass, field
from pathlib import Path
from typing import Any

from glb_tools.options import Fault
from glb_tools.planning.readers.found import Found, Place, plain_name
from glb_tools.planning.table import shown
from glb_tools.planning.world import Prefix
from glb_tools.topology import Wrong, prefix_in

BY = ("continent", "country", "region", "city")
# parts of the addresses of IPv6 in which databases repeat those of IPv4: 6to4 and Teredo
ALIASES = (ipaddress.IPv6Network("2002::/16"), ipaddress.IPv6Network("2001::/32"))
GLOBAL = ipaddress.IPv6Network("2000::/3")


@dataclass(slots=True)
class Site:
    """Where a network is: codes from the continent down to the city, and latitude and longitude."""

    continent: str = ""
    country: str = ""
    regions: tuple[str, ...] = ()
    city: str = ""
    place: Place | None = None

    @property
    def codes(self) -> list[str]:
        """What there is, from the continent to the city."""
        return [code for code in (self.continent, self.country, *self.regions, self.city) if code]

    def key(self, by: str) -> tuple[str, ...]:
        """What tells its group from others."""
        parts = (self.continent, self.country, self.regions[0] if self.regions else "", self.city)
        return parts[: 1 + BY.index(by)]


@dataclass
class Middle:
    """The mean place of networks, each by its count of addresses."""

    weight: float = 0.0
    sums: list[float] = field(default_factory=lambda: [0.0, 0.0])

    def add(self, place: Place, weight: float) -> None:
        self.weight += weight
        self.sums = [total + weight * part for total, part in zip(self.sums, place)]

    @property
    def place(self) -> Place:
        return self.sums[0] / self.weight, self.sums[1] / self.weight


def grouped(sites: Iterator[tuple[Prefix, Site]], by: str) -> Found:
    """A group for each continent, country, region or city."""
    found = Found()
    middles: dict[str, Middle] = {}
    names: dict[tuple[str, ...], str] = {}
    taken: set[str] = set()
    for prefix, site in sites:
        group = names.get(site.key(by), "")
        if not group:
            group = names[site.key(by)] = free_name(site.key(by), taken)
        found.prefixes[prefix] = group
        if site.place is not None:
            bits = 32 if prefix[0] == 4 else 64
            weight = 2.0 ** max(0, bits - prefix[2])
            middles.setdefault(group, Middle()).add(site.place, weight)
    found.group_places = {group: middle.place for group, middle in middles.items()}
    if not middles:
        found.lose("places: the file has no coordinates, as those of cities have")
    return found


def free_name(key: tuple[str, ...], taken: set[str]) -> str:
    """A name of `glb` for a group: where two would be the same, the later one has a number."""
    name = plain = plain_name("-".join(part for part in key if part) or "unknown")
    number = 1
    while name in taken:
        number += 1
        name = f"{plain[:26]}-{number}"
    taken.add(name)
    return name


# CSV: blocks with the number of their location, and locations by number.


def rows_of(path: Path) -> Iterator[tuple[int, dict[str, str]]]:
    try:
        text = path.read_bytes().decode("utf-8-sig")
    except UnicodeDecodeError:
        raise Fault(f"{path}: an octet that is no UTF-8") from None
    reader = csv.reader(io.StringIO(text, newline=""), strict=True)
    try:
        header: list[str] = next(reader, [])
        for cells in reader:
            if len(cells) != len(header):
                raise Fault(
                    f"{path}, line {reader.line_num}: {len(cells)} cells, and the header has {len(header)}"
                )
            yield reader.line_num, dict(zip(header, cells))
    except csv.Error as why:
        raise Fault(f"{path}, line {reader.line_num}: {why}") from None


def read_geolite(paths: list[Path], by: str) -> Found:
    """GeoLite2 Country or City: one file of locations, and any number of blocks."""
    locations: dict[str, Site] = {}
    blocks = []
    for path in paths:
        with open(path, encoding="utf-8-sig", errors="replace") as file:
            header = file.readline()
        if "network" in header.split(","):
            blocks.append(path)
        elif "geoname_id" in header.split(","):
            locations.update(read_locations(path))
        else:
            raise Fault(
                f"{path}: neither blocks nor locations of GeoLite2: {shown(header.strip())}"
            )
    if not locations or not blocks:
        raise Fault(f"{'locations' if blocks else 'blocks'} are missing: give the files of both")
    unknown: set[str] = set()
    found = grouped(sites_of(blocks, locations, unknown), by)
    if unknown:
        found.lose(
            f"{len(unknown):,} numbers of locations that the file of locations does not have"
        )
    found.lose("who is represented, anonymous proxies, satellites, accuracy")
    return found


def read_locations(path: Path) -> dict[str, Site]:
    found = {}
    for _, row in rows_of(path):
        regions = [row.get(f"subdivision_{at}_iso_code", "") for at in (1, 2)]
        found[row["geoname_id"]] = Site(
            row.get("continent_code", ""),
            row.get("country_iso_code", ""),
            tuple(region for region in regions if region),
            row.get("city_name", ""),
        )
    return found


def sites_of(
    blocks: list[Path], locations: dict[str, Site], unknown: set[str]
) -> Iterator[tuple[Prefix, Site]]:
    for path in blocks:
        for line, row in rows_of(path):
            try:
                prefix = prefix_in(row["network"], 0)
            except Wrong:
                raise Fault(f"{path}, line {line}: {shown(row['network'])} is no prefix") from None
            number = row.get("geoname_id") or row.get("registered_country_geoname_id") or ""
            site = locations.get(number)
            if site is None:
                unknown.add(number)
                continue
            place = None
            if row.get("latitude") and row.get("longitude"):
                try:
                    place = float(row["latitude"]), float(row["longitude"])
                except ValueError:
                    raise Fault(f"{path}, line {line}: coordinates that are no numbers") from None
            yield prefix, Site(site.continent, site.country, site.regions, site.city, place)


# MMDB.


def read_mmdb(path: Path, by: str) -> Found:
    found = grouped(networks(path), by)
    found.lose("names in other languages than English, time zones, accuracy")
    return found


def networks(path: Path) -> Iterator[tuple[Prefix, Site]]:
    """Each network of a database that has a place, in order."""
    try:
        import maxminddb
    except ImportError:
        raise Fault(
            "python3-maxminddb is not installed: it reads databases of MaxMind's format"
        ) from None
    try:
        reader = maxminddb.open_database(path)
    except (maxminddb.InvalidDatabaseError, ValueError) as why:
        raise Fault(f"{path}: {why}") from None
    with reader:
        try:
            yield from walk(reader, 4, 0, 2**32)
            if reader.metadata().ip_version == 6:
                first = int(GLOBAL.network_address)
                yield from walk(reader, 6, first, first + GLOBAL.num_addresses)
        except (maxminddb.InvalidDatabaseError, UnicodeDecodeError) as why:
            raise Fault(f"{path}: {why}") from None


def walk(reader: Any, family: int, at: int, end: int) -> Iterator[tuple[Prefix, Site]]:
    """From network to network: each look-up says how long the prefix is that it found."""
    kind = ipaddress.IPv4Address if family == 4 else ipaddress.IPv6Address
    bits = 32 if family == 4 else 128
    while at < end:
        alias = next((net for net in ALIASES if family == 6 and kind(at) in net), None)
        if alias is not None:
            at = int(alias.broadcast_address) + 1
            continue
        record, length = reader.get_with_prefix_len(kind(at))
        length = min(length, bits)
        start = at >> bits - length << bits - length
        if isinstance(record, dict):
            yield (family, start, length), site_of(record)
        at = start + (1 << bits - length)


def site_of(record: dict[str, Any]) -> Site:
    """A record of the Country or the City model."""

    def code(key: str) -> str:
        return str(record.get(key, {}).get("code") or record.get(key, {}).get("iso_code") or "")

    where = record.get("location", {})
    place = None
    if "latitude" in where and "longitude" in where:
        place = float(where["latitude"]), float(where["longitude"])
    country = code("country") or code("registered_country")
    regions = tuple(str(part.get("iso_code", "")) for part in record.get("subdivisions", []))
    city = str(record.get("city", {}).get("names", {}).get("en", ""))
    return Site(code("continent"), country, tuple(part for part in regions if part), city, place)
