"""The zones file of PowerDNS' backend geoip: services by network, and by place."""

import ipaddress
import re
from pathlib import Path
from typing import Any

from glb_tools.options import Fault
from glb_tools.planning.readers.found import Found, Names, hidden_out, plain_name
from glb_tools.planning.readers.geo import Site, networks
from glb_tools.planning.readers.yaml_files import read_yaml
from glb_tools.planning.table import shown
from glb_tools.planning.world import Prefix
from glb_tools.topology import Wrong, prefix_in

PLACEHOLDER = re.compile(r"%(..)")


class Zones:
    """The records and the service of one domain."""

    def __init__(self, path: Path, top: Any, name: str | None, found: Found) -> None:
        self.path, self.found = path, found
        domains = top.get("domains") if isinstance(top, dict) else None
        if not isinstance(domains, list):
            raise Fault(f"{path}: no zones file of the backend geoip: there is no list `domains`")
        services = {
            str(service): (domain, value)
            for domain in domains
            if isinstance(domain, dict)
            for service, value in (domain.get("services") or {}).items()
        }
        if name is None and len(services) == 1:
            name = next(iter(services))
        if name not in services:
            raise Fault(f"{path}: choose a service with --name: {', '.join(services)}")
        self.domain, self.service = services[name]
        self.mapping = top.get("custom_mapping") or {}
        self.mapping = self.domain.get("custom_mapping") or self.mapping
        self.formats = (
            self.domain.get("mapping_lookup_formats") or top.get("mapping_lookup_formats") or []
        )
        self.suffix = "." + str(self.domain.get("domain", ""))
        self.pools: dict[str, str] = {}
        self.addresses = self.read_records()

    def read_records(self) -> dict[str, list[str]]:
        """By the name of a record its addresses."""
        addresses: dict[str, list[str]] = {}
        for name, records in (self.domain.get("records") or {}).items():
            for record in records if isinstance(records, list) else [records]:
                for kind, value in record.items():
                    content = value.get("content", "") if isinstance(value, dict) else value
                    if isinstance(value, dict) and "weight" in value:
                        self.found.lose("weights of records")
                    if kind.lower() in ("a", "aaaa"):
                        addresses.setdefault(str(name).lower(), []).append(str(content))
        return addresses

    def pool(self, target: str) -> str | None:
        """The pool of a name that has addresses."""
        target = target.lower()
        if target not in self.addresses:
            return None
        short = target.removesuffix(self.suffix.lower())
        pool = plain_name(short)
        known = self.pools.setdefault(pool, target)
        if known != target:
            raise Fault(f"{self.path}: {known} and {target} would be one pool {pool}")
        self.found.pools[pool] = [str(ipaddress.ip_address(x)) for x in self.addresses[target]]
        return pool

    def order(self, value: Any, site: Site | None) -> tuple[str, ...]:
        """The pools of the names of a service, as a place fills them in."""
        pools = []
        for template in value if isinstance(value, list) else [value]:
            target = self.filled(str(template), site)
            pool = None if target is None else self.pool(target)
            if pool is not None:
                pools.append(pool)
        return tuple(dict.fromkeys(pools))

    def filled(self, template: str, site: Site | None) -> str | None:
        """A name without placeholders, or none where one cannot be filled in."""
        if "%" not in template:
            return template
        if site is None:
            return None
        values = {
            "cc": site.country or "unknown",
            "cn": site.continent or "unknown",
            "re": site.regions[0] if site.regions else "unknown",
            "ci": site.city or "unknown",
            "mp": self.mapped(site),
        }
        for key in PLACEHOLDER.findall(template):
            if key not in values:
                self.found.lose(f"names with the placeholder %{key}")
                return None
        return PLACEHOLDER.sub(lambda found: values[found[1]].lower(), template)

    def mapped(self, site: Site) -> str:
        for form in self.formats:
            key = form.replace("%cc", site.country.lower()).replace("%cn", site.continent.lower())
            key = key.replace("%re", site.regions[0].lower() if site.regions else "unknown")
            key = key.replace("%ci", site.city.lower())
            if key in self.mapping:
                return str(self.mapping[key])
        return "unknown"


def read_powerdns(path: Path, name: str | None, database: Path | None) -> Found:
    """One service: what stands beside its networks, and by place what its default says."""
    found = Found()
    zones = Zones(path, read_yaml(path), name, found)
    names = Names(found)
    service = zones.service if isinstance(zones.service, dict) else {"default": zones.service}
    default = service.get("default", [])
    if any(
        "%" in str(template) for template in (default if isinstance(default, list) else [default])
    ):
        if database is None:
            found.lose("names by place: name the database with --mmdb")
        else:
            for prefix, site in networks(database):
                order = zones.order(default, site)
                if order:
                    found.prefixes[prefix] = names.group(order)
    nets: dict[Prefix, str] = {}
    for text, value in service.items():
        if text != "default":
            add_network(zones, names, nets, text, value)
    found.prefixes = hidden_out(found.prefixes, nets) | nets
    fallback = zones.order(default, None)
    for prefix in ((4, 0, 0), (6, 0, 0)):
        if prefix not in found.prefixes and fallback:
            found.prefixes[prefix] = names.group(fallback)
    found.lose("records of other types than A and AAAA, DNSSEC, and the TTL of the domain")
    return found


def add_network(zones: Zones, names: Names, nets: dict[Prefix, str], text: str, value: Any) -> None:
    try:
        prefix = prefix_in(str(ipaddress.ip_network(text, strict=False)), 0)
    except (ValueError, Wrong):
        raise Fault(f"{zones.path}: {shown(text)} is no network") from None
    order = zones.order(value, None)
    if order:
        nets[prefix] = names.group(order)
    else:
        zones.found.lose(f"{text}: none of its names has an address")
