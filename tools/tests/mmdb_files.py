"""Writes databases of MaxMind's format 2.0, small ones, so that readers and other programs can be tried on them."""

import ipaddress
import struct

MARK = b"\xab\xcd\xefMaxMind.com"
# types of the data section
STRING, DOUBLE, UINT16, UINT32, MAP, ARRAY, UINT64 = 2, 3, 5, 6, 7, 11, 9


def control(kind, size):
    head = bytes([kind << 5]) if kind < 8 else bytes([0, kind - 7])
    if size < 29:
        rest, low = b"", size
    elif size < 285:
        rest, low = bytes([size - 29]), 29
    else:
        rest, low = struct.pack(">H", size - 285), 30
    return bytes([head[0] | low]) + head[1:] + rest


def encoded(value):
    if isinstance(value, str):
        octets = value.encode()
        return control(STRING, len(octets)) + octets
    if isinstance(value, float):
        return control(DOUBLE, 8) + struct.pack(">d", value)
    if isinstance(value, dict):
        return control(MAP, len(value)) + b"".join(
            encoded(key) + encoded(value[key]) for key in value
        )
    if isinstance(value, list):
        return control(ARRAY, len(value)) + b"".join(map(encoded, value))
    kind, number = value
    octets = number.to_bytes(8, "big").lstrip(b"\0")
    return control(kind, len(octets)) + octets


def write_mmdb(path, records, kind="GeoLite2-City"):
    """`records` are by network; those of IPv4 stand in the lowest 32 bits of IPv6. No two may overlap."""
    nodes = [[None, None]]
    data, at = b"", {}
    for text, record in records.items():
        octets = encoded(record)
        offset = at.setdefault(octets, len(data))
        if offset == len(data):
            data += octets
        net = ipaddress.ip_network(text)
        start, length = int(net.network_address), net.prefixlen + (96 if net.version == 4 else 0)
        node = 0
        for depth in range(length):
            bit = start >> 127 - depth & 1
            if depth == length - 1:
                assert nodes[node][bit] is None, text
                nodes[node][bit] = ("data", offset)
            else:
                if nodes[node][bit] is None:
                    nodes.append([None, None])
                    nodes[node][bit] = len(nodes) - 1
                node = nodes[node][bit]
    count = len(nodes)

    def record_of(entry):
        if entry is None:
            return count
        return entry if isinstance(entry, int) else count + 16 + entry[1]

    tree = b"".join(record_of(entry).to_bytes(3, "big") for node in nodes for entry in node)
    about = {
        "node_count": (UINT32, count),
        "record_size": (UINT16, 24),
        "ip_version": (UINT16, 6),
        "database_type": kind,
        "languages": ["en"],
        "binary_format_major_version": (UINT16, 2),
        "binary_format_minor_version": (UINT16, 0),
        "build_epoch": (UINT64, 1_700_000_000),
        "description": {"en": "made for tests"},
    }
    path.write_bytes(tree + bytes(16) + data + MARK + encoded(about))


def city(continent, country, regions=(), name="", place=None):
    """A record of the City model."""
    record = {
        "continent": {"code": continent, "names": {"en": continent}},
        "country": {"iso_code": country, "names": {"en": country}},
    }
    if regions:
        record["subdivisions"] = [{"iso_code": code} for code in regions]
    if name:
        record["city"] = {"names": {"en": name}}
    if place:
        record["location"] = {"latitude": float(place[0]), "longitude": float(place[1])}
    return record
