"""A second reading of glb's formats, written from docs/FORMATS.md and the RFCs alone: topologies, maps, changes, feeds, verdicts and replies. It shares no code with glb and is slow."""

import ipaddress
import math
import re
import string
import tomllib

NAME_OCTETS = set((string.ascii_letters + string.digits + "-_.").encode())
LABEL_OCTETS = set((string.ascii_letters + string.digits + "-_").encode())
MOST_CHANGES, LONGEST_LINE = 4096, 8300
WORDS = {
    1: "not toml", 2: "missing key", 3: "wrong kind", 4: "unknown key", 5: "bad name", 6: "duplicate name", 7: "unknown name",
    8: "parent order", 9: "too deep", 10: "out of range", 11: "bad address", 12: "bad prefix", 13: "duplicate prefix",
    14: "no default", 15: "list shape", 16: "ns inside", 17: "too many",
}


# the escapes of a basic string that TOML 1.1 has and 1.0, which tomllib reads, has not: ESC, and two digits
NEWER_ESCAPES = re.compile(r"(?<!\\)((?:\\\\)*)\\(?:(e)|x([0-9A-Fa-f]{2}))")


def finite(text):
    """The float that a text is. A number too large for one is none."""
    number = float(text)
    if math.isinf(number) and "inf" not in text:
        raise tomllib.TOMLDecodeError(f"no float holds {text}")
    return number


def document(text):
    """The table that a text of TOML 1.1 is. Only where 1.0 does not read it, its newer escapes are spelled out."""
    try:
        return tomllib.loads(text, parse_float=finite)
    except tomllib.TOMLDecodeError:
        return tomllib.loads(NEWER_ESCAPES.sub(lambda m: m[1] + "\\u00" + ("1B" if m[2] else m[3]), text), parse_float=finite)


class Refused(Exception):
    """Why a text is refused, as glb writes it behind `refused`."""


# Addresses and names.


def read_number(text, most, digits=10):
    """A number without sign or leading zero."""
    if not text or len(text) > digits or any(c not in string.digits for c in text) or (text[0] == "0" and len(text) > 1):
        return None
    return int(text) if int(text) <= most else None


def read_v4(text):
    parts = [read_number(part, 255) for part in text.split(".")]
    if len(parts) != 4 or None in parts:
        return None
    return (4, sum(part << 8 * (3 - i) for i, part in enumerate(parts)))


def read_groups(text):
    """The groups of hexadecimal digits, none where one of them is none."""
    if text == "":
        return []
    groups = []
    for group in text.split(":"):
        if not 1 <= len(group) <= 4 or any(c not in string.hexdigits for c in group):
            return None
        groups.append(int(group, 16))
    return groups


def read_v6(text):
    parts = text.split("::")
    if len(parts) > 2:
        return None
    groups = [read_groups(part) for part in parts]
    if None in groups:
        return None
    if len(parts) == 1:
        whole = groups[0]
    else:
        if len(groups[0]) + len(groups[1]) > 7:
            return None
        whole = groups[0] + [0] * (8 - len(groups[0]) - len(groups[1])) + groups[1]
    if len(whole) != 8:
        return None
    return (6, sum(group << 16 * (7 - i) for i, group in enumerate(whole)))


def read_address(text):
    return read_v6(text) if ":" in text else read_v4(text)


def bits_of(family):
    return 32 if family == 4 else 128


def read_prefix(text):
    """Family, address and length."""
    if text.count("/") != 1:
        return None
    left, right = text.split("/")
    address = read_address(left)
    if address is None:
        return None
    length = read_number(right, bits_of(address[0]))
    if length is None or address[1] & ((1 << bits_of(address[0]) - length) - 1):
        return None
    return (*address, length)


def read_name(text):
    """The octets of a DNS name on the wire."""
    labels = text.encode().split(b".")
    if len(labels) > 1 and labels[-1] == b"":
        labels.pop()
    wire = b""
    for label in labels:
        if not 1 <= len(label) <= 63 or not set(label) <= LABEL_OCTETS:
            return None
        wire += bytes([len(label)]) + label
    return wire + b"\0" if len(wire) < 255 else None


def labels_of(wire):
    labels, at = [], 0
    while wire[at]:
        labels.append(wire[at + 1 : at + 1 + wire[at]].lower())
        at += 1 + wire[at]
    return labels


def is_under(name, apex):
    """Whether a name is the apex or under it, whatever the case."""
    name, apex = labels_of(name), labels_of(apex)
    return len(name) >= len(apex) and name[len(name) - len(apex) :] == apex


# The topology.

TEXT, INTEGER, BOOLEAN, TEXTS, INTEGERS = "text", "integer", "boolean", "texts", "integers"
ZONE_KEYS = {
    "apex": (TEXT, True), "mname": (TEXT, True), "rname": (TEXT, True), "serial": (INTEGER, True), "refresh": (INTEGER, True),
    "retry": (INTEGER, True), "expire": (INTEGER, True), "minimum": (INTEGER, True), "ttl": (INTEGER, True), "ns": (TEXTS, True),
    "services": (TEXTS, True),
}
NODE_KEYS = {"name": (TEXT, True), "parent": (TEXT, False), "capacity": (INTEGER, True), "pool": (BOOLEAN, False), "a": (TEXTS, False), "aaaa": (TEXTS, False)}
GROUP_KEYS = {"name": (TEXT, True), "demand": (INTEGER, True), "pools": (TEXTS, True), "scores": (INTEGERS, True), "limits": (INTEGERS, False), "prefixes": (TEXTS, True)}
CLASS_KEYS = {"name": (TEXT, True), "group": (TEXT, True), "service": (TEXT, True), "demand": (INTEGER, True), "pools": (TEXTS, True), "scores": (INTEGERS, True), "limits": (INTEGERS, False)}
ZONE_RANGES = {"serial": 2**32, "refresh": 2**32, "retry": 2**32, "expire": 2**32, "minimum": 2**31, "ttl": 2**31}


def is_integer(value):
    return isinstance(value, int) and not isinstance(value, bool)


IS_KIND = {TEXT: lambda v: isinstance(v, str), INTEGER: is_integer, BOOLEAN: lambda v: isinstance(v, bool), TEXTS: lambda v: isinstance(v, list), INTEGERS: lambda v: isinstance(v, list)}
IS_ITEM = {TEXTS: lambda v: isinstance(v, str), INTEGERS: is_integer}


def are_short(value):
    """Whether each integer has 64 bits with its sign, as TOML's have."""
    if isinstance(value, dict):
        return all(are_short(v) for v in value.values())
    if isinstance(value, list):
        return all(are_short(v) for v in value)
    return not is_integer(value) or -(2**63) <= value < 2**63


class Topology:
    def __init__(self, octets):
        if len(octets) > 64 << 20:
            raise Refused("topology too long")
        try:
            self.top = document(octets.decode())
        except (UnicodeDecodeError, tomllib.TOMLDecodeError, RecursionError):
            self.top = None
        if self.top is None or not are_short(self.top):
            raise Refused("topology 1 not toml")
        self.numbers = None
        for number, rule in [(2, self.missing), (3, self.wrong), (4, self.unknown), (5, self.bad_names), (6, self.doubled), (7, self.nameless), (8, self.disordered), (9, self.deep), (10, self.out_of_range), (11, self.bad_addresses), (12, self.bad_prefixes), (13, self.doubled_prefixes), (14, self.defaults), (15, self.shapes), (16, self.inside), (17, self.many)]:
            for place in rule():
                raise Refused(f"topology {number} {WORDS[number]} at {place}")
        self.finish()

    def tables(self):
        """Each table that is one, with its place and its keys, in order."""
        if isinstance(self.top.get("zone"), dict):
            yield "zone", self.top["zone"], ZONE_KEYS
        for key, keys in [("node", NODE_KEYS), ("group", GROUP_KEYS), ("class", CLASS_KEYS)]:
            entries = self.top.get(key)
            for number, entry in enumerate(entries if isinstance(entries, list) else []):
                if isinstance(entry, dict):
                    yield f"{key} {number}", entry, keys

    def missing(self):
        for key in ["zone", "node", "group"]:
            if key not in self.top:
                yield f"top {key}"
        for place, table, keys in self.tables():
            yield from (f"{place} {key}" for key, (_, required) in keys.items() if required and key not in table)

    def wrong(self):
        if not isinstance(self.top["zone"], dict):
            yield "top zone"
        for key in ["node", "group", "class"]:
            entries = self.top.get(key, [])
            if not isinstance(entries, list):
                yield f"top {key}"
            else:
                yield from (f"top {key} {number}" for number, entry in enumerate(entries) if not isinstance(entry, dict))
        for place, table, keys in self.tables():
            for key, (kind, _) in keys.items():
                if key not in table:
                    continue
                if not IS_KIND[kind](table[key]):
                    yield f"{place} {key}"
                elif kind in IS_ITEM:
                    yield from (f"{place} {key} {i}" for i, item in enumerate(table[key]) if not IS_ITEM[kind](item))

    def unknown(self):
        if set(self.top) - {"zone", "node", "group", "class"}:
            yield "top"
        yield from (place for place, table, keys in self.tables() if set(table) - set(keys))

    def nodes(self):
        return list(enumerate(self.top["node"]))

    def groups(self):
        return list(enumerate(self.top["group"]))

    def classes(self):
        return list(enumerate(self.top.get("class", [])))

    def units(self):
        """Groups and classes, each with its place."""
        return [(f"group {i}", group) for i, group in self.groups()] + [(f"class {i}", entry) for i, entry in self.classes()]

    def bad_names(self):
        zone = self.top["zone"]

        def is_zone_name(text):
            wire = read_name(text)
            return wire is not None and len(wire) <= 64

        yield from (f"zone {key}" for key in ["apex", "mname", "rname"] if not is_zone_name(zone[key]))
        yield from (f"zone ns {i}" for i, text in enumerate(zone["ns"]) if not is_zone_name(text))
        for i, text in enumerate(zone["services"]):
            if not 1 <= len(text.encode()) <= 63 or not set(text.encode()) <= LABEL_OCTETS:
                yield f"zone services {i}"
        for place, entry in [(f"node {i}", node) for i, node in self.nodes()] + self.units():
            if not 1 <= len(entry["name"].encode()) <= 32 or not set(entry["name"].encode()) <= NAME_OCTETS:
                yield f"{place} name"

    def doubled(self):
        zone = self.top["zone"]
        for place, names in [
            ("zone ns {}", [tuple(labels_of(read_name(text))) for text in zone["ns"]]),
            ("zone services {}", [text.lower() for text in zone["services"]]),
            ("node {} name", [node["name"] for _, node in self.nodes()]),
        ]:
            seen = set()
            for i, name in enumerate(names):
                if name in seen:
                    yield place.format(i)
                seen.add(name)
        seen = set()
        for place, unit in self.units():
            if unit["name"] in seen:
                yield f"{place} name"
            seen.add(unit["name"])
            # what names no group, or no service, is told under the next number alone
            pair = self.pair(unit) if place.startswith("class") else (None, None)
            if None not in pair:
                if pair in seen:
                    yield f"{place} service"
                seen.add(pair)

    def pair(self, entry):
        """The number of the group that a class names, and of the service, whose letters may differ in case."""
        if not self.numbers:
            self.numbers = [{}, {}]
            for i, group in self.groups():
                self.numbers[0].setdefault(group["name"], i)
            for i, service in enumerate(self.top["zone"]["services"]):
                self.numbers[1].setdefault(service.lower(), i)
        return self.numbers[0].get(entry["group"]), self.numbers[1].get(entry["service"].lower())

    def nameless(self):
        names = {node["name"] for _, node in self.nodes()}
        pools = {node["name"] for _, node in self.nodes() if node.get("pool", False)}
        yield from (f"node {i} parent" for i, node in self.nodes() if "parent" in node and node["parent"] not in names)
        for place, unit in self.units():
            if place.startswith("class"):
                yield from (f"{place} {key}" for key, number in zip(["group", "service"], self.pair(unit)) if number is None)
            yield from (f"{place} pools {j}" for j, pool in enumerate(unit["pools"]) if pool not in pools)

    def disordered(self):
        place = {node["name"]: i for i, node in self.nodes()}
        for i, node in self.nodes():
            if "parent" in node:
                parent = place[node["parent"]]
                if parent >= i or self.top["node"][parent].get("pool", False):
                    yield f"node {i} parent"

    def deep(self):
        depth = {}
        for i, node in self.nodes():
            depth[node["name"]] = 1 + (depth[node["parent"]] if "parent" in node else 0)
            if depth[node["name"]] > 8:
                yield f"node {i} parent"

    def out_of_range(self):
        zone = self.top["zone"]
        yield from (f"zone {key}" for key, end in ZONE_RANGES.items() if not 0 <= zone[key] < end)
        yield from (f"node {i} capacity" for i, node in self.nodes() if not 0 <= node["capacity"] <= 2**48)
        for place, unit in self.units():
            if not 1 <= unit["demand"] < 2**32:
                yield f"{place} demand"
            yield from (f"{place} scores {j}" for j, score in enumerate(unit["scores"]) if not 0 <= score < 2**32)
            yield from (f"{place} limits {j}" for j, limit in enumerate(unit.get("limits", [])) if not 1 <= limit < 2**32)

    def bad_addresses(self):
        for i, node in self.nodes():
            for key, read in [("a", read_v4), ("aaaa", read_v6)]:
                yield from (f"node {i} {key} {j}" for j, text in enumerate(node.get(key, [])) if read(text) is None)

    def bad_prefixes(self):
        for i, group in self.groups():
            yield from (f"group {i} prefixes {j}" for j, text in enumerate(group["prefixes"]) if read_prefix(text) is None)

    def each_prefix(self):
        for i, group in self.groups():
            for j, text in enumerate(group["prefixes"]):
                yield i, j, read_prefix(text)

    def doubled_prefixes(self):
        seen = set()
        for i, j, prefix in self.each_prefix():
            if prefix in seen:
                yield f"group {i} prefixes {j}"
            seen.add(prefix)

    def defaults(self):
        prefixes = {prefix for _, _, prefix in self.each_prefix()}
        yield from (f"family {family}" for family in [4, 6] if (family, 0, 0) not in prefixes)

    def shapes(self):
        if not self.top["zone"]["ns"]:
            yield "zone ns"
        for i, node in self.nodes():
            yield from (f"node {i} {key}" for key in ["a", "aaaa"] if node.get(key) and not node.get("pool", False))
        for place, unit in self.units():
            if not 1 <= len(unit["pools"]) <= 16 or len(set(unit["pools"])) < len(unit["pools"]):
                yield f"{place} pools"
            yield from (f"{place} {key}" for key in ["scores", "limits"] if key in unit and len(unit[key]) != len(unit["pools"]))

    def inside(self):
        zone = self.top["zone"]
        apex = read_name(zone["apex"])
        yield from (f"zone ns {i}" for i, text in enumerate(zone["ns"]) if is_under(read_name(text), apex))

    def many(self):
        if len(self.top["node"]) > 8192:
            yield "top node"
        if len(self.top["group"]) > 65536:
            yield "top group"
        if len(self.units()) > 65536:
            yield "top class"
        if len(self.top["zone"]["ns"]) > 4:
            yield "zone ns"
        if len(self.top["zone"]["services"]) > 64:
            yield "zone services"
        for i, node in self.nodes():
            yield from (f"node {i} {key}" for key in ["a", "aaaa"] if len(node.get(key, [])) > 40)
        total = 0
        for i, group in self.groups():
            total += len(group["prefixes"])
            if total > 262144:
                yield f"group {i} prefixes"
                return

    def finish(self):
        nodes, units = self.top["node"], [unit for _, unit in self.units()]
        self.zone = self.top["zone"]
        self.node_names = [node["name"] for node in nodes]
        self.group_names = [unit["name"] for unit in units]
        self.node_at = {name: i for i, name in enumerate(self.node_names)}
        self.group_at = {name: i for i, name in enumerate(self.group_names)}
        self.capacity = [node["capacity"] for node in nodes]
        self.demand = [unit["demand"] for unit in units]
        self.lists = [[self.node_at[pool] for pool in unit["pools"]] for unit in units]
        self.scores = [unit["scores"] for unit in units]
        self.limits = [unit.get("limits", [2**32 - 1] * len(unit["pools"])) for unit in units]
        self.class_of = {self.pair(entry): len(self.groups()) + i for i, entry in self.classes()}
        self.paths = []
        for node in nodes:
            self.paths.append([len(self.paths)] + (self.paths[self.node_at[node["parent"]]] if "parent" in node else []))
        self.addresses = [{1: [read_v4(t) for t in node.get("a", [])], 28: [read_v6(t) for t in node.get("aaaa", [])]} for node in nodes]
        self.prefixes = [(prefix, i) for i, _, prefix in self.each_prefix()]


    def unit(self, group, service):
        """The class of a group and a service, by their numbers, or the group."""
        return self.class_of.get((group, service), group)


# Maps.


LIMIT = "limit"


def is_amount(word):
    return read_number(word.decode("latin-1"), 2**32 - 1) or None


class Map:
    """Lines (group, place, amount) and names (group, place, node), LIMIT in the place of a node where the offer's limit refuses."""

    def __init__(self, topology, octets):
        self.lines, self.names, self.takes_limits = [], [], False
        if len(octets) > 256 << 20:
            raise Refused("map too long")
        *whole, rest = octets.split(b"\n")
        ended = False
        for number, line in enumerate(whole, 1):
            if number == 1:
                if line not in (b"glb map 1", b"glb map 2"):
                    raise Refused("map bad line at line 1")
                self.takes_limits = line == b"glb map 2"
            elif ended:
                raise Refused(f"map bad line at line {number}")
            elif line == b"end":
                ended = True
            else:
                self.take(topology, line, number)
        if rest or not ended:
            raise Refused("map truncated")

    def take(self, topology, line, number):
        words = line.split(b" ")
        is_limit = self.takes_limits and words[0] == b"limit"
        is_place = words[0] == b"place"
        counts = 3 if is_limit else 4
        if len(words) != counts or b"" in words or not (is_limit or is_place or words[0] == b"full") or (is_place and is_amount(words[3]) is None):
            raise Refused(f"map bad line at line {number}")
        group, pool, *last = [word.decode("latin-1") for word in words[1:]]
        group, pool = topology.group_at.get(group), topology.node_at.get(pool)
        if group is None or pool not in topology.lists[group] or (words[0] == b"full" and last[0] not in topology.node_at):
            raise Refused(f"map unknown name at line {number}")
        rank = (group, topology.lists[group].index(pool))
        entries = self.lines if is_place else self.names
        if (entries and entries[-1][:2] >= rank) or (is_place and self.names):
            raise Refused(f"map order at line {number}")
        entries.append((*rank, LIMIT if is_limit else int(last[0]) if is_place else topology.node_at[last[0]]))


class Sums:
    def __init__(self, topology, found):
        self.load = [0] * len(topology.paths)
        self.amount = {(g, k): amount for g, k, amount in found.lines}
        self.placed = [0] * len(topology.lists)
        for g, k, amount in found.lines:
            self.placed[g] += amount
            for node in topology.paths[topology.lists[g][k]]:
                self.load[node] += amount


def verdict(topology, demand, capacity, found):
    """What `glb check` writes."""
    sums = Sums(topology, found)
    for g, placed in enumerate(sums.placed):
        if placed > demand[g]:
            return f"over demand {topology.group_names[g]} {placed}"
    for g, k, amount in found.lines:
        if amount > topology.limits[g][k]:
            return f"over limit {topology.group_names[g]} {topology.node_names[topology.lists[g][k]]} {amount}"
    for n, load in enumerate(sums.load):
        if load > capacity[n]:
            return f"over capacity {topology.node_names[n]} {load}"
    worst = {}
    for g, k, _ in found.lines:
        key = (topology.scores[g][k], g, topology.lists[g][k])
        for node in topology.paths[topology.lists[g][k]]:
            worst[node] = max(worst.get(node, key), key)
    names = []
    for g, pools in enumerate(topology.lists):
        first = 0
        for k, pool in enumerate(pools):
            first += sums.amount.get((g, k), 0)
            if first >= demand[g]:
                break
            key = (topology.scores[g][k], g, pool)
            if sums.amount.get((g, k), 0) == topology.limits[g][k]:
                names.append((g, k, LIMIT))
                continue
            refusing = [n for n in topology.paths[pool] if sums.load[n] == capacity[n] and worst.get(n, key) <= key]
            if not refusing:
                return f"blocking {topology.group_names[g]} {topology.node_names[pool]}"
            names.append((g, k, refusing[0]))
    for index in range(max(len(names), len(found.names))):
        if index >= len(names) or index >= len(found.names) or names[index] != found.names[index]:
            return f"bad name {index}"
    return "good"


# Changes and feeds.


def read_line(line):
    """The words of a line, with its numbers and octets, or why it is refused."""
    if len(line) > LONGEST_LINE:
        raise Refused("too long")
    if any(not 0x20 <= octet <= 0x7E for octet in line):
        raise Refused("bad byte")
    words = [word for word in line.decode().split(" ") if word]
    counts = {"demand": 3, "capacity": 3, "commit": 1, "ask": 3, "show": 1, "stop": 1}
    if not words or words[0] not in counts:
        raise Refused("unknown word")
    if len(words) != counts[words[0]]:
        raise Refused("wrong count")
    if words[0] in ("demand", "capacity"):
        if not 1 <= len(words[2]) <= 19 or any(c not in string.digits for c in words[2]):
            raise Refused("bad number")
        words[2] = int(words[2])
    if words[0] == "ask":
        words[1] = read_address(words[1])
        if words[1] is None:
            raise Refused("bad address")
        if len(words[2]) % 2 or any(c not in string.hexdigits for c in words[2]):
            raise Refused("bad hex")
        words[2] = bytes.fromhex(words[2])
    return words


def add_change(topology, batch, words):
    names, least, most = (topology.group_at, 1, 2**32 - 1) if words[0] == "demand" else (topology.node_at, 0, 2**48)
    if words[1] not in names:
        raise Refused("unknown name")
    if not least <= words[2] <= most:
        raise Refused("out of range")
    if len(batch) >= MOST_CHANGES:
        raise Refused("batch full")
    batch.append((words[0], names[words[1]], words[2]))


def lines_of(octets):
    *whole, rest = octets.split(b"\n")
    return whole + ([rest] if rest else [])


def read_changes(topology, octets):
    if len(octets) > 1 << 20:
        raise Refused("changes too long")
    batch = []
    for number, line in enumerate(lines_of(octets), 1):
        try:
            words = read_line(line)
            if words[0] not in ("demand", "capacity"):
                raise Refused("unknown word")
            add_change(topology, batch, words)
        except Refused as why:
            # a word of the feed alone is unknown here before its count or its octets are looked at
            first = line.decode("latin-1").split()[:1]
            is_feed = str(why) in ("wrong count", "bad address", "bad hex") and first and first[0] not in ("demand", "capacity")
            raise Refused(f"changes {'unknown word' if is_feed else why} at line {number}")
    return batch


def apply(demand, capacity, batch):
    demand, capacity = list(demand), list(capacity)
    for word, number, value in batch:
        (demand if word == "demand" else capacity)[number] = value
    return demand, capacity


class Feed:
    """A feed's lines from 1, with the batch that is open and the lines of it that were refused."""

    def __init__(self, octets):
        self.lines, self.batch, self.refused = enumerate(lines_of(octets), 1), [], 0


class Session:
    """What is published, where the maps are these: their texts are taken, and found good for the numbers of the feeds."""

    def __init__(self, topology, maps):
        self.topology, self.maps, self.serial = topology, maps, 0
        self.demand, self.capacity = topology.demand, topology.capacity
        self.good = [verdict(topology, self.demand, self.capacity, maps[0]) == "good"]

    def is_good(self):
        return all(self.good) and len(self.maps) == self.serial + 1

    def commit(self, feed):
        batch, refused, feed.batch, feed.refused = feed.batch, feed.refused, [], 0
        if refused:
            return f"refused commit lines {refused}"
        if batch:
            self.demand, self.capacity = apply(self.demand, self.capacity, batch)
            self.serial += 1
            self.good.append(self.serial < len(self.maps) and verdict(self.topology, self.demand, self.capacity, self.maps[self.serial]) == "good")
        return f"published {self.serial}"

    def show(self):
        sums = Sums(self.topology, self.maps[self.serial])
        full = sum(load == most for load, most in zip(sums.load, self.capacity))
        return f"show {self.serial} placed {sum(sums.placed)} unplaced {sum(self.demand) - sum(sums.placed)} full {full}"

    def next_line(self, feed):
        """What the next line of a feed that is answered says, or None where the feed ends before."""
        for number, line in feed.lines:
            try:
                words = read_line(line)
                if words[0] == "stop":
                    feed.lines = iter(())
                    return None
                if words[0] == "commit":
                    return self.commit(feed)
                if words[0] == "show":
                    return self.show()
                if words[0] == "ask":
                    got = replies(self.topology, self.maps[self.serial], words[1], words[2])
                    return f"answer {self.serial} {'-' if got is None else got.at(0).hex()}"
                add_change(self.topology, feed.batch, words)
            except Refused as why:
                feed.refused += 1
                return f"refused {number} {why}"
        return None


def text_of(session, lines):
    """The text of these lines, and whether all is as it should be with the maps."""
    text = ""
    try:
        for line in lines:
            text += f"{line}\n"
    except IndexError:
        session.good.append(False)
    return text, session.is_good()


def control_text(topology, octets, maps):
    """What a session writes over a feed, and whether all is as it should be with its maps."""
    session, feed = Session(topology, maps), Feed(octets)
    return text_of(session, iter(lambda: session.next_line(feed), None))


def merged_text(topology, feeds, maps, said):
    """The same over several feeds, in the order in which the lines of `said` take them, and to the end of each."""
    session, read = Session(topology, maps), [Feed(octets) for octets in feeds]
    marks = {str(number): feed for number, feed in enumerate(read, 1)}

    def lines():
        for mark in [line.partition(" ")[0] for line in said.splitlines()]:
            yield f"{mark} {session.next_line(marks[mark]) if mark in marks else None}"
        for mark, feed in marks.items():
            yield from (f"{mark} {line}" for line in iter(lambda: session.next_line(feed), None))

    return text_of(session, lines())


# Replies.


class Replies:
    """The replies of a map to a datagram: one for each pool that holds units of the client's group, or of its class for the service, with how many."""

    def __init__(self, choices):
        self.choices = choices

    def at(self, draw):
        slot = draw * sum(amount for amount, _ in self.choices) >> 64
        for amount, reply in self.choices:
            if slot < amount:
                return reply
            slot -= amount
        raise ValueError

    def all(self):
        return {reply for _, reply in self.choices}


def only(reply):
    return Replies([(1, reply)])


def name_end(octets, at, pointers):
    """Where a name ends, none where it does not: a pointer ends it where they are allowed, and is refused else."""
    start = at
    while at < len(octets):
        length = octets[at]
        if length >= 0xC0:
            end = at + 2
            return end if pointers and end <= len(octets) and end - start <= 255 else None
        if length >= 0x40:
            return None
        at += 1 + length
        if length == 0:
            return at if at - start <= 255 else None
    return None


def read_records(octets, at, count):
    """Name, type, class, TTL and data of each record, none where one runs past the end."""
    records = []
    for _ in range(count):
        end = name_end(octets, at, True)
        if end is None or end + 10 > len(octets):
            return None
        kind, klass = int.from_bytes(octets[end : end + 2]), int.from_bytes(octets[end + 2 : end + 4])
        length = int.from_bytes(octets[end + 8 : end + 10])
        if end + 10 + length > len(octets):
            return None
        records.append((octets[at:end], kind, klass, octets[end + 4 : end + 8], octets[end + 10 : end + 10 + length]))
        at = end + 10 + length
    return records


BAD = object()


def read_subnet(data):
    """The first client subnet of some options: nothing, BAD, or family, source and address."""
    found, at = None, 0
    while at < len(data):
        if at + 4 > len(data):
            return BAD
        code, length = int.from_bytes(data[at : at + 2]), int.from_bytes(data[at + 2 : at + 4])
        if at + 4 + length > len(data):
            return BAD
        if code == 8 and found is None:
            found = data[at + 4 : at + 4 + length]
        at += 4 + length
    if found is None or found == bytes(4):
        return None
    if len(found) < 4:
        return BAD
    family, source, scope, address = int.from_bytes(found[:2]), found[2], found[3], found[4:]
    if family not in (1, 2):
        return BAD
    family = 4 if family == 1 else 6
    bits = bits_of(family)
    if source > bits or scope or len(address) != (source + 7) // 8:
        return BAD
    number = int.from_bytes(address.ljust(bits // 8, b"\0"))
    if number & ((1 << bits - source) - 1):
        return BAD
    return family, source, address, number


def look_up(topology, family, number):
    """The group of the longest prefix, and how many bits decide."""
    bits = bits_of(family)
    holding = [(length, group, start) for (f, start, length), group in topology.prefixes if f == family and (start ^ number) >> bits - length == 0]
    length, group, start = max(holding)
    scope = length
    for (f, other, longer), _ in topology.prefixes:
        if f == family and longer > length and (other ^ start) >> bits - length == 0:
            scope = max(scope, bits - (other ^ number).bit_length() + 1)
    return group, scope


def record(owner, kind, ttl, data):
    return owner + kind.to_bytes(2) + b"\0\1" + ttl.to_bytes(4) + len(data).to_bytes(2) + data


def replies(topology, found, client, octets, by_tcp=False):
    """The replies of a map to the octets from an address, by a datagram or over TCP; none where nothing is sent back."""
    if not 12 <= len(octets) <= 4096 or octets[2] & 0x80:
        return None
    opcode, rd = octets[2] >> 3 & 15, octets[2] & 1

    def header(aa, rcode, counts, tc=0):
        return octets[:2] + bytes([0x80 | opcode << 3 | aa << 2 | tc << 1 | rd, rcode]) + b"".join(count.to_bytes(2) for count in counts)

    def alone(rcode):
        return only(header(0, rcode, [0, 0, 0, 0]))

    if opcode != 0:
        return alone(4)
    if octets[4:10] != b"\0\1\0\0\0\0":
        return alone(1)
    end = name_end(octets, 12, False)
    if end is None or end + 4 > len(octets):
        return alone(1)
    records = read_records(octets, end + 4, int.from_bytes(octets[10:12]))
    if records is None:
        return alone(1)
    opts = [r for r in records if r[1] == 41]
    if len(opts) > 1 or any(r[0] != b"\0" for r in opts):
        return alone(1)
    name, kind, klass, question = octets[12:end], int.from_bytes(octets[end : end + 2]), int.from_bytes(octets[end + 2 : end + 4]), octets[12 : end + 4]
    return answer(topology, found, client, header, question, name, kind, klass, opts[0] if opts else None, by_tcp)


def answer(topology, found, client, header, question, name, kind, klass, opt, by_tcp):
    zone = topology.zone
    do = opt[3][2] & 0x80 if opt else 0
    subnet = None

    def whole(aa, rcode, answers=(), authority=(), scope=None, extended=0, tc=0):
        reply = header(aa, rcode, [1, len(answers), len(authority), 1 if opt else 0], tc) + question + b"".join(answers) + b"".join(authority)
        if opt:
            option = b""
            if scope is not None and subnet is not None:
                family, source, address, _ = subnet
                option = b"\0\x08" + (4 + len(address)).to_bytes(2) + b"\0" + bytes([1 if family == 4 else 2, source, scope]) + address
            reply += b"\0\0\x29\x04\xd0" + bytes([extended, 0, do, 0]) + len(option).to_bytes(2) + option
        return reply

    def fitting(records, scope):
        """The reply with these records, or with none and TC, where it would be longer than its limit."""
        reply = whole(1, 0, records, scope=scope)
        most = 65535 if by_tcp else min(max(512, opt[2]), 1232) if opt else 512
        return reply if len(reply) <= most else whole(1, 0, scope=scope, tc=1)

    if opt and opt[3][1] != 0:
        return only(whole(0, 0, extended=1))
    if opt:
        subnet = read_subnet(opt[4])
        if subnet is BAD:
            return only(whole(0, 1))
    apex = read_name(zone["apex"])
    if klass != 1 or not is_under(name, apex):
        return only(whole(0, 5))
    pointer = (0xC000 + 12 + len(name) - len(apex)).to_bytes(2)
    data = read_name(zone["mname"]) + read_name(zone["rname"]) + b"".join(zone[key].to_bytes(4) for key in ["serial", "refresh", "retry", "expire", "minimum"])
    negative = [record(pointer, 6, min(zone["ttl"], zone["minimum"]), data)]
    labels = labels_of(name)[: len(labels_of(name)) - len(labels_of(apex))]
    if labels and (len(labels) > 1 or labels[0] not in [service.encode().lower() for service in zone["services"]]):
        return only(whole(1, 3, authority=negative, scope=0))
    nothing = whole(1, 0, authority=negative, scope=0)
    if not labels:
        if kind == 6:
            return only(whole(1, 0, [record(b"\xc0\x0c", 6, zone["ttl"], data)], scope=0))
        if kind == 2:
            return only(whole(1, 0, [record(b"\xc0\x0c", 2, zone["ttl"], read_name(ns)) for ns in zone["ns"]], scope=0))
        return only(nothing)
    if kind not in (1, 28, 255):
        return only(nothing)
    if subnet is not None and subnet[1] > 0:
        group, scope = look_up(topology, subnet[0], subnet[3])
    else:
        group, scope = look_up(topology, *client)[0], 0
    unit = topology.unit(group, [service.encode().lower() for service in zone["services"]].index(labels[0]))
    choices = [(amount, topology.lists[g][k]) for g, k, amount in found.lines if g == unit]
    if not choices:
        return only(whole(0, 2))
    kind = 28 if kind == 28 else 1
    return Replies([(amount, service_reply(topology, fitting, pool, kind, scope, nothing)) for amount, pool in choices])


def service_reply(topology, fitting, pool, kind, scope, nothing):
    """The reply where a pool is picked."""
    addresses = topology.addresses[pool][kind]
    if not addresses:
        return nothing
    records = [record(b"\xc0\x0c", kind, topology.zone["ttl"], number.to_bytes(bits_of(family) // 8)) for family, number in addresses]
    return fitting(records, scope)


def address_of(text):
    """The family and number of an address that Python knows."""
    address = ipaddress.ip_address(text)
    return address.version, int(address)
