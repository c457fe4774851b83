"""Says why clients go where they go.

    glb-why TOPOLOGY MAP                  who is placed nowhere, which nodes are full, which limits are reached: the
                                          largest first, and the sums last
    glb-why TOPOLOGY MAP WHO [SERVICE]    a group, a class, or an address: what it has of each pool of its list, and
                                          what keeps it from more
    glb-why TOPOLOGY MAP --node NODE      a node: who stands at it or under it, and whom it refuses

With SERVICE it is the class of the group for that service, where there is one. The map has to be one for the numbers
of the topology: for a later map give it a topology that has these (glb-numbers). It reads the map as it is: `glb
check` says whether it is good.
"""

import ipaddress
import json
from collections import Counter
from operator import itemgetter
from typing import Any

from glb_tools.map import Map, Offer, Sums, read_map
from glb_tools.options import Fault, Progress, parser
from glb_tools.topology import NO_LIMIT, Network, Topology, read_topology

# how many of the offers under a full node are said, the worst ones
MOST_HOLDERS = 6
Report = dict[str, Any]


class Why:
    """A topology, a map of it, and what the tool says of them."""

    def __init__(self, topology: Topology, found: Map) -> None:
        self.topology, self.found = topology, found
        self.sums = Sums(topology, found)

    def name(self, node: int) -> str:
        return self.topology.nodes[node].name

    def offer(self, offer: Offer) -> Report:
        (score, unit, pool), amount = offer
        name = self.topology.units[unit].name
        return {"unit": name, "pool": self.name(pool), "score": score, "units": amount}

    def load(self, node: int, worst: list[Offer]) -> Report:
        capacity = self.topology.nodes[node].capacity
        return {
            "node": self.name(node),
            "load": self.sums.load[node],
            "capacity": capacity,
            "worst": [self.offer(offer) for offer in worst],
        }

    def unit(self, number: int) -> Report:
        unit = self.topology.units[number]
        why = {name.place: name for name in self.found.names if name.unit == number}
        full = {name.node for name in why.values() if name.node is not None}
        worst = self.sums.worst(full, MOST_HOLDERS)
        offers = []
        for place, pool in enumerate(unit.pools):
            offer: Report = {
                "place": place,
                "pool": self.name(pool),
                "score": unit.scores[place],
                "units": self.found.amounts.get((number, place), 0),
            }
            if unit.limits[place] != NO_LIMIT:
                offer["limit"] = unit.limits[place]
            if place in why:
                node = why[place].node
                offer["refused"] = "limit" if node is None else self.load(node, worst[node])
            offers.append(offer)
        return {
            "kind": unit.kind,
            "name": unit.name,
            "demand": unit.demand,
            "placed": self.sums.placed[number],
            "nowhere": unit.demand - self.sums.placed[number],
            "offers": offers,
        }

    def node(self, number: int) -> Report:
        """Who stands at a node or under it, the largest first, and whom it refuses."""
        held: Counter[tuple[int, int]] = Counter()
        for (unit, place), amount in self.found.amounts.items():
            pool = self.topology.units[unit].pools[place]
            if number in self.topology.path(pool):
                held[unit, pool] += amount
        refused = [name for name in self.found.names if name.node == number]
        units = self.topology.units
        return {
            "node": self.name(number),
            "load": self.sums.load[number],
            "capacity": self.topology.nodes[number].capacity,
            "holds": [
                {"unit": units[unit].name, "pool": self.name(pool), "units": amount}
                for (unit, pool), amount in held.most_common()
            ],
            "refuses": [
                {"unit": units[n.unit].name, "pool": self.name(units[n.unit].pools[n.place])}
                for n in refused
            ],
        }

    def world(self) -> Report:
        units, sums = self.topology.units, self.sums
        nowhere: list[Report] = [
            {"kind": u.kind, "name": u.name, "demand": u.demand, "nowhere": u.demand - placed}
            for u, placed in zip(units, sums.placed)
            if placed < u.demand
        ]
        refuses = Counter(name.node for name in self.found.names)
        worst = sums.worst(sums.full(), MOST_HOLDERS)
        full = [{**self.load(node, worst[node]), "refuses": refuses[node]} for node in worst]
        limits: list[Report] = [
            {
                "unit": units[n.unit].name,
                "pool": self.name(units[n.unit].pools[n.place]),
                "limit": units[n.unit].limits[n.place],
            }
            for n in self.found.names
            if n.node is None
        ]
        # of equal ones the order of the file stays
        for listed, key in ((nowhere, "nowhere"), (full, "load"), (limits, "limit")):
            listed.sort(key=itemgetter(key), reverse=True)
        return {"nowhere": nowhere, "full": full, "limits": limits, "sums": self.all(nowhere, full)}

    def all(self, nowhere: list[Report], full: list[Report]) -> Report:
        limits: Counter[str] = Counter()
        for name in self.found.names:
            if name.node is None:
                limits[self.name(self.topology.units[name.unit].pools[name.place])] += 1
        last = {self.name(pool): units for pool, units in self.sums.last_resort().items()}
        return {
            "demand": sum(unit.demand for unit in self.topology.units),
            "placed": sum(self.sums.placed),
            "nowhere": sum(unit["nowhere"] for unit in nowhere),
            "units_nowhere": len(nowhere),
            "servfail": sum(unit["nowhere"] == unit["demand"] for unit in nowhere),
            "full_nodes": len(full),
            "refused_offers": sum(node["refuses"] for node in full),
            "limits": dict(limits.most_common()),
            "last_resort": last,
        }


def who(topology: Topology, word: str, service: str | None) -> tuple[int, Network | None]:
    """The unit that is meant, and the prefix that decides where it is an address."""
    number, prefix = topology.unit_at.get(word), None
    if number is None:
        try:
            address = ipaddress.ip_address(word)
        except ValueError:
            raise Fault(f"`{word}` is no group, no class and no address") from None
        number, prefix = topology.group_of(address)
    if service is not None:
        if service.lower() not in [name.lower() for name in topology.services]:
            raise Fault(f"there is no service `{service}`")
        number = topology.class_of.get((number, service.lower()), number)
    return number, prefix


def say_unit(report: Report) -> None:
    print(
        f"{report['kind']} {report['name']}: asks for {report['demand']}, placed {report['placed']},"
        f" nowhere {report['nowhere']}"
    )
    for offer in report["offers"]:
        limit = f", at most {offer['limit']}" if "limit" in offer else ""
        line = (
            f"  {offer['place']} {offer['pool']} (score {offer['score']}{limit}): {offer['units']}"
        )
        refused = offer.get("refused")
        if refused == "limit":
            line += "; no more: its limit"
        elif refused:
            line += f"; no more: {full_text(refused)}"
        print(line)
    if not report["placed"]:
        print("  its clients are answered SERVFAIL")


def full_text(report: Report) -> str:
    worst = ", ".join(
        f"{h['unit']} at {h['pool']} {h['units']} (score {h['score']})" for h in report["worst"]
    )
    text = f"{report['node']} is full, {report['load']} of {report['capacity']}"
    return text + (f"; last in it: {worst}" if worst else "")


def say_node(report: Report) -> None:
    print(f"node {report['node']}: {report['load']} of {report['capacity']}")
    for held in report["holds"]:
        print(f"  {held['unit']} at {held['pool']}: {held['units']}")
    for refused in report["refuses"]:
        print(f"  refuses {refused['unit']} at {refused['pool']}")


def say_world(report: Report) -> None:
    for unit in report["nowhere"]:
        end = ", answered SERVFAIL" if unit["nowhere"] == unit["demand"] else ""
        print(f"{unit['kind']} {unit['name']}: {unit['nowhere']} of {unit['demand']} nowhere{end}")
    for node in report["full"]:
        print(f"{full_text(node)}; offers that it refuses: {node['refuses']}")
    for limit in report["limits"]:
        print(f"{limit['unit']} has its limit at {limit['pool']}, {limit['limit']}")
    sums = report["sums"]
    print(
        f"in all {sums['nowhere']} of {sums['demand']} units nowhere;"
        f" groups and classes: {sums['units_nowhere']}, answered SERVFAIL: {sums['servfail']}"
    )
    print(f"nodes full: {sums['full_nodes']}, offers that they refuse: {sums['refused_offers']}")
    if sums["limits"]:
        each = ", ".join(f"{pool} {count}" for pool, count in sums["limits"].items())
        print(f"limits reached: {sum(sums['limits'].values())} ({each})")
    for pool, units in sums["last_resort"].items():
        print(f"{pool} is of last resort, and has {units} units")


def main() -> None:
    words = parser("glb-why", __doc__ or "", json=True)
    words.add_argument("topology", metavar="TOPOLOGY")
    words.add_argument("map", metavar="MAP")
    words.add_argument("who", metavar="WHO", nargs="?", help="a group, a class or an address")
    words.add_argument("service", metavar="SERVICE", nargs="?", help="a service of the zone")
    words.add_argument("--node", metavar="NODE", help="a node, in the place of WHO")
    options = words.parse_args()
    if options.node is not None and options.who is not None:
        words.error("WHO and --node do not go together")
    with Progress("reads and sums up"):
        topology = read_topology(options.topology)
        why = Why(topology, read_map(topology, options.map))
        prefix = None
        if options.node is not None:
            if options.node not in topology.node_at:
                raise Fault(f"there is no node `{options.node}`")
            report, say = why.node(topology.node_at[options.node]), say_node
        elif options.who is None:
            report, say = why.world(), say_world
        else:
            number, prefix = who(topology, options.who, options.service)
            report, say = why.unit(number), say_unit
            if prefix is not None:
                report = {"address": options.who, "prefix": str(prefix), **report}
    if options.json:
        print(json.dumps(report, indent=2))
        return
    if prefix is not None:
        print(f"{options.who} is in {prefix}")
    say(report)
