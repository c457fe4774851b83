"""What the host counts of a server, without asking the server: its sockets, its unit's packets, rules of nftables."""

import ipaddress
import json
import re
import subprocess
from dataclasses import dataclass
from pathlib import Path

from glb_tools.options import WRONG_WORDS, Fault

# the kernel's lists of sockets, of this process's network
LISTS = (Path("/proc/self/net/udp"), Path("/proc/self/net/udp6"))
# how long a program may take that says a counter, in seconds, and how much of what it says is read
PATIENCE, MOST = 2.0, 1 << 20
# the rule of nftables that counts queries begins its remark so (docs/operating/strangers.md, "Counts")
QUERIES = "queries"
NO_DATA = 2**64 - 1
# a socket that is bound and not connected
ROW = re.compile(r"^ *\d+: ([0-9A-F]+):([0-9A-F]{4}) [0-9A-F]+:0000 ")


@dataclass(frozen=True)
class Sockets:
    """The sockets at an address and port: a server has one a worker."""

    workers: int
    # datagrams that found a buffer full, since the sockets were made
    drops: int


def endpoint(text: str) -> tuple[str, int]:
    """Address and port of ADDR:PORT, as of `glb serve --listen`."""
    host, _, port = text.rpartition(":")
    try:
        address = ipaddress.ip_address(host.strip("[]"))
        if not port.isascii() or not port.isdigit() or not 0 < int(port) < 65536:
            raise ValueError
    except ValueError:
        raise Fault(f"{text} is no ADDR:PORT", WRONG_WORDS) from None
    return str(address), int(port)


def address_in(digits: str) -> str:
    """An address as /proc/net has it: words of four octets, each in the order of the processor."""
    octets = bytes.fromhex(digits)
    turned = b"".join(octets[at : at + 4][::-1] for at in range(0, len(octets), 4))
    return str(ipaddress.ip_address(turned))


def sockets_at(address: str, port: int, lists: tuple[Path, ...] = LISTS) -> Sockets | None:
    """The sockets of UDP there; nothing where the kernel's lists cannot be read."""
    workers = drops = 0
    is_read = False
    for path in lists:
        try:
            lines = path.read_text().splitlines()
        except OSError:
            continue
        is_read = True
        for line in lines:
            found = ROW.match(line)
            if found and int(found[2], 16) == port and address_in(found[1]) == address:
                last = line.split()[-1]
                workers, drops = workers + 1, drops + (int(last) if last.isdigit() else 0)
    return Sockets(workers, drops) if is_read else None


def said_by(words: list[str]) -> str | None:
    """What a program says within its time; nothing where it cannot, or may not."""
    try:
        ended = subprocess.run(
            words, capture_output=True, timeout=PATIENCE, stdin=subprocess.DEVNULL
        )
    except (OSError, subprocess.TimeoutExpired):
        return None
    return ended.stdout[:MOST].decode("utf-8", "replace") if ended.returncode == 0 else None


def unit_packets(unit: str) -> int | None:
    """Packets that a unit received, where it has IPAccounting=yes."""
    said = said_by(["systemctl", "show", "--value", "-p", "IPIngressPackets", "--", unit])
    found = (said or "").strip()
    if not found.isascii() or not found.isdigit() or int(found) == NO_DATA:
        return None
    return int(found)


def queries_in(said: str) -> int | None:
    """The packets of all rules that count queries, in what `nft -j list table` says."""
    count, is_there = 0, False
    try:
        for each in json.loads(said)["nftables"]:
            rule = each.get("rule", {})
            if str(rule.get("comment", "")).startswith(QUERIES):
                for part in rule.get("expr", []):
                    if "counter" in part:
                        count, is_there = count + int(part["counter"]["packets"]), True
    except (ValueError, KeyError, TypeError, AttributeError, RecursionError):
        return None
    return count if is_there else None


def rule_packets() -> int | None:
    """Queries that nftables counted on this host; nothing where it does not, or this user may not see it."""
    said = said_by(["nft", "-j", "list", "table", "inet", "glb"])
    return None if said is None else queries_in(said)
