#!/usr/bin/env python3
"""Two builds of the program side by side: the replies of both to the same drawn datagrams have to be the same octets.

    same_replies.py GLB OTHER TOPOLOGY [COUNT [SEED]]        20,000 datagrams by seed 1 if they are not given

Each build serves the topology with one worker, so both have the same draws. Datagrams are drawn from queries for names in
the zone, under services, of other zones and with the apex's octets inside a label, in either case; of all types that are
answered and others; with OPT records of each size, version and flag; and with subnets of both families, on and beside the
topology's prefixes, some of them broken. One in ten is cut, changed at some octets, or followed by more. Behind each comes
a query whose reply says that no reply to it will come any more. Status 0 where all replies are the same.
"""

import collections
import random
import re
import socket
import struct
import subprocess
import sys
import time
from pathlib import Path

PROGRAMS, TOPOLOGY = sys.argv[1:3], sys.argv[3]
COUNT = int(sys.argv[4]) if len(sys.argv) > 4 else 20_000
draw = random.Random(int(sys.argv[5]) if len(sys.argv) > 5 else 1)


def wire(name):
    return b"".join(bytes([len(label)]) + label.encode() for label in name.split(".")) + b"\0"


TEXT = Path(TOPOLOGY).read_text()
APEX = wire(re.search(r'^apex = "([^"]+)"', TEXT, re.M).group(1))
SERVICES = [
    wire(name)
    for name in re.findall(
        r'"([^"]+)"', re.search(r"^services = \[([^\]]*)\]", TEXT, re.M).group(1)
    )
]
PREFIXES = re.findall(r'"([0-9a-f.:]+)/\d+"', TEXT)
OF_FAMILY = {
    1: [p for p in PREFIXES if ":" not in p] or ["192.0.2.0"],
    2: [p for p in PREFIXES if ":" in p] or ["2001:db8::"],
}
LAST = (
    struct.pack(">HHHHHH", 0xFFAA, 0x100, 1, 0, 0, 0)
    + wire("last.other")
    + struct.pack(">HH", 1, 1)
)


def one_in(count):
    return draw.randrange(count) == 0


def in_either_case(octets):
    return bytes(o ^ 32 if (o | 32) in range(97, 123) and one_in(2) else o for o in octets)


def label():
    size = draw.choice((1, 2, 3, 7, 8, 9, 15, 16, 17, 40, 63))
    return bytes([size]) + bytes(draw.choice(b"abcxyz019-_\0\3\7") for _ in range(size))


def name():
    service = draw.choice(SERVICES)[:-1] + APEX
    front = draw.choice((b"", b"x", b"www", b"\3www"))
    kinds = [service] * 7 + [
        APEX,
        label() + APEX,
        label() + service,
        wire("example.com"),
        b"\0",
        APEX[1 + APEX[0] :],
    ]
    # the apex's octets within one label
    kinds += [bytes([len(front) + len(APEX) - 1]) + front + APEX[:-1] + b"\0"] * 2
    kinds.append(b"".join(label() for _ in range(draw.randrange(1, 9))) + APEX)
    octets = bytearray(service)
    octets[draw.randrange(len(octets))] = draw.randrange(256)
    kinds.append(bytes(octets))
    found = draw.choice(kinds)
    return in_either_case(found) if one_in(2) else found


def subnet():
    family, bits = (
        draw.choice(((1, 32), (2, 128)))
        if not one_in(12)
        else (draw.randrange(4), draw.choice((0, 32)))
    )
    source = (
        draw.randrange(bits + 1) if not one_in(4) else draw.choice((0, 8, 24, 32, 48, 56, 128, 200))
    )
    size = (source + 7) // 8 if not one_in(20) else draw.randrange(18)
    octets = bytearray(draw.randbytes(18))
    if family in OF_FAMILY and not one_in(3):
        address = draw.choice(OF_FAMILY[family])
        kind = socket.AF_INET6 if ":" in address else socket.AF_INET
        near = socket.inet_pton(kind, address)
        octets[: len(near)] = near
        if one_in(3):
            octets[draw.randrange(len(near))] ^= 1 << draw.randrange(8)
    octets = octets[:size]
    if source % 8 and len(octets) == (source + 7) // 8 and not one_in(12):
        octets[-1] &= 0xFF << (8 - source % 8) & 0xFF
    option = struct.pack(">HBB", family, source, draw.randrange(256) if one_in(20) else 0) + octets
    return struct.pack(">HH", 8, draw.randrange(40) if one_in(40) else len(option)) + option


def extension():
    options = b"".join(
        subnet() if not one_in(5) else struct.pack(">HH", draw.choice((3, 10, 12)), 4) + b"abcd"
        for _ in range(draw.choice((0, 1, 1, 1, 2)))
    )
    version = draw.choice((1, 255)) if one_in(10) else 0
    flags = draw.choice((0, 0x8000, 0x4001))
    owner = wire("x") if one_in(30) else b"\0"
    return (
        owner
        + struct.pack(
            ">HHBBHH",
            41,
            draw.choice((0, 512, 513, 700, 1232, 4096, 65535)),
            draw.randrange(2),
            version,
            flags,
            len(options),
        )
        + options
    )


def datagram():
    kind = draw.choice((1, 1, 1, 1, 28, 28, 28, 255, 2, 6, 16, 41, draw.randrange(65536)))
    question = name() + struct.pack(">HH", kind, draw.choice((0, 3, 255, 257)) if one_in(25) else 1)
    more = [extension() for _ in range(0 if one_in(4) else 2 if one_in(20) else 1)]
    if one_in(15):
        more.insert(
            0,
            draw.choice((wire("a.b"), b"\xc0\x0c", b"\0"))
            + struct.pack(">HHIH", 1, 1, 5, 4)
            + b"abcd",
        )
    flags = draw.choice((0, 0x100, 0x110, 0x2FF)) | (
        draw.choice((0x8000, 0x2800, 0x0800, 0x7800)) if one_in(15) else 0
    )
    counts = [
        draw.randrange(3) if one_in(40) else 1,
        int(one_in(50)),
        int(one_in(50)),
        draw.randrange(4) if one_in(40) else len(more),
    ]
    octets = (
        struct.pack(">HHHHHH", draw.randrange(0xFF00), flags, *counts) + question + b"".join(more)
    )
    change = draw.randrange(30)
    if change == 0:
        return octets[: draw.randrange(len(octets) + 1)]
    if change == 1:
        return octets + bytes(draw.randrange(5000))
    if change == 2:
        changed = bytearray(octets)
        for _ in range(draw.choice((1, 1, 2, 5))):
            changed[draw.randrange(len(changed))] = draw.randrange(256)
        return bytes(changed)
    return octets


def start(program):
    """A server, and a socket that is connected to it. Both have had as many datagrams."""
    with socket.socket(socket.AF_INET, socket.SOCK_DGRAM) as free:
        free.bind(("127.0.0.1", 0))
        port = free.getsockname()[1]
    server = subprocess.Popen(
        [program, "serve", TOPOLOGY, "--listen", f"127.0.0.1:{port}", "--workers", "1"],
        stdin=subprocess.PIPE,
        stdout=subprocess.DEVNULL,
        stderr=subprocess.DEVNULL,
    )
    client = socket.socket(socket.AF_INET, socket.SOCK_DGRAM)
    client.connect(("127.0.0.1", port))
    client.settimeout(30)
    # a port where nobody is refuses, so the first one that is taken is the first one of all
    for _ in range(600):
        try:
            client.send(LAST)
            client.recv(2000)
            return server, client
        except ConnectionRefusedError:
            time.sleep(0.1)
    raise SystemExit(f"{program} does not answer")


def replies(client, octets):
    """What comes as a reply to these octets."""
    client.send(octets)
    client.send(LAST)
    found = []
    while (reply := client.recv(8000))[:2] != LAST[:2]:
        found.append(reply)
    return found


def main():
    servers = [start(program) for program in PROGRAMS]
    kinds, wrong = collections.Counter(), 0
    for _ in range(COUNT):
        octets = datagram()
        if octets[:2] == LAST[:2]:
            continue
        one, other = (replies(client, octets) for _, client in servers)
        if one != other:
            wrong += 1
            print(
                "differs:",
                octets.hex(),
                [reply.hex() for reply in one],
                [reply.hex() for reply in other],
            )
        kinds[
            f"code {one[0][3] & 15}"
            + (", answers" if one[0][7] else "")
            + (", truncated" if one[0][2] & 2 else "")
            if one
            else "silent"
        ] += 1
    for server, _ in servers:
        server.stdin.write(b"stop\n")
        server.stdin.close()
        wrong += server.wait(60) != 0
    print(
        f"{COUNT:,} datagrams, {wrong} wrong; "
        + "; ".join(f"{kind}: {count:,}" for kind, count in sorted(kinds.items()))
    )
    sys.exit(wrong != 0)


main()
