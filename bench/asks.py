#!/usr/bin/env python3
"""Writes a feed of questions for a generated topology on standard output.

    asks.py TOPOLOGY COUNT SUBNETS

COUNT lines `ask` for the A records of www, from addresses of the topology's
prefixes drawn at random; with SUBNETS 1 each names the client by a subnet of
24 bits instead (RFC 7871). The same arguments give the same feed.
"""

import random
import re
import struct
import sys

QUESTION = b"\3www\3cdn\7example\0" + struct.pack(">HH", 1, 1)


def query(address):
    head = struct.pack(">HHHHHH", 1, 0x0100, 1, 0, 0, 0 if address is None else 1)
    if address is None:
        return head + QUESTION
    option = struct.pack(">HHHBB", 8, 7, 1, 24, 0) + bytes(map(int, address.split(".")[:3]))
    return head + QUESTION + b"\0" + struct.pack(">HHIH", 41, 1232, 0, len(option)) + option


def main():
    count, subnets = int(sys.argv[2]), sys.argv[3] == "1"
    with open(sys.argv[1]) as lines:
        addresses = re.findall(r'"([0-9.]+)/32"', lines.read())
    draw = random.Random(20151)
    for _ in range(count):
        address = draw.choice(addresses)
        octets = query(address if subnets else None)
        print("ask %s %s" % ("192.0.2.9" if subnets else address, octets.hex()))
    print("stop")


main()
