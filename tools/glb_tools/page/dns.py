"""Questions and replies of DNS as texts, by python3-dnspython."""

from collections.abc import Callable

import dns.exception
import dns.flags
import dns.message
import dns.rcode
import dns.rdatatype

from glb_tools.options import Fault
from glb_tools.page.views.common import Shown

TYPES = ("A", "AAAA")
Ask = Callable[[str, bytes], tuple[int, bytes | None]]


def query(name: str, kind: str) -> bytes:
    """A plain question, as a stub sends it: the sender's address decides."""
    message = dns.message.make_query(name, kind)
    # the reply repeats it
    message.id = 0x1234
    octets: bytes = message.to_wire()
    return octets


def reply_shown(octets: bytes | None) -> Shown:
    """A reply: its code, its flags, and its records."""
    if octets is None:
        return {"code": "nothing is sent back", "flags": "", "records": []}
    try:
        found = dns.message.from_wire(octets)
    except (dns.exception.DNSException, ValueError) as why:
        return {"code": f"it cannot be read: {why}", "flags": "", "records": []}
    records = [
        {"section": section, "text": str(record)}
        for section, listed in (("answer", found.answer), ("authority", found.authority))
        for each in listed
        for record in each.to_text().splitlines()
    ]
    return {
        "code": dns.rcode.to_text(found.rcode()),
        "flags": dns.flags.to_text(found.flags),
        "records": records,
    }


def answers(ask: Ask, address: str, service: str, apex: str) -> Shown:
    """What the mirror replies to a client's questions for the addresses of a service; why it does not, else."""
    name = f"{service}.{apex}".rstrip(".") + "."
    found: Shown = {"name": name, "address": address, "replies": []}
    try:
        for kind in TYPES:
            serial, octets = ask(address, query(name, kind))
            found["replies"].append({"type": kind, "serial": serial, **reply_shown(octets)})
    except Fault as why:
        found["fault"] = str(why)
    return found
