"""Calls to etcd over its HTTP gateway (/v3), by Python's own library, since a DNS server needs no other.

Every call is bounded: a member that has not answered within three seconds is passed over for the next one, however slowly
it drips its answer (the module `bounded`).
"""

import argparse
import base64
import json
import os
import ssl
import urllib.error
from collections.abc import Callable
from dataclasses import dataclass
from http.client import HTTPException
from typing import Any, TypeVar

from glb_tools.bounded import Bound, Request, opener_of
from glb_tools.options import WRONG_WORDS, Fault, check_word

# how long a member may take to answer, in seconds
PATIENCE = 3.0
# how long it may take to give back the room that history had
DEFRAGMENT = 120.0
# the status of a command that found no majority, and that of one that found etcd full
NO_MAJORITY, FULL = 3, 4
ETCD_STATUSES = {
    NO_MAJORITY: "no member of etcd answered, or none that has a majority",
    FULL: "etcd is full: nothing was put (docs/operating/fleet.md, `When etcd is full`)",
}
# codes of gRPC in the answers of the gateway
DEADLINE, NOT_FOUND, EXHAUSTED, INTERNAL, UNAVAILABLE, UNAUTHENTICATED = 4, 5, 8, 13, 14, 16

# what comes of an answer that is none of etcd's
NONSENSE = (ValueError, KeyError, TypeError, AttributeError)

Message = dict[str, Any]
Found = TypeVar("Found")


class Unreachable(Fault):
    """No member answered, or none that has a majority: what was asked may have been done."""

    def __init__(self, why: object) -> None:
        super().__init__(f"etcd: {why}", NO_MAJORITY)


class Full(Fault):
    """etcd has no room: what was asked was not done."""

    def __init__(self, why: object) -> None:
        super().__init__(f"etcd is full, and nothing was put: {why}", FULL)


class NoLease(Fault):
    """The lease has run out."""


@dataclass(frozen=True)
class Item:
    """A key and its octets, the revision that put them, and the lease that they go with."""

    key: str
    octets: bytes
    revision: int
    lease: int

    @property
    def name(self) -> str:
        return self.key.rsplit("/", 1)[1]


def encoded(text: str | bytes) -> str:
    return base64.b64encode(text if isinstance(text, bytes) else text.encode()).decode()


def after(key: str) -> str:
    """The end of the range of all keys that begin so."""
    return key[:-1] + chr(ord(key[-1]) + 1)


# Parts of transactions.


def put(key: str, octets: str | bytes, lease: int = 0) -> Message:
    message = {"key": encoded(key), "value": encoded(octets), "lease": str(lease)}
    return {"request_put": message}


def delete(key: str, end: str | None = None) -> Message:
    message = {"key": encoded(key)}
    return {"request_delete_range": message | ({"range_end": encoded(end)} if end else {})}


def one(key: str) -> Message:
    return {"request_range": {"key": encoded(key)}}


def under(key: str, **more: Any) -> Message:
    """All keys that begin so, by name."""
    return span(key, after(key), **more)


def span(key: str, end: str, **more: Any) -> Message:
    return {"request_range": {"key": encoded(key), "range_end": encoded(end), **more}}


def is_at(key: str, revision: int) -> Message:
    """That the key is still as that revision put it; 0: that there is none."""
    return {
        "key": encoded(key),
        "target": "MOD",
        "result": "EQUAL",
        "mod_revision": str(revision),
    }


@dataclass
class Answer:
    """What came of a transaction: whether its conditions held, and what each range found."""

    held: bool
    found: list[list[Item]]
    revision: int


class Etcd:
    """Members of one etcd: calls go to the one that answered last, and to the next where it does not."""

    def __init__(self, members: list[str], context: ssl.SSLContext | None = None) -> None:
        self.members = members
        # those that did not answer, and why
        self.silent: dict[str, str] = {}
        self.login: dict[str, str] | None = None
        self.token: str | None = None
        self.opener = opener_of(context)

    def open(self, member: str, path: str, message: Message | None, bound: Bound) -> Any:
        """A member's answer to a message, or its page where there is none."""
        headers = {"Content-Type": "application/json"}
        if self.token and path != "/v3/auth/authenticate":
            headers["Authorization"] = self.token
        octets = None if message is None else json.dumps(message).encode()
        return self.opener.open(Request(bound, member + path, octets, headers))

    def sign_in(self, member: str, bound: Bound) -> None:
        if self.login and not self.token:
            with self.open(member, "/v3/auth/authenticate", self.login, bound) as answer:
                self.token = str(json.load(answer)["token"])

    def reach(self, path: str, message: Message, use: Callable[[Any], Found]) -> Found:
        """What comes of a call at the first member that answers it."""
        return self.reach_within(path, message, lambda answer, bound: use(answer))

    def reach_within(
        self, path: str, message: Message, use: Callable[[Any, Bound], Found]
    ) -> Found:
        """The same, where the bound of the call is used as well."""
        why: object = None
        for _ in range(len(self.members)):
            member, bound = self.members[0], Bound(PATIENCE)
            try:
                self.sign_in(member, bound)
                with self.open(member, path, message, bound) as answer:
                    return use(answer, bound)
            except urllib.error.HTTPError as error:
                why = self.refused(member, error)
            except (OSError, HTTPException, *NONSENSE) as error:
                self.silent[member] = why_of(error)
                why = f"{member}: {self.silent[member]}"
            self.members.append(self.members.pop(0))
        raise Unreachable(why)

    def refused(self, member: str, error: urllib.error.HTTPError) -> str:
        """Why a member refused a call, where another one may take it; else the fault."""
        try:
            told = json.loads(error.read())
            code, words = int(told["code"]), str(told.get("message") or told.get("error"))
        except (OSError, HTTPException, *NONSENSE):
            return f"{member}: {error}"
        if code == EXHAUSTED and "space" in words:
            raise Full(words)
        if code == NOT_FOUND and "lease" in words:
            raise NoLease(words)
        if code == UNAUTHENTICATED:
            self.token = None
        elif code not in (DEADLINE, EXHAUSTED, INTERNAL, UNAVAILABLE):
            raise Fault(f"etcd at {member}: {words}")
        return f"{member}: {words}"

    def call(self, path: str, message: Message) -> Message:
        def told(answer: Any) -> Message:
            found = json.load(answer)
            if not isinstance(found, dict):
                raise ValueError("no answer of etcd")
            return found

        return self.reach(path, message, told)

    def txn(self, parts: list[Message], conditions: list[Message] | None = None) -> Answer:
        """Does all parts at one moment, where all conditions hold at it."""

        def told(octets: Any) -> Answer:
            answer = json.load(octets)
            found = [
                [item(kv) for kv in response["response_range"].get("kvs", [])]
                for response in answer.get("responses", [])
                if "response_range" in response
            ]
            return Answer(bool(answer.get("succeeded")), found, int(answer["header"]["revision"]))

        return self.reach("/v3/kv/txn", {"compare": conditions or [], "success": parts}, told)

    def get(self, key: str) -> Item | None:
        return next(iter(self.txn([one(key)]).found[0]), None)

    def lease(self, seconds: int) -> int:
        grant = {"TTL": str(seconds)}
        return self.reach("/v3/lease/grant", grant, lambda answer: int(json.load(answer)["ID"]))

    def keep(self, lease: int) -> bool:
        """Whether the lease still lives; from now on for its whole time."""
        answer = self.call("/v3/lease/keepalive", {"ID": str(lease)})
        return int(answer.get("result", {}).get("TTL", 0)) > 0

    def end_lease(self, lease: int) -> None:
        self.call("/v3/lease/revoke", {"ID": str(lease)})

    def wait(self, key: str, end: str, revision: int, seconds: float) -> None:
        """Waits until something in the range is put behind a revision, or for so long."""

        def heard(answer: Any, bound: Bound) -> None:
            # the first line says that the watch is made
            answer.readline()
            try:
                bound.begin(seconds)
                answer.readline()
            except TimeoutError:
                # nothing came, which is no fault of this member
                pass

        span = {"key": encoded(key), "range_end": encoded(end), "start_revision": str(revision + 1)}
        self.reach_within("/v3/watch", {"create_request": span}, heard)

    # What an operator looks after.

    def answers(self, member: str) -> Message | None:
        """What a member says of itself; none where it does not answer."""
        bound = Bound(PATIENCE)
        try:
            self.sign_in(member, bound)
            with self.open(member, "/v3/maintenance/status", {}, bound) as answer:
                told: Message = json.load(answer)
                return told
        except (OSError, HTTPException, *NONSENSE) as error:
            self.silent[member] = why_of(error)
            return None

    def make_room(self) -> tuple[int, list[str]]:
        """Gives up all history, has each member give back the room, and takes back the alarm; says the revision, and the
        members that did not answer."""
        revision, silent = self.txn([one("/")]).revision, []
        self.call("/v3/kv/compaction", {"revision": str(revision), "physical": True})
        for member in list(self.members):
            try:
                # a member stands still meanwhile
                with self.open(
                    member, "/v3/maintenance/defragment", {}, Bound(DEFRAGMENT)
                ) as answer:
                    answer.read()
            except (OSError, HTTPException):
                silent.append(member)
        for alarm in self.alarms():
            self.call("/v3/maintenance/alarm", {"action": "DEACTIVATE", **alarm})
        return revision, silent

    def alarms(self) -> list[Message]:
        told: list[Message] = self.call("/v3/maintenance/alarm", {"action": "GET"}).get(
            "alarms", []
        )
        return told


def why_of(error: Exception) -> str:
    """Why a member did not answer."""
    reason = getattr(error, "reason", None)
    told = reason if isinstance(reason, Exception) else error
    if isinstance(told, ssl.SSLCertVerificationError):
        return f"its certificate is not taken: {told.verify_message}"
    if isinstance(told, ssl.SSLError):
        words = (told.reason or str(told)).lower().replace("_", " ")
        return f"TLS fails: {words} (does it speak https, and take this client's certificate?)"
    return (
        (told.strerror if isinstance(told, OSError) else None) or str(told) or type(told).__name__
    )


def item(kv: Message) -> Item:
    return Item(
        base64.b64decode(kv["key"]).decode(errors="replace"),
        base64.b64decode(kv.get("value", "")),
        int(kv.get("mod_revision", 0)),
        int(kv.get("lease", 0)),
    )


# Options.


def add_etcd_options(parser: argparse.ArgumentParser) -> None:
    parser.add_argument(
        "--etcd",
        metavar="ADDRESSES",
        default=os.environ.get("GLB_ETCD", "http://127.0.0.1:2379"),
        help="addresses of etcd's members, joined by commas (GLB_ETCD)",
    )
    parser.add_argument(
        "--prefix",
        default=os.environ.get("GLB_PREFIX", "glb"),
        help="what all keys begin with (GLB_PREFIX)",
    )
    parser.add_argument("--cacert", metavar="FILE", help="who signs the members' certificates")
    parser.add_argument("--cert", metavar="FILE", help="this client's certificate")
    parser.add_argument("--key", metavar="FILE", help="and its key")
    parser.add_argument("--user", help="a user of etcd; the password stands in the file --password")
    parser.add_argument("--password", metavar="FILE", help="its first line is the password")


def etcd_of(options: argparse.Namespace) -> Etcd:
    members = [member.strip().rstrip("/") for member in options.etcd.split(",") if member.strip()]
    if not members or not all(member.startswith(("http://", "https://")) for member in members):
        raise Fault(
            f"--etcd {options.etcd}: each address begins with http:// or https://", WRONG_WORDS
        )
    check_word(options.prefix, "--prefix")
    etcd = Etcd(members, context_of(options, members))
    if bool(options.user) != bool(options.password):
        raise Fault("--user and --password go together", WRONG_WORDS)
    if options.user:
        with open(options.password, errors="replace") as file:
            etcd.login = {"name": options.user, "password": file.readline().rstrip("\n")}
    return etcd


def context_of(options: argparse.Namespace, members: list[str]) -> ssl.SSLContext | None:
    """What certificates are checked by, and this client's own."""
    if not any(member.startswith("https://") for member in members):
        if options.cacert or options.cert or options.key:
            raise Fault("--cacert, --cert and --key are for addresses of https", WRONG_WORDS)
        return None
    if options.key and not options.cert:
        raise Fault("--key goes with --cert", WRONG_WORDS)
    try:
        context = ssl.create_default_context(cafile=options.cacert)
        if options.cert:
            context.load_cert_chain(options.cert, options.key)
    except (OSError, ValueError) as why:
        files = ", ".join(filter(None, (options.cacert, options.cert, options.key)))
        raise Fault(f"certificates {files}: {why}") from None
    return context
