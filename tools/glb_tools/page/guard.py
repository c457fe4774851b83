"""Who may ask what: each request passes here first. Whatever is wrong with one has a status of 4xx, and nothing else comes of it."""

import hmac
import ipaddress
import re
from collections.abc import Callable
from dataclasses import dataclass, field
from typing import Any
from urllib.parse import parse_qsl

from werkzeug.wrappers import Request

# the longest path and the longest query, in octets, and how many parameters there are at most
LONGEST_PATH, LONGEST_QUERY, MOST_PARAMETERS = 200, 8000, 16
# the longest value, in letters, and that of the lines of a batch
LONGEST, LONGEST_LINES = 300, 4000
NUMBER = re.compile(r"[0-9]{1,15}")
# the browser asks from another site's page
FOREIGN = ("cross-site", "same-site")


class Denied(Exception):
    """A request that is not answered, and why."""

    def __init__(self, status: int, why: str, headers: dict[str, str] | None = None) -> None:
        super().__init__(why)
        self.status, self.headers = status, headers or {}


@dataclass(frozen=True)
class Access:
    """Who may ask. Without a token and without a header of users it is everybody who reaches the address."""

    hosts: frozenset[str]
    token: str = ""
    # set by a reverse proxy that has asked who it is
    user_header: str = ""

    def user(self, request: Request) -> str:
        """Who asks, where a proxy says so; Denied where nobody may."""
        if self.token and not self.has_token(request):
            ask = {"WWW-Authenticate": 'Basic realm="glb-page", charset="UTF-8"'}
            raise Denied(401, "a token is needed", ask)
        if not self.user_header:
            return ""
        user: str = request.headers.get(self.user_header, "")
        if not user or len(user) > 200 or not user.isprintable():
            raise Denied(403, f"no user: the proxy in front has to say {self.user_header}")
        return user

    def has_token(self, request: Request) -> bool:
        """As the password of any user, or as `Bearer TOKEN`."""
        given = request.headers.get("Authorization", "")
        found = given.removeprefix("Bearer ") if given.startswith("Bearer ") else ""
        if not found and request.authorization is not None:
            found = request.authorization.password or ""
        return hmac.compare_digest(found.encode(), self.token.encode())


def hosts_of(address: str, port: int, names: list[str]) -> frozenset[str]:
    """What a Host header may say: where the page listens, and the names that were given."""
    found = {f"{name}:{port}" for name in ("localhost", bracketed(address))}
    if ipaddress.ip_address(address).is_loopback:
        found |= {f"127.0.0.1:{port}", f"[::1]:{port}"}
    for name in names:
        found |= {name.lower(), f"{name.lower()}:{port}"}
    return frozenset(found)


def bracketed(address: str) -> str:
    return f"[{address}]" if ":" in address else address


def check(request: Request, access: Access) -> str:
    """Passes a request, and says its user."""
    if request.method not in ("GET", "HEAD"):
        raise Denied(405, "nothing is changed here: GET and HEAD alone", {"Allow": "GET, HEAD"})
    if request.environ.get("HTTP_HOST", "").lower() not in access.hosts:
        raise Denied(421, "this host is none of the page's names (--host)")
    query: str = request.environ.get("QUERY_STRING", "")
    if len(request.path) > LONGEST_PATH or len(query) > LONGEST_QUERY:
        raise Denied(414, "the address is too long")
    if not request.path.isprintable() or "\ufffd" in request.path:
        raise Denied(400, "the path has letters that no path has")
    if int(request.content_length or 0) or "Transfer-Encoding" in request.headers:
        raise Denied(413, "a question has no body here")
    return access.user(request)


# Parameters.


@dataclass(frozen=True)
class Parameter:
    """What a parameter may be, and what it is where it is not given."""

    default: Any
    read: Callable[[str], Any]


def words(text: str) -> str:
    """One line, without blanks around it."""
    if len(text) > LONGEST or not text.isprintable():
        raise ValueError("too long, or letters that cannot be printed")
    return text.strip()


def lines(text: str) -> str:
    """Lines as a form sends them."""
    found = text.replace("\r\n", "\n").replace("\r", "\n")
    if len(found) > LONGEST_LINES or not found.replace("\n", "").replace("\t", "").isprintable():
        raise ValueError("too long, or letters that cannot be printed")
    return found


def number(text: str) -> int:
    if not NUMBER.fullmatch(text):
        raise ValueError("no number")
    return int(text)


def one_of(*choices: str) -> Callable[[str], str]:
    def read(text: str) -> str:
        if text not in choices:
            raise ValueError(f"one of {', '.join(choices)}")
        return text

    return read


@dataclass
class Asked:
    """The parameters of a request, each read and in its range."""

    values: dict[str, Any] = field(default_factory=dict)

    def __getitem__(self, name: str) -> Any:
        return self.values[name]

    @classmethod
    def of(cls, request: Request, known: dict[str, Parameter]) -> "Asked":
        query: str = request.environ.get("QUERY_STRING", "")
        try:
            pairs = parse_qsl(
                query, keep_blank_values=True, errors="strict", max_num_fields=MOST_PARAMETERS
            )
        except ValueError:
            raise Denied(400, "the query cannot be read") from None
        found = {name: parameter.default for name, parameter in known.items()}
        seen = set()
        for name, value in pairs:
            if name not in known or name in seen:
                raise Denied(400, f"`{name[:40]}` is no parameter here, or stands twice")
            seen.add(name)
            try:
                found[name] = known[name].read(value) if value else known[name].default
            except ValueError as why:
                raise Denied(400, f"`{name}`: {why}") from None
        return cls(found)


def check_origin(request: Request) -> None:
    """What takes the program some seconds is not begun by a page of another site."""
    if request.headers.get("Sec-Fetch-Site", "none") in FOREIGN:
        raise Denied(403, "a page of another site asked this")


HEADERS = {
    "Content-Security-Policy": (
        "default-src 'none'; style-src 'self'; script-src 'self'; img-src 'self'; connect-src 'self';"
        " form-action 'self'; base-uri 'none'; frame-ancestors 'none'"
    ),
    "X-Content-Type-Options": "nosniff",
    "X-Frame-Options": "DENY",
    "Referrer-Policy": "no-referrer",
    "Cross-Origin-Opener-Policy": "same-origin",
    "Cross-Origin-Resource-Policy": "same-origin",
    "Cache-Control": "no-store",
}
