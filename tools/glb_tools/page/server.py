"""The web server: which view answers which path. It only reads."""

import json
import time
from collections.abc import Callable
from dataclasses import dataclass, field
from hashlib import sha256
from pathlib import Path
from typing import Any

import flask
import jinja2
from werkzeug.exceptions import HTTPException
from werkzeug.wrappers import Response as AnyResponse

from glb_tools import VERSION
from glb_tools.drawing import PATTERNS, style
from glb_tools.log import plain
from glb_tools.options import Fault, tell
from glb_tools.page import dns, guard
from glb_tools.page.dry_run import Crowded, DryRuns, Job
from glb_tools.page.guard import Access, Asked, Denied, Parameter
from glb_tools.page.mirror import Mirror, Served
from glb_tools.page.prometheus import Prometheus
from glb_tools.page.rings import Rings
from glb_tools.page.sources import Source
from glb_tools.page.steps import Step
from glb_tools.page.views import changes
from glb_tools.page.views.common import Shown, ago, moment
from glb_tools.page.views.now import now_shown, whole_tree
from glb_tools.page.views.over_time import over_time_shown
from glb_tools.page.views.why import why_shown
from glb_tools.text import MOST_CAPACITY

# how often a page without its script asks anew, and one with it looks whether there is news, in seconds
REFRESH, LOOK = 30, 3
PAGE = Parameter(1, guard.number)
# files that go with the pages, and their kinds
FILES = {"page.css": "text/css", "page.js": "text/javascript", "icon.svg": "image/svg+xml"}
KNOWN: dict[str, dict[str, Parameter]] = {
    "now": {
        "page": PAGE,
        "groups": PAGE,
        "node": Parameter("", guard.words),
        "by": Parameter("order", guard.one_of("order", "full")),
    },
    "why": {
        "q": Parameter("", guard.words),
        "service": Parameter("", guard.words),
        "page": PAGE,
    },
    "changes": {
        "page": PAGE,
        "at": Parameter(None, guard.number),
        "from": Parameter(None, guard.number),
        "to": Parameter(None, guard.number),
        "by": Parameter("pool", guard.one_of(*changes.BY)),
    },
    "what_if": {
        "lines": Parameter("", guard.lines),
        "word": Parameter("capacity", guard.one_of("capacity", "demand")),
        "name": Parameter("", guard.words),
        "number": Parameter("", guard.words),
    },
    "time": {},
    "none": {},
}


@dataclass
class Page:
    """What requests read."""

    title: str
    source: Source
    mirror: Mirror
    rings: Rings
    dry_runs: DryRuns
    access: Access
    prometheus: Prometheus | None = None
    clock: Callable[[], float] = time.time
    answers: dict[tuple[str, int, str, str], Shown] = field(default_factory=dict)

    @property
    def served(self) -> Served | None:
        return self.mirror.served

    def mark(self) -> str:
        """What changes as soon as something is shown that was not."""
        served, sight = self.mirror.served, self.source.sight
        told = [served.time if served else 0, self.mirror.is_up, self.mirror.fault, sight.fault]
        told += [
            (each.name, each.state, each.entry, each.serial, each.differs) for each in sight.servers
        ]
        told += [sight.advice, [(each.node, each.to, each.is_back) for each in sight.drains]]
        told.append(len(self.mirror.steps.listed()))
        return sha256(repr(told).encode()).hexdigest()[:16]

    def fault(self) -> str:
        """Why there is no mirror; nothing where it runs."""
        if self.mirror.is_up:
            return ""
        if self.mirror.fault:
            return self.mirror.fault
        of = f" of {self.mirror.of:,}" if self.mirror.of else ""
        return f"it begins, and is at {self.mirror.at:,}{of}"

    def head(self) -> Shown:
        """What stands at the top of each page."""
        served, now = self.served, self.clock()
        found: Shown = {"title": self.title, "kind": self.source.kind, "fault": self.fault()}
        if served is not None:
            found |= {
                "entry": served.entry,
                "serial": served.serial,
                "checksum": served.checksum[:16],
                "apex": served.tables.apex,
                "age": ago(now - served.time),
            }
        found |= {"time": moment(now), "mark": self.mark(), "version": VERSION}
        return found

    def reply(self, served: Served, address: str, service: str) -> Shown:
        """What the mirror replies to a client; the same of one map is asked once."""
        key = served.mark, served.serial, address, service
        if key not in self.answers:
            found = dns.answers(self.mirror.ask, address, service, served.tables.apex)
            if "fault" in found:
                return found
            while len(self.answers) >= 64:
                self.answers.pop(next(iter(self.answers)), None)
            self.answers[key] = found
        return self.answers[key]


def printed(value: object) -> object:
    """What comes from outside is shown without letters that turn the text round or that nobody sees."""
    if type(value) is not str:
        return value
    return "\n".join(plain(line) for line in value.split("\n"))


def templates() -> jinja2.Environment:
    found = jinja2.Environment(
        loader=jinja2.PackageLoader("glb_tools.page"),
        autoescape=True,
        finalize=printed,
        undefined=jinja2.StrictUndefined,
        trim_blocks=True,
        lstrip_blocks=True,
    )
    found.filters["capacity"] = (
        lambda number: "no end" if number == MOST_CAPACITY else f"{number:,}"
    )
    found.filters["units"] = lambda number: f"{number:,}"
    found.filters["signed"] = lambda number: f"{number:+,}" if number else "±0"
    found.filters["score"] = lambda number: "none" if number is None else f"{number:,.2f}"
    return found


class Views:
    """A function a path: it reads parameters, asks the view, and fills its template."""

    def __init__(self, page: Page) -> None:
        self.page, self.templates = page, templates()

    def shown(self, name: str, here: str, **words: Any) -> str:
        return self.templates.get_template(f"{name}.html").render(
            head=self.page.head(), here=here, refresh=REFRESH, patterns=PATTERNS, **words
        )

    def now(self) -> str:
        asked = Asked.of(flask.request, KNOWN["now"])
        page, served = self.page, self.page.served
        if asked["node"] and served is not None:
            if asked["node"] not in served.tables.node_at:
                raise Denied(404, f"there is no node {asked['node']}")
            node = served.tables.node_at[asked["node"]]
            found = whole_tree(served, node, asked["page"], asked["by"])
            return self.shown("tree", "now", tree=found, asked=asked)
        found = now_shown(
            served,
            page.source.sight,
            page.mirror.steps,
            page.mirror.setters,
            page.fault(),
            asked.values,
            page.clock(),
        )
        return self.shown("now", "now", found=found, asked=asked)

    def why(self) -> str:
        asked = Asked.of(flask.request, KNOWN["why"])
        served = self.page.served
        if served is None:
            return self.shown("why", "why", found={"asked": asked["q"]}, reply=None)
        found = why_shown(served, asked["q"], asked["service"], asked["page"])
        reply = None
        if found.get("client") is not None and served.tables.services:
            unit = found["unit"]
            service = asked["service"] or unit["service"] or served.tables.services[0]
            reply = self.page.reply(served, str(found["client"]), service)
        return self.shown("why", "why", found=found, reply=reply)

    def changes(self) -> str:
        asked = Asked.of(flask.request, KNOWN["changes"])
        steps, now = self.page.mirror.steps, self.page.clock()
        found: Shown = changes.steps_shown(steps, asked["page"], now)
        if asked["at"] is not None:
            step = self.step(asked["at"])
            before = changes.before(steps, step) if step.has_map else None
            found |= {"at": changes.step_shown(step, -1, now), "batch": changes.batch_shown(step)}
            if before is not None and step.rows is not None:
                found["compared"] = changes.compared(steps, before, step, asked["by"], now)
        elif asked["from"] is not None and asked["to"] is not None:
            first, second = self.step(asked["from"]), self.step(asked["to"])
            if not first.has_map or not second.has_map:
                raise Denied(404, "one of the two has no map: its batch was dropped")
            try:
                found["compared"] = changes.compared(steps, first, second, asked["by"], now)
            except Fault as why:
                raise Denied(404, str(why)) from None
        return self.shown("changes", "changes", found=found, asked=asked)

    def step(self, number: int) -> Step:
        found = self.page.mirror.steps.step(number)
        if found is None:
            raise Denied(404, f"map {number} is not here: the last hundred are")
        return found

    def what_if(self) -> tuple[str, int]:
        asked = Asked.of(flask.request, KNOWN["what_if"])
        guard.check_origin(flask.request)
        lines = asked["lines"].strip("\n")
        if asked["name"]:
            added = f"{asked['word']} {asked['name']} {asked['number'] or '0'}"
            lines = f"{lines}\n{added}" if lines else added
        served, job, why, status = self.page.served, None, "", 200
        if lines and served is not None:
            try:
                job = self.page.dry_runs.job(served, lines + "\n")
            except Crowded as full:
                why, status = str(full), 429
            except Fault as refused:
                why = str(refused)
        shown = self.shown(
            "what_if", "what_if", lines=lines, job=job, refused=why, ran=ran(job), served=served
        )
        return shown, status

    def time(self) -> str:
        Asked.of(flask.request, KNOWN["time"])
        page = self.page
        told = page.prometheus.charts if page.prometheus is not None else {}
        found = over_time_shown(page.rings.chart, told, page.clock())
        fault = page.prometheus.fault if page.prometheus is not None else ""
        return self.shown("time", "time", found=found, fault=fault)

    def state(self) -> flask.Response:
        """For the script, and for whoever watches over the page."""
        Asked.of(flask.request, KNOWN["none"])
        served = self.page.served
        told = {
            "mark": self.page.mark(),
            "mirror": self.page.mirror.is_up,
            "seen": not self.page.source.sight.fault,
            "entry": served.entry if served else None,
            "serial": served.serial if served else None,
        }
        return flask.Response(json.dumps(told), mimetype="application/json")

    def drawing(self) -> flask.Response:
        """How drawings look: the same rules stand in the SVG of picture.py."""
        return flask.Response(style(), mimetype="text/css")

    def file(self, name: str) -> flask.Response:
        """A file that goes with the pages: these and no others."""
        if name not in FILES:
            raise Denied(404, "there is no such page")
        octets = Path(__file__).with_name("static").joinpath(name).read_bytes()
        return flask.Response(octets, mimetype=FILES[name])

    def denied(self, why: Denied) -> AnyResponse:
        text = self.templates.get_template("error.html").render(status=why.status, why=str(why))
        return flask.Response(text, why.status, why.headers)


def ran(job: Job | None) -> float:
    return 0.0 if job is None else job.took or time.monotonic() - job.began


def app_of(page: Page) -> flask.Flask:
    app = flask.Flask("glb_tools.page", static_folder=None)
    # a path is that one and no other: nothing is led elsewhere
    app.url_map.merge_slashes = False
    views = Views(page)
    paths: list[tuple[str, Callable[[], Any]]] = [
        ("/", views.now),
        ("/why", views.why),
        ("/changes", views.changes),
        ("/what-if", views.what_if),
        ("/time", views.time),
        ("/state", views.state),
        ("/drawing.css", views.drawing),
    ]
    app.add_url_rule("/static/<name>", "file", views.file, provide_automatic_options=False)
    for path, view in paths:
        app.add_url_rule(path, view.__name__, view, provide_automatic_options=False)

    def passes() -> None:
        guard.check(flask.request, page.access)

    def denied(why: Denied) -> AnyResponse:
        return views.denied(why)

    def refused(why: HTTPException) -> AnyResponse:
        status = why.code or 500
        headers = {"Allow": "GET, HEAD"} if status == 405 else {}
        words = "there is no such page" if status == 404 else str(why.name)
        return views.denied(Denied(status, words, headers))

    def failed(why: Exception) -> AnyResponse:
        tell(why)
        return views.denied(Denied(500, "a fault of the page: its journal says which"))

    def shielded(response: flask.Response) -> flask.Response:
        response.headers.update(guard.HEADERS)
        return response

    app.before_request(passes)
    app.errorhandler(Denied)(denied)
    app.errorhandler(HTTPException)(refused)
    app.errorhandler(Exception)(failed)
    app.after_request(shielded)
    return app
