"""The dashboard of Grafana: its shape, and that each metric of it is one that is exported."""

import importlib.util
import json
import re
import shutil
import subprocess
import unittest
from types import SimpleNamespace
from unittest import mock

from glb_tools.loads import Loads
from samples import EXAMPLES, Case

PATH = EXAMPLES / "glb-dashboard.json"
# what Grafana's schema of dashboards wants of each (version 37, as of Grafana 9 and 10)
DASHBOARD = {
    "uid": str,
    "title": str,
    "tags": list,
    "timezone": str,
    "schemaVersion": int,
    "version": int,
    "editable": bool,
    "graphTooltip": int,
    "refresh": str,
    "time": dict,
    "timepicker": dict,
    "templating": dict,
    "annotations": dict,
    "links": list,
    "panels": list,
}
PANEL = {
    "id": int,
    "type": str,
    "title": str,
    "description": str,
    "datasource": dict,
    "gridPos": dict,
    "targets": list,
    "fieldConfig": dict,
    "options": dict,
}
TARGET = {"refId": str, "expr": str, "datasource": dict, "legendFormat": str}
KINDS = {"stat", "timeseries", "bargauge", "table"}
WIDTH = 24


def expressions():
    dashboard = json.loads(PATH.read_text())
    return [each["expr"] for panel in dashboard["panels"] for each in panel["targets"]]


def exported():
    """The names and labels of all series that glb-exporter and glb-watch serve."""
    from prometheus_client import CollectorRegistry

    from glb_tools import exporter, watch_metrics
    from glb_tools.fleet import Report

    said = exporter.Said("s")
    for line in ("published 1", "show 1 placed 1 unplaced 0 full 0", "refused 1 bad number"):
        said.take(line, 1)
    loads = Loads({"n": (1, 2)}, {"p": 1}, 1, 1, 0)
    fleet = exporter.Fleet(None, 1)
    told = {"name": "s", "state": "there", "entry": 1, "behind": 0, "serial": 1, "time": 1}
    fleet.report = Report(1, "b", 1, [told | {"placed": 1, "unplaced": 0}])
    fleet.report.members = {"http://m": {"dbSize": 1}}
    found = [*said.collect(), *fleet.collect()]
    found += exporter.Loaded(SimpleNamespace(is_up=True, loads=loads)).collect()
    with mock.patch.object(watch_metrics, "start_http_server"):
        metrics = watch_metrics.Metrics("127.0.0.1:1")
    metrics.changes.labels("capacity")
    assert isinstance(metrics.registry, CollectorRegistry)
    found += metrics.registry.collect()
    labels = {}
    for family in found:
        for sample in family.samples:
            labels.setdefault(sample.name, set()).update(sample.labels)
    return labels


class Shape(unittest.TestCase):
    def setUp(self):
        self.dashboard = json.loads(PATH.read_text())

    def has(self, message, keys):
        for key, kind in keys.items():
            self.assertIs(type(message.get(key)), kind, f"{key} of {message.get('title')}")

    def test_fields(self):
        self.has(self.dashboard, DASHBOARD)
        self.assertEqual(set(self.dashboard["time"]), {"from", "to"})
        # it has no id: Grafana gives one
        self.assertNotIn("id", self.dashboard)
        for panel in self.dashboard["panels"]:
            with self.subTest(panel["title"]):
                self.has(panel, PANEL)
                self.assertIn(panel["type"], KINDS)
                self.assertTrue(panel["targets"])
                self.assertEqual(set(panel["fieldConfig"]), {"defaults", "overrides"})
                steps = panel["fieldConfig"]["defaults"]["thresholds"]["steps"]
                self.assertIsNone(steps[0]["value"])
                self.assertEqual(
                    [step["value"] for step in steps[1:]],
                    sorted(step["value"] for step in steps[1:]),
                )
                for target in panel["targets"]:
                    self.has(target, TARGET)
                refs = [target["refId"] for target in panel["targets"]]
                self.assertEqual(len(refs), len(set(refs)))

    def test_sources(self):
        """Each query asks the source that is chosen at the top."""
        (variable,) = self.dashboard["templating"]["list"]
        self.assertEqual((variable["type"], variable["query"]), ("datasource", "prometheus"))
        due = {"type": "prometheus", "uid": "${%s}" % variable["name"]}
        for panel in self.dashboard["panels"]:
            for each in [panel, *panel["targets"]]:
                self.assertEqual(each["datasource"], due)

    def test_places(self):
        """Panels have ids and places of their own, within the width."""
        panels, taken = self.dashboard["panels"], set()
        self.assertEqual(len({panel["id"] for panel in panels}), len(panels))
        for panel in panels:
            at = panel["gridPos"]
            self.assertEqual(set(at), {"x", "y", "w", "h"})
            self.assertLessEqual(at["x"] + at["w"], WIDTH)
            cells = {
                (x, y)
                for x in range(at["x"], at["x"] + at["w"])
                for y in range(at["y"], at["y"] + at["h"])
            }
            self.assertFalse(cells & taken, panel["title"])
            taken |= cells


@unittest.skipIf(
    importlib.util.find_spec("prometheus_client") is None
    or importlib.util.find_spec("requests") is None,
    "python3-prometheus-client or python3-requests is not installed",
)
class Metrics(Case):
    def test_each_is_exported(self):
        known = exported()
        self.assertIn("glb_refused_batches_total", known)
        self.assertIn("glb_watch_changes_total", known)
        named = {name for text in expressions() for name in re.findall(r"\bglb_\w+", text)}
        self.assertGreater(len(named), 15)
        self.assertEqual(named - known.keys(), set())

    def test_labels(self):
        """Each label of a legend, or by which is summed, is one of the metric's."""
        known = exported()
        dashboard = json.loads(PATH.read_text())
        for panel in dashboard["panels"]:
            for target in panel["targets"]:
                name = re.findall(r"\bglb_\w+", target["expr"])
                labels = re.findall(r"{{(\w+)}}", target["legendFormat"])
                for words in re.findall(r"by \(([\w, ]+)\)", target["expr"]):
                    labels += words.split(", ")
                for label in labels:
                    with self.subTest(target["expr"]):
                        self.assertIn(label, known[name[0]])

    def test_prometheus_takes_them(self):
        """Each expression is one that Prometheus' own reader takes, as that of a rule."""
        if not shutil.which("promtool"):
            self.skipTest("promtool is not installed (Debian: prometheus)")
        lines = ["groups:", "- name: dashboard", "  rules:"]
        for number, text in enumerate(expressions()):
            lines += [f"  - record: expression_{number}", f"    expr: {json.dumps(text)}"]
        path = self.file("rules.yml", "\n".join(lines) + "\n")
        found = subprocess.run(["promtool", "check", "rules", path], capture_output=True)
        self.assertEqual(found.returncode, 0, found.stderr.decode() + found.stdout.decode())


if __name__ == "__main__":
    unittest.main()
