"""The alerts fire where they should: promtool says so, and says otherwise of each one that is changed."""

import re
import shutil
import subprocess
import tempfile
import unittest
from pathlib import Path

from samples import EXAMPLES, TOP, Case

# the numbers of an alert: what it compares with, how far it looks back, and how long it waits
NUMBER = re.compile(r"(?m)^ +expr: .*?(?:[<>=] |\[)(?P<limit>[0-9.]+)|^ +for: (?P<wait>[0-9]+m)")


def others(found):
    """Numbers near that of an alert, in its place."""
    if found["wait"]:
        # in quarters of a minute
        seconds = int(found["wait"][:-1]) * 60
        return f"{seconds + 15}s", f"{seconds - 15}s"
    number = float(found["limit"])
    return (
        (f"{number + 0.001:g}", f"{number - 0.001:g}")
        if number % 1
        else (f"{number + 1:g}", f"{number - 1:g}")
    )


@unittest.skipUnless(shutil.which("promtool"), "promtool is not installed (Debian: prometheus)")
class Alerts(Case):
    rules, test = EXAMPLES / "glb-alerts.yml", EXAMPLES / "glb-alerts-test.yml"

    def written(self, rules, test):
        """The path of a test of the alerts, with these rules beside it."""
        folder = Path(tempfile.mkdtemp(dir=self.folder))
        head = (
            ""
            if rules.lstrip().startswith(("#", "groups:"))
            else "groups:\n  - name: glb\n    rules:\n"
        )
        (folder / self.rules.name).write_text(head + rules)
        (folder / self.test.name).write_text(test)
        return str(folder / self.test.name)

    def ends_well(self, tried):
        """Of each pair of rules and a test, whether the test passes: by one process, which says so of one after another."""
        paths = [self.written(*pair) for pair in tried]
        words = ["promtool", "test", "rules", *paths]
        pipe = {"stdout": subprocess.PIPE, "stderr": subprocess.STDOUT}
        found = subprocess.run(words, **pipe, text=True, timeout=100)
        said = re.findall(r"(?m)^Unit Testing:  (.*)\n  (SUCCESS|FAILED):?$", found.stdout)
        self.assertEqual([path for path, _ in said], paths, found.stdout)
        well = [word == "SUCCESS" for _, word in said]
        self.assertEqual(found.returncode == 0, all(well))
        return well

    def test_they_fire(self):
        both = self.rules.read_text(), self.test.read_text()
        self.assertEqual(self.ends_well([both]), [True])

    def test_each_changed_number_is_noticed(self):
        _, *rules = re.split(r"(?m)^(?=      - alert: )", self.rules.read_text())
        first, *tests = re.split(r"(?m)^(?=  - interval: )", self.test.read_text())
        # by name, an alert alone with its tests; and how it passes
        tried = {}
        for rule in rules:
            rule = rule.partition("\n  - name:")[0]
            name = re.search(r"alert: (\w+)", rule)[1]
            own = first + "".join(test for test in tests if f"alertname: {name}\n" in test)
            tried[name] = rule, own
            for found in NUMBER.finditer(rule):
                for digits in others(found):
                    begin, end = found.span("limit" if found["limit"] else "wait")
                    changed = rule[:begin] + digits + rule[end:]
                    tried[f"{name}, {found[0].strip()}, by {digits}"] = changed, own
        self.assertGreater(len(tried), 3 * len(rules))
        passed = self.ends_well(tried.values())
        well = [name for name, passes in zip(tried, passed) if passes]
        self.assertEqual(well, [name for name in tried if "," not in name])

    def test_none_by_absent(self):
        expressions = re.findall(r"(?m)^ +expr: (.*)$", self.rules.read_text())
        self.assertEqual(len(expressions), self.rules.read_text().count("alert:"))
        self.assertFalse([text for text in expressions if "absent" in text])

    def test_each_has_a_test(self):
        names = set(re.findall(r"- alert: (\w+)", self.rules.read_text()))
        fired = set(re.findall(r"alertname: (\w+)\n +exp_alerts:", self.test.read_text()))
        self.assertEqual(names, fired)


class WatchAlerts(Alerts):
    rules, test = EXAMPLES / "glb-watch-alerts.yml", EXAMPLES / "glb-watch-alerts-test.yml"

    def test_they_use_what_is_served(self):
        served = (
            (TOP / "docs" / "operating" / "prometheus.md")
            .read_text()
            .partition("| Metric of `glb-watch` |")[2]
        )
        used = set(
            re.findall(
                r"\bglb_watch_\w+", " ".join(re.findall(r"expr: (.*)", self.rules.read_text()))
            )
        )
        self.assertLessEqual(used, set(re.findall(r"`(glb_watch_\w+)`", served)))
        self.assertGreater(len(used), 3)


if __name__ == "__main__":
    unittest.main()
