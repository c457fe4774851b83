#!/usr/bin/python3
"""Looks at glb-page in a real browser: Debian's chromium, by chromium-driver and python3-selenium.

    page.py [--groups N] [--shots FOLDER] [--documents FOLDER]

Over a fleet's log in an etcd of its own stand a world of 12 regions, 384 pools and 16,384 groups (--groups), and three
servers of which two are played: one tells another map, and one is gone. Each view is opened at 1,280 and 390 pixels of width,
by light and by dark, and looked at: nothing is wider than the window, each word has the contrast of WCAG 2.1 AA, nothing is
refused by the policy of contents, and each comes within a second. Then a pool fails while the page is open, the page is used
by the keyboard alone, and without JavaScript; etcd hangs, and the mirror is killed. GLB names the program. What is seen goes into FOLDER as PNG. The last line is
`N passed, N failed`; the status is 1 where one failed.
"""

import argparse
import os
import random
import signal
import socket
import subprocess
import sys
import tempfile
import time
from pathlib import Path

TOP = Path(__file__).resolve().parent.parent
sys.path.append(str(TOP / "tools"))

from selenium import webdriver  # noqa: E402
from selenium.common.exceptions import (  # noqa: E402
    NoSuchElementException,
    StaleElementReferenceException,
)
from selenium.webdriver.chrome.options import Options  # noqa: E402
from selenium.webdriver.chrome.service import Service  # noqa: E402
from selenium.webdriver.common.by import By  # noqa: E402
from selenium.webdriver.common.keys import Keys  # noqa: E402

from glb_tools.etcd import Etcd  # noqa: E402
from glb_tools.log import Log, checksum_of  # noqa: E402

GLB = os.environ.get("GLB", str(TOP / "crates/glb_program/out/glb_program"))
ZONE = """[zone]
apex = "cdn.example"
mname = "ns1.ops.example"
rname = "admin.ops.example"
serial = 1
refresh = 3600
retry = 600
expire = 86400
minimum = 60
ttl = 20
ns = ["ns1.ops.example"]
services = ["www", "video"]
"""
REGIONS = ["ams", "fra", "lon", "mad", "nyc", "dfw", "sjc", "gru", "jnb", "sin", "nrt", "syd"]
VIEWS = {
    "now": "/",
    "tree": "/?node=ams&by=full",
    "why": "/why?q=198.18.7.1",
    "node": "/why?q=fra",
    "changes": "/changes",
    "moves": "/changes?at=4",
    "beside": "/changes?from=1&to=4&by=tree",
    "what-if": "/what-if?lines=capacity+lon-1+0",
    "time": "/time",
}
SIZES = ((1280, 900), (390, 844))


def world(groups):
    """Regions of eight sites with four pools each, and groups whose lists begin near home."""
    draw, parts = random.Random(12), [ZONE]
    pools = {}
    demands = [draw.randint(20, 400) for _ in range(groups)]
    each = sum(demands) // (len(REGIONS) * 32)
    for region in REGIONS:
        sites, pools[region] = [], []
        for site in range(1, 9):
            for number in range(4):
                pool = f"{region}-{site}-{'abcd'[number]}"
                capacity = int(each * draw.uniform(0.75, 1.5))
                pools[region].append((pool, capacity))
            sites.append((f"{region}-{site}", sum(c for _, c in pools[region][-4:])))
        parts.append(node(region, int(sum(c for _, c in sites) * 0.92)))
        for at, (site, capacity) in enumerate(sites):
            parts.append(node(site, int(capacity * 0.95), region))
            for number, (pool, held) in enumerate(pools[region][4 * at : 4 * at + 4]):
                address = f"203.0.{REGIONS.index(region)}.{at * 4 + number + 1}"
                parts.append(node(pool, held, site, address))
    parts.append(node("last", 1 << 48, None, "203.0.200.1"))
    for number, demand in enumerate(demands):
        home = REGIONS[number % len(REGIONS)]
        near = REGIONS[(number + 1) % len(REGIONS)]
        listed = [p for p, _ in draw.sample(pools[home], 4) + draw.sample(pools[near], 3)]
        scores = sorted(draw.randint(4, 200) for _ in listed)
        if number % 5:
            listed, scores = [*listed, "last"], [*scores, 2**32 - 1]
        prefixes = [f"198.{18 + number // 65536}.{number // 256 % 256}.{number % 256}/32"]
        if number == 0:
            prefixes += ["0.0.0.0/0", "::/0"]
        parts.append(
            f'[[group]]\nname = "{home}-isp-{number}"\ndemand = {demand}\npools = {listed}\nscores = {scores}\n'
            f"prefixes = {prefixes}\n".replace("'", '"')
        )
    return "\n".join(parts)


def node(name, capacity, parent=None, address=None):
    text = f'[[node]]\nname = "{name}"\ncapacity = {capacity}\n'
    text += f'parent = "{parent}"\n' if parent else ""
    return text + (f'pool = true\na = ["{address}"]\n' if address else "")


def free_port():
    with socket.create_server(("127.0.0.1", 0)) as found:
        return found.getsockname()[1]


class Fleet:
    """A member of etcd, a log with a base and batches, what three servers tell, and the page."""

    def __init__(self, folder, groups):
        self.folder, self.running = Path(folder), []
        client, peer = free_port(), free_port()
        self.etcd = f"http://127.0.0.1:{client}"
        words = ["etcd", "--data-dir", f"{folder}/etcd", "--listen-client-urls", self.etcd]
        words += ["--advertise-client-urls", self.etcd, "--listen-peer-urls"]
        words += [f"http://127.0.0.1:{peer}", "--initial-advertise-peer-urls"]
        words += [
            f"http://127.0.0.1:{peer}",
            "--initial-cluster",
            f"default=http://127.0.0.1:{peer}",
        ]
        self.start(words)
        self.log = Log(Etcd([self.etcd]), "glb")
        self.until(lambda: self.log.look() is not None, "etcd")
        topology = self.folder / "topology.toml"
        topology.write_text(world(groups))
        self.tool("glb-roll", str(topology), "--why", "the first one")
        for why, lines in (
            ("measured <b>at noon</b>", "demand ams-isp-0 900\ndemand fra-isp-1 800\n"),
            ("fibre cut at Frankfurt", "capacity fra-3 0\n"),
            ("web: https://evil.example/\u202e", "capacity nyc-2-a 0\ncapacity nyc-2-b 0\n"),
        ):
            self.append(lines, why)
        self.port = free_port()
        self.page = f"http://127.0.0.1:{self.port}"
        words = [sys.executable, "-B", str(TOP / "tools/glb-page"), "--etcd", self.etcd]
        words += ["--glb", GLB, "--listen", f"127.0.0.1:{self.port}", "--every", "0.5"]
        self.start(words)
        self.until(lambda: b'"mirror": true' in self.get("/state"), "the page", 120)
        self.play()

    def start(self, words):
        self.running.append(
            subprocess.Popen(words, stdout=subprocess.DEVNULL, stderr=subprocess.DEVNULL)
        )

    def tool(self, name, *words):
        command = [sys.executable, "-B", str(TOP / "tools" / name), "--etcd", self.etcd, *words]
        ended = subprocess.run(command, timeout=120, capture_output=True)
        if ended.returncode:
            raise SystemExit(f"{name}: {ended.stderr.decode()}")

    def append(self, lines, why):
        path = self.folder / "lines"
        path.write_text(lines)
        self.tool("glb-append", "--why", why, str(path))

    def get(self, path):
        found = subprocess.run(["curl", "-s", "-m", "5", self.page + path], capture_output=True)
        return found.stdout

    def play(self):
        """What three servers tell: one is as the mirror, one differs from it, and one is gone."""
        import json

        entry = self.log.look().last
        chain = self.log.entry(entry).checksum
        state = json.loads(self.get("/state"))
        base = self.log.newest_base().checksum
        told = {
            "base": base[:16],
            "program": "0" * 16,
            "entry": entry,
            "chain": chain[:16],
            "serial": state["serial"],
            "placed": 1,
            "unplaced": 0,
            "ready": True,
            "version": "2",
            "workers": 4,
            "time": int(time.time()),
        }
        lease = self.log.etcd.lease(3600)
        spot = f"{entry}.{chain[:6]}"
        for name, checksum in (("host1", self.checksum(entry)), ("host2", "d1ff" * 4)):
            self.log.put_server(name, {"base": base})
            self.log.tell(name, told | {"maps": {spot: checksum[:16]}}, lease)
        self.log.put_server("host3", {"base": base})

    def checksum(self, entry):
        self.tool("glb-log", "--at", str(entry), "--to", f"{self.folder}/at", "--program", GLB)
        return checksum_of((self.folder / "at.map").read_bytes())

    def until(self, holds, what, seconds=60):
        end = time.monotonic() + seconds
        while time.monotonic() < end:
            try:
                if holds():
                    return
            except Exception:  # noqa: BLE001: it is tried again
                pass
            time.sleep(0.2)
        raise SystemExit(f"{what} did not come")

    def end(self):
        for process in reversed(self.running):
            process.kill()
            process.wait()


# What is looked at in the browser.

WIDER = """
const wide = document.documentElement.clientWidth, found = [];
if (document.documentElement.scrollWidth > wide) found.push("the page: " + document.documentElement.scrollWidth);
for (const each of document.querySelectorAll("body *")) {
  const box = each.getBoundingClientRect();
  if (box.width && box.right > wide + 1 && !each.closest(".scroll, .drawing, pre, svg, .hidden, .skip")) found.push(each.tagName + "." + each.className + " " + Math.round(box.right));
}
return found.slice(0, 5);
"""
OVERLAPS = """
const boxes = [], found = [];
const walk = document.createTreeWalker(document.querySelector("main"), NodeFilter.SHOW_TEXT);
while (walk.nextNode()) {
  const text = walk.currentNode;
  if (!text.data.trim() || !text.parentElement.checkVisibility() || text.parentElement.closest(".hidden, option, title, noscript, textarea")) continue;
  const range = document.createRange();
  range.selectNodeContents(text);
  for (const box of range.getClientRects()) if (box.width > 1) boxes.push([box, text.data.trim().slice(0, 30)]);
}
boxes.sort((a, b) => a[0].top - b[0].top);
for (let i = 0; i < boxes.length; i++) {
  for (let j = i + 1; j < boxes.length && boxes[j][0].top < boxes[i][0].bottom - 4; j++) {
    const a = boxes[i][0], b = boxes[j][0];
    if (Math.min(a.right, b.right) - Math.max(a.left, b.left) > 2 && Math.min(a.bottom, b.bottom) - Math.max(a.top, b.top) > 6)
      found.push(boxes[i][1] + " | " + boxes[j][1]);
  }
}
return found.slice(0, 5);
"""
CONTRAST = """
const found = [];
function colour(text) {
  const parts = text.match(/[\\d.]+/g).map(Number);
  return parts.length > 3 ? parts : [...parts.slice(0, 3), 1];
}
function over(top, below) { return [0, 1, 2].map((n) => top[n] * top[3] + below[n] * (1 - top[3])).concat(1); }
function ground(each) {
  const stack = [];
  for (let at = each; at; at = at.parentElement) stack.push(colour(getComputedStyle(at).backgroundColor));
  const dark = matchMedia("(prefers-color-scheme: dark)").matches;
  return stack.reverse().reduce((below, top) => over(top, below), dark ? [18, 18, 18, 1] : [255, 255, 255, 1]);
}
function light(parts) {
  const linear = parts.slice(0, 3).map((v) => { v /= 255; return v <= 0.03928 ? v / 12.92 : ((v + 0.055) / 1.055) ** 2.4; });
  return 0.2126 * linear[0] + 0.7152 * linear[1] + 0.0722 * linear[2];
}
const walk = document.createTreeWalker(document.body, NodeFilter.SHOW_TEXT), seen = new Set();
let count = 0;
while (walk.nextNode()) {
  const each = walk.currentNode.parentElement;
  if (!walk.currentNode.data.trim() || each.closest(".hidden, noscript, script, title, option") || !each.getClientRects().length) continue;
  const style = getComputedStyle(each), back = ground(each);
  const front = over(colour(each.closest("svg") ? style.fill : style.color), back);
  const [high, low] = [light(front), light(back)].sort((a, b) => b - a), ratio = (high + 0.05) / (low + 0.05);
  const size = parseFloat(style.fontSize), large = size >= 24 || (size >= 18.66 && parseInt(style.fontWeight) >= 700);
  count += 1;
  if (ratio < (large ? 3 : 4.5)) found.push(each.tagName + "." + each.className + " " + ratio.toFixed(2));
}
if (count < 20) found.push("only " + count + " words");
return [...new Set(found)].slice(0, 5);
"""
FOCUS = """
const at = document.activeElement, style = getComputedStyle(at), box = at.getBoundingClientRect();
return {tag: at.tagName, text: (at.textContent || at.name || "").trim().slice(0, 40), name: at.id || at.name || "",
  seen: style.outlineStyle !== "none" && parseFloat(style.outlineWidth) >= 2,
  inside: box.width > 0 && box.bottom > 0 && box.top < innerHeight && box.right > 0 && box.left < innerWidth,
  top: box.top + scrollY, left: box.left};
"""


class Browser:
    def __init__(self, page, shots, script=True):
        self.page, self.shots = page, shots
        options = Options()
        for word in ("--headless=new", "--no-sandbox", "--disable-gpu", "--hide-scrollbars"):
            options.add_argument(word)
        options.set_capability("goog:loggingPrefs", {"browser": "ALL"})
        if not script:
            kept = {"profile.managed_default_content_settings.javascript": 2}
            options.add_experimental_option("prefs", kept)
        self.driver = webdriver.Chrome(service=Service("/usr/bin/chromedriver"), options=options)
        self.driver.set_page_load_timeout(20)

    def size(self, width, height):
        shape = {"width": width, "height": height, "deviceScaleFactor": 1, "mobile": width < 500}
        self.driver.execute_cdp_cmd("Emulation.setDeviceMetricsOverride", shape)

    def scheme(self, name):
        media = {"features": [{"name": "prefers-color-scheme", "value": name}]}
        self.driver.execute_cdp_cmd("Emulation.setEmulatedMedia", media)

    def sees_as(self, kind):
        self.driver.execute_cdp_cmd("Emulation.setEmulatedVisionDeficiency", {"type": kind})

    def open(self, path):
        self.driver.get(self.page + path)

    def run(self, script):
        return self.driver.execute_script(script)

    def text(self):
        """The words of the view; none while another one comes."""
        try:
            return self.driver.find_element(By.TAG_NAME, "main").text
        except (StaleElementReferenceException, NoSuchElementException):
            return ""

    def press(self, *keys):
        webdriver.ActionChains(self.driver).send_keys(*keys).perform()

    def shoot(self, name, width, height, most=2400):
        if not self.shots:
            return
        high = self.run("return document.documentElement.scrollHeight")
        self.size(width, max(min(high, most), height))
        self.driver.save_screenshot(f"{self.shots}/{name}.png")
        self.size(width, height)

    def said(self):
        """What the browser's console says: a script that fails, or what the policy of contents refuses."""
        return [each["message"][:200] for each in self.driver.get_log("browser")]


class Looks:
    def __init__(self, fleet, shots):
        self.fleet, self.shots = fleet, shots
        self.passed = self.failed = 0
        # how long a page took, from the question to its last octet, in milliseconds
        self.slowest = 0.0

    def check(self, what, found, due=None):
        """Whether what was found is what is due: nothing, where it is not said."""
        well = found == due if due is not None else not found
        self.passed, self.failed = self.passed + well, self.failed + (not well)
        if not well:
            print(f"{what}: {found}" + ("" if due is None else f", not {due}"), flush=True)

    def until(self, what, holds, seconds=15):
        end = time.monotonic() + seconds
        while time.monotonic() < end:
            if holds():
                self.check(what, True, True)
                return
            time.sleep(0.1)
        self.check(what, False, True)

    # Each view.

    def views(self, browser):
        browser.open(VIEWS["what-if"])
        self.until("the dry run ends", lambda: "What would come" in browser.text(), 60)
        self.until("the charts have values", lambda: self.has_charts(browser), 60)
        for scheme in ("light", "dark"):
            browser.scheme(scheme)
            for width, height in SIZES:
                browser.size(width, height)
                for name, path in VIEWS.items():
                    self.view(browser, f"{name}-{width}-{scheme}", path, width, height)

    def has_charts(self, browser):
        browser.open(VIEWS["time"])
        return browser.run("return document.querySelectorAll('figure').length") > 2

    def view(self, browser, name, path, width, height):
        browser.open(path)
        took = browser.run(
            "const t = performance.getEntriesByType('navigation')[0]; return t.responseEnd - t.requestStart"
        )
        self.slowest = max(self.slowest, took)
        self.check(f"{name} within a second", took < 1000, True)
        self.check(f"{name} is wider than the window", browser.run(WIDER))
        self.check(f"{name} overlaps", browser.run(OVERLAPS))
        self.check(f"{name} has too little contrast", browser.run(CONTRAST))
        self.check(f"{name} says in the console", browser.said())
        browser.shoot(name, width, height)

    def first_sight(self, browser):
        """What an operator sees without scrolling, within the first five seconds: who is silent, what differs, what is full."""
        browser.scheme("light")
        for width, height in SIZES:
            browser.size(width, height)
            browser.open("/")
            seen = browser.run(
                """return [...document.querySelectorAll(".alarms li, .tile, .full-now")].filter(
                  (each) => each.getBoundingClientRect().bottom <= innerHeight).map((each) => each.textContent).join(" | ")"""
            )
            due = ("nothing is heard of host3", "differ", "host2", "placed nowhere", "full nodes")
            for words in due if width > 500 else due[:3]:
                self.check(f"`{words}` is seen at once at {width}", words in seen, True)

    # While it is open.

    def a_pool_fails(self, browser):
        browser.size(1280, 900)
        browser.open("/")
        browser.run("document.querySelector('details[data-fold=ams]').open = false")
        browser.run("document.querySelector('header a').focus()")
        before = browser.run(
            "return performance.getEntriesByType('navigation')[0].startTime + performance.timeOrigin"
        )
        self.fleet.append("capacity ams-1 0\n", "power of ams-1 fails")
        self.until("the pool is out on the page", lambda: "power of ams-1 fails" in browser.text())
        self.until("its state is said", lambda: "ams-1 out" in browser.text().replace("\n", " "))
        after = browser.run(
            "return performance.getEntriesByType('navigation')[0].startTime + performance.timeOrigin"
        )
        self.check("without a new load", before, after)
        folded = browser.run("return document.querySelector('details[data-fold=ams]').open")
        self.check("what was folded stays so", folded, False)
        self.check("console", browser.said())
        browser.shoot("failed-1280", 1280, 900)
        # the batch is the newest of the last maps, with who sent it
        browser.open("/changes?at=5")
        self.check("who sent it", "power of ams-1 fails" in browser.text(), True)
        self.check("it goes out", "goes out" in browser.text(), True)

    def a_page_that_is_cut_off(self, browser):
        """The page says that it is old where it is not answered."""
        browser.open("/")
        browser.driver.execute_cdp_cmd("Network.enable", {})
        off = {"offline": True, "latency": 0, "downloadThroughput": 0, "uploadThroughput": 0}
        browser.driver.execute_cdp_cmd("Network.emulateNetworkConditions", off)
        live = "return document.getElementById('live').textContent"
        self.until("it is said to be old", lambda: "is old" in browser.run(live), 30)
        on = {"offline": False, "latency": 0, "downloadThroughput": -1, "uploadThroughput": -1}
        browser.driver.execute_cdp_cmd("Network.emulateNetworkConditions", on)
        self.until("and not when it is back", lambda: not browser.run(live), 15)
        browser.said()

    def faults(self, browser):
        """etcd hangs, and the mirror is killed: the page says so, comes as fast as ever, and goes on by itself."""
        browser.size(1280, 900)
        browser.open("/")
        member = self.fleet.running[0]
        member.send_signal(signal.SIGSTOP)
        self.until("etcd is said not to be seen", lambda: "cannot be seen" in browser.text(), 30)
        began = time.monotonic()
        self.check("what was seen last is there", b"ams-1" in self.fleet.get("/"), True)
        self.check("as fast as ever", time.monotonic() - began < 1, True)
        browser.shoot("etcd-hangs", 1280, 900, 1000)
        member.send_signal(signal.SIGCONT)
        self.until("it is seen again", lambda: "cannot be seen" not in browser.text(), 30)
        self.kill_mirror()
        self.until("the mirror is said not to run", lambda: "mirror does not run" in browser.text())
        self.check("its last map is there", b"ams-1" in self.fleet.get("/"), True)
        self.until("it runs again", lambda: "mirror does not run" not in browser.text(), 60)
        browser.said()

    def kill_mirror(self):
        """Ends the `glb serve` of the page, and no other process."""
        page = self.fleet.running[1].pid
        for each in Path(f"/proc/{page}/task").iterdir():
            for child in (each / "children").read_text().split():
                if b"serve" in Path(f"/proc/{child}/cmdline").read_bytes():
                    os.kill(int(child), signal.SIGKILL)

    # By the keyboard alone.

    def keyboard(self, browser):
        for width, height in SIZES:
            browser.size(width, height)
            browser.open("/")
            browser.press(Keys.TAB)
            first = browser.run(FOCUS)
            self.check("the first stop skips to the content", first["text"], "To the content")
            self.check("it is seen", first["seen"] and first["inside"], True)
            browser.press(Keys.ENTER)
            self.check("it leads there", browser.run(FOCUS)["name"], "main")
            browser.open("/")
            stops = []
            for _ in range(45):
                browser.press(Keys.TAB)
                stops.append(browser.run(FOCUS))
            hidden = [stop["text"] for stop in stops if not (stop["seen"] and stop["inside"])]
            self.check(f"stops without a mark at {width}", hidden)
            names = [stop["text"] for stop in stops]
            order = ["Now", "Why", "What changed", "What if", "Over time"]
            self.check("the views come in their order", names[1:6], order)
            tops = [stop["top"] for stop in stops[8:]]
            jumps = [at for at, (a, b) in enumerate(zip(tops, tops[1:])) if b < a - 40]
            self.check(f"stops go down at {width}", jumps)
        browser.size(1280, 900)
        browser.open("/")
        for _ in range(7):
            browser.press(Keys.TAB)
        self.check("the search has the focus", browser.run(FOCUS)["name"], "search")
        browser.press("nyc-2-a", Keys.ENTER)
        self.until("it is found", lambda: "Pool nyc-2-a" in browser.text())
        # a tree is folded and unfolded by the keyboard
        browser.open("/")
        browser.run("document.querySelector('details summary').focus()")
        browser.press(Keys.ENTER)
        shut = browser.run("return document.querySelector('details').open")
        self.check("a tree is folded by Enter", shut, False)

    def typed(self, browser):
        """What if, typed into the form."""
        browser.open("/what-if")
        browser.driver.find_element(By.ID, "name").send_keys("sin-4-a")
        browser.driver.find_element(By.ID, "number").send_keys("0", Keys.ENTER)
        self.until("a dry run that was typed", lambda: "What would come" in browser.text(), 60)
        self.check("its pool goes out", "goes out" in browser.text(), True)
        browser.open("/what-if?lines=capacity+nobody+0")
        self.check("a name that nobody has", "unknown name" in browser.text(), True)
        browser.said()

    def pictures(self, browser, folder):
        """The two that stand in README and OPERATING."""
        browser.scheme("light")
        browser.size(1080, 760)
        browser.open("/")
        browser.driver.save_screenshot(f"{folder}/page-now.png")
        browser.open("/changes?at=5&by=site")
        browser.driver.save_screenshot(f"{folder}/page-changes.png")

    # Colours.

    def colours(self, browser):
        """What is free, full and placed nowhere, as it is seen without one kind of cones; patterns tell them apart as well."""
        browser.size(1280, 900)
        browser.open("/")
        full = browser.run(
            "return document.querySelectorAll('.bar [fill=\\'url(#hatch)\\']').length"
        )
        self.check("full bars are hatched", full > 0, True)
        dots = browser.run(
            "return document.querySelectorAll('.bar [fill=\\'url(#dots)\\']').length"
        )
        self.check("unplaced ones are dotted", dots > 0, True)
        tags = browser.run(
            "return [...document.querySelectorAll('tr.is-full')].every((each) => each.querySelector('.tag'))"
        )
        self.check("a full node says so in a word", tags, True)
        for kind in ("deuteranopia", "protanopia", "tritanopia", "achromatopsia"):
            browser.sees_as(kind)
            browser.shoot(f"now-{kind}", 1280, 900, 1400)
        browser.sees_as("none")

    # Without JavaScript.

    def without_script(self):
        browser = Browser(self.fleet.page, self.shots, script=False)
        try:
            browser.size(1280, 900)
            for name, path in VIEWS.items():
                browser.open(path)
                self.check(f"{name} without a script", len(browser.text()) > 60, True)
            browser.open("/")
            source = browser.driver.page_source
            self.check("it asks anew by itself", 'http-equiv="refresh"' in source, True)
            browser.driver.find_element(By.ID, "search").send_keys("fra-isp-1", Keys.ENTER)
            self.until("the search leads on", lambda: "The path of a reply" in browser.text())
            browser.open("/what-if?lines=capacity+lon-2+0")
            self.until("a dry run comes by itself", lambda: "What would come" in browser.text(), 60)
        finally:
            browser.driver.quit()


def main():
    words = argparse.ArgumentParser(
        description=__doc__, formatter_class=argparse.RawDescriptionHelpFormatter
    )
    words.add_argument("--groups", type=int, default=16384)
    words.add_argument("--shots", metavar="FOLDER")
    words.add_argument("--documents", metavar="FOLDER", help="where the pictures of documents go")
    options = words.parse_args()
    if options.shots:
        os.makedirs(options.shots, exist_ok=True)
    with tempfile.TemporaryDirectory(prefix="glb-page-") as folder:
        fleet = None
        browser = None
        try:
            fleet = Fleet(folder, options.groups)
            looks = Looks(fleet, options.shots)
            browser = Browser(fleet.page, options.shots)
            fleet.until(lambda: b"host3" in fleet.get("/"), "the servers")
            looks.views(browser)
            looks.first_sight(browser)
            looks.colours(browser)
            looks.keyboard(browser)
            looks.a_pool_fails(browser)
            if options.documents:
                looks.pictures(browser, options.documents)
            looks.typed(browser)
            looks.a_page_that_is_cut_off(browser)
            looks.faults(browser)
            looks.without_script()
        finally:
            if browser:
                browser.driver.quit()
            if fleet:
                fleet.end()
    print(f"the slowest page took {looks.slowest:.0f} ms")
    print(f"{looks.passed} passed, {looks.failed} failed")
    return 1 if looks.failed else 0


if __name__ == "__main__":
    sys.exit(main())
