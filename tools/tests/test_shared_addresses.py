"""Pools that have addresses of pools under another node: which is told of, and by which commands."""

import importlib.util
import json
import shutil
import unittest
from unittest import mock

from samples import EXAMPLES, SMALL, Case

from glb_tools import plan, roll
from glb_tools.shared_addresses import remarks, shared, warnings
from glb_tools.topology import Topology

ZONE = 'zone = {apex = "cdn.example", services = ["www"]}\n'
WITHOUT_END = 2**48


def node(name, capacity, parent=None, pool=False, a=(), aaaa=()):
    text = f'[[node]]\nname = "{name}"\ncapacity = {capacity}\n'
    text += f'parent = "{parent}"\n' if parent else ""
    if pool:
        text += f"pool = true\na = {list(a)}\naaaa = {list(aaaa)}\n".replace("'", '"')
    return text


def group(number, *pools):
    names, scores = str(list(pools)).replace("'", '"'), list(range(len(pools)))
    return f'[[group]]\nname = "g{number}"\ndemand = 1\npools = {names}\nscores = {scores}\nprefixes = []\n'


SITES = (
    node("eu", 500)
    + node("fra", 100, "eu")
    + node("lon", 100, "eu")
    + node("fra-web", 80, "fra", True, ["192.0.2.1", "192.0.2.9"], ["2001:db8::1"])
    + node("lon-web", 80, "lon", True, ["192.0.2.2"], ["2001:db8::2"])
)


def made(more, *lists):
    lists = lists or (("fra-web", "lon-web", "last"),)
    groups = "".join(group(number, *pools) for number, pools in enumerate(lists))
    return Topology((ZONE + SITES + more + groups).encode())


def last(*a, aaaa=(), parent=None, capacity=WITHOUT_END):
    return node("last", capacity, parent, True, a, aaaa)


class Found(unittest.TestCase):
    def names(self, topology):
        return [(each.pool, each.others, each.sites, each.wanted_last) for each in shared(topology)]

    def test_a_last_resort_with_addresses_of_a_site(self):
        found = made(last("192.0.2.1"), *[("fra-web", "last")] * 3, ("last",))
        self.assertEqual(self.names(found), [("last", ("fra-web",), ("fra",), 3)])
        self.assertEqual(
            warnings(found),
            [
                "last has addresses of fra-web: it sends clients to fra after that was taken out"
                " (docs/FORMATS.md, `A pool of last resort`)"
            ],
        )

    def test_one_address_of_many_and_any_spelling(self):
        for more in (
            last("192.0.2.77", "192.0.2.9"),
            last(aaaa=["2001:0DB8:0::0:1"]),
        ):
            self.assertEqual(self.names(made(more))[0][:3], ("last", ("fra-web",), ("fra",)))

    def test_several_sites(self):
        found = made(last("192.0.2.2", "192.0.2.1"))
        self.assertEqual(self.names(found)[0][1:3], (("fra-web", "lon-web"), ("fra", "lon")))

    def test_addresses_of_its_own(self):
        found = made(last("192.0.2.3"))
        self.assertEqual((self.names(found), warnings(found)), ([], []))
        # no fault, but told to programs: it is not known whose machines these are
        self.assertRegex(
            remarks(found)[0],
            "^last ends the lists of 1 groups and classes, and stands under no other node",
        )

    def test_one_site_with_two_pools(self):
        """Web and video at the same machines: the site takes both along."""
        found = made(node("fra-video", 9, "fra", True, ["192.0.2.1"]) + last("192.0.2.3"))
        self.assertEqual(self.names(found), [])

    def test_two_sites_of_one_region(self):
        found = made(node("lon-video", 9, "lon", True, ["192.0.2.1"]) + last("192.0.2.3"))
        self.assertEqual(self.names(found), [("lon-video", ("fra-web",), ("fra",), 0)])

    def test_two_roots(self):
        roots = node("x", 9, None, True, ["192.0.2.50"]) + node("y", 9, None, True, ["192.0.2.50"])
        found = made(roots + last("192.0.2.3"))
        self.assertEqual(self.names(found), [("y", ("x",), ("x",), 0)])

    def test_beside_its_site_under_a_common_node(self):
        """As docs/FORMATS.md advises: the common node takes both out."""
        text = ZONE + node("fra-all", WITHOUT_END) + node("fra", 100, "fra-all")
        text += node("fra-web", 80, "fra", True, ["192.0.2.1"])
        text += node("last-fra", WITHOUT_END, "fra-all", True, ["192.0.2.1"])
        found = Topology((text + group(0, "fra-web", "last-fra")).encode())
        self.assertEqual((self.names(found), remarks(found)), ([], []))
        names = [found.nodes[pool].name for pool in found.last_resort()]
        self.assertEqual(names, ["last-fra"])

    def test_what_is_a_last_resort(self):
        for above, capacity, due in (
            (WITHOUT_END, WITHOUT_END, True),
            # its site was taken out
            (0, WITHOUT_END, True),
            (100, WITHOUT_END, False),
            (WITHOUT_END, 100, False),
        ):
            text = ZONE + node("all", above) + node("x", capacity, "all", True)
            found = Topology((text + group(0, "x")).encode())
            self.assertEqual(bool(found.last_resort()), due, (above, capacity))

    def test_few_lists(self):
        lists = [("fra-web", "lon-web")] * 19 + [("fra-web", "last")]
        self.assertEqual(remarks(made(last("192.0.2.3"), *lists)), [])
        self.assertEqual(len(remarks(made(last("192.0.2.3"), *lists[10:]))), 1)


FAULTY = SMALL.replace(
    "  ]},\n]",
    f'  ]}},\n  {{name = "last", capacity = {WITHOUT_END}, pool = true, a = ["192.0.2.1"]}},\n]',
)


class Told(Case):
    """Once a run, on standard error, and with --json."""

    WORDS = (
        "glb-try: warning: last has addresses of A: it sends clients to R after that was taken out"
    )

    def test_glb_plan(self):
        text = "glb map 2\nend\n"
        words = (
            "--of",
            self.file("t", FAULTY),
            self.file("m", text),
            self.file("b", "capacity A 9\n"),
        )
        with mock.patch.object(plan, "asked", lambda *_: text.encode()):
            status, out, said = self.run_main(plan.main, "--json", *words)
        self.assertEqual((status, said.count(self.WORDS), said.count("\n")), (0, 1, 1))
        self.assertRegex(json.loads(out)["warnings"][0], "^last has addresses of A: ")

    def test_glb_roll(self):
        with (
            mock.patch.object(roll, "Log"),
            mock.patch.object(roll, "with_numbers", lambda *_: FAULTY.encode()),
            mock.patch.object(roll, "try_it"),
            mock.patch.object(roll, "roll", lambda *_: 0),
        ):
            status, _, said = self.run_main(roll.main, self.file("t", FAULTY))
        self.assertEqual((status, said.count(self.WORDS), said.count("\n")), (0, 1, 1))

    @unittest.skipUnless(importlib.util.find_spec("requests"), "python3-requests is not installed")
    def test_glb_watch(self):
        from glb_tools.watch import main

        text = f'prometheus = "http://127.0.0.1:1"\nlog = "{self.file("log", "")}"\n'
        text += f'topology = "{self.file("t", FAULTY)}"\n[[capacity]]\nquery = "q"\nlabel = "l"\nnames = ["A"]\n'
        path = self.file("watch.toml", text)
        status, out, said = self.run_main(main, path, "--once", "--dry-run", "--json")
        self.assertEqual((status, said.count(self.WORDS), said.count("\n")), (0, 1, 1))
        self.assertRegex(json.loads(out)["warnings"][0], "^last has addresses of A: ")

    @unittest.skipUnless(importlib.util.find_spec("scipy"), "python3-scipy is not installed")
    def test_glb_topology(self):
        from glb_tools.planning.command import main

        folder = self.folder / "network"
        shutil.copytree(EXAMPLES / "network", folder)
        pools = folder / "pools.csv"
        for address, due in (("192.0.2.6", 0), ("192.0.2.4", 1)):
            pools.write_text(pools.read_text().replace("max,192.0.2.6", f"max,{address}"))
            status, out, said = self.run_main(main, "--json", "--no-map", folder / "plan.toml")
            self.assertEqual((status, said.count("last has addresses of newyork: ")), (0, due))
            found = [each for each in json.loads(out)["warnings"] if "has addresses" in each]
            self.assertEqual(len(found), due)


if __name__ == "__main__":
    unittest.main()
