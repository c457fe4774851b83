"""glb-drain: steps worked by hand over two regions, with a program that is played in this process."""

import contextlib
import fcntl
import functools
import io
import json
import time
import unittest
from pathlib import Path
from unittest import mock

from fleet_world import CRASH_AFTER, CRASH_BEFORE, LOST_AFTER, LOST_BEFORE, Client, Crash, Table
from glb_tools import drain, drain_stores, roll
from glb_tools.drain import main
from glb_tools.etcd import Unreachable
from glb_tools.history import topology_at, with_numbers
from glb_tools.log import Base, Log, Names, Signed, checksum_of
from glb_tools.plan import Served
from glb_tools.text import Replay
from glb_tools.topology import Topology, written
from glb_tools.watch_logs import FleetLog
from samples import Case

ZONE = """
[zone]
apex = "cdn.example"
mname = "ns1.ops.example"
rname = "admin.ops.example"
serial = 1
refresh = 3600
retry = 600
expire = 86400
minimum = 60
ttl = 20
ns = ["ns1.ops.example"]
services = ["www"]
"""
NODE = """
[[node]]
name = "{}"
capacity = {}
"""
POOL = (
    NODE
    + """pool = true
parent = "{}"
"""
)
NODES = (
    NODE.format("north", 100)
    + NODE.format("south", 200)
    + POOL.format("a", 60, "north")
    + POOL.format("b", 60, "north")
    + POOL.format("c", 200, "south")
)
GROUP = """
[[group]]
name = "{}"
demand = {}
pools = {}
scores = {}
prefixes = [{}]
"""
G1 = GROUP.format("g1", 40, '["a", "b", "c"]', "[1, 2, 9]", '"0.0.0.0/0", "::/0"')
G2 = GROUP.format("g2", 30, '["b", "a", "c"]', "[1, 2, 9]", '"192.0.2.0/24"')
# it stands at a behind the others, and gives way there
G3 = GROUP.format("g3", 20, '["a", "c"]', "[3, 9]", '"198.51.100.0/24"')
# it has one place alone
ALONE = GROUP.format("alone", 5, '["c"]', "[1]", '"203.0.113.0/24"')
# a has 40 of g1, b 30 of g2, c nothing
WORLD = ZONE + NODES + G1 + G2


@functools.lru_cache(None)
def placed(octets):
    """The map of a topology: offers are served in their order, each with all that is left of its pool and what is above."""
    topology = Topology(octets)
    rooms = [node.capacity for node in topology.nodes]
    left = [unit.demand for unit in topology.units]
    lines = {}
    units = enumerate(topology.units)
    for unit, place in sorted(
        ((at, place) for at, unit in units for place in range(len(unit.pools))),
        key=lambda offer: topology.key(*offer),
    ):
        path = list(topology.path(topology.units[unit].pools[place]))
        amount = min([left[unit], *(rooms[node] for node in path)])
        if amount:
            left[unit] -= amount
            for node in path:
                rooms[node] -= amount
            pool = topology.nodes[path[0]].name
            lines[unit, place] = f"place {topology.units[unit].name} {pool} {amount}\n"
    return f"glb map 2\n{''.join(lines[key] for key in sorted(lines))}end\n".encode()


@functools.lru_cache(None)
def numbered(octets, log):
    topology = Topology(octets)
    replay = Replay(topology)
    replay.take(log)
    return written(topology, replay.numbers).encode()


def served_by_log(glb, topology, log):
    octets = numbered(topology, log)
    return Served(octets, placed(octets))


class Clock:
    """A clock that goes on where somebody sleeps, and may jump for whoever asks for the time of day."""

    strftime, gmtime = staticmethod(time.strftime), staticmethod(time.gmtime)

    def __init__(self):
        self.now, self.off, self.slept = 1000.0, 1_800_000_000, []
        self.at_sleep = lambda: None

    def monotonic(self):
        return self.now

    def time(self):
        return self.now + self.off

    def sleep(self, seconds):
        self.slept.append(seconds)
        self.now += seconds
        self.at_sleep()


class Played(Case):
    """A command over a program that is played, and a clock."""

    def setUp(self):
        super().setUp()
        self.clock, self.asked, self.boot = Clock(), lambda: None, "this one"
        for name, new in (
            ("glb_tools.plan.asked", self.answer),
            ("glb_tools.drain_steps.asked", self.answer),
            ("glb_tools.drain_stores.served_by_log", served_by_log),
            ("glb_tools.drain.time", self.clock),
            ("glb_tools.drains.time", self.clock),
            ("glb_tools.drain_steps.time", self.clock),
            ("glb_tools.drains.boot", lambda: self.boot),
            # a disk that is shared is slow
            ("os.fsync", lambda descriptor: None),
        ):
            patch = mock.patch(name, new)
            patch.start()
            self.addCleanup(patch.stop)

    def answer(self, glb, command, topology, old, batch):
        self.assertEqual(command, "repair")
        self.asked()
        return placed(numbered(topology, batch + b"commit\n"))


class OverFile(Played):
    def setUp(self):
        super().setUp()
        self.world(WORLD)

    def world(self, text, log=""):
        self.log = self.folder / "changes.log"
        self.log.write_text(log)
        Path(f"{self.log}.drains").unlink(missing_ok=True)
        self.of = ["--of-log", self.file("t", text), str(self.log)]

    def drain(self, node, *words):
        """Status, output and what is said."""
        more = [] if {"--back", "--list", "--forget"} & set(words) else ["--why", "works"]
        more += [] if {"--over", "--list", "--forget"} & set(words) else ["--over", "4m"]
        return self.run_main(main, node, *self.of, "--author", "ops", *more, *words)

    def told(self, node, *words):
        status, out, said = self.drain(node, "--json", *words)
        return status, json.loads(out) if out else None, said

    def listed(self):
        return json.loads(self.good(main, *self.of, "--list", "--json"))["drains"]

    def lines(self):
        return self.log.read_text().splitlines()

    def capacities(self, node="a"):
        """What the node's capacity was set to, in order."""
        return [int(line.split()[2]) for line in self.lines() if line.split()[1:2] == [node]]

    def interrupt(self):
        raise KeyboardInterrupt

    def append(self, lines):
        with self.log.open("a") as file:
            file.write(lines)


class Steps(OverFile):
    def test_down_from_the_load(self):
        status, found, said = self.told("a")
        self.assertEqual((status, said), (0, ""))
        # 40 units stand there, whose next pool has room for 30 of them
        self.assertEqual(self.capacities(), [30, 20, 10, 0])
        self.assertEqual([step["moved"] for step in found["steps"]], [10, 10, 10, 10])
        self.assertEqual(
            (found["before"], found["capacity"], found["load"], found["moved"]), (60, 0, 0, 40)
        )
        self.assertEqual(self.clock.slept, [60, 60, 60])
        self.assertEqual(self.lines()[1::2], ["commit"] * 4)
        (there,) = self.listed()
        self.assertEqual(
            [there[key] for key in ("node", "state", "author", "why", "before", "capacity")],
            ["a", "out", "ops", "works", 60, 0],
        )

    def test_and_back(self):
        self.told("a")
        status, found, _ = self.told("a", "--back")
        self.assertEqual(status, 0)
        # the last step is to the number of before, which moves no more than the load does
        self.assertEqual(self.capacities(), [30, 20, 10, 0, 10, 20, 30, 60])
        self.assertEqual([step["moved"] for step in found["steps"]], [10] * 4)
        self.assertEqual(self.listed(), [])

    def test_what_is_said(self):
        status, out, _ = self.drain("a", "--over", "2m")
        self.assertEqual(status, 0)
        self.assertIn("1/2: a from 60 to 20, 20 units move, 20 are there\n", out)
        self.assertEqual(out.splitlines()[-1], "2/2: a from 20 to 0, 20 units move, 0 are there")
        status, out, _ = self.drain("a")
        self.assertEqual((status, out), (0, "a is out already\n"))
        out = self.good(main, *self.of, "--list")
        self.assertRegex(out, r"^a  is out, from 60, now 0  since 2027-.*Z  ops  # works\n$")

    def test_a_parent(self):
        self.assertEqual(self.drain("north", "--over", "2m")[0], 0)
        self.assertEqual(self.capacities("north"), [35, 0])
        self.assertEqual(self.capacities(), [])

    def test_a_dry_run_has_the_same_steps_and_appends_nothing(self):
        status, planned, _ = self.told("a", "--dry-run")
        self.assertEqual((status, self.lines(), self.listed()), (0, [], []))
        self.assertEqual(sorted(path.name for path in self.folder.iterdir()), ["changes.log", "t"])
        self.assertEqual(planned, self.told("a")[1])

    def test_a_step_that_moves_others_too_is_made_smaller(self):
        # whoever comes from b to a sends one of g3 to c
        self.world(ZONE + NODES + G1 + G2 + G3)
        status, found, _ = self.told("b", "--step", "10")
        self.assertEqual(status, 0)
        self.assertEqual([step["moved"] for step in found["steps"]], [10, 10, 10, 10, 10])
        self.assertEqual(self.capacities("b"), [25, 20, 15, 10, 0])

    def test_the_smallest_step_is_too_large(self):
        self.world(ZONE + NODES + G1 + G2 + G3)
        status, _, said = self.drain("b", "--step", "1")
        self.assertEqual(
            (status, said),
            (
                6,
                "glb-try: the smallest step, to 29, would move 2 units, and --step is 1\n",
            ),
        )
        self.assertEqual((self.lines(), self.listed()), ([], []))

    def test_the_smallest_step_where_no_bound_is_said(self):
        # a unit for each of 30 steps, each of which moves one of g3, too, until no more of it is at a
        self.world(ZONE + NODES + G1 + G2 + G3)
        status, found, _ = self.told("b", "--over", "40m")
        self.assertEqual((status, found["step"], found["planned"]), (0, 2, 30))
        self.assertEqual([step["moved"] for step in found["steps"]], [2] * 20 + [1] * 10)

    def test_a_stop_in_the_log_is_left_out(self):
        self.world(WORLD, "capacity a 50\ncommit\nstop\ncapacity a 45\ncommit\n")
        self.assertEqual(self.told("a")[1]["before"], 45)


class Warnings(OverFile):
    def test_a_pool_with_addresses_of_a_site(self):
        last = NODE.format("last", 2**48) + "pool = true\n" + 'a = ["192.0.2.1"]\n'
        shared = NODES.replace(f'"a"\ncapacity = 60', f'"a"\na = ["192.0.2.1"]\ncapacity = 60')
        self.world(ZONE + shared + last + G1.replace('"c"]', '"last"]') + G2)
        warning = "glb-try: warning: last has addresses of a: it sends clients to north after that was taken out"
        for words in (("--dry-run",), ()):
            status, out, said = self.told("a", "--anyway", *words)
            self.assertEqual((status, said.count(warning), said.count("\n")), (0, 1, 1), said)
            self.assertRegex(out["warnings"][0], "^last has addresses of a: ")


class HardCases(OverFile):
    def test_a_node_that_is_not_there(self):
        for words in ((), ("--back",), ("--dry-run",)):
            status, out, said = self.drain("nowhere", *words)
            self.assertEqual((status, out), (2, ""))
            self.assertEqual(said, "glb-try: the topology has no node nowhere\n")
        self.assertEqual(self.lines(), [])

    def test_one_that_is_at_0(self):
        self.world(WORLD, "capacity a 0\ncommit\n")
        status, out, _ = self.drain("a")
        self.assertEqual(
            (status, out), (0, "a has a capacity of 0 already, and of no drain: nothing is done\n")
        )
        self.assertEqual((self.capacities(), self.listed()), ([0], []))
        # where nothing is kept it goes back to the topology's number, said aloud
        status, out, _ = self.drain("a", "--back", "--over", "0")
        self.assertEqual((status, self.capacities()), (0, [0, 60]))
        self.assertIn("no drain of a is kept: it goes to the topology's 60\n", out)

    def test_one_that_carries_nothing(self):
        status, found, _ = self.told("c")
        self.assertEqual((status, self.capacities("c")), (0, [0]))
        self.assertEqual(found["steps"][0]["moved"], 0)
        self.assertEqual(self.told("c", "--back")[0], 0)
        self.assertEqual(self.capacities("c"), [0, 200])

    def test_the_only_place_of_a_group(self):
        self.world(WORLD + ALONE)
        status, out, said = self.drain("c")
        self.assertEqual(status, 3)
        self.assertIn("placed nowhere: 0 to 5\n", out)
        self.assertEqual(said, "glb-try: more units would lack a place: --anyway goes on\n")
        self.assertEqual((self.lines(), self.listed()), ([], []))
        self.assertEqual(self.drain("c", "--anyway", "--over", "0")[0], 0)
        self.assertEqual(self.capacities("c"), [0])

    def test_places_are_lost_amid_a_drain(self):
        # somebody takes out what the rest was to go to
        self.clock.at_sleep = lambda: self.append("capacity b 0\ncapacity c 0\ncommit\n")
        status, _, said = self.drain("a")
        self.assertEqual((status, self.capacities()), (3, [30]))
        self.assertIn("10 units more would lack a place", said)

    def test_parent_and_child(self):
        self.assertEqual(self.drain("a")[0], 0)
        self.assertEqual(self.drain("north")[0], 0)
        self.assertEqual([each["node"] for each in self.listed()], ["a", "north"])
        self.assertEqual(self.drain("north", "--back")[0], 0)
        self.assertEqual(self.capacities("north")[-1], 100)
        self.assertEqual([each["node"] for each in self.listed()], ["a"])
        self.assertEqual(self.capacities()[-1], 0)
        self.assertEqual(self.drain("a", "--back")[0], 0)
        self.assertEqual((self.capacities()[-1], self.listed()), (60, []))

    def test_a_brake(self):
        self.assertEqual(self.drain("a", "--most", "39")[0], 4)
        self.assertEqual(self.lines(), [])
        # it counts all steps of a drain, also those of a run before
        self.clock.at_sleep = self.interrupt
        self.assertEqual(self.drain("a")[0], 130)
        self.clock.at_sleep = lambda: None
        status, _, said = self.drain("a", "--most", "30")
        self.assertEqual((status, self.capacities()), (4, [30, 20, 10]))
        self.assertIn("40 units would have moved, and --most is 30", said)

    def test_somebody_else_changes_the_capacity(self):
        for value in (33, 60, 0):
            with self.subTest(value):
                self.world(WORLD)
                self.clock.at_sleep = lambda: self.append(f"capacity a {value}\ncommit\n")
                status, _, said = self.drain("a")
                self.assertEqual((status, self.capacities()), (5, [30, value]), said)
                self.assertIn(f"capacity of a to {value}", said)
                self.clock.at_sleep = lambda: None
                (there,) = self.listed()
                self.assertEqual((there["state"], there["before"]), ("changed", 60))
                # nor does it go on by itself, only where it is told to
                self.assertEqual(self.drain("a")[0], 5)
                self.assertEqual(self.capacities(), [30, value])
                self.assertEqual(self.drain("a", "--anyway")[0], 0)
                self.assertEqual(self.capacities()[-1], 0)

    def test_somebody_else_comes_while_a_step_is_worked(self):
        def come(lines):
            if len(self.lines()) == 2:
                self.append(lines)

        self.asked = lambda: come("capacity a 33\ncommit\n")
        status, _, _ = self.drain("a")
        self.assertEqual((status, self.capacities()), (5, [30, 33]))
        # a change of another name is no reason to stop
        self.world(WORLD)
        self.asked = lambda: come("demand g2 31\ncommit\n")
        self.assertEqual(self.drain("a", "--anyway")[0], 0)
        self.assertEqual(self.capacities()[:2], [30, 20])

    def test_another_one_takes_it_over(self):
        def second():
            self.clock.at_sleep = lambda: None
            self.assertEqual(self.drain("a", "--over", "0")[0], 0)

        self.clock.at_sleep = second
        status, _, said = self.drain("a")
        self.assertEqual((status, self.capacities()), (5, [30, 0]), said)
        self.assertIn("another glb-drain took a over", said)

    def test_its_drain_is_ended_amid(self):
        self.clock.at_sleep = lambda: self.drain("a", "--forget")
        status, _, said = self.drain("a")
        self.assertEqual((status, self.capacities(), self.listed()), (5, [30], []))
        self.assertIn("its drain was ended", said)

    def test_interrupted_between_steps(self):
        self.clock.at_sleep = self.interrupt
        self.assertEqual(self.drain("a")[0], 130)
        (there,) = self.listed()
        self.assertEqual([there[key] for key in ("state", "before", "capacity")], ["down", 60, 30])
        # and put back from there
        self.clock.at_sleep = lambda: None
        self.assertEqual(self.drain("a", "--back")[0], 0)
        self.assertEqual((self.capacities()[-1], self.listed()), (60, []))

    def test_ended_at_any_write_and_begun_again(self):
        # two steps, each of which keeps the drain, appends, and keeps it again
        for words in ((), ("--back",)):
            for at in range(1, 8):
                with self.subTest(f"{words} {at}"):
                    self.world(WORLD)
                    if words:
                        self.drain("a", "--over", "0")
                    with self.crash(at):
                        if at <= 6:
                            with self.assertRaises(Crash):
                                self.drain("a", *words, "--over", "2m")
                        else:
                            self.drain("a", *words, "--over", "2m")
                    self.assertEqual(self.drain("a", *words, "--over", "2m")[0], 0)
                    there, found = self.listed(), self.capacities()
                    # no step is made twice, and none is larger
                    if words:
                        self.assertEqual((found, there), ([0, 20, 60], []))
                    else:
                        self.assertEqual(found, [20, 0])
                        self.assertEqual([each["before"] for each in there], [60])

    @contextlib.contextmanager
    def crash(self, at):
        """Ends the command ahead of its write of that number."""
        writes = []

        def patched(do):
            def write(*words):
                writes.append(do)
                if len(writes) == at:
                    raise Crash
                do(*words)

            return write

        with (
            mock.patch.object(drain_stores, "write_file", patched(drain_stores.write_file)),
            mock.patch.object(drain_stores.File, "append", patched(drain_stores.File.append)),
        ):
            yield

    def test_begun_again_it_waits_for_its_next_step(self):
        for off, waits in ((0, 60), (10, 50), (90, 0), (10**9, 0), (-(10**9), 60)):
            with self.subTest(off):
                self.world(WORLD)
                self.clock.at_sleep = self.interrupt
                self.drain("a")
                self.clock.now -= 60
                self.clock.off += off
                self.clock.at_sleep, self.clock.slept = lambda: None, []
                self.assertEqual(self.drain("a")[0], 0)
                self.assertEqual(self.capacities(), [30, 20, 10, 0])
                self.assertEqual(self.clock.slept, [60, 60] if not waits else [waits, 60, 60])

    def test_begun_again_in_one_step_it_does_not_wait(self):
        self.clock.at_sleep = self.interrupt
        self.drain("a")
        self.clock.now -= 60
        self.clock.at_sleep, self.clock.slept = lambda: None, []
        self.assertEqual(self.drain("a", "--over", "0")[0], 0)
        self.assertEqual((self.capacities(), self.clock.slept), ([30, 0], []))

    def test_a_clock_that_jumps_amid_a_drain(self):
        def jump():
            self.clock.off += 10**9 * (-1) ** len(self.clock.slept)

        self.clock.at_sleep = jump
        self.assertEqual(self.drain("a")[0], 0)
        self.assertEqual(self.clock.slept, [60, 60, 60])

    def test_a_log_with_an_open_batch(self):
        for rest in ("capacity b 1\n", "capacity b", "commi", "commit"):
            with self.subTest(rest):
                self.world(WORLD, "capacity b 50\ncommit\n" + rest)
                status, _, said = self.drain("a")
                self.assertEqual((status, self.log.read_text()[-len(rest) :]), (1, rest))
                self.assertIn("behind its last commit", said)

    def test_a_lock_that_somebody_has(self):
        lock = self.folder / "lock"
        with lock.open("w") as file:
            fcntl.flock(file, fcntl.LOCK_EX)
            with mock.patch.object(drain_stores, "LOCKED", 0.2):
                status, _, said = self.drain("a")
        self.assertEqual((status, self.lines()), (1, []))
        self.assertIn("somebody else has the lock", said)

    def test_a_lock_that_somebody_takes_while_a_step_is_tried(self):
        with contextlib.ExitStack() as stack:

            def take():
                file = stack.enter_context((self.folder / "lock").open("w"))
                fcntl.flock(file, fcntl.LOCK_EX)
                self.asked = lambda: None

            self.asked = take
            with mock.patch.object(drain_stores, "LOCKED", 0.2):
                status, _, said = self.drain("a")
        self.assertEqual((status, self.lines()), (1, []))
        self.assertIn("somebody else has the lock", said)

    def test_a_log_that_was_put_in_its_place(self):
        self.world(WORLD, "capacity b 50\ncommit\n")
        self.asked = lambda: self.log.write_text("")
        status, _, said = self.drain("a")
        self.assertEqual((status, self.lines()), (1, []))
        self.assertIn("made shorter", said)

    def test_what_is_kept_is_no_drain(self):
        for text in ("{", "[]", "{}", '{"node": "a"}', "\0\n"):
            with self.subTest(text):
                Path(f"{self.log}.drains").write_text(text)
                status, _, said = self.drain("a")
                self.assertEqual((status, self.lines()), (1, []))
                self.assertIn("changes.log.drains cannot be read", said)

    def test_a_node_that_went(self):
        self.drain("a")
        self.of[1] = self.file("t", WORLD.replace('"a"', '"d"'))
        self.log.write_text("")
        (there,) = self.listed()
        self.assertEqual((there["state"], there["capacity"], there["before"]), ("gone", None, 60))
        self.assertEqual(self.drain("a", "--forget")[0], 0)
        self.assertEqual(self.listed(), [])
        self.assertEqual(self.drain("a", "--forget")[0], 1)

    def test_words(self):
        over = ["--over", "1m", "--why", "x"]
        for words in (
            [],
            ["a"],
            ["a", "--over", "1m"],
            ["a", "--over", "1y", "--why", "x"],
            ["a", "--over", "-1", "--why", "x"],
            ["a", *over, "--every", "0"],
            ["a", *over, "--step", "0"],
            ["a", *over, "--most", "many"],
            ["--list", "a"],
            ["a", "--forget", "--back"],
        ):
            with self.subTest(words):
                self.refused(main, *self.of, *words, status=64)


class Planned(OverFile):
    """How many steps there are, and what is said of them ahead."""

    def test_steps_and_the_largest_are_said_ahead(self):
        self.world(ZONE + NODES + G1 + G2 + G3)
        status, out, _ = self.drain("b", "--over", "3m")
        # 10 of g2 go to a in each, and push 10 of g3 away while there are any
        self.assertIn(
            "\n3 steps, each 60 s; the largest one moves 20 units, as things stand now\n", out
        )
        self.assertEqual((status, self.capacities("b")), (0, [20, 10, 0]))
        # by a bound there are more, and how many is said
        self.world(ZONE + NODES + G1 + G2 + G3)
        status, out, _ = self.drain("b", "--over", "3m", "--step", "10")
        self.assertIn(
            "\n6 steps, each 60 s, 3 more than --over has; the largest one moves 10 units", out
        )
        self.assertEqual(status, 0)
        moved = [int(line.split(", ")[1].split()[0]) for line in out.splitlines() if "/6: " in line]
        # the third one by a share of the bound that is near it: 4 of g2, and 4 of g3
        self.assertEqual(moved, [10, 10, 8, 10, 10, 2])

    def test_as_many_as_over_has_whatever_moves_besides(self):
        for over, sizes in (("1m", [30]), ("2m", [15, 15]), ("7m", [5, 5, 4, 4, 4, 4, 4])):
            self.world(ZONE + NODES + G1 + G2 + G3)
            status, found, _ = self.told("b", "--over", over)
            steps = found["steps"]
            self.assertEqual((status, found["planned"]), (0, len(sizes)))
            loads = [30, *(30 - sum(sizes[: at + 1]) for at in range(len(sizes)))]
            self.assertEqual([step["to"] for step in steps], loads[1:])
            self.assertEqual({step["of"] for step in steps}, {len(sizes)})

    def test_a_bound_that_was_said_ahead_is_kept_where_things_change(self):
        # somebody else's demand comes amid the drain: units that have to move stay within the bound
        self.world(ZONE + NODES + G1 + G2 + G3)
        self.clock.at_sleep = lambda: self.append("demand g2 50\ncommit\n")
        status, found, _ = self.told("b", "--over", "3m")
        self.assertEqual((status, found["step"], found["capacity"]), (0, 20, 0))
        moved = [step["moved"] + step["gained"] + step["lost"] for step in found["steps"]]
        self.assertLessEqual(max(moved), 20)

    def test_no_time_to_try_them_ahead(self):
        self.asked = lambda: setattr(self.clock, "now", self.clock.now + 16)
        status, out, _ = self.drain("a", "--over", "2m")
        self.assertEqual((status, self.capacities()), (0, [20, 0]))
        self.assertIn(
            "2 steps, each 60 s: to try them ahead takes too long here (--dry-run)\n", out
        )
        self.world(WORLD)
        _, out, _ = self.drain("a", "--over", "2m", "--dry-run")
        self.assertIn("2 steps, each 60 s; the largest one moves 20 units", out)

    def test_a_step_that_was_kept_and_not_made_does_not_count(self):
        with self.assertRaises(Crash), mock.patch.object(drain_stores.File, "append", self.crash):
            self.drain("a", "--over", "2m")
        self.assertEqual(self.lines(), [])
        self.assertEqual(self.drain("a", "--over", "2m")[0], 0)
        self.assertEqual(self.capacities(), [20, 0])

    def crash(self, *_):
        raise Crash


class FoundDown(OverFile):
    """glb-watch finds a node down, or fills it, while it is drained: its lines have two spaces."""

    def watch(self, number):
        self.append(f"capacity  a {number}\ncommit\n")

    def test_amid_its_way_out(self):
        self.clock.at_sleep = lambda: self.watch(0)
        status, found, _ = self.told("a", "--over", "3m")
        self.assertEqual((status, self.capacities()), (0, [26, 0, 0]))
        # the step that says that it is out moves nothing
        self.assertEqual([step["moved"] for step in found["steps"]], [14, 0])
        (there,) = self.listed()
        self.assertEqual((there["state"], there["before"]), ("out", 60))

    def test_found_down_is_listed_and_gone_on_with(self):
        self.clock.at_sleep = self.interrupt
        self.drain("a", "--over", "3m")
        self.watch(0)
        self.assertEqual(self.listed()[0]["state"], "found down")
        self.assertIn("was found down by glb-watch", self.good(main, *self.of, "--list"))
        self.clock.at_sleep = lambda: None
        self.assertEqual(self.drain("a", "--over", "3m")[0], 0)
        self.assertEqual((self.capacities(), self.listed()[0]["state"]), ([26, 0, 0], "out"))

    def test_its_way_back_waits(self):
        self.drain("a", "--over", "0")
        looks = iter([0, 0, 10, 20])

        def sleeps():
            number = next(looks, None)
            if number is not None:
                self.watch(number)

        self.clock.at_sleep = sleeps
        status, out, _ = self.drain("a", "--back", "--over", "2m")
        self.assertEqual(status, 0)
        # nothing of the drain while it is down, and while it fills up to the drain's number
        self.assertEqual(self.capacities(), [0, 20, 0, 0, 10, 20, 60])
        self.assertEqual(out.count("the drain waits"), 1)
        self.assertEqual(self.listed(), [])

    def test_by_another_hand_it_stops(self):
        self.drain("a", "--over", "0")
        self.clock.at_sleep = lambda: self.append("capacity a 0\ncommit\n")
        status, _, said = self.drain("a", "--back", "--over", "2m")
        self.assertEqual((status, self.capacities()), (5, [0, 20, 0]), said)

    def test_a_drain_of_one_that_is_down(self):
        self.append("capacity  a 50\ncommit\n")
        self.watch(0)
        self.assertEqual(self.drain("a")[0], 0)
        (there,) = self.listed()
        # its number of before is the last one above 0
        self.assertEqual((there["state"], there["before"]), ("out", 50))
        self.assertEqual(self.drain("a", "--back", "--over", "0")[0], 0)
        self.assertEqual(self.capacities(), [50, 0, 0, 50])

    def test_a_batch_that_was_dropped_sets_nothing(self):
        self.clock.at_sleep = self.interrupt
        self.drain("a", "--over", "2m")
        # somebody's number, and a batch of glb-watch that servers drop
        self.append("capacity a 10\ncommit\ncapacity  a 5\ncapacity nowhere 1\ncommit\n")
        status, _, said = self.drain("a", "--over", "2m")
        self.assertEqual((status, self.capacities()), (5, [20, 10, 5]), said)
        self.assertEqual(self.listed()[0]["state"], "changed")

    def test_glb_watch_ahead_of_the_first_step(self):
        asked = []

        def come():
            asked.append(1)
            if len(asked) == 2:
                self.watch(50)

        self.asked = come
        self.assertEqual(self.drain("a", "--over", "0")[0], 0)
        (there,) = self.listed()
        self.assertEqual((self.capacities(), there["before"]), ([50, 0], 50))

    def test_it_is_handed_back_with_its_last_step_alone(self):
        self.drain("a", "--over", "2m")
        self.drain("a", "--back", "--over", "2m")
        lines = [line for line in self.lines() if line != "commit"]
        due = ["capacity a 20", "capacity a 0", "capacity a 20", "capacity  a 60"]
        self.assertEqual(lines, due)

    def test_a_number_by_hand_is_by_hand_behind_the_drain(self):
        self.append("capacity a 50\ncommit\n")
        self.drain("a", "--over", "0")
        self.drain("a", "--back", "--over", "0")
        self.assertEqual(self.lines()[-2:], ["capacity a 50", "commit"])


class Timed(OverFile):
    """A drain that ends by itself."""

    def test_by_its_length(self):
        status, out, _ = self.drain("a", "--over", "2m", "--for", "1h")
        self.assertEqual((status, self.capacities()), (0, [20, 0, 20, 60]))
        # the second step is a minute behind the first, it waits, and goes back over the same time
        self.assertEqual(self.clock.now, 1000 + 3600 + 60)
        self.assertIn("a is out, until 2027-01-15 09:16:40Z\n", out)
        self.assertEqual(self.listed(), [])

    def test_by_a_time_of_day(self):
        # the clock says 08:16:40 of UTC
        for text, seconds in (("08:20", 200), ("2027-01-15T08:20", 200), ("08:16", 86360)):
            with self.subTest(text):
                self.world(WORLD)
                self.clock.now = 1000
                self.assertEqual(self.drain("a", "--over", "0", "--until", text)[0], 0)
                self.assertEqual((self.clock.now, self.capacities()), (1000 + seconds, [0, 60]))

    def test_a_clock_that_jumps_ends_it_neither_early_nor_late(self):
        for jump in (10**8, -(10**8)):
            with self.subTest(jump):
                self.world(WORLD)
                self.clock.now, self.clock.off = 1000, 1_800_000_000

                def sleeps():
                    self.clock.off += jump
                    self.clock.at_sleep = lambda: None

                self.clock.at_sleep = sleeps
                self.assertEqual(self.drain("a", "--over", "0", "--for", "1h")[0], 0)
                self.assertEqual((self.clock.now, self.capacities()), (4600, [0, 60]))

    def test_killed_at_any_wait_and_begun_again(self):
        words = ("--over", "2m", "--for", "10m")
        for at in range(1, 24, 2):
            with self.subTest(at):
                self.world(WORLD)
                self.clock.now = 1000
                waits = iter(range(at - 1))
                self.clock.at_sleep = lambda: next(waits, None) is None and self.interrupt()
                status, _, _ = self.drain("a", *words)
                self.clock.at_sleep = lambda: None
                self.assertEqual(self.drain("a", *words)[0] if status else status, 0)
                self.assertEqual((self.capacities(), self.listed()), ([20, 0, 20, 60], []))
                self.assertAlmostEqual(self.clock.now, 1660, delta=61)

    def test_behind_a_start_of_the_machine_the_time_of_day_counts(self):
        self.clock.at_sleep = self.interrupt
        self.drain("a", "--over", "0", "--for", "1h")
        # two thousand seconds later, by a clock that began anew
        self.boot, self.clock.now, self.clock.off = "another", 5, 1_800_000_000 + 1000 + 2000 - 5
        self.clock.at_sleep = lambda: None
        self.assertEqual(self.drain("a", "--over", "0", "--for", "1h")[0], 0)
        self.assertAlmostEqual(self.clock.now, 5 + 1600, delta=1)

    def test_ended_by_somebody_amid(self):
        for words, capacities in (("--forget", [0]), ("--back", [0, 60])):
            with self.subTest(words):
                self.world(WORLD)

                def second():
                    self.clock.at_sleep = lambda: None
                    over = [] if words == "--forget" else ["--over", "0"]
                    self.assertEqual(self.drain("a", words, *over)[0], 0)

                self.clock.at_sleep = second
                status, _, said = self.drain("a", "--over", "0", "--for", "1h")
                self.assertEqual((status, self.capacities()), (5, capacities), said)

    def test_its_time_comes_on_its_way_out(self):
        self.assertEqual(self.drain("a", "--over", "4m", "--for", "90s")[0], 0)
        # two steps out, and back from there
        self.assertEqual(self.capacities()[:2], [30, 20])
        self.assertEqual(self.capacities()[-1], 60)
        self.assertNotIn(0, self.capacities())

    def test_another_time_is_taken_and_none_keeps_it(self):
        self.clock.at_sleep = self.interrupt
        self.drain("a", "--over", "0", "--for", "1h")
        since = self.listed()[0]["since"]
        self.assertEqual(self.listed()[0]["until"], since + 3600)
        self.assertIn(", until 2027-01-15 09:16:40Z  ops", self.good(main, *self.of, "--list"))
        for words, length in (((), 3600), (("--for", "2h"), 7200), (("--for", "2h"), 7200)):
            self.drain("a", "--over", "0", *words)
            self.assertEqual(self.listed()[0]["until"], since + length, words)
        # one that has none gets one
        self.world(WORLD)
        self.clock.at_sleep = lambda: None
        self.drain("a", "--over", "0")
        self.assertIsNone(self.listed()[0]["until"])
        self.clock.at_sleep = self.interrupt
        self.drain("a", "--over", "0", "--for", "1h")
        self.assertIsNotNone(self.listed()[0]["until"])

    def test_a_time_that_is_over(self):
        status, out, said = self.drain("a", "--over", "0", "--until", "2027-01-15T08:16")
        self.assertEqual((status, said), (64, "glb-try: --until is over already\n"))
        self.assertEqual((self.lines(), self.listed()), ([], []))
        # one that is out goes back by it
        self.drain("a", "--over", "0")
        self.assertEqual(self.drain("a", "--over", "0", "--until", "2027-01-15T08:16")[0], 0)
        self.assertEqual((self.capacities(), self.listed()), ([0, 60], []))

    def due(self):
        return self.run_main(main, *self.of, "--author", "ops", "--due")

    def test_due(self):
        self.clock.at_sleep = self.interrupt
        self.drain("a", "--over", "0", "--for", "10m")
        began = self.clock.now
        # its time, and two steps and half a minute more, in which its own command is to go on
        for seconds, due in ((599, [0]), (749, [0]), (750, [0, 60])):
            self.clock.now = began - self.clock.slept[-1] + seconds
            self.assertEqual(self.due()[0], 0)
            self.assertEqual(self.capacities(), due, seconds)
        self.assertEqual(self.listed(), [])

    def test_due_makes_a_step_each_time(self):
        self.clock.at_sleep = lambda: self.capacities()[-1:] == [0] and self.interrupt()
        self.drain("a", "--over", "2m", "--for", "10m")
        self.clock.now += 10_000
        for seconds, due in ((0, [20]), (59, [20]), (1, [20, 60]), (99, [20, 60])):
            self.clock.now += seconds
            self.assertEqual(self.due()[0], 0)
            self.assertEqual(self.capacities()[2:], due)

    def test_due_is_not_early_where_a_clock_went_back(self):
        self.clock.at_sleep = self.interrupt
        self.drain("a", "--over", "0", "--for", "10h")
        self.clock.off -= 10**6
        self.assertEqual((self.due()[0], self.capacities()), (0, [0]))

    def test_due_leaves_a_way_back_by_hand(self):
        self.clock.at_sleep = lambda: self.capacities()[-1:] == [0] and self.interrupt()
        self.drain("a", "--over", "2m", "--for", "10m")
        self.clock.at_sleep = self.interrupt
        self.drain("a", "--back", "--over", "2m")
        self.assertEqual((self.capacities(), self.listed()[0]["until"]), ([20, 0, 20], None))
        self.clock.now += 10_000
        self.assertEqual((self.due()[0], self.capacities()), (0, [20, 0, 20]))

    def test_due_leaves_others_and_what_is_down(self):
        self.drain("b", "--over", "0")
        self.clock.at_sleep = self.interrupt
        self.drain("a", "--over", "0", "--for", "10m")
        self.clock.at_sleep = lambda: None
        self.clock.now += 10_000
        self.due()
        self.assertEqual([each["node"] for each in self.listed()], ["b"])
        # somebody else's number is told, and holds up no other drain
        self.world(WORLD)
        self.clock.at_sleep = self.interrupt
        self.drain("a", "--over", "0", "--for", "10m")
        self.drain("b", "--over", "0", "--for", "10m", "--anyway")
        self.append("capacity a 7\ncommit\n")
        self.clock.now += 10_000
        status, _, said = self.due()
        self.assertEqual((status, self.capacities("b")[-1], self.capacities()[-1]), (1, 60, 7))
        self.assertIn("a: a has a capacity of 7", said)

    def test_words_of_time(self):
        over = ["a", "--over", "1m", "--why", "x"]
        for words in (
            [*over, "--until", "25:00"],
            [*over, "--until", "tomorrow"],
            [*over, "--until", "2099-01-01"],
            [*over, "--until", "14:00", "--for", "1h"],
            [*over, "--back", "--for", "1h"],
            ["a", "--due"],
            ["--due", "--dry-run"],
        ):
            with self.subTest(words):
                self.refused(main, *self.of, *words, status=64)


class OverFleet(Played):
    """A log in an etcd that is played."""

    def setUp(self):
        super().setUp()
        self.table, self.count, self.at, self.fault = Table(), 0, 0, None
        # the calls that put something
        self.puts = set()
        self.log = Log(Client(self, self), "glb")
        self.roll(WORLD)
        for name, new in (
            ("glb_tools.plan.map_at", self.map_at),
            ("glb_tools.drain.etcd_of", lambda options: self.log.etcd),
        ):
            patch = mock.patch(name, new)
            patch.start()
            self.addCleanup(patch.stop)

    def roll(self, text):
        """Appends a base with the numbers of the log."""
        base = with_numbers(self.log, text.encode(), "new")
        topology = Topology(base)
        names = Names(list(topology.unit_at), list(topology.node_at))
        self.log.put_file("file", checksum_of(base), base)
        self.log.put_file("names", checksum_of(base), names.octets())
        ident = f"base{self.count}"
        self.assertIsNotNone(self.log.append_base(ident, Signed("ops", "rolled"), base))

    def map_at(self, log, number, glb):
        return placed(topology_at(log, log.look(), number))

    def call(self, do, is_etcd=False):
        """A call to etcd, with the fault that is planned for one of them."""
        self.count += 1
        fault = self.fault if self.count == self.at else None
        if fault == CRASH_BEFORE:
            raise Crash
        if fault == LOST_BEFORE:
            raise Unreachable("lost")
        revision = self.table.revision
        answer = do()
        if self.table.revision > revision and not self.at:
            self.puts.add(self.count)
        if fault == CRASH_AFTER:
            raise Crash
        if fault == LOST_AFTER:
            raise Unreachable("lost")
        return answer

    def drain(self, *words):
        more = [] if "--list" in words else ["--over", "2m", "--author", "ops", "--why", "works"]
        return self.run_main(main, *more, *words)

    def batches(self):
        look = self.log.look()
        entries = self.log.entries(look.begins, look.last)
        return [(entry.lines, entry.author, entry.why) for entry in entries if entry.lines]

    def listed(self):
        return json.loads(self.drain("--list", "--json")[1])["drains"]

    def test_entries_say_who_and_why(self):
        self.assertEqual(self.drain("a")[0], 0)
        self.assertEqual(self.drain("a", "--back")[0], 0)
        self.assertEqual(
            self.batches(),
            [
                ("capacity a 20\n", "ops", "drain a 1/2: works"),
                ("capacity a 0\n", "ops", "drain a 2/2: works"),
                ("capacity a 20\n", "ops", "drain a back 1/2: works"),
                ("capacity a 60\n", "ops", "handed back: drain a back 2/2: works"),
            ],
        )
        self.assertEqual(self.listed(), [])

    def test_somebody_else_changes_the_capacity(self):
        def come():
            self.log.append("other", Signed("else"), "capacity a 60\n", lambda names: None)

        self.clock.at_sleep = come
        status, _, said = self.drain("a")
        self.assertEqual((status, len(self.batches())), (5, 2), said)
        self.assertEqual(self.listed()[0]["state"], "changed")

    def test_another_topology_comes_amid(self):
        new = WORLD + ALONE
        self.clock.at_sleep = lambda: self.roll(new)
        self.assertEqual(self.drain("a")[0], 0)
        self.assertEqual(
            [lines for lines, _, _ in self.batches()], ["capacity a 20\n", "capacity a 0\n"]
        )
        # the base has the numbers of the drain, and what is kept beside the log does not
        self.assertEqual(self.drain("a", "--back")[0], 0)
        self.assertEqual(self.batches()[-1][0], "capacity a 60\n")

    def test_a_log_that_was_cut(self):
        self.log.append("x", Signed("glb-watch"), "capacity a 50\n", lambda names: None)
        self.log.append("y", Signed("glb-watch"), "capacity a 40\n", lambda names: None)
        self.roll(WORLD)
        self.log.cut(self.log.look(), self.log.newest_base())
        self.assertEqual(self.log.look().first, 3)
        self.assertEqual(self.drain("a")[0], 0)
        self.assertEqual(
            [lines for lines, *_ in self.batches()[-2:]], ["capacity a 20\n", "capacity a 0\n"]
        )

    def test_a_number_by_hand_is_by_hand_behind_a_cut_and_a_drain(self):
        self.log.append("x", Signed("hand"), "capacity a 50\n", lambda names: None)
        watch = FleetLog(self.log, 15)
        watch.read()
        self.roll(WORLD)
        self.log.cut(self.log.look(), self.log.newest_base())
        self.assertEqual(self.batches(), [])
        self.assertEqual(self.drain("a")[0], 0)
        self.assertEqual(self.drain("a", "--back")[0], 0)
        self.assertEqual(self.batches()[-1], ("capacity a 50\n", "ops", "drain a back 2/2: works"))
        self.assertEqual(watch.read().by_hand, {("capacity", "a"): "ops"})

    def test_the_node_goes_while_a_step_is_worked(self):
        gone, rolled = WORLD.replace('"a"', '"d"'), []

        def come():
            if len(self.batches()) == 1 and not rolled:
                rolled.append(self.roll(gone))

        self.asked = come
        status, _, said = self.drain("a")
        self.assertEqual((status, len(self.batches())), (2, 1), said)
        self.assertEqual(self.listed()[0]["state"], "gone")

    def test_others_append_meanwhile(self):
        def come():
            ident = f"other{self.count}"
            self.log.append(ident, Signed("else"), "demand g2 30\n", lambda names: None)

        self.asked = come
        self.assertEqual(self.drain("a")[0], 0)
        self.assertEqual(
            [lines for lines, author, _ in self.batches() if author == "ops"],
            ["capacity a 20\n", "capacity a 0\n"],
        )

    def test_glb_roll_says_what_glb_plan_says(self):
        """Of a topology that runs beside, with the numbers of the log."""
        self.log.append("x", Signed("else"), "capacity a 10\n", lambda names: None)
        new = WORLD.replace('"b"\ncapacity = 60', '"b"\ncapacity = 40').encode()
        self.log.put_file("file", checksum_of(new), new)
        names = Names(["g1", "g2"], ["north", "south", "a", "b", "c"])
        self.log.put_file("names", checksum_of(new), names.octets())
        base, out = Base(0, checksum_of(new), 0, ""), io.StringIO()

        def map_at(log, number, program, of=None):
            octets = topology_at(log, log.look(), number)
            return placed(
                octets.replace(b'"b"\ncapacity = 60', b'"b"\ncapacity = 40') if of else octets
            )

        with mock.patch.object(roll, "map_at", map_at), contextlib.redirect_stdout(out):
            roll.compare(self.log, 2, base, {}, "python3")
        # g1 has 10 at a, and 30 at b, where g2 has its 30: now 10 of either fewer
        self.assertIn("20 of 70 units would move (28.6 %)", out.getvalue())
        self.assertIn("  20 from north to south\n", out.getvalue())
        self.assertIn("  b: 60 to 40 of 40 (was 60)\n", out.getvalue())

    def test_each_call_of_etcd_fails_or_is_the_last(self):
        start, self.count = self.table.copy(), 0
        self.puts.clear()
        self.assertEqual(self.drain("a")[0], 0)
        faults = (LOST_BEFORE, LOST_AFTER, CRASH_BEFORE, CRASH_AFTER)
        self.assertGreater(self.count, 20)
        for at in range(1, self.count + 1):
            # of the calls that put something each fault is tried, of the others one
            for fault in faults if at in self.puts else faults[at % 4 :][:1]:
                with self.subTest(f"{fault} {at}"):
                    self.table = start.copy()
                    self.log.known.clear()
                    self.count, self.at, self.fault = 0, at, fault
                    with contextlib.suppress(Crash):
                        self.drain("a")
                    self.at = 0
                    self.assertEqual(self.drain("a")[0], 0)
                    self.assertEqual(
                        [lines for lines, _, _ in self.batches()],
                        ["capacity a 20\n", "capacity a 0\n"],
                    )
                    (there,) = self.listed()
                    self.assertEqual((there["state"], there["before"]), ("out", 60))

    def test_a_step_that_is_lost_on_its_way(self):
        # the call of the first step, and that of the last one
        self.assertEqual(self.drain("a")[0], 0)
        start, self.count = self.table.copy(), 0
        self.puts.clear()
        self.assertEqual(self.drain("a", "--back")[0], 0)
        self.assertEqual(len(self.puts), 2)
        for at in sorted(self.puts):
            for fault in (LOST_BEFORE, LOST_AFTER):
                with self.subTest(f"{fault} {at}"):
                    self.table, self.clock.slept = start.copy(), []
                    self.count, self.at, self.fault = 0, at, fault
                    self.assertEqual(self.drain("a", "--back")[0], 0)
                    lines = [lines for lines, _, _ in self.batches()]
                    self.assertEqual(lines[2:], ["capacity a 20\n", "capacity a 60\n"])
                    self.assertEqual(self.listed(), [])
                    # and the next step is not made before it is due
                    self.assertGreaterEqual(sum(self.clock.slept), 60)

    def test_etcd_stays_away(self):
        def away():
            self.at, self.fault = self.count + 1, LOST_BEFORE

        self.clock.at_sleep = away
        status, _, said = self.drain("a")
        self.assertEqual(status, 3, said)
        self.assertLess(len(self.clock.slept), 200)
        self.assertEqual(self.listed()[0]["state"], "down")


if __name__ == "__main__":
    unittest.main()
