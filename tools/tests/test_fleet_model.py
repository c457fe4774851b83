"""The fleet as a model: real followers over a faked etcd and faked servers, with faults at every step."""

import itertools
import random
import unittest
from unittest import mock

from fleet_world import CRASH_AFTER, CRASH_BEFORE, FAULTS, LOST_AFTER, Place, World
from glb_tools import fleet, follow, follower, log
from glb_tools.options import Fault
from glb_tools.place import Identity


def tried(do):
    """What the log may refuse."""

    def done(world):
        try:
            do(world)
        except Fault:
            pass

    return done


def operations():
    """What operators do, and what happens to etcd, by name."""
    every = {
        "append A": lambda world: world.append("demand A 1\n"),
        "append A B": lambda world: world.append("demand A 2\ndemand B 1\n"),
        "append X": lambda world: world.append("demand X 1\n"),
        "raw": lambda world: world.raw(),
        "forge": lambda world: world.forge(),
        "take raw": lambda world: world.take_raw(),
        "roll A": lambda world: world.roll(["A"]),
        "roll A late": lambda world: world.roll(["A"], back=2),
        "roll A B": lambda world: world.roll(["A", "B"]),
        "roll A B late": lambda world: world.roll(["A", "B"], back=2),
        "go back": lambda world: world.go_back(),
        "cut": lambda world: world.cut(),
        "save": lambda world: world.save(),
        "restore": lambda world: world.restore(),
        "ask": lambda world: world.ask(),
        "tick": lambda world: world.tick(),
        "forget": lambda world: world.forget_gone(),
    }
    return {name: tried(do) for name, do in every.items()}


def mishaps(number):
    """What may happen to a host, by name."""

    def host(world):
        return world.hosts[number]

    return {
        f"run {number}": lambda world: host(world).run(),
        f"kill server {number}": lambda world: host(world).server_ends(),
        f"kill follower {number}": lambda world: host(world).follower_ends(),
        f"cut off {number}": lambda world: setattr(host(world).outside, "cut_off", True),
        f"join {number}": lambda world: setattr(host(world).outside, "cut_off", False),
        f"by hand {number}": lambda world: host(world).start_by_hand(),
        f"edited {number}": lambda world: host(world).edit_by_hand(),
        f"memory {number}": lambda world: host(world).lose_memory(),
        f"files {number}": lambda world: host(world).lose_files(),
        f"wrong {number}": lambda world: host(world).go_wrong(),
    }


def drawn(draw, every, hosts):
    """A step: a name, and a function of the world."""
    if draw.random() < 0.4:
        name = draw.choice(sorted(every))
        return name, every[name]
    number = draw.randrange(hosts)
    kind = draw.choice(["", "fault", "amid"])
    if not kind:
        return f"run {number}", every[f"run {number}"]
    at = draw.randrange(1, 12)
    if kind == "fault":
        fault = draw.choice(FAULTS)
        return f"run {number} {at} {fault}", lambda world: world.hosts[number].run(at, fault)
    others = [
        name for name in sorted(every) if not name.endswith(str(number)) and "restore" != name
    ]
    other = draw.choice(others)

    def amid(world):
        world.hosts[number].run(at, lambda: every[other](world))

    return f"run {number} {at} {other}", amid


def explore(seed, hosts, steps):
    """A run of many steps at random, and what comes of it in the end."""
    draw, world, done = random.Random(seed), World(hosts), []
    every = operations()
    for number in range(hosts):
        every |= mishaps(number)
    try:
        for _ in range(steps):
            name, step = drawn(draw, every, hosts)
            done.append(name)
            step(world)
            world.check()
        done.append("settle")
        world.check_end(world.settle())
    except Exception as why:
        why.add_note(f"explore({seed}, {hosts}, {steps}): {'; '.join(done)}")
        raise
    return world.seen_there


WRITES = ["raw", "raw", "raw", "forge", "take raw", "append A", "append A B", "append X"]
WRITES += ["roll A", "roll A late", "go back", "cut"]


def restored(seed):
    """A run in which the log becomes another one, or the same once more, while hardly anybody looks."""
    draw, world, done = random.Random(seed), World(1 + seed % 2), []
    every = operations()

    def write(most, looks):
        for _ in range(draw.randrange(most)):
            done.append(draw.choice(WRITES))
            every[done[-1]](world)
            for host in world.hosts:
                if draw.random() < looks:
                    host.run()
            world.check()

    try:
        world.settle()
        for _ in range(draw.randrange(1, 3)):
            write(3, 1)
            world.save()
            write(6, 0.9)
            world.restore()
            write(6, 0.05)
            done.append("restored")
        world.check_end(world.settle())
    except Exception as why:
        why.add_note(f"restored({seed}): {'; '.join(done)}")
        raise
    return world.seen_there


class Random(unittest.TestCase):
    def test_logs_that_are_restored(self):
        there = sum(restored(seed) for seed in range(30))
        self.assertGreater(there, 100)

    def test_many_things_at_random(self):
        there = sum(explore(seed, 1 + seed % 3, 40) for seed in range(60))
        self.assertGreater(there, 400)


# What an operator does, or what befalls a fleet of two that is there, a word each.
SCENARIOS = [
    ["append A B", "roll A B late", "append A B"],
    ["roll A B", "append A B", "go back", "append A"],
    ["save", "append A", "append A", "restore", "append A B"],
    ["append X", "raw", "memory 0", "append A"],
    ["append A", "cut", "kill server 1", "roll A late"],
    ["cut off 0", "append A", "append A", "memory 0", "join 0"],
]
# What comes while no follower looks, behind what comes while they do: a log that is restored and has the same last key.
UNSEEN = [
    (["save", "append A", "raw"], ["restore", "append A B", "raw"]),
    (["save", "append A", "raw", "raw"], ["restore", "raw", "append A", "raw"]),
    (["save", "append A", "raw", "append A"], ["restore", "append A B", "raw", "append A"]),
    (["append A", "save", "append A", "forge"], ["restore", "append A B", "forge"]),
    # the same log once more, which has not what was told of the keys
    (["save", "raw", "raw"], ["restore", "raw", "raw", "append A"]),
]


def scenario(names, number, at, fault):
    """A scenario, with one fault at one call of one host to the outside; by how many calls each of its steps has ended."""
    world = World(2)
    world.settle()
    every = operations() | mishaps(0) | mishaps(1)
    calls, ends = 0, []
    for name in names + [""] * 4:
        if name:
            every[name](world)
        for host in world.hosts:
            planned = host.name == f"h{number}"
            host.run(at - calls if planned and calls < at else 0, fault)
            if planned:
                calls += host.outside.count
                ends.append(calls)
            world.check()
    world.check_end(world.settle())
    return ends


class EachCall(unittest.TestCase):
    """One fault at each call of a host to the outside, in each scenario."""

    def test_each_fault_at_each_call(self):
        reached = 0
        for names in SCENARIOS:
            ends = [scenario(names, number, 0, None) for number in (0, 1)]
            for fault in (CRASH_BEFORE, CRASH_AFTER, LOST_AFTER):
                for at in range(1, 1 + min(ends[0][-1], ends[1][-1])):
                    # behind a call is ahead of the next one, but for the last one of a step
                    if fault != CRASH_AFTER or at in ends[at % 2]:
                        scenario(names, at % 2, at, fault)
                        reached += 1
        self.assertGreater(reached, 250)


class Unseen(unittest.TestCase):
    """A log becomes another one while nobody looks, and its last key is the same."""

    def test_each(self):
        for seen, unseen in UNSEEN:
            with self.subTest(unseen):
                world, every = World(2), operations()
                world.settle()
                for name in seen:
                    every[name](world)
                    for host in world.hosts:
                        host.run()
                for name in unseen:
                    every[name](world)
                world.check_end(world.settle())

    def test_what_was_found(self):
        explore(3007470, 1, 114)


class ByHand(unittest.TestCase):
    """Keys that were put by hand, more in a row than a follower goes on behind."""

    def few(self, number):
        """With so few that random runs come to more."""
        for module in (log, follower):
            self.enterContext(mock.patch.object(module, "MOST_BY_HAND", number))

    def test_a_log_that_becomes_another_one_behind_them(self):
        world = World(2)
        world.settle()
        world.save()

        def written(lines, looks):
            world.append(lines)
            for _ in range(log.MOST_BY_HAND + 1):
                world.raw()
                for host in world.hosts[:looks]:
                    host.run()

        written("demand A 1\n", 2)
        for _ in range(3):
            for host in world.hosts:
                host.run()
        world.ask()
        for host in world.hosts:
            host.run()
        advice = [words for _, words in world.check().advice]
        for host in world.hosts:
            self.assertIn(f"{host.name} waits: {log.many_by_hand()}", advice)
            self.assertEqual(host.follower.identity.entry, 3 + log.MOST_BY_HAND)
            self.assertTrue(host.is_in, "a key keeps queries out")
        world.restore()
        written("demand A 2\n", 0)
        world.check_end(world.settle())

    def test_so_many_are_no_fault(self):
        self.few(3)
        world = World(1)
        for _ in range(3):
            world.raw()
        self.assertEqual(world.append("demand A 1\n"), 5)
        world = World(1)
        world.settle()
        for _ in range(3):
            world.raw()
        self.assertEqual(world.append("demand A 1\n"), 6)
        world.check_end(world.settle())
        for _ in range(4):
            world.raw()
        for append in (lambda: world.append("demand A 1\n"), lambda: world.roll(["A"])):
            with self.assertRaisesRegex(Fault, "more than 3 keys in a row"):
                append()

    def test_at_random(self):
        self.few(1)
        self.assertGreater(sum(restored(seed) for seed in range(12)), 50)


class Short(unittest.TestCase):
    """All short sequences of what may happen to a fleet of two that is there."""

    NAMES = ["append A B", "roll A B late", "go back", "save", "restore", "kill server 0"]
    NAMES += ["cut"]

    # what does nothing where the other one did not come before it, as `save` does without a `restore` behind it
    BEHIND = {"restore": "save", "go back": "roll A B late"}

    def test_each_sequence(self):
        done = 0
        for names in itertools.product(self.NAMES, repeat=3):
            if all(self.BEHIND.get(name, name) in names[: at + 1] for at, name in enumerate(names)):
                done += 1
                with self.subTest(names):
                    self.one(names)
        self.assertGreater(done, 150)

    def one(self, names):
        world, every = World(2), operations() | mishaps(0) | mishaps(1)
        for _ in range(4):
            for host in world.hosts:
                host.run()
        for name in names:
            every[name](world)
            for host in world.hosts:
                host.run()
            world.check()
        world.check_end(world.settle())


# Faults of the follower that a run has to show, each as what stands in the place of what.


def adopts_by_serial(self):
    """Takes any server for one that began from the base that is chosen."""
    begin_as_it_is(self)
    if self.broken:
        base = self.bases.chosen()
        last = self.log.look().entries[-1]
        self.identity = Identity(base or "", "", "", last.number, last.checksum)
        self.broken = None


def ready_at_once(self):
    begin_as_it_is(self)
    self.get_ready()


def keeps_late(self, entry, look):
    """Keeps what the server is handed only behind it."""
    kept, self.place.keep = self.place.keep, lambda identity: None
    try:
        work_as_it_is(self, entry, look)
    finally:
        self.place.keep = kept
    self.place.keep(self.identity)


begin_as_it_is, work_as_it_is = follower.Follower.begin, follower.Follower.work
PLANTED = {
    "the chain is not looked at": (follower.Follower, "breaks", lambda self, look: None),
    "an entry's link is not looked at": (log.Entry, "behind", lambda self, checksum: self),
    "a server is adopted by its serial": (follower.Follower, "begin", adopts_by_serial),
    "queries are let in ahead of the last entry": (follower.Follower, "begin", ready_at_once),
    "what was told of the server before stays": (follow, "silence", lambda name, log: None),
    "there is no turn": (follower.Follower, "takes_turn", lambda self, look, why: True),
    "nobody asks whether others are there": (follower, "absent", lambda *words: None),
    "others are not asked again": (follower.Follower, "hears_all", lambda self, look: True),
    "queries are let in while it stops": (follower.Follower, "get_unready", lambda self: None),
    "no line is left out": (follower, "left_in", lambda lines, own, newest: lines),
    "what a server said of a drop is lost": (
        follower.Follower,
        "drop",
        lambda self, entry, why: None,
    ),
    "the identity of the run before stays": (
        Place,
        "prepare",
        lambda self, topology, identity: None,
    ),
    "maps are not compared": (follower.Follower, "is_outvoted", lambda self, look: False),
    "a copy that was edited is not seen": (
        Place,
        "begun_from",
        lambda self: self.kept.base,
    ),
}


# from which seed on a run shows a fault that few runs do
FIRST = {
    "the chain is not looked at": 75,
    "what was told of the server before stays": 165,
    "others are not asked again": 25,
    "maps are not compared": 180,
}


class Planted(unittest.TestCase):
    """Each planted fault is found."""

    def test_each_is_found(self):
        for name, (place, what, instead) in PLANTED.items():
            with self.subTest(name), mock.patch.object(place, what, instead):
                self.assertTrue(self.is_found(FIRST.get(name, 0)), f"not found: {name}")

    def is_found(self, first):
        for seed in range(first, first + 300):
            try:
                explore(seed, 1 + seed % 3, 40)
            except Exception:
                return True
        return False


class Hypothesis(unittest.TestCase):
    """The same with python3-hypothesis, which makes a run that shows a fault as short as it can."""

    def test_steps(self):
        try:
            from hypothesis import settings, stateful, strategies
        except ModuleNotFoundError:
            self.skipTest("hypothesis is not installed (Debian: python3-hypothesis)")
        every = operations() | mishaps(0) | mishaps(1)
        faults = strategies.tuples(strategies.integers(1, 10), strategies.sampled_from(FAULTS))

        class Fleet(stateful.RuleBasedStateMachine):
            def __init__(self):
                super().__init__()
                self.world = World(2)

            @stateful.rule(name=strategies.sampled_from(sorted(every)))
            def step(self, name):
                every[name](self.world)

            @stateful.rule(number=strategies.integers(0, 1), fault=faults)
            def fault(self, number, fault):
                self.world.hosts[number].run(*fault)

            @stateful.invariant()
            def holds(self):
                self.world.check()

            def teardown(self):
                self.world.check_end(self.world.settle())

        settled = settings(
            max_examples=100, stateful_step_count=25, derandomize=True, deadline=None, database=None
        )
        stateful.run_state_machine_as_test(Fleet, settings=settled)


if __name__ == "__main__":
    unittest.main()
