"""Whose number stands for a node: each order in which it goes down, is drained, is set by hand, and back, in both kinds of log."""

import itertools
import random
import unittest
from unittest import mock

import test_drain
from fleet_world import Client, Table
from glb_tools.drain import main
from glb_tools.history import topology_at, with_numbers
from glb_tools.log import Log, Names, Signed, checksum_of
from glb_tools.precedence import Holder, holder, is_by_hand
from glb_tools.topology import Topology
from glb_tools.watch import Watch
from glb_tools.watch_engine import Answer
from glb_tools.watch_logs import FileLog, FleetLog
from glb_tools.watch_rules import settings_of

SETTINGS = b"""
prometheus = "http://127.0.0.1:1"
[calm]
hold = 0
flap = 0
[brake]
tree = 100
all = 100
[[capacity]]
query = "q"
label = "l"
names = ["a"]
down_after = 2
up_after = 2
up_step = 50
dead_band = 0
"""


class TheTable(unittest.TestCase):
    def test_by_hand_down_drained_measured(self):
        for by_hand, down, drained, due in (
            (False, False, False, Holder.MEASURED),
            (False, False, True, Holder.DRAIN),
            (False, True, False, Holder.DOWN),
            (False, True, True, Holder.DOWN),
            (True, False, False, Holder.HAND),
            (True, False, True, Holder.HAND),
            (True, True, False, Holder.HAND),
            (True, True, True, Holder.HAND),
        ):
            with self.subTest(by_hand=by_hand, down=down, drained=drained):
                self.assertIs(holder(by_hand, down, drained), due)

    def test_what_was_set_by_hand(self):
        for number, author, drain, due in (
            (5, "", (), False),
            (5, "glb-watch", (), False),
            (5, "ops", (), True),
            # the drain's own steps, the last of which may not be there yet
            (5, "ops", (9, 5), False),
            (9, "ops", (9, 5), False),
            (7, "ops", (9, 5), True),
            (7, "glb-watch", (9, 5), False),
            (0, "ops", (9, 5), True),
        ):
            with self.subTest(number=number, author=author, drain=drain):
                self.assertIs(is_by_hand(number, author, drain), due)


class Model:
    """What should stand, as docs/operating/out-of-service.md says it: an own reckoning of the events."""

    def __init__(self):
        self.hand, self.drain, self.is_down, self.before = None, None, False, 60
        self.handed, self.number = False, 60

    def stands(self):
        if self.hand is not None:
            return self.hand
        if self.is_down:
            return 0
        return 60 if self.drain is None else self.drain

    def down(self):
        self.is_down = True

    def up(self):
        self.is_down = False

    def by_hand(self):
        self.hand = 33

    def hand_back(self):
        self.hand = None

    def begin(self):
        """One of two steps of a drain, from the load: of 40 units as many as there is capacity for."""
        if self.drain is not None:
            return
        now = self.stands()
        if now == 0 and self.hand is None and self.is_down:
            self.before, self.drain = self.number or 60, 0
        else:
            load = min(now, 40)
            self.before, self.drain = now, load - -(-load // 2)
        self.handed, self.hand = self.hand is not None, None

    def end(self):
        """All the way back, but where it is down or somebody set another number; without a drain to what the topology has."""
        if self.hand is not None and self.drain is not None:
            return
        if self.drain is None:
            # to the topology's number, which is by hand where that of before was
            self.hand = None if self.hand is None else 60
            return
        if self.is_down and self.drain:
            # glb-watch took it out: the drain waits
            return
        self.drain, self.hand = None, self.before if self.handed else None


class Orders(test_drain.Played):
    """The real commands, but the program, over a log of each kind."""

    EVENTS = ("down", "up", "by_hand", "hand_back", "begin", "end")

    def setUp(self):
        super().setUp()
        self.settings, self.watched = settings_of(SETTINGS, "watch.toml"), None
        self.topology = self.file("t", test_drain.WORLD)
        self.path = self.folder / "changes.log"
        for name, new in (
            ("glb_tools.plan.map_at", self.map_at),
            ("glb_tools.drain.etcd_of", lambda options: self.log.etcd),
            ("glb_tools.drain_stores.WORD", 0),
        ):
            patch = mock.patch(name, new)
            patch.start()
            self.addCleanup(patch.stop)

    def map_at(self, log, number, glb):
        return test_drain.placed(topology_at(log, log.look(), number))

    def call(self, do, is_etcd=False):
        return do()

    def begin_log(self, kind):
        if self.watched:
            self.watched.end()
        self.kind, self.value, self.now = kind, 60.0, 1000.0
        self.clock.at_sleep = lambda: None
        if kind == "file":
            self.path.write_text("")
            self.path.with_name("changes.log.drains").unlink(missing_ok=True)
        else:
            self.table = Table()
            self.log = Log(Client(self, self), "glb")
            base = with_numbers(self.log, test_drain.WORLD.encode(), "new")
            found = Topology(base)
            names = Names(list(found.unit_at), list(found.node_at))
            self.log.put_file("file", checksum_of(base), base)
            self.log.put_file("names", checksum_of(base), names.octets())
            self.log.append_base("base", Signed("ops"), base)
        self.watched = None
        self.restart()

    def restart(self):
        """Another glb-watch begins, from what is served."""
        if self.watched:
            self.watched.end()
        if self.kind == "file":
            self.watched = FileLog(str(self.path), self.topology, is_alone=True, is_read_only=False)
            self.addCleanup(self.watched.end)
        else:
            self.watched = FleetLog(self.log)
        self.watch = Watch(self.settings, self.watched, self.ask)

    def ask(self, rules):
        return {place: Answer({"a": self.value}) for place in rules}

    def settle(self):
        """Looks until nothing comes for longer than anything waits for."""
        quiet = 0
        while quiet < 4:
            quiet = 0 if self.watch.append(self.watch.look()) else quiet + 1

    def served(self):
        return self.watched.read().numbers["capacity", "a"]

    def drain(self, *words):
        """A drain that is ended where it waits for long."""
        waits = itertools.count()

        def sleeps():
            if next(waits) > 2 or "--back" not in words:
                raise KeyboardInterrupt

        self.clock.at_sleep = sleeps
        of = ["--of-log", self.topology, self.path] if self.kind == "file" else []
        return self.run_main(
            main, "a", *of, "--author", "ops", "--why", "x", "--over", "2m", *words
        )

    def down(self):
        self.value = 0.0

    def up(self):
        self.value = 60.0

    def by_hand(self):
        if self.kind == "file":
            with self.path.open("a") as file:
                file.write("capacity a 33\ncommit\n")
        else:
            ident = f"hand{self.table.revision}"
            self.log.append(ident, Signed("else"), "capacity a 33\n", lambda names: None)

    def hand_back(self):
        self.watch.hand_back(["a"], False)

    def begin(self):
        self.drain()

    def end(self):
        self.drain("--back", "--over", "0")

    def play(self, kind, events, restarts):
        self.begin_log(kind)
        model = Model()
        for event in events:
            model.number = self.served()
            getattr(model, event)()
            getattr(self, event)()
            if restarts:
                self.restart()
            self.settle()
            self.assertEqual(self.served(), model.stands(), (kind, restarts, events, event))

    def test_each_order(self):
        orders = [each for size in (1, 2, 3) for each in itertools.permutations(self.EVENTS, size)]
        longer = list(itertools.permutations(self.EVENTS, 5))
        orders += random.Random(1).sample(longer, 60)
        for at, events in enumerate(orders):
            with self.subTest(events):
                self.play(("file", "fleet")[at % 2], events, at % 4 < 2)


if __name__ == "__main__":
    unittest.main()
