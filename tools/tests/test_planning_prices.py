"""The optimum against each placement that there is, its bound by weak duality, and the stable map of its lists."""

import itertools
import os
import random
import unittest

try:
    import numpy as np
except ImportError:
    raise unittest.SkipTest("python3-numpy is not installed") from None

from glb_tools.options import Fault
from glb_tools.planning import prices
from glb_tools.planning.lists import by_price, by_round_trip
from glb_tools.planning.prices import Problem, bound, cost_of, solved

UNPLACED = 400


def have_highs():
    try:
        import scipy.optimize  # noqa: F401
    except ImportError:
        return False
    return True


def solvers(case):
    """Each solver that this machine has; those that it lacks are told."""
    found = [("simplex", None)] if prices.program() else []
    if have_highs():
        found.append(("HiGHS", ""))
    if not found:
        case.skipTest("neither glb-prices is built nor python3-scipy installed")
    return found


class Solver:
    """Has `solved` use glb-prices, or HiGHS where `named` is empty."""

    def __init__(self, named):
        self.named = named

    def __enter__(self):
        self.before = os.environ.get("GLB_PRICES")
        if self.named is not None:
            os.environ["GLB_PRICES"] = self.named

    def __exit__(self, *_):
        if self.named is not None:
            del os.environ["GLB_PRICES"]
            if self.before is not None:
                os.environ["GLB_PRICES"] = self.before


def problem_of(demand, offers, capacity, parent, unplaced=UNPLACED):
    """Offers as unit, pool, cost and limit, in the order of units."""
    columns = np.array(offers, np.int64).reshape(-1, 4)
    return Problem(
        np.array(demand, np.int64),
        *(columns[:, at] for at in range(4)),
        np.array(capacity, np.int64),
        np.array(parent, np.int64),
        unplaced,
    )


def made(draw, units, pools, most_demand, has_limits=True, ties=False):
    """A small problem: two regions under one root, and pools under them or alone."""
    parent = [-1, 0, 0] + [draw.choice([-1, 1, 2]) for _ in range(pools)]
    demand = [draw.randint(1, most_demand) for _ in range(units)]
    room = sum(demand)
    capacity = [draw.choice([0, draw.randint(1, room), room]) for _ in parent]
    offers = []
    for unit in range(units):
        for pool in sorted(draw.sample(range(3, 3 + pools), draw.randint(1, pools))):
            cost = draw.choice([10, 20, 30]) if ties else draw.randint(0, UNPLACED - 1)
            limit = (
                draw.randint(1, demand[unit]) if has_limits and draw.random() < 0.4 else 2**32 - 1
            )
            offers.append((unit, pool, cost, limit))
    return problem_of(demand, offers, capacity, parent)


def least_of_all(problem):
    """The least cost, by trying each placement."""
    ways = []
    for unit, demand in enumerate(problem.demand.tolist()):
        mine = [at for at in range(len(problem.unit)) if problem.unit[at] == unit]
        ranges = [range(min(demand, int(problem.limit[at])) + 1) for at in mine]
        ways.append([(mine, some) for some in itertools.product(*ranges) if sum(some) <= demand])
    best = None
    for choice in itertools.product(*ways):
        load = [0] * len(problem.capacity)
        cost = int(problem.demand.sum()) * problem.unplaced
        for mine, some in choice:
            for at, units in zip(mine, some):
                cost += units * (int(problem.cost[at]) - problem.unplaced)
                node = int(problem.pool[at])
                while node >= 0:
                    load[node] += units
                    node = int(problem.parent[node])
        if all(held <= most for held, most in zip(load, problem.capacity)):
            best = cost if best is None else min(best, cost)
    return best


def dual_value(problem, price):
    """The bound of these prices, unit by unit: each takes its cheapest offers, as the prices have them."""
    value = -sum(int(p) * int(c) for p, c in zip(price, problem.capacity))
    for unit, demand in enumerate(problem.demand.tolist()):
        offers = []
        for at in range(len(problem.unit)):
            if problem.unit[at] == unit:
                cost, node = int(problem.cost[at]), int(problem.pool[at])
                while node >= 0:
                    cost, node = cost + int(price[node]), int(problem.parent[node])
                offers.append((cost, int(problem.limit[at])))
        for cost, limit in sorted(offers):
            units = min(limit, demand) if cost < problem.unplaced else 0
            value, demand = value + units * cost, demand - units
        value += demand * problem.unplaced
    return value


def stable(problem, lists):
    """A stable placement by proposals: each full node gives up whom it ranks last."""
    order = [[] for _ in problem.demand]
    score = {}
    for offer, value in zip(lists.offer.tolist(), lists.score.tolist()):
        order[problem.unit[offer]].append(offer)
        score[offer] = value, int(problem.unit[offer]), int(problem.pool[offer])
    flow = {offer: 0 for offer in score}
    refused = set()

    def nodes_of(offer):
        node = int(problem.pool[offer])
        while node >= 0:
            yield node
            node = int(problem.parent[node])

    def next_of(unit):
        """The units that are left, and the best offer that has not refused the unit and is below its limit."""
        left = int(problem.demand[unit]) - sum(flow[offer] for offer in order[unit])
        for offer in order[unit]:
            if left and offer not in refused and flow[offer] < problem.limit[offer]:
                return min(left, int(problem.limit[offer]) - flow[offer]), offer
        return 0, None

    waiting = list(range(len(order)))
    while waiting:
        units, offer = next_of(waiting[-1])
        if offer is None:
            waiting.pop()
            continue
        flow[offer] += units
        for node in nodes_of(offer):
            held = sorted(
                (at for at in flow if flow[at] and node in nodes_of(at)), key=lambda at: score[at]
            )
            over = sum(flow[at] for at in held) - int(problem.capacity[node])
            while over > 0:
                worst = held.pop()
                gone = min(over, flow[worst])
                flow[worst], over = flow[worst] - gone, over - gone
                refused.add(worst)
                waiting.append(int(problem.unit[worst]))
    found = np.zeros(len(problem.unit), np.int64)
    for offer, units in flow.items():
        found[offer] = units
    return found


class Optimum(unittest.TestCase):
    def test_a_node_that_is_full_has_the_price_of_the_way_round(self):
        # 8 and 8 units want the pool of 10; the other is 25 - 5 further away for the first and 7 - 4 for the second
        problem = problem_of(
            [8, 8],
            [(0, 0, 5, 99), (0, 1, 25, 99), (1, 0, 4, 99), (1, 1, 7, 99)],
            [10, 10],
            [-1, -1],
        )
        for name, named in solvers(self):
            with self.subTest(name), Solver(named):
                plan = solved(problem)
                self.assertEqual(plan.flow.tolist(), [8, 0, 2, 6])
                self.assertEqual(plan.price.tolist(), [3, 0])
                self.assertEqual((plan.cost, plan.bound), (8 * 5 + 2 * 4 + 6 * 7,) * 2)

    def test_a_region_without_room_has_the_price_and_not_its_pools(self):
        problem = problem_of([8], [(0, 1, 5, 99), (0, 2, 6, 99)], [5, 10, 10], [-1, 0, 0])
        for name, named in solvers(self):
            with self.subTest(name), Solver(named):
                plan = solved(problem)
                self.assertEqual((plan.flow.tolist(), plan.left.tolist()), ([5, 0], [3]))
                self.assertEqual(plan.price.tolist(), [UNPLACED - 5, 0, 0])

    def test_each_placement_of_small_problems(self):
        draw = random.Random(7)
        for name, named in solvers(self):
            for number in range(60):
                problem = made(
                    draw, draw.randint(1, 3), draw.randint(1, 3), 3, ties=number % 2 == 0
                )
                with self.subTest(name, number=number), Solver(named):
                    plan = solved(problem)
                    self.assertEqual(plan.cost, least_of_all(problem))
                    self.assertEqual(plan.bound, plan.cost)
                    self.assertEqual(plan.cost, cost_of(problem, plan.flow))

    def test_the_bound_of_any_prices(self):
        draw = random.Random(8)
        for number in range(200):
            problem = made(draw, draw.randint(1, 3), draw.randint(1, 3), 2)
            price = np.array([draw.choice([0, draw.randint(0, 500)]) for _ in problem.capacity])
            with self.subTest(number=number):
                self.assertEqual(bound(problem, price), dual_value(problem, price))
                if number < 40:
                    self.assertLessEqual(bound(problem, price), least_of_all(problem))

    def test_both_solvers_on_larger_problems(self):
        found = solvers(self)
        if len(found) < 2:
            self.skipTest("one of glb-prices and python3-scipy is missing")
        draw = random.Random(9)
        for number in range(8):
            problem = made(draw, 60, 12, 1000)
            costs = []
            for _, named in found:
                with Solver(named):
                    plan = solved(problem)
                    self.assertEqual(plan.bound, dual_value(problem, plan.price))
                    self.assertEqual(plan.bound, plan.cost)
                    costs.append(plan.cost)
            self.assertEqual(*costs)

    def test_the_largest_numbers(self):
        most = 2**32 - 1
        problem = problem_of(
            [most] * 3,
            [(unit, 0, 59_999_999, most) for unit in range(3)],
            [2**48, 2**48],
            [-1, -1],
            60_000_000,
        )
        for name, named in solvers(self):
            if name == "HiGHS":
                # its numbers have some sixteen digits
                continue
            with self.subTest(name), Solver(named):
                plan = solved(problem)
                self.assertEqual(plan.cost, 3 * most * 59_999_999)
                self.assertEqual(plan.bound, plan.cost)

    def test_a_program_that_fails(self):
        problem = problem_of([1], [(0, 0, 1, 1)], [1], [-1])
        for named, why in (
            ("/nowhere/glb-prices", "/nowhere/glb-prices: No such file or directory"),
            ("/bin/true", "/bin/true: no optimum: it ended with status 0"),
            ("/bin/false", "/bin/false: no optimum: it ended with status 1"),
        ):
            with self.subTest(named), Solver(named), self.assertRaises(Fault) as caught:
                solved(problem)
            self.assertEqual(str(caught.exception), why)

    def test_a_time_that_is_over(self):
        import tempfile
        from pathlib import Path

        problem = problem_of([1], [(0, 0, 1, 1)], [1], [-1])
        with tempfile.TemporaryDirectory() as folder:
            slow = Path(folder) / "slow"
            slow.write_text("#!/bin/sh\nexec sleep 20\n")
            slow.chmod(0o755)
            with Solver(str(slow)), self.assertRaises(Fault) as caught:
                solved(problem, 0.2)
        self.assertEqual(
            str(caught.exception), "no optimum within 0.2 seconds: give it more with --seconds"
        )


class StableMaps(unittest.TestCase):
    def test_the_map_of_the_prices_is_an_optimum(self):
        """Of both solvers nearly always; where demand and capacity are the same to the unit, ties may be broken otherwise."""
        draw = random.Random(10)
        for name, named in solvers(self):
            others = []
            for number in range(60):
                size = draw.randint(2, 12), draw.randint(2, 6), 40
                problem = made(draw, *size, has_limits=False, ties=number % 2 == 0)
                with Solver(named):
                    plan = solved(problem)
                cost = cost_of(problem, stable(problem, by_price(problem, plan, 16, 1.0)))
                self.assertGreaterEqual(cost, plan.cost)
                if cost > plan.cost:
                    others.append((number, cost, plan.cost))
            with self.subTest(name):
                self.assertLessEqual(len(others), 0 if name == "simplex" else 2, others)

    def test_the_map_of_the_round_trips_need_not_be(self):
        # the pool of 10 keeps the nearer group, for which the way round is short
        problem = problem_of(
            [8, 8],
            [(0, 0, 5, 99), (0, 1, 25, 99), (1, 0, 4, 99), (1, 1, 7, 99)],
            [10, 10],
            [-1, -1],
        )
        for name, named in solvers(self):
            with self.subTest(name), Solver(named):
                plan = solved(problem)
                near = stable(problem, by_round_trip(problem, 16))
                self.assertEqual(near.tolist(), [2, 6, 8, 0])
                self.assertEqual(cost_of(problem, near) - plan.cost, 6 * 20 - 6 * 3)
                priced = stable(problem, by_price(problem, plan, 16, 1.0))
                self.assertEqual(priced.tolist(), [8, 0, 2, 6])

    def test_with_limits_it_is_near(self):
        draw = random.Random(11)
        total = best = 0
        for name, named in solvers(self)[:1]:
            for _ in range(30):
                problem = made(draw, draw.randint(2, 12), draw.randint(2, 6), 40)
                with Solver(named):
                    plan = solved(problem)
                total += cost_of(problem, stable(problem, by_price(problem, plan, 16, 1.0)))
                best += plan.cost
        self.assertLessEqual(total, 1.02 * best)


class Lists(unittest.TestCase):
    def test_lengths_and_ranges(self):
        draw = random.Random(12)
        for name, named in solvers(self)[:1]:
            problem = made(draw, 50, 20, 1000)
            with Solver(named):
                lists = by_price(problem, solved(problem), 3, 0.5)
            units = problem.unit[lists.offer]
            self.assertTrue((np.diff(units) >= 0).all())
            offered = np.minimum(np.bincount(problem.unit), 3)
            self.assertEqual(np.bincount(units).tolist(), offered.tolist())
            self.assertTrue((lists.score >= 0).all() and (lists.score < 2**32).all())

    def test_scores_of_the_dearest_offers_are_in_range(self):
        problem = problem_of(
            [1, 2**32 - 1],
            [(0, 0, 60_000_000, 9), (0, 1, 0, 9), (1, 1, 60_000_000, 2**32 - 1)],
            [1, 1],
            [-1, -1],
            60_000_000,
        )
        for name, named in solvers(self)[:1]:
            with Solver(named):
                lists = by_price(problem, solved(problem), 16, 1.0)
            self.assertTrue((lists.score > 0).all() and (lists.score < 2**32 - 1).all())


if __name__ == "__main__":
    unittest.main()
