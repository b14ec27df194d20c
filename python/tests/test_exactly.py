"""Searches beside exact programmes, of small elections in which much is just kept: where there are prices they end in prices,
and else in a refutation. And the smallest relaxations, beside pabutools' own, stated exactly."""
import collections
import importlib.util
import random
import unittest
from fractions import Fraction
from types import SimpleNamespace
from unittest import mock

import pbaudit
from exact_programme import UNBOUNDED, conditions, has_prices, largest, smallest
from finding_cases import Case, is_refutation
from test_finding_interior import problem_of_case
from test_relaxing import values

HAS_SCIPY = unittest.skipUnless(importlib.util.find_spec("scipy"), "scipy isn't installed")
FORMS = [(stable, cover) for stable in (False, True) for cover in (False, True)]


def small_cases(seeds):
    """Up to six voters and five projects, with few different costs, so that ties are frequent, and any outcome within the
    limit."""
    for seed in range(seeds):
        chance = random.Random(f"exactly/{seed}")
        voters, count = chance.randint(1, 6), chance.randint(1, 5)
        costs = [chance.choice(chance.choice([[1, 2, 3], [2], [0, 1, 4], [Fraction(1, 2), Fraction(7, 10)]]))
                 for _ in range(count)]
        ballots = [[at for at in range(count) if chance.random() < 0.6] for _ in range(voters)]
        limit = chance.choice([sum(costs), sum(costs) * Fraction(1, 2), Fraction(voters), max(costs)])
        yield Case(f"exactly {seed}", costs, limit, ballots, chosen(chance, costs, limit))


def far_cases(seeds):
    """The same with costs from a millionth to millions."""
    for seed in range(seeds):
        chance = random.Random(f"far/{seed}")
        voters, count = chance.randint(1, 7), chance.randint(1, 6)
        costs = [chance.randint(1, 9) * Fraction(10) ** chance.choice([-6, -6, -3, 0, 3, 6]) for _ in range(count)]
        ballots = [[at for at in range(count) if chance.random() < 0.6] for _ in range(voters)]
        limit = chance.choice([sum(costs), max(costs), round(sum(costs) / 2, 6)])
        yield Case(f"far {seed}", costs, limit, ballots, chosen(chance, costs, limit))


def chosen(chance, costs, limit):
    """Some projects within the limit, by chance."""
    funded = []
    for at in chance.sample(range(len(costs)), len(costs)):
        if costs[at] + sum(costs[each] for each in funded) <= limit and chance.random() < 0.7:
            funded.append(at)
    return funded


class Programmes(unittest.TestCase):
    """The programme that tests searches, by hand."""

    def test_by_hand(self):
        for goal, rows, wanted in (
                ({"x": 1}, [({"x": 3}, 1)], Fraction(1, 3)),
                ({"x": 1, "y": 1}, [({"x": 1, "y": 2}, 4), ({"x": 3, "y": 1}, 6)], Fraction(14, 5)),
                ({"x": -1}, [({"x": -2}, -3)], Fraction(-3, 2)),
                ({"x": 1}, [({"x": 1, "y": -1}, 0)], UNBOUNDED),
                ({"x": 1}, [({"x": 1}, 1), ({"x": -1}, -2)], None),
                ({"x": 1}, [({}, -1)], None),
                ({"x": 1, "y": 5}, [({"x": 1, "y": 1}, 2), ({"x": -1, "y": -1}, -2), ({"y": 1}, 0)], 2),
                ({}, [], 0)):
            self.assertEqual(largest(goal, rows), wanted, (goal, rows))

    def test_by_which_it_could_go_in_a_circle(self):
        """Beale's example, whose steps come back to where they began unless they are chosen with care."""
        rows = [({"a": Fraction(1, 4), "b": -60, "c": -Fraction(1, 25), "d": 9}, 0),
                ({"a": Fraction(1, 2), "b": -90, "c": -Fraction(1, 50), "d": 3}, 0), ({"c": 1}, 1)]
        self.assertEqual(largest({"a": Fraction(3, 4), "b": -150, "c": Fraction(1, 50), "d": -6}, rows), Fraction(1, 20))

    def test_prices_by_hand(self):
        """Two projects of cost 5, each of half of the voters; and one that both want, beside what they pay for."""
        tie = Case("tie", [5, 5], 10, [[0]] * 5 + [[1]] * 5, [1])
        self.assertEqual([has_prices(tie, *form) for form in FORMS], [True, False, True, False])
        one = Case("one", [4, 1], 10, [[0, 1]] * 2, [0])
        self.assertEqual([has_prices(one, *form) for form in FORMS], [True, False, False, False])
        nobody = Case("nobody", [3], 3, [[]], [0])
        self.assertEqual([has_prices(nobody, *form) for form in FORMS], [False] * 4)
        # The park's supporters pay nothing, and have at least 8 together, which is 4 times what it costs.
        park = Case("park", [2, 8], 8, [[0]] * 2 + [[1]] * 2, [1])
        self.assertEqual([smallest(park, by, *form) for by in ("min_mul", "min_add") for form in FORMS], [4] * 4 + [6] * 4)


@HAS_SCIPY
class Found(unittest.TestCase):
    def check(self, made):
        """In each form a search ends in prices where there are some, and else in a refutation."""
        tally = collections.Counter()
        for case in made:
            for stable, cover in FORMS:
                with self.subTest(case=case.name, stable=stable, cover=cover):
                    wanted = has_prices(case, stable, cover)
                    found = pbaudit.find(case.file(), stable=stable, cover=cover, violation=False)
                    self.assertEqual((found.prices is not None, found.refutation is not None), (wanted, not wanted))
                    if found.refutation:
                        self.assertTrue(is_refutation(case, found.refutation, stable))
                        self.assertTrue(cover or not found.refutation.cover)
                    self.assertIn("support this outcome", found.sentences[-1])
                    tally[stable, cover, wanted] += 1
        self.assertEqual(len(tally), 8)
        self.assertGreater(min(tally.values()), 10, tally)

    def test_where_much_is_just_kept(self):
        self.check(small_cases(300))
        just = sum(smallest(case, "min_mul", True, False) == 1 for case in small_cases(300))
        self.assertGreater(just, 10)

    def test_costs_that_are_far_apart(self):
        self.check(far_cases(130))

    def test_where_floats_decide_nothing(self):
        """Fractions do, also where it isn't known of either."""
        for why in ("rounding", "unsolved", "none"):
            with mock.patch.multiple("pbaudit.finding.search", find_prices=lambda *_: (None, why),
                                     find_refutation=lambda *_: (None, why)):
                self.check(small_cases(60))


@HAS_SCIPY
class Solving(unittest.TestCase):
    def test_largest_budgets_and_weights(self):
        """In fractions: just where there are prices the largest budget, and else weights by which they are refuted."""
        from pbaudit.finding.clock import Clock
        from pbaudit.finding.exactly import solve
        from pbaudit.finding.shares import Need
        tally = collections.Counter()
        for case in (*small_cases(150), *far_cases(60)):
            problem = problem_of_case(case)
            for stable, cover in FORMS:
                with self.subTest(case=case.name, stable=stable, cover=cover):
                    found = solve(problem, Need(stable, cover), Clock(60))
                    most = largest({"budget": 1}, conditions(case, stable))
                    self.assertEqual(found.payments is not None, has_prices(case, stable, cover))
                    if found.payments is not None:
                        self.assertTrue(most in (found.budget, UNBOUNDED), most)
                    else:
                        self.assertTrue(is_refutation(case, of_weights(case, found.weights), stable))
                        self.assertEqual(bool(found.weights.cover), most is not None)
                    tally[stable, cover, found.payments is not None] += 1
        self.assertGreater(min(tally.values()), 10, tally)

    def test_too_much_for_it(self):
        """Many payments, or no time."""
        from pbaudit.finding import exactly
        from pbaudit.finding.clock import Clock
        from pbaudit.finding.programme import OutOfTime
        from pbaudit.finding.shares import Need
        over = problem_of_case(Case("over", [4, 5], 10, [[0, 1]] * 5 + [[1]] * 5, [1]))
        self.assertIsNotNone(exactly.solve(over, Need(), Clock(60)))
        with self.assertRaises(OutOfTime):
            exactly.solve(over, Need(), Clock(0))
        with mock.patch.object(exactly, "MOST_PAYMENTS", 1):
            self.assertIsNone(exactly.solve(over, Need(), Clock(60)))


def of_weights(case, weights):
    """Weights by places as a refutation by names."""
    named = {f"p{at}": weight for at, weight in weights.projects.items()}
    funded = {f"p{at}" for at in case.funded}
    return SimpleNamespace(
        least={name: weight for name, weight in named.items() if name in funded and weight > 0}, cover=weights.cover,
        most={name: -weight for name, weight in named.items() if name in funded and weight < 0},
        left={name: weight for name, weight in named.items() if name not in funded})


@HAS_SCIPY
class Relaxed(unittest.TestCase):
    def test_as_of_pabutools(self):
        """Exact prices that are looked for have a little room, and no more."""
        tally = collections.Counter()
        for case in small_cases(60):
            if not any(set(ballot) & set(case.unfunded) for ballot in case.ballots):
                continue
            for by in ("min_mul", "min_add"):
                for stable, cover in FORMS:
                    with self.subTest(case=case.name, by=by, stable=stable, cover=cover):
                        wanted, found = smallest(case, by, stable, cover), pbaudit.smallest_relaxation(
                            *values(case), by, stable=stable, cover=cover)
                        self.assertEqual(found is None, wanted is None)
                        if found:
                            # Budgets that are to be more than the limit are so by a millionth.
                            over = (found.beta - wanted) / (max(case.costs) if by == "min_add" else 1)
                            self.assertTrue(0 <= over <= Fraction(100 if cover else 3, 10**6), (found.beta, wanted))
                            tally[by, stable, cover] += 1
        self.assertGreater(min(tally.values()), 10, tally)

    def test_the_largest_budget(self):
        tally = collections.Counter()
        for case in small_cases(120):
            for stable in (False, True):
                with self.subTest(case=case.name, stable=stable):
                    if not any(set(ballot) & set(case.unfunded) for ballot in case.ballots):
                        continue
                    wanted, made = largest({"budget": 1}, conditions(case, stable)), pbaudit.largest_voter_budget(
                        *values(case), stable=stable)
                    self.assertEqual(made is None, wanted is None)
                    if made:
                        lost = wanted - made.price_system.voter_budget
                        self.assertTrue(0 <= lost <= wanted * Fraction(1, 10**4), (lost, wanted))
                    tally[stable, made is None] += 1
        self.assertGreater(min(tally.values()), 10, tally)


if __name__ == "__main__":
    unittest.main()
