"""The smallest relaxations, beside a dense linear programme over voters and what was worked out by hand."""
import importlib.util
import unittest
from fractions import Fraction

import pbaudit
from finding_cases import Case, best_margin, cases
from pbaudit import Instance, Project, largest_voter_budget, smallest_relaxation, validate_price_system
from test_corners import solved

PARK, SCHOOL = Project("park", 2), Project("school", 8)
TOWN = Instance([PARK, SCHOOL], 8), [{PARK}] * 2 + [{SCHOOL}] * 2, [SCHOOL]


def values(case):
    projects = [Project(f"p{at}", cost) for at, cost in enumerate(case.costs)]
    return (Instance(projects, case.limit), [[projects[at].name for at in ballot] for ballot in case.ballots],
            [projects[at].name for at in sorted(case.funded)])


def costing(case, by, beta):
    """The case with unfunded projects that cost so much more."""
    costs = [cost if at in case.funded else cost * beta if by == "min_mul" else max(0, cost + beta)
             for at, cost in enumerate(map(Fraction, case.costs))]
    return Case(case.name, costs, case.limit, case.ballots, case.funded)


@unittest.skipUnless(importlib.util.find_spec("scipy"), "scipy isn't installed")
class Relaxations(unittest.TestCase):
    def test_without_an_outcome(self):
        """It isn't told of a file, since none was given."""
        for call in (smallest_relaxation, largest_voter_budget, pbaudit.find):
            with self.assertRaisesRegex(TypeError, "^an instance is given, and no budget allocation$"):
                call(*TOWN[:2], None)

    def test_by_hand(self):
        """The school's supporters pay 4 each, so that the park's have at least 8 left, and it costs 2. A budget that is
        more than the limit's share makes no difference, since 4 is more than 2."""
        for by, beta in (("min_mul", 4), ("min_add", 6)):
            for stable in (False, True):
                for cover in (False, True):
                    found = smallest_relaxation(*TOWN, by, stable=stable, cover=cover)
                    self.assertTrue(beta <= found.beta <= beta + Fraction(1, 10**5), found.beta)
                    self.assertEqual(found.price_system.status, f"supported {'stable' if stable else 'priceable'}")

    def test_beside_a_dense_programme(self):
        """The prices are prices where the unfunded projects cost so much more, and by a little less there are none."""
        told = {}
        for case in (case for seed in range(6) for case in cases(seed, ((5, 4), (10, 6), (30, 10)))):
            if not any(set(ballot) & set(case.unfunded) for ballot in case.ballots):
                continue
            for by, stable, cover in (("min_mul", True, False), ("min_add", True, True), ("min_mul", False, True),
                                      ("min_add", False, False)):
                with self.subTest(case=case.name, by=by, stable=stable, cover=cover):
                    found = smallest_relaxation(*values(case), by, stable=stable, cover=cover)
                    changed = costing(case, by, found.beta)
                    paid = found.price_system
                    self.assertTrue(validate_price_system(*values(changed), paid.voter_budget, paid.payment_functions, stable,
                                                          exhaustive=False))
                    if cover:
                        self.assertGreater(paid.voter_budget * len(case.ballots), case.limit)
                    step = Fraction(1, 10**4) * (1 if by == "min_mul" else max(map(Fraction, case.costs)))
                    less = costing(case, by, found.beta - step)
                    if min(less.costs[at] for at in case.unfunded) > 0:
                        margin = best_margin(less, stable, cover)
                        self.assertTrue(margin is None or margin < 0, margin)
                        told[by, stable] = told.get((by, stable), 0) + 1
        self.assertEqual(len(told), 4)
        self.assertGreater(min(told.values()), 10)

    def test_there_are_prices(self):
        """Then it is no more than 1, or than 0, but for the room."""
        fair = Case("fair", [5, 6], 10, [[0]] * 5 + [[1]] * 5, [0])
        self.assertLess(smallest_relaxation(*values(fair)).beta, 1)
        self.assertLess(smallest_relaxation(*values(fair), "min_add").beta, 0)

    def test_decimals(self):
        park, school = Project("park", Fraction("0.02")), Project("school", Fraction("0.08"))
        town = Instance([park, school], Fraction("0.08")), [{park}] * 2 + [{school}] * 2, [school]
        self.assertAlmostEqual(float(smallest_relaxation(*town).beta), 4, 4)
        self.assertAlmostEqual(float(smallest_relaxation(*town, "min_add").beta), 0.06, 6)

    def test_merged_ballots(self):
        found = smallest_relaxation(TOWN[0], {("park",): 2, ("school",): 2}, ["school"])
        self.assertEqual(found, smallest_relaxation(*TOWN))

    def test_there_is_none(self):
        """Where nobody approves what is funded, where too much is, where what isn't funded costs nothing, and in no time."""
        free, third = Project("free", 0), Project("third", 9)
        for town in ((TOWN[0], [{PARK}], [SCHOOL]), (Instance([PARK, third], 8), [{PARK, third}], [third]),
                     (Instance([free, SCHOOL], 8), [{free}, {SCHOOL}], [SCHOOL])):
            self.assertIsNone(smallest_relaxation(*town))
        self.assertIsNone(smallest_relaxation(*TOWN, seconds=0))

    def test_what_is_refused(self):
        with self.assertRaisesRegex(ValueError, "^by is 'min_max', not"):
            smallest_relaxation(*TOWN, "min_max")
        with self.assertRaisesRegex(ValueError, "^nobody approves an unfunded project"):
            smallest_relaxation(TOWN[0], [{SCHOOL}], [SCHOOL])
        with self.assertRaisesRegex(TypeError, "^stable is 1, not True or False"):
            smallest_relaxation(*TOWN, stable=1)

    def test_progress(self):
        told = []
        smallest_relaxation(*TOWN, on_progress=lambda what, left: told.append(what))
        self.assertEqual(told[0], "smallest relaxation of stable prices: linear programme")

    def test_it_is_a_result(self):
        found = smallest_relaxation(*TOWN)
        self.assertEqual([row["payment"] for row in found.rows_of_table()], [4, 4])
        self.assertEqual(found.to_dict()["by"], "min_mul")
        with self.assertRaises(TypeError):
            hash(found)


@unittest.skipUnless(importlib.util.find_spec("scipy"), "scipy isn't installed")
class Budgets(unittest.TestCase):
    def test_by_hand(self):
        """Whatever the park's two supporters have is left, so that it is at most 1 each; in the stable form too, since
        none of them pays. The school's supporters pay 1 each."""
        park, school = Project("park", 2), Project("school", 4)
        town = Instance([park, school], 4), [{park}] * 2 + [{school}] * 4, [school]
        for stable in (False, True):
            made = largest_voter_budget(*town, stable=stable)
            self.assertTrue(1 - Fraction(1, 10**5) <= made.price_system.voter_budget <= 1, made.price_system.voter_budget)

    def test_beside_a_solver(self):
        """The budget is that of a programme over voters, but for little, and there is one where there is one."""
        told = {False: 0, True: 0}
        for case in (case for seed in range(8) for case in cases(seed, ((5, 4), (10, 6), (30, 10)))):
            if not case.funded or not any(set(ballot) & set(case.unfunded) for ballot in case.ballots):
                continue
            for stable in (False, True):
                with self.subTest(case=case.name, stable=stable):
                    made, wanted = largest_voter_budget(*values(case), stable=stable), solved(case, stable, "most", "highs-ds")
                    if wanted is None:
                        self.assertIsNone(made)
                        continue
                    budget = float(made.price_system.voter_budget)
                    self.assertTrue(wanted[0] * (1 - 1e-4) <= budget <= wanted[0] * (1 + 1e-7), (budget, wanted[0]))
                    self.assertTrue(pbaudit.audit_prices(case.file(), made.file, stable=stable, exhaustive=False))
                    told[stable] += 1
        self.assertGreater(min(told.values()), 15)

    def test_there_is_none(self):
        self.assertIsNone(largest_voter_budget(*TOWN))
        self.assertIsNone(largest_voter_budget(TOWN[0], [{PARK}], [SCHOOL]))
        with self.assertRaisesRegex(ValueError, "as large as you like"):
            largest_voter_budget(TOWN[0], [{SCHOOL}], [SCHOOL])


if __name__ == "__main__":
    unittest.main()
