"""Near prices of a solver's corners, where as many conditions as can be are just kept: what is found, how near it is, and
in what time."""
import importlib.abc
import importlib.util
import random
import sys
import time
import unittest
from array import array
from fractions import Fraction
from unittest import mock

import pbaudit
from finding_cases import Case, cases
from pbaudit import CannotKeep, Instance, Project, price_certificate, validate_price_system
from pbaudit.certificates import certified
from pbaudit.decided import DecidedElection
from pbaudit.rounding import Given
from pbaudit.settling import clock_of
from pbaudit.values import Payments, ballots_of, projects_of

# The solver's method, and the prices that it looks for: the form, and the objective.
WANTED = ((False, "least", "highs-ds"), (False, "most", "highs-ipm"), (True, "least", "highs-ipm"),
          (True, "most", "highs-ds"), (True, "any", "highs-ds"))
MILLIONTH = Fraction(1, 10**6)


def slots_of(case):
    return [(voter, at) for voter, ballot in enumerate(case.ballots) for at in ballot if at in case.funded]


def conditions(case, stable):
    """C2 and C5, or S5, as the entries of a matrix, and the right sides. Columns are payments, the voter budget and
    offers."""
    slots, most, entries = slots_of(case), [], []
    budget, mine = len(slots), [[] for _ in case.ballots]
    for at, (voter, _) in enumerate(slots):
        mine[voter].append(at)

    def row(values, limit):
        entries.extend((len(most), at, value) for at, value in values)
        most.append(float(limit))
    for voter, own in enumerate(mine):
        offer = budget + 1 + voter
        row([*((at, 1) for at in own), (budget, -1)], 0)
        row([(budget, 1), *((at, -1) for at in own), (offer, -1)], 0)
        for at in own if stable else ():
            row([(at, 1), (offer, -1)], 0)
    for project in case.unfunded:
        row([(budget + 1 + voter, 1) for voter, ballot in enumerate(case.ballots) if project in ballot],
            case.costs[project])
    return entries, most


def solved(case, stable, goal, method):
    """A voter budget and payments by HiGHS, or None where there are none."""
    import numpy
    from scipy import sparse
    from scipy.optimize import linprog
    slots, (entries, most) = slots_of(case), conditions(case, stable)
    count, size, funded = len(slots), len(slots) + 1 + len(case.ballots), sorted(case.funded)
    if not funded:
        return None
    at, columns, values = zip(*entries)
    equal = ([1.0] * count, ([funded.index(project) for _, project in slots], range(count)))
    weights = numpy.zeros(size)
    weights[:count + 1] = {"least": [0] * count + [1], "most": [0] * count + [-1]}.get(
        goal, numpy.random.RandomState(count).rand(count + 1))
    found = linprog(weights, A_ub=sparse.csr_matrix((values, (at, columns)), shape=(len(most), size)), b_ub=most,
                    A_eq=sparse.csr_matrix(equal, shape=(len(funded), size)),
                    b_eq=[float(case.costs[project]) for project in funded], method=method)
    if found.status:
        return None
    payments = [{} for _ in case.ballots]
    for (voter, project), amount in zip(slots, found.x):
        payments[voter][f"p{project}"] = amount
    return found.x[count], payments


def words(case):
    """The case as `validate_price_system` takes it."""
    return (Instance([Project(f"p{at}", cost) for at, cost in enumerate(case.costs)], case.limit),
            [[f"p{at}" for at in ballot] for ballot in case.ballots], [f"p{at}" for at in sorted(case.funded)])


def corners(seeds, sizes, wanted=WANTED, change=lambda case, seed: case):
    for seed in seeds:
        for made in cases(seed, sizes):
            case = change(made, seed)
            for stable, goal, method in wanted:
                found = solved(case, stable, goal, method)
                if found is not None:
                    yield case, stable, goal, found


def with_clones(case, seed):
    """The same with an unfunded clone of a funded project, or of two: their supporters' offers can only be what they pay,
    so that S5 is kept exactly or not at all."""
    chance, costs, ballots = random.Random(f"clones/{case.name}"), list(case.costs), [list(each) for each in case.ballots]
    for at in chance.sample(sorted(case.funded), min(len(case.funded), 1 + seed % 2)):
        for ballot in ballots:
            if at in ballot:
                ballot.append(len(costs))
        costs.append(costs[at])
    return Case(f"{case.name} with clones", costs, case.limit, ballots, case.funded)


class _NoProgramme(importlib.abc.MetaPathFinder):
    """A machine without scipy."""

    def find_spec(self, name, path=None, target=None):
        if name.split(".")[0] == "scipy" or name == "pbaudit.corrections":
            raise ImportError(f"{name} isn't installed")


def without_scipy():
    rest = {name: value for name, value in sys.modules.items() if name.split(".")[0] != "scipy"
            and name != "pbaudit.corrections"}
    return mock.patch.dict(sys.modules, rest, clear=True), mock.patch.object(sys, "meta_path", [_NoProgramme(), *sys.meta_path])


@unittest.skipUnless(importlib.util.find_spec("scipy"), "scipy isn't installed")
class Corners(unittest.TestCase):
    def test_all_are_accepted_and_near(self):
        """What comes out is off by no more than noise, by exact sums over each voter and each project."""
        told = 0
        for case, stable, goal, (budget, payments) in corners(range(10), ((5, 4), (10, 6), (20, 8), (50, 12))):
            with self.subTest(case=case.name, stable=stable, goal=goal):
                instance, profile, funded = words(case)
                verdict = validate_price_system(instance, profile, funded, budget, payments, stable, exhaustive=False,
                                                near=True)
                self.assertTrue(verdict, str(verdict))
                self.check_near(instance, profile, funded, budget, payments, stable)
                told += 1
        self.assertGreater(told, 150)

    def check_near(self, instance, profile, funded, budget, payments, stable):
        projects, costs, limit = projects_of(instance)
        decided = DecidedElection(projects.ids, costs, limit, {projects.place[name] for name in funded},
                                  ballots_of(profile, projects))
        made = certified(decided, projects, budget, Payments(payments, projects), stable, False, is_near=True)
        # Its unit may be a smaller one.
        paid = {name: sum(numerator for _, other, numerator in made.rows if other == name) for name in funded}
        dearest = max(funded, key=projects.place.__getitem__, default=None)
        if dearest is None:
            return
        unit = Fraction(paid[dearest], made.denominator) / costs[projects.place[dearest]]
        exact = {(voter, name): Fraction(numerator, made.denominator) / unit for voter, name, numerator in made.rows}
        has = Fraction(str(float(budget)))
        self.assertLessEqual(abs(Fraction(made.voter_budget, made.denominator) / unit - has), has * MILLIONTH)
        by_voter, by_project = [Fraction(0)] * len(profile), dict.fromkeys(funded, Fraction(0))
        for voter, mine in enumerate(payments, 1):
            for name, amount in mine.items():
                moved = abs(exact.get((voter, name), 0) - Fraction(str(float(amount))))
                by_voter[voter - 1] += moved
                by_project[name] += moved
        self.assertLessEqual(max(by_voter), has * MILLIONTH)
        for name, moved in by_project.items():
            self.assertLessEqual(moved, costs[projects.place[name]] * MILLIONTH)

    def test_large_ones_take_little_time(self):
        """300 voters and 40 projects, each within 2 s of a processor, also where a certificate is made."""
        told = 0
        for case, stable, goal, given in corners((5,), ((300, 40),), WANTED[3:]):
            for ask in (lambda *all_: validate_price_system(*all_, near=True), price_certificate):
                with self.subTest(case=case.name, goal=goal, ask=ask.__name__):
                    began = time.process_time()
                    self.assertTrue(ask(*words(case), *given, stable, False))
                    self.assertLess(time.process_time() - began, 2)
                    told += 1
        self.assertGreater(told, 10)

    def test_what_is_kept_exactly_or_not_at_all(self):
        told = kept = 0
        for case, stable, goal, given in corners(range(24), ((6, 4), (12, 6), (30, 8)), WANTED[2:], with_clones):
            with self.subTest(case=case.name, goal=goal):
                told += 1
                try:
                    found = validate_price_system(*words(case), *given, stable, False, near=True)
                except CannotKeep:
                    kept += 1
                    continue
                self.assertEqual(str(found), "supported stable")
        self.assertGreater(told, 100)
        self.assertLess(kept, 3)

    def test_each_condition_has_the_room_that_it_can_have(self):
        """The clone of a is kept exactly at best, by offers that are payments for a. So what voter 1 pays for c has to be
        less than that, though both were the same: rounding could lift it above."""
        from pbaudit.corrections import Reach, corrected
        names, x, y = ["a", "c", "clone"], Fraction("3.41234545145"), Fraction("2.111111274275")
        costs = [Fraction(7), x + 2 * y, Fraction(7)]
        decided = DecidedElection(names, costs, sum(costs), {0, 1}, [[0, 1, 2], [0, 2], [1], [1]])
        amounts = [x, x, 7 - x, y, y]
        given = Given(amounts, array("d", map(float, amounts)), Fraction(7), 7 * MILLIONTH)
        found = corrected(decided, given, True, Reach(7e-6, 10**9, True), clock_of(30))
        for_a, for_c, of_2, *others = found.amounts
        self.assertGreaterEqual(for_a - for_c, Fraction(7, 10**11))
        self.assertLessEqual(abs(for_a + of_2 - 7), Fraction(2, 10**9))
        self.assertLessEqual(abs(for_c + sum(others) - costs[1]), Fraction(3, 10**9))

    def test_any_currency(self):
        """Prices are found wherever the point stands."""
        case, stable, _, (budget, payments) = next(corners((5,), ((100, 20),), WANTED[3:4]))
        for unit in (Fraction(1, 10**6), Fraction(1, 3), Fraction(2, 10**9 + 7), 1000):
            instance = Instance([Project(f"p{at}", Fraction(cost) * unit) for at, cost in enumerate(case.costs)],
                                Fraction(case.limit) * unit)
            paid = [{name: float(amount * unit) for name, amount in mine.items()} for mine in payments]
            found = validate_price_system(instance, *words(case)[1:], float(budget * unit), paid, stable, False, near=True)
            self.assertEqual(str(found), "supported stable", unit)


@unittest.skipUnless(importlib.util.find_spec("scipy"), "scipy isn't installed")
class Limits(unittest.TestCase):
    def a_corner(self, voters, projects):
        """One that rounding alone doesn't settle."""
        return next(corners((5,), ((voters, projects),), WANTED[4:]))

    def test_the_time_is_kept_without_the_programme(self):
        """A repair by moves that would take minutes ends in time, and says why."""
        case, stable, _, given = self.a_corner(300, 40)
        began = time.process_time()
        for patch in without_scipy():
            patch.start()
            self.addCleanup(patch.stop)
        with self.assertRaisesRegex(CannotKeep, "^S5: .*; there was too little time to look for other payments near these$"):
            validate_price_system(*words(case), *given, stable, False, near=True, seconds=0.5)
        self.assertLess(time.process_time() - began, 3)

    def test_small_ones_need_no_programme(self):
        found = []
        made = list(corners(range(4), ((5, 4), (10, 6)), WANTED[2:]))
        for patch in without_scipy():
            patch.start()
            self.addCleanup(patch.stop)
        for case, stable, _, given in made:
            found.append(str(validate_price_system(*words(case), *given, stable, False, near=True)))
        self.assertEqual(set(found), {"supported stable"})

    def test_no_time(self):
        """What needs no repair is answered nevertheless, and a plain no."""
        case, stable, _, (budget, payments) = self.a_corner(100, 20)
        with self.assertRaisesRegex(CannotKeep, "too little time"):
            validate_price_system(*words(case), budget, payments, stable, False, near=True, seconds=0)
        town, profile = Instance([Project("a", 6), Project("b", 4)], 10), [["a", "b"], ["a"], ["b"]]
        paid = [{"a": 2.0, "b": 2.0}, {"a": 4.0000000001}, {"b": 2.0}]
        self.assertTrue(validate_price_system(town, profile, ["a", "b"], 4.0, paid, near=True, seconds=0))
        self.assertEqual(price_certificate(town, profile, ["a", "b"], 4.0, paid, seconds=0).voter_budget, 400)
        paid[2] = {"b": 1.0}
        self.assertEqual(str(validate_price_system(town, profile, ["a", "b"], 4.0, paid, near=True, seconds=0)),
                         "failed C3 project b")

    def test_progress(self):
        case, stable, _, given = self.a_corner(100, 20)
        told = []
        validate_price_system(*words(case), *given, stable, False, near=True, seconds=600,
                              on_progress=lambda what, left: told.append((what, left)))
        self.assertRegex("\n".join(what for what, _ in told), "(?s)^rounding over .*linear programme over [0-9]+ payments")
        lefts = [left for _, left in told]
        self.assertEqual(lefts, sorted(lefts, reverse=True))
        self.assertTrue(0 < lefts[-1] < lefts[0] <= 600)

    def test_what_is_no_time(self):
        case = Instance([Project("a", 6)], 6), [["a"]], ["a"], 6.0, [{"a": 6.0}]
        for ask in (validate_price_system, price_certificate):
            for seconds, error in ((-1, ValueError), (float("nan"), ValueError), ("2", TypeError), (True, TypeError)):
                with self.assertRaisesRegex(error, "^seconds is "):
                    ask(*case, seconds=seconds)
            with self.assertRaisesRegex(TypeError, "^on_progress is 7"):
                ask(*case, on_progress=7)

    def test_the_clock_runs(self):
        clock = clock_of(600)
        first = clock.left()
        time.sleep(0.01)
        self.assertTrue(0 < clock.left() <= first - 0.01 < 600)
        self.assertEqual(clock_of(0).left(), 0)


if __name__ == "__main__":
    unittest.main()
