"""What the interior-point method stands on: weights weighed by the voters, what voters do with their budgets, whole weights,
and the clock; and what it decides."""
import importlib.util
import random
import subprocess
import sys
import unittest
from fractions import Fraction
from types import SimpleNamespace
from unittest import mock

import pbaudit
from finding_cases import Case, best_margin, cases, gain, is_refutation, odd_cases

HAS_SCIPY = unittest.skipUnless(importlib.util.find_spec("scipy"), "scipy isn't installed")
# Has few ballots decided by the method too, and not by water-filling before.
FOR_FEW = mock.patch.multiple("pbaudit.finding.deciding", MANY=0, MANY_STABLE=0)
NO_WATER_FILLING = mock.patch.multiple("pbaudit.finding.prices", by_water_filling=lambda *_: (None, []))
FORMS = [(stable, cover) for stable in (False, True) for cover in (False, True)]
# Below this, what is left to spare may be lost by rounding.
SPARE = 1e-4


def problem_of_case(case):
    from pbaudit.decided import DecidedElection
    from pbaudit.finding.groups import groups_of
    from pbaudit.finding.shares import problem_of
    from pbaudit.values import Ballots
    names = [f"p{at}" for at in range(len(case.costs))]
    costs = [Fraction(cost) for cost in case.costs]
    decided = DecidedElection(names, costs, Fraction(case.limit), case.funded, Ballots(case.ballots))
    return problem_of(decided, groups_of(decided))


def some_problems():
    """Problems with whole weights, many of them equal, 0 or below 0."""
    from pbaudit.finding.voters import Weights
    import numpy
    for seed in range(12):
        chance = random.Random(seed)
        for case in cases(seed, ((10, 5), (20, 10), (30, 12))):
            problem = problem_of_case(case)
            yield case, problem, Weights(
                *(numpy.array([chance.randint(low, 8) for _ in places], float)
                  for low, places in ((-8, problem.funded), (0, problem.unfunded))), chance.randint(0, 4))


def each_voter(case, problem, weights):
    """What is known of each voter by the definitions: the weights of its funded projects, and Z."""
    funded, unfunded = (dict(zip(places, given.tolist())) for places, given in (
        (problem.funded, weights.funded), (problem.unfunded, weights.unfunded)))
    for ballot in case.ballots:
        yield ([int(funded.get(at, 0)) for at in ballot if at in case.funded],
               int(sum(unfunded.get(at, 0) for at in ballot if at not in case.funded)))


@HAS_SCIPY
class Weighing(unittest.TestCase):
    def test_whole_contributions_as_they_are_defined(self):
        """U(i) and X(i) less Z(i)."""
        from pbaudit.finding.voters import Voters
        for case, problem, weights in some_problems():
            for stable in (False, True):
                found = Voters(problem, stable).whole_contributions(weights)
                wanted = [gain(signed, left, stable) - left for signed, left in each_voter(case, problem, weights)]
                self.assertEqual(found[problem.groups.of_voter].tolist(), wanted)

    def test_great_weights(self):
        """Exact also where floats aren't."""
        from pbaudit.finding.voters import Voters, Weights
        for case, problem, weights in some_problems():
            great = Weights(weights.funded * 10**11 + 1, weights.unfunded * 10**11 + 1, 0)
            for stable in (False, True):
                found = Voters(problem, stable).whole_contributions(great)
                wanted = [gain(signed, left, stable) - left for signed, left in each_voter(case, problem, great)]
                self.assertEqual(found[problem.groups.of_voter].tolist(), wanted)

    def test_contributions(self):
        """The plain ones are whole with the weights. Of the stable ones what is paid is worth just what it costs."""
        from pbaudit.finding.voters import Voters
        for case, problem, weights in some_problems():
            plain, stable = (Voters(problem, each).contributions(weights)[problem.groups.of_voter] for each in (False, True))
            for most, value, (signed, left) in zip(plain, stable, each_voter(case, problem, weights)):
                self.assertEqual(most, gain(signed, left, False) - left)
                self.assertLessEqual(value, most + 1e-9)
                over = sum(max(0, weight - value) for weight in signed)
                self.assertAlmostEqual(max(over, left + min(value, 0)), left + min(value, 0))
                if value > -left:
                    self.assertAlmostEqual(over, left + min(value, 0))

    def test_how_great_weights_can_be(self):
        """By the greatest part U2 holds, and where that isn't 0, nor as great as is tried, not by one that is twice as
        great."""
        from pbaudit.finding.voters import DOUBLINGS, Voters
        parts = []
        for _, problem, weights in some_problems():
            for stable in (False, True):
                voters = Voters(problem, stable)
                part = voters.greatest(weights)
                self.assertLessEqual(voters.total(weights.scaled(part)), 1e-6)
                parts.append(part)
                if 0 < part < 2**DOUBLINGS:
                    self.assertGreater(voters.total(weights.scaled(max(2 * part, 1.0))), -1e-6)
        self.assertTrue(any(part > 0.01 for part in parts))


@HAS_SCIPY
class Spending(unittest.TestCase):
    def test_prices_at_every_step(self):
        """What is funded is paid for, nobody spends more than the budget, and the margin is kept."""
        import numpy
        from pbaudit.finding.interior import Interior
        from pbaudit.finding.shares import Need, excesses
        for case in (case for seed in range(6) for case in cases(seed, ((20, 10), (30, 12)))):
            problem = problem_of_case(case)
            for stable, cover in FORMS if problem.funded and problem.unfunded else ():
                method = Interior(problem, Need(stable, cover))
                for _ in range(8):
                    method.advance()
                    # Also where nearly all payments are left out.
                    for shares in map(method.shares, (0.5, 0.0)):
                        paid = numpy.bincount(shares.project, shares.amount * shares.groups.sizes[shares.group],
                                              len(problem.costs))
                        self.assertTrue(numpy.allclose(paid[problem.funded], problem.costs[problem.funded]))
                        self.assertGreaterEqual(shares.amount.min(), 0)
                    budget = 1 / method._inverse.amounts[0]
                    self.assertLess(shares.spent().max(), budget * (1 + 1e-6))
                    self.assertGreater(budget, cover * problem.share)
                    over = excesses(problem, shares, budget, stable) / problem.costs[problem.unfunded]
                    self.assertLessEqual(method.margin * budget, 1e-6 - over.max())

    def test_weights_at_the_end(self):
        """The margin can't be more than it is by the weights, and comes near to it."""
        from pbaudit.finding.interior import Interior
        from pbaudit.finding.shares import Need
        from pbaudit.finding.voters import Voters
        for case in (case for seed in range(6) for case in cases(seed, ((20, 10), (30, 12)))):
            problem = problem_of_case(case)
            for stable, cover in FORMS if problem.funded and problem.unfunded else ():
                method = Interior(problem, Need(stable, cover))
                while abs(method.bound - method.margin) > 1e-4 * (1 + abs(method.margin)):
                    method.advance()
                weights = method.weights()
                worth = weights.funded @ problem.costs[problem.funded] / len(case.ballots) + weights.cover
                self.assertGreater(worth, weights.unfunded @ problem.costs[problem.unfunded] / len(case.ballots) - 0.01)
                most = Voters(problem, stable).total(weights) / len(case.ballots)
                self.assertAlmostEqual(most, method.margin, delta=0.01 * (1 + abs(method.margin)))


class Deciding:
    """What is decided of a case, by HiGHS or by the method, and checked."""

    def __init__(self, test):
        self.test, self.tally = test, {}

    def check(self, case, by_method):
        """There are prices just where a dense programme has some, and weights that refute just where it has none."""
        from pbaudit.finding import deciding, shares
        problem = problem_of_case(case)
        if shares.unpaid(problem) is not None or by_method and not deciding.suit(problem, True):
            return
        for stable, cover in FORMS:
            need, margin = shares.Need(stable, cover), best_margin(case, stable, cover)
            if margin is None or abs(margin) < SPARE:
                continue
            weights = (self.by_method if by_method else self.by_highs)(problem, need)
            self.test.assertEqual(weights is None, margin > 0, (case.name, need, margin))
            if weights is not None:
                self.check_weights(case, problem, need, weights)
            self.tally[need, weights is None] = self.tally.get((need, weights is None), 0) + 1

    def by_method(self, problem, need):
        from pbaudit.finding import deciding, shares
        from pbaudit.finding.clock import Clock
        decision = deciding.Search(problem, need).decision(Clock(60))
        if decision.shares is not None:
            low, high = shares.budgets(problem, decision.shares, need.stable)
            self.test.assertLess(max(low, need.cover * problem.share), high)
        return decision.weights

    @staticmethod
    def by_highs(problem, need):
        from pbaudit.finding import refutations
        from pbaudit.finding.clock import Clock
        try:
            return refutations._marginals(problem, need, [], None, Clock(60))
        except refutations.NoWeights:
            return None

    def check_weights(self, case, problem, need, weights):
        """Whole ones are found near them, and refute as that is defined."""
        from pbaudit.finding.whole import whole_weights
        whole = next(whole_weights(problem, need.stable, weights))
        named = {f"p{at}": weight for at, weight in whole.projects.items()}
        left = {name: weight for name, weight in named.items() if int(name[1:]) not in case.funded}
        signed = {name: weight for name, weight in named.items() if name not in left}
        refutation = SimpleNamespace(
            least={name: weight for name, weight in signed.items() if weight > 0}, left=left,
            most={name: -weight for name, weight in signed.items() if weight < 0}, cover=whole.cover)
        self.test.assertTrue(is_refutation(case, refutation, need.stable), (case.name, need, whole))
        self.test.assertTrue(need.cover or not whole.cover)


@HAS_SCIPY
class Decided(unittest.TestCase):
    """In all four forms: plain and stable, with Cover and without."""

    def check(self, by_method):
        deciding = Deciding(self)
        with FOR_FEW:
            for seed in range(16):
                for case in (*cases(seed, ((10, 5), (10, 10), (20, 10), (30, 12))), *odd_cases(seed)):
                    deciding.check(case, by_method)
        self.assertEqual(len(deciding.tally), 8)
        self.assertGreater(min(deciding.tally.values()), 4, deciding.tally)

    def test_by_highs(self):
        self.check(False)

    def test_by_the_method(self):
        self.check(True)

    def test_for_what_it_is(self):
        """For many different ballots, and not where C5 can hardly have room."""
        from pbaudit.finding.deciding import MANY, MANY_STABLE, suit
        ballots = [[at for at in range(12) if number >> at & 1] for number in range(1, MANY + 2)]
        for cost, many, plain, stable in ((5, MANY + 1, True, True), (5, MANY, False, True),
                                          (5, MANY_STABLE, False, False), (0, MANY + 1, False, False),
                                          (Fraction(1, 10**6), MANY + 1, False, False)):
            case = Case("many", [*[10] * 11, cost], 60, ballots[:many], [0, 1, 2])
            case.ballots[0].append(11)
            problem = problem_of_case(case)
            self.assertEqual((suit(problem, False), suit(problem, True)), (plain, stable), (cost, many))

    def test_just_over_and_just_under(self):
        """What isn't funded costs so much more that prices just exist, or just don't, by one part in a thousand."""
        deciding = Deciding(self)
        for case in (case for seed in range(8) for case in cases(seed, ((20, 10), (30, 12)))):
            for stable in (False, True):
                margin = best_margin(case, stable, covered=False)
                if margin is None or margin > -1e-3:
                    continue
                for over in (Fraction(-1, 1000), Fraction(1, 1000)):
                    part = (1 - Fraction(margin).limit_denominator(10**6)) * (1 + over)
                    costs = [Fraction(round(cost * 10**4 * (1 if at in case.funded else part)))
                             for at, cost in enumerate(case.costs)]
                    with FOR_FEW:
                        deciding.check(Case(case.name, costs, case.limit * 10**4, case.ballots, case.funded), True)
        self.assertGreater(min(deciding.tally.values()), 2, deciding.tally)

    def test_with_cover_alone(self):
        """There are prices, but none with Cover: by much, and by nothing."""
        for case in (Case("cheap", [1, 3], 10, [[0]] * 5 + [[1]] * 5, [0]),
                     Case("tie", [5, 5], 10, [[0]] * 5 + [[1]] * 5, [1])):
            with FOR_FEW, NO_WATER_FILLING:
                plain, covered = (pbaudit.find(case.file(), violation=False, cover=each) for each in (False, True))
                refuted = pbaudit.find(case.file(), prices=False, violation=False)
            self.assertFalse(plain.prices.cover)
            self.assertIsNone(refuted.refutation)
            self.assertGreater(covered.refutation.cover, 0)
            self.assertTrue(is_refutation(case, covered.refutation))

    def test_what_one_decision_says_of_others(self):
        """Weights that refute all prices refute stable ones, and those with Cover; stable prices are prices."""
        from pbaudit.finding.deciding import Decision, Decisions
        from pbaudit.finding.shares import Need
        from pbaudit.finding.voters import Weights
        everything = [Need(*form) for form in FORMS]
        for made, decision, wanted in (
                (Need(False, True), Decision(weights=Weights([1], [1], 0)), everything),
                (Need(False, True), Decision(weights=Weights([1], [1], 1)), [Need(False, True), Need(True, True)]),
                (Need(True, False), Decision(weights=Weights([1], [1], 0)), [Need(True, False), Need(True, True)]),
                (Need(True, True), Decision(shares=1), everything),
                (Need(True, False), Decision(shares=1), [Need(True, False), Need(False, False)])):
            decisions = Decisions(None)
            decisions._decided[made] = decision
            self.assertEqual([need for need in everything if decisions.known(need)],
                             [need for need in everything if need in wanted], (made, decision))

    MEMORY = """
import random, resource, sys
from fractions import Fraction
sys.path.insert(0, {place!r})
from pbaudit.decided import DecidedElection
from pbaudit.finding.clock import Clock
from pbaudit.finding.deciding import Search
from pbaudit.finding.groups import groups_of
from pbaudit.finding.shares import Need, problem_of
from pbaudit.values import Ballots
chance = random.Random(1)
ballots = [sorted(chance.sample(range(60), 8)) for _ in range(20000)]
decided = DecidedElection([str(at) for at in range(60)], [Fraction(chance.randint(2000, 9000)) for _ in range(60)],
                          Fraction(120000), set(range(20)), Ballots(ballots))
problem = problem_of(decided, groups_of(decided))
before = resource.getrusage(resource.RUSAGE_SELF).ru_maxrss
decision = Search(problem, Need(True, True)).decision(Clock(600))
print(len(problem.groups), resource.getrusage(resource.RUSAGE_SELF).ru_maxrss - before)
"""

    def test_memory(self):
        """20,000 different ballots of 8 projects take less than 100 MB besides."""
        place = str(__import__("pathlib").Path(pbaudit.__file__).parents[1])
        done = subprocess.run([sys.executable, "-c", self.MEMORY.format(place=place)], stdout=subprocess.PIPE, check=True)
        different, taken = map(int, done.stdout.split())
        self.assertGreater(different, 19900)
        self.assertLess(taken, 100_000)


@HAS_SCIPY
class Free(unittest.TestCase):
    def test_what_is_funded_and_costs_nothing(self):
        """Its supporters are no payers: a weight keeps it out of U2, whichever way weights are found."""
        refuted = 0
        for case in (case for seed in range(12) for case in cases(seed, ((10, 5), (20, 10)))):
            free = len(case.costs)
            town = Case(case.name, [*case.costs, 0], case.limit, [[*ballot, free] for ballot in case.ballots],
                        [*case.funded, free])
            for many in (0, 500):
                with mock.patch("pbaudit.finding.deciding.MANY", many):
                    before, found = (pbaudit.find(each.file(), violation=False) for each in (case, town))
                self.assertEqual((before.prices is None, before.refutation is None),
                                 (found.prices is None, found.refutation is None), case.name)
                if found.refutation:
                    self.assertTrue(is_refutation(town, found.refutation))
                    refuted += f"p{free}" in found.refutation.most
        self.assertGreater(refuted, 0)


@HAS_SCIPY
class Time(unittest.TestCase):
    def test_what_a_part_leaves_over_is_handed_on(self):
        from pbaudit.finding import clock
        now, told = [100.0], []
        with mock.patch.object(clock.time, "monotonic", lambda: now[0]):
            whole = clock.Clock(60, lambda *words: told.append(words))
            first = whole.part(Fraction(4, 8))
            self.assertEqual(first.left(), 30)
            now[0] += 6
            self.assertEqual((first.left(), whole.left()), (24, 54))
            first.tell("first")
            second = whole.part(Fraction(2, 4))
            self.assertEqual(second.left(), 27)
            now[0] += 50
            second.tick()
            self.assertEqual((first.left(), second.left(), whole.left()), (0, 0, 4))
            last = whole.part(1)
            now[0] += 1
            last.tell("last")
            self.assertEqual(last.left(), 3)
        self.assertEqual(told, [("first", 54), ("", 4), ("last", 3)])

    def test_violations_have_what_prices_left(self):
        """Of 100 seconds the search for prices takes next to nothing, and each search for violations has its part of the
        rest, the last one all of it."""
        from pbaudit.finding import search
        left = []
        with mock.patch.object(search.Seeker, "_look_for_violation", lambda self, by, clock: left.append(clock.left())):
            pbaudit.find(Case("fair", [5, 6], 10, [[0]] * 5 + [[1]] * 5, [0]).file(), seconds=100)
        self.assertTrue(45 < left[0] <= 50 and 90 < left[1] <= 100, left)

    def test_what_is_known_when_time_runs_out(self):
        """Weights that refute are kept, though better ones were looked for."""
        from pbaudit.finding import deciding
        from pbaudit.finding.clock import Clock
        from pbaudit.finding.shares import Need
        kept = 0
        for case in (case for seed in range(12) for case in cases(seed, ((30, 12),))):
            if (best_margin(case, covered=False) or 0) > -1e-3:
                continue
            search = deciding.Search(problem_of_case(case), Need(False, False))
            clock = mock.Mock(wraps=Clock(60), left=lambda: float(search._weights is None))
            with mock.patch.multiple(deciding, GOOD=1e9, ENOUGH=0.0):
                self.assertIsNotNone(search.decision(clock).weights)
            kept += 1
        self.assertGreater(kept, 0)

    def test_nothing_is_known_when_time_runs_out(self):
        from pbaudit.finding.clock import Clock
        from pbaudit.finding.deciding import Search
        from pbaudit.finding.programme import OutOfTime
        from pbaudit.finding.shares import Need
        case = next(case for case in cases(1, ((30, 12),)) if case.name.endswith("by votes"))
        with self.assertRaises(OutOfTime):
            Search(problem_of_case(case), Need(True, False)).decision(Clock(0))


if __name__ == "__main__":
    unittest.main()
