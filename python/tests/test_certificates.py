"""Certificates from floats, from fractions, and of the Method of Equal Shares."""
import pathlib
import pickle
import random
import tempfile
import unittest
from fractions import Fraction

import pbaudit
from pbaudit import CannotKeep, Instance, Project, equal_shares, price_certificate

A, B, C = Project("a", 6), Project("b", 4), Project("c", 9)
SAMPLE = Instance([A, B, C], 10)
PROFILE = [{A, B}, {A}, {B, C}]


def an_election(seed):
    """An invented election, with a measure for Equal Shares."""
    chance = random.Random(f"certificates/{seed}")
    voters, projects = chance.choice([(5, 4), (12, 8), (40, 10), (60, 12), (100, 15)])
    unit = chance.choice([Fraction(1), Fraction(1, 100)])
    projects = [Project(f"p{number}", chance.randint(1, 5000) * unit) for number in range(projects)]
    limit = sum(project.cost for project in projects) * chance.randint(20, 70) // 100
    popular = [chance.random() ** 2 for _ in projects]
    profile = [{project for project, share in zip(projects, popular) if chance.random() < 0.1 + 0.7 * share}
               for _ in range(voters)]
    return Instance(projects, limit), profile, chance.choice(["count", "cost"])


class Roundings(unittest.TestCase):
    def test_equal_shares(self):
        """Each is audited before it is answered, so it's enough that each is answered."""
        left_room = 0
        for seed in range(60):
            instance, profile, measure = an_election(seed)
            shares = equal_shares(instance, profile, by=measure)
            funded, budget, payments = shares.funded, shares.voter_budget, shares.payments
            floats = [{project: float(amount) for project, amount in mine.items()} for mine in payments]
            with self.subTest(seed=seed):
                price_certificate(instance, profile, funded, budget, payments, exhaustive=False)
                made = price_certificate(instance, profile, funded, float(budget), floats, exhaustive=False)
                self.assertLess(made.moved, 1)
            try:
                price_certificate(instance, profile, funded, budget, payments)
            except CannotKeep as why:
                self.assertEqual(why.condition, "Exhaustive")
                left_room += 1
        self.assertGreater(left_room, 30)

    def test_thirds(self):
        instance = Instance([Project("a", 1)], 1)
        made = price_certificate(instance, [["a"]] * 3, ["a"], 0.3333333333, [{"a": 0.3333333333}] * 3)
        self.assertTrue(pbaudit.audit_prices(pbaudit.write_election(instance, [["a"]] * 3, ["a"]), made.file))
        self.assertEqual(sum(numerator for _, _, numerator in made.rows), made.denominator)
        self.assertLess(made.moved, Fraction(1, 50))
        made = price_certificate(instance, [["a"]] * 3, ["a"], None, [{"a": 0.3333333333}] * 3, denominator=7)
        self.assertEqual((made.denominator, made.voter_budget), (7, 3))

    def test_exact_payments_stay(self):
        payments = [{A: Fraction(5, 2), B: Fraction(3, 2)}, {A: Fraction(7, 2)}, {B: Fraction(5, 2)}]
        made = price_certificate(SAMPLE, PROFILE, [A, B], 4, payments, True)
        self.assertEqual((made.denominator, made.voter_budget, made.moved, made.raised), (2, 8, 0, 0))
        self.assertEqual(made.file, pbaudit.write_prices(4, payments))
        with tempfile.TemporaryDirectory() as room:
            made.write(f"{room}/p.csv")
            self.assertEqual(pathlib.Path(room, "p.csv").read_bytes(), made.file)

    def test_a_budget_that_no_denominator_has(self):
        """Payments stay as they are, and the budget is rounded down, also where there is no payment."""
        for part in (7 * 10**9 + 1, 1999 * 10**9 + 1, 10**9 + 7, 3 * 10**40 + 1):
            for instance, profile, funded, payments, least in (
                (Instance([C], 5), [{C}] * 7, [], [{}] * 7, 0),
                (SAMPLE, PROFILE, [A, B], [{A: 2, B: 2}, {A: 4}, {B: 2}], 4),
                (SAMPLE, PROFILE, [A, B], [{A: Fraction(13, 7), B: 2}, {A: Fraction(29, 7)}, {B: 2}], Fraction(29, 7)),
            ):
                for budget in (least + Fraction(5, part), least + 1 - Fraction(5, part)):
                    with self.subTest(budget=budget, payments=payments):
                        made = price_certificate(instance, profile, funded, budget, payments)
                        self.assertEqual(made.moved, 0)
                        self.assertTrue(-Fraction(1, 10**6) < made.raised <= 0, made.raised)
                        town = pbaudit.write_election(instance, profile, funded)
                        self.assertTrue(pbaudit.audit_prices(town, made.file))
                        verdict = pbaudit.validate_price_system(instance, profile, funded, budget, payments, near=True)
                        self.assertEqual((str(verdict), verdict.moved or 0), ("supported priceable", 0))

    def test_how_far_payments_moved(self):
        """Exactly, also by less than floats tell apart, and with a farther move beside one that floats take for it."""
        big, town = 10**11, Instance([Project("a", 3 * 10**11)], 3 * 10**11)
        for tiny in (Fraction(1, 10**15), Fraction(1, 10**30), Fraction(-2, 10**40)):
            payments = [{"a": big + tiny}, {"a": big - tiny}, {"a": Fraction(big)}]
            made = price_certificate(town, [["a"]] * 3, ["a"], big + abs(tiny), payments, denominator=1)
            self.assertEqual(self.moves(made, payments), [abs(tiny), abs(tiny), 0])
            self.assertEqual(made.moved, abs(tiny))
        for seed in range(40):
            instance, profile, measure = an_election(seed)
            shares = equal_shares(instance, profile, by=measure)
            payments = [dict(mine) for mine in shares.payments]
            made = price_certificate(instance, profile, shares.funded, shares.voter_budget, payments, exhaustive=False)
            self.assertEqual(made.moved, max(self.moves(made, payments), default=0))

    @staticmethod
    def moves(made, payments):
        paid = {(voter, name): Fraction(numerator, made.denominator) for voter, name, numerator in made.rows}
        return [abs(paid.get((voter, name), 0) - amount)
                for voter, mine in enumerate(payments, 1) for name, amount in mine.items()]

    def test_budgets_with_large_denominators(self):
        """Of many small price systems, none needs payments to move."""
        chance = random.Random("budgets")
        found = 0
        for _ in range(1500):
            costs = [chance.randint(1, 12) for _ in range(3)]
            projects = [Project(name, cost) for name, cost in zip("abc", costs)]
            instance = Instance(projects, chance.randint(1, 15))
            profile = [{project for project in projects if chance.random() < 0.6} for _ in range(chance.randint(1, 7))]
            made = equal_shares(instance, profile)
            budget = made.voter_budget - Fraction(1, chance.choice([10**9 + 7, 10**12 + 39, 10**30 + 57]))
            if budget < max((sum(mine.values()) for mine in made.payments), default=0):
                continue
            found += 1
            made = price_certificate(instance, profile, made.funded, budget, made.payments, exhaustive=False)
            self.assertEqual(made.moved, 0)
        self.assertGreater(found, 500)

    def test_a_chain_pays_what_is_missing(self):
        """Rounded down, a lacks a unit that only a voter without budget could pay; b's other supporter has it."""
        instance = Instance([Project("a", 1), Project("b", 1)], 2)
        profile, half = [["a"], ["a", "b"], ["b"]], Fraction(2, 3)
        payments = [{"a": half}, {"a": 1 - half, "b": 1 - half}, {"b": half}]
        made = price_certificate(instance, profile, ["a", "b"], half, payments, denominator=100)
        self.assertLessEqual(made.voter_budget, 67)

    def test_what_cannot_be_kept(self):
        good = [{A: 2.0, B: 2.0}, {A: 4.0}, {B: 2.0}]
        for condition, voter, project, words in (
            ("Feasible", None, None, (SAMPLE, PROFILE, [A, B, C], 4, good)),
            ("Exhaustive", None, "b", (SAMPLE, PROFILE, [A], 4, good)),
            ("C1", 2, "b", (SAMPLE, PROFILE, [A, B], 4, [{A: 2.0, B: 2.0}, {A: 4.0, B: 1.0}, {B: 2.0}])),
            ("C2", 1, None, (SAMPLE, PROFILE, [A, B], 3, good)),
            ("C2", 3, "b", (SAMPLE, PROFILE, [A, B], 4, [{A: 2.0, B: 2.0}, {A: 4.0}, {B: -2.0}])),
            ("C3", None, "b", (SAMPLE, PROFILE, [A, B], 4, [{A: 2.0, B: 2.0}, {A: 4.0}, {B: 1.5}])),
            ("C4", 3, "c", (SAMPLE, PROFILE, [A, B], 4, [{A: 2.0, B: 2.0}, {A: 4.0}, {B: 2.0, C: 1.0}])),
            ("C5", None, "b", (SAMPLE, PROFILE, [A], 9, [{A: 0.0}, {A: 6.0}, {}], False, False)),
            ("S5", None, "b", (SAMPLE, PROFILE, [A], 6, [{A: 0.0}, {A: 6.0}, {}], True, False)),
        ):
            with self.subTest(condition=condition), self.assertRaises(CannotKeep) as caught:
                price_certificate(*words)
            for why in (caught.exception, pickle.loads(pickle.dumps(caught.exception))):
                self.assertEqual((why.condition, why.voter, why.project), (condition, voter, project))
                self.assertTrue(str(why).startswith(f"{condition}: "))

    def test_exact_prices_are_not_repaired(self):
        """What fails by however little fails, and a budget isn't lowered; floats may be off by a solver's noise."""
        little = Fraction(1, 10**12)
        for condition, budget, payments in (
            ("C2", 4 - little, [{A: 2, B: 2}, {A: 4}, {B: 2}]),
            ("C3", 4, [{A: 2 - little, B: 2}, {A: 4}, {B: 2}]),
            ("C3", 4, [{A: 2, B: 2}, {A: 4}, {B: 2 - Fraction(1, 10**7)}]),
            ("C4", 4, [{A: 2, B: 2}, {A: 4}, {B: 2, C: little}]),
            ("C1", 4, [{A: 2, B: 2}, {A: 4, B: little}, {B: 2}]),
            ("C2", 4, [{A: 2, B: 2}, {A: 4, B: -little}, {B: 2}]),
            ("C5", 11 + little, [{A: 2, B: 2}, {A: 4}, {B: 2}]),
            ("C5", 99, [{A: 2, B: 2}, {A: 4}, {B: 2}]),
        ):
            with self.subTest(condition=condition, budget=budget), self.assertRaises(CannotKeep) as caught:
                price_certificate(SAMPLE, PROFILE, [A, B], budget, payments)
            self.assertEqual(caught.exception.condition, condition)
            floats = [{name: float(amount) for name, amount in mine.items()} for mine in payments]
            if condition != "C1":
                price_certificate(SAMPLE, PROFILE, [A, B], float(budget), floats)
        made = price_certificate(SAMPLE, PROFILE, [A, B], 11, [{A: 2, B: 2}, {A: 4}, {B: 2}])
        self.assertEqual((made.voter_budget, made.moved, made.raised), (11, 0, 0))

    def test_stable_prices_exactly(self):
        """The one voter can offer the 6 that it pays, for what costs a little less, or as much."""
        for cost, holds in ((Fraction("5.999999"), False), (6, True)):
            words = Instance([A, Project("z", cost)], 10), [{"a", "z"}], ["a"], 6, [{"a": 6}], True
            if holds:
                self.assertEqual(price_certificate(*words).raised, 0)
                continue
            with self.assertRaisesRegex(CannotKeep, "^S5: the supporters of z can offer 6 together, and it costs 5.99"):
                price_certificate(*words)

    def test_names_in_what_cannot_be_kept(self):
        """They are told as they can be seen, and are what they are."""
        name = "a\u202eb\u3164"
        with self.assertRaises(CannotKeep) as caught:
            price_certificate(Instance([Project(name, 6)], 6), [[name]], [name], 6, [{name: 5}])
        self.assertEqual(str(caught.exception), "C3: 5 is paid for a\\u{202e}b\\u{3164}, which costs 6")
        self.assertEqual(caught.exception.project, name)

    def test_amounts_that_are_none(self):
        for amount in (float("nan"), float("inf")):
            with self.assertRaises(ValueError):
                price_certificate(SAMPLE, PROFILE, [A, B], 4, [{A: amount}, {}, {}])
        with self.assertRaises(TypeError):
            price_certificate(SAMPLE, PROFILE, [A, B], 4, [{A: "2"}, {}, {}])
        with self.assertRaises(ValueError):
            price_certificate(SAMPLE, PROFILE, [A, B], 4, [{}, {}, {}], denominator=10**9 + 1)

    def test_a_budget_below_0(self):
        for ballots, payments in (([], []), ([[], []], [{}, {}])):
            with self.assertRaisesRegex(ValueError, "^the voter budget is below 0$"):
                price_certificate(SAMPLE, ballots, [], -4, payments, exhaustive=False)

    def test_amounts_beyond_those_of_a_certificate(self):
        for amount in (10**21 + 1, 10**400, -10**400, Fraction(10**400), Fraction(10**3000, 3), 1e300):
            with self.assertRaisesRegex(ValueError, "^the voter budget isn't from 0 to 10.21, "):
                price_certificate(SAMPLE, PROFILE, [A, B], amount, [{A: 2, B: 2}, {A: 4}, {B: 2}])
            with self.assertRaisesRegex(ValueError, "^what voter 2 pays for a isn't from 0 to 10.21, "):
                price_certificate(SAMPLE, PROFILE, [A, B], 4, [{A: 2, B: 2}, {A: amount}, {B: 2}])
        with self.assertRaisesRegex(ValueError, "^the voter budget is a number of more than 4000 digits, which isn't an amount$"):
            price_certificate(SAMPLE, PROFILE, [A, B], Fraction(10**5000, 3), [{A: 2, B: 2}, {A: 4}, {B: 2}])
        for amount, shown in ((10**13, "10{13}"), (10**400, "a number of more than 60 digits")):
            for cost, limit, told in ((amount, 10, "the cost of d"), (1, amount, "the budget limit")):
                with self.assertRaisesRegex(ValueError, f"^{told} is {shown}, and an election's amounts are from 0 to 10.12"):
                    price_certificate(Instance([Project("d", cost)], limit), [["d"]], [], 4, [{}])

    def test_costs_are_those_of_a_file(self):
        """The check takes others too."""
        third = Fraction(1, 3)
        words = Instance([Project("d", third)], third), [["d"]], ["d"], third, [{"d": third}]
        self.assertTrue(pbaudit.validate_price_system(*words))
        with self.assertRaisesRegex(ValueError, "^the cost of d is 1/3, and .* at most six decimals$"):
            price_certificate(*words)

    def test_denominators_that_are_none(self):
        words = SAMPLE, PROFILE, [A, B], 4, [{A: 2, B: 2}, {A: 4}, {B: 2}]
        for denominator in (True, False, 100.0, "100"):
            with self.assertRaisesRegex(TypeError, f"^the denominator is {denominator!r}, not a whole number$"):
                price_certificate(*words, denominator=denominator)
        for denominator in (0, -1, 10**9 + 1, 10**5000):
            with self.assertRaisesRegex(ValueError, r"^the denominator has to be from 1 to 10\^9$"):
                price_certificate(*words, denominator=denominator)
        halves = Instance([Project("a", Fraction("1.5"))], 2)
        with self.assertRaisesRegex(ValueError, "^the denominator has to be .* and a multiple of 2, so that "):
            price_certificate(halves, [{"a"}], ["a"], 2, [{"a": Fraction(3, 2)}], denominator=3)
