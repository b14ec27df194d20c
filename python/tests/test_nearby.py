"""The check of prices near the given ones, beside that of the exact ones that they are near."""
import contextlib
import io
import random
import unittest
from fractions import Fraction

import pbaudit
from pbaudit import CannotKeep, Instance, Project, validate_price_system

A, B, C = Project("a", 6), Project("b", 4), Project("c", 9)
SAMPLE = Instance([A, B, C], 10)
PROFILE = [{A, B}, {A}, {B, C}]
ODD = Fraction(1, 10**9 + 7) * Fraction(1, 10**6 + 3)


def a_price_system(chance):
    """Prices of Equal Shares in whole hundredths, some of them with something wrong by a hundredth or more."""
    projects = [Project(f"p{at}", Fraction(chance.randint(1, 900) * 12, 100)) for at in range(chance.randint(2, 6))]
    instance = Instance(projects, sum(project.cost for project in projects) * chance.randint(20, 90) // 100 + 1)
    profile = [{project for project in projects if chance.random() < 0.6} for _ in range(chance.randint(1, 12))]
    shares = pbaudit.equal_shares(instance, profile, by=chance.choice(["cost", "count"]))
    made = pbaudit.price_certificate(instance, profile, shares.funded, shares.voter_budget, shares.payments,
                                     exhaustive=False, denominator=100)
    payments = [{} for _ in profile]
    for voter, name, numerator in made.rows:
        payments[voter - 1][name] = Fraction(numerator, 100)
    budget, funded = Fraction(made.voter_budget, 100), list(shares.funded)
    for _ in range(chance.randint(0, 2)):
        mine, name = chance.choice(payments), chance.choice(projects).name
        kind = chance.randrange(5)
        if kind == 0:
            mine[name] = Fraction(chance.randint(1, 300), chance.choice([1, 100]))
        elif kind == 1:
            mine.pop(name, None)
        elif kind == 2:
            budget = max(Fraction(0), budget + chance.choice([-1, 1]) * Fraction(chance.randint(1, 9000), 100))
        elif kind == 3 and name in mine:
            mine[name] += Fraction(chance.randint(1, 50), 100)
        elif name in funded:
            funded.remove(name)
    return instance, profile, funded, budget, payments


def off(amount, chance):
    """An amount with the noise of a solver."""
    return float(amount) + chance.uniform(-1e-9, 1e-9)


def odd(amount, chance):
    """An amount with a denominator that no certificate has."""
    return amount + ODD * chance.choice([1, 2, 3]) if amount else Fraction(0)


class Near(unittest.TestCase):
    def test_a_plain_no_is_a_no(self):
        """What fails by a hundredth or more fails first near it too; what holds is answered yes, unless it holds so
        narrowly that noise ends it."""
        told, kept = {}, 0
        for seed in range(600):
            chance = random.Random(f"near/{seed}")
            given = a_price_system(chance)
            for stable in (False, True):
                wanted = validate_price_system(*given, stable, exhaustive=False)
                for noisy in (off, odd):
                    payments = [{name: noisy(amount, chance) for name, amount in mine.items()} for mine in given[4]]
                    budget = noisy(given[3], chance)
                    with self.subTest(seed=seed, stable=stable, noisy=noisy.__name__):
                        try:
                            found = validate_price_system(*given[:3], budget, payments, stable, exhaustive=False,
                                                          near=True)
                        except CannotKeep as why:
                            self.assertTrue(wanted or wanted.condition in ("C5", "S5"), f"{wanted} and {why}")
                            kept += 1
                            continue
                        self.assertEqual(str(found), str(wanted))
                        told.setdefault(str(wanted.condition), set()).add(noisy.__name__)
        self.assertLess(kept, 30)
        self.assertEqual({condition: len(kinds) for condition, kinds in told.items()},
                         dict.fromkeys(("None", "C1", "C2", "C3", "C4", "C5", "S5"), 2))

    def test_the_example(self):
        """Five is paid for a, which costs six."""
        paid = [{A: 2 + ODD, B: 2}, {A: 3 - ODD}, {B: 2}]
        for payments in (paid, [{name: float(amount) for name, amount in mine.items()} for mine in paid]):
            verdict = validate_price_system(SAMPLE, PROFILE, [A, B], 4, payments, near=True)
            self.assertEqual((str(verdict), verdict.condition, verdict.project), ("failed C3 project a", "C3", "a"))
            self.assertLess(verdict.moved, Fraction(1, 10**8))

    def test_what_payments_do_not_change(self):
        floats = [{A: 2.0, B: 2.0}, {A: 4.0}, {B: 2.0}]
        for funded, line in (([A, B, C], "failed Feasible"), ([A], "failed Exhaustive project b")):
            self.assertEqual(str(validate_price_system(SAMPLE, PROFILE, funded, 4.0, floats, near=True)), line)

    def test_another_budget_is_not_near(self):
        """With 99 for each c's supporter has 97 left; by a budget of 4 all holds."""
        for two in (2.0000000001, 2 + ODD):
            verdict = validate_price_system(SAMPLE, PROFILE, [A, B], 99, [{A: two, B: 2}, {A: 4}, {B: 2}], near=True)
            self.assertEqual(str(verdict), "failed C5 project c")
            verdict = validate_price_system(SAMPLE, PROFILE, [A, B], 4, [{A: two, B: 2}, {A: 4}, {B: 2}], near=True)
            self.assertTrue(verdict)

    def test_noise_is_none(self):
        """Of a solver: a little for what isn't funded, and a little below 0."""
        floats = [{A: 2.0, B: 2.0}, {A: 4.0000000001, B: -1e-9}, {B: 1.9999999999, C: 1e-8, A: -1e-12}]
        verdict = validate_price_system(SAMPLE, PROFILE, [A, B], 4.0, floats, near=True)
        self.assertEqual(str(verdict), "supported priceable")
        self.assertEqual(verdict.moved, Fraction(1, 10**8))
        made = pbaudit.price_certificate(SAMPLE, PROFILE, [A, B], 4.0, floats)
        self.assertEqual(made.rows, [(1, "a", 200), (1, "b", 200), (2, "a", 400), (3, "b", 200)])
        self.assertEqual((made.denominator, made.moved), (100, Fraction(1, 10**8)))
        floats[0][A] = 1.5
        verdict = validate_price_system(SAMPLE, PROFILE, [A, B], 4.0, floats, near=True)
        self.assertEqual(str(verdict), "failed C3 project a")

    def test_a_costly_project_makes_no_noise(self):
        """What fails plainly fails beside a project that costs much more than all the others."""
        x, z, costly = Project("x", 50_000), Project("z", 1), Project("costly", 10_000_000)
        town, voters = Instance([x, z, costly], 50_000), [["x"]] * 10_000
        for budget, paid, line in (
            (1000.0, [{"x": 0.0001}] * 10_000, "failed C3 project x"),
            (0.5, [{"x": 5.0}] * 10_000, "failed C2 voter 1"),
            (5.0, [{"x": 5.0}] * 9_999 + [{"x": 4.0}], "failed C3 project x"),
            (5.0, [{"x": 5.0}] * 10_000, "supported priceable"),
        ):
            with self.subTest(line=line, budget=budget):
                self.assertEqual(str(validate_price_system(town, voters, ["x"], budget, paid, near=True)), line)
        for paid, line in (([{"z": 0.5}, {"z": 0.5}], "failed C1 voter 2 project z"),
                           ([{"z": 1.0}, {"costly": 0.5}], "failed C4 project costly"),
                           ([{"z": 1.0}, {}], "supported priceable")):
            found = validate_price_system(Instance([z, costly], 50_000), [["z"], ["costly"]], ["z"], 1.0, paid, near=True)
            self.assertEqual(str(found), line)

    def test_nothing_is_paid_without_approval(self):
        """Not even a little that all voters pay together; that is no answer, and what is more is a no."""
        for much in (1e-12, 1e-9, 3.9e-6):
            with self.assertRaisesRegex(CannotKeep, "^C1: voter 2 pays .* for b, which it doesn't approve, and no part"):
                validate_price_system(SAMPLE, PROFILE, [A, B], 4.0, [{A: 2.0, B: 2.0}, {A: 4.0, B: much}, {B: 2.0}],
                                      near=True)
        paid = [{A: 2.0, B: 2.0}, {A: 4.0, B: 5e-6}, {B: 2.0}]
        found = validate_price_system(SAMPLE, PROFILE, [A, B], 4.0, paid, near=True)
        self.assertEqual(str(found), "failed C1 voter 2 project b")

    def test_noise_of_many_voters_is_capped(self):
        """Each payment is off by less than a millionth of a voter's budget, and all together by much more of a cost."""
        cheap, other = Project("cheap", 1), Project("other", 1000)
        town, voters = Instance([cheap, other], 1000), [["cheap", "other"]] * 1000
        for paid, line in (({"other": 1.0, "cheap": 5e-8}, "failed C4 project cheap"),
                           ({"other": 1.0, "cheap": 5e-11}, "supported priceable")):
            found = validate_price_system(town, voters, ["other"], 1.0, [paid] * 1000, near=True)
            self.assertEqual(str(found), line)
        with self.assertRaisesRegex(ValueError, "voter .* pays -.* for cheap"):
            validate_price_system(town, voters, ["other"], 1.0, [{"other": 1.0, "cheap": -5e-8}] * 1000, near=True)
        # With so many supporters, a budget lower by little would leave C5 to a project that costs little.
        found = validate_price_system(town, voters, ["other"], 1.001_000_1, [{"other": 1.0}] * 1000, near=True)
        self.assertEqual(str(found), "failed C5 project cheap")

    def test_how_far_they_moved(self):
        """The verdict says how far payments and the voter budget moved, exactly, and these are no more than noise."""
        paid = [{A: 2.000001, B: 2.0}, {A: 4.0}, {B: 2.0}]
        found = validate_price_system(SAMPLE, PROFILE, [A, B], 4.000002, paid, near=True)
        self.assertEqual(str(found), "supported priceable")
        self.assertTrue(0 < found.moved <= Fraction(1, 10**6), found.moved)
        self.assertLessEqual(abs(found.raised), Fraction("0.000004000002"))
        found = validate_price_system(SAMPLE, PROFILE, [A, B], 3.999999, [{A: 2.0, B: 2.0}, {A: 4.0}, {B: 2.0}], near=True)
        self.assertTrue(found)
        self.assertTrue(0 < max(found.moved, found.raised) <= Fraction("0.000003999999"), (found.moved, found.raised))
        found = validate_price_system(SAMPLE, PROFILE, [A, B], 4, [{A: 2, B: 2}, {A: 4}, {B: 2}])
        self.assertEqual((found.moved, found.raised), (None, None))
        for budget, paid in ((3.99999, [{A: 2.0, B: 2.0}, {A: 4.0}, {B: 2.0}]),
                             (4.0, [{A: 2.00001, B: 2.0}, {A: 4.0}, {B: 2.0}])):
            self.assertFalse(validate_price_system(SAMPLE, PROFILE, [A, B], budget, paid, near=True))

    def test_any_currency(self):
        """The answers are the same where all amounts are so many times larger or smaller."""
        for unit in (Fraction(1, 10**6), Fraction(1, 1000), Fraction(1, 3), Fraction(2, 10**9 + 7), 1, 10**9):
            town = Instance([Project(each.name, each.cost * unit) for each in (A, B, C)], 10 * unit)
            for third, line in ((Fraction(2), "supported priceable"), (Fraction("1.9999999"), "supported priceable"),
                                (Fraction("1.9999"), "failed C3 project b")):
                paid = [{"a": float(2 * unit), "b": float(2 * unit)}, {"a": float(4 * unit)}, {"b": float(third * unit)}]
                found = validate_price_system(town, [["a", "b"], ["a"], ["b", "c"]], ["a", "b"], float(4 * unit), paid,
                                              near=True)
                self.assertEqual(str(found), line, unit)

    def test_much_is_paid_in_a_small_currency(self):
        for unit in (Fraction(1, 10**6), Fraction(1, 1000), 1):
            town = Instance([Project("a", 6 * unit), Project("c", 9 * unit)], 10 * unit)
            for much in (7, 100, 5000):
                found = validate_price_system(town, [["a"], ["c"]], ["a"], float(6 * unit), [{"a": float(much * unit)}, {}],
                                              near=True)
                self.assertEqual(str(found), "failed C2 voter 1")
            found = validate_price_system(town, [["a"], ["c"]], ["a"], float(unit) / 10**6, [{"a": float(6 * unit)}, {}],
                                          near=True)
            self.assertEqual(str(found), "failed C2 voter 1")

    def test_what_fails_by_less_than_noise_is_no_answer(self):
        """The one voter who pays 6 can offer 6 for what costs a millionth less."""
        narrow = Instance([A, Project("z", Fraction("5.999999"))], 10)
        with self.assertRaisesRegex(CannotKeep, "^S5: "):
            validate_price_system(narrow, [{"a", "z"}], ["a"], 6.0, [{"a": 6.0}], True, near=True)
        verdict = validate_price_system(narrow, [{"a", "z"}], ["a"], 6, [{"a": 6}], True)
        self.assertEqual(str(verdict), "failed S5 project z")

    def test_what_is_no_certificate(self):
        for odd, error in ((float("nan"), ValueError), (float("inf"), ValueError), (-1.0, ValueError),
                           ("2", TypeError)):
            with self.assertRaises(error):
                validate_price_system(SAMPLE, PROFILE, [A, B], 4.0, [{A: odd, B: 2.0}, {A: 4.0}, {B: 2.0}], near=True)
        with self.assertRaises(ValueError):
            validate_price_system(SAMPLE, PROFILE, [A, B], -1.0, [{A: 2.0, B: 2.0}, {A: 4.0}, {B: 2.0}], near=True)
        with self.assertRaisesRegex(ValueError, "2 payment functions"):
            validate_price_system(SAMPLE, PROFILE, [A, B], 4.0, [{A: 2.0}, {}], near=True)

    def test_as_pabutools_is_called(self):
        floats = [{A: 2.0, B: 2.0}, {A: 3.0}, {B: 2.0}]
        out = io.StringIO()
        with contextlib.redirect_stdout(out):
            verdict = validate_price_system(SAMPLE, PROFILE, [A, B], 4.0, floats, stable=False, exhaustive=True,
                                            relaxation=None, verbose=True, near=True)
        self.assertEqual(out.getvalue(), str(verdict.explain()))
        self.assertIn("failed C3 project a", out.getvalue())
        whole = [{A: 2, B: 2}, {A: 4}, {B: 2}]
        self.assertTrue(validate_price_system(SAMPLE, PROFILE, [A, B], 4, whole, False, True, None))
        for words, names in (((False, True, "min_add"), {}), ((), {"relaxation": "min_add"})):
            with self.assertRaisesRegex(ValueError, "^the relaxation is 'min_add', and only None is audited"):
                validate_price_system(SAMPLE, PROFILE, [A, B], 4, whole, *words, **names)
        with self.assertRaisesRegex(TypeError, "^verbose is 1, not True or False"):
            validate_price_system(SAMPLE, PROFILE, [A, B], 4, floats, verbose=1)

    def test_exact_amounts_stay_exact(self):
        """A budget that is a float, and payments that are whole, come to what they come to exactly."""
        for budget, line in ((4.0, "supported priceable"), (3.5, "failed C2 voter 1"), (13.0, "failed C5 project c")):
            verdict = validate_price_system(SAMPLE, PROFILE, [A, B], budget, [{A: 2, B: 2}, {A: 4}, {B: 2}], near=True)
            self.assertEqual((str(verdict), verdict.moved), (line, 0))
            with self.assertRaisesRegex(TypeError, "price_certificate"):
                validate_price_system(SAMPLE, PROFILE, [A, B], budget, [{A: 2, B: 2}, {A: 4}, {B: 2}])
