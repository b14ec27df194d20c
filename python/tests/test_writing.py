"""Files and verdicts from Python values."""
import importlib
import io
import pickle
import random
import tempfile
import unittest
from collections import Counter
from decimal import Decimal
from fractions import Fraction
from unittest import mock

import pbaudit
from pbaudit import Instance, Project, certificates, matrices, validate_price_system, values, writing

A, B, C = Project("a", 6), Project("b", 4), Project("c", 9)
SAMPLE = Instance([A, B, C], 10)
PROFILE = [{A, B}, {A}, {B, C}]
PAYMENTS = [{A: 2, B: 2}, {A: 4}, {B: 2}]


def floats_of_others():
    """Floats of other packages that are 2, with what is told of them, where these are installed."""
    try:
        import gmpy2
        import numpy
    except ImportError:
        return []
    return [(kind(2), "the float") for kind in (numpy.float32, numpy.float64, gmpy2.mpfr)]


class Thing:
    """A project that is equal to itself alone."""

    def __init__(self, name, cost):
        self.name, self.cost = name, cost


class Together(unittest.TestCase):
    """Voters are looked at some thousand at a time. Here it is few of them."""

    def each_number(self):
        for number in (1, 2, 3, 5, 4096):
            with self.subTest(at_once=number), mock.patch.object(values, "AT_ONCE", number), \
                    mock.patch.object(matrices, "AT_ONCE", number), mock.patch.object(certificates, "AT_ONCE", number):
                yield

    @staticmethod
    def town():
        """Seven voters who name projects by their ids, as themselves and as other ones of the same name; and amounts."""
        names = [random.Random(seed).sample("abcde", 1 + seed % 5) for seed in range(7)]
        things = [{name: Thing(name, 9) for name in "abcde"} for _ in range(2)]
        forms = [str, things[0].get, things[1].get]
        ballots = [[forms[(voter + at) % 3](name) for at, name in enumerate(mine)] for voter, mine in enumerate(names)]
        amounts = [[(voter * at) % 4 for at in range(len(mine))] for voter, mine in enumerate(names)]
        return Instance(list(things[0].values()), 45), names, ballots, amounts

    def test_files(self):
        instance, names, ballots, amounts = self.town()
        paid = [f"{voter},{name},{amount}" for voter, pair in enumerate(zip(names, amounts), 1)
                for name, amount in zip(*pair) if amount]
        votes = [f"{voter};{','.join(sorted(mine))}" for voter, mine in enumerate(names, 1)]
        for _ in self.each_number():
            for forms in (ballots, names):
                payments = [dict(zip(*pair)) for pair in zip(forms, amounts)]
                self.assertEqual(pbaudit.write_prices(5, payments).decode().split("\n")[4:], [*paid, ""])
                election = pbaudit.write_election(instance, forms).decode()
                self.assertEqual(election.partition("voter_id;vote\n")[2].split("\n"), [*votes, ""])

    def test_ballots_that_are_sets(self):
        """What is in one twice is met as two objects, or as one and by its id; and is approved once."""
        instance, names, _, _ = self.town()
        one, other = Thing("b", 9), Thing("b", 9)
        votes = [f"{voter};{','.join(sorted(mine))}" for voter, mine in enumerate([*names, *["b"] * 5], 1)]
        for _ in self.each_number():
            for kind in (set, frozenset, list):
                profile = [*map(kind, names), {one}, {one, "b"}, {other}, {one, other}, {other, "b"}]
                election = pbaudit.write_election(instance, profile).decode()
                self.assertEqual(election.partition("voter_id;vote\n")[2].split("\n"), [*votes, ""])

    def test_matrices(self):
        try:
            numpy = importlib.import_module("numpy")
        except ImportError:
            self.skipTest("numpy isn't installed")
        instance, names, _, amounts = self.town()
        approvals = numpy.array([[int(name in mine) for name in "abcde"] for mine in names])
        paid = numpy.array([[dict(zip(*pair)).get(name, 0) for name in "abcde"] for pair in zip(names, amounts)])
        payments = [dict(zip(*pair)) for pair in zip(names, amounts)]
        for _ in self.each_number():
            self.assertEqual(pbaudit.write_election(instance, approvals), pbaudit.write_election(instance, names))
            self.assertEqual(validate_price_system(instance, approvals, list("abcde"), 9, paid).explain().text,
                             validate_price_system(instance, names, list("abcde"), 9, payments).explain().text)

    def test_certificates(self):
        profile, payments = [*PROFILE, set(), {A}], [*PAYMENTS, {}, {}]
        for _ in self.each_number():
            made = pbaudit.price_certificate(SAMPLE, profile, [A, B], 4, payments)
            self.assertEqual(made.rows, [(1, "a", 2), (1, "b", 2), (2, "a", 4), (3, "b", 2)])

    def test_which_voter_is_at_fault(self):
        instance, names, _, _ = self.town()
        one, other = Thing("a", 9), Thing("a", 9)
        for _ in self.each_number():
            for last, told in (({"a": -1}, "^voter 8 pays -1 for a, and"), ({one: 1, other: 1}, "^voter 8 pays for a twice$"),
                               ({"a": 1, one: 1}, "^voter 8 pays for a twice$"), ({"x": 1}, "^voter 8 pays for x, which isn't"),
                               ({"a": Fraction(-1, 2)}, "^voter 8 pays -1/2 for a, and"),
                               ({"a": Decimal("nan")}, "^what voter 8 pays for a is Decimal")):
                payments = [{one: 1}, {other: 1}, *[{"a": 1}] * 3, {one: 1}, {}, last]
                with self.assertRaisesRegex(ValueError, told):
                    validate_price_system(instance, [*names, ["a"]], ["a"], 9, payments)
            with self.assertRaisesRegex(ValueError, "^voter 8 approves x, which isn't a project of the instance$"):
                pbaudit.write_election(instance, [*names, ["a", "x"]])

    def test_lengths_that_are_wrong(self):
        """What they say is where the next voter's projects begin."""
        class Ballot(list):
            def __len__(self):
                return 1

        class Paid(dict):
            def values(self):
                return [2]

        wrong = "^of the voters [1-3] to 3 one has more or fewer projects, or amounts, than its length says$"
        for _ in self.each_number():
            with self.assertRaisesRegex(ValueError, wrong):
                pbaudit.write_election(SAMPLE, [["a"], ["b"], Ballot("ab")])
            for amount in (2, Fraction(5, 2)):
                with self.assertRaisesRegex(ValueError, wrong):
                    pbaudit.write_prices(9, [{"a": amount}, {}, Paid(a=2, b=2)])


class PriceSystems(unittest.TestCase):
    def test_supported_and_failed(self):
        verdict = validate_price_system(SAMPLE, PROFILE, [A, B], 4, PAYMENTS)
        self.assertIs(bool(verdict), True)
        self.assertEqual(str(verdict), "supported priceable")
        self.assertEqual(str(validate_price_system(SAMPLE, PROFILE, [A, B], 4, PAYMENTS, True)), "supported stable")
        verdict = validate_price_system(SAMPLE, PROFILE, [A, B], 3, PAYMENTS)
        self.assertEqual((bool(verdict), verdict.condition, verdict.voter), (False, "C2", 1))
        verdict = validate_price_system(SAMPLE, PROFILE, [A, B], 4, [{A: 2, B: 2}, {A: 4}, {C: 2}])
        self.assertEqual((verdict.condition, verdict.voter, verdict.project), ("C3", None, "b"))
        verdict = validate_price_system(SAMPLE, PROFILE, [A], 6, [{A: 2}, {A: 4}, {}])
        self.assertEqual((verdict.condition, verdict.project), ("Exhaustive", "b"))
        verdict = validate_price_system(SAMPLE, PROFILE, [A], 6, [{A: 2}, {A: 4}, {}], exhaustive=False)
        self.assertEqual((verdict.condition, verdict.project), ("C5", "b"))

    def test_an_instance_that_is_a_set(self):
        """As in pabutools, whose instances are sets: the lowest project is the one with the lowest id."""
        class SetOfProjects(set):
            budget_limit = 10

        projects = [Project(f"{number:02}", 1) for number in range(40)]
        verdict = validate_price_system(SetOfProjects(projects), [projects], [], 0, [{}])
        self.assertEqual((verdict.condition, verdict.project), ("Exhaustive", "00"))
        self.assertEqual(validate_price_system(Instance(set(projects), 10), [projects], [], 0, [{}]), verdict)
        made = pbaudit.price_certificate(SetOfProjects([A, B, C]), PROFILE, [A, B], 4, PAYMENTS)
        self.assertEqual(made.file, pbaudit.write_prices(4, PAYMENTS))

    def test_a_profile_that_is_a_set(self):
        for profile in (set(map(frozenset, PROFILE)), frozenset(map(frozenset, PROFILE))):
            with self.assertRaisesRegex(ValueError, "^the profile is a set, whose voters have no order"):
                validate_price_system(SAMPLE, profile, [A, B], 4, PAYMENTS)

    def test_names_stand_for_projects(self):
        payments = [{"a": 2, "b": 2}, {"a": 4}, {"b": 2}]
        self.assertTrue(validate_price_system(SAMPLE, [["a", "b"], ["a"], ["b", "c"]], ["a", "b"], 4, payments))

    def test_amounts_are_exact(self):
        third = Fraction(1, 3)
        instance = Instance([Project("a", 1), Project("b", Fraction(1, 7))], Decimal("1.142857") + Decimal("0.000001"))
        payments = [{"a": third, "b": Fraction(1, 7)}, {"a": third}, {"a": third}]
        ballots = [["a", "b"], ["a"], ["a"]]
        self.assertTrue(validate_price_system(instance, ballots, ["a", "b"], third + Fraction(1, 7), payments))
        less = [{"a": third - Fraction(1, 10**15), "b": Fraction(1, 7)}, {"a": third}, {"a": third}]
        verdict = validate_price_system(instance, ballots, ["a", "b"], third + Fraction(1, 7), less)
        self.assertEqual((verdict.condition, verdict.project), ("C3", "a"))

    def test_floats_are_refused(self):
        for budget, payments in ((4.0, PAYMENTS), (4, [{A: 2, B: 2.0}, {A: 4}, {B: 2}])):
            with self.assertRaisesRegex(TypeError, "price_certificate"):
                validate_price_system(SAMPLE, PROFILE, [A, B], budget, payments)
        for told, instance in (("the cost of a is the float 6.0", Instance([Project("a", 6.0)], 10)),
                               ("the budget limit is the float 10.0", Instance([Project("a", 6)], 10.0))):
            with self.assertRaisesRegex(TypeError, f"^{told}, .*: give whole numbers, Fractions or Decimals$"):
                validate_price_system(instance, [{"a"}], ["a"], 6, [{"a": 6}])

    def test_amounts_that_are_too_large(self):
        def town(cost, limit):
            return Instance([A, B, Project("c", cost)], limit)
        most, over = 10**12, "is 1000000000001, and an election's amounts are from 0 to 10.12$"
        numerator = "is over 10.21, the most that a certificate has$"
        for told, instance, budget, payment in (
            (f"the cost of c {over}", town(most + 1, 10), 4, 2), (f"the budget limit {over}", town(9, most + 1), 4, 2),
            ("the cost of c is -1, and an", town(-1, 10), 4, 2),
            (f"the numerator of the voter budget {numerator}", SAMPLE, 10**22, 2),
            (f"the numerator of what voter 3 pays for b {numerator}", SAMPLE, 4, 10**22),
            ("the amounts have too large a common denominator", town(most, most), 4, Fraction(1, 10**9 + 7)),
        ):
            with self.subTest(told=told), self.assertRaisesRegex(ValueError, f"^{told}"):
                validate_price_system(instance, PROFILE, [A, B], budget, [{A: 2, B: 2}, {A: 4}, {B: payment}])

    def test_many_denominators(self):
        """Of Equal Shares: each supporter pays the cost over the number of supporters, a prime, and so all need a
        denominator of about 10^27."""
        primes = [2, 3, 5, 7, 11, 13, 17, 19, 23, 29, 31, 37, 41, 43, 47, 53, 59, 61, 67, 71]
        projects = [Project(f"p{prime}", 1000 + prime) for prime in primes]
        ballots = [[project for project, prime in zip(projects, primes) if voter < prime] for voter in range(71)]
        payments = [{project: Fraction(project.cost, prime) for project, prime in zip(projects, primes) if voter < prime}
                    for voter in range(71)]
        given = Instance(projects, sum(project.cost for project in projects)), ballots, projects, 10_000, payments
        with self.assertRaisesRegex(ValueError, "^the amounts have too large a common denominator .* near=True") as caught:
            validate_price_system(*given)
        self.assertEqual(pickle.loads(pickle.dumps(caught.exception)).args, caught.exception.args)
        verdict = validate_price_system(*given, near=True)
        self.assertEqual(str(verdict), "supported priceable")
        self.assertTrue(0 < verdict.moved < Fraction(1, 10**8))
        self.assertIsNone(validate_price_system(SAMPLE, PROFILE, [A, B], 4, PAYMENTS, near=True).moved)
        self.assertIsInstance(caught.exception, pbaudit.TooManyDenominators)
        self.assertEqual(str(validate_price_system(*given[:3], 1, payments, near=True)), "failed C2 voter 1")
        with self.assertRaisesRegex(TypeError, "^near is 'no', not True or False$"):
            validate_price_system(*given, near="no")

    def test_a_no_that_no_denominator_changes(self):
        """Payments over large primes, by which conditions fail that don't depend on how much is paid."""
        odd, small = Fraction(1, 10**9 + 7), Fraction(1, 10**9 + 9)
        for told, funded, payments, modes in (
            ("failed Feasible", [A, B, C], [{A: odd}, {A: small}, {}], {}),
            ("failed Exhaustive project b", [A], [{A: odd}, {A: small}, {}], {}),
            ("failed C1 voter 2 project b", [A, B], [{A: odd}, {A: 4, B: small}, {A: 1, B: 2}], {}),
            ("failed C1 voter 3 project a", [A], [{A: odd}, {A: 4}, {A: small}], {"exhaustive": False}),
            ("failed C3 project b", [A, B], [{A: odd}, {A: small}, {}], {}),
            ("failed C4 project b", [A], [{A: odd}, {A: small}, {B: small}], {"exhaustive": False, "stable": True}),
        ):
            with self.subTest(told=told):
                verdict = validate_price_system(SAMPLE, PROFILE, funded, 4, payments, **modes)
                self.assertEqual((str(verdict), verdict.moved), (told, None))
        free = Project("free", 0)
        instance = Instance([A, B, C, free], 10)
        paid = [{A: odd, B: 2}, {A: small}, {B: 2, free: 1}]
        self.assertEqual(str(validate_price_system(instance, [*PROFILE[:2], {B, free}], [A, B, free], 4, paid)),
                         "failed C3 project free")

    def test_a_yes_or_no_that_depends_on_amounts(self):
        """A spends too much, b isn't paid for exactly, and c's supporters have more left than it costs: no answer."""
        odd, small = Fraction(1, 10**9 + 7), Fraction(1, 10**9 + 9)
        for instance, budget, payments in (
            (SAMPLE, 2, [{A: 2 - odd, B: 2 - small}, {A: 4 + odd}, {B: 2 + small}]),
            (SAMPLE, 4, [{A: 2 - odd, B: 2 - small}, {A: 4}, {B: 2}]),
            (SAMPLE, 99, [{A: 2 - odd, B: 2 - small}, {A: 4 + odd}, {B: 2 + small}]),
        ):
            for stable in (False, True):
                with self.assertRaisesRegex(ValueError, "^the amounts have too large a common denominator"):
                    validate_price_system(instance, PROFILE, [A, B], budget, payments, stable=stable)
        with self.assertRaisesRegex(ValueError, "^voter 3 pays -1/1000000009 for b, and a certificate has no payments"):
            validate_price_system(SAMPLE, PROFILE, [A, B], 4, [{A: odd}, {A: 4}, {B: -small}])

    def test_a_payment_too_small_beside_many(self):
        """A millionth that 2,000 voters pay together can't be shared over 10^9, and then nothing is told."""
        tiny, odd, small = Project("t", Fraction(1, 10**6)), Fraction(1, 10**9 + 7), Fraction(1, 10**9 + 9)
        given = Instance([tiny], 1), [["t"]] * 2000, ["t"], 1, [{"t": odd}, {"t": small}, *[{"t": 1}] * 1998]
        with self.assertRaisesRegex(ValueError, "too large a common denominator"):
            validate_price_system(*given)

    def test_a_project_that_is_paid_for_twice(self):
        """Once by its id and once as itself, in either order, also where one payment is 0."""
        rest = [{A: 4}, {B: 2}]
        for first in ({"a": 50, A: 2, B: 2}, {A: 2, "a": 50, B: 2}, {"a": 0, A: 2, B: 2}, {A: 2, B: 2, "b": 0}):
            with self.subTest(first=first):
                for check in (validate_price_system, pbaudit.price_certificate):
                    with self.assertRaisesRegex(ValueError, "^voter 1 pays for [ab] twice$"):
                        check(SAMPLE, PROFILE, [A, B], 4, [first, *rest])
                with self.assertRaisesRegex(ValueError, "^voter 1 pays for [ab] twice$"):
                    pbaudit.write_prices(4, [first, *rest])

    def test_values_that_are_read_once(self):
        instance = Instance((project for project in (A, B, C)), 10)
        for _ in range(2):
            self.assertEqual(pbaudit.write_election(instance, PROFILE), pbaudit.write_election(SAMPLE, PROFILE))
        for check in (validate_price_system, pbaudit.price_certificate):
            for exhaustive in (True, False):
                ballots = (iter(ballot) for ballot in PROFILE)
                self.assertTrue(check(SAMPLE, ballots, iter([A, B]), 4, iter(PAYMENTS), exhaustive=exhaustive))

    def test_what_no_certificate_can_say(self):
        for profile, funded, payments in (
            (PROFILE, [A, B], [{A: 2, B: 2}, {A: 4}]),
            (PROFILE, [A, B], [{A: 2, B: 2}, {A: 4}, {"d": 2}]),
            (PROFILE, [A, B], [{A: 2, B: 2}, {A: 4}, {B: 2, "d": 0}]),
            (PROFILE, [A, "d"], PAYMENTS),
            (PROFILE, [A, A], PAYMENTS),
            ([{A, B}, {A}, {"d"}], [A, B], PAYMENTS),
            (PROFILE, [A, B], [{A: 2, B: 2}, {A: 4}, {B: -2}]),
            (Counter({frozenset([A]): 3}), [A], [{A: 2}] * 3),
            (PROFILE, [A, B], [{A: Fraction(2, 10**40 + 1)}, {A: 4}, {B: 2}]),
        ):
            with self.subTest(funded=funded, payments=payments), self.assertRaises(ValueError):
                validate_price_system(SAMPLE, profile, funded, 4, payments)
        with self.assertRaises(ValueError):
            validate_price_system(Instance([A, A, B], 10), PROFILE[:2], [A, B], 4, PAYMENTS[:2])


class Files(unittest.TestCase):
    def test_an_election_is_read_back(self):
        odd = ['q"', '"q', "x;y", "\u00fcber", "a b", "META", "'", "\u00a0x"]
        instance = Instance([Project(name, Decimal("0.000001") * at) for at, name in enumerate(odd)], 10**12)
        data = pbaudit.write_election(instance, [odd, [], odd[:2]], odd[3:])
        self.assertEqual(str(pbaudit.read(data)), "read 3 voters 8 projects 5 funded")
        prices = pbaudit.write_prices(Fraction(5, 3), [{name: Fraction(at, 7) for at, name in enumerate(odd)}, {}, {}])
        self.assertEqual(pbaudit.tidy(data, prices), prices)
        self.assertIn(b"denominator,21\nvoter_budget,35\n", prices)
        self.assertIsNone(pbaudit.read(pbaudit.write_election(SAMPLE, PROFILE)).funded)

    def test_the_sample(self):
        self.assertEqual(
            pbaudit.write_election(Instance([A, Project("b", Decimal("4.50"))], Fraction(21, 2)), [[A], []], [A]),
            b"META\nkey;value\nnum_projects;2\nnum_votes;2\nbudget;10.5\nvote_type;approval\n"
            b"PROJECTS\nproject_id;cost;selected\na;6;1\nb;4.5;0\nVOTES\nvoter_id;vote\n1;a\n2;\n")
        self.assertEqual(pbaudit.write_outcome([A, "x,y"]), b'pb-outcome,1\nproject,a\nproject,"x,y"\n')
        self.assertEqual(pbaudit.write_violation([4, 1], [B]), b"pb-violation,1\nproject,b\nvoter,4\nvoter,1\n")
        self.assertEqual(pbaudit.write_violation([1], [B], "cost"),
                         b"pb-violation,2\nsatisfaction,cost\nproject,b\nvoter,1\n")
        prices = b"pb-prices,1\ndenominator,1\nvoter_budget,4\nvoter,project,payment\n1,a,2\n1,b,2\n2,a,4\n3,b,2\n"
        self.assertEqual(pbaudit.write_prices(4, PAYMENTS), prices)

    def test_files_are_audited(self):
        with tempfile.TemporaryDirectory() as room:
            election, prices, claim, outcome = (f"{room}/{name}" for name in ("t.pb", "t.prices.csv", "v.csv", "o.csv"))
            pbaudit.write_election(SAMPLE, PROFILE, [A, B], election)
            pbaudit.write_prices(4, PAYMENTS, prices)
            pbaudit.write_violation([1, 2], ["a"], path=claim)
            pbaudit.write_outcome([], outcome)
            self.assertTrue(pbaudit.audit_prices(election, prices))
            self.assertEqual(pbaudit.audit_violation(election, claim).condition, "V4")
            self.assertTrue(pbaudit.audit_violation(election, claim, outcome))

    def test_a_place_that_is_no_path(self):
        made = pbaudit.price_certificate(SAMPLE, PROFILE, [A, B], 4, PAYMENTS)
        for path in (True, 1, io.BytesIO(), b"x.csv"):
            with self.assertRaisesRegex(TypeError, "isn't the path of a file to write"):
                pbaudit.write_outcome(["a"], path)
            with self.assertRaisesRegex(TypeError, "isn't the path of a file to write"):
                made.write(path)
        with self.assertRaisesRegex(TypeError, "isn't the path of a file to write"):
            made.write(None)

    def test_what_cannot_be_written(self):
        def projects(name, cost=1):
            return Instance([Project(name, cost)], 10)
        for make in (
            lambda: pbaudit.write_election(projects("a", Decimal("0.0000001")), []),
            lambda: pbaudit.write_election(projects("a", Fraction(1, 3)), []),
            lambda: pbaudit.write_election(projects("a", -1), []),
            lambda: pbaudit.write_election(projects("a", 10**12 + 1), []),
            lambda: pbaudit.write_election(projects("a", Decimal("nan")), []),
            lambda: pbaudit.write_election(projects("a\n"), []),
            lambda: pbaudit.write_election(projects("a\x01b"), []),
            lambda: pbaudit.write_election(projects(""), []),
            lambda: pbaudit.write_election(projects(" a"), []),
            lambda: pbaudit.write_election(projects("x,y"), [["x,y"]]),
            lambda: pbaudit.write_election(Instance([A, A], 10), []),
            lambda: pbaudit.write_election(projects("\ud800"), []),
            lambda: pbaudit.write_prices(1, [{"a": Fraction(1, 10**9 + 1)}]),
            lambda: pbaudit.write_prices(-1, []),
            lambda: pbaudit.write_prices(10**21 + 1, []),
            lambda: pbaudit.write_violation([0], ["a"]),
            lambda: pbaudit.write_violation([1, 1], ["a"]),
            lambda: pbaudit.write_violation([1], ["a"], "share"),
            lambda: pbaudit.write_outcome(["a", "a"]),
        ):
            with self.assertRaises(ValueError):
                make()

    def test_values_of_a_wrong_kind(self):
        for make, told in (
            (lambda: pbaudit.write_violation([1.9], ["a"]), "the group names voter 1.9, which isn't a whole number"),
            (lambda: pbaudit.write_violation(["1"], ["a"]), "the group names voter '1', which isn't a whole number"),
            (lambda: pbaudit.write_violation([1], [1]), "the demand names 1, which isn't a project: "),
            (lambda: pbaudit.write_outcome([2]), "the outcome names 2, which isn't a project: "),
            (lambda: pbaudit.write_election(SAMPLE, [[A], [None]]), "voter 2 approves None, which isn't a project: "),
            (lambda: pbaudit.write_election(Instance([A, 3], 10), []), "the instance has 3, which isn't a project: "),
            (lambda: pbaudit.write_prices(4, [{A: 1}, {7: 1}]), "voter 2 pays for 7, which isn't a project: "),
        ):
            with self.assertRaisesRegex(TypeError, f"^{told}"):
                make()

    def test_values_without_what_is_wanted(self):
        checks = (validate_price_system, pbaudit.price_certificate)
        no_limit, no_costs = "the instance is .*, which has no budget_limit$", "the instance's project a has no cost$"
        of_voter, no_list = "the payment function of voter", "not a list of mappings, one for each voter$"
        for told, instance, profile, payments in (
            (no_limit, [A, B, C], PROFILE, PAYMENTS), (no_costs, Instance(["a"], 10), [["a"]], [{"a": 1}]),
            ("the instance is None, not a list of projects", None, PROFILE, PAYMENTS),
            ("the ballot of voter 2 is None, not a list of projects", SAMPLE, [{A}, None, {B}], PAYMENTS),
            ("the profile is None, not a list of ballots$", SAMPLE, None, PAYMENTS),
            (f"{of_voter} 1 is \\['a'\\], not a mapping from projects", SAMPLE, PROFILE, [["a"], {}, {}]),
            (f"{of_voter} 3 is None, not a mapping from projects", SAMPLE, PROFILE, [{}, {}, None]),
            (f"the payment functions are {{1: .*}}, {no_list}", SAMPLE, PROFILE, dict(enumerate(PAYMENTS, 1))),
            (f"the payment functions are None, {no_list}", SAMPLE, PROFILE, None),
        ):
            makes = [lambda check=check: check(instance, profile, [A, B], 4, payments) for check in checks]
            makes.append(lambda: (pbaudit.write_election(instance, profile), pbaudit.write_prices(4, payments)))
            for make in makes:
                with self.subTest(told=told), self.assertRaisesRegex(TypeError, f"^{told}"):
                    make()

    def test_no_budget_allocation(self):
        """Only an election may have none."""
        for make in (
            lambda: validate_price_system(SAMPLE, PROFILE, None, 4, PAYMENTS),
            lambda: pbaudit.price_certificate(SAMPLE, PROFILE, None, 4, PAYMENTS),
            lambda: pbaudit.write_outcome(None),
        ):
            with self.assertRaisesRegex(TypeError, "^the budget allocation is None, not a list of projects or "):
                make()

    def test_a_project_without_a_name(self):
        for make in (lambda: pbaudit.write_election(Instance([Project(None, 1)], 1), []),
                     lambda: pbaudit.write_outcome([Project(None, 1)])):
            with self.assertRaisesRegex(TypeError, "^the (instance has|outcome names) Project.*, which isn't a project"):
                make()

    def test_a_mapping_is_no_list(self):
        """Its keys would be taken, whatever it says of them."""
        mark = {"a": True, "b": False}
        for make in (
            lambda: validate_price_system(SAMPLE, PROFILE, mark, 4, PAYMENTS),
            lambda: pbaudit.price_certificate(SAMPLE, PROFILE, mark, 4, PAYMENTS),
            lambda: pbaudit.write_election(SAMPLE, PROFILE, mark),
            lambda: pbaudit.write_election(SAMPLE, PROFILE, Counter(["a"])),
            lambda: pbaudit.write_outcome(mark),
        ):
            with self.assertRaisesRegex(TypeError, "^the budget allocation is .*, not a list of projects or their ids$"):
                make()
        with self.assertRaisesRegex(TypeError, "^the demand is {.*}, not a list of projects"):
            pbaudit.write_violation([1], mark)
        with self.assertRaisesRegex(TypeError, "^the group is {.*}, not a list of numbers of voters$"):
            pbaudit.write_violation({1: True, 2: False}, ["a"])
        self.assertEqual(pbaudit.write_outcome({"a": 1}.keys()), pbaudit.write_outcome(["a"]))

    def test_ballots_of_other_kinds(self):
        """Cardinal ballots are no approvals, and merged ones have no order that is asked for where each voter has a row."""
        def certified(profile):
            return pbaudit.price_certificate(SAMPLE, profile, [A, B], 4, PAYMENTS)

        def validated(profile):
            return validate_price_system(SAMPLE, profile, [A, B], 4, PAYMENTS)

        def written(profile):
            return pbaudit.write_election(SAMPLE, profile)
        for make in (certified, validated, written):
            with self.assertRaisesRegex(TypeError, "^the ballot of voter 2 is {.*}, a mapping as cardinal ballots are"):
                make([{A}, {B: 3}, {C}])
        for make in (validated, written):
            with self.assertRaisesRegex(ValueError, "^the profile is a mapping, as merged ballots with counts are, .* one ballot for each"):
                make(Counter({frozenset([A]): 3}))

    def test_numbers_of_other_kinds(self):
        """Floats are told as such, whoever's they are, and a bool is no amount."""
        rest = [{A: 4}, {B: 2}]
        for amount, told in [(True, "not a number"), *floats_of_others()]:
            with self.subTest(amount=amount), self.assertRaisesRegex(TypeError, f"^what voter 1 pays for a is .*{told}"):
                validate_price_system(SAMPLE, PROFILE, [A, B], 4, [{A: amount, B: 2}, *rest])
        with self.assertRaisesRegex(TypeError, "^what voter 1 pays for a is True, not a number"):
            pbaudit.price_certificate(SAMPLE, PROFILE, [A, B], 4, [{A: True, B: 2}, *rest])
        with self.assertRaisesRegex(TypeError, "^the voter budget is True, not a number"):
            validate_price_system(SAMPLE, PROFILE, [A, B], True, PAYMENTS)
        for amount, _ in floats_of_others():
            made = pbaudit.price_certificate(SAMPLE, PROFILE, [A, B], 4, [{A: amount, B: 2}, *rest])
            self.assertEqual(made.file, pbaudit.write_prices(4, PAYMENTS))

    def test_exact_numbers_of_others(self):
        try:
            import gmpy2
            import numpy
        except ImportError as why:
            self.skipTest(str(why))
        for kind in (gmpy2.mpq, gmpy2.mpz, numpy.int64, numpy.int8, Decimal, Fraction):
            payments = [{project: kind(amount) for project, amount in mine.items()} for mine in PAYMENTS]
            self.assertEqual(pbaudit.write_prices(kind(4), payments), pbaudit.write_prices(4, PAYMENTS))
            self.assertTrue(validate_price_system(SAMPLE, PROFILE, [A, B], kind(4), payments))
            self.assertEqual(pbaudit.price_certificate(SAMPLE, PROFILE, [A, B], kind(4), payments).denominator, 1)

    def test_half_of_a_letter_is_no_name(self):
        told = r"^the id 'a\\ud800' can't be written: it has half of a surrogate pair"
        for make in (lambda: pbaudit.write_outcome(["a\ud800"]),
                     lambda: pbaudit.write_election(Instance([Project("a\ud800", 1)], 1), [])):
            with self.assertRaisesRegex(ValueError, told):
                make()

    def test_projects_that_are_made_anew(self):
        """Equal ones stand for each other, and none for one whose place in memory it takes."""
        ballots = ([Project(name, 1) for name in names] for names in ("ab", "a", "bc"))
        payments = ({Project(name, 1): amount for name, amount in mine.items()}
                    for mine in ({"a": 2, "b": 2}, {"a": 4}, {"b": 2}))
        self.assertTrue(validate_price_system(SAMPLE, ballots, [A, "b"], 4, payments))

    def test_a_text_is_no_list(self):
        """It would be taken letter by letter: here a and b are projects."""
        checks = (validate_price_system, pbaudit.price_certificate)
        ballots, projects = ["ab", ["a"], ["b"]], "not a list of projects or their ids$"
        for make, told in (
            (lambda: pbaudit.write_outcome("park"), f"the budget allocation is 'park', {projects}"),
            (lambda: pbaudit.write_violation([1], "park"), f"the demand is 'park', {projects}"),
            (lambda: pbaudit.write_violation("1", ["a"]), "the group is '1', not a list of numbers of voters$"),
            (lambda: pbaudit.write_election(SAMPLE, ballots), f"the ballot of voter 1 is 'ab', {projects}"),
            (lambda: pbaudit.write_election(SAMPLE, "ab"), "the profile is 'ab', not a list of ballots$"),
            (lambda: pbaudit.write_election(SAMPLE, PROFILE, "ab"), f"the budget allocation is 'ab', {projects}"),
            *((lambda check=check: check(SAMPLE, ballots, [A, B], 4, PAYMENTS), "the ballot of voter 1 is 'ab', ")
              for check in checks),
            *((lambda check=check: check(SAMPLE, PROFILE, "ab", 4, PAYMENTS), "the budget allocation is 'ab', ")
              for check in checks),
        ):
            with self.subTest(told=told), self.assertRaisesRegex(TypeError, f"^{told}"):
                make()

    def test_more_than_a_file_may_have(self):
        """At its limit a file is written, and past it it's refused."""
        many = Instance([Project(str(number), 0) for number in range(20_000)], 1)
        self.assertEqual(pbaudit.read(pbaudit.write_election(many, [])).projects, 20_000)
        many.projects.append(Project("last", 0))
        with self.assertRaisesRegex(ValueError, "20001 projects.*20000"):
            pbaudit.write_election(many, [])
        self.assertIn(b"voter,1000000\n", pbaudit.write_violation([10**6], ["a"]))
        for voter in (0, 10**6 + 1):
            with self.assertRaisesRegex(ValueError, f"voter {voter}, and voters are numbered from 1 to 1000000"):
                pbaudit.write_violation([1, voter], ["a"])
        for limit, most, make in (
            ("MOST_VOTERS", 3, lambda: pbaudit.write_election(SAMPLE, PROFILE)),
            ("MOST_APPROVALS", 5, lambda: pbaudit.write_election(SAMPLE, PROFILE)),
            ("MOST_VOTERS", 3, lambda: pbaudit.write_prices(4, PAYMENTS)),
            ("MOST_PAYMENTS", 4, lambda: pbaudit.write_prices(4, PAYMENTS)),
            ("MOST_BYTES", len(pbaudit.write_prices(4, PAYMENTS)), lambda: pbaudit.write_prices(4, PAYMENTS)),
        ):
            with self.subTest(limit=limit):
                with mock.patch.object(writing, limit, most):
                    make()
                with mock.patch.object(writing, limit, most - 1), self.assertRaisesRegex(ValueError, str(most - 1)):
                    make()

    def test_each_function_names_its_errors(self):
        for name in pbaudit.__all__:
            function = getattr(pbaudit, name)
            if not isinstance(function, type):
                self.assertIn("Error", function.__doc__, name)

    def test_ids_are_not_kept_for_ever(self):
        self.assertIsNotNone(values._checked_id.cache_info().maxsize)
