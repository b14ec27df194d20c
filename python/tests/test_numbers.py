"""Numbers of all kinds, at the edges of the words that others keep theirs in, beside Python's own whole numbers."""
import decimal
import math
import unittest
from decimal import Decimal
from fractions import Fraction

import pbaudit
from pbaudit import Instance, Project, validate_price_system
from pbaudit.amounts import near, ratio

try:
    import gmpy2
    import numpy
except ImportError:
    gmpy2 = numpy = None

EDGES = [2**bits + step for bits in (7, 8, 15, 16, 31, 32, 53, 55, 63, 64) for step in (-1, 0, 1, 4)]
DENOMINATORS = (1, 3, 512, 10**6, 10**9)
MOST_COST, MOST_NUMERATOR = 10**12, 10**21


class Whole(int):
    """A whole number of a class of its own, which tells nothing by itself."""

    def __mul__(self, other):
        return 0

    __rmul__ = __add__ = __radd__ = __floordiv__ = __mul__


class Part(Fraction):
    """A fraction of a class of its own."""


class Ratio:
    """What has a numerator and a denominator, and not in lowest terms."""

    def __init__(self, numerator, denominator):
        self.numerator, self.denominator = 2 * numerator, 2 * denominator


def kinds():
    """The kinds of exact numbers by their names: each makes one of a numerator and a denominator, or none."""
    made = {"int": whole(int), "Whole": whole(Whole), "Fraction": Fraction, "Part": Part, "Ratio": Ratio,
            "Decimal": decimal_of}
    if numpy:
        for bits in (8, 16, 32, 64):
            for kind in (f"int{bits}", f"uint{bits}"):
                made[kind] = whole(getattr(numpy, kind))
                made[f"Fraction of {kind}"] = fraction_of(getattr(numpy, kind))
        made.update(mpz=whole(gmpy2.mpz), mpq=gmpy2.mpq)
        made["Fraction of mpz"] = fraction_of(gmpy2.mpz)
    return made


def whole(kind):
    return lambda numerator, denominator: None if numerator % denominator else held(kind, numerator // denominator)


def held(kind, number):
    """A number of a kind, or none where it has no room for it."""
    if numpy and issubclass(kind, numpy.integer):
        room = numpy.iinfo(kind)
        return kind(number) if room.min <= number <= room.max else None
    return kind(number)


def fraction_of(kind):
    def make(numerator, denominator):
        common = math.gcd(numerator, denominator)
        parts = held(kind, numerator // common), held(kind, denominator // common)
        try:
            made = None if None in parts else Fraction(parts[0]) if parts[1] == 1 else Fraction(*parts)
        except TypeError:
            return None
        if made is None or int(made.numerator) * denominator != numerator * int(made.denominator):
            return None
        return made
    return make


def decimal_of(numerator, denominator):
    with decimal.localcontext(decimal.Context(prec=60)) as context:
        made = Decimal(numerator) / Decimal(denominator)
        return None if context.flags[decimal.Inexact] else made


def as_kind(make, amount):
    return None if amount is None else make(amount.numerator, amount.denominator)


def answer(costs, limit, ballots, funded, budget, payments):
    """The line on prices, by whole numbers alone: all amounts are multiplied by one number that leaves no parts."""
    unit = math.lcm(*(amount.denominator for mine in payments for amount in mine.values()), budget.denominator)
    budget, limit = int(budget * unit), limit * unit
    costs = {name: cost * unit for name, cost in costs.items()}
    payments = [{name: int(amount * unit) for name, amount in mine.items()} for mine in payments]
    total = sum(costs[name] for name in funded)
    left = [budget - sum(mine.values()) for mine in payments]
    others = [name for name in costs if name not in funded]
    lines = [
        *(["failed Feasible"] if total > limit else []),
        *(f"failed Exhaustive project {name}" for name in others if total + costs[name] <= limit),
        *(f"failed C1 voter {voter} project {name}" for voter, mine in enumerate(payments, 1) for name in costs
          if mine.get(name) and name not in ballots[voter - 1]),
        *(f"failed C2 voter {voter}" for voter, rest in enumerate(left, 1) if rest < 0),
        *(f"failed C3 project {name}" for name in costs
          if name in funded and sum(mine.get(name, 0) for mine in payments) != costs[name]),
        *(f"failed C4 project {name}" for name in others if any(mine.get(name) for mine in payments)),
        *(f"failed C5 project {name}" for name in others
          if sum(rest for rest, ballot in zip(left, ballots) if name in ballot) > costs[name]),
    ]
    return lines[0] if lines else "supported priceable"


def price_systems():
    """Price systems near each edge, by Python's own numbers: one that holds, where a cost can be so much, and others
    that are off by the least part."""
    for edge in EDGES:
        for denominator in DENOMINATORS:
            first, part = Fraction(edge, denominator), Fraction(1, denominator)
            cost = math.floor(first) + 2 if first < MOST_COST / 2 else 5
            second = max(cost - first, Fraction(511, 512))
            budget = max(first, second)
            room = min(math.ceil(budget), MOST_COST)
            for more, less, higher in ((0, 0, 0), (part, 0, part), (-part, 0, 0), (0, part, 0), (0, 0, part), (0, 0, 1)):
                if first + more >= 0 and (budget + higher) * math.lcm(denominator, 512) <= MOST_NUMERATOR:
                    yield ({"a": cost, "z": room}, cost, [["a"], ["a"], ["a"], ["z"]], ["a"], budget - less + higher,
                           [{"a": first + more}, {"a": second - Fraction(1, 512)}, {"a": Fraction(1, 512)}, {}])


class Numbers(unittest.TestCase):
    def test_prices(self):
        """The first payment and the budget are of each kind, and then the first payment alone."""
        made, told = kinds(), {}
        for costs, limit, ballots, funded, budget, payments in price_systems():
            wanted = answer(costs, limit, ballots, funded, budget, payments)
            instance = Instance([Project(*pair) for pair in costs.items()], limit)
            for name, make in made.items():
                first = as_kind(make, payments[0]["a"])
                budgets = [each for each in (as_kind(make, budget), budget) if each is not None]
                for given in budgets if first is not None else ():
                    with self.subTest(kind=name, first=payments[0]["a"], budget=budget, given=type(given)):
                        verdict = validate_price_system(instance, ballots, funded, given, [{"a": first}, *payments[1:]])
                        self.assertEqual(str(verdict), wanted)
                        told.setdefault(name, set()).add(wanted.split(" project")[0])
        self.assertEqual(told.keys(), made.keys())
        self.assertEqual(set().union(*told.values()), {
            "supported priceable", "failed C2 voter 1", "failed C3", "failed C5"})

    def test_the_example_that_wrapped(self):
        big = 2**55 + 4
        for name, make in kinds().items():
            first = make(big, 1)
            if first is not None:
                verdict = validate_price_system(Instance([Project("a", 5)], 5), [{"a"}] * 3, ["a"], Fraction(big),
                                                [{"a": first}, {"a": Fraction(1, 512)}, {"a": Fraction(511, 512)}])
                self.assertEqual(str(verdict), "failed C3 project a", name)

    def test_certificates(self):
        for costs, limit, ballots, funded, budget, payments in price_systems():
            if answer(costs, limit, ballots, funded, budget, payments) != "supported priceable":
                continue
            instance = Instance([Project(*pair) for pair in costs.items()], limit)
            unit = math.lcm(budget.denominator, *(amount.denominator for mine in payments for amount in mine.values()))
            for name, make in kinds().items():
                given, first = as_kind(make, budget), as_kind(make, payments[0]["a"])
                if given is None or first is None or unit > 10**9:
                    continue
                with self.subTest(kind=name, first=payments[0]["a"], budget=budget):
                    made = pbaudit.price_certificate(instance, ballots, funded, given, [{"a": first}, *payments[1:]])
                    self.assertEqual((made.moved, made.raised), (0, 0))
                    self.assertEqual([(voter, Fraction(numerator, made.denominator)) for voter, _, numerator in made.rows],
                                     [(voter, mine["a"]) for voter, mine in enumerate(payments[:3], 1) if mine["a"]])

    def test_files(self):
        for name, make in kinds().items():
            for edge in EDGES:
                for denominator in DENOMINATORS:
                    amount = make(edge, denominator)
                    if amount is None:
                        continue
                    part = Fraction(edge, denominator)
                    unit = math.lcm(part.denominator, 7)
                    with self.subTest(kind=name, edge=edge, denominator=denominator):
                        if unit <= 10**9 and part * unit <= MOST_NUMERATOR:
                            wanted = (f"pb-prices,1\ndenominator,{unit}\nvoter_budget,{part * unit}\n"
                                      f"voter,project,payment\n1,a,{part * unit}\n2,a,{unit // 7}\n").encode()
                            made = pbaudit.write_prices(amount, [{"a": amount}, {"a": Fraction(1, 7)}])
                            self.assertEqual(made, wanted)
                        if 10**6 % part.denominator == 0 and part <= MOST_COST:
                            whole, rest = divmod(part * 10**6, 10**6)
                            shown = f"{whole}.{int(rest):06}".rstrip("0").rstrip(".")
                            made = pbaudit.write_election(Instance([Project("a", amount)], amount), [])
                            self.assertIn(f"\nbudget;{shown}\n".encode(), made)
                            self.assertIn(f"\na;{shown}\n".encode(), made)

    def test_numbers_of_voters(self):
        for kind in (int, Whole, *([numpy.int32, numpy.uint64, gmpy2.mpz] if numpy else [])):
            self.assertEqual(pbaudit.write_violation([kind(2**16)], ["a"]),
                             b"pb-violation,1\nproject,a\nvoter,65536\n")

    def test_equal_shares(self):
        """Costs and limits of all kinds come to what Python's own numbers come to."""
        ballots = [["a", "b"], ["a", "b"], ["b"]]
        for edge in EDGES:
            if edge > MOST_COST:
                continue
            wanted = pbaudit.equal_shares(Instance([Project("a", edge), Project("b", 3)], edge + 3), ballots)
            for name, make in kinds().items():
                cost, limit, three = make(edge, 1), make(edge + 3, 1), make(3, 1)
                if cost is not None and limit is not None:
                    found = pbaudit.equal_shares(Instance([Project("a", cost), Project("b", three)], limit), ballots)
                    self.assertEqual(found, wanted, name)

    def test_all_are_pythons_own(self):
        for name, make in kinds().items():
            for edge in EDGES:
                for denominator in DENOMINATORS:
                    amount = make(edge, denominator)
                    if amount is not None:
                        numerator, part = ratio(amount, "it")
                        self.assertEqual((type(numerator), type(part)), (int, int), name)
                        self.assertEqual(Fraction(numerator, part), Fraction(edge, denominator))

    def test_floats(self):
        """A float counts as the shortest decimal that it prints as."""
        for edge in EDGES:
            for denominator in (1, 2, 10, 512, 10**6):
                for amount in (edge / denominator, -edge / denominator):
                    self.assertEqual(near(amount, "it"), Fraction(repr(amount)))
                    if numpy:
                        self.assertEqual(near(numpy.float64(amount), "it"), Fraction(repr(amount)))
                        small = numpy.float32(amount)
                        self.assertEqual(near(small, "it"), Fraction(str(small)))
                        self.assertEqual(numpy.float32(float(near(small, "it"))), small)

    def test_what_is_no_number(self):
        odd = [True, "2", None, 2j, [2], object()]
        if numpy:
            odd += [numpy.bool_(True), numpy.timedelta64(2), numpy.datetime64(2, "D"), numpy.complex128(2),
                    gmpy2.mpc(2)]
        for amount in odd:
            for check in (validate_price_system, pbaudit.price_certificate):
                with self.subTest(amount=amount), self.assertRaisesRegex(
                        TypeError, "^what voter 2 pays for a is .*, not a number"):
                    check(Instance([Project("a", 4)], 4), [["a"]] * 2, ["a"], 2, [{"a": 2}, {"a": amount}])
        for odd in (Ratio(1, 0), Ratio(1, -2)):
            with self.assertRaisesRegex(ValueError, "^what voter 1 pays for a is .*, which isn't an amount"):
                validate_price_system(Instance([Project("a", 4)], 4), [["a"]], ["a"], 2, [{"a": odd}])
        for odd in (Ratio(1.0, 2.0), Ratio("1", "2")):
            with self.assertRaisesRegex(TypeError, "^what voter 1 pays for a is .*, not a number"):
                validate_price_system(Instance([Project("a", 4)], 4), [["a"]], ["a"], 2, [{"a": odd}])
