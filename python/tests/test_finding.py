"""Searches for certificates of invented elections, and of such at the edges. PBAUDIT_ELECTIONS says how many are
invented, in the place of 300; some tests take a fifth of them."""
import contextlib
import importlib.util
import os
import pathlib
import subprocess
import tempfile
import unittest
from fractions import Fraction
from unittest import mock

import pbaudit
from finding_cases import Case, best_margin, cases, is_refutation, odd_cases, smallest_violation

REPOSITORY = pathlib.Path(__file__).resolve().parents[2]
EXAMPLES = REPOSITORY / "examples"
PROGRAM = REPOSITORY / "crates" / "pbaudit" / "out" / "pbaudit"
ELECTIONS = int(os.environ.get("PBAUDIT_ELECTIONS", "300"))
FEWER = ELECTIONS // 5
HAS_SCIPY = unittest.skipUnless(importlib.util.find_spec("scipy"), "scipy isn't installed")
if importlib.util.find_spec("scipy"):
    from pbaudit.finding import prices, search
# Below this, what is left to spare may be lost by rounding.
SPARE = 1e-4


def audits(file, found):
    """What the library answers on each certificate that was found, and the program where it is there."""
    if found.prices:
        prices = found.prices
        yield pbaudit.audit_prices(file, prices.file, stable=prices.stable, exhaustive=prices.exhaustive,
                                   cover=prices.cover).line
        yield from by_program(file, prices.file, "prices", *prices.options)
    if found.refutation:
        yield pbaudit.audit_refutation(file, found.refutation.file, stable=found.refutation.stable).line
        yield from by_program(file, found.refutation.file, "refutation", *found.refutation.options)
    for violation in found.violations:
        yield pbaudit.audit_violation(file, violation.file).line
        yield from by_program(file, violation.file, "violation")


def by_program(election, certificate, command, *options):
    if PROGRAM.exists():
        with tempfile.TemporaryDirectory() as room:
            paths = [pathlib.Path(room, name) for name in ("town.pb", "certificate.csv")]
            for path, data in zip(paths, (election, certificate)):
                path.write_bytes(data)
            done = subprocess.run([PROGRAM, command, *paths, *options], capture_output=True, text=True, check=False)
            yield done.stdout.rstrip("\n")


# What is answered on what is found without --stable and --cover.
YES = ("supported priceable", "unpriceable", "violation")
# In the place of water-filling, so that all is found by the programme.
NO_WATER_FILLING = mock.patch("pbaudit.finding.prices.by_water_filling", lambda *_: (None, []))


@contextlib.contextmanager
def all_by_steps():
    """Has all be found by the interior-point method, whatever it suits, and yields the programme for prices, which is asked where
    the method gets stuck."""
    from pbaudit.finding.programme import by_programme
    with mock.patch.multiple("pbaudit.finding.deciding", MANY=0, MANY_STABLE=0), \
            mock.patch("pbaudit.finding.prices.by_programme", wraps=by_programme) as programme:
        yield programme


@HAS_SCIPY
class Invented(unittest.TestCase):
    def test_what_is_found(self):
        """Every certificate is accepted; there are prices or a refutation, and never both; prices are found just where a
        dense programme has some, and with Cover where it has some with that; an outcome of Equal Shares always has
        some."""
        tally = {"prices": 0, "refuted": 0, "count": 0, "cost": 0}
        for case in (case for seed in range(ELECTIONS) for case in cases(seed)):
            with self.subTest(case=case.name):
                file = case.file()
                found = pbaudit.find(file)
                for line in audits(file, found):
                    self.assertIn(line, YES)
                self.check_prices(case, found)
                self.assertNotEqual(found.prices is None, found.refutation is None)
                if found.refutation:
                    self.assertTrue(is_refutation(case, found.refutation))
                if "Shares by" in case.name:
                    self.assertTrue(found.prices and found.prices.cover)
                tally["prices" if found.prices else "refuted"] += 1
                for violation in found.violations:
                    tally[violation.by] += 1
        self.assertGreater(min(tally.values()), ELECTIONS // 20, tally)

    def check_prices(self, case, found, cover=False):
        if len(case.ballots) > 30:
            return
        for covered in (True,) if cover else (True, False):
            margin = best_margin(case, covered=covered)
            is_found = found.prices is not None and (found.prices.cover or not covered)
            if margin is not None and abs(margin) > SPARE:
                self.assertEqual(is_found, margin > 0, margin)

    def test_what_is_found_is_asked_with_cover(self):
        """The one budget that there is has Cover."""
        town = Case("cover", [10, 10], 15, [[0], [1]], [0])
        for cover in (False, True):
            found = pbaudit.find(town.file(), cover=cover, violation=False)
            self.assertTrue(found.prices.cover)
            self.assertIn("The voter budgets together are more than the limit.", found.sentences[0])
            self.assertTrue(pbaudit.audit_prices(town.file(), found.prices.file, cover=True))

    def test_cover_is_the_auditors(self):
        """However prices were found, it is what the auditor says of them."""
        for case in (case for seed in range(FEWER // 4) for case in cases(seed, ((10, 5), (20, 10)))):
            def budgets(problem, shares, need):
                return iter(() if need.cover else (None, problem.decided.limit / len(problem.decided.ballots)))
            with mock.patch("pbaudit.finding.prices._voter_budgets", budgets):
                found = pbaudit.find(case.file(), violation=False).prices
            if found:
                self.assertEqual(found.cover, bool(pbaudit.audit_prices(
                    case.file(), found.file, cover=True, exhaustive=found.exhaustive)), case.name)

    def test_arguments_that_are_none(self):
        town = Case("none", [1], 1, [[0]], [0]).file()
        for name in ("stable", "cover", "prices", "refutation", "violation"):
            for value in ("no", "true", 0, 1, None):
                with self.assertRaisesRegex(TypeError, f"^{name} is {value!r}, not True or False$"):
                    pbaudit.find(town, **{name: value})
                with self.assertRaisesRegex(TypeError, f"^{name} is {value!r}, not True or False$"):
                    pbaudit.find_folder(".", **{name: value})
        with self.assertRaisesRegex(TypeError, "^replace is 'no', not True or False$"):
            pbaudit.find_folder(".", replace="no")
        for call in (pbaudit.find, pbaudit.find_folder):
            for value, error in (("60", TypeError), (None, TypeError), (True, TypeError), (-1, ValueError),
                                 (float("nan"), ValueError)):
                with self.assertRaisesRegex(error, "^seconds is "):
                    call(town if call is pbaudit.find else ".", seconds=value)
            with self.assertRaisesRegex(TypeError, "^on_progress is 1, which can't be called$"):
                call(town if call is pbaudit.find else ".", on_progress=1)
        with self.assertRaisesRegex(TypeError, "^the path of the folder is b'x', not a str$"):
            pbaudit.find_folder(b"x")

    def test_a_thousand_voters(self):
        """Prices or a refutation, and never both."""
        refuted = 0
        for case in (case for seed in range(FEWER // 20) for case in cases(seed, ((1000, 20),))):
            with self.subTest(case=case.name):
                file = case.file()
                found = pbaudit.find(file, violation=False)
                self.assertNotEqual(found.prices is None, found.refutation is None)
                for line in audits(file, found):
                    self.assertIn(line, YES)
                refuted += found.refutation is not None
        self.assertGreater(refuted, 0)

    def test_by_the_programme_alone(self):
        tally = {True: 0, False: 0}
        for case in (case for seed in range(FEWER // 4) for case in cases(seed, ((10, 5), (20, 10), (30, 12)))):
            with self.subTest(case=case.name), NO_WATER_FILLING:
                file = case.file()
                found = pbaudit.find(file, violation=False)
                for line in audits(file, found):
                    self.assertIn(line, YES)
                self.check_prices(case, found)
                self.assertNotEqual(found.prices is None, found.refutation is None)
                tally[bool(found.prices)] += 1
        self.assertGreater(min(tally.values()), FEWER // 30, tally)

    def test_by_steps_alone(self):
        """Also of few ballots; and beside what a dense programme has, prices are found or a refutation. Mostly the method doesn't get
        stuck."""
        tally, stuck = {True: 0, False: 0}, 0
        for case in (case for seed in range(FEWER // 4) for case in cases(seed, ((10, 5), (20, 10), (30, 12)))):
            for cover in (False, True):
                with self.subTest(case=case.name, cover=cover), NO_WATER_FILLING, all_by_steps() as programme:
                    file = case.file()
                    found = pbaudit.find(file, violation=False, cover=cover)
                    for line in audits(file, found):
                        self.assertIn(line, (*YES, "unpriceable cover") if cover else YES)
                    self.check_prices(case, found, cover)
                    self.assertNotEqual(found.prices is None, found.refutation is None)
                    self.assertTrue(found.refutation is None or is_refutation(case, found.refutation))
                    stuck += programme.called
                    tally[bool(found.prices)] += 1
        self.assertGreater(min(tally.values()), FEWER // 30, tally)
        self.assertLess(stuck, sum(tally.values()) / 4)

    def test_stable(self):
        """There are stable prices or a refutation, just as a dense programme has some; and what refutes all prices is found
        where there are no plain ones."""
        tally = {"supported stable": 0, "unpriceable": 0, "unpriceable stable": 0}
        for case in (case for seed in range(FEWER // 3) for case in cases(seed, ((10, 5), (20, 10), (30, 12)))):
            with self.subTest(case=case.name):
                file = case.file()
                found = pbaudit.find(file, stable=True, violation=False)
                lines = list(audits(file, found))
                self.assertEqual(len({*lines}), 1)
                self.assertNotEqual(found.prices is None, found.refutation is None)
                margin, plain = (best_margin(case, stable=each, covered=False) for each in (True, False))
                if margin is not None and abs(margin) > SPARE:
                    self.assertEqual(found.prices is not None, margin > 0, margin)
                if found.refutation and plain is not None and abs(plain) > SPARE:
                    self.assertEqual(found.refutation.stable, plain > 0)
                self.assertTrue(found.refutation is None or is_refutation(case, found.refutation, found.refutation.stable))
                tally[lines[0]] += 1
        self.assertGreater(min(tally.values()), FEWER // 30, tally)

    def test_an_answer_in_all_forms(self):
        """Plain and stable, with Cover and without."""
        lines = set()
        for case in (case for seed in range(FEWER // 12) for case in cases(seed, ((10, 10), (30, 20), (100, 20)))):
            for stable, cover in ((False, True), (True, False), (True, True)):
                with self.subTest(case=case.name, stable=stable, cover=cover):
                    found = pbaudit.find(case.file(), stable=stable, cover=cover, violation=False)
                    self.assertNotEqual(found.prices is None, found.refutation is None)
                    if found.refutation:
                        lines.add(found.refutation.verdict.line)
                        self.assertTrue(is_refutation(case, found.refutation, found.refutation.stable))
                        self.assertTrue(stable or not found.refutation.stable)
                        self.assertTrue(cover or not found.refutation.cover)
        self.assertLessEqual({"unpriceable", "unpriceable stable"}, lines)

    def test_violations_are_the_smallest(self):
        """As by trying all demands, for both measures: as few projects, and as large a share over their cost."""
        sizes = set()
        small = (case for seed in range(FEWER // 3) for case in cases(seed, ((10, 5), (10, 8), (25, 8))))
        for case in [*small, *(case for seed in range(2 * FEWER) for case in odd_cases(seed))]:
            found = pbaudit.find(case.file(), prices=False, refutation=False)
            by_measure = {violation.by: violation for violation in found.violations}
            for by in ("count", "cost"):
                with self.subTest(case=case.name, by=by):
                    wanted, violation = smallest_violation(case, by), by_measure.get(by)
                    self.assertEqual(violation is None, wanted is None)
                    if violation:
                        demanded = sum(case.costs[int(name[1:])] for name in violation.projects)
                        over = Fraction(len(violation.voters) * case.limit) / len(case.ballots) - demanded
                        self.assertEqual((len(violation.projects), over), wanted)
                        sizes.add((by, wanted[0]))
                    else:
                        self.assertIn("all demands that the share of a group covers were tried", str(found))
        self.assertLessEqual({(by, size) for by in ("count", "cost") for size in (1, 2)}, sizes)

    def test_progress(self):
        """What is tried is told, with its round, and how long is left for the whole search: one clock counts down."""
        case, told = next(case for case in cases(1) if case.name.endswith("greedy by votes")), []
        pbaudit.find(case.file(), seconds=900, on_progress=lambda *words: told.append(words))
        texts = [text for text, _ in told]
        for form in ("prices with Cover", "prices"):
            self.assertIn(f"{form}: water-filling, round 2 of at most 60", texts)
        last = f"(?m)^refutation of prices: linear programme over [0-9]+ of {len(case.unfunded)} unfunded projects$"
        self.assertRegex("\n".join(texts), last)
        left = [seconds for _, seconds in told]
        self.assertEqual(left, sorted(left, reverse=True))
        self.assertTrue(900 >= left[0] > left[-1] > 800)

    def test_same_bytes(self):
        for case in cases(2):
            for switches in ({}, {"stable": True}):
                first, second = pbaudit.find(case.file(), **switches), pbaudit.find(case.file(), **switches)
                with NO_WATER_FILLING:
                    third, fourth = pbaudit.find(case.file(), **switches), pbaudit.find(case.file(), **switches)
                for one, other in ((first, second), (third, fourth)):
                    self.assertEqual(*([each.prices and each.prices.file, each.refutation, each.violations, each.sentences]
                                       for each in (one, other)))


@HAS_SCIPY
class Edges(unittest.TestCase):
    def find(self, costs, limit, ballots, funded, **switches):
        """What is found, of which the library and the program accept all."""
        file = Case("edge", costs, limit, ballots, funded).file()
        found = pbaudit.find(file, **switches)
        for line in audits(file, found):
            self.assertIn(line, (*YES, "supported stable", "unpriceable cover"))
        self.assertFalse(found.prices and found.refutation)
        return found

    def test_nobody(self):
        self.assertIsNotNone(self.find([3], 2, [], []).prices)
        found = self.find([3], 3, [], [0])
        self.assertEqual(found.refutation.least, {"p0": 1})
        self.assertIn("p0 is funded, it costs something, and nobody approves it", str(found))
        self.assertIsNotNone(self.find([0], 3, [], [0]).prices)

    def test_that_nobody_pays_is_the_auditors(self):
        """Also where no refutation is looked for: a search that were wrong about it would tell nothing."""
        nobody, all_of_it = Case("nobody", [4, 2], 10, [[1]], [0]), Case("all", [4, 7], 10, [[0, 1]], [0])
        for asked in ({"refutation": False}, {}):
            self.assertIn("p0 is funded, it costs something, and nobody approves it", str(pbaudit.find(nobody.file(), **asked)))
        with mock.patch.object(search, "unpaid", return_value=0), mock.patch.object(prices, "unpaid", return_value=0), \
                self.assertRaisesRegex(RuntimeError, "^that nobody can pay for p0 is answered 'failed U2'$"):
            pbaudit.find(all_of_it.file(), refutation=False, violation=False)

    def test_nothing(self):
        for ballots in ([], [[]], [[], []]):
            found = self.find([], 5, ballots, [])
            self.assertEqual((found.prices is None, found.violations), (False, []))

    def test_nothing_to_spend(self):
        found = self.find([0, 3], 0, [[0], [1]], [0])
        self.assertTrue(found.prices.cover)
        self.assertEqual(found.violations, [])

    def test_costs_of_nothing(self):
        """A project that costs nothing and isn't funded is demanded by a group without any share; and nobody who wants
        it may have anything left, so that both budgets are spent."""
        found = self.find([4, 0], 6, [[0, 1], [0, 1]], [0])
        self.assertEqual((found.prices.cover, found.prices.exhaustive), (False, False))
        self.assertEqual([(each.by, each.projects) for each in found.violations], [("count", ["p0", "p1"])])
        found = self.find([4, 0], 6, [[0], [1]], [0])
        self.assertEqual([(each.by, each.projects, each.voters) for each in found.violations], [("count", ["p1"], [2])])
        self.assertIsNotNone(found.refutation)
        self.assertTrue(self.find([0, 0, 5], 5, [[0, 2], [1, 2]], [0, 1, 2]).prices.cover)

    def test_equal_ballots(self):
        """Forty voters who agree on what isn't funded, and pay for what is."""
        found = self.find([40, 30, 20], 60, [[0, 1, 2]] * 40, [0, 2])
        self.assertTrue(found.prices.cover)
        self.assertEqual(found.violations, [])
        found = self.find([40, 30, 20], 60, [[1]] * 20 + [[0, 2]] * 20, [0, 2])
        self.assertIsNotNone(found.refutation)
        self.assertEqual([(each.by, each.projects, each.voters) for each in found.violations],
                         [(by, ["p1"], list(range(1, 21))) for by in ("count", "cost")])

    def test_one_voter(self):
        self.assertTrue(self.find([3, 4], 5, [[0, 1]], [1]).prices.cover)
        found = self.find([3, 4], 5, [[0]], [1])
        self.assertEqual([(each.by, each.projects, each.voters) for each in found.violations],
                         [("count", ["p0"], [1]), ("cost", ["p0"], [1])])
        self.assertIn("one voter could demand p0, and it gets less", str(found))

    def test_a_tie(self):
        """Half of the voters can just pay for what is funded, and the others could just pay for what isn't: so the
        budget is the share of a voter in the limit, neither more nor less, and the group's share covers its demand
        with nothing to spare."""
        for voters, limit in ((10, 10), (6, 4), (14, 1), (2, Fraction(1, 10**6) * 2)):
            town = [limit / Fraction(2)] * 2, limit, [[0]] * (voters // 2) + [[1]] * (voters // 2), [1]
            with NO_WATER_FILLING:
                self.assertFalse(self.find(*town, violation=False).prices.cover)
            self.assertGreater(self.find(*town, violation=False, cover=True).refutation.cover, 0)
            found = self.find(*town)
            made = found.prices.certificate
            self.assertEqual(Fraction(made.voter_budget, made.denominator) * voters, limit)
            self.assertFalse(found.prices.cover)
            self.assertEqual([each.by for each in found.violations], ["count", "cost"])
            self.assertIn("no contradiction", str(found))

    def test_just_too_little(self):
        """As before, but what isn't funded costs less by a millionth."""
        found = self.find([5 - Fraction(1, 10**6), 5], 10, [[0]] * 5 + [[1]] * 5, [1])
        self.assertEqual(found.refutation.cover, 0)

    def test_too_much_is_funded(self):
        found = self.find([4, 4], 5, [[0, 1]], [0, 1])
        self.assertIn("'failed Feasible'", str(found))
        self.assertFalse(found)

    def test_many_decimals(self):
        found = self.find([Fraction("0.000001"), Fraction("999999.999999")], 10**6, [[0, 1]] * 7 + [[1]] * 4, [0, 1])
        self.assertTrue(found.prices.cover)

    def test_what_is_asked_for(self):
        tie = ([5, 5], 10, [[0]] * 5 + [[1]] * 5, [1])
        self.assertIsNone(self.find(*tie, cover=True).prices)
        self.assertEqual(self.find(*tie, violation=False).violations, [])
        self.assertIsNone(self.find(*tie, prices=False).prices)
        self.assertTrue(self.find(*tie, stable=True).prices.stable)
        self.assertIsNone(self.find(*tie, cover=True, refutation=False).refutation)
        with self.assertRaisesRegex(ValueError, "neither prices nor a refutation nor violations"):
            self.find(*tie, prices=False, refutation=False, violation=False)

    def test_an_outcome_file(self):
        district, outcome = EXAMPLES / "district.pb", EXAMPLES / "district.other.outcome.csv"
        found = pbaudit.find(district, outcome)
        self.assertIsNone(found.prices)
        self.assertTrue(pbaudit.audit_refutation(district, found.refutation.file, outcome))
        self.assertEqual([pbaudit.audit_violation(district, each.file, outcome).line for each in found.violations],
                         ["violation"] * 2)
        self.assertTrue(pbaudit.find(district).prices.cover)

    def test_what_is_refused(self):
        sample, outcome = EXAMPLES / "sample.pb", b"pb-outcome,1\nproject,q\n"
        for given, name in (((EXAMPLES / "sample.prices.csv",), "election"), ((sample, outcome), "outcome"),
                            ((sample.read_bytes().replace(b"selected", b"chosen"),), "election")):
            with self.assertRaises(pbaudit.Refusal) as caught:
                pbaudit.find(*given)
            self.assertEqual(caught.exception.input, name)
        self.assertEqual(caught.exception.name, "NoOutcome")
        with self.assertRaises(FileNotFoundError):
            pbaudit.find("missing.pb")

    def test_too_little_time(self):
        """There is time for water-filling alone, and for demands of one project."""
        case = next(case for case in cases(1) if "by votes" in case.name)
        found = pbaudit.find(case.file(), seconds=1e-9)
        for line in audits(case.file(), found):
            self.assertIn(line, YES)
        self.assertNotIn("the linear programme has none", str(found))
