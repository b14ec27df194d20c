"""The search for refutations: each is checked as it is defined, voter by voter."""
import importlib.util
import math
import pickle
import unittest
from fractions import Fraction
from unittest import mock

import pbaudit
from finding_cases import Case, cases, is_refutation

HAS_SCIPY = unittest.skipUnless(importlib.util.find_spec("scipy"), "scipy isn't installed")


def refuted(case, **switches):
    """The refutation that is found alone, or None. It holds as it is defined."""
    found = pbaudit.find(case.file(), prices=False, violation=False, **switches)
    assert found.refutation is None or is_refutation(case, found.refutation, found.refutation.stable), case.name
    return found.refutation


def weights_of(refutation):
    return [*refutation.least.values(), *refutation.most.values(), *refutation.left.values()]


@HAS_SCIPY
class Refutations(unittest.TestCase):
    def test_weights_are_in_lowest_terms(self):
        found = [refuted(case) for seed in range(6) for case in cases(seed, ((10, 5), (20, 10), (30, 12)))]
        weights = [weights_of(refutation) for refutation in found if refutation]
        self.assertGreater(len(weights), 3)
        for each in weights:
            self.assertEqual((math.gcd(*each), 0 in each), (1, False))

    def test_of_cover(self):
        """Where there are prices by budgets that come to the limit and no more, those with Cover alone are refuted."""
        for case in (Case("tie", [5, 5], 10, [[0]] * 5 + [[1]] * 5, [1]),
                     Case("tie", [2, 3, 3], 8, [[0]] * 2 + [[1]] * 3 + [[2]] * 3, [1, 0]),
                     Case("free", [4, 0], 6, [[0, 1], [0, 1]], [0])):
            with self.subTest(case=case.name):
                self.assertTrue(pbaudit.find(case.file(), violation=False).prices)
                self.assertIsNone(refuted(case))
                found = refuted(case, cover=True)
                self.assertGreater(found.cover, 0)
                self.assertEqual((found.verdict.line, found.verdict.refutes), ("unpriceable cover", "with Cover"))

    def test_costs_that_are_far_apart(self):
        """What isn't funded costs so little beside the limit that a solver takes it for nothing, also where all is found by
        floats: two voters of each three could pay for it alone."""
        million, little = 10**6, Fraction(1, 10**6)
        with mock.patch("pbaudit.finding.search.find_exactly", lambda *_: None):
            for voters in (3, 30, 300):
                case = Case("far", [5 * million, little], 3 * million, [[0, 1], [1], []] * (voters // 3), [])
                self.assertGreater(refuted(case, cover=True).cover, 0)
                self.assertIsNone(refuted(case))

    def test_prices_with_cover_are_never_refuted(self):
        for case in (case for seed in range(4) for case in cases(seed, ((10, 5), (20, 10)))):
            found = pbaudit.find(case.file(), violation=False, cover=True)
            self.assertNotEqual(found.prices is None, found.refutation is None, case.name)

    def test_nobody_approves(self):
        case = Case("nobody", [3, 4], 10, [[1]], [0])
        found = refuted(case)
        self.assertEqual((found.least, found.most, found.left, found.cover), ({"p0": 1}, {}, {}, 0))
        told = pbaudit.find(case.file(), violation=False).sentences
        self.assertEqual(told, ["No prices can support this outcome, whatever the payments and the voter budget: that is "
                                "what the refutation proves. p0 is funded, it costs something, and nobody approves it."])


    def test_too_much_is_funded(self):
        """There are none to refute that way; what is funded may be payable, though not within the limit."""
        found = pbaudit.find(Case("much", [4, 4], 5, [[0, 1]], [0, 1]).file(), violation=False)
        self.assertIsNone(found.refutation)
        self.assertEqual(len(found.sentences), 1)

    def test_where_there_is_none(self):
        case = Case("fair", [5, 6], 10, [[0]] * 5 + [[1]] * 5, [0])
        found = pbaudit.find(case.file(), prices=False, violation=False)
        self.assertFalse(found)
        self.assertEqual(found.sentences, ["No refutation was found: by the linear programme there are prices. It computes in "
                                           "rounded numbers, so that this is no proof."])

    def test_stable_prices_alone(self):
        """Plain prices support the outcome, and no stable ones do, in elections that were worked out by hand."""
        for case in (Case("three", [2, 2], 2, [[1], [0, 1], [0, 1]], [0]),
                     Case("one project", [4, 1], 10, [[0, 1]] * 2, [0]),
                     Case("a hair", [4, Fraction("3.999999")], 10, [[0, 1]] * 2, [0]),
                     Case("two projects", [4, 4, 3], 10, [[0, 1, 2]] * 2, [0, 1])):
            with self.subTest(case=case.name):
                plain, stable = (pbaudit.find(case.file(), violation=False, stable=each) for each in (False, True))
                self.assertTrue(plain.prices)
                self.assertEqual((stable.prices, stable.refutation.verdict.line), (None, "unpriceable stable"))
                self.assertEqual((stable.refutation.stable, stable.refutation.options), (True, ["--stable"]))
                self.assertTrue(is_refutation(case, stable.refutation, True))
                self.assertFalse(is_refutation(case, stable.refutation))
                self.assertEqual(stable.sentences[-1],
                                 "No stable prices can support this outcome, whatever the payments and the voter budget: that "
                                 "is what the refutation proves. There may be prices that aren't stable.")

    def test_stable_prices_with_cover_alone(self):
        """By budgets of 4 two voters offer as much as 4, and by those of the limit, which are 5, 6. What refutes others
        besides is told."""
        for cost in (4, Fraction("4.5"), 6):
            case = Case("cover", [4, cost], 10, [[0, 1]] * 2, [0])
            self.assertTrue(pbaudit.find(case.file(), violation=False, stable=True).prices)
            self.assertIsNone(refuted(case, stable=True))
            found = refuted(case, stable=True, cover=True)
            self.assertEqual((found.verdict.line, found.verdict.refutes), ("unpriceable cover", "with Cover"))
        case = Case("cover", [4, Fraction("6.01")], 10, [[0, 1]] * 2, [0])
        self.assertIsNone(refuted(case, stable=True, cover=True))

    def test_where_there_are_stable_prices(self):
        """In elections that were worked out by hand, with weights that look as if they refuted them."""
        for case, cover in ((Case("one each", [4, 4], 7, [[0, 1]] * 2, [0]), True),
                            (Case("one alone", [3, 1], 3, [[0, 1], [0]], [0]), False),
                            (Case("three", [2, 2, 2, 2], 6, [[0, 1, 2, 3]], [0, 1, 2]), False),
                            (Case("free", [2, 2, 0, 2], 4, [[0, 1, 2, 3]], [0, 1, 2]), False)):
            found = pbaudit.find(case.file(), violation=False, stable=True)
            self.assertEqual((bool(found.prices), found.prices.cover or not cover), (True, True), case.name)
            self.assertIsNone(refuted(case, stable=True), case.name)

    def test_what_refutes_all_prices_is_told(self):
        """Also where stable ones alone were looked for."""
        case = Case("over", [4, 5], 10, [[0]] * 5 + [[1]] * 5, [1])
        self.assertEqual([refuted(case, stable=each).verdict.line for each in (False, True)], ["unpriceable"] * 2)

    def test_too_little_time(self):
        case = next(case for case in cases(1, ((300, 20),)) if case.name.endswith("by votes"))
        found = pbaudit.find(case.file(), prices=False, violation=False, seconds=1e-9)
        self.assertIsNone(found.refutation)
        self.assertEqual(found.sentences, ["No refutation was found: there was too little time. That proves nothing: there "
                                           "may be one."])

    def test_what_isnt_exact_is_dropped(self):
        """Weights that hold in floats alone are never shown: the auditor has the last word."""
        from pbaudit.finding import refutations
        case = Case("over", [4, 5], 10, [[0]] * 5 + [[1]] * 5, [1])
        self.assertIsNotNone(refuted(case))
        with mock.patch.object(refutations, "audit_refutation", lambda *_, **__: pbaudit.Verdict(False, "failed U3", "U3")):
            found = pbaudit.find(case.file(), prices=False, violation=False)
        self.assertIsNone(found.refutation)
        self.assertIn("no exact one was found near it", str(found))

    def test_an_older_auditor(self):
        from pbaudit import _auditor
        older = mock.Mock(wraps=_auditor.auditor(), has=lambda command: command != "refutation")
        with mock.patch.object(_auditor, "_found", older):
            found = pbaudit.find(Case("over", [4, 5], 10, [[0]] * 5 + [[1]] * 5, [1]).file(), violation=False)
        self.assertFalse(found)
        self.assertIn("the auditor is older than this package", str(found))


class Audits(unittest.TestCase):
    """Refutations by hand."""

    GROUP = Case("a group", [2, 3], 10, [[0, 1]] * 3 + [[0], []], [0])

    def test_a_group_whose_share_was_enough(self):
        for limit, line in ((10, "unpriceable cover"), (Fraction("8.333334"), "unpriceable cover"),
                            (Fraction("8.333333"), "failed U3")):
            case = Case("a group", self.GROUP.costs, limit, self.GROUP.ballots, self.GROUP.funded)
            claim = pbaudit.write_refutation(left={"p1": 5}, most={"p0": 5}, cover=3)
            verdict = pbaudit.audit_refutation(case.file(), claim)
            self.assertEqual((verdict.line, bool(verdict)), (line, line != "failed U3"))
            self.assertEqual(verdict.refutes, "with Cover" if verdict else None)
            self.assertEqual(verdict.condition, None if verdict else "U3")
            self.assertEqual((verdict.says_little, verdict.says_of_groups), (False, None))

    def test_stable_prices(self):
        """By weights that were worked out by hand: where they don't refute all prices, they are asked of stable ones."""
        for cost, weights, line in (
                (1, {"least": {"p0": 1}, "left": {"p1": 1}}, "unpriceable stable"),
                (4, {"least": {"p0": 1}, "left": {"p1": 1}}, "failed U3"),
                (4, {"cover": 1, "least": {"p0": 2}, "left": {"p1": 4}}, "unpriceable stable cover"),
                (4, {"cover": 2, "least": {"p0": 2}, "left": {"p1": 4}}, "failed U2")):
            case = Case("one", [4, cost], 10, [[0, 1]] * 2, [0])
            claim = pbaudit.write_refutation(**weights)
            self.assertEqual(pbaudit.audit_refutation(case.file(), claim, stable=True).line, line)
            self.assertEqual(pbaudit.audit_refutation(case.file(), claim).line, "failed U2")
        with self.assertRaisesRegex(TypeError, "^stable is 1, not True or False$"):
            pbaudit.audit_refutation(case.file(), claim, stable=1)

    def test_a_verdict_is_pickled(self):
        """Whether or not there is a page about it."""
        verdict = pbaudit.audit_refutation(self.GROUP.file(), pbaudit.write_refutation(least={"p0": 1}))
        again = pickle.loads(pickle.dumps(verdict))
        self.assertEqual((again, again._repr_html_()), (verdict, verdict._repr_html_()))

    def test_what_fails(self):
        town = self.GROUP.file()
        for given, condition, project in (({"least": {"p1": 0}}, "U1", "p1"), ({"cover": 1}, "U2", None), ({}, "U3", None)):
            verdict = pbaudit.audit_refutation(town, pbaudit.write_refutation(**given))
            self.assertEqual((bool(verdict), verdict.condition, verdict.project), (False, condition, project))

    def test_an_outcome_file(self):
        town, claim = self.GROUP.file(), pbaudit.write_refutation(least={"p1": 1})
        self.assertEqual(pbaudit.audit_refutation(town, claim).project, "p1")
        self.assertEqual(pbaudit.audit_refutation(town, claim, pbaudit.write_outcome(["p1", "p0"])).condition, "U2")

    def test_what_is_refused(self):
        with self.assertRaises(pbaudit.Refusal) as caught:
            pbaudit.audit_refutation(self.GROUP.file(), b"pb-refutation,2\n")
        self.assertEqual(caught.exception.printed, "refused certificate 21 BadHead record 1")

    def test_what_cant_be_written(self):
        for given, error, told in (
            ({"least": {"a": -1}}, ValueError, "the weight of a is -1, and weights are from 0 to 10^12"),
            ({"cover": 10**12 + 1}, ValueError, "the weight of Cover is 1000000000001, and"),
            ({"left": {"a": 0.5}}, TypeError, "the weight of a is 0.5, which isn't a whole number"),
            ({"left": ["a"]}, TypeError, "the weights of left are ['a'], not a mapping"),
            ({"least": {"a": 1}, "left": {"a": 1}}, ValueError, "the refutation names a twice"),
            ({"cover": True}, TypeError, "the weight of Cover is True, which isn't"),
        ):
            with self.assertRaises(error) as caught:
                pbaudit.write_refutation(**given)
            self.assertTrue(str(caught.exception).startswith(told), str(caught.exception))
        odd = pbaudit.write_refutation(most={'x,"y"': 1})
        self.assertTrue(odd.endswith(b'\nmost,"x,""y""",1\n'))
