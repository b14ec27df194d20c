"""Matrices of numpy in the place of ballots and payments."""
import importlib.util
import unittest
from fractions import Fraction

import pbaudit
from pbaudit import Instance, Project, validate_price_system, values

A, B, C = Project("a", 6), Project("b", 4), Project("c", 9)
SAMPLE = Instance([A, B, C], 10)
PROFILE = [{A, B}, {A}, {B, C}]
PAYMENTS = [{A: 2, B: 2}, {A: 4}, {B: 2}]
BALLOTS, PAID = [[1, 1, 0], [1, 0, 0], [0, 1, 1]], [[2, 2, 0], [4, 0, 0], [0, 2, 0]]


@unittest.skipUnless(importlib.util.find_spec("numpy"), "numpy isn't installed")
class Matrices(unittest.TestCase):
    def setUp(self):
        import numpy
        self.numpy = numpy

    def test_the_answers_are_those_of_mappings(self):
        array = self.numpy.array
        for ballots in (array(BALLOTS), array(BALLOTS, bool), array(BALLOTS, float), array(BALLOTS, "int8"), PROFILE):
            self.assertEqual(pbaudit.write_election(SAMPLE, ballots, [A, B]),
                             pbaudit.write_election(SAMPLE, PROFILE, [A, B]))
            for paid in (array(PAID), array(PAID, "uint8"), array(PAID, object), array(PAID) * Fraction(1), PAYMENTS):
                verdict = validate_price_system(SAMPLE, ballots, [A, B], 4, paid)
                self.assertEqual(str(verdict), "supported priceable")
        worse = array(PAID)
        worse[2][1] = 1
        self.assertEqual(str(validate_price_system(SAMPLE, array(BALLOTS), [A, B], 4, worse)), "failed C3 project b")
        worse[2] = 0, 0, 2
        self.assertEqual(str(validate_price_system(SAMPLE, array(BALLOTS), [A, B], 4, worse)), "failed C3 project b")
        self.assertEqual(pbaudit.equal_shares(SAMPLE, array(BALLOTS)), pbaudit.equal_shares(SAMPLE, PROFILE))

    def test_what_says_neither_0_nor_1(self):
        """Text, what is missing, and what is masked."""
        array, ma = self.numpy.array, self.numpy.ma
        masked = ma.array(PAID, mask=[[1, 0, 0], [0, 0, 0], [0, 0, 0]])
        for ballots, paid, told in (
                (array(BALLOTS, str), PAYMENTS, "^the profile is a matrix of str.*: only approvals"),
                (array(BALLOTS, complex), PAYMENTS, "^the profile is a matrix of complex"),
                (ma.array(BALLOTS, mask=array(BALLOTS) == 0), PAYMENTS, "^the profile has masked entries"),
                (PROFILE, masked, "^the matrix of payments has masked entries")):
            with self.assertRaisesRegex(TypeError, told):
                validate_price_system(SAMPLE, ballots, [A, B], 4, paid)
        known = ma.array(BALLOTS, mask=False)
        self.assertTrue(validate_price_system(SAMPLE, known, [A, B], 4, ma.array(PAID)))

    @unittest.skipUnless(importlib.util.find_spec("pandas"), "pandas isn't installed")
    def test_what_is_missing_of_a_table(self):
        import pandas
        ballots, paid = (pandas.DataFrame(each, columns=list("abc"), dtype="Int64") for each in (BALLOTS, PAID))
        self.assertTrue(validate_price_system(SAMPLE, ballots, [A, B], 4, paid))
        ballots.loc[1, "c"] = paid.loc[2, "a"] = pandas.NA
        for given, told in ((((ballots, PAYMENTS)), "^the row of voter 2 in the profile has an entry that is no number$"),
                            (((PROFILE, paid)), "^the row of voter 3 in the matrix of payments has an entry")):
            with self.assertRaisesRegex(TypeError, told):
                validate_price_system(SAMPLE, given[0], [A, B], 4, given[1])

    def test_floats_are_rounded_by_price_certificate_alone(self):
        for kind in ("float64", "float32"):
            paid = self.numpy.array(PAID, kind) + self.numpy.array([[1e-7, 0, 0], [0, 0, 0], [0, 0, 0]], kind)
            with self.assertRaisesRegex(TypeError, "^what voter 1 pays for a is the float 2"):
                validate_price_system(SAMPLE, PROFILE, [A, B], 4, paid)
            made = pbaudit.price_certificate(SAMPLE, self.numpy.array(BALLOTS), [A, B], 4, paid)
            self.assertEqual([row[:2] for row in made.rows], [(1, "a"), (1, "b"), (2, "a"), (3, "b")])
        paid = self.numpy.array([[0.1, 3.9, 0], [4, 0, 0], [0, 0.1, 0]], "float32")
        small = Instance([Project("a", Fraction("4.1")), B], 9)
        made = pbaudit.price_certificate(small, [{"a", "b"}, {"a"}, {"b"}], ["a", "b"], 4, paid[:, :2])
        self.assertEqual((made.denominator, made.moved), (10, 0))

    def test_what_is_wrong_is_told(self):
        array = self.numpy.array
        for error, told, ballots, paid in (
            (TypeError, "the row of voter 3 has 5, not only 0 and 1", array([[1, 0, 0], [0, 1, 0], [0, 5, 1]]), PAYMENTS),
            (ValueError, "the profile has 2 columns, and the instance has 3 projects", array([[1, 0]] * 3), PAYMENTS),
            (ValueError, "the matrix of payments has 2 columns", PROFILE, array([[1, 0]] * 3)),
            (ValueError, "there are 3 ballots and 2 payment functions", PROFILE, array(PAID[:2])),
            (ValueError, "voter 2 pays -4 for a", PROFILE, array([PAID[0], [-4, 0, 0], PAID[2]])),
            (TypeError, "what voter 1 pays for a is True", PROFILE, array(PAID, bool)),
            (TypeError, "the profile is a matrix", self.numpy.matrix(BALLOTS), PAYMENTS),
        ):
            with self.subTest(told=told), self.assertRaisesRegex(error, f"^{told}"):
                validate_price_system(SAMPLE, ballots, [A, B], 4, paid)

    def test_a_set_has_no_columns(self):
        class SetOfProjects(set):
            budget_limit = 10

        for ballots, paid in ((self.numpy.array(BALLOTS), PAYMENTS), (PROFILE, self.numpy.array(PAID))):
            for instance in (SetOfProjects([A, B, C]), Instance({A, B, C}, 10)):
                with self.assertRaisesRegex(ValueError, "^the instance is a set, whose projects have no order"):
                    validate_price_system(instance, ballots, [A, B], 4, paid)


@unittest.skipUnless(importlib.util.find_spec("pandas"), "pandas isn't installed")
class Tables(unittest.TestCase):
    def setUp(self):
        import pandas
        self.table, self.series = pandas.DataFrame, pandas.Series

    def test_columns_are_named(self):
        """In any order, by ids, by projects or by numbers that are ids; without names in the order of the instance."""
        town = Instance([Project("12", 6), Project("7", 4), Project("9", 9)], 10)
        for instance, names in ((SAMPLE, "abc"), (SAMPLE, [A, B, C]), (SAMPLE, [0, 1, 2]),
                                (Instance({A, B, C}, 10), "abc"), (town, ["12", "7", "9"]), (town, [12, 7, 9])):
            ids = [project.name for project in town] if instance is town else ["a", "b", "c"]
            for order in ([0, 1, 2], [2, 0, 1]) if list(names) != [0, 1, 2] else ([0, 1, 2],):
                ballots, paid = ([[row[at] for at in order] for row in rows] for rows in (BALLOTS, PAID))
                named = {"columns": [names[at] for at in order]}
                for paid_table in (self.table(paid, **named), self.table(paid, **named).astype(object) * Fraction(1)):
                    for profile in (self.table(ballots, **named), self.table(ballots, **named) == 1):
                        verdict = validate_price_system(instance, profile, ids[:2], 4, paid_table)
                        self.assertEqual(str(verdict), "supported priceable")
                        made = pbaudit.price_certificate(instance, profile, ids[:2], 4, paid_table)
                        self.assertEqual([row[1] for row in made.rows], [ids[0], ids[1], ids[0], ids[1]])

    def test_whole_numbers_beside_floats_stay_whole(self):
        big = 2**53 + 1
        payments = values.Payments(self.table({"a": [big], "b": [0.5]}), values.Projects(["a", "b"]))
        self.assertEqual([dict(each) for each in payments.functions], [{"a": big, "b": 0.5}])

    def test_series_are_payment_functions(self):
        rows = [self.series({"a": 2, "b": 2}), self.series({A: 4}), self.series([2], index=["b"])]
        self.assertTrue(validate_price_system(SAMPLE, PROFILE, [A, B], 4, rows))
        self.assertTrue(validate_price_system(SAMPLE, self.series(PROFILE), [A, B], 4, self.series(PAYMENTS)))
        self.assertEqual(pbaudit.write_prices(4, rows), pbaudit.write_prices(4, PAYMENTS))
        rows[2] = self.series([1, 1], index=["b", "b"])
        with self.assertRaisesRegex(ValueError, "^voter 3 pays for b twice"):
            validate_price_system(SAMPLE, PROFILE, [A, B], 4, rows)

    def test_what_is_wrong_is_told(self):
        for told, ballots, paid in (
            ("the profile has a column 'd', which isn't a project", self.table(BALLOTS, columns=[*"abd"]), PAYMENTS),
            ("the matrix of payments has no column for the project 'c'", PROFILE,
             self.table([[1, 0]] * 3, columns=[*"ab"])),
            ("the profile has two columns of one name", self.table(BALLOTS, columns=[*"aab"]), PAYMENTS),
            ("the rows of the profile and of the payments have other names",
             self.table(BALLOTS, columns=[*"abc"], index=[1, 2, 3]), self.table(PAID, columns=[*"abc"], index=[2, 1, 3])),
            ("what voter 1 pays for a is nan", PROFILE, self.table([[float("nan"), 2, 0]] * 3, columns=[*"abc"])),
        ):
            with self.subTest(told=told), self.assertRaisesRegex(ValueError, f"^{told}"):
                validate_price_system(SAMPLE, ballots, [A, B], 4, paid, near=True)
        numbered = Instance([Project("1", 6), Project("0", 4)], 10)
        with self.assertRaisesRegex(ValueError, "^the profile has columns that may be named by projects or numbered"):
            validate_price_system(numbered, self.table([[1, 1]]), ["1", "0"], 10, [{"1": 6, "0": 4}])
