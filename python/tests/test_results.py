"""What people who write papers take from results: values as pabutools has them, dictionaries, tables, and HTML."""
import collections
import importlib.util
import json
import pathlib
import re
import sys
import tempfile
import unittest
from fractions import Fraction
from unittest import mock

import pbaudit
from pbaudit import Instance, Project, equal_shares, find, price_certificate, validate_price_system

HOSTILE = "<img src=x onerror=alert(1)>&\u202e\"'"
LIBRARY = pathlib.Path(__file__).resolve().parents[2] / "docs" / "LIBRARY.md"
A, B, C = Project("a", 6), Project("b", 4), Project("c", 9)
SAMPLE = Instance([A, B, C], 10)
PROFILE = [{A, B}, {A}, {B, C}]
needs_scipy = unittest.skipUnless(importlib.util.find_spec("scipy"), "scipy isn't installed")


class Thing:
    """A project as that of pabutools: its name is its hash, and a text of that name equals it."""

    def __init__(self, name, cost):
        self.name, self.cost = name, cost

    def __hash__(self):
        return hash(self.name)

    def __eq__(self, other):
        return self.name == (other if isinstance(other, str) else other.name)


class Things(set):
    """An instance as that of pabutools."""

    def __init__(self, projects, budget_limit):
        super().__init__(projects)
        self.budget_limit = budget_limit


class Merged(collections.Counter):
    """A profile as the MultiProfile of pabutools: how many voters have each ballot, which is a tuple."""


def a_town():
    """Six voters of two ballots, in things of pabutools' shape; the same ballots one by one; and the outcome."""
    park, bench, school = Thing("park", 4), Thing("bench", 2), Thing("school", 9)
    merged = Merged({(park, bench): 4, (school,): 2})
    return Things([park, bench, school], 9), merged, [(park, bench)] * 4 + [(school,)] * 2, [park, bench]


@needs_scipy
class Values(unittest.TestCase):
    def test_find_takes_values(self):
        """The same is found as in the file of these values, also where ballots are merged."""
        instance, merged, ballots, chosen = a_town()
        for profile in (merged, ballots):
            for outcome in (chosen, [next(each for each in instance if each.name == "school")]):
                wanted = find(pbaudit.write_election(instance, ballots, outcome))
                found = find(instance, profile, outcome)
                self.assertEqual([each and each.file for each in (found.prices, found.refutation)],
                                 [each and each.file for each in (wanted.prices, wanted.refutation)])
                self.assertEqual([each.voters for each in found.violations], [each.voters for each in wanted.violations])

    def test_prices_as_pabutools_names_them(self):
        """They are accepted as the prices of each voter."""
        instance, merged, ballots, chosen = a_town()
        system = find(instance, merged, chosen).price_system
        self.assertEqual((system.status, len(system.payment_functions)), ("supported priceable", 6))
        verdict = validate_price_system(instance, ballots, chosen, system.voter_budget, system.payment_functions)
        self.assertEqual(str(verdict), system.status)
        park, spent = chosen[0], [sum(mine.values()) for mine in system.payment_functions]
        self.assertEqual(sum(mine.get(park, 0) for mine in system.payment_functions), 4)
        self.assertEqual((sum(spent), spent[4:]), (6, [0, 0]))

    def test_what_is_refuted_or_unknown(self):
        instance, merged, _, _ = a_town()
        school = [each for each in instance if each.name == "school"]
        refuted = find(instance, Merged({(*(each for each in instance if each.name != "school"),): 9, (school[0],): 1}), school)
        self.assertEqual(refuted.price_system.status, str(refuted.refutation.verdict))
        self.assertEqual((refuted.price_system.voter_budget, refuted.price_system.payment_functions), (None, None))
        self.assertEqual(find(instance, merged, school, prices=False, refutation=False).price_system.status, "unknown")

    def test_what_is_neither(self):
        instance, merged, _, chosen = a_town()
        with self.assertRaisesRegex(TypeError, "^an instance is given, and no budget allocation$"):
            find(instance, merged)
        with self.assertRaisesRegex(TypeError, "^a budget allocation is given, and no instance"):
            find(b"", None, chosen)


class Merging(unittest.TestCase):
    def test_a_payment_function_for_each_ballot_or_each_voter(self):
        """Each voter of a ballot pays what its function says. By 1 each the four voters pay for the park exactly."""
        instance, merged, ballots, chosen = a_town()
        one = {"park": Fraction(1), "bench": Fraction(1, 2)}
        wanted = price_certificate(instance, ballots, chosen, 2, [one] * 4 + [{}] * 2)
        for payments in ([one, {}], [one] * 4 + [{}] * 2):
            made = price_certificate(instance, merged, chosen, 2, payments)
            self.assertEqual(made.file, wanted.file)
        self.assertEqual([row[0] for row in made.rows], [1, 1, 2, 2, 3, 3, 4, 4])
        system = made.price_system
        self.assertEqual((system.status, system.voter_budget), ("supported priceable", 2))
        self.assertEqual(system.payment_functions, [one] * 4 + [{}] * 2)

    def test_what_is_no_number_of_voters(self):
        instance, _, _, chosen = a_town()
        ballot = tuple(chosen)
        for odd in (0, -1, 1.0, True, "2"):
            with self.assertRaisesRegex(ValueError, "^the profile has .* voters with the ballot"):
                price_certificate(instance, Merged({ballot: odd}), chosen, 2, [{}])
        with self.assertRaisesRegex(ValueError, "^there are 1 ballots of 3 voters and 2 payment functions$"):
            price_certificate(instance, Merged({ballot: 3}), chosen, 2, [{}, {}])


def results():
    """One of each kind of result, of an election with a hostile name."""
    x, y, z = Project(HOSTILE, 6), Project("y", 4), Project("z", 9)
    instance, profile = Instance([x, y, z], 10), [[x, y], [x], [y, z]]
    payments = [{x: 2, y: 2}, {x: 4}, {y: 2}]
    town, prices = pbaudit.write_election(instance, profile, [x, y]), pbaudit.write_prices(4, payments)
    verdict = validate_price_system(instance, profile, [x, y], 4, payments)
    made = price_certificate(instance, profile, [x, y], 4, payments)
    explanation, short = verdict.explain(), pbaudit.groups_that_fall_short(instance, profile, [])
    told = pbaudit.audit_groups(town, pbaudit.write_outcome([]))
    found = [verdict, explanation, explanation.findings[0], explanation.nearest, pbaudit.read(town),
             pbaudit.margins(town, prices)[0], made, made.price_system, equal_shares(instance, profile), told, told.group,
             pbaudit.explain_groups(town), pbaudit.group_margins(town)[0], short[0]]
    with tempfile.TemporaryDirectory() as room:
        pathlib.Path(room, f"t{HOSTILE.replace('/', '')}.pb").write_bytes(town)
        report = pbaudit.audit_folder(room)
        found += [report, report.results[0]]
        if importlib.util.find_spec("scipy"):
            folder = pbaudit.find_folder(room, violation=False)
            found += [folder, folder.rows[0]]
    if importlib.util.find_spec("scipy"):
        chosen = find(instance, [[x, y]] * 5 + [[z]], [x], violation=False)
        refuted = find(instance, [[x, y]] * 5 + [[z]], [z])
        found += [chosen, chosen.prices, refuted, refuted.refutation, *refuted.violations[:1],
                  pbaudit.smallest_relaxation(instance, profile, [x])]
    return found


def result_classes():
    """The names of the classes that are exported, but for errors and what elections are made of."""
    kinds = {name: getattr(pbaudit, name) for name in pbaudit.__all__ if name not in ("Instance", "Project")}
    return {name for name, kind in kinds.items() if isinstance(kind, type) and not issubclass(kind, BaseException)}


class Tables(unittest.TestCase):
    @needs_scipy
    def test_of_each_kind(self):
        self.assertEqual({type(result).__name__ for result in results()}, result_classes())

    def test_names_are_text(self):
        """In the HTML of each result a name is no element, and nothing that turns what stands beside it."""
        named = 0
        for result in results():
            shown = result._repr_html_()
            with self.subTest(result=type(result).__name__):
                self.assertNotIn("<img", shown)
                self.assertNotIn("\u202e", shown)
                named += "&lt;img" in shown or "&amp;lt;img" in shown
        self.assertGreater(named, 6)

    def test_dictionaries(self):
        """They have no bytes and no result, and JSON can be made of them."""
        for result in results():
            with self.subTest(result=type(result).__name__):
                made = result.to_dict()
                again = json.loads(json.dumps(made, default=lambda each: f"{each.numerator}/{each.denominator}"))
                self.assertEqual(set(again), set(made))
                self.assertNotIn("file", [name for name, value in made.items() if isinstance(value, bytes)])

    def test_what_dictionaries_have(self):
        made = price_certificate(SAMPLE, PROFILE, [A, B], 4, [{A: Fraction(5, 2), B: Fraction(3, 2)}, {A: Fraction(7, 2)},
                                                              {B: Fraction(5, 2)}])
        self.assertEqual(made.to_dict(), {
            "denominator": 2, "voter_budget": 8, "moved": 0, "raised": 0, "voters": 3, "status": "supported priceable",
            "rows": [[1, "a", 5], [1, "b", 3], [2, "a", 7], [3, "b", 5]]})
        self.assertEqual(made.rows_of_table()[0], {"voter": 1, "project": "a", "payment": Fraction(5, 2)})
        shares = equal_shares(SAMPLE, PROFILE, by="cost")
        self.assertEqual(sum(row["payment"] for row in shares.rows_of_table()), sum(
            {"a": 6, "b": 4, "c": 9}[name] for name in shares.funded))

    @unittest.skipUnless(importlib.util.find_spec("pandas"), "pandas isn't installed")
    def test_frames(self):
        made = price_certificate(SAMPLE, PROFILE, [A, B], 4, [{A: 2, B: 2}, {A: 4}, {B: 2}])
        paid = made.to_frame().groupby("project")["payment"].sum()
        self.assertEqual(dict(paid), {"a": 6, "b": 4})
        for result in results():
            with self.subTest(result=type(result).__name__):
                self.assertEqual(len(result.to_frame()), len(result.rows_of_table()))

    def test_without_pandas(self):
        with mock.patch.dict(sys.modules, pandas=None):
            with self.assertRaisesRegex(ImportError, "^pandas isn't installed, which to_frame"):
                pbaudit.read(pbaudit.write_election(SAMPLE, PROFILE)).to_frame()

    def test_long_tables_are_cut(self):
        profile = [[A]] * 150
        made = price_certificate(Instance([A], 6), profile, [A], None, [{A: Fraction(6, 150)}] * 150)
        shown = made._repr_html_()
        self.assertEqual((shown.count("<tr>"), shown.endswith("<p>and 50 rows more</p>")), (101, True))

    def test_which_can_be_hashed(self):
        """Those without lists and dictionaries; that of the others is no accident."""
        able, unable = set(), set()
        for result in results():
            (able if type(result).__hash__ else unable).add(type(result).__name__)
        told = LIBRARY.read_text(encoding="utf-8").split("Results\ncan be members of sets, but not ")[1].split(", which have")[0]
        searched = set() if importlib.util.find_spec("scipy") else {"Relaxation", "Found", "FoundRefutation", "FoundViolation"}
        self.assertEqual(unable, set(re.findall("`(.*?)`", told)) - searched)
        for result in results():
            if type(result).__name__ in able:
                hash(result)
            else:
                with self.assertRaisesRegex(TypeError, f"unhashable type: '{type(result).__name__}'"):
                    hash(result)


class Names(unittest.TestCase):
    def test_each_result_has_them(self):
        for name in result_classes():
            for method in ("to_dict", "rows_of_table", "to_frame", "_repr_html_"):
                self.assertTrue(callable(getattr(getattr(pbaudit, name), method, None)), f"{name}.{method}")

    def test_what_is_exported_is_what_is_documented(self):
        """The calls of the table in the document, and the names behind it."""
        names = {}
        exec("from pbaudit import *", names)
        table, more = LIBRARY.read_text(encoding="utf-8").split("| To | Call |")[1].split("\n\n")[:2]
        self.assertTrue(more.startswith("**All names:** `from pbaudit import *` brings "))
        documented = re.findall(r"`([A-Za-z_]+)`", table + more)
        self.assertEqual(sorted(documented), sorted(names.keys() - {"__builtins__"}))
        self.assertEqual(sorted(documented), sorted(pbaudit.__all__))


if __name__ == "__main__":
    unittest.main()
