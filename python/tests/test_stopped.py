"""Searches that the keyboard stops: what they have found is kept, and the next one looks only for the rest."""
import contextlib
import dataclasses
import importlib.util
import pickle
import signal
import threading
import unittest
from concurrent.futures import ThreadPoolExecutor
from decimal import Decimal
from unittest import mock

import pbaudit
from finding_cases import Case
from pbaudit import Instance, Project, Stopped
from pbaudit.finding.writing import write_new
from test_finding_command import ENDLESS, HAS_SCIPY, TIE, Commands

# All prices are refuted, and there are violations by both measures.
NONE = Case("none", [1, 3], 3, [[0]] * 5 + [[1]], [1])
FAIR = Case("fair", [5, 6], 10, [[0]] * 5 + [[1]] * 5, [0])
if importlib.util.find_spec("scipy"):
    from pbaudit.finding import folders, search


def stop(*_):
    signal.raise_signal(signal.SIGINT)


def stop_at(kind):
    """A callback that has the keyboard stop a search, once this is found: prices, a refutation or a measure."""
    def told(found):
        if kind in (type(found).__name__, getattr(found, "by", None)):
            stop()
    return told


def in_mind(found):
    """What was found, without what can't be compared."""
    return (found.prices and found.prices.file, found.refutation and found.refutation.file,
            [each.file for each in found.violations], found.sentences, found.unfinished)


class Keyboard(Commands):
    def setUp(self):
        super().setUp()
        # A shell has what it begins in the background ignore the keyboard.
        self.addCleanup(signal.signal, signal.SIGINT, signal.signal(signal.SIGINT, signal.default_int_handler))

    @contextlib.contextmanager
    def not_looked_for(self, *names):
        """Has a search fail that looks for one of these again."""
        with contextlib.ExitStack() as patches:
            for name in names:
                patches.enter_context(mock.patch.object(search, name, side_effect=AssertionError(f"{name} is called")))
            yield


@HAS_SCIPY
class Calls(Keyboard):
    def stopped(self, case, kind):
        with self.assertRaises(Stopped) as caught:
            pbaudit.find(case.file(), on_found=stop_at(kind))
        self.assertIsInstance(caught.exception, KeyboardInterrupt)
        return caught.exception

    def test_what_was_found_is_kept(self):
        with self.assertRaises(Stopped) as caught:
            pbaudit.find(ENDLESS.file(), seconds=10**6,
                         on_progress=lambda what, left: stop() if what.startswith("violation by c") else None)
        found = caught.exception.found
        self.assertTrue(pbaudit.audit_prices(ENDLESS.file(), found.prices.file, cover=True))
        self.assertEqual((found.refutation, found.violations, found.unfinished), (None, [], "a violation by counting"))
        self.assertEqual(found.groups.line, str(pbaudit.audit_groups(ENDLESS.file())))
        found = self.stopped(NONE, "count").found
        self.assertEqual(found.refutation.verdict.refutes, "all")
        self.assertEqual(([each.by for each in found.violations], found.unfinished), (["count"], "a violation by counting"))
        found = self.stopped(FAIR, "FoundPrices").found
        self.assertEqual((found.prices.cover, found.unfinished), (True, "prices"))

    def test_it_can_be_stored(self):
        why = self.stopped(NONE, "count")
        again = pickle.loads(pickle.dumps(why))
        self.assertEqual((in_mind(again.found), str(again)), (in_mind(why.found), str(why)))
        self.assertRegex(str(why), "^the search was stopped; ")

    def test_the_next_search_looks_for_the_rest(self):
        """It ends as one that wasn't stopped."""
        for case, kind in ((NONE, "FoundRefutation"), (NONE, "count"), (NONE, "cost"), (TIE, "count"), (FAIR, "FoundPrices")):
            found = self.stopped(case, kind).found
            with self.subTest(case=case.name, kind=kind), self.not_looked_for("find_prices", "find_refutation"):
                again = pbaudit.find(case.file(), earlier=found)
            self.assertEqual(in_mind(again), in_mind(pbaudit.find(case.file())))

    def test_all_that_is_there_is_kept(self):
        whole = pbaudit.find(NONE.file())
        with self.not_looked_for("find_prices", "find_refutation", "Search"):
            self.assertEqual(in_mind(pbaudit.find(NONE.file(), earlier=whole)), in_mind(whole))

    def test_one_measure_that_is_missing(self):
        whole = pbaudit.find(NONE.file())
        for by in ("count", "cost"):
            part = dataclasses.replace(whole, violations=[each for each in whole.violations if each.by == by])
            with mock.patch.object(search, "Search", wraps=search.Search) as looked:
                self.assertEqual(in_mind(pbaudit.find(NONE.file(), earlier=part))[:3], in_mind(whole)[:3])
            self.assertEqual([call.args[1] for call in looked.call_args_list], [{"count": "cost", "cost": "count"}[by]])

    def test_what_belongs_to_another_election(self):
        """Nothing of it is taken on trust."""
        for case, other in ((NONE, TIE), (TIE, NONE), (NONE, FAIR), (ENDLESS, NONE)):
            wanted = in_mind(pbaudit.find(other.file()))
            with self.subTest(case=case.name, other=other.name):
                found = pbaudit.find(case.file(), seconds=2)
                self.assertEqual(in_mind(pbaudit.find(other.file(), earlier=found)), wanted)

    def test_what_the_auditor_says_now(self):
        """The same file supports another outcome, but not in the stable form, and that has a voter more."""
        def town(cost, ballots):
            projects = [Project("a", 4), Project("c", cost), Project("d", Decimal("2.4"))]
            return pbaudit.write_election(Instance(projects, 6), ballots, ["a"])
        ballots = [["a", "c"], ["a", "c"], ["d"]]
        earlier = pbaudit.find(town(9, ballots), stable=True, violation=False)
        other = town(3, [*ballots, []])
        found = pbaudit.find(other, violation=False, earlier=earlier)
        self.assertEqual(found.prices.file, earlier.prices.file)
        self.assertFalse(pbaudit.audit_prices(other, found.prices.file, stable=True, exhaustive=False))
        self.assertEqual((earlier.price_system.status, found.price_system.status), ("supported stable", "supported priceable"))
        self.assertEqual(len(found.price_system.payment_functions), 4)

    def test_of_each_certificate_the_file_is_taken(self):
        """Whatever stands beside it, since the auditor is asked about nothing else."""
        whole = pbaudit.find(NONE.file())
        count, cost = whole.violations
        wrong = dataclasses.replace(
            whole, refutation=dataclasses.replace(whole.refutation, least={"p9": 9}, most={"p0": 1}, left={}, cover=7),
            violations=[dataclasses.replace(each, by="cost", voters=[9], projects=["p9"]) for each in (count, cost, cost)])
        found = pbaudit.find(NONE.file(), earlier=wrong)
        self.assertEqual((found.refutation, found.violations, found.sentences),
                         (whole.refutation, whole.violations, whole.sentences))
        prices = pbaudit.find(FAIR.file(), violation=False).prices
        made = dataclasses.replace(prices.certificate, denominator=1, voter_budget=99, voters=0, status="supported stable")
        wrong = pbaudit.Found(prices=dataclasses.replace(prices, certificate=made, stable=True))
        self.assertEqual(pbaudit.find(FAIR.file(), violation=False, earlier=wrong).prices, prices)

    def test_what_is_of_another_form(self):
        """Prices without Cover are no answer where those with it are asked for, nor what isn't asked for."""
        found = pbaudit.find(TIE.file())
        self.assertFalse(found.prices.cover)
        again = pbaudit.find(TIE.file(), cover=True, earlier=found)
        self.assertEqual((again.prices, again.refutation.verdict.refutes), (None, "with Cover"))
        other = pbaudit.find(TIE.file(), earlier=again)
        self.assertEqual((other.prices.file, other.refutation), (found.prices.file, None))
        only = pbaudit.find(TIE.file(), earlier=found, prices=False, refutation=False)
        self.assertEqual((only.prices, len(only.violations)), (None, 2))

    def test_prices_with_cover_that_were_still_looked_for(self):
        """A search that was stopped among prices goes on there, and keeps those that it had."""
        found = pbaudit.find(TIE.file(), violation=False)
        for unfinished, calls in ((None, 0), ("a violation by cost", 0), ("prices", 1)):
            part = dataclasses.replace(found, unfinished=unfinished)
            with mock.patch.object(search, "find_prices", return_value=(None, "time")) as looked:
                again = pbaudit.find(TIE.file(), violation=False, earlier=part)
            self.assertEqual((looked.call_count, again.prices.file), (calls, found.prices.file))

    def test_each_is_told(self):
        told = []
        found = pbaudit.find(NONE.file(), on_found=told.append)
        self.assertEqual(told, [found.refutation, *found.violations])
        found = pbaudit.find(FAIR.file(), on_found=told.append)
        self.assertEqual(told[3:], [found.prices])

    def test_prices_are_told_before_better_ones_are_looked_for(self):
        """Those without Cover, while the programme still looks for some with it."""
        from pbaudit.finding import prices
        solved, needs = prices._solved, []

        def stop_at_cover(given, need, *more):
            needs.append(need.cover)
            if need.cover:
                raise KeyboardInterrupt
            return solved(given, need, *more)
        told = []
        with mock.patch.object(prices, "by_water_filling", return_value=(None, [])), \
                mock.patch.object(prices, "_solved", stop_at_cover), self.assertRaises(Stopped) as caught:
            pbaudit.find(TIE.file(), on_found=told.append)
        self.assertEqual((needs, told), ([False, True], [caught.exception.found.prices]))
        self.assertTrue(pbaudit.audit_prices(TIE.file(), told[0].file, exhaustive=False))
        self.assertEqual(caught.exception.found.unfinished, "prices")

    def test_what_can_not_be_taken(self):
        with self.assertRaisesRegex(TypeError, "^earlier is 7, and not what an earlier search found"):
            pbaudit.find(FAIR.file(), earlier=7)
        with self.assertRaisesRegex(TypeError, "^on_found is 7"):
            pbaudit.find(FAIR.file(), on_found=7)
        with self.assertRaisesRegex(ValueError, "^replace writes over what resume keeps"):
            pbaudit.find_folder(".", replace=True, resume=True)
        with self.assertRaisesRegex(TypeError, "^on_result is 7"):
            pbaudit.find_folder(".", on_result=7)


@HAS_SCIPY
class Folders(Keyboard):
    def setUp(self):
        super().setUp()
        for case in (TIE, FAIR, NONE):
            self.put(f"{case.name}.pb", case)
        self.whole = pbaudit.find_folder(self.room, output=self.room / "whole")

    def rows(self, found):
        return [dataclasses.replace(row, seconds="") for row in found.rows]

    def stopped(self, executor=None):
        """A search of the folder that is stopped once an election has its row."""
        told = []

        def keep(row):
            told.append(row)
            signal.raise_signal(signal.SIGINT)
        with self.assertRaises(Stopped) as caught:
            pbaudit.find_folder(self.room, executor, on_result=keep)
        found = caught.exception.found
        self.assertEqual([row for row in found.rows if row.note != "not looked at"], sorted(told, key=lambda row: row.election))
        self.assertEqual(self.files()["found.csv"].count(b"\n"), 4)
        return found

    def test_what_was_found_is_written(self):
        with ThreadPoolExecutor(1) as executor:
            for each in (None, executor):
                found = self.stopped(each)
                self.assertEqual(found.status, 1)
                self.assertTrue({name for name in self.files() if name.endswith(".csv")} > {"found.csv"})
                (self.room / "found.csv").unlink()

    def test_the_next_search_goes_on(self):
        self.stopped()
        with self.assertRaises(FileExistsError):
            pbaudit.find_folder(self.room)
        kept = self.files()
        told = []
        found = pbaudit.find_folder(self.room, resume=True, on_result=told.append)
        self.assertEqual((self.rows(found), found.status), (self.rows(self.whole), self.whole.status))
        self.assertEqual(sorted(told, key=lambda row: row.election), list(found.rows))
        files, whole = self.files(), self.files("whole")
        self.assertNotEqual(files.pop("found.csv"), kept.pop("found.csv"))
        del whole["found.csv"]
        self.assertEqual({name: files[name] for name in kept}, kept)
        self.assertEqual({name: data for name, data in files.items() if not name.endswith(".pb")}, whole)

    def test_only_what_is_missing_is_looked_for(self):
        pbaudit.find_folder(self.room)
        (self.room / "none.refutation.csv").unlink()
        (self.room / "tie.prices.csv").unlink()
        looked, here = [], threading.local()

        def searched_here(helper, asked):
            here.name = asked.name
            return folders.searched(asked)
        with mock.patch.object(folders.Folder, "_searched", staticmethod(searched_here)), \
                mock.patch.object(search.Seeker, "run", lambda seeker: looked.append((here.name, seeker.wanted))):
            pbaudit.find_folder(self.room, resume=True)
        left = {name: (wanted.prices, wanted.refutation, wanted.violation) for name, wanted in looked}
        # No violation was found for fair.
        self.assertEqual(left, {"fair": (False, False, True), "none": (True, True, False), "tie": (True, True, False)})

    def test_a_file_of_another_kind_stays(self):
        for data in (b"mine", b"", b"election,rule\n"):
            self.put("found.csv", data)
            with self.assertRaises(FileExistsError):
                pbaudit.find_folder(self.room, resume=True)
            self.run_find("--folder", self.room, "--resume", status=3)
            self.assertEqual(self.files()["found.csv"], data)


class Files(Keyboard):
    def test_no_file_is_left_that_is_not_whole(self):
        """Where the keyboard stops the writing itself."""
        path = self.room / "town.prices.csv"
        for is_replaced in (False, True):
            if is_replaced:
                path.write_bytes(b"old")
            with open(path, "ab") as opened:
                half = mock.MagicMock(wraps=opened)
                half.__enter__.return_value = half
                half.write.side_effect = lambda data, opened=opened: (opened.write(data[:4]), opened.flush(), stop())
                with mock.patch("builtins.open", return_value=half), self.assertRaises(KeyboardInterrupt):
                    write_new(str(path), b"pb-prices,1\n", is_replaced)
            self.assertFalse(path.exists())


@HAS_SCIPY
class Command(Keyboard):
    def test_one_election(self):
        town = self.put("town.pb", NONE)
        self.run_find(town)
        files = self.files()
        self.assertIn("--resume looks for what is missing", self.run_find(town, status=3).stderr)
        (self.room / "town.cost.violation.csv").unlink()
        (self.room / "town.violation.csv").unlink()
        done = self.run_find(town, "--resume")
        self.assertIn("town.refutation.csv was there before: unpriceable\n", done.stdout)
        self.assertEqual(self.files(), files)
        self.assertIn("was there before", self.run_find(town, "--resume").stdout)
        self.assertEqual(self.files(), files)

    def test_what_does_not_belong_stays(self):
        town = self.put("town.pb", NONE)
        self.put("town.refutation.csv", b"mine")
        done = self.run_find(town, "--resume", "--refutation", status=1)
        self.assertIn("town.refutation.csv doesn't belong to this outcome: refused certificate", done.stdout)
        self.assertEqual(self.files()["town.refutation.csv"], b"mine")

    def test_both_ways(self):
        for words in ((self.put("town.pb", NONE),), ("--folder", self.room)):
            done = self.run_find(*words, "--resume", "--replace", status=3)
            self.assertIn("--replace writes over what --resume keeps", done.stderr)

    def test_a_folder(self):
        self.put("a.pb", TIE)
        self.run_find("--folder", self.room)
        files = self.files()
        self.run_find("--folder", self.room, status=3)
        self.run_find("--folder", self.room, "--resume")
        again = self.files()
        self.assertEqual(set(again), set(files))
        self.assertEqual({name for name in files if files[name] != again[name]} - {"found.csv"}, set())


if __name__ == "__main__":
    unittest.main()
