"""Groups of voters that fall short, and refutations of stable prices. What is expected is worked out by hand, or by the
definition over all groups whatever."""
import itertools
import pathlib
import pickle
import random
import subprocess
import tempfile
import unittest
from collections import Counter
from fractions import Fraction
from unittest import mock

import pbaudit
from pbaudit import (
    Instance, Project, __main__ as command_line, _auditor, audit_groups, audit_refutation, groups, groups_that_fall_short,
)

REPOSITORY = pathlib.Path(__file__).resolve().parents[2]
EXAMPLES = REPOSITORY / "examples"
PROGRAM = REPOSITORY / "crates" / "pbaudit" / "out" / "pbaudit"
YES, BY_COUNT = "satisfied ejr+ by cost", "satisfied ejr+ by count"


def town(limit, rows, ballots, *more):
    """An election whose projects are rows, as `x;6;1 y;2;0`, and whose voters are ballots, as `x,y -`."""
    lines = ["META", "key;value", f"budget;{limit}", "vote_type;approval", *more, "PROJECTS", "project_id;cost;selected",
             *rows.split(), "VOTES", "voter_id;vote"]
    votes = [f"{number};{ballot.strip('-')}" for number, ballot in enumerate(ballots.split(), 1)]
    return "".join(line + "\n" for line in lines + votes).encode()


def short(voters, project, by="cost"):
    return f"failed EJR+ by {by} voters {voters} project {project}"


PAIR = ("x;2;1 y;3;0", "x,y x,y")
ROAD = ("x;6;1 y;2;0", "y y x,y x")
TWINS = ("a;3;1 b;3;1 c;2;0", "a,c b,c")
# Each by cost, but those that say so.
HAND = {
    "enough_left": (town(10, *PAIR), short(2, "y")),
    "just_enough": (town(5, *PAIR), short(2, "y")),
    "a_millionth_too_little": (town("4.999999", *PAIR), YES),
    "two_got_nothing": (town(12, *ROAD), short(3, "y")),
    "the_third_got_too_much": (town(12, "x;8;1 y;2;0", "y y x,y x"), short(2, "y")),
    "only_all_three": (town(12, "x;1;1 y;5;0", "y x,y x,y x"), short(3, "y")),
    "not_even_all_three": (town(7, "x;1;1 y;5;0", "y x,y x,y x"), YES),
    "first_that_fails": (town(12, "x;6;1 z;13;0 y;2;0 w;1;0", "w,y,z y,z x,y,z,w x"), short(3, "y")),
    "not_in_the_order_of_the_file": (town(7, "x;4;1 y;2;0 z;0;1", "x,y y,z y,x z"), YES),
    "one_alone": (town(10, "x;8;1 y;4;0", "x,y y"), short(1, "y")),
    "voters_are_counted": (town(5, *PAIR, "num_votes;3"), short(2, "y")),
    "first_of_two": (town(12, "x;6;1 w;1;0 y;2;0", "w,y y x,y,w x"), short(1, "w")),
    "more_than_64_bits": (town(10**12, " ".join(f"x{at};{10**12};1" for at in range(19)) + " y;0.5;0",
                               ",".join([*(f"x{at}" for at in range(19)), "y"])), YES),
    "each_got_one_of_two": (town(8, *TWINS), short(2, "c")),
    "each_got_one_of_two_at_the_share": (town(5, *TWINS), short(2, "c")),
    "each_got_one_of_two_below_it": (town("4.99", *TWINS), YES),
    "free_and_unfunded": (town(10, "x;0;0", "x -"), short(1, "x")),
    "free_beside_one_that_took_all": (town(10, "x;0;0 y;5;1", "x,y y"), short(1, "x")),
    "free_beside_one_that_took_more": (town("9.999999", "x;0;0 y;5;1", "x,y y"), YES),
    "no_limit": (town(0, "x;0;0", "x"), short(1, "x")),
    "no_limit_and_a_cost": (town(0, "x;0.000001;0", "x"), YES),
    "no_voters": (town(10, "x;0;0", ""), YES),
    "empty_ballots": (town(10, "x;0;0", "- -"), YES),
    "nothing_unfunded": (town(10, "x;1;1", "x"), YES),
    "large_amounts": (town(10**12, f"x;{10**12};0 y;{10**12};1", "x,y"), YES),
    "large_and_free": (town(10**12, f"x;{10**12};0 y;0;1", "x,y x"), short(2, "x")),
    "one_project_more": (town(6, "d;2;1 c;5;0", "d,c d,c"), YES),
}  # fmt: skip
COUNTED = {
    "enough_left": (town(10, *PAIR), short(2, "y", "count")),
    "just_enough": (town(6, *PAIR), short(2, "y", "count")),
    "a_millionth_too_little": (town("5.999999", *PAIR), BY_COUNT),
    "what_it_cost_doesnt_count": (town(12, "x;8;1 y;2;0", "y y x,y x"), short(3, "y", "count")),
    "free_beside_one": (town(10, "x;0;0 y;5;1", "x,y y"), short(1, "x", "count")),
    "each_got_one_of_two": (town(7, *TWINS), short(2, "c", "count")),
    "each_pays_for_its_own": (town(3, "x;1;1 y;1;1 c;2;0", "x,c y,c"), BY_COUNT),
}
STABLE = {
    "two_for_one": (town(10, "a;4;1 c;1;0", "a,c a,c"), {"least": {"a": 1}, "left": {"c": 1}}, "unpriceable stable"),
    "two_for_as_much": (town(10, "a;4;1 c;4;0", "a,c a,c"), {"least": {"a": 1}, "left": {"c": 1}}, "failed U3"),
    "three": (town(10, "a;4;1 b;4;1 c;3;0", "a,b,c a,b,c"), {"least": {"a": 1, "b": 1}, "left": {"c": 2}},
              "unpriceable stable"),
    "with_cover": (town(10, "a;4;1 c;4;0", "a,c a,c"), {"least": {"a": 2}, "left": {"c": 4}, "cover": 1},
                   "unpriceable stable cover"),
    "with_too_much_cover": (town(10, "a;4;1 c;4;0", "a,c a,c"), {"least": {"a": 2}, "left": {"c": 4}, "cover": 2},
                            "failed U2"),
}


def as_values(data):
    """The instance, the profile and the funded projects of a file of `town`."""
    head, rows = data.decode().split("PROJECTS\nproject_id;cost;selected\n")
    rows, votes = rows.split("VOTES\nvoter_id;vote\n")
    limit = Fraction(next(line for line in head.split("\n") if line.startswith("budget;"))[len("budget;"):])
    projects = [row.split(";") for row in rows.split()]
    ballots = [set(filter(None, vote.partition(";")[2].split(","))) for vote in votes.split()]
    return (Instance([Project(name, Fraction(cost)) for name, cost, _ in projects], limit), ballots,
            [name for name, _, is_funded in projects if is_funded == "1"])


def worked_out(instance, ballots, funded, by):
    """For each unfunded project the largest of all groups that fall short, if one does: its voters, from 1."""
    costs, found = {project.name: Fraction(project.cost) for project in instance}, {}

    def need(project, voter):
        got = [costs[each] for each in ballots[voter] & set(funded)]
        return costs[project] + sum(got) if by == "cost" else costs[project] * (len(got) + 1)
    for project in costs.keys() - set(funded):
        supporters = [voter for voter, ballot in enumerate(ballots) if project in ballot]
        for size in range(1, len(supporters) + 1):
            for group in itertools.combinations(supporters, size):
                share = Fraction(instance.budget_limit) * size / len(ballots)
                if all(need(project, voter) <= share for voter in group):
                    found[project] = tuple(voter + 1 for voter in group)
    return [(name, found[name]) for name in costs if name in found]


class ByHand(unittest.TestCase):
    def check(self, rows, by):
        for name, (data, line) in rows.items():
            with self.subTest(row=name, by=by):
                verdict = audit_groups(data, satisfaction=by)
                self.assertEqual((str(verdict), bool(verdict)), (line, line.startswith("satisfied")))
                self.assertEqual(verdict.satisfaction, by)
                wanted = (None, None, None) if verdict else ("EJR+", line.split()[-1], int(line.split()[5]))
                self.assertEqual((verdict.condition, verdict.project, verdict.voters), wanted)
                if not verdict:
                    self.assertEqual((verdict.group.project, verdict.group.voters), wanted[1:])
                    self.assertEqual(verdict.group.missing, verdict.group.need - verdict.group.share)
                    self.assertLessEqual(verdict.group.missing, 0)

    def test_by_cost(self):
        self.check(HAND, "cost")

    def test_by_count(self):
        self.check(COUNTED, "count")

    def test_figures(self):
        """The three who want y have 9 of 12 together; the one of them who got x, for 6, needs 8."""
        group = audit_groups(town(12, *ROAD)).group
        self.assertEqual(group, pbaudit.GroupFigures("y", 2, 3, 3, 6, 8, 9, -1))
        group = audit_groups(town(7, *TWINS), satisfaction="count").group
        self.assertEqual(group, pbaudit.GroupFigures("c", 2, 2, 2, 1, 4, 7, -3))
        thirds = audit_groups(EXAMPLES / "sample.pb").group
        self.assertEqual((thirds.share, thirds.missing), (Fraction(10, 3), Fraction(29, 3)))
        self.assertIsNone(audit_groups(town(10, "x;1;1", "x")).group)

    def test_another_outcome(self):
        pair = town(10, *PAIR)
        self.assertEqual(str(audit_groups(pair, pbaudit.write_outcome(["x", "y"]))), YES)
        self.assertEqual(str(audit_groups(pair, pbaudit.write_outcome([]))), short(2, "x"))
        none = pair.replace(b"selected", b"chosen")
        self.assertEqual(str(audit_groups(none, pbaudit.write_outcome(["x"]))), short(2, "y"))
        for files, line in (((none,), "refused election 17 NoOutcome record 0"),
                            ((pair, pbaudit.write_outcome(["q"])), "refused outcome 25 UnknownProject record 2"),
                            ((b"",), "refused election 2 NoMeta record 1"),
                            ((pair, b""), "refused outcome 21 BadHead record 1")):
            with self.subTest(line=line), self.assertRaises(pbaudit.Refusal) as caught:
                audit_groups(*files)
            self.assertEqual(caught.exception.printed, line)
            self.assertEqual(caught.exception.name, line.split()[3])
            self.assertTrue(caught.exception.reason)

    def test_an_outcome_that_costs_more_than_the_limit(self):
        verdict = audit_groups(town(3, "d;2;1 c;5;1", "d,c d,c"))
        self.assertEqual((str(verdict), verdict.notes), (YES, ("the funded projects cost more than the limit",)))
        self.assertEqual(audit_groups(town(7, "d;2;1 c;5;1", "d,c d,c")).notes, ())

    def test_beside_other_answers(self):
        """A violation of one project, and stable prices with Cover, stand beside a group that falls short."""
        both = town(6, "d;2;1 c;5;0", "d,c d,c")
        self.assertTrue(audit_groups(both) and pbaudit.audit_violation(both, pbaudit.write_violation([1, 2], ["c"], "cost")))
        own = town(3, "x;1;1 y;1;1 c;2;0", "x,c y,c")
        prices = pbaudit.write_prices(2, [{"x": 1}, {"y": 1}])
        self.assertEqual(str(pbaudit.audit_prices(own, prices, stable=True, cover=True)), "supported stable")
        self.assertEqual(str(audit_groups(own)), short(2, "c"))

    def test_as_the_program_prints(self):
        for by, rows in (("cost", HAND), ("count", COUNTED)):
            for name, (data, line) in rows.items():
                words = [PROGRAM, "groups", "/dev/stdin", "--satisfaction", by]
                done = subprocess.run(words, input=data, capture_output=True, check=False)
                with self.subTest(row=name):
                    self.assertEqual(done.stdout.decode(), line + "\n")


SECOND = town(12, "x;6;1 z;13;0 y;2;0 w;1;0", "w,y,z y,z x,y,z,w x")
# The project, the voters of its group, the most that one got, need, share, and what is missing.
MARGINS = {
    "cost": [("z", 3, 6, 19, 9, 10), ("y", 3, 6, 8, 9, -1), ("w", 1, 0, 1, 3, -2)],
    "count": [("z", 2, 0, 13, 6, 7), ("y", 3, 1, 4, 9, -5), ("w", 2, 1, 2, 6, -4)],
}


class Figures(unittest.TestCase):
    """What is told of one group of each project, of one group in words, and on a page."""

    def test_margins_by_hand(self):
        for by, rows in MARGINS.items():
            found = pbaudit.group_margins(SECOND, satisfaction=by)
            self.assertEqual(found, tuple(pbaudit.GroupMargins(*row) for row in rows))
        self.assertEqual(pbaudit.group_margins(SECOND), pbaudit.group_margins(SECOND, satisfaction="cost"))

    def test_margins_of_fractions_and_of_another_outcome(self):
        third, = pbaudit.group_margins(EXAMPLES / "sample.pb")
        self.assertEqual((third.project, third.share, third.missing), ("c", Fraction(10, 3), Fraction(29, 3)))
        pair = town(10, *PAIR)
        nothing = [(each.project, each.need) for each in pbaudit.group_margins(pair, pbaudit.write_outcome([]))]
        self.assertEqual(nothing, [("x", 2), ("y", 3)])
        self.assertEqual(pbaudit.group_margins(pair, pbaudit.write_outcome(["x", "y"])), ())
        odd, = pbaudit.group_margins(town(12, 'x;6;1 "a""y";2;0', '"a""y"'))
        self.assertEqual(odd.project, 'a"y')

    def test_explained(self):
        """As the program prints it, with the answer as a value."""
        for by in ("cost", "count"):
            found = pbaudit.explain_groups(SECOND, satisfaction=by)
            done = subprocess.run([PROGRAM, "explain", "/dev/stdin", "--groups", "--satisfaction", by], input=SECOND,
                                  capture_output=True, check=False)
            self.assertEqual((found.text + "\n").encode(), done.stdout)
            self.assertEqual(found.verdict, audit_groups(SECOND, satisfaction=by))
            self.assertEqual(found.text.split("\n")[0], found.verdict.line)
        enough = pbaudit.explain_groups(town(10, *PAIR), pbaudit.write_outcome(["x", "y"]))
        self.assertEqual((bool(enough), enough.verdict.group), (True, None))

    def test_a_page(self):
        with tempfile.TemporaryDirectory() as room:
            file = pathlib.Path(room, "town.pb")
            file.write_bytes(SECOND)
            for by, language in (("cost", "en"), ("count", "de")):
                done = subprocess.run([PROGRAM, "page", file, "--groups", "--satisfaction", by, "--language", language],
                                      capture_output=True, check=False)
                self.assertEqual(pbaudit.groups_page(file, satisfaction=by, language=language).encode(), done.stdout)
            path = pathlib.Path(room, "page.html")
            self.assertEqual(pbaudit.write_groups_page(file, path=path), path.read_bytes())
            self.assertEqual(path.read_text("utf-8"), pbaudit.groups_page(file))
            with self.assertRaisesRegex(ValueError, "the path of the page is that of the election, which it would replace"):
                pbaudit.write_groups_page(file, path=file)
            self.assertEqual(file.read_bytes(), SECOND)

    def test_a_page_by_a_command(self):
        with tempfile.TemporaryDirectory() as room:
            file, path = pathlib.Path(room, "town.pb"), pathlib.Path(room, "page.html")
            file.write_bytes(SECOND)
            words = ["page", str(file), "--groups", "--satisfaction", "count", "-o", str(path)]
            self.assertEqual(command_line.main(words), 0)
            self.assertEqual(path.read_text("utf-8"), pbaudit.groups_page(file, satisfaction="count"))

    def test_what_is_asked_exactly(self):
        for call in (pbaudit.explain_groups, pbaudit.group_margins, pbaudit.groups_page, pbaudit.write_groups_page):
            with self.subTest(call=call.__name__):
                with self.assertRaisesRegex(ValueError, "^the satisfaction is 'Cost', not 'count' or 'cost'$"):
                    call(SECOND, satisfaction="Cost")
                with self.assertRaisesRegex(pbaudit.Refusal, "refused election 2 NoMeta record 1"):
                    call(b"")
                with self.assertRaisesRegex(pbaudit.Refusal, "refused outcome 25 UnknownProject record 2"):
                    call(SECOND, pbaudit.write_outcome(["q"]))
        with self.assertRaisesRegex(ValueError, "the language is 'xx'"):
            pbaudit.groups_page(SECOND, language="xx")


class OfValues(unittest.TestCase):
    def check(self, instance, ballots, funded):
        for by in ("cost", "count"):
            wanted = worked_out(instance, ballots, funded, by)
            found = groups_that_fall_short(instance, ballots, funded, by)
            self.assertEqual([(each.project, each.voters) for each in found], wanted)
            for each in found:
                self.assertEqual(each.share, Fraction(instance.budget_limit) * len(each.voters) / len(ballots))
                self.assertLessEqual(each.need, each.share)
            file = pbaudit.write_election(instance, ballots, funded)
            verdict = audit_groups(file, satisfaction=by)
            first = wanted[0] if wanted else (None, ())
            self.assertEqual((bool(verdict), verdict.project, verdict.voters or 0), (not wanted, first[0], len(first[1])))

    def test_by_hand(self):
        for rows in (HAND, COUNTED):
            for name, (data, _) in rows.items():
                with self.subTest(row=name):
                    self.check(*as_values(data))

    def test_by_chance(self):
        chance, failed = random.Random(5), 0
        for _ in range(150):
            names = "abcde"[:chance.randint(1, 5)]
            instance = Instance([Project(name, chance.choice([0, 1, 2, 3, Fraction(1, 2)])) for name in names],
                                chance.randint(0, 12))
            ballots = [{name for name in names if chance.random() < 0.5} for _ in range(chance.randint(0, 6))]
            funded = [name for name in names if chance.random() < 0.4]
            self.check(instance, ballots, funded)
            failed += bool(worked_out(instance, ballots, funded, "cost"))
        self.assertTrue(30 < failed < 120, failed)

    def test_a_multiprofile(self):
        """Ballots with how many voters have each: these are numbered in the order of the ballots."""
        instance = Instance([Project("x", 6), Project("y", 2)], 12)
        merged = Counter({frozenset({"y"}): 2, frozenset({"x", "y"}): 1, frozenset({"x"}): 1})
        found, = groups_that_fall_short(instance, merged, ["x"])
        self.assertEqual((found.project, found.voters, found.share, found.need), ("y", (1, 2, 3), 9, 8))

    def test_any_fractions(self):
        """A third of a cost can be said by no file, and doesn't have to be."""
        third = Fraction(1, 3)
        found, = groups_that_fall_short(Instance([Project("x", third)], third), [["x"]], [])
        self.assertEqual((found.share, found.need), (third, third))
        self.assertEqual(groups_that_fall_short(Instance([Project("x", third)], third - Fraction(1, 9**9)), [["x"]], []), ())

    def test_another_first_group_is_an_error(self):
        """What the auditor says of the first group has to be what is computed here."""
        instance, ballots = Instance([Project("x", 6), Project("y", 2)], 12), [{"y"}, {"y"}, {"x", "y"}, {"x"}]
        with mock.patch.object(groups, "_need", lambda cost, got, by: cost), self.assertRaisesRegex(RuntimeError, "another"):
            groups_that_fall_short(Instance([Project("x", 8), Project("y", 2)], 12), ballots, ["x"])
        self.assertEqual(len(groups_that_fall_short(instance, ballots, ["x"])), 1)

    def test_what_is_no_value(self):
        instance = Instance([Project("x", 6)], 12)
        with self.assertRaisesRegex(ValueError, "approves z, which isn't a project"):
            groups_that_fall_short(instance, [["z"]], [])
        with self.assertRaisesRegex(ValueError, "the outcome names z"):
            groups_that_fall_short(instance, [["x"]], ["z"])
        with self.assertRaises(TypeError):
            groups_that_fall_short(instance, [{"x": 1}], [])


class Calls(unittest.TestCase):
    def test_a_satisfaction_that_there_is_not(self):
        instance = Instance([Project("x", 6)], 12)
        for by in ("Cost", "cost ", "", None, True, 1, b"cost", ["cost"], "cardinality"):
            with self.assertRaisesRegex(ValueError, "^the satisfaction is .*, not 'count' or 'cost'$"):
                audit_groups(EXAMPLES / "sample.pb", satisfaction=by)
            with self.assertRaisesRegex(ValueError, "^the satisfaction is .*, not 'count' or 'cost'$"):
                groups_that_fall_short(instance, [["x"]], [], by)

    def test_results(self):
        verdict = audit_groups(town(12, *ROAD))
        self.assertEqual(pickle.loads(pickle.dumps(verdict)), verdict)
        self.assertEqual({verdict, verdict}, {verdict})
        self.assertEqual(verdict.to_dict()["group"]["need"], 8)
        self.assertEqual(verdict.rows_of_table()[0]["answer"], short(3, "y"))
        odd = audit_groups(town(12, "x;6;1 <b>;2;0", "<b> <b>"))
        self.assertIn("&lt;b&gt;", odd._repr_html_())
        self.assertNotIn("<b>", odd._repr_html_())

        explained = pbaudit.explain_groups(town(12, *ROAD))
        self.assertEqual(pickle.loads(pickle.dumps(explained)), explained)
        self.assertEqual((bool(explained), str(explained), explained.rows_of_table()),
                         (False, explained.text, verdict.rows_of_table()))

    def test_each_file_is_read_once(self):
        for ask in (audit_groups, pbaudit.explain_groups, pbaudit.group_margins, pbaudit.groups_page):
            with self.subTest(ask=ask), mock.patch.object(_auditor.auditor(), "ask", wraps=_auditor.auditor().ask) as asked:
                ask(EXAMPLES / "sample.pb")
            self.assertEqual(asked.call_count, 1)


class StableRefutations(unittest.TestCase):
    def test_by_hand(self):
        refutes = {"unpriceable stable": "stable", "unpriceable stable cover": "stable with Cover"}
        for name, (data, weights, line) in STABLE.items():
            with self.subTest(row=name):
                file = pbaudit.write_refutation(**weights)
                verdict = audit_refutation(data, file, stable=True)
                self.assertEqual((str(verdict), bool(verdict)), (line, line.startswith("unpriceable")))
                self.assertEqual(verdict.refutes, refutes.get(line))
                self.assertEqual(str(audit_refutation(data, file)), "failed U2")
                told = pbaudit.explain(data, file, stable=True)
                self.assertEqual((told.verdict, [each.name for each in told.findings]), (verdict, ["U1", "U2", "U3"]))
                self.assertEqual(verdict.explain(), told)

    def test_what_refutes_all_prices_is_said_first(self):
        files = EXAMPLES / "school.pb", EXAMPLES / "school.refutation.csv"
        for stable in (False, True):
            verdict = audit_refutation(*files, stable=stable)
            self.assertEqual((str(verdict), verdict.refutes), ("unpriceable cover", "with Cover"))


if __name__ == "__main__":
    unittest.main()
