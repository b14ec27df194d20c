"""The Method of Equal Shares, beside a plain one by fractions, and its command."""
import io
import os
import pathlib
import random
import re
import shlex
import subprocess
import sys
import tempfile
import unittest
from fractions import Fraction
from unittest import mock

import pbaudit
from pbaudit import Instance, Project, _places, certified_shares, equal_shares, shares, values
from pbaudit.election_files import election_of
from test_certificates import an_election
from test_documents import put_on_the_path, without_pbaudit

REPOSITORY = pathlib.Path(__file__).resolve().parents[2]
EXAMPLES = REPOSITORY / "examples"
PROGRAM = REPOSITORY / "crates" / "pbaudit" / "out" / "pbaudit"


def plain_shares(instance, profile, by, budget):
    """The rule as it is defined, by fractions: what is bought, and what each voter pays."""
    supporters = {project: [voter for voter, ballot in enumerate(profile) if project in ballot] for project in instance}
    left, payments, funded = [budget] * len(profile), [{} for _ in profile], []
    while True:
        prices = {project: price(project, [left[voter] for voter in supporters[project]], by)
                  for project in instance if project not in funded and project.cost > 0}
        affordable = [project for project in prices if prices[project] is not None]
        if not affordable:
            return [project.name for project in funded], payments
        bought = min(affordable, key=prices.get)
        for voter in supporters[bought]:
            paid = min(left[voter], prices[bought] * worth(bought, by))
            left[voter] -= paid
            if paid:
                payments[voter][bought.name] = paid
        funded.append(bought)


def worth(project, by):
    return project.cost if by == "cost" else 1


def price(project, lefts, by):
    """The least price of a unit of worth at which supporters with so much left can pay for a project, or none."""
    if sum(lefts) < project.cost:
        return None
    missing, payers = project.cost, len(lefts)
    for left in sorted(lefts):
        if left * payers >= missing:
            return Fraction(missing) / payers / worth(project, by)
        missing -= left
        payers -= 1


def run(*words, **given):
    command = [sys.executable, "-m", "pbaudit", "equal-shares", *map(str, words)]
    return subprocess.run(command, capture_output=True, text=True, check=False, **given)


def about(amount):
    """An amount to three digits, or exactly where it has no more."""
    told = f"{float(amount):.3g}"
    return told if Fraction(told) == amount else f"about {told}"


class Rule(unittest.TestCase):
    def test_as_it_is_defined(self):
        for seed in range(60):
            instance, profile, by = an_election(seed)
            wanted = plain_shares(instance, profile, by, Fraction(instance.budget_limit) / len(profile))
            with self.subTest(seed=seed):
                found = equal_shares(instance, profile, by=by)
                self.assertEqual((found.funded, found.payments), wanted)

    def test_add1_raises_the_budget_by_one(self):
        """Or by another amount, until nothing fits any more, or the next outcome costs more than the limit."""
        for increment in (1, Fraction(1, 3), Fraction(50)):
            self.assertEqual(self.ends_of_raising(increment), {"full", "over"})

    def ends_of_raising(self, increment):
        ends = set()
        for seed in range(12):
            instance, profile, by = an_election(seed)
            costs = {project.name: project.cost for project in instance}
            budget = Fraction(instance.budget_limit) / len(profile)
            wanted, runs = plain_shares(instance, profile, by, budget), 1
            while runs < 200:
                left = instance.budget_limit - sum(map(costs.get, wanted[0]))
                approved = {project.name for ballot in profile for project in ballot}
                if not any(costs[name] <= left for name in approved - set(wanted[0])):
                    ends.add("full")
                    break
                more, runs = plain_shares(instance, profile, by, budget + increment), runs + 1
                if sum(map(costs.get, more[0])) > instance.budget_limit:
                    ends.add("over")
                    break
                wanted, budget = more, budget + increment
            else:
                continue
            more = {} if increment == 1 else {"increment": increment}
            found = equal_shares(instance, profile, by=by, completion="add1", **more)
            self.assertEqual((found.funded, found.payments, found.voter_budget, found.runs), (*wanted, budget, runs))
        return ends

    def test_an_increment_that_fits_the_money(self):
        """Steps of 1 would be a million and more runs."""
        instance = Instance([Project("a", 4 * 10**6), Project("b", 5 * 10**6), Project("c", 6 * 10**6)], 10**7)
        found = equal_shares(instance, [["a"], ["b"], ["c"]], completion="add1", increment=10**5)
        self.assertEqual((found.funded, found.voter_budget), (["a", "b"], Fraction(10**7, 3) + 17 * 10**5))
        for odd, error in ((0, ValueError), (-1, ValueError), (0.5, TypeError), (True, TypeError), ("1", TypeError)):
            with self.assertRaisesRegex(error, "^the increment is "):
                equal_shares(instance, [["a"]], completion="add1", increment=odd)

    def test_steps_that_change_nothing_are_taken_together(self):
        """A million and more of them; and what is bought stays what it is by each of them alone."""
        instance = Instance([Project("a", 4 * 10**6), Project("b", 5 * 10**6), Project("c", 6 * 10**6)], 10**7)
        with mock.patch.object(shares, "Run", wraps=shares.Run) as run:
            found = equal_shares(instance, [["a"], ["b"], ["c"]], completion="add1")
        self.assertEqual((found.funded, found.voter_budget), (["a", "b"], Fraction(10**7, 3) + 1666667))
        self.assertEqual((found.runs, run.call_count < 50), (1666668, True))

    def test_budgets_by_which_the_same_is_bought(self):
        """Where that is said to be sure, it is so at both ends and between them."""
        answers = set()
        for seed in range(60):
            instance, profile, by = an_election(seed)
            rule = self.rule_of(instance, profile, by)
            low = rule.limit / rule.voters
            for width in (low / 1000, low / 30, low / 3, low * 5):
                is_sure = rule._is_same_up_to(low, low + width)
                budgets = [low + width * at / 7 for at in range(8)]
                bought = {tuple(sorted(rule.funded_by(budget))) for budget in budgets}
                self.assertTrue(len(bought) == 1 or not is_sure, (seed, width))
                answers.add((is_sure, len(bought) == 1))
        self.assertLessEqual({(True, True), (False, False)}, answers)

    def test_rounded_amounts_leave_no_doubt(self):
        """What is bought is found from rounded amounts as from exact ones, with ties too, and where these leave a doubt
        an exact run decides."""
        for seed in range(40):
            instance, profile, by = an_election(seed)
            rule = self.rule_of(instance, profile, by)
            for more in range(3):
                budget = rule.limit / rule.voters + more
                rounded, exact = (shares.Run(rule, budget, 1, None, is_exact).bought for is_exact in (False, True))
                self.assertEqual([each.project for each in rounded], [each.project for each in exact])
        # After c, voter 2 has 2/3 left of 1, which is what a costs exactly.
        third = Fraction(1, 3)
        rule = self.rule_of(Instance([Project("c", 1), Project("a", 2 * third)], 3), [["c"], ["c", "a"], ["c"]], "count")
        with mock.patch.object(shares.Run, "_BITS", 0):
            self.assertEqual(rule.funded_by(Fraction(1)), {0, 1})

    def test_a_doubt_is_an_exact_run(self):
        """By few bits there is one; by any number of them the answer is the same."""
        doubts = 0
        for seed in range(40):
            instance, profile, by = an_election(seed)
            rule = self.rule_of(instance, profile, by)
            budget = rule.limit / rule.voters
            wanted = {each.project for each in shares.Run(rule, budget, 1, None).bought}
            for bits in (0, 4, 12):
                with mock.patch.object(shares.Run, "_BITS", bits):
                    self.assertEqual(rule.funded_by(budget), wanted)
                    try:
                        shares.Run(rule, budget, 1, None, is_exact=False)
                    except shares.Unsure:
                        doubts += 1
        self.assertGreater(doubts, 3)

    @staticmethod
    def rule_of(instance, profile, by):
        costs = values.costs_of(instance)
        ballots = values.ballots_of(profile, values.Projects(costs))
        return shares.Rule(list(costs.values()), values.limit_of(instance), ballots, by)

    def test_ties_and_projects_that_cost_nothing(self):
        a, b, free, lone = Project("a", 4), Project("b", 4), Project("free", 0), Project("lone", 0)
        found = equal_shares(Instance([b, a, free, lone], 4), [{a, b, free}, {a, b}])
        self.assertEqual(found.funded, ["free", "b"])
        self.assertEqual(found.payments, [{"b": 2}, {"b": 2}])
        self.assertEqual(equal_shares(Instance([a], 4), []).funded, [])

    def test_words_that_are_not_known(self):
        for given in ({"by": "votes"}, {"completion": "add2"}):
            with self.assertRaises(ValueError):
                equal_shares(Instance([Project("a", 1)], 1), [["a"]], **given)


class Files(unittest.TestCase):
    def test_an_election_is_read(self):
        odd = (b'\xef\xbb\xbfmeta;;\r\nkey;value\rBudget; 10,5 \nvote_type;approval\nPROJECTS\nNAME;cost;Project_ID;selected\n'
               b'"A;B";6; a ;1\n;4.25;b;0\n;;;\nVotes\nvoter_id;vote\n1;"b, a ,"\n2;\n3;b,b\n')
        self.assertEqual(str(pbaudit.read(odd)), "read 3 voters 2 projects 1 funded")
        election = election_of(odd)
        self.assertEqual((election.projects.ids, election.costs, election.limit, election.funded),
                         (["a", "b"], [6, Fraction("4.25")], Fraction("10.5"), {0}))
        self.assertEqual([list(ballot) for ballot in election.ballots], [[0, 1], [], [1]])
        self.assertIsNone(election_of((EXAMPLES / "sample.pb").read_bytes().replace(b"selected", b"chosen")).funded)

    def test_zeros_around_an_amount_do_not_matter(self):
        """However many there are: Python refuses numbers of more than 4,300 digits, or takes long over them."""
        zeros = b"0" * 10_000
        amounts = {b"budget;10": b"budget;" + zeros + b"10,5" + zeros, b"a;6;": b"a;" + zeros + b"6." + zeros + b";",
                   b"b;4;": b"b;" + zeros + b";"}
        data = (EXAMPLES / "sample.pb").read_bytes()
        for short, long in amounts.items():
            self.assertIn(short, data)
            data = data.replace(short, long, 1)
        self.assertEqual(str(pbaudit.read(data)), "read 3 voters 3 projects 2 funded")
        election = election_of(data)
        self.assertEqual((election.limit, election.costs), (Fraction("10.5"), [6, 0, 9]))


class Told(unittest.TestCase):
    def test_progress_on_a_terminal(self):
        """Twice a second at most: the voters, the run, the budget, what is spent, and in the first run the time
        left."""
        terminal, times = io.StringIO(), iter([0, 0, 0.4, 10, 10.1, 12])
        with mock.patch.object(sys, "stderr", terminal), mock.patch.object(
                certified_shares.time, "monotonic", lambda: next(times)):
            tell = certified_shares._Teller(7)
            terminal.isatty = lambda: True
            for run, spent in ((1, 10), (1, 25), (2, 40), (2, 50)):
                tell(shares.Progress(run, Fraction(9, 2), Fraction(spent), Fraction(100)))
            terminal.isatty = lambda: False
            certified_shares.clear_progress()
        told = [line.rstrip(" \033[K") for line in terminal.getvalue().split("\r")[1:]]
        self.assertEqual(told, ["7 voters, run 1, voter budget 4.50, 25% of the limit spent, about 30 s left",
                                "7 voters, run 2, voter budget 4.50, 50% of the limit spent"])


class Near(unittest.TestCase):
    def test_prices_that_a_certificate_has(self):
        """Of an election whose exact shares no certificate has: the error says what helps, and what that gives is accepted,
        pays for the same outcome, and is near the rule's prices as they say."""
        chance, found = random.Random("near shares"), 0
        for _ in range(40):
            projects = [Project(f"p{at}", chance.randint(50, 900)) for at in range(30)]
            instance = Instance(projects, sum(each.cost for each in projects) // 2)
            profile = [chance.sample(projects, chance.randint(3, 15)) for _ in range(83)]
            made = equal_shares(instance, profile, by="count")
            try:
                pbaudit.write_prices(made.voter_budget, made.payments)
                continue
            except pbaudit.TooManyDenominators as why:
                self.assertIn("equal_shares with near=True", str(why))
            found += 1
            near = equal_shares(instance, profile, by="count", near=True)
            self.assertEqual(near.funded, made.funded)
            file = pbaudit.write_prices(near.voter_budget, near.payments)
            self.assertTrue(pbaudit.audit_prices(pbaudit.write_election(instance, profile, made.funded), file,
                                                 exhaustive=False))
            moves = [abs(near.payments[voter].get(name, 0) - amount)
                     for voter, mine in enumerate(made.payments) for name, amount in mine.items()]
            self.assertEqual((near.moved, near.raised), (max(moves), near.voter_budget - made.voter_budget))
            self.assertTrue(0 < near.moved < 1)
            if found == 3:
                break
        self.assertEqual(found, 3)

    def test_prices_that_fit_stay(self):
        words = Instance([Project("a", 6), Project("b", 4)], 10), [["a", "b"], ["a"]]
        self.assertEqual(equal_shares(*words, near=True), equal_shares(*words))
        with self.assertRaisesRegex(TypeError, "^near is 1, not True or False"):
            equal_shares(*words, near=1)


class Commands(unittest.TestCase):
    def setUp(self):
        room = tempfile.TemporaryDirectory()
        self.addCleanup(room.cleanup)
        self.room = pathlib.Path(room.name)
        put_on_the_path(self)

    def test_a_command_without_the_program(self):
        """Where no pbaudit is on the PATH, the command that is told is that of the package, and works."""
        done = run(EXAMPLES / "district.pb", "-o", self.room / "d.prices.csv", env=without_pbaudit())
        told = done.stdout.splitlines()[-1].partition("check it with: ")[2]
        self.assertEqual(shlex.split(told)[:4], [sys.executable, "-m", "pbaudit", "prices"])
        checked = subprocess.run(["sh", "-c", told], capture_output=True, env=without_pbaudit(), check=False)
        self.assertEqual((checked.returncode, checked.stdout), (0, b"supported priceable\n"), checked.stderr)
        with mock.patch.dict(os.environ, without_pbaudit(), clear=True):
            for called, name in ((["./my 'python'", "-m"], "./my 'python'"), ([], sys.executable), ([""], sys.executable)):
                with mock.patch.object(sys, "orig_argv", called, create=True):
                    self.assertEqual(_places.command(), [name, "-m", "pbaudit"])

    def test_the_files_are_those_of_the_example(self):
        done = run(EXAMPLES / "district.pb", "-o", self.room / "d.prices.csv")
        self.assertEqual((done.returncode, done.stderr), (1, ""))
        for name in ("outcome", "prices"):
            self.assertEqual((self.room / f"d.{name}.csv").read_bytes(),
                             (EXAMPLES / f"district.shares.{name}.csv").read_bytes())
        wanted = pbaudit.explain(EXAMPLES / "district.pb", EXAMPLES / "district.shares.prices.csv",
                                 EXAMPLES / "district.shares.outcome.csv", stable=True, cover=True)
        for finding in wanted.findings:
            if finding.state == "fails":
                self.assertIn(f"fails: {finding.sentence}\n", done.stdout)
        self.assertIn("\n  plain       holds\n", done.stdout)
        self.assertIn("another outcome: the rule doesn't fund 101\n", done.stdout)
        outcome, prices = (str(self.room / f"d.{name}.csv") for name in ("outcome", "prices"))
        self.assertEqual(shlex.split(done.stdout.splitlines()[-1]), [
            "check", "it", "with:", "pbaudit", "prices", str(EXAMPLES / "district.pb"), prices, "--outcome", outcome,
            "--no-exhaustive"])

    def test_an_outcome_that_is_the_own(self):
        """Raised by add1 the budgets are stated by the certificate."""
        data = (EXAMPLES / "district.pb").read_bytes()
        made = equal_shares(*self.values_of(data), by="count", completion="add1")
        town = self.room / "town.pb"
        town.write_bytes(pbaudit.write_election(*self.values_of(data), made.funded))
        done = run(town, "--by", "count", "--completion", "add1", "-o", self.room / "town.prices.csv")
        self.assertEqual((done.returncode, done.stderr), (0, ""))
        self.assertIn("this is the outcome that the election states\n", done.stdout)
        self.assertFalse((self.room / "town.outcome.csv").exists())
        self.assertEqual(shlex.split(done.stdout.splitlines()[-1])[3:],
                         ["pbaudit", "prices", str(town), str(self.room / "town.prices.csv")])
        self.assertTrue(pbaudit.audit_prices(town, self.room / "town.prices.csv", stable=True, cover=True))
        self.assertIn(f"voter_budget,{int(made.voter_budget) * 16632}\n".encode(),
                      (self.room / "town.prices.csv").read_bytes())
        self.assertGreater(made.voter_budget, 1850)

    @staticmethod
    def values_of(data):
        election = election_of(data)
        ids = election.projects.ids
        instance = Instance([Project(*pair) for pair in zip(ids, election.costs)], election.limit)
        return instance, [[ids[at] for at in ballot] for ballot in election.ballots]

    def test_amounts_are_told_exactly(self):
        """A third of 13 is no decimal, and 6.5 and 2 are."""
        town = self.room / "town.pb"
        for limit, voters, told in ((13, 3, "4 1/3"), (13, 2, "6.5"), (1, 3, "1/3"), (6, 3, "2"), (0, 2, "0"),
                                    (Fraction("0.000001"), 2, "1/2000000"), (Fraction("0.000002"), 2, "0.000001"),
                                    (10**12 - 2, 7, "142857142856 6/7")):
            town.write_bytes(pbaudit.write_election(Instance([Project("a", 10**12)], limit), [["a"]] * voters))
            self.assertEqual(run(town).stdout.split("\n")[1], f"voter budget {told}; 0 projects for 0:")

    def test_it_says_how_far_the_certificate_is_from_the_rule(self):
        town, certificate = self.room / "town.pb", self.room / "town.prices.csv"
        primes = [7, 11, 13, 17, 19, 23, 29, 31]
        projects = [Project(f"p{prime}", 1000 + prime) for prime in primes]
        ballots = [[project for project, prime in zip(projects, primes) if voter < prime] for voter in range(31)]
        many = pbaudit.write_election(Instance(projects, 10**5), ballots)
        few = pbaudit.write_election(Instance([Project("a", 1)], Fraction("0.9")), [["a"]] * 3)
        for data in (many, few, (EXAMPLES / "district.pb").read_bytes()):
            town.write_bytes(data)
            (self.room / "town.outcome.csv").unlink(missing_ok=True)
            done = run(town, "-o", certificate)
            told = re.search("^certificate over the denominator (\\d+), (.*), as it was audited:$", done.stdout, re.MULTILINE)
            election = election_of(data)
            made = equal_shares(*self.values_of(data))
            rows = [line.split(",") for line in certificate.read_text().splitlines()]
            denominator, budget = int(rows[1][1]), Fraction(int(rows[2][1]), int(rows[1][1]))
            paid = {(int(voter), name): Fraction(int(amount), denominator) for voter, name, amount in rows[4:]}
            moved = max((abs(paid.get((voter, name), 0) - amount) for voter, mine in enumerate(made.payments, 1)
                         for name, amount in mine.items()), default=Fraction(0))
            with self.subTest(voters=len(election.ballots)):
                self.assertEqual(int(told[1]), denominator)
                wanted = "with the budget and the payments of the rule"
                if moved or budget != made.voter_budget:
                    less = made.voter_budget - budget
                    budgets = "the budget of the rule" if not less else (
                        f"a budget that is {'less' if less > 0 else 'more'} than the rule's by {about(abs(less))}")
                    wanted = f"with {budgets}, and payments off by {about(moved)} at most"
                self.assertEqual(told[2], wanted)
    def test_an_increment(self):
        district = EXAMPLES / "district.pb"
        done = run(district, "--completion", "add1", "--increment", "12.5")
        made = equal_shares(*self.values_of(district.read_bytes()), completion="add1", increment=Fraction("12.5"))
        self.assertIn(f"\nvoter budget {float(made.voter_budget):g} after {made.runs} runs; ", done.stdout)
        self.assertGreater(made.runs, 2)
        for odd in ("0", "-1", "x", "1/0", "1e999999999"):
            self.assertEqual(run(EXAMPLES / "district.pb", "--completion", "add1", "--increment", odd).returncode, 3, odd)

    def test_a_budget_that_no_denominator_has(self):
        town = self.room / "town.pb"
        instance = Instance([Project("a", 5000)], Fraction("1000.000001"))
        town.write_bytes(pbaudit.write_election(instance, [["a"]] * 1999))
        done = run(town, "-o", self.room / "t.prices.csv")
        self.assertEqual((done.returncode, done.stderr), (0, ""))
        self.assertIn("voter budget 1000000001/1999000000; 0 projects for 0:\n", done.stdout)
        self.assertTrue(pbaudit.audit_prices(town, self.room / "t.prices.csv", self.room / "t.outcome.csv"))

    def test_another_outcome_is_not_replaced(self):
        """Its file is one that nobody named; the certificate's is."""
        prices, outcome = self.room / "d.prices.csv", self.room / "d.outcome.csv"
        kept = (EXAMPLES / "district.other.outcome.csv").read_bytes()
        outcome.write_bytes(kept)
        done = run(EXAMPLES / "district.pb", "-o", prices)
        self.assertEqual((done.returncode, done.stdout), (4, ""))
        self.assertEqual(done.stderr, f"fault write: {outcome}: another outcome is there, and stays: remove it, or write to "
                                      "another CERTIFICATE\n")
        self.assertEqual((outcome.read_bytes(), prices.exists()), (kept, False))
        # What was written once may be written again.
        outcome.unlink()
        for _ in range(2):
            self.assertEqual(run(EXAMPLES / "district.pb", "-o", prices).returncode, 1)
        # The election's own outcome has no file, and so replaces none.
        outcome.write_bytes(kept)
        done = run(EXAMPLES / "district.pb", "--completion", "add1", "-o", prices)
        self.assertEqual((done.returncode, outcome.read_bytes()), (0, kept))

    def test_names_are_shown_and_none_is_a_command(self):
        """Names that try to move a terminal's cursor, to begin a line or to be an option; and an output in ASCII."""
        odd = ["\u009b2Ja", "b\u202e", "\u2028c", "d" * 300, "\u00fc \u00a0e"]
        projects = [*(Project(name, 1) for name in odd), Project("\u202ez", Fraction(9, 10))]
        ballot = [project.name for project in projects]
        town = pbaudit.write_election(Instance(projects, 5), [ballot, ballot], [])
        shown = ["\\u{9b}2Ja", "b\\u{202e}", "\\u{2028}c", "d" * 80 + "\u2026", "\u00fc \\u{a0}e"]
        for name, has_command in (("-x.pb", True), ("$(touch PWNED) ' \" ; #.pb", True), ("a\u009b2J.pb", False)):
            (self.room / name).write_bytes(town)
            for encoding in ("utf-8", "ascii"):
                words = [sys.executable, "-m", "pbaudit", "equal-shares", f"--output={name}.prices.csv", "--", name]
                done = subprocess.run(words, capture_output=True, cwd=self.room, check=False,
                                      env={**os.environ, "PYTHONIOENCODING": encoding})
                self.assertEqual((done.returncode, done.stderr), (1, b""))
                lines = done.stdout.decode().split("\n")
                self.assertEqual(lines[2], "  " + " ".join(shown))
                self.assertIn("S5 fails: project \\u{202e}z costs", done.stdout.decode())
                self.assertFalse(any(letter in done.stdout.decode() for letter in "\u009b\u202e\u2028\u00a0"))
                checks = [line for line in lines if line.startswith("check it with: ")]
                self.assertEqual(len(checks), 1 if has_command else 0)
                for check in checks:
                    script = f"pbaudit() {{ {shlex.quote(str(PROGRAM))} \"$@\"; }}; {check[len('check it with: '):]}"
                    told = subprocess.run(["sh", "-c", script], capture_output=True, cwd=self.room, check=False)
                    self.assertEqual((told.returncode, told.stdout), (0, b"supported priceable\n"), told.stderr)
        self.assertFalse((self.room / "PWNED").exists())

    def test_how_it_ends_otherwise(self):
        torn = self.room / "torn.pb"
        torn.write_bytes(b"META\n")
        done = run(torn)
        self.assertEqual((done.returncode, done.stdout), (2, "refused election 3 NoHeader record 2\n"))
        self.assertIn(str(torn), done.stderr)
        done = run(self.room / "missing.pb")
        self.assertEqual((done.returncode, done.stdout), (2, "refused election 18 Read record 0\n"))
        for words in ((torn, "--by", "votes"), (torn, "--completion", "add2"), (torn, "-o", torn), ()):
            self.assertEqual(run(*words).returncode, 3, words)
        self.assertEqual(run(EXAMPLES / "district.pb", "-o", self.room / "no" / "prices.csv").returncode, 4)

    def test_a_city(self):
        """60 s are what a larger election may take."""
        chance = __import__("random").Random("city")
        instance = Instance([Project(f"p{at}", chance.randint(2_000, 40_000)) for at in range(150)], 500_000)
        ballots = [[f"p{at}" for at in chance.sample(range(150), 8)] for _ in range(10_000)]
        city = self.room / "city.pb"
        pbaudit.write_election(instance, ballots, path=city)
        done = run(city, "-o", self.room / "city.prices.csv", timeout=60)
        self.assertEqual((done.returncode, done.stderr), (0, ""))
        self.assertTrue(pbaudit.audit_prices(city, self.room / "city.prices.csv", self.room / "city.outcome.csv",
                                             exhaustive=False))
