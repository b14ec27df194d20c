"""The pages that tests/test_pages.py looks at: their files, and the figures that have to stand on them.

Everything here is made from the files by itself, slowly, and without the package's own figures.
"""
import csv
import pathlib
import random
from collections import Counter
from fractions import Fraction

import pbaudit

EXAMPLES = pathlib.Path(__file__).resolve().parent.parent / "examples"
# Where the mark of a bound stands in a bar.
MARK = Fraction(3, 4)
# How much of a name a page shows, and the languages of names.
MOST_SHOWN = 80
LANGUAGES = {"de": "de", "Poland": "pl"}
# Ids and names that try to break the page, to fake a part of it, or to turn the text around them.
TITLE = "\"><script>document.title='x'</script>"
HOSTILE = [
    (TITLE, TITLE),
    ("</bdi></th></tr></table>", "</title></style><style>*{display:none}</style><h1>Yes</h1>"),
    ("&lt;b&gt;&#60;", "' onmouseover='document.title=1' x=\" onload=\"document.title=2"),
    ("1 costs 5.00, and its supporters have 99.00 left", "<img src=//example.org/x.png onerror=document.title=3>"),
    ("\u202eevil", "\u2067\u2069\u202e\u202d reversed \u05d0\u05d1\u05d2 \u0645\u0631\u062d\u0628\u0627"),
    ("\u200f\u200b\u2060", "\u200f\u200f"),
    ("i" * 10_000, "\u00fc" * 5_000),
    ("-->", "two\nlines\tand \0 a NUL ]]> <!-- {{7*7}} ${7*7}"),
    ("z\u0336\u0300" * 30, "W" * 79 + "\u0301" * 900),
    ("c:\\x;y", "a;b \"quoted\" 'and' `so` on"),
]


def hostile_files(room):
    """An election whose ids and names are hostile, with prices in which the first one is paid for."""
    ids = [project for project, _ in HOSTILE]
    rows = [["META"], ["key", "value"], ["description", TITLE + "\u202e" + "d" * 9_000], ["currency", "<b>\u20ac</b>"],
            ["country", "Poland"], ["budget", "20"], ["vote_type", "approval"],
            ["PROJECTS"], ["project_id", "cost", "name", "selected"]]
    costs = {3: "999999999999.999999", 5: "0"}
    rows += [[project, costs.get(at, "6"), name, str(int(at < 3))] for at, (project, name) in enumerate(HOSTILE)]
    ballots = [[project for project in ids if "," not in project], [], ids[:2]]
    rows += [["VOTES"], ["voter_id", "vote"]] + [[str(voter), ",".join(ballot)] for voter, ballot in enumerate(ballots)]
    election, certificate = room / "<b>a & b.pb", room / "-'$(x)\u202e.csv"
    with open(election, "w", encoding="utf-8", newline="") as file:
        csv.writer(file, delimiter=";", lineterminator="\n").writerows(rows)
    pbaudit.write_prices(10, [{ids[0]: 3, ids[3]: 1}, {}, {ids[0]: Fraction(8, 3)}], certificate)
    return election, certificate


def many_files(room, projects=1000, voters=2000, seed=7):
    """An election of 1,000 projects with prices that support its outcome. Some supporters pay more than others, and
    what the unfunded projects cost is chosen last, from what their supporters have left."""
    chance = random.Random(seed)
    ids = [f"P{number}" for number in range(1, projects + 1)]
    ballots = [chance.sample(ids, chance.randint(0, 40)) for _ in range(voters)]
    funded, payments = set(chance.sample(ids, 3 * projects // 10)), []
    for ballot in ballots:
        mine = {project: Fraction(chance.choice([100, 100, 200, 700]), 3) for project in ballot if project in funded}
        payments.append(mine)
    budget = max(sum(mine.values()) for mine in payments) + 1
    paid, left = Counter(), Counter()
    for ballot, mine in zip(ballots, payments):
        paid.update(mine)
        left.update(dict.fromkeys(ballot, budget - sum(mine.values())))
    for project, amount in paid.items():
        # A cost has no thirds, so one supporter pays what is over.
        mine = next(mine for mine in payments if project in mine)
        mine[project] += -amount % 1
        paid[project] += -amount % 1
    costs = {project: paid[project] if project in funded else int(left[project] * chance.randint(100, 400) / 100) + 1
             for project in ids}
    limit = sum(paid.values()) + min(costs[project] for project in ids if project not in funded) - 1
    election, certificate = room / "many.pb", room / "many.prices.csv"
    instance = pbaudit.Instance([pbaudit.Project(project, costs[project]) for project in ids], limit)
    pbaudit.write_election(instance, ballots, [project for project in ids if project in funded], election)
    pbaudit.write_prices(budget, payments, certificate)
    return election, certificate


def all_funded(election, room):
    """An outcome file in which every project is funded, which costs more than the limit."""
    path = room / "all.outcome.csv"
    rows = [["pb-outcome", "1"], *(["project", project] for project in StatedElection(election).costs)]
    path.write_text("".join(",".join(row) + "\n" for row in rows), encoding="utf-8")
    return path


def group_of_one(election, room):
    """A violation certificate of one voter who demands all that it approves, for which its share is too small."""
    path = room / "small.violation.csv"
    ballot = StatedElection(election).ballots[0]
    rows = [["pb-violation", "1"], *(["project", project] for project in StatedElection(election).costs if project in ballot)]
    path.write_text("".join(",".join(row) + "\n" for row in [*rows, ["voter", "1"]]), encoding="utf-8")
    return path


def cases(room):
    """The pages: a name, the files, and what else is asked for."""
    district, prices = EXAMPLES / "district.pb", EXAMPLES / "district.prices.csv"
    violation, outcome = EXAMPLES / "district.violation.csv", EXAMPLES / "district.other.outcome.csv"
    sturdy = [district, EXAMPLES / "district.stable.prices.csv", EXAMPLES / "district.stable.outcome.csv"]
    return [
        ("yes", [district, prices], {}),
        ("stable", [district, prices], {"stable": True}),
        ("sturdy", sturdy, {"stable": True, "cover": True}),
        ("over", [district, prices, all_funded(district, room)], {}),
        ("small", [district, group_of_one(district, room)], {}),
        ("violation", [district, violation, outcome], {}),
        ("polish", [district, prices], {"language": "pl"}),
        ("german", [district, prices, outcome], {"language": "de"}),
        ("french", [district, violation], {"language": "fr"}),
        ("many", [*many_files(room)], {}),
        ("hostile", [*hostile_files(room)], {}),
    ]


class StatedElection:
    """What an election file states, read by itself: the keys of META, the limit, the costs and names by id, the funded
    projects, and the ballots."""

    def __init__(self, election, outcome=None):
        self.meta, self.costs, self.names, self.funded, self.ballots, section = {}, {}, {}, set(), [], None
        with open(election, encoding="utf-8-sig", newline="") as file:
            for row in filter(None, csv.reader(file, delimiter=";")):
                if len(row) == 1 and row[0] in ("META", "PROJECTS", "VOTES"):
                    section, header = row[0], None
                elif header is None:
                    header = row
                else:
                    self.take(section, dict(zip(header, row)))
        if outcome:
            with open(outcome, encoding="utf-8", newline="") as file:
                self.funded = {row[1] for row in csv.reader(file) if row and row[0] == "project"}

    def take(self, section, row):
        if section == "META":
            self.meta[row["key"]] = row["value"]
            self.limit = amount(self.meta.get("budget", "0"))
        elif section == "PROJECTS":
            self.costs[row["project_id"]] = amount(row["cost"])
            self.names[row["project_id"]] = row.get("name", "")
            self.funded |= {row["project_id"]} if row["selected"] == "1" else set()
        elif section == "VOTES":
            self.ballots.append(set(filter(None, map(str.strip, row["vote"].split(",")))))


def shortened(text, most=MOST_SHOWN):
    return text if len(text) <= most else text[:most] + "\u2026"


def language_of(meta):
    """The code of the language of names, as far as these elections tell it: else nothing."""
    return LANGUAGES.get(meta.get("language") or meta.get("country"), "")


def amount(text):
    return Fraction(text.replace(",", "."))


class PriceBars:
    """What the bars of a page on prices have to show, from the election and the rows of the certificate."""

    def __init__(self, files, switches):
        self.is_stable = bool(switches.get("stable"))
        self.stated = StatedElection(files[0], *files[2:])
        _, (_, denominator), (_, budget), _, *rows = csv.reader(pbaudit.tidy(*files[:2]).decode().splitlines())
        self.budget, self.paid = Fraction(int(budget), int(denominator)), Counter()
        spent, self.top = Counter(), Counter()
        for voter, project, payment in rows:
            payment = Fraction(int(payment), int(denominator))
            self.paid[project] += payment
            spent[int(voter)] += payment
            self.top[int(voter)] = max(self.top[int(voter)], payment)
        self.left = {voter: self.budget - spent[voter] for voter in range(1, len(self.stated.ballots) + 1)}

    def has(self, project):
        """What the supporters of a project have left, or in the stable form could offer."""
        supporters = [voter for voter, ballot in enumerate(self.stated.ballots, 1) if project in ballot]
        if self.is_stable:
            return sum(max(self.left[voter], self.top[voter]) for voter in supporters)
        return sum(self.left[voter] for voter in supporters)

    def bars(self):
        """The bars in the order of the page: the id of the project, the part of the width, and whether there is a
        mark."""
        stated = self.stated
        has = {project: self.has(project) for project in stated.costs if project not in stated.funded}
        unfunded = sorted(has, key=lambda project: stated.costs[project] - has[project])
        funded = sorted((project for project in stated.costs if project in stated.funded),
                        key=lambda project: (-abs(self.paid[project] - stated.costs[project]), -stated.costs[project]))
        total = sum(stated.costs[project] for project in funded)
        yield None, total / stated.limit, False
        yield None, sum(self.paid.values()) / (self.budget * len(stated.ballots)), False
        for project in unfunded:
            # Where the cost is 0, any amount is longer than the bar.
            yield project, MARK * max(0, has[project]) / (stated.costs[project] or Fraction(1, 10**9)), True
        for project in funded:
            yield project, stated.costs[project] / stated.limit, False


class GroupBars:
    """What the bars of a page on a violation by counting have to show."""

    def __init__(self, files, switches):
        self.stated = StatedElection(files[0], *files[2:])
        with open(files[1], encoding="utf-8", newline="") as file:
            rows = [row for row in csv.reader(file) if len(row) == 2]
        self.demand = [value for key, value in rows if key == "project"]
        self.group = sorted(int(value) for key, value in rows if key == "voter")

    def bars(self):
        stated = self.stated
        share = stated.limit * len(self.group) / len(stated.ballots)
        gets = [len(stated.ballots[voter - 1] & stated.funded) for voter in self.group]
        # The first member that gets enough, or else the most that one gets.
        told = next((get for get in gets if get >= len(self.demand)), max(gets))
        yield None, sum(stated.costs[project] for project in stated.funded) / stated.limit, False
        yield None, MARK * share / sum(stated.costs[project] for project in self.demand), True
        yield None, MARK * Fraction(told, len(self.demand)), True
        for project in (project for project in stated.costs if project in self.demand):
            yield project, stated.costs[project] / share, False
