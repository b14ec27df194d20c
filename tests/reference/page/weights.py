"""What the page says of a refutation."""
from .. import refutations
from . import amounts
from .group import money_tile, tile
from .nodes import element
from .states import Tested
from .tables import MONEY, NUMBER, WORDS, table

COLUMNS = [("projects.project", WORDS), ("projects.cost", MONEY), ("demand.state", WORDS),
           ("weights.counts.title", WORDS), ("weights.weight", NUMBER)]  # fmt: skip


class WeightFigures(Tested):
    """What is found of the weights of a refutation. What is told is of stable prices alone if these are asked about and the
    weights don't refute all prices."""

    def __init__(self, election, funded, refutation, mode=()):
        self.election, self.funded, self.refutation = election, funded, refutation
        self.asks_stable = "--stable" in mode
        refutes_all = refutations.first_failure(election, funded, refutation) is None
        self.of_stable = self.asks_stable and not refutes_all
        self.weighing = refutations.Weighing(election, funded, refutation, self.of_stable)
        self.words = ("certificate", "prices", "supporter", "left", *(["offer"] if self.of_stable else []), "weight")
        super().__init__(refutations.TESTS, self.weighing)

    def told(self, meaning):
        """A meaning, of stable prices if it is those that are told of."""
        return meaning + ("_stable" if self.of_stable else "")

    def form(self):
        if self.failed:
            return self.told("no")
        return self.told("yes") + ("_cover" if self.refutation.cover else "")

    def answer(self):
        return f"answer.refutation.{self.form()}"

    def not_said(self):
        if self.failed:
            return [f"not_said.refutation.{self.form()}"]
        plain = ["not_said.refutation.plain"] if self.of_stable else []
        return [*plain, "not_said.refutation.yes"]

    def may_be_said(self):
        return [f"claims.refutation.{self.form()}"]

    def options(self):
        return ["--stable"] if self.asks_stable else []

    def asks(self, name):
        return "asks.U3" if name == "U3" else self.told(f"asks.{name}")

    # What is paid by the weights.

    def paid(self, role):
        """What projects with a role cost, each by its weight."""
        roles = self.refutation.roles
        named = [project for project in self.funded if roles.get(project) == role]
        return sum(self.weighing.weight(project) * self.weighing.cost(project) for project in named)

    def at_least(self):
        return self.paid(b"least") + self.refutation.cover * self.weighing.limit()

    def at_most(self):
        unfunded = self.weighing.unfunded
        left = sum(self.weighing.weight(project) * self.weighing.cost(project) for project in unfunded)
        return self.paid(b"most") + left

    # The parts of the page.

    def why(self, case):
        return self.comes_to(case, self.failed) if self.failed else [case.say(f"why.refutation.{self.form()}")]

    def asked_for(self, case):
        form = "stable" if self.asks_stable else "yes"
        asked = element("li", case.say(f"asked.refutation.{form}" + ("_cover" if self.refutation.cover else "")))
        is_of_all = self.asks_stable and not self.of_stable
        return [asked, element("li", case.say("asked.refutation.of_all"), class_="stable") if is_of_all else []]

    def figures(self, case):
        return [
            element("section", element("h2", case.say("weights.title")), element("p", case.say(self.how())),
                    self.tiles(case), self.weight_table(case)),
            self.tests(case),
        ]  # fmt: skip

    def how(self):
        if not self.refutation.roles:
            return "weights.none"
        return "weights.how.no" if self.failed else "weights.how.yes"

    def tiles(self, case):
        cover = self.refutation.cover
        return [
            money_tile(case, "weights.paid.least", self.at_least()),
            money_tile(case, "weights.paid.most", self.at_most()),
            tile(case, "weights.cover", amounts.grouped(cover)) if cover else [],
        ]

    def weight_table(self, case):
        rows = [self.row(case, project) for project in sorted(self.refutation.roles)]
        return table(case, "weights.title", COLUMNS, rows) if rows else []

    def row(self, case, project):
        role = self.refutation.roles[project].decode()
        counts = self.told("weights.counts.left") if role == "left" else f"weights.counts.{role}"
        return (
            project, None, case.amount(case.cost(project)),
            case.say("demand.funded" if project in self.funded else "demand.unfunded"),
            case.say(counts), amounts.grouped(self.weighing.weight(project)),
        )  # fmt: skip

    # What the tests come to.

    def comes_to(self, case, name):
        return {"U1": self.rows, "U2": self.budgets, "U3": self.sums}[name](case)

    def rows(self, case):
        culprits = self.culprits["U1"]
        if not culprits:
            return [case.say("comes_to.U1.holds")]
        project = culprits[0][1]
        which = self.told("fails_funded") if project in self.funded else "fails_unfunded"
        told = case.filled(f"comes_to.U1.{which}", project=case.project(project))
        if len(culprits) == 1:
            return told
        count = amounts.grouped(len(culprits))
        return [*told, " ", case.filled("places.projects", len(culprits), count=count)]

    def budgets(self, case):
        counted, taken = self.weighing.u2_sums()
        told = {"counted": amounts.grouped(counted), "taken": amounts.grouped(taken)}
        return case.filled(self.told(f"comes_to.U2.{self.state('U2')}"), **told)

    def sums(self, case):
        state = self.state("U3")
        if state == "holds" and self.refutation.cover:
            state = "holds_cover"
        return case.filled(f"comes_to.U3.{state}", least=case.money(self.at_least()), most=case.money(self.at_most()))
