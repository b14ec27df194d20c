"""The lines of 'explain', each in fractions: what every condition or test comes to."""
from fractions import Fraction

from . import conditions, group_figures, refutations, violations

MILLION = 10**6


def amount(value):
    """An amount in words: a decimal with two to six places where it is one, else a whole number and a fraction."""
    sign = "-" if value < 0 else ""
    whole, rest = divmod(abs(value), 1)
    if MILLION % Fraction(rest).denominator == 0:
        places = f"{int(rest * MILLION):06}"
        return f"{sign}{whole}.{places[:2]}{places[2:].rstrip('0')}"
    return f"{sign}{whole} {rest}" if whole else f"{sign}{rest}"


def how_many(what, culprits):
    return f" ({what}: {len(culprits)})"


def closest(places, excess):
    """The first of the places at which the excess is greatest; None where there is no place."""
    return max(places, key=excess, default=None)


class PriceTable:
    """The sentence of each condition on prices, by its culprits."""

    def __init__(self, claim):
        self.claim = claim
        self.total = claim.cost_of(claim.funded())

    def id(self, project):
        return self.claim.election.id(project).decode()

    def feasible(self, culprits):
        return f"the funded projects cost {amount(self.total)}; the limit is {amount(self.claim.limit)}"

    def exhaustive(self, culprits):
        remains = self.claim.limit - self.total
        if culprits:
            _, project = culprits[0]
            cost, end = amount(self.claim.cost(project)), how_many("unfunded projects that still fit", culprits)
            return f"{amount(remains)} of the limit remains, and project {self.id(project)} costs {cost}{end}"
        project = closest(self.claim.unfunded(), lambda project: -self.claim.cost(project))
        if project is None:
            return "every project is funded"
        cheapest = f"the cheapest unfunded project, {self.id(project)}, costs {amount(self.claim.cost(project))}"
        return f"{amount(remains)} of the limit remains; {cheapest}"

    def cover(self, culprits):
        budgets = len(self.claim.election.ballots) * self.claim.budget
        return f"all voter budgets come to {amount(budgets)} together; the limit is {amount(self.claim.limit)}"

    def c1(self, culprits):
        if not culprits:
            return "no voter pays for a project that isn't on its ballot"
        voter, project = culprits[0]
        end = how_many("such payments", culprits)
        return f"voter {voter} pays for project {self.id(project)}, which isn't on its ballot{end}"

    def c2(self, culprits):
        budget = amount(self.claim.budget)
        if culprits:
            voter, _ = culprits[0]
            end = how_many("voters who spend more than that", culprits)
            return f"voter {voter} spends {amount(self.claim.spends(voter))} and has a budget of {budget}{end}"
        voter = closest(self.claim.election.voters, self.claim.spends)
        if voter is None:
            return "there are no voters"
        return f"voter {voter} spends most, {amount(self.claim.spends(voter))} of its budget of {budget}"

    def c3(self, culprits):
        if not culprits:
            return "each funded project is paid for exactly"
        _, project = culprits[0]
        cost, paid = amount(self.claim.cost(project)), amount(self.claim.paid(project))
        end = how_many("funded projects not paid exactly", culprits)
        return f"project {self.id(project)} costs {cost}, and {paid} is paid for it{end}"

    def c4(self, culprits):
        if not culprits:
            return "nothing is paid for an unfunded project"
        _, project = culprits[0]
        end = how_many("unfunded projects that are paid for", culprits)
        return f"{amount(self.claim.paid(project))} is paid for project {self.id(project)}, which isn't funded{end}"

    def c5(self, culprits):
        return self.supporters(culprits, self.claim.left_of_supporters, "leftovers")

    def s5(self, culprits):
        return self.supporters(culprits, self.claim.offer_of_supporters, "offers")

    def supporters(self, culprits, sum_of, name):
        def figures(project, remark=""):
            cost, sum_ = amount(self.claim.cost(project)), amount(sum_of(project))
            return f"project {self.id(project)}{remark} costs {cost}, and its supporters' {name} come to {sum_}"

        if culprits:
            end = how_many("unfunded projects where that is more than the cost", culprits)
            return figures(culprits[0][1]) + end
        project = closest(self.claim.unfunded(), lambda project: sum_of(project) - self.claim.cost(project))
        return "every project is funded" if project is None else figures(project, ", the closest,")


def price_lines(claim, mode):
    """A line for each condition: its name, whether it holds, and its figures."""
    table = PriceTable(claim)
    rows = [
        ("Feasible", conditions.feasible, table.feasible, None),
        ("Exhaustive", conditions.exhaustive, table.exhaustive,
         "without --no-exhaustive" if "--no-exhaustive" in mode else None),
        ("Cover", conditions.cover, table.cover, None if "--cover" in mode else "with --cover"),
        ("C1", conditions.c1, table.c1, None),
        ("C2", conditions.c2, table.c2, None),
        ("C3", conditions.c3, table.c3, None),
        ("C4", conditions.c4, table.c4, None),
        ("C5", conditions.c5, table.c5, "without --stable" if "--stable" in mode else None),
        ("S5", conditions.s5, table.s5, None if "--stable" in mode else "with --stable"),
    ]  # fmt: skip
    for name, culprits_of, sentence, how in rows:
        culprits = culprits_of(claim)
        answer = "fails" if culprits else "holds"
        opening = f"{'not asked':11}{how} it {answer}: " if how else f"{answer:11}"
        yield f"{name:12}{opening}{sentence(culprits)}"


def violation_lines(election, funded, violation):
    """A line for each test of a violation."""
    v1, v2, v3, v4 = (culprits_of(election, funded, violation) for _, culprits_of in violations.TESTS)
    members, voters = len(violation.group), len(election.ballots)
    sentences = [
        f"{members} of {voters} voters are in the group",
        "each member approves each demanded project",
        "there are no voters",
        worth_sentence(election, funded, violation, v4),
    ]
    if v2:
        pairs = how_many("such pairs of a member and a project", v2)
        sentences[1] = f"voter {v2[0][0]} doesn't approve project {election.id(v2[0][1]).decode()}{pairs}"
    if voters:
        cost = Fraction(sum(election.costs[project] for project in violation.demand), MILLION)
        share = amount(Fraction(members * election.limit, voters * MILLION))
        sentences[2] = f"the group's share of the limit is {share}; the demanded projects cost {amount(cost)}"
    yield from lines_of(violations.TESTS, [v1, v2, v3, v4], sentences)


def lines_of(tests, failing, sentences):
    for (name, _), culprits, sentence in zip(tests, failing, sentences):
        yield f"{name:12}{'fails' if culprits else 'holds':11}{sentence}"


def worth_sentence(election, funded, violation, culprits):
    def said(worth):
        return amount(Fraction(worth, MILLION)) if violation.by_cost else str(worth)

    def gets(voter):
        return violations.worth(election, election.ballot(voter) & funded, violation.by_cost)

    demanded = said(violations.worth(election, violation.demand, violation.by_cost))
    measure = "by cost" if violation.by_cost else "by count"
    if culprits:
        voter, _ = culprits[0]
        end = f"voter {voter} gets {said(gets(voter))}" + how_many("members who get enough", culprits)
    else:
        end = f"each member gets at most {said(max(map(gets, violation.group), default=0))}"
    return f"{measure} the demanded projects are worth {demanded}, and {end}"


def refutation_lines(weighing):
    """A line for each test of a refutation."""
    failing = [culprits_of(weighing) for _, culprits_of in refutations.TESTS]
    roles = list(weighing.refutation.roles.values())
    counts = ", of ".join(f"{role.decode()}: {roles.count(role)}" for role in (b"least", b"most", b"left"))
    sentences = [f"each row fits whether its project is funded; rows of {counts}"]
    if failing[0]:
        name = weighing.election.id(failing[0][0][1]).decode()
        sentences = [f"the row of project {name} doesn't fit whether it is funded{how_many('such rows', failing[0])}"]
    counted, taken = weighing.u2_sums()
    form = " if prices are stable" if weighing.stable else ""
    end = f"; for all prices they count at most {weighing.spending(False)}" if weighing.stable else ""
    sentences.append(f"the weights count at most {counted} voter budgets{form}, and take {taken}{end}")
    paid, owed = weighing.u3_sums()
    # What is below 0 on one side stands on the other.
    most = weighing.cost_of_most()
    sentences.append(f"costs times weights come to {amount(paid + most)} for least and Cover, whose weight is "
                     f"{weighing.refutation.cover}, and to {amount(owed + most)} for most and left")
    yield from lines_of(refutations.TESTS, failing, sentences)


def said_of_groups(claim, mode):
    """What a yes to prices says of every group of supporters of an unfunded project: "strict", "weak" or "little"."""
    budgets = len(claim.election.ballots) * claim.budget
    if budgets < claim.limit:
        return "little"
    return "strict" if budgets > claim.limit or "--no-exhaustive" not in mode else "weak"


def group_lines(claim, mode):
    """That, and the unfunded project whose supporters come nearest to the bound."""
    said = said_of_groups(claim, mode)
    if said == "little":
        yield "of groups of voters this says little: all voter budgets together are less than the limit"
        return
    bound = "less than" if said == "strict" else "no more than"
    yield (f"take any voters who all approve an unfunded project: their equal part of the limit is {bound} that project's "
           "cost plus the cost of all funded projects that at least one of them approves")
    project = closest(claim.unfunded(), claim.surplus) if claim.election.ballots else None
    if project is not None:
        supporters = len(claim.election.supporters(project))
        yield (f"nearest to that comes project {claim.election.id(project).decode()}: the share of its {supporters} "
               f"supporters is {amount(claim.share(project))}, it costs {amount(claim.cost(project))}, and "
               f"{amount(claim.funded_for(project))} was funded for them")


def shown_group_lines(election, funded, measure):
    """The group that is shown of groups that fall short: the largest for the first project for which one does, or the closest."""
    group = group_figures.shown(group_figures.of_all(election, funded, measure == "cost"))
    if group is None:
        yield "nobody approves a project that isn't funded, so there is no group to show"
        return
    share, need = Fraction(group.voters * election.limit, len(election.ballots) * MILLION), Fraction(group.need, MILLION)
    most, sum_of = {
        "cost": (amount(Fraction(group.most, MILLION)), "the cost of the project and the most that a member got"),
        "count": (group.most, "the cost of the project, for each one that a member got at most and once more"),
    }[measure]
    cost = amount(Fraction(election.costs[group.project], MILLION))
    yield (f"Project     {group.supporters} of {len(election.ballots)} voters approve project "
           f"{election.id(group.project).decode()}, which costs {cost}")
    yield f"Group       {group.voters} of these: all who got at most {most} by {measure}"
    yield f"Need        {amount(need)}: {sum_of}"
    yield f"Share       {amount(share)}: the equal part of the limit for so many voters"
    if group.is_short:
        yield f"Over        {amount(share - need)}: the share is enough, so the group falls short"
    else:
        yield f"Missing     {amount(need - share)}: no group falls short, and this one comes closest"
