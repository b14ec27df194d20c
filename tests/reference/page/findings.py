"""What each condition on prices comes to, in a sentence with its figures; and where it fails by most."""
from . import amounts


def comes_to(case, figures, name):
    """What a condition comes to, and at how many places it fails, where these are several, and where by most."""
    meaning = f"comes_to.{name}." + ("fails" if figures.culprits[name] else "holds")
    return said_of(name)(case, figures, meaning) + places(case, figures, name)


def said_of(name):
    """What writes the sentence of a condition."""
    return {
        "Feasible": said_of_feasible, "Exhaustive": said_of_exhaustive, "Cover": said_of_cover,
        "C1": said_of_c1, "C2": said_of_c2, "C3": said_of_payments("C3"), "C4": said_of_payments("C4"),
        "C5": said_of_supporters("C5", "left"), "S5": said_of_supporters("S5", "offer"),
    }[name]  # fmt: skip


def said_of_feasible(case, figures, meaning):
    return case.filled(meaning, total=case.money(figures.total), limit=case.money(case.limit))


def said_of_exhaustive(case, figures, meaning):
    if figures.culprits["Feasible"]:
        return [case.say("comes_to.Exhaustive.over_limit")]
    cheapest = min(figures.claim.unfunded(), key=case.cost, default=None)
    project = first_project(figures, "Exhaustive", cheapest)
    if project is None:
        return [case.none_unfunded()]
    left = case.money(case.limit - figures.total)
    return case.filled(meaning, left=left, project=case.project(project), cost=case.money(case.cost(project)))


def said_of_cover(case, figures, meaning):
    return case.filled(meaning, budgets=case.money(figures.budgets), limit=case.money(case.limit))


def said_of_c1(case, figures, meaning):
    if not figures.culprits["C1"]:
        return [case.say(meaning)]
    voter, project = figures.culprits["C1"][0]
    return case.filled(meaning, voter=case.voter(voter), project=case.project(project))


def said_of_c2(case, figures, meaning):
    if not case.election.ballots:
        return [case.say("comes_to.C2.nobody")]
    voter = figures.culprits["C2"][0][0] if figures.culprits["C2"] else spends_most(figures)
    return said_of_spender(case, figures, meaning, voter)


def said_of_spender(case, figures, meaning, voter):
    spent, budget = figures.claim.spends(voter), figures.claim.budget
    named = {"spent": case.money(spent), "budget": case.money(budget), "over": case.money(abs(spent - budget))}
    return case.filled(meaning, voter=case.voter(voter), **named)


def said_of_payments(name):
    """C3 and C4 name a project where they fail, and otherwise nothing."""

    def said(case, figures, meaning):
        if not figures.culprits[name]:
            return [case.say(meaning)]
        project = figures.culprits[name][0][1]
        paid, cost = case.money(figures.claim.paid(project)), case.money(case.cost(project))
        return case.filled(meaning, project=case.project(project), paid=paid, cost=cost)

    return said


def said_of_supporters(name, sum_name):
    """C5 and S5 name the first project where they fail, or else the one that comes closest."""

    def said(case, figures, meaning):
        has = sums_of(figures, name)
        closest = max(figures.claim.unfunded(), key=lambda each: has(each) - case.cost(each), default=None)
        project = first_project(figures, name, closest)
        if project is None:
            return [case.none_unfunded()]
        named = {sum_name: case.money(has(project)), "cost": case.money(case.cost(project))}
        return case.filled(meaning, project=case.project(project), **named)

    return said


def sums_of(figures, name):
    return figures.claim.left_of_supporters if name == "C5" else figures.claim.offer_of_supporters


def first_project(figures, name, otherwise):
    return figures.culprits[name][0][1] if figures.culprits[name] else otherwise


def spends_most(figures):
    return max(figures.claim.election.voters, key=figures.claim.spends)


def places(case, figures, name):
    """At how many places a condition fails, and where by most."""
    culprits = figures.culprits[name]
    if len(culprits) < 2:
        return []
    kind, most = {
        "C1": ("payments", largest_payment), "C2": ("voters", largest_spender),
    }.get(name, ("projects", largest_project))  # fmt: skip
    count = len(culprits)
    counted = case.filled(f"places.{kind}", count, count=amounts.grouped(count))
    return [" ", counted, " ", most(case, figures, name)]


def largest_payment(case, figures, name):
    """The largest of the payments that aren't approved, and of several the first that fails."""
    claim = figures.claim
    voter, project = max(figures.culprits["C1"], key=lambda pair: claim.pays(*pair))
    amount = case.money(claim.pays(voter, project))
    if (voter, project) == figures.culprits["C1"][0]:
        return case.filled("places.payment.here", amount=amount)
    named = {"voter": case.voter(voter), "project": case.project(project)}
    return case.filled("places.payment.elsewhere", amount=amount, **named)


def largest_spender(case, figures, name):
    voter = spends_most(figures)
    if voter == figures.culprits["C2"][0][0]:
        return [case.say("places.spender.here")]
    return said_of_spender(case, figures, "comes_to.C2.holds", voter)


def largest_project(case, figures, name):
    """The project at which a condition fails by most, the first of several."""
    claim, cost = figures.claim, case.cost
    said, amount_at = {
        "Exhaustive": ("dearest", cost),
        "C3": ("largest", lambda each: abs(claim.paid(each) - cost(each))),
        "C4": ("amount", claim.paid),
        "C5": ("largest", lambda each: claim.left_of_supporters(each) - cost(each)),
        "S5": ("largest", lambda each: claim.offer_of_supporters(each) - cost(each)),
    }[name]
    failing = [project for _, project in figures.culprits[name]]
    project = max(failing, key=amount_at)
    amount = case.money(amount_at(project))
    if project == failing[0]:
        return case.filled(f"places.{said}.here", amount=amount)
    return case.filled(f"places.{said}.elsewhere", project=case.project(project), amount=amount)
