"""The conditions on prices, each as it is worded, in fractions."""
from fractions import Fraction

MILLION = 10**6


class Claim:
    """Prices that are to support an outcome: what the conditions speak of."""

    def __init__(self, election, funded, prices):
        self.election, self.funded_set, self.prices = election, funded, prices
        self.budget = Fraction(prices.budget, prices.denominator)
        self.limit = Fraction(election.limit, MILLION)
        self.spent = {voter: sum(self.payments(voter), Fraction(0)) for voter in election.voters}

    def funded(self):
        return [project for project in self.election.projects if project in self.funded_set]

    def unfunded(self):
        return [project for project in self.election.projects if project not in self.funded_set]

    def cost(self, project):
        return Fraction(self.election.costs[project], MILLION)

    def cost_of(self, projects):
        return sum((self.cost(project) for project in projects), Fraction(0))

    def pays(self, voter, project):
        return Fraction(self.prices.payments.get((voter, project), 0), self.prices.denominator)

    def payments(self, voter):
        return [self.pays(voter, project) for project in self.election.projects]

    def spends(self, voter):
        return self.spent[voter]

    def left(self, voter):
        return self.budget - self.spends(voter)

    def largest(self, voter):
        return max(self.payments(voter), default=Fraction(0))

    def offer(self, voter):
        """The larger of the voter's largest payment and what it has left."""
        return max(self.largest(voter), self.left(voter))

    def paid(self, project):
        return sum((self.pays(voter, project) for voter in self.election.voters), Fraction(0))

    def left_of_supporters(self, project):
        return sum((self.left(voter) for voter in self.election.supporters(project)), Fraction(0))

    def offer_of_supporters(self, project):
        return sum((self.offer(voter) for voter in self.election.supporters(project)), Fraction(0))

    def share(self, project):
        """The share of a project's supporters in the limit."""
        return len(self.election.supporters(project)) * self.limit / len(self.election.ballots)

    def funded_for(self, project):
        """What was funded that a supporter of a project approves costs so much."""
        ballots = (self.election.ballot(voter) for voter in self.election.supporters(project))
        return self.cost_of(self.funded_set & set().union(*ballots))

    def surplus(self, project):
        """By how much that share is more than the project and what was funded for its supporters."""
        return self.share(project) - self.cost(project) - self.funded_for(project)


# Each condition answers its culprits, the lowest voter first and then the lowest project: of each the voter and the
# project, None where it has none. A condition holds where it has no culprits.


def feasible(claim):
    return [] if claim.cost_of(claim.funded()) <= claim.limit else [(None, None)]


def exhaustive(claim):
    total = claim.cost_of(claim.funded())
    return [(None, project) for project in claim.unfunded() if not total + claim.cost(project) > claim.limit]


def cover(claim):
    return [] if len(claim.election.ballots) * claim.budget > claim.limit else [(None, None)]


def c1(claim):
    pays = [(voter, project) for voter, project in claim.prices.payments if claim.pays(voter, project) > 0]
    wrongly = [(voter, project) for voter, project in pays if project not in claim.election.ballot(voter)]
    return sorted(wrongly)


def c2(claim):
    return [(voter, None) for voter in claim.election.voters if not claim.spends(voter) <= claim.budget]


def c3(claim):
    return [(None, project) for project in claim.funded() if not claim.paid(project) == claim.cost(project)]


def c4(claim):
    return [(None, project) for project in claim.unfunded() if not claim.paid(project) == 0]


def c5(claim):
    return [(None, each) for each in claim.unfunded() if not claim.left_of_supporters(each) <= claim.cost(each)]


def s5(claim):
    return [(None, each) for each in claim.unfunded() if not claim.offer_of_supporters(each) <= claim.cost(each)]


def conditions_of(mode):
    """The conditions that a mode, a set of options, asks for, in order, each with its name."""
    asked = [("Feasible", feasible)]
    if "--no-exhaustive" not in mode:
        asked.append(("Exhaustive", exhaustive))
    if "--cover" in mode:
        asked.append(("Cover", cover))
    asked += [("C1", c1), ("C2", c2), ("C3", c3), ("C4", c4)]
    asked.append(("S5", s5) if "--stable" in mode else ("C5", c5))
    return asked


def first_failure(claim, mode):
    """The first condition that is false, with its first culprit; None where all hold."""
    for name, culprits_of in conditions_of(mode):
        culprits = culprits_of(claim)
        if culprits:
            return name, culprits[0]
    return None
