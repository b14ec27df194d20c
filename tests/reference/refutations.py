"""The tests of a refutation, each as it is worded: whole sets of voters and projects, and sums over them."""
import bisect
from fractions import Fraction

MILLION = 10**6


class Weighing:
    """The weights of a refutation, of all prices or of stable ones, beside an election and an outcome: what the tests speak
    of."""

    def __init__(self, election, funded, refutation, stable=False):
        self.election, self.funded, self.refutation, self.stable = election, funded, refutation, stable
        self.unfunded = set(election.projects) - funded

    def weight(self, project):
        """The weight of a project, which is 0 where no row names it."""
        return self.refutation.weights.get(project, 0)

    def signed(self, project):
        """The weight of a funded project, below 0 for the role `most`. One that has the role `left` counts for nothing."""
        role, weight = self.refutation.roles.get(project), self.weight(project)
        return weight if role == b"least" else -weight if role == b"most" else 0

    def wanted(self, voter):
        """The weights of the unfunded projects that a voter approves."""
        return sum(self.weight(project) for project in self.election.ballot(voter) & self.unfunded)

    def worth(self, voter):
        """The most that a unit which the voter spends counts for: on one of the funded projects that it approves,
        with what the voter wants; or nothing, where it is kept."""
        approved = self.election.ballot(voter) & self.funded
        return max([0] + [self.signed(project) + self.wanted(voter) for project in approved])

    def stable_worth(self, voter):
        """The same by stable prices, none of which is more than the voter offers: the least whole number such that what the
        funded projects that it approves count for above that, added up, is at most that number, and at most what the voter
        wants."""
        wanted = self.wanted(voter)
        worths = [self.signed(project) + wanted for project in self.election.ballot(voter) & self.funded]

        def is_enough(number):
            return sum(max(0, worth - number) for worth in worths) <= min(number, wanted)

        # Where a number is enough, all above it are, and the largest is.
        return bisect.bisect_left(range(max([0] + worths)), True, key=is_enough)

    def cost(self, project):
        return Fraction(self.election.costs[project], MILLION)

    def limit(self):
        return Fraction(self.election.limit, MILLION)

    def supporters(self, project):
        return len(self.election.supporters(project))

    def spending(self, stable):
        """What the budgets of all voters count for, with Cover."""
        voters = self.election.voters
        worth = self.stable_worth if stable else self.worth
        return sum(worth(voter) for voter in voters) + len(voters) * self.refutation.cover

    def u2_sums(self):
        """The two sums that U2 compares."""
        return self.spending(self.stable), sum(self.weight(project) * self.supporters(project) for project in self.unfunded)

    def u3_sums(self):
        """The two sums that U3 compares, in the currency."""
        paid = sum((self.signed(project) * self.cost(project) for project in self.funded), Fraction(0))
        covered = self.refutation.cover * self.limit()
        return paid + covered, self.cost_of_left()

    def cost_of_most(self):
        """What funded projects of the role `most` cost, each by its weight."""
        return -sum((min(0, self.signed(project)) * self.cost(project) for project in self.funded), Fraction(0))

    def cost_of_left(self):
        """What unfunded projects cost, each by its weight."""
        return sum((self.weight(project) * self.cost(project) for project in self.unfunded), Fraction(0))


# Each test answers its culprits, as a condition does. It is passed where it has none.


def u1(weighing):
    roles = weighing.refutation.roles
    wrong = [project for project in roles if (roles[project] == b"left") == (project in weighing.funded)]
    return [(None, project) for project in sorted(wrong)]


def u2(weighing):
    spending, supported = weighing.u2_sums()
    return [] if spending <= supported else [(None, None)]


def u3(weighing):
    paid, owed = weighing.u3_sums()
    holds = paid >= owed if weighing.refutation.cover > 0 else paid > owed
    return [] if holds else [(None, None)]


TESTS = [("U1", u1), ("U2", u2), ("U3", u3)]


def first_failure(election, funded, refutation, stable=False):
    """The first test that fails, with its first culprit; None where no prices support the outcome, or no stable ones, or with
    a weight of Cover none whose budgets together are more than the limit."""
    weighing = Weighing(election, funded, refutation, stable)
    for name, culprits_of in TESTS:
        culprits = culprits_of(weighing)
        if culprits:
            return name, culprits[0]
    return None
