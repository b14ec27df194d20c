"""Groups of voters that fall short for a project, over whole sets of voters: an election and an outcome decide it."""
from .violations import worth


class Sharing:
    """An election and an outcome, with the measure of what voters got. Amounts are in millionths, and on both sides times
    the number of voters, so that no share is a fraction."""

    def __init__(self, election, funded, by_cost):
        self.election, self.funded, self.by_cost = election, funded, by_cost
        self.voters = len(election.ballots)

    def got(self, voter):
        """What the funded projects on a voter's ballot are worth."""
        return worth(self.election, self.election.ballot(voter) & self.funded, self.by_cost)

    def need(self, voter, project):
        """What a share has to come to for the project, on top of what this voter got."""
        cost = self.election.costs[project]
        return cost + self.got(voter) if self.by_cost else cost * (self.got(voter) + 1)

    def falls_short(self, group, project):
        """Whether all of a group approve an unfunded project, for which its share was enough on top of what any of them got."""
        if not group or project in self.funded or not group <= {*self.election.supporters(project)}:
            return False
        share = len(group) * self.election.limit
        return all(self.voters * self.need(voter, project) <= share for voter in group)

    def largest(self, project):
        """The largest group that falls short for a project, or the empty one. It has each supporter who got no more than the
        member who got most, since with these its share is more and its need the same."""
        supporters = self.election.supporters(project)
        groups = ({each for each in supporters if self.got(each) <= self.got(voter)} for voter in supporters)
        return max((group for group in groups if self.falls_short(group, project)), key=len, default=set())


def first_short(election, funded, by_cost):
    """The lowest project for which a group falls short, and the largest such group; None where there is none."""
    sharing = Sharing(election, funded, by_cost)
    for project in election.projects:
        group = sharing.largest(project)
        if group:
            return project, group
    return None
