"""The tests of a violation, each as it is worded."""


def worth(election, projects, by_cost):
    """What a set of projects is worth: how many they are, or what they cost."""
    return sum(election.costs[project] if by_cost else 1 for project in projects)


# Each test answers its culprits, as a condition does. It is passed where it has none.


def v1(election, funded, violation):
    return [] if violation.group else [(None, None)]


def v2(election, funded, violation):
    pairs = [(voter, project) for voter in violation.group for project in violation.demand]
    missing = [(voter, project) for voter, project in pairs if project not in election.ballot(voter)]
    return sorted(missing)


def v3(election, funded, violation):
    demanded = sum(election.costs[project] for project in violation.demand)
    return [] if len(violation.group) * election.limit >= len(election.ballots) * demanded else [(None, None)]


def v4(election, funded, violation):
    demanded = worth(election, violation.demand, violation.by_cost)
    gets = {voter: worth(election, election.ballot(voter) & funded, violation.by_cost) for voter in violation.group}
    return [(voter, None) for voter in sorted(gets) if not gets[voter] < demanded]


TESTS = [("V1", v1), ("V2", v2), ("V3", v3), ("V4", v4)]


def first_failure(*violation):
    """The first test that fails, with its first culprit; None where the group and its demand are a violation."""
    for name, culprits_of in TESTS:
        culprits = culprits_of(*violation)
        if culprits:
            return name, culprits[0]
    return None
