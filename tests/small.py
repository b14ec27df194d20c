"""All small elections, with all prices and all weights that are small, and every group of their voters; and how they are written
as files."""
import itertools

from reference import conditions
from reference.certificates import Prices, Refutation
from reference.election import Election

MILLION = 10**6
# The forms of prices, by the fewest conditions.
PLAIN, STABLE = {"--no-exhaustive"}, {"--no-exhaustive", "--stable"}


def election_of(ballots, costs, limit):
    ids = [b"p%d" % project for project in range(1, len(costs) + 1)]
    amounts = {project: cost * MILLION for project, cost in enumerate(costs, 1)}
    return Election(limit * MILLION, ids, amounts, {}, True, ballots, {}, {}, 0)


def subsets(members):
    members = list(members)
    return [set(some) for size in range(len(members) + 1) for some in itertools.combinations(members, size)]


def small_elections(voters, projects, costs):
    """All ballots but for the order of the voters, all costs and outcomes but for the order of the projects, by the
    limit that the outcome just uses and by one more."""
    for ballots in itertools.combinations_with_replacement(subsets(range(1, projects + 1)), voters):
        kinds = itertools.product(costs, (False, True))
        for kind in itertools.combinations_with_replacement(list(kinds), projects):
            funded = {project for project, (_, is_funded) in enumerate(kind, 1) if is_funded}
            total = sum(cost for cost, is_funded in kind if is_funded)
            for limit in (total, total + 1):
                yield election_of(list(ballots), [cost for cost, _ in kind], limit), funded


def splits(total, parts):
    """All ways to share a number among so many."""
    if parts == 1:
        return [(total,)]
    return [(first, *rest) for first in range(total + 1) for rest in splits(total - first, parts - 1)]


def small_prices(election, funded, denominator):
    """All prices by which each funded project is paid for exactly and nothing else is, whoever pays, with all budgets
    from nothing to more than anybody can spend or the limit has. Others aren't supported, by C3 and C4."""
    voters, paid = election.voters, sorted(funded)
    costs = [election.costs[project] // MILLION * denominator for project in paid]
    most = max(sum(costs), election.limit // MILLION * denominator // len(voters)) + 1
    for shares in itertools.product(*(splits(cost, len(voters)) for cost in costs)):
        payments = {(voter, project): amount for project, share in zip(paid, shares)
                    for voter, amount in zip(voters, share) if amount}
        for budget in range(most + 1):
            yield Prices(denominator, budget, payments)


def supported(election, funded, denominator, forms=(PLAIN, STABLE)):
    """The prices that are supported in any of the forms, each with whether they are so with Cover."""
    for prices in small_prices(election, funded, denominator):
        claim = conditions.Claim(election, funded, prices)
        if any(conditions.first_failure(claim, form) is None for form in forms):
            yield prices, any(conditions.first_failure(claim, form | {"--cover"}) is None for form in forms)


def small_refutations(election, funded, most):
    """All refutations of small weights, each project with a role that it may have."""
    ranges = [range(-most, most + 1) if project in funded else range(most + 1) for project in election.projects]
    for cover in range(most + 1):
        for signed in itertools.product(*ranges):
            yield refutation_of(funded, dict(zip(election.projects, signed)), cover)


def refutation_of(funded, signed, cover):
    roles = {project: b"left" if project not in funded else b"most" if weight < 0 else b"least"
             for project, weight in signed.items()}
    return Refutation(cover, roles, {project: abs(weight) for project, weight in signed.items()})


def reached(election, funded, group):
    """The funded projects that at least one of a group approves."""
    return funded & set().union(*(election.ballot(voter) for voter in group))


def groups(election):
    """Every group with a member, and the projects that all of it approve."""
    for group in subsets(election.voters)[1:]:
        yield group, set.intersection(*(election.ballot(voter) for voter in group))


def cost_of(election, projects):
    return sum(election.costs[project] for project in projects)


def spare_of_groups(election, funded):
    """For each group and each unfunded project that all of it approve, by how much the project and what was funded for
    the group cost more than the group's share of the limit, times the number of voters."""
    for group, agreed in groups(election):
        received = cost_of(election, reached(election, funded, group))
        for project in agreed - funded:
            yield len(election.ballots) * (election.costs[project] + received) - len(group) * election.limit


def reaches_the_limit(election, prices):
    return len(election.ballots) * prices.budget * MILLION >= election.limit * prices.denominator


def election_file(election, funded):
    rows = [b"%s;%d;%d" % (name, election.costs[project] // MILLION, project in funded)
            for project, name in enumerate(election.ids, 1)]
    votes = [b"%d;%s" % (voter, b",".join(election.id(project) for project in sorted(election.ballot(voter))))
             for voter in election.voters]
    units, rest = divmod(election.limit, MILLION)
    return b"\n".join([b"META", b"key;value", b"budget;%d.%06d" % (units, rest), b"vote_type;approval", b"PROJECTS",
                       b"project_id;cost;selected", *rows, b"VOTES", b"voter_id;vote", *votes, b""])


def prices_file(prices):
    rows = [b"%d,p%d,%d" % (*pair, amount) for pair, amount in sorted(prices.payments.items())]
    return b"\n".join([b"pb-prices,1", b"denominator,%d" % prices.denominator, b"voter_budget,%d" % prices.budget,
                       b"voter,project,payment", *rows, b""])
