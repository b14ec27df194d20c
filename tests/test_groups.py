"""Groups of voters that fall short: every group of small elections, by the definition alone, beside the reference and a part of it
beside the program; what a yes gives, what it doesn't, and which outcomes have one: those of prices, of the Method of Equal
Shares, and of the most votes."""
import itertools
import random
from fractions import Fraction

import pytest

from pbaudit.shares import Rule, Run
from reference import conditions, violations
from reference.certificates import Prices, Violation
from reference.groups import first_short
from small import (
    MILLION, PLAIN, STABLE, cost_of, election_file, election_of, groups, reaches_the_limit, small_elections, spare_of_groups,
    subsets, supported,
)  # fmt: skip

MEASURES = {"cost": True, "count": False}


def is_satisfied(election, funded, measure):
    return first_short(election, funded, MEASURES[measure]) is None


def short_groups(election, funded, by_cost):
    """Each project with each group that falls short for it, over all groups: the project isn't funded, all members approve it, and
    the group's share of the limit is at least what each member needs."""
    for group, agreed in groups(election):
        share = Fraction(len(group) * election.limit, len(election.ballots))
        gots = [election.ballot(voter) & funded for voter in group]
        for project in agreed - funded:
            cost = election.costs[project]
            needs = [cost + cost_of(election, got) if by_cost else cost * (len(got) + 1) for got in gots]
            if all(need <= share for need in needs):
                yield project, group


def all_elections(voters, projects, costs, limits):
    """All ballots but for the order of the voters, with all costs, outcomes and limits."""
    for ballots in itertools.combinations_with_replacement(subsets(range(1, projects + 1)), voters):
        kinds = itertools.product(costs, (False, True))
        for kind in itertools.combinations_with_replacement(list(kinds), projects):
            funded = {project for project, (_, is_funded) in enumerate(kind, 1) if is_funded}
            for limit in limits:
                yield election_of(list(ballots), [cost for cost, _ in kind], limit), funded


def random_election(chance):
    """An election of up to seven voters, with a limit that is often the share that just is enough for some group."""
    voters, projects = chance.randint(1, 7), chance.randint(1, 5)
    often = chance.choice([0.3, 0.5, 0.8])
    ballots = [{project for project in range(1, projects + 1) if chance.random() < often} for _ in range(voters)]
    costs = [chance.choice([0, 1, 1, 2, 3, 5, 8]) for _ in range(projects)]
    funded = {project for project in range(1, projects + 1) if chance.random() < 0.5}
    election = election_of(ballots, costs, 0)
    need = sum(chance.sample(costs, chance.randint(1, projects)))
    election.limit = -(-need * MILLION * voters // chance.randint(1, voters))
    election.limit = max(0, election.limit + chance.choice([-1, 0, 0, 1]))
    return election, funded


# Of each size of small elections; the last ones are by chance.
SMALL = {
    "2 voters, 2 projects": lambda: all_elections(2, 2, (0, 1, 2), range(7)),
    "3 voters, 2 projects": lambda: itertools.islice(all_elections(3, 2, (0, 1, 2), range(7)), 0, None, 3),
    "2 voters, 3 projects": lambda: itertools.islice(all_elections(2, 3, (1, 2), range(7)), 0, None, 2),
    "4 voters, 2 projects": lambda: itertools.islice(all_elections(4, 2, (1, 2, 3), range(9)), 0, None, 29),
    "by chance": lambda: (random_election(random.Random(f"groups/{seed}")) for seed in range(600)),
}


@pytest.mark.parametrize("by_cost", [True, False], ids=["by cost", "by count"])
@pytest.mark.parametrize("size", SMALL)
def test_first_group_of_all_groups(size, by_cost):
    """The lowest project for which any falls short, and the largest such group, of which all others are a part."""
    told = {"none": 0, "all": 0, "some": 0, "not the first": 0}
    for election, funded in SMALL[size]():
        short = [*short_groups(election, funded, by_cost)]
        found = first_short(election, funded, by_cost)
        told["none"] += not short
        if not short:
            assert found is None, (election, funded)
            continue
        lowest = min(project for project, _ in short)
        largest = set().union(*(group for project, group in short if project == lowest))
        assert found == (lowest, largest) and (lowest, largest) in short, (election, funded)
        told["all" if len(largest) == len(election.supporters(lowest)) else "some"] += 1
        told["not the first"] += bool({*range(1, lowest)} - funded)
    # By count, one project more doubles the need, and so does the share of two voters.
    missing = ["some"] if size == "2 voters, 2 projects" and not by_cost else []
    assert [name for name in told if not told[name]] == missing, told


@pytest.mark.parametrize("measure", MEASURES)
def test_the_program_answers_the_same(ask, measure):
    """What holds of all groups, on some of the elections."""
    answers = set()
    for election, funded in itertools.islice(itertools.chain(*(elections() for elections in SMALL.values())), 0, None, 53):
        short = [*short_groups(election, funded, MEASURES[measure])]
        told = f"satisfied ejr+ by {measure}\n"
        if short:
            lowest = min(project for project, _ in short)
            size = max(len(group) for project, group in short if project == lowest)
            told = f"failed EJR+ by {measure} voters {size} project p{lowest}\n"
        words = ["groups", "town.pb", "--satisfaction", measure]
        assert ask(words, {"town.pb": election_file(election, funded)}) == (told, int(bool(short)))
        answers.add(told)
    assert len(answers) > 7, answers


# What a yes gives.


def test_nobody_is_passed_over_where_none_falls_short_by_cost():
    """The share of a group is less than an unfunded project costs that all of it approve with all that was funded for the group. The
    other way round it isn't so."""
    yes = only_one = 0
    for election, funded in itertools.chain(*(elections() for elections in SMALL.values())):
        nobody = all(spare > 0 for spare in spare_of_groups(election, funded))
        if is_satisfied(election, funded, "cost"):
            assert nobody, (election, funded)
            yes += 1
        else:
            only_one += nobody
    assert min(yes, only_one) > 0


@pytest.mark.parametrize("measure", MEASURES)
def test_yes_stays_with_more_projects_and_a_lower_limit(measure):
    yes = 0
    for election, funded in SMALL["by chance"]():
        if is_satisfied(election, funded, measure):
            limit = election.limit
            for project in {*election.projects} - funded:
                assert is_satisfied(election, funded | {project}, measure), (election, funded)
            for election.limit in {limit // 2, limit - 1} - {-1}:
                assert is_satisfied(election, funded, measure), (election, funded)
            yes += 1
    assert yes > 100


def test_measures_are_one_where_all_costs_are_alike():
    answers = []
    for election, funded in SMALL["by chance"]():
        election.costs = dict.fromkeys(election.costs, 3 * MILLION)
        answers.append(first_short(election, funded, True))
        assert answers[-1] == first_short(election, funded, False), (election, funded)
    assert {answer is None for answer in answers} == {True, False}


def test_all_funded_is_a_yes_whatever_the_limit_is():
    for election, _ in SMALL["by chance"]():
        assert is_satisfied(election, {*election.projects}, "cost") and is_satisfied(election, {*election.projects}, "count")


# Voters, projects, costs, the denominator of prices, and every how many elections one is tried.
PRICED = [(2, 2, (0, 1, 2), 2, 1), (3, 2, (1, 2), 1, 1), (2, 3, (1, 2), 1, 1), (3, 3, (1, 2), 1, 11)]


def is_a_violation(election, funded):
    """Whether some group and some demand are a violation by counting."""
    return any(violations.first_failure(election, funded, Violation(False, group, demand)) is None
               for group, agreed in groups(election) for demand in subsets(agreed))  # fmt: skip


@pytest.mark.parametrize("voters, projects, costs, denominator, step", PRICED)
def test_stable_prices_are_a_yes_by_count(voters, projects, costs, denominator, step):
    """If all voter budgets together are more than the limit, or come to it under Exhaustive; then no group is passed over, and there
    is no violation by counting either."""
    tally = {"with Cover": 0, "with Exhaustive": 0}
    for election, funded in itertools.islice(small_elections(voters, projects, costs), 0, None, step):
        found = set()
        for prices, covered in supported(election, funded, denominator, [STABLE]):
            exhausted = not conditions.exhaustive(conditions.Claim(election, funded, prices))
            if covered or (exhausted and reaches_the_limit(election, prices)):
                found.add("with Cover" if covered else "with Exhaustive")
        if found:
            assert is_satisfied(election, funded, "count"), (election, funded)
            assert all(spare > 0 for spare in spare_of_groups(election, funded)), (election, funded)
            assert not is_a_violation(election, funded), (election, funded)
        for name in found:
            tally[name] += 1
    assert min(tally.values()) > 0, tally


def test_plain_prices_with_cover_are_none():
    """Two voters each pay 3 for a project of their own, and have 1 left, for one that costs 2 and that both approve: their share is 7.
    The outcome isn't stable, since each would rather pay for that one."""
    election, funded = election_of([{1, 3}, {2, 3}], [3, 3, 2], 7), {1, 2}
    claim = conditions.Claim(election, funded, Prices(1, 4, {(1, 1): 3, (2, 2): 3}))
    assert conditions.first_failure(claim, PLAIN | {"--cover"}) is None
    assert conditions.first_failure(claim, STABLE | {"--cover"}) == ("S5", (None, 3))
    assert first_short(election, funded, True) == first_short(election, funded, False) == (3, {1, 2})


def test_stable_prices_with_cover_are_none_by_cost():
    """Two voters each pay 1 for a project of their own, and would have 3 together for one that costs 2: as much as it costs with
    what each of them got."""
    election, funded = election_of([{1, 3}, {2, 3}], [1, 1, 2], 3), {1, 2}
    claim = conditions.Claim(election, funded, Prices(1, 2, {(1, 1): 1, (2, 2): 1}))
    assert conditions.first_failure(claim, STABLE | {"--cover"}) is None
    assert first_short(election, funded, True) == (3, {1, 2}) and first_short(election, funded, False) is None


# Which outcomes have a yes.


def larger_election(chance):
    voters, projects = chance.randint(1, 8), chance.randint(1, 7)
    often = chance.choice([0.2, 0.4, 0.6])
    ballots = [{project for project in range(1, projects + 1) if chance.random() < often} for _ in range(voters)]
    costs = [chance.choice([0, 1, 2, 3, 4, 6, 9]) for _ in range(projects)]
    return election_of(ballots, costs, chance.randint(1, 1 + sum(costs)))


def bought_by(election, measure, times):
    """The outcome of the Method of Equal Shares by a measure, by budgets of so many equal parts of the limit."""
    costs = [Fraction(election.costs[project], MILLION) for project in election.projects]
    ballots = [[project - 1 for project in sorted(ballot)] for ballot in election.ballots]
    rule = Rule(costs, Fraction(election.limit, MILLION), ballots, measure)
    return {each.project + 1 for each in Run(rule, times * rule.limit / rule.voters, 1, None).bought}


@pytest.mark.parametrize("measure, other", [("cost", "count"), ("count", "cost")])
def test_equal_shares_are_a_yes_by_their_own_measure(measure, other):
    """Also by larger budgets. By the other measure they need not be."""
    yes = crosswise = 0
    for seed in range(1000):
        election = larger_election(random.Random(f"shares/{seed}"))
        for times in (1, Fraction(4, 3)):
            funded = bought_by(election, measure, times)
            assert is_satisfied(election, funded, measure), (election, funded)
            yes += len(funded) < len(election.ids)
            crosswise += not is_satisfied(election, funded, other)
    assert yes > 1000 and crosswise > 0


def of_camps(chance):
    """Voters of some camps, each with projects of its own."""
    camps = chance.randint(2, 4)
    ballots, costs = [], []
    for _ in range(camps):
        own = range(len(costs) + 1, len(costs) + 1 + chance.randint(1, 3))
        ballots += [{*own} for _ in range(chance.randint(1, 5))]
        costs += [chance.randint(1, 6) for _ in own]
    return election_of(ballots, costs, chance.randint(max(costs), sum(costs)))


def most_votes(election):
    """One project after the other, that with most votes first, as far as there is money for it."""
    funded = set()
    for project in sorted(election.projects, key=lambda project: -len(election.supporters(project))):
        if cost_of(election, funded | {project}) <= election.limit:
            funded.add(project)
    return funded


def test_most_votes_are_sometimes_no_yes():
    elections = [of_camps(random.Random(f"camps/{seed}")) for seed in range(300)]
    answers = [is_satisfied(election, most_votes(election), "cost") for election in elections]
    assert 10 < answers.count(False) < 290


def test_most_votes_pass_over_a_small_camp():
    """Three want two projects of 5, and two want one of 4: their share of 10 is 4, and they get nothing."""
    election = election_of([{1, 2}, {1, 2}, {1, 2}, {3}, {3}], [5, 5, 4], 10)
    assert most_votes(election) == {1, 2}
    assert first_short(election, {1, 2}, True) == first_short(election, {1, 2}, False) == (3, {4, 5})
