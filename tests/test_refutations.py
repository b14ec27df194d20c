"""Refutations: those that were worked out by hand (tables/refutations.txt), and small elections by brute force.

All price certificates of small elections are gone through, and all small refutations: none of the first is supported
where one of the second is accepted. What a yes gives to groups is tried for every group, and each group that is passed
over is made into a refutation. The same is tried of weights that refute stable prices alone. The reference answers, and on
a part of it the program.
"""
import itertools
import random

import pytest

import tables
from reference import conditions, refutations
from reference.certificates import Prices
from small import (
    MILLION, PLAIN, STABLE, cost_of, election_file, election_of, groups, prices_file, reached, reaches_the_limit, small_elections,
    small_refutations, spare_of_groups, subsets, supported,
)  # fmt: skip


WORKED_OUT = [pytest.param(*asked, id=tables.slug(asked[0].text)) for asked in tables.asked("refutations.txt")]


@pytest.mark.parametrize("row, words, files", WORKED_OUT)
def test_what_was_worked_out(row, words, files, ask):
    assert ask(words, files) == (row.text, row.status)


# Voters, projects, costs, the denominator, the largest weight, and every how many elections one is tried.
SMALL = [
    (2, 2, (0, 1, 2), 2, 2, 1), (3, 2, (1, 2), 1, 3, 1), (2, 3, (1, 2), 1, 2, 1), (3, 3, (1, 2), 1, 1, 11),
]  # fmt: skip


@pytest.mark.parametrize("voters, projects, costs, denominator, most, step", SMALL)
def test_no_prices_are_supported_where_a_refutation_is_accepted(voters, projects, costs, denominator, most, step):
    refuted = with_cover = priced = 0
    for election, funded in itertools.islice(small_elections(voters, projects, costs), 0, None, step):
        accepted = [refutation.cover for refutation in small_refutations(election, funded, most)
                    if refutations.first_failure(election, funded, refutation) is None]
        found = [covered for _, covered in supported(election, funded, denominator)]
        if 0 in accepted:
            assert not found, (election, funded)
        if any(accepted):
            assert not any(found), (election, funded)
        refuted, with_cover, priced = refuted + (0 in accepted), with_cover + any(accepted), priced + bool(found)
    assert min(refuted, with_cover, priced) > 0


@pytest.mark.parametrize("voters, projects, costs, denominator, most, step", SMALL)
def test_no_stable_prices_are_supported_where_weights_refute_them(voters, projects, costs, denominator, most, step):
    """Weights that refute all prices do. Others may refute stable prices where there are plain ones."""
    tally = {"refuted": 0, "with Cover": 0, "beside plain prices": 0, "with Cover beside plain prices": 0, "priced": 0}
    for election, funded in itertools.islice(small_elections(voters, projects, costs), 0, None, step):
        plain, stable = set(), set()
        for weights in small_refutations(election, funded, most):
            if refutations.first_failure(election, funded, weights, True) is None:
                stable.add(weights.cover)
            if refutations.first_failure(election, funded, weights) is None:
                plain.add(weights.cover)
                assert weights.cover in stable, (election, funded, weights)
        found = [covered for _, covered in supported(election, funded, denominator, [STABLE])]
        assert not (found if 0 in stable else any(found) if stable else False), (election, funded)
        others = [covered for _, covered in supported(election, funded, denominator, [PLAIN])]
        tally["refuted"] += 0 in stable
        tally["with Cover"] += any(stable)
        tally["beside plain prices"] += 0 in stable and bool(others)
        tally["with Cover beside plain prices"] += any(stable) and any(others)
        tally["priced"] += bool(found)
    assert min(tally.values()) > 0, tally


# What a yes gives to every group.


def spare_of_demands(election, funded):
    """For each group, each set of projects that all of it approve and that its share covers, and each unfunded one of
    these, by how much that and what was funded for the group cost more than the set."""
    for group, agreed in groups(election):
        received = cost_of(election, reached(election, funded, group))
        for demand in subsets(agreed):
            wanted = cost_of(election, demand)
            if len(group) * election.limit >= len(election.ballots) * wanted:
                yield from (received + election.costs[project] - wanted for project in demand - funded)


@pytest.mark.parametrize("voters, projects, costs, denominator, most, step", SMALL)
def test_shares_are_within_reach_where_prices_are_supported(voters, projects, costs, denominator, most, step):
    """The share of a group is at most what an unfunded project costs with what was funded for the group, and less under
    Cover or Exhaustive: PJR+ up to any project, by cost, and so PJR up to any project."""
    tally = {"tight": 0, "with Cover": 0, "with Exhaustive": 0}
    for election, funded in itertools.islice(small_elections(voters, projects, costs), 0, None, step):
        spare = [*spare_of_groups(election, funded), *spare_of_demands(election, funded)]
        for prices, covered in supported(election, funded, denominator):
            if reaches_the_limit(election, prices):
                exhausted = not conditions.exhaustive(conditions.Claim(election, funded, prices))
                assert all(each > 0 if covered or exhausted else each >= 0 for each in spare), (election, funded, prices)
                tally["tight"] += 0 in spare
                tally["with Cover"] += covered
                tally["with Exhaustive"] += exhausted and not covered
    assert min(tally.values()) > 0, tally


def test_a_share_that_is_all_that_a_yes_allows():
    """Two approve a park of 2 and a pool of 6, the third a library of 4; the park and the library are funded, and the
    limit is 12: the share of the two is 8, what the pool and the park cost. With a pool that costs less there are none."""
    for pool, is_yes in ((6, True), (5, False)):
        election = election_of([{1, 2}, {1, 2}, {3}], [2, pool, 4], 12)
        funded, prices = {1, 3}, Prices(1, 4, {(1, 1): 2, (3, 3): 4})
        claim = conditions.Claim(election, funded, prices)
        assert (conditions.first_failure(claim, {"--no-exhaustive"}) is None) is is_yes
        assert conditions.first_failure(claim, {"--no-exhaustive", "--cover"}) is not None
        assert min(spare_of_groups(election, funded)) == (0 if is_yes else -3 * MILLION)


def test_budgets_below_the_limit_say_nothing_of_groups():
    """With budgets of nothing and nothing funded every election has a yes, and the share of any group may be more."""
    election = election_of([{1}, {1}], [1], 10)
    claim = conditions.Claim(election, set(), Prices(1, 0, {}))
    assert conditions.first_failure(claim, {"--no-exhaustive"}) is None
    assert min(spare_of_groups(election, set())) < 0


# Groups whose share was enough, as refutations.


def a_group(chance):
    """An election with an outcome, a group and an unfunded project that all of it approve; and a limit by which its
    share just reaches the project and what was funded for it, or one that is a little off."""
    voters, projects = chance.randint(1, 8), chance.randint(1, 6)
    ballots = [{project for project in range(1, projects + 1) if chance.random() < 0.5} for _ in range(voters)]
    wanted, group = chance.randint(1, projects), chance.sample(range(1, voters + 1), chance.randint(1, voters))
    for voter in group:
        ballots[voter - 1].add(wanted)
    funded = {project for project in range(1, projects + 1) if project != wanted and chance.random() < 0.5}
    election = election_of(ballots, [chance.randint(0, 9) for _ in range(projects)], 0)
    received = reached(election, funded, group)
    least = -(-voters * (election.costs[wanted] + cost_of(election, received)) // len(group))
    election.limit = max(0, least + chance.choice([-MILLION, -1, 0, 0, 1]))
    return election, funded, group, wanted, received


def refutation_file(election, group, wanted, received):
    """The size of the group for Cover, and the number of voters for the project that it wants and for each that was
    funded for it."""
    voters = len(election.ballots)
    rows = [b"left,%s,%d" % (election.id(wanted), voters)]
    rows += [b"most,%s,%d" % (election.id(project), voters) for project in sorted(received)]
    return b"\n".join([b"pb-refutation,1", b"cover,%d" % len(group), b"role,project,weight", *rows, b""])


def test_a_group_whose_share_was_enough_is_a_refutation(ask):
    """Just where its share is at least what the project and what was funded for it cost together."""
    answers = set()
    for seed in range(300):
        election, funded, group, wanted, received = a_group(random.Random(f"group/{seed}"))
        share, owed = len(group) * election.limit, election.costs[wanted] + cost_of(election, received)
        is_enough = share >= len(election.ballots) * owed
        files = {"town.pb": election_file(election, funded),
                 "claim.csv": refutation_file(election, group, wanted, received)}
        told = ("unpriceable cover\n", 0) if is_enough else ("failed U3\n", 1)
        assert ask(["refutation", "town.pb", "claim.csv"], files) == told, seed
        answers.add((is_enough, share == len(election.ballots) * owed))
    assert answers == {(True, True), (True, False), (False, False)}


def test_the_program_answers_the_same(ask):
    """On some of the small elections: the yes to prices, and that to refutations."""
    answers = set()
    for election, funded in itertools.islice(small_elections(2, 2, (1, 2)), 0, None, 17):
        town = election_file(election, funded)
        found = itertools.islice(supported(election, funded, 1), 2)
        for prices, covered in found:
            files = {"town.pb": town, "claim.csv": prices_file(prices)}
            for mode, is_yes in ((["--no-exhaustive"], True), (["--no-exhaustive", "--cover"], covered)):
                text, status = ask(["prices", "town.pb", "claim.csv", *mode], files)
                assert (text == "supported priceable\n", status == 0) == (is_yes, is_yes)
        for refutation in small_refutations(election, funded, 1):
            rows = [b"%s,p%d,%d" % (role, project, refutation.weights[project])
                    for project, role in refutation.roles.items()]
            claim = [b"pb-refutation,1", b"cover,%d" % refutation.cover, b"role,project,weight", *rows, b""]
            failure = refutations.first_failure(election, funded, refutation)
            told = f"failed {failure[0]}\n" if failure else "unpriceable cover\n" if refutation.cover else "unpriceable\n"
            files = {"town.pb": town, "claim.csv": b"\n".join(claim)}
            assert ask(["refutation", "town.pb", "claim.csv"], files) == (told, 1 if failure else 0)
            answers.add(told)
            if failure:
                failure = refutations.first_failure(election, funded, refutation, True)
                told = f"failed {failure[0]}\n" if failure else told_stable(refutation)
            assert ask(["refutation", "town.pb", "claim.csv", "--stable"], files) == (told, 1 if failure else 0)
            answers.add(told)
    assert len(answers) == 5, answers


def told_stable(refutation):
    return "unpriceable stable cover\n" if refutation.cover else "unpriceable stable\n"
