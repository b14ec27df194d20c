"""The outcomes of the Method of Equal Shares in tables/shares.json: those of the Python package, and of the rule as it is defined,
written out in fractions here. The page computes the same ones by a script of its own (web/tests/shares.test.ts)."""
import json
from fractions import Fraction

import pytest

from common import HERE
from pbaudit import Instance, Project, equal_shares

ROWS = json.loads((HERE / "tables/shares.json").read_text(encoding="utf-8"))


def by_definition(limit, costs, ballots, by, budget):
    """What is bought, in order. A free project comes first, if somebody approves it."""
    supporters = {name: [at for at, ballot in enumerate(ballots) if name in ballot] for name in costs}
    left, funded = [budget] * len(ballots), [name for name in costs if not costs[name] and supporters[name]]
    while True:
        prices = {}
        for name in costs:
            purses = sorted(left[voter] for voter in supporters[name])
            if name in funded or not costs[name] or sum(purses) < costs[name]:
                continue
            missing = costs[name]
            for at, purse in enumerate(purses):
                if purse * (len(purses) - at) >= missing:
                    share = missing / (len(purses) - at)
                    break
                missing -= purse
            prices[name] = (share / (costs[name] if by == "cost" else 1), share)
        if not prices:
            return funded
        bought = min(prices, key=lambda name: prices[name][0])
        for voter in supporters[bought]:
            left[voter] -= min(left[voter], prices[bought][1])
        funded.append(bought)


def completed(limit, costs, ballots, by):
    """What is bought where the budgets are raised by 1, one step after the other."""
    budget = limit / len(ballots)
    funded = by_definition(limit, costs, ballots, by, budget)
    while any(name not in funded and sum(costs[each] for each in (*funded, name)) <= limit
              and any(name in ballot for ballot in ballots) for name in costs):
        more = by_definition(limit, costs, ballots, by, budget + 1)
        if sum(costs[name] for name in more) > limit:
            break
        funded, budget = more, budget + 1
    return funded, budget


def names_of(row):
    return f"{row['name']}, by {row['by']}, {row['completion']}"


@pytest.mark.parametrize("row", ROWS, ids=names_of)
def test_the_package_funds_it(row):
    instance = Instance([Project(name, Fraction(cost)) for name, cost in row["projects"]], Fraction(row["limit"]))
    found = equal_shares(instance, row["ballots"], by=row["by"], completion=row["completion"])
    assert (found.funded, found.voter_budget, found.runs) == (row["funded"], Fraction(row["budget"]), row["runs"])


@pytest.mark.parametrize("row", ROWS, ids=names_of)
def test_it_is_as_the_rule_is_defined(row):
    costs, limit = {name: Fraction(cost) for name, cost in row["projects"]}, Fraction(row["limit"])
    budget = limit / len(row["ballots"])
    wanted = (by_definition(limit, costs, row["ballots"], row["by"], budget), budget)
    if row["completion"] == "add1":
        wanted = completed(limit, costs, row["ballots"], row["by"])
    assert (row["funded"], Fraction(row["budget"])) == wanted


def test_there_are_rows_of_each_kind():
    kinds = {(row["by"], row["completion"]) for row in ROWS}
    assert kinds == {(by, completion) for by in ("cost", "count") for completion in ("none", "add1")}
    assert sum("why" in row for row in ROWS) >= 10
    assert any(row["runs"] > 20 for row in ROWS) and any("." in cost for row in ROWS for _, cost in row["projects"])
