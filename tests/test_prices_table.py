"""Whether there are prices for the elections of tables/prices.json: what the table says is what an exact linear programme
finds (exact_prices.py), and the Python package ends in it. The page has to end in it as well (web/tests/prices.test.ts)."""
import importlib.util
import json
from fractions import Fraction

import pbaudit
import pytest
from pbaudit import Instance, Project

from common import HERE
from exact_prices import kind_of_prices

ROWS = json.loads((HERE / "tables/prices.json").read_text(encoding="utf-8"))
FORMS = ("plain", "stable")
CASES = [(row, form) for row in ROWS for form in FORMS]
NAMES = [f"{row['name']}, {form}" for row, form in CASES]


@pytest.mark.parametrize("row, form", CASES, ids=NAMES)
def test_it_is_what_the_conditions_leave(row, form):
    names = [name for name, _ in row["projects"]]
    costs = [Fraction(cost) for _, cost in row["projects"]]
    ballots = [list(map(names.index, ballot)) for ballot in row["ballots"]]
    funded = set(map(names.index, row["funded"]))
    assert kind_of_prices(costs, Fraction(row["limit"]), ballots, funded, form == "stable") == row[form]


@pytest.mark.usefixtures("library")
@pytest.mark.skipif(not importlib.util.find_spec("scipy"), reason="scipy isn't installed")
@pytest.mark.parametrize("cover", [True, False], ids=["with Cover", "any"])
@pytest.mark.parametrize("row, form", CASES, ids=NAMES)
def test_the_package_ends_in_it(row, form, cover):
    """In prices or in a refutation, which the auditor has accepted: the library that is built here."""
    instance = Instance([Project(name, Fraction(cost)) for name, cost in row["projects"]], Fraction(row["limit"]))
    found = pbaudit.find(instance, row["ballots"], row["funded"], stable=form == "stable", cover=cover, violation=False)
    if row[form] == "with Cover" or row[form] == "without Cover" and not cover:
        assert found.prices and found.prices.verdict and found.prices.cover == (row[form] == "with Cover"), found
        return
    assert found.refutation and found.refutation.verdict and not found.prices, found
    assert cover or not found.refutation.cover


def test_there_are_rows_of_each_kind():
    kinds = [(row["plain"], row["stable"]) for row in ROWS]
    each = ["with Cover", "without Cover", "none"]
    wanted = [(plain, stable) for at, plain in enumerate(each) for stable in each[at:]]
    assert [kind for kind in wanted if kinds.count(kind) < 2] == []
    assert sum("why" in row for row in ROWS) >= 15
