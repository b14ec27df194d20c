"""A caller as the documents have it, which mypy checks and which runs."""
import io
import pathlib
import sys
from fractions import Fraction

from pbaudit import (
    Instance, Project, Refusal, audit_folder, audit_groups, audit_prices, equal_shares, explain, groups_that_fall_short,
    price_certificate, read, validate_price_system, write_election, write_page, write_prices,
)


def main(folder: str) -> None:
    a, b, c = Project("a", 6), Project("b", 4), Project("c", Fraction("9.5"))
    instance = Instance([a, b, c], 10)
    profile = [{a, b}, {a}, {b, c}]
    write_election(instance, profile, [a, b], f"{folder}/town.pb")
    assert not groups_that_fall_short(instance, profile, [a, b], "count")
    group = audit_groups(folder + "/town.pb", satisfaction="count").group
    assert group is not None and group.missing > 0, group
    payments = [{a: 2, b: 2}, {a: 4}, {b: 2}]
    verdict = validate_price_system(instance, profile, [a, b], 4, payments)
    assert verdict, (verdict.condition, verdict.voter, verdict.project)
    floats = [{"a": 2.0, "b": 2.0}, {"a": 4.0}, {"b": 2.0}]
    made = price_certificate(instance, profile, [a, b], 4.0, floats, exhaustive=True)
    made.write(folder + "/town.prices.csv")
    made.write(pathlib.Path(folder, "town.prices.csv"))
    write_prices(Fraction(4), payments, folder + "/other.csv")
    with open(f"{folder}/town.pb", "rb") as town:
        assert audit_prices(town, made.file)
    assert audit_prices(f"{folder}/town.pb", io.BytesIO(made.file), stable=True)
    assert explain(pathlib.Path(folder, "town.pb"), made.file, cover=True).verdict
    page: bytes = write_page(folder + "/town.pb", made.file, path=folder + "/town.html", stable=True)
    assert page.startswith(b"<!DOCTYPE html>")
    print(audit_folder(folder), end="")
    shares = equal_shares(instance, profile, by="count")
    print(shares.funded, shares.voter_budget, len(shares.payments))
    try:
        read(b"town")
    except Refusal as refusal:
        print(refusal.printed, refusal.file, refusal.line, refusal.reason)


if __name__ == "__main__":
    main(sys.argv[1])
