#!/usr/bin/env python3
"""Measures price_certificate of the Python package, whose library or program has to be built.

    python3 bench/certificates.py [--elections N] [--voters V]

Of N (320) invented elections with outcomes and payments of the Method of Equal Shares it tells how many got a
certificate from exact fractions and from floats, beside how many would by rounding each payment to the nearest cent;
how many outcomes leave room for another project; and how many need a denominator over 10^9 to be exact. Then how long
an election of V (50,000) voters takes, each of whom approves 8 of 60 projects, from floats to a certificate that was
audited.
"""
import argparse
import collections
import os
import random
import sys
import time
from fractions import Fraction

TOP = os.path.dirname(os.path.dirname(os.path.abspath(__file__)))
sys.path[:0] = [os.path.join(TOP, "python"), os.path.join(TOP, "python", "tests")]
from pbaudit import CannotKeep, Instance, Project, equal_shares, price_certificate, validate_price_system  # noqa: E402
from pbaudit.amounts import common_denominator  # noqa: E402
from test_certificates import an_election  # noqa: E402


def is_kept(*words):
    try:
        price_certificate(*words, exhaustive=False)
    except CannotKeep:
        return False
    return True


def measure_rule(elections):
    counts = collections.Counter()
    for seed in range(elections):
        instance, profile, measure = an_election(seed)
        shares = equal_shares(instance, profile, by=measure)
        funded, budget, payments = shares.funded, shares.voter_budget, shares.payments
        floats = [{project: float(amount) for project, amount in mine.items()} for mine in payments]
        cents = [{project: Fraction(round(amount * 100), 100) for project, amount in mine.items()} for mine in payments]
        near = Fraction(round(budget * 100), 100)
        costs = sum(project.cost for project in instance if project.name in funded)
        counts["got a certificate from fractions"] += is_kept(instance, profile, funded, budget, payments)
        counts["got a certificate from floats"] += is_kept(instance, profile, funded, float(budget), floats)
        counts["would get one by rounding each payment to the nearest cent"] += bool(
            validate_price_system(instance, profile, funded, near, cents, exhaustive=False))
        counts["leave room for another project"] += any(
            project.name not in funded and costs + project.cost <= instance.budget_limit for project in instance)
        amounts = [budget, *(amount for mine in payments for amount in mine.values())]
        counts["need a denominator over 10^9 to be exact"] += common_denominator(amounts) > 10**9
    for what, count in counts.items():
        print(f"{count:4} of {elections} {what}")


def measure_size(voters):
    chance = random.Random("size")
    profile = [chance.sample(range(60), 8) for _ in range(voters)]
    supporters = [[voter for voter, ballot in enumerate(profile) if project in ballot] for project in range(60)]
    costs = [chance.randint(100_000, 900_000) for _ in range(25)]
    payments = [{} for _ in profile]
    for project, cost in enumerate(costs):
        for voter in supporters[project]:
            payments[voter][str(project)] = cost / len(supporters[project])
    spent = [sum(mine.values()) for mine in payments]
    most = max(spent)
    # Those that aren't funded cost what their supporters have left, and hardly more.
    costs += [int(sum(most - spent[voter] for voter in each)) + 1 for each in supporters[25:]]
    instance = Instance([Project(str(project), cost) for project, cost in enumerate(costs)], sum(costs[:25]))
    ballots = [[str(project) for project in ballot] for ballot in profile]
    began = time.perf_counter()
    made = price_certificate(instance, ballots, [str(project) for project in range(25)], most, payments)
    print(f"{time.perf_counter() - began:.1f} s for {voters} voters and {len(made.rows)} payments")


def main():
    words = argparse.ArgumentParser(description=__doc__, formatter_class=argparse.RawDescriptionHelpFormatter)
    words.add_argument("--elections", type=int, default=320)
    words.add_argument("--voters", type=int, default=50_000)
    given = words.parse_args()
    if given.elections < 0 or given.voters < 1000:
        words.error("--elections is at least 0, and --voters at least 1000")
    measure_rule(given.elections)
    measure_size(given.voters)


if __name__ == "__main__":
    try:
        main()
    except ImportError as why:
        sys.exit(f"the library or the program has to be built: {why}")
