#!/usr/bin/env python3
"""Counts how searches for prices or a refutation (`find`) end: in prices, in a refutation, or in neither.

    python3 bench/ending.py [--elections N] [--seed WORD] [--seconds S] [--processors N]

Of each invented election (300) the outcomes of seven rules are searched in four forms: plain and stable, without Cover and
with it. The elections have 3 to 1,000 voters and 3 to 40 projects, whose costs are spread out, all the same, in cents, or
from a millionth to millions. For each form it tells how many searches ended in what, and the most seconds of a processor
that one took; and each that ended in neither, with what was said. The status is 1 where one did. A search may take S
seconds (60). The library or the program has to be built, and scipy installed.
"""
import argparse
import collections
import importlib.util
import os
import random
import resource
import sys
from concurrent.futures import ProcessPoolExecutor
from fractions import Fraction

import finding
from finding import greedy, pbaudit
from pbaudit import Instance, Project

FORMS = [(stable, cover) for stable in (False, True) for cover in (False, True)]
SIZES = [(3, 3), (6, 5), (10, 8), (20, 10), (40, 15), (100, 20), (300, 25), (600, 30), (1_000, 40)]
KINDS = {**finding.KINDS, "in camps": finding.camps}
MILLIONTH = Fraction(1, 10**6)


def costs_of(chance, voters, count):
    """What projects cost: spread out, all the same, in cents, or far apart."""
    spread = [max(1, int(chance.lognormvariate(0, 0.8) * 10 * voters)) for _ in range(count)]
    far = [chance.randint(1, 9) * Fraction(10) ** chance.randint(-6, 6) for _ in range(count)]
    return chance.choice([spread, [10 * voters] * count, [Fraction(cost, 100) for cost in spread], far])


def invented(seed):
    """An invented election: its name, and then what projects cost, the limit, and the ballots."""
    chance = random.Random(seed)
    voters, count = chance.choice(SIZES)
    kind = chance.choice(sorted(KINDS))
    ballots, costs = KINDS[kind](chance, voters, count), costs_of(chance, voters, count)
    limit = max(sum(costs) * Fraction(chance.choice([20, 35, 50, 80]), 100) // MILLIONTH * MILLIONTH, min(costs))
    return f"{seed}, {kind}, {voters} x {count}", costs, limit, ballots


def shares(costs, limit, ballots, **switches):
    """The projects of Equal Shares."""
    projects = [Project(f"p{at}", cost) for at, cost in enumerate(costs)]
    names = [[projects[at].name for at in ballot] for ballot in ballots]
    return {int(name[1:]) for name in pbaudit.equal_shares(Instance(projects, limit), names, **switches).funded}


def completed(costs, limit, ballots):
    """Equal Shares with budgets that are raised, and then greedy."""
    bought = shares(costs, limit, ballots, completion="add1", increment=Fraction(limit, 100 * len(ballots)))
    return greedy(costs, limit, ballots, lambda votes, cost: votes, bought)


def phragmen(costs, limit, ballots):
    """Phragmén's sequential rule: all voters earn alike, supporters buy what they have the money for, until that is over
    the limit."""
    supporters = [[voter for voter, ballot in enumerate(ballots) if at in ballot] for at in range(len(costs))]
    bought, begun = set(), [Fraction(0)] * len(ballots)
    while True:
        times = [((costs[at] + sum(begun[voter] for voter in mine)) / Fraction(len(mine)), at)
                 for at, mine in enumerate(supporters) if mine and at not in bought]
        when, at = min(times, default=(None, None))
        if at is None or sum(costs[each] for each in bought) + costs[at] > limit:
            return bought
        bought.add(at)
        for voter in supporters[at]:
            begun[voter] = when


def at_random(costs, limit, ballots):
    """Any projects that somebody approves, as long as they fit."""
    funded, left = set(), limit
    for at in random.Random(repr((costs, limit))).sample(range(len(costs)), len(costs)):
        if costs[at] <= left and any(at in ballot for ballot in ballots):
            funded.add(at)
            left -= costs[at]
    return funded


RULES = {
    "greedy by votes": lambda *town: greedy(*town, lambda votes, cost: votes),
    "greedy by votes per cost": lambda *town: greedy(*town, lambda votes, cost: votes / cost),
    "Equal Shares by cost": shares,
    "Equal Shares by count": lambda *town: shares(*town, by="count"),
    "Equal Shares, completed": completed,
    "Phragmén": phragmen,
    "at random": at_random,
}


def ended(name, election, stable, cover, seconds):
    """How one search ends: its form, in what, the seconds of a processor, and what is said where it is in neither."""
    before = used()
    found = pbaudit.find(election, stable=stable, cover=cover, violation=False, seconds=seconds)
    kind = "prices" if found.prices else "a refutation" if found.refutation else "neither"
    form = ("stable" if stable else "plain") + (" with Cover" if cover else "")
    return form, kind, used() - before, f"{name}, {form}: {' '.join(found.sentences)}" if kind == "neither" else None


def used():
    """The seconds of a processor that this process and its helpers have taken."""
    both = [resource.getrusage(whose) for whose in (resource.RUSAGE_SELF, resource.RUSAGE_CHILDREN)]
    return sum(each.ru_utime + each.ru_stime for each in both)


def searched(seed, seconds):
    """All searches of an election."""
    name, costs, limit, ballots = invented(seed)
    projects = [Project(f"p{at}", cost) for at, cost in enumerate(costs)]
    names = [[projects[at].name for at in ballot] for ballot in ballots]
    made = []
    for rule, choose in RULES.items():
        funded = [projects[at].name for at in choose(costs, limit, ballots)]
        election = pbaudit.write_election(Instance(projects, limit), names, funded)
        made += [ended(f"{name}, {rule}", election, *form, seconds) for form in FORMS]
    return made


def given():
    words = argparse.ArgumentParser(description=__doc__, formatter_class=argparse.RawDescriptionHelpFormatter)
    words.add_argument("--elections", type=int, default=300)
    words.add_argument("--seed", default="ending")
    words.add_argument("--seconds", type=float, default=60.0)
    words.add_argument("--processors", type=int, default=1)
    asked = words.parse_args()
    if min(asked.elections, asked.processors) < 1 or not asked.seconds >= 0:
        words.error("there is at least one election and one processor, and no time below 0")
    if importlib.util.find_spec("scipy") is None:
        words.error("scipy is not installed")
    return asked


def main():
    asked = given()
    counts, longest = collections.Counter(), collections.Counter()
    seeds = [f"{asked.seed}/{number}" for number in range(asked.elections)]
    with ProcessPoolExecutor(asked.processors) as executor:
        for made in executor.map(searched, seeds, [asked.seconds] * len(seeds)):
            for form, kind, took, told in made:
                counts[form, kind] += 1
                longest[form] = max(longest[form], took)
                if told:
                    print(told, flush=True)
    for form, most in longest.items():
        ends = ", ".join(f"{counts[form, kind]} in {kind}" for kind in ("prices", "a refutation", "neither"))
        print(f"{form}: {ends}; {most:.1f} s at most")
    return int(any(kind == "neither" for _, kind in counts))


if __name__ == "__main__":
    try:
        sys.exit(main())
    except ImportError as why:
        sys.exit(f"the library or the program has to be built: {why}")
