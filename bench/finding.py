#!/usr/bin/env python3
"""Measures the search for certificates (`find`): the time of a processor that it takes, and the greatest memory of the
search and of its solver.

    python3 bench/finding.py [FILE..]     these elections in the place of the invented ones
    python3 bench/finding.py --different  invented ones of 100 projects and up to 100,000 voters whose ballots all differ:
                                          prices or else a refutation, plain and stable, without Cover and with it, on
                                          two processors

The library or the program has to be built, and scipy installed. The invented elections are Euclidean (voters and
projects are points, and a voter approves what is near), clustered and random, with outcomes of greedy by votes, of
greedy by votes per cost, and of Equal Shares completed by greedy: 1,000 voters and 60 projects; 10,000 voters and 100
projects, of which the clustered and the random ones have no equal ballots; and 100,000 voters and 200 projects with
15,000 different ballots.
"""
import argparse
import importlib.util
import json
import os
import random
import resource
import subprocess
import sys
import time

TOP = os.path.dirname(os.path.dirname(os.path.abspath(__file__)))
sys.path.insert(0, os.path.join(TOP, "python"))
import pbaudit  # noqa: E402
from pbaudit import Instance, Project  # noqa: E402

# More than the command's own, since what else the machine does takes its time too.
SECONDS = 600
SIZES = [(1_000, 60, 1_000), (10_000, 100, 10_000), (100_000, 200, 15_000)]
# Stable prices are looked for in elections of up to so many voters.
MOST_STABLE = 1_000
SEARCHES = [("prices", {"refutation": False, "violation": False}),
            ("stable", {"refutation": False, "violation": False, "stable": True}),
            ("refutation", {"prices": False, "violation": False}),
            ("violation", {"prices": False, "refutation": False})]
DIFFERENT = (1_000, 10_000, 100_000)
EITHER = [(f"{form}, {word}", {"violation": False, "stable": form == "stable", "cover": word == "Cover"})
          for form in ("plain", "stable") for word in ("any", "Cover")]


def euclidean(chance, voters, projects):
    points = [(chance.random(), chance.random()) for _ in range(projects)]
    homes = ((chance.random(), chance.random()) for _ in range(voters))
    return [[at for at, (x, y) in enumerate(points) if (x - mine) ** 2 + (y - other) ** 2 < 0.04]
            for mine, other in homes]


def clustered(chance, voters, projects):
    cluster = [chance.randrange(5) for _ in range(projects)]
    homes = (chance.randrange(5) for _ in range(voters))
    return [[at for at in range(projects) if chance.random() < (0.4 if cluster[at] == home else 0.04)] for home in homes]


def at_random(chance, voters, projects):
    popular = [chance.random() ** 3 * 0.4 + 0.02 for _ in range(projects)]
    return [[at for at in range(projects) if chance.random() < popular[at]] for _ in range(voters)]


def camps(chance, voters, projects):
    """Three camps of unequal size, each with projects of its own that many of it approve, and others seldom."""
    sizes = {"voters": [60, 25, 15], "projects": [50, 30, 20]}
    mine = chance.choices(range(3), sizes["projects"], k=projects)
    liked = [chance.uniform(0.5, 1.5) for _ in range(projects)]
    homes = chance.choices(range(3), sizes["voters"], k=voters)
    return [[at for at in range(projects) if chance.random() < (0.1 if mine[at] == home else 0.06) * liked[at]]
            for home in homes]


KINDS = {"Euclidean": euclidean, "clustered": clustered, "random": at_random}


def greedy(costs, limit, ballots, worth, begin=()):
    """The projects of the most worth first, as long as they fit."""
    supporters = [0] * len(costs)
    for ballot in ballots:
        for project in ballot:
            supporters[project] += 1
    funded = set(begin)
    left = limit - sum(costs[project] for project in funded)
    for project in sorted(range(len(costs)), key=lambda at: (-worth(supporters[at], costs[at]), at)):
        if project not in funded and supporters[project] and costs[project] <= left:
            funded.add(project)
            left -= costs[project]
    return funded


def bought(costs, limit, ballots):
    """The projects of Equal Shares."""
    projects = [Project(f"p{at}", cost) for at, cost in enumerate(costs)]
    names = [[projects[at].name for at in ballot] for ballot in ballots]
    return {int(name[1:]) for name in pbaudit.equal_shares(Instance(projects, limit), names).funded}


def shared(costs, limit, ballots):
    """Equal Shares, and then greedy by votes."""
    return greedy(costs, limit, ballots, lambda votes, cost: votes, bought(costs, limit, ballots))


RULES = {"greedy by votes": lambda *town: greedy(*town, lambda votes, cost: votes),
         "greedy by votes per cost": lambda *town: greedy(*town, lambda votes, cost: votes / cost),
         "Equal Shares, then greedy": shared}


def elections(voters, count, different):
    """Elections of a size, each with its name."""
    for number, (kind, made) in enumerate(KINDS.items()):
        chance = random.Random(number)
        ballots = made(chance, different, count)
        ballots += chance.choices(ballots, k=voters - different)
        costs = [max(1, int(chance.lognormvariate(0, 0.8) * voters)) for _ in range(count)]
        limit = sum(costs) // 3
        projects = [Project(f"p{at}", cost) for at, cost in enumerate(costs)]
        names = [[projects[at].name for at in ballot] for ballot in ballots]
        merged = len(set(map(tuple, ballots)))
        for rule, choose in RULES.items():
            funded = choose(costs, limit, ballots)
            data = pbaudit.write_election(Instance(projects, limit), names, [projects[at].name for at in funded])
            yield f"{kind}, {voters} x {count}, {merged} different ballots, {rule}", data


def of_different_ballots(voters, count):
    """Elections of voters whose ballots all differ, with outcomes of greedy and of Equal Shares."""
    for number, (kind, made) in enumerate({**KINDS, "in camps": camps}.items()):
        chance = random.Random(number)
        ballots = list(all_different(chance, made(chance, voters, count), count))
        costs = [max(1, int(chance.lognormvariate(0, 0.8) * voters)) for _ in range(count)]
        limit = sum(costs) // 3
        projects = [Project(f"p{at}", cost) for at, cost in enumerate(costs)]
        names = [[projects[at].name for at in ballot] for ballot in ballots]
        for rule, funded in (("greedy by votes", greedy(costs, limit, ballots, lambda votes, cost: votes)),
                             ("Equal Shares", bought(costs, limit, ballots))):
            data = pbaudit.write_election(Instance(projects, limit), names, [projects[at].name for at in funded])
            yield f"{kind}, {voters} x {count}, all ballots different, {rule}", data


def all_different(chance, ballots, count):
    """The ballots, of which those that were there before have some projects more or less."""
    known = set()
    for ballot in map(set, ballots):
        while frozenset(ballot) in known:
            ballot ^= {chance.randrange(count)}
        known.add(frozenset(ballot))
        yield sorted(ballot)


def search(path, switches, processors=1):
    """A search in a process of its own: what it found, its time, and its memory in MB."""
    words = [sys.executable, __file__, "--one", path, json.dumps(switches), str(processors)]
    done = subprocess.run(words, stdout=subprocess.PIPE, text=True, check=False)
    return done.stdout.strip() or f"ended with {done.returncode}"


def one(path, switches, processors):
    os.sched_setaffinity(0, sorted(os.sched_getaffinity(0))[-processors:])
    began = time.monotonic()
    found = pbaudit.find(path, seconds=SECONDS, **switches)
    clock = time.monotonic() - began
    told = [] if found.prices is None else ["with Cover" if found.prices.cover else "without Cover"]
    if found.refutation:
        weights = len(found.refutation.file.splitlines()) - 3
        told.append(f"refuted by {weights} weights")
    told += [f"by {violation.by}, {len(violation.projects)} demanded" for violation in found.violations]
    mine, solver = (resource.getrusage(whose) for whose in (resource.RUSAGE_SELF, resource.RUSAGE_CHILDREN))
    seconds = sum(used.ru_utime + used.ru_stime for used in (mine, solver))
    memory = f"{mine.ru_maxrss / 1000:.0f} MB" + (f", the solver {solver.ru_maxrss / 1000:.0f} MB" if solver.ru_maxrss
                                                  else "")
    print(f"{seconds:7.1f} s ({clock:.1f} by the clock)  {memory:30}{'; '.join(told) or found.sentences[-1][:75]}")


def measure(name, path, searches, processors=1):
    print(name, flush=True)
    for what, switches in searches:
        print(f"  {what:14}{search(path, switches, processors)}", flush=True)


def measure_all(made, searches, processors=1):
    """Measures searches of elections that are made up."""
    for name, data in made:
        path = f"/tmp/pbaudit-finding-{os.getpid()}.pb"
        with open(path, "wb") as file:
            file.write(data)
        try:
            measure(name, path, searches, processors)
        finally:
            os.unlink(path)


def given():
    """What the words ask for. Ends with a line on what is missing where nothing can be measured."""
    words = argparse.ArgumentParser(description=__doc__, formatter_class=argparse.RawDescriptionHelpFormatter)
    words.add_argument("elections", metavar="FILE", nargs="*")
    words.add_argument("--different", action="store_true")
    asked = words.parse_args()
    for path in asked.elections:
        if not os.path.isfile(path):
            words.error(f"there is no file {path}")
    if importlib.util.find_spec("scipy") is None:
        words.error("scipy is not installed")
    if asked.different and asked.elections:
        words.error("--different is for elections that are made up")
    return asked


def main(asked):
    for path in asked.elections:
        measure(path, path, SEARCHES)
    for voters in DIFFERENT if asked.different else ():
        measure_all(of_different_ballots(voters, 100), EITHER, 2)
    for size in [] if asked.elections or asked.different else SIZES:
        searches = [each for each in SEARCHES if each[0] != "stable" or size[0] <= MOST_STABLE]
        measure_all(elections(*size), searches)


if __name__ == "__main__":
    if sys.argv[1:2] == ["--one"]:
        one(sys.argv[2], json.loads(sys.argv[3]), int(sys.argv[4]))
    else:
        main(given())
