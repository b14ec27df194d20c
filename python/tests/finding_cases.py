"""Invented elections with outcomes of five rules, for the tests of searches; and what is true of them by plain
definitions."""
import itertools
import math
import random
from fractions import Fraction

import pbaudit
from pbaudit import Instance, Project


class Case:
    """An election with an outcome: what projects cost, the limit, ballots and the funded ones as places."""

    def __init__(self, name, costs, limit, ballots, funded):
        self.name, self.costs, self.limit, self.ballots = name, costs, limit, [sorted(ballot) for ballot in ballots]
        self.funded = set(funded)
        self.unfunded = [project for project in range(len(costs)) if project not in self.funded]

    def file(self):
        projects = [Project(f"p{at}", cost) for at, cost in enumerate(self.costs)]
        return pbaudit.write_election(Instance(projects, self.limit),
                                      [[projects[at] for at in ballot] for ballot in self.ballots],
                                      [projects[at] for at in sorted(self.funded)])


def euclidean(chance, voters, projects):
    points, reach = [(chance.random(), chance.random()) for _ in range(projects)], chance.choice([0.15, 0.25, 0.4])
    homes = [(chance.random(), chance.random()) for _ in range(voters)]
    return [[at for at, point in enumerate(points) if math.dist(home, point) < reach] for home in homes]


def clustered(chance, voters, projects):
    clusters = chance.choice([2, 3, 5])
    cluster = [chance.randrange(clusters) for _ in range(projects)]
    homes = [chance.randrange(clusters) for _ in range(voters)]
    return [[at for at in range(projects) if chance.random() < (0.6 if cluster[at] == home else 0.05)]
            for home in homes]


def at_random(chance, voters, projects):
    popular = [chance.random() ** 2 + 0.02 for _ in range(projects)]
    return [[at for at in range(projects) if chance.random() < popular[at]] for _ in range(voters)]


KINDS = (euclidean, clustered, at_random)


def greedy(costs, limit, ballots, worth, begin=()):
    """The projects of the most worth first, as long as they fit."""
    votes = [sum(at in ballot for ballot in map(set, ballots)) for at in range(len(costs))]
    funded = set(begin)
    left = limit - sum(costs[at] for at in funded)
    for at in sorted(range(len(costs)), key=lambda at: (-worth(votes[at], costs[at]), at)):
        if at not in funded and votes[at] and costs[at] <= left:
            funded.add(at)
            left -= costs[at]
    return funded


def shares(by):
    def rule(costs, limit, ballots):
        projects = [Project(f"p{at}", cost) for at, cost in enumerate(costs)]
        found = pbaudit.equal_shares(Instance(projects, limit), [[f"p{at}" for at in each] for each in ballots], by=by)
        return {int(name[1:]) for name in found.funded}
    return rule


RULES = {
    "greedy by votes": lambda *town: greedy(*town, lambda votes, cost: votes),
    "greedy by votes per cost": lambda *town: greedy(*town, lambda votes, cost: votes / cost),
    "Equal Shares by cost": shares("cost"),
    "Equal Shares by count": shares("count"),
    "Equal Shares, then greedy": lambda *town: greedy(*town, lambda votes, cost: votes, shares("cost")(*town)),
}


def cases(seed, sizes=((10, 5), (10, 10), (30, 10), (30, 20), (100, 20), (300, 20))):
    """An invented election with the outcome of each rule."""
    chance = random.Random(f"finding/{seed}")
    made = KINDS[seed % len(KINDS)]
    voters, count = chance.choice(sizes)
    ballots = made(chance, voters, count)
    unit = chance.choice([1, 100, Fraction(1, 100)])
    costs = [max(1, int(chance.lognormvariate(0, 0.8) * 10 * voters)) * unit for _ in range(count)]
    limit = max(sum(costs) * chance.choice([20, 35, 50]) // 100, min(costs))
    for rule, choose in RULES.items():
        yield Case(f"{seed} {made.__name__} {rule}", costs, limit, ballots, choose(costs, limit, ballots))


def odd_cases(seed):
    """Elections with outcomes that no rule has: one by chance, and one in which a group gets the first project alone,
    though its share covers some that it wants, which may be worth more together."""
    chance = random.Random(f"odd/{seed}")
    voters, count = chance.choice([(6, 6), (10, 7), (12, 8)])
    ballots = [chance.sample(range(count), chance.randint(1, count)) for _ in range(voters)]
    costs = [chance.randint(1, 6) for _ in range(count)]
    limit = sum(costs) * chance.randint(30, 90) // 100
    funded, left = [], limit
    for at in chance.sample(range(count), count):
        if costs[at] <= left and chance.random() < 0.7:
            funded.append(at)
            left -= costs[at]
    yield Case(f"odd {seed}", costs, limit, ballots, funded)
    wanted = [chance.randint(2, 5) for _ in range(chance.randint(1, 3))]
    costs, group = [chance.randint(3, 7), chance.randint(3, 7), *wanted], chance.randint(3, 6)
    ballots = [range(len(costs)) if voter < group else [0, 1] + chance.sample(range(2, len(costs)), 1)
               for voter in range(10)]
    ballots = [[at for at in ballot if at != 1] if voter < group else ballot for voter, ballot in enumerate(ballots)]
    yield Case(f"enough {seed}", costs, 20, ballots, [0, 1])


def best_margin(case, stable=False, covered=True):
    """The largest part of its cost that each unfunded project can have to spare in C5 or S5, voter by voter and all at
    once, by a dense linear programme; None where C1 to C4 can't hold."""
    import numpy
    from scipy.optimize import linprog
    share = float(Fraction(case.limit) / len(case.ballots))
    slots = [(voter, at) for voter, ballot in enumerate(case.ballots) for at in ballot if at in case.funded]
    count, voters = len(slots), len(case.ballots)
    # Payments, offers of the voters, the budget, and the margin.
    size = count + voters + 2
    rows, most = [], []

    def row(entries, limit):
        line = numpy.zeros(size)
        for at, value in entries:
            line[at] += value
        rows.append(line)
        most.append(limit)
    for voter in range(voters):
        mine = [at for at, slot in enumerate(slots) if slot[0] == voter]
        row([*((at, 1) for at in mine), (count + voters, -1)], 0)
        row([(count + voters, 1), *((at, -1) for at in mine), (count + voter, -1)], 0)
        for at in mine if stable else ():
            row([(at, 1), (count + voter, -1)], 0)
    for project in case.unfunded:
        cost = float(case.costs[project]) / share
        supporters = [voter for voter, ballot in enumerate(case.ballots) if project in ballot]
        row([*((count + voter, 1) for voter in supporters), (size - 1, cost)], cost)
    equal = numpy.zeros((len(case.funded), size))
    funded = sorted(case.funded)
    for at, (_, project) in enumerate(slots):
        equal[funded.index(project), at] = 1
    bounds = [(0, None)] * (size - 2) + [(1 if covered else 0, None), (None, 1)]
    bought = [float(case.costs[project]) / share for project in funded]
    found = linprog([0] * (size - 1) + [-1], A_ub=rows, b_ub=most, bounds=bounds, method="highs",
                    A_eq=equal if funded else None, b_eq=bought if funded else None)
    return -found.fun if found.status == 0 else None


def gain(signed, left, stable):
    """U(i), or in the stable form X(i), of a voter who approves funded projects of these weights and unfunded ones that weigh
    so much together."""
    if not stable:
        return max([0] + [weight + left for weight in signed])
    # It is no more than U(i), and what is asked of it holds of all numbers from the least on.
    low, high = 0, max([0] + [weight + left for weight in signed])
    while low < high:
        middle = (low + high) // 2
        if sum(max(0, weight + left - middle) for weight in signed) <= min(middle, left):
            high = middle
        else:
            low = middle + 1
    return low


def is_refutation(case, refutation, stable=False):
    """U1 to U3 of what was found, as they are defined."""
    places = {f"p{at}": at for at in range(len(case.costs))}
    roles = {places[name]: role for role in ("least", "most", "left") for name in getattr(refutation, role)}
    if any((role == "left") == (at in case.funded) for at, role in roles.items()):
        return False
    weight = {places[name]: number for role in ("least", "most", "left")
              for name, number in getattr(refutation, role).items()}
    signed = {at: -weight[at] if roles[at] == "most" else weight[at] for at in weight}
    spending = supported = 0
    for ballot in case.ballots:
        left = sum(weight.get(at, 0) for at in ballot if at not in case.funded)
        spending += gain([signed.get(at, 0) for at in ballot if at in case.funded], left, stable)
    for at in case.unfunded:
        supported += weight.get(at, 0) * sum(at in ballot for ballot in case.ballots)
    if spending + len(case.ballots) * refutation.cover > supported:
        return False
    paid = sum(signed.get(at, 0) * Fraction(case.costs[at]) for at in case.funded)
    paid += refutation.cover * Fraction(case.limit)
    owed = sum(weight.get(at, 0) * Fraction(case.costs[at]) for at in case.unfunded)
    return paid > owed or paid == owed and refutation.cover > 0


def smallest_violation(case, by):
    """By trying all demands: how many projects the smallest demand of a violation has, and by how much more the share
    of the group of such a demand covers than it costs, at most; or None."""
    def worth(projects):
        return len(projects) if by == "count" else sum(case.costs[at] for at in projects)
    got = [worth([at for at in ballot if at in case.funded]) for ballot in case.ballots]
    for size in range(1, len(case.costs) + 1):
        margins = []
        for demand in itertools.combinations(range(len(case.costs)), size):
            group = [voter for voter, ballot in enumerate(case.ballots)
                     if set(demand) <= set(ballot) and got[voter] < worth(demand)]
            over = Fraction(len(group) * case.limit) / len(case.ballots) - sum(case.costs[at] for at in demand)
            if group and over >= 0:
                margins.append(over)
        if margins:
            return size, max(margins)
    return None
