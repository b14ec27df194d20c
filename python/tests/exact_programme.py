"""Linear programmes in fractions, by the simplex method with Bland's rule: slow and exact. In them the prices of small
elections are stated voter by voter, as the conditions are worded, and pabutools' relaxations of them."""
from fractions import Fraction

# The constant of a row among the names of its variables, and the variable that makes all rows true.
ONE, EXTRA = "", "extra"
UNBOUNDED = float("inf")


def largest(goal, rows):
    """The largest value of a goal over numbers of at least 0, by rows that are each a sum and the most that it may be. A sum
    is what each variable counts for, by its name. None where there are no such numbers."""
    slack = {f"slack {number}": {ONE: Fraction(most), EXTRA: Fraction(1),
                                 **{name: -Fraction(value) for name, value in row.items() if value}}
             for number, (row, most) in enumerate(rows)}
    if slack:
        worst = min(slack, key=lambda name: slack[name][ONE])
        if slack[worst][ONE] < 0:
            _pivot(slack, {}, worst, EXTRA)
        if _raised(slack, {EXTRA: Fraction(-1)}):
            return None
    if EXTRA in slack:
        others = [name for name, value in slack[EXTRA].items() if name != ONE and value]
        if others:
            _pivot(slack, {}, EXTRA, others[0])
        else:
            del slack[EXTRA]
    for row in slack.values():
        row.pop(EXTRA, None)
    return _raised(slack, {name: Fraction(value) for name, value in goal.items()})


def _raised(basic, goal):
    """The goal where it is largest."""
    goal = _in_terms_of_others(basic, goal)
    while True:
        entering = min((name for name, value in goal.items() if name != ONE and value > 0), default=None)
        if entering is None:
            return goal.get(ONE, Fraction(0))
        bounds = [(row.get(ONE, 0) / -row[entering], name) for name, row in basic.items() if row.get(entering, 0) < 0]
        if not bounds:
            return UNBOUNDED
        _pivot(basic, goal, min(bounds)[1], entering)


def _in_terms_of_others(basic, goal):
    made = {}
    for name, value in goal.items():
        for other, part in basic.get(name, {name: 1}).items():
            made[other] = made.get(other, 0) + value * part
    return made


def _pivot(basic, goal, leaving, entering):
    """Solves the row of a variable for another, and puts that into all rows."""
    row = basic.pop(leaving)
    part = row.pop(entering)
    solved = {leaving: 1 / part, **{name: -value / part for name, value in row.items()}}
    for other in (*basic.values(), goal):
        times = other.pop(entering, 0)
        for name, value in solved.items() if times else ():
            other[name] = other.get(name, 0) + times * value
            if not other[name]:
                del other[name]
    basic[entering] = solved


def conditions(case, stable, by=None):
    """C1 to C4 and C5, or S5, as rows: of the budget, what each voter pays for each project, and what it offers. By "min_mul"
    each unfunded project costs `times` as much, and by "min_add" `more` less `fewer` besides."""
    rows = []
    for voter, ballot in enumerate(case.ballots):
        mine = [_pays(voter, at) for at in ballot if at in case.funded]
        offer = f"offer {voter}"
        rows.append(({"budget": -1, **dict.fromkeys(mine, 1)}, 0))
        rows.append(({"budget": 1, **dict.fromkeys(mine, -1), offer: -1}, 0))
        rows += [({name: 1, offer: -1}, 0) for name in mine if stable]
    for at in case.funded:
        paid = [_pays(voter, at) for voter, ballot in enumerate(case.ballots) if at in ballot]
        rows += [(dict.fromkeys(paid, 1), case.costs[at]), (dict.fromkeys(paid, -1), -case.costs[at])]
    for at in case.unfunded:
        offered = {f"offer {voter}": 1 for voter, ballot in enumerate(case.ballots) if at in ballot}
        given = {"min_mul": {"times": -case.costs[at]}, "min_add": {"more": -1, "fewer": 1}}.get(by, {})
        rows.append(({**offered, **given}, 0 if by == "min_mul" else case.costs[at]))
    return rows


def _pays(voter, project):
    return f"pays {voter} {project}"


def has_prices(case, stable, cover):
    """Whether there are prices."""
    most = largest({"budget": 1}, conditions(case, stable))
    return most is not None and (not cover or len(case.ballots) * most > case.limit)


def smallest(case, by, stable, cover):
    """The smallest `beta` of MinMul, which is at least 0, or of MinAdd, over prices whose budgets together are at least the
    limit where `cover` is asked for; or None."""
    rows = conditions(case, stable, by)
    if cover:
        rows.append(({"budget": -len(case.ballots)}, -case.limit))
    most = largest({"times": -1} if by == "min_mul" else {"more": -1, "fewer": 1}, rows)
    return None if most is None else -most
