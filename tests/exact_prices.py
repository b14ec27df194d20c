"""Whether there are prices, by the conditions as they are written: an exact linear programme with variables for each voter."""
from fractions import Fraction


def kind_of_prices(costs, limit, ballots, funded, stable):
    """Whether there are prices "with Cover", only such "without Cover", or "none": by the greatest budget of a voter."""
    most = greatest_budget(costs, ballots, funded, stable)
    if most is None:
        return "none"
    return "with Cover" if ballots and (most == "any" or most * len(ballots) > limit) else "without Cover"


def greatest_budget(costs, ballots, funded, stable):
    """The greatest budget of a voter by which C1 to C4 hold and C5 or S5; "any" if there is none, and None without prices."""
    payments = [(voter, project) for voter, ballot in enumerate(ballots) for project in ballot if project in funded]
    names = ["budget", *payments, *((("offer", voter) for voter in range(len(ballots))) if stable else ())]
    place = {name: at for at, name in enumerate(names)}
    rows = []

    def row(sense, amount, **terms):
        coefficients = [Fraction(0)] * len(names)
        for name, factor in terms["terms"]:
            coefficients[place[name]] += factor
        rows.append((coefficients, sense, Fraction(amount)))

    def left(voter, factor=1):
        return [("budget", factor), *((each, -factor) for each in payments if each[0] == voter)]

    for voter in range(len(ballots)):
        row(">=", 0, terms=left(voter))
        if stable:
            row(">=", 0, terms=[(("offer", voter), 1), *left(voter, -1)])
            for each in payments:
                if each[0] == voter:
                    row(">=", 0, terms=[(("offer", voter), 1), (each, -1)])
    for project in sorted(funded):
        row("=", costs[project], terms=[(each, 1) for each in payments if each[1] == project])
    for project in set(range(len(costs))) - set(funded):
        supporters = [voter for voter, ballot in enumerate(ballots) if project in ballot]
        offers = [(("offer", voter), 1) for voter in supporters] if stable else [
            term for voter in supporters for term in left(voter)]
        row("<=", costs[project], terms=offers)
    return maximum([Fraction(name == "budget") for name in names], rows)


def maximum(objective, rows):
    """The most that the objective comes to, each variable being at least 0; "any" if that has no end, and None if the rows
    can't hold. By the simplex method in two phases, with Bland's rule."""
    variables, slacks = len(objective), sum(sense != "=" for _, sense, _ in rows)
    table, basis, slack = [], [], variables
    for at, (coefficients, sense, amount) in enumerate(rows):
        line = list(coefficients) + [Fraction(0)] * (slacks + len(rows)) + [amount]
        if sense != "=":
            line[slack] = Fraction(1 if sense == "<=" else -1)
            slack += 1
        if amount < 0:
            line = [-each for each in line]
        line[variables + slacks + at] = Fraction(1)
        basis.append(variables + slacks + at)
        table.append(line)
    artificial = range(variables + slacks, variables + slacks + len(rows))
    first = [Fraction(-(at in artificial)) for at in range(variables + slacks + len(rows))]
    if optimum(table, basis, first, variables + slacks) < 0:
        return None
    for at, line in enumerate(table):
        if basis[at] in artificial:
            column = next((each for each in range(variables + slacks) if line[each]), None)
            if column is not None:
                turn(table, basis, at, column)
    return optimum(table, basis, list(objective) + [Fraction(0)] * (slacks + len(rows)), variables + slacks)


def optimum(table, basis, objective, columns):
    """Goes on to where the objective is greatest, by variables of these columns; and what it is there, or "any"."""
    while True:
        def gain(column):
            return objective[column] - sum(objective[own] * line[column] for own, line in zip(basis, table) if objective[own])
        column = next((each for each in range(columns) if each not in basis and gain(each) > 0), None)
        if column is None:
            return sum(objective[own] * line[-1] for own, line in zip(basis, table))
        steps = [(line[-1] / line[column], basis[at], at) for at, line in enumerate(table) if line[column] > 0]
        if not steps:
            return "any"
        turn(table, basis, min(steps)[2], column)


def turn(table, basis, at, column):
    """Makes a variable one of the basis, in the place of that of a row."""
    part = table[at][column]
    table[at] = [each / part for each in table[at]]
    for other, line in enumerate(table):
        if other != at and line[column]:
            factor = line[column]
            table[other] = [each - factor * own if own else each for each, own in zip(line, table[at])]
    basis[at] = column
