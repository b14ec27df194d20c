#!/usr/bin/env python3
"""Answers the question of 'pbaudit prices' as a user would write it today: the csv module, dicts and whole numbers.

    python3 bench/prices.py ELECTION CERTIFICATE

It is there to be measured beside the program (bench.py --peer). It leaves out: the stable form, --no-exhaustive and
outcome files; which fault of a file comes first, and at which record (it stops at the first line that it can't use, and
takes much that the program refuses, such as repeated keys and columns, sections in another order, voters out of order,
and numbers past their limits); byte order marks but the first; that other spaces than those of ASCII are part of an id;
and any proof.
"""
import csv
import sys

MILLION = 10**6
csv.field_size_limit(2**28)


def millionths(text):
    units, _, fraction = text.strip().replace(",", ".").partition(".")
    fraction = fraction.rstrip("0")
    if len(fraction) > 6:
        raise ValueError(f"too fine: {text}")
    return int(units) * MILLION + int(fraction.ljust(6, "0"))


def rows_of(path, separator):
    with open(path, newline="", encoding="utf-8-sig") as file:
        for row in csv.reader(file, delimiter=separator):
            row = [cell.strip() for cell in row]
            while row and not row[-1]:
                row.pop()
            if row:
                yield row


def read_election(path):
    """The limit, the cost of each id, the funded ids, and the ballots."""
    meta, costs, funded, ballots = {}, {}, set(), []
    section, header = None, None
    for row in rows_of(path, ";"):
        name = row[0].lower()
        if name in ("meta", "projects", "votes") and not any(row[1:]):
            section, header = name, None
        elif header is None:
            header = [cell.lower() for cell in row]
            if section == "projects":
                at_id, at_cost, at_selected = (header.index(column) for column in ("project_id", "cost", "selected"))
            elif section == "votes":
                at_vote = header.index("vote")
        elif section == "meta":
            meta[name] = row[1] if len(row) > 1 else ""
        elif section == "projects":
            row += [""] * (len(header) - len(row))
            if row[at_id] in costs:
                raise ValueError(f"two projects {row[at_id]}")
            costs[row[at_id]] = millionths(row[at_cost])
            if row[at_selected] == "1":
                funded.add(row[at_id])
        else:
            vote = row[at_vote] if at_vote < len(row) else ""
            ballot = {piece.strip() for piece in vote.split(",")} - {""}
            if not ballot <= costs.keys():
                raise ValueError(f"voter {len(ballots) + 1} names what is no project")
            ballots.append(ballot)
    if meta["vote_type"].lower() != "approval":
        raise ValueError("other ballots")
    return millionths(meta["budget"]), costs, funded, ballots


def verdict(limit, costs, funded, ballots, rows):
    """The line of the first condition that is false, or of a yes."""
    if next(rows) != ["pb-prices", "1"]:
        raise ValueError("no price certificate")
    denominator, budget = int(next(rows)[1]), int(next(rows)[1])
    next(rows)
    spent, paid, pairs, strangers = [0] * len(ballots), dict.fromkeys(costs, 0), set(), []
    places = {project: place for place, project in enumerate(costs)}
    for voter, project, payment in rows:
        voter, payment = int(voter), int(payment)
        if (voter, project) in pairs or not 1 <= voter <= len(ballots):
            raise ValueError(f"voter {voter}, project {project}")
        pairs.add((voter, project))
        paid[project] += payment
        spent[voter - 1] += payment
        if payment and project not in ballots[voter - 1]:
            strangers.append((voter, places[project], project))
    total = sum(costs[project] for project in funded)
    if total > limit:
        return "failed Feasible"
    unfunded = [project for project in costs if project not in funded]
    for project in unfunded:
        if total + costs[project] <= limit:
            return f"failed Exhaustive project {project}"
    if strangers:
        voter, _, project = min(strangers)
        return f"failed C1 voter {voter} project {project}"
    for voter, sum_spent in enumerate(spent, 1):
        if sum_spent > budget:
            return f"failed C2 voter {voter}"
    for project in costs:
        if project in funded and paid[project] * MILLION != costs[project] * denominator:
            return f"failed C3 project {project}"
    for project in unfunded:
        if paid[project]:
            return f"failed C4 project {project}"
    left = dict.fromkeys(costs, 0)
    for ballot, sum_spent in zip(ballots, spent):
        for project in ballot:
            left[project] += budget - sum_spent
    for project in unfunded:
        if left[project] * MILLION > costs[project] * denominator:
            return f"failed C5 project {project}"
    return "supported priceable"


def main(election, certificate):
    line = verdict(*read_election(election), rows_of(certificate, ","))
    print(line)
    return 0 if line.startswith("supported") else 1


if __name__ == "__main__":
    if sys.argv[1:] == ["--help"]:
        print(__doc__)
    elif len(sys.argv) != 3:
        sys.exit(__doc__)
    else:
        sys.exit(main(*sys.argv[1:]))
