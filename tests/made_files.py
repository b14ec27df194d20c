"""Makes elections, prices, outcomes, violations and refutations, and writes them as files in the many ways that the
formats allow.

What is made is only input: whether prices support an outcome is for the program and the reference to say. Most prices
are made so that all conditions hold, often with nothing to spare, since a rule that is wrong by one unit shows only
there.
"""
import re
from bisect import bisect_left
from dataclasses import dataclass
from math import gcd

MILLION = 10**6
MOST_COST = 10**12 * MILLION
MOST_NUMERATOR = 10**21
MOST_WEIGHT = 10**12
BLANKS = [b" ", b"  ", b"\t", b" \t", b"\x0b", b"\x0c"]
PLAIN_IDS = [b"%d" % number for number in range(1, 60)] + [b"p%d" % number for number in range(1, 60)]
ODD_IDS = [
    b"a b", b'a"1', b'"q', b'q"', b'""', b"\xc3\xbcber", b"Stra\xc3\x9fe", b"\xc2\xa0x", b"x\xc2\xa0", b"e\xcc\x81",
    b"\xc3\xa9", b"A", b"a", b"-", b"--", b"007", b"7", b"07", b"0", b"#1", b"'", b"x;y", b";", b"META", b"votes",
    b"project", b"voter", b"1 2", b"\\", b"\\n", b"\xf0\x9f\x8c\xb3", b"\xe2\x80\xa8", b"\xef\xbb\xbfb", b"z" * 300,
    b"x:y", b"=1+1", b"%s", b"{}", b"a\xe3\x80\x80b", b"\xc2\x85",
]  # fmt: skip
BAD_IDS = [b"", b"a\x01", b"\x1f", b"a\x7fb", b"a\tb", b"a\nb", b"\x00", b"a\rb"]
COMMA_IDS = [b"x,y", b",", b'a,"b"', b'"a","b"']
DENOMINATORS = [1, 1, 1, 2, 3, 4, 5, 7, 8, 10, 100, 100, 1000, 999_999, 10**6, 3 * 10**6, 999_999_937, 10**9]


@dataclass
class Election:
    """An election: amounts in millionths, ballots as sets of places in the list of ids."""

    ids: list
    costs: list
    limit: int
    funded: set
    ballots: list


@dataclass
class Claim:
    """A price certificate: numerators by voter and project, both counted from 0."""

    denominator: int
    budget: int
    payments: dict


@dataclass
class Weights:
    """A refutation: the weight of Cover, and the weights of projects by place, below 0 for `most`."""

    cover: int
    signed: dict


def some_ids(chance, count):
    if chance.random() < 0.6:
        return chance.sample(PLAIN_IDS, count)
    ids = chance.sample(PLAIN_IDS + ODD_IDS * 2, count * 2)
    ids = list(dict.fromkeys(ids))[:count]
    if ids and chance.random() < 0.2:
        ids[chance.randrange(len(ids))] = chance.choice(COMMA_IDS)
    if ids and chance.random() < 0.04:
        ids[chance.randrange(len(ids))] = chance.choice(BAD_IDS + ids)
    return ids


def some_ballots(chance, ids, voters):
    """Ballots of any size. No ballot can name an id that has a comma."""
    can = [place for place, project_id in enumerate(ids) if b"," not in project_id]
    share = chance.choice([0.2, 0.5, 0.8, 1.0])
    return [{place for place in can if chance.random() < share} for _ in range(voters)]


def a_size(chance):
    """Numbers of voters and projects: mostly small, seldom none, seldom more."""
    if chance.random() < 0.06:
        return chance.choice([0, 0, 1]), chance.choice([0, 1, 2])
    if chance.random() < 0.05:
        return chance.choice([(40, 6), (6, 50), (25, 25), (100, 3)])
    return chance.randint(1, 9), chance.randint(1, 7)


def supported(chance, stable):
    """An election and prices that support its outcome, plain or stable, where nothing is changed afterwards."""
    voters, projects = a_size(chance)
    ids = some_ids(chance, projects)
    projects = len(ids)
    ballots = some_ballots(chance, ids, voters)
    denominator = chance.choice(DENOMINATORS)
    # A multiple of this numerator is a whole number of millionths.
    step = denominator // gcd(denominator, MILLION)
    most = chance.choice([3, 10, 1000, 10**9, min(MOST_NUMERATOR, 10**12 * denominator) // 100])
    backed = [place for place in range(projects) if any(place in ballot for ballot in ballots)]
    free = [place for place in range(projects) if place not in backed]
    funded = {place for place in backed if chance.random() < 0.6} | {place for place in free if chance.random() < 0.2}
    payments, costs = {}, [0] * projects
    for place in funded.intersection(backed):
        backers = [voter for voter, ballot in enumerate(ballots) if place in ballot]
        costs[place] = share_cost(chance, payments, place, backers, most, step) * MILLION // denominator
    paid = [[x for (i, _), x in payments.items() if i == voter] for voter in range(voters)]
    spent, largest = [sum(each) for each in paid], [max(each, default=0) for each in paid]
    budget = max(spent, default=0) + (0 if chance.random() < 0.3 else chance.randrange(most + 1))
    for place in set(range(projects)) - funded:
        backers = [voter for voter, ballot in enumerate(ballots) if place in ballot]
        offers = [max(largest[voter] if stable else 0, budget - spent[voter]) for voter in backers]
        wanted = -(-sum(offers) * MILLION // denominator)
        costs[place] = wanted if chance.random() < 0.5 else wanted + chance.randrange(1 + max(wanted, 10))
    total = sum(costs[place] for place in funded)
    room = min((costs[place] for place in range(projects) if place not in funded), default=MILLION)
    limit = total + (max(room - 1, 0) if chance.random() < 0.5 else chance.randrange(max(room, 1)))
    return Election(ids, costs, limit, funded, ballots), Claim(denominator, budget, payments)


def share_cost(chance, payments, place, backers, most, step):
    """Shares one project among its supporters, not evenly, and answers what they pay: a multiple of a step."""
    for voter in backers:
        if chance.random() < 0.8:
            payments[voter, place] = chance.randrange(most + 1)
    paid = sum(payments.get((voter, place), 0) for voter in backers)
    missing = -paid % step
    payer = chance.choice(backers)
    payments[payer, place] = payments.get((payer, place), 0) + missing
    return paid + missing


def nudge(chance, election, claim):
    """Changes one thing by little, so that often one condition fails by one unit."""
    by = chance.choice([-1, 1, -1, 1, 1, -MILLION, MILLION, chance.randrange(1, 1000)])
    if not election.ids or not election.ballots:
        election.limit = max(0, election.limit + by)
        return
    chance.choice([nudge_election, nudge_election, nudge_claim, nudge_claim, cheaper])(chance, election, claim, by)


def nudge_election(chance, election, claim, by):
    """Changes the limit, a cost, a ballot or the outcome."""
    kind, place = chance.choice(["limit", "cost", "ballot", "funded"]), chance.randrange(len(election.ids))
    if kind == "limit":
        election.limit = max(0, election.limit + by)
    elif kind == "cost":
        election.costs[place] = max(0, election.costs[place] + by)
    elif kind == "funded":
        election.funded ^= {place}
    elif b"," not in election.ids[place]:
        chance.choice(election.ballots).symmetric_difference_update({place})


def cheaper(chance, election, claim, by):
    """Makes an unfunded project cheaper by the least amount, and leaves no room for it."""
    if len(election.funded) < len(election.ids):
        place = chance.choice([place for place in range(len(election.ids)) if place not in election.funded])
        election.costs[place] = max(0, election.costs[place] - 1)
        election.limit = sum(election.costs[place] for place in election.funded)


def nudge_claim(chance, election, claim, by):
    """Changes the budget, the denominator or a payment; moves a payment, or lets anybody pay for anything."""
    kind = chance.choice(["budget", "denominator", "payment", "move", "pay", "strangers"])
    if kind == "budget":
        claim.budget = max(0, claim.budget + by)
    elif kind == "denominator":
        claim.denominator = min(10**9, max(1, claim.denominator + by))
    elif kind in ("payment", "move") and claim.payments:
        pair = chance.choice(sorted(claim.payments))
        if kind == "payment":
            claim.payments[pair] = max(0, claim.payments[pair] + by)
        else:
            pay_more(chance, election, claim, claim.payments.pop(pair), chance.choice([pair[1], None]))
    else:
        for _ in range(4 if kind == "strangers" else 1):
            pay_more(chance, election, claim, max(1, by), None)


def pay_more(chance, election, claim, by, place):
    """Lets any voter pay so much more for a project, or for any."""
    pair = chance.randrange(len(election.ballots)), chance.randrange(len(election.ids)) if place is None else place
    claim.payments[pair] = claim.payments.get(pair, 0) + by


def a_violation(chance):
    """An election, and a group and a demand in it that often are a violation, with nothing to spare."""
    voters, projects = chance.randint(1, 9), chance.randint(1, 7)
    ids = some_ids(chance, projects)
    projects = len(ids)
    ballots = some_ballots(chance, ids, voters)
    can = [place for place in range(projects) if b"," not in ids[place]]
    demand = set(chance.sample(can, chance.randint(min(1, len(can)), len(can))))
    group = set(chance.sample(range(voters), chance.randint(1, voters)))
    for voter in group:
        ballots[voter] |= demand
    scale = chance.choice([1, 1, 100, MILLION, 10**9 * MILLION])
    costs = [chance.randrange(20) * scale for _ in range(projects)]
    # The least limit by which the group's share covers its demand.
    limit = -(-voters * sum(costs[place] for place in demand) // len(group))
    funded = {place for place in range(projects) if chance.random() < 0.4}
    if chance.random() < 0.5:
        funded -= set(chance.sample(sorted(demand), min(len(demand), 1)))
    election = Election(ids, costs, limit + chance.choice([0, 0, 0, 1, -1, scale]), funded, ballots)
    election.limit = max(0, election.limit)
    if chance.random() < 0.25:
        kind = chance.choice(["nobody", "stranger", "more", "nothing", "less", "less"])
        if kind == "nobody":
            group = set()
        elif kind == "stranger":
            group |= set(chance.sample(range(voters), chance.randint(1, voters)))
        elif kind == "more":
            demand |= {chance.randrange(projects)}
        elif kind == "less":
            for voter in group:
                ballots[voter] -= set(chance.sample(sorted(demand), min(1, len(demand))))
        else:
            demand = set()
    return election, group, demand


def short_group(chance, by_cost):
    """An election, and a limit by which a group's share is mostly just what it needs for an unfunded project, and
    sometimes a little less."""
    voters, projects = a_size(chance)
    ids = some_ids(chance, projects)
    projects, scale = len(ids), chance.choice([1, 1, 100, MILLION, 10**9 * MILLION])
    funded = {place for place in range(projects) if chance.random() < 0.5}
    # What is funded mostly costs more, so that it matters who got it.
    most = chance.choice([3, 20])
    costs = [chance.randrange(20 if place in funded else most) * scale for place in range(projects)]
    election = Election(ids, costs, 0, funded, some_ballots(chance, ids, voters))
    limits = [[*enough(election, place, by_cost)] for place in range(projects) if place not in election.funded]
    # By these, some supporters fall short and not all.
    parts = [limit for each in limits for at, limit in enumerate(each[:-1]) if limit < min(each[at + 1:])]
    choices = sorted(parts if parts and chance.random() < 0.8 else sum(limits, [])) or [10 * scale]
    limit = choices[min(len(choices) - 1, chance.choice([0, 0, 1, chance.randrange(len(choices))]))]
    election.limit = min(MOST_COST, max(0, limit + chance.choice([0, 0, 0, 0, -1, -1, 1, -scale, scale])))
    return election


def enough(election, place, by_cost):
    """The limits by which the share of so many supporters of a project, who got least, is just what they need for it."""
    gots = sorted(sum(election.costs[each] if by_cost else 1 for each in ballot & election.funded)
                  for ballot in election.ballots if place in ballot)
    for members, got in enumerate(gots, 1):
        need = election.costs[place] + got if by_cost else election.costs[place] * (got + 1)
        yield -(-len(election.ballots) * need // members)


def a_refutation(chance, stable=False):
    """An election, and weights that often refute its outcome, or stable prices for it, with nothing to spare."""
    election, weights = share_that_is_enough(chance) if chance.random() < 0.3 else balanced(chance, stable)
    for _ in range(chance.choice([0, 0, 1, 1, 2])):
        nudge_weights(chance, election, weights)
    return election, weights


def share_that_is_enough(chance):
    """A group that agrees on an unfunded project, and whose share just covers that and what was funded for it: the
    weight of Cover is its size, and the others are the number of voters."""
    voters, projects = chance.randint(1, 9), chance.randint(1, 7)
    ids = [project_id for project_id in some_ids(chance, projects) if b"," not in project_id] or [b"one"]
    projects = len(ids)
    ballots = some_ballots(chance, ids, voters)
    wanted, group = chance.randrange(projects), chance.sample(range(voters), chance.randint(1, voters))
    for voter in group:
        ballots[voter].add(wanted)
    funded = {place for place in range(projects) if place != wanted and chance.random() < 0.5}
    reached = funded & set().union(*(ballots[voter] for voter in group))
    scale = chance.choice([1, 100, MILLION, 10**9 * MILLION])
    costs = [chance.randrange(20) * scale for _ in range(projects)]
    limit = -(-voters * (costs[wanted] + sum(costs[place] for place in reached)) // len(group))
    signed = {wanted: voters, **{place: -voters for place in reached}}
    return Election(ids, costs, limit, funded, ballots), Weights(len(group), signed)


def balanced(chance, stable):
    """Any election, with weights, costs and a limit by which U2 and U3 mostly hold just so."""
    voters, projects = chance.randint(1, 9), chance.randint(1, 7)
    ids = some_ids(chance, projects)
    projects = len(ids)
    funded = {place for place in range(projects) if chance.random() < 0.5}
    most = chance.choice([1, 3, 10, 1000, 10**6, 10**11])
    signed = {place: chance.randint(-most if place in funded else 0, most) for place in range(projects)}
    election = Election(ids, [], 0, funded, some_ballots(chance, ids, voters))
    weights = Weights(0, signed)
    settle_weights(chance, election, weights, stable)
    scale = chance.choice([1, 100, MILLION, 10**9 * MILLION])
    election.costs, election.limit = [chance.randrange(20) * scale for _ in range(projects)], chance.randrange(100) * scale
    settle_costs(chance, election, weights)
    return election, weights


def spare(election, weights, stable):
    """By how much the weights that supporters have together are more than what counts against them, without Cover."""
    total = 0
    for ballot in election.ballots:
        left = sum(weights.signed.get(place, 0) for place in ballot - election.funded)
        total += left - counted([weights.signed.get(place, 0) + left for place in ballot & election.funded], left, stable)
    return total


def counted(worths, left, stable):
    """What counts against what a voter has left: the most that a funded project of its ballot comes to. By stable prices
    it is the least number such that what they come to above that together is no more than the number, and than what is left."""
    most = max([0, *worths])
    if not stable:
        return most
    return bisect_left(range(most), True, key=lambda x: sum(max(0, each - x) for each in worths) <= min(x, left))


def settle_weights(chance, election, weights, stable):
    """Lowers the weights of funded projects until there is something to spare; then has Cover or one of them use it."""
    order = chance.sample(sorted(election.funded), len(election.funded))
    unfunded = sum(weight for place, weight in weights.signed.items() if place not in election.funded)
    for place in order:
        if spare(election, weights, stable) < 0:
            weights.signed[place] = -unfunded
    if chance.random() < 0.5:
        weights.cover = min(MOST_WEIGHT, spare(election, weights, stable) // max(1, len(election.ballots)))
        return
    for place in order[:1]:
        for step in (1 << bit for bit in range(36, -1, -1)):
            weights.signed[place] += step
            if spare(election, weights, stable) < 0:
                weights.signed[place] -= step


def settle_costs(chance, election, weights):
    """Sets the limit or a cost so that the weighted costs of what is funded, and the weighted limit, are just enough."""
    over = sum(weight * election.costs[place] * (1 if place in election.funded else -1)
               for place, weight in weights.signed.items())
    if weights.cover:
        election.limit = min(MOST_COST, max(0, -(over // weights.cover)))
        return
    heavy = [place for place, weight in weights.signed.items() if weight > 0]
    for place in chance.sample(heavy, min(1, len(heavy))):
        weight = weights.signed[place]
        if place in election.funded:
            # The least cost by which the one sum is more than the other.
            cost = (weight * election.costs[place] - over) // weight + 1
        else:
            cost = (over + weight * election.costs[place] - 1) // weight
        election.costs[place] = min(MOST_COST, max(0, cost))


def nudge_weights(chance, election, weights):
    """Changes one thing by the least that it can be changed by."""
    by = chance.choice([-1, 1])
    kind = chance.choice(["weight", "cover", "limit", "cost", "ballot", "funded"])
    if kind == "cover":
        weights.cover = max(0, weights.cover + by)
    elif kind == "limit" or not election.ids:
        election.limit = max(0, election.limit + by)
    elif kind == "weight":
        place = chance.randrange(len(election.ids))
        weights.signed[place] = weights.signed.get(place, 0) + by
    elif kind == "cost":
        place = chance.randrange(len(election.ids))
        election.costs[place] = max(0, election.costs[place] + by)
    else:
        place = chance.randrange(len(election.ids))
        changed = election.funded if kind == "funded" else chance.choice(election.ballots)
        if b"," not in election.ids[place]:
            changed ^= {place}


# From here on: the writing.


def digits(chance, number, plain):
    """A whole number, sometimes with zeros in front."""
    return b"0" * (0 if plain or chance.random() < 0.9 else chance.choice([1, 2, 20, 1000])) + b"%d" % number


def amount(chance, millionths, plain):
    """An amount, with a decimal point or comma, sometimes with zeros that don't matter."""
    fraction = (b"%06d" % (millionths % MILLION)).rstrip(b"0")
    if not plain and chance.random() < 0.2:
        fraction += b"0" * chance.choice([1, 2, 7])
    if not plain and chance.random() < 0.004:
        fraction = fraction.ljust(6, b"0") + b"1"
    text = digits(chance, millionths // MILLION, plain)
    return text + (chance.choice([b".", b","]) + fraction if fraction else b"")


def field(chance, text, separator, plain):
    """A field that reads as the text: quoted where it has to be, and sometimes where it needn't be, or in part."""
    has_to_be = text.startswith(b'"') or any(byte in text for byte in (separator, b"\r", b"\n"))
    if has_to_be or (not plain and chance.random() < 0.1):
        close = len(text) if has_to_be or chance.random() < 0.7 else chance.randrange(len(text) + 1)
        if text[close:].startswith(b'"'):
            close = len(text)
        quoted = b'"' + text[:close].replace(b'"', b'""') + b'"' + text[close:]
        return quoted + (chance.choice(BLANKS) if not plain and chance.random() < 0.2 else b"")
    if not plain and chance.random() < 0.1:
        text = chance.choice([b"", chance.choice(BLANKS)]) + text + chance.choice([b"", chance.choice(BLANKS)])
    return text


def any_case(chance, text, plain):
    if plain or chance.random() < 0.7:
        return text
    return b"".join(chance.choice([letter, letter.upper()]) for letter in re.findall(rb".", text, re.DOTALL))


def join(chance, records, separator, plain):
    """The bytes of records, with line ends, blank records and byte order marks here and there."""
    end = b"\n" if plain else chance.choice([b"\n", b"\n", b"\r\n", b"\r"])
    fill = 0 if plain or chance.random() < 0.8 else chance.randint(2, 9)
    text = b"" if plain else chance.choice([b"", b"", b"", b"\xef\xbb\xbf", b"\xef\xbb\xbf" * chance.randint(2, 4)])
    for record in records:
        if not plain and chance.random() < 0.04:
            blank = [b"", separator, separator * 3, b" ", b'""', b" " + separator + b"\t", b'" "' + separator]
            text += chance.choice(blank) + end
        written = [field(chance, cell, separator, plain) for cell in record]
        text += separator.join(written) + separator * max(0, fill - len(record)) + end
    if not plain and chance.random() < 0.2:
        text = text[: -len(end)] if text.endswith(end) else text
    return text


def election_file(chance, election, plain):
    """The election as a file. The column 'selected' is sometimes left out, or says other things than 0 and 1."""
    columns = [b"project_id", b"cost"] + ([] if chance.random() < 0.1 else [b"selected"])
    vote_columns = [b"voter_id", b"vote"]
    meta = [[b"budget", amount(chance, election.limit, plain)], [b"vote_type", any_case(chance, b"approval", plain)]]
    if not plain:
        columns += [b"name", b"category", b"votes", b"name", b""][: chance.randint(0, 5)]
        vote_columns += [b"age", b"sign", b"weight", b"", b"points", b"voter_id", b"weight"][: chance.randint(0, 7)]
        chance.shuffle(columns)
        chance.shuffle(vote_columns)
        others = [[b"description", b"A; b\nc"], [b"unit"], [b"", b"x"], [b"comment", b'say "so"', b"x"]]
        meta += others[: chance.randint(0, 4)]
    counts = [[b"num_projects", count(chance, len(election.ids))], [b"num_votes", count(chance, len(election.ballots))]]
    meta += counts[: chance.randint(0, 2)]
    chance.shuffle(meta)
    records = [[any_case(chance, b"META", plain)], [b"key", b"value"]]
    records += [[any_case(chance, row[0], plain), *row[1:]] for row in meta]
    records += [[any_case(chance, b"PROJECTS", plain)], [any_case(chance, name, plain) for name in columns]]
    for place, project_id in enumerate(election.ids):
        cells = {b"project_id": project_id, b"cost": amount(chance, election.costs[place], plain)}
        cells[b"selected"] = mark(chance, place in election.funded, plain)
        records.append(shortened(chance, [cells.get(name, b"x%d" % place) for name in columns], plain))
    records += [[any_case(chance, b"VOTES", plain)], [any_case(chance, name, plain) for name in vote_columns]]
    for voter, ballot in enumerate(election.ballots):
        named = [election.ids[place] for place in sorted(ballot)]
        cells = {b"voter_id": b"%d" % (1000 - voter), b"vote": vote(chance, named, plain)}
        records.append(shortened(chance, [cells.get(name, b"") for name in vote_columns], plain))
    if not plain:
        slip(chance, records)
    return join(chance, records, b";", plain)


def count(chance, number):
    """What a file says that it has of something: mostly as many as there are."""
    if chance.random() < 0.1:
        return b"%d" % max(0, number - 1)
    return chance.choice([b"%d", b"%d", b"%d", b"00%d", b"-%d", b"%d.0", b"9%d", b"%d000000000000000000"]) % number


def slip(chance, records):
    """Writes one cell of the records twice, one record twice, or puts one record in another place."""
    if chance.random() < 0.05:
        headers = [record for record in records if b"cost" in record or b"vote" in record]
        record = chance.choice(chance.choice([records, headers or records]))
        kind = chance.choice(["cell", "cell", "twice", "move"])
        if kind == "cell" and record:
            record.insert(chance.randrange(len(record) + 1), chance.choice(record))
        elif kind == "twice":
            records.insert(chance.randrange(len(records) + 1), list(record))
        elif kind == "move":
            records.remove(record)
            records.insert(chance.randrange(len(records) + 1), record)


def mark(chance, funded, plain):
    if not plain and not funded and chance.random() < 0.1:
        return chance.choice([b"2", b"", b"01", b"yes", b"1.0", b"-1", b"1 1"])
    return b"1" if funded else b"0"


def vote(chance, ids, plain):
    """A ballot: the ids in any order, some of them twice, with blanks and empty pieces."""
    if plain:
        return b",".join(ids)
    ids = ids + [project_id for project_id in ids if chance.random() < 0.1]
    chance.shuffle(ids)
    blanks = [b"", b"", b"", b"", b" ", b"\t"]
    pieces = [chance.choice(blanks) + project_id + chance.choice(blanks) for project_id in ids]
    if chance.random() < 0.1:
        pieces.insert(chance.randrange(len(pieces) + 1), chance.choice([b"", b" "]))
    return b",".join(pieces)


def shortened(chance, cells, plain):
    """A row, sometimes without the empty fields at its end, or with fields past the header."""
    cells = list(cells)
    if not plain and chance.random() < 0.3:
        while len(cells) > 1 and cells[-1] == b"":
            cells.pop()
    return cells + ([b"past", b"1"] if not plain and chance.random() < 0.05 else [])


def prices_file(chance, election, claim, plain):
    """A price certificate; payments of 0 stand there sometimes."""
    pairs = dict(claim.payments)
    if not plain and election.ballots and election.ids:
        for _ in range(chance.randint(0, 3)):
            pairs.setdefault((chance.randrange(len(election.ballots)), chance.randrange(len(election.ids))), 0)
    order = sorted(pairs)
    if not plain and chance.random() < 0.6:
        order.sort(key=lambda pair: (pair[0], chance.random()))
    denominator, budget = claim.denominator, claim.budget
    if not plain and chance.random() < 0.05:
        denominator = chance.choice([0, denominator, 10**9, 10**9 + 1])
        budget = chance.choice([0, budget, MOST_NUMERATOR, MOST_NUMERATOR + 1])
    records = [[b"pb-prices", b"1"], [b"denominator", digits(chance, denominator, plain)]]
    records += [[b"voter_budget", digits(chance, budget, plain)], [b"voter", b"project", b"payment"]]
    for voter, place in order:
        if pairs[voter, place] or not plain or chance.random() < 0.5:
            cells = [digits(chance, voter + 1, plain), election.ids[place], digits(chance, pairs[voter, place], plain)]
            records.append(cells + trailing(chance, plain))
    if not plain and len(records) > 4 and chance.random() < 0.08:
        row = chance.choice(records[4:])
        kind = chance.choice(["twice", "twice", "number", "payment"])
        if kind == "twice":
            records.insert(records.index(row), [row[0], row[1], chance.choice([b"0", row[2]])])
        elif kind == "number":
            voters = len(election.ballots)
            row[0] = b"%d" % chance.choice([0, voters, voters + 1, 2**32, 2**32 + 1, 2**64, 2**64 + 1])
        else:
            row[2] = b"%d" % chance.choice([0, MOST_NUMERATOR, MOST_NUMERATOR + 1])
    if not plain:
        slip(chance, records)
    return join(chance, records, b",", plain)


def trailing(chance, plain):
    return [b""] * chance.randint(1, 3) if not plain and chance.random() < 0.05 else []


def outcome_file(chance, election, funded, plain):
    rows = [[b"project", election.ids[place]] + trailing(chance, plain) for place in sorted(funded)]
    if not plain:
        chance.shuffle(rows)
    return join(chance, [[b"pb-outcome", b"1"], *rows], b",", plain)


def violation_file(chance, election, group, demand, plain, head=(b"pb-violation", b"1")):
    """A violation certificate. 'head' is its first record; version 2 has a second one."""
    rows = [[b"project", election.ids[place]] + trailing(chance, plain) for place in sorted(demand)]
    rows += [[b"voter", digits(chance, voter + 1, plain)] for voter in sorted(group)]
    if not plain:
        chance.shuffle(rows)
    second = [[b"satisfaction", chance.choice([b"count", b"cost"])]] if head[1] == b"2" else []
    return join(chance, [list(head), *second, *rows], b",", plain)


def refutation_file(chance, election, weights, plain):
    """A refutation. Weights of 0 stand there sometimes, and seldom a role that no such project may have."""
    cover, rows = weights.cover, []
    if not plain and chance.random() < 0.05:
        cover = chance.choice([0, cover, MOST_WEIGHT, MOST_WEIGHT + 1])
    for place, project_id in enumerate(election.ids):
        weight = weights.signed.get(place, 0)
        if weight or chance.random() < 0.2:
            role = (b"left" if place not in election.funded else b"most" if weight < 0 else b"least")
            if chance.random() < 0.02:
                role = chance.choice([b"least", b"most", b"left"])
            rows.append([role, project_id, digits(chance, abs(weight), plain)] + trailing(chance, plain))
    if not plain:
        chance.shuffle(rows)
        if rows and chance.random() < 0.08:
            row = chance.choice(rows)
            if chance.random() < 0.5:
                rows.insert(chance.randrange(len(rows) + 1), [chance.choice([b"left", row[0]]), row[1], b"0"])
            else:
                row[2] = b"%d" % chance.choice([0, MOST_WEIGHT, MOST_WEIGHT + 1, 2**64])
    head = [[b"pb-refutation", b"1"], [b"cover", digits(chance, cover, plain)], [b"role", b"project", b"weight"]]
    records = head + rows
    if not plain:
        slip(chance, records)
    return join(chance, records, b",", plain)
