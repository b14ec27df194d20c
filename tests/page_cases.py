"""Cases for pages about certificates, and about groups that fall short: elections with names and facts that others wrote, and
figures of all sizes."""
import pathlib
import random

import made_files
import tables
from cases import (
    Case, a_groups_check, a_price_check, a_refutation_check, a_violation_check, groups, random_case, refutations, some_mode,
    some_outcome,
)  # fmt: skip

EXAMPLES = pathlib.Path(__file__).resolve().parent.parent / "examples"
EXAMPLE_WORDS = [
    ["--stable", "district.prices.csv"], ["district.violation.csv"],
    ["--stable", "--cover", "--outcome", "district.stable.outcome.csv", "district.stable.prices.csv"],
]  # fmt: skip
# What may stand in META and in the column 'name': markup, quotes, marks that turn what follows, and long words.
WORDS = [
    "Park", "Sprachcafé für Neuzugezogene", "Plac zabaw „Pod Lipą”", "Radbügel; 24 Stück", "a", "<b>bold</b>", "&lt;",
    "\"><script>document.title='x'</script>", "{project}", "{", "%s", "\u202eevil", "a\u200bb", "tab\tinside", "\u00a0",
    "z" * 80, "z" * 81, "ź" * 2000, "ź" * 2001, "e\u0301", "🌳", "', '", "-", "0", "</bdi></th>", "Yes", "\\u{202e}",
    "line\nbreak", "''", "« guillemets »", "x" * 79 + "\u202e", "\u3000", "a\u2800b", "\ufe0f", "s\u00adoft", "\u115f",
    "\U000e0041", "क\u094d\u200dष", "می\u200cخواهم", "👩\u200d👧", "a\u200db", "a\u200cb", "ا\u200cب", "❤\ufe0f\u200d🔥",
    "\u200d", "क\u094d\u200d", "👩🏽\u200d🌾",
]  # fmt: skip
FACTS = {
    "description": WORDS, "unit": ["Warszawa", *WORDS], "district": ["Mitte", *WORDS],
    "country": ["Poland", "Polska", "Germany", "Austria", "Österreich", "France", "UK", "Brazil", "Italy", "Nowhere"],
    "language": ["pl", "de", "fr", "en", "nl", "xx", "PL"], "rule": ["greedy", "equalshares", *WORDS],
    "currency": ["PLN", "EUR", "zł", "$", "<b>", "z" * 12, "z" * 13, "\u202ex"], "turnout": ["4711", "12 %"],
    "date_begin": ["2026", "02.03.2026", "z" * 81], "date_end": ["2026", "22.03.2026"], "num_votes": ["999"],
}  # fmt: skip
# What may stand where an id of 2,000 letters is cut: how a joiner is shown depends on what stands on both its sides.
AT_THE_CUT = ["\u202e", "a\u200db", "\U0001f469\u200d\U0001f467", "क\u094d\u200dष"]
COLUMNS = [b"project_id", b"cost", b"selected", b"name"]
# Names of files: some need quotes in a command, and some can't stand in one.
TOWNS = [
    "town.pb", "a town.pb", "it's.pb", "-town.pb", "ü.pb", "$(touch x).pb", "x;y.pb", "a" * 90 + ".pb", "--.pb",
    "q\".pb", "👩\u200d👧.pb",
]  # fmt: skip
CLAIMS = [
    "claim.csv", "; touch PWNED #.csv", "'.csv", "-c.csv", "a_B-9.csv", "b" * 81 + ".csv", "`id`.csv", "z" * 255,
    "back\\slash.csv", "a\u202eb.csv", "no\u00a0break.csv", "a\nb.csv", "folder/town.pb", "folder/c.csv", "two  blanks",
]  # fmt: skip
OUTCOMES = ["outcome.csv", "out come.csv", "&.csv", "folder/claim.csv", "\u200b.csv"]
# Ids that a line of the program shows cut, or by numbers.
ODD_IDS = [
    b"z" * 81, b"z" * 107, b"z" * 108, b"z" * 300, b"a\xe2\x80\xa8b", b"\xe2\x80\xaex", b"\xc3\xbc", b"a\\b", b"<i>",
]  # fmt: skip


def dressed(chance, election, plain):
    """An election as a file with facts, and with names of its projects."""
    columns = list(COLUMNS)
    if chance.random() < 0.3:
        columns.insert(chance.randrange(5), chance.choice([b"name", b"Name", b"category"]))
    records = [[b"META"], [b"key", b"value"], *facts(chance, election, plain), [b"PROJECTS"], columns]
    for place in range(len(election.ids)):
        row = [cell_of(chance, election, place, column, plain) for column in columns]
        records.append(made_files.shortened(chance, row, plain))
    records += [[b"VOTES"], [b"voter_id", b"vote"]]
    for voter, ballot in enumerate(election.ballots):
        named = [election.ids[place] for place in sorted(ballot)]
        records.append([b"%d" % (7000 - voter), made_files.vote(chance, named, plain)])
    return made_files.join(chance, records, b";", plain)


def facts(chance, election, plain):
    """The rows of META, a few of them twice, where the first counts."""
    told = [[key, chance.choice(FACTS[key])] for key in FACTS if chance.random() < 0.4]
    if told and chance.random() < 0.2:
        key, _ = chance.choice(told)
        told += [[key.upper(), chance.choice(FACTS[key])]] if key != "num_votes" else []
    limit = min(made_files.MOST_COST, election.limit)
    rows = [[b"budget", made_files.amount(chance, limit, plain)], [b"vote_type", b"approval"]]
    rows += [[made_files.any_case(chance, key.encode(), plain), value.encode()] for key, value in told]
    chance.shuffle(rows)
    return rows


def cell_of(chance, election, place, column, plain):
    """What stands in a column for a project."""
    if column == b"project_id":
        return election.ids[place]
    if column == b"cost":
        return made_files.amount(chance, election.costs[place], plain)
    if column == b"selected":
        return made_files.mark(chance, place in election.funded, plain)
    return chance.choice(WORDS).encode() if chance.random() < 0.8 else b""


def coarser(chance, election):
    """Rounds what isn't funded, and the limit, up to whole units, tenths, hundredths or thousandths."""
    unit = chance.choice([10**6, 10**6, 10**5, 10**4, 10**3])
    for place in set(range(len(election.ids))) - election.funded:
        election.costs[place] = -(-election.costs[place] // unit) * unit
    election.limit = -(-election.limit // unit) * unit


def muddle(chance, election, claim):
    """Changes many things, so that conditions fail at several places, and by much."""
    if chance.random() < 0.4:
        claim.budget //= chance.choice([2, 3, 10, 10**6])
    for _ in range(chance.choice([0, 2, 5, 9])):
        made_files.nudge(chance, election, claim)
    for place in range(len(election.ids)):
        if chance.random() < 0.1:
            election.costs[place] = chance.choice([0, 0, 1, made_files.MILLION, 10**9 * made_files.MILLION])
    if chance.random() < 0.3:
        election.funded ^= {place for place in range(len(election.ids)) if chance.random() < 0.3}
    if chance.random() < 0.3:
        for place in range(len(election.ids)):
            odd = chance.choice(ODD_IDS)
            election.ids[place] = election.ids[place] if odd in election.ids else odd
    if chance.random() < 0.6:
        coarser(chance, election)


def muddled(chance):
    mode = some_mode(chance)
    election, claim = made_files.supported(chance, chance.random() < 0.5)
    muddle(chance, election, claim)
    plain = chance.random() < 0.6
    words, files = some_outcome(chance, election, plain)
    return of_prices(chance, election, claim, plain, mode + words, files)


def close(chance):
    """Prices with nothing changed, or with one project cheaper by little, so that all holds but at most C5 or S5."""
    mode = some_mode(chance)
    election, claim = made_files.supported(chance, "--stable" in mode and chance.random() < 0.3)
    if chance.random() < 0.6:
        made_files.cheaper(chance, election, claim, 1)
    if chance.random() < 0.3:
        raised(chance, election, len(election.ballots) * claim.budget * made_files.MILLION // claim.denominator)
    return of_prices(chance, election, claim, chance.random() < 0.6, mode)


def raised(chance, election, budgets):
    """Raises the limit to what all voter budgets come to, or somewhat more, and with it all costs of what isn't
    funded."""
    by = max(0, budgets + chance.choice([0, 1, made_files.MILLION]) - election.limit)
    if by + max(election.costs, default=0) + election.limit < made_files.MOST_COST:
        election.limit += by
        for place in set(range(len(election.ids))) - election.funded:
            election.costs[place] += by


def of_prices(chance, election, claim, plain, options=(), files=()):
    made = {"town.pb": dressed(chance, election, plain), "claim.csv": made_files.prices_file(chance, election, claim, plain)}
    return Case(["prices", "town.pb", "claim.csv", *options], {**made, **dict(files)})


def without_projects(chance):
    """An election without projects, and prices or a group. There may be no voters either."""
    voters, limit = chance.randint(0, 2), chance.choice([0, 10 * made_files.MILLION])
    election = made_files.Election([], [], limit, set(), [set() for _ in range(voters)])
    if chance.random() < 0.5:
        claim = made_files.Claim(3, chance.choice([0, 10, 100]), {})
        return of_prices(chance, election, claim, True, some_mode(chance))
    claim = made_files.violation_file(chance, election, set(range(voters)), set(), True)
    return Case(["violation", "town.pb", "claim.csv"], {"town.pb": dressed(chance, election, True), "claim.csv": claim})


def dressed_prices(chance):
    return a_price_check(chance, dressed)


def dressed_violation(chance):
    return a_violation_check(chance, dressed)


def dressed_refutation(chance):
    return a_refutation_check(chance, dressed)


def dressed_groups(chance):
    return a_groups_check(chance, dressed)


def muddled_groups(chance):
    """Groups in an election with costs of all sizes, of which more or less is funded."""
    election, claim = made_files.supported(chance, False)
    muddle(chance, election, claim)
    if chance.random() < 0.4:
        election.funded = {place for place in election.funded if chance.random() < 0.5}
    plain = chance.random() < 0.6
    words, files = some_outcome(chance, election, plain)
    measure = chance.choice([[], ["--satisfaction", "cost"], ["--satisfaction", "count"]])
    return Case(["groups", "town.pb", *measure, *words], {"town.pb": dressed(chance, election, plain), **files})


# How often each kind is made, and how often a file of it is damaged.
KINDS = {
    dressed_prices: 6, close: 6, muddled: 8, dressed_violation: 8, dressed_refutation: 6, a_price_check: 2,
    a_violation_check: 2, without_projects: 2, dressed_groups: 8, muddled_groups: 5,
}  # fmt: skip
DAMAGED = 0.1


def page_case(seed, number):
    """A case of `page`, from a seed of its own; the files have names of all kinds."""
    chance = random.Random(f"page {seed}/{number}")
    return renamed(chance, random_case(chance, KINDS, DAMAGED), f"{seed}/{number}")


def renamed(chance, case, name):
    """The case as one of `page`, its files under other names. The options of prices are ignored for other certificates."""
    named = {
        "town.pb": chance.choice(TOWNS), "claim.csv": chance.choice(CLAIMS), "outcome.csv": chance.choice(OUTCOMES),
    }  # fmt: skip
    if case.words[0] == "groups":
        # The second file, where there is one, is an outcome.
        named["claim.csv"] = named["outcome.csv"]
        options, certificates = ["--groups", *case.words[2:]], []
    else:
        options = case.words[3:] + (some_mode(chance) if case.words[0] in ("violation", "refutation") else [])
        certificates = [named["claim.csv"]]
    # What stands behind "--" is no option, as "-town.pb".
    words = ["page", *(named.get(word, word) for word in dict.fromkeys(options)), "--", named["town.pb"], *certificates]
    return Case(words, {named[file]: data for file, data in case.files.items()}, name=name)


def of_rows(count, funded):
    """A case of so many projects, all funded or none, of which a table shows the first thousand."""
    ids = [b"%d" % number for number in range(count)]
    costs = [(number * 7919 % 1009) * made_files.MILLION for number in range(count)]
    election = made_files.Election(ids, costs, sum(costs), set(range(count)) if funded else set(), [set(range(count)), {0, 1}])
    return of_prices(random.Random(count), election, made_files.Claim(3, 100, {(0, 5): 7}), True)


def of_demand(count):
    """A case of a group that demands so many projects."""
    case = of_rows(count, False)
    election = made_files.Election([b"%d" % number for number in range(count)], [], 0, set(), [])
    case.files["claim.csv"] = made_files.violation_file(random.Random(count), election, {0}, set(range(count)), True)
    return Case(["violation", "town.pb", "claim.csv"], case.files)


def of_groups(count):
    """A case of so many projects of which a part is wanted, by groups of all sizes, some of which fall short."""
    chance = random.Random(f"groups {count}")
    ids = [b"%d" % number for number in range(count)]
    costs = [(number * 7919 % 1009) * made_files.MILLION for number in range(count)]
    ballots = [{place for place in range(count) if chance.random() < 0.4} for _ in range(7)]
    election = made_files.Election(ids, costs, 2000 * made_files.MILLION, {0, 1}, ballots)
    return Case(["groups", "town.pb"], {"town.pb": dressed(chance, election, True)})


def of_unwanted(count):
    """A case of so many projects that nobody wants, and one that is wanted."""
    ids = [b"%d" % number for number in range(count + 1)]
    election = made_files.Election(ids, [made_files.MILLION] * (count + 1), 0, set(), [{0}])
    return Case(["groups", "town.pb", "--satisfaction", "count"], {"town.pb": dressed(random.Random(count), election, True)})


def of_offers(count):
    """A case of so many projects for which the supporters could offer more than they cost, and have nothing left."""
    ids = [b"%d" % number for number in range(count + 1)]
    costs = [10 * made_files.MILLION] + [5 * made_files.MILLION] * count
    election = made_files.Election(ids, costs, costs[0], {0}, [set(range(count + 1))])
    return of_prices(random.Random(count), election, made_files.Claim(1, 10, {(0, 0): 10}), True)


def of_strangers(count):
    """A case of so many voters who each pay too much for a funded project that they don't approve."""
    funded = set(range(count))
    ids, costs = [b"%d" % number for number in range(count + 1)], [7 * made_files.MILLION] * (count + 1)
    election = made_files.Election(ids, costs, sum(costs) - 1, funded, [{count} for _ in range(count)])
    claim = made_files.Claim(3, 25, {(number, number): 20 + 7 * number for number in range(count)})
    return of_prices(random.Random(count), election, claim, True)


def of_members(count):
    """A case of a group of so many who all get enough, and don't approve what the group demands."""
    election = made_files.Election([b"a", b"b"], [made_files.MILLION] * 2, made_files.MILLION, {0}, [{0}] * count)
    claim = made_files.violation_file(random.Random(count), election, set(range(count)), {1}, True)
    files = {"town.pb": dressed(random.Random(count), election, True), "claim.csv": claim}
    return Case(["violation", "town.pb", "claim.csv"], files)


# Large cases, and those of which the page is compared in one language alone.
LARGE = {
    "1001 unfunded": lambda: of_rows(1001, False), "1005 demanded": lambda: of_demand(1005),
    "1003 funded": lambda: of_rows(1003, True), "1000 unfunded": lambda: of_rows(1000, False),
    "1050 projects with groups": lambda: of_groups(1050),
}  # fmt: skip
HEAD = b"META\nkey;value\nbudget;%d\nvote_type;approval\nPROJECTS\nproject_id;cost;selected\n"
PRICES = b"pb-prices,1\ndenominator,1\nvoter_budget,4\nvoter,project,payment\n"
# The budgets of all voters are just the limit, and two supporters, or one, come nearest to their share.
REACHED = {
    "budgets of the limit, two": (
        HEAD % 12 + b"park;2;1\npool;6;0\nlibrary;4;1\nVOTES\nvoter_id;vote\n1;park,pool\n2;park,pool\n3;library\n",
        PRICES + b"1,park,2\n3,library,4\n"),
    "budgets of the limit, one": (
        HEAD % 8 + b"a;4;1\nb;9;0\nVOTES\nvoter_id;vote\n1;a\n2;b\n", PRICES + b"1,a,4\n"),
}  # fmt: skip
IN_ONE_LANGUAGE = {"1003 funded": "pl", "1000 unfunded": "en", "1050 projects with groups": "de"}


# Of groups, what is refused, and in which order: the election, and then the outcome.
WITHOUT_FILES = {
    "groups without an election": (["missing.pb"], {}),
    "groups without an outcome file": (["--outcome", "missing.csv", "town.pb"], {}),
    "groups without either": (["--outcome", "missing.csv", "missing.pb"], {}),
    "groups with an empty outcome file": (["--outcome", "o.csv", "town.pb"], {"o.csv": b""}),
    "groups of an empty election": (["e.pb"], {"e.pb": b""}),
    "groups of an election without an outcome": (["n.pb"], {"n.pb": HEAD.replace(b";selected", b"") % 10 + b"VOTES\nvote\n"}),
}


def of_id(named, name):
    """A page about a project of this id, for which nothing is paid."""
    town = HEAD % 10 + named + b";6;1\nVOTES\nvoter_id;vote\n1;" + named + b"\n"
    return Case(["page", "town.pb", "claim.csv"], {"town.pb": town, "claim.csv": PRICES}, name=name)


def fixed_cases():
    """What chance doesn't meet: tables that are cut, numbers of projects of which Polish speaks in its own way, the
    examples, and files that aren't there or say nothing."""
    for count in (1, 2, 5):
        for made in (of_offers, of_strangers, of_members, of_unwanted):
            yield renamed(random.Random(count), made(count), f"{made.__name__} {count}")
    for *options, certificate in EXAMPLE_WORDS:
        words = [*options, "district.pb", certificate]
        files = {word: (EXAMPLES / word).read_bytes() for word in words if not word.startswith("-")}
        yield Case(["page", *words], files, name=f"example {certificate}")
    town = a_price_check(random.Random(5), dressed).files["town.pb"]
    for name, files in (("none", {"claim.csv": b""}), ("a byte", {"claim.csv": b"x"}), ("no claim", {})):
        yield Case(["page", "town.pb", "claim.csv"], {"town.pb": town, **files}, name=name)
    yield Case(["page", "town.pb", "claim.csv"], {}, name="nothing")
    files = {"town.pb": town, "claim.csv": b""}
    yield Case(["page", "--outcome", "o.csv", "town.pb", "claim.csv"], files, name="no outcome")
    for name, (town, claim) in REACHED.items():
        yield Case(["page", "--no-exhaustive", "town.pb", "claim.csv"], {"town.pb": town, "claim.csv": claim}, name=name)
    for count in (102, 200_000):
        yield of_id(b"i" * count, f"an id of {count} letters")
    for number, letters in enumerate(AT_THE_CUT):
        for count in (1991, 1992, 1993, 1997, 1998, 1999, 2000, 2001):
            for behind in (0, 9):
                named = b"i" * count + letters.encode() + b"i" * behind
                yield of_id(named, f"hidden letters {number} in an id behind {count}, and {behind} more")
    files = {"town.pb": (EXAMPLES / "sample.pb").read_bytes().replace(b"Pool", b"n" * 500)}
    files["claim.csv"] = (EXAMPLES / "sample.prices.csv").read_bytes()
    yield Case(["page", "town.pb", "claim.csv"], files, name="a name of 500 letters")
    for number, (row, words, files) in enumerate(tables.asked("pages.txt")):
        # A case is asked in each language.
        if "--language" not in words:
            yield Case(words, files, name=f"table {number} {row.group}")
    for number, case in enumerate(refutations()):
        # No page is about two certificates.
        if case.words[0] != "both":
            yield renamed(random.Random(f"refutation {number}"), case, case.name)
    for number, case in enumerate(groups()):
        if case.words[0] == "groups":
            yield renamed(random.Random(f"groups {number}"), case, f"{number} {case.name}")
    for name, (words, files) in WITHOUT_FILES.items():
        yield Case(["page", "--groups", *words], {"town.pb": town, **files}, name=name)
    for name, case in LARGE.items():
        yield renamed(random.Random(name), case(), name)
