"""The cases: files, and the words that the program is called with on them."""
import os
import random
from dataclasses import dataclass, field, replace

import made_files
import tables
from damaged_files import damage


@dataclass
class Case:
    """Words, in which the names of files stand for their paths, and the files by these names.

    'known' is the answer and the status where these follow from how the files were made, since they are too large for
    the reference.
    """

    words: list
    files: dict = field(default_factory=dict)
    stdin: bytes = None
    name: str = ""
    known: tuple = None


def some_mode(chance):
    return [option for option in ("--stable", "--no-exhaustive", "--cover") if chance.random() < 0.4]


def some_outcome(chance, election, plain):
    """The words and the file of an outcome, in three of ten cases."""
    if chance.random() < 0.7:
        return [], {}
    funded = election.funded
    if chance.random() < 0.4:
        funded = {place for place in range(len(election.ids)) if chance.random() < 0.5}
    return ["--outcome", "outcome.csv"], {"outcome.csv": made_files.outcome_file(chance, election, funded, plain)}


def a_read(chance):
    election, _ = made_files.supported(chance, False)
    files = {"town.pb": made_files.election_file(chance, election, chance.random() < 0.3)}
    if chance.random() < 0.15:
        return Case([], {}, files["town.pb"])
    return Case(["read", "town.pb"], files)


def a_price_check(chance, election_file=made_files.election_file):
    """Prices that mostly support the outcome but for one small change, as a case of 'prices'."""
    mode = some_mode(chance)
    election, claim = made_files.supported(chance, "--stable" in mode and chance.random() < 0.6)
    for _ in range(chance.choice([0, 0, 1, 1, 1, 2, 3])):
        made_files.nudge(chance, election, claim)
    if "--cover" in mode and chance.random() < 0.4:
        # All voter budgets together, or one less.
        budgets = len(election.ballots) * claim.budget * made_files.MILLION // claim.denominator
        election.limit = min(made_files.MOST_COST, max(0, budgets - chance.choice([0, 0, 1])))
    plain = chance.random() < 0.4
    words, files = some_outcome(chance, election, plain)
    files["town.pb"] = election_file(chance, election, plain)
    files["claim.csv"] = made_files.prices_file(chance, election, claim, plain)
    return Case(["prices", "town.pb", "claim.csv", *mode, *words], files)


def a_violation_check(chance, election_file=made_files.election_file):
    election, group, demand = made_files.a_violation(chance)
    plain = chance.random() < 0.4
    words, files = some_outcome(chance, election, plain)
    version = b"2" if chance.random() < 0.6 else b"1"
    files["town.pb"] = election_file(chance, election, plain)
    files["claim.csv"] = made_files.violation_file(chance, election, group, demand, plain, (b"pb-violation", version))
    return Case(["violation", "town.pb", "claim.csv", *words], files)


def a_refutation_check(chance, election_file=made_files.election_file):
    mode = ["--stable"] if chance.random() < 0.5 else []
    election, weights = made_files.a_refutation(chance, bool(mode) and chance.random() < 0.8)
    plain = chance.random() < 0.4
    words, files = some_outcome(chance, election, plain)
    files["town.pb"] = election_file(chance, election, plain)
    files["claim.csv"] = made_files.refutation_file(chance, election, weights, plain)
    return Case(["refutation", "town.pb", "claim.csv", *mode, *words], files)


def a_groups_check(chance, election_file=made_files.election_file):
    measure = chance.choice([None, "cost", "count", "count"])
    election = made_files.short_group(chance, measure != "count")
    plain = chance.random() < 0.4
    words, files = some_outcome(chance, election, plain)
    files["town.pb"] = election_file(chance, election, plain)
    return Case(["groups", "town.pb", *(["--satisfaction", measure] if measure else []), *words], files)


def a_tidying(chance):
    election, claim = made_files.supported(chance, False)
    made_files.nudge(chance, election, claim)
    files = {"town.pb": made_files.election_file(chance, election, chance.random() < 0.4)}
    files["claim.csv"] = made_files.prices_file(chance, election, claim, False)
    return Case(["tidy", "town.pb", "claim.csv"], files)


def margins(chance):
    case = a_price_check(chance)
    mode = ("--stable", "--no-exhaustive", "--cover")
    case.words = ["margins", *[word for word in case.words[1:] if word not in mode]]
    return case


def both(chance):
    """Prices and a violation of one election."""
    if chance.random() < 0.5:
        election, group, demand = made_files.a_violation(chance)
        claim = made_files.Claim(1, 2 * election.limit // made_files.MILLION, {})
    else:
        election, claim = made_files.supported(chance, True)
        group = {place for place in range(len(election.ballots)) if chance.random() < 0.5}
        demand = {place for place in range(len(election.ids)) if chance.random() < 0.4}
    plain = chance.random() < 0.7
    words, files = some_outcome(chance, election, plain)
    files["town.pb"] = made_files.election_file(chance, election, plain)
    files["claim.csv"] = made_files.prices_file(chance, election, claim, plain)
    head = (b"pb-violation", b"2" if chance.random() < 0.3 else b"1")
    files["violation.csv"] = made_files.violation_file(chance, election, group, demand, plain, head)
    return Case(["both", "town.pb", "claim.csv", "violation.csv", *some_mode(chance), *words], files)


def explain(chance):
    case = chance.choice([a_price_check, a_violation_check, a_refutation_check])(chance)
    case.words[0] = "explain"
    return case


def folder(chance):
    """A folder of a few elections, with or without certificates, and of files that aren't elections."""
    files = {}
    names = ["one", "Two", "a b", "\u00fcber", "-x", "10", "9", "x.pb", ".pb"]
    for name in chance.sample(names, chance.randint(0, 4)):
        maker = chance.choice([a_price_check, a_violation_check])
        case = maker(chance)
        files[f"room/{name}.pb"] = case.files["town.pb"]
        if maker is a_price_check:
            files[f"room/{name}.prices.csv"] = case.files["claim.csv"]
        if maker is a_violation_check or chance.random() < 0.2:
            files[f"room/{name}.violation.csv"] = case.files["claim.csv"]
        if chance.random() < 0.2:
            chosen = chance.choice(sorted(files))
            files[chosen] = damage(chance, files[chosen])
    for name in ("room/.pb", "room/lone.prices.csv", "room/notes.txt", "room/folder.pb/x", "room/ctrl\x01.pb"):
        if chance.random() < 0.2:
            files[name] = b"META\n"
    files.setdefault("room/readme", b"")
    return Case(["folder", "room", *some_mode(chance)], files)


# How often each kind is made; the damaged ones are made of these.
KINDS = {
    a_read: 12, a_price_check: 38, a_violation_check: 14, a_refutation_check: 24, a_groups_check: 20, a_tidying: 6, both: 10,
    explain: 10, folder: 8, margins: 10,
}  # fmt: skip
DAMAGED = 0.5


def random_case(chance, kinds, damaged):
    case = chance.choices(list(kinds), list(kinds.values()))[0](chance)
    if case.words[:1] != ["folder"] and chance.random() < damaged:
        if case.stdin is not None:
            case.stdin = damage(chance, case.stdin)
        else:
            # Certificates more often than elections, since those behind a refused election aren't read.
            name = chance.choice(sorted(case.files) + [name for name in case.files if name != "town.pb"])
            case.files[name] = damage(chance, case.files[name])
    return case


def numbered(seed, number, kinds=None, damaged=DAMAGED):
    """A case by its number, from a seed of its own."""
    case = random_case(random.Random(f"{seed}/{number}"), kinds or KINDS, damaged)
    case.name = f"{seed}/{number}"
    if case.stdin is not None:
        case.files = {"stdin": case.stdin}
    return case


def without_folders(seed, number, damaged=DAMAGED):
    """A case of what the library answers too, in which standard input is a file of that name."""
    case = numbered(seed, number, {kind: often for kind, often in KINDS.items() if kind not in (folder, a_groups_check)}, damaged)
    return case if case.stdin is None else replace(case, words=["read", "stdin"], stdin=None)


META = b"META\nkey;value\nbudget;10\nvote_type;approval\n"
ELECTION = META + b"PROJECTS\nproject_id;cost;selected\na;6;1\nb;4;1\nVOTES\nvoter_id;vote\n1;a,b\n"
PRICES = b"pb-prices,1\ndenominator,1\nvoter_budget,10\nvoter,project,payment\n1,a,6\n1,b,4\n"
VIOLATION = b"pb-violation,1\nproject,a\nvoter,1\n"
OUTCOME = b"pb-outcome,1\nproject,a\n"
HEAD = b"pb-prices,1\ndenominator,1\nvoter_budget,0\nvoter,project,payment\n"


# What stands at its limit, and one more: the file, what stands there, and what is put in its place.
LIMITS = [
    ("town.pb", b"budget;10", [b"budget;1000000000000", b"budget;1000000000000.000001", b"budget;" + b"0" * 1000 + b"10"]),
    ("town.pb", b"a;6;1", [b"a;1000000000000;1", b"a;1000000000000,000001;1", b"a;6.0000000;1", b"a;6.0000001;1"]),
    ("claim.csv", b"denominator,1", [b"denominator,0", b"denominator,1000000000", b"denominator,1000000001"]),
    ("claim.csv", b"budget,10", [b"budget,%d" % 10**21, b"budget,%d" % (10**21 + 1), b"budget," + b"0" * 1000 + b"10"]),
    ("claim.csv", b"1,a,6", [b"1,a,%d" % 10**21, b"1,a,%d" % (10**21 + 1), b"1,a," + b"0" * 1000 + b"6"]),
    ("claim.csv", b"1,a,6", [b"0,a,6", b"2,a,6", b"4294967297,a,6", b"18446744073709551617,a,6"]),
]


def fixed_cases():
    """What chance doesn't meet: files that aren't there, folders for files, what is at its limit or past it, and folders
    that can't be listed."""
    good = {"town.pb": ELECTION, "claim.csv": PRICES, "outcome.csv": OUTCOME, "folder/file": b""}
    asks = [
        ["read", "{town}"], ["prices", "{town}", "{claim}"], ["prices", "{town}", "{claim}", "--outcome", "{outcome}"],
        ["tidy", "{town}", "{claim}"], ["violation", "{town}", "{claim}", "--outcome", "{outcome}"],
        ["groups", "{town}"], ["groups", "{town}", "--satisfaction", "count", "--outcome", "{outcome}"],
    ]  # fmt: skip
    for ask in asks:
        for bad in ("{town}", "{claim}", "{outcome}"):
            for put in ("missing.csv", "folder", "folder/file/x", "huge"):
                if bad in ask and (put != "huge" or ask in asks[:3]):
                    names = {"town": "town.pb", "claim": "claim.csv", "outcome": "outcome.csv", bad[1:-1]: put}
                    files = dict(good, huge=Sparse(2**28 + 1)) if put == "huge" else good
                    yield Case([word.format(**names) for word in ask], files, name=f"{put} as {bad[1:-1]} of {ask[0]}")
    yield from refutations()
    yield from groups()
    yield from explained_on_groups()
    for name, old, news in LIMITS:
        for new in news:
            files = dict(good, **{name: good[name].replace(old, new)})
            yield Case(["prices", "town.pb", "claim.csv"], files, name=f"{new[:40]} for {old}")
    open_at_vote = ELECTION + b'v2;"a\nv3;a\n'
    yield Case(["read", "town.pb"], {"town.pb": open_at_vote}, name="a quote that nothing closes")
    small = {"town.pb": ELECTION.replace(b"budget;10", b"budget;9"), "claim.csv": PRICES}
    yield Case(["explain", "town.pb", "claim.csv"], small, name="explain where more was funded than the limit")
    for word in ("violation", "explain"):
        files = {"town.pb": ELECTION, "claim.csv": b"pb-violation,1\n"}
        yield Case([word, "town.pb", "claim.csv"], files, name=f"{word} of a group of nobody")
    yield known(["read", "full.pb"], {"full.pb": Sparse(2**28)}, "refused election 2 NoMeta record 1")
    for count in (20_000, 20_001):
        data = many_projects(count) + b"VOTES\nvote\n"
        yield Case(["read", "town.pb"], {"town.pb": data}, name=f"{count} projects")
    yield from large_cases()
    yield Case(["folder", "missing.csv"], {"town.pb": ELECTION}, name="no folder")
    yield Case(["folder", "town.pb"], {"town.pb": ELECTION}, name="a file for a folder")
    files = {"room/town.pb": ELECTION, b"room/\xff.pb": ELECTION}
    yield Case(["folder", "room"], files, name="a name that isn't text")
    files = {"room/town.pb": ELECTION, "room/town.prices.csv": Sparse(2**28 + 1)}
    yield Case(["folder", "room"], files, name="too long in a folder")


def explained_on_groups():
    """Budgets above the limit and just of it, with Exhaustive and without."""
    files = tables.Table("answers.txt").files
    for town, claim in (("hut.pb", "hut.prices.csv"), ("sample.pb", "tight.prices.csv"), ("court.pb", "court.prices.csv")):
        for options in ([], ["--no-exhaustive"]):
            named = {"town.pb": files[town], "claim.csv": files[claim]}
            yield Case(["explain", "town.pb", "claim.csv", *options], named, name=f"explain {town} {options}")


def refutations():
    return of_table("refutations.txt")


def groups():
    return of_table("groups.txt")


def of_table(name):
    """The cases of a table, whose files get the names that they have here."""
    for row, words, files in tables.asked(name):
        names = dict(zip(files, ("town.pb", "claim.csv", "outcome.csv")))
        named = {names[name]: data for name, data in files.items()}
        yield Case([names.get(word, word) for word in words], named, name=f"{row.group}: {row.text.strip()}")


def large_cases():
    """Files that are too large for the reference, and are made where they are written."""
    read, tidy = ["read", "town.pb"], ["tidy", "town.pb", "claim.csv"]
    yield known(read, {"town.pb": voters}, "read 1000000 voters 0 projects no outcome")
    yield known(read, {"town.pb": lambda: voters() + b"v;\n"}, "refused election 15 TooMany record 1000009")
    for vote, fault in ((b"0", "14 UnknownProject"), (b"1", "15 TooMany")):
        files = {"town.pb": lambda vote=vote: ballots() + vote + b"\n"}
        yield known(read, files, f"refused election {fault} record 100209")
    yield known(tidy, {"town.pb": crowd, "claim.csv": payments}, HEAD.decode().strip())
    last = {"town.pb": crowd, "claim.csv": lambda: payments() + b"501,1,0\n"}
    yield known(tidy, last, "refused certificate 28 TooMany record 10000005")


def voters():
    return many_projects(0) + b"VOTES\nvoter_id;vote\n" + b"v;\n" * 1_000_000


def ballots():
    """100,000 ballots of 200 projects; 8 records beside them and the projects."""
    ballot = b",".join(b"%d" % number for number in range(1, 201)) + b"\n"
    return many_projects(200) + b"VOTES\nvote\n" + ballot * 100_000


def crowd():
    return many_projects(20_000) + b"VOTES\nvoter_id;vote\n" + b"v;\n" * 501


def payments():
    """20,000 rows for each of 500 voters."""
    ends = [b",%d,0\n" % project for project in range(1, 20_001)]
    return HEAD + b"".join(b"%d" % voter + (b"%d" % voter).join(ends) for voter in range(1, 501))


def many_projects(count):
    head = b"META\nkey;value\nbudget;1\nvote_type;approval\nPROJECTS\nproject_id;cost\n"
    return head + b"".join(b"%d;0\n" % number for number in range(1, count + 1))


def known(words, files, text):
    """A case whose answer follows from how its files were made."""
    return Case(words, files, name=text, known=(text.encode() + b"\n", 2 if text.startswith("refused") else 0))


@dataclass
class Sparse:
    """A file of so many zero bytes."""

    size: int


def write_files(room, files):
    """Writes the files into a folder."""
    for name, data in files.items():
        path = os.path.join(os.fsencode(room), os.fsencode(name))
        os.makedirs(os.path.dirname(path), exist_ok=True)
        with open(path, "wb") as file:
            if isinstance(data, Sparse):
                file.truncate(data.size)
            else:
                file.write(data() if callable(data) else data)
