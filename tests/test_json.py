"""What commands print with --json: one object in a line, which Python and Node read, that docs/answer.schema.json describes and
that the reference works out from docs/JSON.md; with the status and what is told as without --json. On the rows of the tables,
on the examples, and on 1,000 cases by chance."""
import dataclasses
import itertools
import json
import re
import subprocess
import tempfile

import pytest

import cases
import made_files
import saying
import tables
from common import HERE, TOP, needs
from reference import group_figures, objects
from reference.certificates import quoted
from reference.election import read_election
from reference.objects import WITH_JSON
from test_answers import ON_EXAMPLES

BY_CHANCE = 1000
TABLES = sorted(path.name for path in (HERE / "tables").glob("*.txt") if re.search(r"^\$ ", path.read_text("utf-8"), re.MULTILINE))
SCHEMA = json.loads((TOP / "docs/answer.schema.json").read_text("utf-8"))


# What is asked.


def asked_of(words):
    """The words of a command, by which `explain` is asked in the place of `page`."""
    if words[0] != "page":
        return words
    language = words.index("--language") if "--language" in words else len(words)
    return ["explain", *words[1:language], *words[language + 2:]]


def of_tables():
    """Each row of each table, as a case."""
    for name in TABLES:
        for row, words, files in tables.asked(name):
            if asked_of(words)[0] in WITH_JSON:
                yield cases.Case(asked_of(words), files, name=f"{name} {row.group} {' '.join(words)} {tables.slug(row.printed[0])}"), row


def of_examples():
    for words in (words.split(" ") for words, *_ in ON_EXAMPLES):
        if words[0] in WITH_JSON:
            files = {word: (tables.EXAMPLES / word).read_bytes() for word in words if (tables.EXAMPLES / word).is_file()}
            yield cases.Case(words, files, name=" ".join(words))


def a_read(chance):
    return dataclasses.replace(cases.a_price_check(chance), words=["read", "town.pb"])


def a_small_refutation(chance):
    """Small weights of a small election, which often refute stable prices alone."""
    ids = [b"a", b"b", b"c", b"d"][:chance.randint(2, 4)]
    costs = [chance.randint(0, 5) * made_files.MILLION for _ in ids]
    funded = {place for place in range(len(ids) - 1) if chance.random() < 0.8}
    ballots = [{place for place in range(len(ids)) if chance.random() < 0.8} for _ in range(chance.randint(1, 4))]
    election = made_files.Election(ids, costs, chance.randint(0, 12) * made_files.MILLION, funded, ballots)
    weights = made_files.Weights(chance.choice([0, 0, 1, 2]), {place: chance.randint(0, 3) for place in range(len(ids))})
    files = {"town.pb": made_files.election_file(chance, election, True),
             "claim.csv": made_files.refutation_file(chance, election, weights, True)}
    return cases.Case([chance.choice(["refutation", "explain"]), "town.pb", "claim.csv", "--stable"], files)


def margins_of_groups(chance):
    case = cases.a_groups_check(chance)
    return dataclasses.replace(case, words=["margins", *case.words[1:], "--groups"])


# How often each kind is made.
KINDS = {
    a_read: 8, cases.a_price_check: 24, cases.a_violation_check: 12, cases.a_refutation_check: 20, a_small_refutation: 8,
    cases.both: 8, cases.explain: 10, cases.a_groups_check: 24, cases.margins: 10, margins_of_groups: 10,
}  # fmt: skip


def by_number(seed, number):
    return cases.numbered(seed, number, KINDS)


# What comes.


def parsed(line):
    """The object of a line, read as strictly as its bytes allow."""
    assert line.endswith(b"\n") and line.count(b"\n") == 1 and not line.startswith(b"\xef\xbb\xbf")

    def of_pairs(pairs):
        keys = [key.encode() for key, _ in pairs]
        assert all(one < other for one, other in zip(keys, keys[1:])), f"not in order, or twice: {keys}"
        return dict(pairs)

    def no_number(text):
        raise AssertionError(f"{text} isn't a whole number")

    value = json.loads(line.decode("utf-8"), object_pairs_hook=of_pairs, parse_float=no_number, parse_constant=no_number)
    assert isinstance(value, dict)
    return value


def lines_in(value):
    """The lines that the command prints without --json; of `explain` the first one."""
    if value["kind"] == "both":
        return lines_in(value["prices"]) + lines_in(value["violation"])
    if value["kind"] == "refusal":
        return ["refused {input} {number} {name} record {record}".format(**value)]
    if value["kind"] == "election":
        return [*of_election(value["election"])]
    if value["kind"] in ("margins", "group_margins"):
        return [*(of_margins if value["kind"] == "margins" else of_group_margins)(value)]
    failed = value["failed"]
    if failed and value["kind"] == "groups":
        return [f"failed EJR+ by {value['measure']} voters {value['group']['voters']} project {failed['project']}"]
    if failed:
        words = [f" {key} {failed[key]}" for key in ("voter", "project") if failed[key] is not None]
        return [f"failed {failed['name']}{''.join(words)}"]
    return [{
        "groups": lambda: f"satisfied ejr+ by {value['measure']}",
        "prices": lambda: "supported stable" if value["mode"]["stable"] else "supported priceable",
        "violation": lambda: "violation",
        "refutation": lambda: value["proves"],
    }[value["kind"]]()]  # fmt: skip


def of_election(election):
    end = "no outcome" if election["funded"] is None else f"{election['funded']} funded"
    yield f"read {election['voters']} voters {election['projects']} projects {end}"
    for key, counted in (("num_projects", "projects"), ("num_votes", "voters")):
        declared = election[f"declared_{counted}"]
        if declared not in (None, election[counted]):
            yield f"note: {key} says {declared}, counted {election[counted]}"
    if election["other_selected"]:
        yield f"note: selected is neither 0 nor 1 in {election['other_selected']} projects"
    for column in election["unused_columns"]:
        yield f"note: column {column} of VOTES is not used"


def of_margins(value):
    """The table, whose columns docs/FORMATS.md describes."""
    yield "pb-margins,1"
    yield f"grains_per_unit,{value['grains_per_unit']}"
    yield "project,funded,supporters,cost,paid,left,offer"
    assert [each["number"] for each in value["projects"]] == list(range(1, value["election"]["projects"] + 1))
    for each in value["projects"]:
        figures = [each[key] for key in ("supporters", "cost", "paid", "left", "offer")]
        yield ",".join(map(str, [quoted(each["project"].encode()).decode(), int(each["funded"]), *figures]))


def of_group_margins(value):
    """That of groups, in which a need is over the number of voters, as a share is."""
    voters = max(1, value["election"]["voters"])
    yield "pb-groups,1"
    yield f"satisfaction,{value['measure']}"
    yield f"denominator,{voters}"
    yield "project,voters,most,need,share,missing"
    for each in value["groups"]:
        assert each["share"]["denominator"] == each["missing"]["denominator"] == voters
        sums = [int(each["need"]) * voters, each["share"]["numerator"], each["missing"]["numerator"]]
        yield ",".join(map(str, [quoted(each["project"].encode()).decode(), each["voters"], each["most"], *sums]))


@pytest.fixture(scope="module")
def validator():
    jsonschema = pytest.importorskip("jsonschema", reason="python3-jsonschema is not installed")
    jsonschema.Draft202012Validator.check_schema(SCHEMA)
    return jsonschema.Draft202012Validator(SCHEMA)


def expected(case, room):
    """The object and the status, by the reference."""
    said = saying.reference_says(case, room, answer=lambda words: (*objects.answer(words), b""))
    return said.text, said.status


@pytest.fixture
def answered(program, validator, room):
    """Asks a case with --json and without, and gives the object and what is printed without it."""
    def ask(case):
        cases.write_files(room, case.files)
        plain = saying.run(program, case, room)
        told = saying.run(program, dataclasses.replace(case, words=[*case.words, "--json"]), room)
        value, status = expected(case, room)
        assert parsed(told.text) == value
        assert told.text == objects.text_of(value)
        assert (told.status, told.errors) == (status, plain.errors) == (plain.status, plain.errors)
        assert [error.message for error in validator.iter_errors(value)] == []
        printed = plain.text.decode().split("\n")[:-1]
        assert lines_in(value) == (printed[:1] if case.words[0] == "explain" else printed)
        return value, printed
    return ask


@pytest.mark.parametrize("case, row", [pytest.param(*each, id=each[0].name) for each in of_tables()])
def test_row_of_a_table(answered, case, row):
    """The lines were worked out by hand, but for those of pages, which tell other things."""
    value, printed = answered(case)
    if row.commands[0].split(" ")[0] != "page":
        assert printed == row.printed
        assert objects.STATUSES[value["answer"]] == row.status


@pytest.mark.parametrize("case", [pytest.param(case, id=case.name) for case in of_examples()])
def test_example(answered, case):
    answered(case)


OF_TABLES = {case.name for name in ("refutations.txt", "groups.txt") for case in cases.of_table(name)}
FIXED = [case for case in cases.fixed_cases() if case.words[0] in WITH_JSON and case.name not in OF_TABLES and not case.known and
         all(isinstance(data, bytes) for data in case.files.values())]  # fmt: skip


@pytest.mark.parametrize("case", FIXED, ids=[case.name for case in FIXED])
def test_fixed(answered, case):
    answered(case)


def test_by_chance(answered, seed, by_chance):
    answered(by_number(seed, by_chance))


def kind_of(value):
    """What kind of answer an object has."""
    if value["kind"] == "refusal":
        return f"refused {value['input']}"
    if value["kind"] == "both":
        return f"both {value['prices']['answer']} {value['violation']['answer']}"
    if value["kind"] in ("margins", "group_margins"):
        return f"{value['kind']} {'some' if value.get('projects') or value.get('groups') else 'none'}"
    failed = value.get("failed")
    return f"{value['kind']} {failed['name'] if failed else value.get('proves') or value.get('groups') or value['answer']}"


def test_each_kind_comes(seed, option):
    """The reference says which kinds come, since the program says the same."""
    if option("cases") is not None and option("cases") < BY_CHANCE:
        pytest.skip("fewer cases than usual")
    names = {"prices": "strict weak little Feasible Exhaustive Cover C1 C2 C3 C4 C5 S5", "violation": "yes V1 V2 V3 V4",
             "refutation": "U1 U2 U3", "groups": "yes EJR+", "election": "yes", "margins": "some",
             "group_margins": "some none"}  # fmt: skip
    wanted = {f"{kind} {name}" for kind, all_of in names.items() for name in all_of.split(" ")}
    wanted |= {f"refutation unpriceable{stable}{cover}" for stable in ("", " stable") for cover in ("", " cover")}
    wanted |= {f"both {one} {other}" for one in ("yes", "no") for other in ("yes", "no")} - {"both yes yes"}
    wanted |= {f"refused {name}" for name in ("election", "outcome", "certificate", "prices", "violation")}
    for case in itertools.chain(FIXED, (by_number(seed, number) for number in range(BY_CHANCE))):
        with tempfile.TemporaryDirectory() as room:
            cases.write_files(room, case.files)
            wanted -= {kind_of(expected(case, room)[0])}
    assert wanted == set()


# Node reads what Python reads.


BY_NODE = """
const text = new TextDecoder("utf-8", {fatal: true, ignoreBOM: true}).decode(require("fs").readFileSync(0));
console.log(JSON.stringify(text.split("\\n").slice(0, -1).map((line) => JSON.parse(line))));
"""


def in_doubles(value):
    """A value as JavaScript has it, whose numbers are of 53 bits."""
    if isinstance(value, dict):
        return {key: in_doubles(each) for key, each in value.items()}
    if isinstance(value, list):
        return [in_doubles(each) for each in value]
    return float(value) if type(value) is int else value


def read_by_node(lines):
    done = subprocess.run(["node", "-e", BY_NODE], input=b"".join(lines), capture_output=True, timeout=120, check=False)
    assert done.returncode == 0, done.stderr.decode()
    return json.loads(done.stdout)


def test_node_reads_the_same(program, room, seed):
    """Of the tables, and of 200 cases by chance."""
    needs("node")
    lines = []
    for case in [*(case for case, _ in of_tables()), *(by_number(seed, number) for number in range(200))]:
        cases.write_files(room, case.files)
        lines.append(saying.run(program, dataclasses.replace(case, words=[*case.words, "--json"]), room).text)
        for name in case.files:
            (room / name).unlink()
    assert in_doubles(read_by_node(lines)) == in_doubles([parsed(line) for line in lines])


# Names.


NAMES = [
    'say "so"', '"', '""', "back\\slash", "\\", "\\u0041", "\\n", "ends in \\", "'", "</script>", "<!--", '{"a":1}', "null", "1",
    "__proto__", "a/b", "a;b", "a,b", "$(id)", "%s", "\u0080", "\u0085", "a\u009fb", "a\u00a0", "\u00a0", "\u00ad", "e\u0301", "\u00e9",
    "\u200b", "\u200f", "\u202e", "\u2028", "\u2029", "a\ufeffb", "\ufffd", "\ufffe", "\uffff", "\ufdd0", "\ue000", "\U0001f5f3\ufe0f",
    "\U0001d11e", "\U000e0001", "\U0010ffff", "\u05d0\u05d1", "x" * 5000, "\u2028" * 700,
]  # fmt: skip
# What the documents refuse: a character below 32 or 127, and what isn't UTF-8.
BAD_IDS = [b"a\tb", b"a\x00b", b"a\x1fb", b"a\x7fb", b"a\nb", b"a\rb", b"\x1b[2J"]
NOT_UTF8 = [b"\xff", b"a\x80", b"\xc0\xaf", b"\xed\xa0\x80", b"\xf4\x90\x80\x80", b"\xe2\x80", b"\xf0\x9f\x97"]


def in_quotes(name):
    return b'"' + name.replace(b'"', b'""') + b'"'


def files_of(name):
    """An election that funds 'x' and not the project of this name, whose one voter approves both, if a ballot can name it; and
    weights that take the project for a funded one."""
    votes = b"x," + name if b"," not in name else b"x"
    election = (b"META\nkey;value\nbudget;2\nvote_type;approval\nPROJECTS\nproject_id;cost;selected\nx;1;1\n" + in_quotes(name) +
                b";1;0\nVOTES\nvote\n" + in_quotes(votes) + b"\n")  # fmt: skip
    weights = b"pb-refutation,1\ncover,0\nrole,project,weight\nleast," + in_quotes(name) + b",1\n"
    return {"town.pb": election, "claim.csv": weights}


def words_on(name):
    """What is asked of such a file."""
    yield ["refutation", "town.pb", "claim.csv"]
    if "," not in name:
        yield ["groups", "town.pb"]


@pytest.mark.parametrize("number", range(len(NAMES)))
def test_name_comes_back(answered, number):
    """As it stands in the file, with no escape but for a quote and a backslash, also in a line that isn't UTF-8 to others."""
    name = NAMES[number]
    for words in words_on(name):
        value, _ = answered(cases.Case(words, files_of(name.encode())))
        assert value["failed"] == {"name": "U1" if words[0] == "refutation" else "EJR+", "project": name, "voter": None}
        assert "group" not in value or value["group"]["project"] == name


def test_names_are_the_same_to_node(run, room):
    needs("node")
    lines = []
    for name in NAMES:
        cases.write_files(room, files_of(name.encode()))
        lines.append(run("refutation", "town.pb", "claim.csv", "--json", cwd=room).stdout)
        escaped = name.replace("\\", "\\\\").replace('"', '\\"')
        assert f'"project":"{escaped}"'.encode() in lines[-1]
    assert [value["failed"]["project"] for value in read_by_node(lines)] == NAMES


@pytest.mark.parametrize("name, number, fault", [*((name, 12, "BadId") for name in BAD_IDS), *((name, 1, "NotUtf8") for name in NOT_UTF8)])
def test_name_is_refused(answered, name, number, fault):
    value, _ = answered(cases.Case(["groups", "town.pb"], files_of(name)))
    assert value == {"answer": "refused", "input": "election", "kind": "refusal", "name": fault, "number": number, "record": 8, "version": 1}


# Groups that fall short, worked out by hand.


def town(limit, projects, *ballots):
    rows = "".join(f"{row}\n" for row in projects.split(" "))
    votes = "".join(f"v;{ballot}\n" for ballot in ballots)
    return (f"META\nkey;value\nbudget;{limit}\nvote_type;approval\nPROJECTS\nproject_id;cost;selected\n{rows}"
            f"VOTES\nvoter_id;vote\n{votes}").encode()  # fmt: skip


# The measure, whether a group falls short, the project, its supporters and voters, the most that one got, the need and what is
# missing of it, over all voters.
FIGURES = [
    # Three of four have 9; the third got 6, and y costs 2: 4 * 8 and 3 * 12.
    ("cost", town(12, "x;6;1 y;2;0", "y", "y", "x,y", "x"), ("EJR+", "y", 3, 3, "6000000", "8000000", 4, "-4000000")),
    # With the third it isn't enough: 4 * 10 is more than 3 * 12, but 4 * 2 isn't more than 2 * 12.
    ("cost", town(12, "x;8;1 y;2;0", "y", "y", "x,y", "x"), ("EJR+", "y", 3, 2, "0", "2000000", 4, "-16000000")),
    # By counting the third got one project: 4 * 2 * 2 and 3 * 12.
    ("count", town(12, "x;8;1 y;2;0", "y", "y", "x,y", "x"), ("EJR+", "y", 3, 3, "1", "4000000", 4, "-20000000")),
    # As much is enough, and a millionth less isn't.
    ("cost", town(5, "x;2;1 y;3;0", "x,y", "x,y"), ("EJR+", "y", 2, 2, "2000000", "5000000", 2, "0")),
    ("cost", town("4.999999", "x;2;1 y;3;0", "x,y", "x,y"), (None, "y", 2, 2, "2000000", "5000000", 2, "2")),
    # One of need 2, or two of need 4: the larger group.
    ("cost", town(1, "x;2;1 c;2;0", "c", "x,c", "x", "x"), (None, "c", 2, 2, "2000000", "4000000", 4, "14000000")),
    # One voter for 3, or two for 6, which are as close: the first project. One for 2 is closer than two for 5.
    ("cost", town(1, "c;6;0 d;3;0", "c", "c", "d"), (None, "c", 2, 2, "0", "6000000", 3, "16000000")),
    ("cost", town(1, "c;5;0 d;2;0", "c", "c", "d"), (None, "d", 1, 1, "0", "2000000", 3, "5000000")),
    # The first project for which a group falls short, though another is larger and comes closer to all it needs.
    ("cost", town(12, "z;13;0 w;1;0 y;1;0", "y,w,z", "y,z", "y"), ("EJR+", "w", 1, 1, "0", "1000000", 3, "-9000000")),
    # What costs nothing is missing for whoever got nothing, whatever the limit is.
    ("cost", town(0, "x;0;0", "x", ""), ("EJR+", "x", 1, 1, "0", "0", 2, "0")),
    # Nobody wants what isn't funded, or all is.
    ("cost", town(10, "x;1;1 y;2;0", "x"), None),
    ("count", town(10, "x;1;1", "x"), None),
]  # fmt: skip


@pytest.mark.parametrize("measure, election, figures", FIGURES)
def test_figures_of_groups(answered, measure, election, figures):
    value, _ = answered(cases.Case(["groups", "town.pb", "--satisfaction", measure], {"town.pb": election}))
    group = value["group"]
    assert value["measure"] == measure
    told = group and (value["failed"] and value["failed"]["name"], group["project"], group["supporters"], group["voters"], group["most"],
                      group["need"], group["missing"]["denominator"], group["missing"]["numerator"])  # fmt: skip
    assert told == figures


def all_groups(sharing, project):
    supporters = sharing.election.supporters(project)
    return [[voter for place, voter in enumerate(supporters) if chosen >> place & 1] for chosen in range(1, 1 << len(supporters))]


def test_figures_are_those_over_all_groups(seed):
    """The reference tries one group for each amount that a voter got. Here all groups of supporters are tried."""
    tried = 0
    for number in range(300):
        case = cases.numbered(seed, number, {a_small_refutation: 1}, damaged=0)
        election = read_election(case.files["town.pb"])
        for by_cost in (True, False) if election.has_selected else ():
            told = group_figures.of_all(election, election.funded(), by_cost)
            assert told == group_figures.of_all(election, election.funded(), by_cost, all_groups)
            tried += len(told)
    assert tried > 500


# Folders.


@pytest.fixture
def of_folder(run, validator):
    """The objects on a folder, which are those of the reference, in lines, and tell what is told without --json."""
    def ask(folder, *mode):
        ran, plain = run("folder", folder, *mode, "--json"), run("folder", folder, *mode)
        lines = ran.stdout.splitlines(keepends=True)
        values, status = objects.answers(["folder", str(folder), *mode])
        assert [parsed(line) for line in lines] == values and lines == [objects.text_of(value) for value in values]
        assert (ran.returncode, ran.stderr) == (status, plain.stderr) == (plain.returncode, plain.stderr)
        assert [error.message for value in values for error in validator.iter_errors(value)] == []
        return values
    return ask


def test_folder(of_folder, room):
    """Worked out by hand: an election with both certificates and one that is refused, whose prices aren't audited."""
    names = {"one.pb": "sample.pb", "one.prices.csv": "sample.prices.csv", "one.violation.csv": "sample.empty.violation.csv",
             "two.prices.csv": "sample.prices.csv"}
    cases.write_files(room, {name: (tables.EXAMPLES / it).read_bytes() for name, it in names.items()} | {"two.pb": b""})
    one, two, total = of_folder(room)
    assert (one["name"], one["election"]["answer"], one["prices"]["answer"]) == ("one", "yes", "yes")
    assert one["violation"]["failed"] == {"name": "V1", "project": None, "voter": None}
    refusal = {"answer": "refused", "input": "election", "kind": "refusal", "name": "NoMeta", "number": 2, "record": 1, "version": 1}
    assert two == {"election": refusal, "kind": "entry", "name": "two", "prices": None, "version": 1, "violation": None}
    assert total == {"elections": 2, "kind": "total", "no": 1, "refused": 1, "version": 1, "yes": 1}


@pytest.mark.parametrize("mode", [[], ["--stable"], ["--no-exhaustive", "--cover"]], ids=" ".join)
def test_folder_of_examples(of_folder, mode):
    assert [each.get("name") for each in of_folder(TOP / "examples", *mode)] == ["district", "hall", "sample", "school", None]


def test_folder_with_names_of_every_kind(of_folder, room):
    """What a file can be called, and a JSON text has to escape."""
    names = sorted({name.replace("/", "\u2215") for name in NAMES if len(name.encode()) < 250 and name.isprintable()} | {'a"b\\', "\u202e"})
    cases.write_files(room, {f"{name}.pb": (tables.EXAMPLES / "sample.pb").read_bytes() for name in names})
    assert [each["name"] for each in of_folder(room)[:-1]] == sorted(names, key=str.encode)


def test_folder_without_elections(of_folder, room):
    assert of_folder(room) == [{"elections": 0, "kind": "total", "no": 0, "refused": 0, "version": 1, "yes": 0}]


def test_folder_that_cannot_be_listed(of_folder, room):
    refusal = {"answer": "refused", "input": "folder", "kind": "refusal", "name": "Read", "number": 18, "record": 0, "version": 1}
    assert of_folder(room / "missing") == [refusal]


# How it ends.


def test_commands_with_json(commands):
    assert {name for name in commands.names if "--json" in commands.sets[name]} == {*WITH_JSON, "folder"}


QUESTIONS = {
    "read": ["sample.pb"], "groups": ["sample.pb"], "prices": ["sample.pb", "sample.prices.csv"],
    "violation": ["school.pb", "school.violation.csv"], "refutation": ["school.pb", "school.refutation.csv"],
    "both": ["hall.pb", "hall.prices.csv", "hall.violation.csv"], "explain": ["sample.pb", "sample.prices.csv"],
    "margins": ["sample.pb", "sample.prices.csv"],
}  # fmt: skip


@pytest.mark.parametrize("command", WITH_JSON)
def test_writing_fails(program, command):
    with open("/dev/full", "wb") as full:
        done = subprocess.run([program, command, *QUESTIONS[command], "--json"], stdin=subprocess.DEVNULL, stdout=full,
                              stderr=subprocess.PIPE, cwd=TOP / "examples", timeout=120, check=False)  # fmt: skip
    assert (done.returncode, done.stderr) == (4, b"fault write\n")


NOT_UNDERSTOOD = [
    ["page", "sample.pb", "sample.prices.csv", "--json"], ["margins", "sample.pb", "--json"],
    ["tidy", "sample.pb", "sample.prices.csv", "--json"], ["folder", "--json"], ["--json"], ["help", "--json"],
    ["read", "sample.pb", "--json", "--json"], ["read", "sample.pb", "--json=yes"], ["read", "sample.pb", "--JSON"],
    ["read", "sample.pb", "-json"], ["read", "--json"], ["groups", "sample.pb", "sample.prices.csv", "--json"],
    ["groups", "sample.pb", "--satisfaction", "both", "--json"], ["groups", "sample.pb", "--stable", "--json"],
    ["violation", "school.pb", "school.violation.csv", "--stable", "--json"],
]  # fmt: skip


@pytest.mark.parametrize("words", NOT_UNDERSTOOD, ids=" ".join)
def test_words_that_are_not_understood(run, words):
    done = run(*words)
    assert (done.returncode, done.stdout) == (3, b"") and done.stderr


@pytest.mark.parametrize("command", WITH_JSON)
def test_json_may_stand_anywhere(run, command):
    told = [run(command, *words).stdout for words in (["--json", *QUESTIONS[command]], [*QUESTIONS[command], "--json"])]
    assert told[0] == told[1] and parsed(told[0])["kind"]


# The schema takes nothing else.


def places_in(value, path=()):
    """Each place of a value, by its keys from the top."""
    yield path, value
    for key, each in value.items() if isinstance(value, dict) else enumerate(value) if isinstance(value, list) else ():
        yield from places_in(each, (*path, key))


def with_change(value, path, change):
    """A copy of a value, of which what stands at a place is changed."""
    copy = json.loads(json.dumps(value))
    if not path:
        return change(copy)
    above = copy
    for key in path[:-1]:
        above = above[key]
    above[path[-1]] = change(above[path[-1]])
    return copy


def without(key):
    return lambda value: {each: value[each] for each in value if each != key}


def changes_of(value):
    """Changes at a place after which no object is one any more: a key more, a key less, another type."""
    if isinstance(value, dict):
        yield lambda value: value | {"more": 1}
        yield from map(without, value)
        yield lambda value: [value]
    elif isinstance(value, list):
        yield lambda value: {}
        yield lambda value: [*value, "more"]
    else:
        yield lambda value: {} if value is None else 0.5
        yield lambda value: ["more"]


@pytest.fixture
def one_of_each(run):
    return {command: parsed(run(command, *words, "--json").stdout) for command, words in QUESTIONS.items()} | {
        "refused": parsed(run("read", "sample.prices.csv", "--json").stdout),
        "margins of groups": parsed(run("margins", "sample.pb", "--groups", "--json").stdout),
        "stable": parsed(run("refutation", *QUESTIONS["refutation"], "--stable", "--json").stdout),
        "no": parsed(run("prices", "district.pb", "district.short.prices.csv", "--stable", "--json").stdout)}  # fmt: skip


def test_schema_takes_nothing_else(validator, one_of_each):
    tried = 0
    for name, value in one_of_each.items():
        for path, each in places_in(value):
            for change in changes_of(each):
                tried += 1
                assert not validator.is_valid(with_change(value, path, change)), f"{name} at {path}"
    assert tried > 1500


def test_schema_sees_what_contradicts(validator, one_of_each):
    """An answer beside what failed, a proof of nothing, conditions in another order, and digits that are none."""
    yes, no, proof, groups = one_of_each["prices"], one_of_each["no"], one_of_each["stable"], one_of_each["groups"]
    margins, of_groups = one_of_each["margins"], one_of_each["margins of groups"]
    contradictions = [
        yes | {"answer": "no"}, no | {"answer": "yes"}, yes | {"failed": no["failed"]}, no | {"failed": None}, yes | {"groups": None},
        no | {"groups": "strict"}, proof | {"proves": None}, proof | {"proves": "stable"}, proof | {"answer": "no"},
        yes | {"conditions": yes["conditions"][::-1]}, yes | {"conditions": yes["conditions"][:8]}, yes | {"version": 2},
        yes | {"kind": "both"}, groups | {"answer": "no"}, groups | {"measure": "costs"}, groups | {"failed": no["failed"]},
        yes | {"limit": "-1"}, yes | {"limit": "01"}, yes | {"limit": "1.0"}, yes | {"limit": ""}, yes | {"limit": "1 "},
        yes | {"grains_per_unit": 1}, one_of_each["refused"] | {"number": 16}, one_of_each["refused"] | {"answer": "no"},
        margins | {"answer": "no"}, margins | {"kind": "group_margins"}, of_groups | {"answer": "no"}, of_groups | {"measure": "costs"},
        one_of_each["both"] | {"answer": "no"}, one_of_each["both"] | {"prices": no},
    ]  # fmt: skip
    assert all(validator.is_valid(value) for value in one_of_each.values())
    assert [value for value in contradictions if validator.is_valid(value)] == []


def test_schema_closes_each_object():
    """None has other keys than those that are listed, and all of these have to be there."""
    listed = [value for _, value in places_in(SCHEMA) if isinstance(value, dict) and value.get("type") == "object" and "properties" in value]
    assert len(listed) > 30
    for each in listed:
        assert each["additionalProperties"] is False and sorted(each["required"]) == sorted(each["properties"])


def test_kinds_of_the_document():
    """docs/JSON.md names the kinds and the commands that there are."""
    text = (TOP / "docs/JSON.md").read_text("utf-8")
    row = re.search(r"^\| `kind` \| (.*) \|$", text, re.MULTILINE)[1]
    kinds = [SCHEMA["$defs"][each["$ref"].rpartition("/")[2]]["properties"]["kind"]["const"] for each in SCHEMA["oneOf"]]
    assert re.findall(r'"(\w+)"', row) == kinds
    assert re.findall(r"`(\w+)`", re.search(r"The commands (.*?) take it", text, re.DOTALL)[1]) == [*WITH_JSON, "folder"]


def test_inputs_of_the_document():
    """docs/JSON.md names the inputs that can be refused."""
    text = (TOP / "docs/JSON.md").read_text("utf-8")
    told = re.search(r"`input`\s+is\s(.*?):\n", text, re.DOTALL)[1]
    assert re.findall(r'"(\w+)"', told) == SCHEMA["$defs"]["refusal"]["properties"]["input"]["enum"]


def test_keys_of_the_document():
    """docs/JSON.md names the keys of what `folder` prints, which every object has or it alone."""
    head, folder = re.search(r"## A folder\n(.*?)\n\n", (TOP / "docs/JSON.md").read_text("utf-8"), re.DOTALL)[1].split("In an entry")
    for text, kind in ((head, "total"), (folder, "entry")):
        assert {*re.findall(r"`(\w+)`", text)} - {"folder", "read", "null"} == {*SCHEMA["$defs"][kind]["properties"]} - {"kind", "version"}


@pytest.mark.parametrize("command, certificate, named", [
    ("prices", ["none"], "certificate"), ("both", ["none", "none"], "prices"), ("both", ["sample.prices.csv", "none"], "violation"),
    ("groups", ["--outcome", "none"], "outcome"), ("read", [], "election"), ("folder", [], "folder"),
])  # fmt: skip
def test_input_that_is_refused(run, command, certificate, named):
    done = run(command, "none" if named in ("election", "folder") else "sample.pb", *certificate, "--json")
    wanted = {"answer": "refused", "input": named, "kind": "refusal", "name": "Read", "number": 18, "record": 0, "version": 1}
    assert (done.returncode, parsed(done.stdout)) == (2, wanted)


@pytest.mark.parametrize("name", ["sample.pb", "school.pb", "hall.pb", "district.pb"])
def test_explained_groups_are_the_same_object(run, name):
    for words in ([name], [name, "--satisfaction", "count"]):
        asked, explained = run("groups", *words, "--json"), run("explain", *words, "--groups", "--json")
        assert (asked.returncode, asked.stdout) == (explained.returncode, explained.stdout) and parsed(asked.stdout)["kind"] == "groups"


def test_standard_input_by_its_path(run):
    data = (TOP / "examples/sample.pb").read_bytes()
    assert run("read", "/dev/stdin", "--json", stdin=data).stdout == run("read", "sample.pb", "--json").stdout
