"""Runs the program on files at each limit and one past it. `pytest -rP` prints how long each run took and how much memory it
had at its peak (less than that of Python itself, about 30 MB, is not told apart). Memory is ample, so out of memory is a failure
here. The largest files take 256 MiB each."""
import os
import time

import pytest

import tables

LONGEST = 1 << 28
MOST_PROJECTS, MOST_VOTERS, MOST_APPROVALS, MOST_ROWS = 20_000, 1_000_000, 20_000_000, 10_000_000
MOST_MONEY, MOST_DENOMINATOR, MOST_NUMERATOR, MOST_DECLARED = 10**12, 10**9, 10**21, 10**18
CHUNK = 100_000

META = "META\nkey;value\nbudget;{budget}\nvote_type;approval\n"
HEAD = META + "PROJECTS\nproject_id;cost;selected\n"
PRICES_HEAD = "pb-prices,1\ndenominator,{d}\nvoter_budget,{n}\nvoter,project,payment\n"
# HEAD has 6 records, and the head of VOTES 2.
HEAD_RECORDS, VOTES_RECORDS, PRICES_RECORDS = 6, 2, 4

SMALL = HEAD.format(budget=10) + "a;6;1\nb;4;1\nc;9;0\nVOTES\nvoter_id;vote\n1;a,b\n2;a\n3;b,c\n"
SMALL_READ = "read 3 voters 3 projects 2 funded"
SMALL_PRICES = PRICES_HEAD.format(d=1, n=4) + "1,a,2\n1,b,2\n2,a,4\n3,b,2\n"
SMALL_OUTCOME = "pb-outcome,1\nproject,a\nproject,b\n"
UNFAIR = HEAD.format(budget=8) + "x1;2;0\nx2;2;0\ny;8;1\nVOTES\nvoter_id;vote\n1;x1,x2\n2;x1,x2\n3;y\n4;y\n"
UNFAIR_VIOLATION = "pb-violation,1\nproject,x1\nproject,x2\nvoter,1\nvoter,2\n"


def rows(line, count):
    """The lines of the numbers 1 to count, a chunk at a time."""
    for start in range(1, count + 1, CHUNK):
        yield "".join(map(line, range(start, min(start + CHUNK, count + 1))))


def election(projects, voters, ballot):
    """An election of projects p1, p2, .. of cost 1, none of them funded, and of voters with this ballot."""
    yield HEAD.format(budget=MOST_MONEY)
    yield from rows(lambda j: f"p{j};1;0\n", projects)
    yield "VOTES\nvoter_id;vote\n"
    yield from rows(lambda i: f"{i};{ballot}\n", voters)


def voter_record(projects, voter):
    return HEAD_RECORDS + projects + VOTES_RECORDS + voter


def padded(text, length):
    """A text filled up with line feeds, which are no records."""
    yield text
    left = length - len(text)
    while left > 0:
        yield "\n" * min(left, 1 << 20)
        left -= 1 << 20


def payments(count, projects):
    """Rows of payment 0 for so many pairs, by voter and then project."""
    yield PRICES_HEAD.format(d=1, n=0)
    yield from rows(lambda k: f"{(k - 1) // projects + 1},p{(k - 1) % projects + 1},0\n", count)


def violation(projects, voters):
    yield "pb-violation,1\n"
    yield from rows(lambda j: f"project,p{j}\n", projects)
    yield from rows(lambda i: f"voter,{i}\n", voters)


def outcome(projects):
    yield "pb-outcome,1\n"
    yield from rows(lambda j: f"project,p{j}\n", projects)


def approvals_apart(budget):
    """The most voters and the most projects, each voter of whom approves one: 50 each."""
    yield HEAD.format(budget=budget)
    yield from rows(lambda j: f"p{j};1;0\n", MOST_PROJECTS)
    yield "VOTES\nvoter_id;vote\n"
    yield from rows(lambda i: f"{i};p{(i - 1) % MOST_PROJECTS + 1}\n", MOST_VOTERS)


BITS = 19


def all_that_they_got(budget):
    """The most voters, who all approve the unfunded c; of the funded projects, which cost the powers of 2, they approve those of the
    bits of a number that falls from 475,711 to 0, and then from 524,287."""
    yield HEAD.format(budget=budget)
    yield "".join(f"b{bit};{1 << bit};1\n" for bit in range(BITS)) + "c;1;0\n"
    yield "VOTES\nvoter_id;vote\n"
    got = [",".join(["c", *(f"b{bit}" for bit in range(BITS) if number >> bit & 1)]) for number in range(1 << BITS)]
    yield from rows(lambda i: f"{i};{got[(MOST_VOTERS - i) % (1 << BITS)]}\n", MOST_VOTERS)


def and_then(texts, more):
    yield from texts
    yield more


def small_with(old, new):
    return SMALL.replace(old, new, 1)


def prices_of(d, n, payment):
    return PRICES_HEAD.format(d=d, n=n) + f"1,a,{payment}\n"


def elections():
    """Cases of the command read: a name, the file, the line."""
    yield "no projects and no voters", election(0, 0, ""), "read 0 voters 0 projects 0 funded"
    for count in (100, 101, 500, 501, MOST_PROJECTS):
        yield f"{count} projects", election(count, 1, f"p1,p{count}"), f"read 1 voters {count} projects 0 funded"
    for count in (100, 101, 10_000, 999_999, MOST_VOTERS):
        yield f"{count} voters", election(1, count, "p1"), f"read {count} voters 1 projects 0 funded"
    refused = f"refused election 15 TooMany record {HEAD_RECORDS + MOST_PROJECTS + 1}"
    yield "a project more", election(MOST_PROJECTS + 1, 1, "p1"), refused
    refused = f"refused election 15 TooMany record {voter_record(1, MOST_VOTERS + 1)}"
    yield "a voter more", election(1, MOST_VOTERS + 1, "p1"), refused
    refused = f"refused election 14 UnknownProject record {voter_record(1, MOST_VOTERS)}"
    yield "a wrong last voter", and_then(election(1, MOST_VOTERS - 1, "p1"), "0;p2\n"), refused
    refused = f"refused election 13 RepeatedProject record {HEAD_RECORDS + MOST_PROJECTS}"
    wrong = and_then(rows(lambda j: f"p{j};1;0\n", MOST_PROJECTS - 1), "p1;1;0\n")
    yield "a wrong last project", and_then([HEAD.format(budget=1), *wrong], "VOTES\nvote\n"), refused
    whole = ",".join(f"p{j}" for j in range(1, MOST_PROJECTS + 1))
    voters = MOST_APPROVALS // MOST_PROJECTS
    most = f"read {voters} voters {MOST_PROJECTS} projects 0 funded"
    yield "20,000,000 approvals", election(MOST_PROJECTS, voters, whole), most
    refused = f"refused election 15 TooMany record {voter_record(MOST_PROJECTS, voters + 1)}"
    yield "an approval more", and_then(election(MOST_PROJECTS, voters, whole), "0;p1\n"), refused
    yield "2^28 bytes", padded(SMALL, LONGEST), SMALL_READ
    yield "a byte more", padded(SMALL, LONGEST + 1), "refused election 19 TooLong record 0"
    for length in (100_000, 100_001, 1_000_000):
        yield f"{length} bytes", padded(SMALL, length), SMALL_READ
    for amount, fits in (
        (MOST_MONEY, True), (f"{MOST_MONEY}.000000", True), (f"{MOST_MONEY - 1}.999999", True),
        (f"{MOST_MONEY}.000001", False), (MOST_MONEY + 1, False), (10**40, False),
    ):
        line = SMALL_READ if fits else "refused election 9 BadMoney record 3"
        yield f"a limit of {amount}", [small_with("budget;10", f"budget;{amount}")], line
        line = SMALL_READ if fits else "refused election 9 BadMoney record 7"
        yield f"a cost of {amount}", [small_with("a;6", f"a;{amount}")], line
    zeros = "0" * 1_000_000
    yield "zeros around a limit", [small_with("budget;10", f"budget;{zeros}10,5{zeros}")], SMALL_READ
    yield "zeros in front of a cost", [small_with("a;6", f"a;{zeros}6")], SMALL_READ
    for key, counted in (("num_projects", "3"), ("num_votes", "3")):
        for number in (MOST_DECLARED, MOST_DECLARED + 1, f"{zeros}{MOST_DECLARED}"):
            row = f"budget;10\n{key};{number}"
            note = f"note: {key} says {MOST_DECLARED}, counted {counted}"
            lines = SMALL_READ if number == MOST_DECLARED + 1 else f"{SMALL_READ}\n{note}"
            yield f"{key} of {len(str(number))} digits", [small_with("budget;10", row)], lines


def certificates():
    """Cases of other commands: a name, the command, its files, the lines. A last file is an outcome."""
    head = PRICES_HEAD.format(d=1, n=0)
    projects = 10_000

    def crowd():
        return election(projects, MOST_ROWS // projects + 1, "")

    def most():
        return election(MOST_PROJECTS, MOST_VOTERS, "p1")

    def whole():
        return violation(MOST_PROJECTS, MOST_VOTERS)

    yield "10,000,000 payment rows", "tidy", [crowd(), payments(MOST_ROWS, projects)], head
    yield "10,000,000 payment rows", "prices", [crowd(), payments(MOST_ROWS, projects)], "failed Exhaustive project p1"
    refused = f"refused certificate 28 TooMany record {PRICES_RECORDS + MOST_ROWS + 1}"
    for command in ("tidy", "prices"):
        yield "a row more", command, [crowd(), payments(MOST_ROWS + 1, projects)], refused
    refused = f"refused certificate 27 Repeated record {PRICES_RECORDS + MOST_ROWS}"
    last = f"{MOST_ROWS // projects},p1,0\n"
    yield "a wrong last row", "prices", [crowd(), and_then(payments(MOST_ROWS - 1, projects), last)], refused
    yield "all voters and projects", "violation", [most(), whole()], "failed V2 voter 1 project p2"
    refused = f"refused certificate 27 Repeated record {1 + MOST_PROJECTS + MOST_VOTERS + 1}"
    yield "a voter twice", "violation", [most(), and_then(whole(), f"voter,{MOST_VOTERS}\n")], refused
    yield "all projects funded", "violation", [most(), ["pb-violation,1\nvoter,1\n"], outcome(MOST_PROJECTS)], "failed V4 voter 1"
    refused = f"refused outcome 27 Repeated record {1 + MOST_PROJECTS + 1}"
    for command in ("prices", "violation"):
        twice = and_then(outcome(MOST_PROJECTS), f"project,p{MOST_PROJECTS}\n")
        yield "a project twice", command, [most(), ["no certificate"], twice], refused
    each = payments(MOST_VOTERS, 1)
    yield "a row for each voter", "prices", [most(), each], "failed Exhaustive project p1"
    for size, fault in ((LONGEST, False), (LONGEST + 1, True)):
        long = "refused {} 19 TooLong record 0"
        line = long.format("certificate") if fault else "supported priceable"
        yield f"{size} bytes of prices", "prices", [[SMALL], padded(SMALL_PRICES, size)], line
        line = long.format("certificate") if fault else SMALL_PRICES
        yield f"{size} bytes of prices", "tidy", [[SMALL], padded(SMALL_PRICES, size)], line
        line = long.format("outcome") if fault else "supported priceable"
        yield f"{size} bytes of an outcome", "prices", [[SMALL], [SMALL_PRICES], padded(SMALL_OUTCOME, size)], line
        line = long.format("certificate") if fault else "violation"
        yield f"{size} bytes of a violation", "violation", [[UNFAIR], padded(UNFAIR_VIOLATION, size)], line
        line = long.format("outcome") if fault else "violation"
        nothing = padded("pb-outcome,1\n", size)
        yield f"{size} bytes of an outcome", "violation", [[UNFAIR], [UNFAIR_VIOLATION], nothing], line
    for d, n, payment, record in (
        (MOST_DENOMINATOR, MOST_NUMERATOR, MOST_NUMERATOR, 0), (MOST_DENOMINATOR + 1, 0, 0, 2), (0, 0, 0, 2),
        (1, MOST_NUMERATOR + 1, 0, 3), (1, 0, MOST_NUMERATOR + 1, 5), (1, 0, 10**60, 5),
    ):
        text = prices_of(d, n, payment)
        line = f"refused certificate 23 BadNumber record {record}" if record else text
        yield f"numbers {d} {n} {payment}", "tidy", [[SMALL], [text]], line
    zeros = "0" * 1_000_000
    text = PRICES_HEAD.format(d=f"{zeros}1", n=f"{zeros}4") + f"{zeros}1,a,{zeros}2\n"
    yield "zeros in front of numbers", "tidy", [[SMALL], [text]], PRICES_HEAD.format(d=1, n=4) + "1,a,2\n"
    bare = [*election(0, 0, "")]
    yield "no projects", "prices", [bare, [head]], "supported priceable"
    yield "no projects", "tidy", [bare, [head]], head
    yield "no projects", "violation", [bare, ["pb-violation,1\n"]], "failed V1"
    refused = "refused certificate 24 UnknownVoter record 5"
    yield "a row where there are none", "prices", [bare, [head + "1,a,1\n"]], refused
    refused = "refused outcome 25 UnknownProject record 2"
    yield "a project where there are none", "prices", [bare, [head], ["pb-outcome,1\nproject,a\n"]], refused


def short_groups():
    """Cases of the command groups: a name, its files, the line."""
    whole = ",".join(f"p{j}" for j in range(1, MOST_PROJECTS + 1))
    short, yes = "failed EJR+ by cost voters {} project {}", "satisfied ejr+ by cost"
    yield "all approve one project", [election(MOST_PROJECTS, MOST_VOTERS, "p1")], short.format(MOST_VOTERS, "p1")
    yield "nobody approves anything", [election(MOST_PROJECTS, MOST_VOTERS, "")], yes
    # A project costs 1, and the share of 50 of the 1,000,000 voters is that or less.
    yield "voters approve others each", [approvals_apart(20_000)], short.format(50, "p1")
    yield "voters approve others each, and have less", [approvals_apart("19999.999999")], yes
    # Who got most needs 524,288, and nobody is left out; 999,999 voters got less.
    yield "all that voters can get", [all_that_they_got(524_288)], short.format(MOST_VOTERS, "c")
    yield "all that voters can get, and less", [all_that_they_got("524287.999999")], short.format(MOST_VOTERS - 1, "c")
    most, all_but_one = MOST_APPROVALS // MOST_PROJECTS, outcome(MOST_PROJECTS - 1)
    yield "20,000,000 approvals", [election(MOST_PROJECTS, most, whole), outcome(MOST_PROJECTS)], yes
    yield "20,000,000 approvals and one project", [election(MOST_PROJECTS, most, whole), all_but_one], short.format(most, f"p{MOST_PROJECTS}")


def cases():
    """All cases: a name, the command, its files, the lines. A last file behind those that the command needs is an outcome."""
    for name, files, line in short_groups():
        yield f"groups {name}", "groups", files, line
    for name, texts, lines in elections():
        yield f"read {name}", "read", [texts], lines
    for name, command, files, lines in certificates():
        yield f"{command} {name}", command, files, lines


def write(room, name, texts):
    """Writes a file in another process, since what this one has taken counts as memory of the programs that it starts."""
    path = os.path.join(room, name)
    child = os.fork()
    if child == 0:
        status = 1
        try:
            with open(path, "w") as out:
                out.writelines(texts)
            status = 0
        finally:
            os._exit(status)
    assert os.waitpid(child, 0)[1] == 0
    return path


def run(program, words, room):
    """Runs the program, and returns what it writes, its status, its seconds and its peak memory in megabytes."""
    out, err = os.path.join(room, "out"), os.path.join(room, "err")
    modes = os.O_WRONLY | os.O_CREAT | os.O_TRUNC
    actions = [(os.POSIX_SPAWN_OPEN, 1, out, modes, 0o600), (os.POSIX_SPAWN_OPEN, 2, err, modes, 0o600)]
    start = time.perf_counter()
    child = os.posix_spawn(program, [program, *words], os.environ, file_actions=actions)
    _, status, used = os.wait4(child, 0)
    seconds = time.perf_counter() - start
    with open(out) as text, open(err) as complaint:
        return text.read(), complaint.read(), os.waitstatus_to_exitcode(status), seconds, used.ru_maxrss / 1024


# Nobody has a budget, so this yes says little.
OF_NOBODY = "prices no projects"
LITTLE = "note: the voter budgets together are less than the limit, so this yes says little\n"
CASES = list(cases())


@pytest.mark.xdist_group("large files")
@pytest.mark.parametrize("name, command, files, lines", CASES, ids=[case[0] for case in CASES])
def test_limit(program, room, name, command, files, lines):
    paths = [write(room, f"{number}.txt", texts) for number, texts in enumerate(files)]
    needed = 1 if command == "groups" else 2
    words = [command, *paths[:needed], *(["--outcome", *paths[needed:]] if paths[needed:] else [])]
    text, told, status, seconds, megabytes = run(program, words, room)
    print(f"{name:52.52} {seconds:6.2f} s {megabytes:7.0f} MB")
    assert (text.strip("\n"), status) == (lines.strip("\n"), tables.status_of([lines]))
    # A hint comes with each refusal, and a note with the yes to prices of nobody.
    assert bool(told) == (status == 2 or name == OF_NOBODY)
    assert told.endswith(LITTLE) == (name == OF_NOBODY)
