"""Elections whose ids were made to collide in the program's hash table, so that it goes over to an order while it reads them:
the answers are those to the same files with other ids, and were worked out by hand. <7> stands for the id of the 7th project,
and <65> for one that collides with them and is no project's."""
import hashlib
import re
import sys

import pytest

import tables
from common import TOP

sys.path.append(str(TOP / "bench"))
import hostile  # noqa: E402

COUNT = 64
NUMBERS = range(1, COUNT + 1)
# The first, those about which the order is begun, and the last.
PLACES = (1, 31, 32, 33, 34, 35, COUNT)
RENAMED = [f"ordinary{number:024}" for number in range(1, COUNT + 2)]
# There are so many records ahead of the first project, and ahead of the first voter.
PROJECTS_AT, VOTERS_AT = 6, 6 + COUNT + 2
COMPARED = ("explain", "margins", "page")

ROWS = "".join(f"<{number}>;1;1\n" for number in NUMBERS)
FALLING = ",".join(f"<{number}>" for number in reversed(NUMBERS))
VOTES = f"1;<64>,<1>,<33>, <33> ,<1>\n2;{FALLING}\n3;<32>,<31>\n"
PAID = {1: [64, 33, 1], 2: [number for number in reversed(NUMBERS) if number not in (1, 31, 32, 33, 64)], 3: [32, 31]}


def election(rows="", votes=""):
    head = f"META\nkey;value\nbudget;{COUNT}\nvote_type;approval\nPROJECTS\nproject_id;cost;selected\n"
    return f"{head}{ROWS}{rows}VOTES\nvoter_id;vote\n{VOTES}{votes}"


def prices(paid, more=""):
    rows = "".join(f"{voter},<{number}>,1\n" for voter, numbers in paid.items() for number in numbers)
    return f"pb-prices,1\ndenominator,1\nvoter_budget,{COUNT}\nvoter,project,payment\n{rows}{more}"


def violation(voters, numbers):
    return "pb-violation,1\n" + "".join([f"project,<{number}>\n" for number in numbers] + [f"voter,{it}\n" for it in voters])


def outcome(*numbers):
    return "pb-outcome,1\n" + "".join(f"project,<{number}>\n" for number in numbers)


def cases():
    """A name, the command, its files, and what it writes. A third file is an outcome."""
    whole, group = election(), violation([1, 2], [33, 1])
    yield "read", "read", [whole], f"read 3 voters {COUNT} projects {COUNT} funded"
    yield "paid", "prices", [whole, prices(PAID)], "supported priceable"
    yield "tidy", "tidy", [whole, prices(PAID)], prices({voter: sorted(numbers) for voter, numbers in PAID.items()})
    yield "no project", "read", [election(votes="4;<2>,<65>\n")], f"refused election 14 UnknownProject record {VOTERS_AT + 4}"
    for place in PLACES:
        repeated = f"refused election 13 RepeatedProject record {PROJECTS_AT + COUNT + 1}"
        yield f"{place} repeated", "read", [election(rows=f"<{place}>;1;1\n")], repeated
        unpaid = {voter: [number for number in numbers if number != place] for voter, numbers in PAID.items()}
        yield f"{place} unpaid", "prices", [whole, prices(unpaid)], f"failed C3 project <{place}>"
        yield f"{place} not funded", "violation", [whole, violation([2], [place]), outcome()], "violation"
        if place not in (1, 33, 64):
            yield f"{place} not approved", "violation", [whole, violation([1], [place])], f"failed V2 voter 1 project <{place}>"
            stranger = prices({1: [place]})
            yield f"{place} paid by another", "prices", [whole, stranger], f"failed C1 voter 1 project <{place}>"
    yield "pays for none", "prices", [whole, prices({1: [64, 65]})], "refused certificate 25 UnknownProject record 6"
    yield "pays twice", "prices", [whole, prices({1: [64, 33, 64]})], "refused certificate 27 Repeated record 7"
    yield "demands none", "violation", [whole, violation([1], [1, 65])], "refused certificate 25 UnknownProject record 3"
    yield "demands twice", "violation", [whole, violation([1], [33, 1, 33])], "refused certificate 27 Repeated record 4"
    yield "one funded", "violation", [whole, group, outcome(64)], "violation"
    yield "two funded", "violation", [whole, group, outcome(64, 1)], "failed V4 voter 1"
    yield "others funded", "violation", [whole, group, outcome(32, 31, 34)], "failed V4 voter 2"
    yield "none funded", "violation", [whole, group, outcome(64, 65)], "refused outcome 25 UnknownProject record 3"
    yield "funded twice", "violation", [whole, group, outcome(64, 1, 64)], "refused outcome 27 Repeated record 4"


CASES = [*cases()]


def named(text, ids):
    return re.sub(r"<(\d+)>", lambda number: ids[int(number[1]) - 1], text)


@pytest.fixture(scope="module")
def ids():
    return [project_id.decode() for project_id in hostile.colliding(COUNT + 1)]


def answered(run, room, ids, command, files):
    """The status and what is written by the program about files with these ids."""
    for number, text in enumerate(files):
        (room / f"{number}.txt").write_text(named(text, ids))
    words = [f"{number}.txt" for number in range(len(files))]
    done = run(command, *words[:2], *(["--outcome", words[2]] if words[2:] else []), cwd=room)
    text = done.stdout.decode()
    for number in range(len(files)):
        text = text.replace(hashlib.sha256((room / f"{number}.txt").read_bytes()).hexdigest(), f"the sum of {number}.txt")
    return done.returncode, text


@pytest.mark.parametrize("name, command, files, wanted", CASES, ids=[case[0] for case in CASES])
def test_answers(run, room, ids, name, command, files, wanted):
    for names in (ids, RENAMED):
        status, text = answered(run, room, names, command, files)
        assert (status, text.rstrip("\n")) == (tables.status_of([wanted]), named(wanted, names).rstrip("\n"))


@pytest.mark.parametrize("command", COMPARED)
def test_renamed(run, room, ids, command):
    """What is written at length is the same but for the ids."""
    files = [election(), prices(PAID)]
    (status, text), others = answered(run, room, ids, command, files), answered(run, room, RENAMED, command, files)
    for one, other in zip(ids, RENAMED):
        text = text.replace(one, other)
    assert (status, text) == others
