"""Compares the program with the plain reference, on files that are made by chance and damaged, and on some fixed ones at the
limits. `test_by_chance[N]` is the Nth case of the seed; with `--cases` and `--seed` others are made."""
import itertools
import re
import tempfile

import pytest

import cases
import saying
from reference.answers import NAMES, Commands

BY_CHANCE = 2000
FIXED = list(cases.fixed_cases())
VERDICTS = [
    "read .. funded", "read .. no outcome", "note: num_projects", "note: num_votes", "note: selected",
    "supported priceable", "supported stable", "failed Feasible", "failed Exhaustive", "failed C1", "failed C2",
    "failed C3", "failed C4", "failed C5", "failed S5", "violation", "failed V1", "failed V2", "failed V3", "failed V4",
    "pb-prices,1", "failed Cover", "total", "pb-margins,1", "unpriceable", "unpriceable cover", "unpriceable stable",
    "unpriceable stable cover", "failed U1", "failed U2", "failed U3", "satisfied ejr+ by cost", "satisfied ejr+ by count",
    "failed EJR+ by cost", "failed EJR+ by count", "note: the funded projects", "note: the voter budgets",
]  # fmt: skip
CONDITIONS = ["Feasible", "Exhaustive", "Cover", "C1", "C2", "C3", "C4", "C5", "S5", "V1", "V2", "V3", "V4",
              "U1", "U2", "U3"]
# How lines begin that go on differently.
LINES = r"refused \w+ \d+ \w+|failed EJR\+ by \w+|failed \w+|note: the \w+ \w+|note: \w+|total"
EXPLAINED = [f"{name} {answer}" for name in CONDITIONS for answer in ("holds", "fails")]
EXPLAINED += [f"{name} not asked" for name in ("Exhaustive", "Cover", "C5", "S5")]


def wanted_kinds():
    """Each kind of answer that has to come."""
    inputs = {number: ["election"] if number < 18 else ["certificate", "outcome"] for number in NAMES}
    inputs[18] = inputs[19] = ["election", "certificate", "outcome"]
    for number in (23, 24, 26, 28):
        inputs[number] = ["certificate"]
    refusals = [f"refused {name} {number} {NAMES[number]}" for number in NAMES for name in inputs[number]]
    return VERDICTS + EXPLAINED + refusals


def kinds_of(said):
    """The kinds of the lines of an answer, and of the notes beside it."""
    lines = (said.text + said.errors).decode("utf-8").split("\n")
    if lines[0] in ("pb-prices,1", "pb-margins,1"):
        return [lines[0]]
    kinds = []
    for line in lines[:-1]:
        line = line.split(".pb: ")[-1].split(".csv: ")[-1]
        line = re.sub(r"^read .* (funded|no outcome)$", r"read .. \1", line)
        line = re.sub(r"^(\w+) +(holds|fails|not asked)  .*$", r"\1 \2", line)
        kinds.append(re.sub(rf"^({LINES}) .*$", r"\1", line))
    return kinds


def test_reference_has_each_command(run):
    _, _, listed = run("--help").stdout.decode().partition("\nCommands:\n")
    commands = re.findall(r"^  (\w+)", listed.partition("\n\n")[0], re.MULTILINE)
    assert len(commands) > 9 and [name for name in commands if name != "help" and not hasattr(Commands, name)] == []


def compare(program, case, room):
    cases.write_files(room, case.files)
    saying.reference_says(case, room).expect(saying.run(program, case, room))


def test_by_chance(program, seed, by_chance, room):
    compare(program, cases.numbered(seed, by_chance), room)


@pytest.mark.xdist_group("large files")
@pytest.mark.parametrize("case", FIXED, ids=[case.name for case in FIXED])
def test_fixed(program, case, room):
    compare(program, case, room)


def test_each_kind_of_answer_comes(seed, option):
    """The reference says which kinds come, since the program says the same."""
    if option("cases") is not None and option("cases") < BY_CHANCE:
        pytest.skip("fewer cases than usual")
    wanted = {*wanted_kinds()}
    for case in itertools.chain(FIXED, (cases.numbered(seed, number) for number in range(BY_CHANCE))):
        if wanted:
            with tempfile.TemporaryDirectory() as room:
                if not case.known:
                    cases.write_files(room, case.files)
                wanted -= {*kinds_of(saying.reference_says(case, room))}
    assert wanted == set()
