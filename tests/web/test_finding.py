"""What the page's scripts find on invented elections: everything that is found is accepted by the proved program, and each
search for prices ends in some or in a refutation, which the best margin by another programme agrees with.

PBAUDIT_ELECTIONS says how many are invented.
"""
import json
import os
import pathlib
import subprocess

import finding_cases
import pytest

WEB = pathlib.Path(__file__).resolve().parents[2] / "web"
# Five rules each.
SEEDS = int(os.environ.get("PBAUDIT_ELECTIONS", "300")) // 5


def invented():
    """Elections with an outcome each, by rules and by chance."""
    for seed in range(SEEDS):
        yield from finding_cases.cases(seed)
        yield from finding_cases.odd_cases(seed)


@pytest.fixture(scope="module")
def room(tmp_path_factory):
    return tmp_path_factory.mktemp("finding")


@pytest.fixture(scope="module")
def towns(room):
    """The cases, by the names of the files that they are written to."""
    found = {}
    for number, case in enumerate(invented()):
        path = room / f"town{number}.pb"
        path.write_bytes(case.file())
        found[path.name] = case
    return found


@pytest.fixture(scope="module")
def found(room, towns):
    """What the page's scripts find in each file."""
    bundle = ["esbuild", "tests/seek.ts", "--bundle", "--platform=node", "--log-level=warning"]
    subprocess.run([*bundle, f"--outfile={room / 'seek.js'}"], cwd=WEB, check=True)
    told = subprocess.run(["node", "seek.js", *towns], cwd=room, stdout=subprocess.PIPE, text=True, check=True)
    lines = map(json.loads, told.stdout.splitlines())
    return {each["file"]: each for each in lines}


def line_of(program, room, command, name, text, *options):
    """The program's line on a certificate."""
    (room / "certificate.csv").write_text(text, encoding="utf-8")
    words = [program, command, room / name, room / "certificate.csv", *options]
    told = subprocess.run(words, stdout=subprocess.PIPE, stderr=subprocess.DEVNULL, text=True, check=False)
    return told.stdout.rstrip("\n")


def is_exhaustive(case):
    spent = sum(case.costs[at] for at in case.funded)
    return all(spent + case.costs[at] > case.limit for at in case.unfunded)


def forms_in(each):
    """What was found of prices in each form: plain and stable, with Cover and without."""
    return {(form["stable"], form["cover"]): form for form in each["forms"]}


def is_feasible(case):
    return sum(case.costs[at] for at in case.funded) <= case.limit


def test_all_that_is_found_is_accepted(program, room, towns, found):
    tally = dict.fromkeys(["prices", "stable prices", "cover", "count", "cost"], 0)
    for name, case in towns.items():
        each = found[name]
        for (stable, cover), form in forms_in(each).items():
            if "prices" not in form:
                continue
            options = ["--cover"] * form["isCovered"] + ["--no-exhaustive"] * (not is_exhaustive(case)) + ["--stable"] * stable
            wanted = "supported stable" if stable else "supported priceable"
            assert line_of(program, room, "prices", name, form["prices"], *options) == wanted, case.name
            assert form["isCovered"] or not cover
            tally["stable prices" if stable else "prices"] += 1
            tally["cover"] += form["isCovered"]
        for measure in ("count", "cost"):
            if "violation" in each[measure]:
                assert line_of(program, room, "violation", name, each[measure]["violation"]) == "violation", case.name
                tally[measure] += 1
    assert min(tally.values()) >= SEEDS // 4, tally


def test_refutations_are_accepted(program, room, towns, found):
    tally = dict.fromkeys(["unpriceable", "unpriceable cover", "unpriceable stable", "unpriceable stable cover"], 0)
    for name, case in towns.items():
        for (stable, cover), form in forms_in(found[name]).items():
            if "refutation" not in form:
                continue
            line = line_of(program, room, "refutation", name, form["refutation"], *["--stable"] * form["ofStable"])
            assert line == "unpriceable" + " stable" * form["ofStable"] + " cover" * form["ofCover"], case.name
            assert (stable or not form["ofStable"]) and (cover or not form["ofCover"])
            tally[line] += 1
    # Where there are stable prices and none with Cover, plain ones with Cover are mostly refuted too.
    assert tally.pop("unpriceable stable cover") > 0 and min(tally.values()) >= SEEDS // 4, tally


def test_each_search_ends(towns, found):
    """In prices or in a refutation, where the outcome keeps to the limit; and where Cover is met, in no less without it."""
    for name, case in towns.items():
        forms = forms_in(found[name])
        for (stable, cover), form in forms.items():
            wanted = ("found", "refuted", "unpaid") if is_feasible(case) else ("infeasible",)
            assert form["says"] in wanted, (case.name, stable, cover, form["says"])
        for stable in (False, True):
            assert forms[stable, True]["says"] != "found" or forms[stable, False]["isCovered"], case.name
        assert forms[True, True]["says"] != "found" or forms[False, True]["says"] == "found", case.name


def test_it_ends_as_another_programme_does(towns, found):
    """Where the best margin isn't next to nothing, voter by voter and by HiGHS."""
    pytest.importorskip("scipy")
    seen = set()
    for name, case in list(towns.items())[:120]:
        if not is_feasible(case) or len(case.ballots) > 30:
            continue
        for (stable, cover), form in forms_in(found[name]).items():
            margin = finding_cases.best_margin(case, stable, cover)
            if margin is not None and abs(margin) < 1e-4:
                continue
            is_found = margin is not None and margin > 0
            assert (form["says"] == "found") == is_found, (case.name, stable, cover, margin)
            seen.add((stable, cover, is_found))
    assert len(seen) == 8, seen


def weight_of(text):
    """The head and the rows of a refutation that a search has made."""
    lines = [line.split(",") for line in text.splitlines()]
    assert lines[0] == ["pb-refutation", "1"] and lines[2] == ["role", "project", "weight"]
    return int(lines[1][1]), [(role, int(project[1:]), int(weight)) for role, project, weight in lines[3:]]


def test_refutations_refute_by_their_definition(towns, found):
    """By the sums of docs/CONDITIONS.md: what a voter has to be given for what the weights take."""
    refuted = 0
    for name, case in towns.items():
        for measure in ("count", "cost"):
            if "refutation" not in found[name][measure]:
                continue
            cover, rows = weight_of(found[name][measure]["refutation"])
            left = {project: weight for role, project, weight in rows if role == "left"}
            sign = {project: weight if role == "least" else -weight for role, project, weight in rows if role != "left"}
            assert left.keys() <= set(case.unfunded) and sign.keys() <= case.funded
            most = 0
            for ballot in case.ballots:
                owed = sum(left.get(project, 0) for project in ballot)
                most += max([0, *(sign.get(project, 0) + owed for project in ballot if project in case.funded)])
            approvals = {project: sum(project in ballot for ballot in case.ballots) for project in left}
            supported = sum(weight * approvals[project] for project, weight in left.items())
            assert most + len(case.ballots) * cover <= supported
            paid = sum(weight * case.costs[project] for project, weight in sign.items()) + cover * case.limit
            assert paid >= sum(weight * case.costs[project] for project, weight in left.items())
            # No prices with Cover can be found then.
            assert all(form["says"] != "found" for (_, with_cover), form in forms_in(found[name]).items() if with_cover)
            refuted += 1
    assert refuted > SEEDS // 4
