"""examples/sheets.py on two sheets: the election file that it makes of them, or what it tells of each faulty row, as the table
tables/sheets.txt has them, which the page keeps to as well."""
import os
import subprocess
import sys

import pytest

import tables
from common import TOP, ran

SCRIPT = TOP / "examples/sheets.py"


def call(*words, cwd):
    """The script, whose output is in UTF-8 wherever it runs."""
    return subprocess.run([sys.executable, SCRIPT, *words], cwd=cwd, capture_output=True, timeout=60, check=False,
                          env={**os.environ, "PYTHONIOENCODING": "utf-8"})  # fmt: skip


@pytest.mark.parametrize("case", tables.sheet_cases(), ids=lambda case: tables.slug(case.name))
def test_as_the_table_says(case, room):
    case.write(room)
    done = call("projects.csv", "ballots.csv", case.limit, cwd=room)
    assert (done.stdout, done.stderr.decode().splitlines()) == (case.election, case.told)
    assert done.returncode == (1 if case.told else 0)


@pytest.mark.parametrize("case", [case for case in tables.sheet_cases() if not case.told], ids=lambda case: tables.slug(case.name))
def test_the_auditor_takes_what_is_made(case, program, room):
    """With as many voters, projects and funded ones as the table's file has rows."""
    (room / "made.pb").write_bytes(case.election)
    lines = case.election.decode().replace("\r\n", " ").replace("\r", " ").splitlines()
    projects, votes = lines.index("PROJECTS"), lines.index("VOTES")
    counts = f"read {len(lines) - votes - 2} voters {votes - projects - 2} projects"
    done = ran(program, "read", "made.pb", cwd=room)
    assert (done.returncode, done.stderr) == (0, "")
    assert done.stdout.splitlines()[0].startswith(counts)
    assert (" funded" in done.stdout) == ("selected" in lines[projects + 1])


def test_other_words(room):
    """What it is for, or which file can't be read."""
    assert call("projects.csv", cwd=room).stderr.decode().startswith("Makes an election file of two sheets")
    done = call("no\x1b.csv", "ballots.csv", "10", cwd=room)
    assert (done.returncode, done.stdout, done.stderr) == (1, b"", b"no\\u{1b}.csv: No such file or directory\n")
