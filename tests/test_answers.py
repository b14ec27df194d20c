"""What the program answers on the examples, and on the small files of tables/answers.txt and tables/groups.txt."""
import re

import pytest

import tables

TABLES = [tables.Table("answers.txt"), tables.Table("groups.txt")]
WORKED_OUT = [pytest.param(table, *case.values, id=case.id) for table in TABLES for case in tables.cases(table)]
EXAMPLES = (tables.EXAMPLES / "answers.txt").read_text("utf-8")
ON_EXAMPLES = re.findall(r"^pbaudit (.*)\n((?:(?!pbaudit |status ).*\n)*)status (\d)\n((?:(?!pbaudit ).*\n?)*)", EXAMPLES, re.M)


@pytest.mark.parametrize("words, printed, status, told", ON_EXAMPLES, ids=[each[0] for each in ON_EXAMPLES])
def test_example(run, words, printed, status, told):
    ran = run(*words.split(" "))
    assert ran.stdout.decode() == printed
    assert ran.stderr.decode() == told
    assert ran.returncode == int(status)


def test_all_examples_are_read():
    assert len(ON_EXAMPLES) == len(re.findall("^pbaudit ", EXAMPLES, re.M)) == len(re.findall("^status ", EXAMPLES, re.M))


def test_each_command_has_examples(commands):
    """Of each exit status but for words and failures: on these the C library is tried as well, with each allocation failing. A page
    is no text for a table, and no folder of examples is without a no."""
    shown = {(words.split(" ")[0], int(status)) for words, _, status, _ in ON_EXAMPLES}
    ends = {(command, status) for command, statuses in commands.statuses.items() for status in statuses if status < 3}
    assert {end for end in ends if end[0] != "page"} - shown == {("folder", 0)}


@pytest.mark.parametrize("table, row, words", WORKED_OUT)
def test_answer(run, room, table, row, words):
    row.write(room, table.files)
    ran = run(*words, cwd=room)
    assert ran.stdout.decode() == row.text
    assert ran.returncode == row.status
    if row.told or row.status != 2:
        assert ran.stderr.decode() == "".join(line + "\n" for line in row.told)
    else:
        assert ran.stderr
