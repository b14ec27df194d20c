"""What the Python package is told in one call, by the library and by the program: the object, what is printed, and what stands beside
it; and the sentences on conditions, on tests and on groups that it makes of the object. On the rows of the tables, on the examples, and
by chance."""
import json

import pytest

import calls
import cases
import saying
import tables
from pbaudit import _auditor, sentences
from reference import objects
from test_answers import ON_EXAMPLES
from test_json import TABLES

BY_CHANCE = 300
COMMANDS = ("read", "groups", "prices", "violation", "refutation", "both", "explain", "margins", "tidy")
ON_CERTIFICATES = ("prices", "violation", "refutation")


def of_tables():
    """Each row of each table, with all of its files."""
    for name in TABLES:
        for row, words, files in tables.asked(name):
            if words[0] in COMMANDS and all(each in files for each in named(words)):
                yield pytest.param(words, files, id=f"{name}-{row.group}-{' '.join(words)}-{tables.slug(row.printed[0])}")


def of_examples():
    for command, *_ in ON_EXAMPLES:
        words = command.split(" ")
        if words[0] in COMMANDS and all((tables.EXAMPLES / each).is_file() for each in named(words)):
            yield pytest.param(words, {each: (tables.EXAMPLES / each).read_bytes() for each in named(words)}, id=command)


def named(words):
    """The names of files among the words."""
    _, names, options, _ = calls.parts(words)
    return [*names, *([options["outcome"]] if "outcome" in options else [])]


def check(run, auditor, program, room, words, files):
    cases.write_files(room, files)
    question, ran = calls.question(words, files), run(*words, cwd=room)
    report, other = auditor.ask(question), _auditor._Program(str(program)).ask(question)
    beside, is_object = calls.beside(words[0], ran.stdout, ran.stderr), words[0] != "tidy"
    for each in (report, other):
        assert (each.status, each.text) == (ran.returncode, ran.stdout)
    assert report.found == other.found == (json.loads(run(*words, "--json", cwd=room).stdout) if is_object else beside["refusal"] or {})
    assert [*report.notes] == [*other.notes] == beside["notes"]
    if report.status < 2:
        assert report.hint is other.hint is beside["hint"] is None
    else:
        line, told = beside["hint"]["line"], beside["hint"]["sentences"]
        assert (report.hint.line, report.hint.sentences, other.hint.line) == (line, told, line)
        # The program's name the file, and there are no notes among them.
        assert calls.hint_in("".join(f"{each}\n" for each in other.hint.sentences).encode()) == (line, told)
        assert len(other.hint.sentences) == len(told)
    if explains(words) and report.status < 2:
        check_sentences(report.text.decode(), report.found, question.certificate)


def explains(words):
    return words[0] == "explain" and "--groups" not in words


def check_sentences(text, found, certificate):
    """Behind the answer they are those of the table, whose columns docs/FORMATS.md describes, and then those on groups."""
    rows = [f"{each.name:12}{each.state:11}{each.sentence}" for each in sentences.rows_of(found, certificate)]
    of_groups = sentences.group_sentences(found)
    assert text.split("\n")[1:] == ["", *rows, *(["", *of_groups] if of_groups else []), ""]


@pytest.mark.parametrize("words, files", [*of_examples(), *of_tables()])
def test_report(run, auditor, program, room, words, files):
    check(run, auditor, program, room, words, files)
    if words[0] in ON_CERTIFICATES:
        check(run, auditor, program, room, ["explain", *words[1:]], files)


def explained():
    """Each certificate of the tables and of the examples, as `explain` is asked of it."""
    for case in (*of_examples(), *of_tables()):
        words, files = case.values
        if words[0] in ON_CERTIFICATES or explains(words):
            yield pytest.param(["explain", *words[1:]], files, id=case.id)


def by_reference(room, words, files):
    """The text, the status and the object."""
    case = cases.Case(words, files)
    cases.write_files(room, files)
    said = saying.reference_says(case, room)
    return said.text.decode(), said.status, saying.reference_says(case, room, answer=lambda words: (*objects.answer(words), b"")).text


@pytest.mark.parametrize("words, files", explained())
def test_sentences_of_the_reference(room, words, files):
    """Made of the reference's object, they are those of its text; so they are tried where nothing is built."""
    text, status, found = by_reference(room, words, files)
    if status < 2:
        check_sentences(text, found, calls.question(words, files).certificate)


def test_each_sentence_on_groups_is_tried(room):
    """What each yes to prices says of groups, with a group that comes nearest and where there is none."""
    found = [by_reference(room, *case.values)[2] for case in explained()]
    said = {(each["groups"], each["nearest"] is not None) for each in found if each["kind"] == "prices"}
    assert said == {(None, False), ("strict", True), ("strict", False), ("weak", True), ("weak", False), ("little", False)}


def test_by_chance(run, auditor, program, seed, by_chance, room):
    """A case of which a file may be damaged."""
    case = cases.without_folders(seed, by_chance, damaged=0.3)
    if case.words and case.words[0] in COMMANDS:
        check(run, auditor, program, room, case.words, case.files)


def test_each_kind_is_tried():
    """With an object, as a text, and refused; and each condition and test that fails first."""
    tried = [(words[0], row.printed[0].split(" ")[0]) for name in TABLES for row, words, _ in tables.asked(name)]
    for command in COMMANDS:
        assert (command, "refused") in tried and any(one == command and told != "refused" for one, told in tried), command
