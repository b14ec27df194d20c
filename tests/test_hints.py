"""What is told of files that are refused, by the program, the C library, the Python package and the page's module, as
tables/hints.txt says."""
import os
import re
import subprocess

import pytest

import by_node
import c_library
import calls
import pbaudit
import tables

TABLE = tables.Table("hints.txt")
CASES = list(tables.cases(TABLE))
on_each = pytest.mark.parametrize("row, words", CASES)
AUDITS = {"prices": pbaudit.audit_prices, "violation": pbaudit.audit_violation, "both": pbaudit.audit_both,
          "read": pbaudit.read, "margins": pbaudit.margins, "tidy": pbaudit.tidy, "explain": pbaudit.explain}  # fmt: skip
# An election of one project more than there may be.
MANY = b"META\nkey;value\nbudget;1\nvote_type;approval\nPROJECTS\nproject_id;cost\n" + b"".join(
    b"p%d;0\n" % project for project in range(1, 20_002))


@pytest.fixture
def changed(room, row):
    row.write(room, TABLE.files)
    return room


def refusal_of(changed, words):
    """With what Python refuses the files of a command."""
    (changed / "missing").touch()
    command, names, named, _ = calls.parts(words)
    with pytest.raises(pbaudit.Refusal) as refusal:
        AUDITS[command](*(changed / name for name in names), **{option: changed / name for option, name in named.items()})
    return refusal.value


@on_each
def test_program(run, changed, row, words):
    ran = run(*words, cwd=changed)
    assert (ran.stdout.decode(), ran.returncode) == (row.text, 2)
    assert ran.stderr.decode() == "".join(line + "\n" for line in row.told)


@on_each
def test_c(caller, changed, row, words):
    facts = calls.facts_of(row.text.encode())
    kind = c_library.KINDS.get(facts.input, c_library.CERTIFICATES.get(words[0]))
    election = [] if facts.input == "election" else [words[1]]
    told = subprocess.run([caller, "once", "hint", f"{kind}:{facts.number}:{facts.record}", row.name, *election],
                          cwd=changed, capture_output=True, check=True)  # fmt: skip
    _, sentences = calls.hint_in("\n".join([*row.told, ""]).encode())
    assert told.stdout.decode() == "".join(sentence + "\n" for sentence in sentences)


@on_each
def test_python(auditor, changed, row, words, monkeypatch):
    monkeypatch.setattr(pbaudit._auditor, "_found", auditor, raising=False)
    why = refusal_of(changed, words)
    assert (why.printed, os.fspath(why.file)) == (row.printed[0], str(changed / row.name))
    assert (why.line, (*why.reason.split("\n"),)) == calls.hint_in("\n".join([*row.told, ""]).encode())


@on_each
def test_python_by_the_program(program, changed, row, words, monkeypatch):
    """The sentences come as the program writes them, and the line is counted in the file."""
    monkeypatch.setattr(pbaudit._auditor, "_found", pbaudit._auditor._Program(str(program)), raising=False)
    why, told = refusal_of(changed, words), "\n".join([*row.told, ""]).encode()
    assert (why.printed, why.line) == (row.printed[0], calls.hint_in(told)[0])
    named = {words[1]: "election", row.name: why.input}
    assert why.sentences() == [re.sub(r"^[^:]+", lambda name: named[name[0]], line) for line in row.told]
    assert why.reason == "\n".join(why.sentences())


@on_each
def test_javascript(node, changed, row, words):
    (changed / "missing").touch()
    told = node.ask(by_node.call_of(words, changed))
    assert (told["line"], told["sentences"]) == by_node.told_hints("\n".join([*row.told, ""]).encode())


def test_number_of_projects(run, room):
    (room / "e.pb").write_bytes(MANY)
    ran = run("read", "e.pb", cwd=room)
    assert (ran.stdout, ran.returncode) == (b"refused election 15 TooMany record 20007\n", 2)
    assert ran.stderr == b"e.pb:20007: there are more than 20,000 projects\n"
