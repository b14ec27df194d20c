"""How the program ends, and what it tells, where files can't be read or are refused, and where words aren't understood."""
import os
import re
import resource
import signal
import subprocess
import threading

import pytest

import tables
from common import TOP

ANSWERS = tables.Table("answers.txt")
LONG = "the file has more than 268,435,456 bytes (2^28)"
NO_META = "refused election 2 NoMeta record 1"
# Commands on u.csv in place of each input, and the name of that input.
ON_EACH_INPUT = {
    "read u.csv": "election", "tidy u.csv u.csv": "election", "margins u.csv u.csv --outcome u.csv": "election",
    "prices u.csv u.csv --outcome u.csv": "election", "violation u.csv u.csv --outcome u.csv": "election",
    "refutation u.csv u.csv --outcome u.csv": "election", "explain u.csv u.csv --outcome u.csv": "election",
    "page u.csv u.csv --outcome u.csv": "election", "page u.csv --groups --outcome u.csv": "election",
    "page e.pb --groups --outcome u.csv": "outcome", "both u.csv u.csv u.csv --outcome u.csv": "election",
    "groups u.csv --outcome u.csv": "election", "groups e.pb --outcome u.csv": "outcome",
    "prices e.pb u.csv --outcome u.csv": "outcome", "violation e.pb u.csv --outcome u.csv": "outcome",
    "refutation e.pb u.csv --outcome u.csv": "outcome", "explain e.pb u.csv --outcome u.csv": "outcome",
    "page e.pb u.csv --outcome u.csv": "outcome", "margins e.pb u.csv --outcome u.csv": "outcome",
    "both e.pb u.csv u.csv --outcome u.csv": "outcome", "prices e.pb u.csv": "certificate",
    "violation e.pb u.csv": "certificate", "refutation e.pb u.csv": "certificate", "explain e.pb u.csv": "certificate",
    "refutation e.pb u.csv --stable": "certificate",
    "page e.pb u.csv": "certificate", "tidy e.pb u.csv": "certificate", "margins e.pb u.csv": "certificate",
    "both e.pb u.csv u.csv": "prices", "both e.pb p.csv u.csv": "violation",
}  # fmt: skip
# The commands that read an outcome and one certificate, and how many certificates others read that open several files.
COMMANDS = ("prices", "violation", "refutation", "explain", "margins", "page")
CERTIFICATES = dict.fromkeys(COMMANDS, 1) | {"tidy": 1, "both": 2, "groups": 0}
# Commands, and the first five bytes that each prints.
FIVE_BYTES = {
    "": b"read ", "read sample.pb": b"read ", "read p.csv": b"refus", "prices e.pb p.csv": b"suppo", "tidy e.pb p.csv": b"pb-pr",
    "violation unfair.pb unfair.violation.csv": b"viola", "refutation school.pb school.refutation.csv": b"unpri",
    "refutation school.pb school.refutation.csv --stable": b"unpri", "groups e.pb": b"satis", "groups unfair.pb": b"faile",
    "both e.pb p.csv fair.violation.csv": b"suppo", "explain e.pb p.csv": b"suppo", "margins e.pb p.csv": b"pb-ma",
    "page e.pb p.csv": b"<!DOC", "page e.pb --groups": b"<!DOC", "page unfair.pb --groups": b"<!DOC", "folder folder": b"f.pb:",
    "--help": b"Audit", "help read": b"Read ",
}  # fmt: skip


def ends(ran, status, printed, told):
    """How a run ends, and what it prints and tells: a line, nothing, or, for None, anything that isn't nothing."""
    assert ran.returncode == status, ran
    for wanted, written in ((printed, ran.stdout), (told, ran.stderr)):
        if wanted is None:
            assert written, ran
        else:
            assert written.decode() == (wanted and wanted + "\n")


@pytest.fixture
def room(room):
    """A folder with the small files, and with a pipe: to open that would be to wait for ever."""
    for name, data in ANSWERS.files.items():
        (room / name).write_bytes(data)
    (room / "e.pb").write_bytes(ANSWERS.files["sample.pb"])
    (room / "p.csv").write_bytes(ANSWERS.files["sample.prices.csv"])
    os.mkfifo(room / "pipe")
    return room


@pytest.mark.parametrize("words", ["--help", "help read", "prices --help", "--version"])
def test_help_is_printed(run, words):
    ends(run(*words.split(" ")), 0, None, "")


@pytest.mark.parametrize("words", [
    ["prices", "sample.pb"], ["sample.pb"], ["read", "-e.pb"], ["page", "sample.pb", "sample.prices.csv", "--language", "xx"],
    ["groups"], ["groups", "sample.pb", "sample.prices.csv"], ["groups", "sample.pb", "--stable"], ["groups", "sample.pb", "--cover"],
    *(["groups", "sample.pb", "--satisfaction", *word] for word in ([], [""], ["Cost"], ["costs"], ["count", "--satisfaction", "count"])),
    ["refutation", "sample.pb", "sample.wrong.refutation.csv", "--cover"], ["violation", "sample.pb", "unfair.violation.csv", "--stable"],
    ["prices", "sample.pb", "sample.prices.csv", "--satisfaction", "cost"],
    *([*("page", "sample.pb"), *words] for words in (
        [], ["--groups", ""], ["--groups", "sample.prices.csv"], ["--groups", "--groups"], ["--groups", "--stable"],
        ["--groups", "--no-exhaustive"], ["--groups", "--cover"], ["--groups", "--json"], ["--groups", "--language", "xx"],
        ["--groups", "--satisfaction", "votes"], ["--groups", "--satisfaction"], ["--satisfaction", "cost"],
        ["sample.prices.csv", "--satisfaction", "cost"],
    )),
    ["page", "--groups"],
])  # fmt: skip
def test_words_that_are_not_understood(run, words):
    ends(run(*words), 3, "", None)


def test_word_that_is_not_utf8(run):
    ends(run("read", b"\xff.pb"), 3, "", "error: an argument is not UTF-8")


def test_nothing_hidden_of_a_word_is_told(run):
    told = run("--\x1b[2J\x9b\u202e")
    assert told.returncode == 3
    assert "--\ufffd[2J\ufffd\ufffd" in told.stderr.decode() and b"\n" in told.stderr


def test_standard_input_is_read_without_words(run):
    ends(run(stdin=ANSWERS.files["sample.pb"]), 0, "read 3 voters 3 projects 2 funded", "")


def test_word_with_blanks_and_quotes_is_a_name(run, room):
    name = '\u00e9 "-%.pb'
    (room / name).write_bytes(ANSWERS.files["sample.pb"])
    ends(run("read", name, cwd=room), 0, "read 3 voters 3 projects 2 funded", "")


@pytest.mark.parametrize("is_folder", [False, True], ids=["missing", "folder"])
@pytest.mark.parametrize("line", ON_EACH_INPUT)
def test_input_that_can_not_be_read(run, room, line, is_folder):
    if is_folder:
        (room / "u.csv").mkdir()
    reason = "Is a directory" if is_folder else "No such file or directory"
    ends(run(*line.split(" "), cwd=room), 2, f"refused {ON_EACH_INPUT[line]} 18 Read record 0", f"u.csv: {reason}")


@pytest.mark.parametrize("words, line, told", [
    (["read", "-"], "election", "-: No such file or directory\n-: standard input is /dev/stdin"),
    (["read", ""], "election", "'': the path is empty"),
    (["folder", ""], "folder", "'': the path is empty"),
    (["folder", "missing"], "folder", "missing: No such file or directory"),
    (["folder", "sample.pb"], "folder", "sample.pb: Not a directory"),
])  # fmt: skip
def test_path_that_is_none(run, words, line, told):
    ends(run(*words), 2, f"refused {line} 18 Read record 0", told)


@pytest.mark.parametrize("line", ON_EACH_INPUT)
def test_file_that_never_ends(run, room, line):
    (room / "u.csv").symlink_to("/dev/zero")
    ends(run(*line.split(" "), cwd=room), 2, f"refused {ON_EACH_INPUT[line]} 19 TooLong record 0", f"u.csv: {LONG}")


@pytest.mark.parametrize("command", CERTIFICATES)
@pytest.mark.parametrize("election", ["missing.pb", ".", "sample.prices.csv"])
def test_nothing_is_opened_behind_a_refused_election(run, room, command, election):
    line = NO_META if (room / election).is_file() else "refused election 18 Read record 0"
    words = [command, election, *["pipe"] * CERTIFICATES[command]]
    for more in [[]] if command == "tidy" else [[], ["--outcome", "pipe"]]:
        ends(run(*words, *more, cwd=room), 2, line, None)


@pytest.mark.parametrize("command", [*COMMANDS, "both"])
@pytest.mark.parametrize("outcome, line", [("missing.csv", "18 Read record 0"), ("sample.pb", "21 BadHead record 1")])
def test_nothing_is_opened_behind_a_refused_outcome(run, room, command, outcome, line):
    words = [command, "sample.pb", *["pipe"] * CERTIFICATES[command], "--outcome", outcome]
    ends(run(*words, cwd=room), 2, f"refused outcome {line}", None)


@pytest.mark.parametrize("prices, line", [("missing.csv", "18 Read record 0"), ("sample.pb", "21 BadHead record 1")])
def test_nothing_is_opened_behind_refused_prices_of_both(run, room, prices, line):
    ends(run("both", "sample.pb", prices, "pipe", cwd=room), 2, f"refused prices {line}", None)


def test_file_that_can_not_be_read_again_is_told_of_without_its_text(run, room):
    """To open this pipe again would be to wait for ever."""
    threading.Thread(target=(room / "pipe").write_bytes, args=[b"META\n"], daemon=True).start()
    ends(run("read", "pipe", cwd=room), 2, "refused election 3 NoHeader record 2", "pipe: record 2: a section has no header")
    ends(run(cwd=room), 2, NO_META, "standard input: record 1: the file doesn't begin with META")


def five_bytes():
    """No file may be longer than five bytes, in the process that begins."""
    signal.signal(signal.SIGXFSZ, signal.SIG_IGN)
    resource.setrlimit(resource.RLIMIT_FSIZE, (5, 5))


@pytest.mark.parametrize("line", FIVE_BYTES)
def test_output_that_takes_five_bytes(program, room, line):
    (room / "folder").mkdir()
    (room / "folder/f.pb").write_bytes(ANSWERS.files["sample.pb"])
    words = line.split()
    with open(room / "out", "wb") as out, open(room / "e.pb", "rb") as given:
        told = subprocess.run([program, *words], cwd=room, stdin=given, stdout=out, stderr=subprocess.PIPE, check=False,
                              preexec_fn=five_bytes)  # fmt: skip
    assert (told.returncode, told.stderr, (room / "out").read_bytes()) == (4, b"fault write\n", FIVE_BYTES[line])


def told_stack():
    """How many KiB of stack docs/TROUBLE.md says that the program needs."""
    return int(re.search(r"\*\*Less stack than (\d+) KiB\*\*", (TOP / "docs/TROUBLE.md").read_text("utf-8"))[1])


def small_stack():
    resource.setrlimit(resource.RLIMIT_STACK, (told_stack() * 1024, told_stack() * 1024))


@pytest.mark.parametrize("line", FIVE_BYTES)
def test_stack_that_is_told_is_enough(program, room, line):
    (room / "folder").mkdir()
    (room / "folder/f.pb").write_bytes(ANSWERS.files["sample.pb"])
    told = subprocess.run([program, *line.split()], cwd=room, input=ANSWERS.files["sample.pb"], capture_output=True, check=False,
                          env={"PATH": os.environ["PATH"]}, preexec_fn=small_stack)  # fmt: skip
    assert told.returncode in (0, 1, 2) and told.stdout[:5] == FIVE_BYTES[line]


def test_each_command_is_tried(commands):
    """On each of its inputs, behind one that is refused, and where little is written: a new command can't be left out."""
    inputs = {(command, name) for command, names in commands.inputs.items() for name in names if name != "folder"}
    assert {(line.split(" ")[0], name) for line, name in ON_EACH_INPUT.items()} == inputs
    assert {*CERTIFICATES} - {"tidy"} == {command for command, names in commands.inputs.items() if "outcome" in names}
    assert {*CERTIFICATES} == {command for command, names in commands.inputs.items() if len(names) > 1}
    assert {line.split(" ")[0] for line in FIVE_BYTES} - {"", "--help"} == {*commands.names}


@pytest.mark.parametrize("number", range(len(ANSWERS.files["sample.pb"]) + 1))
def test_cut_election(run, number):
    """A part of a line is a row of VOTES or refused, but for `vote`, which is a header too; whatever else is left is answered as
    whole lines are."""
    data = ANSWERS.files["sample.pb"]
    ran = run(stdin=data[:number])
    whole = data[:number + 1].count(b"\n")
    begun = data[number - 1:number] not in (b"", b"\n") and data[number:number + 1] != b"\n"
    if begun and whole < 14 and not (whole == 13 and data[:number].endswith(b"\nvote")):
        assert ran.returncode == 2 and ran.stdout.startswith(b"refused election ")
    else:
        assert ran.stdout.decode() == on_lines(whole + begun)
        assert ran.returncode == (0 if whole + begun >= 14 else 2)


def on_lines(lines):
    """What is printed on the sample election where so many of its lines are left."""
    voters = lines - 14
    if lines == 17:
        return "read 3 voters 3 projects 2 funded\n"
    if lines >= 14:
        return f"read {voters} voters 3 projects 2 funded\nnote: num_votes says 3, counted {voters}\n"
    if lines == 0:
        return "refused election 2 NoMeta record 1\n"
    return f"refused election {'3 NoHeader' if lines in (1, 8, 13) else '4 MissingSection'} record {lines + 1}\n"


@pytest.mark.parametrize("number", range(len(ANSWERS.files["sample.prices.csv"]) + 1))
def test_cut_prices(run, room, number):
    """A part of a line is no head record, or no row. Whole rows that are missing are payments that are missing."""
    data = ANSWERS.files["sample.prices.csv"]
    (room / "f.csv").write_bytes(data[:number])
    whole = data[:number + 1].count(b"\n")
    begun = data[number - 1:number] not in (b"", b"\n") and data[number:number + 1] != b"\n"
    if whole <= 3:
        line = f"refused certificate 21 BadHead record {whole + 1}"
    elif begun:
        line = f"refused certificate 22 BadRow record {whole + 1}"
    else:
        line = {7: "failed C3 project b", 8: "supported priceable"}.get(whole, "failed C3 project a")
    ran = run("prices", "e.pb", "f.csv", cwd=room)
    assert (ran.stdout.decode(), ran.returncode) == (line + "\n", tables.status_of([line]))


@pytest.fixture
def town(room):
    """A school that all 100 want costs 90,000, and of the limit, 100,000, a bench for 10 of them was bought. Voter budgets of
    10 come to 1,000, so that little can be said against it; not where the limit is 1,000 as well."""
    head = "META\nkey;value\nbudget;{}\nvote_type;approval\nPROJECTS\nproject_id;cost;selected\nbench;100;1\nschool;90000;0\n"
    votes = "".join(f"{voter};{'bench,' * (voter <= 10)}school\n" for voter in range(1, 101))
    for name, budget in (("town.pb", 100000), ("poor.pb", 1000)):
        (room / name).write_text(head.format(budget) + "VOTES\nvoter_id;vote\n" + votes)
    rows = "".join(f"{voter},bench,10\n" for voter in range(1, 11))
    (room / "bench.csv").write_text("pb-prices,1\ndenominator,1\nvoter_budget,10\nvoter,project,payment\n" + rows)
    voters = "".join(f"voter,{voter}\n" for voter in range(11, 101))
    (room / "school.csv").write_text("pb-violation,1\nproject,school\n" + voters)
    return room


LITTLE = "town.pb: note: the voter budgets together are less than the limit, so this yes says little"


@pytest.mark.parametrize("line, status, printed, told", [
    ("prices town.pb bench.csv --no-exhaustive", 0, "supported priceable", LITTLE),
    ("prices town.pb bench.csv --no-exhaustive --stable", 0, "supported stable", LITTLE),
    ("explain town.pb bench.csv --no-exhaustive", 0, None, LITTLE),
    ("both town.pb bench.csv school.csv --no-exhaustive --stable", 0, None, LITTLE),
    ("prices town.pb bench.csv", 1, "failed Exhaustive project school", ""),
    ("prices town.pb bench.csv --no-exhaustive --cover", 1, "failed Cover", ""),
    ("violation town.pb school.csv", 0, "violation", ""),
    ("groups town.pb", 1, "failed EJR+ by cost voters 100 project school", ""),
    ("groups poor.pb", 0, "satisfied ejr+ by cost", ""),
    ("explain town.pb school.csv", 0, None, ""),
    ("margins town.pb bench.csv", 0, None, ""),
    ("tidy town.pb bench.csv", 0, None, ""),
    ("page town.pb bench.csv --no-exhaustive", 0, None, ""),
    ("page town.pb --groups", 1, None, ""),
    ("page poor.pb --groups", 0, None, ""),
    ("explain town.pb bench.csv", 1, None, ""),
    ("prices poor.pb bench.csv --no-exhaustive", 0, "supported priceable", ""),
    ("explain poor.pb bench.csv", 0, None, ""),
])  # fmt: skip
def test_note_on_a_yes_that_says_little(run, town, line, status, printed, told):
    ends(run(*line.split(" "), cwd=town), status, printed, told)


@pytest.mark.parametrize("line, status", [("explain e.pb sample.prices.csv", 0), ("explain e.pb fair.violation.csv", 1)])
@pytest.mark.parametrize("old, new, note", [
    ("num_votes;3", "num_votes;4", "num_votes says 4, counted 3"),
    ("c;9;Pool;0", "c;9;Pool;0.5", "selected is neither 0 nor 1 in 1 projects"),
    ("voter_id;vote", "voter_id;vote;WEIGHT", "column weight of VOTES is not used"),
])  # fmt: skip
def test_notes_on_the_election_are_told_beside_explanations(run, room, line, status, old, new, note):
    (room / "e.pb").write_bytes(ANSWERS.files["sample.pb"].replace(old.encode(), new.encode()))
    ends(run(*line.split(" "), cwd=room), status, None, f"e.pb: note: {note}")
