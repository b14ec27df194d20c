"""Makes every allocation, open, read, write and listing of the program fail, one run after the other.

failing.c is preloaded, so that the Nth call of a kind fails; N goes from 1 until a run meets no failure. Each command runs on the
examples and on a few files more. What has to come:

- memory: 'fault memory' on standard error, status 4, and nothing on standard output, but with 'folder --json' the objects that
  were there; or the answer of an ordinary run;
- open, read: 'refused INPUT 18 Read record 0' for the input of that file, with the reason as a hint, and none behind it is
  opened (notes on the election stand before the hint on another input); or the refusal of an ordinary run with another
  hint, where the file was opened again for it. A read that gives one byte changes nothing. In a folder the line of that
  file becomes a refusal, and the total changes;
- list: 'refused folder 18 Read record 0' with the reason as a hint, and 'fault memory' where the system wants memory; what
  can't be looked at counts as a file, so that nothing changes;
- write: 'fault write', status 4, and a front of the text; a write that takes one byte changes nothing. Where standard
  error isn't taken, nothing else changes.

Each allocation fails too in the tests of the library's calls that stand beside the program (built by 'rt test' or 'rt ci'): a test
has to pass, or to end out of memory. A kind of call that never comes has failed, since then failing.c wasn't loaded.
"""
import collections
import errno
import json
import mmap
import os
import re
import shutil
import struct
import subprocess
import tempfile

import pytest

from common import HERE
from tables import EXAMPLES
from test_limits import UNFAIR, UNFAIR_VIOLATION

SAMPLE = "sample.pb"
# The sample, with counts that aren't those of its rows, and with votes that weigh: notes say so beside an answer.
NOTED = "noted.pb"
COMMANDS = [line.split() for line in (HERE / "tables/failing.txt").read_text("utf-8").splitlines() if line[:1] != "#"]
WAYS = [
    ("memory", str(errno.ENOMEM)), ("open", str(errno.EACCES)), ("read", str(errno.EIO)), ("read", str(errno.EINTR)),
    ("read", "one"), ("list", str(errno.EIO)), ("list", str(errno.ENOMEM)), ("look", str(errno.EACCES)),
    ("write", str(errno.ENOSPC)), ("write", str(errno.EINTR)), ("write", "none"), ("write", "one"),
]  # fmt: skip
# By their crate, what the names of the tests begin with whose allocations are made to fail.
TESTS = {
    "pb_visible_tests": ("tests::hidden::bytes_", "tests::hidden::number_", "tests::joiners::"),
    "pb_certificate_tests": (
        "tests::certificate::canonical::", "tests::certificate::kinds::",
        "tests::certificate::refutations::refutation_is_read_", "tests::election::",
    ),
    "pb_cohesion_tests": (
        "tests::cohesion::", "tests::short::closest_", "tests::short::outcome_", "tests::stable::findings_",
    ),
    "pb_price_tests": ("tests::price::figures::", "tests::price::verdicts::both_calls_"),
    "pb_command_tests": ("tests::command::",),
    "pb_json_tests": ("tests::",),
    "pb_reply_tests": ("tests::explain::", "tests::reply::"),
    "pb_audit_tests": ("tests::folders::",),
    "pb_in_turn_tests": ("tests::in_turn::each_answer_", "tests::in_turn::each_command_"),
    "pb_page_tests": ("tests::answers::", "tests::groups::", "tests::names::"),
}  # fmt: skip
# How such a test ends out of memory: by the call, or by the writer into memory that the test gives it.
WANTS = (
    rb"error: (AllocError|AllocFailed \{ \.\. \}|Memory|Write|(Cert)?Refusal \{ fault: Memory, record_number: 0 \})\n",
    rb"assertion `left == right` failed\n  left: Err\((Memory|Write)\)\n right: Ok\(\(\)\)\n",
)
Said = collections.namedtuple("Said", "text errors status")
# How many calls of the kind came, whether one was made to fail, how many files were to be opened, and the number and the
# path of the file that the failure was about.
Told = collections.namedtuple("Told", "calls failed opens file path")
FAULT_MEMORY = Said(b"", b"fault memory\n", 4)


def refused(name):
    return f"refused {name} 18 Read record 0"


def fill(room):
    """Fills a folder with the examples, with an unfair outcome and one that costs too much, with a folder of two elections, with one where nothing is refused
    and something fails, with one of names that are told, and with an empty one."""
    for path in [*EXAMPLES.glob("*.pb"), *EXAMPLES.glob("*.csv")]:
        shutil.copy(path, room)
    two, failed, odd, none = (os.path.join(room, name) for name in ("two", "failed", "odd", "none"))
    for folder in (two, failed, odd, none):
        os.mkdir(folder)
    for name in ("a.PB", "tab\t.pb", "b\u200b.pb"):
        shutil.copy(EXAMPLES / SAMPLE, os.path.join(odd, name))
    for folder in (two, failed):
        shutil.copy(EXAMPLES / SAMPLE, os.path.join(folder, "one.pb"))
    shutil.copy(EXAMPLES / "sample.wrong.violation.csv", os.path.join(failed, "one.violation.csv"))
    shutil.copy(EXAMPLES / "sample.prices.csv", os.path.join(two, "one.prices.csv"))
    noted = (EXAMPLES / SAMPLE).read_text().replace("num_votes;3", "num_votes;4").replace("num_projects;3", "num_projects;2")
    noted = noted.replace("voter_id;vote", "weight;vote")
    for path, text in (
        (NOTED, noted), ("unfair.pb", UNFAIR), ("unfair.violation.csv", UNFAIR_VIOLATION), ("two/two.pb", ""),
        ("over.pb", noted.replace("budget;10", "budget;9")),
        ("two/one.violation.csv", "pb-violation,1\nproject,b\nvoter,3\nvoter,1\n"),
    ):  # fmt: skip
        with open(os.path.join(room, path), "w") as file:
            file.write(text)


class Shim:
    """The library, what it tells, and the folder in which programs run."""

    def __init__(self, room, folder):
        self.library, self.file, self.folder = os.path.join(room, "failing.so"), os.path.join(room, "told"), folder
        subprocess.run(["cc", "-shared", "-fPIC", "-O1", "-o", self.library, HERE / "failing.c", "-ldl"], check=True)
        with open(self.file, "wb") as file:
            file.truncate(4096)
        with open(self.file, "r+b") as file:
            self.told = mmap.mmap(file.fileno(), 4096)

    def run(self, program, words, given=None, stdout=subprocess.PIPE):
        """What the program says. Its standard input is the sample election."""
        with open(os.path.join(self.folder, SAMPLE), "rb") as stdin:
            files = {"stdin": stdin, "stdout": stdout, "stderr": subprocess.PIPE}
            environment = {**os.environ, **(given or {})}
            done = subprocess.run([program, *words], **files, cwd=self.folder, env=environment, timeout=60)
        return Said(done.stdout or b"", done.stderr, done.returncode)

    def fail(self, program, words, kind, how, at):
        """What the program says with one failure, and what the library tells."""
        self.told[:] = bytes(4096)
        given = {"FAILING_FILE": self.file, "FAILING_KIND": kind, "FAILING_HOW": how, "FAILING_AT": str(at)}
        said = self.run(program, words, {"LD_PRELOAD": self.library, **given})
        calls, failed, opens, file = struct.unpack_from("LLLl", self.told)
        return said, Told(calls, failed == 1, opens, file, os.fsdecode(self.told[32:].split(b"\0")[0]))

    def fail_each(self, program, words, kind, how):
        """The same for each call of the kind, and then without a failure."""
        at, failed = 0, True
        while failed:
            at += 1
            said, told = self.fail(program, words, kind, how, at)
            failed = told.failed
            yield at, said, told


def inputs_of(words):
    """The inputs of a command in the order in which they are opened: their names, and their files."""
    if not words:
        return []
    inputs = [("election", words[1])]
    if "--outcome" in words:
        inputs.append(("outcome", words[words.index("--outcome") + 1]))
    names = {"both": ["prices", "violation"], "groups": []}.get(words[0], ["certificate"])
    return inputs + list(zip(names, words[2:]))


def is_refused(words, how, told, said, ordinary):
    """Whether the input of the file that failed was refused for this reason, and none was opened behind it. The notes on
    an election that was read stand before the reason."""
    inputs = inputs_of(words)
    paths = [path for _, path in inputs]
    if inputs:
        index = paths.index(os.path.basename(told.path))
        (name, path), opens = inputs[index], index + 1
    else:
        name, path, opens = "election", "standard input", 0
    notes = b"".join(line for line in ordinary.errors.splitlines(keepends=True) if re.search(b": note: (num|sel|col)", line))
    hint = f"{path}: {os.strerror(int(how))}\n".encode()
    errors = hint if name == "election" else notes + hint
    return said == Said(refused(name).encode() + b"\n", errors, 2) and told.opens == opens


def report_without(report, name):
    """The report on a folder, and its status, where the file of this name can't be read."""
    lines = []
    for line in report.splitlines()[:-1]:
        file, answer = line.split(": ", 1)
        if file == name and name.endswith(".pb"):
            answer = refused("election")
        elif file == name and answer != "refused election 17 NoOutcome record 0":
            answer = refused("certificate")
        elif name.endswith(".pb") and file in (name[:-3] + ".prices.csv", name[:-3] + ".violation.csv"):
            continue
        lines.append((file, answer))
    yes = sum(answer.startswith(("supported", "violation")) for _, answer in lines)
    no = sum(answer.startswith("failed") for _, answer in lines)
    refusals = sum(answer.startswith("refused") for _, answer in lines)
    elections = sum(file.endswith(".pb") for file, _ in lines)
    total = f"total {elections} elections {yes} yes {no} no {refusals} refused\n"
    return "".join(f"{file}: {answer}\n" for file, answer in lines) + total, 2 if refusals else 1 if no else 0


def objects_without(report, name):
    """The same of a report as JSON."""
    entries = [json.loads(line) for line in report.splitlines()[:-1]]
    for entry in entries:
        if name == entry["name"] + ".pb":
            entry.update(election=unread("election"), prices=None, violation=None)
        for kind in ("prices", "violation"):
            if name == f"{entry['name']}.{kind}.csv" and entry[kind] and entry[kind].get("input") != "election":
                entry[kind] = unread("certificate")
    answers = [entry[kind]["answer"] for entry in entries for kind in ("prices", "violation") if entry[kind]]
    refusals = answers.count("refused") + sum(entry["election"]["answer"] == "refused" for entry in entries)
    total = {"kind": "total", "version": 1, "elections": len(entries), "yes": answers.count("yes"), "no": answers.count("no")}
    lines = [json.dumps(each, sort_keys=True, separators=(",", ":")) + "\n" for each in (*entries, {**total, "refused": refusals})]
    return "".join(lines), 2 if refusals else 1 if total["no"] else 0


def unread(name):
    """The object of a file that can't be read."""
    return {"answer": "refused", "input": name, "kind": "refusal", "name": "Read", "number": 18, "record": 0, "version": 1}


def is_right_in_a_folder(kind, how, words, told, said, ordinary):
    """Whether 'folder' said what it has to, where an open, a read or a listing failed."""
    if kind == "list" and how == str(errno.ENOMEM):
        return said == FAULT_MEMORY
    is_json, report = "--json" in words, ordinary.text.decode()
    if kind == "list" or kind == "open" and told.path.endswith("/"):
        hint = f"{words[1]}: {os.strerror(int(how))}\n"
        line = json.dumps(unread("folder"), separators=(",", ":")) if is_json else refused("folder")
        return said == Said(line.encode() + b"\n", hint.encode(), 2)
    text, status = (objects_without if is_json else report_without)(report, os.path.basename(told.path))
    return said == Said(text.encode(), ordinary.errors, status)


def tells_no_more(said, ordinary):
    """Whether a hint is there at most as far as the ordinary one: no more lines, each of which names the same file. The notes
    are the same."""
    (notes, hint), (other_notes, other_hint) = notes_and_hint(said), notes_and_hint(ordinary)
    file, lines = other_hint.split(b":")[0] + b":", hint.splitlines(keepends=True)
    is_whole = all(line.startswith(file) and line.endswith(b"\n") for line in lines)
    return notes == other_notes and is_whole and len(lines) <= len(other_hint.splitlines())


def notes_and_hint(said):
    """What is told beside an answer: notes on the election, and why a file is refused."""
    lines = said.errors.splitlines(keepends=True)
    notes = b"".join(line for line in lines if b": note: " in line)
    return notes, b"".join(line for line in lines if b": note: " not in line)


def is_right(kind, how, words, told, said, ordinary):
    """Whether the program said what it has to, where one call failed."""
    same_answer = (said.text, said.status) == (ordinary.text, ordinary.status)
    if kind == "memory":
        if words[:1] == ["folder"] and "--json" in words and said._replace(text=b"") == FAULT_MEMORY:
            objects = ordinary.text.splitlines(keepends=True)
            return said.text in [b"".join(objects[:count]) for count in range(len(objects))]
        # Without memory for them, a hint or notes aren't there.
        return said in (FAULT_MEMORY, ordinary) or (same_answer and said.errors in (b"", *notes_and_hint(ordinary)))
    if kind == "look":
        # What can't be looked at counts as a file, and isn't opened again for a hint.
        return said == ordinary or (ordinary.status == 2 and same_answer and tells_no_more(said, ordinary))
    if how == "one":
        return said == ordinary
    if kind == "write" and told.file == 2:
        # They are written one after the other, whatever became of the first.
        return same_answer and any(each.startswith(said.errors) for each in (ordinary.errors, *notes_and_hint(ordinary)))
    if kind == "write":
        return said.errors == b"fault write\n" and said.status == 4 and ordinary.text.startswith(said.text)
    if words[:1] == ["folder"]:
        return is_right_in_a_folder(kind, how, words, told, said, ordinary)
    if ordinary.status == 2 and same_answer and told.opens > sum("." in word for word in words):
        # A file was opened again for the hint, which then tells no more.
        return tells_no_more(said, ordinary)
    return is_refused(words, how, told, said, ordinary)


@pytest.fixture(scope="module")
def shim():
    """A blank in the folder's name would cut the library's path in two."""
    with tempfile.TemporaryDirectory(prefix="pbaudit-") as room:
        folder = os.path.join(room, "files")
        os.mkdir(folder)
        fill(folder)
        yield Shim(room, folder)


def name_of(way):
    kind, how = way
    return f"{kind} {errno.errorcode[int(how)] if how.isdigit() else {'one': 'one byte', 'none': 'no byte'}[how]}"


@pytest.mark.parametrize("way", WAYS, ids=name_of)
@pytest.mark.parametrize("words", COMMANDS, ids=" ".join)
def test_command(shim, program, words, way):
    kind, how = way
    ordinary = shim.run(program, words)
    for at, said, told in shim.fail_each(program, words, kind, how):
        if told.failed:
            assert is_right(kind, how, words, told, said, ordinary), (at, told, said, ordinary)
        else:
            assert (said, told.calls) == (ordinary, at - 1)


def is_built(program):
    """Whether this is the program that was built among the crates, and not that of a release."""
    return program.parent.name == "out"


@pytest.mark.parametrize("way", WAYS, ids=name_of)
def test_each_kind_comes(shim, program, way):
    """Else failing.c isn't loaded, or the program calls another function."""
    if way[0] == "list" and not is_built(program):
        pytest.skip("the program of a release has its own call that lists folders")
    assert any(shim.fail(program, words, *way, 1)[1].failed for words in COMMANDS)


def test_each_command_is_tried(shim, program, commands):
    """By every input that it reads, and every way to end but for words and failures: a new command can't be left out."""
    understood = [words for words in COMMANDS if words and words[0] in commands.names and shim.run(program, words).status < 3]
    ended = {(words[0], shim.run(program, words).status) for words in understood}
    opened = {(words[0], name) for words in understood if words[0] not in ("folder", "help") for name, _ in inputs_of(words)}
    inputs = {(command, name) for command, names in commands.inputs.items() for name in names if name != "folder"}
    ends = {(command, status) for command, statuses in commands.statuses.items() for status in statuses if status < 3}
    assert ({*commands.names} - {words[0] for words in understood}, inputs - opened, ends - ended) == (set(), set(), set())


@pytest.mark.parametrize("words", COMMANDS, ids=" ".join)
def test_output_that_takes_nothing(shim, program, words):
    """A full disk, and a pipe that nobody reads."""
    ordinary = shim.run(program, words)
    reader, writer = os.pipe()
    os.close(reader)
    for output in (os.open("/dev/full", os.O_WRONLY), writer):
        said = shim.run(program, words, stdout=output)
        os.close(output)
        assert said == (Said(b"", b"fault write\n", 4) if ordinary.text else ordinary)


@pytest.mark.parametrize("crate", TESTS)
def test_library(shim, program, crate):
    if not is_built(program):
        pytest.skip("the tests in Rattle stand beside a program of crates/pbaudit/out alone")
    tests = program.parents[2] / crate / "out" / f"{crate}_tests"
    listed = shim.run(tests, ["--list"]).text.decode().splitlines()
    names = [line.removesuffix(": test") for line in listed if line.startswith(TESTS[crate]) and line.endswith(": test")]
    wanting = 0
    for name in names:
        for at, said, told in shim.fail_each(tests, [name], "memory", str(errno.ENOMEM)):
            passes = said.status == 0 and said.text.endswith(b"test result: ok\n")
            wants = told.failed and said.status != 0 and any(re.match(want, said.errors) for want in WANTS)
            assert passes or wants, (name, at, told, said)
            wanting += wants
    assert wanting
