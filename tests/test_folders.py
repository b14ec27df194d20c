"""What `pbaudit folder` prints and tells, and that the parts of the C library come to the same, examples/many.sh by many processes, and
the Python package with pages."""
import contextlib
import fcntl
import os
import pathlib
import pty
import select
import shutil
import subprocess
import sys
import tempfile

import pytest

import tables
from common import LIBRARY_NAME, TOP, needs, script
from pbaudit import _auditor
from pbaudit.files import MOST_BYTES

ANSWERS = tables.Table("answers.txt").files
SAMPLE, PRICES, FAIR = ANSWERS["sample.pb"], ANSWERS["sample.prices.csv"], ANSWERS["fair.violation.csv"]
READ = "read 3 voters 3 projects 2 funded"
NAMES = "an election is NAME.pb, and its certificates are NAME.prices.csv and NAME.violation.csv, with endings in lower case"
REGULAR = "only regular files are, and no links, folders or pipes"
CLEAN = "their names have control characters"
AS_THEY_ARE = "the report has them as they are"
MANY = TOP / "examples/many.sh"
# What stands in for ssh: it notes the name of the machine, and runs the command on this one, with SHELL set as sshd sets it.
SSH = """#!/bin/sh
printf '%s\\n' "$1" >> "{machines}"
shift 2
cd / && SHELL=/bin/sh exec sh -c "$*"
"""


def fill(folder, files):
    for name, data in files.items():
        (folder / name).write_bytes(data)


def reports(ran, lines, status, told=""):
    assert ran.stdout.decode() == "".join(line + "\n" for line in lines)
    assert (ran.stderr.decode(), ran.returncode) == (told, status)


def test_entries_are_told_in_order_and_a_refusal_decides_the_status(run, room):
    fill(room, {"two.pb": b"", "one.pb": SAMPLE, "one.violation.csv": FAIR, "one.prices.csv": PRICES})
    reports(run("folder", room), [
        f"one.pb: {READ}", "one.prices.csv: supported priceable", "one.violation.csv: failed V4 voter 1",
        "two.pb: refused election 2 NoMeta record 1", "total 2 elections 1 yes 1 no 1 refused",
    ], 2)  # fmt: skip


@pytest.mark.parametrize("switch, first, second, total, status", [
    ([], "supported priceable", "failed Exhaustive project c", "1 yes 1 no", 1),
    (["--stable"], "failed S5 project x1", "failed Exhaustive project c", "0 yes 2 no", 1),
    (["--cover"], "failed Cover", "failed Exhaustive project c", "0 yes 2 no", 1),
    (["--no-exhaustive"], "supported priceable", "supported priceable", "2 yes 0 no", 0),
])  # fmt: skip
def test_mode(run, room, switch, first, second, total, status):
    fill(room, {"a.pb": ANSWERS["small-share.pb"], "a.prices.csv": ANSWERS["even.prices.csv"],
                    "b.pb": ANSWERS["split.pb"], "b.prices.csv": ANSWERS["split.prices.csv"]})  # fmt: skip
    reports(run("folder", room, *switch), [
        "a.pb: read 4 voters 3 projects 1 funded", f"a.prices.csv: {first}", "b.pb: read 2 voters 2 projects 1 funded",
        f"b.prices.csv: {second}", f"total 2 elections {total} 0 refused",
    ], status)  # fmt: skip


def test_names_are_in_byte_order_and_come_out_as_they_are(run, room):
    """A name goes before those that it begins, though `.` comes after `-`."""
    names = [" ", '"', "%s", "'", "-rf", ".", "..", "A", "B", "a", "a b", "a-b", "a.b", "a.prices.csv", "b", "z" * 252, "\u00e9",
             "\u4f60"]  # fmt: skip
    fill(room, {f"{name}.pb": SAMPLE for name in names})
    reports(run("folder", room), [f"{name}.pb: {READ}" for name in names] + ["total 18 elections 0 yes 0 no 0 refused"], 0)


def thousand():
    """The files of a thousand elections with from no voter to six, of which some are refused, and others have prices that hold or fail
    or a group that is empty; and the report on them."""
    head = b"".join(line for line in SAMPLE.splitlines(keepends=True)[:14] if not line.startswith(b"num_"))
    prices = "pb-prices,1\ndenominator,1\nvoter_budget,10\nvoter,project,payment\n1,a,6\n"
    files, lines = {}, {}
    for number in range(1000):
        name, voters, told = f"e{number}", number % 7, []
        if number % 11 == 3:
            files[f"{name}.pb"], told = b"", [".pb: refused election 2 NoMeta record 1"]
        else:
            files[f"{name}.pb"] = head + b";a,b\n" * voters
            told.append(f".pb: read {voters} voters 3 projects 2 funded")
            if voters and number % 3 == 0:
                pays_for_both = number % 2 == 0
                files[f"{name}.prices.csv"] = (prices + "1,b,4\n" * pays_for_both).encode()
                told.append(".prices.csv: " + ("supported priceable" if pays_for_both else "failed C3 project b"))
            if number % 5 == 0:
                files[f"{name}.violation.csv"] = b"pb-violation,1\nproject,a\n"
                told.append(".violation.csv: failed V1")
        lines[f"{name}.pb"] = [name + line for line in told]
    report = [line for name in sorted(lines) for line in lines[name]]
    counts = [sum(word in line for line in report) for word in (": supported", ": failed", ": refused")]
    assert len(lines) == 1000 and min(counts) > 60
    return files, [*report, "total 1000 elections {} yes {} no {} refused".format(*counts)]


def test_thousand_elections(run, room):
    files, report = thousand()
    fill(room, files)
    reports(run("folder", room), report, 2)


def test_pages_of_a_thousand_elections(library, room):
    """The Python package writes one for each certificate that is answered, and an index that leads to each."""
    files, report = thousand()
    (room / "elections").mkdir()
    fill(room / "elections", files)
    shutil.copytree(TOP / "python/pbaudit", room / "site/pbaudit", ignore=shutil.ignore_patterns("__pycache__"))
    shutil.copy(library / LIBRARY_NAME, room / "site/pbaudit")
    words = [sys.executable, "-B", "-m", "pbaudit", "page", "--folder", "elections", "-o", "pages"]
    ran = subprocess.run(words, cwd=room, env=os.environ | {"PYTHONPATH": str(room / "site")}, capture_output=True, check=False)
    assert (ran.stdout.decode().splitlines(), ran.returncode) == (report, 2)
    answered = [line.split(": ")[0] for line in report if ": supported" in line or ": failed" in line]
    pages = {name.replace(".csv", ".html") for name in answered}
    assert {*os.listdir(room / "pages")} == pages | {"index.html"}
    index = (room / "pages/index.html").read_text("utf-8")
    assert [page for page in pages if f'href="{page}"' not in index] == []


def test_only_regular_files_with_clean_names_are_entries(run, room):
    names = ["a.pb", ".pb", "b.PB", "b.pb.old", "tab\t.pb", "line\n.pb", "del\x7f.pb", "c.prices.csv", "prices.csv", "violation.csv"]
    fill(room, dict.fromkeys(names, SAMPLE))
    for name in ("folder.pb", "a.prices.csv"):
        (room / name).mkdir()
    for name in ("link.pb", "a.violation.csv"):
        (room / name).symlink_to(room / "a.pb")
    told = (f"pbaudit: not audited: b.PB, c.prices.csv, prices.csv, violation.csv; {NAMES}\n"
            f"pbaudit: not audited: a.prices.csv, a.violation.csv, folder.pb, link.pb; {REGULAR}\n"
            f"pbaudit: not audited: del\\u{{7f}}.pb, line\\n.pb, tab\\t.pb; {CLEAN}\n")
    reports(run("folder", room), [f"a.pb: {READ}", "total 1 elections 0 yes 0 no 0 refused"], 0, told)


def test_links_folders_and_pipes_are_told_where_a_file_of_the_name_would_be(run, room):
    """Whatever a link leads to; and none of another name."""
    fill(room, {"a.pb": SAMPLE, "notes.txt": b""})
    for name in ("folder", "x.PB", "prices.csv", ".pb"):
        (room / name).mkdir()
    for name, target in (("link.pb", "a.pb"), ("gone.pb", "missing"), ("link.txt", "a.pb"), ("a.refutation.csv", "notes.txt")):
        (room / name).symlink_to(room / target)
    os.mkfifo(room / "line\n.pb")
    listed = "a.refutation.csv, gone.pb, line\\n.pb, link.pb, prices.csv and 1 more"
    told = f"pbaudit: not audited: {listed}; {REGULAR}\n"
    reports(run("folder", room), [f"a.pb: {READ}", "total 1 elections 0 yes 0 no 0 refused"], 0, told)


def test_names_with_control_characters_alone(run, room):
    fill(room, dict.fromkeys(["\x1b[31m.pb", "a\r.prices.csv", "b\n.violation.csv", "c\t.refutation.csv", "\x01.txt"], SAMPLE))
    told = ("pbaudit: no election was found: the folder has no file named NAME.pb\n"
            f"pbaudit: not audited: c\\t.refutation.csv; {NAMES}; a refutation is audited by itself, with pbaudit refutation\n"
            f"pbaudit: not audited: \\u{{1b}}[31m.pb, a\\r.prices.csv, b\\n.violation.csv; {CLEAN}\n")
    reports(run("folder", room), ["total 0 elections 0 yes 0 no 0 refused"], 0, told)


def test_what_cannot_be_seen_in_names_is_told_and_stays_in_the_report(run, room):
    """Of elections, which are audited. A name that is only unusual is not told."""
    hidden = ["a\u202e", "b\u200b", "c\u00a0", "d\u2028", "\U0001f469\u200d\U0001f467", "\U000e0041"]
    fill(room, {f"{name}.pb": SAMPLE for name in [*hidden, "\u00e9", "a b"]})
    fill(room, {"a\u202e.prices.csv": PRICES})
    names = sorted([*hidden, "\u00e9", "a b"], key=str.encode)
    lines = [f"{name}.pb: {READ}" for name in names]
    lines.insert(names.index("a\u202e") + 1, "a\u202e.prices.csv: supported priceable")
    listed = "a\\u{202e}.pb, b\\u{200b}.pb, c\\u{a0}.pb, d\\u{2028}.pb, \U0001f469\\u{200d}\U0001f467.pb and 1 more"
    told = f"pbaudit: names with characters that can't be seen: {listed}; {AS_THEY_ARE}\n"
    reports(run("folder", room), [*lines, "total 8 elections 1 yes 0 no 0 refused"], 0, told)


def test_each_reason_has_its_line(run, room):
    fill(room, dict.fromkeys(["a\u200b.pb", "b.PB", "c\t.pb"], SAMPLE))
    (room / "d.pb").mkdir()
    told = (f"pbaudit: not audited: b.PB; {NAMES}\npbaudit: not audited: d.pb; {REGULAR}\n"
            f"pbaudit: not audited: c\\t.pb; {CLEAN}\n"
            f"pbaudit: names with characters that can't be seen: a\\u{{200b}}.pb; {AS_THEY_ARE}\n")
    reports(run("folder", room), [f"a\u200b.pb: {READ}", "total 1 elections 0 yes 0 no 0 refused"], 0, told)


def test_names_that_are_near_misses_are_told_in_one_line(run, room):
    names = ["a.pb", "a.Prices.csv", "a.stable.prices.csv", "a.violation.CSV", "b.PB", "b\n.PB", "c.prices.csv",
             "c.violation.csv", "notes.txt", "pb"]  # fmt: skip
    fill(room, dict.fromkeys(names, SAMPLE))
    listed = "a.Prices.csv, a.violation.CSV, b\\n.PB, b.PB, c.prices.csv and 1 more"
    told = f"pbaudit: not audited: {listed}; {NAMES}\n"
    reports(run("folder", room), [f"a.pb: {READ}", "total 1 elections 0 yes 0 no 0 refused"], 0, told)


def test_folder_without_elections(run, room):
    told = "pbaudit: no election was found: the folder has no file named NAME.pb\n"
    reports(run("folder", room), ["total 0 elections 0 yes 0 no 0 refused"], 0, told)


def test_certificate_without_an_outcome_is_refused(run, room):
    fill(room, {"a.pb": SAMPLE.replace(b"name;selected", b"name"), "a.prices.csv": b""})
    reports(run("folder", room), [
        "a.pb: read 3 voters 3 projects no outcome", "a.prices.csv: refused election 17 NoOutcome record 0",
        "total 1 elections 0 yes 0 no 1 refused",
    ], 2)  # fmt: skip


def test_certificate_that_is_too_long_is_refused_as_such(run, room):
    fill(room, {"a.pb": SAMPLE, "a.prices.csv": b""})
    os.truncate(room / "a.prices.csv", (1 << 28) + 1)
    reports(run("folder", room), [
        f"a.pb: {READ}", "a.prices.csv: refused certificate 19 TooLong record 0", "total 1 elections 0 yes 0 no 1 refused",
    ], 2)  # fmt: skip


def test_certificate_of_a_refused_election_is_left_out(run, room):
    fill(room, {"a.pb": b"", "a.prices.csv": PRICES})
    lines = ["a.pb: refused election 2 NoMeta record 1", "total 1 elections 0 yes 0 no 1 refused"]
    reports(run("folder", room), lines, 2)


def test_notes_are_left_out_and_a_no_counts(run, room):
    fill(room, {"a.pb": SAMPLE.replace(b"num_votes;3", b"num_votes;4"), "a.violation.csv": FAIR})
    lines = [f"a.pb: {READ}", "a.violation.csv: failed V4 voter 1", "total 1 elections 0 yes 1 no 0 refused"]
    reports(run("folder", room), lines, 1)


@pytest.mark.parametrize("names, shown", [
    ([b"\xe9.pb"], "\\xe9.pb"), ([b"a.pb", b"z\xff", b"z\xe9.txt"], "z\\xe9.txt"), ([b"\n\xe2\x80\xae\xe9"], "\\n\\u{202e}\\xe9"),
    ([b"\xe9" + b"z" * 60], "\\xe9" + "z" * 59 + "..."),
])  # fmt: skip
def test_name_that_is_not_utf8_is_told(run, room, names, shown):
    """The first in byte order, with what can't be seen of it, and cut."""
    for name in names:
        with open(os.path.join(os.fsencode(room), name), "wb"):
            pass
    told = f"{room}: it has a file whose name isn't UTF-8: '{shown}'\n"
    reports(run("folder", room), ["refused folder 18 Read record 0"], 2, told)


def read_all(terminal):
    """What was written on a terminal that nobody has open any more."""
    told = b""
    with contextlib.suppress(OSError):
        while part := os.read(terminal, 1000):
            told += part
    os.close(terminal)
    return told


@pytest.mark.parametrize("names, shown, beside", [
    (["one", "two"], ["one", "two"], ""),
    (["\u00e9123456789" * 5 + "x"], ["\u00e9123456789" * 5], ""),
    (["a\u202e\u2028b"], ["a\ufffd\ufffdb"],
     "pbaudit: names with characters that can't be seen: a\\u{202e}\\u{2028}b.pb; the report has them as they are\r\n"),
])  # fmt: skip
def test_terminal_is_told_how_far_it_is(program, room, names, shown, beside):
    """A long name is cut, nothing hidden of a name is told, and the line is cleared at the end, before what is told beside."""
    fill(room, {f"{name}.pb": SAMPLE for name in names})
    ours, theirs = pty.openpty()
    ran = subprocess.run([program, "folder", room], stdout=subprocess.PIPE, stderr=theirs, check=False)
    os.close(theirs)
    told = read_all(ours).decode()
    lines = [f"\r\x1b[K{number} of {len(shown)}: {name}.pb" for number, name in enumerate(shown, 1)]
    assert told == "".join(lines) + "\r\x1b[K" + beside
    assert (ran.stdout.count(b"\n"), ran.returncode) == (len(names) + 1, 0)


@pytest.mark.parametrize("more, last", [([], "99.pb: read 3 voters 3 projects 2 funded"), (["--json"], '"name":"Read"')])
def test_each_object_is_written_before_the_next_election_is_read(program, room, more, last):
    """A full pipe keeps the program from going on, so the last election is gone before it is read. The lines are written once
    they are all there."""
    fill(room, {f"{number:02}.pb": SAMPLE for number in range(100)})
    ours, theirs = os.pipe()
    fcntl.fcntl(ours, fcntl.F_SETPIPE_SZ, 4096)
    words = [program, "folder", room, *more]
    with subprocess.Popen(words, stdin=subprocess.DEVNULL, stdout=theirs, stderr=subprocess.DEVNULL), open(ours, "rb") as out:
        os.close(theirs)
        select.select([out], [], [])
        (room / "99.pb").unlink()
        lines = out.read().decode().splitlines()
    assert (len(lines), last in lines[-2]) == (101, True), lines[-2]


def elections(folder):
    """Fills a folder with 30 elections with answers of every kind and names of every kind, and with what is no entry."""
    examples = {name: (tables.EXAMPLES / name).read_bytes() for name in os.listdir(tables.EXAMPLES)}
    names = ["", " b", "it's", '"q"', "%s%n", "-rf", "--stable", "é", "你", "A", "a.b", "*", "$HOME", "a\\b", "z" * 240]
    without_row = b"".join(line for line in PRICES.splitlines(keepends=True) if line != b"1,a,2\n")
    files = {}
    for number, name in enumerate(names, 1):
        one, two = f"{name}{number}", f"{number}{name}"
        files[f"{one}.pb"], files[f"{two}.pb"] = SAMPLE, examples["district.pb"]
        prices = {0: PRICES, 1: examples["sample.outcome.csv"], 2: without_row, 4: PRICES}.get(number % 5)
        if prices:
            files[f"{one}.prices.csv"] = prices
        if number % 5 == 3:
            files[f"{one}.pb"] = SAMPLE.replace(b"c;9;Pool;0\n", b"")
        if number % 5 == 4:
            files[f"{one}.pb"] = SAMPLE.replace(b";selected", b";funded")
        prices = {0: "district.prices.csv", 2: "district.short.prices.csv"}.get(number % 4)
        if prices:
            files[f"{two}.prices.csv"] = examples[prices]
        if number % 4 == 1:
            files[f"{two}.violation.csv"] = examples["district.violation.csv"]
        if number % 4 == 2:
            files[f"{two}.violation.csv"] = b"pb-violation,1\nproject,105\n"
    others = ["z" * 252 + ".pb", "unread.pb", "alone.pb", ".pb", "tab\t.pb", "delete\x7f.pb", "UPPER.PB"]
    fill(folder, {**files, **dict.fromkeys(others, SAMPLE), "11.prices.csv": b""})
    (folder / "unread.pb").chmod(0)
    os.truncate(folder / "11.prices.csv", (1 << 28) + 1)
    (folder / "link.pb").symlink_to("alone.pb")
    (folder / "alone.prices.csv").symlink_to(tables.EXAMPLES / "sample.prices.csv")
    for name in ("folder.pb", "alone.violation.csv"):
        (folder / name).mkdir()
    for name in ("pipe.pb", "unread.prices.csv"):
        os.mkfifo(folder / name)


@pytest.fixture(scope="module")
def folders():
    """A folder with folders of several kinds."""
    with tempfile.TemporaryDirectory() as folder:
        yield fill_folders(pathlib.Path(folder))


def fill_folders(top):
    for name in ("elections", "none", "latin", "misses"):
        (top / name).mkdir()
    elections(top / "elections")
    with open(os.path.join(os.fsencode(top), b"latin/\xe9.pb"), "wb") as file:
        file.write(SAMPLE)
    fill(top / "misses", {"a.PB": SAMPLE, "b.Prices.csv": PRICES, "b.prices.csv": PRICES})
    (top / "examples").symlink_to(tables.EXAMPLES)
    return top


@pytest.fixture(params=["xargs", "parallel", "ssh"])
def way(request):
    """How many.sh starts processes, by its environment: by xargs where GNU parallel is hidden from it, by that, and by that on
    two machines, which are noted in a file."""
    environment = dict(os.environ)
    if request.param != "xargs":
        needs("parallel")
    with tempfile.TemporaryDirectory() as folder:
        machines, stand_in = pathlib.Path(folder, "machines"), pathlib.Path(folder, "parallel" if request.param == "xargs" else "ssh")
        script(stand_in, "#!/bin/sh\nexit 1\n" if request.param == "xargs" else SSH.format(machines=machines))
        if request.param == "xargs":
            environment["PATH"] = f"{folder}:{environment['PATH']}"
        if request.param == "ssh":
            environment["PARALLEL"] = f"--ssh {stand_in} --sshlogin one,two"
        yield environment, machines


@pytest.mark.parametrize("words", [
    "elections", "elections --stable", "elections --no-exhaustive --stable", "examples", "elections --unknown", "missing",
    "examples/sample.pb", "none", "latin", "misses", "elections --json", "none --json --stable", "latin --json",
])  # fmt: skip
def test_many(program, folders, way, words):
    environment, machines = way
    environment["PBAUDIT"] = str(program)
    told = {"cwd": folders, "stdin": subprocess.DEVNULL, "capture_output": True, "timeout": 600, "env": environment}
    one = subprocess.run([program, "folder", *words.split(" ")], check=False, **told)
    many = subprocess.run([MANY, *words.split(" ")], check=False, **told)
    assert (many.returncode, many.stdout, many.stderr) == (one.returncode, one.stdout, one.stderr)
    if "PARALLEL" in environment and words.startswith("elections") and "unknown" not in words:
        assert set(machines.read_text().split()) == {"one", "two"}


def file_in(folder, name):
    """How a file of a folder is, with its bytes."""
    path = os.path.join(folder, name)
    # There is none of a name that is too long.
    if not os.path.isfile(path) or os.path.islink(path):
        return "missing", b""
    try:
        with open(path, "rb") as file:
            return "there", file.read(MOST_BYTES + 1)
    except PermissionError:
        return "unread", b""


def entries_in(folder):
    """The name of each election of a folder, in order, with its files."""
    names = (path.name.removesuffix(".pb") for path in folder.iterdir() if path.name.endswith(".pb"))
    for name in sorted(names, key=str.encode):
        files = [file_in(folder, f"{name}{ending}") for ending in (".pb", ".prices.csv", ".violation.csv")]
        if files[0][0] != "missing" and name and not any(letter < " " or letter == "\x7f" for letter in name):
            yield name.encode(), files


@pytest.mark.parametrize("words", ["", "--stable", "--no-exhaustive --cover"])
@pytest.mark.parametrize("name", ["elections", "none", "misses"])
def test_parts_of_the_c_library(program, c_library, folders, name, words):
    """Put together they are the report, as lines and as objects, and the totals of the entries add up."""
    options = [*words.split(), name]
    lines, objects = (subprocess.run([program, "folder", *more, *options], cwd=folders, capture_output=True, check=False)
                      for more in ([], ["--json"]))  # fmt: skip
    mode = _auditor.Mode("--stable" in options, "--no-exhaustive" not in options, "--cover" in options)
    parts = [c_library.entry(entry, files, mode) for entry, files in entries_in(folders / name)]
    total = tuple(map(sum, zip((0, 0, 0, 0), *(part[2] for part in parts))))
    status, end = c_library.of_total(total)
    cut = [text.split(b"\n", 1) for text in (*(part[1] for part in parts), end)]
    assert b"".join(text for _, text in cut) == lines.stdout
    assert b"".join(line + b"\n" for line, _ in cut) == objects.stdout
    assert status == lines.returncode == objects.returncode == max((part[0] for part in parts), default=0)


def test_part_of_the_c_library_on_files_that_cant_be_read(c_library):
    """An election that can't be read is refused, and its certificates aren't told of."""
    mode, there = _auditor.Mode(), ("there", SAMPLE)
    status, text, total = c_library.entry(b"town", [("unread", SAMPLE), ("there", PRICES), ("missing", b"")], mode)
    assert (status, text.split(b"\n", 1)[1], total) == (2, b"town.pb: refused election 18 Read record 0\n", (1, 0, 0, 1))
    status, text, total = c_library.entry(b"town", [there, ("unread", PRICES), ("unread", FAIR)], mode)
    assert text.split(b"\n", 1)[1].decode() == (
        f"town.pb: {READ}\ntown.prices.csv: refused certificate 18 Read record 0\ntown.violation.csv: refused certificate 18 Read record 0\n")
    assert (status, total) == (2, (1, 0, 0, 2))


@pytest.mark.parametrize("name, states", [
    (b"", ("there", "missing", "missing")), (b"a\nb", ("there", "missing", "missing")), (b"a\x7f", ("there", "missing", "missing")),
    (b"\xff", ("there", "missing", "missing")), (b"town", ("missing", "there", "missing")), (b"town", (3, "missing", "missing")),
    (b"town", ("there", 3, "missing")), (b"town", ("there", "missing", 255)),
])  # fmt: skip
def test_no_such_entry_of_the_c_library(c_library, name, states):
    status, text, total = c_library.entry(name, [(state, SAMPLE) for state in states], _auditor.Mode())
    assert (status, text, total) == (3, b"", (0, 0, 0, 0))
