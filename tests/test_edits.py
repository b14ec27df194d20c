"""Tries tests/edits.py with a stand-in for rt, on a repository of two small crates: which edits count as refused, what is noted, and
that checks go on side by side, also of one crate, as far as memory allows."""
import os
import pathlib
import subprocess
import sys
import threading
import time

import pytest

import edits
from common import HERE, script

# What rt does here. It notes each call; a check, which is 'whole' unless functions are chosen, with the functions whose
# bodies aren't 'NAME as it was', and with what work it begins, of which each function has a part. Those that it looks at are
# proved or not by their words: 'wrong' isn't proved, 'shy' isn't in a whole check, 'right' is. With 'broken' nothing compiles. 'meets N' isn't proved once N such
# checks have begun, and 'waits for FILE' once that is there.
RT = f"#!{sys.executable}" + r"""
import os, pathlib, re, sys, time
state, crate = pathlib.Path(os.environ["STATE"]), pathlib.Path.cwd().name

def wait(holds):
    for _ in range(1200):
        if holds():
            return True
        time.sleep(0.1)
    return False

def note(text):
    with open(state / "calls", "a") as calls:
        calls.write(text + "\n")

if sys.argv[1] == "version":
    print("a stand-in")
    sys.exit()
source = pathlib.Path("src/lib.rt").read_text()
bodies = dict(re.findall(r"(?m)^pub fn (\w+)\(\) \{\n    (.*)\n\}", source))
changed = {name: body for name, body in bodies.items() if body != f"{name} as it was"}
if sys.argv[1] == "lib":
    note(f"lib {crate}")
    seconds = state / f"{crate}.seconds"
    time.sleep(float(seconds.read_text()) if seconds.exists() else 0)
    (state / f"{crate}.proved").touch()
    pathlib.Path("out/incremental").mkdir(parents=True, exist_ok=True)
    pathlib.Path("out/incremental/work").write_text("of the proof")
    print("it can't be proved" if "unprovable" in source else "")
    sys.exit("unprovable" in source)
chosen = {path.split("::")[-1] for word, path in zip(sys.argv, sys.argv[1:]) if word == "--only"}
assert all(path == f"{crate}::{path.split('::')[-1]}" for word, path in zip(sys.argv, sys.argv[1:]) if word == "--only")
note(f"{'check' if chosen else 'whole'} {crate} {' '.join(sorted(changed))}")
said, work = [], pathlib.Path("out/incremental/work")
with open(state / "begun", "a") as begun:
    begun.write((work.read_text() if work.exists() else "nothing") + "\n")
work.parent.mkdir(parents=True, exist_ok=True)
with open(state / "parts", "a") as parts:
    parts.write(" ".join(sorted(it.name for it in work.parent.glob("*.part"))) + "\n")
for name, body in bodies.items():
    (work.parent / f"{crate}.{name}.part").write_text(body)
work.write_text("of a check" if chosen else "of all")
if any("broken" in body for body in changed.values()):
    sys.exit("error: it doesn't compile")
for name, body in bodies.items():
    if chosen and name not in chosen:
        continue
    is_wrong = "wrong" in body or "shy" in body and not chosen
    found = re.search(r"meets (\d+)", body)
    if found and not chosen:
        (state / f"met.{name}").touch()
        is_wrong = wait(lambda: len([*state.glob("met.*")]) >= int(found[1]))
    found = re.search(r"waits for (\S+)", body)
    if found:
        is_wrong = wait((state / found[1]).exists)
    said.append(f"fn {crate}::{name}: {'not proved' if is_wrong else 'proved'}")
print("\n".join(said))
"""


# Runs edits.py as a machine does that has more than enough memory, and notes of which crates the edits are to be tried.
AMPLE = """import os, sys
sys.path.insert(0, sys.argv.pop(1))
import edits
edits.free_memory = lambda: 10**12
begin = edits.Trial.begin
def noted(trial, new):
    begin(trial, new)
    open(f"{os.environ['STATE']}/{trial.crate}.begun", "w").close()
edits.Trial.begin = noted
sys.exit(edits.main())
"""


class Repository:
    """A copy of a repository with the crates low and high, of which high stands on low, and the stand-in."""

    def __init__(self, folder, **crates):
        self.folder = pathlib.Path(folder)
        self.copy, self.state = self.folder / "copy", self.folder / "state"
        for name in ("state", "tools", "copy/crates", "cache"):
            (self.folder / name).mkdir(parents=True)
        script(self.folder / "tools/rt", RT)
        (self.copy / "HANDLES").write_text("Handles allowed: none.\n")
        (self.copy / "crates.txt").write_text("low:\nhigh: low\n")
        for crate in ("low", "high"):
            self.write(crate, crates.get(crate, {}))

    def write(self, crate, changes):
        """Writes a crate with a function for each change, and an edit that makes the change."""
        home = self.copy / "crates" / crate
        (home / "src").mkdir(parents=True)
        (home / "must-fail").mkdir()
        names = [*changes, "other"]
        (home / "src/lib.rt").write_text("".join(f"pub fn {it}() {{\n    {it} as it was\n}}\n" for it in names))
        for name, body in changes.items():
            text = f"file: src/lib.rt\nold:     {name} as it was\nnew:     {body}\n"
            (home / f"must-fail/{name}.edit").write_text(text)

    def words(self, *words):
        self.environment = {**os.environ, "STATE": str(self.state), "XDG_CACHE_HOME": str(self.folder / "cache"),
                            "PATH": f"{self.folder}/tools:{os.environ['PATH']}"}  # fmt: skip
        return [sys.executable, "-c", AMPLE, HERE, self.copy, *words]

    def run(self, *words):
        """The status, what is said, and the calls of rt since the last run."""
        (self.state / "calls").write_text("")
        ran = subprocess.run(self.words(*words), env=self.environment, capture_output=True, text=True, timeout=300)
        return ran.returncode, ran.stdout + ran.stderr, (self.state / "calls").read_text().splitlines()


@pytest.fixture
def repository(room):
    return lambda **crates: Repository(room, **crates)


@pytest.mark.parametrize("low, high, status, calls, lines", [
    ({"a": "wrong", "b": "wrong"}, {"c": "wrong"}, 0, ["lib low", "check low a b", "lib high", "check high c"],
     ["3 passed, 0 failed"]),
    ({"a": "wrong", "b": "shy", "c": "right"}, {}, 1, ["lib low", "check low a b c", "whole low b", "whole low c"],
     ["low/c: it is proved", "2 passed, 1 failed"]),
    ({"a": "broken", "b": "wrong"}, {}, 1, ["lib low", "check low a b", "check low a b", "whole low a", "whole low a", "whole low b"],
     ["low/a: it doesn't compile", "1 passed, 1 failed"]),
    ({}, {}, 1, None, ["0 passed, 0 failed"]),
], ids=["refused", "proved", "broken", "none"])  # fmt: skip
def test_verdicts(repository, low, high, status, calls, lines):
    ended, said, called = repository(low=low, high=high).run("--jobs", "1")
    assert ended == status
    assert calls is None or sorted(called) == sorted(calls)
    assert {*lines} <= {*said.splitlines()} and "low/b: " not in said


def test_crate_that_is_not_proved(repository):
    """Its edits and those of the crates above say nothing."""
    made = repository(low={"a": "wrong"}, high={"b": "wrong"})
    source = made.copy / "crates/high/src/lib.rt"
    source.write_text(source.read_text() + "// unprovable\n")
    status, said, calls = made.run("--jobs", "1")
    assert (status, sorted(calls)) == (1, ["check low a", "lib high", "lib low"])
    assert "high: it isn't proved\nit can't be proved" in said and "1 passed, 1 failed" in said
    assert "the crates are proved" not in said


def test_notes(repository):
    made = repository(low={"a": "wrong", "b": "right"}, high={"c": "wrong"})
    made.run("--jobs", "1")
    status, said, calls = made.run("--jobs", "1")
    assert (status, calls) == (1, ["lib low", "check low b", "whole low b"])
    assert "low: 1 of 2 edits were refused on this machine before\n" in said
    status, said, calls = made.run("--jobs", "1", "--anew", "low")
    assert (status, calls) == (1, ["lib low", "check low a b", "whole low b"])
    source = made.copy / "crates/low/src/lib.rt"
    source.write_text(source.read_text() + "// a comment\n")
    status, said, calls = made.run("--jobs", "1")
    assert (status, sorted(calls)) == (1, sorted(["lib low", "check low a b", "whole low b", "lib high", "check high c"]))


@pytest.mark.parametrize("low, high", [({name: "meets 3" for name in "abc"}, {}), ({"a": "meets 2"}, {"b": "meets 2"})],
                         ids=["of one crate", "of two"])  # fmt: skip
def test_edits_that_are_tried_alone_meet_one_another(repository, low, high):
    assert repository(low=low, high=high).run("--jobs", "3")[0] == 0


def test_largest_first(repository):
    """While the first edit of low is tried, high is proved, which is larger: so its edit goes before the rest. Edits in no
    function's body are tried one by one, and of the whole crate."""
    made = repository(low={"a": "waits for high.begun", "b": "wrong"}, high={"c": "wrong"})
    for name in ("a", "b"):
        file = made.copy / f"crates/low/must-fail/{name}.edit"
        file.write_text(file.read_text() + "old: pub fn other\nnew: pub fn  other\n")
    (made.copy / "crates/high/src/long.rt").write_text("// long\n" * 100)
    status, _, calls = made.run("--jobs", "1")
    assert (status, calls[3:]) == (0, ["check high c", "whole low b"])
    assert (made.state / "begun").read_text() == "of the proof\n" * 3


def test_edit_in_no_body_is_tried_by_what_it_names(repository):
    """And by the whole crate where the prover doesn't refuse it there."""
    made = repository(low={"a": "wrong", "b": "shy"})
    for name in ("a", "b"):
        file = made.copy / f"crates/low/must-fail/{name}.edit"
        file.write_text(f"refused: low::{name}\n{file.read_text()}old: pub fn other\nnew: pub fn  other\n")
    status, said, calls = made.run("--jobs", "1")
    assert (status, calls) == (0, ["lib low", "check low a", "check low b", "whole low b"])
    assert "low: a by what it names, " in said and "low: b alone, " in said


def test_work_on_functions_that_were_not_edited_is_kept(repository):
    """A function may be edited twice, each time in another check. What an edit in no body changes isn't known, so nothing is kept."""
    made = repository(low={"a": "wrong", "b": "wrong"})
    edits_of_low = made.copy / "crates/low/must-fail"
    (edits_of_low / "c.edit").write_text((edits_of_low / "a.edit").read_text())
    (edits_of_low / "d.edit").write_text("file: src/lib.rt\nold: pub fn other\nnew: pub fn  other\n")
    made.run("--jobs", "1")
    other, both = "low.other.part", "low.b.part low.other.part"
    assert (made.state / "parts").read_text() == f"\n{other}\n{both}\n"


def test_libraries_that_are_awaited(repository):
    """What is proved elsewhere isn't proved here: edits wait for the libraries, and begin with what a check of them has kept."""
    made = repository(low={"a": "shy"}, high={"b": "wrong"})
    with subprocess.Popen(made.words("--jobs", "1", "--wait"), env=made.environment, stdout=subprocess.PIPE, text=True) as running:
        for crate, calls in ("low", "check low a\nwhole low a\n"), ("high", "check low a\nwhole low a\ncheck high b\n"):
            time.sleep(2)
            assert not (made.state / "calls").exists() or crate not in (made.state / "calls").read_text()
            (made.copy / "crates" / crate / "out/rlib").mkdir(parents=True)
            (made.copy / "crates" / crate / "out/rlib/stamp").touch()
            while not (made.state / "calls").exists() or (made.state / "calls").read_text() != calls:
                time.sleep(0.1)
        assert running.stdout.read().endswith("\n2 passed, 0 failed\n")
    assert (made.state / "begun").read_text() == "nothing\nof a check\nnothing\n"


def most_at_once(count, memory, wanted):
    """How many of six calls go on at once, in so many lanes, with so much memory. Each goes on until as many as are wanted
    have been at it together, and a little longer, so that more would be seen."""
    lanes, change, now, most = edits.Lanes(count, lambda: memory), threading.Condition(), [], []

    def call(number):
        with change:
            now.append(number)
            most.append(len(now))
            change.notify_all()
            change.wait_for(lambda: max(most) >= wanted, 60)
        time.sleep(0.1)
        with change:
            now.remove(number)

    for number in range(6):
        lanes.add(1, call, number)
    lanes.finish()
    return max(most) if len(most) == 6 else None


@pytest.mark.parametrize("count, memory, wanted", [
    (4, 0, 1), (4, edits.ROOM, 1), (4, 2 * edits.ROOM, 2), (3, 100 * edits.ROOM, 3),
], ids=["no memory is left", "room beside one that has just begun", "room for a second", "as many as there are lanes"])  # fmt: skip
def test_memory(count, memory, wanted):
    assert most_at_once(count, memory, wanted) == wanted


def test_memory_that_is_left():
    assert edits.free_memory() > 2**20


def test_error_in_a_call_is_told():
    lanes = edits.Lanes(1, edits.free_memory)
    lanes.add(1, int, "no number")
    with pytest.raises(ValueError, match="no number"):
        lanes.finish()


METHODS = """\
pub struct {0};

impl {0} {{
    pub fn verdict(&self) -> bool {{
        true
    }}
}}

impl<'a> Debug for {0} {{
    fn fmt(&self) -> Result {{
        Ok(())
    }}
}}
"""


@pytest.mark.parametrize("path, wanted", [
    ("Prices::verdict", ("prices", "verdict")),
    ("Groups::verdict", ("groups", "verdict")),
    ("GroupsDebug::fmt", ("groups", "fmt")),
    ("prices::Prices::verdict", ("prices", "verdict")),
    ("Others::verdict", ("", "verdict")),
])  # fmt: skip
def test_methods_of_one_name_are_told_by_their_types(tmp_path, path, wanted):
    (tmp_path / "src").mkdir()
    for module, kind in ("prices", "Prices"), ("groups", "Groups"):
        (tmp_path / f"src/{module}.rt").write_text(METHODS.format(kind))
    assert edits.Functions(tmp_path).named(path) == wanted


@pytest.mark.parametrize("function, wanted", [
    (("prices", "verdict"), "Prices::verdict"),
    (("groups", "fmt"), "GroupsDebug::fmt"),
    (("prices", "free"), "low::prices::free"),
    (("", "free"), "low::free"),
    (("others", "fmt"), "low::others"),
])  # fmt: skip
def test_methods_are_chosen_by_their_types(tmp_path, function, wanted):
    """Of methods of one name in one module it isn't told which is meant, so the module is looked at."""
    home = tmp_path / "low"
    (home / "src").mkdir(parents=True)
    sources = {"prices": METHODS.format("Prices"), "groups": METHODS.format("Groups"), "lib": "",
               "others": METHODS.format("One") + METHODS.format("Two")}  # fmt: skip
    for module, text in sources.items():
        (home / f"src/{module}.rt").write_text(text + "\npub fn free() {\n}\n")
    functions = edits.Functions(home)
    assert functions.path(function) == wanted
    assert functions.path(function, by_type=False) == (wanted if wanted.startswith("low") else f"low::{function[0]}")


@pytest.mark.parametrize("words", [["--jobs", "0"], ["middle"], ["--unknown"]])
def test_wrong_words(repository, words):
    status, said, calls = repository(low={"a": "wrong"}).run(*words)
    assert status == 2 and not calls and "Traceback" not in said


def test_no_copy():
    ran = subprocess.run([sys.executable, HERE / "edits.py", "/"], capture_output=True, text=True, check=False)
    assert ran.returncode == 2 and ran.stderr.strip().endswith("no copy of the repository")
