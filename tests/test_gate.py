"""Tries the scripts of .ci/ with stand-ins for what they call: which packages are installed, and what is said where that can't be
done; that a part which fails ends the gate, and that it tells what its parts left out; and the whole gate, each of whose parts
stands in by a script that proves and tries nothing."""
import os
import pathlib
import re
import shutil
import subprocess
import sys
import time

import pytest

from common import TOP, script

# What .ci/packages calls beside the stand-ins.
TOOLS = ("bash", "cat", "dirname", "mktemp", "rm", "sed", "timeout", "tr")
ID = "#!/bin/sh\necho $USER_NUMBER\n"
# As dpkg-query does: of a package that it has never heard of it tells on standard error, and ends with 1.
DPKG_QUERY = """#!/bin/sh
[ ! -e "$STATE/broken" ] || exit 2
shift 3
status=0
for name; do
  grep -s "^$name " "$STATE/packages" || { echo "dpkg-query: no packages found matching $name" >&2; status=1; }
done
exit $status
"""
APT_GET = """#!/bin/sh
echo "$*" >> "$STATE/calls"
case " $* " in *' install '*) ;; *) exit 0 ;; esac
for name; do
  case $name in
    -* | *=* | install) ;;
    lost) echo "E: Unable to locate package lost" >&2; exit 100 ;;
    *) echo "$name install ok installed" >> "$STATE/packages" ;;
  esac
done
"""


class Machine:
    """A folder with a copy of .ci/packages, a list of packages, and the stand-ins."""

    def __init__(self, folder, listed, states, user="0", lacks=()):
        self.folder = pathlib.Path(folder)
        for name in ("repository/.ci", "repository/tests", "tools", "state"):
            (self.folder / name).mkdir(parents=True)
        self.script = self.folder / "repository/.ci/packages"
        shutil.copy(TOP / ".ci/packages", self.script)
        (self.folder / "repository/tests/packages.txt").write_text("# a comment\n" + "".join(f"{it}\n" for it in listed))
        (self.folder / "state/packages").write_text("".join(f"{name} {state}\n" for name, state in states.items()))
        for name, text in {"id": ID, "dpkg-query": DPKG_QUERY, "apt-get": APT_GET}.items():
            if name not in lacks:
                script(self.folder / "tools" / name, text)
        for name in (*TOOLS, "grep"):
            (self.folder / "tools" / name).symlink_to(shutil.which(name))
        self.environment = {"PATH": f"{self.folder}/tools", "STATE": f"{self.folder}/state", "USER_NUMBER": user}

    def run(self):
        """The status of .ci/packages, what it said, and the packages that it had apt-get install."""
        ran = subprocess.run([self.script], env=self.environment, capture_output=True, text=True)
        calls = self.folder / "state/calls"
        words = calls.read_text().split() if calls.exists() else []
        asked = [it for it in words if it != "update" and it != "install" and not it.startswith("-") and "=" not in it]
        return ran.returncode, ran.stdout + ran.stderr, asked


HERE, REMOVED, KNOWN = "install ok installed", "deinstall ok config-files", "unknown ok not-installed"
# What is installed of the packages a, b and c (or lost); the machine; the status, words that are said, and what is installed.
CASES = {
    "all is there": ("abc", {"a": HERE, "b": HERE, "c": HERE}, {}, 0, None, []),
    "dpkg has never heard of one": ("abc", {"a": HERE, "c": HERE}, {}, 0, "installing b\n", ["b"]),
    "dpkg has heard of none": ("abc", {}, {}, 0, "installing a b c\n", ["a", "b", "c"]),
    "one is known and not installed": ("abc", {"a": KNOWN, "b": HERE, "c": HERE}, {}, 0, "installing a\n", ["a"]),
    "one was removed": ("abc", {"a": HERE, "b": REMOVED, "c": HERE}, {}, 0, "installing b\n", ["b"]),
    "one is held": ("abc", {"a": "hold ok installed", "b": HERE, "c": HERE}, {}, 0, None, []),
    "a longer name is there": (["lib"], {"lib-dev": HERE, "a-lib": HERE}, {}, 0, "installing lib\n", ["lib"]),
    "one can't be had": (["a", "lost"], {"a": HERE}, {}, 1, "could not be installed: lost\n", ["lost"]),
    "not root": ("abc", {"a": HERE}, {"user": "1000"}, 0, "these packages are not installed: b c\n", []),
    "no apt-get": ("abc", {"a": HERE}, {"lacks": ["apt-get"]}, 0, "these packages are not installed: b c\n", []),
    "no Debian": ("abc", {}, {"lacks": ["apt-get", "dpkg-query"]}, 0, "were not checked: this is no Debian\n", []),
}


@pytest.mark.parametrize("name", CASES)
def test_packages(room, name):
    listed, states, machine, status, words, asked = CASES[name]
    ended, said, installed = Machine(room, listed, states, **machine).run()
    assert (ended, installed) == (status, asked)
    assert words in said if words else not said


def test_packages_where_dpkg_query_breaks(room):
    machine = Machine(room, "abc", {})
    (machine.folder / "state/broken").touch()
    ended, _, installed = machine.run()
    assert ended and not installed


PARTS = """set -euo pipefail
work=$1
. "$2/.ci/parts"
set -m
trap end_all EXIT
says() { printf '%s\\n' "$@"; }
wrong() { false; echo 'went on'; }
"""
README = "cd \"$1\"; echo 'All by `rattle-kit-0`, `logic 0` (the line of `rt version`). More' > README.md; "
# What the gate does with its parts, whether it ends well, and lines that stand in what it says, or with '!' ahead don't.
GATES = {
    "parts in the foreground": ("part one says 'hello' '3 passed'; tell", True, ["hello", "3 passed"]),
    "one that fails": ("part one wrong; tell; echo later", False, ["!went on", "!later"]),
    "one that fails behind others": ("part one says a; part two says b; part three wrong; echo later", False, ["!later"]),
    "parts in the background": ("begin one says x '3 passed'; finish one", True, ["3 passed", "!x"]),
    "one of these fails": ("begin one wrong; finish one; echo later", False, ["!went on", "!later"]),
    "it tells why": ("begin one eval 'says why that; false'; finish one; echo later", False, ["why", "that", "!later"]),
    "what was left out": (
        "begin b says 'SKIPPED [1] x: no y' '1 passed'; part a says 'skipped t: u' 'these packages are not installed: w'; "
        "part c says 'all was tried' 'v was not tried'; finish b; tell",
        True,
        ["What was left out:", "  SKIPPED [1] x: no y", "  skipped t: u", "  these packages are not installed: w",
         "!  all was tried", "!  v was not tried"],
    ),
    "nothing was left out": ("part a says 'all was tried'; tell", True, ["!What was left out:"]),
    "the time of each": (
        "part a says x; begin 'b c' says y; finish 'b c'; sed -i 's/^[12] /0 /' \"$work/times\"; "
        "printf '4000 d\\n70 e\\n' >> \"$work/times\"; tell | sed -n '/^How/,$p'; "
        "tell | sed 1d | cut -c 11- | tr '\\n' ','",
        True,
        ["How long each part took:", "   66:40  d", "    1:10  e", "    0:00  a", "    0:00  b c", "d,e,a,b c,"],
    ),
    "what has ended": (
        "begin a true; begin b sleep 100; until has_ended a; do sleep 0.01; done; has_ended b || echo 'b goes on'; finish a",
        True,
        ["b goes on"],
    ),
    "the kit that the README names": (f"{README}rt() {{ echo rattle-kit-0 logic 0; }}; tell_kit | wc -c", True, ["0"]),
    "another kit": (f"{README}rt() {{ echo rattle-kit-1 logic 0; }}; tell_kit", True,
                    ["The README names rattle-kit-0 logic 0, and this run was by rattle-kit-1 logic 0."]),
    "what failed has ended": ("begin a wrong; until has_ended a; do sleep 0.01; done; echo it has", True, ["it has"]),
}


@pytest.mark.parametrize("name", GATES)
def test_parts(room, name):
    does, is_well, lines = GATES[name]
    ran = subprocess.run(["bash", "-c", PARTS + does, "gate", room, TOP], capture_output=True, text=True, timeout=300, check=False)
    said = ran.stdout.splitlines()
    assert [it for it in lines if (it.removeprefix("!") in said) == it.startswith("!")] == []
    assert (ran.returncode == 0) == is_well


# What stands in for a part. It notes that it begins, and fails if it is the one that is to fail. tests/run is called for several
# parts; where none is to fail, pytest has to find tests by the same words. The edits end once the tests of what is built have
# begun. Where all edits were refused before, they end at once.
STAND_IN = """#!/usr/bin/env bash
name=$(basename "$0")
[ "$name $1" != 'rt version' ] || { echo 'rattle-kit-9 logic 9a'; exit; }
[ "$name" != run ] || case " $* " in
  *'not built'*) name=sources ;; *--program*) name=released ;; *--released*) name=tests ;; *--seconds*) name=fuzz ;;
esac
echo "$name" >> "$NOTES"
[ "$FAILS ${0##*/}" != 'nothing run' ] || (cd "$TOP" && tests/run "$@" --collect-only) > "$NOTES.$name" || { cat "$NOTES.$name"; exit 1; }
case $name in
  libraries) until grep -qx rt "$NOTES"; do sleep 0.1; done ;;
  pbaudit-library) [ -f "${0%/*}/crates/pb_page/out/rlib/stamp" ] || { echo 'it is too early'; exit 1; }
    [ "$FAILS" != cross ] || [ "$1" != --target ] || { echo 'pbaudit-library: no gcc for ARM' >&2; exit 69; } ;;
  pbaudit-web) [ "$FAILS" != binaryen ] || { echo 'pbaudit-web: wasm-opt is missing' >&2; exit 69; } ;;
  tests) echo 'SKIPPED [1] test_bare.py:9: lintian is not installed' ;;
  fuzz) echo 'stat::number_of_executed_units: 7' ;;
esac
[ "$FAILS" != "$name" ] || { echo 'it fails'; exit 1; }
case $name in
  rt) mkdir -p crates/pbaudit/out; touch crates/pbaudit/out/pbaudit; [ "$FAILS" = object ] || touch crates/pbaudit/out/pbaudit.o ;;
  edits.py) [ "$FAILS" = kept ] || until grep -qx tests "$NOTES"; do sleep 0.1; done ;;
  libraries) mkdir -p "$3/crates/pb_page/out/rlib"; touch "$3/crates/pb_page/out/rlib/stamp" ;;
  pbaudit) mkdir -p "$(dirname "$0")/crates/pbaudit/out"; touch "$(dirname "$0")/crates/pbaudit/out/pbaudit.o" ;;
esac
echo 'it is well'
"""
# The parts of the gate, by what they call.
PLACES = {"packages": ".ci/packages", "libraries": ".ci/libraries", "rt": "../tools/rt", "edits.py": "tests/edits.py",
          "pbaudit-library": "pbaudit-library", "pbaudit-web": "pbaudit-web", "built": "packaging/built", "release": "packaging/release", "sources": "tests/run", "tests": "tests/run",
          "fuzz": "tests/run", "released": "tests/run"}  # fmt: skip


def whole_gate(folder, fails):
    """Runs the gate with stand-ins, of which one fails: its status, what it says, and which parts were begun."""
    top, notes = folder / "top", folder / "notes"
    for place in {*PLACES.values(), "pbaudit"}:
        (top / place).parent.mkdir(parents=True, exist_ok=True)
        script(top / place, STAND_IN)
    for name in ("run", "parts"):
        shutil.copy(TOP / ".ci" / name, top / ".ci")
    (top / "crates/pb_page").mkdir(parents=True)
    (top / "crates.txt").write_text("pb_page:\npb_c staticlib: pb_page itoa\n")
    (top / "README.md").write_text("Proved with `rattle-kit-8`, `logic 8b` (the line of `rt version`).\n")
    environment = {**os.environ, "PATH": f"{folder}/tools:{os.environ['PATH']}", "NOTES": str(notes), "FAILS": fails,
                   "TOP": str(TOP)}
    ran = subprocess.run([top / ".ci/run"], env={**environment, "TMPDIR": str(folder)}, capture_output=True, text=True, timeout=1200,
                         check=False)  # fmt: skip
    return ran.returncode, ran.stdout + ran.stderr, sorted(notes.read_text().split())


def is_left(folder):
    """Whether a process is left that was started from a folder."""
    for file in pathlib.Path("/proc").glob("[0-9]*/cmdline"):
        try:
            if str(folder).encode() in file.read_bytes():
                return True
        except OSError:
            pass
    return False


@pytest.mark.parametrize("fails", ["nothing", "binaryen", "cross", "object", "kept", *PLACES])
def test_gate(room, fails):
    """It runs each part, fails where one does, and leaves no process."""
    status, said, begun = whole_gate(room, fails)
    deadline = time.monotonic() + 60
    while is_left(room) and time.monotonic() < deadline:
        time.sleep(0.1)
    assert not is_left(room)
    if fails in PLACES:
        assert status != 0 and fails in begun and "How long" not in said
    else:
        assert (status, begun) == (0, sorted([*PLACES, "built", "pbaudit-library", *(["pbaudit"] if fails == "object" else [])])), said
        assert {"What was left out:", "  SKIPPED [1] test_bare.py:9: lintian is not installed",
                "stat::number_of_executed_units: 7"} <= {*said.splitlines()}  # fmt: skip
        assert {"rt ci", "edits", "built", "fuzz"} <= {*re.findall(r"(?m)^ +[0-9]+:[0-9]{2}  (.*)$", said)}
        assert said.endswith("\nThe README names rattle-kit-8 logic 8b, and this run was by rattle-kit-9 logic 9a.\n")


# What the kit says of a crate of whom it knows no more than the folder.
RTLIB = """
import pathlib
class Crate:
    def __init__(self, folder): self.folder, self.rlib = folder, f"{folder}/out/rlib/{folder.name}.rlib"
    def stamp(self): return f"the stamp of {self.folder.name}"
def crates_below(top): return [Crate(it) for it in pathlib.Path(top).iterdir()]
"""


@pytest.mark.parametrize("said, is_well", [
    ("rt: low proved\nrt: high is kept: an earlier run\n", True), ("rt: low proved\nrt: high NOT PROVED\n1 passed, 1 failed\n", False),
], ids=["all", "one is missing"])  # fmt: skip
def test_libraries(room, said, is_well):
    """The copy has the libraries that were proved, each with its stamp, and none of a program or for C."""
    (room / "kit").mkdir()
    script(room / "kit/rt", "#!/bin/sh\n")
    (room / "kit/rtlib.py").write_text(RTLIB)
    (room / "log").write_text(said)
    for name, source in {"low": "lib", "high": "lib", "for_c": "lib", "program": "main"}.items():
        for file in (f"src/{source}.rt", f"out/rlib/{name}.rlib/interface"):
            (room / "tree/crates" / name / file).parent.mkdir(parents=True)
            (room / "tree/crates" / name / file).write_text(name)
        (room / "copy/crates" / name).mkdir(parents=True)
    (room / "tree/crates.txt").write_text("# lowest first\nlow:\nhigh: low\nfor_c staticlib: high\nprogram: high\n")
    ran = subprocess.run([TOP / ".ci/libraries", room / "log", room / "tree", room / "copy"], capture_output=True, text=True,
                         env={**os.environ, "PATH": f"{room}/kit:{os.environ['PATH']}"}, timeout=60, check=False)  # fmt: skip
    found = {str(it.relative_to(room / "copy/crates")): it.read_text() for it in (room / "copy").rglob("*") if it.is_file()}
    names = ["low", "high"] if is_well else ["low"]
    files = [(f"{it}/out/rlib/{it}.rlib/interface", it) for it in names] + [(f"{it}/out/rlib/stamp", f"the stamp of {it}") for it in names]
    assert (ran.returncode == 0, found) == (is_well, dict(files)), ran.stderr
    assert is_well or ran.stderr == "rt ci didn't prove high\n"


SKIPS = """
import pytest
from common import needs
def test_missing(): needs("no-such-command")
def test_there(): pytest.skip("sh is not installed")
def test_without_a_reason(): pytest.skip("another day")
def test_of_a_release(): pytest.skip("it is older, of another state of kit")
"""
# What dpkg-query says of each package: that it is installed, but for one, or that all are.
ALL = "#!/bin/sh\nshift 3\nfor name; do echo \"$name install ok installed\"; done\n"
BUT_ONE = "#!/bin/sh\nshift 4\nfor name; do echo \"$name install ok installed\"; done\nexit 1\n"


@pytest.mark.parametrize("words, packages, failed, skipped", [
    (["--gate"], ALL, {"missing", "there", "without_a_reason"}, 1),
    (["--gate"], BUT_ONE, {"there", "without_a_reason"}, 2),
    ([], ALL, set(), 4),
], ids=["gate", "a package is missing", "no gate"])  # fmt: skip
def test_skips(room, words, packages, failed, skipped):
    """In the gate a test fails that is skipped though its machine has what it needs, or what packages.txt should have brought."""
    (room / "test_skips.py").write_text(SKIPS)
    (room / "tools").mkdir()
    script(room / "tools/dpkg-query", packages)
    environment = {**os.environ, "PYTHONPATH": str(TOP / "tests"), "PATH": f"{room}/tools:{os.environ['PATH']}"}
    ran = subprocess.run([sys.executable, "-m", "pytest", "-q", "-rf", "-p", "conftest", *words, room], capture_output=True, text=True,
                         env=environment, check=False)  # fmt: skip
    assert ({*re.findall(r"FAILED .*::test_(\w+)", ran.stdout)}, f"{skipped} skipped" in ran.stdout) == (failed, True), ran.stdout


@pytest.mark.parametrize("words, chosen", [
    (["tests/test_edits.py"], r"test_edits\.py::"),
    (["--seed", "x", "tests/web"], r"web/test_\w+\.py::"),
    (["--ignore", "tests/test_fuzz.py", "-m", "built"], r"(?!test_fuzz)(web/)?test_\w+\.py::"),
    (["-k", "of_a_folder_of_no_test"], None),
])  # fmt: skip
def test_words(words, chosen):
    """`tests/run` takes the words of pytest, and a file or a folder as what is tried."""
    ran = subprocess.run(["tests/run", *words, "--collect-only", "-q"], cwd=TOP, capture_output=True, text=True, check=False)
    found = [line for line in ran.stdout.splitlines() if "::" in line]
    assert (ran.returncode == 0) == bool(found) == bool(chosen), ran.stdout + ran.stderr
    assert all(re.match(chosen, line) for line in found)
