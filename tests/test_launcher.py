"""Tries the launcher ./pbaudit, ./pbaudit-library and the arguments of ./pbaudit-web on a copy of this repository in a folder whose
name has a blank. In the place of rt stands a script that proves nothing, and builds a program that tells how it was called; in that
of cc and the others that link, one that makes empty files."""
import contextlib
import os
import pathlib
import shutil
import signal
import subprocess
import time

import pytest

from common import LIBRARY_NAME, TOP, cloned, script, turned

PARTS = (".gitattributes", "pbaudit", "pbaudit-library", "pbaudit-web", "include", "packaging", "HANDLES", "crates.txt",
         "CHANGELOG.md", "crates")  # fmt: skip
# Of the many sources, which no script reads but for their sums, these are copied.
KEPT = ("lib.rt", "main.rt", "version.rt", "First.antt", "Lib.antt")
# The commands that the scripts call.
TOOLS = ("bash", "basename", "cat", "chmod", "cp", "dirname", "env", "find", "flock", "ln", "mkdir", "mktemp", "mv", "readlink", "rm",
         "rmdir", "sed", "sha256sum", "sleep", "sort", "tail", "tee", "touch", "xargs")  # fmt: skip
BELOW = {"pb_audit", "pb_case", "pb_certificate", "pb_cohesion", "pb_command", "pb_election", "pb_explain", "pb_figures",
         "pb_group_parts", "pb_hints", "pb_input", "pb_json", "pb_markup", "pb_money", "pb_page", "pb_parts", "pb_price", "pb_price_parts",
         "pb_records", "pb_reply", "pb_report", "pb_run", "pb_tables", "pb_visible", "pb_words"}  # fmt: skip
RT = r"""#!/usr/bin/env bash
# What rt does here: it notes the call, does what $RT_DOES says, and leaves a program, the C library, or a library where
# all below it are built.
what=$(basename "$PWD") below=''
[ "$1" != doc ] || { echo /nowhere/guide; exit; }
[ "$1" = lib ] && [ "$what" != pb_c ] && below=yes
[ -n "$below" ] || printf '%s: %s\n' "$what" "$*" >> "$RT_LOG"
# It may read its standard input: that isn't the program's.
cat > /dev/null
if [ -n "$below" ]; then
  printf '%s\n' "$what" >> "$RT_LOG.below"
  for crate in ../*; do
    [ "$crate" -ef . ] || [ -e "$crate/out/rlib/stamp" ] || exit 1
  done
  [ "$RT_DOES" != fail ] || { echo "no proof in $what"; exit 1; }
  mkdir -p out/rlib
  touch out/rlib/stamp
  exit
fi
echo 'rt: chose 2 jobs for pb_money'
case $RT_DOES in
  fail) echo 'no proof of a promise' >&2; exit 1 ;;
  nothing) exit 0 ;;
  slow | slow_fail) for _ in {1..3000}; do [ -e "$RT_LOG.go" ] || sleep 0.1; done ;;&
  slow_fail) exit 1 ;;
  meanwhile) sleep 0.1; echo >> ../pb_money/src/lib.rt ;;
esac
mkdir -p out
[ "$what" != pb_c ] || { touch out/libpb_c.a; exit; }
cat > out/pbaudit << 'PROGRAM'
#!/usr/bin/env bash
printf 'in %s, %s words:' "$PWD" $#
printf ' [%s]' "$@"
printf '\n'
cat
exit 7
PROGRAM
chmod +x out/pbaudit
[ "$RT_DOES" != leave ] || { echo 'no proof of a promise' >&2; exit 1; }
"""
# Whoever links makes the file behind -o, and ar the one that it is told first.
CC = r"""#!/usr/bin/env bash
printf '%s %s\n' "$(basename "$0")" "$1" >> "$RT_LOG.linked"
while [ "$1" != -o ]; do shift; done
touch "$2"
"""
RELEASED = """#!/usr/bin/env bash
printf 'released, in %s, %s words:' "$PWD" $#
printf ' [%s]' "$@"
printf '\\n'
cat
exit 8
"""
LAST = "run -- --version"
WAITS = "another build is running; waiting for it"
NO_RT = "rt, the command of the Rattle kit, is not on the PATH"
SOURCES = ("crates.txt", "HANDLES", "crates/pb_money/src/lib.rt", "crates/pb_price/specs/First.antt", "crates/pb_audit/proofs/Lib.antt")


# What an editor leaves beside a source.
LEFT = ("crates/pb_money/src/.lib.rt.swp", "crates/pb_money/src/lib.rt~", "crates/pb_money/src/#lib.rt#", "crates/pb_money/specs/lib.rt.orig")


def change(path):
    """Changes a source, and leaves it one."""
    path.write_bytes(path.read_bytes() + b"\n")


def heed_interrupts():
    """Also where the tests were begun in the background, which ignores them."""
    signal.signal(signal.SIGINT, signal.SIG_DFL)


def left_out(folder, names):
    return [name for name in names if name in ("out", "must-fail") or name.endswith((".rt", ".antt")) and name not in KEPT]


class Place:
    """The copy, of this repository or of another place, folders of a search path, and notes of what was called."""

    def __init__(self, room, source=TOP):
        self.room, self.copy, self.log, self.elsewhere = room, room / "a copy", room / "log", room / "elsewhere"
        self.program, self.temporary = self.copy / "crates/pbaudit/out/pbaudit", room / "temporary"
        for name in ("tools", "rt", "linkers", "python", "elsewhere", "temporary"):
            (room / name).mkdir()
        for tool in TOOLS:
            (room / "tools" / tool).symlink_to(shutil.which(tool))
        script(room / "tools/nproc", "#!/usr/bin/env bash\necho 4\n")
        script(room / "rt/rt", RT)
        for name, text in (("cc", CC), ("ld", CC), ("ar", '#!/usr/bin/env bash\ntouch "$2"\n'), ("objcopy", "#!/usr/bin/env bash\n")):
            script(room / "linkers" / name, text)
        (room / "python/python3").symlink_to(shutil.which("python3"))
        self.copy.mkdir()
        for part in PARTS:
            if (source / part).is_dir():
                shutil.copytree(source / part, self.copy / part, ignore=left_out if source is TOP else None, symlinks=True)
            else:
                shutil.copy2(source / part, self.copy / part)
        self.path = ["rt", "tools"]

    def without(self, tool):
        """A search path without a tool."""
        shutil.copytree(self.room / "tools", self.room / f"no {tool}", symlinks=True)
        (self.room / f"no {tool}" / tool).unlink()
        return ["rt", f"no {tool}"]

    def environment(self, does, path, more):
        folders = ":".join(str(self.room / name) for name in path or self.path)
        return {"PATH": folders, "TMPDIR": str(self.temporary), "RT_DOES": does, "RT_LOG": str(self.log), **more}

    def begin(self, *words, does="build", path=None, what="pbaudit", **more):
        """Begins a script in a group of processes of its own, as a terminal does."""
        return subprocess.Popen([self.copy / what, *words], cwd=self.elsewhere, env=self.environment(does, path, more), text=True,
                                stdin=subprocess.PIPE, stdout=subprocess.PIPE, stderr=subprocess.PIPE, start_new_session=True, preexec_fn=heed_interrupts)  # fmt: skip

    def call(self, *words, **how):
        """Calls a script with some standard input: its status, what it printed, what it told, and the calls of rt but for those
        that build below."""
        self.log.write_text("")
        running = self.begin(*words, **how)
        printed, told = running.communicate("some\ninput", timeout=120)
        return running.returncode, printed, told, self.log.read_text().splitlines()

    def expect(self, status, builds, text, *words, **how):
        """A call ends so, calls rt so often, and tells this, or nothing. With status 7 the program ran that was built, and with 8
        the released one."""
        ended, printed, told, calls = self.call(*words, **how)
        ran = f"in {self.elsewhere}, {len(words)} words: [{'] ['.join(words)}]\nsome\ninput"
        assert (ended, calls) == (status, [f"pbaudit: {LAST}"] * builds), told
        assert printed == {7: ran, 8: f"released, {ran}"}.get(status, "")
        assert text in told if text else not told
        return told

    def below(self):
        """What was built below since this was asked last."""
        path = pathlib.Path(f"{self.log}.below")
        found = path.read_text().split() if path.exists() else []
        path.unlink(missing_ok=True)
        return found

    def go(self):
        """Lets a build go on that is slow."""
        pathlib.Path(f"{self.log}.go").touch()

    def clean(self):
        for folder in self.copy.glob("crates/*/out"):
            shutil.rmtree(folder)

    def left(self):
        return [*self.temporary.iterdir(), *(self.copy / "out").glob("*")]


@pytest.fixture
def place(room):
    return Place(room)


@pytest.fixture(scope="session")
def proved(tmp_path_factory):
    """A place in which the program is built, with what was built below it."""
    place = Place(tmp_path_factory.mktemp("proved"))
    place.expect(7, 1, "pbaudit: proving pb_run", "read", "a b", "", "*", "--", "-x", "two\nlines")
    return place, place.below()


@pytest.fixture
def built(room, proved):
    """A copy of that place, with all that is built."""
    return Place(room, proved[0].copy)


def until(holds, what):
    end = time.monotonic() + 300
    while not holds():
        assert time.monotonic() < end, what
        time.sleep(0.05)


def test_without_rt(place):
    place.expect(70, 0, NO_RT, "read", path=["tools"])


def test_build_that_fails_below(place):
    """It tells where, and nothing is built on what failed. The first three stand on no other crate, and are begun together."""
    place.expect(70, 1, "no proof in pb_", "read", does="fail")
    assert {*place.below()} <= {"pb_money", "pb_visible", "pb_words"}


def test_first_build(built, proved):
    place, below = proved
    assert (len(below), {*below}) == (len(BELOW), BELOW)
    assert place.left() == []
    built.expect(7, 0, "", "read", "town.pb")
    built.expect(7, 0, "", "x", path=["tools"])


def test_other_sources(built):
    built.below()
    for name in SOURCES:
        change(built.copy / name)
        built.expect(7, 1, "pbaudit: building", "x")
        built.expect(7, 0, "", "x")
    added = built.copy / "crates/pb_money/src/added.rt"
    added.touch()
    built.expect(7, 1, "pbaudit: building", "x")
    added.unlink()
    built.expect(7, 1, "pbaudit: building", "x")
    # What was built before is left to rt, and what is no source may change.
    assert built.below() == []
    for name in ("README.md", "crates/pb_money/notes", *LEFT):
        (built.copy / name).write_text("x")
    for name in SOURCES:
        os.utime(built.copy / name)
    built.expect(7, 0, "", "x")


def test_source_that_is_older_than_the_build(built):
    """As by `cp -p`, or out of an archive."""
    source = built.copy / "crates/pb_money/src/lib.rt"
    change(source)
    os.utime(source, (1, 1))
    built.expect(7, 1, "pbaudit: building", "x")


def test_program_that_is_not_the_one_that_was_built(built):
    script(built.program, "#!/bin/sh\nexit 9\n")
    built.expect(7, 1, "pbaudit: building", "x")
    (built.program.parent / ".pbaudit.sources").unlink()
    built.expect(7, 1, "pbaudit: building", "x")


def test_source_that_changes_while_it_builds(built):
    change(built.copy / "crates.txt")
    built.expect(7, 1, "pbaudit: building", "x", does="meanwhile")
    built.expect(7, 1, "pbaudit: building", "x")


def test_missing_tools(built):
    for tool in ("find", "sort", "xargs", "sha256sum"):
        text = f"{tool}, which tells of which sources a program was built, is not on the PATH"
        built.expect(70, 0, text, "x", path=built.without(tool))
    change(built.copy / "crates.txt")
    built.expect(70, 0, "flock, which builds need to take turns, is not on the PATH", "x", path=built.without("flock"))


@pytest.mark.parametrize("does, text", [("fail", "no proof of a promise"), ("leave", "no proof of a promise"),
                                        ("fail", "rt ended with status 1"), ("nothing", "the build failed")])  # fmt: skip
def test_build_that_fails(built, does, text):
    change(built.copy / "crates.txt")
    if does == "nothing":
        built.program.unlink()
    built.expect(70, 1, text, "read", does=does)
    assert not built.program.exists()
    built.expect(7, 1, "pbaudit: building", "x")


def test_link(built):
    (built.copy / "link").symlink_to(built.copy / "pbaudit")
    built.expect(7, 0, "", "read", "town.pb", what="link")


@pytest.mark.parametrize("does, status, builds", [("slow", 7, 1), ("slow_fail", 70, 2)])
def test_two_calls_at_once(built, does, status, builds):
    """The build ends once the second one waits for it."""
    built.program.unlink()
    built.log.write_text("")
    one = built.begin("one", does=does)
    until(lambda: LAST in built.log.read_text(), "the first build")
    two = built.begin("two", does=does)
    told = two.stderr.readline()
    built.go()
    assert WAITS in told
    printed = [each.communicate("", timeout=120)[0] for each in (one, two)]
    assert (one.returncode, two.returncode, len(built.log.read_text().splitlines())) == (status, status, builds)
    if status == 7:
        assert ["[one]" in printed[0], "[two]" in printed[1]] == [True, True]
    else:
        assert not built.program.exists()


def test_interrupted_build(built):
    """By a terminal, which ends all that was begun."""
    change(built.copy / "crates.txt")
    built.log.write_text("")
    running = built.begin(does="slow")
    until(lambda: LAST in built.log.read_text(), "the build")
    os.killpg(running.pid, signal.SIGINT)
    running.communicate(timeout=120)

    def has_ended():
        with contextlib.suppress(ProcessLookupError):
            os.killpg(running.pid, 0)
            return False
        return True
    until(has_ended, "the end of what was begun")
    assert built.left() == [] and not built.program.exists()


@pytest.mark.parametrize("first, kill, second, builds", [
    ("pbaudit", signal.SIGTERM, "pbaudit", 2), ("pbaudit", signal.SIGKILL, "pbaudit", 2), ("pbaudit", None, "pbaudit-library", 2),
    ("pbaudit-library", None, "pbaudit", 2), ("pbaudit-library", signal.SIGTERM, "pbaudit", 2),
    ("pbaudit-library", signal.SIGKILL, "pbaudit", 2), ("pbaudit-library", None, "pbaudit-library", 2),
])  # fmt: skip
def test_one_build_waits_for_another(built, first, kill, second, builds):
    """Also where the first script is killed by itself: what it began goes on, and a source may change meanwhile."""
    change(built.copy / "crates.txt")
    built.log.write_text("")
    path = ["rt", "linkers", "tools"]
    one = built.begin(does="slow", what=first, path=path)
    until(lambda: ":" in built.log.read_text(), "the first build")
    if kill:
        one.send_signal(kill)
        one.wait(300)
        if first == "pbaudit":
            change(built.copy / "HANDLES")
    two = built.begin("read" if second == "pbaudit" else "lib", what=second, path=path)
    assert WAITS in two.stderr.readline()
    assert len(built.log.read_text().splitlines()) == 1
    built.go()
    two.communicate("", timeout=120)
    if not kill:
        one.communicate("", timeout=120)
    assert (two.returncode, len(built.log.read_text().splitlines())) == (7 if second == "pbaudit" else 0, builds)


@pytest.mark.parametrize("what, words, path, status, text", [
    ("pbaudit-library", ["-x"], None, 3, "pbaudit-library: there is no option -x"),
    ("pbaudit-library", ["one", "two"], None, 3, "one FOLDER is expected, not 2 arguments"),
    ("pbaudit-library", [""], None, 3, "FOLDER is empty"),
    ("pbaudit-library", ["one"], ["rt", "tools"], 70, "cc is not on the PATH"),
    ("pbaudit-library", ["one"], ["linkers", "tools"], 70, "rt is not on the PATH"),
    ("pbaudit-library", ["one"], ["rt", "linkers", "no flock"], 70, "flock is not on the PATH"),
    ("pbaudit-library", ["../log/lib"], None, 70, "lib can't be made (Not a directory)"),
    ("pbaudit-web", ["-x"], None, 3, "pbaudit-web: there is no option -x"),
    ("pbaudit-web", ["one", "two"], None, 70, "two can't be read"),
    ("pbaudit-web", [""], None, 3, "FOLDER is empty"),
    ("pbaudit-web", ["one"], None, 70, "python3 is not on the PATH"),
    ("pbaudit-web", ["one"], ["rt", "linkers", "tools", "python"], 69, "is not on the PATH (on Debian: apt install "),
])  # fmt: skip
def test_refusal_of_the_builders(place, what, words, path, status, text):
    place.without("flock")
    ended, printed, told, _ = place.call(*words, what=what, path=path or ["rt", "linkers", "tools"])
    assert (ended, printed) == (status, "") and text in told
    assert [*place.elsewhere.iterdir()] == []


@pytest.mark.parametrize("what, word", [("pbaudit-library", "--help"), ("pbaudit-library", "-h"), ("pbaudit-web", "--help")])
def test_help_of_the_builders(place, what, word):
    ended, printed, told, _ = place.call(word, what=what)
    assert (ended, told) == (0, "") and printed


def is_built(place):
    """Whether the library of a place is one of its sources."""
    words = [place.copy / "packaging/built", place.copy / "lib" / LIBRARY_NAME, "crates", "library", "packaging"]
    return subprocess.run(words, check=False).returncode == 0


def test_library(place):
    place.path = ["rt", "linkers", "tools"]
    ended, printed, told, _ = place.call("./-a lib", what="pbaudit-library")
    assert (ended, printed) == (0, f"{place.elsewhere}/-a lib\n") and "rt: chose" in told
    names = sorted(path.name for path in (place.elsewhere / "-a lib").iterdir() if path.name[0] != ".")
    assert names == ["libpbaudit.a", "libpbaudit.so", LIBRARY_NAME, "pbaudit.h", "pbaudit.pc"]
    pathlib.Path(f"{place.log}.linked").unlink()
    assert place.call(what="pbaudit-library", CC="cc -m64")[:2] == (0, f"{place.copy}/lib\n")
    assert "cc -m64" in pathlib.Path(f"{place.log}.linked").read_text().splitlines()
    assert place.call(what="pbaudit-library", does="meanwhile")[0] == 0
    # It isn't a library of a source that was changed meanwhile.
    assert not is_built(place)
    assert place.call(what="pbaudit-library")[0] == 0 and is_built(place)
    assert place.left() == []
    ended, printed, told, _ = place.call(what="pbaudit-library", does="fail")
    assert (ended, printed) == (70, "") and "pbaudit-library: the library could not be built" in told


@pytest.fixture
def released(place):
    """A place with a release of the sources as they are."""
    make_release(place)
    return place


def make_release(place):
    release = place.copy / "release"
    release.mkdir(exist_ok=True)
    script(release / "pbaudit", RELEASED)
    sources = subprocess.run([place.copy / "packaging/sources", "crates"], capture_output=True, text=True, check=True).stdout
    (release / "MADE-OF").write_text(f"pbaudit 1.2.3\n\ncrates {sources}")
    sums = subprocess.run(["sha256sum", "MADE-OF", "pbaudit"], cwd=release, capture_output=True, text=True, check=True).stdout
    (release / "SHA256SUMS").write_text(sums)


def turn(path):
    """Turns a byte in the middle of a file, or turns it back."""
    path.write_bytes(turned(path.read_bytes()))


OTHER_FILE = "pbaudit: release/pbaudit isn't the file of release/SHA256SUMS: it is not used"
FIRST = "pbaudit: running the program of release/, which was made of these sources; ./pbaudit --build"


def test_release_is_run_and_told_once(released):
    told = released.expect(8, 0, FIRST, "read", "a b", "", "*", "--", "-x", "two\nlines", path=["tools"])
    assert told.count("\n") == 1
    released.expect(8, 0, "", "read", path=["tools"])
    released.expect(8, 0, "", "x")
    for path in (released.copy / "crates.txt", *(released.copy / "crates/pb_money/src").iterdir()):
        os.utime(path)
    (released.copy / "README.md").touch()
    released.expect(8, 0, "", "x")
    (released.copy / "link").symlink_to(released.copy / "pbaudit")
    released.expect(8, 0, "", "read", "town.pb", what="link")


def test_clone_where_git_turns_ends_of_lines(released):
    """As it is set up on Windows, for a clone that Linux then works in."""
    before = released.room / "before"
    released.copy.rename(before)
    cloned(before, released.copy, "-c", "core.autocrlf=true")
    released.expect(8, 0, FIRST, "read")


def is_not_used(place, text="release/pbaudit is not used"):
    """The release isn't run: it is told why, and all is built, or it is told what is missing for that."""
    assert text in place.expect(7, 1, "pbaudit: building", "x")
    place.clean()
    told = place.expect(70, 0, NO_RT, "x", path=["tools"])
    assert text in told
    return told


@pytest.mark.parametrize("name", SOURCES)
def test_release_of_another_source(released, name):
    turn(released.copy / name)
    is_not_used(released)
    turn(released.copy / name)
    released.expect(8, 0, FIRST, "x")


@pytest.mark.parametrize("name", ["crates/pb_price_tests/src/lib.rt", "crates/pb_samples/src/lib.rt"])
def test_release_does_not_rest_on_tests(released, name):
    turn(released.copy / name)
    released.expect(8, 0, FIRST, "x")


def test_release_beside_what_an_editor_leaves(released):
    for name in LEFT:
        (released.copy / name).write_text("x")
    released.expect(8, 0, FIRST, "x")


def test_release_of_a_source_less_or_more(released):
    added = released.copy / "crates/pb_money/src/added.rt"
    added.touch()
    is_not_used(released)
    added.unlink()
    (released.copy / "crates/pb_money/src/lib.rt").rename(released.room / "lib.rt")
    is_not_used(released)


@pytest.mark.parametrize("name", ["pbaudit", "MADE-OF", "SHA256SUMS"])
def test_turned_byte_of_a_release(released, name):
    turn(released.copy / "release" / name)
    told = is_not_used(released, OTHER_FILE if name == "pbaudit" else "")
    assert name != "pbaudit" or "runs by itself" not in told


@pytest.mark.parametrize("name", ["pbaudit", "MADE-OF", "SHA256SUMS", None], ids=str)
def test_release_without_a_file_or_that_may_not_be_run(released, name):
    (released.copy / "release" / name).unlink() if name else (released.copy / "release/pbaudit").chmod(0o644)
    released.expect(7, 1, "pbaudit: building", "x")


def test_release_for_another_system(released):
    told = released.expect(70, 0, NO_RT, "read", path=["tools"], OSTYPE="linux-musl")
    assert "it is for Linux with glibc on x86-64, and this is linux-musl on x86_64" in told and "runs by itself" not in told


@pytest.mark.parametrize("kind", ["released", "built"])
def test_another_processor(request, kind):
    """Neither what is released nor what was built on another machine is run, and nothing is built."""
    place = request.getfixturevalue(kind)
    for word in ("read", "--build"):
        told = place.expect(70, 0, "for processors of the kind x86-64, and this one is aarch64; README.md", word, HOSTTYPE="aarch64")
        assert told.count("\n") == 1


def test_build_beside_a_release(released):
    """The word isn't the program's, so nothing of it is printed; with more words it is."""
    released.expect(70, 0, NO_RT, "--build", path=["tools"])
    released.expect(70, 1, "no proof of a promise", "--build", does="fail")
    released.expect(8, 0, FIRST, "read")
    released.expect(0, 1, "is built of these sources", "--build")
    released.expect(0, 0, "is built of these sources", "--build")
    released.expect(7, 0, "", "read")
    released.expect(7, 0, "", "--build", "read")
    change(released.copy / "crates.txt")
    make_release(released)
    released.expect(8, 0, FIRST, "read")


def test_folder_that_can_not_be_written(released):
    """As for another user: the release is told each time, and standard output is as ever."""
    released.room.chmod(0o755)
    as_other = [shutil.which("setpriv"), "--reuid=65534", "--regid=65534", "--clear-groups"] if os.geteuid() == 0 else []
    if not as_other:
        released.copy.chmod(0o555)
    for word in ("one", "two"):
        ran = subprocess.run([*as_other, released.copy / "pbaudit", "read", word], cwd=released.elsewhere, input="some\ninput",
                             env=released.environment("build", ["tools"], {}), capture_output=True, text=True, check=False)  # fmt: skip
        assert (ran.returncode, ran.stdout) == (8, f"released, in {released.elsewhere}, 2 words: [read] [{word}]\nsome\ninput")
        assert ran.stderr.startswith(FIRST) and ran.stderr.count("\n") == 1
    released.copy.chmod(0o755)
    assert not (released.copy / "out").exists()
