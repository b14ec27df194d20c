"""Tries ./install where it is stopped or its disk is full, where what it prints can't be written, and ./install --uninstall. What is
installed is a release of scripts and short texts, in a copy of the repository with a single source."""
import hashlib
import lzma
import os
import shutil
import subprocess

import pytest

from common import INTERFACE, LIBRARY_NAME, TOP, ran, script

PLACES = {
    "pbaudit": "bin/pbaudit", LIBRARY_NAME: f"lib/{LIBRARY_NAME}", "pbaudit.h": "include/pbaudit.h", "pbaudit.1": "share/man/man1/pbaudit.1",
    "pbaudit.bash": "share/bash-completion/completions/pbaudit", "_pbaudit": "share/zsh/site-functions/_pbaudit",
    "pbaudit.fish": "share/fish/vendor_completions.d/pbaudit.fish",
}  # fmt: skip
# These are made of files of a release.
MADE = ["lib/libpbaudit.a", "lib/libpbaudit.so", "lib/pkgconfig/pbaudit.pc", "share/pbaudit/installed"]
# What ./install changes a file or a folder by. In the place of each stands a script that counts the calls, and before one of them
# ends all, in the midst of a file where it would copy one.
CHANGING = ("install", "mkdir", "mv", "rm", "rmdir")
STOPS = """#!/bin/sh
echo >> "$CALLS"
if [ "$(wc -l < "$CALLS")" = "$STOP_AT" ]; then
  [ {name} != install ] || {{ for file; do :; done; printf half > "$file"; }}
  kill -KILL 0
fi
exec {path} "$@"
"""


class Copy:
    """A copy of the repository whose release is of a word, and a PREFIX."""

    def __init__(self, room):
        self.room, self.top, self.prefix = room, room / "a copy", room / "a prefix"
        for name in ("install", "pbaudit", "pbaudit-library", "HANDLES", "crates.txt"):
            self.top.mkdir(exist_ok=True)
            shutil.copy(TOP / name, self.top)
        for name in ("packaging", "include"):
            shutil.copytree(TOP / name, self.top / name)
        for part in ("src", "specs", "proofs"):
            (self.top / "crates/pb_one" / part).mkdir(parents=True)
        (self.top / "crates/pb_one/src/lib.rt").touch()
        (room / "stops").mkdir()
        for name in CHANGING:
            script(room / "stops" / name, STOPS.format(name=name, path=shutil.which(name)))

    def release(self, word, library=LIBRARY_NAME):
        """Makes a release whose files have this word, and returns what is to be at the places."""
        folder = self.top / "release"
        shutil.rmtree(folder, ignore_errors=True)
        folder.mkdir()
        for name in PLACES:
            (folder / name).write_text(f"{name} {word}\n" * 5000)
        (folder / LIBRARY_NAME).rename(folder / library)
        script(folder / "pbaudit", f"#!/bin/sh\necho {word}\n")
        (folder / "pbaudit.pc").write_text(f"Name: pbaudit\nDescription: {word}\nVersion: 1.2.3\n")
        (folder / "libpbaudit.a.xz").write_bytes(lzma.compress(word.encode()))
        sums = [f"{part} {ran(self.top / 'packaging/sources', part).stdout}" for part in ("crates", "library")]
        (folder / "MADE-OF").write_text("pbaudit\n\n" + "".join(sums))
        lines = [f"{hashlib.sha256(file.read_bytes()).hexdigest()}  {file.name}\n" for file in sorted(folder.iterdir())]
        (folder / "SHA256SUMS").write_text("".join(lines))
        return {place: (folder / (library if name == LIBRARY_NAME else name)).read_text() for name, place in PLACES.items()}

    def call(self, *words, **more):
        environment = os.environ | {"DESTDIR": ""} | more.pop("environment", {})
        return ran(self.top / "install", *(words or [self.prefix]), env=environment, **more)

    def stopped(self, number, *words):
        """A call that is ended before it changes something for the time of this number: whether it was."""
        calls = self.room / "calls"
        calls.write_text("")
        path = f"{self.room / 'stops'}:{os.environ['PATH']}"
        done = self.call(*words, environment={"PATH": path, "CALLS": str(calls), "STOP_AT": str(number)}, start_new_session=True)
        assert done.returncode in (0, -9), done.stderr
        return done.returncode != 0

    def found(self):
        """The files at the places of those of a release that are there, and all other files by their paths."""
        files = [file for file in self.prefix.rglob("*") if not file.is_dir()]
        paths = {str(file.relative_to(self.prefix)): file for file in files}
        return {path: file.read_text() for path, file in paths.items() if path in PLACES.values()}, sorted({*paths} - {*PLACES.values()})


@pytest.fixture
def copy(room):
    return Copy(room)


def snapshot(folder):
    return {path: path.read_bytes() if path.is_file() else None for path in folder.rglob("*")}


def test_stopped_at_any_moment(copy, room):
    """Each file is the old one or the new one, and no header is newer than its library. What was put there is taken away again."""
    old = copy.release("old")
    assert copy.call().returncode == 0
    shutil.copytree(copy.prefix, room / "before", symlinks=True)
    new = copy.release("new")
    number = 1
    while True:
        shutil.rmtree(copy.prefix, ignore_errors=True)
        shutil.copytree(room / "before", copy.prefix, symlinks=True)
        if not copy.stopped(number):
            break
        files = copy.found()[0]
        assert {*files} == {*PLACES.values()}
        assert [path for path, text in files.items() if text not in (old[path], new[path])] == []
        assert ran(copy.prefix / "bin/pbaudit").stdout in ("old\n", "new\n")
        assert files["include/pbaudit.h"] == old["include/pbaudit.h"] or files[PLACES[LIBRARY_NAME]] == new[PLACES[LIBRARY_NAME]]
        assert copy.call("--uninstall", copy.prefix).returncode == 0
        assert not copy.prefix.exists()
        number += 1
    assert number > 20 and copy.found() == (new, MADE)


def test_stopped_at_first(copy):
    """Where nothing was installed: what is there is whole, and a later call ends what was begun."""
    new = copy.release("new")
    for number in (1, 5, 18, 20, 24, 30):
        assert copy.stopped(number)
        assert copy.found()[0].items() <= new.items()
    assert copy.call().returncode == 0 and copy.found() == (new, MADE)
    number = 1
    while copy.stopped(number, "--uninstall", copy.prefix):
        number += 1
    assert number > 10 and copy.found() == ({}, [])


@pytest.fixture
def disk(room):
    """Mounts a disk of so many KiB in the room."""
    mounted = []

    def mount(kib):
        folder = room / "disk"
        folder.mkdir(exist_ok=True)
        done = ran("mount", "-t", "tmpfs", "-o", f"size={kib}k", "tmpfs", folder)
        if done.returncode != 0:
            pytest.skip("no disk can be mounted here")
        mounted.append(folder)
        return folder
    yield mount
    for folder in mounted:
        ran("umount", folder)


@pytest.mark.parametrize("kib", [4, 60, 200, 400])
def test_full_disk(copy, disk, kib):
    """Nothing is left where nothing was, and else all that was."""
    copy.prefix = disk(kib) / "a prefix"
    copy.release("new")
    done = copy.call()
    assert (done.returncode, done.stdout) == (1, "") and "No space left on device" in done.stderr, done
    assert [*copy.prefix.parent.iterdir()] == []


def test_disk_that_is_full_beside_what_is_there(copy, disk):
    copy.prefix = disk(700) / "a prefix"
    copy.release("old")
    assert copy.call().returncode == 0
    before = snapshot(copy.prefix)
    copy.release("new")
    done = copy.call()
    assert (done.returncode, done.stdout) == (1, "") and "No space left on device" in done.stderr, done
    after = snapshot(copy.prefix)
    known = copy.prefix / "share/pbaudit/installed"
    assert {*after[known].splitlines()} >= {*before[known].splitlines()}
    assert {**after, known: b""} == {**before, known: b""}
    assert ran(copy.prefix / "bin/pbaudit").stdout == "old\n"


@pytest.mark.parametrize("out", ["full", "closed", "a pipe that nobody reads"])
@pytest.mark.parametrize("is_removal", [False, True], ids=["install", "uninstall"])
def test_what_can_not_be_printed(copy, out, is_removal):
    """All is done, and the status says that not all could be told."""
    new = copy.release("new")
    assert not is_removal or copy.call().returncode == 0
    words = "'%s' %s'%s'" % (copy.top / "install", "--uninstall " if is_removal else "", copy.prefix)
    to = {"full": "> /dev/full", "closed": ">&-", "a pipe that nobody reads": "| true; exit ${PIPESTATUS[0]}"}[out]
    done = subprocess.run(["bash", "-c", f"{words} {to}"], env=os.environ | {"DESTDIR": ""}, stdin=subprocess.DEVNULL,
                          capture_output=True, text=True, timeout=120, check=False)  # fmt: skip
    assert (done.returncode, done.stdout) == (4, "") and done.stderr.count("\n") == 1
    assert copy.found() == (({}, []) if is_removal else (new, MADE))


def test_uninstall_takes_what_it_put_there_and_says_it(copy):
    (copy.prefix / "bin").mkdir(parents=True)
    (copy.prefix / "bin/other").write_text("other")
    (copy.prefix / "lib/more").mkdir(parents=True)
    before = snapshot(copy.prefix)
    copy.release("old")
    assert copy.call().returncode == 0
    copy.release("new")
    assert copy.call().returncode == 0
    there = {str(path) for path in snapshot(copy.prefix).keys() - before.keys()}
    done = copy.call("--uninstall", copy.prefix)
    assert (done.returncode, done.stderr, {*done.stdout.splitlines()}) == (0, "", there)
    assert len(done.stdout.splitlines()) == len(there) and snapshot(copy.prefix) == before


def test_uninstall_leaves_what_was_put_there_since(copy):
    """Also where the list names files elsewhere: it is believed of no other place."""
    copy.release("new")
    assert copy.call().returncode == 0
    mine = copy.prefix / "bin/pbaudit"
    mine.write_text("mine")
    (copy.prefix / "lib/mine").mkdir()
    (copy.room / "elsewhere").write_text("x")
    with open(copy.prefix / "share/pbaudit/installed", "a", encoding="utf-8") as listed:
        listed.write(f"{hashlib.sha256(b'x').hexdigest()}  ../elsewhere\nfolder  ./lib/mine\n")
    done = copy.call("--uninstall", copy.prefix)
    assert done.returncode == 0 and f"install: {mine} stays" in done.stderr and str(mine) not in done.stdout.splitlines()
    assert {*snapshot(copy.prefix)} == {copy.prefix / "bin", mine, copy.prefix / "lib", copy.prefix / "lib/mine"}
    assert (copy.room / "elsewhere").exists()


def test_upgrade_from_a_library_without_a_number(copy):
    """Where the library itself had the name that is a link now."""
    copy.release("old")
    assert copy.call().returncode == 0
    link, known = copy.prefix / "lib/libpbaudit.so", copy.prefix / "share/pbaudit/installed"
    (copy.prefix / "lib" / LIBRARY_NAME).rename(link)
    lines = known.read_text().replace(f"link to {LIBRARY_NAME}  lib/libpbaudit.so\n", "")
    lines = lines.replace(f"  lib/{LIBRARY_NAME}\n", "  lib/libpbaudit.so\n")
    known.write_text(lines)
    new = copy.release("new")
    assert copy.call().returncode == 0 and copy.found() == (new, MADE)
    assert os.readlink(link) == LIBRARY_NAME
    assert copy.call("--uninstall", copy.prefix).returncode == 0 and not copy.prefix.exists()


def install_other(copy, number):
    """Installs a release of another version, whose interface has this number, and answers the name of its library."""
    header, name = copy.top / "include/pbaudit.h", f"libpbaudit.so.{number}"
    before = header.read_text()
    header.write_text(before.replace(f"PBAUDIT_INTERFACE {INTERFACE}\n", f"PBAUDIT_INTERFACE {number}\n"))
    copy.release("old", library=name)
    assert copy.call().returncode == 0 and os.readlink(copy.prefix / "lib/libpbaudit.so") == name
    header.write_text(before)
    return name


@pytest.mark.parametrize("number", [INTERFACE - 1, 10 * INTERFACE])
def test_upgrade_from_a_library_of_another_number(copy, number):
    """It stays for programs that ask for it, through later calls too, and goes with the others in the end."""
    name = install_other(copy, number)
    old = (copy.prefix / "lib" / name).read_text()
    for word in ("new", "newer"):
        new = copy.release(word)
        assert copy.call().returncode == 0 and copy.found() == (new, sorted([*MADE, f"lib/{name}"]))
        assert os.readlink(copy.prefix / "lib/libpbaudit.so") == LIBRARY_NAME and (copy.prefix / "lib" / name).read_text() == old
    done = copy.call("--uninstall", copy.prefix)
    assert (done.returncode, done.stderr) == (0, "") and str(copy.prefix / "lib" / name) in done.stdout.splitlines()
    assert not copy.prefix.exists()


@pytest.mark.parametrize("was_installed", [True, False])
def test_library_of_another_number_that_is_mine(copy, was_installed):
    """It is left, whether it is another file since or was never installed."""
    name = install_other(copy, INTERFACE - 1) if was_installed else f"libpbaudit.so.{INTERFACE - 1}"
    mine = copy.prefix / "lib" / name
    mine.parent.mkdir(parents=True, exist_ok=True)
    mine.write_text("mine")
    copy.release("new")
    assert copy.call().returncode == 0
    done = copy.call("--uninstall", copy.prefix)
    assert (done.returncode, f"install: {mine} stays" in done.stderr, mine.read_text()) == (0, was_installed, "mine")
    assert {*snapshot(copy.prefix)} == {mine.parent, mine}


@pytest.mark.parametrize("is_mine", [True, False])
def test_uninstall_of_a_link(copy, is_mine):
    """One that leads elsewhere since is left, and that which was put there isn't, though what it leads to is gone."""
    copy.release("new")
    assert copy.call().returncode == 0
    link = copy.prefix / "lib/libpbaudit.so"
    (copy.prefix / "lib" / LIBRARY_NAME).unlink()
    if not is_mine:
        link.unlink()
        link.symlink_to(f"../lib/{LIBRARY_NAME}")
    done = copy.call("--uninstall", copy.prefix)
    assert (done.returncode, link.is_symlink(), f"install: {link} stays" in done.stderr) == (0, not is_mine, not is_mine)


def test_uninstall_below_destdir(copy):
    copy.release("new")
    stage = copy.room / "stage"
    for words in (["/usr"], ["--uninstall", "/usr"]):
        assert copy.call(*words, environment={"DESTDIR": str(stage)}).returncode == 0
        assert (stage / "usr/bin/pbaudit").exists() == (len(words) == 1)
    assert not (stage / "usr").exists()


@pytest.mark.parametrize("words, status, text", [
    (["--uninstall"], 3, "PREFIX is missing"), (["--uninstall", "a", "b"], 3, "one PREFIX is expected, not 2 arguments"),
    (["--uninstall", "--uninstall"], 3, "there is no option --uninstall"), (["a", "--uninstall"], 3, "one PREFIX is expected, not 2"),
    (["--uninstall", "empty"], 1, "empty/share/pbaudit/installed can't be read, so nothing is known to be installed there"),
])  # fmt: skip
def test_uninstall_refuses(copy, words, status, text):
    (copy.room / "empty").mkdir()
    done = copy.call(*words, cwd=copy.room)
    assert (done.returncode, done.stdout) == (status, "") and text in done.stderr
    assert [*(copy.room / "empty").iterdir()] == []
