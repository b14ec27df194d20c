"""A version is a set of bytes: versions/ has the sums of each that has a date in the changelog, release/ is one of these or is named
as what isn't released, and what is changed since is told under `## Unreleased`. Then `packaging/release` is tried in a copy whose
builders are scripts of a few lines: what it makes of a version for the first time, again, of other sources, and in between."""
import hashlib
import os
import re
import shutil
import tarfile

import pytest

from common import LIBRARY_NAME, TOP, needs, ran, script

DATED = re.compile(r"^## \[(\d+\.\d+\.\d+)\] - \d{4}-\d\d-\d\d$", re.MULTILINE)
# The versions under which more than one set of bytes was made, before there were lists.
MADE_ANEW = {"0.1.0", "0.2.0"}
PARTS = ("crates", "library", "page", "python", "packaging")


def sums_in(text):
    """The sums of a list by the names of files. Raises ValueError where a line isn't one of sha256sum, or a file is there twice."""
    found = {}
    for line in text.splitlines():
        told = re.fullmatch(r"([0-9a-f]{64})  ([\w.+-]+)", line)
        if not told or told[2] in found:
            raise ValueError(line)
        found[told[2]] = told[1]
    return found


def sets_in(file):
    """The sets of bytes that were released under a version."""
    text = re.sub(r"^#.*\n", "", file.read_text(encoding="utf-8"), flags=re.MULTILINE)
    return [sums_in(each) for each in text.strip("\n").split("\n\n")]


def wrong_lists(dated, lists):
    yield from (f"{version} has a date and no list" for version in dated if version not in lists)
    for version, sets in lists.items():
        if version not in dated:
            yield f"{version} has a list and no date"
        if len(sets) != 1 and version not in MADE_ANEW:
            yield f"{version} is more than one set of bytes"


def wrong_release(release, changelog, lists, sources):
    """What is wrong in a folder release/, where the sources have these sums."""
    made = (release / "MADE-OF").read_text(encoding="utf-8")
    version, was = made.split()[1], dict(line.split(" ", 1) for line in made.partition("\n\n")[2].splitlines())
    newest = DATED.search(changelog)[1]
    if "+" in version:
        if version != f"{newest}+unreleased":
            yield f"release/ is {version}, and not of {newest}"
        return
    sums = sums_in((release / "SHA256SUMS").read_text(encoding="utf-8"))
    if not any(sums.items() <= each.items() for each in lists.get(version, [])):
        yield f"release/ isn't what was released as {version}"
    heading = re.search(r"^## (.*)$", changelog, re.MULTILINE)[1]
    changed = [part for part, now in sources.items() if was[part] != now]
    if changed and heading != "Unreleased":
        yield f"{' '.join(changed)} changed since {version}, which the changelog doesn't say"


def what_is_wrong(top, sources):
    changelog = (top / "CHANGELOG.md").read_text(encoding="utf-8")
    lists = {file.name: sets_in(file) for file in sorted((top / "versions").iterdir())}
    return [*wrong_lists(DATED.findall(changelog), lists), *wrong_release(top / "release", changelog, lists, sources)]


def test_each_version_is_what_it_was():
    sources = {part: ran(TOP / "packaging/sources", part).stdout.strip() for part in PARTS}
    assert what_is_wrong(TOP, sources) == []


OLD, NEW = "1" * 64, "2" * 64
RELEASE = {"MADE-OF": f"pbaudit 3.0.0 for Linux\n\ncrates {OLD}\n", "SHA256SUMS": f"{OLD}  pbaudit\n"}
CHANGED = f"# Changelog\n\n## Unreleased\n\n## [3.0.0] - 2020-01-02\n\n## [0.2.0] - 2026-11-27\n"
# What is changed in a folder where all is well: files by their paths, and what is wrong then.
WRONG = {
    "nothing": ({}, None),
    "all is released": ({"CHANGELOG.md": CHANGED.replace("## Unreleased\n\n", "")}, "crates changed since 3.0.0"),
    "a version without a list": ({"CHANGELOG.md": CHANGED.replace("## [0", "## [2.0.0] - 2027-01-02\n\n## [0")}, "2.0.0 has a date and no list"),
    "a list without a date": ({"versions/4.0.0": f"{OLD}  pbaudit\n"}, "4.0.0 has a list and no date"),
    "another file under a version": ({"release/SHA256SUMS": f"{NEW}  pbaudit\n"}, "release/ isn't what was released as 3.0.0"),
    "one file more under a version": ({"release/SHA256SUMS": f"{OLD}  pbaudit\n{OLD}  more\n"}, "release/ isn't what was released as 3.0.0"),
    "two sets of bytes": ({"versions/3.0.0": f"{OLD}  pbaudit\n\n{NEW}  pbaudit\n"}, "3.0.0 is more than one set of bytes"),
    "a version that isn't dated": ({"release/MADE-OF": RELEASE["MADE-OF"].replace("3.0.0", "3.0.1")}, "release/ isn't what was released as 3.0.1"),
    "what isn't released": ({"release/MADE-OF": RELEASE["MADE-OF"].replace("3.0.0", "3.0.0+unreleased"),
                             "release/SHA256SUMS": f"{NEW}  pbaudit\n"}, None),
    "what isn't released, of an older version": ({"release/MADE-OF": RELEASE["MADE-OF"].replace("3.0.0", "0.2.0+unreleased")},
                                                 "release/ is 0.2.0+unreleased, and not of 3.0.0"),
}  # fmt: skip


@pytest.mark.parametrize("name", WRONG)
def test_what_is_wrong_is_seen(room, name):
    files = {"CHANGELOG.md": CHANGED, "versions/3.0.0": f"# It.\n{OLD}  pbaudit\n{OLD}  pbaudit.deb\n",
             "versions/0.2.0": f"# It.\n\n# one\n{OLD}  pbaudit\n\n# two\n{NEW}  pbaudit\n",
             **{f"release/{name}": text for name, text in RELEASE.items()}}  # fmt: skip
    changes, wrong = WRONG[name]
    for path, text in {**files, **changes}.items():
        (room / path).parent.mkdir(exist_ok=True)
        (room / path).write_text(text)
    found = what_is_wrong(room, {"crates": NEW})
    assert [it.startswith(wrong or "nothing") for it in found] == ([True] if wrong else []), found


# What stands in for what builds: each writes what the word in the file $WORD is. It builds nothing that is there.
STAND_INS = {
    "pbaudit": 'mkdir -p "$here/crates/pbaudit/out"; cp "$WORD" "$here/crates/pbaudit/out/pbaudit.o"',
    "pbaudit-library": f'to=${{3:-$1}}; mkdir -p "$to"; for name in {LIBRARY_NAME} libpbaudit.a; do cp "$WORD" "$to/$name"; done; '
                       f'ln -sf {LIBRARY_NAME} "$to/libpbaudit.so"; touch "$to/pbaudit.h" "$to/pbaudit.pc"',
    "pbaudit-web": 'mkdir -p "$1"; for name in html wasm; do cp "$WORD" "$1/pbaudit.$name"; done',
    "packaging/link": 'cp "$1" "$2"',
    "packaging/link-addon": '{ cat "$1"; printf "\\n%s" "${CC:-cc}"; } > "$2"',
    "packaging/javascript": 'mkdir "$3/package"; for name in command.js pbaudit.wasm package.json; do cp "$WORD" "$3/package/$name"; done; '
                            'cp "${@:4}" "$3/package"; '
                            'tar -C "$3" --mtime=@0 --owner=0 --group=0 --sort=name --remove-files -cf - package | '
                            'gzip -n > "$3/pbaudit-$("$here/version" --state).tgz"',
}  # fmt: skip
MAN = 'import pathlib, sys\nfor name in ("pbaudit.1", "pbaudit.bash", "_pbaudit", "pbaudit.fish"):\n    pathlib.Path(sys.argv[2], name).touch()\n'


class Copy:
    """A copy of the repository, in which such a script stands for each builder, and for each tool."""

    def __init__(self, room):
        needs("dpkg-deb", "xz")
        self.top, self.room, self.word = room / "copy", room, room / "word"
        left_out = shutil.ignore_patterns("__pycache__", "*.so*")
        for name in ("packaging", "include", "python", "web/src", "docs", "examples", "README.md", "CHANGELOG.md", "CONTRIBUTING.md",
                     "SECURITY.md", "CITATION.cff", "LICENSE", "HANDLES", "crates.txt"):
            (self.top / name).parent.mkdir(parents=True, exist_ok=True)
            if (TOP / name).is_dir():
                shutil.copytree(TOP / name, self.top / name, ignore=left_out)
            else:
                shutil.copy(TOP / name, self.top / name)
        for part in ("src", "specs", "proofs"):
            (self.top / "crates/pb_words" / part).mkdir(parents=True)
        for name, text in STAND_INS.items():
            script(self.top / name, f'#!/usr/bin/env bash\nhere=$(dirname "$(readlink -f "$0")")\n{text}\n')
        (self.top / "packaging/man_and_completions.py").write_text(MAN)
        (room / "tools").mkdir()
        for name in ("rt", "cc", "ld", "esbuild", "tsc", "wasm-opt", "aarch64-linux-gnu-gcc", "aarch64-linux-gnu-ld"):
            script(room / "tools" / name, f"#!/bin/sh\necho {name} 1\n")
        self.write("one")

    def write(self, word):
        self.word.write_text(word)

    def state(self, version, *headings):
        """Has the sources state a version, and the changelog these headings."""
        (self.top / "crates/pb_words/src/version.rt").write_text(f'pub const VERSION: &str = "{version}";\n')
        (self.top / "CHANGELOG.md").write_text("# Changelog\n" + "".join(f"\n## {each}\n" for each in headings))

    def call(self, name, *words):
        given = {"PATH": f"{self.room / 'tools'}:{os.environ['PATH']}", "WORD": str(self.word)}
        return ran(self.top / "packaging" / name, *words, env={**os.environ, **given})

    def release(self):
        """Makes release/, and what people download: what it said, and these files with their sums."""
        shutil.rmtree(self.room / "downloads", ignore_errors=True)
        shutil.rmtree(self.top / "lib", ignore_errors=True)
        shutil.rmtree(self.top / "web/out", ignore_errors=True)
        done = self.call("release", self.room / "downloads")
        files = (self.room / "downloads").iterdir() if done.returncode == 0 else ()
        return done, {file.name: hashlib.sha256(file.read_bytes()).hexdigest() for file in files}

    def released(self):
        return {file.name: file.read_bytes() for file in (self.top / "release").iterdir()}

    def kept(self):
        return {file.name: file.read_text() for file in (self.top / "versions").glob("*")}


@pytest.fixture
def copy(room):
    return Copy(room)


def named_by_version(files):
    """What the names of files say of their version."""
    return {re.sub(r"^pbaudit[-_]|(-linux-|-py3-|-1_amd64|\.tgz).*$", "", name) for name in files if re.match(r"pbaudit[-_]\d", name)}


def test_what_is_not_released(copy):
    """It has another name than the version, in each place; nothing is kept; and all that is downloaded has a sum."""
    copy.state("9.9.8", "Unreleased", "[9.9.8] - 2020-01-02")
    done, files = copy.release()
    assert done.returncode == 0, done.stderr
    assert named_by_version(files) == {"9.9.8+unreleased"} and len([name for name in files if "9.9.8" in name]) == 6
    assert copy.released()["MADE-OF"].startswith(b"pbaudit 9.9.8+unreleased ") and copy.kept() == {}
    assert sums_in((copy.room / "downloads/SHA256SUMS").read_text()) == {name: files[name] for name in files.keys() - {"SHA256SUMS"}}
    assert {*copy.released()} <= {*files}
    told = ran("dpkg-deb", "-f", next((copy.room / "downloads").glob("*.deb")), "Version").stdout
    assert told == "9.9.8+unreleased-1\n"


def test_package_for_javascript_has_native_code_of_both_libraries(copy):
    copy.state("9.9.8", "Unreleased", "[9.9.8] - 2020-01-02")
    assert copy.release()[0].returncode == 0
    with tarfile.open(next((copy.room / "downloads").glob("*.tgz"))) as package:
        native = {entry.name: package.extractfile(entry).read() for entry in package if entry.name.endswith(".node")}
    assert native == {"package/pbaudit-linux-x64.node": b"one\ncc", "package/pbaudit-linux-arm64.node": b"one\naarch64-linux-gnu-gcc"}


def test_version_is_what_it_was_at_first(copy):
    copy.state("9.9.9", "[9.9.9] - 2020-01-03", "[9.9.8] - 2020-01-02")
    done, files = copy.release()
    assert done.returncode == 0, done.stderr
    kept, released = copy.kept(), copy.released()
    assert {*kept} == {"9.9.9"} and named_by_version(files) == {"9.9.9"}
    assert sets_in(copy.top / "versions/9.9.9") == [{name: files[name] for name in files.keys() - {"SHA256SUMS"}}]
    assert copy.release()[1] == files
    # Of other sources nothing is made under this version, and release/ stays.
    copy.write("two")
    done, files = copy.release()
    assert done.returncode == 1 and "these are not the bytes that were released as 9.9.9" in done.stderr
    assert (copy.kept(), copy.released(), files) == (kept, released, {})
    # As what isn't released they are made. Packages aren't made of both.
    copy.state("9.9.9", "Unreleased", "[9.9.9] - 2020-01-03", "[9.9.8] - 2020-01-02")
    done = copy.call("packages", copy.room / "packages")
    assert done.returncode == 1 and "release/ is 9.9.9, and the sources are 9.9.9+unreleased" in done.stderr
    done, files = copy.release()
    assert done.returncode == 0 and named_by_version(files) == {"9.9.9+unreleased"} and copy.kept() == kept


@pytest.mark.parametrize("name", ["CHANGELOG.md", "docs/FAQ.md", "examples/sheets.py"])
def test_documents_belong_to_the_bytes(copy, name):
    """Where a document in the archive changed, it is another archive."""
    copy.state("9.9.9", "[9.9.9] - 2020-01-03")
    assert copy.release()[0].returncode == 0
    with open(copy.top / name, "a", encoding="utf-8") as document:
        document.write("# More.\n")
    assert copy.release()[0].returncode == 1


def test_packages_bring_the_documents(copy):
    """The archive and the .deb have them as packaging/documents writes them."""
    copy.state("9.9.9", "[9.9.9] - 2020-01-03")
    assert copy.release()[0].returncode == 0
    assert copy.call("documents", copy.room / "wanted").returncode == 0
    archive, deb = (next((copy.room / "downloads").glob(pattern)) for pattern in ("*.tar.gz", "*.deb"))
    (copy.room / "archive").mkdir()
    ran("tar", "-xzf", archive, "-C", copy.room / "archive", "--strip-components=1")
    ran("dpkg-deb", "-x", deb, copy.room / "deb")
    names = sorted(path.relative_to(copy.room / "wanted") for path in (copy.room / "wanted").rglob("*.*"))
    assert {"docs/README.md", "docs/FAQ.md", "examples/sheets.py"} <= {*map(str, names)}
    for name in names:
        wanted = (copy.room / "wanted" / name).read_bytes()
        assert (copy.room / "archive" / name).read_bytes() == (copy.room / "deb/usr/share/doc/pbaudit" / name).read_bytes() == wanted


@pytest.mark.parametrize("headings, told", [
    (["Unreleased", "[9.9.9] - 2020-01-03"], "9.9.9+unreleased\n"), (["[9.9.9] - 2020-01-03"], "9.9.9\n"),
    (["[9.9.8] - 2020-01-03"], ""), (["Unreleased changes"], ""), ([], ""), (["[9.9.90] - 2020-01-03"], ""),
])  # fmt: skip
def test_state(copy, headings, told):
    copy.state("9.9.9", *headings)
    done = copy.call("version", "--state")
    assert (done.stdout, done.returncode) == (told, 0 if told else 1)
    assert copy.call("version").stdout == "9.9.9\n"
